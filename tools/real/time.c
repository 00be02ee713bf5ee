/* Times flite's wave synthesis and the engine's call on each sentence of a file, in turn.

       time FILE [ROUNDS]

   Flite's time is diphone_synth's from a ready utterance (units, join, filter) and, as it has no simple
   join with the float filter, that of its steps there. The engine's is diphone_plan's, which also opens
   the voice and reads the sheet, and that of all pulls; what diphone_need takes stands beside. Times are
   the thread's processor time in ns a sample: each sentence's best and median, summed. The samples are
   compared before. */
#include "judge.h"
#include "write.h"

#include <stdlib.h>
#include <time.h>

#define MOST_ROUNDS 1000

/* Sums over sentences, in ns. */
struct total {
    double best, median;
};

enum { FLITE, PLAN, PULLS, CALL, NEED, PARTS };

static double now(void) {
    struct timespec time;
    if (clock_gettime(CLOCK_THREAD_CPUTIME_ID, &time) != 0)
        stop("no clock");
    return (double)time.tv_sec * 1e9 + (double)time.tv_nsec;
}

/* ---- one round */

static double time_flite(const struct sentence *sentence, const struct setting *setting) {
    size_t none[MENDS];
    cst_utterance *utterance = analyse(sentence);
    double start = now();
    if (!speak_by_features(utterance, setting))
        speak_in_steps(utterance, setting, 0, NULL, none);
    double taken = now() - start;
    delete_utterance(utterance);
    return taken;
}

/* Plans anew in the buffers of a speech. */
static uint32_t plan_again(struct speech *s, const struct bytes *voice, const struct bytes *sheet,
                           const struct setting *setting) {
    uint8_t summary[DIPHONE_SUMMARY_BYTES];
    return diphone_plan(voice->at, voice->length, sheet->at, sheet->length, setting->join | setting->filter,
                        s->index.at, s->index.length, s->marks.at, s->marks.length, s->sizes.at, s->sizes.length,
                        s->rows.at, s->rows.length, s->excitation.at, s->excitation.length, s->decoded.at,
                        s->decoded.length, s->state, sizeof s->state, summary, sizeof summary);
}

static void time_ours(double part[PARTS], struct speech *speech, const struct bytes *voice, const struct bytes *sheet,
                      const struct setting *setting) {
    uint8_t need[DIPHONE_NEED_BYTES];
    double start = now();
    uint32_t refusal = diphone_need(voice->at, voice->length, sheet->at, sheet->length, setting->join, need,
                                    sizeof need);
    double needed = now();
    refusal |= plan_again(speech, voice, sheet, setting);
    double planned = now();
    while (pull_period(speech) >= 0)
        continue;
    double end = now();
    if (refusal != 0)
        stop("the engine refused a sentence");
    part[NEED] = needed - start;
    part[PLAN] = planned - needed;
    part[PULLS] = end - planned;
    part[CALL] = end - needed;
}

/* ---- rounds */

static int compare_times(const void *left, const void *right) {
    double a = *(const double *)left, b = *(const double *)right;
    return (a > b) - (a < b);
}

static void add_best_and_median(struct total *total, double *times, int rounds) {
    qsort(times, (size_t)rounds, sizeof *times, compare_times);
    total->best += times[0];
    total->median += times[rounds / 2];
}

static void time_sentence(struct total total[PARTS], const struct call *call, const struct setting *setting,
                          int rounds) {
    static double times[PARTS][MOST_ROUNDS];
    cst_utterance *utterance = call->make(call->from);
    struct bytes sheet = sheet_bytes(utterance);
    struct options options = {.join = setting->join, .filter = setting->filter};
    struct speech speech;
    if (plan_speech(&speech, call->voice, &sheet, &options) != 0)
        stop("the engine refused a sentence");
    for (int round = 0; round < rounds; round++) {
        double part[PARTS];
        part[FLITE] = time_flite(call->from, setting);
        time_ours(part, &speech, call->voice, &sheet, setting);
        for (int i = 0; i < PARTS; i++)
            times[i][round] = part[i];
    }
    for (int i = 0; i < PARTS; i++)
        add_best_and_median(&total[i], times[i], rounds);
    release_speech(&speech);
    release(&sheet);
    delete_utterance(utterance);
}

/* ---- tables */

static void print_head(void) {
    puts("| voice, join, filter | plan | pulls | here | flite | ratio | here, median | flite, median | ratio "
         "| need |");
    puts("|---|---|---|---|---|---|---|---|---|---|");
}

static void print_line(const char *voice, const struct setting *setting, const struct total total[PARTS],
                       size_t samples) {
    double n = (double)samples;
    printf("| %s, %s | %.1f | %.1f | %.1f | %.1f | %.2f | %.1f | %.1f | %.2f | %.1f |\n", voice, setting->name,
           total[PLAN].best / n, total[PULLS].best / n, total[CALL].best / n, total[FLITE].best / n,
           total[CALL].best / total[FLITE].best, total[CALL].median / n, total[FLITE].median / n,
           total[CALL].median / total[FLITE].median, total[NEED].best / n);
    fflush(stdout);
}

/* All sentences of a file in one setting. */
static void time_setting(const struct source *source, const struct call *call, struct sentence *sentence,
                         const struct setting *setting, FILE *file, int rounds) {
    struct total total[PARTS] = {0};
    size_t samples = 0;
    rewind(file);
    while (next_sentence(sentence, file)) {
        struct verdict verdict = judge(call, setting);
        if (verdict.refusal != 0 || verdict.unexplained)
            stop("the samples are not flite's");
        samples += verdict.samples;
        time_sentence(total, call, setting, rounds);
    }
    print_line(source->name, setting, total, samples);
}

int main(int count, char **words) {
    static const char *const VOICES[] = {"kal", "kal16"};
    FILE *file = count == 2 || count == 3 ? fopen(words[1], "r") : NULL;
    int rounds = count == 3 ? atoi(words[2]) : 15;
    if (file == NULL || rounds < 1 || rounds > MOST_ROUNDS) {
        fputs("usage: time FILE [ROUNDS]\n", stderr);
        return 2;
    }
    print_head();
    for (int i = 0; i < 2; i++) {
        const struct source *source = source_named(VOICES[i]);
        struct sentence sentence = {.voice = open_source(source)};
        struct bytes voice = voice_bytes(source, sentence.voice);
        struct call call = {analyse, &sentence, &voice};
        for (int k = 0; k < SETTINGS; k++)
            time_setting(source, &call, &sentence, &SETTING[k], file, rounds);
        release(&voice);
    }
    return 0;
}
