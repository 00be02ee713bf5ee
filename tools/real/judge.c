#include "judge.h"
#include "write.h"

#include <stdlib.h>
#include <string.h>

const char *const CAUSE[CAUSES] = {"ends", "round", "slope", "trap", "wrap", "silence"};

/* The engine's call: what was planned, its periods in flite's form, and all samples. */
struct ours {
    struct speech speech;
    cst_lpcres *periods;
    int16_t *samples;
};

/* Rows and excitation stay the speech's own. */
static cst_lpcres *periods_of_speech(const struct speech *speech) {
    cst_lpcres *periods = new_lpcres();
    lpcres_resize_frames(periods, (int)speech->periods);
    for (size_t i = 0; i < speech->periods; i++) {
        periods->sizes[i] = (int)u32_at(speech->sizes.at, i);
        periods->frames[i] = (const unsigned short *)speech->rows.at + i * (speech->row_values / speech->periods);
    }
    periods->residual = speech->excitation.at;
    periods->num_samples = (int)speech->length;
    return periods;
}

static uint32_t speak_ours(struct ours *ours, const struct bytes *voice, const struct bytes *sheet,
                           const struct setting *setting) {
    struct options options = {.join = setting->join, .filter = setting->filter};
    uint32_t refusal = plan_speech(&ours->speech, voice, sheet, &options);
    int64_t given;
    size_t place = 0;
    if (refusal != 0)
        return refusal;
    ours->periods = periods_of_speech(&ours->speech);
    ours->samples = malloc(ours->speech.length * sizeof *ours->samples + 1);
    if (ours->samples == NULL)
        stop("no memory");
    while ((given = pull_period(&ours->speech)) >= 0) {
        memcpy(ours->samples + place, ours->speech.samples.at, (size_t)given * 2);
        place += (size_t)given;
    }
    if (given != DIPHONE_DONE || place != ours->speech.length)
        stop("a pull was refused");
    return 0;
}

static void release_ours(struct ours *ours) {
    if (ours->periods != NULL) {
        ours->periods->residual = NULL;
        delete_lpcres(ours->periods);
    }
    release_speech(&ours->speech);
    free(ours->samples);
}

/* ---- samples and periods beside each other */

static const cst_wave *wave_of(const cst_utterance *utterance) { return utt_wave((cst_utterance *)utterance); }

/* A sample that flite's float filter wrapped: the engine's is at the limit. */
static int wrapped(const struct setting *setting, int16_t sample) {
    return setting->filter == DIPHONE_FILTER_FLOAT && (sample == INT16_MAX || sample == INT16_MIN);
}

/* The silence after the last period: flite's float filter gives as many samples as the last mark says. */
static int silent_tail(const cst_lpcres *spoken, const cst_wave *wave, const struct setting *setting, size_t from) {
    if (setting->filter != DIPHONE_FILTER_FLOAT || wave->num_samples != spoken->num_samples)
        return 0;
    for (size_t i = from; i < (size_t)wave->num_samples; i++)
        if (wave->samples[i] != 0)
            return 0;
    return 1;
}

/* How many samples periods have. */
static size_t length_of(const cst_lpcres *spoken) {
    size_t length = 0;
    for (int i = 0; i < spoken->num_frames; i++)
        length += (size_t)spoken->sizes[i];
    return length;
}

/* Whether sizes, rows and excitation of flite's periods are those of others. */
static int same_periods(const cst_lpcres *spoken, const cst_lpcres *others) {
    size_t row = (size_t)spoken->num_channels * 2;
    if (spoken->num_frames != others->num_frames)
        return 0;
    for (int i = 0; i < spoken->num_frames; i++)
        if (spoken->sizes[i] != others->sizes[i] || memcmp(spoken->frames[i], others->frames[i], row) != 0)
            return 0;
    return memcmp(spoken->residual, others->residual, length_of(spoken)) == 0;
}

/* Whether two of flite's utterances have the same periods and samples, silence left out. */
static int same_sound(const cst_utterance *one, const cst_utterance *other) {
    const cst_lpcres *spoken = periods_of(one);
    return same_periods(spoken, periods_of(other)) &&
           memcmp(wave_of(one)->samples, wave_of(other)->samples, length_of(spoken) * 2) == 0;
}

/* Counts wrapped samples and silence; answers whether all else is equal. */
static int alike(const cst_utterance *utterance, const struct ours *ours, const struct setting *setting,
                 size_t cause[CAUSES]) {
    const cst_wave *wave = wave_of(utterance);
    const cst_lpcres *spoken = periods_of(utterance);
    size_t length = ours->speech.length;
    cause[WRAP] = cause[SILENCE] = 0;
    if (!same_periods(spoken, ours->periods) || (size_t)wave->num_samples < length)
        return 0;
    for (size_t i = 0; i < length; i++)
        if (wave->samples[i] != ours->samples[i]) {
            if (!wrapped(setting, ours->samples[i]))
                return 0;
            cause[WRAP]++;
        }
    cause[SILENCE] = (size_t)wave->num_samples - length;
    return cause[SILENCE] == 0 || silent_tail(spoken, wave, setting, length);
}

/* The first sample that differs, and its period. */
static void find_first(struct verdict *verdict, const cst_wave *wave, const struct ours *ours) {
    size_t length = ours->speech.length, i = 0, period = 0, end = 0;
    while (i < length && i < (size_t)wave->num_samples && wave->samples[i] == ours->samples[i])
        i++;
    for (; period < ours->speech.periods; period++) {
        end += u32_at(ours->speech.sizes.at, period);
        if (end > i)
            break;
    }
    verdict->sample = i;
    verdict->period = period;
}

/* ---- verdicts */

/* A fresh utterance as flite can speak it. */
static cst_utterance *make_filled(const struct call *call) {
    cst_utterance *utterance = call->make(call->from);
    fill_pitches(utterance);
    return utterance;
}

/* Mends flite place by place: a mend that changes periods or samples is a cause. With all places mended
   flite must be alike. */
static void explain(struct verdict *verdict, const struct call *call, const struct ours *ours,
                    const struct setting *setting, const cst_utterance *plain) {
    cst_utterance *mended = NULL;
    for (int what = 0; what < MENDS; what++) {
        cst_utterance *next = make_filled(call);
        speak_in_steps(next, setting, what + 1, ours->periods, verdict->changed);
        if (!same_sound(next, mended == NULL ? plain : mended))
            verdict->cause[what] = verdict->changed[what];
        delete_utterance(mended);
        mended = next;
    }
    verdict->unexplained = !alike(mended, ours, setting, verdict->cause);
    if (verdict->unexplained)
        find_first(verdict, wave_of(mended), ours);
    delete_utterance(mended);
}

/* The steps must be what flite itself does. */
static void check_steps(const struct call *call, const struct setting *setting, const cst_wave *wave) {
    cst_utterance *utterance = make_filled(call);
    if (speak_by_features(utterance, setting)) {
        const cst_wave *own = utt_wave(utterance);
        if (own->num_samples != wave->num_samples ||
            memcmp(own->samples, wave->samples, (size_t)wave->num_samples * 2) != 0)
            stop("the steps are not those of diphone_synth");
    }
    delete_utterance(utterance);
}

/* Compares flite as it is, then mended. */
static void compare(struct verdict *verdict, const struct call *call, const struct ours *ours,
                    const struct setting *setting, cst_utterance *utterance) {
    size_t none[MENDS];
    speak_in_steps(utterance, setting, 0, NULL, none);
    check_steps(call, setting, wave_of(utterance));
    verdict->samples = ours->speech.length;
    verdict->equal = alike(utterance, ours, setting, verdict->cause) && verdict->cause[WRAP] == 0 &&
                     verdict->cause[SILENCE] == 0;
    if (!verdict->equal)
        find_first(verdict, wave_of(utterance), ours);
    explain(verdict, call, ours, setting, utterance);
}

struct verdict judge(const struct call *call, const struct setting *setting) {
    struct verdict verdict = {0};
    struct ours ours = {0};
    cst_utterance *utterance = call->make(call->from);
    struct bytes sheet = sheet_bytes(utterance);
    verdict.filled = fill_pitches(utterance);
    verdict.refusal = speak_ours(&ours, call->voice, &sheet, setting);
    if (verdict.refusal == 0)
        compare(&verdict, call, &ours, setting, utterance);
    release_ours(&ours);
    release(&sheet);
    delete_utterance(utterance);
    return verdict;
}

/* ---- counting and printing */

/* Where a call differs, and why. In one that is equal mends undo each other. */
static void print_difference(const char *what, size_t number, const struct setting *setting,
                             const struct verdict *verdict) {
    printf("%s %zu, %s, ", what, number, setting->name);
    if (verdict->equal && !verdict->unexplained)
        printf("equal:");
    else
        printf("sample %zu in period %zu:", verdict->sample + 1, verdict->period + 1);
    for (int cause = 0; cause < CAUSES; cause++)
        if (verdict->cause[cause] > 0)
            printf(" %s %zu", CAUSE[cause], verdict->cause[cause]);
    puts(verdict->unexplained ? " UNEXPLAINED" : "");
}

void take_verdict(struct tally *tally, const struct verdict *verdict, const char *what, size_t number,
                  const struct setting *setting) {
    int fresh = verdict->unexplained, but_round = !verdict->unexplained;
    for (int cause = 0; cause < CAUSES; cause++)
        if (verdict->cause[cause] > 0) {
            fresh |= tally->cause[cause] == 0;
            but_round &= cause == ROUND;
            tally->cause[cause]++;
        }
    for (int mend = 0; mend < MENDS; mend++)
        tally->changed[mend] += verdict->changed[mend];
    tally->calls++;
    tally->filled += verdict->filled > 0;
    tally->samples += verdict->samples;
    tally->equal += (size_t)verdict->equal;
    tally->but_round += (size_t)but_round;
    tally->unexplained += (size_t)verdict->unexplained;
    if (fresh)
        print_difference(what, number, setting, verdict);
}

static void print_tally(const struct setting *setting, const struct tally *tally) {
    printf("%-16s %6zu %6zu %9zu %6zu %9zu", setting->name, tally->calls, tally->filled, tally->samples, tally->equal,
           tally->but_round);
    for (int cause = 0; cause < CAUSES; cause++)
        printf(" %7zu", tally->cause[cause]);
    printf(" %11zu ", tally->unexplained);
    for (int mend = 0; mend < MENDS; mend++)
        printf(" %zu%s", tally->changed[mend], mend + 1 < MENDS ? "," : "\n");
}

size_t print_tallies(const char *voice, const struct tally tally[SETTINGS]) {
    size_t unexplained = 0;
    printf("%-16s %6s %6s %9s %6s %9s", voice, "calls", "filled", "samples", "equal", "but round");
    for (int cause = 0; cause < CAUSES; cause++)
        printf(" %7s", CAUSE[cause]);
    printf(" %11s  %s\n", "unexplained", "ends, rounded, marks, bytes");
    for (int i = 0; i < SETTINGS; i++) {
        print_tally(&SETTING[i], &tally[i]);
        unexplained += tally[i].unexplained;
    }
    fflush(stdout);
    return unexplained;
}
