/* Where flite departs from the engine, shown on made-up calls that flite and the engine both speak.

       differences [CALLS [SEED]]

   Flite's two voices and two made-up ones, in every setting: for each cause the first call that has it,
   then how many calls have each cause. Then a single pitch mark, and flite's mu-law encoder on all 65,536
   samples. Exit status 1 if a difference has no known cause. */
#include "judge.h"
#include "made.h"
#include "write.h"

#include <stdlib.h>

/* A made-up G.721 voice in which some decoded samples are -32768. */
#define LOWEST_VOICE 48

static size_t take_calls(const struct source *source, cst_voice *phones, uint64_t seed, size_t count) {
    struct tally tally[SETTINGS] = {0};
    struct made_call made = {source, phones, seed};
    struct bytes voice = voice_bytes(source, phones);
    struct call call = {make_call, &made, &voice};
    printf("\n%s, %zu made-up calls\n", source->name, count);
    for (size_t number = 1; number <= count; number++, made.seed++)
        for (int i = 0; i < SETTINGS; i++) {
            struct verdict verdict = judge(&call, &SETTING[i]);
            if (verdict.refusal != 0)
                stop("the engine refused a made-up call");
            take_verdict(&tally[i], &verdict, "call", number, &SETTING[i]);
        }
    release(&voice);
    return print_tallies(source->name, tally);
}

/* Prints how many periods a single pitch mark gives. Answers whether flite has other than one, or the
   engine other than none. */
static size_t take_single_mark(const struct source *source, cst_voice *phones) {
    struct made_call made = {source, phones, 0};
    struct options options = {.join = DIPHONE_JOIN_MODIFIED, .filter = DIPHONE_FILTER_FIXED};
    struct speech speech;
    size_t none[MENDS];
    cst_utterance *utterance = make_single_mark(&made);
    struct bytes voice = voice_bytes(source, phones), sheet = sheet_bytes(utterance);
    if (plan_speech(&speech, &voice, &sheet, &options) != 0)
        stop("the engine refused a made-up call");
    speak_in_steps(utterance, &SETTING[1], 0, NULL, none);
    int theirs = periods_of(utterance)->num_frames;
    size_t ours = speech.periods;
    printf("\na single pitch mark: %d period in flite, %zu here\n", theirs, ours);
    release_speech(&speech);
    release(&voice);
    release(&sheet);
    delete_utterance(utterance);
    return theirs != 1 || ours != 0;
}

/* Mu-law by G.711 as document 01 reads it: the segment is the place of the highest bit, less 7. */
static unsigned encode(int sample) {
    int magnitude = (sample < 0 ? -sample : sample) + 132, segment = 7;
    if (magnitude > 32767)
        magnitude = 32767;
    while (magnitude < 128 << segment)
        segment--;
    return 255u - ((sample < 0 ? 128u : 0u) + (unsigned)segment * 16 + ((unsigned)magnitude >> (segment + 3)) % 16);
}

/* Prints where flite's encoder differs. Answers whether it does so in other places than the zero trap. */
static size_t take_encoder(void) {
    size_t trapped = 0, lowest = 0, other = 0;
    for (int sample = -32768; sample <= 32767; sample++) {
        unsigned theirs = cst_short_to_ulaw((short)sample), ours = encode(sample);
        trapped += ours == 0 && theirs == 2;
        lowest += ours == 0 && theirs == 127 && sample == -32768;
        other += ours != theirs && !(ours == 0 && (theirs == 2 || (theirs == 127 && sample == -32768)));
    }
    printf("mu-law encoder, 65536 samples: 2 in place of 0 on %zu, 127 in place of 0 on -32768: %zu, "
           "other differences: %zu\n",
           trapped, lowest, other);
    return other;
}

int main(int count, char **words) {
    size_t calls = count > 1 ? strtoul(words[1], NULL, 10) : 200, unexplained = 0;
    uint64_t seed = count > 2 ? strtoull(words[2], NULL, 10) : 1;
    const struct source *kal = source_named("kal"), *kal16 = source_named("kal16");
    cst_voice *phones = open_source(kal);
    unexplained += take_calls(kal, phones, seed, calls);
    unexplained += take_calls(kal16, open_source(kal16), seed, calls);
    struct source loud = made_voice("made up, mu-law", 0, 1);
    unexplained += take_calls(&loud, phones, seed, calls);
    struct source codes = made_voice("made up, G.721", 1, LOWEST_VOICE);
    unexplained += take_calls(&codes, phones, seed, calls);
    unexplained += take_single_mark(kal, phones) + take_encoder();
    return unexplained > 0;
}
