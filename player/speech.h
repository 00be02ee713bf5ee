/* A spoken call: the engine's buffers, planned, pulled and reported. */
#ifndef PLAYER_SPEECH_H
#define PLAYER_SPEECH_H

#include "bytes.h"
#include "diphone.h"
#include "options.h"

struct speech {
    struct bytes index, marks, sizes, rows, excitation, decoded;
    struct bytes samples; /* room for the longest period */
    struct bytes lines;   /* of the report, where it was asked for */
    uint8_t state[DIPHONE_STATE_BYTES];
    uint64_t rate, periods, length; /* samples a second, periods, samples */
    uint64_t row_values;            /* of all rows */
};

/* A number that no refusal has. */
#define NO_MEMORY 1000

/* Plans a call. Answers 0, a refusal's number or NO_MEMORY. */
uint32_t plan_speech(struct speech *speech, const struct bytes *voice, const struct bytes *sheet,
                     const struct options *options);

/* Gives the next period in `samples`. Answers its number of samples, or as diphone_pull does. */
int64_t pull_period(struct speech *speech);

/* Makes the report of a call that was planned. Answers 0, a refusal's number or NO_MEMORY. */
uint32_t report_speech(struct speech *speech, const struct bytes *voice, const struct bytes *sheet,
                       const struct options *options);

void release_speech(struct speech *speech);

#endif
