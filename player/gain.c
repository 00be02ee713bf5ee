#include "gain.h"

#include <math.h>
#include <stdio.h>
#include <stdlib.h>
#include <string.h>

#define LARGEST 32767

/* The greatest magnitude of a call's samples. */
static uint32_t find_peak(int *peak, struct speech *speech)
{
    uint8_t start[DIPHONE_STATE_BYTES];
    int64_t size, place;

    *peak = 0;
    memcpy(start, speech->state, sizeof start);
    for (size = pull_period(speech); size >= 0; size = pull_period(speech))
        for (place = 0; place < size; place += 1) {
            int magnitude = abs(sample_at(speech->samples.at, (size_t)place));
            *peak = magnitude > *peak ? magnitude : *peak;
        }
    memcpy(speech->state, start, sizeof start);
    return size == DIPHONE_DONE ? 0 : (uint32_t)-size;
}

static double factor_of(double decibels)
{
    return pow(10, decibels / 20);
}

/* The greatest gain by which a peak does not clip, in tenths of a decibel from 0 on. */
static double greatest_gain(int peak)
{
    double tenths = floor(200 * log10((double)LARGEST / peak));

    return tenths > 0 ? tenths / 10 : 0;
}

uint32_t find_factor(double *factor, struct speech *speech, double decibels)
{
    int peak;
    uint32_t refusal;

    *factor = factor_of(decibels);
    if (decibels <= 0)
        return 0;
    refusal = find_peak(&peak, speech);
    if (refusal == 0 && peak * *factor > LARGEST) {
        double gain = greatest_gain(peak);
        *factor = factor_of(gain);
        fprintf(stderr, "player: note: the gain is %.1f decibels: %g would clip\n", gain, decibels);
    }
    return refusal;
}

void amplify(uint8_t *samples, size_t size, double factor)
{
    size_t place;

    for (place = 0; place < size; place += 1) {
        long sample = lround(sample_at(samples, place) * factor);
        samples[2 * place] = (uint8_t)(sample & 0xFF);
        samples[2 * place + 1] = (uint8_t)(sample >> 8 & 0xFF);
    }
}
