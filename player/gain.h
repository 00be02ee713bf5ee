/* Makes a call louder or softer. */
#ifndef PLAYER_GAIN_H
#define PLAYER_GAIN_H

#include "speech.h"

/* The factor of a gain in decibels; where samples would clip, that of the greatest gain, to a tenth, by
   which none does, and a note on standard error tells it. The call is pulled to its end and set back to
   its start. Answers 0 or the refusal of a pull. */
uint32_t find_factor(double *factor, struct speech *speech, double decibels);

/* Multiplies samples, to the nearest. */
void amplify(uint8_t *samples, size_t size, double factor);

#endif
