/* Writes a spoken call as text, as raw samples or as a WAV file. */
#ifndef PLAYER_WRITER_H
#define PLAYER_WRITER_H

#include "speech.h"

#include <stdio.h>

/* What precedes the periods. */
void write_start(FILE *stream, enum output output, const struct speech *speech);

/* One period of `size` samples; `number` counts from 1. */
void write_period(FILE *stream, enum output output, uint64_t number, const uint8_t *samples,
                  size_t size);

#endif
