/* The engine's refusals, for people. */
#ifndef PLAYER_REFUSAL_H
#define PLAYER_REFUSAL_H

#include "bytes.h"
#include "options.h"

/* Says on standard error why a call was refused, with the file that is to blame; of a sheet that
   cannot be read also where and why, of a strict call which pairs the voice lacks. */
void print_refusal(uint32_t number, const struct input *voice, const struct input *sheet,
                   const struct options *options);

#endif
