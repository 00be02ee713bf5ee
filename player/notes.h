/* Notes for a person on standard error: what a call does that may not be meant. */
#ifndef PLAYER_NOTES_H
#define PLAYER_NOTES_H

#include "options.h"
#include "speech.h"

/* Says how many pairs of the sheet are not in the voice, and which first ones, in every join. */
void note_pairs(const struct speech *speech, const struct input *voice, const struct input *sheet,
                const struct options *options);

/* Says how many texts of the sheet are not read to their end or have no digit, and of the first one what it
   is and what it counts as, in every join. */
void note_texts(const struct input *sheet);

/* Says that a call has no period, and why. */
void note_empty(const struct speech *speech, const struct input *sheet, const struct options *options);

#endif
