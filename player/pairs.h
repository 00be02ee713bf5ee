/* Which pairs of a sheet's phones a voice has no entry for: a strict call with such a pair is refused,
   any other speaks it by the voice's first entry. This is told to a person; the engine looks names up
   itself. */
#ifndef PLAYER_PAIRS_H
#define PLAYER_PAIRS_H

#include "sheet.h"

/* A sheet's pairs beside a voice that opens: the voice's file, its sorted index (8 bytes an entry), the
   phones, and whether `ah` counts as `aa`. Pair `left` is the phone of that place and the next one. */
struct pairs {
    const struct bytes *voice;
    const struct bytes *index;
    struct phones phones;
    int fold;
};

/* Fills the sorted index of a voice that opens, for a call whose plan does not. Answers 0, or -1 if
   there is no such memory. */
int open_index(struct bytes *index, const struct bytes *voice);

/* How many pairs find no name that they try. */
size_t count_missing(const struct pairs *pairs);

/* Prints on standard error how many of how many pairs are not in the voice, what becomes of them, and
   the names of the first ones. */
void print_missing(const struct pairs *pairs, const char *voice, const char *becomes);

/* The name of the voice's first entry, cut to what fits, with ? for what a terminal may not show. */
void name_first(char *name, size_t room, const struct pairs *pairs);

#endif
