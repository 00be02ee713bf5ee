/* A call sheet as the player reads it: for its phones, and to say what is wrong where. */
#ifndef PLAYER_SHEET_H
#define PLAYER_SHEET_H

#include "bytes.h"

/* A segment's name, in the sheet's bytes, its end in seconds, and its follower: a number from 1, or 0. */
struct phone {
    const uint8_t *name;
    size_t length;
    float end;
    uint32_t follower;
};

/* A value that was typed, in the sheet's bytes: how many they are, and how many of them count. */
struct text {
    const uint8_t *at;
    size_t length, counted;
};

/* How many texts a sheet has, and how many of them are odd: not read to their end, or without a digit; and
   the first odd one, with what it is. */
struct texts {
    size_t count, odd;
    struct text first;
    char what[32];
};

struct phones {
    struct phone *at;
    size_t count;
    struct texts texts;
};

/* What is wrong with a sheet: the refusal's number, 8, 9 or 17, the byte where it begins, and the reason. */
struct flaw {
    uint32_t number;
    size_t place;
    char reason[128];
};

/* Reads a sheet. Answers 0 with the phones, which release_phones gives back; or -1 with the flaw, whose
   number is 0 where memory is short. */
int read_phones(struct phones *phones, const struct bytes *sheet, struct flaw *flaw);

void release_phones(struct phones *phones);

/* Whether the bytes look like the text that tools/sheet makes a call sheet of. */
int looks_like_text(const struct bytes *sheet);

#endif
