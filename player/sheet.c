#include "sheet.h"

#include "diphone.h"

#include <stdio.h>
#include <stdlib.h>
#include <string.h>

#define MOST 4096
#define LONGEST_NAME 32
#define LONGEST_TEXT 12
#define MOST_GROUPS 5

enum kind { WHOLE, FLOAT, ABSENT, TEXT };

/* A place in a sheet, the texts met, and what was found wrong. */
struct reader {
    const struct bytes *sheet;
    size_t place;
    struct texts *texts;
    struct flaw *flaw;
};

/* Which value of a sheet: of the segment or target of this number, from 1. */
struct which {
    const char *what;
    uint32_t number;
};

/* Notes a flaw. Answers -1. */
static int refuse(struct reader *reader, uint32_t number, size_t place, const char *reason)
{
    reader->flaw->number = number;
    reader->flaw->place = place;
    snprintf(reader->flaw->reason, sizeof reader->flaw->reason, "%s", reason);
    return -1;
}

/* The next bytes, or NULL where there are fewer. */
static const uint8_t *take(struct reader *reader, size_t count)
{
    const uint8_t *at = reader->sheet->at + reader->place;

    if (count > reader->sheet->length - reader->place) {
        refuse(reader, DIPHONE_BAD_SHEET, reader->place, "the sheet is cut short");
        return NULL;
    }
    reader->place += count;
    return at;
}

static int refuse_number(struct reader *reader, size_t start, const char *what, const char *problem)
{
    char reason[128];

    snprintf(reason, sizeof reason, "%s %s", what, problem);
    return refuse(reader, DIPHONE_BAD_SHEET, start, reason);
}

/* Groups of seven bits, lowest first, in the shortest form. */
static int read_number(struct reader *reader, uint64_t most, const char *what, uint32_t *number)
{
    size_t start = reader->place;
    uint64_t value = 0;
    int group;

    for (group = 0; group < MOST_GROUPS; group += 1) {
        const uint8_t *byte = take(reader, 1);
        char problem[64];
        if (byte == NULL)
            return -1;
        value += (uint64_t)(*byte % 128) << 7 * group;
        if (*byte >= 128)
            continue;
        if (*byte == 0 && group > 0)
            return refuse_number(reader, start, what, "is not in its shortest form");
        *number = (uint32_t)value;
        if (value <= most)
            return 0;
        snprintf(problem, sizeof problem, "%llu is above %llu", (unsigned long long)value,
                 (unsigned long long)most);
        return refuse_number(reader, start, what, problem);
    }
    return refuse_number(reader, start, what, "has more than five groups");
}

static int read_name(struct reader *reader, struct phone *phone)
{
    uint32_t length = 0;
    size_t i;

    if (read_number(reader, LONGEST_NAME, "a name's length", &length) != 0)
        return -1;
    phone->length = length;
    phone->name = take(reader, length);
    if (phone->name == NULL)
        return -1;
    for (i = 0; i < length; i += 1) {
        char reason[64];
        if (phone->name[i] >= 33 && phone->name[i] <= 126)
            continue;
        snprintf(reason, sizeof reason, "a name has the byte %u, which is outside 33 to 126",
                 phone->name[i]);
        return refuse(reader, DIPHONE_BAD_SHEET, reader->place - length + i, reason);
    }
    return 0;
}

/* The number of a whole value's word, or of a float's. */
static float number_of(uint8_t kind, uint32_t word)
{
    float number;

    if (kind == WHOLE)
        return word <= INT32_MAX ? (float)word : -(float)(UINT32_MAX - word + 1);
    memcpy(&number, &word, sizeof number);
    return number;
}

static int read_word(struct reader *reader, uint8_t kind, size_t start, float *number)
{
    const uint8_t *word = take(reader, 4);

    if (word == NULL)
        return -1;
    if (kind == FLOAT && (u32_at(word, 0) & 0x7F800000u) == 0x7F800000u)
        return refuse(reader, DIPHONE_NOT_FINITE, start, "a float that is not finite");
    *number = number_of(kind, u32_at(word, 0));
    return 0;
}

/* How many bytes of a text count: a sign in front, digits and one point, up to anything else; none
   without a digit. */
static size_t counted_part(const uint8_t *text, size_t length)
{
    size_t i;
    int digits = 0, points = 0;

    for (i = 0; i < length; i += 1) {
        if (text[i] >= '0' && text[i] <= '9')
            digits += 1;
        else if (text[i] == '.' && points == 0)
            points += 1;
        else if (i > 0 || (text[i] != '+' && text[i] != '-'))
            break;
    }
    return digits > 0 ? i : 0;
}

/* The f32 nearest to the decimal that counts in a text, of two as near the even one, or 0. In the C locale,
   which the player never leaves, strtof gives it; what it would read beyond, as an exponent, is cut off. */
static float text_number(const struct text *text)
{
    char decimal[LONGEST_TEXT + 1] = "";

    memcpy(decimal, text->at, text->counted);
    return strtof(decimal, NULL);
}

/* Counts a text; keeps the first odd one. */
static void count_text(struct texts *texts, const struct text *text, const struct which *which)
{
    texts->count += 1;
    if (text->counted == text->length && text->length > 0)
        return;
    if (texts->odd == 0) {
        texts->first = *text;
        snprintf(texts->what, sizeof texts->what, "%s %lu", which->what, (unsigned long)which->number);
    }
    texts->odd += 1;
}

static int read_text(struct reader *reader, size_t start, const struct which *which, float *number)
{
    const uint8_t *length = take(reader, 1);
    struct text text;
    char reason[64];

    if (length == NULL)
        return -1;
    if (*length > LONGEST_TEXT) {
        snprintf(reason, sizeof reason, "a text of %u bytes, %u is the most", *length, LONGEST_TEXT);
        return refuse(reader, DIPHONE_LONG_TEXT, start, reason);
    }
    text.length = *length;
    text.at = take(reader, text.length);
    if (text.at == NULL)
        return -1;
    text.counted = counted_part(text.at, text.length);
    count_text(reader->texts, &text, which);
    *number = text_number(&text);
    return 0;
}

/* Reads a value; an absent end is 0. Of a target's values only the form plays a part here. */
static int read_value(struct reader *reader, struct which which, float *number)
{
    size_t start = reader->place;
    const uint8_t *kind = take(reader, 1);
    char reason[32];

    *number = 0;
    if (kind == NULL)
        return -1;
    switch (*kind) {
    case WHOLE:
    case FLOAT:
        return read_word(reader, *kind, start, number);
    case ABSENT:
        return 0;
    case TEXT:
        return read_text(reader, start, &which, number);
    default:
        snprintf(reason, sizeof reason, "a value of kind %u", *kind);
        return refuse(reader, DIPHONE_BAD_SHEET, start, reason);
    }
}

static int read_segments(struct reader *reader, struct phones *phones)
{
    uint32_t count, number;

    if (read_number(reader, MOST, "the segment count", &count) != 0)
        return -1;
    phones->at = calloc((size_t)count + 1, sizeof *phones->at);
    if (phones->at == NULL)
        return refuse(reader, 0, 0, "no memory");
    phones->count = count;
    for (number = 1; number <= count; number += 1) {
        struct phone *phone = &phones->at[number - 1];
        if (read_name(reader, phone) != 0 ||
            read_value(reader, (struct which){"end of segment", number}, &phone->end) != 0 ||
            read_number(reader, count, "a follower", &phone->follower) != 0)
            return -1;
    }
    return 0;
}

static int read_targets(struct reader *reader)
{
    uint32_t count, number;
    float pos, f0; /* passed over */

    if (read_number(reader, MOST, "the target count", &count) != 0)
        return -1;
    for (number = 1; number <= count; number += 1)
        if (read_value(reader, (struct which){"pos of target", number}, &pos) != 0 ||
            read_value(reader, (struct which){"f0 of target", number}, &f0) != 0)
            return -1;
    if (reader->place < reader->sheet->length)
        return refuse(reader, DIPHONE_BAD_SHEET, reader->place, "bytes are left over");
    return 0;
}

int read_phones(struct phones *phones, const struct bytes *sheet, struct flaw *flaw)
{
    struct reader reader = {sheet, 0, &phones->texts, flaw};

    *phones = (struct phones){0};
    if (read_segments(&reader, phones) == 0 && read_targets(&reader) == 0)
        return 0;
    release_phones(phones);
    return -1;
}

void release_phones(struct phones *phones)
{
    free(phones->at);
    phones->at = NULL;
    phones->count = 0;
}

int looks_like_text(const struct bytes *sheet)
{
    static const char *const WORDS[] = {"#", "segment", "target"};
    size_t at = 0, i;

    while (at < sheet->length && strchr(" \t\r\n\v\f", sheet->at[at]) != NULL && sheet->at[at] != 0)
        at += 1;
    for (i = 0; i < sizeof WORDS / sizeof *WORDS; i += 1) {
        size_t length = strlen(WORDS[i]);
        if (sheet->length - at >= length && memcmp(sheet->at + at, WORDS[i], length) == 0)
            return 1;
    }
    return 0;
}
