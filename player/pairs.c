#include "pairs.h"

#include "diphone.h"

#include <stdio.h>
#include <string.h>

#define LEAST_ENTRY 5 /* bytes of a voice file */
#define NAMED 5       /* pairs named at most */
#define PAIR_NAME 68  /* bytes of a pair's longest name, with its end */

static const char VOWELS[] = " aa ae ah ao aw ax axr ay eh el em en er ey ih iy ow oy uh uw ";
static const char CONSONANTS[] =
    " b ch d dh dx f g hh hv jh k l m n nx ng p r s sh t th v w y z zh pau h# brth ";

/* A name as bytes, not ended by a 0. */
struct name {
    const uint8_t *at;
    size_t length;
};

static int is_among(const char *list, const struct name *name)
{
    char word[40];

    if (name->length == 0 || name->length > 32)
        return 0;
    snprintf(word, sizeof word, " %.*s ", (int)name->length, (const char *)name->at);
    return strstr(list, word) != NULL;
}

/* The name of the phone at a place, after folding. */
static struct name phone_name(const struct pairs *pairs, size_t place)
{
    static const uint8_t AA[] = "aa";
    const struct phone *phone = &pairs->phones.at[place];
    struct name name = {phone->name, phone->length};

    if (pairs->fold && name.length == 2 && memcmp(name.at, "ah", 2) == 0)
        name.at = AA;
    return name;
}

/* The left phone is no vowel, and its follower is a consonant. */
static int in_cluster(const struct pairs *pairs, size_t left)
{
    uint32_t number = pairs->phones.at[left].follower;
    struct name name = phone_name(pairs, left);
    struct name follower;

    if (number == 0 || is_among(VOWELS, &name))
        return 0;
    follower = phone_name(pairs, number - 1);
    return is_among(CONSONANTS, &follower);
}

static size_t pair_name(char *text, const struct pairs *pairs, size_t left, const char *joint)
{
    struct name a = phone_name(pairs, left);
    struct name b = phone_name(pairs, left + 1);

    return (size_t)snprintf(text, PAIR_NAME, "%.*s%s%.*s", (int)a.length, (const char *)a.at, joint,
                            (int)b.length, (const char *)b.at);
}

/* The name of an entry: a byte for its length stands before it. */
static struct name entry_name(const struct pairs *pairs, size_t place)
{
    const uint8_t *at = pairs->voice->at + u64_at(pairs->index->at, place);
    struct name name = {at + 1, *at};

    return name;
}

/* Names sort by bytes; of two that begin alike the shorter is first. */
static int compare(const struct name *a, const char *text, size_t length)
{
    size_t shorter = a->length < length ? a->length : length;
    int order = memcmp(a->at, text, shorter);

    return order != 0 ? order : (a->length > length) - (a->length < length);
}

static int has_name(const struct pairs *pairs, const char *text, size_t length)
{
    size_t low = 0, high = pairs->index->length / DIPHONE_INDEX_ENTRY_BYTES;

    while (low < high) {
        size_t middle = low + (high - low) / 2;
        struct name name = entry_name(pairs, middle);
        int order = compare(&name, text, length);
        if (order == 0)
            return 1;
        if (order < 0)
            low = middle + 1;
        else
            high = middle;
    }
    return 0;
}

/* Whether the voice has a name that the pair tries. */
static int has_pair(const struct pairs *pairs, size_t left)
{
    char text[PAIR_NAME];
    size_t length;

    if (in_cluster(pairs, left)) {
        length = pair_name(text, pairs, left, "_-_");
        if (has_name(pairs, text, length))
            return 1;
    }
    length = pair_name(text, pairs, left, "-");
    return has_name(pairs, text, length);
}

int open_index(struct bytes *index, const struct bytes *voice)
{
    uint8_t record[DIPHONE_VOICE_BYTES];

    if (allocate(index, voice->length / LEAST_ENTRY, DIPHONE_INDEX_ENTRY_BYTES) != 0)
        return -1;
    if (diphone_open(voice->at, voice->length, index->at, index->length, record, sizeof record) != 0) {
        release(index);
        return -1;
    }
    index->length = (size_t)u64_at(record, 5) * DIPHONE_INDEX_ENTRY_BYTES;
    return 0;
}

size_t count_missing(const struct pairs *pairs)
{
    size_t left, missing = 0;

    for (left = 0; left + 1 < pairs->phones.count; left += 1)
        missing += !has_pair(pairs, left);
    return missing;
}

void print_missing(const struct pairs *pairs, const char *voice, const char *becomes)
{
    char name[PAIR_NAME];
    size_t left, named = 0, count = pairs->phones.count - 1, missing = count_missing(pairs);

    fprintf(stderr, "%llu of %llu pairs not in %s%s:", (unsigned long long)missing,
            (unsigned long long)count, voice, becomes);
    for (left = 0; left < count && named < NAMED; left += 1)
        if (!has_pair(pairs, left)) {
            pair_name(name, pairs, left, "-");
            fprintf(stderr, "%s %s", named == 0 ? "" : ",", name);
            named += 1;
        }
    fputs(missing > NAMED ? ", .." : "", stderr);
}

void name_first(char *name, size_t room, const struct pairs *pairs)
{
    struct name first = entry_name(pairs, 0);
    size_t i;

    for (i = 0; i < first.length && i + 1 < room; i += 1)
        name[i] = first.at[i] >= 33 && first.at[i] <= 126 ? (char)first.at[i] : '?';
    name[i] = '\0';
}
