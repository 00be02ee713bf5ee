/* What the C tests share: the voice of document 01's example, written section by section, and guards.
 * TEST is the name of the test. */
#ifndef EXAMPLE_H
#define EXAMPLE_H

#include "diphone.h"

#include <stdio.h>
#include <string.h>

static int failures = 0;

static inline void expect(int holds, const char *what)
{
    if (!holds) {
        printf("%s: FAILED: %s\n", TEST, what);
        fflush(stdout);
        failures += 1;
    }
}

/* ---- a voice file, section by section */

#ifndef FILE_BYTES
#define FILE_BYTES 4096
#endif

static uint8_t file[FILE_BYTES];
static size_t length;
static size_t ends[8]; /* where sections begin, but for the first */
static size_t sections;

static inline void bytes(const void *data, size_t count)
{
    if (count > 0)
        memcpy(file + length, data, count);
    length += count;
}

static inline void u32(uint32_t number)
{
    uint8_t word[4] = {(uint8_t)number, (uint8_t)(number >> 8), (uint8_t)(number >> 16),
                       (uint8_t)(number >> 24)};
    bytes(word, 4);
}

static inline void section(const char *name, uint32_t data_length)
{
    uint8_t name_length = (uint8_t)strlen(name);
    ends[sections] = length;
    sections += 1;
    bytes(&name_length, 1);
    bytes(name, name_length);
    u32(data_length);
}

static inline void entry(const char *name, uint8_t start, uint8_t first, uint8_t second)
{
    uint8_t name_length = (uint8_t)strlen(name);
    uint8_t periods[4] = {start, 0, first, second};
    bytes(&name_length, 1);
    bytes(name, name_length);
    bytes(periods, 4);
}

static const uint8_t residual[5] = {0xFE, 0xEF, 0xFF, 0x7E, 0x6F};

/* A file's magic, back end and header: rate 8000, coeff_min 0, coeff_range by its bits. */
static inline void begin(uint32_t frames, uint32_t order, uint32_t range, uint32_t codec)
{
    length = 0;
    sections = 0;
    bytes("FLRSDAT\x01", 8);
    section("voice.backend", 9);
    bytes(" diphone\n", 9);
    section("sts.header", 40);
    u32(frames);
    u32(order);
    u32(8000);
    u32(0);
    u32(range);
    u32(codec);
    u32(0);
    u32(0x7FC12345); /* a NaN, kept as stored */
    u32(0);
    u32(1);
}

/* Two frames, rate 8000, the scales 0, offsets 0, 2, 5; the entry pau-aa alone, another behind it that
 * comes first in order, or more behind it that come after. The bytes of the rows count up from 1.
 * Returns where the entries begin. */
static inline size_t example(uint32_t codec, uint32_t order, uint32_t count)
{
    size_t entries;

    begin(2, order, 0, codec);
    section("sts.lpc", 4 * order);
    for (uint8_t i = 1; i <= 4 * order; i += 1)
        bytes(&i, 1);
    section("sts.resoffs", 12);
    u32(0);
    u32(2);
    u32(5);
    section("sts.res", 5);
    bytes(residual, 5);
    section("dip.index", 4 + count * 11);
    u32(count);
    entries = length;
    entry("pau-aa", 0, 1, 1);
    if (count == 2)
        entry("aa-pau", 1, 1, 0);
    for (uint32_t i = 1; count > 2 && i < count; i += 1) {
        char name[16];
        snprintf(name, sizeof name, "q%05lu", (unsigned long)i);
        entry(name, 1, 1, 0);
    }
    return entries;
}

static inline void put_word(size_t at, uint32_t number)
{
    for (int i = 0; i < 4; i += 1)
        file[at + (size_t)i] = (uint8_t)(number >> 8 * i);
}

/* The last section is an index whose entries begin there: writes their count and the section's length. */
static inline void end_index(size_t entries, uint32_t count)
{
    put_word(entries - 4, count);
    put_word(entries - 8, (uint32_t)(length - entries + 4));
}

/* ---- buffers with guards */

#define GUARD 0xA5

static inline int all_guard(const uint8_t *buffer, size_t from, size_t to)
{
    for (size_t i = from; i < to; i += 1)
        if (buffer[i] != GUARD)
            return 0;
    return 1;
}

static inline uint64_t u64_at(const uint8_t *buffer, size_t at)
{
    uint64_t number = 0;
    for (size_t i = 8; i > 0; i -= 1)
        number = number << 8 | buffer[at + i - 1];
    return number;
}

#endif
