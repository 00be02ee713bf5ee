#include "report.h"

#include "nearest.h"

/* The report's line of a period. */
struct line {
    uint32_t pair, half, first, size;
};

static struct line line_at(const struct speech *speech, uint64_t period)
{
    const uint8_t *at = speech->lines.at + DIPHONE_REPORT_LINE_BYTES * period;
    struct line line = {u32_at(at, 0), u32_at(at, 1), u32_at(at, 2), u32_at(at, 3)};

    return line;
}

/* A name as tools/sheet writes it, so that each is one word: a backslash is doubled, \0 is the empty name. */
static void print_name(FILE *stream, const struct phone *phone)
{
    size_t i;

    putc(' ', stream);
    if (phone->length == 0)
        fputs("\\0", stream);
    for (i = 0; i < phone->length; i += 1) {
        if (phone->name[i] == '\\')
            putc('\\', stream);
        putc(phone->name[i], stream);
    }
}

void print_report(FILE *stream, const struct speech *speech, const struct phones *phones)
{
    uint64_t period;

    for (period = 0; period < speech->periods; period += 1) {
        struct line line = line_at(speech, period);
        fprintf(stream, "%llu %lu %lu %lu %lu", (unsigned long long)period + 1,
                (unsigned long)line.pair, (unsigned long)line.half, (unsigned long)line.first,
                (unsigned long)line.size);
        print_name(stream, &phones->at[line.pair - 1]);
        print_name(stream, &phones->at[line.pair]);
        putc('\n', stream);
    }
}

/* Where the sheet ends a phone, by the engine's rule for target ends: time by rate in f32, to the nearest
   sample. */
static uint64_t sheet_end(const struct phone *phone, uint64_t rate)
{
    float place = phone->end * (float)rate;

    return nearest_sample(place);
}

/* Whether a phone, by its number from 1, goes on up to this period at least: the period belongs to half 1
   of the pair whose left phone it is, or to a half before. All belong to halves before the last phone's. */
static int reaches(uint64_t number, const struct line *line)
{
    return line->pair < number || (line->pair == number && line->half == 1);
}

void print_ends(FILE *stream, const struct speech *speech, const struct phones *phones)
{
    uint64_t number, period = 0, end = 0;

    for (number = 1; number <= phones->count; number += 1) {
        const struct phone *phone = &phones->at[number - 1];
        for (; period < speech->periods; period += 1) {
            struct line line = line_at(speech, period);
            if (!reaches(number, &line))
                break;
            end = (uint64_t)line.first + line.size;
        }
        fprintf(stream, "%llu", (unsigned long long)number);
        print_name(stream, phone);
        fprintf(stream, " %llu %llu\n", (unsigned long long)sheet_end(phone, speech->rate),
                (unsigned long long)end);
    }
}
