/* Holds files that cost most to a bound: no contract speaks of time, and a slower way would give the
 * same answers. Each bound is thirty times or more what the call took when this was written, and far
 * below what ways that grow with the square take: seconds (docs/LIMITS.md). Ends with 0 if each call is
 * made in time. */
#define TEST "worst"
#define FILE_BYTES 2000000
#include "example.h"

#include <time.h>

enum { ENTRIES = 99000, SEGMENTS = 4096, MARKS = 65536 };

static uint8_t sheet[SEGMENTS * 46], index_buffer[8 * ENTRIES], record[DIPHONE_VOICE_BYTES];
static uint8_t lines[DIPHONE_REPORT_LINE_BYTES * MARKS];
static size_t sheet_length;

/* The voice of the example with so many names, ascending or descending; the first may be another. */
static void voice_of(uint32_t count, int descending, const char *first)
{
    size_t entries = example(0, 0, 1);

    length = entries;
    for (uint32_t i = 0; i < count; i += 1) {
        char name[16];
        snprintf(name, sizeof name, "q%05lu", (unsigned long)(descending ? count - i : i));
        entry(first != NULL && i == 0 ? first : name, 0, 1, 1);
    }
    end_index(entries, count);
}

/* The phone k again and again, without an end; the follower of each is the last. */
static void sheet_of_consonants(void)
{
    static const uint8_t count[] = {0x80, 0x20}, segment[] = {1, 'k', 2, 0x80, 0x20};

    memcpy(sheet, count, sizeof count);
    sheet_length = sizeof count;
    for (int i = 0; i < SEGMENTS; i += 1) {
        memcpy(sheet + sheet_length, segment, sizeof segment);
        sheet_length += sizeof segment;
    }
    sheet[sheet_length] = 0;
    sheet_length += 1;
}

static void sheet_bytes(const void *data, size_t count)
{
    memcpy(sheet + sheet_length, data, count);
    sheet_length += count;
}

/* So many phones that end one after the other within a second, and 65,536 marks in it. */
static void sheet_of_marks(void)
{
    static const uint8_t targets[] = {2, 2, 1, 0, 0, 0x80, 0x47, 1, 0, 0, 0x80, 0x3F, 1, 0, 0, 0x80, 0x47};

    sheet_length = 0;
    sheet_bytes("\x80\x20", 2);
    for (int i = 0; i < SEGMENTS; i += 1) {
        float end = (float)(i + 2) / SEGMENTS;
        sheet_bytes("\x01k\x01", 3);
        sheet_bytes(&end, 4);
        sheet_bytes("", 1);
    }
    sheet_bytes(targets, sizeof targets);
}

/* So many phones and targets, of which each end, place and pitch is this value. */
static void sheet_of_values(const void *value, size_t count)
{
    sheet_length = 0;
    sheet_bytes("\x80\x20", 2);
    for (int i = 0; i < SEGMENTS; i += 1) {
        sheet_bytes("\x01k", 2);
        sheet_bytes(value, count);
        sheet_bytes("", 1);
    }
    sheet_bytes("\x80\x20", 2);
    for (int i = 0; i < 2 * SEGMENTS; i += 1)
        sheet_bytes(value, count);
}

static uint32_t opened(void)
{
    return diphone_open(file, length, index_buffer, sizeof index_buffer, record, sizeof record);
}

static uint32_t needed_by(uint32_t settings)
{
    static uint8_t need[DIPHONE_NEED_BYTES];

    return diphone_need(file, length, sheet, sheet_length, settings, need, sizeof need);
}

static uint32_t needed(void)
{
    return needed_by(DIPHONE_JOIN_SIMPLE | DIPHONE_FILTER_FIXED);
}

static uint32_t needed_alone(void)
{
    return needed_by(DIPHONE_JOIN_NONE);
}

static uint32_t needed_strictly(void)
{
    return needed_by(DIPHONE_JOIN_SIMPLE | DIPHONE_STRICT);
}

static uint32_t needed_strictly_alone(void)
{
    return needed_by(DIPHONE_JOIN_NONE | DIPHONE_STRICT);
}

static uint32_t reported(void)
{
    return diphone_report(file, length, sheet, sheet_length, DIPHONE_JOIN_SIMPLE, lines, sizeof lines);
}

static uint32_t reported_strictly(void)
{
    return diphone_report(file, length, sheet, sheet_length, DIPHONE_JOIN_SIMPLE | DIPHONE_STRICT, lines,
                          sizeof lines);
}

static uint32_t reported_by_targets(void)
{
    return diphone_report(file, length, sheet, sheet_length, DIPHONE_JOIN_MODIFIED, lines, sizeof lines);
}

static void within(double most, uint32_t (*call)(void), const char *what)
{
    clock_t start = clock();
    uint32_t answer = call();
    double seconds = (double)(clock() - start) / CLOCKS_PER_SEC;

    printf("worst: %s: %.4f s\n", what, seconds);
    expect(answer == 0, "the call is not refused");
    expect(seconds < most, "it is made in time");
}

int main(void)
{
    voice_of(ENTRIES, 1, NULL);
    within(2.0, opened, "99,000 names in descending order are opened");
    sheet_of_consonants();
    voice_of(ENTRIES, 0, NULL);
    within(0.3, needed, "99,000 names in order are looked up for 4,095 pairs");
    within(0.4, reported, "they are looked up for a report");
    voice_of(ENTRIES, 0, "k-k");
    within(0.3, needed_strictly_alone, "a strict call looks k_-_k and k-k up for 4,095 pairs");
    within(0.4, needed_strictly, "the same, and its units");
    within(0.5, reported_strictly, "the same, for a report");
    voice_of(2, 0, NULL);
    within(0.1, needed, "4,096 followers are the last segment");
    within(0.3, reported, "they are followed for a report");
    sheet_of_marks();
    within(0.3, reported_by_targets, "65,536 marks of 4,095 pairs are reported");
    expect((uint32_t)u64_at(lines, sizeof lines - DIPHONE_REPORT_LINE_BYTES) == SEGMENTS - 1,
           "the last pair took the last mark");
    sheet_of_values("\x01\x00\x00\x00\x3D", 5);
    within(0.1, needed_alone, "4,096 segments and targets of floats are read");
    sheet_of_values("\x03\x0C.00000000001", 14);
    within(0.1, needed_alone, "4,096 segments and targets of texts of 12 bytes are read");
    if (failures == 0)
        printf("worst: passed\n");
    return failures != 0;
}
