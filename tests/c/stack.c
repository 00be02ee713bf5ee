/* Measures how much stack a call takes: each function runs in a thread whose stack was painted, on
 * voices of either codec, in every join and filter: one whose index is out of order, and one in order
 * of more than 4,096 entries. Strict calls are measured too, made and refused, and sheets of texts, read
 * and refused. Ends with 0 if none takes more than the 64 KiB that the header names. */
#define _XOPEN_SOURCE 700
#define TEST "stack"
#define FILE_BYTES 65536
#include "example.h"

#include <pthread.h>
#include <stdlib.h>

enum { LIMIT = 64 * 1024, STACK = 256 * 1024, PAINT = 0xC3, LENT = 40960 };
enum { INDEX, MARKS, SIZES, ROWS, EXCITATION, DECODED, STATE, SUMMARY, BUFFERS };
enum { OPEN, NEED, PLAN, PULL, REPORT, FUNCTIONS };

static const char *const names[FUNCTIONS] = {"open", "need", "plan", "pull", "report"};
static const size_t width[6] = {8, 4, 4, 2, 1, 1};

/* Document 01's sheet: pau and aa, no end and no target; then aa, whose follower is pau. No voice has
 * aa-aa. */
static const uint8_t loose_sheet[] = "\x03\x03pau\x02\x00\x02"
                                     "aa\x02\x01\x02"
                                     "aa\x02\x01";
/* The follower of pau is pau, so it tries pau_-_aa before pau-aa, which every voice has. */
static const uint8_t strict_sheet[] = "\x02\x03pau\x02\x01\x02"
                                      "aa\x02\x00";
/* The longest texts for ends and targets, which give two periods; and one that is too long. */
static const uint8_t text_sheet[] = "\x02\x03pau\x03\x0C"
                                    "0.0312500000\x00\x02"
                                    "aa\x03\x0C"
                                    "0.0312500000\x00\x02\x03\x0C"
                                    "-.0000000000\x03\x0C"
                                    "64.000000000\x03\x0C"
                                    "0.0200000000\x03\x0C"
                                    "64.000000000";
static const uint8_t long_text_sheet[] = {1, 1, 'k', 3, 13};
static const uint8_t *sheet;
static size_t sheet_length;
static uint8_t lent[BUFFERS][LENT], samples[LENT], lines[LENT], need[DIPHONE_NEED_BYTES];
static uint32_t settings;

static int64_t call(int function)
{
    size_t len[BUFFERS];

    for (int i = 0; i < BUFFERS; i += 1)
        len[i] = i < STATE ? width[i] * (size_t)u64_at(need, 8 * (size_t)i) : LENT;
    switch (function) {
    case OPEN:
        return diphone_open(file, length, lent[INDEX], LENT, lent[SUMMARY], LENT);
    case NEED:
        return diphone_need(file, length, sheet, sheet_length, settings, need, sizeof need);
    case PLAN:
        return diphone_plan(file, length, sheet, sheet_length, settings, lent[INDEX], len[INDEX],
                            lent[MARKS], len[MARKS], lent[SIZES], len[SIZES], lent[ROWS], len[ROWS],
                            lent[EXCITATION], len[EXCITATION], lent[DECODED], len[DECODED], lent[STATE],
                            LENT, lent[SUMMARY], LENT);
    case REPORT:
        return diphone_report(file, length, sheet, sheet_length, settings, lines, LENT);
    default:
        return diphone_pull(lent[STATE], LENT, lent[SIZES], len[SIZES], lent[ROWS], len[ROWS],
                            lent[EXCITATION], len[EXCITATION], samples, LENT);
    }
}

static uint8_t *stack;
static int asked;
static int64_t answer;
static const uint8_t *top;

static void *work(void *unused)
{
    uint8_t here = 0;

    top = &here;
    answer = call(asked);
    return unused;
}

/* The bytes of stack from the thread's own function down. */
static size_t taken(int function)
{
    pthread_t thread;
    pthread_attr_t attr;
    size_t low = 0;

    memset(stack, PAINT, STACK);
    asked = function;
    expect(pthread_attr_init(&attr) == 0 && pthread_attr_setstack(&attr, stack, STACK) == 0 &&
               pthread_create(&thread, &attr, work, NULL) == 0 && pthread_join(thread, NULL) == 0,
           "a thread runs on the painted stack");
    pthread_attr_destroy(&attr);
    while (low < STACK && stack[low] == PAINT)
        low += 1;
    return (size_t)(top - (stack + low));
}

/* Runs each function on a sheet, for this answer; what it takes is noted where it is the most yet. */
static void measure(size_t *most, const uint8_t *of_sheet, size_t of_length, uint32_t number)
{
    sheet = of_sheet;
    sheet_length = of_length;
    for (int function = OPEN; function < FUNCTIONS; function += 1) {
        size_t bytes_taken;
        if (number != 0 && (function == OPEN || function == PULL))
            continue;
        bytes_taken = taken(function);
        expect(answer == number || (function == PULL && answer >= DIPHONE_DONE), "the answer");
        if (bytes_taken > most[function])
            most[function] = bytes_taken;
    }
}

/* Prints what each function takes. */
static void show(const char *what, const size_t *most)
{
    size_t all = 0;

    printf("stack: bytes taken by %s", what);
    for (int function = OPEN; function < FUNCTIONS; function += 1) {
        if (most[function] > 0)
            printf(" %s %lu", names[function], (unsigned long)most[function]);
        if (most[function] > all)
            all = most[function];
    }
    printf("\n");
    expect(all > 0 && all <= LIMIT, "no call takes more than 64 KiB of stack");
}

int main(void)
{
    size_t loose[FUNCTIONS] = {0}, strict[FUNCTIONS] = {0}, refused[FUNCTIONS] = {0};
    size_t typed[FUNCTIONS] = {0}, too_long[FUNCTIONS] = {0};

    if (posix_memalign((void **)&stack, 4096, STACK) != 0)
        return 1;
    for (uint32_t setting = 0; setting < 24; setting += 1) {
        uint32_t filter = setting / 6 % 2 == 0 ? DIPHONE_FILTER_FIXED : DIPHONE_FILTER_FLOAT;
        example(setting % 2, 32, setting < 12 ? 2 : 4098);
        settings = setting / 2 % 3 | filter;
        measure(loose, loose_sheet, sizeof loose_sheet, 0);
        measure(typed, text_sheet, sizeof text_sheet - 1, 0);
        measure(too_long, long_text_sheet, sizeof long_text_sheet, DIPHONE_LONG_TEXT);
        settings |= DIPHONE_STRICT;
        measure(strict, strict_sheet, sizeof strict_sheet, 0);
        measure(refused, loose_sheet, sizeof loose_sheet, DIPHONE_MISSING_PAIR);
    }
    show("calls:", loose);
    show("calls with texts:", typed);
    show("calls refused with 17:", too_long);
    show("strict calls:", strict);
    show("calls refused with 16:", refused);
    free(stack);
    if (failures == 0)
        printf("stack: passed\n");
    return failures != 0;
}
