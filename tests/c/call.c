/* Makes document 01's example call through the C interface: what it needs, its plan, its pulls, its
 * report; then calls with empty periods, calls whose phones end between two samples, calls with targets
 * without a pitch, calls with times and pitches typed as text, calls that name no filter, strict calls, and
 * calls and pulls that are refused. Ends with 0 if all is as it should be. */
#define TEST "call"
#include "example.h"

#include <stdlib.h>

enum { INDEX, MARKS, SIZES, ROWS, EXCITATION, DECODED, STATE, SUMMARY, BUFFERS };
enum {
    NONE = DIPHONE_JOIN_NONE,
    SIMPLE = DIPHONE_JOIN_SIMPLE,
    MODIFIED = DIPHONE_JOIN_MODIFIED,
    UNNAMED = DIPHONE_FILTER_UNNAMED,
    FIXED = DIPHONE_FILTER_FIXED,
    FLOAT = DIPHONE_FILTER_FLOAT,
    FILTER_BITS = FIXED | FLOAT, /* the float filter too */
    FOLD = DIPHONE_FOLD,
    STRICT = DIPHONE_STRICT
};

/* ---- sheets: the segments pau and aa */

static uint8_t sheet[128];
static size_t sheet_length;

static void sheet_bytes(const void *data, size_t count)
{
    memcpy(sheet + sheet_length, data, count);
    sheet_length += count;
}

/* A value of kind 2 has no word. */
static void value(uint8_t kind, uint32_t word)
{
    uint8_t form[5] = {kind, (uint8_t)word, (uint8_t)(word >> 8), (uint8_t)(word >> 16),
                       (uint8_t)(word >> 24)};
    sheet_bytes(form, kind == 2 ? 1 : 5);
}

static void put_sheet_word(size_t at, uint32_t word)
{
    for (int i = 0; i < 4; i += 1)
        sheet[at + (size_t)i] = (uint8_t)(word >> 8 * i);
}

static void segments(uint8_t kind, uint32_t first_end)
{
    sheet_length = 0;
    sheet_bytes("\x02\x03pau", 5);
    value(kind, first_end);
    sheet_bytes("\x00\x02"
                "aa\x02\x00",
                6);
}

/* Document 01's sheet, which has no end and no target. */
static void example_sheet(void)
{
    segments(2, 0);
    sheet_bytes("\x00", 1);
}

/* The first of two targets is at 0, both have floats by their bits. */
static void add_targets(uint32_t first_f0, uint32_t pos, uint32_t f0)
{
    sheet_bytes("\x02", 1);
    value(2, 0);
    value(1, first_f0);
    value(1, pos);
    value(1, f0);
}

static void two_targets(uint32_t first_f0, uint32_t pos, uint32_t f0)
{
    segments(2, 0);
    add_targets(first_f0, pos, f0);
}

/* Document 01's targets (0, 64), (0.0625, 64), which give the marks 125, 250, 375 and 500. */
static void add_example_targets(void)
{
    add_targets(0x42800000, 0x3D800000, 0x42800000);
}

/* ---- lent buffers */

static uint8_t lent[BUFFERS][256];
static size_t lengths[BUFFERS];
static uint8_t need[80];

static void reset(void)
{
    memset(lent, GUARD, sizeof lent);
    memset(need, GUARD, sizeof need);
}

static uint8_t *at(int buffer)
{
    return lengths[buffer] > 0 ? lent[buffer] : NULL;
}

static uint32_t plan(uint32_t settings)
{
    reset();
    return diphone_plan(file, length, sheet, sheet_length, settings, at(INDEX), lengths[INDEX],
                        at(MARKS), lengths[MARKS], at(SIZES), lengths[SIZES], at(ROWS), lengths[ROWS],
                        at(EXCITATION), lengths[EXCITATION], at(DECODED), lengths[DECODED], at(STATE),
                        lengths[STATE], at(SUMMARY), lengths[SUMMARY]);
}

static uint32_t needs(uint32_t settings, size_t need_length)
{
    reset();
    return diphone_need(file, length, sheet, sheet_length, settings, need, need_length);
}

/* The lengths that the call needs, in bytes. */
static void exact(uint32_t join)
{
    static const size_t widths[6] = {8, 4, 4, 2, 1, 1};
    expect(needs(join, DIPHONE_NEED_BYTES) == 0, "need is told");
    expect(all_guard(need, DIPHONE_NEED_BYTES, sizeof need), "bytes past need");
    for (int i = 0; i < 6; i += 1)
        lengths[i] = (size_t)u64_at(need, 8 * i) * widths[i];
    lengths[STATE] = DIPHONE_STATE_BYTES;
    lengths[SUMMARY] = DIPHONE_SUMMARY_BYTES;
}

static uint32_t u32_at(int buffer, size_t i)
{
    return (uint32_t)u64_at(lent[buffer], i);
}

static void put_u32(int buffer, size_t i, uint32_t number)
{
    for (int k = 0; k < 4; k += 1)
        lent[buffer][i + k] = (uint8_t)(number >> 8 * k);
}

/* Six numbers of 8 bytes. */
static int six(const uint8_t *buffer, uint64_t a, uint64_t b, uint64_t c, uint64_t d, uint64_t e,
               uint64_t f)
{
    uint64_t numbers[6] = {a, b, c, d, e, f};
    for (size_t i = 0; i < 6; i += 1)
        if (u64_at(buffer, 8 * i) != numbers[i])
            return 0;
    return 1;
}

static void past(int buffer, size_t bytes_filled)
{
    expect(all_guard(lent[buffer], bytes_filled, sizeof lent[buffer]), "bytes past what is filled");
}

/* ---- what the call fills */

static void fills(size_t entries, uint32_t order)
{
    uint8_t rows[64];
    for (size_t i = 0; i < 4 * order; i += 1)
        rows[i] = (uint8_t)(i + 1);
    expect(u64_at(lent[INDEX], 0) == entries, "the index");
    expect(u32_at(MARKS, 0) == 2 && u32_at(MARKS, 4) == 5, "the marks");
    expect(u32_at(SIZES, 0) == 2 && u32_at(SIZES, 4) == 3, "the sizes");
    expect(memcmp(lent[ROWS], rows, 4 * order) == 0, "the rows as stored");
    expect(memcmp(lent[EXCITATION], residual, 5) == 0, "the excitation");
    expect(six(lent[SUMMARY], 8000, 2, 5, 2, order, 1), "the summary");
    expect(u32_at(STATE, 4) == order && u32_at(STATE, 8) == order, "order and ring place");
    for (size_t i = 12; i < DIPHONE_STATE_BYTES; i += 1)
        expect(lent[STATE][i] == 0, "scales, places and history of the fresh state");
    past(INDEX, 8);
    past(MARKS, 8);
    past(SIZES, 8);
    past(ROWS, 4 * order);
    past(EXCITATION, 5);
    past(DECODED, 0);
    past(STATE, DIPHONE_STATE_BYTES);
    past(SUMMARY, DIPHONE_SUMMARY_BYTES);
}

/* ---- pulls */

static uint8_t samples[256];

static int64_t pull_with(size_t state_length, size_t rows_length, size_t slice_length)
{
    memset(samples, GUARD, sizeof samples);
    return diphone_pull(lent[STATE], state_length, lent[SIZES], lengths[SIZES],
                        rows_length > 0 ? lent[ROWS] : NULL, rows_length, lent[EXCITATION],
                        lengths[EXCITATION], slice_length > 0 ? samples : NULL, slice_length);
}

static int64_t pull(size_t slice_length)
{
    return pull_with(DIPHONE_STATE_BYTES, lengths[ROWS], slice_length);
}

/* A pull with this answer that leaves all. */
static void refused_pull(int64_t answer, int64_t number, const uint8_t *state, const char *what)
{
    expect(answer == number, what);
    expect(memcmp(lent[STATE], state, DIPHONE_STATE_BYTES) == 0, what);
    expect(all_guard(samples, 0, sizeof samples), what);
}

/* The state after the fixed filter's five samples, of which the last is -132. */
static void last_state(uint32_t order)
{
    uint32_t place = (order + 5) % (order + 1);
    uint32_t last = (place + order) % (order + 1);
    expect(u32_at(STATE, 4) == order && u32_at(STATE, 8) == place, "the ring place after five samples");
    expect(u64_at(lent[STATE], 20) == 2 && u64_at(lent[STATE], 28) == 5, "the places after all");
    expect(u32_at(STATE, 36 + 4 * last) == (uint32_t)-132, "the history keeps the last sample");
    for (size_t i = 36 + 4 * (order + 1); i < DIPHONE_STATE_BYTES; i += 1)
        expect(lent[STATE][i] == 0, "the history past the order");
}

/* Pulls until done, each period first into a slice one byte short: document 01's lines. */
static void speak(void)
{
    static const char *lines = "8000 2 5\n1 2 8 132\n2 3 0 -8 -132\n";
    char text[200];
    uint8_t state[DIPHONE_STATE_BYTES];
    int end = sprintf(text, "%d %d %d\n", (int)u64_at(lent[SUMMARY], 0), (int)u64_at(lent[SUMMARY], 8),
                      (int)u64_at(lent[SUMMARY], 16));
    for (uint32_t period = 0; period < 2; period += 1) {
        size_t size = u32_at(SIZES, 4 * period);
        memcpy(state, lent[STATE], sizeof state);
        refused_pull(pull(2 * size - 1), -14, state, "a slice one byte short");
        refused_pull(pull(0), -14, state, "no slice");
        expect(pull(2 * size + 1 + period) == (int64_t)size, "a period is given");
        expect(all_guard(samples, 2 * size, sizeof samples), "bytes past the period");
        end += sprintf(text + end, "%d %d", (int)period + 1, (int)size);
        for (size_t i = 0; i < size; i += 1)
            end += sprintf(text + end, " %d", (int16_t)(samples[2 * i] | samples[2 * i + 1] << 8));
        end += sprintf(text + end, "\n");
    }
    last_state((uint32_t)u64_at(lent[SUMMARY], 32));
    memcpy(state, lent[STATE], sizeof state);
    refused_pull(pull(0), -1, state, "done");
    refused_pull(pull(sizeof samples), -1, state, "done again");
    refused_pull(pull_with(DIPHONE_STATE_BYTES, 0, 2), -1, state, "done without rows");
    past(STATE, DIPHONE_STATE_BYTES);
    expect(strcmp(text, lines) == 0, "document 01's lines");
    if (u64_at(lent[SUMMARY], 32) == 0)
        printf("%s", text);
}

/* The state with one word changed is impossible. */
static void impossible(size_t place, uint32_t word, const char *what)
{
    uint8_t state[DIPHONE_STATE_BYTES];
    uint32_t before = u32_at(STATE, place);
    put_u32(STATE, place, word);
    memcpy(state, lent[STATE], sizeof state);
    refused_pull(pull(sizeof samples), -15, state, what);
    put_u32(STATE, place, before);
}

static void impossible_states(uint32_t order)
{
    uint8_t state[DIPHONE_STATE_BYTES];
    impossible(0, 2, "filter 2");
    impossible(4, 33, "order 33");
    impossible(8, order + 1, "a ring place above the order");
    impossible(12, 0x41800001, "coeff_min above 16");
    impossible(12, 0x7FC00000, "coeff_min a NaN");
    impossible(16, 0xC1800001, "coeff_range below -16");
    impossible(16, 0x7F800000, "coeff_range infinite");
    impossible(20, 3, "a period past the sizes");
    impossible(24, 1, "a period far past the sizes");
    impossible(28, 6, "a sample place past the excitation");
    impossible(32, 0xFFFFFFFF, "a sample place far past the excitation");
    memcpy(state, lent[STATE], sizeof state);
    refused_pull(pull_with(167, lengths[ROWS], sizeof samples), -15, state, "a state of 167 bytes");
    refused_pull(diphone_pull(NULL, 0, NULL, 0, NULL, 0, NULL, 0, NULL, 0), -15, state, "no state");
    if (order > 0)
        refused_pull(pull_with(DIPHONE_STATE_BYTES, 2 * order - 1, sizeof samples), -15, state,
                     "rows cut within the next row");
}

/* ---- the report */

static uint8_t lines[80];

static uint32_t report(uint32_t settings, size_t lines_length)
{
    memset(lines, GUARD, sizeof lines);
    return diphone_report(file, length, sheet, sheet_length, settings, lines_length > 0 ? lines : NULL,
                          lines_length);
}

/* A report with this answer that leaves all. */
static void untouched_report(uint32_t settings, size_t lines_length, uint32_t number, const char *what)
{
    expect(report(settings, lines_length) == number, what);
    expect(all_guard(lines, 0, sizeof lines), what);
}

/* So many lines of four numbers, and nothing past them. */
static void has_lines(size_t count, const uint32_t *numbers, const char *what)
{
    for (size_t i = 0; i < 4 * count; i += 1)
        for (size_t k = 0; k < 4; k += 1)
            expect(lines[4 * i + k] == (uint8_t)(numbers[i] >> 8 * k), what);
    expect(all_guard(lines, count * DIPHONE_REPORT_LINE_BYTES, sizeof lines), "bytes past the lines");
}

/* Document 02's lines, in every length that is long enough. */
static void example_report(void)
{
    static const uint32_t numbers[8] = {1, 1, 0, 2, 1, 2, 2, 3};

    for (size_t size = 0; size < 2 * DIPHONE_REPORT_LINE_BYTES; size += 1)
        untouched_report(SIMPLE | FIXED, size, DIPHONE_SHORT_BUFFER, "lines too short for the report");
    for (size_t size = 2 * DIPHONE_REPORT_LINE_BYTES; size <= sizeof lines; size += 1) {
        expect(report(SIMPLE | FIXED, size) == 0, "the example is reported");
        has_lines(2, numbers, "document 02's lines");
    }
    for (uint32_t filter = UNNAMED; filter <= FILTER_BITS; filter += FIXED) {
        expect(report(SIMPLE | filter | FOLD, sizeof lines) == 0, "any filter is reported");
        has_lines(2, numbers, "the filter plays no part in the report");
    }
}

/* Calls without a period have no line: no buffer, or one that is left. */
static void empty_reports(void)
{
    example_sheet();
    for (size_t size = 0; size <= sizeof lines; size += 16) {
        untouched_report(NONE | FIXED, size, 0, "join none has no lines");
        untouched_report(MODIFIED | FIXED, size, 0, "no mark, no line");
    }
    sheet_length = 0;
    sheet_bytes("\x00\x00", 2);
    untouched_report(SIMPLE | FIXED, 0, 0, "no segment, no line");
    sheet_length = 0;
    sheet_bytes("\x01\x01n\x02\x00\x00", 6);
    untouched_report(SIMPLE | FIXED, 0, 0, "one segment, no line");
    segments(2, 0);
    add_example_targets();
    untouched_report(MODIFIED | FIXED, 0, 0, "marks past the target ends, no line");
}

/* Of the marks 125, 250, 375, 500 the first half, up to 250, takes two, the second, up to 125, none. */
static void modified_report(void)
{
    static const uint32_t numbers[8] = {1, 1, 0, 125, 1, 1, 125, 125};

    segments(1, 0x3D000000);
    add_example_targets();
    for (uint32_t join = MODIFIED; join <= 3; join += 1) {
        expect(report(join, 32) == 0, "a modified join is reported");
        has_lines(2, numbers, "the half that took the marks");
        untouched_report(join, 31, DIPHONE_SHORT_BUFFER, "lines one byte short");
    }
}

/* ---- periods of no sample at the heads of units, in the simple join */

enum { MOST_PERIODS = 5, RANGE_16 = 0x41800000 };

/* The pairs pau-aa and perhaps aa-pau: how many periods there are, their sizes, and how many each half has.
 * Then what a call gives: the pair and half of each period, as two digits, and its row. */
struct joint {
    const char *what;
    uint8_t pairs, periods, sizes[MOST_PERIODS], halves[4], units[MOST_PERIODS], rows[MOST_PERIODS];
};

/* Order 1, the rows 10, 20 and so on, the entries one after the other; the example's residual. */
static void joint_voice(uint32_t codec, const struct joint *joint)
{
    const uint8_t *halves = joint->halves;
    uint32_t end = 0;

    begin(joint->periods, 1, RANGE_16, codec);
    section("sts.lpc", 2 * joint->periods);
    for (uint8_t i = 1; i <= joint->periods; i += 1) {
        uint8_t row[2] = {(uint8_t)(10 * i), 0};
        bytes(row, 2);
    }
    section("sts.resoffs", 4 + 4 * joint->periods);
    u32(0);
    for (int i = 0; i < joint->periods; i += 1) {
        end += joint->sizes[i];
        u32(end);
    }
    section("sts.res", 5);
    bytes(residual, 5);
    section("dip.index", 4 + 11 * joint->pairs);
    u32(joint->pairs);
    entry("pau-aa", 0, halves[0], halves[1]);
    if (joint->pairs == 2)
        entry("aa-pau", (uint8_t)(halves[0] + halves[1]), halves[2], halves[3]);
}

static void joint_sheet(const struct joint *joint)
{
    example_sheet();
    if (joint->pairs == 2) {
        sheet[0] = 3;
        sheet_length -= 1;
        sheet_bytes("\x03pau\x02\x00\x00", 7);
    }
}

/* A call's lines, marks, sizes and rows. */
static void joint_call(uint32_t filter, const struct joint *joint)
{
    uint32_t numbers[4 * MOST_PERIODS], end = 0;

    exact(SIMPLE);
    expect(plan(SIMPLE | filter) == 0, joint->what);
    for (size_t i = 0; i < joint->periods; i += 1) {
        uint32_t line[4] = {joint->units[i] / 10, joint->units[i] % 10, end, joint->sizes[i]};
        memcpy(numbers + 4 * i, line, sizeof line);
        end += joint->sizes[i];
        expect(u32_at(MARKS, 4 * i) == end, joint->what);
        expect(u32_at(SIZES, 4 * i) == joint->sizes[i], joint->what);
        expect(lent[ROWS][2 * i] == joint->rows[i] && lent[ROWS][2 * i + 1] == 0, joint->what);
    }
    past(MARKS, 4 * joint->periods);
    past(SIZES, 4 * joint->periods);
    past(ROWS, 2 * joint->periods);
    expect(report(SIMPLE | filter, joint->periods * DIPHONE_REPORT_LINE_BYTES) == 0, joint->what);
    has_lines(joint->periods, numbers, joint->what);
}

/* A mark goes to the unit whose period made it. The row of an empty period is that of the next one in its
 * unit that has a sample, or else of the unit's last. */
static void joints(void)
{
    static const struct joint all[] = {
        {"a run", 1, 4, {2, 0, 0, 3}, {1, 3}, {11, 12, 12, 12}, {10, 40, 40, 40}},
        {"at the head of a pair", 2, 4, {1, 1, 0, 3}, {1, 1, 2, 0}, {11, 12, 21, 21}, {10, 20, 40, 40}},
        {"a whole unit", 2, 5, {2, 0, 0, 0, 3}, {1, 2, 2, 0}, {11, 12, 12, 21, 21}, {10, 30, 30, 50, 50}},
        {"after a unit without periods", 2, 4, {2, 0, 3, 0}, {1, 0, 2, 1}, {11, 21, 21, 22},
         {10, 30, 30, 40}},
        {"a first unit without periods", 2, 5, {0, 2, 3, 0, 0}, {0, 2, 2, 1}, {12, 12, 21, 21, 22},
         {20, 20, 30, 40, 50}},
        {"a first unit of no sample", 1, 3, {0, 0, 5}, {1, 2}, {11, 12, 12}, {10, 30, 30}},
        {"no sample at all", 2, 5, {0}, {1, 1, 1, 2}, {11, 12, 21, 22, 22}, {10, 20, 30, 50, 50}},
    };

    for (size_t i = 0; i < sizeof all / sizeof *all; i += 1)
        for (uint32_t codec = 0; codec < 2; codec += 1) {
            joint_voice(codec, &all[i]);
            joint_sheet(&all[i]);
            for (uint32_t filter = UNNAMED; filter <= FILTER_BITS; filter += FIXED)
                joint_call(filter, &all[i]);
        }
}

/* Pulls all periods of a call. An empty one gives 0 and leaves the slice. */
static void pull_all(uint8_t *spoken)
{
    for (size_t i = 0; i < lengths[SIZES]; i += 4) {
        size_t size = u32_at(SIZES, i);
        expect(pull(2 * size) == (int64_t)size, "a period, empty or not, is given");
        expect(all_guard(samples, 2 * size, sizeof samples), "bytes past the period");
        memcpy(spoken, samples, 2 * size);
        spoken += 2 * size;
    }
    expect(pull(0) == DIPHONE_DONE, "done after the last period");
}

/* The samples are 8, 132, 0, -8 and -132, by the float filter with -7 for -8. With the first half's row for
 * the empty period they are the same, and so is the state. */
static void empty_head_samples(uint32_t filter)
{
    uint8_t expected[10] = {8, 0, 132, 0, 0, 0, filter == FIXED ? 0xF8 : 0xF9, 0xFF, 0x7C, 0xFF};
    uint8_t spoken[2][sizeof expected], states[2][DIPHONE_STATE_BYTES];

    for (int i = 0; i < 2; i += 1) {
        expect(plan(SIMPLE | filter) == 0, "a call with an empty period");
        if (i == 1)
            lent[ROWS][2] = 10;
        pull_all(spoken[i]);
        memcpy(states[i], lent[STATE], DIPHONE_STATE_BYTES);
    }
    expect(memcmp(spoken[0], expected, sizeof expected) == 0, "the samples beside an empty period");
    expect(memcmp(spoken[1], expected, sizeof expected) == 0, "no sample turns on an empty period's row");
    expect(memcmp(states[0], states[1], DIPHONE_STATE_BYTES) == 0, "nor does the state");
}

/* Document 01's example with a period of no sample at the head of its second half. */
static void empty_head(void)
{
    static const struct joint joint = {"one period", 1, 3, {2, 0, 3}, {1, 2}, {11, 12, 12}, {10, 30, 30}};
    static const uint32_t numbers[12] = {1, 1, 0, 2, 1, 2, 2, 0, 1, 2, 2, 3};
    static const uint8_t rows[6] = {10, 0, 30, 0, 30, 0};

    joint_voice(0, &joint);
    joint_sheet(&joint);
    exact(SIMPLE);
    expect(six(need, 1, 3, 3, 3, 5, 0), "what a call with an empty period needs");
    for (uint32_t filter = UNNAMED; filter <= FILTER_BITS; filter += FIXED) {
        joint_call(filter, &joint);
        has_lines(3, numbers, "an empty period belongs to the half that has it");
        expect(memcmp(lent[ROWS], rows, sizeof rows) == 0, "and has a row of that half");
        expect(memcmp(lent[EXCITATION], residual, 5) == 0, "the excitation beside an empty period");
        expect(six(lent[SUMMARY], 8000, 3, 5, 3, 1, 1), "the summary with an empty period");
        past(EXCITATION, 5);
        empty_head_samples(filter);
    }
    untouched_report(SIMPLE, 3 * DIPHONE_REPORT_LINE_BYTES - 1, DIPHONE_SHORT_BUFFER, "no line for it");
}

/* ---- settings that make no difference */

enum { ANSWERS = 3, PLANNED = sizeof need + sizeof lines + ANSWERS * 4 + sizeof lent };

static uint8_t said[2][16384];
static size_t said_length;

static void add(uint8_t *all, const void *data, size_t count)
{
    memcpy(all + said_length, data, count);
    said_length += count;
}

/* All that a call answers and leaves: need, report and plan, then each pull, first without a slice, and one
 * pull more. */
static void take_all(uint32_t settings, uint8_t *all)
{
    uint32_t answers[ANSWERS];
    size_t periods = 0;
    int64_t answer = 0;

    memset(all, GUARD, sizeof said[0]);
    said_length = 0;
    answers[0] = needs(settings, sizeof need);
    add(all, need, sizeof need);
    answers[1] = report(settings, sizeof lines);
    add(all, lines, sizeof lines);
    answers[2] = plan(settings);
    add(all, answers, sizeof answers);
    add(all, lent, sizeof lent);
    for (size_t i = 0; i <= lengths[SIZES]; i += 4)
        for (size_t slice = 0; slice <= sizeof samples; slice += sizeof samples) {
            answer = pull(slice);
            periods += answer >= 0;
            add(all, &answer, sizeof answer);
            add(all, samples, sizeof samples);
            add(all, lent[STATE], sizeof lent[STATE]);
        }
    expect(answer == DIPHONE_DONE && periods == lengths[SIZES] / 4, "all periods are given, then done");
}

/* Such a call answers in everything as the one that names the float filter; the plan of the one that names
 * the fixed filter differs in the state's number of the filter alone. */
static void unnamed_filter(uint32_t others)
{
    size_t differing = 0;

    exact(others);
    take_all(others | FLOAT, said[0]);
    take_all(others | UNNAMED, said[1]);
    expect(memcmp(said[0], said[1], sizeof said[0]) == 0, "a filter not named is as the float filter");
    take_all(others | FILTER_BITS, said[1]);
    expect(memcmp(said[0], said[1], sizeof said[0]) == 0, "both bits are as the float filter");
    take_all(others | FIXED, said[1]);
    for (size_t i = 0; i < PLANNED; i += 1)
        differing += said[0][i] != said[1][i];
    expect(differing == 1, "the fixed filter's plan has another number in the state, and nothing else");
}

/* A strict call that is not refused is in everything as the loose one; bits above mean nothing. */
static void strict_call(uint32_t others)
{
    exact(others);
    take_all(others, said[0]);
    take_all(others | STRICT, said[1]);
    expect(memcmp(said[0], said[1], sizeof said[0]) == 0, "a strict call not refused is as the loose one");
    take_all(others | UINT32_MAX << 5, said[1]);
    expect(memcmp(said[0], said[1], sizeof said[0]) == 0, "so it is with bits above");
}

/* With the voice and the sheet that are there, which has all pairs: in every join, folded and not. */
static void alike(void)
{
    for (uint32_t join = NONE; join <= 3; join += 1)
        for (uint32_t fold = 0; fold <= FOLD; fold += FOLD) {
            unnamed_filter(join | fold);
            unnamed_filter(join | fold | STRICT);
            for (uint32_t filter = UNNAMED; filter <= FILTER_BITS; filter += FIXED)
                strict_call(join | fold | filter);
        }
}

/* ---- ends between two samples, in the modified join */

/* Where pau and aa end, in seconds; then which of the marks 125 and 250 are taken, by the half that does. */
struct ended {
    const char *what;
    float left, right;
    uint32_t periods, halves[2];
};

static void ended_sheet(float left, float right)
{
    sheet_length = 0;
    sheet_bytes("\x02\x03pau\x01", 6);
    sheet_bytes(&left, 4);
    sheet_bytes("\x00\x02"
                "aa\x01",
                5);
    sheet_bytes(&right, 4);
    sheet_bytes("\x00", 1);
    add_example_targets();
}

/* What a call needs, gives and reports. */
static void ended_call(const struct ended *ended)
{
    uint32_t periods = ended->periods, numbers[8];

    ended_sheet(ended->left, ended->right);
    exact(MODIFIED);
    expect(six(need, 1, 4, periods, 0, 125 * periods, 0), ended->what);
    expect(plan(MODIFIED | FIXED) == 0, ended->what);
    expect(six(lent[SUMMARY], 8000, periods, 125 * periods, 4, 0, 1), ended->what);
    for (uint32_t i = 0; i < periods; i += 1) {
        uint32_t line[4] = {1, ended->halves[i], 125 * i, 125};
        memcpy(numbers + 4 * i, line, sizeof line);
        expect(u32_at(SIZES, 4 * i) == 125, ended->what);
    }
    past(SIZES, 4 * periods);
    past(EXCITATION, 125 * periods);
    expect(report(MODIFIED, periods * DIPHONE_REPORT_LINE_BYTES) == 0, ended->what);
    has_lines(periods, numbers, ended->what);
}

/* To the nearest sample, a half going up, 0 below zero: the end of pau, and the middle between both ends. */
static void ended_calls(void)
{
    static const struct ended all[] = {
        {"249.5 and 249.5", 0.0311875f, 0.0311875f, 2, {1, 1}},
        {"both just below", 0.031187499f, 0.031187499f, 1, {1}},
        {"125 and 249.5", 0.015625f, 0.04675f, 2, {1, 2}},
        {"125 and just below", 0.015625f, 0.046749994f, 1, {1}},
        {"124.5 and 250", 0.0155625f, 0.0469375f, 2, {1, 2}},
        {"just below 124.5, and 249.75", 0.015562499f, 0.046875f, 2, {2, 2}},
        {"-125 and 124.5", -0.015625f, 0.04675f, 1, {2}},
        {"-125 and just below", -0.015625f, 0.046749994f, 0, {0}},
        {"-0.25 and 124.875", -0.00003125f, 0.03125f, 1, {2}},
    };

    for (size_t i = 0; i < sizeof all / sizeof *all; i += 1)
        ended_call(&all[i]);
}

/* Ends on a sample and half a sample before it, where the marks 125 and 250 stand: all that is answered and
 * left is the same. The simple join reads no end: it gives document 01's call. */
static void between_samples(void)
{
    for (uint32_t filter = UNNAMED; filter <= FILTER_BITS; filter += FIXED) {
        ended_sheet(0.03125f, 0.03125f);
        exact(MODIFIED);
        take_all(MODIFIED | filter, said[0]);
        ended_sheet(0.0311875f, 0.0311875f);
        take_all(MODIFIED | filter, said[1]);
        expect(memcmp(said[0], said[1], sizeof said[0]) == 0, "249.5 is as 250");
        exact(SIMPLE);
        take_all(SIMPLE | filter, said[0]);
        example_sheet();
        take_all(SIMPLE | filter, said[1]);
        expect(memcmp(said[0], said[1], sizeof said[0]) == 0, "a simple join reads no end");
    }
}

/* ---- targets without a pitch, in the modified join */

enum { MOST_TARGETS = 4, MOST_MARKS = 8 };

/* A pitch as a value of a sheet. */
struct pitch {
    uint8_t kind;
    uint32_t word;
};

#define ABSENT {2, 0}
#define HZ_64 {1, 0x42800000}
#define HZ_120 {1, 0x42F00000}

/* Where targets stand, in seconds; their pitches, as the sheet has them and with the absent ones filled in; the
 * marks. */
struct pitched {
    const char *what;
    uint32_t targets;
    float places[MOST_TARGETS];
    struct pitch written[MOST_TARGETS], filled[MOST_TARGETS];
    uint32_t marks, at[MOST_MARKS];
};

static const struct pitched pitched_calls[] = {
    {"the first", 1, {0.03f}, {ABSENT}, {{0, 120}}, 4, {66, 133, 200, 266}},
    {"the second", 2, {0, 0.0625f}, {HZ_64, ABSENT}, {HZ_64, HZ_64}, 4, {125, 250, 375, 500}},
    {"a whole number goes on", 2, {0, 0.0625f}, {{0, 64}, ABSENT}, {HZ_64, HZ_64}, 4, {125, 250, 375, 500}},
    {"several in turn",
     4,
     {0, 0.01f, 0.02f, 0.0625f},
     {HZ_64, ABSENT, ABSENT, ABSENT},
     {HZ_64, HZ_64, HZ_64, HZ_64},
     4,
     {125, 250, 375, 500}},
    {"the first two, then a pitch",
     3,
     {0, 0.0125f, 0.0625f},
     {ABSENT, ABSENT, HZ_64},
     {HZ_120, HZ_120, HZ_64},
     7,
     {66, 133, 202, 278, 362, 458, 573}},
    {"one that makes no mark, then one that does", /* the first mark is past it */
     4,
     {0, 0.001f, 0.002f, 0.0625f},
     {{0, 128}, HZ_64, ABSENT, ABSENT},
     {{0, 128}, HZ_64, HZ_64, HZ_64},
     5,
     {62, 187, 312, 437, 562}},
    {"a written 0 goes on", /* it ends the marks */
     3,
     {0.01f, 0.02f, 0.06f},
     {HZ_120, {0, 0}, ABSENT},
     {HZ_120, {1, 0}, {1, 0}},
     3,
     {66, 133, 333}},
};

/* The first targets of a call; both phones end at sample 250. */
static void pitched_sheet(const struct pitched *pitched, const struct pitch *pitches, uint32_t targets)
{
    uint8_t count = (uint8_t)targets;

    sheet_length = 0;
    sheet_bytes("\x02\x03pau\x01\x00\x00\x00\x3D\x00\x02"
                "aa\x01\x00\x00\x00\x3D\x00",
                20);
    sheet_bytes(&count, 1);
    for (uint32_t i = 0; i < targets; i += 1) {
        sheet_bytes("\x01", 1);
        sheet_bytes(&pitched->places[i], 4);
        value(pitches[i].kind, pitches[i].word);
    }
}

/* All that a call answers and leaves is as with the pitches filled in. */
static void filled_in(const struct pitched *pitched)
{
    for (uint32_t join = NONE; join <= 3; join += 1)
        for (uint32_t filter = UNNAMED; filter <= FILTER_BITS; filter += FIXED) {
            pitched_sheet(pitched, pitched->filled, pitched->targets);
            exact(join);
            take_all(join | filter, said[0]);
            pitched_sheet(pitched, pitched->written, pitched->targets);
            take_all(join | filter, said[1]);
            expect(memcmp(said[0], said[1], sizeof said[0]) == 0, pitched->what);
        }
}

/* The marks are these; those of the first targets alone are the first of them. */
static void pitched_marks(const struct pitched *pitched)
{
    uint32_t marks = 0;

    for (uint32_t targets = 0; targets <= pitched->targets; targets += 1) {
        pitched_sheet(pitched, pitched->written, targets);
        exact(MODIFIED);
        expect(plan(MODIFIED) == 0, pitched->what);
        expect(lengths[MARKS] / 4 >= marks, pitched->what);
        marks = (uint32_t)(lengths[MARKS] / 4);
        expect(u64_at(lent[SUMMARY], 24) == marks && marks <= pitched->marks, pitched->what);
        for (uint32_t i = 0; i < marks; i += 1)
            expect(u32_at(MARKS, 4 * i) == pitched->at[i], pitched->what);
        past(MARKS, 4 * marks);
    }
    expect(marks == pitched->marks, pitched->what);
}

static void pitched_each(void)
{
    for (size_t i = 0; i < sizeof pitched_calls / sizeof *pitched_calls; i += 1) {
        filled_in(&pitched_calls[i]);
        pitched_marks(&pitched_calls[i]);
    }
}

/* ---- refused calls */

/* Need, plan and report refuse with this number whatever the buffers are, and leave all. */
static void refused_with(uint32_t number, uint32_t settings, const char *what)
{
    for (size_t size = 0; size <= 256; size += 128) {
        for (int i = 0; i < BUFFERS; i += 1)
            lengths[i] = size;
        expect(plan(settings) == number, what);
        for (int i = 0; i < BUFFERS; i += 1)
            past(i, 0);
    }
    expect(needs(settings, 0) == number && needs(settings, sizeof need) == number, what);
    expect(all_guard(need, 0, sizeof need), what);
    untouched_report(settings, 0, number, what);
    untouched_report(settings, sizeof lines, number, what);
}

/* Whatever the filter, and where none is named; bits above 5 mean nothing. */
static void refused_by(uint32_t number, uint32_t others, const char *what)
{
    for (uint32_t filter = UNNAMED; filter <= FILTER_BITS; filter += FIXED)
        refused_with(number, others | filter, what);
    refused_with(number, others | UINT32_MAX << 6, what);
}

/* Strict or not. */
static void refused(uint32_t number, uint32_t join, const char *what)
{
    refused_by(number, join, what);
    refused_by(number, join | STRICT, what);
}

/* Each buffer one byte short. */
static void short_buffers(uint32_t others)
{
    exact(SIMPLE | others);
    for (int i = 0; i < BUFFERS; i += 1) {
        if (lengths[i] == 0)
            continue;
        lengths[i] -= 1;
        expect(plan(SIMPLE | others) == DIPHONE_SHORT_BUFFER, "a buffer one byte short");
        for (int k = 0; k < BUFFERS; k += 1)
            past(k, 0);
        lengths[i] += 1;
    }
    expect(needs(SIMPLE | others, DIPHONE_NEED_BYTES - 1) == DIPHONE_SHORT_BUFFER, "need one byte short");
    expect(all_guard(need, 0, sizeof need), "need one byte short is left");
}

/* ---- texts in place of floats */

/* A text, and the bits of the float that it counts as. */
struct typed {
    const char *text;
    uint8_t count;
    uint32_t word;
};

#define TYPED(text, word) {text, sizeof text - 1, word}

static const struct typed typed_values[] = {
    TYPED("0.25", 0x3E800000),
    TYPED("+.5", 0x3F000000),
    TYPED("0.0311875", 0x3CFF7CEE), /* 249.5 samples */
    TYPED("0.0311874", 0x3CFF7CB8),
    TYPED("64", 0x42800000),
    TYPED("119.99999999", 0x42F00000),
    TYPED("5.", 0x40A00000),
    TYPED("-1", 0xBF800000),
    TYPED("-0", 0x80000000),
    TYPED("-.0", 0x80000000),
    TYPED("", 0),
    TYPED("-", 0),
    TYPED("-.", 0),
    TYPED("+-3", 0),
    TYPED(" 2", 0),
    TYPED("\0" "2", 0),
    TYPED("\xFF" "2", 0),
    TYPED("none", 0),
    TYPED("0,25", 0),
    TYPED("0x41", 0),
    TYPED("120 Hz", 0x42F00000),
    TYPED("1.5.5", 0x3FC00000),
    TYPED("1e3", 0x3F800000),
    TYPED("1\0" "5", 0x3F800000),
    TYPED("1-5", 0x3F800000),
    TYPED("1.0000000596", 0x3F800000), /* just below the middle of two floats */
    TYPED("1.0000000597", 0x3F800001),
    TYPED("-.0000000001", 0xAEDBE6FF),
};

static const struct typed longest = TYPED("0.0312500000", 0x3D000000);

enum { VALUES = 6, ALL_VALUES = VALUES, MOST_TYPED = 12 };

static size_t value_places[VALUES]; /* where the values of the sheet begin */

/* The next value: a text or its float, where it stands here, or else a float that fits. */
static void typed_value(const struct typed *typed, int number, int here, int as_text)
{
    static const uint32_t usual[VALUES] = {0x3D000000, 0x3D000000, 0, 0x42800000, 0x3CA3D70A, 0x42800000};
    uint8_t head[2] = {3, typed->count};

    value_places[number] = sheet_length;
    if (here != number && here != ALL_VALUES) {
        value(1, usual[number]);
    } else if (as_text) {
        sheet_bytes(head, 2);
        sheet_bytes(typed->text, typed->count);
    } else {
        value(1, typed->word);
    }
}

/* Both phones end at sample 250, the targets are (0, 64) and (0.02, 64); but one value, or all, is typed. */
static void typed_sheet(const struct typed *typed, int here, int as_text)
{
    sheet_length = 0;
    sheet_bytes("\x02\x03pau", 5);
    typed_value(typed, 0, here, as_text);
    sheet_bytes("\x00\x02"
                "aa",
                4);
    typed_value(typed, 1, here, as_text);
    sheet_bytes("\x00\x02", 2);
    for (int i = 2; i < VALUES; i += 1)
        typed_value(typed, i, here, as_text);
}

/* Whether the call with these lengths is short enough for the buffers here. */
static int is_short(void)
{
    for (int i = 0; i < BUFFERS; i += 1)
        if (lengths[i] > sizeof lent[i])
            return 0;
    return lengths[SIZES] <= 4 * MOST_TYPED;
}

/* With the text all is as with its float: what is answered and left, of a long call what it needs. Answers
 * whether the call was spoken. */
static int typed_call(const struct typed *typed, int here, uint32_t settings)
{
    uint8_t needed[sizeof need];
    uint32_t answer;

    typed_sheet(typed, here, 0);
    answer = needs(settings, sizeof need);
    memcpy(needed, need, sizeof need);
    typed_sheet(typed, here, 1);
    if (answer != 0) {
        refused_with(answer, settings, typed->text);
        return 0;
    }
    exact(settings);
    expect(memcmp(needed, need, sizeof need) == 0, typed->text);
    if (!is_short())
        return 0;
    take_all(settings, said[0]);
    typed_sheet(typed, here, 0);
    take_all(settings, said[1]);
    expect(memcmp(said[0], said[1], sizeof said[0]) == 0, typed->text);
    return lengths[SIZES] > 0;
}

static void typed_calls(void)
{
    static const struct typed huge = TYPED("999999999999", 0x5368D4A5);
    int spoken = 0;

    for (size_t i = 0; i < sizeof typed_values / sizeof *typed_values; i += 1)
        for (int here = 0; here <= ALL_VALUES; here += 1)
            for (uint32_t join = NONE; join <= 3; join += 1)
                spoken += typed_call(&typed_values[i], here, join | ((uint32_t)i * FIXED & FILTER_BITS));
    expect(spoken > 400, "many calls with texts are spoken");
    for (uint32_t join = NONE; join <= 3; join += 1)
        typed_call(&huge, 0, join);
}

/* How many marks a call makes whose first pitch is typed; the second, at 2^-13 s, is absent. */
static uint64_t typed_marks(const struct typed *typed, int as_text)
{
    segments(2, 0);
    sheet_bytes("\x02\x02", 2);
    typed_value(typed, 0, 0, as_text);
    value(1, 0x39000000);
    value(2, 0);
    expect(needs(MODIFIED, sizeof need) == 0, typed->text);
    return u64_at(need, 8);
}

/* How many periods a call has at a rate of 1, with marks at 1, 2 and 8,388,608, whose first phone's end is
 * typed. */
static uint64_t typed_periods(const struct typed *typed, int as_text)
{
    static const uint32_t f0s[4] = {0x3F800000, 0x3F800000, 0x34000002, 0x34000002};

    sheet_length = 0;
    sheet_bytes("\x02\x03pau", 5);
    typed_value(typed, 0, 0, as_text);
    sheet_bytes("\x00\x02"
                "aa\x02\x00\x04",
                7);
    for (uint32_t i = 0; i < 4; i += 1) {
        value(0, i);
        value(1, f0s[i]);
    }
    expect(needs(MODIFIED, sizeof need) == 0, typed->text);
    return u64_at(need, 16);
}

/* Texts that are a float's middle to the next, and just beside it: which float it is makes a mark, or a
 * period. */
static void typed_middles(void)
{
    static const struct typed pitches[] = {
        TYPED("16777217", 0x4B800000),     TYPED("16777217.000", 0x4B800000),
        TYPED("16777217.001", 0x4B800001), TYPED("16777218.999", 0x4B800001),
        TYPED("16777216.999", 0x4B800000),
    };
    static const struct typed times[] = {
        TYPED("8388607.25", 0x4AFFFFFE), TYPED("8388607.2501", 0x4AFFFFFF),
        TYPED("8388607.5", 0x4AFFFFFF),  TYPED("8388607.2499", 0x4AFFFFFE),
        TYPED("8388607.75", 0x4B000000),
    };

    example(0, 0, 1);
    for (size_t i = 0; i < sizeof pitches / sizeof *pitches; i += 1) {
        expect(typed_marks(&pitches[i], 1) == typed_marks(&pitches[i], 0), pitches[i].text);
        expect(typed_marks(&pitches[i], 1) == 2048 + (pitches[i].word & 1), pitches[i].text);
    }
    put_word(ends[1] + 1 + 10 + 4 + 8, 1); /* the header's rate */
    for (size_t i = 0; i < sizeof times / sizeof *times; i += 1) {
        expect(typed_periods(&times[i], 1) == typed_periods(&times[i], 0), times[i].text);
        expect(typed_periods(&times[i], 1) == (times[i].word == 0x4AFFFFFE ? 2 : 3), times[i].text);
    }
    example(0, 0, 1);
}

/* A text of 12 bytes is read. A length above that is 17, whatever follows, be it nothing; so it is for each
 * value, in every join. */
static void long_texts(void)
{
    static const uint8_t counts[] = {13, 14, 128, 255};

    for (int here = 0; here < VALUES; here += 1)
        for (uint32_t join = NONE; join <= 3; join += 1) {
            typed_sheet(&longest, here, 1);
            expect(needs(join, sizeof need) == 0, "a text of 12 bytes");
            for (size_t i = 0; i < sizeof counts; i += 1) {
                typed_sheet(&longest, here, 1);
                sheet[value_places[here] + 1] = counts[i];
                refused_with(DIPHONE_LONG_TEXT, join, "a text that is too long");
                sheet_length = value_places[here] + 2;
                refused_with(DIPHONE_LONG_TEXT, join, "a text that is too long, and nothing behind its length");
            }
            refused(DIPHONE_LONG_TEXT, join, "a text that is too long, strict or not");
        }
}

/* A text without its length or cut short is 8. */
static void cut_texts(void)
{
    for (int here = 0; here < VALUES; here += 1) {
        typed_sheet(&longest, here, 1);
        for (sheet_length = value_places[here] + 13; sheet_length > value_places[here]; sheet_length -= 1)
            refused_with(DIPHONE_BAD_SHEET, MODIFIED, "a text that is cut short");
    }
}

/* A value of any kind, with so many bytes of the longest text and its length behind it. */
static void kind_sheet(int here, uint8_t kind, size_t size)
{
    size_t start, end;

    typed_sheet(&longest, here, 1);
    start = value_places[here] + 1;
    end = start + 1 + longest.count;
    memmove(sheet + start + size, sheet + end, sheet_length - end);
    sheet_length -= end - start - size;
    sheet[start - 1] = kind;
}

/* The kinds above 3 are 8, with the bytes that one of the others asks for. */
static void kinds(void)
{
    static const size_t sizes[] = {4, 4, 0, 13};

    for (int here = 0; here < VALUES; here += 1) {
        for (int kind = 0; kind <= 255; kind += 1) {
            kind_sheet(here, (uint8_t)kind, sizes[kind % 4]);
            expect(needs(NONE, sizeof need) == (kind <= 3 ? 0 : DIPHONE_BAD_SHEET), "a value's kind");
        }
        for (int form = 0; form <= 3; form += 1) {
            kind_sheet(here, 4, sizes[form]);
            refused_with(DIPHONE_BAD_SHEET, MODIFIED, "kind 4");
            kind_sheet(here, 255, sizes[form]);
            refused_with(DIPHONE_BAD_SHEET, MODIFIED, "kind 255");
        }
    }
}

/* Of 8, 9 and 17 the one that is met first; the voice's own come before. */
static void texts_in_order(void)
{
    typed_sheet(&longest, ALL_VALUES, 1);
    sheet[value_places[3] + 1] = 13;
    refused(17, NONE, "a text that is too long");
    sheet_bytes("\x00", 1);
    refused(17, NONE, "it comes before bytes left over");
    sheet[value_places[4]] = 4;
    refused(17, NONE, "and before another kind");
    sheet[value_places[2] + 1] = 11;
    refused(8, NONE, "a kind of 48 before it");
    sheet[value_places[1] + 14] = 3; /* the follower of aa */
    refused(8, NONE, "a follower before it");
    typed_sheet(&longest, 1, 1);
    sheet[value_places[1] + 1] = 13;
    put_sheet_word(value_places[0] + 1, 0x7F800000);
    refused(9, NONE, "a float that is not finite before it");
    typed_sheet(&longest, 1, 1);
    sheet[value_places[1] + 1] = 13;
    put_sheet_word(value_places[2] + 1, 0x7F800000);
    refused(17, NONE, "a float that is not finite behind it");
    length -= 1;
    refused(2, NONE, "the voice before it");
    length += 1;
}

static uint32_t needed_by(const uint8_t *call, size_t call_length)
{
    return diphone_need(file, length, call, call_length, NONE, need, sizeof need);
}

/* Every front of a sheet of texts, in as many bytes: valgrind sees each byte read past them. */
static void texts_from_the_heap(void)
{
    typed_sheet(&longest, ALL_VALUES, 1);
    for (size_t count = 1; count <= sheet_length; count += 1) {
        uint8_t *heap = malloc(count);
        uint32_t answer = count < sheet_length ? 8 : 0;
        memcpy(heap, sheet, count);
        expect(needed_by(heap, count) == answer, "a front of a sheet of texts");
        if (count == value_places[VALUES - 1] + 2) {
            heap[count - 1] = 13;
            expect(needed_by(heap, count) == 17, "a text that is too long at the end");
        }
        free(heap);
    }
}

static void texts(void)
{
    example(0, 0, 1);
    typed_calls();
    typed_middles();
    long_texts();
    cut_texts();
    kinds();
    texts_in_order();
    texts_from_the_heap();
}

static void unfit_voices(void)
{
    size_t entries, end;
    example_sheet();
    example(2, 0, 1);
    refused(DIPHONE_BAD_HEADER, SIMPLE, "another codec");
    entries = example(0, 0, 1);
    file[entries - 18 - 17 - 12 + 4] = 6;
    refused(DIPHONE_BAD_TABLES, SIMPLE, "a falling offset");
    entries = example(0, 0, 1);
    file[entries + 9] = 2;
    refused(DIPHONE_BAD_INDEX, SIMPLE, "an entry past the frames");
    example(0, 0, 1);
    file[8 + 1 + 13 + 4 + 1] = 'D';
    refused(DIPHONE_NOT_DIPHONE, SIMPLE, "another back end");
    example(0, 0, 1);
    end = length;
    length = ends[4];
    refused(DIPHONE_MISSING_SECTION, SIMPLE, "no index");
    length = end - 1;
    refused(DIPHONE_SECTION_CUT, SIMPLE, "the last section cut");
    length = 0;
    refused(DIPHONE_BAD_MAGIC, SIMPLE, "no voice");
}

static void unfit_sheets(void)
{
    size_t end;
    example(0, 0, 1);
    example_sheet();
    end = sheet_length;
    for (sheet_length = 0; sheet_length < end; sheet_length += 1)
        refused(8, NONE, "a front of the sheet");
    sheet_bytes("\x00\x00", 2);
    refused(8, NONE, "a byte left over");
    segments(1, 0x7FC00000);
    refused(9, NONE, "an end that is not finite");
}

static void unfit_calls(void)
{
    example(0, 0, 1);
    two_targets(0, 0x3A83126F, 0x7F7FFFFF);
    refused(10, MODIFIED, "a slope not finite");
    expect(needs(SIMPLE, sizeof need) == 0, "no slope in a simple join");
    segments(0, 0x7FFFFFFF);
    sheet_bytes("\x00", 1);
    refused(11, MODIFIED, "a target end too far");
    expect(needs(SIMPLE, sizeof need) == 0, "no target end in a simple join");
    two_targets(0x47800000, 0x3F800001, 0x47800000);
    refused(12, MODIFIED, "65,537 marks");
    two_targets(0x47800000, 0x3F800000, 0x47800000);
    expect(needs(MODIFIED, sizeof need) == 0 && u64_at(need, 8) == 65536, "65,536 marks");
    for (int i = 0; i < BUFFERS; i += 1)
        lengths[i] = 256;
    expect(plan(MODIFIED | FIXED) == DIPHONE_SHORT_BUFFER, "65,536 marks in 256 bytes");
    untouched_report(MODIFIED, sizeof lines, DIPHONE_SHORT_BUFFER, "eight marks at sample 0 in five lines");
}

/* ---- strict calls */

enum { MOST_NAMES = 3, MOST_PHONES = 4 };

/* The names of an index, and phones with their followers; then the answers of strict calls, not folded and
 * folded. */
struct pairs {
    const char *what, *names[MOST_NAMES + 1], *phones[MOST_PHONES + 1];
    uint8_t followers[MOST_PHONES];
    uint32_t plain, folded;
};

static const struct pairs strict_calls[] = {
    {"no segment", {"pau-aa"}, {NULL}, {0}, 0, 0},
    {"one segment", {"pau-aa"}, {"q"}, {1}, 0, 0},
    {"the pair", {"pau-aa"}, {"pau", "aa"}, {0}, 0, 0},
    {"the pair turned round", {"pau-aa"}, {"aa", "pau"}, {0}, 16, 16},
    {"the first of three pairs", {"pau-aa", "aa-pau"}, {"q", "pau", "aa", "pau"}, {0}, 16, 16},
    {"the second", {"pau-aa", "aa-pau"}, {"pau", "aa", "aa", "pau"}, {0}, 16, 16},
    {"the last", {"pau-aa", "aa-pau"}, {"pau", "aa", "pau", "q"}, {0}, 16, 16},
    {"none of three", {"pau-aa", "aa-pau"}, {"pau", "aa", "pau", "aa"}, {0}, 0, 0},
    {"the first entry is no name that is tried", {"a-a", "pau-aa"}, {"pau", "pau"}, {0}, 16, 16},
    {"a front of a name", {"pau-aa"}, {"pau", "a"}, {0}, 16, 16},
    {"more than a name", {"pau-aa"}, {"pau", "aaa"}, {0}, 16, 16},
    {"no names", {"-"}, {"", ""}, {0}, 0, 0},
    {"a cluster's name", {"n_-_z"}, {"n", "z"}, {2}, 0, 0},
    {"a cluster by a far follower", {"n_-_z", "z-aa", "aa-k"}, {"n", "z", "aa", "k"}, {4}, 0, 0},
    {"a cluster by its own number", {"n_-_z"}, {"n", "z"}, {1}, 0, 0},
    {"a cluster's plain name", {"n-z"}, {"n", "z"}, {2}, 0, 0},
    {"neither name of a cluster", {"z_-_n", "z-n"}, {"n", "z"}, {2}, 16, 16},
    {"no follower, so no cluster", {"n_-_z"}, {"n", "z"}, {0}, 16, 16},
    {"a vowel follows", {"n_-_z", "z-aa"}, {"n", "z", "aa"}, {3}, 16, 16},
    {"an unknown phone follows", {"n_-_q"}, {"n", "q"}, {2}, 16, 16},
    {"the left phone is a vowel", {"aa_-_z"}, {"aa", "z"}, {2}, 16, 16},
    {"the left phone is unknown", {"q_-_z"}, {"q", "z"}, {2}, 0, 0},
    {"found when folded", {"pau-aa"}, {"pau", "ah"}, {0}, 16, 0},
    {"not found when folded", {"pau-ah"}, {"pau", "ah"}, {0}, 0, 16},
    {"found either way", {"ah-n", "aa-n"}, {"ah", "n"}, {0}, 0, 0},
};

/* The example with these names. */
static void pairs_voice(uint32_t codec, const struct pairs *pairs)
{
    size_t entries = example(codec, 2, 1);
    uint32_t count = 0;

    length = entries;
    for (; pairs->names[count] != NULL; count += 1)
        entry(pairs->names[count], 0, 1, 1);
    end_index(entries, count);
}

/* These phones, without ends and targets. */
static void pairs_sheet(const struct pairs *pairs)
{
    sheet_length = 1;
    for (sheet[0] = 0; pairs->phones[sheet[0]] != NULL; sheet[0] += 1) {
        const char *name = pairs->phones[sheet[0]];
        uint8_t before = (uint8_t)strlen(name), after[2] = {2, pairs->followers[sheet[0]]};
        sheet_bytes(&before, 1);
        sheet_bytes(name, before);
        sheet_bytes(after, 2);
    }
    sheet_bytes("", 1);
}

/* Refused with 16 whatever the buffers are, where the loose call is made; or as the loose call. */
static void strict_answer(uint32_t answer, uint32_t others, const char *what)
{
    exact(others);
    expect(plan(others) == 0, what);
    if (answer == 0)
        strict_call(others);
    else
        refused_by(answer, others | STRICT, what);
}

static void missing_pairs(void)
{
    for (size_t i = 0; i < sizeof strict_calls / sizeof *strict_calls; i += 1)
        for (uint32_t join = NONE; join <= 3; join += 1) {
            const struct pairs *pairs = &strict_calls[i];
            pairs_voice(join % 2, pairs);
            pairs_sheet(pairs);
            strict_answer(pairs->plain, join, pairs->what);
            strict_answer(pairs->folded, join | FOLD, pairs->what);
        }
}

/* With a pair missing 16 comes after the voice and the sheet, and before all else. */
static void missing_pair_in_order(void)
{
    static const struct pairs other = {"another pair", {"q-q"}, {"q", "q", "aa"}, {0}, 16, 16};

    pairs_voice(0, &other);
    for (uint32_t join = NONE; join <= 3; join += 1) {
        pairs_sheet(&other);
        refused_by(16, join | STRICT, "a pair is missing");
        sheet_length -= 1;
        refused(8, join, "the sheet is cut behind it");
        sheet_bytes("\x01\x01\x00\x00\x80\x7F\x02", 7);
        refused(9, join, "a target behind it is not finite");
        sheet_length -= 6;
        sheet_bytes("\x03\x0D", 2);
        refused(17, join, "a text behind it is too long");
        length -= 1;
        refused(2, join, "the voice is cut");
        length += 1;
    }
    two_targets(0, 0x3A83126F, 0x7F7FFFFF);
    refused_by(10, MODIFIED, "a slope not finite");
    refused_by(16, MODIFIED | STRICT, "a pair missing before a slope");
    segments(0, 0x7FFFFFFF);
    sheet_bytes("\x00", 1);
    refused_by(11, MODIFIED, "a target end too far");
    refused_by(16, MODIFIED | STRICT, "a pair missing before a target end");
    two_targets(0x47800000, 0x3F800001, 0x47800000);
    refused_by(12, MODIFIED, "65,537 marks");
    refused_by(16, MODIFIED | STRICT, "a pair missing before the marks");
}

/* ---- other calls */

static void no_join(void)
{
    exact(NONE);
    expect(six(need, 1, 0, 0, 0, 0, 0), "join none needs the index alone");
    expect(plan(NONE | FLOAT | FOLD) == 0, "join none");
    expect(six(lent[SUMMARY], 8000, 0, 0, 0, 0, 1), "join none: the summary");
    expect(u32_at(STATE, 0) == 1, "the float filter");
    expect(diphone_pull(lent[STATE], DIPHONE_STATE_BYTES, NULL, 0, NULL, 0, NULL, 0, NULL, 0) == -1,
           "join none: done at once");
    example_sheet();
}

/* Document 01's marks, at rate 8000. */
static void four_marks(void)
{
    segments(2, 0);
    add_example_targets();
    exact(UINT32_MAX);
    expect(plan(UINT32_MAX) == 0, "3 is the modified join too, bits from 6 on mean nothing");
    expect(six(lent[SUMMARY], 8000, 0, 0, 4, 0, 1) && u32_at(STATE, 0) == 1, "every bit: modified, float");
    exact(MODIFIED);
    expect(plan(MODIFIED | FIXED) == 0, "four marks");
    for (uint32_t i = 0; i < 4; i += 1)
        expect(u32_at(MARKS, 4 * i) == 125 * (i + 1), "marks 125, 250, 375, 500");
    expect(six(lent[SUMMARY], 8000, 0, 0, 4, 0, 1), "four marks past the target ends");
    past(MARKS, 16);
}

/* The example's report in lines of just its length. */
static void heap_report(const uint8_t *voice, size_t voice_length, const uint8_t *call, size_t call_length)
{
    uint8_t *heap = malloc(2 * DIPHONE_REPORT_LINE_BYTES);

    expect(diphone_report(voice, voice_length, call, call_length, SIMPLE, heap,
                          2 * DIPHONE_REPORT_LINE_BYTES) == 0,
           "a report in lines of just their length");
    expect(u64_at(heap, 24) == (2 | (uint64_t)3 << 32), "first sample and size of the last line");
    free(heap);
}

/* Buffers of just their lengths: valgrind sees each byte read or written past them. */
static void from_the_heap(void)
{
    size_t sizes[BUFFERS + 2];
    uint8_t *heap[BUFFERS + 2];
    int64_t given;

    example(1, 2, 1);
    example_sheet();
    exact(SIMPLE);
    memcpy(sizes, lengths, sizeof lengths);
    sizes[BUFFERS] = length;
    sizes[BUFFERS + 1] = sheet_length;
    for (int i = 0; i < BUFFERS + 2; i += 1)
        heap[i] = malloc(sizes[i]);
    memcpy(heap[BUFFERS], file, length);
    memcpy(heap[BUFFERS + 1], sheet, sheet_length);
    expect(diphone_plan(heap[BUFFERS], sizes[BUFFERS], heap[BUFFERS + 1], sizes[BUFFERS + 1],
                        SIMPLE | FLOAT | FOLD | STRICT,
                        heap[INDEX], sizes[INDEX], heap[MARKS], sizes[MARKS], heap[SIZES], sizes[SIZES],
                        heap[ROWS], sizes[ROWS], heap[EXCITATION], sizes[EXCITATION], heap[DECODED],
                        sizes[DECODED], heap[STATE], sizes[STATE], heap[SUMMARY], sizes[SUMMARY]) == 0,
           "a plan in buffers of just their lengths");
    for (int64_t period = 0; period < 2; period += 1) {
        uint8_t *slice = malloc(2 * (2 + period));
        given = diphone_pull(heap[STATE], sizes[STATE], heap[SIZES], sizes[SIZES], heap[ROWS], sizes[ROWS],
                             heap[EXCITATION], sizes[EXCITATION], slice, 2 * (2 + period));
        expect(given == 2 + period, "a period in a slice of just its length");
        free(slice);
    }
    heap_report(heap[BUFFERS], sizes[BUFFERS], heap[BUFFERS + 1], sizes[BUFFERS + 1]);
    for (int i = 0; i < BUFFERS + 2; i += 1)
        free(heap[i]);
}

static void g721(void)
{
    example_sheet();
    example(1, 0, 1);
    exact(SIMPLE);
    expect(six(need, 1, 2, 2, 0, 5, 6), "G.721 needs a decode buffer");
    expect(plan(SIMPLE | FIXED) == 0, "a G.721 voice");
    expect(!all_guard(lent[DECODED], 0, 6), "the decode buffer is used");
    past(DECODED, 6);
    example_report();
    alike();
}

int main(void)
{
    for (uint32_t order = 0; order <= 2; order += 2) {
        size_t entries = example(0, order, 1);
        example_sheet();
        exact(SIMPLE);
        expect(six(need, 1, 2, 2, 2 * order, 5, 0), "what the example needs");
        expect(plan(SIMPLE | FIXED) == 0, "the example is planned");
        expect(u32_at(STATE, 0) == 0, "the fixed filter");
        fills(entries, order);
        impossible_states(order);
        speak();
        for (int i = 0; i < BUFFERS; i += 1)
            lengths[i] += 3;
        for (uint32_t filter = UNNAMED; filter <= FILTER_BITS; filter += FIXED) {
            expect(plan(SIMPLE | filter | FOLD) == 0, "longer buffers, other settings");
            expect(u32_at(STATE, 0) == (filter != FIXED), "0 and 3 are the float filter too");
            fills(entries, order);
        }
        for (uint32_t filter = UNNAMED; filter <= FILTER_BITS; filter += FIXED) {
            short_buffers(filter);
            short_buffers(filter | STRICT);
        }
        example_report();
        alike();
    }
    example(0, 0, 1);
    empty_reports();
    modified_report();
    alike();
    ended_calls();
    between_samples();
    pitched_each();
    no_join();
    four_marks();
    g721();
    empty_head();
    alike();
    joints();
    alike();
    from_the_heap();
    missing_pairs();
    missing_pair_in_order();
    texts();
    unfit_voices();
    unfit_sheets();
    unfit_calls();
    if (failures == 0)
        printf("call: passed\n");
    return failures != 0;
}
