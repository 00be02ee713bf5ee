/* The diphone voice, for programs in C on x86-64. Link libdiphone_c.a.
 *
 * Any number of threads may call at once, each with buffers of its own; a voice and a sheet may be
 * shared, as they are only read.
 *
 * Every function takes numbers and byte buffers alone, ends for every input, allocates nothing and
 * keeps nothing between calls. A buffer is a pointer and a number of bytes; with 0 bytes the pointer
 * may be null. No alignment is asked for. Buffers must not overlap. Numbers of several bytes are
 * little-endian; bytes past the last whole element of a buffer do not count. A function that refuses
 * leaves every buffer as it was. The processor must round to nearest and keep subnormal floats, as it
 * does unless a program sets it otherwise (a program linked with -ffast-math does). A thread that
 * calls them should have 64 KiB of stack left (60 KB were seen in a call; tests/c/stack.c measures it).
 */
#ifndef DIPHONE_H
#define DIPHONE_H

#include <stddef.h>
#include <stdint.h>

#define DIPHONE_VERSION "1.7"

#ifdef __cplusplus
#define DIPHONE_RESTRICT
extern "C" {
#else
#define DIPHONE_RESTRICT restrict
#endif

/* Refusals. */
enum {
    DIPHONE_BAD_MAGIC = 1,       /* the first 8 bytes are not FLRSDAT and 0x01 */
    DIPHONE_SECTION_CUT = 2,     /* a section is cut short, or its name is not UTF-8 */
    DIPHONE_NOT_DIPHONE = 3,     /* the voice names another back end, or names it not in UTF-8 */
    DIPHONE_MISSING_SECTION = 4, /* a needed section is missing */
    DIPHONE_BAD_HEADER = 5,      /* the header is cut short or outside its limits */
    DIPHONE_BAD_TABLES = 6,      /* the voice's tables do not fit each other, or the residual has
                                    more than 16,777,215 bytes */
    DIPHONE_BAD_INDEX = 7,       /* the index is cut short, empty, has a name that is not UTF-8 or
                                    stands twice, or an entry that ends past the frames */
    DIPHONE_BAD_SHEET = 8,       /* the call sheet is malformed */
    DIPHONE_NOT_FINITE = 9,      /* a float of the sheet is not finite */
    DIPHONE_BAD_SLOPE = 10,      /* the slope between two targets is not finite as f32 */
    DIPHONE_PAST_LIMIT = 11,     /* a pitch mark or a target end is above 16,777,215 */
    DIPHONE_TOO_MANY_MARKS = 12, /* there are more than 65,536 pitch marks */
    DIPHONE_SHORT_BUFFER = 13,   /* a buffer is shorter than stated */
    DIPHONE_SHORT_SLICE = 14,    /* the sample slice is shorter than the next period */
    DIPHONE_BAD_STATE = 15,      /* the filter state is impossible, or the rows end within the
                                    next one */
    DIPHONE_MISSING_PAIR = 16,   /* the call is strict, and a pair finds no name in the index */
    DIPHONE_LONG_TEXT = 17,      /* a text of the sheet has more than 12 bytes */
    DIPHONE_LAST_REFUSAL = 17    /* the last of them */
};

/* The record of a voice: the 40 bytes of its section sts.header as stored, then two numbers of
 * 8 bytes: how many entries its index has, and how many bytes the decode buffer of a call needs. */
#define DIPHONE_VOICE_BYTES 56

/* How many bytes of the index buffer an entry takes. */
#define DIPHONE_INDEX_ENTRY_BYTES 8

/* Opens a voice file.
 *
 * Takes:   voice, the file's bytes; index, 8 bytes for each entry of the voice's index or more
 *          (an entry has 5 bytes at least, so 8 * (voice_len / 5) always do); record,
 *          DIPHONE_VOICE_BYTES or more.
 * Answers: 0; or 1 to 7 for the voice file, in this order; or 13 if index or record is too short.
 * Leaves:  on 0, in index the sorted index (for each entry, in the order of the names' bytes, the
 *          file offset of its name-length byte, 8 bytes), in record the voice's record; bytes past
 *          these as they were. */
uint32_t diphone_open(const uint8_t *DIPHONE_RESTRICT voice, size_t voice_len,
                      uint8_t *DIPHONE_RESTRICT index, size_t index_len,
                      uint8_t *DIPHONE_RESTRICT record, size_t record_len);

/* Settings of a call: one word, of a join and, perhaps, a filter, DIPHONE_FOLD and DIPHONE_STRICT,
 * joined by |. Every number is a setting: of bits 0 and 1 (the join) 3 is the modified join too; of
 * bits 2 and 3 (the filter) 3 is the float filter too, and 0 names none: such a call answers in
 * everything as the one that names the float filter; bits 6 and above mean nothing yet and should
 * be 0.
 *
 * After folding, a pair of adjacent segments tries the name left_-_right, where the left phone is
 * no vowel and its follower is a consonant or a pause, then left-right. A pair that finds neither in
 * the index is spoken by the index's first entry in order; a strict call with such a pair is refused
 * with 16, in every join. A strict call that 16 does not refuse is in everything as one without
 * DIPHONE_STRICT.
 *
 * The modified join alone reads where phones end. A pair has two target ends, one for each half:
 * the end of its left phone, and the middle between the ends of both, (left + right) / 2. Either is
 * a time in seconds and is multiplied by the rate, all in f32; it goes to the nearest sample, an
 * exact half up, and is sample 0 below zero. A target end above 16,777,215 is refused with 11.
 *
 * The modified join alone reads pitch targets too. Where a target's f0 is absent, the pitch counted
 * for the target before it goes on, over several such targets too; for the first it is 120 Hz. A
 * written 0 is 0 Hz. An absent end or position counts as 0.
 *
 * An end, a position or an f0 may also stand in the sheet as the text that was typed: up to 12 bytes,
 * of which a sign in front, digits and one point count, up to the first byte that is something else.
 * It is the float of 32 bits nearest to that decimal, of two as near the even one; without a digit it
 * is a written 0. The call is in everything that of the sheet with these floats. A length above 12 is
 * refused with 17, whatever follows it. */
enum {
    DIPHONE_JOIN_NONE = 0,      /* no periods */
    DIPHONE_JOIN_SIMPLE = 1,    /* each period as long as it is stored */
    DIPHONE_JOIN_MODIFIED = 2,  /* periods by the sheet's ends and targets */
    DIPHONE_FILTER_UNNAMED = 0, /* the call ends up with the float filter */
    DIPHONE_FILTER_FIXED = 4,
    DIPHONE_FILTER_FLOAT = 8,
    DIPHONE_FOLD = 16,          /* `ah` counts as `aa` */
    DIPHONE_STRICT = 32         /* every pair must find a name */
};

/* What the buffers of a call need: six numbers of 8 bytes each, for entries of the index, marks,
 * periods, row values, bytes of the excitation and bytes of the decode buffer. */
#define DIPHONE_NEED_BYTES 48

/* Tells how long the buffers of a call must be. It makes the call's checks and writes nothing but
 * need.
 *
 * Takes:   voice and sheet, the bytes of a voice file and of a call sheet; settings, as above (the
 *          filter plays no part); need, DIPHONE_NEED_BYTES or more.
 * Answers: 0; or 1 to 12, 16 or 17 as diphone_plan does; or 13 if need is too short.
 * Leaves:  on 0, in need the six numbers: an index of 8 bytes an entry, marks of 4, sizes of 4 bytes
 *          a period, rows of 2 a row value, excitation and decoded of so many bytes are long enough,
 *          and shorter ones are not; bytes past these as they were. */
uint32_t diphone_need(const uint8_t *DIPHONE_RESTRICT voice, size_t voice_len,
                      const uint8_t *DIPHONE_RESTRICT sheet, size_t sheet_len,
                      uint32_t settings, uint8_t *DIPHONE_RESTRICT need, size_t need_len);

/* A line of a call's report: four numbers of 4 bytes each, for the pair, the half, the first sample and
 * the size of a period. Pairs of adjacent segments count from 1; the half is 1 or 2; samples count from
 * 0. */
#define DIPHONE_REPORT_LINE_BYTES 16

/* Tells for each period of a call which pair it belongs to, which half of it, where it begins and how
 * long it is. It makes the call's checks and writes nothing but lines.
 *
 * Takes:   voice, sheet and settings as diphone_need does (the filter plays no part); lines,
 *          DIPHONE_REPORT_LINE_BYTES for each period or more (diphone_need tells how many periods).
 * Answers: 0; or 1 to 12, 16 or 17 as diphone_need does; or 13 if lines is too short.
 * Leaves:  on 0, in lines a line for each period, in their order; bytes past these as they were. Pair
 *          and half are those of the unit that took the period's mark: in the simple join a unit takes
 *          the marks that its own periods made, those of empty periods too; in the modified join, unit by
 *          unit, the marks not yet taken and not above its target end. In every join pairs never fall
 *          from line to line, nor do halves within a pair. A period begins where the one before it ends,
 *          and the sizes, those that diphone_plan fills, add up to the samples of the call. */
uint32_t diphone_report(const uint8_t *DIPHONE_RESTRICT voice, size_t voice_len,
                        const uint8_t *DIPHONE_RESTRICT sheet, size_t sheet_len,
                        uint32_t settings, uint8_t *DIPHONE_RESTRICT lines, size_t lines_len);

/* What a call gave: six numbers of 8 bytes each, for samples per second, periods, samples, marks,
 * the order (row values a period) and entries of the index. */
#define DIPHONE_SUMMARY_BYTES 48

/* A filter state: numbers of 4 bytes for the filter that the call ended up with (0 fixed, 1 float), the
 * order, the ring place and the bits of coeff_min and coeff_range; of 8 bytes for the period and the
 * sample place; of 4 bytes for each of the history's 33 places (an i32 of the fixed filter, the bits of
 * an f32 of the float filter). The ring has order + 1 of these places, counted upwards; the ring place
 * is the one written next, the order in a fresh state. */
#define DIPHONE_STATE_BYTES 168

/* Makes a call: opens the voice, reads the sheet, makes the pitch marks and fills the buffers.
 *
 * Takes:   voice, sheet and settings as diphone_need does; index, marks, sizes, rows, excitation and
 *          decoded, each as long as diphone_need tells or longer; state, DIPHONE_STATE_BYTES or more;
 *          summary, DIPHONE_SUMMARY_BYTES or more.
 * Answers: 0; or 1 to 7 for the voice file, then 8, 9 or 17 for the sheet, whichever is met first in
 *          it, then 16 for a pair of a strict call, then 11 for a target end, then 10, 12 or 11 for
 *          the marks in the order made, then 13 if a buffer is too short. The simple join gives no
 *          10, and 11 for its marks alone; join none gives no 10, 11 or 12, and a sheet of fewer than
 *          two segments no 16 either.
 * Leaves:  on 0, in index the sorted index as diphone_open has it, in marks every pitch mark (4 bytes
 *          each), in sizes the size of each period in samples (4 bytes), in rows its row of order
 *          values as stored (2 bytes each), in excitation a mu-law byte for each sample, in decoded
 *          the decoded periods, each over the one before, in state the fresh filter state, in summary
 *          the call's summary; bytes past these as they were. */
uint32_t diphone_plan(const uint8_t *DIPHONE_RESTRICT voice, size_t voice_len,
                      const uint8_t *DIPHONE_RESTRICT sheet, size_t sheet_len,
                      uint32_t settings, uint8_t *DIPHONE_RESTRICT index, size_t index_len,
                      uint8_t *DIPHONE_RESTRICT marks, size_t marks_len,
                      uint8_t *DIPHONE_RESTRICT sizes, size_t sizes_len,
                      uint8_t *DIPHONE_RESTRICT rows, size_t rows_len,
                      uint8_t *DIPHONE_RESTRICT excitation, size_t excitation_len,
                      uint8_t *DIPHONE_RESTRICT decoded, size_t decoded_len,
                      uint8_t *DIPHONE_RESTRICT state, size_t state_len,
                      uint8_t *DIPHONE_RESTRICT summary, size_t summary_len);

/* What diphone_pull answers once all periods were given. */
#define DIPHONE_DONE (-1)

/* Pulls the next period of a call.
 *
 * Takes:   state, a filter state; sizes, rows and excitation, just as far as the call filled them:
 *          4 bytes for each period, 2 bytes for each of its order row values, a byte for each
 *          sample; samples, 2 bytes for each sample of the next period or more.
 * Answers: how many samples it gave (0 or more: an empty period gives 0, so pull until the answer is
 *          DIPHONE_DONE); or DIPHONE_DONE if all were given before; or -14 if samples is too short,
 *          and the same pull may be made again with a longer slice; or -15 if the state is
 *          impossible: shorter than DIPHONE_STATE_BYTES, of another filter, with an order above 32, a
 *          ring place above the order, a period or sample place past the sizes or the excitation, or
 *          a scale outside -16 to 16, or if the rows end within the next one. It looks for -15, then
 *          for DIPHONE_DONE, then for -14.
 * Leaves:  where it gives a period, at the front of samples its samples (16 bits each, in two's
 *          complement), and in state the state after it (a NaN of the float history as 0x7FC00000);
 *          bytes past these as they were. Else all as it was. */
int64_t diphone_pull(uint8_t *DIPHONE_RESTRICT state, size_t state_len,
                     const uint8_t *DIPHONE_RESTRICT sizes, size_t sizes_len,
                     const uint8_t *DIPHONE_RESTRICT rows, size_t rows_len,
                     const uint8_t *DIPHONE_RESTRICT excitation, size_t excitation_len,
                     uint8_t *DIPHONE_RESTRICT samples, size_t samples_len);

#ifdef __cplusplus
}
#endif

#endif
