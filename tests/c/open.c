/* Opens a voice like document 01's example through the C interface, and refuses what is unfit. Ends
 * with 0 if all is as it should be. */
#define TEST "open"
#include "example.h"

/* ---- buffers with guards */

static uint8_t index_buffer[64];
static uint8_t record_buffer[80];

static void reset(void)
{
    memset(index_buffer, GUARD, sizeof index_buffer);
    memset(record_buffer, GUARD, sizeof record_buffer);
}

static uint32_t open_with(size_t index_length, size_t record_length)
{
    reset();
    return diphone_open(file, length, index_buffer, index_length, record_buffer, record_length);
}

static void refused(uint32_t answer, uint32_t number, const char *what)
{
    expect(answer == number, what);
    expect(all_guard(index_buffer, 0, sizeof index_buffer), what);
    expect(all_guard(record_buffer, 0, sizeof record_buffer), what);
}

int main(void)
{
    size_t entries = example(0, 0, 2);
    expect(open_with(16, DIPHONE_VOICE_BYTES) == 0, "the example opens");
    expect(u64_at(index_buffer, 0) == entries + 11, "aa-pau is first");
    expect(u64_at(index_buffer, 8) == entries, "pau-aa is second");
    expect(all_guard(index_buffer, 16, sizeof index_buffer), "bytes past the index");
    expect(memcmp(record_buffer, file + 8 + 1 + 13 + 4 + 9 + 1 + 10 + 4, 40) == 0, "the header");
    expect(u64_at(record_buffer, 40) == 2, "two entries");
    expect(u64_at(record_buffer, 48) == 0, "mu-law needs no decode buffer");
    expect(all_guard(record_buffer, DIPHONE_VOICE_BYTES, sizeof record_buffer), "past the record");
    expect(open_with(23, 57) == 0, "longer buffers");
    expect(all_guard(index_buffer, 16, sizeof index_buffer), "whole elements alone");

    refused(open_with(15, DIPHONE_VOICE_BYTES), DIPHONE_SHORT_BUFFER, "an index one byte short");
    refused(open_with(16, 55), DIPHONE_SHORT_BUFFER, "a record one byte short");
    reset();
    refused(diphone_open(file, length, NULL, 0, NULL, 0), DIPHONE_SHORT_BUFFER, "no buffers");
    refused(diphone_open(NULL, 0, NULL, 0, NULL, 0), DIPHONE_BAD_MAGIC, "no file");

    example(1, 0, 2);
    expect(open_with(16, DIPHONE_VOICE_BYTES) == 0, "a G.721 voice opens");
    expect(u64_at(record_buffer, 48) == 6, "twice the longest period's bytes");
    example(2, 0, 2);
    refused(open_with(0, 0), DIPHONE_BAD_HEADER, "another codec, before 13");

    entries = example(0, 0, 2);
    file[8 + 1 + 13 + 4 + 1] = 'D';
    refused(open_with(64, 80), DIPHONE_NOT_DIPHONE, "another back end");
    entries = example(0, 0, 2);
    file[entries - 18 - 17 - 12 + 4] = 6; /* the second offset, above the third */
    refused(open_with(64, 80), DIPHONE_BAD_TABLES, "a falling offset");
    entries = example(0, 0, 2);
    file[entries + 9] = 2; /* the first entry's first half, one past the frames */
    refused(open_with(64, 80), DIPHONE_BAD_INDEX, "an entry past the frames");

    /* Every front of the file is refused: between two sections as one with sections missing. */
    example(0, 0, 2);
    for (size_t cut = 0; cut < length; cut += 1) {
        uint32_t number = cut < 8 ? DIPHONE_BAD_MAGIC : DIPHONE_SECTION_CUT;
        for (size_t i = 0; i < sections; i += 1)
            if (cut == ends[i])
                number = DIPHONE_MISSING_SECTION;
        reset();
        refused(diphone_open(file, cut, index_buffer, 64, record_buffer, 80), number, "a front of the file");
    }
    if (failures == 0)
        printf("open: passed\n");
    return failures != 0;
}
