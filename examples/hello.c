/* Speaks a call with the simple join and prints its samples: hello VOICE SHEET. In C or in C++; the README has
 * the line that compiles it. */
#include "diphone.h"

#include <stdio.h>
#include <stdlib.h>

#ifdef __cplusplus
#define BYTES(p) static_cast<uint8_t *>(p)
#else
#define BYTES(p) (p)
#endif

struct buffer {
    uint8_t *at;
    size_t length;
};

static struct buffer room(size_t length)
{
    struct buffer buffer = {BYTES(calloc(length + 1, 1)), length};
    if (buffer.at == NULL)
        exit(1);
    return buffer;
}

static struct buffer file_of(const char *name)
{
    struct buffer file = room(65536);
    FILE *stream = fopen(name, "rb");
    if (stream == NULL)
        exit(1);
    file.length = fread(file.at, 1, file.length, stream);
    fclose(stream);
    return file;
}

/* Number i of a report: 8 bytes, little-endian. */
static size_t number(const uint8_t *report, int i)
{
    size_t n = 0;
    for (int k = 7; k >= 0; k -= 1)
        n = n << 8 | report[8 * i + k];
    return n;
}

int main(int count, char **words)
{
    static const size_t width[6] = {8, 4, 4, 2, 1, 1};
    const uint32_t settings = DIPHONE_JOIN_SIMPLE | DIPHONE_FILTER_FIXED;
    uint8_t need[DIPHONE_NEED_BYTES], state[DIPHONE_STATE_BYTES], summary[DIPHONE_SUMMARY_BYTES];
    struct buffer lent[6], samples;
    const char *separator = "";
    int64_t given;
    if (count != 3)
        return 2;
    const struct buffer voice = file_of(words[1]), sheet = file_of(words[2]);
    if (diphone_need(voice.at, voice.length, sheet.at, sheet.length, settings, need, sizeof need) != 0)
        return 1;
    for (int i = 0; i < 6; i += 1)
        lent[i] = room(width[i] * number(need, i));
    if (diphone_plan(voice.at, voice.length, sheet.at, sheet.length, settings, lent[0].at, lent[0].length, lent[1].at, lent[1].length, lent[2].at, lent[2].length, lent[3].at,
                     lent[3].length, lent[4].at, lent[4].length, lent[5].at, lent[5].length, state, sizeof state,
                     summary, sizeof summary) != 0)
        return 1;
    samples = room(2 * lent[4].length);
    while ((given = diphone_pull(state, sizeof state, lent[2].at, lent[2].length, lent[3].at, lent[3].length,
                                 lent[4].at, lent[4].length, samples.at, samples.length)) >= 0)
        for (int64_t i = 0; i < given; i += 1) {
            int word = samples.at[2 * i] | samples.at[2 * i + 1] << 8;
            printf("%s%d", separator, word < 32768 ? word : word - 65536);
            separator = " ";
        }
    putchar('\n');
    return given == DIPHONE_DONE ? 0 : 1;
}
