#include "bytes.h"

#include <errno.h>
#include <stdio.h>
#include <stdlib.h>
#include <string.h>

int allocate(struct bytes *bytes, uint64_t count, size_t width)
{
    bytes->at = NULL;
    bytes->length = 0;
    if (count > SIZE_MAX / width)
        return -1;
    if (count == 0)
        return 0;
    bytes->at = malloc((size_t)count * width);
    if (bytes->at == NULL)
        return -1;
    bytes->length = (size_t)count * width;
    return 0;
}

void release(struct bytes *bytes)
{
    free(bytes->at);
    bytes->at = NULL;
    bytes->length = 0;
}

/* Makes the buffer twice as long, or 64 KiB if it is empty. */
static int grow(struct bytes *bytes)
{
    size_t length = bytes->length == 0 ? 65536 : bytes->length * 2;
    uint8_t *at = length > bytes->length ? realloc(bytes->at, length) : NULL;

    if (at == NULL) {
        errno = ENOMEM;
        return -1;
    }
    bytes->at = at;
    bytes->length = length;
    return 0;
}

/* Reads a stream to its end; the buffer's length becomes the number of bytes read. */
static int read_stream(struct bytes *bytes, FILE *stream)
{
    size_t filled = 0;

    do {
        if (filled == bytes->length && grow(bytes) != 0)
            return -1;
        filled += fread(bytes->at + filled, 1, bytes->length - filled, stream);
    } while (filled == bytes->length);
    if (ferror(stream))
        return -1;
    bytes->length = filled;
    return 0;
}

int read_input(struct input *input, const char *name)
{
    int standard = strcmp(name, "-") == 0;
    FILE *stream = standard ? stdin : fopen(name, "rb");
    int status;
    int reason;

    input->name = standard ? "standard input" : name;
    input->bytes.at = NULL;
    input->bytes.length = 0;
    if (stream == NULL)
        return -1;
    status = read_stream(&input->bytes, stream);
    reason = errno;
    if (!standard)
        fclose(stream);
    if (status != 0) {
        release(&input->bytes);
        errno = reason;
    }
    return status;
}

uint32_t u32_at(const uint8_t *bytes, size_t place)
{
    const uint8_t *at = bytes + 4 * place;

    return (uint32_t)at[0] | (uint32_t)at[1] << 8 | (uint32_t)at[2] << 16 | (uint32_t)at[3] << 24;
}

uint64_t u64_at(const uint8_t *bytes, size_t place)
{
    return (uint64_t)u32_at(bytes, 2 * place) | (uint64_t)u32_at(bytes, 2 * place + 1) << 32;
}

int sample_at(const uint8_t *samples, size_t place)
{
    int word = samples[2 * place] | samples[2 * place + 1] << 8;

    return word < 32768 ? word : word - 65536;
}
