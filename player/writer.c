#include "writer.h"

#define WAV_HEADER_BYTES 44

static uint8_t *put(uint8_t *at, uint32_t number, int width)
{
    for (; width > 0; width -= 1) {
        *at = (uint8_t)number;
        at += 1;
        number >>= 8;
    }
    return at;
}

static uint8_t *put_text(uint8_t *at, const char *text)
{
    for (; *text != '\0'; text += 1) {
        *at = (uint8_t)*text;
        at += 1;
    }
    return at;
}

/* RIFF: one format chunk (PCM, mono, 16 bits) and one data chunk. */
static void write_wav_header(FILE *stream, uint32_t rate, uint32_t data_bytes)
{
    uint8_t header[WAV_HEADER_BYTES];
    uint8_t *at = put_text(header, "RIFF");

    at = put(at, WAV_HEADER_BYTES - 8 + data_bytes, 4);
    at = put_text(at, "WAVEfmt ");
    at = put(at, 16, 4);       /* the format chunk's length */
    at = put(at, 1, 2);        /* PCM */
    at = put(at, 1, 2);        /* channels */
    at = put(at, rate, 4);     /* samples a second */
    at = put(at, rate * 2, 4); /* bytes a second */
    at = put(at, 2, 2);        /* bytes a sample */
    at = put(at, 16, 2);       /* bits a sample */
    at = put_text(at, "data");
    put(at, data_bytes, 4);
    fwrite(header, 1, sizeof header, stream);
}

void write_start(FILE *stream, enum output output, const struct speech *speech)
{
    if (output == OUTPUT_WAV)
        write_wav_header(stream, (uint32_t)speech->rate, (uint32_t)speech->length * 2);
    if (output == OUTPUT_LIST)
        fprintf(stream, "%llu %llu %llu\n", (unsigned long long)speech->rate,
                (unsigned long long)speech->periods, (unsigned long long)speech->length);
}

static void print_period(FILE *stream, uint64_t number, const uint8_t *samples, size_t size)
{
    size_t place;

    fprintf(stream, "%llu %llu", (unsigned long long)number, (unsigned long long)size);
    for (place = 0; place < size; place += 1)
        fprintf(stream, " %d", sample_at(samples, place));
    putc('\n', stream);
}

void write_period(FILE *stream, enum output output, uint64_t number, const uint8_t *samples,
                  size_t size)
{
    if (output == OUTPUT_LIST)
        print_period(stream, number, samples, size);
    else if (size > 0)
        fwrite(samples, 2, size, stream);
}
