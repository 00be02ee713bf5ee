/* Bytes: allocated buffers, whole files, little-endian numbers. */
#ifndef PLAYER_BYTES_H
#define PLAYER_BYTES_H

#include <stddef.h>
#include <stdint.h>

/* An allocated buffer; with 0 bytes the pointer may be null. */
struct bytes {
    uint8_t *at;
    size_t length;
};

/* Allocates `count` elements of `width` bytes. Answers 0, or -1 if there is no such memory. */
int allocate(struct bytes *bytes, uint64_t count, size_t width);

void release(struct bytes *bytes);

/* A file that was read, under the name that a person knows it by. */
struct input {
    const char *name;
    struct bytes bytes;
};

/* Reads a whole file, or standard input where the name is a hyphen. Answers 0, or -1 with errno set. */
int read_input(struct input *input, const char *name);

uint32_t u32_at(const uint8_t *bytes, size_t place);
uint64_t u64_at(const uint8_t *bytes, size_t place);

/* A sample's number, from its two bytes. */
int sample_at(const uint8_t *samples, size_t place);

#endif
