/* A field put into packed rows: its bits, the most significant first. */
#ifndef BITS_H
#define BITS_H
#include <stddef.h>
#include <stdint.h>

/* Writes v's last `wide` bits behind the first `at` of bytes that are zero there; answers the next place. */
static inline size_t put_bits(uint8_t *bytes, size_t at, int wide, uint64_t v) {
    for (; wide > 0; at++)
        if (v >> --wide & 1) bytes[at / 8] = (uint8_t)(bytes[at / 8] | 128 >> at % 8);
    return at;
}

/* The same for each byte of a text, as characters of 7 bits. */
static inline size_t put_text(uint8_t *bytes, size_t at, const char *text) {
    for (; *text; text++) at = put_bits(bytes, at, 7, (uint8_t)*text);
    return at;
}

#endif
