/* What the real programs share: numbers without order, and how a checksum is written. */
#ifndef PRINT_H
#define PRINT_H

#include "fsu.h"

/* The next of a row of numbers without visible order. The first is any but 0. */
static inline uint32_t next_number(uint32_t *last)
{
    *last ^= *last << 13;
    *last ^= *last >> 17;
    *last ^= *last << 5;
    return *last;
}

/* Writes a word as eight hexadecimal digits and a line feed. */
static inline void print_word(uint32_t word)
{
    char line[9];
    for (int i = 0; i < 8; i++)
        line[i] = "0123456789abcdef"[word >> (28 - 4 * i) & 15];
    line[8] = '\n';
    fsu_write(1, line, sizeof line);
}

#endif
