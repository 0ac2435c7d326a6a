/* Words of eight bytes, the most significant first, as the rows have them. */
#ifndef WORD_H
#define WORD_H

#include <stdint.h>

static inline void put_word(uint8_t *at, uint64_t word)
{
    for (int k = 7; k >= 0; k--, word /= 256)
        at[k] = (uint8_t)word;
}

static inline uint64_t word_at(const uint8_t *at)
{
    uint64_t word = 0;
    for (int k = 0; k < 8; k++)
        word = word << 8 | at[k];
    return word;
}

#endif
