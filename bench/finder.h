/* The same lookup as the planner's, every row checked and then the last one within the budget, written in C by hand: what the
 * proved one is measured against. */
#ifndef FINDER_H
#define FINDER_H

#include <stddef.h>
#include <stdint.h>

uint64_t finder_lookup(uint32_t n, const uint32_t jobs[], const uint8_t *table, size_t length, uint32_t budget);

#endif
