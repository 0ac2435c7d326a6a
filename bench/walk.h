/* The same walks as the planner's, with the same cuts, written in C by hand: what the proved ones are measured against. */
#ifndef WALK_H
#define WALK_H

#include <stddef.h>
#include <stdint.h>

uint64_t walk_choose(uint32_t n, const uint32_t jobs[], uint32_t budget, uint64_t answer[]);

/* The same choice by plain enumeration: every permitted list is scored. */
uint64_t walk_every(uint32_t n, const uint32_t jobs[], uint32_t budget, uint64_t answer[]);

uint64_t walk_table(uint32_t n, const uint32_t jobs[], uint8_t *room, size_t length);

/* The same without the cut for jobs that have no pages. */
uint64_t walk_table_uncut(uint32_t n, const uint32_t jobs[], uint8_t *room, size_t length);

#endif
