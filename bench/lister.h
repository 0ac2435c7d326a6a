/* The zone lister in C by hand, in the planner's form: one function opens the next job, another tries its next multiplier. */
#ifndef LISTER_H
#define LISTER_H

#include <stddef.h>
#include <stdint.h>

uint64_t lister_zones(uint32_t n, const uint32_t jobs[], uint8_t *room, size_t length);

#endif
