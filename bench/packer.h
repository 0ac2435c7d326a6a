/* A profile's bytes read and written in C by hand, with shifts and masks at fixed places and a word's bytes one at a time: what the
 * proved ones, which walk the widths of the fields, are measured against. */
#ifndef PACKER_H
#define PACKER_H

#include <stddef.h>
#include <stdint.h>

/* As in charopleth.h. */
uint64_t packer_read(const uint8_t *profile, size_t length, uint32_t values[]);
uint64_t packer_write(uint32_t n, const uint32_t jobs[], uint8_t *room, size_t length);

#endif
