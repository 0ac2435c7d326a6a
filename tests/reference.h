/* A second planner, written from the rules alone by plain enumeration, to compare the proved one with. */
#ifndef REFERENCE_H
#define REFERENCE_H

#include <stdint.h>

/* As in charopleth.h. */
uint64_t reference_read(const uint8_t *profile, uint64_t length, uint32_t values[]);
uint64_t reference_write(uint32_t n, const uint32_t jobs[], uint8_t *room, uint64_t length);

/* As in charopleth.h; but where more than `most` parts of lists would be visited it gives up and answers REFERENCE_LONG. */
#define REFERENCE_LONG UINT64_MAX
uint64_t reference_choose(uint32_t n, const uint32_t jobs[], uint32_t budget, uint64_t answer[], uint64_t most);

/* The need and the loss of given periods. */
uint64_t reference_score(uint32_t n, const uint32_t jobs[], const uint32_t periods[8], uint64_t answer[]);

/* The zones by grouping the permitted lists; REFERENCE_LONG where more than `most` parts of lists would be visited. */
uint64_t reference_zones(uint32_t n, const uint32_t jobs[], uint8_t *room, uint64_t length, uint64_t most);

/* The table from all plans, sorted; REFERENCE_LONG where more than `most` parts of lists would be visited. */
uint64_t reference_table(uint32_t n, const uint32_t jobs[], uint8_t *room, uint64_t length, uint64_t most);

/* The sixteen bytes of a table row. */
void reference_row(uint64_t start, const uint64_t periods[8], uint8_t row[16]);

/* Its start. */
uint32_t reference_start(const uint8_t row[16]);

/* The number of the row that answers a budget, from 1, by the rules row by row. */
uint64_t reference_lookup(uint32_t n, const uint32_t jobs[], const uint8_t *table, uint64_t length, uint32_t budget);

/* The verdict on the values alone, 0 or the refusal. */
uint64_t reference_judge(uint32_t n, const uint32_t jobs[]);

#endif
