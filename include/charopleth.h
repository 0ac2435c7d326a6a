/* Charopleth: a proved planner for the write jobs of call recorders.
 *
 * A profile as values is n, the number of jobs, and the numbers of eight jobs, job after job, of each lo, hi, data, metadata
 * and stiffness; names for their places stand below. lo and hi are the shortest and the longest period in seconds, data and
 * metadata the pages of one run. Jobs beyond n are ignored. Every value may be given. Refused are, before all else, n first,
 * then the first bad job, and of a job what stands first here:
 *
 *     3  n is 0 or above 8; the detail is 0
 *     5  lo is 0, hi below lo, or hi above 3,600; the detail of this and the next two is the job's number from 1
 *     6  stiffness outside 1 to 32
 *     8  data or metadata above 32,767
 *
 * Periods, one for each job, are permitted when each lies in its job's interval and is a whole multiple of the one before.
 * All jobs start together at second 0, and each runs at every multiple of its period. At a second at which some run, each of
 * these writes its data, and the drive commits metadata once, as much as the largest of theirs. With T the last job's period,
 * the need is 3,600 times the pages that are so written in the seconds 1 to T, over T: whole pages per hour, and a remainder
 * over T that is below T. Scoring and choosing tell both. All else goes by the need rounded up to whole pages: periods fit a
 * budget when that is at most the budget. A job's rate is 3,600 times its own data and metadata over its period, rounded down,
 * and its loss is its stiffness times the square of what the rate falls by against the shortest period; the loss of a plan is
 * the sum over its jobs.
 *
 * Each function returns a number of 64 bits: the high 16 bits are the refusal's number, 0 for none, and the low 48 its
 * detail, 0 where none is said, or where nothing is refused the count that is said below. A detail or count of 2^48 or more,
 * which never occurs, would be told as 2^48 - 1. On a refusal no array and no buffer is changed.
 *
 * What is proved holds for pointers to arrays of the length that is said, aligned, not null where the length is not 0, and
 * not overlapping one another. Nothing is kept between calls, and nothing is allocated; no call was seen to need more than
 * 256 KB of stack.
 */
#ifndef CHAROPLETH_H
#define CHAROPLETH_H

#include <stddef.h>
#include <stdint.h>

#ifdef __cplusplus
extern "C" {
#endif

#define CHAROPLETH_REFUSAL(result) ((unsigned)((result) >> 48))
#define CHAROPLETH_DETAIL(result) ((result) & 0xffffffffffffu)

/* The numbers of a job, in their order. CHAROPLETH_JOB(jobs, i)[CHAROPLETH_HI] is hi of job i, counted from 0. */
enum {
    CHAROPLETH_LO,
    CHAROPLETH_HI,
    CHAROPLETH_DATA,
    CHAROPLETH_METADATA,
    CHAROPLETH_STIFFNESS,
    CHAROPLETH_JOB_NUMBERS /* how many they are */
};
#define CHAROPLETH_JOB(jobs, i) ((jobs) + CHAROPLETH_JOB_NUMBERS * (i))

/* The numbers of an answer, in their order; the first two are the need. A score ends before the periods; a choice has one for
 * each of eight jobs. */
enum { CHAROPLETH_WHOLE, CHAROPLETH_REMAINDER, CHAROPLETH_LOSS, CHAROPLETH_PERIODS };

/* An answer's need rounded up to whole pages: the least budget that its periods fit, and what a row with them starts at. */
#define CHAROPLETH_NEED(answer) ((answer)[CHAROPLETH_WHOLE] + ((answer)[CHAROPLETH_REMAINDER] != 0))

/* The lengths of the arrays that are called jobs and values, and of the answers of scoring and choosing. */
#define CHAROPLETH_MOST_JOBS 8
#define CHAROPLETH_JOBS_LENGTH (CHAROPLETH_MOST_JOBS * CHAROPLETH_JOB_NUMBERS)
#define CHAROPLETH_VALUES_LENGTH (1 + CHAROPLETH_JOBS_LENGTH)
#define CHAROPLETH_SCORE_LENGTH CHAROPLETH_PERIODS
#define CHAROPLETH_CHOICE_LENGTH (CHAROPLETH_PERIODS + CHAROPLETH_MOST_JOBS)

/* The values that a profile's bytes stand for. values: n, then the numbers of its jobs, zeros beyond n, so that values[0]
 * and values + 1 are what the other functions take. Returns 0 where they were read. The bytes hold 4 bits of edition, 4 of n,
 * then for each job 12 bits of lo, 12 of hi, 15 of data, 15 of metadata, 6 of stiffness and 4 spare, most significant first.
 * Refuses 1 where there are no bytes, 2 where the edition is not 1, 3 as above, 4 where length is not 1 + 8n; then the first
 * bad job, 5 and 6 as above, then 7 where its spare bits are not zero, with its number from 1. */
uint64_t charopleth_read(const uint8_t *profile, size_t length, uint32_t values[CHAROPLETH_VALUES_LENGTH]);

/* A profile's bytes at the front of `room`. Returns their number, 1 + 8n; bytes after them are untouched. Refuses 11 where
 * length is too small, with the number needed. */
uint64_t charopleth_write(uint32_t n, const uint32_t jobs[CHAROPLETH_JOBS_LENGTH], uint8_t *room, size_t length);

/* What given periods need and lose. periods: eight numbers of seconds, of which those beyond n are ignored. answer: whole
 * pages per hour of the need, its remainder over the last job's period, and the loss. Returns 0 where they were scored.
 * Refuses 13 where they are not permitted, with the number, from 1, of the first job whose interval or whose period before
 * rules its own period out. */
uint64_t charopleth_score(uint32_t n, const uint32_t jobs[CHAROPLETH_JOBS_LENGTH],
                          const uint32_t periods[CHAROPLETH_MOST_JOBS], uint64_t answer[CHAROPLETH_SCORE_LENGTH]);

/* The best periods for a budget of flash pages per hour: permitted, fitting, and of the smallest loss that such periods have;
 * of those with one loss, the ones of smallest need, rounded up, and then the list that is smaller where two first differ.
 * answer: whole pages per hour of the need, its remainder over the last job's period, the loss, and eight periods in seconds,
 * 0 beyond n. Returns 0 where periods were chosen. Refuses 9 where no periods are permitted, and 10 where none fit the budget,
 * with the least budget that would do. */
uint64_t charopleth_choose(uint32_t n, const uint32_t jobs[CHAROPLETH_JOBS_LENGTH], uint32_t budget,
                           uint64_t answer[CHAROPLETH_CHOICE_LENGTH]);

/* The harmonic zones of a profile: lists of multipliers 1, a2 .. an, each a multiple of the one before, with all first periods
 * for which the multiples lie in the jobs' intervals, at least one. A row of sixteen bytes each, at the front of `room`: least
 * and greatest first period and the multipliers a2 to a8, 12 bits each, then 20 zero bits; multipliers beyond n are 0. By a2,
 * then a3, and so on, rising. Returns the number of rows; bytes after them are untouched. Refuses 9 where there are none, and
 * 11 where length / 16 rows are too few, with the number needed. */
uint64_t charopleth_zones(uint32_t n, const uint32_t jobs[CHAROPLETH_JOBS_LENGTH], uint8_t *room, size_t length);

/* The budget table of a profile, a row of sixteen bytes for each different best answer as the budget goes through all 32-bit
 * numbers, at the front of `room`: start 32 bits, which is the answer's need rounded up and the least budget that gets it,
 * then eight periods of 12 bits, 0 beyond n. By rising start. Returns the number of rows; bytes after them are untouched.
 * Refuses 9 where no periods are permitted, and 11 where length / 16 rows are too few, with the number needed. */
uint64_t charopleth_table(uint32_t n, const uint32_t jobs[CHAROPLETH_JOBS_LENGTH], uint8_t *room, size_t length);

/* The row of a lent table that answers a budget: the last whose start is at most that. The table need not be complete, but it
 * is checked in full before it is believed. A row is good when its periods are permitted and nothing stands behind them, when
 * it starts at their need, rounded up, and when it starts above the row in front of it and loses less. Returns the row's
 * number, counted from 1, so that its sixteen bytes begin at table + 16 * (number - 1). Refuses 12 with the number of the
 * first row that is not good, or with 0 where length is not a positive multiple of 16, then 10 where the first start is above
 * the budget, with that start. */
uint64_t charopleth_lookup(uint32_t n, const uint32_t jobs[CHAROPLETH_JOBS_LENGTH], const uint8_t *table, size_t length,
                           uint32_t budget);

#ifdef __cplusplus
}
#endif

#endif
