/* Measures building the budget table against the same algorithm in C and against one choice per row, on the same inputs in
 * one run. Ends with status 1 where the answers or the bytes differ or a bound is broken. */
#define _POSIX_C_SOURCE 199309L
#include <inttypes.h>
#include <stdio.h>
#include <string.h>

#include "charopleth.h"
#include "drawn.h"
#include "heavy.h"
#include "reference.h"
#include "timing.h"
#include "walk.h"

/* At most this many times the same in C; on a thousand drawn profiles at least this many times faster than one choice per row. */
static const double most_of_walk = 1.5, least_of_choices_drawn = 5;

enum { ROWS = 32768, SMALL = 4096, DRAWN = 1000, RUNS = 7 };

static uint8_t have[16 * ROWS], want[16 * ROWS];
static int failed;

typedef uint64_t builder(uint32_t, const uint32_t[], uint8_t *, size_t);

/* The table by one choice per row, counted and then filled from its end. */
static uint64_t by_choices(uint32_t n, const uint32_t jobs[], uint8_t *room, size_t length)
{
    uint64_t answer[CHAROPLETH_CHOICE_LENGTH], rows = 0, limit = (uint64_t)1 << 32, result = 0;
    for (; limit > 0 && (result = charopleth_choose(n, jobs, (uint32_t)(limit - 1), answer)) == 0; limit = CHAROPLETH_NEED(answer))
        rows++;
    if (rows == 0)
        return CHAROPLETH_REFUSAL(result) == 10 ? refusal(9, 0) : result;
    if (length / 16 < rows)
        return refusal(11, rows);
    limit = (uint64_t)1 << 32;
    for (uint64_t row = rows; row-- > 0; limit = CHAROPLETH_NEED(answer)) {
        charopleth_choose(n, jobs, (uint32_t)(limit - 1), answer);
        reference_row(CHAROPLETH_NEED(answer), answer + CHAROPLETH_PERIODS, room + 16 * row);
    }
    return rows;
}

static double seconds_for(builder *f, const uint32_t jobs[], uint8_t *room, size_t length, uint64_t *result)
{
    double start = now();
    *result = f(8, jobs, room, length);
    return now() - start;
}

/* The time of another builder, whose answer and bytes must be those of the proved one. */
static double seconds_like(const char *name, builder *other, const uint32_t jobs[], size_t length, uint64_t answered)
{
    uint64_t wanted;
    memset(want, 0xA5, sizeof want);
    double taken = seconds_for(other, jobs, want, length, &wanted);
    if (answered != wanted || memcmp(have, want, length) != 0) {
        printf("%s: the tables differ\n", name);
        failed = 1;
    }
    return taken;
}

/* A slower way to the same table, and how many times faster the proved one must be. */
struct rival {
    const char *name;
    builder *build;
    double least;
};

static const struct rival choices = {"one choice per row", by_choices, 8}, uncut = {"the same in C without the cut", walk_table_uncut, 100};

/* In room for so many rows: against C, the best of several runs of each, by turns; and against a rival where one is given. */
static void measure(const char *name, const uint32_t jobs[], size_t rows, const struct rival *rival)
{
    uint64_t answered = 0;
    struct least least = untimed;
    for (int run = 0; run < RUNS; run++) {
        memset(have, 0xA5, sizeof have);
        double proved = seconds_for(charopleth_table, jobs, have, 16 * rows, &answered);
        timed(&least, proved, seconds_like(name, walk_table, jobs, 16 * rows, answered));
    }
    double ratio = least.proved / least.by_hand;
    printf("%-28s room %5zu: refusal %2u, %6" PRIu64 " rows %8.3f s  %5.2f x the same in C", name, rows, CHAROPLETH_REFUSAL(answered), (uint64_t)CHAROPLETH_DETAIL(answered), least.proved, ratio);
    if (ratio > most_of_walk)
        failed = 1;
    if (rival) {
        double faster = seconds_like(name, rival->build, jobs, 16 * rows, answered) / least.proved;
        printf("  1/%.1f of %s", faster, rival->name);
        if (faster < rival->least)
            failed = 1;
    }
    printf("\n");
    fflush(stdout);
}

static void measure_drawn(void)
{
    double proved = 0, by_hand = 0, chosen = 0, slowest = 0;
    uint64_t rows = 0;
    random_state = 20261115;
    for (int i = 0; i < DRAWN; i++) {
        uint32_t jobs[CHAROPLETH_JOBS_LENGTH];
        uint64_t answered;
        draw_synthetic(jobs);
        memset(have, 0xA5, sizeof have);
        double taken = seconds_for(charopleth_table, jobs, have, sizeof have, &answered);
        proved += taken;
        slowest = taken > slowest ? taken : slowest;
        by_hand += seconds_like("drawn", walk_table, jobs, sizeof have, answered);
        chosen += seconds_like("drawn", by_choices, jobs, sizeof have, answered);
        rows += CHAROPLETH_REFUSAL(answered) ? 0 : answered;
    }
    printf("%d drawn as in the paper: %" PRIu64 " rows in %.2f s  %5.2f x the same in C  1/%.1f of one choice per row; slowest %.2f ms (10 ms in the paper, on another machine)\n", DRAWN, rows, proved, proved / by_hand,
           chosen / proved, slowest * 1e3);
    fflush(stdout);
    if (proved / by_hand > most_of_walk || chosen / proved < least_of_choices_drawn)
        failed = 1;
}

int main(void)
{
    uint32_t jobs[CHAROPLETH_JOBS_LENGTH];
    heavy_jobs(jobs, 1, 3600);
    measure("8 jobs [1,3600]", jobs, ROWS, &choices);
    measure("8 jobs [1,3600]", jobs, SMALL, 0);
    heavy_jobs(jobs, 1, 1000);
    hide_behind(jobs, 2);
    measure("metadata of five is hidden", jobs, ROWS, 0);
    put_jobs(jobs, many_rows);
    measure("321,717 rows counted", jobs, 0, 0);
    put_jobs(jobs, one_writes);
    measure("seven of eight without pages", jobs, ROWS, &uncut);
    measure_drawn();
    printf(failed ? "bench: a bound is broken\n" : "bench: within %.1f x the same table in C\n", most_of_walk);
    return failed;
}
