/* Measures the lookup in a table of 4,096 rows against the same in C, on the same inputs in one run.
 * Ends with status 1 where the answers differ or the bound is broken. */
#define _POSIX_C_SOURCE 199309L
#include <inttypes.h>
#include <stdio.h>
#include <stdlib.h>

#include "charopleth.h"
#include "finder.h"
#include "heavy.h"
#include "reference.h"
#include "timing.h"

static const double most_of_finder = 1.3;

/* The first rows of a table are a table: rows beyond these are not lent. */
enum { ROWS = 4096, LENGTH = 16 * ROWS };

static uint8_t table[4 * LENGTH];
static uint32_t jobs[CHAROPLETH_JOBS_LENGTH];
static int failed;

typedef uint64_t finder(uint32_t, const uint32_t[], const uint8_t *, size_t, uint32_t);

static double seconds_for(finder *f, uint32_t budget, int times)
{
    double start = now();
    for (int i = 0; i < times; i++)
        f(8, jobs, table, LENGTH, budget);
    return now() - start;
}

static uint64_t compared(uint32_t budget)
{
    uint64_t have = charopleth_lookup(8, jobs, table, LENGTH, budget), want = finder_lookup(8, jobs, table, LENGTH, budget);
    if (have != want) {
        printf("budget %" PRIu32 ": the answers differ, %" PRIx64 " and %" PRIx64 "\n", budget, have, want);
        failed = 1;
    }
    return have;
}

/* The best of several runs of each, by turns. */
static void measure(const char *name, uint32_t budget)
{
    uint64_t result = compared(budget);
    int times = 1;
    while (seconds_for(finder_lookup, budget, times) < 0.02)
        times *= 2;
    struct least least = untimed;
    for (int run = 0; run < 9; run++)
        timed(&least, seconds_for(charopleth_lookup, budget, times), seconds_for(finder_lookup, budget, times));
    double ratio = least.proved / least.by_hand;
    printf("%-30s refusal %2u, row %4" PRIu64 "  %10.1f us  %5.2f x the finder in C\n", name, CHAROPLETH_REFUSAL(result), CHAROPLETH_DETAIL(result), least.proved / times * 1e6, ratio);
    if (ratio > most_of_finder)
        failed = 1;
    fflush(stdout);
}

static uint32_t start_of(size_t row) { return reference_start(table + 16 * (row - 1)); }

/* Fills the table for these jobs, and compares the answers around its starts and with a byte changed. */
static void try_table(void)
{
    uint64_t rows = reference_table(8, jobs, table, sizeof table, UINT64_MAX - 1);
    if (CHAROPLETH_REFUSAL(rows) != 0 || rows < ROWS) {
        printf("no table of %d rows\n", ROWS);
        exit(2);
    }
    for (size_t row = 1; row <= ROWS; row += 15)
        for (uint32_t budget = start_of(row) - 1; budget <= start_of(row) + 1; budget++)
            compared(budget);
    for (size_t at = 0; at < LENGTH; at += 337) {
        table[at] ^= 1;
        compared(UINT32_MAX);
        table[at] ^= 1;
    }
}

int main(void)
{
    heavy_jobs(jobs, 60, 3600);
    hide_behind(jobs, 2);
    try_table();
    measure("metadata of five is hidden", UINT32_MAX);
    heavy_jobs(jobs, 60, 3600);
    try_table();
    measure("first row", start_of(1));
    measure("middle row", start_of(ROWS / 2));
    measure("last row", UINT32_MAX);
    table[LENGTH - 1] ^= 1;
    measure("last row damaged", UINT32_MAX);
    printf(failed ? "bench: a bound is broken\n" : "bench: within %.1f x the finder in C\n", most_of_finder);
    return failed;
}
