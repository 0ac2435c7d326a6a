/* Measures the choice against the same walk in C and against plain enumeration in C, on the same inputs in one run.
 * Ends with status 1 where the answers differ or a bound is broken. */
#define _POSIX_C_SOURCE 199309L
#include <inttypes.h>
#include <stdio.h>
#include <string.h>

#include "charopleth.h"
#include "heavy.h"
#include "timing.h"
#include "walk.h"

/* At most this many times the C walk, and at most a hundredth of enumeration. */
static const double most_of_walk = 1.5, least_of_enumeration = 100;

typedef uint64_t chooser(uint32_t, const uint32_t[], uint32_t, uint64_t[]);

static double seconds_for(chooser *f, const uint32_t jobs[], uint32_t budget, int times)
{
    uint64_t answer[CHAROPLETH_CHOICE_LENGTH];
    double start = now();
    for (int i = 0; i < times; i++)
        f(8, jobs, budget, answer);
    return now() - start;
}

/* The best of several runs of each, by turns. */
static double ratio(const uint32_t jobs[], uint32_t budget, double *each)
{
    int times = 1;
    while (seconds_for(walk_choose, jobs, budget, times) < 0.02)
        times *= 2;
    struct least least = untimed;
    for (int run = 0; run < 9; run++)
        timed(&least, seconds_for(charopleth_choose, jobs, budget, times), seconds_for(walk_choose, jobs, budget, times));
    *each = least.proved / times;
    return least.proved / least.by_hand;
}

static int failed;

static void measure(const char *name, const uint32_t jobs[], uint32_t budget, int enumerated)
{
    uint64_t have[CHAROPLETH_CHOICE_LENGTH] = {0}, want[CHAROPLETH_CHOICE_LENGTH] = {0}, all[CHAROPLETH_CHOICE_LENGTH] = {0};
    uint64_t result = charopleth_choose(8, jobs, budget, have);
    if (result != walk_choose(8, jobs, budget, want) || memcmp(have, want, sizeof have) != 0) {
        printf("%s: the answers differ\n", name);
        failed = 1;
    }
    double each, times = ratio(jobs, budget, &each);
    printf("%-30s budget %10" PRIu32 "  %10.1f us  %5.2f x the walk in C", name, budget, each * 1e6, times);
    if (times > most_of_walk)
        failed = 1;
    if (enumerated) {
        double start = now();
        uint64_t slow = walk_every(8, jobs, budget, all);
        double faster = (now() - start) / each;
        printf("  1/%.0f of enumeration", faster);
        if (slow != result || memcmp(have, all, sizeof have) != 0 || faster < least_of_enumeration)
            failed = 1;
    }
    printf("\n");
    fflush(stdout);
}

static void fix_last(uint32_t jobs[], uint32_t t)
{
    uint32_t *job = CHAROPLETH_JOB(jobs, 7);
    job[CHAROPLETH_LO] = job[CHAROPLETH_HI] = t;
}

static void without_pages(uint32_t jobs[], uint32_t i)
{
    uint32_t *job = CHAROPLETH_JOB(jobs, i);
    job[CHAROPLETH_DATA] = job[CHAROPLETH_METADATA] = 0;
}

static uint32_t greatest_need(const uint32_t jobs[])
{
    uint64_t answer[CHAROPLETH_CHOICE_LENGTH];
    charopleth_choose(8, jobs, 0xffffffff, answer);
    return (uint32_t)CHAROPLETH_NEED(answer);
}

int main(void)
{
    static const uint32_t parts[4] = {2, 10, 100, 1000};
    uint32_t jobs[CHAROPLETH_JOBS_LENGTH];
    heavy_jobs(jobs, 1, 3600);
    for (int i = 0; i < 4; i++)
        measure("8 jobs [1,3600]", jobs, greatest_need(jobs) / parts[i], 1);
    hide_behind(jobs, 2);
    for (int i = 0; i < 4; i++)
        measure("metadata of five is hidden", jobs, greatest_need(jobs) / parts[i], 1);
    for (uint32_t i = 0; i < 6; i++)
        without_pages(jobs, i);
    for (int i = 0; i < 4; i++)
        measure("six of them without pages", jobs, greatest_need(jobs) / parts[i], 0);
    put_jobs(jobs, one_writes);
    for (int i = 0; i < 4; i++)
        measure("seven of eight without pages", jobs, greatest_need(jobs) / parts[i], 0);
    heavy_jobs(jobs, 1, 3600);
    fix_last(jobs, 3600);
    for (int i = 0; i < 4; i++)
        measure("archive: last [3600,3600]", jobs, greatest_need(jobs) / parts[i], 0);
    heavy_jobs(jobs, 2, 1000);
    fix_last(jobs, 3593);
    measure("last [3593,3593], met by none", jobs, 1000000, 0);
    printf(failed ? "bench: a bound is broken\n" : "bench: within %.1f x the walk in C and 1/%.0f of enumeration\n", most_of_walk, least_of_enumeration);
    return failed;
}
