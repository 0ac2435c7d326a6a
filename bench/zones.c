/* Measures the zone lister against one of the same form in C, on the worst profile and on profile A many times, in one run, and
 * then lists the worst profile on a stack of 256 KB. That thread comes last: beside a second thread an emulator may have to keep
 * the order of every access, which takes longer than the listing. Ends with status 1 where rows differ or the bound is broken. */
#define _POSIX_C_SOURCE 200112L
#include <inttypes.h>
#include <pthread.h>
#include <stdio.h>
#include <stdlib.h>
#include <string.h>

#include "charopleth.h"
#include "jobs.h"
#include "lister.h"
#include "timing.h"

static const double most_of_lister = 1.5;

typedef uint64_t lister(uint32_t, const uint32_t[], uint8_t *, size_t);

static int failed;

static double seconds_for(lister *f, uint32_t n, const uint32_t jobs[], uint8_t *room, size_t length, int times)
{
    double start = now();
    for (int i = 0; i < times; i++)
        f(n, jobs, room, length);
    return now() - start;
}

static void measure(const char *name, uint32_t n, const uint32_t jobs[], int times)
{
    size_t rows = (size_t)CHAROPLETH_DETAIL(charopleth_zones(n, jobs, 0, 0)), length = 16 * rows;
    uint8_t *have = malloc(length), *want = malloc(length);
    if (!have || !want) {
        printf("no memory for %zu rows\n", rows);
        failed = 1;
        return;
    }
    struct least least = untimed;
    for (int run = 0; run < 5; run++)
        timed(&least, seconds_for(charopleth_zones, n, jobs, have, length, times), seconds_for(lister_zones, n, jobs, want, length, times));
    double ratio = least.proved / least.by_hand;
    printf("%-30s %10zu zones  %12.1f us  %5.2f x the lister in C\n", name, rows, least.proved / times * 1e6, ratio);
    if (ratio > most_of_lister || memcmp(have, want, length) != 0)
        failed = 1;
    free(have);
    free(want);
}

static uint32_t worst[CHAROPLETH_JOBS_LENGTH];

/* Both list the worst profile, and alike. */
static void *list_worst(void *unused)
{
    size_t rows = (size_t)CHAROPLETH_DETAIL(charopleth_zones(8, worst, 0, 0)), length = 16 * rows;
    uint8_t *have = malloc(length), *want = malloc(length);
    if (!have || !want || charopleth_zones(8, worst, have, length) != rows || lister_zones(8, worst, want, length) != rows || memcmp(have, want, length) != 0)
        failed = 1;
    free(have);
    free(want);
    return unused;
}

int main(void)
{
    static const struct job three[8] = {
        {.lo = 20, .hi = 25, .data = 9, .metadata = 1, .stiffness = 1},
        {.lo = 43, .hi = 74, .data = 18, .metadata = 2, .stiffness = 1},
        {.lo = 45, .hi = 100, .data = 36, .metadata = 4, .stiffness = 1},
    };
    uint32_t a[CHAROPLETH_JOBS_LENGTH];
    put_jobs(a, three);
    for (uint32_t i = 0; i < 8; i++)
        put_job(worst, i, (struct job){.lo = 1, .hi = 3600, .data = 1, .stiffness = 1});
    measure("zones of 8 jobs [1,3600]", 8, worst, 1);
    measure("zones of profile A", 3, a, 20000);
    pthread_t thread;
    pthread_attr_t small;
    if (pthread_attr_init(&small) || pthread_attr_setstacksize(&small, 262144) || pthread_create(&thread, &small, list_worst, 0) || pthread_join(thread, 0)) {
        printf("no thread with a stack of 256 KB\n");
        return 2;
    }
    printf(failed ? "bench: a bound is broken\n" : "bench: within %.1f x the lister in C, and in a stack of 256 KB\n", most_of_lister);
    return failed;
}
