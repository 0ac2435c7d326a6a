/* What the comparing programs share: the seed they are given, and what they print. */
#ifndef REPORT_H
#define REPORT_H

#include <inttypes.h>
#include <stdio.h>
#include <stdlib.h>

#include "random.h"

/* Answers are counted by the number of their refusal, 0 for none. */
enum { REFUSALS = 14 };

/* COUNT and SEED, the two arguments; the count is answered. */
static uint64_t take_arguments(int argc, char **argv)
{
    random_state = argc > 2 ? strtoull(argv[2], 0, 10) : 20261115;
    if (random_state == 0)
        random_state = 1;
    return argc > 1 ? strtoull(argv[1], 0, 10) : 5000;
}

static void show_jobs(const uint32_t jobs[])
{
    for (int i = 1; i <= CHAROPLETH_JOBS_LENGTH; i++)
        printf("%" PRIu32 "%c", jobs[i - 1], i % CHAROPLETH_JOB_NUMBERS ? ' ' : '\n');
}

/* Ends a line that counts answers: how often each refusal was told. */
static void show_refusals(const uint64_t told[])
{
    for (int i = 1; i < REFUSALS; i++)
        if (told[i])
            printf(", %" PRIu64 " times %d", told[i], i);
    printf(")\n");
}

#endif
