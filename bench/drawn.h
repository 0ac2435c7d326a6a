/* Profiles drawn as in the paper's evaluation with synthetic task sets: eight jobs, shortest periods log-uniform in 1 to 100,
 * longest ones 1 to 10 times as long, parts of one total use by sorting uniform numbers, and jobs by their shortest period. */
#ifndef DRAWN_H
#define DRAWN_H

#include <stdlib.h>

#include "random.h"

static double uniform(void) { return (double)(draw() >> 11) / 9007199254740992.0; }

/* From 1 to 100 with a density of one over the number. */
static uint32_t log_uniform(void)
{
    double x;
    do
        x = 1 + 100 * uniform();
    while (uniform() * x > 1);
    return (uint32_t)x;
}

static int rising(const void *a, const void *b)
{
    double x = *(const double *)a, y = *(const double *)b;
    return x < y ? -1 : x > y;
}

static int by_lo(const void *a, const void *b)
{
    const struct job *x = a, *y = b;
    return x->lo < y->lo ? -1 : x->lo > y->lo;
}

static void draw_synthetic(uint32_t jobs[])
{
    /* One total use is 655 pages a second, so that no job has more than 65,534 pages a run. */
    double cuts[9] = {0};
    cuts[8] = 1;
    for (int i = 1; i < 8; i++)
        cuts[i] = uniform();
    qsort(cuts + 1, 7, sizeof *cuts, rising);
    struct job drawn[8];
    for (int i = 0; i < 8; i++) {
        uint32_t lo = log_uniform(), hi = (uint32_t)(lo * (1 + 9 * uniform()));
        uint32_t pages = (uint32_t)((cuts[i + 1] - cuts[i]) * lo * 655);
        drawn[i] = (struct job){.lo = lo, .hi = hi, .data = pages / 2, .metadata = pages - pages / 2, .stiffness = 1 + below(32)};
    }
    qsort(drawn, 8, sizeof *drawn, by_lo);
    put_jobs(jobs, drawn);
}

#endif
