/* Random numbers with a seed, and random profiles: valid ones of several kinds, and broken ones. */
#ifndef RANDOM_H
#define RANDOM_H

#include <stdint.h>
#include <string.h>

#include "jobs.h"

static uint64_t random_state;

static uint64_t draw(void)
{
    random_state ^= random_state << 13;
    random_state ^= random_state >> 7;
    random_state ^= random_state << 17;
    return random_state;
}

static uint32_t below(uint32_t n) { return (uint32_t)(draw() >> 32) % n; }

static uint32_t smaller(uint32_t a, uint32_t b) { return a < b ? a : b; }

static uint32_t draw_pages(void)
{
    switch (below(4)) {
    case 0: return 0;
    case 1: return below(6);
    case 2: return 32767 - below(3);
    default: return below(32768);
    }
}

static struct job draw_job(void)
{
    uint32_t lo, hi;
    switch (below(5)) {
    case 0: lo = 1 + below(60); hi = lo + below(40); break;
    case 1: lo = 1 + below(1u << (1 + below(11))); hi = lo * (1 + below(4)) + below(10); break;
    case 2: lo = 1 + below(3600); hi = lo; break;
    case 3: lo = 1; hi = 1 + below(24); break;
    default: lo = 1 + below(3600); hi = lo + below(3601 - lo); break;
    }
    struct job job = {.lo = smaller(lo, 3600), .hi = smaller(hi, 3600)};
    job.data = draw_pages();
    job.metadata = draw_pages();
    job.stiffness = 1 + below(32);
    return job;
}

/* Intervals around a list of multiples, so that some periods are permitted. */
static void plant(uint32_t jobs[], uint32_t n)
{
    uint32_t t = 1 + below(1u << (1 + below(7)));
    for (uint32_t i = 0; i < n; i++) {
        uint32_t times = 1 + below(4);
        if (i > 0 && t * times <= 3600)
            t *= times;
        uint32_t wide = 1 + t / (1 + below(8));
        uint32_t down = below(wide);
        uint32_t *job = CHAROPLETH_JOB(jobs, i);
        job[CHAROPLETH_LO] = down < t ? t - down : 1;
        job[CHAROPLETH_HI] = smaller(t + below(wide), 3600);
    }
}

/* A valid profile. Jobs beyond n hold anything. */
static inline uint32_t draw_profile(uint32_t jobs[])
{
    uint32_t n = 1 + below(8);
    for (uint32_t i = 0; i < 8; i++)
        put_job(jobs, i, draw_job());
    if (below(4))
        plant(jobs, n);
    for (uint32_t i = CHAROPLETH_JOB_NUMBERS * n; i < CHAROPLETH_JOBS_LENGTH; i++)
        jobs[i] = below(2) ? (uint32_t)draw() : below(4000);
    return n;
}

/* Periods for a valid profile, each a multiple of the one before and none too short, zeros beyond n; whether they are permitted. */
static inline int draw_periods(uint32_t n, const uint32_t jobs[], uint32_t periods[8])
{
    uint32_t before = 1;
    int permitted = 1;
    memset(periods, 0, 8 * sizeof *periods);
    for (uint32_t i = 0; i < n; i++) {
        struct job job = get_job(jobs, i);
        uint32_t least = (job.lo + before - 1) / before, most = job.hi / before;
        permitted = permitted && least <= most;
        before = periods[i] = before * (least + (least < most ? below(most - least + 1) : 0));
    }
    return permitted;
}

/* A value that sits at the edge of some bound, or anywhere. */
static uint32_t draw_edge(void)
{
    static const uint32_t edges[] = {0, 1, 8, 9, 32, 33, 3600, 3601, 32767, 32768, 65535, 65536, 0x7fffffff, 0x80000000, 0xffffffff};
    return below(4) ? edges[below(sizeof edges / sizeof *edges)] : (uint32_t)draw();
}

/* Breaks some values of a profile. */
static inline uint32_t break_profile(uint32_t n, uint32_t jobs[])
{
    for (uint32_t k = 1 + below(3); k > 0; k--) {
        if (below(6) == 0)
            n = draw_edge();
        else
            jobs[below(CHAROPLETH_JOBS_LENGTH)] = draw_edge();
    }
    return n;
}

#endif
