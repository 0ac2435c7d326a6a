/* The profiles that the choice, the table and the lookup are measured on. */
#ifndef HEAVY_H
#define HEAVY_H

#include "jobs.h"

/* Eight jobs of one interval, with pages from 26,000 to 60,000 and unlike stiffnesses. */
static void heavy_jobs(uint32_t jobs[], uint32_t lo, uint32_t hi)
{
    static const uint32_t pages[8] = {26000, 31000, 36000, 41000, 46000, 51000, 56000, 60000}, stiffness[8] = {5, 14, 11, 6, 1, 22, 32, 9};
    for (uint32_t i = 0; i < 8; i++)
        put_job(jobs, i, (struct job){.lo = lo, .hi = hi, .data = pages[i] / 2, .metadata = pages[i] - pages[i] / 2, .stiffness = stiffness[i]});
}

/* The metadata of job i as large as can be: it hides that of the jobs behind. */
static void hide_behind(uint32_t jobs[], uint32_t i) { CHAROPLETH_JOB(jobs, i)[CHAROPLETH_METADATA] = 32767; }

/* Jobs of which the seventh alone writes pages. */
static const struct job one_writes[8] = {
    {.lo = 1, .hi = 3503, .stiffness = 7},
    {.lo = 1, .hi = 3362, .stiffness = 19},
    {.lo = 8, .hi = 3076, .stiffness = 21},
    {.lo = 1, .hi = 3585, .stiffness = 18},
    {.lo = 1, .hi = 2874, .stiffness = 22},
    {.lo = 4, .hi = 2854, .stiffness = 2},
    {.lo = 8, .hi = 2905, .data = 32615, .metadata = 32616, .stiffness = 22},
    {.lo = 1, .hi = 3133, .stiffness = 12},
};

/* Jobs with 321,717 rows in their table. */
static const struct job many_rows[8] = {
    {.lo = 1, .hi = 2887, .data = 1, .metadata = 1, .stiffness = 5},
    {.lo = 7, .hi = 3050, .data = 20165, .metadata = 20166, .stiffness = 14},
    {.lo = 5, .hi = 3483, .data = 1, .metadata = 1, .stiffness = 11},
    {.lo = 18, .hi = 2531, .data = 1, .metadata = 1, .stiffness = 6},
    {.lo = 172, .hi = 2329, .data = 27956, .metadata = 27956, .stiffness = 1},
    {.lo = 1, .hi = 3114, .data = 1, .stiffness = 22},
    {.lo = 226, .hi = 2566, .stiffness = 4},
    {.lo = 9, .hi = 2892, .data = 1, .metadata = 1, .stiffness = 9},
};

#endif
