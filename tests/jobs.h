/* A job by the names of its numbers, taken from and put to its place among those that charopleth.h's functions take; and a refusal as
 * these functions return it. */
#ifndef JOBS_H
#define JOBS_H

#include "charopleth.h"

struct job {
    uint32_t lo, hi, data, metadata, stiffness;
};

static inline struct job get_job(const uint32_t jobs[], uint32_t i)
{
    const uint32_t *numbers = CHAROPLETH_JOB(jobs, i);
    return (struct job){
        .lo = numbers[CHAROPLETH_LO],
        .hi = numbers[CHAROPLETH_HI],
        .data = numbers[CHAROPLETH_DATA],
        .metadata = numbers[CHAROPLETH_METADATA],
        .stiffness = numbers[CHAROPLETH_STIFFNESS],
    };
}

static inline void put_job(uint32_t jobs[], uint32_t i, struct job job)
{
    uint32_t *numbers = CHAROPLETH_JOB(jobs, i);
    numbers[CHAROPLETH_LO] = job.lo;
    numbers[CHAROPLETH_HI] = job.hi;
    numbers[CHAROPLETH_DATA] = job.data;
    numbers[CHAROPLETH_METADATA] = job.metadata;
    numbers[CHAROPLETH_STIFFNESS] = job.stiffness;
}

static inline void put_jobs(uint32_t jobs[], const struct job given[CHAROPLETH_MOST_JOBS])
{
    for (uint32_t i = 0; i < CHAROPLETH_MOST_JOBS; i++)
        put_job(jobs, i, given[i]);
}

static inline uint64_t refusal(uint64_t number, uint64_t detail) { return number << 48 | detail; }

#endif
