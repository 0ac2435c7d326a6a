/* The load of each job: its data, and what its metadata exceeds the greatest of the jobs before it by. A job runs only when all before
 * it do, so the pages of Tn seconds are the sum of a job's load for each of its runs. */
#ifndef LOAD_H
#define LOAD_H

#include "jobs.h"

static inline void put_loads(uint32_t n, const uint32_t jobs[], uint32_t loads[])
{
    uint32_t greatest = 0;
    for (uint32_t i = 0; i < n; i++) {
        struct job job = get_job(jobs, i);
        uint32_t more = job.metadata > greatest ? job.metadata - greatest : 0;
        loads[i] = job.data + more;
        greatest += more;
    }
}

#endif
