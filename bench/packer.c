#include "packer.h"

#include <string.h>

#include "jobs.h"
#include "reference.h"
#include "word.h"

uint64_t packer_read(const uint8_t *profile, size_t length, uint32_t values[])
{
    if (length == 0)
        return refusal(1, 0);
    if (profile[0] >> 4 != 1)
        return refusal(2, 0);
    uint32_t n = profile[0] & 0xf;
    if (n == 0 || n > 8)
        return refusal(3, 0);
    if (length != 1 + 8 * n)
        return refusal(4, 0);
    uint32_t jobs[CHAROPLETH_JOBS_LENGTH] = {0};
    for (uint32_t i = 0; i < n; i++) {
        uint64_t word = word_at(profile + 1 + 8 * i);
        struct job job = {
            .lo = (uint32_t)(word >> 52),
            .hi = word >> 40 & 0xfff,
            .data = word >> 25 & 0x7fff,
            .metadata = word >> 10 & 0x7fff,
            .stiffness = word >> 4 & 0x3f,
        };
        if (job.lo == 0 || job.hi < job.lo || job.hi > 3600)
            return refusal(5, i + 1);
        if (job.stiffness < 1 || job.stiffness > 32)
            return refusal(6, i + 1);
        if ((word & 0xf) != 0)
            return refusal(7, i + 1);
        put_job(jobs, i, job);
    }
    values[0] = n;
    memcpy(values + 1, jobs, sizeof jobs);
    return 0;
}

uint64_t packer_write(uint32_t n, const uint32_t jobs[], uint8_t *room, size_t length)
{
    uint64_t verdict = reference_judge(n, jobs);
    if (verdict != 0)
        return verdict;
    size_t size = 1 + 8 * n;
    if (length < size)
        return refusal(11, size);
    room[0] = (uint8_t)(1 << 4 | n);
    for (uint32_t i = 0; i < n; i++) {
        struct job job = get_job(jobs, i);
        uint64_t span = (uint64_t)job.lo << 52 | (uint64_t)job.hi << 40;
        put_word(room + 1 + 8 * i, span | (uint64_t)job.data << 25 | job.metadata << 10 | job.stiffness << 4);
    }
    return size;
}
