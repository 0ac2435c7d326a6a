#include "finder.h"

#include "jobs.h"
#include "load.h"
#include "reference.h"
#include "word.h"

/* The numbers of the jobs that each row is checked by, made once. */
struct numbers {
    uint32_t n;
    uint32_t lo[8], hi[8], loads[8], hourly[8], fastest[8], stiffness[8];
};

static uint32_t start_at(const uint8_t *table, size_t k) { return (uint32_t)(word_at(table + 16 * k) >> 32); }

/* The number, from 1, of the first row that breaks a rule, or 0. */
static size_t first_bad_row(const struct numbers *j, const uint8_t *table, size_t rows)
{
    uint32_t start_before = 0;
    uint64_t loss_before = 0;
    for (size_t k = 0; k < rows; k++) {
        uint64_t high = word_at(table + 16 * k), low = word_at(table + 16 * k + 8);
        const uint32_t periods[8] = {
            high >> 20 & 0xfff, high >> 8 & 0xfff, (high << 4 & 0xff0) | low >> 60, low >> 48 & 0xfff,
            low >> 36 & 0xfff, low >> 24 & 0xfff, low >> 12 & 0xfff, low & 0xfff,
        };
        uint32_t start = (uint32_t)(high >> 32), before = 1;
        uint64_t pages = 0, loss = 0;
        for (uint32_t i = 0; i < j->n; i++) {
            uint32_t t = periods[i];
            if (t < j->lo[i] || j->hi[i] < t || t % before != 0)
                return k + 1;
            pages = pages * (t / before) + j->loads[i];
            uint64_t fall = j->fastest[i] - j->hourly[i] / t;
            loss += j->stiffness[i] * (fall * fall);
            before = t;
        }
        for (uint32_t i = j->n; i < 8; i++)
            if (periods[i] != 0)
                return k + 1;
        if ((3600 * pages + (before - 1)) / before != start)
            return k + 1;
        if (k != 0 && (start <= start_before || loss_before <= loss))
            return k + 1;
        start_before = start;
        loss_before = loss;
    }
    return 0;
}

uint64_t finder_lookup(uint32_t n, const uint32_t jobs[], const uint8_t *table, size_t length, uint32_t budget)
{
    uint64_t verdict = reference_judge(n, jobs);
    if (verdict != 0)
        return verdict;
    if (length == 0 || length % 16 != 0)
        return refusal(12, 0);
    struct numbers j = {.n = n};
    put_loads(n, jobs, j.loads);
    for (uint32_t i = 0; i < n; i++) {
        struct job job = get_job(jobs, i);
        j.lo[i] = job.lo;
        j.hi[i] = job.hi;
        j.hourly[i] = 3600 * (job.data + job.metadata);
        j.fastest[i] = j.hourly[i] / job.lo;
        j.stiffness[i] = job.stiffness;
    }
    size_t k = length / 16, bad = first_bad_row(&j, table, k);
    if (bad != 0)
        return refusal(12, bad);
    if (budget < start_at(table, 0))
        return refusal(10, start_at(table, 0));
    while (start_at(table, k - 1) > budget)
        k--;
    return k;
}
