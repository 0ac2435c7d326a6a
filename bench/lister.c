#include "lister.h"

#include "jobs.h"
#include "reference.h"
#include "word.h"

struct walk {
    uint32_t n;
    uint32_t shortest[8], longest[8];
    uint32_t multipliers[8], least[8], greatest[8];
};

static int try_multiplier(struct walk *w, uint32_t i, uint32_t m);

static int open_job(struct walk *w, uint32_t i)
{
    if (i == w->n)
        return 1;
    uint32_t a = w->multipliers[i - 1], b = a * w->greatest[i - 1];
    return try_multiplier(w, i, (w->shortest[i] + b - 1) / b * a);
}

static int try_multiplier(struct walk *w, uint32_t i, uint32_t m)
{
    uint32_t a = w->multipliers[i - 1];
    if (w->longest[i] < (uint64_t)m * w->least[i - 1]) {
        if (i == 1)
            return 0;
        return try_multiplier(w, i - 1, a + w->multipliers[i - 2]);
    }
    uint32_t from = (w->shortest[i] + m - 1) / m, to = w->longest[i] / m;
    if (from < w->least[i - 1])
        from = w->least[i - 1];
    if (to > w->greatest[i - 1])
        to = w->greatest[i - 1];
    if (to < from)
        return try_multiplier(w, i, m + a);
    w->multipliers[i] = m;
    w->least[i] = from;
    w->greatest[i] = to;
    return open_job(w, i + 1);
}

static int first_zone(struct walk *w)
{
    w->multipliers[0] = 1;
    w->least[0] = w->shortest[0];
    w->greatest[0] = w->longest[0];
    return open_job(w, 1);
}

static int next_zone(struct walk *w)
{
    uint32_t last = w->n - 1;
    return last != 0 && try_multiplier(w, last, w->multipliers[last] + w->multipliers[last - 1]);
}

uint64_t lister_zones(uint32_t n, const uint32_t jobs[], uint8_t *room, size_t length)
{
    uint64_t verdict = reference_judge(n, jobs), count = 0;
    if (verdict != 0)
        return verdict;
    struct walk w = {.n = n};
    for (uint32_t i = 0; i < n; i++) {
        struct job job = get_job(jobs, i);
        w.shortest[i] = job.lo;
        w.longest[i] = job.hi;
    }
    for (int found = first_zone(&w); found; found = next_zone(&w))
        count++;
    if (count == 0)
        return refusal(9, 0);
    if (length / 16 < count)
        return refusal(11, count);
    for (uint32_t i = 0; i < 8; i++)
        w.multipliers[i] = 0;
    uint8_t *row = room;
    for (int found = first_zone(&w); found; found = next_zone(&w), row += 16) {
        uint64_t a[8];
        for (int i = 0; i < 8; i++)
            a[i] = w.multipliers[i];
        put_word(row, (uint64_t)w.least[n - 1] << 52 | (uint64_t)w.greatest[n - 1] << 40 | a[1] << 28 | a[2] << 16 | a[3] << 4 | a[4] >> 8);
        put_word(row + 8, a[4] << 56 | a[5] << 44 | a[6] << 32 | a[7] << 20);
    }
    return count;
}
