#include "walk.h"

#include <string.h>

#include "jobs.h"
#include "load.h"
#include "reference.h"
#include "word.h"

/* The numbers of the walk, made once, and the best plan so far, with its pages of Tn seconds and its need rounded up. */
struct walk {
    int without_cut;
    uint32_t n, budget;
    uint32_t lo[8], hi[8], loads[8], loss_pages[8], stiffness[8], fastest[8], later[9];
    uint32_t periods[8];
    uint32_t best[8];
    uint64_t pages, need, loss;
};

static uint64_t job_loss(const struct walk *w, uint32_t k, uint32_t t)
{
    uint64_t slower = w->fastest[k] - 3600 * w->loss_pages[k] / t;
    return w->stiffness[k] * (slower * slower);
}

static uint64_t loss_floor(const struct walk *w, uint32_t i, uint32_t t)
{
    uint64_t floor = 0;
    for (uint32_t k = i; k < w->n; k++)
        floor += job_loss(w, k, w->lo[k] < t ? t : w->lo[k]);
    return floor;
}

static int reaches(const struct walk *w, uint32_t i, uint32_t t)
{
    for (uint32_t k = i; k < w->n; k++)
        if (w->hi[k] / t * t < w->lo[k])
            return 0;
    return 1;
}

static int passed_over(uint32_t a, uint32_t first)
{
    if (first == 1)
        return 1 < a;
    for (uint32_t p = 2; first <= a / p; p++)
        if (a % p == 0)
            return 1;
    return 0;
}

static int repeats(const struct walk *w, uint32_t i, uint32_t a, uint32_t first)
{
    return !w->without_cut && w->loads[i] == 0 && w->loss_pages[i] == 0 && passed_over(a, first);
}

/* Rounded up. */
static uint32_t need_of(uint64_t pages, uint32_t t) { return (uint32_t)((3600 * pages + (t - 1)) / t); }

/* A plan for all jobs: it is kept where it fits and is better than the best so far. */
static void offer(struct walk *w, uint32_t last, uint64_t pages, uint64_t lost)
{
    uint32_t need = need_of(pages, last);
    if (need <= w->budget && (lost < w->loss || (lost == w->loss && need < w->need))) {
        memcpy(w->best, w->periods, sizeof w->best);
        w->pages = pages;
        w->need = need;
        w->loss = lost;
    }
}

static void find_best(struct walk *w, uint32_t i, uint32_t step, uint64_t pages, uint64_t lost)
{
    if (i == w->n) {
        offer(w, step, pages, lost);
        return;
    }
    uint32_t first = (w->lo[i] + step - 1) / step;
    for (uint32_t t = first * step; t <= w->hi[i]; t += step) {
        uint64_t here = lost + job_loss(w, i, t);
        uint64_t floor = here + loss_floor(w, i + 1, t);
        if (floor > w->loss)
            return;
        if (repeats(w, i, t / step, first))
            continue;
        uint64_t more = pages * (t / step) + w->loads[i];
        uint32_t need_floor = need_of(more, t) + w->later[i + 1];
        if (need_floor > w->budget || (floor == w->loss && need_floor >= w->need) || !reaches(w, i + 1, t))
            continue;
        w->periods[i] = t;
        find_best(w, i + 1, t, more, here);
    }
}

static void try_every(struct walk *w, uint32_t i, uint32_t step, uint64_t pages, uint64_t lost)
{
    if (i == w->n) {
        offer(w, step, pages, lost);
        return;
    }
    for (uint32_t t = (w->lo[i] + step - 1) / step * step; t <= w->hi[i]; t += step) {
        w->periods[i] = t;
        try_every(w, i + 1, t, pages * (t / step) + w->loads[i], lost + job_loss(w, i, t));
    }
}

static uint32_t least_need(const struct walk *w, uint32_t i, uint32_t step, uint64_t pages, uint32_t least)
{
    if (i == w->n) {
        uint32_t need = need_of(pages, step);
        return need < least ? need : least;
    }
    for (uint32_t t = w->hi[i] / step * step; t >= w->lo[i]; t -= step) {
        uint64_t more = pages * (t / step) + w->loads[i];
        if (need_of(more, t) + w->later[i + 1] < least && reaches(w, i + 1, t))
            least = least_need(w, i + 1, t, more, least);
    }
    return least;
}

/* The numbers of a walk, made once. */
static struct walk prepared(uint32_t n, const uint32_t jobs[], uint32_t budget)
{
    struct walk w = {.n = n, .budget = budget, .loss = UINT64_MAX};
    put_loads(n, jobs, w.loads);
    for (uint32_t k = n; k-- > 0;) {
        struct job job = get_job(jobs, k);
        w.lo[k] = job.lo;
        w.hi[k] = job.hi;
        w.loss_pages[k] = job.data + job.metadata;
        w.stiffness[k] = job.stiffness;
        w.fastest[k] = 3600 * w.loss_pages[k] / w.lo[k];
        w.later[k] = w.later[k + 1] + 3600 * w.loads[k] / w.hi[k];
    }
    return w;
}

static uint64_t choose(uint32_t n, const uint32_t jobs[], uint32_t budget, uint64_t answer[],
                       void (*walk_through)(struct walk *, uint32_t, uint32_t, uint64_t, uint64_t))
{
    uint64_t verdict = reference_judge(n, jobs);
    if (verdict != 0)
        return verdict;
    struct walk w = prepared(n, jobs, budget);
    walk_through(&w, 0, 1, 0, 0);
    if (w.loss == UINT64_MAX) {
        uint32_t least = least_need(&w, 0, 1, 0, UINT32_MAX);
        return least == UINT32_MAX ? refusal(9, 0) : refusal(10, least);
    }
    answer[CHAROPLETH_WHOLE] = 3600 * w.pages / w.best[n - 1];
    answer[CHAROPLETH_REMAINDER] = 3600 * w.pages % w.best[n - 1];
    answer[CHAROPLETH_LOSS] = w.loss;
    for (uint32_t k = 0; k < 8; k++)
        answer[CHAROPLETH_PERIODS + k] = k < n ? w.best[k] : 0;
    return 0;
}

uint64_t walk_choose(uint32_t n, const uint32_t jobs[], uint32_t budget, uint64_t answer[]) { return choose(n, jobs, budget, answer, find_best); }

uint64_t walk_every(uint32_t n, const uint32_t jobs[], uint32_t budget, uint64_t answer[]) { return choose(n, jobs, budget, answer, try_every); }

/* Up to MOST next answers, in rising loss and falling need: the loss of each, and its row of the table as two words. Nothing
 * at or above the bound enters any more. */
enum { MOST = 256 };

struct stairs {
    uint32_t count;
    uint64_t bound, loss[MOST], high[MOST], low[MOST];
};

static uint64_t need_in(const struct stairs *s, uint32_t k) { return s->high[k] >> 32; }

/* How many rows in front lose at most this much. */
static uint32_t losing_at_most(const struct stairs *s, uint64_t loss)
{
    uint32_t from = 0, to = s->count;
    while (from < to) {
        uint32_t half = (from + to) / 2;
        if (s->loss[half] <= loss)
            from = half + 1;
        else
            to = half;
    }
    return from;
}

static int covered(const struct stairs *s, uint64_t need, uint64_t loss)
{
    uint32_t k = losing_at_most(s, loss);
    return k > 0 && need_in(s, k - 1) <= need;
}

/* The numbers from place `from` on, `count` of them, to place `to`. */
static void move(struct stairs *s, uint32_t from, uint32_t to, uint32_t count)
{
    memmove(s->loss + to, s->loss + from, count * sizeof *s->loss);
    memmove(s->high + to, s->high + from, count * sizeof *s->high);
    memmove(s->low + to, s->low + from, count * sizeof *s->low);
}

/* Makes place i free, from which the rows up to place j leave; whether there is such a place. */
static int make_place(struct stairs *s, uint32_t i, uint32_t j, uint64_t loss)
{
    if (i < j) {
        move(s, j, i + 1, s->count - j);
        s->count -= j - i - 1;
        return 1;
    }
    if (s->count < MOST) {
        move(s, i, i + 1, s->count - i);
        s->count++;
        return 1;
    }
    s->bound = i == MOST ? loss : s->loss[MOST - 1];
    if (i < MOST)
        move(s, i, i + 1, MOST - 1 - i);
    return i < MOST;
}

static void enter(const struct walk *w, struct stairs *s, uint64_t need, uint64_t loss)
{
    if (loss >= s->bound)
        return;
    uint32_t i = losing_at_most(s, loss);
    if (i > 0 && need_in(s, i - 1) <= need)
        return;
    if (i > 0 && s->loss[i - 1] == loss)
        i--;
    uint32_t j = i;
    while (j < s->count && need_in(s, j) >= need)
        j++;
    if (!make_place(s, i, j, loss))
        return;
    const uint32_t *t = w->periods;
    s->loss[i] = loss;
    s->high[i] = need << 32 | (uint64_t)t[0] << 20 | (uint64_t)t[1] << 8 | t[2] >> 4;
    s->low[i] = (uint64_t)t[2] << 60 | (uint64_t)t[3] << 48 | (uint64_t)t[4] << 36 | (uint64_t)t[5] << 24 | (uint64_t)t[6] << 12 | t[7];
}

static void find_stairs(struct walk *w, struct stairs *s, uint32_t i, uint32_t step, uint64_t pages, uint64_t lost)
{
    if (i == w->n) {
        uint32_t need = need_of(pages, step);
        if (need <= w->budget)
            enter(w, s, need, lost);
        return;
    }
    uint32_t first = (w->lo[i] + step - 1) / step;
    for (uint32_t t = first * step; t <= w->hi[i]; t += step) {
        uint64_t here = lost + job_loss(w, i, t);
        uint64_t floor = here + loss_floor(w, i + 1, t);
        if (floor >= s->bound)
            return;
        if (repeats(w, i, t / step, first))
            continue;
        uint64_t more = pages * (t / step) + w->loads[i];
        uint32_t need_floor = need_of(more, t) + w->later[i + 1];
        if (need_floor > w->budget || covered(s, need_floor, floor) || !reaches(w, i + 1, t))
            continue;
        w->periods[i] = t;
        find_stairs(w, s, i + 1, t, more, here);
    }
}

static void next_answers(uint32_t n, const uint32_t jobs[], uint64_t limit, int without_cut, struct stairs *s)
{
    struct walk w = prepared(n, jobs, (uint32_t)(limit - 1));
    w.without_cut = without_cut;
    s->count = 0;
    s->bound = UINT64_MAX;
    find_stairs(&w, s, 0, 1, 0, 0);
}

static uint64_t table(uint32_t n, const uint32_t jobs[], uint8_t *room, size_t length, int without_cut)
{
    static const uint64_t all = (uint64_t)1 << 32;
    uint64_t verdict = reference_judge(n, jobs), rows = 0;
    if (verdict != 0)
        return verdict;
    struct stairs s;
    for (uint64_t limit = all; limit > 0; limit = need_in(&s, s.count - 1)) {
        next_answers(n, jobs, limit, without_cut, &s);
        if (s.count == 0)
            break;
        rows += s.count;
    }
    if (rows == 0)
        return refusal(9, 0);
    if (length / 16 < rows)
        return refusal(11, rows);
    uint64_t left = rows;
    for (uint64_t limit = all; left > 0; limit = need_in(&s, s.count - 1)) {
        next_answers(n, jobs, limit, without_cut, &s);
        for (uint32_t k = 0; k < s.count; k++) {
            put_word(room + 16 * --left, s.high[k]);
            put_word(room + 16 * left + 8, s.low[k]);
        }
    }
    return rows;
}

uint64_t walk_table(uint32_t n, const uint32_t jobs[], uint8_t *room, size_t length) { return table(n, jobs, room, length, 0); }

uint64_t walk_table_uncut(uint32_t n, const uint32_t jobs[], uint8_t *room, size_t length) { return table(n, jobs, room, length, 1); }
