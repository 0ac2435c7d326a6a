#include "reference.h"

#include <stdlib.h>
#include <string.h>

#include "jobs.h"

uint64_t reference_judge(uint32_t n, const uint32_t jobs[])
{
    if (n == 0 || n > 8)
        return refusal(3, 0);
    for (uint32_t i = 0; i < n; i++) {
        struct job job = get_job(jobs, i);
        if (job.lo == 0 || job.hi < job.lo || job.hi > 3600)
            return refusal(5, i + 1);
        if (job.stiffness < 1 || job.stiffness > 32)
            return refusal(6, i + 1);
        if (job.data > 32767 || job.metadata > 32767)
            return refusal(8, i + 1);
    }
    return 0;
}

/* A field of some bits, most significant first, from bit `at` of bytes that are zeros there on; the bit after it. */
static int put_field(uint8_t *bytes, int at, int width, uint64_t value)
{
    for (int end = at + width; at < end; at++)
        if (value >> (end - 1 - at) & 1)
            bytes[at / 8] |= (uint8_t)(0x80 >> at % 8);
    return at;
}

/* The field of some bits from bit `at` on. */
static uint32_t get_field(const uint8_t *bytes, int at, int width)
{
    uint32_t value = 0;
    for (int end = at + width; at < end; at++)
        value = value << 1 | (bytes[at / 8] >> (7 - at % 8) & 1);
    return value;
}

/* lo, hi, data, metadata, stiffness, spare. */
enum { FIELDS = 6 };
static const int record_widths[FIELDS] = {12, 12, 15, 15, 6, 4};

uint64_t reference_read(const uint8_t *profile, uint64_t length, uint32_t values[])
{
    uint32_t read[CHAROPLETH_VALUES_LENGTH] = {0};
    if (length == 0)
        return refusal(1, 0);
    if (get_field(profile, 0, 4) != 1)
        return refusal(2, 0);
    uint32_t n = read[0] = get_field(profile, 4, 4);
    if (n == 0 || n > 8)
        return refusal(3, 0);
    if (length != 1 + 8 * n)
        return refusal(4, 0);
    for (uint32_t i = 0; i < n; i++) {
        struct job job = {0};
        uint32_t spare, *const fields[FIELDS] = {&job.lo, &job.hi, &job.data, &job.metadata, &job.stiffness, &spare};
        for (int k = 0, at = 8 + 64 * (int)i; k < FIELDS; at += record_widths[k++])
            *fields[k] = get_field(profile, at, record_widths[k]);
        if (job.lo == 0 || job.hi < job.lo || job.hi > 3600)
            return refusal(5, i + 1);
        if (job.stiffness < 1 || job.stiffness > 32)
            return refusal(6, i + 1);
        if (spare != 0)
            return refusal(7, i + 1);
        put_job(read + 1, i, job);
    }
    memcpy(values, read, sizeof read);
    return 0;
}

uint64_t reference_write(uint32_t n, const uint32_t jobs[], uint8_t *room, uint64_t length)
{
    uint64_t verdict = reference_judge(n, jobs), bytes = 1 + 8 * (uint64_t)n;
    if (verdict != 0)
        return verdict;
    if (length < bytes)
        return refusal(11, bytes);
    memset(room, 0, bytes);
    int at = put_field(room, put_field(room, 0, 4, 1), 4, n);
    for (uint32_t i = 0; i < n; i++) {
        struct job job = get_job(jobs, i);
        const uint32_t fields[FIELDS] = {job.lo, job.hi, job.data, job.metadata, job.stiffness, 0};
        for (int k = 0; k < FIELDS; k++)
            at = put_field(room, at, record_widths[k], fields[k]);
    }
    return bytes;
}

/* Whole pages per hour, and a remainder over the last period. */
struct need {
    uint64_t whole, remainder;
};

/* A plan for a row, its need rounded up. */
struct plan {
    uint64_t loss, need, periods[8];
};

/* One enumeration of all permitted lists, in the order of the lists; `visit` is called at each. */
struct search {
    void (*visit)(struct search *);
    uint32_t n;
    const uint32_t *jobs;
    uint32_t budget;
    uint64_t left;
    uint32_t periods[8];
    int permitted, fitting, gave_up;
    uint64_t least_need;
    struct need need;
    uint64_t loss;
    uint32_t best[8];
    uint32_t (*lists)[8];
    struct plan *plans;
    uint64_t listed, space;
};

/* What the drive writes at one moment: the data of every job that runs, and metadata once, as much as the largest of theirs. */
static uint64_t pages_at(const struct search *s, uint32_t moment)
{
    uint64_t data = 0, metadata = 0;
    for (uint32_t i = 0; i < s->n; i++) {
        if (moment % s->periods[i] != 0)
            continue;
        struct job job = get_job(s->jobs, i);
        data += job.data;
        if (job.metadata > metadata)
            metadata = job.metadata;
    }
    return data + metadata;
}

/* What it writes in so many seconds: all jobs start together at second 0, which is not counted, and the first one runs whenever
 * another does. */
static uint64_t pages_in(const struct search *s, uint32_t seconds)
{
    uint64_t pages = 0;
    for (uint32_t moment = s->periods[0]; moment <= seconds; moment += s->periods[0])
        pages += pages_at(s, moment);
    return pages;
}

/* 3,600 times the pages of Tn seconds, over Tn. */
static struct need need_of(const struct search *s)
{
    uint32_t last = s->periods[s->n - 1];
    uint64_t hourly = 3600 * pages_in(s, last);
    return (struct need){.whole = hourly / last, .remainder = hourly % last};
}

/* A need as it meets a budget, settles a tie and starts a row. */
static uint64_t rounded_up(struct need need) { return need.remainder == 0 ? need.whole : need.whole + 1; }

static uint64_t loss_of(const struct search *s)
{
    uint64_t sum = 0;
    for (uint32_t i = 0; i < s->n; i++) {
        struct job job = get_job(s->jobs, i);
        uint64_t hourly = 3600 * ((uint64_t)job.data + job.metadata);
        uint64_t fall = hourly / job.lo - hourly / s->periods[i];
        sum += job.stiffness * fall * fall;
    }
    return sum;
}

/* What scoring and choosing both tell. */
static void put_score(uint64_t answer[], struct need need, uint64_t loss)
{
    answer[CHAROPLETH_WHOLE] = need.whole;
    answer[CHAROPLETH_REMAINDER] = need.remainder;
    answer[CHAROPLETH_LOSS] = loss;
}

static void weigh(struct search *s)
{
    struct need need = need_of(s);
    uint64_t rounded = rounded_up(need), loss = loss_of(s);
    if (!s->permitted || rounded < s->least_need)
        s->least_need = rounded;
    s->permitted = 1;
    if (rounded > s->budget)
        return;
    /* On equal loss and need the list that was found first stands: it is the smaller one. */
    if (s->fitting && (loss > s->loss || (loss == s->loss && rounded >= rounded_up(s->need))))
        return;
    s->fitting = 1;
    s->need = need;
    s->loss = loss;
    memcpy(s->best, s->periods, sizeof s->best);
}

static void enumerate(struct search *s, uint32_t i, uint32_t before)
{
    if (i == s->n) {
        s->visit(s);
        return;
    }
    struct job job = get_job(s->jobs, i);
    for (uint32_t t = before; t <= job.hi; t += before) {
        if (t < job.lo)
            continue;
        if (s->left-- == 0)
            s->gave_up = 1;
        if (s->gave_up)
            return;
        s->periods[i] = t;
        enumerate(s, i + 1, t);
    }
}

/* The whole enumeration, `visit` having been called at each list. */
static struct search enumerated(void (*visit)(struct search *), uint32_t n, const uint32_t jobs[], uint32_t budget, uint64_t most)
{
    struct search s = {.visit = visit, .n = n, .jobs = jobs, .budget = budget, .left = most};
    enumerate(&s, 0, 1);
    return s;
}

uint64_t reference_choose(uint32_t n, const uint32_t jobs[], uint32_t budget, uint64_t answer[], uint64_t most)
{
    uint64_t verdict = reference_judge(n, jobs);
    if (verdict != 0)
        return verdict;
    struct search s = enumerated(weigh, n, jobs, budget, most);
    if (s.gave_up)
        return REFERENCE_LONG;
    if (!s.permitted)
        return refusal(9, 0);
    if (!s.fitting)
        return refusal(10, s.least_need);
    put_score(answer, s.need, s.loss);
    for (uint32_t i = 0; i < 8; i++)
        answer[CHAROPLETH_PERIODS + i] = i < n ? s.best[i] : 0;
    return 0;
}

/* What is kept, with space for one more of this size. */
static void *spacious(struct search *s, void *kept, size_t size)
{
    if (s->listed < s->space)
        return kept;
    s->space = 2 * s->space + 64;
    return realloc(kept, s->space * size);
}

/* A list as its multipliers, and the first period behind them. */
static void gather(struct search *s)
{
    s->lists = spacious(s, s->lists, sizeof *s->lists);
    uint32_t *list = s->lists[s->listed++];
    memset(list, 0, sizeof *s->lists);
    for (uint32_t i = 1; i < s->n; i++)
        list[i - 1] = s->periods[i] / s->periods[0];
    list[7] = s->periods[0];
}

static int in_order(const void *a, const void *b)
{
    const uint32_t *x = a, *y = b;
    for (int i = 0; i < 8; i++)
        if (x[i] != y[i])
            return x[i] < y[i] ? -1 : 1;
    return 0;
}

/* What is answered where so many rows are to be written, and nothing is wrong with the profile. */
static uint64_t answer_rows(const struct search *s, uint64_t rows, uint64_t length)
{
    if (s->gave_up)
        return REFERENCE_LONG;
    if (rows == 0)
        return refusal(9, 0);
    return length / 16 < rows ? refusal(11, rows) : rows;
}

uint64_t reference_zones(uint32_t n, const uint32_t jobs[], uint8_t *room, uint64_t length, uint64_t most)
{
    uint64_t verdict = reference_judge(n, jobs);
    if (verdict != 0)
        return verdict;
    struct search s = enumerated(gather, n, jobs, 0, most);
    uint64_t rows = 0;
    if (s.listed)
        qsort(s.lists, s.listed, sizeof *s.lists, in_order);
    for (uint64_t i = 0; i < s.listed; i++)
        rows += i == 0 || memcmp(s.lists[i], s.lists[i - 1], 7 * sizeof(uint32_t)) != 0;
    uint64_t result = answer_rows(&s, rows, length);
    if (result == rows) {
        uint8_t *row = room;
        for (uint64_t i = 0; i < s.listed; row += 16) {
            uint64_t last = i;
            while (last + 1 < s.listed && memcmp(s.lists[last + 1], s.lists[i], 7 * sizeof(uint32_t)) == 0)
                last++;
            memset(row, 0, 16);
            int at = put_field(row, put_field(row, 0, 12, s.lists[i][7]), 12, s.lists[last][7]);
            for (int k = 0; k < 7; k++)
                at = put_field(row, at, 12, s.lists[i][k]);
            i = last + 1;
        }
    }
    free(s.lists);
    return result;
}

static void keep_plan(struct search *s)
{
    s->plans = spacious(s, s->plans, sizeof *s->plans);
    struct plan *plan = s->plans + s->listed++;
    memset(plan, 0, sizeof *plan);
    plan->loss = loss_of(s);
    plan->need = rounded_up(need_of(s));
    for (uint32_t i = 0; i < s->n; i++)
        plan->periods[i] = s->periods[i];
}

/* Less loss first, then less need, then the list that is smaller at its first difference. */
static int better(const void *a, const void *b)
{
    const struct plan *x = a, *y = b;
    if (x->loss != y->loss)
        return x->loss < y->loss ? -1 : 1;
    if (x->need != y->need)
        return x->need < y->need ? -1 : 1;
    for (int i = 0; i < 8; i++)
        if (x->periods[i] != y->periods[i])
            return x->periods[i] < y->periods[i] ? -1 : 1;
    return 0;
}

void reference_row(uint64_t start, const uint64_t periods[8], uint8_t row[16])
{
    memset(row, 0, 16);
    int at = put_field(row, 0, 32, start);
    for (int k = 0; k < 8; k++)
        at = put_field(row, at, 12, periods[k]);
}

uint32_t reference_start(const uint8_t row[16]) { return get_field(row, 0, 32); }

uint64_t reference_table(uint32_t n, const uint32_t jobs[], uint8_t *room, uint64_t length, uint64_t most)
{
    uint64_t verdict = reference_judge(n, jobs);
    if (verdict != 0)
        return verdict;
    struct search s = enumerated(keep_plan, n, jobs, 0, most);
    if (s.listed)
        qsort(s.plans, s.listed, sizeof *s.plans, better);
    /* From the greatest budget down: the best of all, then the best that needs less, and so on. */
    uint64_t rows = 0;
    for (uint64_t i = 0; i < s.listed; i++)
        if (rows == 0 || s.plans[i].need < s.plans[rows - 1].need)
            s.plans[rows++] = s.plans[i];
    uint64_t result = answer_rows(&s, rows, length);
    if (result == rows)
        for (uint64_t i = 0; i < rows; i++) {
            const struct plan *plan = s.plans + (rows - 1 - i);
            reference_row(plan->need, plan->periods, room + 16 * i);
        }
    free(s.plans);
    return result;
}

/* The first job, from 1, whose period is outside its interval or no multiple of the one before; 0 where there is none. */
static uint32_t first_bad_period(const struct search *s)
{
    uint32_t before = 1;
    for (uint32_t i = 0; i < s->n; i++) {
        struct job job = get_job(s->jobs, i);
        uint32_t t = s->periods[i];
        if (t < job.lo || t > job.hi || t % before != 0)
            return i + 1;
        before = t;
    }
    return 0;
}

uint64_t reference_score(uint32_t n, const uint32_t jobs[], const uint32_t periods[8], uint64_t answer[])
{
    uint64_t verdict = reference_judge(n, jobs);
    if (verdict != 0)
        return verdict;
    struct search s = {.n = n, .jobs = jobs};
    memcpy(s.periods, periods, sizeof s.periods);
    uint32_t bad = first_bad_period(&s);
    if (bad != 0)
        return refusal(13, bad);
    put_score(answer, need_of(&s), loss_of(&s));
    return 0;
}

/* A row's periods into the search; whether they are permitted, with zeros beyond n. */
static int take_periods(struct search *s, const uint8_t row[16])
{
    for (uint32_t i = 0; i < 8; i++) {
        s->periods[i] = get_field(row, 32 + 12 * (int)i, 12);
        if (i >= s->n && s->periods[i] != 0)
            return 0;
    }
    return first_bad_period(s) == 0;
}

uint64_t reference_lookup(uint32_t n, const uint32_t jobs[], const uint8_t *table, uint64_t length, uint32_t budget)
{
    uint64_t verdict = reference_judge(n, jobs), start_before = 0, loss_before = 0, answer = 0;
    if (verdict != 0)
        return verdict;
    if (length == 0 || length % 16 != 0)
        return refusal(12, 0);
    struct search s = {.n = n, .jobs = jobs};
    for (uint64_t k = 0; k < length / 16; k++) {
        const uint8_t *row = table + 16 * k;
        uint64_t start = reference_start(row);
        if (!take_periods(&s, row) || rounded_up(need_of(&s)) != start)
            return refusal(12, k + 1);
        uint64_t loss = loss_of(&s);
        if (k > 0 && (start <= start_before || loss >= loss_before))
            return refusal(12, k + 1);
        start_before = start;
        loss_before = loss;
        if (start <= budget)
            answer = k + 1;
    }
    return answer ? answer : refusal(10, reference_start(table));
}
