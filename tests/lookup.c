/* Compares charopleth_lookup with the reference: lookup COUNT SEED. Ends with status 1 at the first difference.
 * Tables are looked up whole, where the row must also be the reference's choice, and damaged in many ways; of a few tables
 * every byte is changed in turn and every length is tried. */
#include "charopleth.h"
#include "reference.h"
#include "report.h"

enum { MOST_ROWS = 4096, MOST = 16 * MOST_ROWS, LONG = 20000, SWEPT = 20, SWEPT_ROWS = 40 };

/* A profile and the bytes that are looked up in; `kept` is a copy that tells whether they were touched. */
struct lookup {
    uint32_t n, jobs[CHAROPLETH_JOBS_LENGTH];
    uint64_t length;
    uint8_t table[MOST + 16], kept[MOST + 16];
};

static struct lookup l;
static uint64_t lookups, told[REFUSALS];

static int same(uint32_t budget, uint64_t *result)
{
    memcpy(l.kept, l.table, sizeof l.kept);
    *result = reference_lookup(l.n, l.jobs, l.table, l.length, budget);
    uint64_t answered = charopleth_lookup(l.n, l.jobs, l.table, l.length, budget);
    lookups++;
    told[CHAROPLETH_REFUSAL(*result)]++;
    if (answered == *result && memcmp(l.kept, l.table, sizeof l.kept) == 0)
        return 1;
    printf("lookup: n %" PRIu32 " length %" PRIu64 " budget %" PRIu32 ": answered %016" PRIx64 ", where the reference has %016" PRIx64 "\n", l.n, l.length, budget, answered, *result);
    show_jobs(l.jobs);
    for (uint64_t i = 0; i < l.length; i++)
        printf("%02x%s", l.table[i], i % 16 == 15 ? "\n" : " ");
    return 0;
}

static uint32_t start_of(uint64_t row) { return reference_start(l.table + 16 * row); }

/* At, just below or just above some row's start, or anywhere. */
static uint32_t draw_budget(void)
{
    if (l.length < 16 || below(5) == 0)
        return below(3) ? (uint32_t)draw() : 0u - below(2);
    return start_of(below((uint32_t)(l.length / 16))) - 1 + below(3);
}

/* The row of a whole table is what the reference chooses, and its refusal is the choice's. */
static int as_chosen(uint32_t budget)
{
    uint64_t result, answer[CHAROPLETH_CHOICE_LENGTH] = {0};
    if (!same(budget, &result))
        return 0;
    uint64_t chosen = reference_choose(l.n, l.jobs, budget, answer, LONG);
    uint8_t row[16];
    reference_row(CHAROPLETH_NEED(answer), answer + CHAROPLETH_PERIODS, row);
    int equal = chosen ? chosen == result : !CHAROPLETH_REFUSAL(result) && memcmp(l.table + 16 * (result - 1), row, 16) == 0;
    if (!equal)
        printf("lookup: budget %" PRIu32 ": row %016" PRIx64 " is not the choice\n", budget, result);
    return equal;
}

/* Puts a row of permitted periods, with their true start, among the rows by that start: well formed where its loss is
 * between those beside it, and of equal loss where whole pages tie. */
static void insert(void)
{
    uint32_t list[8];
    uint64_t scores[CHAROPLETH_SCORE_LENGTH], periods[8], row = 0;
    if (!draw_periods(l.n, l.jobs, list) || l.length > MOST - 16 || reference_score(l.n, l.jobs, list, scores) != 0)
        return;
    for (int i = 0; i < 8; i++)
        periods[i] = list[i];
    while (row < l.length / 16 && start_of(row) < CHAROPLETH_NEED(scores))
        row++;
    memmove(l.table + 16 * row + 16, l.table + 16 * row, l.length - 16 * row);
    reference_row(CHAROPLETH_NEED(scores), periods, l.table + 16 * row);
    l.length += 16;
}

static void damage(void)
{
    uint32_t rows = (uint32_t)(l.length / 16);
    uint8_t row[16], *one = l.table + 16 * below(rows), *other = l.table + 16 * below(rows);
    switch (below(8)) {
    case 0: /* a bit */
        l.table[below((uint32_t)l.length)] ^= (uint8_t)(1u << below(8));
        break;
    case 1: /* a byte */
        l.table[below((uint32_t)l.length)] = (uint8_t)draw();
        break;
    case 2: /* two rows in each other's place */
        memcpy(row, one, 16);
        memcpy(one, other, 16);
        memcpy(other, row, 16);
        break;
    case 3: /* a row twice */
        memcpy(one, other, 16);
        break;
    case 4: /* a row left out: still well formed, unless it was the only one */
        memmove(one, one + 16, (size_t)(l.table + l.length - (one + 16)));
        l.length -= 16;
        break;
    case 5:
    case 6:
        insert();
        break;
    default: /* a length that is no multiple of 16, or fewer rows */
        l.length = below((uint32_t)l.length + 16);
    }
}

/* Every byte changed in turn, and every length. */
static int sweep(void)
{
    uint64_t whole = l.length, result;
    for (l.length = 0; l.length < whole + 16; l.length++)
        if (!same(draw_budget(), &result))
            return 0;
    l.length = whole;
    for (uint64_t i = 0; i < whole; i++) {
        uint8_t was = l.table[i], changes[4] = {(uint8_t)(was + 1), (uint8_t)(was - 1), was ^ 0x80, (uint8_t)draw()};
        for (int k = 0; k < 4; k++) {
            l.table[i] = changes[k];
            if (!same(draw_budget(), &result) || !same(0xffffffff, &result))
                return 0;
        }
        l.table[i] = was;
    }
    return 1;
}

int main(int argc, char **argv)
{
    uint64_t count = take_arguments(argc, argv), done = 0, swept = 0, result;
    while (done < count) {
        l.n = draw_profile(l.jobs);
        memset(l.table, 0xA5, sizeof l.table);
        uint64_t rows = reference_table(l.n, l.jobs, l.table, MOST, LONG);
        if (rows == REFERENCE_LONG || CHAROPLETH_REFUSAL(rows) == 11)
            continue;
        int built = CHAROPLETH_REFUSAL(rows) == 0;
        l.length = built ? 16 * rows : below(65);
        if (built && !as_chosen(draw_budget()))
            return 1;
        if (built && swept < SWEPT && rows <= SWEPT_ROWS) {
            swept++;
            if (!sweep())
                return 1;
        }
        for (int k = 0; k < 4; k++) {
            if (built && l.length >= 16 && k > 0)
                damage();
            if (!same(draw_budget(), &result))
                return 1;
        }
        if (below(4) == 0) {
            l.n = break_profile(l.n, l.jobs);
            if (!same(draw_budget(), &result))
                return 1;
        }
        done++;
    }
    printf("lookup: %" PRIu64 " profiles, %" PRIu64 " of them with every byte of the table changed, %" PRIu64 " lookups equal (%" PRIu64 " rows", done, swept, lookups, told[0]);
    show_refusals(told);
    return 0;
}
