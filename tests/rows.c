/* Compares charopleth_zones and charopleth_table with the reference: rows COUNT SEED. Ends with status 1 at the first
 * difference. The rooms are around the size that is needed, with bytes on both sides that must stand; for some profiles they
 * are all rooms from no row to one row more than needed. */
#include "charopleth.h"
#include "reference.h"
#include "report.h"

enum { GUARD = 32, MOST = 1 << 20, SWEPT = 300, SWEPT_ROWS = 200 };

static uint8_t have[MOST], want[MOST];

/* An operation that fills a room with rows, and the reference for it. */
struct operation {
    const char *name;
    uint64_t (*proved)(uint32_t, const uint32_t[], uint8_t *, size_t);
    uint64_t (*reference)(uint32_t, const uint32_t[], uint8_t *, uint64_t, uint64_t);
};

/* In a room of `length` bytes between two guards. */
static int same(const struct operation *o, uint32_t n, const uint32_t jobs[], uint64_t length, uint64_t *result)
{
    for (uint64_t i = 0; i < length + 2 * GUARD; i++)
        have[i] = want[i] = (uint8_t)(0xA5 ^ i);
    *result = o->reference(n, jobs, want + GUARD, length, 20000);
    if (*result == REFERENCE_LONG)
        return -1;
    uint64_t answered = o->proved(n, jobs, have + GUARD, length);
    if (answered == *result && memcmp(have, want, length + 2 * GUARD) == 0)
        return 1;
    printf("%s: n %" PRIu32 " room %" PRIu64 ": answered %016" PRIx64 ", where the reference has %016" PRIx64 "\n", o->name, n, length, answered, *result);
    show_jobs(jobs);
    return 0;
}

/* In all rooms from no row to one row more than needed. */
static int sweep(const struct operation *o, uint32_t n, const uint32_t jobs[], uint64_t needed)
{
    uint64_t result;
    for (uint64_t rows = 0; rows <= needed + 1; rows++)
        if (!same(o, n, jobs, 16 * rows + below(16), &result))
            return 0;
    return 1;
}

static int compare(const struct operation *o, uint64_t count)
{
    uint64_t done = 0, rows = 0, swept = 0, rooms = 0, told[REFUSALS] = {0};
    while (done < count) {
        uint32_t jobs[CHAROPLETH_JOBS_LENGTH];
        uint32_t n = draw_profile(jobs);
        if (below(8) == 0)
            n = break_profile(n, jobs);
        uint64_t result;
        int equal = same(o, n, jobs, below(16), &result);
        if (equal < 0)
            continue;
        /* With no row: the number that is needed. Then in enough, and in a byte less than that. */
        uint64_t needed = CHAROPLETH_REFUSAL(result) == 11 ? CHAROPLETH_DETAIL(result) : 1;
        if (16 * needed + 64 > MOST - 2 * GUARD)
            continue;
        told[CHAROPLETH_REFUSAL(result)]++;
        equal = equal && same(o, n, jobs, 16 * needed - 1, &result) && same(o, n, jobs, 16 * needed + below(40), &result);
        if (equal && swept < SWEPT && !CHAROPLETH_REFUSAL(result) && needed <= SWEPT_ROWS) {
            equal = sweep(o, n, jobs, needed);
            swept++;
            rooms += needed + 2;
        }
        if (!equal)
            return 1;
        rows += CHAROPLETH_REFUSAL(result) ? 0 : result;
        done++;
    }
    printf("%s: %" PRIu64 " profiles equal in three rooms each, %" PRIu64 " of them in every room, %" PRIu64 " rooms (%" PRIu64 " rows", o->name, done, swept, rooms, rows);
    show_refusals(told);
    return 0;
}

int main(int argc, char **argv)
{
    static const struct operation operations[] = {{"zones", charopleth_zones, reference_zones}, {"table", charopleth_table, reference_table}};
    uint64_t count = take_arguments(argc, argv);
    return compare(operations, count) || compare(operations + 1, count);
}
