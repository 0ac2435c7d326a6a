/* Compares charopleth_read, charopleth_write and charopleth_score with the reference: profiles COUNT SEED. Ends with status 1
 * at the first difference. What was written is read, whole and damaged, and read back it must be what was written. */
#include "charopleth.h"
#include "reference.h"
#include "report.h"

enum { GUARD = 8, MOST = 80, NUMBERS = CHAROPLETH_VALUES_LENGTH, SCORES = CHAROPLETH_SCORE_LENGTH };

static uint64_t told[3][REFUSALS];

static int tell(const char *name, int kind, uint32_t n, const uint32_t jobs[], uint64_t answered, uint64_t result, int equal)
{
    told[kind][CHAROPLETH_REFUSAL(result)]++;
    if (equal && answered == result)
        return 1;
    printf("%s: n %" PRIu32 ": answered %016" PRIx64 ", where the reference has %016" PRIx64 "\n", name, n, answered, result);
    show_jobs(jobs);
    return 0;
}

/* Into a room of `length` bytes between two guards. */
static int written_alike(uint32_t n, const uint32_t jobs[], uint64_t length, uint8_t bytes[MOST])
{
    uint8_t have[MOST + 2 * GUARD], want[MOST + 2 * GUARD];
    for (int i = 0; i < MOST + 2 * GUARD; i++)
        have[i] = want[i] = (uint8_t)(0xA5 ^ i);
    uint64_t result = reference_write(n, jobs, want + GUARD, length), answered = charopleth_write(n, jobs, have + GUARD, length);
    memcpy(bytes, want + GUARD, MOST);
    return tell("write", 0, n, jobs, answered, result, memcmp(have, want, sizeof have) == 0);
}

/* Into the numbers of n and its jobs, between two guards. */
static int read_alike(const uint8_t *bytes, uint64_t length, const uint32_t jobs[], uint32_t values[NUMBERS])
{
    uint32_t have[NUMBERS + 2 * GUARD], want[NUMBERS + 2 * GUARD];
    for (int i = 0; i < NUMBERS + 2 * GUARD; i++)
        have[i] = want[i] = 0xA5A5A5A5u + (uint32_t)i;
    uint64_t result = reference_read(bytes, length, want + GUARD), answered = charopleth_read(bytes, length, have + GUARD);
    memcpy(values, want + GUARD, NUMBERS * sizeof *values);
    return tell("read", 1, (uint32_t)length, jobs, answered, result, memcmp(have, want, sizeof have) == 0);
}

static int scored_alike(uint32_t n, const uint32_t jobs[], const uint32_t periods[8])
{
    uint64_t have[SCORES + 2 * GUARD], want[SCORES + 2 * GUARD];
    for (int i = 0; i < SCORES + 2 * GUARD; i++)
        have[i] = want[i] = 1 + (uint64_t)i;
    uint64_t result = reference_score(n, jobs, periods, want + GUARD), answered = charopleth_score(n, jobs, periods, have + GUARD);
    return tell("score", 2, n, jobs, answered, result, memcmp(have, want, sizeof have) == 0);
}

/* Periods for the jobs, anything beyond them, and every second time one number changed. */
static void draw_numbers(uint32_t n, const uint32_t jobs[], uint32_t periods[8])
{
    draw_periods(n, jobs, periods);
    for (uint32_t i = n; i < 8; i++)
        periods[i] = (uint32_t)draw();
    if (below(2))
        periods[below(8)] = below(2) ? draw_edge() : below(3602);
}

static void damage(uint8_t bytes[MOST], uint64_t *length)
{
    switch (below(4)) {
    case 0: bytes[below((uint32_t)*length)] ^= (uint8_t)(1u << below(8)); break;
    case 1: bytes[below((uint32_t)*length)] = (uint8_t)draw(); break;
    case 2: bytes[0] = (uint8_t)(0x10 | below(16)); break;
    default: *length = below(MOST);
    }
}

int main(int argc, char **argv)
{
    static const char *const names[3] = {"write", "read", "score"};
    uint64_t count = take_arguments(argc, argv);
    for (uint64_t done = 0; done < count; done++) {
        uint32_t jobs[CHAROPLETH_JOBS_LENGTH], periods[8], values[NUMBERS], n = draw_profile(jobs);
        uint8_t bytes[MOST];
        uint64_t length = 1 + 8 * (uint64_t)n;
        if (!written_alike(n, jobs, length - below(2) * below(10), bytes) || !written_alike(n, jobs, length + below(6), bytes))
            return 1;
        if (!read_alike(bytes, length, jobs, values))
            return 1;
        if (values[0] != n || memcmp(values + 1, jobs, CHAROPLETH_JOB_NUMBERS * n * sizeof *jobs) != 0) {
            printf("read: not what was written\n");
            return 1;
        }
        draw_numbers(n, jobs, periods);
        if (!scored_alike(n, jobs, periods))
            return 1;
        damage(bytes, &length);
        if (!read_alike(bytes, length, jobs, values))
            return 1;
        if (below(3) == 0) {
            n = break_profile(n, jobs);
            if (!written_alike(n, jobs, below(MOST), bytes) || !scored_alike(n, jobs, periods))
                return 1;
        }
    }
    for (int kind = 0; kind < 3; kind++) {
        uint64_t all = 0;
        for (int i = 0; i < REFUSALS; i++)
            all += told[kind][i];
        printf("%s: %" PRIu64 " equal (%" PRIu64 " done", names[kind], all, told[kind][0]);
        show_refusals(told[kind]);
    }
    return 0;
}
