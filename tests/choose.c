/* Compares charopleth_choose with the reference: choose COUNT SEED. Ends with status 1 at the first difference.
 * All of it runs on a stack of 64 KB with a page behind it that cannot be touched. */
#include <pthread.h>

#include "charopleth.h"
#include "reference.h"
#include "report.h"

static const uint64_t guard = 0x5aa5c33c96691ee1u;

enum { GUARDED = 1 + CHAROPLETH_CHOICE_LENGTH + 1 };

/* The answer between two guards. All numbers must stand as the reference leaves them. */
static int same(uint32_t n, const uint32_t jobs[], uint32_t budget, uint64_t *result)
{
    uint64_t have[GUARDED], want[GUARDED];
    for (int i = 0; i < GUARDED; i++)
        have[i] = want[i] = guard + i;
    *result = reference_choose(n, jobs, budget, want + 1, 40000);
    if (*result == REFERENCE_LONG)
        return -1;
    uint64_t answered = charopleth_choose(n, jobs, budget, have + 1);
    if (answered == *result && memcmp(have, want, sizeof have) == 0)
        return 1;
    printf("n %" PRIu32 " budget %" PRIu32 "\n", n, budget);
    show_jobs(jobs);
    printf("answered %016" PRIx64 ", where the reference has %016" PRIx64 "\n", answered, *result);
    for (int i = 0; i < GUARDED; i++)
        printf("%" PRIu64 " %" PRIu64 "\n", have[i], want[i]);
    return 0;
}

/* Profiles that go deepest: eight jobs, wide intervals, one that nothing meets. */
static void deepest(void)
{
    uint64_t answer[CHAROPLETH_CHOICE_LENGTH];
    for (uint32_t last = 3593; last <= 3600; last += 7) {
        uint32_t jobs[CHAROPLETH_JOBS_LENGTH];
        for (uint32_t i = 0; i < 8; i++)
            put_job(jobs, i, (struct job){.lo = i < 7 ? 1 : last, .hi = i < 7 ? 3600 : last, .data = 13000 + 2000 * i, .metadata = 13000, .stiffness = 1 + 4 * i});
        for (int bits = 0; bits < 32; bits += 2)
            charopleth_choose(8, jobs, 1u << bits, answer);
    }
}

struct task {
    uint64_t count;
    int status;
};

static void *compare(void *given)
{
    struct task *task = given;
    uint64_t done = 0, told[REFUSALS] = {0};
    deepest();
    while (done < task->count) {
        uint32_t jobs[CHAROPLETH_JOBS_LENGTH];
        uint32_t n = draw_profile(jobs);
        if (below(5) == 0)
            n = break_profile(n, jobs);
        /* At no budget at all: the least need, if some periods are permitted. Then around it, and anywhere. */
        uint64_t result;
        uint32_t budgets[6] = {0, 0xffffffff, (uint32_t)draw(), below(1u << (1 + below(31)))};
        int few = same(n, jobs, 0, &result);
        if (few < 0)
            continue;
        uint32_t least = CHAROPLETH_REFUSAL(result) == 10 ? (uint32_t)CHAROPLETH_DETAIL(result) : 1;
        budgets[4] = least - 1 + below(3);
        budgets[5] = least + below(1 + least);
        for (int i = 0; i < 6 && few > 0; i++) {
            few = same(n, jobs, budgets[i], &result);
            done++;
            told[CHAROPLETH_REFUSAL(result)]++;
        }
        if (few == 0) {
            task->status = 1;
            return 0;
        }
    }
    printf("choose: %" PRIu64 " answers equal, in a stack of 64 KB (%" PRIu64 " plans", done, told[0]);
    show_refusals(told);
    return 0;
}

int main(int argc, char **argv)
{
    struct task task = {take_arguments(argc, argv), 0};
    pthread_t thread;
    pthread_attr_t small;
    if (pthread_attr_init(&small) || pthread_attr_setstacksize(&small, 65536) || pthread_attr_setguardsize(&small, 4096) || pthread_create(&thread, &small, compare, &task) || pthread_join(thread, 0)) {
        printf("no thread with a stack of 64 KB\n");
        return 2;
    }
    return task.status;
}
