/* Measures reading and writing a profile of eight jobs against the same in C, on the same inputs in one run.
 * Ends with status 1 where the answers differ or the bound is broken. */
#define _POSIX_C_SOURCE 199309L
#include <inttypes.h>
#include <stdio.h>
#include <string.h>

#include "charopleth.h"
#include "drawn.h"
#include "jobs.h"
#include "packer.h"
#include "timing.h"

static const double most_of_packer = 2;

/* Runs are short and many, so that some of each side go undisturbed. */
enum { RUNS = 100, PROFILES = 64, LENGTH = 1 + 8 * CHAROPLETH_MOST_JOBS };

static uint32_t jobs[PROFILES][CHAROPLETH_JOBS_LENGTH];
static uint8_t profiles[PROFILES][LENGTH];
static int failed;

typedef uint64_t reader(const uint8_t *, size_t, uint32_t[]);
typedef uint64_t writer(uint32_t, const uint32_t[], uint8_t *, size_t);

static double seconds_to_read(reader *read, int times)
{
    uint32_t values[CHAROPLETH_VALUES_LENGTH];
    double start = now();
    for (int i = 0; i < times; i++)
        for (int p = 0; p < PROFILES; p++)
            read(profiles[p], LENGTH, values);
    return now() - start;
}

static double seconds_to_write(writer *write, int times)
{
    uint8_t room[LENGTH];
    double start = now();
    for (int i = 0; i < times; i++)
        for (int p = 0; p < PROFILES; p++)
            write(8, jobs[p], room, LENGTH);
    return now() - start;
}

/* Both on the same bytes: what they answer, and what they leave in the array. */
static void compare_readers(const uint8_t *profile, size_t length)
{
    uint32_t have[CHAROPLETH_VALUES_LENGTH], want[CHAROPLETH_VALUES_LENGTH];
    memset(have, 0xa5, sizeof have);
    memset(want, 0xa5, sizeof want);
    uint64_t proved = charopleth_read(profile, length, have), by_hand = packer_read(profile, length, want);
    if (proved != by_hand || memcmp(have, want, sizeof have)) {
        printf("reading differs: %" PRIx64 " and %" PRIx64 "\n", proved, by_hand);
        failed = 1;
    }
}

/* Both from the same numbers: what they answer, and what they leave in the room. */
static void compare_writers(uint32_t n, const uint32_t given[], size_t length)
{
    uint8_t have[LENGTH + 8], want[LENGTH + 8];
    memset(have, 0xa5, sizeof have);
    memset(want, 0xa5, sizeof want);
    uint64_t proved = charopleth_write(n, given, have, length), by_hand = packer_write(n, given, want, length);
    if (proved != by_hand || memcmp(have, want, sizeof have)) {
        printf("writing differs: %" PRIx64 " and %" PRIx64 "\n", proved, by_hand);
        failed = 1;
    }
}

static void tell(const char *name, struct least least, int times)
{
    double ratio = least.proved / least.by_hand;
    printf("%-30s %10.3f us  %5.2f x the packer in C\n", name, least.proved / times / PROFILES * 1e6, ratio);
    if (ratio > most_of_packer)
        failed = 1;
    fflush(stdout);
}

int main(void)
{
    random_state = 1;
    for (int p = 0; p < PROFILES; p++) {
        draw_synthetic(jobs[p]);
        if (charopleth_write(8, jobs[p], profiles[p], LENGTH) != LENGTH) {
            printf("a drawn profile is not written\n");
            return 2;
        }
        for (uint32_t n = 0; n <= 9; n++) {
            uint32_t broken[CHAROPLETH_JOBS_LENGTH];
            memcpy(broken, jobs[p], sizeof broken);
            compare_writers(break_profile(n, broken), broken, LENGTH);
            compare_writers(n, jobs[p], 8 * n);
            compare_writers(n, jobs[p], LENGTH);
        }
        compare_readers(profiles[p], LENGTH);
        for (size_t bit = 0; bit < 8 * LENGTH; bit++) {
            profiles[p][bit / 8] ^= (uint8_t)(0x80 >> bit % 8);
            compare_readers(profiles[p], LENGTH);
            compare_readers(profiles[p], bit / 8);
            profiles[p][bit / 8] ^= (uint8_t)(0x80 >> bit % 8);
        }
    }
    int times = 1;
    while (seconds_to_read(packer_read, times) < 0.005)
        times *= 2;
    struct least reading = untimed, writing = untimed;
    for (int run = 0; run < RUNS; run++) {
        timed(&reading, seconds_to_read(charopleth_read, times), seconds_to_read(packer_read, times));
        timed(&writing, seconds_to_write(charopleth_write, times), seconds_to_write(packer_write, times));
    }
    tell("a profile read", reading, times);
    tell("a profile written", writing, times);
    printf(failed ? "bench: a bound is broken\n" : "bench: within %.1f x the packer in C\n", most_of_packer);
    return failed;
}
