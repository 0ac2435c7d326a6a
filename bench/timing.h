/* The time that this process has taken, and the least of several times of two. */
#ifndef TIMING_H
#define TIMING_H

#include <time.h>

static double now(void)
{
    struct timespec t;
    clock_gettime(CLOCK_PROCESS_CPUTIME_ID, &t);
    return t.tv_sec + t.tv_nsec * 1e-9;
}

/* The least that the proved one and the one in C were seen to take. They run by turns, so that what else the machine does falls on
 * both. */
struct least {
    double proved, by_hand;
};

static const struct least untimed = {1e9, 1e9};

static void timed(struct least *least, double proved, double by_hand)
{
    if (proved < least->proved)
        least->proved = proved;
    if (by_hand < least->by_hand)
        least->by_hand = by_hand;
}

#endif
