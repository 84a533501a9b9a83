/* Times of two programs that do the same, taken in turns. */
#include "timing.h"

#include <stdint.h>
#include <stdio.h>
#include <stdlib.h>
#include <time.h>

enum { PROGRAMS = 2, MOST_ROUNDS = 64, ROUND_NS = 2000000 };

static double now_ns(void)
{
    struct timespec t;
    clock_gettime(CLOCK_MONOTONIC, &t);
    return 1e9 * (double)t.tv_sec + (double)t.tv_nsec;
}

static double turns_ns(work *once, int program, void *given, uint64_t turns)
{
    double began = now_ns();
    for (uint64_t i = 0; i < turns; i++) {
        once(program, given);
    }
    return (now_ns() - began) / (double)turns;
}

static int by_size(const void *a, const void *b)
{
    const double *x = a, *y = b;
    return (*x > *y) - (*x < *y);
}

void compare(const char *name, work *once, void *given, int rounds)
{
    static double taken[PROGRAMS][MOST_ROUNDS];
    uint64_t turns[PROGRAMS];
    for (int program = 0; program < PROGRAMS; program++) {
        once(program, given);
        turns[program] = 1 + (uint64_t)(ROUND_NS / turns_ns(once, program, given, 3));
    }
    for (int round = 0; round < rounds * PROGRAMS; round++) {
        /* Each goes first in every other round. */
        int program = (round + round / PROGRAMS) % PROGRAMS;
        taken[program][round / PROGRAMS] = turns_ns(once, program, given, turns[program]);
    }
    printf("%s", name);
    for (int program = 0; program < PROGRAMS; program++) {
        qsort(taken[program], (size_t)rounds, sizeof taken[program][0], by_size);
        printf("\t%.0f\t%.0f..%.0f", taken[program][rounds / 2], taken[program][rounds / 4], taken[program][3 * rounds / 4]);
    }
    printf("\t%.2f\n", taken[0][rounds / 2] / taken[1][rounds / 2]);
    fflush(stdout);
}
