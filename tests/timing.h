/* What the programs that time the library share: processor time, medians, one core, the argument. */
#ifndef TIMING_H
#define TIMING_H

#include <sched.h>
#include <stdio.h>
#include <stdlib.h>
#include <string.h>
#include <time.h>

enum { MORE_ROUNDS = 2001 };

/* Nanoseconds of this thread's processor time. */
static double now(void)
{
    struct timespec t;

    clock_gettime(CLOCK_THREAD_CPUTIME_ID, &t);
    return (double)t.tv_sec * 1e9 + (double)t.tv_nsec;
}

static int ascending(const void *a, const void *b)
{
    double x = *(const double *)a, y = *(const double *)b;

    return (x > y) - (x < y);
}

/* The value of a rank, from 0, of so many. */
static double ranked(const double *values, int count, int rank)
{
    static double sorted[MORE_ROUNDS];

    memcpy(sorted, values, (size_t)count * sizeof *values);
    qsort(sorted, (size_t)count, sizeof *sorted, ascending);
    return sorted[rank];
}

static double median(const double *values, int count) { return ranked(values, count, count / 2); }

/* The median of the rounds' ratios of one way and another. */
static double ratio(const double *of, const double *to, int rounds)
{
    static double ratios[MORE_ROUNDS];
    int r;

    for (r = 0; r < rounds; r++)
        ratios[r] = of[r] / to[r];
    return median(ratios, rounds);
}

/* Stays on one core, and gives the rounds that are asked for, 0 where there can't be so many. */
static int rounds_asked(int argc, char **argv, int usual)
{
    int rounds = argc > 1 ? atoi(argv[1]) : usual;
    cpu_set_t core;

    if (rounds < 1 || rounds > MORE_ROUNDS) {
        fprintf(stderr, "usage: %s [ROUNDS], at most %d\n", argv[0], MORE_ROUNDS);
        return 0;
    }
    CPU_ZERO(&core);
    CPU_SET((size_t)sched_getcpu(), &core);
    sched_setaffinity(0, sizeof core, &core);
    return rounds;
}

#endif
