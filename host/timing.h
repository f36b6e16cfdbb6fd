/*
  timing.h -- one call timed on two inputs

  Both are timed in turn, so that what else the machine does meets both alike,
  and the medians are compared.
*/

#ifndef TIMING_H
#define TIMING_H

#include <stdlib.h>
#include <time.h>

enum { TIMES = 101, CALLS = 20 };

typedef struct {
    double small, large; /* medians, in seconds */
} medians;

static inline double seconds(void)
{
    struct timespec t;
    clock_gettime(CLOCK_MONOTONIC, &t);
    return (double)t.tv_sec + 1e-9 * (double)t.tv_nsec;
}

static inline int by_size(const void *a, const void *b)
{
    double x = *(const double *)a, y = *(const double *)b;
    return (x > y) - (x < y);
}

static inline double call_time(void (*run)(const void *), const void *input)
{
    double start = seconds();
    for (int i = 0; i < CALLS; i++)
        run(input);
    return (seconds() - start) / CALLS;
}

static inline medians time_both(void (*run)(const void *), const void *small, const void *large)
{
    double small_times[TIMES], large_times[TIMES];
    for (int i = 0; i < TIMES; i++) {
        small_times[i] = call_time(run, small);
        large_times[i] = call_time(run, large);
    }
    qsort(small_times, TIMES, sizeof small_times[0], by_size);
    qsort(large_times, TIMES, sizeof large_times[0], by_size);
    return (medians){small_times[TIMES / 2], large_times[TIMES / 2]};
}

#endif
