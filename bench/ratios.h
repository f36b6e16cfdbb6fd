/* ratios.h -- times of calls noted, and printed beside others, for the benchmark's page */

#ifndef RATIOS_H
#define RATIOS_H

#include <stdbool.h>
#include <stdio.h>

#include "figures.h"
#include "measure.h"

static inline void note(samples *s, double time)
{
    s->times[s->count++] = time;
}

/* A time, its ratio to another, and the goal. Whether it is met, if there is one. */
static inline bool print_time(samples *ours, samples *theirs, double most)
{
    double ratio = median(ours) / median(theirs);

    printf("| %s | %s |", micro(median(ours)), figure(ratio));
    if (most > 0)
        printf(" at most %.2f: %s", most, ratio <= most ? "met" : "MISSED");
    printf(" ");
    return most <= 0 || ratio <= most;
}

#endif /* RATIOS_H */
