/*
  pattern_bench.c -- how fast lw_make_pattern is, against lw_solve

      pattern_bench [ROUNDS]

  Prints the part of docs/BENCHMARKS-CALLS.md on patterns, in medians of ROUNDS rounds
  (301 if not given). The tables are those of solve_bench.

  The exit status is 0 if the goals are met, 1 if one is missed, and 2 if not all
  could be measured.
*/

#define _POSIX_C_SOURCE 200809L /* clock_gettime */

#include <stdbool.h>
#include <stdio.h>
#include <stdlib.h>
#include <string.h>

#include "measure.h"
#include "plain_pattern.h"
#include "ratios.h"
#include "tables.h"
#include "timing.h"

/* Goals: at most so many times lw_solve's time; and for the smallest tables. */
#define MOST 1.45
#define MOST_SMALL 2.4

/* The time is that of many calls where one of them is short. */
enum { LONG = 3, SHORT = 30, SHORTEST = 100 };

typedef struct {
    subject in;
    double most;                        /* goal */
    uint16_t answer[LW_ANSWER_NUMBERS]; /* the table's own */
    uint8_t fresh[LW_MAX_VARIABLE_BITS];
    samples solve, make;
} pattern_subject;

static pattern_subject subjects[] = {
    {.in = {.name = "bit", .make = make_fixed, .size = 1, .calls = SHORTEST}, .most = MOST_SMALL},
    {.in = {.name = "small", .make = make_overlap, .size = 16, .calls = SHORTEST}, .most = MOST_SMALL},
    {.in = {.name = "typical", .make = make_link, .size = 32, .calls = SHORT}, .most = MOST},
    {.in = {.name = "turned", .make = make_turned, .size = 1024, .calls = LONG}, .most = MOST},
    {.in = {.name = "chained", .make = make_chained, .size = 300, .calls = LONG}, .most = MOST},
    {.in = {.name = "copied", .make = make_copied, .size = 300, .calls = LONG}, .most = MOST},
    {.in = {.name = "short", .make = make_short, .size = 512, .calls = LONG}, .most = MOST},
};

enum { SUBJECTS = sizeof subjects / sizeof subjects[0] };

/* Calls. */

static uint16_t solve_answer[LW_ANSWER_NUMBERS], work[LW_WORK_NUMBERS];
static uint8_t pattern[LW_MAX_VARIABLE_BITS], plain[LW_MAX_VARIABLE_BITS];

static lw_record solve(const pattern_subject *s)
{
    return lw_solve(s->in.d.t.numbers, s->in.d.t.len, solve_answer, LW_ANSWER_NUMBERS, work, LW_WORK_NUMBERS);
}

static lw_record make(const pattern_subject *s)
{
    return lw_make_pattern(s->in.d.t.numbers, s->in.d.t.len, s->answer, LW_ANSWER_ROW_NUMBERS * s->in.record.pieces,
                           s->fresh, s->in.record.free, pattern, sizeof pattern, work, LW_WORK_NUMBERS);
}

/* Makes the table, its answer and fresh bits; whether the pattern is that of the plain pattern maker. */
static bool prepare_pattern(pattern_subject *s)
{
    if (!prepare(&s->in))
        return false;
    solve(s);
    memcpy(s->answer, solve_answer, sizeof s->answer);
    for (size_t i = 0; i < s->in.record.free; i++)
        s->fresh[i] = (uint8_t)below(2);
    lw_record got = make(s), want = plain_fill(s->answer, LW_ANSWER_ROW_NUMBERS * s->in.record.pieces, s->fresh,
                                               s->in.record.free, plain, sizeof plain);
    if (memcmp(&got, &want, sizeof got) == 0 && got.outcome == LW_ACCEPTED && memcmp(pattern, plain, got.free) == 0)
        return true;
    fprintf(stderr, "%s: not the pattern of the plain pattern maker\n", s->in.name);
    return false;
}

/* Times. */

static volatile size_t sink; /* so that no call is left out */

static void time_call(lw_record (*call)(const pattern_subject *), const pattern_subject *s, samples *times)
{
    double start = seconds();
    for (size_t i = 0; i < s->in.calls; i++)
        sink += call(s).free;
    note(times, (seconds() - start) / (double)s->in.calls);
}

static bool print_patterns(void)
{
    bool met = true;

    printf("\n## Patterns\n\n"
           "`lw_make_pattern` with the table's own answer and random fresh bits, against `lw_solve` of that table, in the\n"
           "same round. It reads the form of the answer, solves the table, compares, and writes the pattern, which is\n"
           "first compared with that of the plain pattern maker ([host/plain_pattern.c](../host/plain_pattern.c)).\n\n"
           "| table | variable bits | pieces | `lw_solve`, µs | `lw_make_pattern`, µs | ratio | goal |\n"
           "|---|---:|---:|---:|---:|---:|---|\n");
    for (size_t k = 0; k < SUBJECTS; k++) {
        pattern_subject *s = &subjects[k];
        printf("| %s | %s | %s | %s ", s->in.name, whole(s->in.facts.bits), whole(s->in.record.pieces),
               micro(median(&s->solve)));
        met &= print_time(&s->make, &s->solve, s->most);
        printf("|\n");
    }
    printf("\nMedians of %zu rounds. A host that makes all patterns of a table pays a solve for each of them.\n",
           subjects[0].solve.count);
    return met;
}

int main(int argc, char **argv)
{
    size_t rounds = rounds_asked(argc, argv);

    if (rounds == 0)
        return 2;
    for (size_t k = 0; k < SUBJECTS; k++)
        if (!prepare_pattern(&subjects[k]))
            return 2;
    for (size_t i = 0; i < rounds; i++)
        for (size_t k = 0; k < SUBJECTS; k++) {
            time_call(solve, &subjects[k], &subjects[k].solve);
            time_call(make, &subjects[k], &subjects[k].make);
        }
    bool met = print_patterns();
    return fflush(stdout) != 0 || ferror(stdout) ? 2 : met ? 0 : 1;
}
