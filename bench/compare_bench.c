/*
  compare_bench.c -- how fast lw_compare_tables is, against two calls of lw_solve
  and against the plain comparison of host/plain_compare.c

      compare_bench [ROUNDS]

  Prints a part of docs/BENCHMARKS-CALLS.md, in medians of ROUNDS rounds (301 if not
  given). The tables are those of solve_bench, each compared with itself and with
  itself without its last equation.

  The exit status is 0 if the goals are met, 1 if one is missed, and 2 if not all
  could be measured.
*/

#define _POSIX_C_SOURCE 200809L /* clock_gettime */

#include <stdbool.h>
#include <stdio.h>
#include <stdlib.h>
#include <string.h>

#include "figures.h"
#include "measure.h"
#include "plain_compare.h"
#include "tables.h"
#include "timing.h"

/* Goals: at most so many times the time of two solves, and of the plain comparison. */
#define MOST_LARGE 0.9
#define MOST_SMALL 0.7
#define MOST_PLAIN 1.0

/* The time is that of many calls where one of them is short. */
enum { LONG = 3, SHORT = 30, SHORTEST = 100, SECONDS_OF = 2 /* second tables of each */ };

typedef struct {
    subject in;
    double most, most_plain;           /* goals; 0 for none */
    uint16_t shorter[LW_TABLE_NUMBERS]; /* the table without its last equation: in its place is a fill */
    struct {
        const uint16_t *second;
        uint32_t outcome;
        samples call, solves, plain;
    } with[SECONDS_OF];
} like_subject;

static like_subject subjects[] = {
    {.in = {.name = "bit", .make = make_fixed, .size = 1, .calls = SHORTEST}, .most = MOST_SMALL},
    {.in = {.name = "small", .make = make_overlap, .size = 16, .calls = SHORTEST}, .most = MOST_SMALL},
    {.in = {.name = "typical", .make = make_link, .size = 32, .calls = SHORT}, .most = MOST_SMALL, .most_plain = MOST_PLAIN},
    {.in = {.name = "turned", .make = make_turned, .size = 1024, .calls = LONG}, .most = MOST_LARGE, .most_plain = MOST_PLAIN},
    {.in = {.name = "chained", .make = make_chained, .size = 300, .calls = LONG}, .most = MOST_LARGE, .most_plain = MOST_PLAIN},
    {.in = {.name = "copied", .make = make_copied, .size = 300, .calls = LONG}, .most = MOST_LARGE, .most_plain = MOST_PLAIN},
    {.in = {.name = "short", .make = make_short, .size = 512, .calls = LONG}, .most = MOST_LARGE, .most_plain = MOST_PLAIN},
};

enum { SUBJECTS = sizeof subjects / sizeof subjects[0] };

static const char *const seconds_names[SECONDS_OF] = {"itself", "without its last equation"};

/* The contenders. */

static uint16_t answer[LW_ANSWER_NUMBERS], work[LW_WORK_NUMBERS];

static uint32_t call(const like_subject *s, const uint16_t *second)
{
    return lw_compare_tables(s->in.d.t.numbers, s->in.d.t.len, second, s->in.d.t.len, work, LW_WORK_NUMBERS).outcome;
}

static uint32_t solves(const like_subject *s, const uint16_t *second)
{
    lw_record a = lw_solve(s->in.d.t.numbers, s->in.d.t.len, answer, LW_ANSWER_NUMBERS, work, LW_WORK_NUMBERS);
    lw_record b = lw_solve(second, s->in.d.t.len, answer, LW_ANSWER_NUMBERS, work, LW_WORK_NUMBERS);
    return a.ties + b.ties;
}

static uint32_t plain(const like_subject *s, const uint16_t *second)
{
    return plain_compare_tables(s->in.d.t.numbers, s->in.d.t.len, second, s->in.d.t.len, LW_WORK_NUMBERS, false).outcome;
}

/* Makes the tables; whether both comparisons find the same. */
static bool prepare_all(void)
{
    for (size_t k = 0; k < SUBJECTS; k++) {
        like_subject *s = &subjects[k];
        if (!prepare(&s->in))
            return false;
        size_t last = s->in.d.t.len - 4;
        memcpy(s->shorter, s->in.d.t.numbers, s->in.d.t.len * sizeof *s->shorter);
        while (s->shorter[last] != LW_EQUATION)
            last -= 4;
        memcpy(s->shorter + last, (const uint16_t[]){FILL(0, 1)}, 4 * sizeof *s->shorter);
        s->with[0].second = s->in.d.t.numbers;
        s->with[1].second = s->shorter;
        for (size_t i = 0; i < SECONDS_OF; i++) {
            uint32_t want = plain(s, s->with[i].second);
            s->with[i].outcome = call(s, s->with[i].second);
            if (s->with[i].outcome != want) {
                fprintf(stderr, "%s with %s: outcome %u, by the plain comparison %u\n", s->in.name, seconds_names[i],
                        s->with[i].outcome, want);
                return false;
            }
        }
    }
    return true;
}

/* Times. */

static volatile size_t sink; /* so that no call is left out */

static void time_one(uint32_t (*run)(const like_subject *, const uint16_t *), const like_subject *s,
                     const uint16_t *second, samples *times)
{
    double start = seconds();
    for (size_t i = 0; i < s->in.calls; i++)
        sink += run(s, second);
    times->times[times->count++] = (seconds() - start) / (double)s->in.calls;
}

/* The page. */

/* A time, a ratio to it, and the goal. Whether it is met, if there is one. */
static bool print_time(samples *ours, samples *theirs, double most)
{
    double ratio = median(ours) / median(theirs);

    printf("| %s | %s |", micro(median(theirs)), figure(ratio));
    if (most > 0)
        printf(" at most %.1f: %s", most, ratio <= most ? "met" : "MISSED");
    printf(" ");
    return most <= 0 || ratio <= most;
}

static bool print_comparisons(void)
{
    bool met = true;

    printf("\n## Two tables compared\n\n"
           "`lw_compare_tables` on tables of that page, each with itself and with itself without its last equation (in its\n"
           "place stands a fill of one bit), beside `lw_solve` of both, and beside the plain comparison in C (`ref_check`\n"
           "of both, then `plain_compare_classes` of [host/plain_compare.c](../host/plain_compare.c)). Its outcome is first\n"
           "compared with that of the latter. Ratios are the call's time to the other.\n\n"
           "| table | with | outcome | call, µs | two solves, µs | ratio | goal | plain comparison, µs | ratio | goal |\n"
           "|---|---|---:|---:|---:|---:|---|---:|---:|---|\n");
    for (size_t k = 0; k < SUBJECTS; k++)
        for (size_t i = 0; i < SECONDS_OF; i++) {
            like_subject *s = &subjects[k];
            printf("| %s | %s | %u | %s ", s->in.name, seconds_names[i], s->with[i].outcome, micro(median(&s->with[i].call)));
            met &= print_time(&s->with[i].call, &s->with[i].solves, s->most);
            met &= print_time(&s->with[i].call, &s->with[i].plain, s->most_plain);
            printf("|\n");
        }
    printf("\nMedians of %zu rounds.\n", subjects[0].with[0].call.count);
    return met;
}

int main(int argc, char **argv)
{
    size_t rounds = rounds_asked(argc, argv);

    if (rounds == 0 || !prepare_all())
        return 2;
    for (size_t r = 0; r < rounds; r++)
        for (size_t k = 0; k < SUBJECTS; k++)
            for (size_t i = 0; i < SECONDS_OF; i++) {
                like_subject *s = &subjects[k];
                time_one(call, s, s->with[i].second, &s->with[i].call);
                time_one(solves, s, s->with[i].second, &s->with[i].solves);
                time_one(plain, s, s->with[i].second, &s->with[i].plain);
            }
    bool met = print_comparisons();
    return fflush(stdout) != 0 || ferror(stdout) ? 2 : met ? 0 : 1;
}
