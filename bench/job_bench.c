/*
  job_bench.c -- how fast the calls of a job are, against lw_solve

      job_bench [ROUNDS]

  Prints the part of docs/BENCHMARKS-CALLS.md on jobs, in medians of ROUNDS rounds (301
  if not given), for all steps of a job of every tenth of them. The tables are
  those of solve_bench, and one whose row 0 has 1024 bits.

  The exit status is 0 if the goals are met, 1 if one is missed, and 2 if not all
  could be measured.
*/

#define _POSIX_C_SOURCE 200809L /* clock_gettime */

#include <stdbool.h>
#include <stdio.h>
#include <stdlib.h>
#include <string.h>

#include "measure.h"
#include "ratios.h"
#include "tables.h"
#include "timing.h"

/* Goals: at most so many times lw_solve's time. */
#define MOST 1.25            /* the last step, and the answer behind it; */
#define MOST_OPEN 0.25       /* opening; */
#define MOST_SMALL 2.4       /* both for the smallest tables */
#define MOST_OPEN_SMALL 0.8
#define MOST_ALL 1.5         /* all steps, to the solves of the table with the later equations left off */
#define MOST_PREVIEW 1.05    /* and a preview to the step that it tells of */

/* The time is that of many calls where one of them is short. */
enum { LONG = 3, SHORT = 30, SHORTEST = 100, ALL_EVERY = 10 /* rounds */ };

/* A word of 1024 bits as row 0, three more, and these turned at odd places. */
static void make_wide(draft *d, size_t width)
{
    size_t sides[64], count = 4;

    seed = 20240229;
    variables(d, 4, width);
    for (size_t v = 0; v < 4; v++)
        sides[v] = v;
    while (count < 64) {
        sides[count] = turned(d, sides[below(count)]);
        count++;
    }
    equate(d, sides, count);
}

typedef struct {
    subject in;
    double most, most_open, most_all, most_preview; /* goals; 0 for none */
    size_t equations;
    uint16_t taken[EQUATIONS][LW_TABLE_NUMBERS]; /* the table with so many equations and one more: the others are fills */
    lw_job before;                               /* the job before its last step, and what holds each bit then */
    uint16_t held[LW_MAX_VARIABLE_BITS];
    samples solve, open, preview, step, answer, steps, solves;
} job_subject;

#define SMALL_GOALS .most = MOST_SMALL, .most_open = MOST_OPEN_SMALL, .most_preview = MOST_PREVIEW
#define GOALS .most = MOST, .most_open = MOST_OPEN, .most_all = MOST_ALL, .most_preview = MOST_PREVIEW

static job_subject subjects[] = {
    {.in = {.name = "bit", .make = make_fixed, .size = 1, .calls = SHORTEST}, SMALL_GOALS},
    {.in = {.name = "small", .make = make_overlap, .size = 16, .calls = SHORTEST}, SMALL_GOALS},
    {.in = {.name = "typical", .make = make_link, .size = 32, .calls = SHORT}, GOALS},
    {.in = {.name = "turned", .make = make_turned, .size = 1024, .calls = LONG}, GOALS},
    {.in = {.name = "chained", .make = make_chained, .size = 300, .calls = LONG}, GOALS},
    {.in = {.name = "copied", .make = make_copied, .size = 300, .calls = LONG}, GOALS},
    {.in = {.name = "short", .make = make_short, .size = 512, .calls = LONG}, GOALS},
    {.in = {.name = "wide", .make = make_wide, .size = 1024, .calls = LONG}},
};

enum { SUBJECTS = sizeof subjects / sizeof subjects[0] };

/* Calls. */

static uint16_t answer[LW_ANSWER_NUMBERS], other_answer[LW_ANSWER_NUMBERS];
static uint16_t work[LW_WORK_NUMBERS], solve_work[LW_WORK_NUMBERS];
static lw_job job;

static lw_record solve_taken(const job_subject *s, size_t equation)
{
    return lw_solve(s->taken[equation], s->in.d.t.len, answer, LW_ANSWER_NUMBERS, solve_work, LW_WORK_NUMBERS);
}

static lw_record solve(const job_subject *s)
{
    return solve_taken(s, s->equations - 1); /* the whole table */
}

static lw_record open_job(const job_subject *s)
{
    return lw_job_open(s->in.d.t.numbers, s->in.d.t.len, &job, work, LW_WORK_NUMBERS);
}

static lw_record step(const job_subject *s)
{
    return lw_job_step(s->in.d.t.numbers, s->in.d.t.len, &job, work, LW_WORK_NUMBERS);
}

static lw_record preview(const job_subject *s)
{
    return lw_job_preview(s->in.d.t.numbers, s->in.d.t.len, &job, work, LW_WORK_NUMBERS);
}

/* The job is made what it was before its last step, which has changed no more of the work area than this. */
static void take_back(const job_subject *s)
{
    job = s->before;
    memcpy(work, s->held, s->in.facts.bits * sizeof *work);
}

static lw_record last_step(const job_subject *s)
{
    take_back(s);
    return step(s);
}

/* A preview has nothing to take back; it is done all the same, so that both times have it. */
static lw_record last_preview(const job_subject *s)
{
    take_back(s);
    return preview(s);
}

static lw_record job_answer(const job_subject *s)
{
    return lw_job_answer(s->in.d.t.numbers, s->in.d.t.len, &job, work, LW_WORK_NUMBERS, other_answer, LW_ANSWER_NUMBERS);
}

/* Tables. */

/* The table with its equations up to each one, as a step has it. */
static void leave_off(job_subject *s)
{
    const table *t = &s->in.d.t;
    for (size_t i = 0; i < t->len; i += 4)
        if (t->numbers[i] == LW_EQUATION)
            s->equations++;
    for (size_t k = 0; k < s->equations; k++) {
        size_t seen = 0;
        memcpy(s->taken[k], t->numbers, t->len * sizeof *t->numbers);
        for (size_t i = 0; i < t->len; i += 4)
            if (t->numbers[i] == LW_EQUATION && seen++ > k)
                memcpy(s->taken[k] + i, (const uint16_t[]){FILL(0, 1)}, 4 * sizeof(uint16_t));
    }
}

/* Makes the table; whether each preview's and each step's record, and the answer behind it, are those of lw_solve. */
static bool prepare_job(job_subject *s)
{
    if (!prepare(&s->in))
        return false;
    leave_off(s);
    open_job(s);
    for (size_t k = 0; k < s->equations; k++) {
        s->before = job;
        memcpy(s->held, work, sizeof s->held);
        lw_record want = solve_taken(s, k), told = preview(s), got = step(s), again = job_answer(s);
        if (memcmp(&told, &want, sizeof told) != 0 || memcmp(&got, &want, sizeof got) != 0 ||
            memcmp(&again, &want, sizeof again) != 0 ||
            memcmp(answer, other_answer, LW_ANSWER_ROW_NUMBERS * want.pieces * sizeof *answer) != 0) {
            fprintf(stderr, "%s: step %zu of its job has not the answer of lw_solve\n", s->in.name, k);
            return false;
        }
    }
    return true;
}

/* Times. */

static volatile size_t sink; /* so that no call is left out */

static void time_call(lw_record (*call)(const job_subject *), const job_subject *s, samples *times)
{
    double start = seconds();
    for (size_t i = 0; i < s->in.calls; i++)
        sink += call(s).free;
    note(times, (seconds() - start) / (double)s->in.calls);
}

static void time_all(job_subject *s)
{
    open_job(s);
    double start = seconds();
    for (size_t k = 0; k < s->equations; k++)
        sink += step(s).ties;
    note(&s->steps, seconds() - start);
    start = seconds();
    for (size_t k = 0; k < s->equations; k++)
        sink += solve_taken(s, k).ties;
    note(&s->solves, seconds() - start);
}

static void time_round(job_subject *s, bool all)
{
    time_call(solve, s, &s->solve);
    time_call(open_job, s, &s->open);
    time_call(last_preview, s, &s->preview);
    time_call(last_step, s, &s->step);
    time_call(job_answer, s, &s->answer); /* of the job at its end */
    if (all)
        time_all(s);
}

/* The page. */

static bool print_calls(void)
{
    bool met = true;

    printf("\n## Jobs\n\n"
           "The calls of a job against `lw_solve` of the whole table, in the same round: opening; the last step, which\n"
           "reads all equations and tests the job; and the answer behind it, which writes the answer table. Each step's\n"
           "record and answer are first compared with those of `lw_solve`. The tables are of that page; in wide, row 0\n"
           "has 1,024 bits, as have three variables more, and 64 equations are between these, turned at odd places.\n\n"
           "| table | `lw_solve`, µs | open, µs | ratio | goal | last step, µs | ratio | goal | answer, µs | ratio | goal |\n"
           "|---|---:|---:|---:|---|---:|---:|---|---:|---:|---|\n");
    for (size_t k = 0; k < SUBJECTS; k++) {
        job_subject *s = &subjects[k];
        printf("| %s | %s ", s->in.name, micro(median(&s->solve)));
        met &= print_time(&s->open, &s->solve, s->most_open);
        met &= print_time(&s->step, &s->solve, s->most);
        met &= print_time(&s->answer, &s->solve, s->most);
        printf("|\n");
    }
    printf("\nMedians of %zu rounds.\n", subjects[0].solve.count);
    return met;
}

static bool print_previews(void)
{
    bool met = true;

    printf("\n### Previews\n\n"
           "A preview of the last step against that step, in the same round. It does what the step does and writes\n"
           "nothing. Before both, the job is put back to where it was before that step, and that is part of their times.\n\n"
           "| table | last step, µs | preview, µs | ratio | goal |\n"
           "|---|---:|---:|---:|---|\n");
    for (size_t k = 0; k < SUBJECTS; k++) {
        job_subject *s = &subjects[k];
        printf("| %s | %s ", s->in.name, micro(median(&s->step)));
        met &= print_time(&s->preview, &s->step, s->most_preview);
        printf("|\n");
    }
    printf("\nMedians of %zu rounds. Nothing is kept of a preview: the step that follows does the same again.\n",
           subjects[0].preview.count);
    return met;
}

static bool print_all_steps(void)
{
    bool met = true;

    printf("\n### All steps\n\n"
           "All steps of a job together, against a solve for each of them: of the table with the later equations left\n"
           "off, that is with a fill of one bit in place of each.\n\n"
           "| table | equations | solves, µs | steps, µs | ratio | goal |\n"
           "|---|---:|---:|---:|---:|---|\n");
    for (size_t k = 0; k < SUBJECTS; k++) {
        job_subject *s = &subjects[k];
        printf("| %s | %zu | %s ", s->in.name, s->equations, micro(median(&s->solves)));
        met &= print_time(&s->steps, &s->solves, s->most_all);
        printf("|\n");
    }
    printf("\nMedians of %zu rounds. Every step reads the equations taken anew, since another one in their place could make\n"
           "the same job a wrong one; so the steps of a job take time in the square of its equations.\n",
           subjects[0].steps.count);
    return met;
}

int main(int argc, char **argv)
{
    size_t rounds = rounds_asked(argc, argv);

    if (rounds == 0)
        return 2;
    for (size_t k = 0; k < SUBJECTS; k++)
        if (!prepare_job(&subjects[k]))
            return 2;
    for (size_t i = 0; i < rounds; i++)
        for (size_t k = 0; k < SUBJECTS; k++)
            time_round(&subjects[k], i % ALL_EVERY == 0);
    bool met = print_calls();
    met &= print_previews();
    met &= print_all_steps();
    return fflush(stdout) != 0 || ferror(stdout) ? 2 : met ? 0 : 1;
}
