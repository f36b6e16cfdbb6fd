/*
  recordings_bench.c -- how fast lw_compare_recordings is, against a merge in C over
  masks

      recordings_bench [ROUNDS]

  Prints a part of docs/BENCHMARKS-CALLS.md, in medians of ROUNDS rounds (301 if not
  given).

  The exit status is 0 if the goals are met, 1 if one is missed, and 2 if not all
  could be measured.
*/

#define _POSIX_C_SOURCE 200809L /* clock_gettime */

#include <stdbool.h>
#include <stdio.h>
#include <stdlib.h>
#include <string.h>

#include "figures.h"
#include "masks.h"
#include "measure.h"
#include "tables.h"
#include "timing.h"

/* Goals: the call without its analysis to the merge in C, at most so many times; */
#define MOST_ONE 2.0    /* records of one word, */
#define MOST_PAIRED 1.0 /* of more words where there are pairs, */
#define MOST_ALONE 1.3  /* and where there are none; */
#define MOST_ANALYSIS 1.0 /* the analysis to lw_solve; */
#define MOST_GROWTH 12.0  /* ten times the numbers. */

enum { LONGEST = LW_MAX_RECORDING, MARKER_WORD = 0xace1, BROKEN_EVERY = 100, ANALYSES = 30, TENTHS = 10 };

/* A sheet for records of so many words, with its masks. */
typedef struct {
    const char *name;
    bool marked;
    size_t k;
    draft d;
    masks m;
    samples analysis, solve;
} sheet;

static sheet sheets[] = {
    {.name = "equal", .k = 1}, {.name = "marked", .k = 1, .marked = true},
    {.name = "equal", .k = 8}, {.name = "marked", .k = 8, .marked = true},
    {.name = "equal", .k = 32}, {.name = "marked", .k = 32, .marked = true},
};

enum { SHEETS = sizeof sheets / sizeof sheets[0] };

/* Which records are paired. */
enum { ALL_PAIRED, HALF_PAIRED, NONE_PAIRED, PAIRINGS };
static const char *const pairings[PAIRINGS] = {"all", "every second", "none"};

/* Two recordings for a sheet, and what is measured of them. */
typedef struct {
    sheet *by;
    size_t pairing, len;
    uint16_t sent[LONGEST], received[LONGEST];
    lw_record record;
    samples call, tenth, analysis; /* the call on all numbers, on a tenth of them and on none */
    samples merge, bare;           /* in C, with the test of the counters and without */
} comparison;

static comparison subjects[SHEETS * PAIRINGS];

/* Sheets and recordings. */

static void make_sheet(sheet *s)
{
    size_t equal = s->marked ? s->k - 1 : s->k;

    clear(&s->d);
    variables(&s->d, 2 * s->k, 16);
    for (size_t j = 0; j < equal; j++) {
        add_row(&s->d, 0, EQUATION(j, s->k + j));
        s->m.equal[s->m.equal_count++] = (equal_bits){(uint16_t)(s->k + j), (uint16_t)j, 0, 0xffff};
    }
    s->m.window = 2 * s->k;
    if (!s->marked)
        return;
    size_t marker = add_row(&s->d, 16, MARKER(MARKER_WORD, 16)), last = 2 * s->k - 1;
    add_row(&s->d, 0, EQUATION(last, marker));
    s->m.fixed[s->m.fixed_count++] = (fixed_bits){(uint16_t)last, 0xffff, MARKER_WORD};
}

/* Random words; they are received as the sheet asks, but for a bit of every 100th record. */
static void make_record(const sheet *by, size_t number, uint16_t *sent, uint16_t *received)
{
    for (size_t j = 0; j < by->k; j++)
        received[j] = sent[j] = (uint16_t)random_number();
    if (by->marked)
        received[by->k - 1] = MARKER_WORD;
    if (number % BROKEN_EVERY == BROKEN_EVERY - 1)
        received[by->k - 1] ^= 0x0100;
}

static void make_recordings(comparison *in)
{
    size_t size = in->by->k + 1;

    for (size_t i = 0; i < LONGEST / size; i++) {
        bool paired = in->pairing == ALL_PAIRED || (in->pairing == HALF_PAIRED && i % 2 == 0);
        uint16_t *sent = in->sent + in->len, *received = in->received + in->len;
        sent[0] = (uint16_t)(2 * i);
        received[0] = (uint16_t)(2 * i + !paired);
        make_record(in->by, i, sent + 1, received + 1);
        in->len += size;
    }
}

/* The contenders. */

static lw_record call(const comparison *in, size_t len)
{
    return lw_compare_recordings(in->by->d.t.numbers, in->by->d.t.len, in->sent, len, in->received, len);
}

static lw_record merge(const comparison *in, size_t len)
{
    return masked_comparison(&in->by->m, in->sent, len, in->received, len);
}

static lw_record bare_merge(const comparison *in, size_t len)
{
    return masked_merge(&in->by->m, in->sent, len, in->received, len);
}

static lw_record analyse(const sheet *s)
{
    return lw_compare_recordings(s->d.t.numbers, s->d.t.len, NULL, 0, NULL, 0);
}

static lw_record solve(const sheet *s)
{
    static uint16_t answer[LW_ANSWER_NUMBERS], work[LW_WORK_NUMBERS];
    return lw_solve(s->d.t.numbers, s->d.t.len, answer, LW_ANSWER_NUMBERS, work, LW_WORK_NUMBERS);
}

/* A tenth of the records. */
static size_t tenth(const comparison *in)
{
    size_t size = in->by->k + 1;
    return in->len / size / TENTHS * size;
}

/* Makes all; whether both find the same, also in a tenth. */
static bool prepare_all(void)
{
    for (size_t i = 0; i < SHEETS; i++)
        make_sheet(&sheets[i]);
    for (size_t i = 0; i < SHEETS * PAIRINGS; i++) {
        comparison *in = &subjects[i];
        in->by = &sheets[i / PAIRINGS];
        in->pairing = i % PAIRINGS;
        make_recordings(in);
        for (size_t part = 0; part < 2; part++) {
            size_t len = part == 0 ? tenth(in) : in->len;
            lw_record other = merge(in, len);
            in->record = call(in, len);
            if (memcmp(&in->record, &other, sizeof other) != 0) {
                fprintf(stderr, "%s, %zu words, %s paired: not the record of the merge in C\n", in->by->name, in->by->k,
                        pairings[in->pairing]);
                return false;
            }
        }
    }
    return true;
}

/* Times. */

static volatile size_t sink; /* so that no call is left out */

static void note(samples *s, double time)
{
    s->times[s->count++] = time;
}

static double sheet_time(lw_record (*run)(const sheet *), const sheet *s)
{
    double start = seconds();
    for (size_t i = 0; i < ANALYSES; i++)
        sink += run(s).pieces;
    return (seconds() - start) / ANALYSES;
}

/* The mean of some calls, more where they are short. One before them is not timed, so that none finds other words in the caches. */
static double pair_time(lw_record (*run)(const comparison *, size_t), const comparison *in, size_t len)
{
    size_t times = in->pairing == NONE_PAIRED ? 20 : 4;

    if (len != in->len)
        times *= TENTHS;
    sink += run(in, len).ties;
    double start = seconds();
    for (size_t i = 0; i < times; i++)
        sink += run(in, len).ties;
    return (seconds() - start) / (double)times;
}

static void time_round(void)
{
    for (size_t i = 0; i < SHEETS * PAIRINGS; i++) {
        comparison *in = &subjects[i];
        if (in->pairing == ALL_PAIRED) {
            note(&in->by->analysis, sheet_time(analyse, in->by));
            note(&in->by->solve, sheet_time(solve, in->by));
        }
        note(&in->call, pair_time(call, in, in->len));
        note(&in->merge, pair_time(merge, in, in->len));
        note(&in->bare, pair_time(bare_merge, in, in->len));
        note(&in->tenth, pair_time(call, in, tenth(in)));
        note(&in->analysis, sheet_time(analyse, in->by));
    }
}

/* The page. */

static void print_subjects(void)
{
    printf("\n## Recordings\n\n"
           "`lw_compare_recordings` on two recordings as long as they can be, beside a merge in C over masks. These were\n"
           "laid out by hand, and the merge stands in [bench/masks.c](../bench/masks.c): it is given no table, and so has\n"
           "nothing to analyse; that the counters rise it tests first, as the call has to, since a merge goes wrong where\n"
           "they do not. What it takes without that test is shown too. Its bits are counted by `__builtin_popcount`. Both\n"
           "give the same record, which is looked at first. The analysis of the sheet is the call without records; it is taken off from\n"
           "the call's time here and shown apart, since without pairs it can be more than half of it.\n\n"
           "The sheets: in *equal* each of the k words comes back as it was sent; in *marked* so do all but the last,\n"
           "and the last received word is the marker ace1. The words are random, and every %dth pair breaks its sheet.\n"
           "All records are paired, or every second one, or none.\n",
           BROKEN_EVERY);
}

/* What a call takes without its analysis: the difference of medians, or of the best times. */
static double left(comparison *in, samples *of, size_t quarters)
{
    return quartile(of, quarters) - quartile(&in->analysis, quarters);
}

/* The end of a row: a ratio of medians, that of the best times, and the goal. Whether it is met. */
static bool print_ratio(double ratio, double of_best, double most)
{
    printf("| %s | %s | at most %.1f: %s |\n", figure(ratio), figure(of_best), most, ratio <= most ? "met" : "MISSED");
    return ratio <= most;
}

static bool print_merges(void)
{
    bool met = true;

    printf("\n### Against a merge over masks\n\n"
           "| sheet | words | records of each | paired | call, µs | merge without the test, µs | merge, µs | ratio "
           "| ratio of best times | goal |\n"
           "|---|---:|---:|---|---:|---:|---:|---:|---:|---|\n");
    for (size_t i = 0; i < SHEETS * PAIRINGS; i++) {
        comparison *in = &subjects[i];
        double most = in->by->k == 1 ? MOST_ONE : in->pairing == NONE_PAIRED ? MOST_ALONE : MOST_PAIRED;
        printf("| %s | %zu | %s | %s | %s | %s | %s ", in->by->name, in->by->k, whole(in->len / (in->by->k + 1)),
               pairings[in->pairing], micro(left(in, &in->call, 2)), micro(median(&in->bare)), micro(median(&in->merge)));
        met &= print_ratio(left(in, &in->call, 2) / median(&in->merge),
                           left(in, &in->call, 0) / quartile(&in->merge, 0), most);
    }
    printf("\nMedians of %zu rounds.\n", subjects[0].call.count);
    return met;
}

static bool print_growth(void)
{
    bool met = true;

    printf("\n### Ten times the numbers\n\n"
           "The whole call, with its analysis, on the first tenth of the records and on all of them.\n\n"
           "| sheet | words | paired | a tenth, µs | all, µs | ratio | ratio of best times | goal |\n"
           "|---|---:|---|---:|---:|---:|---:|---|\n");
    for (size_t i = 0; i < SHEETS * PAIRINGS; i++) {
        comparison *in = &subjects[i];
        printf("| %s | %zu | %s | %s | %s ", in->by->name, in->by->k, pairings[in->pairing],
               micro(median(&in->tenth)), micro(median(&in->call)));
        met &= print_ratio(median(&in->call) / median(&in->tenth), quartile(&in->call, 0) / quartile(&in->tenth, 0),
                           MOST_GROWTH);
    }
    printf("\nMedians of %zu rounds.\n", subjects[0].tenth.count);
    return met;
}

static bool print_analyses(void)
{
    bool met = true;

    printf("\n### The analysis of the sheet\n\n"
           "| sheet | words | rows | analysis, µs | `lw_solve`, µs | ratio | ratio of best times | goal |\n"
           "|---|---:|---:|---:|---:|---:|---:|---|\n");
    for (size_t i = 0; i < SHEETS; i++) {
        sheet *s = &sheets[i];
        printf("| %s | %zu | %zu | %s | %s ", s->name, s->k, s->d.rows, micro(median(&s->analysis)),
               micro(median(&s->solve)));
        met &= print_ratio(median(&s->analysis) / median(&s->solve), quartile(&s->analysis, 0) / quartile(&s->solve, 0),
                           MOST_ANALYSIS);
    }
    printf("\nMedians of %zu rounds.\n", sheets[0].analysis.count);
    return met;
}

int main(int argc, char **argv)
{
    size_t rounds = rounds_asked(argc, argv);

    if (rounds == 0 || !prepare_all())
        return 2;
    for (size_t i = 0; i < rounds; i++)
        time_round();
    print_subjects();
    bool met = print_merges();
    met &= print_growth();
    met &= print_analyses();
    return fflush(stdout) != 0 || ferror(stdout) ? 2 : met ? 0 : 1;
}
