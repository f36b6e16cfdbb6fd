/*
  pieces_bench.c -- how fast lw_solve_pieces is, against lw_solve

      pieces_bench [ROUNDS]

  Prints the part of docs/BENCHMARKS.md on whole pieces, in medians of ROUNDS rounds
  (301 if not given). The growth is written to build/pieces.points too, for
  draw_growth. The current directory has to be bench/.

  The exit status is 0 if the goals are met, 1 if one is missed, and 2 if not all
  could be measured.
*/

#define _POSIX_C_SOURCE 200809L /* clock_gettime */

#include <stdbool.h>
#include <stdio.h>
#include <stdlib.h>
#include <string.h>

#include "figures.h"
#include "measure.h"
#include "piece_tables.h"
#include "plain_solver.h"
#include "ratios.h"
#include "tables.h"
#include "timing.h"

/* Goals: tables that take lw_solve longer than this are at least so fast; and the growth is at most this. */
#define NOT_SHORT 15e-6
#define LEAST 0.6
#define MOST_GROWTH 1.4

typedef struct {
    const char *name;
    void (*make)(draft *, size_t);
    size_t size;
    double least; /* goal: at least so many times as fast as lw_solve; 0 for none */
    size_t calls; /* in one sample: more where one is short */
    draft d;
    size_t pairs;
    lw_record record;
    samples solve, pieces;
} contest;

typedef struct {
    const char *title, *says;
    contest *in;
    size_t count;
} group;

static contest long_words_group[] = {
    {.name = "4 x 1,024 bits whole", .make = make_whole, .size = 4, .least = 8},
    {.name = "16 x 256 bits whole", .make = make_whole, .size = 16},
    {.name = "64 x 64 bits whole", .make = make_whole, .size = 64},
    {.name = "slots of 256", .make = make_slots, .size = 256, .least = 6},
    {.name = "slots of 64", .make = make_slots, .size = 64, .least = 4},
    {.name = "slots of 16", .make = make_slots, .size = 16},
    {.name = "slots of 1", .make = make_slots, .size = 1},
    {.name = "fields of 256", .make = make_fields, .size = 256, .least = 6.5},
    {.name = "fields of 64", .make = make_fields, .size = 64},
    {.name = "turned at odd places", .make = make_rotated, .size = 1024, .least = 7},
    {.name = "shifted", .make = make_shifted, .size = 333},
    {.name = "fills of 100 bits", .make = make_filled, .size = 100},
    {.name = "fills of 900 bits", .make = make_filled, .size = 900, .least = 14},
    {.name = "one equation of 1,024 bits", .make = make_fixed, .size = 1024, .least = 5},
};

static contest repeating[] = {
    {.name = "period 512", .make = make_overlaps, .size = 512, .least = 6},
    {.name = "period 300", .make = make_overlaps, .size = 300},
    {.name = "period 100", .make = make_overlaps, .size = 100, .least = 4},
    {.name = "period 33", .make = make_overlaps, .size = 33},
    {.name = "period 16", .make = make_overlaps, .size = 16},
    {.name = "period 5", .make = make_overlaps, .size = 5},
    {.name = "period 2", .make = make_overlaps, .size = 2},
    {.name = "period 1", .make = make_overlaps, .size = 1},
    {.name = "512, each once", .make = make_overlaps_once, .size = 512},
    {.name = "100, each once", .make = make_overlaps_once, .size = 100},
    {.name = "16, each once", .make = make_overlaps_once, .size = 16},
    {.name = "1, each once", .make = make_overlaps_once, .size = 1},
};

static contest chains[] = {
    {.name = "4 words down", .make = make_chain_down, .size = 4, .least = 8},
    {.name = "64 words down", .make = make_chain_down, .size = 64},
    {.name = "4 words turned", .make = make_chain_turned, .size = 4},
    {.name = "16 words turned", .make = make_chain_turned, .size = 16},
    {.name = "64 words turned", .make = make_chain_turned, .size = 64},
    {.name = "chains in one equation", .make = make_chain_wide, .size = 21},
    {.name = "32 words straddled", .make = make_straddled, .size = 32},
    {.name = "64 words straddled", .make = make_straddled, .size = 64},
};

static contest short_pieces[] = {
    {.name = "turned", .make = make_turned, .size = 1024},
    {.name = "chained", .make = make_chained, .size = 300},
    {.name = "copied", .make = make_copied, .size = 300},
    {.name = "cut anywhere", .make = make_anywhere},
    {.name = "fields of 16", .make = make_fields, .size = 16},
    {.name = "fields of 1", .make = make_fields, .size = 1},
    {.name = "bits against words", .make = make_scattered},
    {.name = "bits against bits", .make = make_scattered_both},
    {.name = "bits, once", .make = make_scattered_once},
    {.name = "periods 7 and 8", .make = make_periods, .size = 7},
    {.name = "periods 100 and 101", .make = make_periods, .size = 100},
    {.name = "periods 400 and 401", .make = make_periods, .size = 400},
    {.name = "period 1, then turned", .make = make_period_turned, .size = 1},
    {.name = "period 37, then turned", .make = make_period_turned, .size = 37},
    {.name = "period 1, then 0", .make = make_period_filled, .size = 1},
    {.name = "period 3, then 0", .make = make_period_filled, .size = 3},
    {.name = "periods 1 and 2, then never", .make = make_periods_never, .size = 1},
    {.name = "periods 30 and 31, then never", .make = make_periods_never, .size = 30},
    {.name = "each fourth bit 0", .make = make_reversed},
};

static contest small[] = {
    {.name = "typical", .make = make_link, .size = 32, .least = 1},
    {.name = "small", .make = make_overlap, .size = 16},
    {.name = "bit", .make = make_fixed, .size = 1},
    {.name = "empty", .make = make_empty},
};

#define GROUP(name) .in = (name), .count = sizeof(name) / sizeof(name)[0]

static group groups[] = {
    {.title = "Long words", GROUP(long_words_group),
     .says = "64 equations, but for the last. Whole words; sides of up to four fields that begin and end at multiples of\n"
             "so many bits, and keep their places (slots) or come from anywhere (fields); each word the one before it\n"
             "turned; each with the parts of two others, exchanged; four equal words of which parts are 0."},
    {.title = "Words that repeat", GROUP(repeating),
     .says = "Each of four words of 1,024 bits repeats after so many bits, which is said 16 times or once."},
    {.title = "Chains", GROUP(chains),
     .says = "Each word is the one before it, the last two first: whole, turned at odd places, or turned at other places\n"
             "in each; or 15 words joined against the 15 before them, turned. Then the last ones again and again."},
    {.title = "Short pieces", GROUP(short_pieces),
     .says = "The first three are made as those above. Then: sides of two parts that are cut anywhere; single bits in odd order;\n"
             "words that repeat after so many bits and after one more, or repeat and are then turned, or are then 0; two\n"
             "tables that no pattern meets; and one in which each fourth bit of a word is 0. All but the last three\n"
             "have 64 equations, and so most of them come to single bits."},
    {.title = "Small tables", GROUP(small), .says = "Those above."},
};

enum { GROUPS = sizeof groups / sizeof groups[0] };

/* Four words, each the one before it turned: the same pieces at every width. */
static contest widths[] = {
    {.name = "32", .make = make_rotated, .size = 32},     {.name = "64", .make = make_rotated, .size = 64},
    {.name = "128", .make = make_rotated, .size = 128},   {.name = "256", .make = make_rotated, .size = 256},
    {.name = "512", .make = make_rotated, .size = 512},   {.name = "1,024", .make = make_rotated, .size = 1024},
};

enum { WIDTHS = sizeof widths / sizeof widths[0] };

/* The contenders. */

static uint16_t answer[LW_ANSWER_NUMBERS], work[LW_WORK_NUMBERS], other_answer[LW_ANSWER_NUMBERS];
static uint16_t plain_answer[LW_ANSWER_NUMBERS];

static lw_record solve(const contest *c)
{
    return lw_solve(ALL(c->d.t), answer, LW_ANSWER_NUMBERS, work, LW_WORK_NUMBERS);
}

static lw_record pieces(const contest *c)
{
    return lw_solve_pieces(ALL(c->d.t), other_answer, LW_ANSWER_NUMBERS, work, LW_WORK_NUMBERS);
}

static bool same(lw_record a, lw_record b, const uint16_t *rows, const uint16_t *others)
{
    return memcmp(&a, &b, sizeof a) == 0 &&
           (a.outcome != LW_SOLVED || memcmp(rows, others, LW_ANSWER_ROW_NUMBERS * a.pieces * sizeof *rows) == 0);
}

static volatile size_t sink; /* so that no call is left out */

static double time_of(lw_record (*run)(const contest *), const contest *c)
{
    double start = seconds();
    for (size_t i = 0; i < c->calls; i++)
        sink += run(c).ties;
    return (seconds() - start) / (double)c->calls;
}

/* Makes the table; whether both calls and the plain solver give the same. */
static bool prepare_one(contest *c)
{
    static ref_table facts;

    clear(&c->d);
    seed = 20240229;
    c->make(&c->d, c->size);
    lw_record check = ref_check(ALL(c->d.t), &facts);
    if (check.outcome != 0) {
        fprintf(stderr, "%s: refused %u, row %u\n", c->name, check.outcome, check.row);
        return false;
    }
    for (size_t r = 0; r < c->d.rows; r++) {
        const uint16_t *n = c->d.t.numbers + 4 * r;
        if (n[0] == LW_EQUATION)
            c->pairs += facts.width[n[1]] < facts.width[n[2]] ? facts.width[n[2]] : facts.width[n[1]];
    }
    c->record = solve(c);
    if (!same(c->record, plain_solve(c->d.t.numbers, &facts, plain_answer), answer, plain_answer) ||
        !same(c->record, pieces(c), answer, other_answer)) {
        fprintf(stderr, "%s: the two calls and the plain solver differ\n", c->name);
        return false;
    }
    c->calls = 1;
    double one = time_of(solve, c);
    c->calls = one < 5e-6 ? 40 : one < 50e-6 ? 10 : 3;
    return true;
}

static bool prepare_all(void)
{
    for (size_t g = 0; g < GROUPS; g++)
        for (size_t i = 0; i < groups[g].count; i++)
            if (!prepare_one(&groups[g].in[i]))
                return false;
    for (size_t k = 0; k < WIDTHS; k++) {
        if (!prepare_one(&widths[k]))
            return false;
        if (widths[k].record.pieces != widths[0].record.pieces) {
            fprintf(stderr, "%s bits: %u rows and not %u\n", widths[k].name, widths[k].record.pieces, widths[0].record.pieces);
            return false;
        }
    }
    return true;
}

static void time_round(contest *in, size_t count)
{
    for (size_t i = 0; i < count; i++) {
        note(&in[i].solve, time_of(solve, &in[i]));
        note(&in[i].pieces, time_of(pieces, &in[i]));
    }
}

/* The page. */

/* How many times as fast the call is, by the samples of so many quarters. */
static double times_as_fast(contest *c, size_t quarters)
{
    return quartile(&c->solve, quarters) / quartile(&c->pieces, quarters);
}

/* One row. Whether the goal is met, if there is one. */
static bool print_contest(contest *c)
{
    double ratio = times_as_fast(c, 2), least = c->least > 0 ? c->least : median(&c->solve) > NOT_SHORT ? LEAST : 0;

    printf("| %s | %s | %s | %s | %s | %s | %s |", c->name, whole(c->pairs), whole(c->record.pieces),
           micro(median(&c->solve)), micro(median(&c->pieces)), figure(ratio), figure(times_as_fast(c, 0)));
    if (least > 0)
        printf(" at least %.1f: %s", least, ratio >= least ? "met" : "MISSED");
    printf(" |\n");
    return ratio >= least;
}

static bool print_groups(void)
{
    bool met = true;

    printf("\n## In whole pieces\n\n"
           "`lw_solve_pieces` beside `lw_solve`, in the same round, on tables of 4,096 variable bits but for the last ones.\n"
           "Both yield the same record and answer, and leave the same numbers in what they are lent; before the rounds the\n"
           "two are compared with each other and with the plain solver in C. The ratio is the time of `lw_solve` to that of\n"
           "`lw_solve_pieces`: above 1 the latter is faster. Tables that take `lw_solve` over %.0f µs have the goal of %.1f at\n"
           "least. Where pieces are short the call gives up, and answers as `lw_solve` does: its time is then that of\n"
           "`lw_solve`, and of the equations taken before.\n",
           1e6 * NOT_SHORT, LEAST);
    for (size_t g = 0; g < GROUPS; g++) {
        printf("\n### %s\n\n%s\n\n"
               "| table | pairs | rows of the answer | `lw_solve`, µs | in pieces, µs | ratio | ratio of best times | goal |\n"
               "|---|---:|---:|---:|---:|---:|---:|---|\n",
               groups[g].title, groups[g].says);
        for (size_t i = 0; i < groups[g].count; i++)
            met &= print_contest(&groups[g].in[i]);
    }
    printf("\nMedians of %zu rounds.\n", groups[0].in[0].solve.count);
    return met;
}

static bool print_widths(void)
{
    contest *first = &widths[0], *last = &widths[WIDTHS - 1];
    double ours = median(&last->pieces) / median(&first->pieces), theirs = median(&last->solve) / median(&first->solve);

    printf("\n### Length of words\n\n"
           "Four words and 64 equations, each word the one before it turned, at the same places in proportion: at every\n"
           "width the answer has the same %u rows.\n\n"
           "![Time of both calls against the bits of a word](pieces.svg)\n\n"
           "| bits of a word | pairs | `lw_solve`, µs | in pieces, µs | ratio |\n|---:|---:|---:|---:|---:|\n",
           first->record.pieces);
    for (size_t k = 0; k < WIDTHS; k++)
        printf("| %s | %s | %s | %s | %s |\n", widths[k].name, whole(widths[k].pairs), micro(median(&widths[k].solve)),
               micro(median(&widths[k].pieces)), figure(times_as_fast(&widths[k], 2)));
    printf("\nFrom 32 to 1,024 bits `lw_solve_pieces` takes %.2f times the time, and `lw_solve` %.2f times. Goal at most %.1f\n"
           "times: %s.\n",
           ours, theirs, MOST_GROWTH, ours <= MOST_GROWTH ? "met" : "MISSED");
    return ours <= MOST_GROWTH;
}

static bool write_points(void)
{
    FILE *out = fopen("build/pieces.points", "w");
    if (out == NULL)
        return false;
    fprintf(out, "title How the time of a solve grows with the length of words\npanel bits of a word\nline lw_solve\n");
    for (size_t k = 0; k < WIDTHS; k++)
        fprintf(out, "%zu %.3f\n", widths[k].size, 1e6 * median(&widths[k].solve));
    fprintf(out, "line lw_solve_pieces\n");
    for (size_t k = 0; k < WIDTHS; k++)
        fprintf(out, "%zu %.3f\n", widths[k].size, 1e6 * median(&widths[k].pieces));
    bool written = ferror(out) == 0;
    return fclose(out) == 0 && written;
}

int main(int argc, char **argv)
{
    size_t rounds = rounds_asked(argc, argv);

    if (rounds == 0 || !prepare_all())
        return 2;
    for (size_t r = 0; r < rounds; r++) {
        for (size_t g = 0; g < GROUPS; g++)
            time_round(groups[g].in, groups[g].count);
        time_round(widths, WIDTHS);
    }
    bool met = print_groups();
    met &= print_widths();
    return !write_points() || fflush(stdout) != 0 || ferror(stdout) ? 2 : met ? 0 : 1;
}
