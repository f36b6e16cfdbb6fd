/*
  positions_bench.c -- how fast lw_marker_positions is, against a loop in C over
  masks and against the plain search of host/plain_positions.c

      positions_bench [ROUNDS]

  Prints a part of docs/BENCHMARKS-CALLS.md. The analysis of a table is timed in ROUNDS
  rounds (301 if not given), the searches in every 10th of them, and what takes
  seconds in every 100th.

  The exit status is 0 if the goals are met, 1 if one is missed, and 2 if not all
  could be measured.
*/

#define _POSIX_C_SOURCE 200809L /* clock_gettime */

#include <stdbool.h>
#include <stdio.h>
#include <stdlib.h>
#include <string.h>
#include <time.h>

#include "figures.h"
#include "masks.h"
#include "measure.h"
#include "plain_positions.h"
#include "tables.h"

#define MOST 2.0          /* the call to the loop over masks, at most */
#define MOST_ANALYSIS 1.2 /* the call without words to lw_solve, at most */

enum { RUN = LW_MAX_WORDS, CALLS_OF_ANALYSIS = 30, SEARCH_EVERY = 10, SLOW_EVERY = 100 };

/* A table with its masks, and what is measured of it. */
typedef struct {
    const char *name, *says;
    void (*make)(draft *, masks *);
    const uint16_t *words;
    bool slow;   /* whether a search takes a second */
    double most; /* goal; 0 for none */
    draft d;
    masks m;
    size_t found;
    samples call, loop, plain, analysis, solve;
} layout;

/* Words: random ones, in which some windows of the table A were put, and zeros. */
static uint16_t noise[RUN], zeros[RUN];
static uint32_t list[RUN], other_list[RUN];

static void put_fixed(masks *m, size_t word, size_t mask, size_t value)
{
    m->fixed[m->fixed_count++] = (fixed_bits){(uint16_t)word, (uint16_t)mask, (uint16_t)value};
}

static void put_equal(masks *m, size_t word, size_t other, size_t shift, size_t mask)
{
    m->equal[m->equal_count++] = (equal_bits){(uint16_t)word, (uint16_t)other, (uint16_t)shift, (uint16_t)mask};
}

/* Bits high down to low of a word are as many bits of another one, the high one other_high. */
static void tie(draft *d, size_t word, size_t high, size_t low, size_t other, size_t other_high)
{
    size_t left = cut(d, word, high, low), right = cut(d, other, other_high, other_high + low - high);
    add_row(d, 0, EQUATION(left, right));
}

static void make_marked(draft *d, masks *m)
{
    variables(d, 8, 16);
    size_t marker = add_row(d, 16, MARKER(0xace1, 16));
    add_row(d, 0, EQUATION(0, marker));
    tie(d, 2, 15, 8, 1, 15);
    tie(d, 4, 15, 8, 3, 7);
    tie(d, 6, 11, 4, 5, 7);
    tie(d, 7, 15, 8, 7, 7);
    m->window = 8;
    put_fixed(m, 0, 0xffff, 0xace1);
    put_equal(m, 2, 1, 0, 0xff00);
    put_equal(m, 4, 3, 8, 0xff00);
    put_equal(m, 6, 5, 4, 0x0ff0);
    put_equal(m, 7, 7, 8, 0xff00);
}

static void make_alike(draft *d, masks *m)
{
    variables(d, 64, 16);
    for (size_t v = 1; v < 64; v++)
        add_row(d, 0, EQUATION(v - 1, v));
    m->window = 64;
    for (size_t v = 1; v < 64; v++)
        put_equal(m, v, 0, 0, 0xffff);
}

/* Bit 15 of word 0 is each other bit of each word. */
static void make_equal(draft *d, masks *m)
{
    make_alike(d, m);
    tie(d, 0, 15, 1, 0, 14);
    m->equal_count = 0;
    for (size_t i = 1; i < 16 * 64; i++)
        put_equal(m, 0, i / 16, i % 16, 0x8000);
}

static layout layouts[] = {
    {.name = "A",
     .says = "8 words: a marker of 16 fixed bits, and four groups of 8 equal bits, of two words or within one. The\n"
             "  words of the run are random, with a window that meets the table in every 65,536.",
     .make = make_marked, .words = noise, .most = MOST},
    {.name = "B",
     .says = "64 words that are all equal: 63 groups of 16 bits. The words of the run are 0, so every start meets it.",
     .make = make_alike, .words = zeros, .most = MOST},
    {.name = "C",
     .says = "all bits of 64 words are equal: 1,023 groups of one bit, the most that a table can have. The words of\n"
             "  the run are 0.",
     .make = make_equal, .words = zeros, .slow = true},
};

enum { LAYOUTS = sizeof layouts / sizeof layouts[0] };

/* The contenders. */

static size_t call(const layout *in, size_t words)
{
    return lw_marker_positions(in->d.t.numbers, in->d.t.len, in->words, words, list, RUN).pieces;
}

static size_t loop(const layout *in)
{
    return masked_starts(&in->m, in->words, RUN, other_list, RUN);
}

static size_t plain(const layout *in)
{
    return plain_positions(in->d.t.numbers, in->d.t.len, in->words, RUN, other_list, RUN).pieces;
}

static uint32_t solve(const layout *in)
{
    static uint16_t answer[LW_ANSWER_NUMBERS], work[LW_WORK_NUMBERS];
    return lw_solve(in->d.t.numbers, in->d.t.len, answer, LW_ANSWER_NUMBERS, work, LW_WORK_NUMBERS).ties;
}

static bool same_lists(const layout *in, size_t found, const char *name)
{
    if (found == in->found && memcmp(list, other_list, found * sizeof *list) == 0)
        return true;
    fprintf(stderr, "%s: %zu starts, by the %s %zu\n", in->name, in->found, name, found);
    return false;
}

/* Makes the tables and the words; whether all three find the same. */
static bool prepare_all(void)
{
    static const uint16_t window[8] = {0xace1, 0x1234, 0x1256, 0x0078, 0x7800, 0x0012, 0x0120, 0x5656};

    for (size_t i = 0; i < RUN; i++)
        noise[i] = (uint16_t)random_number();
    for (size_t i = 1000; i < RUN; i += 65536)
        memcpy(noise + i, window, sizeof window);
    for (size_t k = 0; k < LAYOUTS; k++) {
        layout *in = &layouts[k];
        clear(&in->d);
        in->make(&in->d, &in->m);
        in->found = call(in, RUN);
        if (!same_lists(in, loop(in), "loop over masks") || !same_lists(in, plain(in), "plain search"))
            return false;
    }
    return true;
}

static volatile size_t sink; /* so that no call is left out */

/* Time of the processor, in seconds: a search is so long that other programs would have their turn in it. */
static double used(void)
{
    struct timespec t;
    clock_gettime(CLOCK_PROCESS_CPUTIME_ID, &t);
    return (double)t.tv_sec + 1e-9 * (double)t.tv_nsec;
}

static void note(samples *s, double time)
{
    s->times[s->count++] = time;
}

static void time_searches(layout *in, bool slow)
{
    double start = used();
    if (slow || !in->slow) {
        sink += call(in, RUN);
        note(&in->call, used() - start);
        start = used();
        sink += loop(in);
        note(&in->loop, used() - start);
    }
    if (slow) {
        start = used();
        sink += plain(in);
        note(&in->plain, used() - start);
    }
}

static void time_analysis(layout *in)
{
    double start = used();
    for (size_t i = 0; i < CALLS_OF_ANALYSIS; i++)
        sink += call(in, 0);
    note(&in->analysis, (used() - start) / CALLS_OF_ANALYSIS);
    start = used();
    for (size_t i = 0; i < CALLS_OF_ANALYSIS; i++)
        sink += solve(in);
    note(&in->solve, (used() - start) / CALLS_OF_ANALYSIS);
}

/* The page. */

static void print_layouts(void)
{
    printf("\n## Marker positions\n\n"
           "`lw_marker_positions` on a run of %s words, with a list that takes every start, and beside it\n\n"
           "- a loop in C over the same masks ([bench/masks.c](../bench/masks.c)), which were laid out by hand: it is\n"
           "  given no table, and so has nothing to analyse or to check;\n"
           "- the plain search in C ([host/plain_positions.c](../host/plain_positions.c)), which works out both sides of\n"
           "  every equation at every start;\n"
           "- for the analysis alone, `lw_solve` of the same table; the analysis is the call without words.\n\n"
           "All three find the same starts, which is looked at first. Times are those of the processor, since a search\n"
           "is so long that other programs have their turn in it. The tables:\n\n",
           whole(RUN));
    for (size_t k = 0; k < LAYOUTS; k++)
        printf("- %s: %s\n", layouts[k].name, layouts[k].says);
    printf("\n| table | variables | rows | words with fixed bits | groups of equal bits | starts found |\n"
           "|---|---:|---:|---:|---:|---:|\n");
    for (size_t k = 0; k < LAYOUTS; k++)
        printf("| %s | %zu | %zu | %zu | %s | %s |\n", layouts[k].name, layouts[k].m.window, layouts[k].d.rows,
               layouts[k].m.fixed_count, whole(layouts[k].m.equal_count), whole(layouts[k].found));
}

/* The end of a row: a ratio of medians, that of the best times, and the goal. Whether it is met, if there is one. */
static bool print_ratio(samples *ours, samples *theirs, double most)
{
    double ratio = median(ours) / median(theirs);

    printf("| %s | %s |", figure(ratio), figure(quartile(ours, 0) / quartile(theirs, 0)));
    if (most > 0)
        printf(" at most %.1f: %s", most, ratio <= most ? "met" : "MISSED");
    printf(" |\n");
    return most <= 0 || ratio <= most;
}

static bool print_loops(void)
{
    bool met = true;

    printf("\n### Against a loop over masks\n\n"
           "| table | call, ms | call, ns for a start | loop, ms | ratio | ratio of best times | goal |\n"
           "|---|---:|---:|---:|---:|---:|---|\n");
    for (size_t k = 0; k < LAYOUTS; k++) {
        layout *in = &layouts[k];
        double time = median(&in->call), starts = (double)(RUN - in->m.window + 1);
        printf("| %s | %s | %s | %s ", in->name, milli(time), figure(1e9 * time / starts), milli(median(&in->loop)));
        met &= print_ratio(&in->call, &in->loop, in->most);
    }
    printf("\nMedians of %zu rounds, for C of %zu.\n", layouts[0].call.count, layouts[LAYOUTS - 1].call.count);
    return met;
}

static void print_plain_searches(void)
{
    printf("\n### Against the plain search\n\n"
           "| table | call, ms | plain search, ms | plain search / call |\n"
           "|---|---:|---:|---:|\n");
    for (size_t k = 0; k < LAYOUTS; k++) {
        double time = median(&layouts[k].call), other = median(&layouts[k].plain);
        printf("| %s | %s | %s | %s |\n", layouts[k].name, milli(time), milli(other), figure(other / time));
    }
    printf("\nMedians, of the plain search of %zu rounds. In C each bit is a group and tested by itself, where the plain\n"
           "search compares whole words.\n",
           layouts[0].plain.count);
}

static bool print_analyses(void)
{
    bool met = true;

    printf("\n### The analysis alone\n\n"
           "| table | analysis, µs | `lw_solve`, µs | ratio | ratio of best times | goal |\n"
           "|---|---:|---:|---:|---:|---|\n");
    for (size_t k = 0; k < LAYOUTS; k++) {
        layout *in = &layouts[k];
        printf("| %s | %s | %s ", in->name, micro(median(&in->analysis)), micro(median(&in->solve)));
        met &= print_ratio(&in->analysis, &in->solve, MOST_ANALYSIS);
    }
    printf("\nMedians of %zu rounds.\n", layouts[0].analysis.count);
    return met;
}

int main(int argc, char **argv)
{
    size_t rounds = rounds_asked(argc, argv);

    if (rounds == 0 || !prepare_all())
        return 2;
    for (size_t i = 0; i < rounds; i++)
        for (size_t k = 0; k < LAYOUTS; k++) {
            time_analysis(&layouts[k]);
            if (i % SEARCH_EVERY == 0)
                time_searches(&layouts[k], i % SLOW_EVERY == 0);
        }
    print_layouts();
    bool met = print_loops();
    print_plain_searches();
    met &= print_analyses();
    return fflush(stdout) != 0 || ferror(stdout) ? 2 : met ? 0 : 1;
}
