/*
  solve_bench.c -- how fast lw_solve is, against a complete solver in C, a plain
  union-find in C and z3

      solve_bench [ROUNDS]

  Prints the part of docs/BENCHMARKS.md on lw_solve, in medians of ROUNDS rounds
  (301 if not given); what is compared is said in run, which prints the rest. The
  growth is written to build/growth.points too, for draw_growth. z3
  is slow and has its turn in every 25th round only; it is left out where it is
  not installed. The current directory has to be bench/.

  The exit status is 0 if the goals are met, 1 if one is missed, and 2 if not all
  could be measured.
*/

#include <stdbool.h>
#include <stdio.h>
#include <stdlib.h>

#include "measure.h"
#include "report.h"
#include "tables.h"

#define MOST 1.1         /* lw_solve to the solver in C, at most; */
#define MOST_SMALL 2.0   /* for the smallest tables */
#define GOAL 3.0         /* lw_solve to the plain union-find, at most */
#define GROWTH_GOAL 10.0 /* 64 equations to 8, at most */

/* The time is that of many calls where one of them is short. */
enum { LONG = 3, SHORT = 30, SHORTEST = 100 };

static subject subjects[] = {
    {.name = "empty", .says = "no rows.", .make = make_empty, .calls = SHORTEST},
    {.name = "bit", .says = "a variable of 1 bit, equal to a fill.",
     .make = make_fixed, .size = 1, .calls = SHORTEST, .most = MOST_SMALL},
    {.name = "small",
     .says = "a variable of 16 bits, of which bits 14 to 3 are equal to bits 12 to 1.",
     .make = make_overlap, .size = 16, .calls = SHORTEST, .most = MOST_SMALL},
    {.name = "typical",
     .says = "64 words of 16 bits: 32 pixels and 32 link words. In 16 equations two link words are the low part of\n"
             "  a pixel, the next pixel and the high part of the one behind, cut at odd places; in 4 equations a link\n"
             "  word is a marker of three fixed bits and the low 13 bits of a pixel.",
     .make = make_link, .size = 32, .calls = SHORT, .most = MOST},
    {.name = "turned",
     .says = "of the largest size, as are the next three. 64 variables of 64 bits, joined by doubling to words of\n"
             "  1,024 bits, and these turned at odd places, one out of another.",
     .make = make_turned, .size = 1024, .calls = LONG, .most = MOST, .for_goal = true},
    {.name = "chained",
     .says = "half of each side is the 512 bits that a chain of 300 cuts leaves, the other half is cut at an odd\n"
             "  place.",
     .make = make_chained, .size = 300, .calls = LONG, .most = MOST, .for_goal = true},
    {.name = "copied",
     .says = "each side is 16 copies of a variable under a chain of 300 cuts, turned at an odd place.",
     .make = make_copied, .size = 300, .calls = LONG, .most = MOST},
    {.name = "short",
     .says = "sides of unequal width: in each equation one side has 1,024 bits, the other up to 512 less. The top bits\n"
             "  are parts of 16 of the 64 variables, the others parts of words turned at odd places.",
     .make = make_short, .size = 512, .calls = LONG, .most = MOST, .for_goal = true},
};

enum { SUBJECTS = sizeof subjects / sizeof subjects[0], TURNED = 4, CHAINED = 5 };

static subject widths[] = {
    {.name = "turned", .make = make_turned, .size = 128, .calls = LONG},
    {.name = "turned", .make = make_turned, .size = 256, .calls = LONG},
    {.name = "turned", .make = make_turned, .size = 512, .calls = LONG},
    {.name = "turned", .make = make_turned, .size = 1024, .calls = LONG},
};

static subject depths[] = {
    {.name = "deep", .make = make_deep, .size = 25, .calls = LONG},
    {.name = "deep", .make = make_deep, .size = 50, .calls = LONG},
    {.name = "deep", .make = make_deep, .size = 100, .calls = LONG},
    {.name = "deep", .make = make_deep, .size = 200, .calls = LONG},
    {.name = "deep", .make = make_deep, .size = 400, .calls = LONG},
};

enum { WIDTHS = sizeof widths / sizeof widths[0], DEPTHS = sizeof depths / sizeof depths[0] };

static growth growths[] = {
    {.title = "Equations, in turned",
     .says = "The table turned with so many of its equations.", .unit = "equations", .goal = GROWTH_GOAL},
    {.title = "Equations, in chained",
     .says = "The table chained with so many of its equations.", .unit = "equations", .goal = GROWTH_GOAL},
    {.title = "Width of equations",
     .says = "64 equations; the last step is the table turned, and the others have its variables joined to fewer bits.",
     .unit = "bits"},
    {.title = "Depth of cuts",
     .says = "64 equations, in each step the same bit pairs: half of each side is 512 bits under a chain of cuts.",
     .unit = "cuts", .by_rows = true},
};

enum { GROWTHS = sizeof growths / sizeof growths[0] };

/* The largest tables: without line numbers, with as many as equations, and with half as many. */
enum { LARGEST = 4 };

static subject all_lines[LARGEST], half_revised[LARGEST];
static growth lines[LARGEST];

/* The first one has to be page 0, with which the others are compared. */
static page_subject pages[] = {
    {.name = "page 0, 59 pieces", .number = 0},
    {.name = "page 68, 59 pieces", .number = 68},
    {.name = "page 69, the last, 25 pieces", .number = 69},
    {.name = "page 70, past the last", .number = 70},
};

enum { PAGES = sizeof pages / sizeof pages[0] };

static bool prepare_all(void)
{
    for (size_t k = 0; k < SUBJECTS; k++)
        if (!prepare(&subjects[k]))
            return false;
    for (size_t k = 0; k < WIDTHS; k++)
        if (!prepare(&widths[k]))
            return false;
    for (size_t k = 0; k < DEPTHS; k++)
        if (!prepare(&depths[k]))
            return false;
    for (size_t k = 0; k < DEPTHS; k++)
        if (!same_pairs(&depths[0], &depths[k]))
            return false;
    for (size_t k = 0; k < LARGEST; k++)
        if (!prepare_lines(&all_lines[k], &subjects[TURNED + k], EQUATIONS) ||
            !prepare_lines(&half_revised[k], &subjects[TURNED + k], EQUATIONS / 2))
            return false;
    return same_pairs(&subjects[TURNED], &widths[WIDTHS - 1]);
}

static void set_steps(void)
{
    for (size_t equations = 8; equations <= EQUATIONS; equations *= 2)
        for (size_t i = 0; i < 2; i++) {
            const subject *in = &subjects[i == 0 ? TURNED : CHAINED];
            add_step(&growths[i], in, equations, in->d.rows - EQUATIONS + equations, WIDTH * equations);
        }
    for (size_t k = 0; k < WIDTHS; k++)
        add_step(&growths[2], &widths[k], widths[k].size, widths[k].d.rows, widths[k].pairs);
    for (size_t k = 0; k < DEPTHS; k++)
        add_step(&growths[3], &depths[k], depths[k].size, depths[k].d.rows, depths[k].pairs);
    for (size_t k = 0; k < LARGEST; k++) {
        const subject *none = &subjects[TURNED + k], *all = &all_lines[k], *half = &half_revised[k];
        lines[k].title = none->name;
        add_step(&lines[k], none, 0, none->d.rows, none->pairs);
        add_step(&lines[k], all, EQUATIONS, all->d.rows, all->pairs);
        add_step(&lines[k], half, EQUATIONS / 2, half->d.rows, half->pairs);
    }
}

/* Whether the goals are met. */
static bool print_all(size_t rounds, bool z3)
{
    print_subjects(subjects, SUBJECTS);
    printf("\nTimes of `lw_solve`, of the solver in C and of the union-find are medians of %zu rounds.\n", rounds);
    bool met = print_plain(subjects, SUBJECTS);
    met &= print_ties(subjects, SUBJECTS, GOAL);
    print_z3(subjects, SUBJECTS, z3);
    printf("\n## Growth\n\n"
           "Expected: the time grows no faster than the pairs, and with the depth of cuts no faster than the rows.\n\n"
           "![Time of lw_solve against bit pairs and against rows](growth.svg)\n");
    for (size_t i = 0; i < GROWTHS; i++)
        met &= print_growth(&growths[i]);
    met &= print_lines(lines, LARGEST);
    met &= print_pages(pages, PAGES);
    return met;
}

static bool write_points(void)
{
    FILE *out = fopen("build/growth.points", "w");
    if (out == NULL)
        return false;
    print_points(out, growths, GROWTHS);
    bool written = ferror(out) == 0;
    return fclose(out) == 0 && written;
}

int main(int argc, char **argv)
{
    size_t rounds = rounds_asked(argc, argv);
    bool z3 = z3_found();

    if (rounds == 0)
        return 2;
    if (!prepare_all()) {
        fprintf(stderr, "the tables are not what they should be\n");
        return 2;
    }
    set_steps();
    if (!measure(subjects, SUBJECTS, rounds, z3))
        return 2;
    for (size_t i = 0; i < GROWTHS; i++)
        measure_growth(&growths[i], rounds);
    for (size_t k = 0; k < LARGEST; k++)
        measure_growth(&lines[k], rounds);
    if (!measure_pages(&subjects[TURNED], pages, PAGES, rounds))
        return 2;
    bool met = print_all(rounds, z3);
    return !write_points() || fflush(stdout) != 0 || ferror(stdout) ? 2 : met ? 0 : 1;
}
