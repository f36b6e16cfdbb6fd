/* report.c -- see report.h */

#include "report.h"

#include "figures.h"

/* The report. */

void print_subjects(const subject *in, size_t count)
{
    static const char *const outcomes[] = {"always", "never", "solved"};

    printf("## Tables\n\n");
    for (size_t k = 0; k < count; k++)
        printf("- %s: %s\n", in[k].name, in[k].says);
    printf("\n| table | variable bits | rows | equations | pairs | outcome | pieces | fresh | free | ties |\n");
    printf("|---|---:|---:|---:|---:|---|---:|---:|---:|---:|\n");
    for (size_t k = 0; k < count; k++) {
        lw_record r = in[k].record;
        printf("| %s | %s | %zu | %zu | %s | %s ", in[k].name, whole(in[k].d.bits), in[k].d.rows, in[k].d.equations,
               whole(in[k].pairs), outcomes[r.outcome]);
        printf("| %s | %s | %s | %s |\n", whole(r.pieces), whole(r.fresh), whole(r.free), whole(r.ties));
    }
}

/* One row of the comparison with the solver in C. Whether the goal is met, if there is one. */
static bool print_plain_row(subject *in)
{
    double solve = median(&in->solve), plain = median(&in->plain);

    printf("| %s | %s | %s ", in->name, micro(solve), micro(plain));
    if (in->pairs == 0) {
        printf("| | | |\n");
        return true;
    }
    printf("| %s | %s |", figure(solve / plain), figure(quartile(&in->solve, 0) / quartile(&in->plain, 0)));
    if (in->most > 0)
        printf(" at most %.1f: %s", in->most, solve <= in->most * plain ? "met" : "MISSED");
    printf(" |\n");
    return in->most <= 0 || solve <= in->most * plain;
}

bool print_plain(subject *in, size_t count)
{
    bool met = true;

    printf("\n## Against a complete solver in C\n\n");
    printf("| table | `lw_solve`, µs | solver in C, µs | ratio | ratio of best times | goal |\n");
    printf("|---|---:|---:|---:|---:|---|\n");
    for (size_t k = 0; k < count; k++)
        met &= print_plain_row(&in[k]);
    printf("\nBoth check the table and write the same answer. `lw_solve` also leaves the work area's 16,384 numbers 0,\n"
           "which is most of its time for the smallest tables. The solver in C keeps its arrays between calls, so that\n"
           "two threads cannot use it at once; without rows it has nothing to do.\n");
    return met;
}

/* One row, with the fixed part of the time. Whether the goal is met, if there is one. */
static bool print_ratio(subject *in, double fixed, double goal)
{
    double solve = median(&in->solve), ties = median(&in->ties);

    printf("| %s | %s | %s ", in->name, micro(solve), micro(ties));
    if (in->pairs == 0) {
        printf("| | | | |\n");
        return true;
    }
    printf("| %s | %s | %s %% |", figure(solve / ties), figure(quartile(&in->solve, 0) / quartile(&in->ties, 0)),
           figure(100 * fixed / solve));
    if (in->for_goal)
        printf(" at most %.1f: %s", goal, solve <= goal * ties ? "met" : "MISSED");
    printf(" |\n");
    return !in->for_goal || solve <= goal * ties;
}

bool print_ties(subject *in, size_t count, double goal)
{
    double empty = median(&in[0].solve), fixed = median(&in[1].solve);
    bool met = true;

    printf("\n## Against the plain union-find\n\n");
    printf("| table | `lw_solve`, µs | union-find, µs | ratio | ratio of best times | fixed part | goal |\n");
    printf("|---|---:|---:|---:|---:|---:|---|\n");
    for (size_t k = 0; k < count; k++)
        met &= print_ratio(&in[k], fixed, goal);
    printf("\nThe fixed part is the time for the table %s, %s µs; the empty table, which needs no answer, has %s µs.\n"
           "It is there whatever a table holds: the work area's 16,384 numbers are left 0, and arrays on the stack\n"
           "start as 0. The union-find has no such part, looks at no rows and writes no answer. So the ratio is\n"
           "greater where pairs are few.\n",
           in[1].name, micro(fixed), micro(empty));
    return met;
}

/* One row. A difference that spreads by as much as itself is not printed. */
static void print_z3_row(subject *in)
{
    double solve = median(&in->solve), time = median(&in->z3), alone = median(&in->z3_alone);

    printf("| %s | %s | %s ", in->name, micro(solve), milli(time));
    if (in->pairs == 0)
        printf("| | | |\n");
    else if (alone <= quartile(&in->z3_alone, 3) - quartile(&in->z3_alone, 1))
        printf("| %s | in the noise | in the noise |\n", figure(time / solve));
    else
        printf("| %s | %s | %s |\n", figure(time / solve), milli(alone), figure(alone / solve));
}

void print_z3(subject *in, size_t count, bool z3)
{
    printf("\n## Against z3\n\n");
    printf("| table | `lw_solve`, µs | z3, ms | z3 / `lw_solve` | z3 without its start, ms | that / `lw_solve` |\n");
    printf("|---|---:|---:|---:|---:|---:|\n");
    for (size_t k = 0; k < count; k++)
        if (z3)
            print_z3_row(&in[k]);
        else
            printf("| %s | %s | not measured | not measured | not measured | not measured |\n", in[k].name,
                   micro(median(&in[k].solve)));
    if (z3)
        printf("\nz3 ran %zu times on each table, in every %dth round. Its time for the empty table is its start. A\n"
               "time without it is in the noise if the middle half of the differences spreads by as much as their\n"
               "median.\n",
               in[0].z3.count, Z3_EVERY);
}

static double amount(const growth *g, size_t k)
{
    return (double)(g->by_rows ? g->steps[k].rows : g->steps[k].pairs);
}

bool print_growth(growth *g)
{
    const char *what = g->by_rows ? "rows" : "pairs";
    size_t last = g->count - 1;

    printf("\n### %s\n\n%s\n\n", g->title, g->says);
    printf("| %s | rows | pairs | `lw_solve`, µs | time / step before | %s / step before |\n", g->unit, what);
    printf("|---:|---:|---:|---:|---:|---:|\n");
    for (size_t k = 0; k < g->count; k++) {
        double time = median(&g->steps[k].solve);
        printf("| %s | %zu | %s | %s ", whole(g->steps[k].size), g->steps[k].rows, whole(g->steps[k].pairs),
               micro(time));
        if (k == 0)
            printf("| | |\n");
        else
            printf("| %.2f | %.2f |\n", time / median(&g->steps[k - 1].solve), amount(g, k) / amount(g, k - 1));
    }

    double time = median(&g->steps[last].solve) / median(&g->steps[0].solve), more = amount(g, last) / amount(g, 0);
    printf("\nFrom %s to %s %s it takes %.2f times the time, for %.2f times the %s: %s than the %s.",
           whole(g->steps[0].size), whole(g->steps[last].size), g->unit, time, more, what,
           time <= more ? "no faster" : "FASTER", what);
    if (g->goal > 0)
        printf("\nGoal at most %.1f times: %s.", g->goal, time <= g->goal ? "met" : "MISSED");
    printf("\n");
    return g->goal <= 0 || time <= g->goal;
}

bool print_lines(growth *g, size_t count)
{
    const double most = 1.1, most_revised = 1.0; /* goals */
    bool met = true;

    printf("\n## Line numbers\n\n"
           "`lw_solve` on the largest tables with 64 line numbers, all different, and with 32, each of them twice, so\n"
           "that 32 of the 64 equations are revised; against the same table without line numbers.\n\n");
    printf("| table | none, µs | 64 different, µs | ratio | goal | 32 of 64 revised, µs | ratio | goal |\n");
    printf("|---|---:|---:|---:|---|---:|---:|---|\n");
    for (size_t k = 0; k < count; k++) {
        double none = median(&g[k].steps[0].solve), all = median(&g[k].steps[1].solve);
        double half = median(&g[k].steps[2].solve);
        printf("| %s | %s | %s | %s | at most %.1f: %s ", g[k].title, micro(none), micro(all), figure(all / none), most,
               all <= most * none ? "met" : "MISSED");
        printf("| %s | %s | at most %.1f: %s |\n", micro(half), figure(half / none), most_revised,
               half <= most_revised * none ? "met" : "MISSED");
        met = met && all <= most * none && half <= most_revised * none;
    }
    return met;
}

bool print_pages(page_subject *in, size_t count)
{
    const double most = 1.0, most_of_first = 1.1; /* goals */
    double first = median(&in[0].page);
    bool met = true;

    printf("\n## Pages\n\n"
           "Pages of the result sheet of the table turned, which has 4,096 pieces, against the plain page maker in C\n"
           "([host/plain_page.c](../host/plain_page.c)), which prints each line with `snprintf`.\n\n");
    printf("| page | `lw_page`, µs | page in C, µs | ratio | goal | `lw_page` / page 0 | goal |\n");
    printf("|---|---:|---:|---:|---|---:|---|\n");
    for (size_t k = 0; k < count; k++) {
        double page = median(&in[k].page), plain = median(&in[k].plain);
        bool fast = page <= most * plain, alike = page <= most_of_first * first;
        printf("| %s | %s | %s | %s | at most %.1f: %s ", in[k].name, micro(page), micro(plain), figure(page / plain), most,
               fast ? "met" : "MISSED");
        printf("| %s | at most %.1f: %s |\n", figure(page / first), most_of_first, alike ? "met" : "MISSED");
        met = met && fast && alike;
    }
    return met;
}

/* The points of the growths that follow the rows, or of those that follow the pairs. */
static void print_panel(FILE *out, growth *g, size_t count, bool by_rows)
{
    fprintf(out, "panel %s\n", by_rows ? "rows" : "bit pairs");
    for (size_t i = 0; i < count; i++) {
        if (g[i].by_rows != by_rows)
            continue;
        fprintf(out, "line %s\n", g[i].title);
        for (size_t k = 0; k < g[i].count; k++)
            fprintf(out, "%.0f %.3f\n", amount(&g[i], k), 1e6 * median(&g[i].steps[k].solve));
    }
}

void print_points(FILE *out, growth *g, size_t count)
{
    fprintf(out, "title How the time of lw_solve grows\n");
    print_panel(out, g, count, false);
    print_panel(out, g, count, true);
}
