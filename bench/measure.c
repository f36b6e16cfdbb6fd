/* measure.c -- see measure.h */

#define _POSIX_C_SOURCE 200809L /* clock_gettime, posix_spawn */

#include "measure.h"

#include <stdio.h>
#include <string.h>

#include "plain_page.h"
#include "plain_solver.h"
#include "tables.h"
#include "timing.h"
#include "z3.h"

static void note(samples *s, double time)
{
    s->times[s->count++] = time;
}

double quartile(samples *s, size_t quarters)
{
    qsort(s->times, s->count, sizeof *s->times, by_size);
    return s->times[quarters * (s->count - 1) / 4];
}

double median(samples *s)
{
    return quartile(s, 2);
}

size_t rounds_asked(int argc, char **argv)
{
    size_t rounds = argc > 1 ? strtoul(argv[1], NULL, 10) : 301;
    if (rounds >= 1 && rounds <= MAX_ROUNDS)
        return rounds;
    fprintf(stderr, "rounds are 1 to %d\n", MAX_ROUNDS);
    return 0;
}

/* Tables. */

static uint16_t answer[LW_ANSWER_NUMBERS], work[LW_WORK_NUMBERS];
static uint16_t plain_answer[LW_ANSWER_NUMBERS], parent[PLAIN_SOURCES];

static lw_record solve(const subject *in, size_t rows)
{
    return lw_solve(in->d.t.numbers, 4 * rows, answer, LW_ANSWER_NUMBERS, work, LW_WORK_NUMBERS);
}

/* All of it by the solver in C: the check of the table and the answer. */
static lw_record plain(const subject *in)
{
    static ref_table facts;
    lw_record check = ref_check(in->d.t.numbers, in->d.t.len, &facts);
    return check.outcome != 0 ? check : plain_solve(in->d.t.numbers, &facts, plain_answer);
}

static size_t ties(const subject *in)
{
    return plain_ties(in->left, in->right, in->pairs, parent, in->facts.bits);
}

/* The pairs of the equations that count, in their order. */
static void lay_out(subject *in)
{
    static uint16_t sources[REF_ROWS][REF_WIDTH];

    plain_sources(in->d.t.numbers, &in->facts, sources);
    for (size_t r = 0; r < in->d.rows; r++) {
        const uint16_t *n = in->d.t.numbers + 4 * r;
        if (ref_counts(in->d.t.numbers, &in->facts, r))
            in->pairs += plain_pairs(&in->facts, sources, n[1], n[2], in->left + in->pairs, in->right + in->pairs);
    }
}

/* Whether the table that was made is solved as by the plain solver. */
static bool ready(subject *in)
{
    lw_record check = ref_check(in->d.t.numbers, in->d.t.len, &in->facts);
    if (check.outcome != 0) {
        fprintf(stderr, "%s %zu: refused %u, row %u\n", in->name, in->size, check.outcome, check.row);
        return false;
    }
    lay_out(in);
    lw_record want = plain(in);
    in->record = solve(in, in->d.rows);
    if (in->record.outcome != (in->d.rows == 0 ? LW_ALWAYS : LW_SOLVED) ||
        memcmp(&in->record, &want, sizeof want) != 0 ||
        memcmp(answer, plain_answer, LW_ANSWER_ROW_NUMBERS * want.pieces * sizeof *answer) != 0 ||
        ties(in) != want.ties) {
        fprintf(stderr, "%s %zu: %zu pairs, outcome %u, ties %u and %zu: not the answer of the plain solver\n",
                in->name, in->size, in->pairs, in->record.outcome, in->record.ties, ties(in));
        return false;
    }
    return true;
}

bool prepare(subject *in)
{
    clear(&in->d);
    in->make(&in->d, in->size);
    return ready(in);
}

bool prepare_lines(subject *in, const subject *of, size_t lines)
{
    in->name = of->name;
    in->calls = of->calls;
    in->d = of->d;
    give_lines(&in->d, lines);
    return ready(in);
}

bool same_pairs(const subject *a, const subject *b)
{
    return a->pairs == b->pairs && memcmp(a->left, b->left, a->pairs * sizeof *a->left) == 0 &&
           memcmp(a->right, b->right, a->pairs * sizeof *a->right) == 0;
}

/* Times. */

static volatile size_t sink; /* so that no call is left out */

static double solve_time(const subject *in, size_t rows)
{
    double start = seconds();
    for (size_t i = 0; i < in->calls; i++)
        sink += solve(in, rows).ties;
    return (seconds() - start) / (double)in->calls;
}

static double plain_time(const subject *in)
{
    double start = seconds();
    for (size_t i = 0; i < in->calls; i++)
        sink += plain(in).ties;
    return (seconds() - start) / (double)in->calls;
}

static double ties_time(const subject *in)
{
    double start = seconds();
    for (size_t i = 0; i < in->calls; i++)
        sink += ties(in);
    return (seconds() - start) / (double)in->calls;
}

/* One run of z3 on each table. */
static bool run_z3(subject *in, size_t count)
{
    double start = 0;
    for (size_t k = 0; k < count; k++) {
        double time = z3_time(in[k].name);
        if (time < 0) {
            fprintf(stderr, "%s: z3 does not say sat\n", in[k].name);
            return false;
        }
        start = k == 0 ? time : start;
        note(&in[k].z3, time);
        note(&in[k].z3_alone, time - start);
    }
    return true;
}

bool z3_found(void)
{
    return system("command -v z3 >/dev/null") == 0;
}

bool measure(subject *in, size_t count, size_t rounds, bool z3)
{
    for (size_t k = 0; z3 && k < count; k++)
        if (!write_script(in[k].name, &in[k].d.t)) {
            fprintf(stderr, "build/%s.smt2 cannot be made\n", in[k].name);
            return false;
        }
    for (size_t i = 0; i < rounds; i++) {
        for (size_t k = 0; k < count; k++) {
            note(&in[k].solve, solve_time(&in[k], in[k].d.rows));
            note(&in[k].plain, plain_time(&in[k]));
            note(&in[k].ties, ties_time(&in[k]));
        }
        if (z3 && i % Z3_EVERY == 0 && !run_z3(in, count))
            return false;
    }
    return true;
}

void add_step(growth *g, const subject *in, size_t size, size_t rows, size_t pairs)
{
    g->steps[g->count].in = in;
    g->steps[g->count].size = size;
    g->steps[g->count].rows = rows;
    g->steps[g->count].pairs = pairs;
    g->count++;
}

void measure_growth(growth *g, size_t rounds)
{
    for (size_t i = 0; i < rounds; i++)
        for (size_t k = 0; k < g->count; k++)
            note(&g->steps[k].solve, solve_time(g->steps[k].in, g->steps[k].rows));
}

/* Pages. */

enum { PAGE_CALLS = 100 }; /* in one sample */

static double page_time(__typeof__(lw_page) *make, lw_record record, size_t number)
{
    double start = seconds();
    for (size_t i = 0; i < PAGE_CALLS; i++)
        sink += make(record, answer, LW_ANSWER_NUMBERS, number).bytes[i];
    return (seconds() - start) / PAGE_CALLS;
}

bool measure_pages(const subject *of, page_subject *in, size_t count, size_t rounds)
{
    lw_record record = solve(of, of->d.rows);
    for (size_t k = 0; k < count; k++) {
        lw_page_bytes page = lw_page(record, answer, LW_ANSWER_NUMBERS, in[k].number);
        lw_page_bytes plain_one = plain_page(record, answer, LW_ANSWER_NUMBERS, in[k].number);
        if (memcmp(&page, &plain_one, sizeof page) != 0) {
            fprintf(stderr, "%s: not that of the plain page maker\n", in[k].name);
            return false;
        }
    }
    for (size_t i = 0; i < rounds; i++)
        for (size_t k = 0; k < count; k++) {
            note(&in[k].page, page_time(lw_page, record, in[k].number));
            note(&in[k].plain, page_time(plain_page, record, in[k].number));
        }
    return true;
}
