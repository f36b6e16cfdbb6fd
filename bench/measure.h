/*
  measure.h -- tables made ready, and the contenders timed on them side by side

  In each round every contender is called in turn, so that what else the machine
  does meets all alike.
*/

#ifndef MEASURE_H
#define MEASURE_H

#include <stdbool.h>
#include <stddef.h>

#include "linkwords.h"
#include "random_table.h"
#include "reference.h"

enum { MAX_PAIRS = 64 * 1024, MAX_ROUNDS = 10000, MAX_STEPS = 5, Z3_EVERY = 25 /* rounds */ };

/* Times in seconds. */
typedef struct {
    double times[MAX_ROUNDS];
    size_t count;
} samples;

/* The sample that so many quarters of all are no greater than: 0 gives the best, 2 the median. */
double quartile(samples *s, size_t quarters);
double median(samples *s);

/* A table with what the contenders need of it. */
typedef struct {
    const char *name, *says;
    void (*make)(draft *, size_t);
    size_t size;   /* for make */
    size_t calls;  /* in one sample */
    double most;   /* goal: at most so many times the time of the solver in C; 0 for none */
    bool for_goal; /* whether the ratio to the union-find has a goal */
    draft d;
    ref_table facts;
    lw_record record;
    uint16_t left[MAX_PAIRS], right[MAX_PAIRS];
    size_t pairs;
    samples solve, plain, ties, z3, z3_alone; /* the last without z3's start */
} subject;

/* Tables in which something grows from step to step. */
typedef struct {
    const char *title, *says;
    const char *unit; /* of what grows */
    bool by_rows;     /* whether the time is expected to follow the rows; else the pairs */
    double goal;      /* at most so many times the first step's time; 0 for none */
    size_t count;
    struct {
        const subject *in;
        size_t size, rows, pairs;
        samples solve;
    } steps[MAX_STEPS];
} growth;

/* A page of a result sheet. */
typedef struct {
    const char *name;
    size_t number;
    samples page, plain;
} page_subject;

/* The program's first argument, or 301; 0, and it is told, if it is no number of rounds. */
size_t rounds_asked(int argc, char **argv);

/* Makes the table and lays out its pairs. Whether lw_solve's answer is that of the plain solver. */
bool prepare(subject *in);

/* The same for another table with so many different line numbers, in turn, for its equations. */
bool prepare_lines(subject *in, const subject *of, size_t lines);

/* Whether the two tables have the same pairs in the same order. */
bool same_pairs(const subject *a, const subject *b);

bool z3_found(void);

/* Times lw_solve, the solver in C, plain_ties and, if wanted, z3 on each table. The first has to be empty, for z3's start. */
bool measure(subject *in, size_t count, size_t rounds, bool z3);

/* A step is the first rows of a table. */
void add_step(growth *g, const subject *in, size_t size, size_t rows, size_t pairs);
void measure_growth(growth *g, size_t rounds);

/* Times lw_page and the plain page maker on pages of a table's answer. False if they differ. */
bool measure_pages(const subject *of, page_subject *in, size_t count, size_t rounds);

#endif /* MEASURE_H */
