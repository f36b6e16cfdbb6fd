/* report.h -- what was measured, as Markdown on standard output */

#ifndef REPORT_H
#define REPORT_H

#include <stdio.h>

#include "measure.h"

/* The tables and what lw_solve says of them. */
void print_subjects(const subject *in, size_t count);

/* Against the solver in C, which does the whole job; whether the goals are met. */
bool print_plain(subject *in, size_t count);

/* Against the plain union-find; whether the goal is met. The first table is empty, the second the least solved one. */
bool print_ties(subject *in, size_t count, double goal);

/* Against z3, which may not have been measured. */
void print_z3(subject *in, size_t count, bool z3);

/* Whether the growth keeps to its goal. */
bool print_growth(growth *g);

/* Tables without line numbers, with 64 and with 32 of them, the steps of a growth each; whether the goals are met. */
bool print_lines(growth *g, size_t count);

/* Pages against the plain page maker, and against the first of them; whether the goals are met. */
bool print_pages(page_subject *in, size_t count);

/* The growths as points for draw_growth, one panel for what follows the pairs and one for what follows the rows. */
void print_points(FILE *out, growth *g, size_t count);

#endif /* REPORT_H */
