/*
  plain_solver.h -- a second solver, for tables of every size, to compare the
  library with

  It is a plain union-find over the bits, written from the specification's text.
  It shares no code with the library nor with enumerate.c, which is slower and
  takes small tables only, but for which equations count (ref_counts of
  reference.h).
*/

#ifndef PLAIN_SOLVER_H
#define PLAIN_SOLVER_H

#include "linkwords.h"
#include "reference.h"

/*
  Where a bit of a row comes from, as one number: 0 and 1 are the fixed bits,
  and i + 2 is place i, that is variable bit i as counted in a pattern.
*/
enum { PLAIN_FIXED = 2, PLAIN_BITS = 4096, PLAIN_SOURCES = PLAIN_FIXED + PLAIN_BITS };

/*
  The sources of the rows of an accepted table: the first width entries of
  sources[r] are those of row r's bits, high bit first.
*/
void plain_sources(const uint16_t *table, const ref_table *facts, uint16_t sources[][REF_WIDTH]);

/*
  The pairs (left[i], right[i]) of an equation of rows a and b, high end first.
  The narrower side is filled with fixed bits 0 at its high end. Gives how many
  pairs there are, which is the greater width.
*/
size_t plain_pairs(const ref_table *facts, uint16_t sources[][REF_WIDTH], size_t a, size_t b,
                   uint16_t left[REF_WIDTH], uint16_t right[REF_WIDTH]);

/*
  Ties the pairs (left[i], right[i]) in their order, count of them, over a
  table of so many variable bits. parent is for bits + PLAIN_FIXED numbers and
  may hold anything before. Gives the number of ties; SIZE_MAX if the pairs
  make the two fixed bits equal. This is all that the benchmark compares with.
*/
size_t plain_ties(const uint16_t *left, const uint16_t *right, size_t count, uint16_t *parent, size_t bits);

/*
  What lw_solve yields for an accepted table, whose facts are those of
  ref_check. For outcome 2, answer has the answer table's rows; there must be
  room for 6 * bits numbers. Not reentrant.
*/
lw_record plain_solve(const uint16_t *table, const ref_table *facts, uint16_t *answer);

/*
  What lw_solve yields for any table and buffers of these lengths: 10, the table's
  refusals by ref_check, or what plain_solve yields and writes.
*/
lw_record plain_call(const uint16_t *table, size_t len, size_t answer_len, size_t work_len, uint16_t *answer);

/*
  The same with the equations from row limit on left off, of a table without line
  numbers. For outcomes 0 and 2, held[i] is what holds place i, as in a job: 4096
  plus the fixed bit of its class, or else the lowest place of its class. There
  must be room for as many numbers as there are variable bits.
*/
lw_record plain_solve_to(const uint16_t *table, const ref_table *facts, size_t limit, uint16_t *answer, uint16_t *held);

#endif /* PLAIN_SOLVER_H */
