/*
  enumerate.h -- the answer of a small table, by all of its patterns

  Every pattern is tried, and what is told of the table is told of the set of
  patterns that meet it: no bits are put together by an algorithm. It is written
  from the specification's text alone, and shares no code with the library nor
  with plain_solver.c, but for which equations count (ref_counts of reference.h).
*/

#ifndef ENUMERATE_H
#define ENUMERATE_H

#include "linkwords.h"
#include "reference.h"

enum { ENUM_BITS = 16 }; /* most variable bits */

typedef struct {
    size_t met;                      /* how many patterns meet the table */
    lw_record record;                /* what lw_solve yields */
    uint32_t row_ties;               /* for outcome 1: that row's ties, the pair that leaves no pattern too */
    uint16_t answer[6 * ENUM_BITS];  /* for outcome 2: the answer table, 6 * record.pieces numbers */
    uint16_t held[ENUM_BITS];        /* by enumerate_to, for outcomes 0 and 2: what holds each place, as in a job */
} enumeration;

/* Enumerates an accepted table of at most ENUM_BITS variable bits; facts are those of ref_check. Not reentrant. */
void enumerate(const uint16_t *table, const ref_table *facts, enumeration *found);

/*
  The same with the equations from row limit on left off, of a table without line
  numbers; and of each place what holds it: 4096 plus the bit that it has in every
  pattern that meets the rest, or else the lowest place that equals it in all of
  them.
*/
void enumerate_to(const uint16_t *table, const ref_table *facts, size_t limit, enumeration *found);

#endif /* ENUMERATE_H */
