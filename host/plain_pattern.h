/*
  plain_pattern.h -- a second pattern maker, to compare the library with

  It is written from the specification's text alone, one function for each
  sentence on the form of an answer table, and shares no code with the library.
  What a table's own answer is it has from plain_solver.h. The record is the only
  thing that it takes from linkwords.h.
*/

#ifndef PLAIN_PATTERN_H
#define PLAIN_PATTERN_H

#include <stddef.h>
#include <stdint.h>

#include "linkwords.h"

/* The clauses of the form. */
enum {
    WHOLE_ROWS, STARTS_AT_0, STAYS_OR_RISES, UP_TO_63, KIND_UP_TO_2, WIDTH_FROM_1, VARIABLE_UP_TO_1024,
    FILL_WITHOUT_FRESH, FILLS_DIFFER, SEEN_WITH_WIDTH, LOWEST_UNSEEN, ALL_UP_TO_4096, RIGHT_HOME, RIGHT_HIGH, CLAUSES
};

/*
  The clauses that an answer table breaks: bit i of the number stands for clause
  i, so that 0 is a table of the form. Numbers that are not whole rows are
  looked at up to the last whole row. Not reentrant.
*/
unsigned plain_faults(const uint16_t *answer, size_t answer_len);

/* The widths of all rows of an answer table together, and those of its fresh pieces, each once. Not reentrant. */
size_t plain_pattern_bits(const uint16_t *answer, size_t answer_len);
size_t plain_fresh_bits(const uint16_t *answer, size_t answer_len);

/*
  The pattern that an answer table of the form gives with the fresh bits, wherever
  the table comes from: 33, 34, 32, or the pattern, which is written. Not
  reentrant.
*/
lw_record plain_fill(const uint16_t *answer, size_t answer_len, const uint8_t *fresh, size_t fresh_len,
                     uint8_t *pattern, size_t pattern_len);

/* What lw_make_pattern yields and writes. Not reentrant. */
lw_record plain_make_pattern(const uint16_t *table, size_t table_len, const uint16_t *answer, size_t answer_len,
                             const uint8_t *fresh, size_t fresh_len, uint8_t *pattern, size_t pattern_len,
                             uint16_t *work, size_t work_len);

#endif /* PLAIN_PATTERN_H */
