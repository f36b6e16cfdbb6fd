/*
  plain_positions.h -- a second search for the starts of a run at which its words
  meet a table, to compare the library with

  It is written from the specification's text alone: each start is tested by the
  values of all rows under the window's bits (ref_values), and both sides of
  every equation that counts (ref_counts) are compared. It shares no code with the library, and has the
  specification's numbers written out.
*/

#ifndef PLAIN_POSITIONS_H
#define PLAIN_POSITIONS_H

#include <stdbool.h>

#include "linkwords.h"
#include "reference.h"

/* How many variables an accepted table has. */
size_t plain_variables(const uint16_t *table, const ref_table *facts);

/* Whether so many words, each a variable of 16 bits, meet an accepted table. Not reentrant. */
bool plain_meets(const uint16_t *table, const ref_table *facts, const uint16_t *words, size_t count);

/* What lw_marker_positions yields and writes. Not reentrant. */
lw_record plain_positions(const uint16_t *table, size_t table_len, const uint16_t *words, size_t words_len,
                          uint32_t *list, size_t list_len);

#endif /* PLAIN_POSITIONS_H */
