/*
  plain_compare.h -- two tables compared a second and a third time, to compare the
  library with

  Small tables are compared by all patterns, each of them tested by the values of
  all rows (ref_meets). Tables of every size are compared by classes: the first
  table's patterns are among the second's exactly if each pair of the second is of
  two bits that the first's pairs have made equal (plain_pairs, plain_ties). The
  two ways share no code with each other nor with the library, but for the check of
  a table and for which equations count (reference.h), and have the
  specification's numbers written out.
*/

#ifndef PLAIN_COMPARE_H
#define PLAIN_COMPARE_H

#include <stdbool.h>

#include "linkwords.h"
#include "reference.h"

/* Whether two accepted tables have as many variables, and these the same widths in the same order. */
bool plain_same_variables(const uint16_t *first, const ref_table *first_facts, const uint16_t *second,
                          const ref_table *second_facts);

/*
  The outcome of two accepted tables with the same variables, 0 to 3: by all
  patterns, of which there should be few, or by classes. Not reentrant.
*/
uint32_t plain_compare_patterns(const uint16_t *first, const ref_table *first_facts, const uint16_t *second,
                                const ref_table *second_facts);
uint32_t plain_compare_classes(const uint16_t *first, const ref_table *first_facts, const uint16_t *second,
                               const ref_table *second_facts);

/* What lw_compare_tables yields, by the one or the other. Not reentrant. */
lw_record plain_compare_tables(const uint16_t *first, size_t first_len, const uint16_t *second, size_t second_len,
                               size_t work_len, bool by_patterns);

#endif /* PLAIN_COMPARE_H */
