/* test_forms.h -- what the two files of the tests of lw_normal_form share */

#ifndef TEST_FORMS_H
#define TEST_FORMS_H

#include "random_table.h"
#include "test.h"

/* Pieces. A form is written down as a table is: see TABLE. */

#define PART(variable, high, low)  LW_PART, (variable), (high), (low)
#define ZEROS(width)               0, 0, (width) - 1, 0
#define ONES(width)                1, 0, (width) - 1, 0
#define FORM                       TABLE

/*
  One call: the record; table unchanged; want_form as the first 4 * want.pieces
  numbers of the output, and behind them what was there before. The output has
  form_len numbers, those of content if it is not NULL.
*/
void call(where at, const char *name, const uint16_t *numbers, size_t len, size_t row,
          const uint16_t *content, size_t form_len, lw_record want, const uint16_t *want_form);

void print_form(const char *name, const uint16_t *form, size_t pieces);

/* The random groups. */
void test_random_forms(unsigned long tables);
void test_same_forms(unsigned long tables);

#endif /* TEST_FORMS_H */
