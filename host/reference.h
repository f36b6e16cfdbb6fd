/*
  reference.h -- a second evaluator of term tables and reader of sheets, to
  compare the library with

  It is written from the specification's text alone, as plainly as it can be,
  and shares no code with the library. The record is the only thing that it
  takes from linkwords.h: it has the specification's numbers written out, so
  that a wrong constant in the header is found too.
*/

#ifndef REFERENCE_H
#define REFERENCE_H

#include <stdbool.h>

#include "linkwords.h"

enum { REF_ROWS = 512, REF_WIDTH = 1024 };

/* What the check finds out about a table. */
typedef struct {
    size_t rows;
    size_t bits;             /* variable bits, that is the length of a pattern */
    size_t width[REF_ROWS];  /* of each row; 0 for an equation */
    size_t place[REF_ROWS];  /* of a variable row: where its bits start in a pattern */
} ref_table;

/*
  Tests a table: outcome 0, or the first of the refusals 11 to 17 and 40 with its row.
  If it is accepted, *facts holds what is known of it; else *facts is undefined.
*/
lw_record ref_check(const uint16_t *table, size_t table_len, ref_table *facts);

/*
  The values of rows 0 to count - 1 of an accepted table under a pattern of as
  many bits as the table has: the first width bytes of values[r] are row r's.
  An equation has none.
*/
void ref_values(const uint16_t *table, const ref_table *facts, size_t count,
                const uint8_t *pattern, uint8_t values[][REF_WIDTH]);

/*
  Whether row r is an equation that counts. An equation's column c is its line
  number, 0 for none. Among equations with the same line number above 0, only
  the last one counts.
*/
bool ref_counts(const uint16_t *table, const ref_table *facts, size_t r);

/*
  Whether a pattern of as many bits as an accepted table has meets it: in each
  equation that counts both sides have equal values, once the narrower one has
  zeros at its high end. Not reentrant.
*/
bool ref_meets(const uint16_t *table, const ref_table *facts, const uint8_t *pattern);

/* What lw_value yields and writes. Not reentrant. */
lw_record ref_value(const uint16_t *table, size_t table_len, size_t row,
                    const uint8_t *pattern, size_t pattern_len,
                    uint8_t *value, size_t value_len);

/*
  Where a bit of a row comes from. A fixed bit has its value, 0 or 1, as kind,
  and 0 in the other two; a bit of a variable has kind 2, the variable's number,
  and its own number in the variable, the low bit's being 0.
*/
typedef struct {
    uint8_t kind, variable;
    uint16_t bit;
} ref_source;

/*
  The sources of rows 0 to count - 1 of an accepted table: the first width
  entries of sources[r] are those of row r's bits, high bit first.
*/
void ref_sources(const uint16_t *table, const ref_table *facts, size_t count,
                 ref_source sources[][REF_WIDTH]);

/* What lw_normal_form yields and writes. Not reentrant. */
lw_record ref_normal_form(const uint16_t *table, size_t table_len, size_t row,
                          uint16_t *form, size_t form_len);

/* What lw_read_sheet yields and writes. Not reentrant. */
lw_record ref_read_sheet(const uint8_t *sheet, size_t sheet_len, uint16_t *table, size_t table_len);

#endif /* REFERENCE_H */
