/* test_sheet.h -- what the two files of the tests of lw_read_sheet share */

#ifndef TEST_SHEET_H
#define TEST_SHEET_H

#include "random_table.h"
#include "test.h"

/* Texts. */

#define NAMES "kind a b c\n"

/* The sheet of the specification. */
#define SHEET NAMES "0 8 0 0\n3 0 6 3\n3 0 4 1\n4 1 2 0\n"

/* A text that grows. */
typedef struct {
    uint8_t bytes[200000];
    size_t len;
} text;

void put_byte(text *t, int byte);
void put(text *t, const char *words);
void put_times(text *t, const char *words, size_t times);
void put_number(text *t, unsigned number);
void put_hexadecimal(text *t, unsigned number, int digits); /* h and so many digits, or as many as it needs */

/*
  One call on the first lent bytes of a text of len bytes: the record; the text
  unchanged; want_table as the first 4 * want.pieces numbers of the output, and
  behind them what was there before. The output has table_len numbers, those of
  content if it is not NULL.
*/
void call(where at, const char *name, const uint8_t *bytes, size_t len, size_t lent,
          const uint16_t *content, size_t table_len, lw_record want, const uint16_t *want_table);

/* The groups that compare with the reference. */
void test_one_byte(void);
void test_words(void);
void test_random_sheets(unsigned long sheets);

#endif /* TEST_SHEET_H */
