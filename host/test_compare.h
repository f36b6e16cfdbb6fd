/* test_compare.h -- what the two files of the tests of lw_compare_tables share */

#ifndef TEST_COMPARE_H
#define TEST_COMPARE_H

#include "plain_compare.h"
#include "random_table.h"
#include "test.h"

/* One call: the record; both tables unchanged; the work area all 0 after outcomes 0 to 3, and else as it was. */
void call(where at, const char *name, const uint16_t *first, size_t first_len, const uint16_t *second,
          size_t second_len, size_t work_len, lw_record want);

/*
  One call each way round against plain_compare_tables, by classes and, if it is
  wanted, by all patterns. Gives the outcome.
*/
uint32_t compare(where at, const char *name, const uint16_t *first, size_t first_len, const uint16_t *second,
                 size_t second_len, bool by_patterns);

/* The groups of the other file. */
void test_random(unsigned long cases);
void test_random_large(unsigned long cases);

#endif /* TEST_COMPARE_H */
