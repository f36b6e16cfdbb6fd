/* test_positions.h -- what the three files of the tests of lw_marker_positions share */

#ifndef TEST_POSITIONS_H
#define TEST_POSITIONS_H

#include "plain_positions.h"
#include "test.h"
#include "word_tables.h"

enum {
    RUN = 1048576,  /* words of the longest run */
    LONG = RUN + 64 /* words of long_run */
};

/* LONG words, with guards; check_long_run tests that no call has changed them. */
const uint16_t *long_run(void);
void check_long_run(where at);

/*
  One call: the record; table and words unchanged; at the beginning of the list
  as many of the want.pieces starts of want_list as it can take if the call is
  accepted, and behind them, or else everywhere, what was there before.
*/
void call(where at, const char *name, const uint16_t *numbers, size_t len, const uint16_t *words, size_t words_len,
          size_t list_len, lw_record want, const uint32_t *want_list);

/* The starts that plain_positions finds, which are kept until the next call of it. */
const uint32_t *plain_list(const uint16_t *numbers, size_t len, const uint16_t *words, size_t words_len,
                           lw_record *record);

/* One call against plain_positions, with a list for so many more starts than there are. Gives their number. */
size_t compare(where at, const char *name, const uint16_t *numbers, size_t len, const uint16_t *words,
               size_t words_len, size_t more);

/* The same with a list that takes none, one, too few, just enough and too many of them. */
size_t compare_lists(where at, const char *name, const uint16_t *numbers, size_t len, const uint16_t *words,
                     size_t words_len);

/*
  A table that some words meet and some do not, on a run of windows one behind the
  other: one that meets it, and others with one bit of a word changed; each bit in
  turn if there are at most 4 words, else so many bits. Some start is found, and
  with at most 4 words some is not.
*/
void compare_changed(where at, const char *name, const table *t, size_t count, size_t changes);

/* The groups of the other two files. */
void test_fixed_bits(void);
void test_fixed_parts(void);
void test_equal_bits(void);
void test_equal_parts(void);
void test_within_a_word(void);
void test_chains(void);
void test_across_words(void);
void test_most_groups(void);
void test_random(unsigned long cases);

#endif /* TEST_POSITIONS_H */
