/* test_pattern.h -- what the four files of the tests of lw_make_pattern share */

#ifndef TEST_PATTERN_H
#define TEST_PATTERN_H

#include "answer_rows.h"
#include "plain_pattern.h"
#include "test.h"

enum {
    BITS = 4096,
    LONG = 65536 + BITS + 8, /* bytes of the longest buffers */
    AREA = 16384,            /* numbers of the least work area, and of a longer one */
    LONG_AREA = 20000
};

#define REFUSED(number) (lw_record){.outcome = (number)} /* each but the table's tells row 0 */

/* Bits as two arguments: bytes and their count. */
#define BYTES(...) (const uint8_t[]){__VA_ARGS__}, sizeof((const uint8_t[]){__VA_ARGS__})
#define NO_BITS    NULL, 0

/* An answer table that grows; there is room for a few rows more than are allowed. */
typedef struct {
    uint16_t numbers[6 * (BITS + 8)];
    size_t len;
} answer_table;

/* Adds a row of four numbers, or a row of six by its first four; close_rows then puts home and high into all rows. */
void put(answer_table *a, size_t variable, size_t kind, size_t width, size_t fresh);
void put_six(answer_table *a, size_t variable, size_t kind, size_t width, size_t fresh);
void close_rows(answer_table *a);

void print_answer(const uint16_t *answer, size_t len);

/*
  Writes a table that just the patterns of an answer table of the form meet: the
  variables, and of each that it is its right side, by fills and by cuts where the
  fresh pieces are at home. Its own answer has the same patterns, and is that one
  where each piece is as long as it can be, unless every pattern meets the table.
  False if the rows are too many for a table.
*/
bool make_table_of(const uint16_t *answer, size_t len, table *t);

/* What is lent to a call. */
typedef struct {
    const uint16_t *table;
    size_t table_len;
    const uint16_t *answer;
    size_t answer_len;
    const uint8_t *fresh;
    size_t fresh_len;
    const uint8_t *content; /* of the output before the call; where it is NULL, bytes that a test would not expect */
    size_t pattern_len;
    size_t work_len;
    bool used;              /* whether the work area is as the call before left it, and not noise */
} lent;

/*
  One call: the record; table, answer table and fresh bytes unchanged;
  want_pattern as the first want.free bytes of the output if the call is accepted,
  and behind them, or else everywhere, what was there before; each number of the
  work area 0 if the call is accepted or refused 46, 34 or 32, and else what it was.
*/
void call(where at, const char *name, const lent *in, lw_record want, const uint8_t *want_pattern);

/* The same over a work area of 16,384 numbers of noise, and of 20,000. */
void call_both(where at, const char *name, lent in, lw_record want, const uint8_t *want_pattern);

/* The groups of the other files. */
void test_other_answers(void);
void test_other_tables(void);
void test_shown(void);
void test_memory_and_table(void);
void test_random_answers(unsigned long tables);
void test_small(unsigned long answer_tables);
void test_large(void);

#endif /* TEST_PATTERN_H */
