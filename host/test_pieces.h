/* test_pieces.h -- what the two files of the tests of lw_solve_pieces share */

#ifndef TEST_PIECES_H
#define TEST_PIECES_H

#include "random_table.h"
#include "test.h"

/*
  The table through lw_solve and lw_solve_pieces, in buffers of these lengths and of
  the same content: the two records and every byte of the buffers and of the zones
  around them are the same, and the table is unchanged. And the record and the rows
  are those of the plain solver. Gives the record.
*/
lw_record solve_both(where at, const char *name, const uint16_t *numbers, size_t len, size_t answer_len,
                     size_t work_len);

/* How often each outcome was had so far. */
extern unsigned long outcomes[64];

/* The group of the other file. */
void test_random(unsigned long tables);

#endif /* TEST_PIECES_H */
