/*
  word_tables.h -- tables whose variables all have 16 bits, each a word: written
  row by row or random, and words that meet them
*/

#ifndef WORD_TABLES_H
#define WORD_TABLES_H

#include "large_table.h"

enum { WORD = 16 /* bits of a word */, WINDOW = 64 /* words of the longest window, the most variables of a table */ };

/* So many variables of 16 bits, rows 0 and so on. */
void add_words(table *t, size_t count);

/* An equation of bits high down to low of row a and as many bits of row b, the high one b_high. */
void add_equal(table *t, size_t a, size_t high, size_t low, size_t b, size_t b_high);

/* Bits high down to low of row a are those of a number. */
void add_fixed(table *t, size_t a, size_t high, size_t low, size_t value);

/* An accepted table of 16-bit variables, solved by plain_solver.c. */
typedef struct {
    size_t bits;
    lw_record record;
    uint16_t answer[6 * WORD * WINDOW];
} solved_table;

void solve_plainly(const uint16_t *numbers, size_t len, solved_table *s);

/* Words that meet it, with random bits where they are free; any words if none meet it. */
void meeting_words(const solved_table *s, uint16_t words[WINDOW]);

/*
  A random table of so many 16-bit variables, 1 to 64. Its equations mostly hold
  under a hidden pattern, so that some words meet it.
*/
void make_windowed(plan *p, size_t window);

#endif /* WORD_TABLES_H */
