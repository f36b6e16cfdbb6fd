/*
  test_reasons.h -- what why and compare print, read back, and all patterns of a small table

  None of it is code of desk/: the tables are evaluated by host/reference.c.
*/

#ifndef TEST_REASONS_H
#define TEST_REASONS_H

#include "small_table.h"
#include "test.h"

enum { MOST_BITS = 9, FIXED = 2 }; /* of a table; a source is 0, 1, or a place plus FIXED */

/* A table with what holds under each of its patterns. */
typedef struct {
    const uint16_t *t;
    ref_table facts;
    size_t variables, variable_row[64];
    size_t equations, row[64];          /* the rows of the equations */
    uint64_t holds[1 << MOST_BITS];     /* under each pattern: a bit for each equation */
} all_patterns;

/* Tries all patterns of an accepted table of at most MOST_BITS variable bits. */
void try_all(const uint16_t *t, const ref_table *facts, all_patterns *all);

/* All equations; and those of a set that count once the others are left off. */
uint64_t everything(const all_patterns *all);
uint64_t counting(const all_patterns *all, uint64_t set);

/* Whether a pattern meets a set of equations; and whether two sources are equal in all that do. */
bool some_meets(const all_patterns *all, uint64_t set);
bool always_equal(const all_patterns *all, uint64_t set, size_t a, size_t b);

/* What why prints. */
typedef struct {
    size_t rows, row[64];
    size_t pairs;
    struct {
        size_t row, a, b;
    } chain[128];
} reason;

/* Reads it back, behind its first line; false if it is not as it should be. */
bool read_reason(const char *text, const all_patterns *all, reason *found);

/* Whether the equations with these rows make two sources equal, 0 and 1 if no pattern meets them, and none can be left out. */
bool is_reason(const all_patterns *all, const reason *found, size_t from, size_t to);

/* Whether two sources are a bit pair of the equation at a row, in one order or the other. */
bool is_pair(const all_patterns *all, size_t row, size_t a, size_t b);

/* How many bit pairs of these rows the shortest way from one source to the other has; 0 if there is none. */
size_t shortest_way(const all_patterns *all, const reason *found, size_t from, size_t to);

/* Checks what compare prints of SHEETS/first.sheet and SHEETS/second.sheet, and its status, by all patterns of both; which word it is. */
size_t check_compared(const char *print, int status, const all_patterns *first, const all_patterns *second);

/* Writes a table as a sheet. */
void write_sheet(const char *name, const uint16_t *numbers, size_t rows);

/* Runs a command of the desk on a table as a sheet, or on two: its exit status, and what it prints. */
int run_desk(const char *command, const char *option, const char *value, const draft *d, const uint16_t *second,
             const char **print);

#endif /* TEST_REASONS_H */
