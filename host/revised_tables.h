/*
  revised_tables.h -- tables with revised equations, for every call that asks
  which patterns meet a table

  All of them have the same rows but for their equations: one variable of 16
  bits and parts of it, and behind the equations cuts whose low bounds are line
  numbers too. Each case says of each equation whether it counts. So the table of
  the same rows in which an equation that does not count says nothing, and none
  has a line number, is had without looking at line numbers: both must have the
  same answer.
*/

#ifndef REVISED_TABLES_H
#define REVISED_TABLES_H

#include "random_table.h"

enum { REVISED_FRONT = 7 /* rows before the equations */, REVISED_MOST = 8 /* equations of a case */ };

/* Rows: the word, its high, low and middle byte, bytes of zeros and of ones, and a marker. */
enum { WHOLE, HIGH, LOW, MIDDLE, ZEROS_8, ONES_8, MARK };

typedef struct {
    uint16_t a, b, line;
    bool counts;
} revised_equation;

#define COUNTS(a, b, line) {(a), (b), (line), true}
#define GONE(a, b, line)   {(a), (b), (line), false}

typedef struct {
    const char *name;
    lw_record want; /* outcome, pieces, fresh, free, ties, row; the first equation's row is 7 */
    revised_equation equations[REVISED_MOST]; /* up to the first of row 0 with itself that does not count */
} revised_case;

static const revised_case revised_cases[] = {
    /* The second takes the first's place; with another number it does not, and with none neither does. */
    {"revised", {2, 2, 1, 8, 8, 0}, {GONE(HIGH, ZEROS_8, 7), COUNTS(HIGH, ONES_8, 7)}},
    {"two lines", {1, 0, 0, 0, 8, 8}, {COUNTS(HIGH, ZEROS_8, 7), COUNTS(HIGH, ONES_8, 8)}},
    {"no line", {1, 0, 0, 0, 8, 8}, {COUNTS(HIGH, ZEROS_8, 7), COUNTS(HIGH, ONES_8, 0)}},
    {"no line before", {1, 0, 0, 0, 8, 8}, {COUNTS(HIGH, ZEROS_8, 0), COUNTS(HIGH, ONES_8, 7)}},
    {"0 is no line", {1, 0, 0, 0, 8, 8}, {COUNTS(HIGH, ZEROS_8, 0), COUNTS(HIGH, ONES_8, 0)}},
    {"three of no line", {2, 2, 0, 0, 16, 0},
     {COUNTS(HIGH, ZEROS_8, 0), COUNTS(LOW, ONES_8, 0), COUNTS(WHOLE, WHOLE, 0)}},

    /* Numbers that are alike in part, and the greatest. */
    {"7 and 263", {1, 0, 0, 0, 8, 8}, {COUNTS(HIGH, ZEROS_8, 7), COUNTS(HIGH, ONES_8, 263)}},
    {"7 and 32775", {1, 0, 0, 0, 8, 8}, {COUNTS(HIGH, ZEROS_8, 7), COUNTS(HIGH, ONES_8, 32775)}},
    {"256 is a line", {2, 2, 1, 8, 8, 0}, {GONE(HIGH, ZEROS_8, 256), COUNTS(HIGH, ONES_8, 256)}},
    {"1", {2, 2, 1, 8, 8, 0}, {GONE(HIGH, ZEROS_8, 1), COUNTS(HIGH, ONES_8, 1)}},
    {"65535", {2, 2, 1, 8, 8, 0}, {GONE(HIGH, ZEROS_8, 65535), COUNTS(HIGH, ONES_8, 65535)}},
    {"65534 and 65535", {1, 0, 0, 0, 8, 8}, {COUNTS(HIGH, ZEROS_8, 65534), COUNTS(HIGH, ONES_8, 65535)}},
    {"32768", {2, 2, 1, 8, 8, 0}, {GONE(HIGH, ZEROS_8, 32768), COUNTS(HIGH, ONES_8, 32768)}},

    /* Cuts with low bounds 8 and 7 stand behind the equations, and one with 8 before them: that is nothing. */
    {"a cut's low bound", {2, 2, 1, 8, 8, 0}, {COUNTS(HIGH, ZEROS_8, 8)}},
    {"low bounds of two cuts", {2, 2, 0, 0, 16, 0}, {COUNTS(HIGH, ZEROS_8, 8), COUNTS(LOW, ONES_8, 7)}},

    /* Revised alone. */
    {"alone never", {2, 2, 1, 8, 8, 0}, {GONE(ZEROS_8, ONES_8, 3), COUNTS(HIGH, LOW, 3)}},
    {"alone never, then always", {0, 0, 0, 16, 0, 0}, {GONE(ZEROS_8, ONES_8, 3), COUNTS(WHOLE, WHOLE, 3)}},
    {"alone with ties", {0, 0, 0, 16, 0, 0}, {GONE(HIGH, ZEROS_8, 3), COUNTS(MARK, MARK, 3)}},
    {"the last alone never", {1, 0, 0, 0, 0, 8}, {GONE(HIGH, ZEROS_8, 3), COUNTS(ZEROS_8, ONES_8, 3)}},
    {"twice", {2, 2, 1, 8, 8, 0}, {GONE(HIGH, ZEROS_8, 9), GONE(HIGH, ONES_8, 9), COUNTS(HIGH, LOW, 9)}},
    {"seven times", {2, 1, 0, 0, 16, 0},
     {GONE(HIGH, ZEROS_8, 9), GONE(HIGH, ONES_8, 9), GONE(HIGH, LOW, 9), GONE(ZEROS_8, ONES_8, 9), GONE(LOW, MARK, 9),
      GONE(WHOLE, WHOLE, 9), GONE(HIGH, ZEROS_8, 9), COUNTS(WHOLE, ZEROS_8, 9)}},
    {"back to the first", {2, 2, 1, 8, 8, 0},
     {GONE(HIGH, ZEROS_8, 9), GONE(HIGH, ONES_8, 9), COUNTS(HIGH, ZEROS_8, 9)}},
    {"by itself", {2, 2, 1, 8, 8, 0}, {GONE(HIGH, LOW, 9), COUNTS(HIGH, LOW, 9)}},
    {"by itself, sides exchanged", {2, 2, 1, 8, 8, 0}, {GONE(HIGH, LOW, 9), COUNTS(LOW, HIGH, 9)}},
    {"by a weaker", {2, 2, 1, 8, 8, 0}, {GONE(WHOLE, ZEROS_8, 2), COUNTS(HIGH, ZEROS_8, 2)}},
    {"by a stronger", {2, 1, 0, 0, 16, 0}, {GONE(HIGH, ZEROS_8, 2), COUNTS(WHOLE, ZEROS_8, 2)}},
    {"by an unrelated", {2, 8, 1, 8, 8, 0}, {GONE(HIGH, ZEROS_8, 2), COUNTS(LOW, MARK, 2)}},

    /* Several lines. */
    {"crosswise", {2, 2, 0, 0, 16, 0},
     {GONE(HIGH, ZEROS_8, 1), GONE(LOW, ONES_8, 2), COUNTS(HIGH, ONES_8, 1), COUNTS(LOW, ZEROS_8, 2)}},
    {"one within the other", {2, 2, 0, 0, 16, 0},
     {GONE(HIGH, ZEROS_8, 1), GONE(LOW, ONES_8, 2), COUNTS(LOW, ZEROS_8, 2), COUNTS(HIGH, ONES_8, 1)}},
    {"one behind the other", {2, 2, 0, 0, 16, 0},
     {GONE(HIGH, ZEROS_8, 1), COUNTS(HIGH, ONES_8, 1), GONE(LOW, ONES_8, 2), COUNTS(LOW, ZEROS_8, 2)}},
    {"with others that have none", {2, 2, 0, 0, 16, 0},
     {COUNTS(HIGH, ONES_8, 0), GONE(LOW, ONES_8, 2), COUNTS(HIGH, ONES_8, 0), COUNTS(LOW, ZEROS_8, 2),
      COUNTS(HIGH, ONES_8, 0)}},

    /* The row of a never and the ties before it: revised equations before, between and behind. */
    {"never, revised before", {1, 0, 0, 0, 8, 9},
     {GONE(HIGH, ZEROS_8, 4), COUNTS(HIGH, ONES_8, 4), COUNTS(HIGH, ZEROS_8, 0)}},
    {"never, revised between", {1, 0, 0, 0, 8, 9},
     {COUNTS(HIGH, ONES_8, 0), GONE(LOW, ZEROS_8, 6), COUNTS(HIGH, ZEROS_8, 6)}},
    {"never, revised behind", {1, 0, 0, 0, 8, 8},
     {COUNTS(HIGH, ONES_8, 0), COUNTS(HIGH, ZEROS_8, 0), GONE(LOW, ZEROS_8, 6), COUNTS(LOW, ONES_8, 6)}},
    {"never, revised before, between and behind", {1, 0, 0, 0, 16, 12},
     {GONE(ZEROS_8, ONES_8, 5), COUNTS(HIGH, ONES_8, 0), GONE(HIGH, ZEROS_8, 5), COUNTS(LOW, ONES_8, 6),
      GONE(LOW, ZEROS_8, 5), COUNTS(MIDDLE, ZEROS_8, 0), GONE(LOW, MARK, 5), COUNTS(HIGH, MARK, 5)}},
    {"the last at its own row", {1, 0, 0, 0, 8, 9},
     {GONE(HIGH, ZEROS_8, 7), COUNTS(HIGH, ONES_8, 0), COUNTS(HIGH, ZEROS_8, 7)}},
    {"never no more", {2, 2, 1, 8, 8, 0},
     {GONE(HIGH, ZEROS_8, 7), COUNTS(HIGH, ONES_8, 0), COUNTS(WHOLE, WHOLE, 7)}},
    {"revised behind the row of another never", {1, 0, 0, 0, 16, 10},
     {COUNTS(HIGH, ONES_8, 0), GONE(HIGH, ZEROS_8, 5), COUNTS(LOW, ZEROS_8, 0), COUNTS(LOW, ONES_8, 0),
      COUNTS(WHOLE, WHOLE, 5)}},
    {"never by the equation that revises", {1, 0, 0, 0, 8, 9},
     {COUNTS(HIGH, LOW, 0), GONE(HIGH, ONES_8, 5), COUNTS(ZEROS_8, ONES_8, 5)}},
    {"ties of those that count alone", {2, 4, 1, 4, 12, 0},
     {COUNTS(HIGH, LOW, 0), GONE(MIDDLE, MARK, 1), GONE(WHOLE, ZEROS_8, 1), COUNTS(HIGH, MIDDLE, 1)}},
};

enum { REVISED_CASES = sizeof revised_cases / sizeof revised_cases[0] };

static inline void add_front(table *t)
{
    add(t, VARIABLE(16));
    add(t, CUT(WHOLE, 15, 8));
    add(t, CUT(WHOLE, 7, 0));
    add(t, CUT(WHOLE, 11, 4));
    add(t, FILL(0, 8));
    add(t, FILL(1, 8));
    add(t, MARKER(0x5a, 8));
}

/* The table of a case, and the same rows with the equations that count alone, and without line numbers. */
static inline void make_revised(const revised_case *c, table *revised, table *counting)
{
    revised->len = counting->len = 0;
    add_front(revised);
    add_front(counting);
    for (size_t i = 0; i < REVISED_MOST; i++) {
        const revised_equation *e = &c->equations[i];
        if (!e->counts && e->a == 0 && e->b == 0 && e->line == 0)
            break;
        add(revised, LINE(e->a, e->b, e->line));
        if (e->counts)
            add(counting, EQUATION(e->a, e->b));
        else
            add(counting, EQUATION(0, 0));
    }
    for (table *t = revised; t != NULL; t = t == revised ? counting : NULL) {
        add(t, CUT(WHOLE, 15, 8));
        add(t, CUT(WHOLE, 15, 7));
    }
}

/*
  So many equations of one line: the first is never, the next fix the high byte
  to ones, and the last one fixes it to zeros.
*/
static inline void make_one_line(table *t, size_t equations, size_t line)
{
    t->len = 0;
    add_front(t);
    for (size_t e = 0; e < equations; e++)
        if (e + 1 == equations)
            add(t, LINE(HIGH, ZEROS_8, line));
        else
            add(t, LINE(e == 0 ? ZEROS_8 : HIGH, ONES_8, line));
}

#endif /* REVISED_TABLES_H */
