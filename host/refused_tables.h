/*
  refused_tables.h -- tables that every call on a table refuses, 11 to 17 and 40

  Each function hands its tables one by one to a function of the test, with the
  number and the row that the call has to tell.
*/

#ifndef REFUSED_TABLES_H
#define REFUSED_TABLES_H

#include "random_table.h"

typedef void refuse_table_function(where at, const uint16_t *numbers, size_t len, uint32_t number, uint32_t row);

#define REFUSE_ONE(refuse, ...) (refuse)(HERE, __VA_ARGS__)

/* Every cause of the refusals 11 to 16 and 40 by itself. (17 is among the limits.) */
static inline void refuse_one_by_one(refuse_table_function refuse)
{
    /* 11: lengths that are no whole rows. */
    static const uint16_t good[] = {VARIABLE(1), FILL(0, 1)};
    for (size_t len = 1; len < 8; len++)
        if (len % 4 != 0)
            REFUSE_ONE(refuse, good, len, 11, 512);

    /* 12 */
    REFUSE_ONE(refuse, TABLE(6, 0, 0, 0), 12, 0);
    REFUSE_ONE(refuse, TABLE(6, 1, 1, 0), 12, 0);
    REFUSE_ONE(refuse, TABLE(VARIABLE(1), 6, 1, 0, 0), 12, 1);
    REFUSE_ONE(refuse, TABLE(VARIABLE(1), 7, 1, 1, 0), 12, 1);
    REFUSE_ONE(refuse, TABLE(VARIABLE(1), 256, 1, 0, 0), 12, 1);
    REFUSE_ONE(refuse, TABLE(VARIABLE(1), 65535, 0, 0, 0), 12, 1);

    /* 13: each column that is not used. Column c of an equation is its line number. */
    REFUSE_ONE(refuse, TABLE(LW_VARIABLE, 1, 1, 0), 13, 0);
    REFUSE_ONE(refuse, TABLE(LW_VARIABLE, 1, 0, 1), 13, 0);
    REFUSE_ONE(refuse, TABLE(LW_VARIABLE, 1, 0, 65535), 13, 0);
    REFUSE_ONE(refuse, TABLE(LW_FILL, 1, 1, 1), 13, 0);
    REFUSE_ONE(refuse, TABLE(VARIABLE(1), VARIABLE(1), LW_JOIN, 0, 1, 1), 13, 2);
    REFUSE_ONE(refuse, TABLE(LW_VALUE, 4, 3, 1), 13, 0);
    REFUSE_ONE(refuse, TABLE(LW_VALUE, 0, 16, 65535), 13, 0);

    /* 14: row 3 names itself, a later row, rows past the table or an equation, in each column that names a row. */
    static const uint16_t kinds[] = {LW_JOIN, LW_CUT, LW_EQUATION};
    static const uint16_t wrong[] = {3, 4, 5, 512, 65535, 2};
    for (size_t k = 0; k < 3; k++)
        for (size_t n = 0; n < 6; n++) {
            table t = {.len = 0};
            add(&t, VARIABLE(4));
            add(&t, VARIABLE(4));
            add(&t, EQUATION(0, 1));
            add(&t, kinds[k], wrong[n], 0, 0);
            add(&t, VARIABLE(4));
            REFUSE_ONE(refuse, ALL(t), 14, 3);
            if (kinds[k] != LW_CUT) {
                t.numbers[4 * 3 + 1] = 0;
                t.numbers[4 * 3 + 2] = wrong[n];
                REFUSE_ONE(refuse, ALL(t), 14, 3);
            }
        }
    REFUSE_ONE(refuse, TABLE(JOIN(0, 0)), 14, 0);
    REFUSE_ONE(refuse, TABLE(CUT(0, 0, 0)), 14, 0);
    REFUSE_ONE(refuse, TABLE(EQUATION(0, 0)), 14, 0);
    REFUSE_ONE(refuse, TABLE(LINE(0, 0, 1)), 14, 0);
    REFUSE_ONE(refuse, TABLE(VARIABLE(1), LINE(0, 1, 65535)), 14, 1);

    /* An equation that does not count is tested like the others, and so is a row that names one. */
    REFUSE_ONE(refuse, TABLE(VARIABLE(1), LINE(1, 0, 7), LINE(0, 0, 7)), 14, 1);
    REFUSE_ONE(refuse, TABLE(VARIABLE(1), LINE(0, 600, 7), LINE(0, 0, 7), LINE(0, 0, 7)), 14, 1);
    REFUSE_ONE(refuse, TABLE(VARIABLE(1), LINE(0, 0, 7), LINE(0, 1, 7), LINE(0, 0, 7)), 14, 2);
    REFUSE_ONE(refuse, TABLE(VARIABLE(1), LINE(0, 0, 7), LINE(0, 0, 7), JOIN(0, 1)), 14, 3);

    /* 15 */
    REFUSE_ONE(refuse, TABLE(VARIABLE(0)), 15, 0);
    REFUSE_ONE(refuse, TABLE(VARIABLE(1025)), 15, 0);
    REFUSE_ONE(refuse, TABLE(VARIABLE(65535)), 15, 0);
    REFUSE_ONE(refuse, TABLE(FILL(0, 0)), 15, 0);
    REFUSE_ONE(refuse, TABLE(FILL(1, 1025)), 15, 0);
    REFUSE_ONE(refuse, TABLE(FILL(1, 65535)), 15, 0);
    REFUSE_ONE(refuse, TABLE(FILL(2, 1)), 15, 0);
    REFUSE_ONE(refuse, TABLE(FILL(65535, 1)), 15, 0);
    REFUSE_ONE(refuse, TABLE(VARIABLE(1024), FILL(0, 1), JOIN(0, 1)), 15, 2);
    REFUSE_ONE(refuse, TABLE(VARIABLE(1024), FILL(0, 1), JOIN(1, 0)), 15, 2);
    REFUSE_ONE(refuse, TABLE(VARIABLE(1024), JOIN(0, 0)), 15, 1);
    REFUSE_ONE(refuse, TABLE(VARIABLE(512), VARIABLE(513), JOIN(0, 1)), 15, 2);
    REFUSE_ONE(refuse, TABLE(MARKER(0, 0)), 15, 0);
    REFUSE_ONE(refuse, TABLE(MARKER(0, 1025)), 15, 0);
    REFUSE_ONE(refuse, TABLE(MARKER(0, 65535)), 15, 0);
    REFUSE_ONE(refuse, TABLE(VARIABLE(1020), MARKER(9, 5), JOIN(0, 1)), 15, 2);

    /* 40: each width above 16; and in each width below 16 the least value that does not fit, and the greatest. */
    for (size_t width = 1; width < 16; width++) {
        table t = {.len = 0};
        add(&t, MARKER(1, 1));
        add(&t, MARKER((size_t)1 << width, width));
        REFUSE_ONE(refuse, ALL(t), 40, 1);
        t.numbers[4 + 1] = 65535;
        REFUSE_ONE(refuse, ALL(t), 40, 1);
    }
    static const uint16_t wide[] = {17, 18, 31, 32, 33, 63, 64, 65, 128, 255, 256, 272, 512, 1023, 1024};
    for (size_t i = 0; i < COUNT(wide); i++) {
        REFUSE_ONE(refuse, TABLE(MARKER(0, wide[i])), 40, 0);
        REFUSE_ONE(refuse, TABLE(MARKER(65535, wide[i])), 40, 0);
    }

    /* 16: also of a cut and of a join, whose widths are their own. */
    REFUSE_ONE(refuse, TABLE(VARIABLE(8), CUT(0, 8, 0)), 16, 1);
    REFUSE_ONE(refuse, TABLE(VARIABLE(8), CUT(0, 8, 8)), 16, 1);
    REFUSE_ONE(refuse, TABLE(VARIABLE(8), CUT(0, 65535, 0)), 16, 1);
    REFUSE_ONE(refuse, TABLE(VARIABLE(8), CUT(0, 3, 4)), 16, 1);
    REFUSE_ONE(refuse, TABLE(VARIABLE(8), CUT(0, 0, 65535)), 16, 1);
    REFUSE_ONE(refuse, TABLE(VARIABLE(8), CUT(0, 6, 3), CUT(1, 4, 0)), 16, 2);
    REFUSE_ONE(refuse, TABLE(VARIABLE(3), VARIABLE(2), JOIN(0, 1), CUT(2, 5, 0)), 16, 3);
    REFUSE_ONE(refuse, TABLE(VARIABLE(5), FILL(0, 3), CUT(1, 3, 0)), 16, 2);
    REFUSE_ONE(refuse, TABLE(MARKER(5, 3), CUT(0, 3, 0)), 16, 1);
    REFUSE_ONE(refuse, TABLE(MARKER(5, 3), CUT(0, 1, 2)), 16, 1);
    REFUSE_ONE(refuse, TABLE(MARKER(65535, 16), CUT(0, 16, 16)), 16, 1);
}

/* Two faults: which of them is told. */
static inline void refuse_two_at_once(refuse_table_function refuse)
{
    table t;

    /* 11 before anything in the rows. */
    REFUSE_ONE(refuse, TABLE(9, 9, 9, 9, 9, 9), 11, 512);
    REFUSE_ONE(refuse, TABLE(9), 11, 512);
    t.len = 0;
    while (t.len < 2052)
        add(&t, 9, 9, 9, 9);
    REFUSE_ONE(refuse, ALL(t), 11, 512);

    /* Within a row, in the order of the numbers. */
    REFUSE_ONE(refuse, TABLE(6, 65535, 65535, 65535), 12, 0);
    REFUSE_ONE(refuse, TABLE(6, 4, 2, 0), 12, 0);
    REFUSE_ONE(refuse, TABLE(LW_VARIABLE, 0, 1, 0), 13, 0);
    REFUSE_ONE(refuse, TABLE(LW_VARIABLE, 1025, 0, 1), 13, 0);
    REFUSE_ONE(refuse, TABLE(LW_FILL, 2, 0, 1), 13, 0);
    REFUSE_ONE(refuse, TABLE(LW_JOIN, 0, 0, 1), 13, 0);
    REFUSE_ONE(refuse, TABLE(VARIABLE(1024), LW_JOIN, 0, 0, 1), 13, 1);
    REFUSE_ONE(refuse, TABLE(VARIABLE(1024), JOIN(0, 2), VARIABLE(1024)), 14, 1);
    REFUSE_ONE(refuse, TABLE(VARIABLE(1), CUT(2, 0, 1), VARIABLE(1)), 14, 1);
    REFUSE_ONE(refuse, TABLE(VARIABLE(1), CUT(1, 9, 9)), 14, 1);
    REFUSE_ONE(refuse, TABLE(VARIABLE(1), EQUATION(0, 2), VARIABLE(2)), 14, 1);
    REFUSE_ONE(refuse, TABLE(VARIABLE(1), EQUATION(0, 0), EQUATION(0, 1)), 14, 2);

    /* A marker: 13 before 15 before 40. */
    REFUSE_ONE(refuse, TABLE(LW_VALUE, 0, 0, 1), 13, 0);
    REFUSE_ONE(refuse, TABLE(LW_VALUE, 4, 2, 1), 13, 0);
    REFUSE_ONE(refuse, TABLE(LW_VALUE, 0, 17, 1), 13, 0);
    REFUSE_ONE(refuse, TABLE(LW_VALUE, 65535, 65535, 65535), 13, 0);
    REFUSE_ONE(refuse, TABLE(MARKER(1, 0)), 15, 0);
    REFUSE_ONE(refuse, TABLE(MARKER(65535, 0)), 15, 0);
    REFUSE_ONE(refuse, TABLE(MARKER(1, 1025)), 15, 0);
    REFUSE_ONE(refuse, TABLE(MARKER(65535, 65535)), 15, 0);

    /* A 65th variable, and variable bits beyond 4096: 13 and 15 come before 17. */
    static const uint16_t variables[][4] = {
        {LW_VARIABLE, 1, 1, 0}, {LW_VARIABLE, 1, 0, 1}, {VARIABLE(0)}, {VARIABLE(1025)},
    };
    static const uint32_t told[] = {13, 13, 15, 15};
    for (size_t i = 0; i < 4; i++) {
        t.len = 0;
        while (t.len < 4 * 64)
            add(&t, VARIABLE(64));
        add(&t, variables[i][0], variables[i][1], variables[i][2], variables[i][3]);
        REFUSE_ONE(refuse, ALL(t), told[i], 64);
    }

    /* A 65th equation: 14 comes before 17. Sides of unequal width are no fault, nor are line numbers. */
    static const uint16_t equations[][4] = {
        {LINE(66, 0, 1)}, {EQUATION(66, 0)}, {EQUATION(0, 65)}, {EQUATION(0, 1)}, {LINE(0, 0, 1)},
    };
    static const uint32_t told_of_equation[] = {14, 14, 14, 17, 17};
    for (size_t i = 0; i < COUNT(equations); i++) {
        t.len = 0;
        add(&t, VARIABLE(1));
        add(&t, VARIABLE(2));
        while (t.len < 4 * 66)
            add(&t, EQUATION(1, 1));
        add(&t, equations[i][0], equations[i][1], equations[i][2], equations[i][3]);
        REFUSE_ONE(refuse, ALL(t), told_of_equation[i], 66);
    }

    /* In two rows, the lower row, whatever the two numbers are. Rows 0 to 63 are variables, row 64 has width 2. */
    static const struct { uint16_t row[4]; uint32_t number; } faults[] = {
        {{6, 0, 0, 0}, 12},   {{LW_FILL, 0, 1, 7}, 13}, {{CUT(600, 0, 0)}, 14}, {{FILL(2, 1)}, 15},
        {{MARKER(4, 2)}, 40}, {{CUT(0, 1, 0)}, 16},     {{VARIABLE(1)}, 17},
    };
    for (size_t i = 0; i < COUNT(faults); i++)
        for (size_t j = 0; j < COUNT(faults); j++) {
            t.len = 0;
            while (t.len < 4 * 64)
                add(&t, VARIABLE(1));
            add(&t, JOIN(0, 1));
            add(&t, faults[i].row[0], faults[i].row[1], faults[i].row[2], faults[i].row[3]);
            add(&t, FILL(0, 1));
            add(&t, faults[j].row[0], faults[j].row[1], faults[j].row[2], faults[j].row[3]);
            REFUSE_ONE(refuse, ALL(t), faults[i].number, 65);
        }

    /* Sides of unequal width hide no fault of a later row, whichever of them is the wider. */
    for (size_t i = 0; i < COUNT(faults); i++)
        for (size_t left = 0; left < 2; left++) {
            t.len = 0;
            while (t.len < 4 * 64)
                add(&t, VARIABLE(1));
            add(&t, JOIN(0, 1));
            add(&t, EQUATION(left == 0 ? 64 : 3, left == 0 ? 3 : 64));
            add(&t, faults[i].row[0], faults[i].row[1], faults[i].row[2], faults[i].row[3]);
            REFUSE_ONE(refuse, ALL(t), faults[i].number, 66);
        }
}

/* 17: one variable, one equation or one bit too many. Markers are none of these. */
static inline void refuse_beyond_maximum(refuse_table_function refuse)
{
    table t;

    t.len = 0;
    while (t.len < 4 * 65)
        add(&t, VARIABLE(1));
    REFUSE_ONE(refuse, ALL(t), 17, 64);
    t.len = 4;
    while (t.len < 4 * 66)
        add(&t, EQUATION(0, 0));
    REFUSE_ONE(refuse, ALL(t), 17, 65);

    /* All equations count towards 64, also those that do not count: 65 of one line, of two lines, and so on. */
    for (size_t lines = 1; lines <= 65; lines++) {
        t.len = 0;
        add(&t, VARIABLE(1));
        for (size_t e = 0; e < 65; e++)
            add(&t, LINE(0, 0, 1 + e % lines));
        REFUSE_ONE(refuse, ALL(t), 17, 65);
    }
    REFUSE_ONE(refuse, TABLE(VARIABLE(1024), VARIABLE(1024), VARIABLE(1024), VARIABLE(1024), VARIABLE(1)), 17, 4);
    REFUSE_ONE(refuse, TABLE(VARIABLE(1024), VARIABLE(1024), VARIABLE(1024), MARKER(9, 16), VARIABLE(1024),
                             MARKER(9, 16), VARIABLE(1)), 17, 6);
}

/* 11 for more than 512 rows, whatever follows the last whole one. */
static inline void refuse_too_long(refuse_table_function refuse)
{
    table t;

    t.len = 0;
    while (t.len < 2052)
        add(&t, FILL(1, 2));
    for (t.len = 2049; t.len <= 2052; t.len++)
        REFUSE_ONE(refuse, ALL(t), 11, 512);
}

#endif
