/*
  answer_rows.h -- rows of an answer table, which is written down as a table is:
  see TABLE in random_table.h

  Most tests write down the first four numbers of a row, variable, kind, width
  and fresh; home and high follow from these, and are put behind them by
  add_homes. Where they are what is tested, a row is written down by its six.
*/

#ifndef ANSWER_ROWS_H
#define ANSWER_ROWS_H

#include <stdlib.h>
#include <string.h>

#include "random_table.h"

#define FRESH(variable, width, number)  (variable), LW_FRESH, (width), (number)
#define ZEROS(variable, width)          (variable), 0, (width), 0
#define ONES(variable, width)           (variable), 1, (width), 0
#define ANSWER                          TABLE

/* Rows of six numbers. A fill names its own place, its bits from high down; a fresh piece that of its first row. */
#define FRESH_AT(variable, width, number, home, high)  FRESH(variable, width, number), (home), (high)
#define ZEROS_AT(variable, width, high)                ZEROS(variable, width), (variable), (high)
#define ONES_AT(variable, width, high)                 ONES(variable, width), (variable), (high)

/*
  Puts home and high into rows of six numbers, from the last row back: the place
  of each row itself, and then of a fresh piece what its first row has. Gives
  whether each high is a 16-bit number.
*/
static inline bool set_homes(uint16_t *six, size_t rows)
{
    static size_t first[65536]; /* of each fresh number: the first row of kind 2 with it, so far */
    size_t bits = 0;
    bool fits = true;

    for (size_t r = rows; r-- != 0;) {
        uint16_t *n = six + 6 * r;
        bits = (r + 1 < rows && n[6] == n[0] ? bits : 0) + n[2];
        n[4] = n[0];
        n[5] = (uint16_t)(bits == 0 ? 0 : bits - 1);
        fits = fits && bits <= 65536;
        if (n[1] == LW_FRESH)
            first[n[3]] = r;
    }
    for (size_t r = 0; r < rows; r++)
        if (six[6 * r + 1] == LW_FRESH)
            memcpy(six + 6 * r + 4, six + 6 * first[six[6 * r + 3]] + 4, 2 * sizeof *six);
    return fits;
}

/* Writes rows of four numbers as rows of six, which may not overlap; whether each high is a 16-bit number. */
static inline bool add_homes(const uint16_t *four, size_t rows, uint16_t *six)
{
    for (size_t r = 0; r < rows; r++)
        memcpy(six + 6 * r, four + 4 * r, 4 * sizeof *four);
    return set_homes(six, rows);
}

#endif /* ANSWER_ROWS_H */
