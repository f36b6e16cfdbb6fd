/*
  plain_pattern.c -- a second pattern maker: see plain_pattern.h

  Sums are of size_t, which no table in memory can exceed.
*/

#include "plain_pattern.h"

#include <stdbool.h>
#include <string.h>

#include "plain_solver.h"

enum { FRESH = 2, NUMBERS = 65536 };

typedef struct {
    size_t variable, kind, width, fresh, home, high;
} row_numbers;

static row_numbers row_of(const uint16_t *answer, size_t r)
{
    const uint16_t *n = answer + 6 * r;
    return (row_numbers){n[0], n[1], n[2], n[3], n[4], n[5]};
}

/* Variables start at 0 and stay or rise by one, up to 63. */

static bool starts_at_0(const uint16_t *answer, size_t rows)
{
    return rows == 0 || row_of(answer, 0).variable == 0;
}

static bool stays_or_rises(const uint16_t *answer, size_t rows)
{
    for (size_t r = 1; r < rows; r++) {
        size_t before = row_of(answer, r - 1).variable, own = row_of(answer, r).variable;
        if (own != before && own != before + 1)
            return false;
    }
    return true;
}

static bool up_to_63(const uint16_t *answer, size_t rows)
{
    for (size_t r = 0; r < rows; r++)
        if (row_of(answer, r).variable > 63)
            return false;
    return true;
}

/* Kinds are 0 to 2. */
static bool kind_up_to_2(const uint16_t *answer, size_t rows)
{
    for (size_t r = 0; r < rows; r++)
        if (row_of(answer, r).kind > 2)
            return false;
    return true;
}

/* Widths are at least 1 and add up to at most 1,024 in a variable. */

static bool width_from_1(const uint16_t *answer, size_t rows)
{
    for (size_t r = 0; r < rows; r++)
        if (row_of(answer, r).width < 1)
            return false;
    return true;
}

static bool variable_up_to_1024(const uint16_t *answer, size_t rows)
{
    size_t sum = 0; /* of the variable's rows so far, which stand together */
    for (size_t r = 0; r < rows; r++) {
        if (r != 0 && row_of(answer, r - 1).variable != row_of(answer, r).variable)
            sum = 0;
        sum += row_of(answer, r).width;
        if (sum > 1024)
            return false;
    }
    return true;
}

/* Fills have fresh number 0, and neighbouring fills of one variable differ in bit. */

static bool is_fill(row_numbers row)
{
    return row.kind == 0 || row.kind == 1;
}

static bool fill_without_fresh(const uint16_t *answer, size_t rows)
{
    for (size_t r = 0; r < rows; r++)
        if (is_fill(row_of(answer, r)) && row_of(answer, r).fresh != 0)
            return false;
    return true;
}

static bool fills_differ(const uint16_t *answer, size_t rows)
{
    for (size_t r = 1; r < rows; r++) {
        row_numbers left = row_of(answer, r - 1), right = row_of(answer, r);
        if (is_fill(left) && is_fill(right) && left.variable == right.variable && left.kind == right.kind)
            return false;
    }
    return true;
}

/* A fresh number is one already seen, with the same width, or the lowest unseen. */

static bool seen[NUMBERS]; /* which numbers are, in the rows so far */

static void see_none(const uint16_t *answer, size_t rows)
{
    for (size_t r = 0; r < rows; r++)
        seen[row_of(answer, r).fresh] = false;
}

static bool seen_with_width(const uint16_t *answer, size_t rows)
{
    static size_t width[NUMBERS]; /* at the first appearance of each number */
    see_none(answer, rows);
    for (size_t r = 0; r < rows; r++) {
        row_numbers row = row_of(answer, r);
        if (row.kind != FRESH)
            continue;
        if (!seen[row.fresh])
            width[row.fresh] = row.width;
        else if (width[row.fresh] != row.width)
            return false;
        seen[row.fresh] = true;
    }
    return true;
}

static bool lowest_unseen(const uint16_t *answer, size_t rows)
{
    size_t lowest = 0;
    see_none(answer, rows);
    for (size_t r = 0; r < rows; r++) {
        row_numbers row = row_of(answer, r);
        if (row.kind != FRESH || seen[row.fresh])
            continue;
        if (row.fresh != lowest)
            return false;
        seen[row.fresh] = true;
        lowest++; /* all below it are seen */
    }
    return true;
}

/*
  Home and high are the variable and the high bit where the row's piece first
  appears, a fill naming its own place. A variable's rows stand together, and a
  row's bits in it are numbered from those behind them on.
*/

/* The first row of kind 2 with the fresh number of a row of kind 2. */
static size_t first_row[NUMBERS];

static void find_first_rows(const uint16_t *answer, size_t rows)
{
    for (size_t r = rows; r-- != 0;) /* so that the first is what stays */
        if (row_of(answer, r).kind == FRESH)
            first_row[row_of(answer, r).fresh] = r;
}

static size_t home_row(const uint16_t *answer, size_t r)
{
    return row_of(answer, r).kind == FRESH ? first_row[row_of(answer, r).fresh] : r;
}

static bool right_home(const uint16_t *answer, size_t rows)
{
    find_first_rows(answer, rows);
    for (size_t r = 0; r < rows; r++)
        if (row_of(answer, r).home != row_of(answer, home_row(answer, r)).variable)
            return false;
    return true;
}

/* The bits of the rows from this one on, up to the variable's last. */
static size_t bits_from(const uint16_t *answer, size_t rows, size_t r)
{
    size_t bits = 0, variable = row_of(answer, r).variable;
    for (; r < rows && row_of(answer, r).variable == variable; r++)
        bits += row_of(answer, r).width;
    return bits;
}

/* A piece that is not at home names what its home row names, and that row is tested too. */
static bool right_high(const uint16_t *answer, size_t rows)
{
    size_t bits = 0; /* from the row on, in its variable */
    find_first_rows(answer, rows);
    for (size_t r = 0; r < rows; r++) {
        row_numbers row = row_of(answer, r), home = row_of(answer, home_row(answer, r));
        if (r == 0 || row_of(answer, r - 1).variable != row.variable)
            bits = bits_from(answer, rows, r);
        if (row.high != (home_row(answer, r) != r ? home.high : bits == 0 ? 0 : bits - 1))
            return false;
        bits -= row.width;
    }
    return true;
}

/* The widths, of all rows and of each fresh piece once. */

size_t plain_pattern_bits(const uint16_t *answer, size_t answer_len)
{
    size_t bits = 0;
    for (size_t r = 0; r < answer_len / 6; r++)
        bits += row_of(answer, r).width;
    return bits;
}

/*
  Where the bits of each fresh piece start among the fresh bits of a table of
  the form: behind those of the pieces that appear before it. Gives the number
  of fresh bits.
*/
static size_t fresh_starts(const uint16_t *answer, size_t rows, size_t start[NUMBERS])
{
    size_t bits = 0;
    see_none(answer, rows);
    for (size_t r = 0; r < rows; r++) {
        row_numbers row = row_of(answer, r);
        if (row.kind != FRESH || seen[row.fresh])
            continue;
        seen[row.fresh] = true;
        start[row.fresh] = bits;
        bits += row.width;
    }
    return bits;
}

static size_t starts[NUMBERS];

size_t plain_fresh_bits(const uint16_t *answer, size_t answer_len)
{
    return fresh_starts(answer, answer_len / 6, starts);
}

unsigned plain_faults(const uint16_t *answer, size_t answer_len)
{
    size_t rows = answer_len / 6;
    const bool holds[CLAUSES] = {
        [WHOLE_ROWS] = answer_len % 6 == 0,
        [STARTS_AT_0] = starts_at_0(answer, rows),
        [STAYS_OR_RISES] = stays_or_rises(answer, rows),
        [UP_TO_63] = up_to_63(answer, rows),
        [KIND_UP_TO_2] = kind_up_to_2(answer, rows),
        [WIDTH_FROM_1] = width_from_1(answer, rows),
        [VARIABLE_UP_TO_1024] = variable_up_to_1024(answer, rows),
        [FILL_WITHOUT_FRESH] = fill_without_fresh(answer, rows),
        [FILLS_DIFFER] = fills_differ(answer, rows),
        [SEEN_WITH_WIDTH] = seen_with_width(answer, rows),
        [LOWEST_UNSEEN] = lowest_unseen(answer, rows),
        [ALL_UP_TO_4096] = plain_pattern_bits(answer, answer_len) <= 4096,
        [RIGHT_HOME] = right_home(answer, rows),
        [RIGHT_HIGH] = right_high(answer, rows),
    };
    unsigned faults = 0;
    for (unsigned i = 0; i < CLAUSES; i++)
        if (!holds[i])
            faults |= 1U << i;
    return faults;
}

lw_record plain_fill(const uint16_t *answer, size_t answer_len, const uint8_t *fresh, size_t fresh_len,
                     uint8_t *pattern, size_t pattern_len)
{
    if (plain_faults(answer, answer_len) != 0)
        return (lw_record){.outcome = 33};
    if (fresh_len != plain_fresh_bits(answer, answer_len))
        return (lw_record){.outcome = 34};
    for (size_t i = 0; i < fresh_len; i++)
        if (fresh[i] > 1)
            return (lw_record){.outcome = 34};
    size_t bits = plain_pattern_bits(answer, answer_len), place = 0;
    if (pattern_len < bits)
        return (lw_record){.outcome = 32};

    fresh_starts(answer, answer_len / 6, starts);
    for (size_t r = 0; r < answer_len / 6; r++) {
        row_numbers row = row_of(answer, r);
        for (size_t i = 0; i < row.width; i++)
            pattern[place++] = row.kind == FRESH ? fresh[starts[row.fresh] + i] : (uint8_t)row.kind;
    }
    return (lw_record){.free = (uint32_t)bits};
}

/* Whether an accepted table is solved, and the answer is its own, number by number. */
static bool own_answer(const uint16_t *table, const ref_table *facts, const uint16_t *answer, size_t answer_len)
{
    static uint16_t own[6 * PLAIN_BITS];
    lw_record solved = plain_solve(table, facts, own);
    if (solved.outcome != 2 || answer_len != 6 * (size_t)solved.pieces)
        return false;
    return memcmp(answer, own, answer_len * sizeof *own) == 0;
}

lw_record plain_make_pattern(const uint16_t *table, size_t table_len, const uint16_t *answer, size_t answer_len,
                             const uint8_t *fresh, size_t fresh_len, uint8_t *pattern, size_t pattern_len,
                             uint16_t *work, size_t work_len)
{
    static ref_table facts;

    if (work_len < 16384)
        return (lw_record){.outcome = 10};
    lw_record accepted = ref_check(table, table_len, &facts);
    if (accepted.outcome != 0)
        return accepted;
    if (plain_faults(answer, answer_len) != 0)
        return (lw_record){.outcome = 33};
    for (size_t i = 0; i < work_len; i++)
        work[i] = 0;
    if (!own_answer(table, &facts, answer, answer_len))
        return (lw_record){.outcome = 46};
    return plain_fill(answer, answer_len, fresh, fresh_len, pattern, pattern_len);
}
