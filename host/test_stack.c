/*
  test_stack.c -- how much stack each call uses

  A thread runs on a stack of known bytes and makes one call. The lowest byte
  that has changed then tells how deep the call went: its use is counted from
  where the caller's stack ended just before the call, so that the return
  address belongs to it and the caller's frame and arguments do not. Each call
  is measured over two different fillings of the stack, since a byte that is
  written with what it had is not seen.

  The greatest use of a call must not exceed what the header states for it
  (LW_STACK_VALUE and so on), and what is stated must not be far above it.
*/

#define _POSIX_C_SOURCE 200809L

#include <pthread.h>

#include "test.h"

/* What the calls are made on. */

typedef struct {
    uint16_t table[4 * LW_MAX_ROWS];
    size_t table_len, row;
    size_t left_off; /* numbers of the table that the second table has not */
    lw_row rows[LW_MAX_ROWS + 1]; /* the table as records */
    size_t row_count;
    uint8_t pattern[LW_MAX_VARIABLE_BITS];
    size_t pattern_len;
    uint8_t value[LW_MAX_WIDTH];
    uint16_t form[LW_FORM_NUMBERS];
    uint8_t sheet[LW_MAX_SHEET + 1];
    size_t sheet_len;
    uint16_t answer[LW_ANSWER_NUMBERS], work[LW_WORK_NUMBERS];
    size_t answer_len, work_len, rows_in_use, variable;
    lw_job job;
    lw_record record;
    size_t number; /* of a page */
    uint8_t fresh[LW_MAX_VARIABLE_BITS];
    size_t fresh_len;
    uint16_t words[LW_MAX_WORDS + 1];
    size_t words_len;
    uint32_t list[1000];
    uint32_t outcome; /* what the call gave; 0 for a right side and for a page */
    size_t size;      /* the field free, a right side's length, or a page's lines */
} call;

/*
  A test: the steps by which its input is made, each a function with a number,
  and what the call gives then.
*/
typedef struct {
    const char *name;
    struct {
        void (*make)(call *, size_t number);
        size_t number;
    } steps[5];
    uint32_t outcome;
    size_t size;
} test;

/* Tables. */

static void add(call *c, size_t kind, size_t a, size_t b, size_t low)
{
    uint16_t *n = c->table + c->table_len;
    n[0] = (uint16_t)kind, n[1] = (uint16_t)a, n[2] = (uint16_t)b, n[3] = (uint16_t)low;
    c->table_len += 4;
}

/* Row 0: a variable of so many bits, or a marker of the value 1. */

static void variable(call *c, size_t width)
{
    add(c, LW_VARIABLE, width, 0, 0);
    c->pattern_len = width;
}

static void marker(call *c, size_t width)
{
    add(c, LW_VALUE, 1, width, 0);
}

/* Each row up to row 511 is a cut of all bits of the row before it. */
static void cuts(call *c, size_t width)
{
    for (size_t r = 1; r < 512; r++)
        add(c, LW_CUT, r - 1, width - 1, 0);
}

/* Each row is a join of the row before it, on the left, and of a row of one bit, row 0 or 1. */
static void left_joins(call *c, size_t bit)
{
    add(c, LW_CUT, 0, 0, 0);
    for (size_t r = 2; r < 512; r++)
        add(c, LW_JOIN, r - 1, bit, 0);
}

/* The same with the row before it on the right. */
static void right_joins(call *c, size_t bit)
{
    add(c, LW_CUT, 0, 0, 0);
    for (size_t r = 2; r < 512; r++)
        add(c, LW_JOIN, bit, r - 1, 0);
}

/* Cuts and joins in turn. */
static void cuts_and_joins(call *c, size_t bit)
{
    for (size_t r = 1; r < 512; r++)
        if (r % 2 == 1)
            add(c, LW_CUT, r - 1, r / 2, 0);
        else
            add(c, LW_JOIN, r - 1, bit, 0);
}

/* Row 511 is changed: a cut from this bit on, or a marker of this many bits, too few for its value. */

static void last_cut(call *c, size_t high)
{
    c->table[4 * 511 + 2] = (uint16_t)high;
}

static void last_marker(call *c, size_t width)
{
    c->table_len = 4 * 511;
    add(c, LW_VALUE, 65535, width, 0);
}

/*
  In place of the last rows an equation: row 508, which has this width, without
  its low bit and without its high bit.
*/
static void shift(call *c, size_t width)
{
    c->table_len = 4 * 509;
    add(c, LW_CUT, 508, width - 1, 1);
    add(c, LW_CUT, 508, width - 2, 0);
    add(c, LW_EQUATION, 509, 510, 0);
}

/* The same with row 506, and with three equations: in whole pieces this is given up, as single bits are. */
static void three_shifts(call *c, size_t width)
{
    c->table_len = 4 * 507;
    add(c, LW_CUT, 506, width - 1, 1);
    add(c, LW_CUT, 506, width - 2, 0);
    for (size_t e = 0; e < 3; e++)
        add(c, LW_EQUATION, 507, 508, 0);
}

/* A shift whose second side is without its two high bits. */
static void uneven_shift(call *c, size_t width)
{
    shift(c, width);
    c->table[4 * 510 + 2]--;
}

/*
  In place of the last rows an equation: row 508, which has this width, without
  its high and its low bit, equal to itself. Before it stands a variable. The run
  is the longest.
*/
static void search(call *c, size_t width)
{
    c->table_len = 4 * 509;
    add(c, LW_CUT, 508, width - 2, 1);
    add(c, LW_VARIABLE, 16, 0, 0);
    add(c, LW_EQUATION, 509, 509, 0);
    c->words_len = LW_MAX_WORDS;
}

/* 64 variables of 64 bits, joined to four words of 1024 bits, and so many equations between these. */
static void words(call *c, size_t equations)
{
    size_t word[4];
    for (size_t v = 0; v < 64; v++)
        add(c, LW_VARIABLE, 64, 0, 0);
    for (size_t g = 0; g < 4; g++) {
        word[g] = 16 * g;
        for (size_t i = 1; i < 16; i++) {
            add(c, LW_JOIN, word[g], 16 * g + i, 0);
            word[g] = c->table_len / 4 - 1;
        }
    }
    for (size_t e = 0; e < equations; e++)
        add(c, LW_EQUATION, word[e % 4], word[(e + 1) % 4], 0);
}

/* All bits of so many of 64 words are equal. The run is shorter, for the time. */
static void equal_words(call *c, size_t count)
{
    for (size_t v = 0; v < 64; v++)
        add(c, LW_VARIABLE, 16, 0, 0);
    add(c, LW_CUT, 0, 15, 1);
    add(c, LW_CUT, 0, 14, 0);
    add(c, LW_EQUATION, 64, 65, 0);
    for (size_t v = 1; v < count; v++)
        add(c, LW_EQUATION, 0, v, 0);
    c->words_len = 1000;
}

/* In place of the last rows two words, and an equation of this row with itself. */
static void two_words(call *c, size_t row)
{
    c->table_len = 4 * 509;
    add(c, LW_VARIABLE, 16, 0, 0);
    add(c, LW_VARIABLE, 16, 0, 0);
    add(c, LW_EQUATION, row, row, 0);
}

/* The longest recording of so many words that are all 0. It is lent as both. */
static void recorded(call *c, size_t words)
{
    size_t records = LW_MAX_RECORDING / (words + 1);
    for (size_t i = 0; i < records; i++)
        c->words[i * (words + 1)] = (uint16_t)i;
    c->words_len = records * (words + 1);
}

/* Gives the equations line numbers, so many different ones. */
static void line_numbers(call *c, size_t lines)
{
    for (size_t i = 0, e = 0; i < c->table_len; i += 4)
        if (c->table[i] == LW_EQUATION)
            c->table[i + 3] = (uint16_t)(1 + e++ % lines);
}

/* One equation more, which cannot be met: between fills of 0 and 1, or of a marker of this width and variable 0. */

static void unequal_fills(call *c, size_t width)
{
    add(c, LW_FILL, 0, width, 0);
    add(c, LW_FILL, 1, width, 0);
    add(c, LW_EQUATION, c->table_len / 4 - 2, c->table_len / 4 - 1, 0);
}

static void unequal_marker(call *c, size_t width)
{
    marker(c, width);
    add(c, LW_EQUATION, c->table_len / 4 - 1, 0, 0);
}

/* The table's job is opened, and takes all equations but so many. */
static void taken_but(call *c, size_t left)
{
    size_t equations = 0;
    for (size_t i = 0; i < c->table_len; i += 4)
        equations += c->table[i] == LW_EQUATION;
    lw_job_open(c->table, c->table_len, &c->job, c->work, c->work_len);
    for (; equations > left; equations--)
        lw_job_step(c->table, c->table_len, &c->job, c->work, c->work_len);
}

/* Answer tables, and fresh bits that are all 0. */

static void answer_row(call *c, size_t variable, size_t kind, size_t width, size_t fresh, size_t home, size_t high)
{
    uint16_t *n = c->answer + c->answer_len;
    n[0] = (uint16_t)variable, n[1] = (uint16_t)kind, n[2] = (uint16_t)width, n[3] = (uint16_t)fresh;
    n[4] = (uint16_t)home, n[5] = (uint16_t)high;
    c->answer_len += LW_ANSWER_ROW_NUMBERS;
    c->pattern_len += width;
}

static void one_fill(call *c, size_t width)
{
    answer_row(c, 0, 1, width, 0, 0, width - 1);
}

/* So many rows of width 1, each a fresh piece of its own. */
static void fresh_rows(call *c, size_t count)
{
    for (size_t i = 0; i < count; i++)
        answer_row(c, i / 1024, LW_FRESH, 1, i, i / 1024, (count - 1 - i) % 1024);
    c->fresh_len = count;
}

/* The same with one fresh piece. */
static void one_piece(call *c, size_t count)
{
    for (size_t i = 0; i < count; i++)
        answer_row(c, i / 1024, LW_FRESH, 1, 0, 0, 1023);
    c->fresh_len = 1;
}

/* The same with fills of 0 and 1 in turn. */
static void fill_rows(call *c, size_t count)
{
    for (size_t i = 0; i < count; i++)
        answer_row(c, i / 1024, i % 2, 1, 0, i / 1024, 1023 - i % 1024);
}

/* So many variables, each of 64 bits in one fresh piece. */
static void wide_rows(call *c, size_t count)
{
    for (size_t v = 0; v < count; v++)
        answer_row(c, v, LW_FRESH, 64, v, v, 63);
    c->fresh_len = c->pattern_len;
}

/* The answer of the table, as many fresh bits, and an output for its pattern; so many rows of the answer are left off. */
static void answer_but(call *c, size_t rows)
{
    lw_record record = lw_solve(c->table, c->table_len, c->answer, LW_ANSWER_NUMBERS, c->work, c->work_len);
    c->answer_len = LW_ANSWER_ROW_NUMBERS * (record.pieces - rows);
    c->fresh_len = record.free;
    c->pattern_len = record.free + record.ties;
}

/* The record of a solved table of so many pieces, and of a refusal. */
static void solved(call *c, size_t pieces)
{
    c->record = (lw_record){.outcome = LW_SOLVED, .pieces = (uint32_t)pieces};
}

static void refused(call *c, size_t outcome)
{
    c->record.outcome = (uint32_t)outcome;
}

/* Sheets: so many lines more, as far as there is room. Their tables are lent whole. */

static void add_lines(call *c, const char *line, size_t count)
{
    size_t len = strlen(line);
    c->table_len = LW_TABLE_NUMBERS;
    for (size_t i = 0; i < count && c->sheet_len + len <= sizeof c->sheet; i++) {
        memcpy(c->sheet + c->sheet_len, line, len);
        c->sheet_len += len;
    }
}

#define LINES(name, line)                                                                              \
    static void name(call *c, size_t count)                                                            \
    {                                                                                                  \
        add_lines(c, line, count);                                                                     \
    }

LINES(names, "kind a b c\n")
LINES(names_turned, "c b a kind\n")
LINES(names_twice_b, "c b a kinb\n")
LINES(variable_of_8_bits, "0 8 0 0\n")
LINES(zeros, "0 0 0 0\n")
LINES(decimal, "65535 65535 65535 65535\n")
LINES(hexadecimal, "hffff hffff hffff hffff\n")
LINES(end_of_16384, "10000 10000 10000 10\n")
LINES(empty, "\n")

/* A field is this number, or is so much less; the last of an array is this number. */

#define SET(field)                                                                                     \
    static void set_##field(call *c, size_t number)                                                    \
    {                                                                                                  \
        c->field = number;                                                                             \
    }
#define LESS(field)                                                                                    \
    static void less_##field(call *c, size_t number)                                                   \
    {                                                                                                  \
        c->field -= number;                                                                            \
    }
#define LAST(name, type, array, index)                                                                 \
    static void name(call *c, size_t number)                                                           \
    {                                                                                                  \
        c->array[index] = (type)number;                                                                \
    }

SET(words_len)
SET(left_off)
SET(rows_in_use)
SET(variable)
SET(number)
LESS(table_len)
LESS(work_len)
LESS(sheet_len)
LESS(answer_len)
LESS(fresh_len)
LESS(pattern_len)
LAST(last_held, uint16_t, work, c->work_len - 1)
LAST(last_bit, uint8_t, pattern, c->pattern_len - 1)
LAST(last_fresh_bit, uint8_t, fresh, c->fresh_len - 1)
LAST(last_fresh, uint16_t, answer, c->answer_len - 3)
LAST(last_home, uint16_t, answer, c->answer_len - 2)
LAST(last_high, uint16_t, answer, c->answer_len - 1)

/* The tests of each call. */

#define CUTS {variable, 1024}, {cuts, 1024}
#define NOT_WHOLE_ROWS {"refused 11", {CUTS, {less_table_len, 1}}, LW_REFUSED_TABLE, 0}
#define BAD_CUT {"refused 16 at row 511", {CUTS, {last_cut, 1024}}, LW_REFUSED_CUT, 0}
#define BAD_MARKER {"refused 40 at row 511", {CUTS, {last_marker, 15}}, LW_REFUSED_VALUE, 0}

/* The last is for values alone: only they have a pattern. */
static const test tables[] = {
    {"one variable", {{variable, 1024}}, LW_ACCEPTED, 1024},
    {"512 rows, chained cuts", {CUTS}, LW_ACCEPTED, 1024},
    {"512 rows, joins chained on the left", {{variable, 1}, {left_joins, 0}}, LW_ACCEPTED, 511},
    {"512 rows, joins chained on the right", {{variable, 1}, {right_joins, 0}}, LW_ACCEPTED, 511},
    {"512 rows, cuts and joins in turn", {{variable, 1}, {cuts_and_joins, 0}}, LW_ACCEPTED, 256},
    {"chained cuts of a marker", {{marker, 16}, {cuts, 16}}, LW_ACCEPTED, 16},
    {"joins of a marker, on the left", {{marker, 1}, {left_joins, 0}}, LW_ACCEPTED, 511},
    {"joins of a marker, on the right", {{marker, 1}, {right_joins, 0}}, LW_ACCEPTED, 511},
    {"cuts and joins of a marker", {{marker, 1}, {cuts_and_joins, 0}}, LW_ACCEPTED, 256},
    NOT_WHOLE_ROWS,
    BAD_CUT,
    BAD_MARKER,
    {"refused 31", {CUTS, {last_bit, 2}}, LW_REFUSED_PATTERN, 0},
};
static const test sheets[] = {
    {"one line", {{names, 1}, {variable_of_8_bits, 1}}, LW_ACCEPTED, 0},
    {"12299 bytes, 512 lines", {{names_turned, 1}, {decimal, 512}}, LW_ACCEPTED, 0},
    {"12299 bytes, hexadecimal", {{names_turned, 1}, {hexadecimal, 512}}, LW_ACCEPTED, 0},
    {"refused 20", {{names_turned, 1}, {zeros, 1}, {decimal, 681}, {end_of_16384, 1}, {empty, 1}}, LW_REFUSED_SHEET, 0},
    {"refused 21", {{names_twice_b, 1}, {decimal, 512}}, LW_REFUSED_NAMES, 0},
    {"refused 22 at line 511", {{names_turned, 1}, {decimal, 512}, {less_sheet_len, 1}}, LW_REFUSED_LINE, 0},
    {"16384 bytes, refused 23", {{names_turned, 1}, {zeros, 1}, {decimal, 681}, {end_of_16384, 1}}, LW_REFUSED_LINES, 0},
    {"refused 32", {{names_turned, 1}, {decimal, 512}, {less_table_len, 1}}, LW_REFUSED_OUTPUT, 0},
};
static const test solves[] = {
    {"one variable", {{variable, 1024}}, LW_ALWAYS, 1024},
    {"512 rows, chained cuts", {CUTS, {shift, 1024}}, LW_SOLVED, 1},
    {"512 rows, joins chained on the left", {{variable, 1}, {left_joins, 0}, {shift, 508}}, LW_ALWAYS, 1},
    {"512 rows, joins chained on the right", {{variable, 1}, {right_joins, 0}, {shift, 508}}, LW_ALWAYS, 1},
    {"512 rows, cuts and joins in turn", {{variable, 1}, {cuts_and_joins, 0}, {shift, 255}}, LW_ALWAYS, 1},
    {"chained cuts of a marker", {{marker, 16}, {cuts, 16}, {shift, 16}}, LW_NEVER, 0},
    {"joins of a marker, on the left", {{marker, 1}, {left_joins, 0}, {shift, 508}}, LW_ALWAYS, 0},
    {"joins of a marker, on the right", {{marker, 1}, {right_joins, 0}, {shift, 508}}, LW_ALWAYS, 0},
    {"cuts and joins of a marker", {{marker, 1}, {cuts_and_joins, 0}, {shift, 255}}, LW_ALWAYS, 0},
    {"joins of a word's bit, on the left", {{variable, 16}, {left_joins, 1}, {search, 508}}, LW_ALWAYS, 32},
    {"joins of a word's bit, on the right", {{variable, 16}, {right_joins, 1}, {search, 508}}, LW_ALWAYS, 32},
    {"joins of a marker's bit, on the left", {{marker, 16}, {left_joins, 1}, {search, 508}}, LW_ALWAYS, 16},
    {"joins of a marker's bit, on the right", {{marker, 16}, {right_joins, 1}, {search, 508}}, LW_ALWAYS, 16},
    {"sides of unequal width", {{marker, 1}, {left_joins, 0}, {uneven_shift, 508}}, LW_NEVER, 0},
    {"three equations, joins on the left", {{variable, 1}, {left_joins, 0}, {three_shifts, 506}}, LW_ALWAYS, 1},
    {"three equations, joins on the right", {{variable, 1}, {right_joins, 0}, {three_shifts, 506}}, LW_ALWAYS, 1},
    {"64 equations of 1024 bits", {{words, 64}}, LW_SOLVED, 1024},
    {"64 line numbers", {{words, 64}, {line_numbers, 64}}, LW_SOLVED, 1024},
    {"32 of 64 equations revised", {{words, 64}, {line_numbers, 32}}, LW_SOLVED, 1024},
    {"never at the last of 64 equations", {{words, 63}, {unequal_fills, 1}}, LW_NEVER, 0},
    {"refused 10", {{words, 64}, {less_work_len, 1}}, LW_REFUSED_MEMORY, 0},
    NOT_WHOLE_ROWS,
    BAD_CUT,
    BAD_MARKER,
};
/*
  Jobs with so many equations left: a step takes the last one, a preview tells
  what it would give, and an answer finds none. All have the record of a solve.
*/
#define JOBS(left)                                                                                                      \
    {"512 rows, chained cuts", {CUTS, {shift, 1024}, {taken_but, left}}, LW_SOLVED, 1},                                 \
    {"joins chained on the left", {{variable, 1}, {left_joins, 0}, {shift, 508}, {taken_but, left}}, LW_ALWAYS, 1},     \
    {"joins chained on the right", {{variable, 1}, {right_joins, 0}, {shift, 508}, {taken_but, left}}, LW_ALWAYS, 1},   \
    {"cuts and joins in turn", {{variable, 1}, {cuts_and_joins, 0}, {shift, 255}, {taken_but, left}}, LW_ALWAYS, 1},    \
    {"chained cuts of a marker", {{marker, 16}, {cuts, 16}, {shift, 16}, {taken_but, left}}, LW_NEVER, 0},              \
    {"joins of a word's bit", {{variable, 16}, {left_joins, 1}, {search, 508}, {taken_but, left}}, LW_ALWAYS, 32},      \
    {"joins of a marker's bit", {{marker, 16}, {right_joins, 1}, {search, 508}, {taken_but, left}}, LW_ALWAYS, 16},     \
    {"sides of unequal width", {{marker, 1}, {left_joins, 0}, {uneven_shift, 508}, {taken_but, left}}, LW_NEVER, 0},    \
    {"64 equations of 1024 bits", {{words, 64}, {taken_but, left}}, LW_SOLVED, 1024},                                   \
    {"never at the last of 64 equations", {{words, 63}, {unequal_fills, 1}, {taken_but, left}}, LW_NEVER, 0},           \
    {"refused 10", {{words, 64}, {taken_but, left}, {less_work_len, 1}}, LW_REFUSED_MEMORY, 0},                         \
    NOT_WHOLE_ROWS,                                                                                                     \
    BAD_CUT,                                                                                                            \
    BAD_MARKER,                                                                                                         \
    {"refused 43", {{words, 64}, {taken_but, left}, {line_numbers, 64}}, LW_REFUSED_REVISED, 0},                        \
    {"refused 44, the last number", {{words, 64}, {taken_but, left}, {last_held, 1}}, LW_REFUSED_JOB, 0}

static const test opens[] = {
    {"one variable", {{variable, 1024}}, LW_ALWAYS, 1024},
    {"512 rows, chained cuts", {CUTS, {shift, 1024}}, LW_ALWAYS, 1024},
    {"512 rows, joins chained on the left", {{variable, 1}, {left_joins, 0}, {shift, 508}}, LW_ALWAYS, 1},
    {"512 rows, joins chained on the right", {{variable, 1}, {right_joins, 0}, {shift, 508}}, LW_ALWAYS, 1},
    {"64 equations of 1024 bits", {{words, 64}}, LW_ALWAYS, 4096},
    {"refused 10", {{words, 64}, {less_work_len, 1}}, LW_REFUSED_MEMORY, 0},
    NOT_WHOLE_ROWS,
    BAD_CUT,
    BAD_MARKER,
    {"refused 43", {{words, 64}, {line_numbers, 64}}, LW_REFUSED_REVISED, 0},
};
static const test job_steps[] = { /* of previews too */
    JOBS(1),
    {"after a never", {{words, 63}, {unequal_fills, 1}, {taken_but, 0}}, LW_NEVER, 0},
    {"refused 45", {{words, 64}, {taken_but, 0}}, LW_REFUSED_STEP, 0},
};
static const test job_answers[] = {
    JOBS(0),
    {"before the last of 64 equations", {{words, 64}, {taken_but, 1}}, LW_SOLVED, 1024},
};
/* Runs of words that are all 0. */
static const test searches[] = {
    {"one variable", {{variable, 16}, {set_words_len, LW_MAX_WORDS}}, LW_ACCEPTED, 0},
    {"512 rows, chained cuts", {{variable, 16}, {cuts, 16}, {search, 16}}, LW_ACCEPTED, 0},
    {"joins of a word's bit, on the left", {{variable, 16}, {left_joins, 1}, {search, 508}}, LW_ACCEPTED, 0},
    {"joins of a word's bit, on the right", {{variable, 16}, {right_joins, 1}, {search, 508}}, LW_ACCEPTED, 0},
    {"cuts and joins of a word's bit", {{variable, 16}, {cuts_and_joins, 1}, {search, 255}}, LW_ACCEPTED, 0},
    {"joins of a marker's bit, on the left", {{marker, 16}, {left_joins, 1}, {search, 508}}, LW_ACCEPTED, 0},
    {"joins of a marker's bit, on the right", {{marker, 16}, {right_joins, 1}, {search, 508}}, LW_ACCEPTED, 0},
    {"cuts and joins of a marker's bit", {{marker, 16}, {cuts_and_joins, 1}, {search, 255}}, LW_ACCEPTED, 0},
    {"64 words of equal bits", {{equal_words, 64}}, LW_ACCEPTED, 0},
    {"32 of 64 equations revised", {{equal_words, 64}, {line_numbers, 32}}, LW_ACCEPTED, 0},
    {"never at the last of 64 equations", {{equal_words, 63}, {unequal_marker, 16}}, LW_ACCEPTED, 0},
    NOT_WHOLE_ROWS,
    BAD_CUT,
    BAD_MARKER,
    {"refused 41", {{variable, 1024}, {set_words_len, LW_MAX_WORDS}}, LW_REFUSED_WINDOW, 0},
    {"refused 42", {{variable, 16}, {set_words_len, LW_MAX_WORDS + 1}}, LW_REFUSED_RUN, 0},
};
#define FRAMES {recorded, 1}
static const test comparisons[] = {
    {"two variables", {{variable, 16}, {variable, 16}, FRAMES}, LW_ACCEPTED, 0},
    {"512 rows, chained cuts", {{variable, 16}, {cuts, 16}, {search, 16}, FRAMES}, LW_ACCEPTED, 0},
    {"joins of a word's bit, on the left", {{variable, 16}, {left_joins, 1}, {search, 508}, FRAMES}, LW_ACCEPTED, 0},
    {"joins of a word's bit, on the right", {{variable, 16}, {right_joins, 1}, {search, 508}, FRAMES}, LW_ACCEPTED, 0},
    {"cuts and joins of a word's bit", {{variable, 16}, {cuts_and_joins, 1}, {search, 255}, FRAMES}, LW_ACCEPTED, 0},
    {"joins of a marker's bit, on the left", {{marker, 16}, {left_joins, 1}, {two_words, 508}, FRAMES}, LW_ACCEPTED, 0},
    {"joins of a marker's bit, on the right", {{marker, 16}, {right_joins, 1}, {two_words, 508}, FRAMES}, LW_ACCEPTED, 0},
    {"cuts and joins of a marker's bit", {{marker, 16}, {cuts_and_joins, 1}, {two_words, 508}, FRAMES}, LW_ACCEPTED, 0},
    {"64 words of equal bits", {{equal_words, 64}, {recorded, 32}}, LW_ACCEPTED, 0},
    {"32 of 64 equations revised", {{equal_words, 64}, {line_numbers, 32}, {recorded, 32}}, LW_ACCEPTED, 0},
    {"never at the last of 64 equations", {{equal_words, 63}, {unequal_marker, 16}, {recorded, 32}}, LW_ACCEPTED, 1985},
    NOT_WHOLE_ROWS,
    BAD_CUT,
    BAD_MARKER,
    {"refused 47, no words of 16 bits", {{variable, 1024}, FRAMES}, LW_REFUSED_RECORDING, 0},
    {"refused 47, a number too many", {{variable, 16}, {variable, 16}, {set_words_len, LW_MAX_RECORDING + 1}},
     LW_REFUSED_RECORDING, 0},
    {"refused 48", {{variable, 16}, {variable, 16}, {set_words_len, LW_MAX_RECORDING - 1}}, LW_REFUSED_COUNTERS, 0},
};
/* A table with itself, or with itself without its last rows. */
static const test likes[] = {
    {"one variable", {{variable, 1024}}, LW_SAME, 0},
    {"512 rows, chained cuts", {CUTS, {shift, 1024}}, LW_SAME, 0},
    {"512 rows, joins chained on the left", {{variable, 1}, {left_joins, 0}, {shift, 508}}, LW_SAME, 0},
    {"512 rows, joins chained on the right", {{variable, 1}, {right_joins, 0}, {shift, 508}}, LW_SAME, 0},
    {"512 rows, cuts and joins in turn", {{variable, 1}, {cuts_and_joins, 0}, {shift, 255}}, LW_SAME, 0},
    {"chained cuts of a marker", {{marker, 16}, {cuts, 16}, {shift, 16}}, LW_SAME, 0},
    {"joins of a word's bit, on the left", {{variable, 16}, {left_joins, 1}, {search, 508}}, LW_SAME, 0},
    {"joins of a word's bit, on the right", {{variable, 16}, {right_joins, 1}, {search, 508}}, LW_SAME, 0},
    {"joins of a marker's bit, on the left", {{marker, 16}, {left_joins, 1}, {search, 508}}, LW_SAME, 0},
    {"joins of a marker's bit, on the right", {{marker, 16}, {right_joins, 1}, {search, 508}}, LW_SAME, 0},
    {"sides of unequal width", {{marker, 1}, {left_joins, 0}, {uneven_shift, 508}}, LW_SAME, 0},
    {"64 equations of 1024 bits", {{words, 64}}, LW_SAME, 0},
    {"64 equations and none", {{words, 64}, {set_left_off, 4 * 64}}, LW_STRICTER, 0},
    {"32 of 64 equations revised", {{words, 64}, {line_numbers, 32}}, LW_SAME, 0},
    {"never at the last of 64 equations", {{words, 63}, {unequal_fills, 1}}, LW_SAME, 0},
    {"never at the last, and without it", {{words, 63}, {unequal_fills, 1}, {set_left_off, 4}}, LW_STRICTER, 0},
    {"refused 10", {{words, 64}, {less_work_len, 1}}, LW_REFUSED_MEMORY, 0},
    NOT_WHOLE_ROWS,
    BAD_CUT,
    BAD_MARKER,
    {"refused 11 in the second", {{words, 64}, {set_left_off, 1}}, LW_REFUSED_TABLE, 0},
    {"refused 49", {{variable, 1024}, {set_left_off, 4}}, LW_REFUSED_LAYOUT, 0},
};
static const test parts[] = {
    {"4096 rows of one variable", {{set_rows_in_use, 4096}}, 0, LW_ANSWER_NUMBERS},
    {"no such variable", {{set_rows_in_use, 4096}, {set_variable, 1}}, 0, 0},
    {"too many rows", {{set_rows_in_use, 4097}}, 0, 0},
};
/*
  Of tables that are solved: their own answer, and others. Of the other tables,
  which are solved too before they are refused: no answer.
*/
#define OWN {words, 64}, {answer_but, 0}
#define NO_OWN LW_REFUSED_OTHER_ANSWER, 0
static const test patterns[] = {
    {"512 rows, chained cuts", {CUTS, {shift, 1024}, {answer_but, 0}}, LW_ACCEPTED, 1024},
    {"64 equations of 1024 bits", {OWN}, LW_ACCEPTED, 4096},
    {"64 line numbers", {{words, 64}, {line_numbers, 64}, {answer_but, 0}}, LW_ACCEPTED, 4096},
    {"32 of 64 equations revised", {{words, 64}, {line_numbers, 32}, {answer_but, 0}}, LW_ACCEPTED, 4096},
    {"refused 46, one variable", {{variable, 1024}}, NO_OWN},
    {"refused 46, joins on the left", {{variable, 1}, {left_joins, 0}, {shift, 508}}, NO_OWN},
    {"refused 46, joins on the right", {{variable, 1}, {right_joins, 0}, {shift, 508}}, NO_OWN},
    {"refused 46, cuts and joins in turn", {{variable, 1}, {cuts_and_joins, 0}, {shift, 255}}, NO_OWN},
    {"refused 46, cuts of a marker", {{marker, 16}, {cuts, 16}, {shift, 16}}, NO_OWN},
    {"refused 46, joins of a marker", {{marker, 1}, {left_joins, 0}, {shift, 508}}, NO_OWN},
    {"refused 46, joins of a word's bit", {{variable, 16}, {left_joins, 1}, {search, 508}}, NO_OWN},
    {"refused 46, joins of a marker's bit", {{marker, 16}, {right_joins, 1}, {search, 508}}, NO_OWN},
    {"refused 46, sides of unequal width", {{marker, 1}, {left_joins, 0}, {uneven_shift, 508}}, NO_OWN},
    {"refused 46, never at the last", {{words, 63}, {unequal_fills, 1}}, NO_OWN},
    {"refused 46, the last row left off", {{words, 64}, {answer_but, 1}}, NO_OWN},
    {"refused 46, 4096 other rows", {{words, 64}, {fresh_rows, 4096}}, NO_OWN},
    {"refused 46, 4096 fills", {{words, 64}, {fill_rows, 4096}}, NO_OWN},
    {"refused 46, one fill", {CUTS, {shift, 1024}, {one_fill, 1024}}, NO_OWN},
    {"refused 46, no table, one fresh piece", {{one_piece, 4096}}, NO_OWN},
    {"refused 46, 64 variables of 64 bits", {{words, 64}, {wide_rows, 64}}, NO_OWN},
    {"refused 10", {OWN, {less_work_len, 1}}, LW_REFUSED_MEMORY, 0},
    NOT_WHOLE_ROWS,
    BAD_CUT,
    BAD_MARKER,
    {"refused 33, not whole rows", {{fresh_rows, 4096}, {less_answer_len, 1}}, LW_REFUSED_ANSWER, 0},
    {"refused 33 at row 4095", {{fresh_rows, 4096}, {last_fresh, 4096}}, LW_REFUSED_ANSWER, 0},
    {"refused 33, the last home wrong", {{fresh_rows, 4096}, {last_home, 2}}, LW_REFUSED_ANSWER, 0},
    {"refused 33, the last high wrong", {{fresh_rows, 4096}, {last_high, 1}}, LW_REFUSED_ANSWER, 0},
    {"refused 34, fresh bits too few", {OWN, {less_fresh_len, 1}}, LW_REFUSED_FRESH, 0},
    {"refused 34, the last byte above 1", {OWN, {last_fresh_bit, 2}}, LW_REFUSED_FRESH, 0},
    {"refused 32", {OWN, {less_pattern_len, 1}}, LW_REFUSED_OUTPUT, 0},
};
static const test pages[] = {
    {"page 0 of 4096 pieces", {{fresh_rows, 4096}, {solved, 4096}}, 0, LW_PAGE_LINES},
    {"page 69 of 4096 pieces", {{fresh_rows, 4096}, {solved, 4096}, {set_number, 69}}, 0, LW_PAGE_LINES},
    {"past the last page", {{fresh_rows, 4096}, {solved, 4096}, {set_number, SIZE_MAX}}, 0, LW_PAGE_LINES},
    {"outcome 4294967295", {{refused, UINT32_MAX}}, 0, LW_PAGE_LINES},
};

/* The calls. */

/* Where the caller's stack ends, as the function that is called finds it. */
static uintptr_t entry;

/*
  In place of a call, these note where it is entered. The frame's address is
  where the caller's frame pointer is kept, just below the return address. They
  are called as the call itself is, with its arguments, which they do not look
  at: for a result of one kind one such function will do.
*/
#define ENTRY ((uintptr_t)__builtin_frame_address(0) + 2 * sizeof(void *))

__attribute__((noinline))
static lw_record record_entry(void)
{
    entry = ENTRY;
    return (lw_record){.outcome = 1};
}

__attribute__((noinline))
static lw_part part_entry(void)
{
    entry = ENTRY;
    return (lw_part){1, 1};
}

__attribute__((noinline))
static lw_page_bytes page_bytes_entry(void)
{
    entry = ENTRY;
    return (lw_page_bytes){{0}};
}

static void note_record(call *c, lw_record record)
{
    c->outcome = record.outcome;
    c->size = record.free;
}

static void note_part(call *c, lw_part part)
{
    c->size = part.len;
}

static void note_page_bytes(call *c, lw_page_bytes page)
{
    c->size = 0;
    for (size_t i = 0; i < LW_PAGE_BYTES; i++)
        c->size += page.bytes[i] == '\n';
}

/*
  run_FUNCTION(c) calls first the entry and then the function, both in the same
  way and with these arguments of c, and notes the second result.
*/
#define RUN(function, kind, ...)                                                                       \
    static void run_##function(call *c)                                                                \
    {                                                                                                  \
        static __typeof__(function) *volatile const both[] = {                                         \
            (__typeof__(function) *)(void (*)(void))kind##_entry, function,                            \
        };                                                                                             \
        lw_##kind result;                                                                              \
        for (size_t i = 0; i < 2; i++)                                                                 \
            result = both[i](__VA_ARGS__);                                                             \
        note_##kind(c, result);                                                                        \
    }

#define TABLE c->table, c->table_len
#define ROWS  c->rows, c->row_count
#define VALUE c->row, c->pattern, c->pattern_len, c->value, sizeof c->value
#define FORM  c->row, c->form, LW_FORM_NUMBERS
#define SOLVE c->answer, LW_ANSWER_NUMBERS, c->work, c->work_len
#define JOB   &c->job, c->work, c->work_len

RUN(lw_value, record, TABLE, VALUE)
RUN(lw_normal_form, record, TABLE, FORM)
RUN(lw_read_sheet, record, c->sheet, c->sheet_len, TABLE)
RUN(lw_solve, record, TABLE, SOLVE)
RUN(lw_solve_pieces, record, TABLE, SOLVE)
RUN(lw_right_side, part, c->answer, LW_ANSWER_NUMBERS, c->rows_in_use, c->variable)
RUN(lw_make_pattern, record, TABLE, c->answer, c->answer_len, c->fresh, c->fresh_len, c->pattern, c->pattern_len, c->work,
    c->work_len)
RUN(lw_marker_positions, record, TABLE, c->words, c->words_len, c->list, COUNT(c->list))
RUN(lw_compare_recordings, record, TABLE, c->words, c->words_len, c->words, c->words_len)
RUN(lw_compare_tables, record, TABLE, c->table, c->table_len - c->left_off, c->work, c->work_len)
RUN(lw_page, page_bytes, c->record, c->answer, c->answer_len, c->number)
RUN(lw_job_open, record, TABLE, JOB)
RUN(lw_job_step, record, TABLE, JOB)
RUN(lw_job_preview, record, TABLE, JOB)
RUN(lw_job_answer, record, TABLE, JOB, c->answer, LW_ANSWER_NUMBERS)
RUN(lw_value_rows, record, ROWS, VALUE)
RUN(lw_normal_form_rows, record, ROWS, FORM)
RUN(lw_solve_rows, record, ROWS, SOLVE)

/* Each call with what the header states of it, and its tests. */
static const struct {
    const char *name;
    void (*run)(call *);
    size_t stated;
    const test *tests;
    size_t count;
} calls[] = {
    {"lw_value", run_lw_value, LW_STACK_VALUE, tables, COUNT(tables)},
    {"lw_normal_form", run_lw_normal_form, LW_STACK_NORMAL_FORM, tables, COUNT(tables) - 1},
    {"lw_read_sheet", run_lw_read_sheet, LW_STACK_READ_SHEET, sheets, COUNT(sheets)},
    {"lw_solve", run_lw_solve, LW_STACK_SOLVE, solves, COUNT(solves)},
    {"lw_solve_pieces", run_lw_solve_pieces, LW_STACK_SOLVE_PIECES, solves, COUNT(solves)},
    {"lw_right_side", run_lw_right_side, LW_STACK_RIGHT_SIDE, parts, COUNT(parts)},
    {"lw_make_pattern", run_lw_make_pattern, LW_STACK_MAKE_PATTERN, patterns, COUNT(patterns)},
    {"lw_marker_positions", run_lw_marker_positions, LW_STACK_MARKER_POSITIONS, searches, COUNT(searches)},
    {"lw_compare_recordings", run_lw_compare_recordings, LW_STACK_COMPARE_RECORDINGS, comparisons, COUNT(comparisons)},
    {"lw_compare_tables", run_lw_compare_tables, LW_STACK_COMPARE_TABLES, likes, COUNT(likes)},
    {"lw_page", run_lw_page, LW_STACK_PAGE, pages, COUNT(pages)},
    {"lw_job_open", run_lw_job_open, LW_STACK_JOB_OPEN, opens, COUNT(opens)},
    {"lw_job_step", run_lw_job_step, LW_STACK_JOB_STEP, job_steps, COUNT(job_steps)},
    {"lw_job_preview", run_lw_job_preview, LW_STACK_JOB_PREVIEW, job_steps, COUNT(job_steps)},
    {"lw_job_answer", run_lw_job_answer, LW_STACK_JOB_ANSWER, job_answers, COUNT(job_answers)},
    {"lw_value_rows", run_lw_value_rows, LW_STACK_VALUE_ROWS, tables, COUNT(tables)},
    {"lw_normal_form_rows", run_lw_normal_form_rows, LW_STACK_NORMAL_FORM_ROWS, tables, COUNT(tables) - 1},
    {"lw_solve_rows", run_lw_solve_rows, LW_STACK_SOLVE_ROWS, solves, COUNT(solves)},
};

/* Measuring. */

enum { STACK = 1 << 20 };

static unsigned char *stack, paint;

typedef struct {
    void (*run)(call *);
    call *c;
    size_t used;
} measurement;

static void *run_and_count(void *argument)
{
    measurement *m = argument;
    size_t low = 0;

    m->run(m->c);
    while (low < STACK && stack[low] == paint)
        low++;
    m->used = (size_t)(entry - (uintptr_t)stack) - low;
    return NULL;
}

static void must(int error, const char *what)
{
    if (error != 0) {
        printf("%s: %s\n", what, strerror(error));
        exit(1);
    }
}

/* How many bytes of stack the call uses over this filling. */
static size_t measure(void (*run)(call *), call *c, unsigned char filling)
{
    measurement m = {.run = run, .c = c};
    pthread_attr_t attributes;
    pthread_t thread;

    paint = filling;
    memset(stack, paint, STACK);
    must(pthread_attr_init(&attributes), "pthread_attr_init");
    must(pthread_attr_setstack(&attributes, stack, STACK), "pthread_attr_setstack");
    must(pthread_create(&thread, &attributes, run_and_count, &m), "pthread_create");
    must(pthread_join(thread, NULL), "pthread_join");
    must(pthread_attr_destroy(&attributes), "pthread_attr_destroy");
    return m.used;
}

static void make(call *c, const test *t)
{
    memset(c, 0, sizeof *c);
    c->work_len = LW_WORK_NUMBERS;
    for (size_t i = 0; i < COUNT(t->steps) && t->steps[i].make != NULL; i++)
        t->steps[i].make(c, t->steps[i].number);
    memcpy(c->rows, c->table, sizeof c->table);
    c->row_count = c->table_len % 4 == 0 ? c->table_len / 4 : LW_MAX_ROWS + 1; /* for no whole rows one too many */
    c->row = c->table_len / 4 - 1;
}

/* The greatest use of a call on a test, over each filling. */
static size_t measure_test(const char *name, void (*run)(call *), const test *t)
{
    static const unsigned char fillings[] = {0x5A, 0xA5};
    static call c;
    size_t use = 0;

    for (size_t f = 0; f < sizeof fillings; f++) {
        make(&c, t);
        size_t once = measure(run, &c, fillings[f]);
        use = once > use ? once : use;
        check(c.outcome == t->outcome && c.size == t->size, HERE, "%s, %s: outcome %u, size %zu", name, t->name,
              c.outcome, c.size);
    }
    printf("%-19s %-37s %zu bytes of stack\n", name, t->name, use);
    check(use > sizeof(void *) && use < STACK / 2, HERE, "%s, %s: nothing measured", name, t->name);
    return use;
}

static void test_calls(void)
{
    void *memory;

    must(posix_memalign(&memory, 1 << 16, STACK), "posix_memalign");
    stack = memory;
    for (size_t i = 0; i < COUNT(calls); i++) {
        size_t greatest = 0, stated = calls[i].stated;
        for (size_t t = 0; t < calls[i].count; t++) {
            size_t use = measure_test(calls[i].name, calls[i].run, &calls[i].tests[t]);
            greatest = use > greatest ? use : greatest;
        }
        printf("%-19s %-37s %zu bytes of stack, the header says %zu\n", calls[i].name, "greatest", greatest, stated);
        check(stated >= greatest, HERE, "%s: %zu bytes of stack used, the header says only %zu", calls[i].name,
              greatest, stated);
        check(stated <= greatest + greatest / 16 + 64, HERE, "%s: only %zu bytes of stack used, the header says %zu",
              calls[i].name, greatest, stated);
    }
    free(memory);
    check(LW_STACK_JOB_PREVIEW <= LW_STACK_JOB_STEP + 1000, HERE, "a preview takes more stack than a step");
    check(LW_STACK_COMPARE_TABLES <= LW_STACK_SOLVE, HERE, "a comparison of tables takes more stack than a solve");
    check(LW_STACK_SOLVE_PIECES <= LW_STACK_SOLVE + 60000, HERE, "a solve in pieces takes too much more stack than a solve");
}

const test_list tests = {
    .name = "stack",
    .groups = {{.name = "the stack of each call", .run = test_calls}},
};
