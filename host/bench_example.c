/*
  bench_example.c -- what a test bench does with a sheet: solve it and print the
  patterns that meet its table

      bench_example SHEET [MOST]

  Each pattern is one line, the variables one behind the other, each high bit
  first, a space between two. All of them are printed if there are at most MOST
  (64 if not given), else the first MOST in the order of their fresh bits.

  The exit status is 0 if some pattern meets the table, 1 if none does, and 2 if
  the sheet or its table is refused or cannot be read.
*/

#include <inttypes.h>
#include <stdbool.h>
#include <stdio.h>
#include <stdlib.h>

#include "linkwords.h"

static uint8_t sheet[LW_MAX_SHEET + 1]; /* one byte more, so that a longer sheet is refused */
static uint16_t table[LW_TABLE_NUMBERS], answer[LW_ANSWER_NUMBERS], work[LW_WORK_NUMBERS];
static uint8_t fresh[LW_MAX_VARIABLE_BITS], pattern[LW_MAX_VARIABLE_BITS];

static int refused(const char *what, lw_record record)
{
    fprintf(stderr, "%s refused: %" PRIu32 ", row %" PRIu32 "\n", what, record.outcome, record.row);
    return 2;
}

/* Prints a pattern of the table: its variables have their widths in turn. */
static void print_pattern(const uint8_t *bits, uint32_t rows)
{
    size_t at = 0;
    for (uint32_t r = 0; r < rows; r++) {
        const uint16_t *row = table + LW_ROW_NUMBERS * r;
        if (row[0] != LW_VARIABLE)
            continue;
        if (at != 0)
            putchar(' ');
        for (uint16_t i = 0; i < row[1]; i++)
            putchar(bits[at++] == 1 ? '1' : '0');
    }
    putchar('\n');
}

/* The next fresh bits, counting up; false behind the last. */
static bool next_fresh(uint32_t bits)
{
    while (bits != 0)
        if (fresh[--bits] == 0) {
            fresh[bits] = 1;
            return true;
        } else
            fresh[bits] = 0;
    return false;
}

int main(int argc, char **argv)
{
    unsigned long most = argc > 2 ? strtoul(argv[2], NULL, 10) : 64;
    FILE *file = argc > 1 ? fopen(argv[1], "rb") : NULL;
    if (file == NULL) {
        fprintf(stderr, "usage: bench_example SHEET [MOST]\n");
        return 2;
    }
    size_t len = fread(sheet, 1, sizeof sheet, file);
    bool failed = ferror(file) != 0;
    fclose(file);
    if (failed)
        return 2;

    lw_record read = lw_read_sheet(sheet, len, table, LW_TABLE_NUMBERS);
    if (read.outcome != LW_ACCEPTED)
        return refused("sheet", read);
    size_t table_len = LW_ROW_NUMBERS * read.pieces;
    lw_record solved = lw_solve(table, table_len, answer, LW_ANSWER_NUMBERS, work, LW_WORK_NUMBERS);
    if (solved.outcome > LW_SOLVED)
        return refused("table", solved);
    if (solved.outcome == LW_NEVER) {
        printf("no pattern: none is left at row %" PRIu32 "\n", solved.row);
        return 1;
    }

    /* Of a solved table the fresh bits are counted up; after LW_ALWAYS the patterns themselves, any bits being one. */
    printf("2^%" PRIu32 " patterns\n", solved.free);
    for (unsigned long i = 0; i < most; i++) {
        if (solved.outcome == LW_SOLVED) {
            lw_record made = lw_make_pattern(table, table_len, answer, LW_ANSWER_ROW_NUMBERS * solved.pieces, fresh,
                                             solved.free, pattern, sizeof pattern, work, LW_WORK_NUMBERS);
            if (made.outcome != LW_ACCEPTED)
                return refused("answer", made);
        }
        print_pattern(solved.outcome == LW_SOLVED ? pattern : fresh, read.pieces);
        if (!next_fresh(solved.free))
            break;
    }
    return 0;
}
