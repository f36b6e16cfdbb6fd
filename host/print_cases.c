/*
  print_cases.c -- what the programs of the crates cases and solve have to print

      print_cases DIRECTORY <NAMES
      print_cases DIRECTORY PRINTS <NAMES

  For each name on a line of standard input, the sheet of that name in the
  directory is read, solved by an enumeration of all patterns, and printed as
  crates/cases/src/main.rt says. With a second directory, what the program solve
  has to print for the sheet, and nothing else, is put into a file of that name
  there. Nothing of it is the library's: the readers and the makers are those of
  reference.h, enumerate.h and plain_pattern.h.

  64 variables have too many patterns to be enumerated. A table of so many is
  solved by plain_solver.h, which test_solve.c compares with the enumeration.

  The exit status is 1 if a sheet cannot be read, if its table is accepted and
  has more variable bits than can be enumerated but not 64 variables, or if
  nothing can be written.
*/

#include <inttypes.h>
#include <stdbool.h>
#include <stdio.h>
#include <string.h>

#include "enumerate.h"
#include "plain_pattern.h"
#include "plain_solver.h"
#include "reference.h"

enum { FORM_NUMBERS = 4096, SHEET_BYTES = 16384, VARIABLE = 0, VARIABLES = 64, NEVER = 1, SOLVED = 2 };

static uint8_t sheet[SHEET_BYTES + 1];
static uint16_t table[4 * REF_ROWS];
static ref_table facts;
static lw_record solved;                  /* the table's record, */
static uint16_t answer[6 * PLAIN_BITS];   /* and its answer table */

static void print_values(lw_record r)
{
    printf("%" PRIu32 " %" PRIu32 " %" PRIu32 " %" PRIu32 " %" PRIu32 " %" PRIu32 "\n",
           r.outcome, r.pieces, r.fresh, r.free, r.ties, r.row);
}

/* The pieces of a normal form: kind, variable, high, low. */
static void print_pieces(const uint16_t *n, size_t pieces)
{
    for (size_t i = 0; i < pieces; i++, n += 4)
        printf("%u %u %u %u\n", n[0], n[1], n[2], n[3]);
}

/* The rows of an answer table. */
static void print_answer(const uint16_t *n, size_t rows)
{
    printf("variable kind width fresh home high\n");
    for (size_t i = 0; i < rows; i++, n += 6)
        printf("%u %u %u %u %u %u\n", n[0], n[1], n[2], n[3], n[4], n[5]);
}

static void print_bits(const uint8_t *bits, size_t count)
{
    for (size_t i = 0; i < count; i++)
        putchar(bits[i] == 1 ? '1' : '0');
    putchar('\n');
}

/* The normal form of each row; an equation's is refused. */
static void print_forms(size_t numbers)
{
    static uint16_t form[FORM_NUMBERS];

    printf("forms\n");
    for (size_t r = 0; r < numbers / 4; r++) {
        lw_record record = ref_normal_form(table, numbers, r, form, FORM_NUMBERS);
        print_values(record);
        print_pieces(form, record.pieces);
    }
}

/* The value of each row under the pattern whose places 0, 3, 6, .. are 1. */
static void print_row_values(size_t numbers)
{
    static uint8_t pattern[PLAIN_BITS], value[REF_WIDTH];

    for (size_t i = 0; i < facts.bits; i++)
        pattern[i] = i % 3 == 0;
    printf("values\n");
    for (size_t r = 0; r < numbers / 4; r++) {
        lw_record record = ref_value(table, numbers, r, pattern, facts.bits, value, REF_WIDTH);
        print_values(record);
        if (record.outcome == 0)
            print_bits(value, record.free);
    }
}

/* The pattern whose fresh bits 0, 2, 4, .. are 1, and that whose fresh bits 1, 3, 5, .. are. */
static void print_patterns(void)
{
    static uint8_t fresh[PLAIN_BITS], pattern[PLAIN_BITS];

    printf("patterns\n");
    for (size_t first = 0; first < 2; first++) {
        for (size_t i = 0; i < solved.free; i++)
            fresh[i] = i % 2 == first;
        lw_record record = plain_fill(answer, 6 * solved.pieces, fresh, solved.free, pattern, facts.bits);
        print_values(record);
        print_bits(pattern, record.free);
    }
}

static size_t variable_count(void)
{
    size_t count = 0;
    for (size_t r = 0; r < facts.rows; r++)
        count += table[4 * r] == VARIABLE;
    return count;
}

/* Solves an accepted table; whether it could be. */
static bool solve(void)
{
    static enumeration found;

    if (facts.bits <= ENUM_BITS) {
        enumerate(table, &facts, &found);
        solved = found.record;
        memcpy(answer, found.answer, sizeof found.answer);
    } else {
        solved = plain_solve(table, &facts, answer);
    }
    return facts.bits <= ENUM_BITS || variable_count() == VARIABLES;
}

/* All that is printed for the first bytes of the sheet, or what solve prints; whether it could be. */
static bool print_sheet(size_t len, bool solve_only)
{
    lw_record record = ref_read_sheet(sheet, len, table, 4 * REF_ROWS);
    size_t numbers = 4 * (size_t)record.pieces;

    if (record.outcome == 0)
        record = ref_check(table, numbers, &facts);
    if (record.outcome == 0) {
        if (!solve())
            return false;
        record = solved;
    }
    printf("outcome pieces fresh free ties row\n");
    print_values(record);
    if (record.outcome > SOLVED)
        return true;
    if (record.outcome == SOLVED)
        print_answer(answer, record.pieces);
    if (solve_only)
        return true;
    print_forms(numbers);
    if (record.outcome != NEVER)
        print_row_values(numbers);
    if (record.outcome == SOLVED)
        print_patterns();
    return true;
}

int main(int argc, char **argv)
{
    char name[256], path[1024];
    const bool solve_only = argc == 3;

    while ((argc == 2 || argc == 3) && fgets(name, sizeof name, stdin) != NULL) {
        name[strcspn(name, "\n")] = '\0';
        snprintf(path, sizeof path, "%s/%s", argv[1], name);
        FILE *file = fopen(path, "rb");
        if (file == NULL) {
            perror(path);
            return 1;
        }
        size_t len = fread(sheet, 1, sizeof sheet, file);
        fclose(file);
        if (solve_only) {
            snprintf(path, sizeof path, "%s/%s", argv[2], name);
            if (freopen(path, "wb", stdout) == NULL) {
                perror(path);
                return 1;
            }
        } else {
            printf("%s\n", name);
        }
        if (!print_sheet(len, solve_only)) {
            fprintf(stderr, "%s: more than %d variable bits\n", name, ENUM_BITS);
            return 1;
        }
        if (fflush(stdout) != 0)
            return 1;
    }
    return argc == 2 || argc == 3 ? 0 : 1;
}
