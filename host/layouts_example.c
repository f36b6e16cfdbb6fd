/*
  layouts_example.c -- whether a revised layout allows what the old one did

      layouts_example OLD NEW

  OLD and NEW are sheets whose variables have the same widths in the same order.
  It is printed what frames the new one allows: the same frames, fewer, more, or
  neither, that is others.

  The exit status is 0 for the same frames, 1 for the other three, and 2 if a sheet
  or its table is refused, if their variables differ, or a file cannot be read.
*/

#include <inttypes.h>
#include <stdio.h>

#include "linkwords.h"

static uint8_t sheet[LW_MAX_SHEET + 1]; /* one byte more, so that a longer sheet is refused */
static uint16_t old_table[LW_TABLE_NUMBERS], new_table[LW_TABLE_NUMBERS], work[LW_WORK_NUMBERS];

static void tell(const char *what, lw_record record)
{
    fprintf(stderr, "%s refused: %" PRIu32 ", row %" PRIu32 "\n", what, record.outcome, record.row);
}

/* Reads a sheet, and gives the length of its table; one more than there is room for, and it is told, if it cannot be read. */
static size_t read_table(const char *name, uint16_t *table)
{
    FILE *file = fopen(name, "rb");
    size_t len = file == NULL ? 0 : fread(sheet, 1, sizeof sheet, file);
    int failed = file == NULL || ferror(file);

    if (file != NULL)
        fclose(file);
    if (failed) {
        fprintf(stderr, "%s cannot be read\n", name);
        return LW_TABLE_NUMBERS + 1;
    }
    lw_record read = lw_read_sheet(sheet, len, table, LW_TABLE_NUMBERS);
    if (read.outcome != LW_ACCEPTED) {
        tell(name, read);
        return LW_TABLE_NUMBERS + 1;
    }
    return 4 * read.pieces;
}

int main(int argc, char **argv)
{
    if (argc != 3) {
        fprintf(stderr, "usage: layouts_example OLD NEW\n");
        return 2;
    }
    size_t old_len = read_table(argv[1], old_table), new_len = read_table(argv[2], new_table);
    if (old_len > LW_TABLE_NUMBERS || new_len > LW_TABLE_NUMBERS)
        return 2;

    lw_record record = lw_compare_tables(old_table, old_len, new_table, new_len, work, LW_WORK_NUMBERS);
    switch (record.outcome) {
    case LW_SAME:     puts("the same frames"); return 0;
    case LW_STRICTER: puts("more"); return 1; /* the old layout is the stricter one */
    case LW_LOOSER:   puts("fewer"); return 1;
    case LW_NEITHER:  puts("neither"); return 1;
    default:          tell("comparison", record); return 2;
    }
}
