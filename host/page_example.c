/*
  page_example.c -- the result sheet of a sheet, for the panel folder

      page_example SHEET | lp

  prints all pages of the answer, or of the refusal where the sheet or its table
  is refused: each page is 60 lines of 40 characters. The exit status is 0, or 2
  if the sheet cannot be read.
*/

#include <stdbool.h>
#include <stdio.h>

#include "linkwords.h"

static uint8_t sheet[LW_MAX_SHEET + 1]; /* one byte more, so that a longer sheet is refused */
static uint16_t table[LW_TABLE_NUMBERS], answer[LW_ANSWER_NUMBERS], work[LW_WORK_NUMBERS];

static bool print_page(lw_record record, size_t number)
{
    lw_page_bytes page = lw_page(record, answer, LW_ANSWER_NUMBERS, number);
    return fwrite(page.bytes, 1, sizeof page.bytes, stdout) == sizeof page.bytes;
}

int main(int argc, char **argv)
{
    FILE *file = argc == 2 ? fopen(argv[1], "rb") : NULL;
    if (file == NULL) {
        fprintf(stderr, "usage: page_example SHEET\n");
        return 2;
    }
    size_t len = fread(sheet, 1, sizeof sheet, file);
    bool failed = ferror(file) != 0;
    fclose(file);
    if (failed)
        return 2;

    lw_record record = lw_read_sheet(sheet, len, table, LW_TABLE_NUMBERS);
    if (record.outcome == LW_ACCEPTED)
        record = lw_solve(table, 4 * record.pieces, answer, LW_ANSWER_NUMBERS, work, LW_WORK_NUMBERS);

    /* Page 0 is always there; of the others each has a piece. */
    size_t number = 0;
    do {
        if (!print_page(record, number++))
            return 2;
    } while (record.outcome == LW_SOLVED && LW_PAGE_PIECES * number < record.pieces);
    return fflush(stdout) == 0 ? 0 : 2;
}
