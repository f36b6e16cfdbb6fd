/*
  positions_example.c -- where a layout fits in a recording: the starts of a run
  of words at which they meet the table of a sheet

      positions_example SHEET WORDS

  All variables of the sheet have 16 bits; each is a word of the window. WORDS is a
  file of 16-bit words, each of two bytes, the low byte first. The number of starts
  is printed, and then each start on a line, counted in words from 0.

  The exit status is 0 if there is a start, 1 if there is none, and 2 if the sheet,
  its table or the run is refused, or a file cannot be read.
*/

#include <inttypes.h>
#include <stdio.h>

#include "linkwords.h"

/* A byte and a word more than are accepted, so that a longer file is refused. */
static uint8_t sheet[LW_MAX_SHEET + 1], bytes[2 * (LW_MAX_WORDS + 1)];
static uint16_t table[LW_TABLE_NUMBERS], words[LW_MAX_WORDS + 1];
static uint32_t list[LW_MAX_WORDS];

static int refused(const char *what, lw_record record)
{
    fprintf(stderr, "%s refused: %" PRIu32 ", row %" PRIu32 "\n", what, record.outcome, record.row);
    return 2;
}

/* Reads a file, up to so many bytes, and gives their number; one more than that if it cannot be read. */
static size_t read_file(const char *name, uint8_t *content, size_t most)
{
    FILE *file = fopen(name, "rb");
    size_t len = most + 1;

    if (file != NULL) {
        len = fread(content, 1, most, file);
        if (ferror(file))
            len = most + 1;
        fclose(file);
    }
    if (len > most)
        fprintf(stderr, "%s cannot be read\n", name);
    return len;
}

int main(int argc, char **argv)
{
    if (argc != 3) {
        fprintf(stderr, "usage: positions_example SHEET WORDS\n");
        return 2;
    }
    size_t sheet_len = read_file(argv[1], sheet, sizeof sheet), len = read_file(argv[2], bytes, sizeof bytes);
    if (sheet_len > sizeof sheet || len > sizeof bytes)
        return 2;
    if (len % 2 != 0) {
        fprintf(stderr, "%s has half a word at its end\n", argv[2]);
        return 2;
    }
    for (size_t i = 0; i < len / 2; i++)
        words[i] = (uint16_t)(bytes[2 * i] + 256 * bytes[2 * i + 1]);

    lw_record read = lw_read_sheet(sheet, sheet_len, table, LW_TABLE_NUMBERS);
    if (read.outcome != LW_ACCEPTED)
        return refused("sheet", read);
    lw_record found = lw_marker_positions(table, 4 * read.pieces, words, len / 2, list, LW_MAX_WORDS);
    if (found.outcome != LW_ACCEPTED)
        return refused("search", found);

    printf("%" PRIu32 " starts in %zu words\n", found.pieces, len / 2);
    for (uint32_t i = 0; i < found.pieces; i++)
        printf("%" PRIu32 "\n", list[i]);
    return found.pieces == 0 ? 1 : 0;
}
