/*
  recordings_example.c -- what was sent and what was received, side by side

      recordings_example SHEET SENT RECEIVED

  The sheet says how the words received follow from those sent: it has k variables
  for a frame's words as they were sent and k for the same as they were received,
  all of 16 bits. SENT and RECEIVED are files of 16-bit numbers, each of two bytes,
  the low byte first: for each frame its counter and its k words. The record of
  the comparison is printed in words.

  The exit status is 0 if no frame breaks the sheet, 1 if one does, and 2 if the
  sheet, its table or a recording is refused, or a file cannot be read.
*/

#include <inttypes.h>
#include <stdio.h>

#include "linkwords.h"

/* A byte and a number more than are accepted, so that a longer file is refused. */
enum { MOST = LW_MAX_RECORDING + 1 };

static uint8_t sheet[LW_MAX_SHEET + 1], bytes[2 * MOST];
static uint16_t table[LW_TABLE_NUMBERS], sent[MOST], received[MOST];

static int refused(const char *what, lw_record record)
{
    fprintf(stderr, "%s refused: %" PRIu32 ", row %" PRIu32 "\n", what, record.outcome, record.row);
    return 2;
}

/* Reads a file, up to so many bytes, and gives their number; one more than that if it cannot be read. */
static size_t read_file(const char *name, uint8_t *content, size_t most)
{
    FILE *file = fopen(name, "rb");
    size_t len = most + 1;

    if (file != NULL) {
        len = fread(content, 1, most, file);
        if (ferror(file))
            len = most + 1;
        fclose(file);
    }
    if (len > most)
        fprintf(stderr, "%s cannot be read\n", name);
    return len;
}

/* Reads a recording, and gives the number of its numbers; one more than there is room for if it cannot be read. */
static size_t read_recording(const char *name, uint16_t *numbers)
{
    size_t len = read_file(name, bytes, sizeof bytes);

    if (len > sizeof bytes)
        return MOST + 1;
    if (len % 2 != 0) {
        fprintf(stderr, "%s has half a number at its end\n", name);
        return MOST + 1;
    }
    for (size_t i = 0; i < len / 2; i++)
        numbers[i] = (uint16_t)(bytes[2 * i] + 256 * bytes[2 * i + 1]);
    return len / 2;
}

int main(int argc, char **argv)
{
    if (argc != 4) {
        fprintf(stderr, "usage: recordings_example SHEET SENT RECEIVED\n");
        return 2;
    }
    size_t sheet_len = read_file(argv[1], sheet, sizeof sheet);
    size_t sent_len = read_recording(argv[2], sent), received_len = read_recording(argv[3], received);
    if (sheet_len > sizeof sheet || sent_len > MOST || received_len > MOST)
        return 2;

    lw_record read = lw_read_sheet(sheet, sheet_len, table, LW_TABLE_NUMBERS);
    if (read.outcome != LW_ACCEPTED)
        return refused("sheet", read);
    lw_record r = lw_compare_recordings(table, 4 * read.pieces, sent, sent_len, received, received_len);
    if (r.outcome != LW_ACCEPTED)
        return refused("comparison", r);

    printf("frames in both recordings: %" PRIu32 "\n", r.pieces);
    printf("frames in one of them only: %" PRIu32 "\n", r.fresh);
    printf("frames that break the sheet: %" PRIu32, r.free);
    if (r.free != 0)
        printf(", the first has counter %" PRIu32, r.row);
    printf("\nbits that differ: %" PRIu32 "\n", r.ties);
    return r.free == 0 ? 0 : 1;
}
