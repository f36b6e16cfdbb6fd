/*
  job_example.c -- a sheet's equations taken one by one

      job_example SHEET

  For each equation two lines: what it would do, told before it is taken, and then
  its row and the record of the answer with it and the equations before it taken.
  It stops at the first that leaves no pattern.

  The exit status is 0 if some pattern meets the table, 1 if none does, and 2 if
  the sheet or its table is refused or cannot be read.
*/

#include <inttypes.h>
#include <stdio.h>

#include "linkwords.h"

static uint8_t sheet[LW_MAX_SHEET + 1]; /* one byte more, so that a longer sheet is refused */
static uint16_t table[LW_TABLE_NUMBERS], work[LW_WORK_NUMBERS];

static int refused(const char *what, lw_record record)
{
    fprintf(stderr, "%s refused: %" PRIu32 ", row %" PRIu32 "\n", what, record.outcome, record.row);
    return 2;
}

/* What taking the equation of the next row would do. */
static void foretell(lw_job job, lw_record r)
{
    uint32_t ties = r.ties - job.ties; /* that it brings */

    printf("row %" PRIu32 " would ", job.next);
    if (r.outcome == LW_NEVER)
        printf("leave no pattern\n");
    else if (r.outcome == LW_ALWAYS)
        printf("leave every pattern\n");
    else
        printf("bring %" PRIu32 " tie%s and leave %" PRIu32 " piece%s\n", ties, ties == 1 ? "" : "s", r.pieces,
               r.pieces == 1 ? "" : "s");
}

int main(int argc, char **argv)
{
    FILE *file = argc == 2 ? fopen(argv[1], "rb") : NULL;
    if (file == NULL) {
        fprintf(stderr, "usage: job_example SHEET\n");
        return 2;
    }
    size_t len = fread(sheet, 1, sizeof sheet, file);
    int failed = ferror(file);
    fclose(file);
    if (failed != 0)
        return 2;

    lw_record read = lw_read_sheet(sheet, len, table, LW_TABLE_NUMBERS);
    if (read.outcome != LW_ACCEPTED)
        return refused("sheet", read);

    lw_job job; /* this and the work area are the job */
    lw_record r = lw_job_open(table, 4 * read.pieces, &job, work, LW_WORK_NUMBERS);
    if (r.outcome > LW_SOLVED)
        return refused("table", r);
    while (job.next < read.pieces) { /* LW_JOB_NEVER is above every number of rows */
        uint32_t row = job.next;
        r = lw_job_preview(table, 4 * read.pieces, &job, work, LW_WORK_NUMBERS); /* the job stays */
        if (r.outcome > LW_SOLVED)
            return refused("preview", r);
        foretell(job, r);
        r = lw_job_step(table, 4 * read.pieces, &job, work, LW_WORK_NUMBERS);
        if (r.outcome > LW_SOLVED)
            return refused("job", r);
        printf("row %" PRIu32 ": %" PRIu32 " %" PRIu32 " %" PRIu32 " %" PRIu32 " %" PRIu32 " %" PRIu32 "\n",
               row, r.outcome, r.pieces, r.fresh, r.free, r.ties, r.row);
    }
    return r.outcome == LW_NEVER ? 1 : 0;
}
