/*
  steps.c -- steps: the equations taken one by one, each told before it is taken

  A job refuses line numbers. Of a sheet that has some, the equations that count
  are stepped at their own rows, and the others are the equation that says nothing.
*/

#include <string.h>

#include "desk.h"

static sheet s;
static uint16_t table[LW_TABLE_NUMBERS];
static bool left_off[LW_MAX_ROWS];

static void put_first_line(void)
{
    const char *before = ": ";

    put("the sheet has line numbers: the equations that count are stepped, at their own rows");
    for (uint32_t r = 0; r < s.rows; r++)
        if (left_off[r]) {
            put("%srow %" PRIu32, before[0] == ':' ? "; revised, and left off: " : before, r);
            before = ", ";
        }
    put("\n");
}

/* The table that is stepped. */
static void take_table(void)
{
    memcpy(table, s.table, sizeof table);
    for (uint32_t r = 0; r < s.rows; r++) {
        left_off[r] = table[ROW * r] == LW_EQUATION && !counts(&s, r);
        if (left_off[r])
            leave_off(table, r);
        else if (table[ROW * r] == LW_EQUATION)
            table[ROW * r + 3] = 0;
    }
    if (has_lines(&s))
        put_first_line();
}

/* What taking the equation of the next row would do, and the record of it taken. */
static void foretell(lw_job job, lw_record r)
{
    uint32_t ties = r.ties - job.ties; /* that it brings */

    put("row %" PRIu32 ": ", job.next);
    put_equation(&s, job.next);
    put("\n    would ");
    if (r.outcome == LW_NEVER)
        put("leave no pattern\n");
    else if (ties == 0)
        put("bring nothing new\n");
    else
        put("bring %" PRIu32 " tie%s and leave 2^%" PRIu32 " patterns in %" PRIu32 " piece%s\n", ties, plural(ties), r.free,
            r.pieces, plural(r.pieces));
}

static void put_record(lw_record r)
{
    put("    record %" PRIu32 " %" PRIu32 " %" PRIu32 " %" PRIu32 " %" PRIu32 " %" PRIu32 "\n", r.outcome, r.pieces, r.fresh, r.free,
        r.ties, r.row);
}

/* What holds each source: the job's work area, and then what the pairs of one equation change. */
static uint32_t held[SOURCES];

static void hold_by_work(void)
{
    held[0] = 0, held[1] = 1;
    for (uint32_t p = 0; p < s.bits; p++)
        held[p + PLACES] = work[p] >= LW_HELD_FIXED ? work[p] - LW_HELD_FIXED : work[p] + PLACES;
}

/* Why an equation leaves no pattern: the bit pair at which a 0 meets a 1. */
static int put_reason(uint32_t row)
{
    static pair pairs[LW_MAX_WIDTH];
    size_t count = pairs_of(&s, row, pairs);

    hold_by_work();
    for (size_t i = 0; i < count; i++) {
        uint32_t a = held[pairs[i].a], b = held[pairs[i].b], low = a < b ? a : b, high = a < b ? b : a;
        if (high == 1 && low == 0) {
            put("stops at row %" PRIu32 ": it asks for ", row);
            put_source(&s, pairs[i].a);
            put(" = ");
            put_source(&s, pairs[i].b);
            put(", and by what stands before, the left is %" PRIu32 " and the right is %" PRIu32 "\n", a, b);
            return NO;
        }
        for (uint32_t source = 0; high != low && source < s.bits + PLACES; source++)
            if (held[source] == high)
                held[source] = low;
    }
    return internal_error("the job stops, and its bit pairs do not");
}

static int run(const arguments *given)
{
    lw_job job;
    lw_record r, told;
    int status = load_accepted(given->words == 0 ? NULL : given->word[0], &s);

    if (status != YES)
        return status;
    take_table();
    r = lw_job_open(table, ROW * s.rows, &job, work, LW_WORK_NUMBERS);
    while (r.outcome <= LW_SOLVED && job.next < s.rows) { /* LW_JOB_NEVER is above every number of rows */
        uint32_t row = job.next;
        told = lw_job_preview(table, ROW * s.rows, &job, work, LW_WORK_NUMBERS);
        if (!left_off[row])
            foretell(job, told);
        r = lw_job_step(table, ROW * s.rows, &job, work, LW_WORK_NUMBERS);
        if (memcmp(&told, &r, sizeof r) != 0)
            return internal_error("a step is not what its preview told");
        if (!left_off[row])
            put_record(r);
    }
    if (memcmp(&r, &s.solved, sizeof r) != 0)
        return internal_error("the job's record is not that of the sheet");
    if (r.outcome == LW_NEVER)
        return put_reason(r.row);
    put("all equations are taken: 2^%" PRIu32 " patterns are left\n", r.free);
    return YES;
}

const command steps_command = {
    .name = "steps", .synopsis = "[FILE]", .most = 1, .run = run,
    .help = "Takes the equations one by one, in the order of their rows. Prints for each what\n"
            "it would do, told before it is taken, and the record (outcome, pieces, fresh, free,\n"
            "ties, row) of the answer so far; and where it stops and why. Of a sheet with line\n"
            "numbers the equations that count are taken, which the first line says.\n"
            "Exit status: 0 if some pattern meets the sheet, 1 if none does, 2 if it is refused.\n"};
