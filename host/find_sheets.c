/*
  find_sheets.c -- random sheets worth keeping for the crate cases

      find_sheets DIRECTORY [TABLES]

  Makes TABLES small random tables (100000 if not given), always the same, and
  notes of each its outcome and what occurs in it and in its answer. From the
  smallest table to the largest, a table is kept if two of these things occur in
  it together that occur together in no table kept before. Those kept are
  written to the directory as the sheets found-001, found-002, .. Then the same
  is done with as many tables that may have markers, and with the outcomes and
  what occurs of markers alone; then with as many that may have sides of unequal
  width, and with what occurs of these alone; and then with as many whose
  equations may have line numbers, and with what occurs of these alone. What is
  kept is found-marker-001, .., found-short-001, .. and found-line-001, .., in
  which numbers above 9 are hexadecimal.
*/

#include <stdio.h>
#include <stdlib.h>

#include "small_table.h"

enum { TABLES = 100000, MOST_ROWS = 40, THINGS = FEATURES + 3 }; /* the outcomes are things too */

typedef struct {
    size_t rows;
    unsigned long number;
    uint64_t things; /* bit i stands for thing i */
    uint16_t numbers[4 * MOST_ROWS];
} kept;

static int by_rows(const void *a, const void *b)
{
    const kept *x = a, *y = b;
    if (x->rows != y->rows)
        return x->rows < y->rows ? -1 : 1;
    return x->number < y->number ? -1 : 1;
}

/* Makes a table; whether it is small enough. */
static bool make(kept *k, extent with)
{
    static sketch s;
    static ref_table facts;
    static enumeration found;
    bool has[FEATURES] = {false};

    make_small(&s, with);
    k->rows = s.d.rows;
    if (k->rows > MOST_ROWS || ref_check(ALL(s.d.t), &facts).outcome != 0 || facts.bits > ENUM_BITS)
        return false;
    enumerate(s.d.t.numbers, &facts, &found);
    note_features(&s.d, &facts, &found, has);
    k->things = (uint64_t)1 << (FEATURES + found.record.outcome);
    for (int i = 0; i < FEATURES; i++)
        k->things |= (uint64_t)has[i] << i;
    memcpy(k->numbers, s.d.t.numbers, 4 * k->rows * sizeof k->numbers[0]);
    return true;
}

/* By extent: what the names of the sheets have, and the first of the things that are looked at. The outcomes always are. */
static const struct { const char *name; int first; } passes[] = {
    [EQUAL_SIDES] = {"", 0}, [WITH_MARKERS] = {"marker-", MARKER_SIDE}, [WITH_SHORT_SIDES] = {"short-", SHORT_LEFT},
    [WITH_LINES] = {"line-", REVISED},
};

static bool write_sheet(const char *directory, unsigned number, const kept *k, extent with)
{
    char path[1024];
    snprintf(path, sizeof path, "%s/found-%s%03u", directory, passes[with].name, number);
    FILE *file = fopen(path, "wb");
    if (file == NULL)
        return false;
    fprintf(file, "kind a b c\n");
    for (size_t i = 0; i < 4 * k->rows; i++)
        fprintf(file, with != EQUAL_SIDES && k->numbers[i] > 9 ? "h%x%c" : "%u%c", k->numbers[i], i % 4 == 3 ? '\n' : ' ');
    return fclose(file) == 0;
}

/* Makes the tables and writes those that are kept; whether it could be done. */
static bool find(const char *directory, kept *all, unsigned long tables, extent with)
{
    static bool together[THINGS][THINGS];
    size_t count = 0;
    unsigned written = 0;

    for (unsigned long i = 0; i < tables; i++) {
        all[count].number = i;
        count += make(&all[count], with);
    }
    qsort(all, count, sizeof *all, by_rows);
    for (size_t i = 0; i < count; i++) {
        bool new = false;
        for (int a = passes[with].first; a < THINGS; a++)
            for (int b = passes[with].first; b < THINGS; b++)
                if ((all[i].things >> a & all[i].things >> b & 1) != 0 && !together[a][b])
                    new = together[a][b] = true;
        if (new && !write_sheet(directory, ++written, &all[i], with)) {
            perror(directory);
            return false;
        }
    }
    printf("%u sheets found-%s.. of %zu tables\n", written, passes[with].name, count);
    return true;
}

int main(int argc, char **argv)
{
    unsigned long tables = argc > 2 ? strtoul(argv[2], NULL, 10) : TABLES;
    kept *all = argc > 1 ? calloc(tables, sizeof *all) : NULL;

    if (all == NULL)
        return 1;
    bool done = find(argv[1], all, tables, EQUAL_SIDES) && find(argv[1], all, tables, WITH_MARKERS) &&
                find(argv[1], all, tables, WITH_SHORT_SIDES) && find(argv[1], all, tables, WITH_LINES);
    free(all);
    return done ? 0 : 1;
}
