/*
  compare.c -- compare: what a new layout allows against the old one, and of each
  that allows more a pattern that the other shuts out

  The pattern of a sheet A that a sheet B shuts out: if B is never, any pattern of
  A. Else an equation of B has a bit pair whose two bits are not equal in A, by its
  answer rows: they are held by two different sources, of which the fresh ones can
  be chosen so that they differ. That A allows it and B does not is checked by
  lw_value.
*/

#include <string.h>

#include "desk.h"

static sheet old_sheet, new_sheet;

/* Of each place of A, by hold_by; and which fresh bit it is that has its home at a place. */
static uint32_t held[LW_MAX_VARIABLE_BITS], fresh_of[LW_MAX_VARIABLE_BITS];

static void find_fresh_bits(const sheet *a)
{
    uint32_t count = 0;

    hold_by(a, a->solved, a->answer, held);
    for (uint32_t i = 0, seen = 0, place = 0; a->solved.outcome == LW_SOLVED && i < a->solved.pieces; i++) {
        const uint16_t *n = a->answer + ANSWER_ROW * i;
        if (n[1] == LW_FRESH && n[3] == seen) { /* its first appearance */
            seen++;
            for (uint32_t k = 0; k < n[2]; k++)
                fresh_of[place + k] = count++;
        }
        place += n[2];
    }
    for (uint32_t p = 0; a->solved.outcome == LW_ALWAYS && p < a->bits; p++)
        fresh_of[p] = p;
}

/* The source that holds a source. */
static uint32_t holder(uint32_t source)
{
    return source < PLACES ? source : held[source - PLACES];
}

/* Chooses the fresh bits so that a pair of B differs in A; false if there is no such pair. */
static bool choose(const sheet *b, uint8_t *fresh)
{
    static pair pairs[LW_MAX_WIDTH];

    for (uint32_t r = 0; r < b->rows; r++) {
        size_t count = counts(b, r) ? pairs_of(b, r, pairs) : 0;
        for (size_t i = 0; i < count; i++) {
            uint32_t x = holder(pairs[i].a), y = holder(pairs[i].b);
            if (x == y)
                continue;
            if (x >= PLACES)
                fresh[fresh_of[x - PLACES]] = y == 0; /* a 1 against a 0, else a 0 */
            if (y >= PLACES)
                fresh[fresh_of[y - PLACES]] = x != 1;
            return true;
        }
    }
    return false;
}

/* Writes a pattern that A allows and B does not, and an equation of B that it breaks; YES or TROUBLE. */
static int put_between(const sheet *a, const sheet *b)
{
    static uint8_t fresh[LW_MAX_VARIABLE_BITS], pattern[LW_MAX_VARIABLE_BITS];
    static sides v;
    uint32_t broken;

    memset(fresh, 0, sizeof fresh);
    find_fresh_bits(a);
    if (b->solved.outcome != LW_NEVER && !choose(b, fresh))
        return internal_error("no bit pair tells the sheets apart");
    if (!make_pattern(a, fresh, pattern))
        return internal_error("lw_make_pattern refuses the sheet's own answer");
    if (!meets(a, pattern, &broken) || meets(b, pattern, &broken))
        return internal_error("the pattern found does not tell the sheets apart");
    put("%s allows and %s does not:\n    ", a->name, b->name);
    put_pattern(a, pattern);
    put("  it breaks ");
    value_sides(b, broken, pattern, &v);
    put_broken(b, broken, &v);
    return YES;
}

static int run(const arguments *given)
{
    static const char *const words[] = {"same", "more", "fewer", "neither"};
    lw_record r;
    int status = load(given->word[0], &old_sheet);

    if (status == YES)
        status = load(given->word[1], &new_sheet);
    if (status == YES && old_sheet.solved.outcome > LW_SOLVED)
        status = tell_refusal(old_sheet.name, old_sheet.solved);
    if (status == YES && new_sheet.solved.outcome > LW_SOLVED)
        status = tell_refusal(new_sheet.name, new_sheet.solved);
    if (status != YES)
        return status;
    r = lw_compare_tables(old_sheet.table, ROW * old_sheet.rows, new_sheet.table, ROW * new_sheet.rows, work, LW_WORK_NUMBERS);
    if (r.outcome > LW_NEITHER)
        return tell_refusal(new_sheet.name, r);
    put("%s\n", words[r.outcome]);
    if (r.outcome == LW_STRICTER || r.outcome == LW_NEITHER)
        status = put_between(&new_sheet, &old_sheet);
    if (status == YES && (r.outcome == LW_LOOSER || r.outcome == LW_NEITHER))
        status = put_between(&old_sheet, &new_sheet);
    return status != YES ? status : r.outcome == LW_SAME ? YES : NO;
}

const command compare_command = {
    .name = "compare", .synopsis = "OLD NEW", .least = 2, .most = 2, .run = run,
    .help = "Prints what the new sheet allows against the old one: same, fewer, more or neither;\n"
            "and for each that allows more, a pattern that it allows and the other does not,\n"
            "with an equation that shuts it out. The variables have the same widths in the\n"
            "same order.\n"
            "Exit status: 0 for same, 1 for the others, 2 if a sheet is refused or they cannot be compared.\n"};
