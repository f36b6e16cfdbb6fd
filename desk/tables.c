/* tables.c -- equations of a table, their bit pairs, what holds a bit, and patterns */

#include <string.h>

#include "desk.h"

bool counts(const sheet *s, uint32_t r)
{
    uint16_t line = s->table[ROW * r + 3];

    if (s->table[ROW * r] != LW_EQUATION)
        return false;
    for (uint32_t i = r + 1; line != 0 && i < s->rows; i++)
        if (s->table[ROW * i] == LW_EQUATION && s->table[ROW * i + 3] == line)
            return false;
    return true;
}

bool has_lines(const sheet *s)
{
    for (uint32_t r = 0; r < s->rows; r++)
        if (s->table[ROW * r] == LW_EQUATION && s->table[ROW * r + 3] != 0)
            return true;
    return false;
}

/* Row 0 is no equation where there is one, since that names an earlier row. */
void leave_off(uint16_t *table, uint32_t r)
{
    uint16_t *n = table + ROW * r;
    n[0] = LW_EQUATION, n[1] = n[2] = n[3] = 0;
}

/* ---- bit pairs */

/* The sources of a row's bits, high end first, by its normal form. */
static void sources_of(const sheet *s, uint32_t r, uint32_t *sources)
{
    static uint16_t form[LW_FORM_NUMBERS];
    lw_record found = lw_normal_form(s->table, ROW * s->rows, r, form, LW_FORM_NUMBERS);

    for (uint32_t i = 0; i < found.pieces; i++) {
        const uint16_t *n = form + LW_PIECE_NUMBERS * i;
        for (uint32_t bit = n[2] + 1U; bit-- > n[3];)
            *sources++ = n[0] == LW_PART ? s->place[n[1]] + s->width[n[1]] - 1 - bit + PLACES : n[0];
    }
}

size_t pairs_of(const sheet *s, uint32_t r, pair pairs[LW_MAX_WIDTH])
{
    uint32_t sources[2][LW_MAX_WIDTH], width[2], most;

    for (int side = 0; side < 2; side++) {
        uint32_t row = s->table[ROW * r + 1 + (uint32_t)side];
        width[side] = s->row_width[row];
        sources_of(s, row, sources[side]);
    }
    most = width[0] > width[1] ? width[0] : width[1];
    for (uint32_t i = 0; i < most; i++) {
        uint32_t left = most - i; /* bits from here on */
        pairs[i].a = left > width[0] ? 0 : sources[0][width[0] - left];
        pairs[i].b = left > width[1] ? 0 : sources[1][width[1] - left];
    }
    return most;
}

/* ---- what holds a bit */

void hold_by(const sheet *s, lw_record solved, const uint16_t *answer, uint32_t *held)
{
    uint32_t place = 0;

    for (uint32_t p = 0; p < s->bits; p++)
        held[p] = p + PLACES;
    if (solved.outcome != LW_SOLVED)
        return;
    for (uint32_t i = 0; i < solved.pieces; i++) {
        const uint16_t *n = answer + ANSWER_ROW * i;
        uint32_t home = s->place[n[4]] + s->width[n[4]] - 1 - n[5];
        for (uint32_t k = 0; k < n[2]; k++, place++)
            held[place] = n[1] == LW_FRESH ? home + k + PLACES : n[1];
    }
}

/* ---- patterns */

void value_sides(const sheet *s, uint32_t r, const uint8_t *pattern, sides *v)
{
    for (int side = 0; side < 2; side++) {
        uint32_t row = s->table[ROW * r + 1 + (uint32_t)side];
        lw_record found = lw_value(s->table, ROW * s->rows, row, pattern, s->bits, v->value[side], LW_MAX_WIDTH);
        v->width[side] = found.free;
    }
    int wide = v->width[0] < v->width[1];
    size_t more = v->width[wide] - v->width[!wide];
    v->same = memcmp(v->value[wide] + more, v->value[!wide], v->width[!wide]) == 0 &&
              memchr(v->value[wide], 1, more) == NULL;
}

bool meets(const sheet *s, const uint8_t *pattern, uint32_t *broken)
{
    static sides v;

    for (uint32_t r = 0; r < s->rows; r++)
        if (counts(s, r)) {
            value_sides(s, r, pattern, &v);
            if (!v.same) {
                *broken = r;
                return false;
            }
        }
    return true;
}

/* Of an always there is no answer table, and any bits are a pattern. */
bool make_pattern(const sheet *s, const uint8_t *fresh, uint8_t *pattern)
{
    if (s->solved.outcome == LW_ALWAYS) {
        memcpy(pattern, fresh, s->bits);
        return true;
    }
    return lw_make_pattern(s->table, ROW * s->rows, s->answer, ANSWER_ROW * s->solved.pieces, fresh, s->solved.free,
                           pattern, LW_MAX_VARIABLE_BITS, work, LW_WORK_NUMBERS).outcome == LW_ACCEPTED;
}
