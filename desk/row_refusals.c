/* row_refusals.c -- what is wrong with a row of a refused table, and what would be right */

#include "desk.h"

/* The columns of each kind, in words. */
static const char *const columns[6][ROW] = {
    {"kind", "the width", "column b:", "column c:"},
    {"kind", "the bit", "the width", "column c:"},
    {"kind", "the left row", "the right row", "column c:"},
    {"kind", "the row", "high", "low"},
    {"kind", "the left row", "the right row", "the line number"},
    {"kind", "the value", "the width", "column c:"}};

static const char *const kinds[6] = {"variable", "fill", "join", "cut", "equation", "marker"};

/* Each of these writes what is wrong with a row of the table, and gives the column that is at fault, or ROW if none is. */

static unsigned put_column(const uint16_t *n, unsigned column)
{
    put("%s %u ", columns[n[0] < 6 ? n[0] : 0][column], n[column]);
    return column;
}

static unsigned put_unused(const uint16_t *n)
{
    unsigned column = put_column(n, n[2] != 0 && n[0] == LW_VARIABLE ? 2 : 3);

    put("is not 0: a %s does not use it", kinds[n[0]]);
    return column;
}

static unsigned put_name(const sheet *s, const uint16_t *n, uint32_t row)
{
    unsigned column = 1;

    if (n[0] != LW_CUT && n[1] < row && s->table[ROW * n[1]] != LW_EQUATION)
        column = 2;
    put_column(n, column);
    if (n[column] < row)
        put("is an equation: a row that has a width can be named");
    else if (row == 0)
        put("is no earlier row: row 0 has none before it");
    else
        put("is no earlier row: %" PRIu32 " is the most", row - 1);
    return column;
}

static unsigned put_width(const sheet *s, const uint16_t *n)
{
    unsigned column;

    if (n[0] == LW_JOIN) {
        uint32_t left = s->row_width[n[1]], right = s->row_width[n[2]];
        put("the join of row %u, %" PRIu32 " bit%s, and row %u, %" PRIu32 " bit%s, has %" PRIu32 " bits: 1024 is the most", n[1],
            left, plural(left), n[2], right, plural(right), left + right);
        return ROW;
    }
    if (n[0] == LW_FILL && n[1] > 1) {
        column = put_column(n, 1);
        put("is no bit: a bit is 0 or 1");
    } else {
        column = put_column(n, n[0] == LW_VARIABLE ? 1 : 2);
        put("is outside the widths of a %s: 1 to %d", kinds[n[0]], n[0] == LW_VALUE ? 16 : LW_MAX_WIDTH);
    }
    return column;
}

static unsigned put_value(const uint16_t *n)
{
    unsigned column = put_column(n, n[2] > 16 ? 2 : 1);

    if (column == 2)
        put("is too wide for a marker: 16 is the most");
    else
        put("does not fit %u bit%s: %u is the most", n[2], plural(n[2]), (1U << n[2]) - 1);
    return column;
}

static unsigned put_cut(const sheet *s, const uint16_t *n)
{
    uint32_t width = s->row_width[n[1]];
    unsigned column = put_column(n, n[2] >= width ? 2 : 3);

    if (column == 2)
        put("is not below the width %" PRIu32 " of row %u: %" PRIu32 " is the most", width, n[1], width - 1);
    else
        put("is above high, %u: %u is the most", n[2], n[2]);
    return column;
}

static unsigned put_maximum(const sheet *s, const uint16_t *n)
{
    uint32_t left = LW_MAX_VARIABLE_BITS - s->bits;

    if (n[0] == LW_EQUATION) {
        put("it is the 65th equation: 64 are the most, those that do not count among them");
        return ROW;
    }
    if (s->variables == LW_MAX_VARIABLES) {
        put("it is the 65th variable: 64 are the most");
        return ROW;
    }
    put_column(n, 1);
    put("makes %" PRIu32 " variable bits: 4096 are the most, and %" PRIu32 " %s left", s->bits + n[1], left, left == 1 ? "is" : "are");
    return 1;
}

static unsigned put_fault(const sheet *s, const uint16_t *n, lw_record r)
{
    switch (r.outcome) {
    case LW_REFUSED_KIND:    put_column(n, 0), put("is no kind: the kinds are 0 to 5"); return 0;
    case LW_REFUSED_UNUSED:  return put_unused(n);
    case LW_REFUSED_NAME:    return put_name(s, n, r.row);
    case LW_REFUSED_WIDTH:   return put_width(s, n);
    case LW_REFUSED_VALUE:   return put_value(n);
    case LW_REFUSED_CUT:     return put_cut(s, n);
    case LW_REFUSED_MAXIMUM: return put_maximum(s, n);
    default:                 return ROW; /* no other refusal is of a row */
    }
}

void put_row_fault(const sheet *s, lw_record r)
{
    unsigned column = put_fault(s, s->table + ROW * r.row, r);

    if (column != ROW)
        put(" (value %u of the line)", value_of_column(s, column));
    put("\n");
}
