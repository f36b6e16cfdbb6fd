/* draw_pieces.c -- variables and their pieces, line by line */

#include <stdio.h>
#include <string.h>

#include "draw.h"

word words[LW_MAX_VARIABLES];
unsigned variables, columns, bottom;

static unsigned lines_of(unsigned width)
{
    return (width + LINE_BITS - 1) / LINE_BITS;
}

void lay_out(const sheet *s)
{
    bottom = HEAD;
    variables = columns = 0;
    for (uint32_t r = 0; r < s->rows; r++) {
        unsigned width = s->table[ROW * r + 1], longest = width < LINE_BITS ? width : LINE_BITS;
        if (s->table[ROW * r] != LW_VARIABLE)
            continue;
        words[variables++] = (word){.row = r, .width = width, .top = bottom};
        bottom += lines_of(width) * LINE + BETWEEN;
        columns = columns < longest ? longest : columns;
    }
}

/* The left edge of a bit, and the upper edge of its box. */
static unsigned bit_x(unsigned bit)
{
    return MARGIN + LABEL + (columns - 1 - bit % LINE_BITS) * CELL;
}

static unsigned bit_y(const word *w, unsigned bit)
{
    return w->top + (lines_of(w->width) - 1 - bit / LINE_BITS) * LINE + ABOVE;
}

static const char *const colour[COLOURS] = {"#56B4E9", "#F0E442", "#D55E00", "#0072B2",
                                            "#E69F00", "#009E73", "#CC79A7"};
static const char *const texture[TEXTURES] = {"none", "url(#stripes)", "url(#dots)", "url(#bars)"};

/* Whether a piece is a fresh piece that stood before. */
static bool stands_again(const piece *p)
{
    return p->kind == LW_FRESH && (p->home != (unsigned)(p->of - words) || p->home_high != p->high);
}

/* On bits high to low of a piece, in their middle: its number, or that it is free. */
static void draw_badge(const piece *p, unsigned high, unsigned low)
{
    static const unsigned widths[] = {0, 22, 28, 28, 30};
    unsigned middle = (bit_x(high) + bit_x(low) + CELL) / 2, y = bit_y(p->of, high) + BOX / 2;
    char text[16] = "free";

    if (p->kind == LW_FRESH)
        snprintf(text, sizeof text, "%u", p->number);
    size_t length = strlen(text);
    put("<rect class=\"badge%s\" x=\"%u\" y=\"%u\" width=\"%u\" height=\"20\" rx=\"10\"/>\n",
           stands_again(p) ? " again" : "", middle - widths[length] / 2, y - 10, widths[length]);
    begin_text(length > 2 ? "number long" : "number", middle, length > 2 ? y + 4 : y + 5);
    put("%s</text>\n", text);
}

/* The lines between the bits high to low of a piece, and behind an end bit where it goes on. */
static void draw_cells(const piece *p, unsigned high, unsigned low)
{
    unsigned y = bit_y(p->of, high);

    put("<path class=\"cells\" d=\"");
    if (high != p->high)
        put("M%u %uv%u", bit_x(high), y, BOX);
    for (unsigned bit = high; bit > low; bit--)
        put("M%u %uv%u", bit_x(bit) + CELL, y, BOX);
    if (low != p->low)
        put("M%u %uv%u", bit_x(low) + CELL, y, BOX);
    put("\"/>\n");
}

/* The bits high to low of a piece, which stand in one line. */
static void draw_run(const piece *p, unsigned high, unsigned low)
{
    unsigned left = bit_x(high) + 1, right = bit_x(low) + CELL - 1, y = bit_y(p->of, high);

    if (high != p->high)
        left -= OUT;
    if (low != p->low)
        right += OUT;
    draw_box(left, right, y, p->kind == FREE ? "#fff" : p->kind == LW_FRESH ? colour[p->number % COLOURS] : "#ddd");
    if (p->kind == LW_FRESH && p->number / COLOURS % TEXTURES != 0)
        draw_box(left, right, y, texture[p->number / COLOURS % TEXTURES]);
    if (p->high != p->low)
        draw_cells(p, high, low);
    if (p->kind == LW_FRESH || p->kind == FREE) {
        draw_badge(p, high, low);
        return;
    }
    for (unsigned bit = high + 1; bit-- > low;) {
        begin_text("value", bit_x(bit) + CELL / 2, y + BOX / 2 + 6);
        put("%u</text>\n", p->kind);
    }
}

/* A piece, line by line; and what is told where one points at it. */
void draw_piece(const piece *p)
{
    unsigned variable = (unsigned)(p->of - words), high = p->high;

    if (p->high == p->low)
        put("<g><title>variable %u, bit %u: ", variable, p->high);
    else
        put("<g><title>variable %u, bits %u to %u: ", variable, p->high, p->low);
    if (p->kind == FREE)
        put("free</title>\n");
    else if (stands_again(p))
        put("fresh piece %u, at home in variable %u from bit %u</title>\n", p->number, p->home, p->home_high);
    else if (p->kind == LW_FRESH)
        put("fresh piece %u</title>\n", p->number);
    else
        put("fill of %u</title>\n", p->kind);
    for (; high / LINE_BITS > p->low / LINE_BITS; high = high / LINE_BITS * LINE_BITS - 1)
        draw_run(p, high, high / LINE_BITS * LINE_BITS);
    draw_run(p, high, p->low);
    put("</g>\n");
}

/* A variable's name, and its bits' numbers. */
void draw_word(const word *w)
{
    unsigned x = bit_x(w->width - 1) - 16, y = w->top + ABOVE + BOX / 2;

    begin_text("name", x, y - 2);
    put("variable %u</text>\n", (unsigned)(w - words));
    begin_text("side", x, y + 13);
    put("%u bit%s, row %" PRIu32 "</text>\n", w->width, w->width == 1 ? "" : "s", w->row);
    for (unsigned bit = w->width; bit-- > 0;) {
        begin_text("bit", bit_x(bit) + CELL / 2, bit_y(w, bit) - 4);
        put("%u</text>\n", bit);
    }
}
