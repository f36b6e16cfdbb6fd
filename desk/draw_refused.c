/* draw_refused.c -- the picture of a never and of a refusal: the row, and what is to be said of it */

#include <stdio.h>

#include "draw.h"

/* A row of the table, with the line of the sheet that it stands in. */
static void draw_row(const sheet *s)
{
    static const char *const names[] = {"kind", "a", "b", "c"};
    unsigned x = MARGIN + LABEL, y = HEAD + ABOVE;
    uint32_t row = s->solved.row;

    begin_text("name", x - 16, y + BOX / 2 - 2);
    put("row %" PRIu32 "</text>\n", row);
    begin_text("side", x - 16, y + BOX / 2 + 13);
    put("line %" PRIu32 " of the sheet</text>\n", row + 2);
    for (unsigned i = 0; i < 4; i++, x += 2 * CELL) {
        begin_text("bit", x + CELL, y - 4);
        put("%s</text>\n", names[i]);
        draw_box(x + 1, x + 2 * CELL - 1, y, "#fff");
        begin_text("value", x + CELL, y + BOX / 2 + 6);
        put("%u</text>\n", s->table[ROW * row + i]);
    }
}

static void draw_row_and_note(const sheet *s, const char *note)
{
    bottom = HEAD + LINE + BETWEEN;
    begin_picture(s->solved, LEAST, bottom + NOTE + MARGIN);
    draw_row(s);
    draw_note(bottom + 10, note);
    end_picture();
}

static void draw_note_alone(const sheet *s, const char *note)
{
    begin_picture(s->solved, LEAST, HEAD + NOTE + MARGIN);
    draw_note(HEAD + 10, note);
    end_picture();
}

void draw_never(const sheet *s)
{
    char note[80];
    uint32_t row = s->solved.row;

    snprintf(note, sizeof note, "No pattern is left at row %" PRIu32 ", the equation of rows %u and %u.", row,
             s->table[ROW * row + 1], s->table[ROW * row + 2]);
    draw_row_and_note(s, note);
}

/* A sheet that is refused by 20 to 23 has no row that could be shown. */
void draw_refused(const sheet *s)
{
    char note[80];

    switch (s->solved.outcome) {
    case LW_REFUSED_KIND:
        draw_row_and_note(s, "The kind is above 5.");
        break;
    case LW_REFUSED_UNUSED:
        draw_row_and_note(s, "A column that the kind does not use is not 0.");
        break;
    case LW_REFUSED_NAME:
        draw_row_and_note(s, "A row that it names is not earlier, or is an equation.");
        break;
    case LW_REFUSED_WIDTH:
        draw_row_and_note(s, "The width is outside 1 to 1024, or the bit of a fill is above 1.");
        break;
    case LW_REFUSED_VALUE:
        draw_row_and_note(s, "The width of the marker is above 16, or its value does not fit its width.");
        break;
    case LW_REFUSED_CUT:
        draw_row_and_note(s, "The high of the cut is not below the width, or its low is above its high.");
        break;
    case LW_REFUSED_MAXIMUM:
        draw_row_and_note(s, "It is a 65th variable or equation, or makes over 4096 variable bits.");
        break;
    case LW_REFUSED_SIDES:
        draw_row_and_note(s, "The sides of the equation are of unequal width.");
        break;
    case LW_REFUSED_SHEET:
        draw_note_alone(s, "The sheet has over 16384 bytes.");
        break;
    case LW_REFUSED_NAMES:
        draw_note_alone(s, "Line 1 of the sheet, that of the names, is malformed, or there is none.");
        break;
    case LW_REFUSED_LINES:
        draw_note_alone(s, "Line 514 of the sheet is a 513th row.");
        break;
    case LW_REFUSED_LINE:
        snprintf(note, sizeof note, "Line %" PRIu32 " of the sheet is malformed.", s->solved.row + 2);
        draw_note_alone(s, note);
        break;
    default: /* no other refusal comes from a sheet */
        draw_note_alone(s, "");
    }
}
