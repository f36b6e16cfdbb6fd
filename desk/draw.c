/*
  draw.c -- draw: a picture of a sheet's answer, as SVG

  Each variable is a row of bits, the high end left, with the bits' numbers
  above them. The low ends of all variables stand in one column; a variable of
  more than 32 bits takes a line for each 32 of them, counted from the low end.

  A fill is grey and shows its bit in each place. A fresh piece has one colour
  wherever it stands, and its number is written on it; the ring around it is
  dashed where the piece is not at home. A piece that goes on in the next line
  sticks out of both lines. The colours are those of M. Okabe and K. Ito, which
  can be told apart with any colour vision. There are seven: fresh piece 7 has
  the first of them again, under stripes, piece 14 under dots and piece 21 under
  bars. From piece 28 on all of it comes again, and the number alone tells.

  For outcome 0 (always) each variable is drawn as one piece that is free. For
  outcome 1 (never) and for a refusal the picture says so, with the row.

  The same sheet gives the same bytes. The picture uses no other file, and has a
  background of its own. No text of the sheet comes into it, only numbers.
*/

#include "draw.h"

static sheet s;

static unsigned picture_width(void)
{
    unsigned width = MARGIN + LABEL + columns * CELL + MARGIN;
    return width < LEAST ? LEAST : width;
}

/* What is told below a solved system: the lines of text, and how many there are. */
static unsigned notes_of(lw_record r, const char *note[4])
{
    uint32_t fresh = 0;
    unsigned notes = 0, left = 0; /* bits of the variable that are left */
    bool goes_on = false;

    for (uint32_t i = 0; i < r.pieces; i++) {
        const uint16_t *n = s.answer + ANSWER_ROW * i;
        if (i == 0 || n[0] != n[-ANSWER_ROW])
            left = words[n[0]].width;
        goes_on = goes_on || (left - 1) / LINE_BITS != (left - n[2]) / LINE_BITS;
        left -= n[2];
        fresh += n[1] == LW_FRESH;
    }
    if (fresh != r.pieces)
        note[notes++] = "The bits in grey are fixed.";
    if (fresh != 0)
        note[notes++] = "The bits of a fresh piece, in colour with its number, may be chosen.";
    if (fresh != r.fresh)
        note[notes++] = "Where a number stands again, in a dashed ring, they are the bits of its first place.";
    if (goes_on)
        note[notes++] = "A piece that sticks out of its line goes on in the next.";
    return notes;
}

static void draw_solved(lw_record r)
{
    const char *note[4];
    unsigned notes = notes_of(r, note);

    begin_picture(r, picture_width(), bottom + notes * NOTE + MARGIN);
    for (unsigned v = 0; v < variables; v++) {
        lw_part side = lw_right_side(s.answer, LW_ANSWER_NUMBERS, r.pieces, v);
        unsigned left = words[v].width;
        draw_word(words + v);
        for (const uint16_t *n = s.answer + side.start; n < s.answer + side.start + side.len; n += ANSWER_ROW) {
            draw_piece(&(piece){.of = words + v, .high = left - 1, .low = left - n[2], .kind = n[1], .number = n[3],
                                .home = n[4], .home_high = n[5]});
            left -= n[2];
        }
    }
    for (unsigned i = 0; i < notes; i++)
        draw_note(bottom + 10 + i * NOTE, note[i]);
    end_picture();
}

static void draw_always(lw_record r)
{
    begin_picture(r, picture_width(), bottom + NOTE + MARGIN);
    for (unsigned v = 0; v < variables; v++) {
        draw_word(words + v);
        draw_piece(&(piece){.of = words + v, .high = words[v].width - 1, .low = 0, .kind = FREE});
    }
    if (variables == 0)
        draw_note(bottom + 10, "There is no variable, and the pattern of no bits meets the table.");
    else
        draw_note(bottom + 10, "Every variable is whole and free: each of its bits may be chosen.");
    end_picture();
}

static int run(const arguments *given)
{
    int status = load(given->words == 0 ? NULL : given->word[0], &s);

    if (status != YES)
        return status;
    if (s.solved.outcome > LW_SOLVED)
        draw_refused(&s);
    else if (s.solved.outcome == LW_NEVER)
        draw_never(&s);
    else {
        lay_out(&s);
        if (s.solved.outcome == LW_ALWAYS)
            draw_always(s.solved);
        else
            draw_solved(s.solved);
    }
    return status_of(s.solved);
}

const command draw_command = {
    .name = "draw", .synopsis = "[FILE]", .most = 1, .run = run,
    .help = "Prints a picture of the answer, or of the refusal, as SVG: each variable as a row of\n"
            "bits, a fresh piece in one colour wherever it stands, with its number, and fixed\n"
            "bits in grey.\n"
            "Exit status: 0 if some pattern meets the sheet, 1 if none does, 2 if it is refused.\n"};
