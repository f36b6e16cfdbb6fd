/* form.c -- form: a row's normal form, in numbers and in words */

#include "desk.h"

static sheet s;

static int run(const arguments *given)
{
    static uint16_t form[LW_FORM_NUMBERS];
    size_t row;
    lw_record found;
    int status = load_accepted(given->words < 2 ? NULL : given->word[1], &s);

    if (status == YES)
        status = load_row(&s, given->word[0], &row);
    if (status != YES)
        return status;
    found = lw_normal_form(s.table, ROW * s.rows, row, form, LW_FORM_NUMBERS);
    if (found.outcome != LW_ACCEPTED)
        return tell_refusal(s.name, found);
    put("kind variable high low\n");
    for (uint32_t i = 0; i < found.pieces; i++) {
        const uint16_t *n = form + LW_PIECE_NUMBERS * i;
        put("%u %u %u %u\n", n[0], n[1], n[2], n[3]);
    }
    put_form(&s, form, found.pieces);
    put("\n");
    return YES;
}

const command form_command = {
    .name = "form", .synopsis = "ROW [FILE]", .least = 1, .most = 2, .run = run,
    .help = "Prints the normal form of a row: its pieces in numbers, the high end first, and\n"
            "then in words. Two rows with the same one have the same value under every pattern.\n"
            "Exit status: 0, 2 if the sheet is refused, or the row is absent or an equation.\n"};
