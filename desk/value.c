/* value.c -- value: a row's value under a pattern, as bits and as a hexadecimal number */

#include "desk.h"

static sheet s;

static void put_hexadecimal(const uint8_t *bits, size_t width)
{
    put("h");
    for (size_t left = (width + 3) / 4; left-- != 0;) {
        unsigned digit = 0;
        for (size_t k = 4 * left + 4; k-- != 4 * left;)
            digit = 2 * digit + (k < width && bits[width - 1 - k] == 1);
        put("%x", digit);
    }
    put("\n");
}

static int run(const arguments *given)
{
    static uint8_t pattern[LW_MAX_VARIABLE_BITS], value[LW_MAX_WIDTH];
    size_t row;
    lw_record found;
    int status = load_accepted(given->word[1], &s);

    if (status == YES)
        status = load_row(&s, given->word[0], &row);
    if (status == YES)
        status = load_pattern(&s, given->words - 2, given->word + 2, pattern);
    if (status != YES)
        return status;
    found = lw_value(s.table, ROW * s.rows, row, pattern, s.bits, value, LW_MAX_WIDTH);
    if (found.outcome != LW_ACCEPTED)
        return tell_refusal(s.name, found);
    put_bits(value, found.free);
    put("\n");
    put_hexadecimal(value, found.free);
    return YES;
}

const command value_command = {
    .name = "value", .synopsis = "ROW FILE PATTERN", .least = 3, .most = 1 << 20, .run = run,
    .help = "Prints the value of a row under a pattern, as bits and as a hexadecimal number.\n"
            "PATTERN is bits, variable 0 first, each high bit first, blanks being passed over,\n"
            "or for each variable the letter h and hexadecimal digits.\n"
            "Exit status: 0, 2 if the sheet is refused, or the row is absent or an equation.\n"};
