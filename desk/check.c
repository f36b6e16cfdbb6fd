/* check.c -- check: whether a pattern meets the sheet, and the equations that it breaks, by lw_value */

#include "desk.h"

static sheet s;

static int run(const arguments *given)
{
    static uint8_t pattern[LW_MAX_VARIABLE_BITS];
    static sides v;
    unsigned broken = 0, all = 0;
    int status = load_accepted(given->word[0], &s);

    if (status == YES)
        status = load_pattern(&s, given->words - 1, given->word + 1, pattern);
    if (status != YES)
        return status;
    for (uint32_t r = 0; r < s.rows; r++) {
        if (!counts(&s, r))
            continue;
        value_sides(&s, r, pattern, &v);
        all++;
        if (!v.same) {
            broken++;
            put_broken(&s, r, &v);
        }
    }
    if (broken != 0 && s.solved.outcome == LW_ALWAYS)
        return internal_error("every pattern meets the sheet, and this one does not");
    if (broken == 0 && s.solved.outcome == LW_NEVER)
        return internal_error("no pattern meets the sheet, and this one does");
    if (broken == 0)
        put("the pattern meets the sheet\n");
    else
        put("the pattern breaks %u of %u equation%s\n", broken, all, plural(all));
    return broken == 0 ? YES : NO;
}

const command check_command = {
    .name = "check", .synopsis = "FILE PATTERN", .least = 2, .most = 1 << 20, .run = run,
    .help = "Prints each equation that counts and that the pattern breaks, with the values of\n"
            "both sides, and whether the pattern meets the sheet.\n"
            "PATTERN is bits, variable 0 first, each high bit first, blanks being passed over,\n"
            "or for each variable the letter h and hexadecimal digits.\n"
            "Exit status: 0 if it meets the sheet, 1 if it does not, 2 if the sheet is refused.\n"};
