/* solve.c -- solve: the proved program, which the script linkwords runs; here are its help and its arguments alone */

#include "desk.h"

static int run(const arguments *given)
{
    return trouble(given->words == 0 ? "standard input" : given->word[0], "is solved by the proved program, which linkwords runs");
}

const command solve_command = {
    .name = "solve", .synopsis = "[FILE]", .most = 1, .run = run,
    .help = "Prints the record and, for outcome 2, the answer table: the same as linkwords [FILE].\n"
            "Exit status: 0 if some pattern meets the sheet, 1 if none does, 2 if it is refused.\n"};
