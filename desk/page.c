/* page.c -- page: the result sheet, all pages or one */

#include "desk.h"

static sheet s;

static void put_page(size_t number)
{
    lw_page_bytes page = lw_page(s.solved, s.answer, LW_ANSWER_NUMBERS, number);
    put_bytes(page.bytes, sizeof page.bytes);
}

static int run(const arguments *given)
{
    uint64_t number = 0;
    int status;

    if (given->value[NUMBER] != NULL && !read_number(given->value[NUMBER], SIZE_MAX, &number))
        return trouble(given->value[NUMBER], "is no number of a page");
    status = load(given->words == 0 ? NULL : given->word[0], &s);
    if (status != YES)
        return status;
    if (given->value[NUMBER] != NULL)
        put_page((size_t)number);
    else /* page 0 is always there; of the others each has a piece */
        do
            put_page((size_t)number++);
        while (s.solved.outcome == LW_SOLVED && LW_PAGE_PIECES * number < s.solved.pieces);
    return status_of(s.solved);
}

const command page_command = {
    .name = "page", .synopsis = "[--number N] [FILE]", .options = 1U << NUMBER, .most = 1, .run = run,
    .help = "Prints all pages of the result sheet, each of 60 lines of 40 characters, or with\n"
            "--number the one of that number, from 0. A refusal is printed as a page too.\n"
            "Exit status: 0 if some pattern meets the sheet, 1 if none does, 2 if it is refused.\n"};
