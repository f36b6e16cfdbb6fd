/* plain_page.c -- a second page maker: see plain_page.h */

#include "plain_page.h"

#include <inttypes.h>
#include <stdio.h>
#include <string.h>

enum { LINES = 60, LINE = 41, PIECES = 59, SOLVED = 2 };

/* There are as many pieces as the record says, or as whole rows lent if these are fewer. */
static size_t piece_count(lw_record record, size_t answer_len)
{
    size_t rows = answer_len / 6;
    return record.pieces < rows ? record.pieces : rows;
}

/* Page 0 is always there. */
size_t plain_page_count(lw_record record, size_t answer_len)
{
    size_t pieces = piece_count(record, answer_len), pages = pieces / PIECES + (pieces % PIECES != 0);
    return record.outcome != SOLVED || pages == 0 ? 1 : pages;
}

/* A line of a page that is there. */
static void print_line(char *line, size_t size, lw_record record, const uint16_t *answer, size_t answer_len,
                       size_t number, size_t l)
{
    if (l == 0) {
        snprintf(line, size, "%10s%10s%10s%10s\n", "variable", "kind", "width", "fresh");
    } else if (record.outcome != SOLVED && l == 1) {
        snprintf(line, size, "%10" PRIu32 "%30s\n", record.outcome, "");
    } else if (record.outcome == SOLVED && number * PIECES + l - 1 < piece_count(record, answer_len)) {
        /* The first four of the row's six numbers. */
        const uint16_t *row = answer + 6 * (number * PIECES + l - 1);
        snprintf(line, size, "%10u%10u%10u%10u\n", row[0], row[1], row[2], row[3]);
    } else {
        snprintf(line, size, "%40s\n", "");
    }
}

lw_page_bytes plain_page(lw_record record, const uint16_t *answer, size_t answer_len, size_t number)
{
    lw_page_bytes page;
    char line[LINE + 1];

    for (size_t l = 0; l < LINES; l++) {
        if (number < plain_page_count(record, answer_len))
            print_line(line, sizeof line, record, answer, answer_len, number, l);
        else
            snprintf(line, sizeof line, "%40s\n", "");
        memcpy(page.bytes + LINE * l, line, LINE);
    }
    return page;
}
