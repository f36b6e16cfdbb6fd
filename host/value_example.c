/* value_example.c -- the value of a table's row under a pattern */

#include <inttypes.h>
#include <stdio.h>

#include "linkwords.h"

/* x is a word of 8 bits; row 3 is its bits 6 to 3 with two ones behind them. */
static const uint16_t table[] = {
    LW_VARIABLE, 8, 0, 0, /* row 0: x                     */
    LW_CUT,      0, 6, 3, /* row 1: bits 6 down to 3 of x */
    LW_FILL,     1, 2, 0, /* row 2: 11                    */
    LW_JOIN,     1, 2, 0, /* row 3: row 1, then row 2     */
};

/* One byte for each variable bit, high bit first: x is 10110010. */
static const uint8_t pattern[] = {1, 0, 1, 1, 0, 0, 1, 0};

int main(void)
{
    uint8_t value[LW_MAX_WIDTH]; /* wide enough for any row */
    size_t row = 3;

    lw_record record = lw_value(table, sizeof table / sizeof table[0], row,
                                pattern, sizeof pattern, value, sizeof value);
    if (record.outcome != LW_ACCEPTED) {
        fprintf(stderr, "refused: %" PRIu32 ", row %" PRIu32 "\n",
                record.outcome, record.row);
        return 1;
    }

    printf("row %zu: ", row);
    for (uint32_t i = 0; i < record.free; i++)
        putchar(value[i] == 1 ? '1' : '0');
    putchar('\n'); /* 011011 */
    return 0;
}
