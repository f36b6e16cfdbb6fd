/* plain_positions.c -- see plain_positions.h */

#include "plain_positions.h"

enum { VARIABLE = 0, WORD_BITS = 16, MOST_VARIABLES = 64, MOST_WORDS = 1048576 };

size_t plain_variables(const uint16_t *table, const ref_table *facts)
{
    size_t count = 0;
    for (size_t r = 0; r < facts->rows; r++)
        if (table[4 * r] == VARIABLE)
            count++;
    return count;
}

/* The bits of a word, the high bit first. */
static void put_bits(uint16_t word, uint8_t *bits)
{
    for (size_t i = WORD_BITS; i-- != 0; word /= 2)
        bits[i] = word % 2;
}

bool plain_meets(const uint16_t *table, const ref_table *facts, const uint16_t *words, size_t count)
{
    static uint8_t pattern[WORD_BITS * MOST_VARIABLES];

    for (size_t j = 0; j < count; j++)
        put_bits(words[j], pattern + WORD_BITS * j);
    return ref_meets(table, facts, pattern);
}

/* Whether there is a variable, and each has 16 bits. */
static bool has_window(const uint16_t *table, const ref_table *facts)
{
    for (size_t r = 0; r < facts->rows; r++)
        if (table[4 * r] == VARIABLE && facts->width[r] != WORD_BITS)
            return false;
    return plain_variables(table, facts) != 0;
}

lw_record plain_positions(const uint16_t *table, size_t table_len, const uint16_t *words, size_t words_len,
                          uint32_t *list, size_t list_len)
{
    static ref_table facts;

    lw_record record = ref_check(table, table_len, &facts);
    if (record.outcome != 0)
        return record;
    if (!has_window(table, &facts))
        return (lw_record){.outcome = 41};
    if (words_len > MOST_WORDS)
        return (lw_record){.outcome = 42};

    size_t window = plain_variables(table, &facts);
    for (size_t i = 0; i + window <= words_len; i++)
        if (plain_meets(table, &facts, words + i, window)) {
            if (record.pieces < list_len)
                list[record.pieces] = (uint32_t)i;
            record.pieces++;
        }
    return record;
}
