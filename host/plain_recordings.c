/* plain_recordings.c -- see plain_recordings.h */

#include "plain_recordings.h"

#include <stdbool.h>

#include "plain_positions.h"
#include "reference.h"

enum { VARIABLE = 0, WORD_BITS = 16, MOST_NUMBERS = 65535, MOST_WORDS = 32 };

/* A recording whose records are whole: so many of them, each a counter and k words. */
typedef struct {
    const uint16_t *numbers;
    size_t records, k;
} recording;

static uint16_t counter(recording in, size_t record)
{
    return in.numbers[record * (in.k + 1)];
}

static uint16_t word(recording in, size_t record, size_t j)
{
    return in.numbers[record * (in.k + 1) + 1 + j];
}

/* The record with this counter, by a search through all of them; their number if none has it. */
static size_t partner(recording in, uint16_t wanted)
{
    size_t record = 0;
    while (record < in.records && counter(in, record) != wanted)
        record++;
    return record;
}

/* How many records of one have no partner in the other. */
static size_t alone(recording in, recording other)
{
    size_t count = 0;
    for (size_t r = 0; r < in.records; r++)
        if (partner(other, counter(in, r)) == other.records)
            count++;
    return count;
}

/* In how many bits two words differ. */
static uint32_t differing_bits(uint16_t a, uint16_t b)
{
    uint32_t count = 0;
    for (size_t i = 0; i < WORD_BITS; i++, a /= 2, b /= 2)
        if (a % 2 != b % 2)
            count++;
    return count;
}

/* Adds a pair, a sent record and its partner, to the record. */
static void add_pair(const uint16_t *table, const ref_table *facts, recording sent, size_t s, recording received,
                     size_t r, lw_record *record)
{
    uint16_t words[2 * MOST_WORDS];

    for (size_t j = 0; j < sent.k; j++) {
        words[j] = word(sent, s, j);
        words[sent.k + j] = word(received, r, j);
        record->ties += differing_bits(word(sent, s, j), word(received, r, j));
    }
    record->pieces++;
    if (plain_meets(table, facts, words, 2 * sent.k))
        return;
    if (record->free == 0 || counter(sent, s) < record->row)
        record->row = counter(sent, s);
    record->free++;
}

/* Whether a variable is not 16 bits wide. */
static bool other_width(const uint16_t *table, const ref_table *facts)
{
    for (size_t r = 0; r < facts->rows; r++)
        if (table[4 * r] == VARIABLE && facts->width[r] != WORD_BITS)
            return true;
    return false;
}

/* Whether a counter is not above the one before it. */
static bool not_rising(recording in)
{
    for (size_t r = 1; r < in.records; r++)
        if (counter(in, r) <= counter(in, r - 1))
            return true;
    return false;
}

lw_record plain_compare_recordings(const uint16_t *table, size_t table_len, const uint16_t *sent, size_t sent_len,
                                   const uint16_t *received, size_t received_len)
{
    static ref_table facts;

    lw_record record = ref_check(table, table_len, &facts);
    if (record.outcome != 0)
        return record;
    size_t variables = plain_variables(table, &facts);
    if (variables == 0 || variables % 2 != 0 || other_width(table, &facts))
        return (lw_record){.outcome = 47};
    size_t k = variables / 2, size = k + 1;
    if (sent_len > MOST_NUMBERS || sent_len % size != 0 || received_len > MOST_NUMBERS || received_len % size != 0)
        return (lw_record){.outcome = 47};
    recording from = {sent, sent_len / size, k}, to = {received, received_len / size, k};
    if (not_rising(from) || not_rising(to))
        return (lw_record){.outcome = 48};

    for (size_t s = 0; s < from.records; s++) {
        size_t r = partner(to, counter(from, s));
        if (r != to.records)
            add_pair(table, &facts, from, s, to, r, &record);
    }
    record.fresh = (uint32_t)(alone(from, to) + alone(to, from));
    return record;
}
