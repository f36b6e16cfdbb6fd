/* plain_compare.c -- see plain_compare.h */

#include "plain_compare.h"

#include "plain_solver.h"

enum { VARIABLE = 0, MOST_VARIABLES = 64, MOST_PAIRS = 64 * REF_WIDTH, LEAST_WORK = 16384 };
enum { SAME = 0, FIRST_FEWER = 1, SECOND_FEWER = 2, NEITHER = 3 };

/* Variables. */

/* Their widths in row order. Gives how many they are. */
static size_t variable_widths(const uint16_t *table, const ref_table *facts, size_t widths[MOST_VARIABLES])
{
    size_t count = 0;
    for (size_t r = 0; r < facts->rows; r++)
        if (table[4 * r] == VARIABLE)
            widths[count++] = facts->width[r];
    return count;
}

bool plain_same_variables(const uint16_t *first, const ref_table *first_facts, const uint16_t *second,
                          const ref_table *second_facts)
{
    size_t a[MOST_VARIABLES], b[MOST_VARIABLES];
    size_t count = variable_widths(first, first_facts, a);

    if (variable_widths(second, second_facts, b) != count)
        return false;
    for (size_t v = 0; v < count; v++)
        if (a[v] != b[v])
            return false;
    return true;
}

/* By what is said of the two: whether some pattern meets the first alone, and whether some meets the second alone. */
static uint32_t outcome_of(bool first_alone, bool second_alone)
{
    if (first_alone)
        return second_alone ? NEITHER : SECOND_FEWER;
    return second_alone ? FIRST_FEWER : SAME;
}

/* By all patterns. */

/* The next pattern; whether there is one, else it is all zeros again. */
static bool next_pattern(uint8_t *pattern, size_t bits)
{
    for (size_t i = 0; i < bits; i++) {
        pattern[i] ^= 1;
        if (pattern[i] == 1)
            return true;
    }
    return false;
}

uint32_t plain_compare_patterns(const uint16_t *first, const ref_table *first_facts, const uint16_t *second,
                                const ref_table *second_facts)
{
    static uint8_t pattern[PLAIN_BITS]; /* all zeros before and after */
    bool first_alone = false, second_alone = false;

    do {
        bool meets_first = ref_meets(first, first_facts, pattern), meets_second = ref_meets(second, second_facts, pattern);
        first_alone = first_alone || (meets_first && !meets_second);
        second_alone = second_alone || (meets_second && !meets_first);
    } while (next_pattern(pattern, first_facts->bits));
    return outcome_of(first_alone, second_alone);
}

/* By classes. */

typedef struct {
    size_t count;
    uint16_t left[MOST_PAIRS], right[MOST_PAIRS];
} pair_list;

/* The pairs of the equations that count. */
static void lay_out(const uint16_t *table, const ref_table *facts, pair_list *pairs)
{
    static uint16_t sources[REF_ROWS][REF_WIDTH];

    pairs->count = 0;
    plain_sources(table, facts, sources);
    for (size_t r = 0; r < facts->rows; r++)
        if (ref_counts(table, facts, r))
            pairs->count += plain_pairs(facts, sources, table[4 * r + 1], table[4 * r + 2], pairs->left + pairs->count,
                                        pairs->right + pairs->count);
}

/* The lowest source of a class. */
static uint16_t lowest(const uint16_t *parent, uint16_t source)
{
    while (parent[source] != source)
        source = parent[source];
    return source;
}

/* Whether every pattern that meets the pairs meets the others too; where no pattern does, each of none. */
static bool among(const pair_list *pairs, const pair_list *others, size_t bits)
{
    static uint16_t parent[PLAIN_SOURCES];

    if (plain_ties(pairs->left, pairs->right, pairs->count, parent, bits) == SIZE_MAX)
        return true;
    for (size_t i = 0; i < others->count; i++)
        if (lowest(parent, others->left[i]) != lowest(parent, others->right[i]))
            return false;
    return true;
}

uint32_t plain_compare_classes(const uint16_t *first, const ref_table *first_facts, const uint16_t *second,
                               const ref_table *second_facts)
{
    static pair_list of_first, of_second;

    lay_out(first, first_facts, &of_first);
    lay_out(second, second_facts, &of_second);
    return outcome_of(!among(&of_first, &of_second, first_facts->bits),
                      !among(&of_second, &of_first, first_facts->bits));
}

/* The call. */

lw_record plain_compare_tables(const uint16_t *first, size_t first_len, const uint16_t *second, size_t second_len,
                               size_t work_len, bool by_patterns)
{
    static ref_table a, b;

    if (work_len < LEAST_WORK)
        return (lw_record){.outcome = 10};
    lw_record record = ref_check(first, first_len, &a);
    if (record.outcome != 0)
        return record;
    record = ref_check(second, second_len, &b);
    if (record.outcome != 0)
        return record;
    if (!plain_same_variables(first, &a, second, &b))
        return (lw_record){.outcome = 49};
    return (lw_record){.outcome = (by_patterns ? plain_compare_patterns : plain_compare_classes)(first, &a, second, &b)};
}
