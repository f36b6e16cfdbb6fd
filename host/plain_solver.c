/* plain_solver.c -- a second solver, by union-find: see plain_solver.h */

#include "plain_solver.h"

#include <stdbool.h>
#include <string.h>

enum { VARIABLE = 0, FILL = 1, JOIN = 2, CUT = 3, VALUE = 5, VARIABLES = 64 };

void plain_sources(const uint16_t *table, const ref_table *facts, uint16_t sources[][REF_WIDTH])
{
    const size_t *width = facts->width;

    for (size_t r = 0; r < facts->rows; r++) {
        size_t a = table[4 * r + 1], b = table[4 * r + 2];
        switch (table[4 * r]) {
        case VARIABLE:
            for (size_t i = 0; i < width[r]; i++)
                sources[r][i] = (uint16_t)(PLAIN_FIXED + facts->place[r] + i);
            break;
        case FILL:
            for (size_t i = 0; i < width[r]; i++)
                sources[r][i] = (uint16_t)a;
            break;
        case VALUE: /* bit b - 1 of the number first, bit 0 last */
            for (size_t i = 0; i < b; i++)
                sources[r][i] = a >> (b - 1 - i) & 1;
            break;
        case JOIN:
            memcpy(sources[r], sources[a], width[a] * sizeof(uint16_t));
            memcpy(sources[r] + width[a], sources[b], width[b] * sizeof(uint16_t));
            break;
        case CUT:
            memcpy(sources[r], sources[a] + (width[a] - 1 - b), width[r] * sizeof(uint16_t));
            break;
        default:
            break;
        }
    }
}

/* Classes of equal sources: each is linked to a lower one of its class, the lowest to itself. */

static void separate(uint16_t *parent, size_t bits)
{
    for (size_t i = 0; i < bits + PLAIN_FIXED; i++)
        parent[i] = (uint16_t)i;
}

/* The lowest of the class. The path to it is halved on the way. */
static uint16_t lowest(uint16_t *parent, uint16_t i)
{
    while (parent[i] != i) {
        parent[i] = parent[parent[i]];
        i = parent[i];
    }
    return i;
}

typedef enum { IMPLIED, TIE, CONFLICT } effect;

/* Takes one pair. */
static inline effect take(uint16_t *parent, uint16_t left, uint16_t right)
{
    uint16_t a = lowest(parent, left), b = lowest(parent, right);
    if (a == b)
        return IMPLIED;
    if (a < PLAIN_FIXED && b < PLAIN_FIXED)
        return CONFLICT;
    if (a < b)
        parent[b] = a;
    else
        parent[a] = b;
    return TIE;
}

size_t plain_ties(const uint16_t *left, const uint16_t *right, size_t count, uint16_t *parent, size_t bits)
{
    size_t ties = 0;
    separate(parent, bits);
    for (size_t i = 0; i < count; i++)
        switch (take(parent, left[i], right[i])) {
        case IMPLIED:  break;
        case TIE:      ties++; break;
        case CONFLICT: return SIZE_MAX;
        }
    return ties;
}

/* The answer table. */

/* What stands beside the bits of a class, if it is the same for all of them: a class, or one of these. */
enum { UNKNOWN = 0xFFFF, MIXED = 0xFFFE, END = 0xFFFD };

static void note(uint16_t *beside, uint16_t other)
{
    if (*beside == UNKNOWN)
        *beside = other;
    else if (*beside != other)
        *beside = MIXED;
}

/*
  Writes the answer table's rows; pieces, fresh and free go to the record. A
  class is its lowest bit, and a piece that appears again is tied to its first
  appearance, so the class of a fresh piece's first bit is the home.
*/
static void make_answer(const uint16_t *class_of, const uint8_t *variable, size_t bits,
                        uint16_t *answer, lw_record *record)
{
    static uint16_t next[PLAIN_SOURCES], before[PLAIN_SOURCES]; /* the class on the low and on the high side */
    static uint16_t number[PLAIN_SOURCES];                      /* of the fresh piece that begins with the class */
    static size_t last_place[VARIABLES];                        /* of each variable: its bit 0 */

    for (size_t i = 0; i < PLAIN_SOURCES; i++)
        next[i] = before[i] = number[i] = UNKNOWN;
    for (size_t i = 0; i < bits; i++) {
        bool first = i == 0 || variable[i - 1] != variable[i];
        bool last = i + 1 == bits || variable[i + 1] != variable[i];
        note(&before[class_of[i]], first ? END : class_of[i - 1]);
        note(&next[class_of[i]], last ? END : class_of[i + 1]);
        last_place[variable[i]] = i;
    }

    for (size_t from = 0, to; from < bits; from = to) {
        uint16_t class = class_of[from], *row = answer + 6 * record->pieces++;
        bool fixed = class < PLAIN_FIXED;
        size_t home = fixed ? from : (size_t)class - PLAIN_FIXED;
        for (to = from + 1; to < bits && variable[to] == variable[from]; to++) /* the row's end */
            if (fixed ? class_of[to] != class
                      : class_of[to] < PLAIN_FIXED || next[class_of[to - 1]] != class_of[to] ||
                        before[class_of[to]] != class_of[to - 1])
                break;
        if (!fixed && number[class] == UNKNOWN) {
            number[class] = (uint16_t)record->fresh++;
            record->free += (uint32_t)(to - from);
        }
        row[0] = variable[from];
        row[1] = fixed ? class : 2;
        row[2] = (uint16_t)(to - from);
        row[3] = fixed ? 0 : number[class];
        row[4] = variable[home];
        row[5] = (uint16_t)(last_place[variable[home]] - home);
    }
}

/* By how many bits a side is wider than the other; 0 if it is not. */
static size_t bits_over(size_t width, size_t other)
{
    return width > other ? width - other : 0;
}

/* Takes the first bits of a wider side, each paired with a fixed 0, and adds the ties. Whether that can be. */
static bool take_top(uint16_t *parent, const uint16_t *side, size_t count, uint32_t *ties)
{
    for (size_t i = 0; i < count; i++) {
        effect found = take(parent, side[i], 0);
        if (found == CONFLICT)
            return false;
        *ties += found == TIE;
    }
    return true;
}

/* The table with the equations from row limit on left off. For outcome 2, class_of has the class of each place. */
static lw_record solve_to(const uint16_t *table, const ref_table *facts, size_t limit, uint16_t *answer,
                          uint16_t class_of[PLAIN_BITS])
{
    static uint16_t sources[REF_ROWS][REF_WIDTH];
    static uint16_t parent[PLAIN_SOURCES];
    static uint8_t variable[PLAIN_BITS];
    uint32_t ties = 0;
    uint8_t variables = 0;

    plain_sources(table, facts, sources);
    separate(parent, facts->bits);
    for (size_t r = 0; r < facts->rows; r++) {
        const uint16_t *n = table + 4 * r;
        uint32_t before = ties;
        size_t left_over = 0, right_over = 0; /* the bits by which a side is wider */
        bool counts = r < limit && ref_counts(table, facts, r);
        if (n[0] == VARIABLE)
            memset(variable + facts->place[r], variables++, facts->width[r]);
        if (counts) {
            left_over = bits_over(facts->width[n[1]], facts->width[n[2]]);
            right_over = bits_over(facts->width[n[2]], facts->width[n[1]]);
            if (!take_top(parent, sources[n[1]], left_over, &ties) ||
                !take_top(parent, sources[n[2]], right_over, &ties))
                return (lw_record){.outcome = 1, .ties = before, .row = (uint32_t)r};
        }
        for (size_t i = left_over; counts && i < facts->width[n[1]]; i++)
            switch (take(parent, sources[n[1]][i], sources[n[2]][i - left_over + right_over])) {
            case IMPLIED:  break;
            case TIE:      ties++; break;
            case CONFLICT: return (lw_record){.outcome = 1, .ties = before, .row = (uint32_t)r};
            }
    }
    if (ties == 0)
        return (lw_record){.outcome = 0, .free = (uint32_t)facts->bits};

    lw_record record = {.outcome = 2, .ties = ties};
    for (size_t i = 0; i < facts->bits; i++)
        class_of[i] = lowest(parent, (uint16_t)(i + PLAIN_FIXED));
    make_answer(class_of, variable, facts->bits, answer, &record);
    return record;
}

static uint16_t classes[PLAIN_BITS];

lw_record plain_solve(const uint16_t *table, const ref_table *facts, uint16_t *answer)
{
    return solve_to(table, facts, facts->rows, answer, classes);
}

lw_record plain_solve_to(const uint16_t *table, const ref_table *facts, size_t limit, uint16_t *answer, uint16_t *held)
{
    lw_record record = solve_to(table, facts, limit, answer, classes);
    for (size_t i = 0; i < facts->bits && record.outcome != 1; i++)
        if (record.outcome == 0)
            held[i] = (uint16_t)i; /* no tie: each place holds itself */
        else
            held[i] = (uint16_t)(classes[i] < PLAIN_FIXED ? PLAIN_BITS + classes[i] : classes[i] - PLAIN_FIXED);
    return record;
}

/* The pairs, laid out. */

/* A side as it is compared: so many fixed bits 0, and then its own bits. */
static void fill_side(const uint16_t *sources, size_t width, size_t zeros, uint16_t *side)
{
    memset(side, 0, zeros * sizeof *side);
    memcpy(side + zeros, sources, width * sizeof *side);
}

size_t plain_pairs(const ref_table *facts, uint16_t sources[][REF_WIDTH], size_t a, size_t b,
                   uint16_t left[REF_WIDTH], uint16_t right[REF_WIDTH])
{
    size_t width_a = facts->width[a], width_b = facts->width[b], wider = width_a > width_b ? width_a : width_b;
    fill_side(sources[a], width_a, wider - width_a, left);
    fill_side(sources[b], width_b, wider - width_b, right);
    return wider;
}

lw_record plain_call(const uint16_t *table, size_t len, size_t answer_len, size_t work_len, uint16_t *answer)
{
    static ref_table facts;
    if (answer_len < 6 * PLAIN_BITS || work_len < 16384)
        return (lw_record){.outcome = 10};
    lw_record record = ref_check(table, len, &facts);
    return record.outcome != 0 ? record : plain_solve(table, &facts, answer);
}
