/*
  enumerate.c -- the answer of a small table, by all of its patterns: see enumerate.h

  Pattern number p has bit p >> i & 1 at place i; a place is a variable bit,
  counted as in a pattern. The patterns go in blocks of 64, one for each bit of
  a machine word. In a block, a bit of a row is one word: its value under each
  of the 64 patterns. A set of patterns is a word for each block.
*/

#include "enumerate.h"

#include <stdbool.h>
#include <string.h>

enum { VARIABLE = 0, FILL = 1, JOIN = 2, CUT = 3, EQUATION = 4, VALUE = 5, EQUATIONS = 64, HELD_FIXED = 4096 };
enum { BLOCKS = 1 << (ENUM_BITS - 6) };

/* What the patterns tell of a table. */
typedef struct {
    size_t bits, blocks;
    uint64_t meeting[BLOCKS];         /* the set of patterns that meet the table */
    bool counts[REF_ROWS];            /* of each row: whether it is an equation that counts */
    size_t equations;                 /* those that count */
    size_t row[EQUATIONS];            /* of each of them: its row; */
    bool left[EQUATIONS];             /* whether a pattern is left after it, reading equations in row order; */
    bool tie[EQUATIONS][REF_WIDTH];   /* which of its pairs are ties, by the number of their bit */
    size_t variable[ENUM_BITS];       /* of each place: its variable */
} findings;

/* The bit at a place under each pattern of a block. */
static uint64_t place_bits(size_t place, size_t block)
{
    static const uint64_t within[] = {
        0xAAAAAAAAAAAAAAAA, 0xCCCCCCCCCCCCCCCC, 0xF0F0F0F0F0F0F0F0,
        0xFF00FF00FF00FF00, 0xFFFF0000FFFF0000, 0xFFFFFFFF00000000,
    };
    if (place < 6)
        return within[place];
    return (block >> (place - 6) & 1) != 0 ? UINT64_MAX : 0;
}

/* All patterns of a block; with fewer than 6 bits there are not 64. */
static uint64_t all_patterns(size_t bits)
{
    return bits < 6 ? ((uint64_t)1 << ((size_t)1 << bits)) - 1 : UINT64_MAX;
}

/* Bit number bit of a word, the low one being bit 0; past its high end it has zeros, as the comparator sees it. */
static uint64_t bit_values(const uint64_t *word, size_t width, size_t bit)
{
    return bit < width ? word[width - 1 - bit] : 0;
}

/* Reads the table's rows under the patterns of one block; after each equation those are left that meet it. */
static void read_block(const uint16_t *table, const ref_table *facts, size_t block, findings *f)
{
    static uint64_t values[REF_ROWS][REF_WIDTH]; /* of each row: its bits, high bit first */
    const size_t *width = facts->width;
    uint64_t left = all_patterns(f->bits);
    size_t equation = 0;

    for (size_t r = 0; r < facts->rows; r++) {
        size_t a = table[4 * r + 1], b = table[4 * r + 2];
        switch (table[4 * r]) {
        case VARIABLE:
            for (size_t i = 0; i < width[r]; i++)
                values[r][i] = place_bits(facts->place[r] + i, block);
            break;
        case FILL:
            for (size_t i = 0; i < width[r]; i++)
                values[r][i] = a == 1 ? UINT64_MAX : 0;
            break;
        case VALUE: /* the number a in binary, its low bit last */
            for (size_t i = width[r], left_over = a; i != 0; i--, left_over /= 2)
                values[r][i - 1] = left_over % 2 == 1 ? UINT64_MAX : 0;
            break;
        case JOIN: /* side by side, the left part high */
            for (size_t i = 0; i < width[a]; i++)
                values[r][i] = values[a][i];
            for (size_t i = 0; i < width[b]; i++)
                values[r][width[a] + i] = values[b][i];
            break;
        case CUT: /* bit b first; bit j of a word of n bits stands at n - 1 - j */
            for (size_t i = 0; i < width[r]; i++)
                values[r][i] = values[a][width[a] - 1 - b + i];
            break;
        case EQUATION:
            if (!f->counts[r])
                break;
            /* a pair is new if a pattern that meets the pairs before it breaks it */
            for (size_t bit = width[a] > width[b] ? width[a] : width[b]; bit-- != 0;) {
                uint64_t broken = left & (bit_values(values[a], width[a], bit) ^ bit_values(values[b], width[b], bit));
                if (broken != 0)
                    f->tie[equation][bit] = true;
                left &= ~broken;
            }
            if (left != 0)
                f->left[equation] = true;
            equation++;
            break;
        default:
            break;
        }
    }
    f->meeting[block] = left;
}

/* Whether two places are equal in every pattern that meets the table. */
static bool equal(const findings *f, size_t i, size_t j)
{
    for (size_t block = 0; block < f->blocks; block++)
        if ((f->meeting[block] & (place_bits(i, block) ^ place_bits(j, block))) != 0)
            return false;
    return true;
}

/* Whether a place has this bit in every pattern that meets the table. */
static bool fixed_at(const findings *f, size_t i, bool bit)
{
    for (size_t block = 0; block < f->blocks; block++)
        if ((f->meeting[block] & (bit ? ~place_bits(i, block) : place_bits(i, block))) != 0)
            return false;
    return true;
}

/* What is known of the places of a table that some patterns meet. */
typedef struct {
    bool tied[ENUM_BITS][ENUM_BITS];
    bool fixed[ENUM_BITS], bit[ENUM_BITS]; /* whether it is fixed, and to which bit */
} places;

/* Whether places i and j, which need not be any, are neighbours in one variable: j the next lower bit. */
static bool neighbours(const findings *f, size_t i, size_t j)
{
    return j == i + 1 && j < f->bits && f->variable[i] == f->variable[j];
}

/*
  The specification's sentence on two neighbouring unfixed bits, i and i + 1:
  wherever either one's tied bits stand, the other's stand beside them in the
  same variable and the same order.
*/
static bool in_one_piece(const findings *f, const places *p, size_t i)
{
    for (size_t j = 0; j < f->bits; j++) {
        if (p->tied[i][j] && !(neighbours(f, j, j + 1) && p->tied[i + 1][j + 1]))
            return false;
        if (p->tied[i + 1][j] && !(j > 0 && neighbours(f, j - 1, j) && p->tied[i][j - 1]))
            return false;
    }
    return true;
}

/* Whether place i + 1 goes on with the answer row of place i. */
static bool goes_on(const findings *f, const places *p, size_t i)
{
    if (!neighbours(f, i, i + 1) || p->fixed[i] != p->fixed[i + 1])
        return false;
    return p->fixed[i] ? p->bit[i] == p->bit[i + 1] : in_one_piece(f, p, i);
}

/* Whether the pieces of this width at two places are the same, bit by bit. */
static bool same_piece(const places *p, size_t i, size_t j, size_t width)
{
    for (size_t k = 0; k < width; k++)
        if (!p->tied[i + k][j + k])
            return false;
    return true;
}

/* The number of a place's bit in its variable: as many bits of the variable are behind it. */
static size_t bit_number(const findings *f, size_t place)
{
    size_t behind = 0;
    while (neighbours(f, place + behind, place + behind + 1))
        behind++;
    return behind;
}

/* The answer table, and in the record pieces, fresh and free. */
static void make_answer(const findings *f, enumeration *found)
{
    places p;
    size_t start[ENUM_BITS]; /* of each answer row: its first place */
    uint32_t rows = 0;

    for (size_t i = 0; i < f->bits; i++) {
        for (size_t j = 0; j < f->bits; j++)
            p.tied[i][j] = equal(f, i, j);
        p.bit[i] = fixed_at(f, i, true);
        p.fixed[i] = p.bit[i] || fixed_at(f, i, false);
    }

    for (size_t from = 0, to; from < f->bits; from = to + 1) {
        uint16_t *row = found->answer + 6 * rows;
        size_t home = from; /* where its piece first appears; a fill names its own place */
        to = from; /* the last place of the row */
        while (goes_on(f, &p, to))
            to++;
        size_t width = to - from + 1;
        row[0] = (uint16_t)f->variable[from];
        row[1] = p.fixed[from] ? p.bit[from] : 2;
        row[2] = (uint16_t)width;
        row[3] = 0;
        if (!p.fixed[from]) {
            size_t same = 0; /* the first row with this piece */
            while (same < rows && !(found->answer[6 * same + 1] == 2 && found->answer[6 * same + 2] == width &&
                                    same_piece(&p, start[same], from, width)))
                same++;
            if (same < rows) {
                row[3] = found->answer[6 * same + 3];
                home = start[same];
            } else { /* its first appearance */
                row[3] = (uint16_t)found->record.fresh++;
                found->record.free += (uint32_t)width;
            }
        }
        row[4] = (uint16_t)f->variable[home];
        row[5] = (uint16_t)bit_number(f, home);
        start[rows++] = from;
    }
    found->record.pieces = rows;
}

static size_t ones(uint64_t set)
{
    size_t count = 0;
    for (; set != 0; set &= set - 1)
        count++;
    return count;
}

/* How many ties there are among the pairs of the equations from the first to before the last. */
static uint32_t ties_of(const findings *f, size_t first, size_t last)
{
    uint32_t ties = 0;
    for (size_t e = first; e < last; e++)
        for (size_t i = 0; i < REF_WIDTH; i++)
            if (f->tie[e][i])
                ties++;
    return ties;
}

/* The table with the equations from row limit on left off. */
static void find(const uint16_t *table, const ref_table *facts, size_t limit, findings *f, enumeration *found)
{
    size_t variables = 0, none_left = 0;

    memset(f, 0, sizeof *f);
    memset(found, 0, sizeof *found);
    f->bits = facts->bits;
    f->blocks = f->bits < 6 ? 1 : (size_t)1 << (f->bits - 6);
    for (size_t r = 0; r < facts->rows; r++)
        if (table[4 * r] == VARIABLE) {
            for (size_t i = 0; i < facts->width[r]; i++)
                f->variable[facts->place[r] + i] = variables;
            variables++;
        } else if (r < limit && ref_counts(table, facts, r)) {
            f->counts[r] = true;
            f->row[f->equations++] = r;
        }

    for (size_t block = 0; block < f->blocks; block++) {
        read_block(table, facts, block, f);
        found->met += ones(f->meeting[block]);
    }

    while (none_left < f->equations && f->left[none_left])
        none_left++;
    if (none_left < f->equations) {
        found->record = (lw_record){.outcome = 1, .ties = ties_of(f, 0, none_left), .row = (uint32_t)f->row[none_left]};
        found->row_ties = ties_of(f, none_left, none_left + 1);
    } else if (found->met == (size_t)1 << f->bits) {
        found->record = (lw_record){.outcome = 0, .free = (uint32_t)f->bits};
    } else {
        found->record = (lw_record){.outcome = 2, .ties = ties_of(f, 0, f->equations)};
        make_answer(f, found);
    }
}

static findings work;

void enumerate(const uint16_t *table, const ref_table *facts, enumeration *found)
{
    find(table, facts, facts->rows, &work, found);
}

void enumerate_to(const uint16_t *table, const ref_table *facts, size_t limit, enumeration *found)
{
    find(table, facts, limit, &work, found);
    for (size_t i = 0; i < work.bits && found->met != 0; i++) {
        size_t lowest = 0; /* place that equals it: the last one tried is itself */
        while (!equal(&work, lowest, i))
            lowest++;
        found->held[i] = fixed_at(&work, i, false) ? HELD_FIXED : fixed_at(&work, i, true) ? HELD_FIXED + 1 : (uint16_t)lowest;
    }
}
