/*
  test_pieces_random.c -- random tables in nine families, for lw_solve_pieces: see
  test_pieces.c

  Small words and long ones; met by a pattern or by none. Some have markers for
  fills, some line numbers, some are damaged, and some are lent with buffers that
  are longer than they have to be, or too short.
*/

#include "made_table.h"
#include "test_pieces.h"

enum { ANY, OVERLAPS, CHAINS, NESTS, FILLS, WHOLES, BITS, TURNED, FIELDS, FAMILIES };

static const char *const family_names[FAMILIES] = {
    "any rows", "overlaps", "chains", "nests", "fills", "whole words", "single bits", "turned words", "fields",
};

/* How a table is to be. */
typedef struct {
    size_t variables, equations, widest;
    bool met; /* fills are of 0 alone, so that a pattern meets it: all zeros */
} shape;

/* Whether there is room for so many rows and an equation. */
static bool room(const draft *d, size_t rows)
{
    return d->rows + rows < LW_MAX_ROWS && d->equations < LW_MAX_EQUATIONS;
}

/* Some row that is no equation, often a late one. */
static size_t any_term(const draft *d)
{
    for (int i = 0; i < 20; i++) {
        size_t r = one_in(2) || d->rows < 6 ? below(d->rows) : d->rows - 1 - below(6);
        if (d->width[r] != 0)
            return r;
    }
    return 0;
}

static size_t any_part(draft *d, size_t a, size_t width)
{
    return part(d, a, below(d->width[a] - width + 1), width);
}

/* What families are made of. */

/* A part with a fill, which may have another width. */
static void fix_some(draft *d, bool met)
{
    size_t a = any_term(d), width = 1 + below(d->width[a]);
    if (one_in(2) && width > 3)
        width = 1 + below(3);
    size_t x = any_part(d, a, width), f = fill(d, met ? 0 : below(2), one_in(4) ? 1 + below(LW_MAX_WIDTH) : width);
    if (one_in(2))
        equation(d, x, f);
    else
        equation(d, f, x);
}

/* Two parts of a row that overlap, or stand side by side. */
static void overlap(draft *d, size_t a)
{
    size_t width = d->width[a];
    if (width < 2)
        return;
    size_t period = one_in(2) ? 1 + below(width - 1) : 1 + below(width / 4 + 1);
    period = period < width ? period : width - 1;
    size_t len = one_in(2) ? width - period : 1 + below(width - period), low = below(width - period - len + 1);
    size_t x = part(d, a, low, len), y = part(d, a, low + period, len);
    if (one_in(2))
        equation(d, x, y);
    else
        equation(d, y, x);
}

/* Parts of two rows, equally wide. */
static void link_parts(draft *d, size_t a, size_t b)
{
    size_t most = d->width[a] < d->width[b] ? d->width[a] : d->width[b], width = one_in(3) ? most : 1 + below(most);
    size_t x = any_part(d, a, width), y = any_part(d, b, width);
    equation(d, x, y);
}

/* The families. */

static void add_overlaps(draft *d, const shape *s)
{
    for (size_t e = 0; e < s->equations && room(d, 3); e++)
        if (one_in(5))
            link_parts(d, below(s->variables), below(s->variables));
        else if (one_in(8))
            fix_some(d, s->met);
        else
            overlap(d, below(s->variables));
}

/* Each word with the one before it, up, down or in any order, perhaps turned. */
static void add_chain(draft *d, const shape *s)
{
    size_t order = below(3);
    for (size_t k = 1; k < s->variables && room(d, 8); k++) {
        size_t a = order == 0 ? k : order == 1 ? s->variables - k : 1 + below(s->variables - 1), b = a - 1;
        size_t width = d->width[a] < d->width[b] ? d->width[a] : d->width[b];
        bool exchanged = one_in(2);
        size_t x = any_part(d, exchanged ? b : a, width), y = any_part(d, exchanged ? a : b, width);
        if (width > 1 && one_in(2))
            y = turned_at(d, y, 1 + below(width - 1));
        equation(d, x, y);
    }
    for (size_t e = 0; e < s->equations && room(d, 4); e++)
        if (one_in(6))
            fix_some(d, s->met);
        else
            link_parts(d, below(s->variables), below(s->variables));
}

/* Cuts of joins of cuts. */
static void add_nests(draft *d, const shape *s)
{
    for (size_t e = 0; e < s->equations && room(d, 12); e++) {
        for (int k = 0; k < 4; k++) {
            size_t a = any_term(d), b = any_term(d);
            if (d->width[a] + d->width[b] <= LW_MAX_WIDTH && one_in(2))
                join(d, a, b);
            else
                any_part(d, a, 1 + below(d->width[a]));
        }
        if (one_in(6))
            fix_some(d, s->met);
        else
            link_parts(d, any_term(d), any_term(d));
    }
}

static void add_fills(draft *d, const shape *s)
{
    for (size_t e = 0; e < s->equations && room(d, 4); e++)
        if (one_in(2))
            fix_some(d, s->met);
        else if (one_in(3))
            overlap(d, below(s->variables));
        else
            link_parts(d, below(s->variables), below(s->variables));
}

static void add_wholes(draft *d, const shape *s)
{
    for (size_t e = 0; e < s->equations && room(d, 6); e++) {
        size_t a = below(s->variables), b = below(s->variables);
        if (one_in(10))
            fix_some(d, s->met);
        else if (one_in(8))
            overlap(d, a);
        else if (one_in(5))
            link_parts(d, a, b);
        else
            equation(d, a, b);
    }
}

/* So many single bits, of any words. */
static size_t any_bits(draft *d, size_t count, size_t words)
{
    size_t x = NONE;
    for (size_t i = 0; i < count; i++) {
        size_t v = below(words), bit = below(d->width[v]), b = cut(d, v, bit, bit);
        x = x == NONE ? b : join(d, x, b);
    }
    return x;
}

/* Single bits in any order, on one side or on both. */
static void add_bits(draft *d, const shape *s)
{
    size_t most = s->widest > 60 ? 60 : 12;
    for (size_t e = 0; e < 6 && e < s->equations && room(d, 4 * most + 6); e++) {
        size_t count = 1 + below(most), x = any_bits(d, count, s->variables), v = below(s->variables);
        size_t y = d->width[v] >= count && one_in(2) ? any_part(d, v, count) : any_bits(d, count, s->variables);
        equation(d, x, y);
        if (one_in(4))
            fix_some(d, s->met);
    }
}

/* Words joined, and turned one out of another. */
static void add_turned(draft *d, const shape *s)
{
    size_t sides[LW_MAX_ROWS], count = 0, word = 0;
    for (size_t v = 1; v < s->variables && v < 16 && d->width[word] + d->width[v] <= LW_MAX_WIDTH; v++)
        word = join(d, word, v);
    sides[count++] = word;
    for (size_t e = 0; e < s->equations && room(d, 8); e++) {
        size_t a = sides[below(count)];
        if (d->width[a] > 1)
            sides[count++] = turned_at(d, a, 1 + below(d->width[a] - 1));
        if (one_in(10))
            fix_some(d, s->met);
        size_t x = sides[below(count)], y = sides[below(count)];
        if (room(d, 0))
            equation(d, x, y);
    }
}

/* A side of up to four fields that begin and end at multiples of step; any variable if there is none. */
static size_t any_fields(draft *d, size_t words, size_t step)
{
    size_t x = NONE;
    for (size_t i = 1 + below(4); i != 0; i--) {
        size_t v = below(words), fields = d->width[v] / step;
        if (fields == 0)
            continue;
        size_t many = 1 + below(fields), y = part(d, v, step * below(fields - many + 1), many * step);
        if (x == NONE)
            x = y;
        else if (d->width[x] + d->width[y] <= LW_MAX_WIDTH)
            x = join(d, x, y);
    }
    return x == NONE ? below(words) : x;
}

static void add_fields(draft *d, const shape *s)
{
    size_t step = 1 + below(s->widest / 4 + 1);
    for (size_t e = 0; e < s->equations && room(d, 20); e++) {
        size_t x = any_fields(d, s->variables, step), y = any_fields(d, s->variables, step);
        equation(d, x, y);
        if (one_in(6) && room(d, 3))
            fix_some(d, s->met);
    }
}

/* Rows of any kind, variables among them. */
static void add_any(draft *d, const shape *s)
{
    bool equal = one_in(2);
    for (size_t k = 0; k < 4 * s->equations && room(d, 4); k++) {
        size_t a = any_term(d), b = any_term(d), width = 1 + below(s->widest);
        switch (below(6)) {
        case 0:
            fill(d, s->met ? 0 : below(2), width);
            break;
        case 1:
            if (d->width[a] + d->width[b] <= LW_MAX_WIDTH)
                join(d, a, b);
            break;
        case 2:
            any_part(d, a, 1 + below(d->width[a]));
            break;
        case 3:
            if (d->variables < LW_MAX_VARIABLES && d->bits + width <= LW_MAX_VARIABLE_BITS)
                add_row(d, width, VARIABLE(width));
            break;
        default:
            if (equal)
                link_parts(d, a, b);
            else
                equation(d, a, b);
        }
    }
}

static void (*const families[FAMILIES])(draft *, const shape *) = {
    add_any, add_overlaps, add_chain, add_nests, add_fills, add_wholes, add_bits, add_turned, add_fields,
};

/* The variables come first, and are of one width or of many; now and then there are none, and two fills. */
static void make_random(draft *d, size_t family, bool large)
{
    bool many = family == CHAINS || family == WHOLES, equal = family == WHOLES || family == TURNED || one_in(3);
    shape s = {.met = !one_in(3)};

    clear(d);
    s.widest = large ? (one_in(2) ? 1024 : 64 + below(500)) : 1 + below(one_in(3) ? 40 : 12);
    s.equations = 1 + below(large ? 40 : one_in(3) ? 16 : 6);
    size_t wanted = many ? 2 + below(large ? 40 : 8) : 1 + below(large ? 8 : 5);
    if (one_in(60))
        wanted = 0;
    for (size_t v = 0; v < wanted; v++) {
        size_t width = equal ? s.widest : 1 + below(s.widest);
        if (d->bits + width > LW_MAX_VARIABLE_BITS)
            break;
        add_row(d, width, VARIABLE(width));
    }
    s.variables = d->variables;
    if (s.variables != 0) {
        families[family](d, &s);
        return;
    }
    fill(d, below(2), 1 + below(s.widest));
    fill(d, below(2), 1 + below(s.widest));
    add_any(d, &s);
}

/* Markers in the place of some fills of at most 16 bits. */
static void put_markers(draft *d)
{
    for (size_t r = 0; r < d->rows; r++) {
        uint16_t *n = d->t.numbers + 4 * r;
        if (n[0] == LW_FILL && n[2] <= 16 && one_in(2))
            n[0] = LW_VALUE, n[1] = (uint16_t)some_bits(n[2]);
    }
}

/* A length near this one: as long, longer, or one too short. */
static size_t near(size_t least)
{
    return least + 16 * below(3) - (one_in(2) ? 1 : 0);
}

void test_random(unsigned long tables)
{
    static draft d;
    unsigned long by_family[FAMILIES][3] = {{0}}, damaged = 0, marked = 0, numbered = 0;
    char name[64];

    seed = 20240229;
    for (unsigned long i = 0; i < tables; i++) {
        size_t family = i % FAMILIES;
        make_random(&d, family, one_in(8));
        snprintf(name, sizeof name, "random table %lu, %s", i, family_names[family]);
        if (one_in(3))
            put_markers(&d), marked++;
        if (one_in(3))
            number_lines(&d), numbered++;
        if (one_in(12)) {
            for (size_t k = 1 + below(2); k != 0; k--)
                damage(&d, some_refusal(11));
            damaged++;
        }
        size_t answer_len = one_in(20) ? near(LW_ANSWER_NUMBERS) : LW_ANSWER_NUMBERS;
        size_t work_len = one_in(20) ? near(LW_WORK_NUMBERS) : LW_WORK_NUMBERS;
        lw_record found = solve_both(HERE, name, ALL(d.t), answer_len, work_len);
        if (found.outcome <= 2)
            by_family[family][found.outcome]++;
    }
    printf("%lu random tables, %lu of them damaged, %lu with markers, %lu with line numbers\n", tables, damaged, marked,
           numbered);
    for (size_t f = 0; f < FAMILIES; f++) {
        printf("    %-13s always %lu, never %lu, solved %lu\n", family_names[f], by_family[f][0], by_family[f][1],
               by_family[f][2]);
        for (size_t k = 0; k < 3; k++)
            check(tables < 10000 || by_family[f][k] != 0, HERE, "%s: outcome %zu did not occur", family_names[f], k);
    }
}
