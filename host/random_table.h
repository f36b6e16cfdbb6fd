/*
  random_table.h -- the tables of the C tests: written down in rows, or random

  The random tables come from the numbers of random_numbers.c, which are always
  the same, so that a run of a test can be had again.
*/

#ifndef RANDOM_TABLE_H
#define RANDOM_TABLE_H

#include <stdbool.h>
#include <stdint.h>
#include <stdio.h>

#include "linkwords.h"
#include "random_numbers.h"

/* Rows. */

#define VARIABLE(width)       LW_VARIABLE, (width), 0, 0
#define FILL(bit, width)      LW_FILL, (bit), (width), 0
#define JOIN(a, b)            LW_JOIN, (a), (b), 0
#define CUT(a, high, low)     LW_CUT, (a), (high), (low)
#define EQUATION(a, b)        LW_EQUATION, (a), (b), 0
#define LINE(a, b, number)    LW_EQUATION, (a), (b), (number) /* an equation with a line number */
#define MARKER(value, width)  LW_VALUE, (value), (width), 0

/* A small table as two arguments: its numbers and their count. */
#define TABLE(...) \
    (const uint16_t[]){__VA_ARGS__}, sizeof((const uint16_t[]){__VA_ARGS__}) / sizeof(uint16_t)

/* A table that grows; there is room for a few rows more than are allowed. */
typedef struct {
    uint16_t numbers[4 * (512 + 8)];
    size_t len;
} table;

static inline void add(table *t, size_t kind, size_t a, size_t b, size_t c)
{
    uint16_t *n = t->numbers + t->len;
    n[0] = (uint16_t)kind, n[1] = (uint16_t)a, n[2] = (uint16_t)b, n[3] = (uint16_t)c;
    t->len += 4;
}

#define ALL(t) (t).numbers, (t).len

static inline void print_table(const uint16_t *numbers, size_t len)
{
    printf("  kind a b c, %zu numbers:\n", len);
    for (size_t i = 0; i < len; i++)
        printf("%s%u%s", i % 4 == 0 ? "  " : " ", numbers[i], i % 4 == 3 || i + 1 == len ? "\n" : "");
}

/* Random tables. */

/* What a table is meant to be; it may turn out otherwise. */
typedef enum { MEANT_ALWAYS, MEANT_NEVER, MEANT_SOLVED } intent;

/* A table in the making: what is known of its rows keeps the next row valid. */
typedef struct {
    table t;
    size_t rows, variables, equations, bits;
    size_t width[512]; /* 0 for an equation */
    bool limited;      /* whether variables, equations and variable bits stay within their limits */
} draft;

static inline void clear(draft *d)
{
    d->t.len = d->rows = d->variables = d->equations = d->bits = 0;
    d->limited = true;
}

/* Adds a row and gives its number. */
static inline size_t add_row(draft *d, size_t width, size_t kind, size_t a, size_t b, size_t c)
{
    add(&d->t, kind, a, b, c);
    d->width[d->rows] = width;
    if (kind == LW_VARIABLE) {
        d->variables++;
        d->bits += width;
    } else if (kind == LW_EQUATION) {
        d->equations++;
    }
    return d->rows++;
}

/* A row that may be named, often a late one; NONE if there is none. */
enum { NONE = 512 };

static inline size_t some_term(const draft *d)
{
    for (int i = 0; i < 8 && d->rows != 0; i++) {
        size_t r = one_in(2) || d->rows < 4 ? below(d->rows) : d->rows - 1 - below(4);
        if (d->width[r] != 0)
            return r;
    }
    return NONE;
}

/* A row as wide as row a, or of another width; NONE if there is none. */
static inline size_t partner(const draft *d, size_t a, bool equal)
{
    size_t start = below(d->rows);
    for (size_t i = 0; i < d->rows; i++) {
        size_t r = (start + i) % d->rows;
        if (d->width[r] != 0 && (d->width[r] == d->width[a]) == equal)
            return r;
    }
    return NONE;
}

/* By how many bits two rows differ in width. */
static inline size_t apart(const draft *d, size_t a, size_t b)
{
    return d->width[a] > d->width[b] ? d->width[a] - d->width[b] : d->width[b] - d->width[a];
}

/* A row that is wider or narrower than row a by as few bits as there is one; NONE if there is none. */
static inline size_t near_partner(const draft *d, size_t a)
{
    size_t near = partner(d, a, false);
    for (size_t r = 0; near != NONE && r < d->rows; r++)
        if (d->width[r] != 0 && apart(d, a, r) != 0 && apart(d, a, r) < apart(d, a, near))
            near = r;
    return near;
}

/* The other side for an equation of row a: mostly as wide, else wider or narrower, by few bits or by many. */
static inline size_t other_side(const draft *d, size_t a)
{
    size_t other = !one_in(3) ? NONE : one_in(2) ? near_partner(d, a) : partner(d, a, false);
    return other != NONE ? other : partner(d, a, true);
}

/* A number of so many bits, at most 16; often with a run of equal bits at one end, or of equal bits only. */
static inline size_t some_bits(size_t width)
{
    size_t most = ((size_t)1 << width) - 1, bits = random_number() & most, run = below(width + 1);
    switch (below(6)) {
    case 0:  return bits >> run;
    case 1:  return most & ~(bits >> run);
    case 2:  return bits << run & most;
    case 3:  return most & ~(bits << run);
    default: return bits;
    }
}

/* Adds a row of the kind if a valid one is found, else a fill. */
static inline void grow(draft *d, size_t kind, size_t widest)
{
    size_t w = 1 + below(widest), a = some_term(d), b = some_term(d), high, low;

    switch (a == NONE || b == NONE ? LW_VARIABLE : kind) {
    case LW_VARIABLE:
        if (!d->limited || (d->variables < 64 && d->bits + w <= 4096)) {
            add_row(d, w, VARIABLE(w));
            return;
        }
        break;
    case LW_JOIN:
        if (d->width[a] + d->width[b] <= 1024) {
            add_row(d, d->width[a] + d->width[b], JOIN(a, b));
            return;
        }
        break;
    case LW_CUT:
        low = one_in(3) ? 0 : below(d->width[a]);
        high = one_in(3) ? d->width[a] - 1 : low + below(d->width[a] - low);
        add_row(d, high - low + 1, CUT(a, high, low));
        return;
    case LW_EQUATION:
        if (!d->limited || d->equations < 64) {
            b = other_side(d, a);
            if (one_in(2))
                add_row(d, 0, EQUATION(a, b));
            else
                add_row(d, 0, EQUATION(b, a));
            return;
        }
        break;
    case LW_VALUE:
        w = w <= 16 ? w : 1 + below(16);
        add_row(d, w, MARKER(some_bits(w), w));
        return;
    default:
        break;
    }
    add_row(d, w, FILL(below(2), w));
}

/* A row of one of two kinds; NONE if there is none. */
static inline size_t some_row(const draft *d, size_t kind, size_t other)
{
    size_t start = d->rows == 0 ? 0 : below(d->rows);
    for (size_t i = 0; i < d->rows; i++) {
        size_t r = (start + i) % d->rows;
        if (d->t.numbers[4 * r] == kind || d->t.numbers[4 * r] == other)
            return r;
    }
    return NONE;
}

/* A line number: the low bound of a cut, the greatest there is, a low one, or any. */
static inline uint16_t some_line(const draft *d)
{
    size_t cut = one_in(3) ? some_row(d, LW_CUT, LW_CUT) : NONE;
    if (cut != NONE)
        return d->t.numbers[4 * cut + 3];
    return (uint16_t)(one_in(4) ? 65535 : one_in(2) ? 1 + below(4) : below(65536));
}

/* Line numbers for the equations, of which some keep 0: few different ones, so that they meet, or many. */
static inline void number_lines(draft *d)
{
    uint16_t lines[64];
    size_t count = 1 + below(one_in(4) ? 64 : one_in(2) ? 2 : 5), often = 1 + below(4);
    for (size_t i = 0; i < count; i++)
        lines[i] = some_line(d);
    for (size_t r = 0; r < d->rows; r++)
        if (d->t.numbers[4 * r] == LW_EQUATION && below(4) < often)
            d->t.numbers[4 * r + 3] = lines[below(count)];
}

/* A valid table, unless its limits are lifted. */
static inline void make_table(draft *d)
{
    static const size_t sizes[] = {3, 12, 40, 120, 512}, widths[] = {1, 3, 8, 60, 300, 1024};
    size_t rows = one_in(100) ? 0 : 1 + below(sizes[one_in(12) ? 4 : below(4)]), widest = widths[below(6)];
    size_t favoured = below(6);

    clear(d);
    d->limited = !one_in(8);
    while (d->rows < rows)
        grow(d, one_in(2) ? favoured : below(6), widest);
    if (one_in(2))
        number_lines(d);
}

/* One of the refusals of a table from this one on, 11 or 12; or 0, which stands for none of them. */
static inline unsigned some_refusal(size_t lowest)
{
    static const unsigned refusals[] = {11, 12, 13, 14, 15, 40, 16, 17, 0};
    size_t from = lowest - 11;
    return refusals[from + below(sizeof refusals / sizeof refusals[0] - from)];
}

/* Makes one fault, which the given refusal mostly tells; or changes some number. */
static inline void damage(draft *d, unsigned refusal)
{
    size_t r = NONE, a;
    uint16_t *n = d->t.numbers;

    switch (refusal) {
    case 11:
        d->t.len = d->rows < 2 || one_in(2) ? 2049 + below(8) : d->t.len - 1 - below(3);
        return;
    case 14: r = some_row(d, one_in(2) ? LW_JOIN : LW_EQUATION, LW_CUT); break;
    case 15: r = some_row(d, one_in(2) ? LW_VARIABLE : LW_JOIN, LW_FILL); break;
    case 40: r = some_row(d, LW_VALUE, LW_VALUE); break;
    case 16: r = some_row(d, LW_CUT, LW_CUT); break;
    default: r = d->rows == 0 ? NONE : below(d->rows); break;
    }
    if (refusal == 15 && one_in(4))
        r = some_row(d, LW_VALUE, LW_VALUE);
    if (r == NONE)
        return;
    n += 4 * r;
    switch (refusal) {
    case 12:
        n[0] = (uint16_t)(6 + below(one_in(2) ? 3 : 65530));
        break;
    case 13:
        n[n[0] == LW_VARIABLE && one_in(2) ? 2 : 3] = (uint16_t)(1 + below(9));
        break;
    case 14:
        a = one_in(3) ? some_row(d, LW_EQUATION, LW_EQUATION) : r + below(one_in(2) ? 2 : 600);
        n[n[0] != LW_CUT && one_in(2) ? 2 : 1] = (uint16_t)a;
        break;
    case 15:
        if (n[0] == LW_JOIN)
            n[1] = n[2] = (uint16_t)(r - 1); /* too wide now and then */
        else if (n[0] == LW_FILL && one_in(3))
            n[1] = (uint16_t)(2 + below(3));
        else
            n[n[0] == LW_VARIABLE ? 1 : 2] = (uint16_t)(one_in(2) ? 0 : 1025 + below(3));
        break;
    case 40: /* too wide; or a value that is too large by one, by little, or by much */
        if (one_in(3) || n[2] >= 16)
            n[2] = (uint16_t)(one_in(2) ? 17 : 17 + below(1008));
        else
            n[1] = (uint16_t)((1U << n[2]) + (one_in(2) ? 0 : below(one_in(2) ? 3 : 65536 - (1U << n[2]))));
        break;
    case 16:
        if (n[1] < r && one_in(2))
            n[2] = (uint16_t)(d->width[n[1]] + below(2));
        else
            n[3] = (uint16_t)(n[2] + 1U);
        break;
    default:
        n[below(4)] = (uint16_t)below(one_in(2) ? 7 : 65536);
        break;
    }
}

#endif /* RANDOM_TABLE_H */
