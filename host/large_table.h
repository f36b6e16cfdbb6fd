/*
  large_table.h -- random tables of up to 4,096 variable bits

  Each outcome is frequent, wide words, turned words, long chains of cuts, sides
  of unequal width and line numbers are among them.
*/

#ifndef LARGE_TABLE_H
#define LARGE_TABLE_H

#include <stdbool.h>
#include <stdint.h>
#include <string.h>

#include "random_table.h"

/* Four words of 1024 bits, rows 12 to 15, each equal to row 11, the bits 0 1 0 1 ..: 4096 fixed bits. */
static inline void make_fixed_bits(table *t)
{
    t->len = 0;
    add(t, FILL(0, 1));
    add(t, FILL(1, 1));
    add(t, JOIN(0, 1));
    for (size_t i = 2; i < 11; i++)
        add(t, JOIN(i, i));
    for (size_t v = 0; v < 4; v++)
        add(t, VARIABLE(1024));
    for (size_t v = 0; v < 4; v++)
        add(t, EQUATION(12 + v, 11));
}

/*
  A table in the making, with the value of each row under one pattern, the
  hidden one: the first width bytes of value[r] are the bits of row r, high bit
  first. Equations that hold under it keep the table from never.
*/
typedef struct {
    draft d;
    uint8_t value[512][1024];
    uint8_t hidden[1024];
    bool one_for_all;
} plan;

enum { LARGE_ROWS = 480 }; /* a few rows may be added after a test against this */

static inline size_t plan_variable(plan *p, size_t width)
{
    for (size_t i = 0; i < width; i++)
        p->value[p->d.rows][i] = p->one_for_all ? p->hidden[1024 - width + i] : (uint8_t)below(2);
    return add_row(&p->d, width, VARIABLE(width));
}

static inline size_t plan_fill(plan *p, size_t bit, size_t width)
{
    memset(p->value[p->d.rows], (int)bit, width);
    return add_row(&p->d, width, FILL(bit, width));
}

static inline size_t plan_marker(plan *p, size_t value, size_t width)
{
    for (size_t i = 0; i < width; i++)
        p->value[p->d.rows][width - 1 - i] = value >> i & 1;
    return add_row(&p->d, width, MARKER(value, width));
}

static inline size_t plan_join(plan *p, size_t a, size_t b)
{
    uint8_t *value = p->value[p->d.rows];
    memcpy(value, p->value[a], p->d.width[a]);
    memcpy(value + p->d.width[a], p->value[b], p->d.width[b]);
    return add_row(&p->d, p->d.width[a] + p->d.width[b], JOIN(a, b));
}

/* A cut of so many bits, so many places behind the row's high end. */
static inline size_t plan_cut(plan *p, size_t a, size_t behind, size_t width)
{
    size_t high = p->d.width[a] - 1 - behind;
    memcpy(p->value[p->d.rows], p->value[a] + behind, width);
    return add_row(&p->d, width, CUT(a, high, high - width + 1));
}

/* The widest of some rows. */
static inline size_t wide_term(const plan *p)
{
    size_t r = 0;
    for (size_t i = 1 + below(6); i != 0; i--) {
        size_t other = below(p->d.rows);
        if (p->d.width[other] > p->d.width[r])
            r = other;
    }
    return p->d.width[r] == 0 ? some_row(&p->d, LW_VARIABLE, LW_FILL) : r;
}

/* A wide word: a row joined with others of its width or with itself, doubling. */
static inline size_t plan_doubled(plan *p)
{
    size_t r = one_in(3) ? wide_term(p) : some_row(&p->d, LW_VARIABLE, LW_VARIABLE), other;
    while (p->d.width[r] <= 512 && p->d.rows < LARGE_ROWS && !one_in(12)) {
        other = one_in(4) ? r : partner(&p->d, r, true);
        r = one_in(2) ? plan_join(p, r, other) : plan_join(p, other, r);
    }
    return r;
}

/* A word turned at an odd place: its low part before its high part. */
static inline size_t plan_turned(plan *p)
{
    size_t r = wide_term(p), w = p->d.width[r];
    if (w < 2)
        return r;
    size_t at = below(w / 2) * 2 + 1, left = plan_cut(p, r, at, w - at);
    return plan_join(p, left, plan_cut(p, r, 0, at));
}

/* A chain of cuts, each of the row before: of all bits, or of a few less at one end. */
static inline size_t plan_chain(plan *p, size_t cuts)
{
    size_t r = wide_term(p);
    for (; cuts != 0 && p->d.rows < LARGE_ROWS; cuts--) {
        size_t less = below(3), w = p->d.width[r];
        if (w < 8)
            less = 0;
        r = plan_cut(p, r, one_in(2) ? 0 : less, w - less);
    }
    return r;
}

/* Parts of two rows, as wide as they are found to be equal under the hidden pattern; or any. */
static inline void plan_parts(plan *p, bool holds)
{
    size_t a = wide_term(p), b = wide_term(p);
    size_t w = p->d.width[a] < p->d.width[b] ? p->d.width[a] : p->d.width[b];
    for (;; w = (w + 1) / 2) {
        size_t places = p->d.width[b] - w + 1, from = below(p->d.width[a] - w + 1), start = below(places);
        for (size_t i = 0; i < places; i++) {
            size_t to = (start + i) % places;
            if (holds && memcmp(p->value[a] + from, p->value[b] + to, w) != 0)
                continue;
            size_t left = plan_cut(p, a, from, w), right = plan_cut(p, b, to, w);
            add_row(&p->d, 0, EQUATION(left, right));
            return;
        }
        if (w == 1)
            return;
    }
}

/* A wide word with a turned one, if they are equal under the hidden pattern; else parts. */
static inline void plan_words(plan *p, bool holds)
{
    size_t a = one_in(2) ? plan_doubled(p) : wide_term(p), b = plan_turned(p);
    size_t w = p->d.width[a] < p->d.width[b] ? p->d.width[a] : p->d.width[b];
    if (holds && memcmp(p->value[a], p->value[b], w) != 0) {
        plan_parts(p, holds);
        return;
    }
    size_t left = plan_cut(p, a, 0, w);
    add_row(&p->d, 0, EQUATION(left, plan_cut(p, b, 0, w)));
}

/* A part of a row with a fill. */
static inline void plan_fixed(plan *p, bool holds)
{
    size_t r = wide_term(p), from = below(p->d.width[r]), w = 1;
    uint8_t bit = p->value[r][from];
    while (from + w < p->d.width[r] && p->value[r][from + w] == bit && !one_in(20))
        w++;
    size_t left = plan_cut(p, r, from, w);
    add_row(&p->d, 0, EQUATION(left, plan_fill(p, holds ? bit : bit ^ 1U, w)));
}

/* A part of a row with a marker; if it is not to hold, they differ in one bit. */
static inline void plan_marked(plan *p, bool holds)
{
    size_t r = wide_term(p), w = 1 + below(p->d.width[r] < 16 ? p->d.width[r] : 16), value = 0;
    size_t left = plan_cut(p, r, below(p->d.width[r] - w + 1), w);
    for (size_t i = 0; i < w; i++)
        value = 2 * value + p->value[left][i];
    if (!holds)
        value ^= (size_t)1 << below(w);
    add_row(&p->d, 0, EQUATION(left, plan_marker(p, value, w)));
}

/* An equation of a wider side and a narrower one, in either order. */
static inline void plan_unequal(plan *p, size_t wider, size_t narrower)
{
    if (one_in(2))
        add_row(&p->d, 0, EQUATION(wider, narrower));
    else
        add_row(&p->d, 0, EQUATION(narrower, wider));
}

/* Where so many bits stand in a row's value; SIZE_MAX if they do not. */
static inline size_t place_of(const plan *p, size_t r, const uint8_t *bits, size_t width)
{
    for (size_t at = 0; at + width <= p->d.width[r]; at++)
        if (memcmp(p->value[r] + at, bits, width) == 0)
            return at;
    return SIZE_MAX;
}

/*
  A part of a row with a narrower part: of another row, where that has the same
  bits under the hidden pattern, or of the same. If the equation is to hold, the
  bits that the wider one has alone are 0 there.
*/
static inline void plan_top(plan *p, bool holds)
{
    size_t r = wide_term(p), other = one_in(4) ? r : wide_term(p), w = p->d.width[r], from = below(w), more = 1;
    for (size_t i = 0; holds && i < w && p->value[r][from] != 0; i++)
        from = (from + 1) % w;
    while (from + more < w && (!holds || p->value[r][from + more] == 0) && !one_in(20))
        more++;
    if (one_in(3))
        more = 1;
    if (from + more >= w || (holds && p->value[r][from] != 0))
        return;
    size_t rest = w - from - more, at;
    while ((at = place_of(p, other, p->value[r] + from + more, rest)) == SIZE_MAX && rest > 1)
        rest /= 2;
    size_t wider = plan_cut(p, r, from, more + rest);
    plan_unequal(p, wider, at == SIZE_MAX ? plan_cut(p, r, from + more, rest) : plan_cut(p, other, at, rest));
}

/* A word behind a fill, often up to 1024 bits, with the word; if it is not to hold, the fill is of ones. */
static inline void plan_behind_fill(plan *p, bool holds)
{
    size_t r = wide_term(p), w = one_in(3) ? 1 : p->d.width[r] == 1024 ? 1 + below(1023) : p->d.width[r];
    size_t narrower = plan_cut(p, r, below(p->d.width[r] - w + 1), w), most = 1024 - w;
    size_t fill = plan_fill(p, holds ? 0 : 1, one_in(3) ? 1 : one_in(2) ? most : 1 + below(most));
    plan_unequal(p, plan_join(p, fill, one_in(2) ? narrower : plan_cut(p, narrower, 0, w)), narrower);
}

/* A part of a row with a marker that has zeros above it. If it is not to hold, there is a one among them. */
static inline void plan_wide_marker(plan *p, bool holds)
{
    size_t r = wide_term(p), w = 1 + below(p->d.width[r] < 15 ? p->d.width[r] : 15), value = 0, more = 1 + below(16 - w);
    size_t part = plan_cut(p, r, below(p->d.width[r] - w + 1), w);
    for (size_t i = 0; i < w; i++)
        value = 2 * value + p->value[part][i];
    if (!holds)
        value |= (size_t)1 << (w + below(more));
    plan_unequal(p, plan_marker(p, value, w + more), part);
}

/* Sides of unequal width. */
static inline void plan_short(plan *p, bool holds, bool fixes)
{
    if (fixes && one_in(6))
        plan_wide_marker(p, holds);
    else if (one_in(2))
        plan_behind_fill(p, holds);
    else
        plan_top(p, holds);
}

/* A few bits of a row made 0, and some of them 1. */
static inline void plan_conflict(plan *p)
{
    size_t r = wide_term(p), w = 1 + below(p->d.width[r] < 40 ? p->d.width[r] : 40);
    size_t part = plan_cut(p, r, below(p->d.width[r] - w + 1), w), bit = below(2);
    add_row(&p->d, 0, EQUATION(part, plan_fill(p, bit, w)));
    size_t less = 1 + below(w), again = plan_cut(p, part, below(w - less + 1), less);
    add_row(&p->d, 0, EQUATION(plan_fill(p, bit ^ 1, less), again));
}

/* A word with itself, cut at an odd place and joined again. */
static inline void plan_same(plan *p)
{
    size_t r = wide_term(p), w = p->d.width[r], copy = r;
    if (w > 1) {
        size_t at = below(w / 2) * 2 + 1, left = plan_cut(p, r, 0, at);
        copy = plan_join(p, left, plan_cut(p, r, at, w - at));
    }
    add_row(&p->d, 0, EQUATION(r, copy));
}

static inline void make_large(plan *p)
{
    static const size_t shapes[] = {64, 1024, 1, 16, 200};
    intent meant = one_in(5) ? MEANT_ALWAYS : one_in(3) ? MEANT_NEVER : MEANT_SOLVED;
    size_t shape = below(6), variables = 1 + below(64), equations = one_in(3) ? 64 : 1 + below(24);
    size_t wrong = below(equations), period = one_in(3) ? 1 : 1 + below(one_in(2) ? 9 : 300);
    bool fixes = meant == MEANT_NEVER || one_in(2); /* else no bit need be fixed, and more are left to be tied */
    bool uneven = one_in(2);                        /* whether there may be sides of unequal width */

    clear(&p->d);
    p->one_for_all = period == 1 || !one_in(4);
    for (size_t i = 0; i < 1024; i++)
        p->hidden[i] = i < period ? (uint8_t)below(2) : p->hidden[i - period];
    while (p->d.variables < variables && p->d.bits < 4096) {
        size_t room = 4096 - p->d.bits, w = shape < 5 ? shapes[shape] : 1 + below(one_in(3) ? 1024 : 100);
        plan_variable(p, w < room ? w : room);
    }
    if (fixes && one_in(4)) {
        size_t w = 1 + below(300);
        plan_fill(p, below(2), w);
    }
    if (fixes && one_in(4)) {
        size_t w = 1 + below(16);
        plan_marker(p, some_bits(w), w);
    }
    for (size_t i = 1 + below(12); i != 0; i--)
        plan_doubled(p);
    if (one_in(3))
        plan_chain(p, 50 + below(200));
    while (p->d.equations < equations && p->d.rows < LARGE_ROWS) {
        bool holds = meant == MEANT_SOLVED || p->d.equations < wrong;
        if (one_in(4))
            plan_turned(p);
        else if (one_in(6))
            plan_doubled(p);
        else if (one_in(20))
            plan_chain(p, below(40));
        if (p->d.bits < 4000 && p->d.variables < 64 && one_in(20))
            plan_variable(p, 1 + below(90));
        if (uneven && (meant == MEANT_ALWAYS ? one_in(3) : one_in(20)))
            plan_behind_fill(p, true);
        else if (meant == MEANT_ALWAYS || one_in(10))
            plan_same(p);
        else if (meant == MEANT_NEVER && p->d.equations >= wrong && p->d.equations + 1 < equations && one_in(3))
            plan_conflict(p);
        else if (uneven && one_in(4))
            plan_short(p, holds, fixes);
        else if (fixes && one_in(6))
            plan_fixed(p, holds);
        else if (fixes && one_in(6))
            plan_marked(p, holds);
        else if (one_in(2))
            plan_words(p, holds);
        else
            plan_parts(p, holds);
    }
    if (one_in(3))
        number_lines(&p->d);
}

#endif /* LARGE_TABLE_H */
