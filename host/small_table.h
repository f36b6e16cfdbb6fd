/*
  small_table.h -- random tables of few variable bits, and what occurs in them

  They are made so that each outcome, each kind of equation and each kind of
  border is frequent; an enumeration of all patterns can be had of each.
*/

#ifndef SMALL_TABLE_H
#define SMALL_TABLE_H

#include <stdbool.h>
#include <stdint.h>
#include <string.h>

#include "enumerate.h"
#include "plain_solver.h"
#include "random_table.h"
#include "reference.h"

enum { SMALL_WIDTH = 24 };

/* What a table may have; each of these may have too what those before it may. */
typedef enum { EQUAL_SIDES, WITH_MARKERS, WITH_SHORT_SIDES, WITH_LINES } extent;

/*
  A table in the making, with the value of each row of up to 64 bits under one
  pattern, the hidden one. Equations that hold under it keep the table from
  never.
*/
typedef struct {
    draft d;
    uint64_t value[512];
    uint64_t hidden;     /* a variable's value; */
    bool one_for_all;    /* that of each variable, or else each gets one of its own */
    size_t room;         /* variable bits that can still be added */
    extent with;
} sketch;

static inline uint64_t ones(size_t width)
{
    return width >= 64 ? UINT64_MAX : ((uint64_t)1 << width) - 1;
}

static inline size_t add_variable(sketch *s, size_t width)
{
    s->value[s->d.rows] = (s->one_for_all ? s->hidden : random_number()) & ones(width);
    s->room -= width;
    return add_row(&s->d, width, VARIABLE(width));
}

static inline size_t add_fill(sketch *s, uint64_t bit, size_t width)
{
    s->value[s->d.rows] = bit == 0 ? 0 : ones(width);
    return add_row(&s->d, width, FILL((uint16_t)bit, width));
}

static inline size_t add_marker(sketch *s, uint64_t value, size_t width)
{
    s->value[s->d.rows] = value;
    return add_row(&s->d, width, MARKER((size_t)value, width));
}

static inline size_t add_join(sketch *s, size_t a, size_t b)
{
    size_t right = s->d.width[b];
    s->value[s->d.rows] = (right < 64 ? s->value[a] << right : 0) | s->value[b];
    return add_row(&s->d, s->d.width[a] + right, JOIN(a, b));
}

/* The bits of a row from low up, so many. */
static inline uint64_t part_value(const sketch *s, size_t a, size_t low, size_t width)
{
    return s->value[a] >> low & ones(width);
}

/* A cut of so many bits; the row itself, now and then, if that is all of it. */
static inline size_t add_part(sketch *s, size_t a, size_t low, size_t width)
{
    if (width == s->d.width[a] && !one_in(4))
        return a;
    s->value[s->d.rows] = part_value(s, a, low, width);
    return add_row(&s->d, width, CUT(a, low + width - 1, low));
}

static inline void add_equation(sketch *s, size_t a, size_t b)
{
    if (one_in(2))
        add_row(&s->d, 0, EQUATION(a, b));
    else
        add_row(&s->d, 0, EQUATION(b, a));
}

/* A row of at most SMALL_WIDTH bits; there is one. */
static inline size_t small_term(const sketch *s)
{
    for (;;) {
        size_t r = some_term(&s->d);
        if (r != NONE && s->d.width[r] <= SMALL_WIDTH)
            return r;
    }
}

/* A row as above, often a variable. */
static inline size_t small_word(const sketch *s)
{
    size_t r = one_in(2) ? some_row(&s->d, LW_VARIABLE, LW_VARIABLE) : NONE;
    return r != NONE ? r : small_term(s);
}

/* A row that is the same word as row r: cut in two and joined again, or cut out of a join. */
static inline size_t same_word(sketch *s, size_t r)
{
    size_t w = s->d.width[r], other = small_term(s), at;

    switch (w + s->d.width[other] > 64 ? 3 : below(4)) {
    case 0:
        return add_part(s, add_join(s, r, other), s->d.width[other], w);
    case 1:
        return add_part(s, add_join(s, other, r), 0, w);
    case 2:
        return r;
    default:
        if (w == 1)
            return add_part(s, r, 0, 1);
        at = 1 + below(w - 1);
        size_t left = add_part(s, r, at, w - at), right = add_part(s, r, 0, at);
        return add_join(s, left, right);
    }
}

/* The kinds of equations. If it is to hold, it holds under the hidden pattern. */

/* Parts of two rows. */
static inline void equate_parts(sketch *s, bool holds)
{
    size_t a = 0, b = 0, w = 0, low_a = 0, low_b = 0;
    for (int i = 0; i < 30; i++) {
        a = small_word(s);
        b = small_word(s);
        size_t most = s->d.width[a] < s->d.width[b] ? s->d.width[a] : s->d.width[b];
        w = i < 20 && !one_in(3) ? most : 1 + below(most);
        low_a = below(s->d.width[a] - w + 1);
        low_b = below(s->d.width[b] - w + 1);
        if (!holds || part_value(s, a, low_a, w) == part_value(s, b, low_b, w)) {
            size_t left = add_part(s, a, low_a, w);
            add_equation(s, left, add_part(s, b, low_b, w));
            return;
        }
    }
}

/* Two parts of one variable that overlap. */
static inline void equate_overlapping(sketch *s, bool holds)
{
    for (int i = 0; i < 30; i++) {
        size_t v = small_term(s), width = s->d.width[v];
        if (s->d.t.numbers[4 * v] != LW_VARIABLE || width < 3)
            continue;
        size_t w = 2 + below(width - 2), low = below(width - w), step = 1 + below(width - w - low);
        if (step >= w || (holds && part_value(s, v, low, w) != part_value(s, v, low + step, w)))
            continue;
        size_t left = add_part(s, v, low, w);
        add_equation(s, left, add_part(s, v, low + step, w));
        return;
    }
}

/* A join of two rows with a row as wide, or with a part of one. */
static inline void equate_join(sketch *s, bool holds)
{
    for (int i = 0; i < 30; i++) {
        size_t a = small_term(s), b = small_term(s), c = small_term(s), w = s->d.width[a] + s->d.width[b];
        if (w > s->d.width[c])
            continue;
        size_t low = below(s->d.width[c] - w + 1);
        if (holds && (s->value[a] << s->d.width[b] | s->value[b]) != part_value(s, c, low, w))
            continue;
        size_t left = add_join(s, a, b);
        add_equation(s, left, add_part(s, c, low, w));
        return;
    }
}

/* The low end of a variable and the high end of the next one, joined, with a part of a variable. */
static inline void equate_across(sketch *s, bool holds)
{
    for (int i = 0; i < 30; i++) {
        size_t x = some_row(&s->d, LW_VARIABLE, LW_VARIABLE), c = some_row(&s->d, LW_VARIABLE, LW_VARIABLE), y;
        if (x == NONE)
            return;
        for (y = x + 1; y < s->d.rows && s->d.t.numbers[4 * y] != LW_VARIABLE; y++)
            ;
        if (y == s->d.rows)
            continue;
        size_t left = 1 + below(s->d.width[x]), right = 1 + below(s->d.width[y]);
        if (left + right > s->d.width[c])
            continue;
        size_t top = s->d.width[y] - right, low = below(s->d.width[c] - left - right + 1);
        uint64_t value = part_value(s, x, 0, left) << right | part_value(s, y, top, right);
        if (holds && value != part_value(s, c, low, left + right))
            continue;
        size_t a = add_part(s, x, 0, left), b = add_part(s, y, top, right), whole = add_join(s, a, b);
        add_equation(s, whole, add_part(s, c, low, left + right));
        return;
    }
}

/* A few bits of a row with its bits in reverse order. */
static inline void equate_reversed(sketch *s, bool holds)
{
    for (int i = 0; i < 30; i++) {
        size_t a = small_term(s), b = small_term(s), w = 2 + below(3);
        if (s->d.width[a] < w || s->d.width[b] < w)
            continue;
        size_t low_a = below(s->d.width[a] - w + 1), low_b = below(s->d.width[b] - w + 1);
        bool same = true;
        for (size_t k = 0; k < w; k++)
            same = same && part_value(s, a, low_a + k, 1) == part_value(s, b, low_b + w - 1 - k, 1);
        if (holds && !same)
            continue;
        size_t turned = add_part(s, a, low_a, 1);
        for (size_t k = 1; k < w; k++)
            turned = add_join(s, turned, add_part(s, a, low_a + k, 1));
        add_equation(s, turned, add_part(s, b, low_b, w));
        return;
    }
}

/* A part of a row with a fill. */
static inline void equate_fill(sketch *s, bool holds)
{
    size_t a = small_term(s), low = below(s->d.width[a]), w = 1;
    uint64_t bit = part_value(s, a, low, 1);
    while (low + w < s->d.width[a] && !one_in(3) && part_value(s, a, low + w, 1) == bit)
        w++;
    size_t left = add_part(s, a, low, w);
    add_equation(s, left, add_fill(s, holds ? bit : bit ^ 1, w));
}

/* A part of a row with a marker, or with a part of one; if it is not to hold, they differ in one bit. */
static inline void equate_marker(sketch *s, bool holds)
{
    size_t a = small_word(s), most = s->d.width[a] < 16 ? s->d.width[a] : 16, w = one_in(2) ? most : 1 + below(most);
    size_t low = below(s->d.width[a] - w + 1), less = w < 16 && one_in(4) ? 1 + below(16 - w) : 0;
    uint64_t value = part_value(s, a, low, w);
    if (!holds)
        value ^= (uint64_t)1 << below(w);
    size_t left = add_part(s, a, low, w), above = less == 0 ? 0 : below(less + 1);
    if (less == 0) {
        add_equation(s, left, add_marker(s, value, w));
        return;
    }
    uint64_t around = some_bits(w + less) & ~(ones(w) << (less - above)); /* so many bits above it, the others below */
    size_t marker = add_marker(s, around | value << (less - above), w + less);
    add_equation(s, left, add_part(s, marker, less - above, w));
}

/* Two markers, or a marker with a fill or with what is joined of both; equal or not. */
static inline void equate_fixed(sketch *s, bool holds)
{
    size_t w = 1 + below(16), at = below(w), left;
    uint64_t value = some_bits(w);
    if (at == 0) {
        left = add_marker(s, value, w);
    } else {
        size_t high = one_in(3) ? add_fill(s, value >> at & 1, w - at) : add_marker(s, value >> at, w - at);
        left = add_join(s, high, add_marker(s, value & ones(at), at));
        value = s->value[left];
    }
    if (!holds)
        value ^= (uint64_t)1 << below(w);
    add_equation(s, left, add_marker(s, value, w));
}

/* Bits each equal to the next, the last one or the first one fixed: equations of one bit. */
static inline void equate_chain(sketch *s, bool holds)
{
    size_t links = 2 + below(3), a = small_term(s), at = below(s->d.width[a]);
    uint64_t bit = part_value(s, a, at, 1);
    size_t term = add_part(s, a, at, 1);
    if (one_in(4))
        add_equation(s, term, add_fill(s, bit, 1));
    for (int i = 0; i < 20 && links != 0; i++) {
        size_t b = small_term(s), place = below(s->d.width[b]);
        if (holds && part_value(s, b, place, 1) != bit)
            continue;
        size_t other = add_part(s, b, place, 1);
        add_equation(s, term, other);
        term = other;
        links--;
    }
    add_equation(s, term, add_fill(s, holds ? bit : bit ^ 1, 1));
}

/* A bit, perhaps tied to others, fixed to its value under the hidden pattern; then with others to the other value. */
static inline void equate_conflict(sketch *s)
{
    size_t e = some_row(&s->d, LW_EQUATION, LW_EQUATION), a = small_term(s), b = a;
    if (e != NONE && !one_in(4)) {
        a = s->d.t.numbers[4 * e + 1];
        b = s->d.t.numbers[4 * e + 2];
    }
    if (s->d.width[a] > 64 || s->d.width[b] > 64)
        return;
    size_t width = s->d.width[b], at = below(s->d.width[a] < width ? s->d.width[a] : width); /* a bit that both have */
    size_t left = add_part(s, a, at, 1);
    size_t low = at - below(at + 1), high = at + below(width - at), right = add_part(s, b, low, high - low + 1);
    uint64_t bit = s->value[left];
    if (s->d.bits == 0)
        bit = bit == 0; /* a fixed bit with the other one */
    add_equation(s, left, add_fill(s, bit, 1));
    if (one_in(4))
        equate_parts(s, true);
    add_equation(s, right, add_fill(s, bit ^ 1, high - low + 1));
}

/* Two rows of one value, each joined with itself again and again: pairs repeated within an equation. */
static inline void equate_doubled(sketch *s, bool holds)
{
    for (int i = 0; i < 30; i++) {
        size_t a = small_term(s), b = small_term(s);
        if (s->d.width[a] != s->d.width[b] || (holds && s->value[a] != s->value[b]))
            continue;
        for (size_t k = 1 + below(one_in(6) ? 5 : 2); k != 0 && s->d.width[a] <= 512; k--) {
            size_t left = add_join(s, a, a);
            b = add_join(s, b, b);
            a = left;
        }
        add_equation(s, a, b);
        return;
    }
}

/*
  Sides of unequal width. An equation of them holds if both have the same value
  as numbers.
*/

/* The least width that a number needs. */
static inline size_t least_width(uint64_t number)
{
    size_t width = 1;
    while (number >> width != 0)
        width++;
    return width;
}

/* How many bits wider a side is: often one, and at most so many. */
static inline size_t some_more(size_t most)
{
    return one_in(3) ? 1 : 1 + below(most);
}

/* A word with so many fixed bits before it: a fill, or a marker of some bits that ends in the bit. */
static inline size_t add_before(sketch *s, size_t a, uint64_t bit, size_t more)
{
    if (more > 16 || one_in(2))
        return add_join(s, add_fill(s, bit, more), a);
    return add_join(s, add_marker(s, bit == 0 ? 0 : some_bits(more) | 1, more), a);
}

/* Parts of two rows, or two parts of one. */
static inline void equate_short_parts(sketch *s, bool holds)
{
    for (int i = 0; i < 60; i++) {
        size_t a = small_word(s), b = one_in(3) ? a : small_word(s), w = 1 + below(s->d.width[b]);
        size_t wider = w + some_more(6);
        if (wider > s->d.width[a])
            continue;
        size_t low_a = below(s->d.width[a] - wider + 1), low_b = below(s->d.width[b] - w + 1);
        if (a == b && one_in(2))
            low_b = low_a; /* the low bits of a word with all of it */
        if (holds && part_value(s, a, low_a, wider) != part_value(s, b, low_b, w))
            continue;
        size_t left = add_part(s, a, low_a, wider);
        add_equation(s, left, add_part(s, b, low_b, w));
        return;
    }
}

/* A part of a row, behind fixed bits, with a part as wide of a row. */
static inline void equate_behind_fixed(sketch *s, bool holds)
{
    for (int i = 0; i < 30; i++) {
        size_t a = small_word(s), b = small_word(s);
        size_t most = s->d.width[a] < s->d.width[b] ? s->d.width[a] : s->d.width[b], w = 1 + below(most);
        size_t low_a = below(s->d.width[a] - w + 1), low_b = below(s->d.width[b] - w + 1);
        if (holds && part_value(s, a, low_a, w) != part_value(s, b, low_b, w))
            continue;
        size_t part = add_part(s, a, low_a, w), left = add_before(s, part, !holds && one_in(2), some_more(20));
        add_equation(s, left, add_part(s, b, low_b, w));
        return;
    }
}

/* A part of a row with a wider or narrower marker or fill. If it is not to hold, they differ in one bit, often a high one. */
static inline void equate_short_fixed(sketch *s, bool holds)
{
    for (int i = 0; i < 30; i++) {
        size_t a = small_word(s), w = 1 + below(s->d.width[a]), low = below(s->d.width[a] - w + 1);
        uint64_t value = part_value(s, a, low, w);
        size_t other = least_width(value) + below(8); /* the width of the marker or fill */
        if (other == w || other > 16)
            continue;
        if (!holds)
            value ^= (uint64_t)1 << (one_in(2) ? other - 1 : below(other));
        size_t left = add_part(s, a, low, w);
        if ((value == 0 || value == ones(other)) && one_in(2))
            add_equation(s, left, add_fill(s, value & 1, other));
        else
            add_equation(s, left, add_marker(s, value, other));
        return;
    }
}

/* One of these. */
static inline void equate_short(sketch *s, bool holds)
{
    switch (below(4)) {
    case 0:  equate_behind_fixed(s, holds); break;
    case 1:  equate_short_fixed(s, holds); break;
    default: equate_short_parts(s, holds); break;
    }
}

/* A bit that is 1 under the hidden pattern fixed to it, and then among the top bits of a side: no pattern is left. */
static inline void equate_fixed_above(sketch *s)
{
    for (int i = 0; i < 30; i++) {
        size_t a = small_word(s), b = small_word(s), at = below(s->d.width[a]);
        if (at == 0 || part_value(s, a, at, 1) == 0)
            continue;
        size_t w = 1 + below(at < s->d.width[b] ? at : s->d.width[b]), low = below(at - w + 1);
        size_t high = at + below(s->d.width[a] - at), bit = add_part(s, a, at, 1);
        add_equation(s, bit, add_fill(s, 1, 1));
        if (one_in(3))
            equate_parts(s, true);
        size_t left = add_part(s, a, low, high - low + 1);
        add_equation(s, left, add_part(s, b, below(s->d.width[b] - w + 1), w));
        return;
    }
}

/* An equation that holds under every pattern. */
static inline void equate_same(sketch *s)
{
    size_t a = small_term(s), left = one_in(2) ? a : same_word(s, a);
    if (s->with >= WITH_SHORT_SIDES && one_in(2))
        left = add_before(s, left, 0, some_more(one_in(8) ? 900 : 20));
    add_equation(s, left, same_word(s, a));
}

/* An earlier equation again. */
static inline void equate_again(sketch *s)
{
    size_t e = some_row(&s->d, LW_EQUATION, LW_EQUATION);
    if (e != NONE)
        add_equation(s, s->d.t.numbers[4 * e + 1], s->d.t.numbers[4 * e + 2]);
}

/* A row that is no equation. */
static inline void add_term(sketch *s)
{
    size_t w, a, b;

    switch (below(s->with >= WITH_MARKERS ? 8 : 6)) {
    case 0:
        w = 1 + below(4);
        add_fill(s, below(2), w);
        return;
    case 1:
    case 2:
        if (s->room != 0) {
            w = 1 + below(s->room < 4 || one_in(4) ? s->room : 4);
            add_variable(s, w);
            return;
        }
        break;
    case 3:
        a = small_term(s);
        w = 1 + below(s->d.width[a]);
        add_part(s, a, below(s->d.width[a] - w + 1), w);
        return;
    case 6:
        w = 1 + below(one_in(2) ? 4 : 16);
        add_marker(s, some_bits(w), w);
        return;
    default:
        break;
    }
    a = small_term(s);
    b = small_term(s);
    add_join(s, a, b); /* of at most 2 * SMALL_WIDTH bits */
}

/* The tables of each extent are the same as before there was more. */
static inline void make_small(sketch *s, extent with)
{
    size_t chance = below(10);
    intent meant = chance < 2 ? MEANT_ALWAYS : chance < 6 ? MEANT_NEVER : MEANT_SOLVED;
    size_t equations = one_in(30) ? 0 : 1 + below(one_in(4) ? 12 : one_in(2) ? 5 : 2), wrong = below(equations + 1);
    size_t period = 1 + below(one_in(2) ? 4 : 9), last;
    bool conflict = meant == MEANT_NEVER && equations != 0;
    bool words = one_in(3); /* few equations, and of parts only, so that long pieces are left */

    clear(&s->d);
    s->with = with;
    s->room = one_in(25) ? 0 : one_in(3) ? 9 + below(6) : 1 + below(14);
    s->one_for_all = words || !one_in(3);
    if (words) {
        equations = equations == 0 ? 0 : 1 + below(3);
        wrong = below(equations + 1);
        period = 1 + below(2);
    }
    s->hidden = random_number() & ones(period); /* bits that come again and again, so that parts are often equal */
    for (size_t w = period; w < 64; w *= 2)
        s->hidden |= s->hidden << w;

    if (s->room == 0 || one_in(4)) {
        size_t w = 1 + below(3);
        add_fill(s, below(2), w);
    }
    if (with >= WITH_MARKERS && one_in(2)) {
        size_t w = 1 + below(16);
        add_marker(s, some_bits(w), w);
    }
    if (s->room != 0) {
        last = add_variable(s, 1 + below(s->room));
        for (size_t i = below(4); i != 0 && s->room != 0; i--) { /* some as wide as the one before */
            size_t w = s->d.width[last];
            last = add_variable(s, w <= s->room && one_in(2) ? w : 1 + below(s->room < 5 ? s->room : 5));
        }
    }
    for (size_t i = below(6); i != 0; i--)
        add_term(s);
    while ((s->d.equations < equations || conflict) && s->d.rows < 120) {
        bool holds = meant == MEANT_SOLVED || s->d.equations < wrong || !one_in(3);
        if (conflict && s->d.equations >= wrong) {
            if (with >= WITH_SHORT_SIDES && one_in(2))
                equate_fixed_above(s);
            else
                equate_conflict(s);
            conflict = false;
        }
        if (one_in(3))
            add_term(s);
        if (meant == MEANT_ALWAYS || one_in(12)) {
            if (one_in(4))
                equate_again(s);
            else
                equate_same(s);
            continue;
        }
        if (with >= WITH_SHORT_SIDES && one_in(words ? 6 : 3)) {
            equate_short(s, holds);
            continue;
        }
        switch (!words ? below(with >= WITH_MARKERS ? 15 : 11) : one_in(4) ? 0 : 10) {
        case 0:
        case 1:  equate_overlapping(s, holds); break;
        case 2:  equate_join(s, holds); break;
        case 8:  equate_across(s, holds); break;
        case 3:  equate_reversed(s, holds); break;
        case 4:  equate_fill(s, holds); break;
        case 5:  equate_chain(s, holds); break;
        case 6:  equate_doubled(s, holds); break;
        case 7:  equate_again(s); break;
        case 11:
        case 12:
        case 13: equate_marker(s, holds); break;
        case 14: equate_fixed(s, holds); break;
        default: equate_parts(s, holds); break;
        }
    }
    if (one_in(8))
        add_term(s); /* behind the last equation, perhaps a variable */
    if (with >= WITH_LINES)
        number_lines(&s->d);
}

/* What occurs in the small tables. */
enum {
    NEVER_EARLY, NEVER_TIES, NEVER_OWN_TIES, NO_VARIABLES_ALWAYS, NO_VARIABLES_NEVER, NO_EQUATIONS, LATE_VARIABLE,
    WIDE_TWICE, WIDE_TWICE_IN_ONE, OVERLAPPING, FIXED_BY_CHAIN, ALL_FIXED, FILLS_DIFFER, FILLS_AT_END,
    JOIN_OF_JOIN, WIDE_SIDES, REPEATED_PAIR, HIGHER_ONLY, LOWER_ONLY, END_ONLY, TIED_NEIGHBOURS,
    MARKER_SIDE, MARKER_ALIKE, MARKER_CUT, MARKER_JOINED, MARKER_BESIDE_FILL, MARKERS_EQUATED,
    SHORT_LEFT, SHORT_RIGHT, SHORT_BY_ONE, SHORT_BY_MANY, SHORT_OF_ITSELF, SHORT_MARKER,
    TOP_TIE, TOP_ALREADY_0, TOP_FIXED_0, TOP_FIXED_1, TOP_ALREADY_1, TOP_NEVER_TIES,
    REVISED, REVISED_TWICE, REVISED_CROSSWISE, LINE_65535, LINE_OF_A_CUT,
    REVISED_NEVER, BY_A_WEAKER, BY_A_STRONGER, BY_AN_UNRELATED,
    ALWAYS_REVISED, NEVER_IF_ALL, TIES_IF_ALL, NEVER_EARLIER_IF_ALL, OTHER_IF_FIRST,
    NEVER_BY_REVISION, REVISED_BEFORE_NEVER, REVISED_BEHIND_NEVER, FEATURES
};

static const char *const feature_names[FEATURES] = {
    "never at an equation before the last", "never with ties before it",
    "never with ties of its own row that do not count",
    "no variables, always", "no variables, never", "no equations", "a variable behind an equation",
    "a fresh piece wider than 1 that appears twice", "the same within one variable",
    "overlapping cuts of one variable made equal", "a fixed bit that never stands against a fill",
    "every bit fixed", "neighbouring fills of 0 and 1", "fills of one bit on both sides of a variable's end",
    "a join of a join", "an equation of over 64 bits", "a pair that was there before",
    "a border by bits tied to the higher one only", "a border by bits tied to the lower one only",
    "a border by a variable's end only", "neighbours tied to each other",
    "a marker as a side", "a marker of over one bit, all alike", "a cut of a marker", "a marker in a join",
    "a marker joined with a fill of its end's bit", "fixed bits on both sides, from a marker on one",
    "a narrower left side", "a narrower right side", "a side narrower by one bit", "a side narrower by over 64 bits",
    "sides of unequal width of one variable", "sides of unequal width, one a marker",
    "a top bit that is tied to 0", "a top bit of a variable that is 0 already", "a fixed bit 0 among the top bits",
    "never by a fixed bit 1 among the top bits", "never by a variable's top bit that is 1 already",
    "never by a top bit, with ties before it",
    "a revised equation", "an equation revised twice", "two lines, each revised behind the other's first",
    "line number 65535, revised", "the line number of a cut's low bound behind it, which counts",
    "a revised equation that alone is never", "revised by a weaker equation", "revised by a stronger equation",
    "revised by an unrelated equation",
    "always, and not so if all equations counted", "solved, and never if all equations counted",
    "solved, and with more ties if all equations counted", "never, and at an earlier row if all equations counted",
    "another record if the first of a line counted",
    "never at an equation that revises one", "never, and a revised equation before the row",
    "never, and a revised equation behind the row",
};

/* What an answer says of places: for each its class, 0 and 1 for the fixed bits, and its variable. */
typedef struct {
    size_t bits;
    size_t class_of[ENUM_BITS], variable[ENUM_BITS];
} classes;

static inline classes classes_of(const uint16_t *answer, size_t rows)
{
    size_t first[ENUM_BITS] = {0}; /* of each fresh piece: its first place, the class of its first bit being two more */
    bool seen[ENUM_BITS] = {false};
    classes c = {0};

    for (size_t r = 0; r < rows; r++) {
        const uint16_t *n = answer + 6 * r;
        if (n[1] == LW_FRESH && !seen[n[3]]) {
            seen[n[3]] = true;
            first[n[3]] = c.bits;
        }
        for (size_t i = 0; i < n[2]; i++) {
            c.variable[c.bits] = n[0];
            c.class_of[c.bits++] = n[1] == LW_FRESH ? 2 + first[n[3]] + i : n[1];
        }
    }
    return c;
}

/*
  Whether each bit of the class of place p has, step further, a bit of the class
  of place q: in its variable, or else in the pattern.
*/
static inline bool all_beside(const classes *c, size_t p, size_t q, int step, bool in_variable)
{
    for (size_t j = 0; j < c->bits; j++)
        if (c->class_of[j] == c->class_of[p]) {
            size_t k = step > 0 ? j + 1 : j - 1; /* a place before the first is beyond the last too */
            if (k >= c->bits || (in_variable && c->variable[k] != c->variable[j]) || c->class_of[k] != c->class_of[q])
                return false;
        }
    return true;
}

static inline void note_borders(const classes *c, bool has[FEATURES])
{
    for (size_t i = 0; i + 1 < c->bits; i++) {
        size_t p = c->class_of[i], q = c->class_of[i + 1];
        if (p < 2 && q < 2) {
            if (c->variable[i] != c->variable[i + 1])
                has[FILLS_AT_END] |= p == q;
            else
                has[FILLS_DIFFER] |= p != q;
        }
        if (p < 2 || q < 2 || c->variable[i] != c->variable[i + 1])
            continue;
        bool down = all_beside(c, i, i + 1, 1, true), up = all_beside(c, i + 1, i, -1, true);
        has[HIGHER_ONLY] |= !down && up;
        has[LOWER_ONLY] |= down && !up;
        has[END_ONLY] |= !(down && up) && all_beside(c, i, i + 1, 1, false) && all_beside(c, i + 1, i, -1, false);
        has[TIED_NEIGHBOURS] |= p == q;
    }
}

static inline void note_answer(const enumeration *found, bool has[FEATURES])
{
    for (size_t i = 0; i < found->record.pieces; i++)
        for (size_t j = 0; j < i; j++) {
            const uint16_t *a = found->answer + 6 * i, *b = found->answer + 6 * j;
            if (a[1] == LW_FRESH && b[1] == LW_FRESH && a[3] == b[3] && a[2] > 1) {
                has[WIDE_TWICE] = true;
                has[WIDE_TWICE_IN_ONE] |= a[0] == b[0];
            }
        }
    has[ALL_FIXED] = found->record.outcome == 2 && found->record.fresh == 0;
}

/* Whether all bits of a row are fixed. */
static inline bool all_fixed(const uint16_t sources[REF_WIDTH], size_t width)
{
    for (size_t i = 0; i < width; i++)
        if (sources[i] >= PLAIN_FIXED)
            return false;
    return true;
}

/* What a row has to do with markers: as one, or as a row that names one. */
static inline void note_markers(const uint16_t *t, size_t r, const ref_table *facts,
                                uint16_t sources[][REF_WIDTH], bool has[FEATURES])
{
    const uint16_t *n = t + 4 * r;
    size_t a = n[1], b = n[2];

    if (n[0] == LW_VALUE)
        has[MARKER_ALIKE] |= b > 1 && (a == 0 || a == ones(b));
    else if (n[0] == LW_CUT)
        has[MARKER_CUT] |= t[4 * a] == LW_VALUE;
    if (n[0] != LW_JOIN && n[0] != LW_EQUATION)
        return;
    bool left = t[4 * a] == LW_VALUE, right = t[4 * b] == LW_VALUE;
    if (n[0] == LW_EQUATION) {
        has[MARKER_SIDE] |= left || right;
        has[MARKERS_EQUATED] |= (left && all_fixed(sources[b], facts->width[b])) ||
                                (right && all_fixed(sources[a], facts->width[a]));
    } else {
        has[MARKER_JOINED] |= left || right;
        if ((left && t[4 * b] == LW_FILL) || (right && t[4 * a] == LW_FILL))
            has[MARKER_BESIDE_FILL] |= sources[a][facts->width[a] - 1] == sources[b][0];
    }
}

/* The pairs of a table's equations, those of the equations before one first. */
typedef struct {
    uint16_t left[64 * REF_WIDTH], right[64 * REF_WIDTH];
    size_t count;
} pair_list;

/* The ties among the first pairs, so many; SIZE_MAX if they leave no pattern. */
static inline size_t ties_to(const pair_list *pairs, size_t count, size_t bits)
{
    static uint16_t parent[PLAIN_SOURCES];
    return plain_ties(pairs->left, pairs->right, count, parent, bits);
}

/* Whether all variable bits of two rows, and there are some, are of one variable. */
static inline bool one_variable(const uint16_t *a, size_t width_a, const uint16_t *b, size_t width_b,
                                const size_t variable[ENUM_BITS])
{
    size_t seen = ENUM_BITS;
    for (size_t i = 0; i < width_a + width_b; i++) {
        uint16_t source = i < width_a ? a[i] : b[i - width_a];
        if (source < PLAIN_FIXED)
            continue;
        if (seen != ENUM_BITS && seen != variable[source - PLAIN_FIXED])
            return false;
        seen = variable[source - PLAIN_FIXED];
    }
    return seen != ENUM_BITS;
}

/* What an equation of unequal sides has, where these are its top pairs: those from the first on, before the last. */
static inline void note_top(const pair_list *pairs, size_t first, size_t last, size_t bits, bool has[FEATURES])
{
    size_t before = ties_to(pairs, first, bits);
    for (size_t i = first; before != SIZE_MAX && i < last; i++) {
        size_t after = ties_to(pairs, i + 1, bits);
        bool fixed = pairs->left[i] < PLAIN_FIXED && pairs->right[i] < PLAIN_FIXED;
        if (after == SIZE_MAX) {
            has[fixed ? TOP_FIXED_1 : TOP_ALREADY_1] = true;
            has[TOP_NEVER_TIES] |= before != 0;
        } else if (after == before) {
            has[fixed ? TOP_FIXED_0 : TOP_ALREADY_0] = true;
        } else {
            has[TOP_TIE] = true;
        }
        before = after;
    }
}

/* What an equation of rows a and b has if its sides are of unequal width; its pairs are those from the first on. */
static inline void note_short(const uint16_t *t, size_t a, size_t b, const ref_table *facts,
                              uint16_t sources[][REF_WIDTH], const size_t variable[ENUM_BITS],
                              const pair_list *pairs, size_t first, bool has[FEATURES])
{
    size_t left = facts->width[a], right = facts->width[b], by = left < right ? right - left : left - right;
    if (by == 0)
        return;
    has[left < right ? SHORT_LEFT : SHORT_RIGHT] = true;
    has[SHORT_BY_ONE] |= by == 1;
    has[SHORT_BY_MANY] |= by > 64;
    has[SHORT_OF_ITSELF] |= one_variable(sources[a], left, sources[b], right, variable);
    has[SHORT_MARKER] |= t[4 * a] == LW_VALUE || t[4 * b] == LW_VALUE;
    note_top(pairs, first, first + by, facts->bits, has);
}

/* Line numbers. */

/* The last equation with the line number of equation r, which may be r; r if it has none. */
static inline size_t last_of_line(const uint16_t *t, size_t rows, size_t r)
{
    size_t last = r;
    for (size_t i = r + 1; t[4 * r + 3] != 0 && i < rows; i++)
        if (t[4 * i] == LW_EQUATION && t[4 * i + 3] == t[4 * r + 3])
            last = i;
    return last;
}

/* The first one, likewise. */
static inline size_t first_of_line(const uint16_t *t, size_t r)
{
    for (size_t i = 0; t[4 * r + 3] != 0 && i < r; i++)
        if (t[4 * i] == LW_EQUATION && t[4 * i + 3] == t[4 * r + 3])
            return i;
    return r;
}

/* The record if other equations counted: all of them, or of each line the first. */
static inline lw_record otherwise(const draft *d, const ref_table *facts, bool first)
{
    static table t;
    static enumeration scratch;

    t = d->t;
    for (size_t r = 0; r < d->rows; r++) {
        uint16_t *n = t.numbers + 4 * r;
        if (n[0] != LW_EQUATION)
            continue;
        if (first && first_of_line(d->t.numbers, r) != r)
            n[1] = n[2] = 0; /* it says nothing */
        n[3] = 0;
    }
    return plain_solve(t.numbers, facts, scratch.answer);
}

/* What equation r and the last one of its line, which is another, have to do with each other. */
static inline void note_revision(const uint16_t *t, const ref_table *facts, uint16_t sources[][REF_WIDTH], size_t r,
                                 size_t last, bool has[FEATURES])
{
    static pair_list pairs;
    const uint16_t *n = t + 4 * r, *m = t + 4 * last;

    pairs.count = plain_pairs(facts, sources, m[1], m[2], pairs.left, pairs.right);
    size_t by_last = ties_to(&pairs, pairs.count, facts->bits);
    size_t count = plain_pairs(facts, sources, n[1], n[2], pairs.left, pairs.right);
    size_t own = ties_to(&pairs, count, facts->bits);
    pairs.count = count + plain_pairs(facts, sources, m[1], m[2], pairs.left + count, pairs.right + count);
    size_t both = ties_to(&pairs, pairs.count, facts->bits);

    has[REVISED_NEVER] |= own == SIZE_MAX;
    if (both == SIZE_MAX)
        return;
    has[BY_A_WEAKER] |= both == own && by_last < own && by_last != 0;
    has[BY_A_STRONGER] |= both == by_last && own < by_last && own != 0;
    has[BY_AN_UNRELATED] |= both == own + by_last && own != 0 && by_last != 0;
}

/* What equation r, which has a line number, has. */
static inline void note_line(const uint16_t *t, const ref_table *facts, uint16_t sources[][REF_WIDTH], size_t r,
                             const lw_record *record, bool has[FEATURES])
{
    size_t last = last_of_line(t, facts->rows, r), first = first_of_line(t, r), line = t[4 * r + 3];
    bool never = record->outcome == 1;

    if (last == r) {
        for (size_t i = r + 1; i < facts->rows; i++)
            has[LINE_OF_A_CUT] |= t[4 * i] == LW_CUT && t[4 * i + 3] == line;
        has[NEVER_BY_REVISION] |= never && record->row == r && first != r;
        return;
    }
    has[REVISED] = true;
    has[REVISED_TWICE] |= first != r;
    has[LINE_65535] |= line == 65535;
    has[REVISED_BEFORE_NEVER] |= never && r < record->row;
    has[REVISED_BEHIND_NEVER] |= never && r > record->row;
    for (size_t i = r + 1; i < last; i++)
        if (t[4 * i] == LW_EQUATION && t[4 * i + 3] != 0 && t[4 * i + 3] != line)
            has[REVISED_CROSSWISE] |= last_of_line(t, facts->rows, i) > last;
    note_revision(t, facts, sources, r, last, has);
}

/* What a table of line numbers has, and what would be if the revised equations counted. */
static inline void note_lines(const draft *d, const ref_table *facts, uint16_t sources[][REF_WIDTH],
                              const lw_record *record, bool has[FEATURES])
{
    const uint16_t *t = d->t.numbers;

    for (size_t r = 0; r < d->rows; r++)
        if (t[4 * r] == LW_EQUATION && t[4 * r + 3] != 0)
            note_line(t, facts, sources, r, record, has);
    if (!has[REVISED])
        return;
    lw_record all = otherwise(d, facts, false), first = otherwise(d, facts, true);
    has[ALWAYS_REVISED] = record->outcome == 0 && all.outcome != 0;
    has[NEVER_IF_ALL] = record->outcome == 2 && all.outcome == 1;
    has[TIES_IF_ALL] = record->outcome == 2 && all.outcome == 2 && all.ties > record->ties;
    has[NEVER_EARLIER_IF_ALL] = record->outcome == 1 && all.row < record->row;
    has[OTHER_IF_FIRST] = memcmp(&first, record, sizeof first) != 0;
}

/* What stands in a small table and in its answer. */
static inline void note_features(const draft *d, const ref_table *facts, const enumeration *found, bool has[FEATURES])
{
    static uint16_t sources[REF_ROWS][REF_WIDTH];
    static bool paired[PLAIN_FIXED + ENUM_BITS][PLAIN_FIXED + ENUM_BITS];
    static pair_list pairs;
    size_t last = 0, variables = 0, variable[ENUM_BITS] = {0};
    const uint16_t *t = d->t.numbers;

    plain_sources(t, facts, sources);
    memset(paired, 0, sizeof paired);
    pairs.count = 0;
    for (size_t r = 0; r < d->rows; r++) {
        const uint16_t *n = t + 4 * r;
        note_markers(t, r, facts, sources, has);
        if (n[0] == LW_VARIABLE) {
            has[LATE_VARIABLE] |= last != 0;
            for (size_t i = 0; i < facts->width[r]; i++)
                variable[facts->place[r] + i] = variables;
            variables++;
        }
        if (n[0] == LW_JOIN)
            has[JOIN_OF_JOIN] |= t[4 * n[1]] == LW_JOIN || t[4 * n[2]] == LW_JOIN;
        if (!ref_counts(t, facts, r))
            continue;
        const uint16_t *a = t + 4 * n[1], *b = t + 4 * n[2];
        last = r;
        if (a[0] == LW_CUT && b[0] == LW_CUT && a[1] == b[1] && t[4 * a[1]] == LW_VARIABLE && a[2] != b[2])
            has[OVERLAPPING] |= a[3] <= b[2] && b[3] <= a[2];
        has[WIDE_SIDES] |= facts->width[n[1]] > 64;
        size_t first = pairs.count;
        pairs.count += plain_pairs(facts, sources, n[1], n[2], pairs.left + first, pairs.right + first);
        for (size_t i = first; i < pairs.count; i++) {
            size_t p = pairs.left[i], q = pairs.right[i];
            has[REPEATED_PAIR] |= p != q && paired[p][q];
            paired[p][q] = paired[q][p] = true;
        }
        note_short(t, n[1], n[2], facts, sources, variable, &pairs, first, has);
    }

    note_lines(d, facts, sources, &found->record, has);
    uint32_t outcome = found->record.outcome;
    has[NEVER_EARLY] = outcome == 1 && found->record.row < last;
    has[NEVER_TIES] = outcome == 1 && found->record.ties != 0;
    has[NEVER_OWN_TIES] = outcome == 1 && found->row_ties > 1;
    has[NO_VARIABLES_ALWAYS] = d->equations != 0 && facts->bits == 0 && outcome == 0;
    has[NO_VARIABLES_NEVER] = d->equations != 0 && facts->bits == 0 && outcome == 1;
    has[NO_EQUATIONS] = d->equations == 0;
    if (outcome != 2)
        return;
    note_answer(found, has);
    classes c = classes_of(found->answer, found->record.pieces);
    for (size_t i = 0; i < c.bits; i++)
        has[FIXED_BY_CHAIN] |= c.class_of[i] < 2 && !paired[0][i + 2] && !paired[1][i + 2];
    note_borders(&c, has);
}

#endif /* SMALL_TABLE_H */
