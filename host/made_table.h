/*
  made_table.h -- rows put together by hand: what the made tables of the tests and
  of the benchmark are built of

  A row is named by its number, and its width is kept in the draft.
*/

#ifndef MADE_TABLE_H
#define MADE_TABLE_H

#include "random_table.h"

/* As many variables of this width as are wanting to so many. */
static inline void variables(draft *d, size_t count, size_t width)
{
    while (d->variables < count)
        add_row(d, width, VARIABLE(width));
}

static inline size_t fill(draft *d, size_t bit, size_t width)
{
    return add_row(d, width, FILL(bit, width));
}

static inline size_t join(draft *d, size_t a, size_t b)
{
    return add_row(d, d->width[a] + d->width[b], JOIN(a, b));
}

static inline size_t cut(draft *d, size_t a, size_t high, size_t low)
{
    return add_row(d, high - low + 1, CUT(a, high, low));
}

/* So many bits of a row, from this one up: a cut, or the row itself where these are all. */
static inline size_t part(draft *d, size_t a, size_t low, size_t width)
{
    return width == d->width[a] ? a : cut(d, a, low + width - 1, low);
}

static inline void equation(draft *d, size_t a, size_t b)
{
    add_row(d, 0, EQUATION(a, b));
}

/* Rows from v on joined two by two, four by four and so on; count is a power of 2, up to 16. */
static inline size_t doubled(draft *d, size_t v, size_t count)
{
    size_t words[16];
    for (size_t i = 0; i < count; i++)
        words[i] = v + i;
    for (; count != 1; count /= 2)
        for (size_t i = 0; i < count / 2; i++)
            words[i] = join(d, words[2 * i], words[2 * i + 1]);
    return words[0];
}

/* A word turned: cut above its low bits, so many, which stand before its high part then. */
static inline size_t turned_at(draft *d, size_t word, size_t at)
{
    size_t low = cut(d, word, at - 1, 0);
    return join(d, low, cut(d, word, d->width[word] - 1, at));
}

/* The same at an odd place. */
static inline size_t turned(draft *d, size_t word)
{
    return turned_at(d, word, 2 * below(d->width[word] / 2) + 1);
}

/* Equations between sides, each of two different ones, up to 64 in all. */
static inline void equate(draft *d, const size_t *sides, size_t count)
{
    while (d->equations < 64) {
        size_t a = below(count), b = (a + 1 + below(count - 1)) % count;
        equation(d, sides[a], sides[b]);
    }
}

#endif /* MADE_TABLE_H */
