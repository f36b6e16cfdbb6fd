/*
  tables.h -- the tables of the benchmark

  They are the same in each run, and each is met by some pattern. In the largest
  ones the equations are the last rows, so that fewer of them are a shorter table.
*/

#ifndef TABLES_H
#define TABLES_H

#include "linkwords.h"
#include "made_table.h"

enum { EQUATIONS = 64, WIDTH = 1024 };

/* Line numbers for the equations, so many different ones, in turn: with 32 of them the last 32 of 64 revise the others. */
static inline void give_lines(draft *d, size_t lines)
{
    for (size_t r = 0, e = 0; r < d->rows; r++)
        if (d->t.numbers[4 * r] == LW_EQUATION)
            d->t.numbers[4 * r + 3] = (uint16_t)(1 + e++ % lines);
}

/* Tables. The second argument is a width, a number of cuts, or whatever else the table is to have. */

static inline void make_empty(draft *d, size_t none)
{
    (void)d, (void)none;
}

/* A variable that is a fill. */
static inline void make_fixed(draft *d, size_t width)
{
    add_row(d, width, VARIABLE(width));
    add_row(d, width, FILL(0, width));
    add_row(d, 0, EQUATION(0, 1));
}

/* A variable whose bits but the highest and the lowest repeat after two. */
static inline void make_overlap(draft *d, size_t width)
{
    variables(d, 1, width);
    size_t left = cut(d, 0, width - 2, 3), right = cut(d, 0, width - 4, 1);
    add_row(d, 0, EQUATION(left, right));
}

/*
  Pixels, and as many link words, all of 16 bits. Two neighbouring link words
  hold the low part of a pixel, cut at an odd place, the next pixel, and the high
  part of the one behind. Each eighth link word is also a marker, 101, before the
  low bits of a pixel that is sent again.
*/
static inline void make_link(draft *d, size_t pixels)
{
    variables(d, 2 * pixels, 16);
    for (size_t p = 0; p < pixels; p += 2) {
        size_t at = (5 * p + 1) % 16, low = cut(d, p, at - 1, 0), high = cut(d, (p + 2) % pixels, 15, at);
        size_t carried = join(d, join(d, low, p + 1), high), words = join(d, pixels + p, pixels + p + 1);
        add_row(d, 0, EQUATION(words, carried));
    }
    size_t one = add_row(d, 1, FILL(1, 1)), zero = add_row(d, 1, FILL(0, 1));
    size_t marker = join(d, join(d, one, zero), one);
    for (size_t p = 0; p < pixels; p += 8) {
        size_t marked = join(d, marker, cut(d, p + 5, 12, 0));
        add_row(d, 0, EQUATION(pixels + p, marked));
    }
}

/*
  64 variables of 64 bits, all of them in doubled words of the width, and words
  turned at odd places, one out of another, as many as there are rows for.
*/
static inline void make_turned(draft *d, size_t width)
{
    size_t sides[512], count = 0, words = width / 64;

    seed = 20240229; /* the same numbers for each width */
    variables(d, 64, 64);
    for (size_t v = 0; v < 64; v += words)
        sides[count++] = doubled(d, v, words);
    while (d->rows + 3 <= LW_MAX_ROWS - EQUATIONS) {
        sides[count] = turned(d, sides[below(count)]);
        count++;
    }
    equate(d, sides, count);
}

/*
  A doubled word under cuts, which leave 512 bits of it, one or two less at one
  end each; these joined with 512 bits of a doubled word, cut at odd places.
*/
static inline void make_chained(draft *d, size_t cuts)
{
    size_t sides[512], count = 0, chain, other;

    variables(d, 64, 64);
    chain = doubled(d, 0, 16);
    other = doubled(d, 16, 16);
    for (size_t i = 0; i < cuts; i++) {
        size_t less = i < 512 - cuts ? 2 : 1, high = d->width[chain] - 1;
        chain = one_in(2) ? cut(d, chain, high - less, 0) : cut(d, chain, high, less);
    }
    while (d->rows + 2 <= LW_MAX_ROWS - EQUATIONS) {
        size_t low = 2 * below(256) + 1, half = cut(d, other, low + 511, low);
        sides[count++] = one_in(2) ? join(d, chain, half) : join(d, half, chain);
    }
    equate(d, sides, count);
}

/* A variable under cuts of all its bits, joined with itself to 1024 bits, and that turned at odd places. */
static inline void make_copied(draft *d, size_t cuts)
{
    size_t sides[512], count = 0, word = 0;

    variables(d, 64, 64);
    for (size_t i = 0; i < cuts; i++)
        word = cut(d, word, 63, 0);
    while (d->width[word] < WIDTH)
        word = join(d, word, word);
    sides[count++] = word;
    while (d->rows + 3 <= LW_MAX_ROWS - EQUATIONS)
        sides[count++] = turned(d, word);
    equate(d, sides, count);
}

/*
  Words of 1024 bits, of which the top bits, so many at most, are of 16 variables
  that have to be 0, against words narrower by these bits. All others are cut from
  words turned at odd places. In half of the equations the left side is the wider.
*/
static inline void make_short(draft *d, size_t most)
{
    size_t words[25], count = 0, zeros;

    seed = 20240229;
    variables(d, 64, 64);
    zeros = doubled(d, 0, 16);
    for (size_t v = 16; v < 64; v += 16)
        words[count++] = doubled(d, v, 16);
    while (count < 25) {
        words[count] = turned(d, words[below(count)]);
        count++;
    }
    size_t sides[EQUATIONS][2];
    for (size_t e = 0; e < EQUATIONS; e++) {
        size_t more = e == 0 ? most : 1 + below(most), left = below(count), right = (left + 1 + below(count - 1)) % count;
        size_t low = below(WIDTH - more + 1), top = cut(d, zeros, low + more - 1, low);
        sides[e][e % 2] = join(d, top, cut(d, words[left], WIDTH - more - 1, 0));
        sides[e][1 - e % 2] = cut(d, words[right], WIDTH - 1, more);
    }
    for (size_t e = 0; e < EQUATIONS; e++)
        add_row(d, 0, EQUATION(sides[e][0], sides[e][1]));
}

/*
  The middle 512 bits of a doubled word, left by up to 400 cuts, each of which
  takes some from one end or from both; these joined with 512 bits of a doubled
  word, cut at odd places. The bits of the sides do not depend on the cuts.
*/
static inline void make_deep(draft *d, size_t cuts)
{
    size_t sides[17], count = 0, chain, other, from = 0;

    seed = 20240229;
    variables(d, 8, 256);
    chain = doubled(d, 0, 4);
    other = doubled(d, 4, 4);
    for (size_t i = 1; i <= cuts; i++) {
        size_t gone = 512 * i / cuts, next = gone / 2, high = WIDTH - (gone - next) - 1 - from;
        chain = cut(d, chain, high, next - from);
        from = next;
    }
    while (count < 17) {
        size_t low = 2 * below(256) + 1, half = cut(d, other, low + 511, low);
        sides[count++] = one_in(2) ? join(d, chain, half) : join(d, half, chain);
    }
    equate(d, sides, count);
}

#endif /* TABLES_H */
