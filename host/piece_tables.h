/*
  piece_tables.h -- tables of long words and of short pieces, on which the two
  solvers differ in their time

  The second argument of each is a width, a period, a number of words or whatever
  else the table is to have. Where random numbers are used, the table is the same
  each time that seed is set to the same before.
*/

#ifndef PIECE_TABLES_H
#define PIECE_TABLES_H

#include "made_table.h"

enum { LONG_WORD = 1024, LONG_WORDS = 4 };

static inline void long_words(draft *d)
{
    variables(d, LONG_WORDS, LONG_WORD);
}

/* Long words. */

/* So many words of 4096 bits in all, equated whole. */
static inline void make_whole(draft *d, size_t words)
{
    variables(d, words, 4096 / words);
    while (d->equations < 64) {
        size_t a = below(words), b = (a + 1 + below(words - 1)) % words;
        equation(d, a, b);
    }
}

/* Sides of 1024 bits, made of up to four fields that begin and end at multiples of step, a power of 2, and come from anywhere. */
static inline void make_fields(draft *d, size_t step)
{
    size_t sides[24], count = 0;

    long_words(d);
    while (count < 24) {
        size_t word = NONE, left = LONG_WORD;
        for (int k = 0; left != 0; k++) {
            size_t width = k == 3 ? left : step * (1 + below(left / step)), v = below(4);
            size_t low = step * below((LONG_WORD - width) / step + 1), field = part(d, v, low, width);
            word = word == NONE ? field : join(d, word, field);
            left -= width;
        }
        sides[count++] = word;
    }
    equate(d, sides, count);
}

/* The same, but each field keeps its place in the word. */
static inline void make_slots(draft *d, size_t step)
{
    size_t sides[24], count = 0;

    long_words(d);
    while (count < 24) {
        size_t word = NONE, at = LONG_WORD;
        for (int k = 0; at != 0; k++) {
            size_t width = k == 3 ? at : step * (1 + below(at / step)), field = part(d, below(4), at - width, width);
            word = word == NONE ? field : join(d, word, field);
            at -= width;
        }
        sides[count++] = word;
    }
    equate(d, sides, count);
}

/*
  Four words of this width, each the one before it turned at an odd place, again and
  again: whatever the width, these places are the same in proportion, and so are the
  pieces.
*/
static inline void make_rotated(draft *d, size_t width)
{
    size_t next[LONG_WORDS - 1];

    variables(d, LONG_WORDS, width);
    for (size_t v = 0; v + 1 < LONG_WORDS; v++)
        next[v] = turned_at(d, v, 2 * (below(LONG_WORD / 2) * width / LONG_WORD) + 1);
    while (d->equations < 64) {
        size_t v = below(LONG_WORDS - 1);
        equation(d, v + 1, next[v]);
    }
}

/* Link words: each holds the low part of one of two words and the high part of the other, cut at this place. */
static inline void make_shifted(draft *d, size_t at)
{
    size_t sides[2];

    long_words(d);
    for (size_t v = 0; v < 2; v++) {
        size_t low = cut(d, v, at - 1, 0), high = cut(d, 1 - v, LONG_WORD - 1, at);
        sides[v] = join(d, low, high);
    }
    while (d->equations < 64) {
        size_t v = below(2);
        equation(d, v + 2, sides[v]);
    }
}

/* Four equal words, and then parts of them fixed to 0, of this width, anywhere. */
static inline void make_filled(draft *d, size_t width)
{
    long_words(d);
    size_t zeros = fill(d, 0, width);
    for (size_t v = 0; v + 1 < LONG_WORDS; v++)
        equation(d, v, v + 1);
    while (d->equations < 64) {
        size_t low = below(LONG_WORD - width + 1);
        equation(d, cut(d, below(4), low + width - 1, low), zeros);
    }
}

/* Words that repeat. */

/* A word without its low bits, so many, equal to itself without its high bits, as many. */
static inline void repeat(draft *d, size_t word, size_t period)
{
    size_t high = cut(d, word, d->width[word] - 1, period), low = cut(d, word, d->width[word] - 1 - period, 0);
    equation(d, high, low);
}

/* Each of four words repeats after so many bits, which is said 16 times. */
static inline void make_overlaps(draft *d, size_t period)
{
    size_t a[LONG_WORDS], b[LONG_WORDS];

    long_words(d);
    for (size_t v = 0; v < LONG_WORDS; v++) {
        a[v] = cut(d, v, LONG_WORD - 1, period);
        b[v] = cut(d, v, LONG_WORD - 1 - period, 0);
    }
    for (size_t e = 0; e < 64; e++)
        equation(d, a[e % 4], b[e % 4]);
}

/* The same, said once. */
static inline void make_overlaps_once(draft *d, size_t period)
{
    long_words(d);
    for (size_t v = 0; v < LONG_WORDS; v++)
        repeat(d, v, period);
}

/* Each of four words repeats after so many bits, and after one more, which is said again and again. */
static inline void make_periods(draft *d, size_t period)
{
    size_t a[8], b[8];

    long_words(d);
    for (size_t k = 0; k < 8; k++) {
        size_t p = period + k % 2;
        a[k] = cut(d, k / 2, LONG_WORD - 1, p);
        b[k] = cut(d, k / 2, LONG_WORD - 1 - p, 0);
    }
    for (size_t e = 0; e < 64; e++)
        equation(d, a[e % 8], b[e % 8]);
}

/* Each of four words repeats after so many bits, all four are equal, and then they are turned by as many. */
static inline void make_period_turned(draft *d, size_t period)
{
    size_t turns[LONG_WORDS];

    make_overlaps_once(d, period);
    for (size_t v = LONG_WORDS - 1; v != 0; v--)
        equation(d, v, v - 1);
    for (size_t v = 0; v < LONG_WORDS; v++)
        turns[v] = turned_at(d, v, period);
    while (d->equations < 64) {
        size_t k = below(4);
        equation(d, turns[k], below(4));
    }
}

/* Each of four words repeats after so many bits, and all their bits are 0, which is said again and again. */
static inline void make_period_filled(draft *d, size_t period)
{
    long_words(d);
    size_t zeros = fill(d, 0, LONG_WORD);
    for (size_t v = 0; v < LONG_WORDS; v++)
        repeat(d, v, period);
    while (d->equations < 64)
        equation(d, below(4), zeros);
}

/* Each of four words repeats after so many bits, and after one more; and then nothing meets the table. */
static inline void make_periods_never(draft *d, size_t period)
{
    long_words(d);
    for (size_t v = 0; v < LONG_WORDS; v++)
        for (size_t k = 0; k < 2; k++)
            repeat(d, v, period + k);
    size_t zero = fill(d, 0, 1), one = fill(d, 1, 1);
    equation(d, zero, one);
}

/* Chains. */

/* So many words, each equal to the one before it, the last two first; then any two of them. */
static inline void make_chain_down(draft *d, size_t words)
{
    variables(d, words, 4096 / words);
    for (size_t k = words - 1; k != 0; k--)
        equation(d, k, k - 1);
    while (d->equations < 64) {
        size_t a = below(words), b = below(words);
        equation(d, a, b);
    }
}

/* So many words, each the one before it turned at an odd place, the last two first; then the last ones again. */
static inline void make_chain_turned(draft *d, size_t words)
{
    size_t next[64];

    variables(d, words, 4096 / words);
    for (size_t v = 0; v + 1 < words; v++)
        next[v] = turned(d, v);
    for (size_t k = words - 1; k != 0; k--)
        equation(d, k, next[k - 1]);
    while (d->equations < 64) {
        size_t v = words - 1 - (words > 2 ? below(2) : 0);
        equation(d, v, next[v - 1]);
    }
}

/* Equations that are chains themselves: 15 words joined, against the words before them turned at this place. */
static inline void make_chain_wide(draft *d, size_t at)
{
    size_t x, y;

    variables(d, 64, 64);
    size_t base = d->rows;
    for (size_t v = 0; v < 64; v++)
        turned_at(d, v, at); /* row base + 3 * v + 2 */
    for (size_t g = 0; g < 4; g++) {
        size_t v = 63 - 15 * g;
        x = v;
        y = base + 3 * (v - 1) + 2;
        for (size_t k = 1; k < 15; k++) {
            x = join(d, x, v - k);
            y = join(d, y, base + 3 * (v - k - 1) + 2);
        }
        equation(d, x, y);
    }
    x = 63;
    y = base + 3 * 62 + 2;
    while (d->width[x] < LONG_WORD) {
        x = join(d, x, x);
        y = join(d, y, y);
    }
    while (d->equations < 64)
        equation(d, x, y);
}

/* So many words, each the one before it turned at another place, the last two first; then these two again. */
static inline void make_straddled(draft *d, size_t words)
{
    size_t width = 4096 / words, next[64];

    variables(d, words, width);
    for (size_t v = 0; v + 1 < words; v++)
        next[v] = turned_at(d, v, 1 + (v * 7 + 3) % (width - 1));
    for (size_t k = words - 1; k != 0; k--)
        equation(d, k, next[k - 1]);
    size_t x = words - 1, y = next[words - 2];
    while (d->width[x] * 2 <= LONG_WORD) {
        x = join(d, x, x);
        y = join(d, y, y);
    }
    while (d->equations < 64)
        equation(d, x, y);
}

/* Short pieces. */

/* Sides of two parts that are cut anywhere: all comes to few bits. */
static inline void make_anywhere(draft *d, size_t none)
{
    size_t sides[60], count = 0;

    (void)none;
    long_words(d);
    while (count < 60) {
        size_t at = 1 + below(LONG_WORD - 1), low = cut(d, below(4), at - 1, 0);
        size_t high = cut(d, below(4), LONG_WORD - 1, at);
        sides[count++] = join(d, low, high);
    }
    equate(d, sides, count);
}

/* The low bits of a word, so many, one by one in odd order. */
static inline size_t scattered(draft *d, size_t word, size_t bits)
{
    size_t x = NONE;
    for (size_t i = 0; i < bits; i++) {
        size_t bit = (i * 37 + 11) % bits, b = cut(d, word, bit, bit);
        x = x == NONE ? b : join(d, x, b);
    }
    return x;
}

/* Sides of 1024 pieces, the bits of one word in odd order 16 times, against sides of 16 words. */
static inline void make_scattered(draft *d, size_t none)
{
    size_t sides[4], count = 0;

    (void)none;
    variables(d, 64, 64);
    size_t x = scattered(d, 0, 64);
    while (d->width[x] < LONG_WORD)
        x = join(d, x, x);
    for (size_t v = 0; v < 64; v += 16)
        sides[count++] = doubled(d, v, 16);
    size_t y = turned_at(d, x, 333);
    while (d->equations < 64) {
        size_t side = one_in(2) ? x : y;
        equation(d, side, sides[below(count)]);
    }
}

/* Both sides of 992 pieces, and nothing that comes to few bits. */
static inline void make_scattered_both(draft *d, size_t none)
{
    (void)none;
    variables(d, 64, 64);
    size_t x = scattered(d, 0, 62), y = scattered(d, 1, 62), z = scattered(d, 2, 62);
    while (d->width[x] < 992) {
        x = join(d, x, x);
        y = join(d, y, y);
        z = join(d, z, z);
    }
    while (d->equations < 64) {
        size_t k = d->equations % 3;
        equation(d, k == 0 ? x : y, k == 1 ? z : k == 0 ? y : x);
    }
}

static inline size_t five_times(draft *d, size_t word)
{
    size_t x = word;
    for (int k = 1; k < 5; k++)
        x = join(d, x, word);
    return x;
}

/* A word's bits in odd order are those of another, once; and then both five times over, again and again. */
static inline void make_scattered_once(draft *d, size_t none)
{
    (void)none;
    long_words(d);
    size_t x = scattered(d, 0, 200), y = cut(d, 1, 199, 0);
    equation(d, x, y);
    size_t xs = five_times(d, x), ys = five_times(d, y);
    while (d->equations < 64) {
        size_t a = one_in(2) ? xs : ys, b = one_in(2) ? ys : xs;
        equation(d, a, b);
    }
}

/* Each fourth bit of a word is 0, from the low end up. */
static inline void make_reversed(draft *d, size_t none)
{
    size_t word = NONE;

    (void)none;
    long_words(d);
    for (size_t bit = 0; d->rows + 4 <= LW_MAX_ROWS && bit + 1 < LONG_WORD; bit += 4) {
        size_t b = cut(d, 0, bit, bit);
        word = word == NONE ? b : join(d, word, b);
    }
    size_t zeros = fill(d, 0, d->width[word]);
    equation(d, word, zeros);
}

#endif /* PIECE_TABLES_H */
