/*
  test_positions_bits.c -- fixed bits at every place and equal bits at every
  shift: see test_positions.c

  The tables are made so that each word, each bit and each shift has its turn.
  Mostly the run is windows that meet the table, and such windows with one bit
  changed, so that a test that looks at the wrong bit, or at one too few, shows.
*/

#include "test_positions.h"

static void random_words(uint16_t *words, size_t count)
{
    for (size_t i = 0; i < count; i++)
        words[i] = (uint16_t)random_number();
}

/* One bit of one word is fixed, on a run with that bit in one word alone, and on random words. */
static void fix_bit(size_t k, size_t v, size_t bit, size_t value)
{
    table t = {.len = 0};
    uint16_t words[2 * WINDOW + 3];
    size_t len = 2 * k + 3 < k + 6 ? 2 * k + 3 : k + 6, at = v + below(len - k + 1);

    add_words(&t, k);
    add_fixed(&t, v, bit, bit, value);
    for (size_t i = 0; i < len; i++)
        words[i] = (uint16_t)((i == at) == (value == 1) ? 1U << bit : 0U);
    size_t found = compare(HERE, "one bit", ALL(t), words, len, 1);
    check(found == 1, HERE, "bit %zu of word %zu of %zu: %zu starts", bit, v, k, found);
    for (size_t i = 0; i < len; i++)
        words[i] ^= (uint16_t)(random_number() & ~(1U << bit));
    found = compare(HERE, "one bit, others at random", ALL(t), words, len, 0);
    check(found == 1, HERE, "bit %zu of word %zu of %zu: %zu starts", bit, v, k, found);
    random_words(words, len);
    compare(HERE, "one bit, random words", ALL(t), words, len, 2);
}

void test_fixed_bits(void)
{
    static const size_t windows[] = {1, 2, 3, 5, 64};

    for (size_t i = 0; i < sizeof windows / sizeof windows[0]; i++)
        for (size_t v = 0; v < windows[i]; v++)
            for (size_t bit = 0; bit < WORD; bit++)
                for (size_t value = 0; value < 2; value++)
                    fix_bit(windows[i], v, bit, value);
}

/* A part of a word from each bit down to each is fixed; and all words of a window. */
void test_fixed_parts(void)
{
    for (size_t k = 1; k <= 3; k++)
        for (size_t high = 0; high < WORD; high++)
            for (size_t low = 0; low <= high; low++) {
                table t = {.len = 0};
                add_words(&t, k);
                add_fixed(&t, below(k), high, low, some_bits(high - low + 1));
                compare_changed(HERE, "a part", &t, k, 0);
            }
    for (size_t k = 1; k <= WINDOW; k++) {
        table t = {.len = 0};
        add_words(&t, k);
        for (size_t v = 0; v < k; v++)
            add_fixed(&t, v, 15, 0, some_bits(WORD));
        compare_changed(HERE, "each word", &t, k, 4);
    }
    /* Bits here and there in some words, by several equations for a word. */
    for (size_t i = 0; i < 200; i++) {
        size_t k = 1 + below(8);
        table t = {.len = 0};
        add_words(&t, k);
        uint16_t hidden[8];
        random_words(hidden, k);
        for (size_t n = 1 + below(12); n != 0; n--) {
            size_t v = below(k), high = below(WORD), low = below(high + 1);
            add_fixed(&t, v, high, low, (size_t)hidden[v] >> low & (((size_t)2 << (high - low)) - 1));
        }
        compare_changed(HERE, "several parts", &t, k, 40);
    }
}

/* Each bit of a word with each bit of another: all 256, for words here and there in a window. */
static void equal_bits_of(size_t k, size_t x, size_t y)
{
    uint16_t words[WINDOW + 6];

    for (size_t i = 0; i < WORD; i++)
        for (size_t j = 0; j < WORD; j++) {
            table t = {.len = 0};
            add_words(&t, k);
            add_equal(&t, x, i, i, y, j);
            random_words(words, k + 6);
            compare(HERE, "equal bits", ALL(t), words, k + 6, 0);
        }
}

void test_equal_bits(void)
{
    static const size_t places[] = {0, 1, 31, 62, 63};

    for (size_t x = 0; x < 3; x++)
        for (size_t y = 0; y < 3; y++)
            if (x != y)
                equal_bits_of(3, x, y);
    for (size_t a = 0; a < 5; a++)
        for (size_t b = 0; b < 5; b++)
            if (a != b)
                equal_bits_of(WINDOW, places[a], places[b]);
}

/* As many bits as there are at a shift: bits 15 to d of a word are bits 15 - d to 0 of another. */
static void equal_part(table *t, size_t x, size_t y, int shift)
{
    if (shift >= 0)
        add_equal(t, x, 15, (size_t)shift, y, 15 - (size_t)shift);
    else
        add_equal(t, x, 15 - (size_t)-shift, 0, y, 15);
}

/* Some of these bits, one by one; at least one. */
static void equal_mask(table *t, size_t x, size_t y, int shift)
{
    size_t from = shift > 0 ? (size_t)shift : 0, to = shift < 0 ? 15 - (size_t)-shift : 15;
    size_t some = from + below(to - from + 1);
    for (size_t i = from; i <= to; i++)
        if (i == some || one_in(2))
            add_equal(t, x, i, i, y, (size_t)((int)i - shift));
}

void test_equal_parts(void)
{
    for (int shift = -15; shift <= 15; shift++)
        for (size_t k = 2; k <= 3; k++)
            for (size_t x = 0; x < k; x++)
                for (size_t y = 0; y < k; y++) {
                    if (x == y)
                        continue;
                    table t = {.len = 0}, u = {.len = 0};
                    add_words(&t, k);
                    equal_part(&t, x, y, shift);
                    compare_changed(HERE, "equal parts", &t, k, 0);
                    add_words(&u, k);
                    equal_mask(&u, x, y, shift);
                    compare_changed(HERE, "some equal bits", &u, k, 0);
                }
    /* Two shifts between the same words, and shifts between several. */
    for (int shift = -15; shift <= 15; shift++)
        for (size_t i = 0; i < 10; i++) {
            size_t k = 2 + below(3);
            table t = {.len = 0};
            add_words(&t, k);
            equal_mask(&t, 0, k - 1, shift);
            equal_mask(&t, 0, k - 1, (int)below(31) - 15);
            equal_mask(&t, k - 1, k - 2, (int)below(15) + 1);
            compare_changed(HERE, "several shifts", &t, k, 0);
        }
    /* In the longest window, between words near and far. */
    for (int shift = -15; shift <= 15; shift++)
        for (size_t i = 0; i < 4; i++) {
            size_t x = below(WINDOW), y = (x + 1 + below(WINDOW - 1)) % WINDOW;
            table t = {.len = 0};
            add_words(&t, WINDOW);
            equal_part(&t, x, y, shift);
            compare_changed(HERE, "equal parts of 64 words", &t, WINDOW, 2);
        }
}

/* Bits of one word that are equal: each two, each shift, and some of a shift. */
void test_within_a_word(void)
{
    for (size_t k = 1; k <= 3; k++)
        for (size_t i = 0; i < WORD; i++)
            for (size_t j = 0; j < WORD; j++) {
                if (i == j)
                    continue;
                table t = {.len = 0};
                add_words(&t, k);
                add_equal(&t, k - 1, i, i, k - 1, j);
                compare_changed(HERE, "two bits of a word", &t, k, 0);
            }
    for (int shift = -15; shift <= 15; shift++)
        for (size_t i = 0; i < 10 && shift != 0; i++) {
            size_t k = 1 + below(3), x = below(k);
            table t = {.len = 0};
            add_words(&t, k);
            if (i == 0)
                equal_part(&t, x, x, shift);
            else
                equal_mask(&t, x, x, shift);
            compare_changed(HERE, "bits of a word", &t, k, 0);
        }
    /* A word whose bits stand in reverse order in the next: 16 shifts, and then in itself: 8. */
    for (size_t k = 1; k <= 2; k++) {
        table t = {.len = 0};
        add_words(&t, k);
        for (size_t i = 0; i < WORD; i++)
            if (k == 2 || i < WORD / 2)
                add_equal(&t, 0, i, i, k - 1, 15 - i);
        compare_changed(HERE, "reverse order", &t, k, 0);
    }
}

/* A chain of ties through words: each word's part is a part of the next one; its links in a given order. */
typedef enum { FORWARD, BACKWARD, FROM_BOTH_ENDS, STAR, ORDERS } link_order;

static void add_link(table *t, size_t k, size_t i, int shift, link_order order)
{
    size_t v = order == BACKWARD ? k - 2 - i : order == FROM_BOTH_ENDS && i % 2 == 1 ? k - 2 - i / 2 :
               order == FROM_BOTH_ENDS ? i / 2 : i;
    if (order == STAR)
        equal_part(t, v + 1, 0, shift);
    else if (one_in(2))
        equal_part(t, v, v + 1, shift);
    else
        equal_part(t, v + 1, v, -shift);
}

static void test_chain(size_t k, int shift, link_order order, bool fixed)
{
    table t = {.len = 0};

    add_words(&t, k);
    for (size_t i = 0; i + 1 < k; i++)
        add_link(&t, k, i, shift, order);
    if (fixed) { /* a bit that the others have from the far end */
        size_t v = one_in(2) ? 0 : k - 1, bit = below(WORD);
        add_fixed(&t, v, bit, bit, below(2));
    }
    compare_changed(HERE, "chain", &t, k, 30);
}

void test_chains(void)
{
    for (int shift = -15; shift <= 15; shift++)
        for (int order = 0; order < ORDERS; order++)
            for (size_t k = 2; k <= 6; k++) {
                test_chain(k, shift, (link_order)order, false);
                test_chain(k, shift, (link_order)order, true);
            }
    for (int order = 0; order < ORDERS; order++)
        for (size_t i = 0; i < 10; i++)
            test_chain(WINDOW, (int)below(3) - 1, (link_order)order, i % 2 == 1);
    /* One bit that moves down by one from word to word, so that it goes through 16 words. */
    for (size_t k = 2; k <= 16; k++) {
        table t = {.len = 0};
        add_words(&t, k);
        for (size_t v = 1; v < k; v++)
            add_equal(&t, v - 1, 16 - v, 16 - v, v, 15 - v);
        compare_changed(HERE, "a bit that moves", &t, k, 40);
        add_fixed(&t, k - 1, 16 - k, 16 - k, 1);
        compare_changed(HERE, "a fixed bit that moves", &t, k, 40);
    }
}

/* Words joined and turned: a part of two words is at the same time a part of two others. */
void test_across_words(void)
{
    for (size_t at = 1; at < 2 * WORD; at++) {
        table t = {.len = 0};
        add_words(&t, 4);
        add(&t, JOIN(0, 1)); /* row 4 */
        add(&t, JOIN(2, 3));
        add(&t, CUT(5, at - 1, 0));
        add(&t, CUT(5, 31, at));
        add(&t, JOIN(6, 7));
        add(&t, EQUATION(4, 8));
        compare_changed(HERE, "two words turned", &t, 4, 0);
        table u = {.len = 0};
        add_words(&u, 2);
        add(&u, JOIN(0, 1)); /* row 2 */
        add(&u, CUT(2, 31, at));
        add(&u, CUT(2, 31 - at, 0));
        add(&u, EQUATION(3, 4));
        compare_changed(HERE, "two words that repeat", &u, 2, 0);
    }
    /* All 64 words joined, 1,024 bits that come again after so many. */
    for (size_t at = 1; at < 1000; at += at < 40 ? 1 : 61) {
        table t = {.len = 0};
        add_words(&t, WINDOW);
        size_t word = 0;
        for (size_t v = 1; v < WINDOW; v++) {
            add(&t, JOIN(word, v));
            word = t.len / 4 - 1;
        }
        add(&t, CUT(word, 1023, at));
        add(&t, CUT(word, 1023 - at, 0));
        add(&t, EQUATION(word + 1, word + 2));
        compare_changed(HERE, "64 words that repeat", &t, WINDOW, 2);
    }
}

/* All bits of so many words are equal: 16 for each word but one groups of one bit. */
void test_most_groups(void)
{
    static uint16_t words[3 * WINDOW];

    for (size_t k = 1; k <= WINDOW; k++) {
        table t = {.len = 0};
        add_words(&t, k);
        add_equal(&t, k - 1, 15, 1, k - 1, 14);
        for (size_t v = 1; v < k; v++)
            add(&t, EQUATION(v, v - 1));
        compare_changed(HERE, "all bits equal", &t, k, 2);
        for (uint16_t ones = 0; ones < 2; ones++) {
            for (size_t i = 0; i < k + 2; i++)
                words[i] = ones == 1 ? 0xffff : 0;
            check(compare(HERE, "all bits equal", ALL(t), words, k + 2, 0) == 3, HERE, "%zu words", k);
        }
        /* Each bit of the last word, and of the first, in turn; the first window and the last then differ. */
        for (size_t bit = 0; bit < WORD; bit++) {
            uint16_t kept = words[k - 1];
            words[k - 1] ^= (uint16_t)(1U << bit);
            check(compare(HERE, "all bits but one equal", ALL(t), words, k, 0) == 0, HERE, "%zu words", k);
            words[k - 1] = kept;
        }
    }
}
