/*
  test_compare.c -- tests of lw_compare_tables

      test_compare [CASES]

  First outcomes worked by hand: tables of every kind against each other, tables
  that say the same in other rows, a single bit at each place, chains against
  stars, up to 4096 bits; every refusal with others behind it. Last CASES random
  pairs of tables (20000 if not given), most of them related: test_compare_random.c.
  Every call is made on guarded buffers and both ways round. Its record is compared
  with what plain_compare.c finds by classes and, for few variable bits, by all
  patterns; the work area has to be all 0, or untouched.

  The run fails too if some kind of random case is missing; so there should be at
  least 5000.
*/

#include "guard.h"
#include "refused_tables.h"
#include "revised_tables.h"
#include "test_compare.h"

enum { LEAST = 16384, MORE = 20000 /* numbers of a work area */ };

static const lw_record refused_10 = {.outcome = 10}, refused_49 = {.outcome = 49};

/* Calls and what they are compared with. */

void call(where at, const char *name, const uint16_t *first, size_t first_len, const uint16_t *second,
          size_t second_len, size_t work_len, lw_record want)
{
    static const uint16_t zeros[MORE];
    unsigned long failed = checks_failed;
    guarded a = guard(first, first_len * sizeof *first), b = guard(second, second_len * sizeof *second);
    guarded w = guard(NULL, work_len * sizeof(uint16_t));

    lw_record got = lw_compare_tables(guarded_buffer(&a), first_len, guarded_buffer(&b), second_len,
                                      guarded_buffer(&w), work_len);
    if (want.outcome <= 3)
        guard_expect(&w, zeros, work_len * sizeof *zeros);
    check_record(at, name, got, want);
    guard_check(&a, at, "first table");
    guard_check(&b, at, "second table");
    guard_check(&w, at, "work area");
    if (checks_failed != failed && failed == 0) {
        print_table(first, first_len);
        print_table(second, second_len);
    }
}

/* The outcome with the tables exchanged. */
static uint32_t exchanged(uint32_t outcome)
{
    return outcome == 1 ? 2 : outcome == 2 ? 1 : outcome;
}

uint32_t compare(where at, const char *name, const uint16_t *first, size_t first_len, const uint16_t *second,
                 size_t second_len, bool by_patterns)
{
    size_t room = one_in(2) ? LEAST : MORE;
    lw_record want = plain_compare_tables(first, first_len, second, second_len, room, false);

    if (by_patterns) {
        lw_record other = plain_compare_tables(first, first_len, second, second_len, room, true);
        check_record(at, "the plain comparisons", want, other);
    }
    call(at, name, first, first_len, second, second_len, room, want);
    want.outcome = exchanged(want.outcome);
    if (want.outcome <= 3 || want.outcome == 49)
        call(at, name, second, second_len, first, first_len, room, want);
    return exchanged(want.outcome);
}

/* The outcome is this one; a slip in what is expected is found too. */
static void expect(where at, const uint16_t *first, size_t first_len, const uint16_t *second, size_t second_len,
                   uint32_t want)
{
    uint32_t got = compare(at, "worked by hand", first, first_len, second, second_len, true);

    check(got == want, at, "the plain comparison has %u, expected %u", got, want);
}

#define EXPECT(...) expect(HERE, __VA_ARGS__)

/* The header's numbers are those of the specification. */
static void test_constants(void)
{
    static const constant constants[] = {
        CONSTANT(LW_SAME, 0), CONSTANT(LW_STRICTER, 1), CONSTANT(LW_LOOSER, 2), CONSTANT(LW_NEITHER, 3),
        CONSTANT(LW_REFUSED_MEMORY, 10), CONSTANT(LW_REFUSED_LAYOUT, 49), CONSTANT(LW_WORK_NUMBERS, 16384),
    };
    check_constants(HERE, constants, COUNT(constants));
}

/* Worked by hand. */

/* One bit, or two or three words of one bit, with fills of one bit behind them. */
#define BIT    VARIABLE(1)
#define BIT_0  TABLE(BIT, FILL(0, 1), EQUATION(0, 1))
#define BIT_1  TABLE(BIT, FILL(1, 1), EQUATION(0, 1))
#define NEVER_ROWS BIT, FILL(0, 1), FILL(1, 1)
#define BITS_3 BIT, BIT, BIT

static void test_worked(void)
{
    /* examples/overlap.sheet and any pixel. */
#define OVERLAP TABLE(VARIABLE(8), CUT(0, 6, 3), CUT(0, 4, 1), EQUATION(1, 2))
    EXPECT(OVERLAP, TABLE(VARIABLE(8)), 1);
    EXPECT(TABLE(VARIABLE(8)), OVERLAP, 2);
    EXPECT(OVERLAP, OVERLAP, 0);
#undef OVERLAP

    EXPECT(BIT_0, BIT_1, 3);
#define NEVER TABLE(NEVER_ROWS, EQUATION(1, 2))
    EXPECT(NEVER, BIT_0, 1);
    EXPECT(NEVER, BIT_1, 1);
    EXPECT(BIT_1, NEVER, 2);
    EXPECT(NEVER, TABLE(BIT), 1);
    EXPECT(NEVER, NEVER, 0);
    EXPECT(NEVER, TABLE(NEVER_ROWS, EQUATION(0, 1), EQUATION(1, 2)), 0);
    EXPECT(NEVER, TABLE(NEVER_ROWS, EQUATION(1, 2), EQUATION(0, 1)), 0);
    EXPECT(NEVER, TABLE(NEVER_ROWS, EQUATION(0, 2), EQUATION(0, 1)), 0);
#undef NEVER

    /* Three words of one bit. */
    EXPECT(TABLE(BITS_3, EQUATION(0, 1)), TABLE(BITS_3, EQUATION(1, 2)), 3);
    EXPECT(TABLE(BITS_3, EQUATION(0, 1), EQUATION(1, 2)), TABLE(BITS_3, EQUATION(2, 0), EQUATION(2, 1)), 0);
    EXPECT(TABLE(BITS_3, EQUATION(0, 1), EQUATION(1, 2)), TABLE(BITS_3, EQUATION(2, 0)), 1);
    EXPECT(TABLE(BIT, BIT, FILL(1, 1), EQUATION(0, 2), EQUATION(1, 2)), TABLE(BIT, BIT, EQUATION(0, 1)), 1);
    EXPECT(TABLE(BIT, BIT, EQUATION(0, 1)), TABLE(BIT, BIT, FILL(1, 1), EQUATION(0, 2), EQUATION(1, 2)), 2);

    /* examples/short.sheet, and the same with cuts; without its last rows. */
#define SHORT TABLE(VARIABLE(8), VARIABLE(12), EQUATION(0, 1))
    compare(HERE, "short", SHORT, TABLE(VARIABLE(8), VARIABLE(12), CUT(1, 7, 0), EQUATION(0, 2), CUT(1, 11, 8),
                                        FILL(0, 4), EQUATION(4, 5)), false);
    call(HERE, "short", SHORT, TABLE(VARIABLE(8), VARIABLE(12), CUT(1, 7, 0), EQUATION(0, 2), CUT(1, 11, 8), FILL(0, 4),
                                     EQUATION(4, 5)), LEAST, (lw_record){.outcome = 0});
    call(HERE, "short", SHORT, TABLE(VARIABLE(8), VARIABLE(12), CUT(1, 7, 0), EQUATION(0, 2)), MORE,
         (lw_record){.outcome = 1});
#undef SHORT

    /* examples/revised.sheet and its rows but the last. */
#define REVISED_ROWS VARIABLE(12), CUT(0, 11, 8), MARKER(3, 4), LINE(1, 2, 10), CUT(0, 3, 0), FILL(0, 4), \
                     LINE(4, 5, 20), MARKER(12, 4)
    EXPECT(TABLE(REVISED_ROWS, LINE(1, 7, 10)), TABLE(REVISED_ROWS), 3);
    EXPECT(TABLE(REVISED_ROWS), TABLE(REVISED_ROWS, LINE(1, 7, 10)), 3);
    EXPECT(TABLE(REVISED_ROWS), TABLE(REVISED_ROWS, LINE(1, 7, 11)), 2);
#undef REVISED_ROWS

    /* examples/marker.sheet and examples/marker-wider.sheet. */
#define MARKED TABLE(VARIABLE(16), VARIABLE(12), FILL(1, 1), FILL(0, 1), JOIN(2, 3), FILL(0, 2), JOIN(4, 1), JOIN(6, 5), \
                     EQUATION(0, 7))
#define WIDER TABLE(VARIABLE(16), VARIABLE(12), MARKER(2, 2), CUT(0, 15, 2), JOIN(2, 1), EQUATION(3, 4))
    call(HERE, "marker", MARKED, WIDER, LEAST, (lw_record){.outcome = 1});
    call(HERE, "marker", WIDER, MARKED, LEAST, (lw_record){.outcome = 2});
    compare(HERE, "marker", MARKED, WIDER, false);
#undef MARKED
#undef WIDER

    /* Variables that differ. */
    EXPECT(TABLE(BIT), TABLE(VARIABLE(8)), 49);
    EXPECT(TABLE(VARIABLE(1), VARIABLE(2)), TABLE(VARIABLE(2), VARIABLE(1)), 49);
    EXPECT(TABLE(BIT), TABLE(VARIABLE(8), EQUATION(0, 1)), 14);

    /* No rows, and fills 0 and 1 equated. */
    EXPECT(NULL, 0, TABLE(FILL(0, 1), FILL(1, 1), EQUATION(0, 1)), 2);
    EXPECT(TABLE(FILL(0, 1), FILL(1, 1), EQUATION(0, 1)), NULL, 0, 1);
    EXPECT(NULL, 0, NULL, 0, 0);
}

/* Tables of the same variables, of 2 and 1 bits: two always, two never, and solved ones, of which it is told what they say. */
#define VARIABLES VARIABLE(2), VARIABLE(1)
static const struct {
    const char *name;
    unsigned meets; /* bit p is whether pattern p meets it: 4, 2 and 1 are its bits from the first on */
    const uint16_t *numbers;
    size_t len;
} kinds[] = {
    {"always, no equation", 0xff, TABLE(VARIABLES)},
    {"always, itself", 0xff, TABLE(VARIABLES, JOIN(0, 1), CUT(2, 2, 1), EQUATION(3, 0))},
    {"never, two fills", 0x00, TABLE(VARIABLES, FILL(0, 1), FILL(1, 1), EQUATION(2, 3))},
    {"never, a bit both ways", 0x00, TABLE(VARIABLES, FILL(0, 1), EQUATION(1, 2), FILL(1, 1), EQUATION(4, 1))},
    {"never, by a short side", 0x00, TABLE(VARIABLES, MARKER(4, 3), EQUATION(2, 0))},
    {"the last bit 0", 0x55, TABLE(VARIABLES, FILL(0, 1), EQUATION(1, 2))},
    {"the last bit 0, short", 0x55, TABLE(VARIABLES, FILL(0, 9), EQUATION(1, 2))},
    {"the last bit 1", 0xaa, TABLE(VARIABLES, MARKER(1, 1), EQUATION(2, 1))},
    {"the first bit 1", 0xf0, TABLE(VARIABLES, CUT(0, 1, 1), FILL(1, 1), EQUATION(2, 3))},
    {"the first two equal", 0xc3, TABLE(VARIABLES, CUT(0, 1, 1), CUT(0, 0, 0), EQUATION(2, 3))},
    {"all equal", 0x81, TABLE(VARIABLES, CUT(0, 1, 1), CUT(0, 0, 0), EQUATION(2, 3), EQUATION(1, 3))},
    {"all equal, a star", 0x81, TABLE(VARIABLES, CUT(0, 1, 1), EQUATION(2, 1), CUT(0, 0, 0), EQUATION(1, 4))},
    {"all 0", 0x01, TABLE(VARIABLES, JOIN(1, 0), FILL(0, 3), EQUATION(2, 3))},
    {"all 1", 0x80, TABLE(VARIABLES, JOIN(0, 1), MARKER(7, 3), EQUATION(2, 3))},
    {"0 and then the last bit", 0x03, TABLE(VARIABLES, FILL(0, 2), EQUATION(2, 0))},
    {"the word is the bit", 0x09, TABLE(VARIABLES, EQUATION(0, 1))}, /* short: 00 0 and 01 1 */
};

static void test_kinds(void)
{
    for (size_t i = 0; i < COUNT(kinds); i++)
        for (size_t j = 0; j < COUNT(kinds); j++) {
            bool first_alone = (kinds[i].meets & ~kinds[j].meets) != 0, second_alone = (kinds[j].meets & ~kinds[i].meets) != 0;
            uint32_t want = first_alone ? second_alone ? 3 : 2 : second_alone ? 1 : 0;
            expect(HERE, kinds[i].numbers, kinds[i].len, kinds[j].numbers, kinds[j].len, want);
        }

    /* Without variables: always or never, with rows or without. */
    const struct {
        bool never;
        const uint16_t *numbers;
        size_t len;
    } empty[] = {
        {false, NULL, 0},
        {false, TABLE(FILL(1, 5))},
        {false, TABLE(FILL(1, 2), MARKER(3, 2), EQUATION(0, 1))},
        {false, TABLE(FILL(0, 900), FILL(0, 1), EQUATION(0, 1))},
        {true, TABLE(FILL(1, 2), MARKER(2, 2), EQUATION(0, 1))},
        {true, TABLE(FILL(1, 2), FILL(1, 3), EQUATION(0, 1))},
        {true, TABLE(FILL(1, 1), EQUATION(0, 0), FILL(0, 1), EQUATION(0, 2), EQUATION(2, 2))},
    };
    for (size_t i = 0; i < COUNT(empty); i++)
        for (size_t j = 0; j < COUNT(empty); j++)
            expect(HERE, empty[i].numbers, empty[i].len, empty[j].numbers, empty[j].len,
                   empty[i].never == empty[j].never ? 0 : empty[i].never ? 1 : 2);
}

/* Bits one by one. */

/* So many bits as variables of this width, the last one narrower. */
static void make_bits(table *t, size_t bits, size_t width)
{
    t->len = 0;
    for (size_t left = bits; left != 0; left -= left < width ? left : width)
        add(t, VARIABLE(left < width ? left : width));
}

/* A row that is one bit: place i of variables as above. */
static size_t add_bit(table *t, size_t bits, size_t width, size_t i)
{
    size_t variable = i / width, last = bits - variable * width, wide = last < width ? last : width;
    add(t, CUT(variable, wide - 1 - i % width, wide - 1 - i % width));
    return t->len / 4 - 1;
}

static void equate_bits(table *t, size_t bits, size_t width, size_t i, size_t j)
{
    size_t a = add_bit(t, bits, width, i), b = add_bit(t, bits, width, j);
    add(t, EQUATION(a, b));
}

static void fix_bit(table *t, size_t bits, size_t width, size_t i, size_t value)
{
    size_t a = add_bit(t, bits, width, i);
    add(t, FILL(value, 1));
    add(t, EQUATION(a, t->len / 4 - 1));
}

/* A table without equations, and ones that fix place i, to 0 and to 1, tie it to another, and tie that to a third. */
static void test_place(size_t bits, size_t width, size_t i, size_t other, size_t third)
{
    static table any, zero, one, tied, both, fixed;
    bool few = bits <= 6;

    make_bits(&any, bits, width);
    zero = one = tied = both = fixed = any;
    fix_bit(&zero, bits, width, i, 0);
    fix_bit(&one, bits, width, i, 1);
    equate_bits(&tied, bits, width, i, other);
    equate_bits(&both, bits, width, i, other);
    equate_bits(&both, bits, width, other, third);
    fix_bit(&fixed, bits, width, i, 0);
    fix_bit(&fixed, bits, width, other, 0);
    const struct { const table *first, *second; uint32_t outcome; } wanted[] = {
        {&zero, &any, 1}, {&any, &one, 2}, {&zero, &one, 3}, {&zero, &zero, 0}, {&tied, &any, 1}, {&tied, &zero, 3},
        {&tied, &both, 2}, {&fixed, &tied, 1}, {&fixed, &zero, 1}, {&fixed, &one, 3}, {&fixed, &both, 3},
    };
    for (size_t k = 0; k < COUNT(wanted); k++) {
        uint32_t got = compare(HERE, "one place", ALL(*wanted[k].first), ALL(*wanted[k].second), few);
        check(got == wanted[k].outcome, HERE, "%zu bits, place %zu, case %zu: %u, expected %u", bits, i, k, got,
              wanted[k].outcome);
    }
}

static void test_places(void)
{
    static const struct { size_t bits, width; } shapes[] = {
        {126, 64}, {127, 127}, {128, 128}, {128, 2}, {129, 129}, {129, 64}, {130, 1024}, {131, 3}, {1024, 1024},
        {4095, 64}, {4096, 64}, {4096, 1024},
    };

    for (size_t bits = 3; bits <= 6; bits++)
        for (size_t i = 0; i < bits; i++)
            for (size_t other = 0; other < bits; other++)
                if (other != i)
                    test_place(bits, 1 + below(bits), i, other, (i + 1) % bits != other ? (i + 1) % bits : (i + 2) % bits);
    for (size_t k = 0; k < COUNT(shapes); k++) {
        size_t bits = shapes[k].bits, width = shapes[k].width;
        const size_t places[] = {0, 1, 2, bits / 2, bits - 3, bits - 2, bits - 1};
        for (size_t i = 0; i < COUNT(places); i++) {
            test_place(bits, width, places[i], places[(i + 1) % 7], places[(i + 2) % 7]);
            test_place(bits, width, places[i], places[(i + 6) % 7], places[(i + 3) % 7]);
        }
    }
}

/* Tables of up to 4096 bits. */

/* Equations between so many words of 64 bits: each with the next, each with the first, each with the last, or none. */
enum { CHAIN, STAR, STAR_OF_LAST, NO_TIES };

static void make_tied(table *t, size_t words, size_t form)
{
    t->len = 0;
    for (size_t v = 0; v < words; v++)
        add(t, VARIABLE(64));
    for (size_t v = 1; v < words && form != NO_TIES; v++)
        if (form == CHAIN)
            add(t, EQUATION(v - 1, v));
        else if (form == STAR)
            add(t, EQUATION(v, 0));
        else
            add(t, EQUATION(v - 1, words - 1));
}

/* An equation that leaves a row with itself. */
static void leave_out(table *t, size_t row)
{
    t->numbers[4 * row + 2] = t->numbers[4 * row + 1];
}

static void test_many_bits(void)
{
    static table tables[4], less, fixed;

    for (size_t words = 2; words <= 64; words += words < 4 ? 1 : 20) {
        for (size_t i = 0; i < 4; i++)
            make_tied(&tables[i], words, i);
        for (size_t i = 0; i < 4; i++)
            for (size_t j = 0; j < 4; j++) {
                uint32_t got = compare(HERE, "chains and stars", ALL(tables[i]), ALL(tables[j]), false);
                check(got == (i < 3 ? j < 3 ? 0 : 1 : j < 3 ? 2 : 0), HERE, "forms %zu and %zu: %u", i, j, got);
            }
        for (size_t e = 0; e + 1 < words; e += e + 2 < words && words > 9 ? (words - 2) / 3 : 1) {
            less = tables[CHAIN];
            leave_out(&less, words + e);
            check(compare(HERE, "one tie less", ALL(less), ALL(tables[STAR]), false) == 2, HERE, "not looser");
        }
        /* All bits 0, against all words equal; and one bit of the last word 1. */
        fixed = tables[CHAIN];
        add(&fixed, FILL(0, 64));
        add(&fixed, EQUATION(words - 1, fixed.len / 4 - 1));
        check(compare(HERE, "fixed", ALL(fixed), ALL(tables[STAR]), false) == 1, HERE, "not stricter");
        less = fixed;
        less.numbers[4 * (less.len / 4 - 2) + 1] = 1; /* the fill */
        check(compare(HERE, "fixed", ALL(fixed), ALL(less), false) == 3, HERE, "not neither");
    }

    /* Four words of 1024 bits, turned by one bit: all bits of a word are equal, by one equation or by cuts of halves. */
    static table turned, halves;
    turned.len = halves.len = 0;
    for (size_t v = 0; v < 4; v++) {
        add(&turned, VARIABLE(1024));
        add(&halves, VARIABLE(1024));
    }
    for (size_t v = 0; v < 4; v++) {
        size_t r = turned.len / 4;
        add(&turned, CUT(v, 1023, 1));
        add(&turned, CUT(v, 1022, 0));
        add(&turned, EQUATION(r, r + 1));
        for (size_t w = 512; w != 0; w /= 2) { /* the bits from 2 w on are those from w on, and so on */
            r = halves.len / 4;
            add(&halves, CUT(v, 2 * w - 1, w));
            add(&halves, CUT(v, w - 1, 0));
            add(&halves, EQUATION(r + 1, r));
        }
    }
    check(compare(HERE, "turned", ALL(turned), ALL(halves), false) == 0, HERE, "not the same");
    leave_out(&halves, halves.len / 4 - 1);
    check(compare(HERE, "turned", ALL(turned), ALL(halves), false) == 1, HERE, "not stricter");
}

/* Written otherwise. */

static void test_written_otherwise(void)
{
    /* Rows between the variables, joins and cuts, sides exchanged, other line numbers. */
#define PLAIN TABLE(VARIABLE(3), VARIABLE(3), EQUATION(0, 1))
    EXPECT(PLAIN, TABLE(FILL(1, 7), VARIABLE(3), MARKER(5, 9), CUT(1, 2, 2), VARIABLE(3), CUT(4, 2, 2), EQUATION(5, 3),
                        CUT(1, 1, 0), CUT(4, 1, 0), EQUATION(7, 8)), 0);
    EXPECT(PLAIN, TABLE(VARIABLE(3), VARIABLE(3), JOIN(0, 1), JOIN(1, 0), EQUATION(2, 3)), 0);
    EXPECT(PLAIN, TABLE(VARIABLE(3), VARIABLE(3), LINE(1, 0, 65535)), 0);
    EXPECT(PLAIN, TABLE(VARIABLE(3), VARIABLE(3), FILL(0, 3), LINE(0, 2, 4), LINE(1, 0, 4)), 0);
    EXPECT(PLAIN, TABLE(VARIABLE(3), VARIABLE(3), FILL(0, 3), LINE(0, 1, 4), LINE(1, 2, 4)), 3);
    EXPECT(PLAIN, TABLE(VARIABLE(3), VARIABLE(3), FILL(0, 3), LINE(0, 1, 4), LINE(1, 2, 0)), 2);
    EXPECT(PLAIN, TABLE(VARIABLE(3), VARIABLE(3), FILL(0, 9), JOIN(2, 0), EQUATION(1, 3)), 0);
    EXPECT(PLAIN, TABLE(VARIABLE(3), EQUATION(0, 0), VARIABLE(3), EQUATION(0, 2), EQUATION(2, 0)), 0);
#undef PLAIN
    /* A line that is revised in each table by itself. */
#define REVISED(...) TABLE(VARIABLE(2), VARIABLE(2), FILL(0, 2), FILL(1, 2), __VA_ARGS__)
    EXPECT(REVISED(LINE(0, 2, 1), LINE(0, 3, 1)), REVISED(LINE(0, 3, 1), LINE(0, 2, 1)), 3);
    EXPECT(REVISED(LINE(0, 2, 1), LINE(0, 3, 1)), REVISED(LINE(1, 2, 1), LINE(0, 3, 1)), 0);
    EXPECT(REVISED(LINE(0, 2, 1), LINE(0, 3, 1)), REVISED(LINE(0, 3, 7)), 0);
    EXPECT(REVISED(LINE(2, 3, 1), LINE(0, 1, 1)), REVISED(LINE(0, 1, 2), LINE(0, 1, 3)), 0);
    EXPECT(REVISED(LINE(2, 3, 1), LINE(0, 1, 2)), REVISED(LINE(0, 1, 2)), 1);
    EXPECT(REVISED(LINE(0, 2, 1), LINE(0, 0, 1)), REVISED(EQUATION(0, 2)), 2);
#undef REVISED
}

/* The tables of revised_tables.h: each with what counts of it, and each with each. */
static void test_revised(void)
{
    static table revised, counting, other;

    for (size_t i = 0; i < REVISED_CASES; i++) {
        make_revised(&revised_cases[i], &revised, &counting);
        uint32_t got = compare(HERE, revised_cases[i].name, ALL(revised), ALL(counting), false);
        check(got == 0, HERE, "%s: %u", revised_cases[i].name, got);
        for (size_t j = 0; j < REVISED_CASES; j++) {
            make_revised(&revised_cases[j], &other, &counting);
            compare(HERE, revised_cases[j].name, ALL(revised), ALL(other), false);
            lw_record want = plain_compare_tables(ALL(revised), ALL(counting), LEAST, false);
            call(HERE, revised_cases[j].name, ALL(revised), ALL(other), LEAST, want);
        }
    }
    make_one_line(&revised, 64, 5);
    make_one_line(&counting, 1, 0);
    compare(HERE, "64 equations of one line", ALL(revised), ALL(counting), false);
}

/* Refusals. */

/* A table with a fault, as the first and as the second, with all behind it wrong too. */
static void refuse(where at, const uint16_t *numbers, size_t len, uint32_t number, uint32_t row)
{
    static const uint16_t good[] = {VARIABLE(9), FILL(0, 3), EQUATION(0, 1)}, bad[] = {FILL(1, 1), 9, 9, 9, 9};
    lw_record want = {.outcome = number, .row = row};

    call(at, "the first refused", numbers, len, good, COUNT(good), LEAST, want);
    call(at, "both refused alike", numbers, len, numbers, len, LEAST, want);
    call(at, "both refused", numbers, len, bad, COUNT(bad), MORE, want);
    call(at, "both refused", numbers, len, bad, 3, LEAST, want);
    call(at, "the second refused", good, COUNT(good), numbers, len, LEAST, want);
    call(at, "the second refused, no rows", NULL, 0, numbers, len, MORE, want);
    call(at, "the first refused before", bad, COUNT(bad), numbers, len, LEAST, (lw_record){.outcome = 12, .row = 1});
    call(at, "the first refused before", bad, 3, numbers, len, LEAST, (lw_record){.outcome = 11, .row = 512});
    call(at, "no room", numbers, len, bad, COUNT(bad), LEAST - 1, refused_10);
    call(at, "no room", good, COUNT(good), numbers, len, LEAST - 1, refused_10);
}

static void test_table_refusals(void)
{
    refuse_one_by_one(refuse);
    refuse_two_at_once(refuse);
    refuse_beyond_maximum(refuse);
    refuse_too_long(refuse);
}

/* 10: a work area below 16,384 numbers, whatever the tables are. */
static void test_room_refusals(void)
{
    static const size_t rooms[] = {0, 1, 4098, 8192, 16382, 16383};
    static const uint16_t other[] = {VARIABLE(2)};

    for (size_t i = 0; i < COUNT(rooms); i++) {
        call(HERE, "no room", BIT_0, BIT_1, rooms[i], refused_10);
        call(HERE, "no room, the same", BIT_0, BIT_0, rooms[i], refused_10);
        call(HERE, "no room, no rows", NULL, 0, NULL, 0, rooms[i], refused_10);
        call(HERE, "no room, 49 behind", BIT_0, other, 4, rooms[i], refused_10);
        call(HERE, "no room, 11 behind", other, 3, other, 4, rooms[i], refused_10);
    }
    for (size_t room = LEAST; room <= LEAST + 70; room += 23)
        call(HERE, "room", BIT_0, BIT_1, room, (lw_record){.outcome = 3});
}

/* 49: variables that differ in number, or one in its width, wherever it stands. */
static void test_layout_refusals(void)
{
    static table a, b;

#define DIFFER(...) call(HERE, "49", __VA_ARGS__, one_in(2) ? LEAST : MORE, refused_49)
    DIFFER(NULL, 0, TABLE(BIT));
    DIFFER(TABLE(BIT), NULL, 0);
    DIFFER(TABLE(FILL(1, 1)), TABLE(BIT));
    DIFFER(TABLE(BIT), TABLE(BIT, BIT));
    DIFFER(TABLE(BIT, BIT), TABLE(BIT));
    DIFFER(TABLE(VARIABLE(2)), TABLE(BIT, BIT)); /* as many bits */
    DIFFER(TABLE(VARIABLE(1), VARIABLE(2)), TABLE(VARIABLE(2), VARIABLE(1)));
    DIFFER(TABLE(VARIABLE(3), VARIABLE(1), VARIABLE(2)), TABLE(VARIABLE(3), VARIABLE(2), VARIABLE(1)));
    DIFFER(TABLE(VARIABLE(2), VARIABLE(2)), TABLE(VARIABLE(1), VARIABLE(3)));
    /* Nevers too, and equal rows behind. */
    DIFFER(TABLE(BIT, FILL(0, 1), FILL(1, 1), EQUATION(1, 2)), TABLE(VARIABLE(2), FILL(0, 1), FILL(1, 1), EQUATION(1, 2)));
    DIFFER(TABLE(FILL(0, 1), FILL(1, 1), EQUATION(0, 1)), TABLE(BIT));
    DIFFER(TABLE(VARIABLE(8), EQUATION(0, 0)), TABLE(VARIABLE(9), EQUATION(0, 0)));
#undef DIFFER

    for (size_t count = 1; count <= 64; count++)
        for (size_t v = 0; v < count; v++) {
            a.len = b.len = 0;
            for (size_t i = 0; i < count; i++) {
                if (i % 3 == 1)
                    add(&b, FILL(0, 1)); /* variables stand in other rows */
                add(&a, VARIABLE(10 + i % 5));
                add(&b, VARIABLE(10 + i % 5 + (i == v)));
            }
            call(HERE, "another width", ALL(a), ALL(b), LEAST, refused_49);
            call(HERE, "another width", ALL(b), ALL(a), LEAST, refused_49);
            b.len = 0;
            for (size_t i = 0; i < count; i++)
                if (i != v)
                    add(&b, VARIABLE(10 + i % 5));
            call(HERE, "one less", ALL(a), ALL(b), LEAST, refused_49);
            call(HERE, "one less", ALL(b), ALL(a), LEAST, refused_49);
        }
}

/* One table lent as both, and tables that overlap: the second is the first's beginning, or a part of it. */
static void test_overlapping(void)
{
    static const uint16_t numbers[] = {
        BIT, BIT, EQUATION(0, 1), FILL(1, 1), EQUATION(0, 3), /* rows 0 to 4 */
    };
    static const struct { size_t from, first, to, second; uint32_t outcome; } parts[] = {
        {0, 5, 0, 5, 0}, {0, 5, 0, 3, 1}, {0, 3, 0, 5, 2}, {0, 2, 0, 3, 2}, {0, 2, 0, 2, 0}, {0, 1, 1, 1, 0},
        {0, 2, 1, 1, 49}, {0, 0, 2, 0, 0},
    };
    static uint16_t work[MORE];
    guarded g = guard(numbers, sizeof numbers);
    const uint16_t *lent = guarded_buffer(&g);

    for (size_t i = 0; i < COUNT(parts); i++) {
        memset(work, 0x5a, sizeof work);
        lw_record got = lw_compare_tables(lent + 4 * parts[i].from, 4 * parts[i].first, lent + 4 * parts[i].to,
                                          4 * parts[i].second, work, MORE);
        check_record(HERE, "overlapping", got, (lw_record){.outcome = parts[i].outcome});
        for (size_t k = 0; k < MORE; k++)
            if (work[k] != (parts[i].outcome == 49 ? 0x5a5a : 0)) {
                check(false, HERE, "overlapping: number %zu of the work area is %u", k, work[k]);
                break;
            }
    }
    guard_check(&g, HERE, "overlapping");
}

/* NULL with length 0, for each and for all. */
static void test_null(void)
{
    static uint16_t work[LEAST];

#define NULLS(name, want, ...) check_record(HERE, name, lw_compare_tables(__VA_ARGS__), (lw_record){.outcome = (want)})
    NULLS("all NULL", 10, NULL, 0, NULL, 0, NULL, 0);
    NULLS("two empty tables", 0, NULL, 0, NULL, 0, work, LEAST);
    NULLS("the first empty", 49, NULL, 0, BIT_0, work, LEAST);
    NULLS("the second empty", 49, BIT_0, NULL, 0, work, LEAST);
    NULLS("no work area", 10, BIT_0, BIT_0, NULL, 0);
#undef NULLS
}

const test_list tests = {
    .name = "compare", .inputs = 20000,
    .groups = {
        {.name = "the header's constants", .run = test_constants},
        {.name = "worked by hand", .run = test_worked},
        {.name = "always, never and solved", .run = test_kinds},
        {.name = "bits one by one", .run = test_places},
        {.name = "up to 4096 bits", .run = test_many_bits},
        {.name = "written otherwise", .run = test_written_otherwise},
        {.name = "revised equations", .run = test_revised},
        {.name = "refusals 11 to 17, 40", .run = test_table_refusals},
        {.name = "refusal 10", .run = test_room_refusals},
        {.name = "refusal 49", .run = test_layout_refusals},
        {.name = "tables that overlap", .run = test_overlapping},
        {.name = "NULL with length 0", .run = test_null},
        {.name = "random pairs of tables", .run_random = test_random},
        {.name = "random pairs of large tables", .run_random = test_random_large},
    },
};
