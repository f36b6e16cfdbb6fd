/*
  test_value.c -- tests of lw_value

      test_value [TABLES]

  First values and refusals worked by hand, then TABLES random tables (20000 if
  not given), on which the library is compared with the evaluator of
  reference.c. Every call is made on guarded buffers, and its record and every
  byte of every buffer are compared.
*/

#include "guard.h"
#include "linkwords.h"
#include "refused_tables.h"
#include "reference.h"

/* Calls and what they are compared with. */

static const uint8_t zeros[8192];

/* One call: the record; table and pattern unchanged; want_value as the first want.free bytes of the output. */
static void call(where at, const char *name, const uint16_t *numbers, size_t len, size_t row,
                 const uint8_t *pattern, size_t pattern_len, size_t value_len,
                 lw_record want, const uint8_t *want_value)
{
    unsigned long failed = checks_failed;
    guarded t = guard(numbers, len * sizeof *numbers);
    guarded p = guard(pattern, pattern_len);
    guarded v = guard(NULL, value_len);

    lw_record got = lw_value(guarded_buffer(&t), len, row, guarded_buffer(&p), pattern_len,
                             guarded_buffer(&v), value_len);
    guard_expect(&v, want_value, want.free);
    check_record(at, name, got, want);
    guard_check(&t, at, "table");
    guard_check(&p, at, "pattern");
    guard_check(&v, at, "value");
    if (checks_failed != failed && failed == 0)
        print_table(numbers, len);
}

/* The row has this value; with an output of just its width, and with a longer one. */
static void accept_bytes(where at, const uint16_t *numbers, size_t len, size_t row,
                         const uint8_t *pattern, size_t pattern_len, const uint8_t *value, size_t width)
{
    lw_record want = {.free = (uint32_t)width};
    call(at, "accepted", numbers, len, row, pattern, pattern_len, width, want, value);
    call(at, "accepted, longer output", numbers, len, row, pattern, pattern_len, width + 9, want, value);
}

/* The bytes of a text of 0 and 1; any other digit stands for itself. */
static size_t bytes_of(const char *text, uint8_t *bytes)
{
    size_t n = strlen(text);
    for (size_t i = 0; i < n; i++)
        bytes[i] = (uint8_t)(text[i] - '0');
    return n;
}

static void accept_text(where at, const uint16_t *numbers, size_t len, size_t row,
                        const char *pattern, const char *value)
{
    uint8_t p[64], v[64];
    size_t pattern_len = bytes_of(pattern, p), width = bytes_of(value, v);
    accept_bytes(at, numbers, len, row, p, pattern_len, v, width);
}

/* The table is refused, whether or not the row, the pattern and the output are wrong as well. */
static void refuse_table(where at, const uint16_t *numbers, size_t len, uint32_t number, uint32_t row)
{
    lw_record want = {.outcome = number, .row = row};
    size_t bits = 0;
    for (size_t i = 0; i + 3 < len; i += 4)
        if (numbers[i] == 0 && bits + numbers[i + 1] <= sizeof zeros)
            bits += numbers[i + 1];
    call(at, "refused", numbers, len, 0, zeros, bits, 1024, want, NULL);
    call(at, "refused, all else wrong too", numbers, len, SIZE_MAX, (const uint8_t[]){7}, 1, 0, want, NULL);
}

/* The call is refused for its row, its pattern or its output. */
static void refuse_text(where at, const uint16_t *numbers, size_t len, size_t row,
                        const char *pattern, size_t value_len, uint32_t number)
{
    uint8_t p[64];
    size_t pattern_len = bytes_of(pattern, p);
    call(at, "refused", numbers, len, row, p, pattern_len, value_len, (lw_record){.outcome = number}, NULL);
}

#define ACCEPT_BYTES(...) accept_bytes(HERE, __VA_ARGS__)
#define ACCEPT(...)       accept_text(HERE, __VA_ARGS__)
#define REFUSE_TABLE(...) refuse_table(HERE, __VA_ARGS__)
#define REFUSE(...)       refuse_text(HERE, __VA_ARGS__)

/* The header's numbers are those of the specification. */
static void test_constants(void)
{
    static const constant constants[] = {
        CONSTANT(LW_VARIABLE, 0), CONSTANT(LW_FILL, 1), CONSTANT(LW_JOIN, 2), CONSTANT(LW_CUT, 3),
        CONSTANT(LW_EQUATION, 4), CONSTANT(LW_VALUE, 5),
        CONSTANT(LW_ROW_NUMBERS, 4), CONSTANT(LW_MAX_ROWS, 512), CONSTANT(LW_MAX_WIDTH, 1024),
        CONSTANT(LW_MAX_VARIABLES, 64), CONSTANT(LW_MAX_VARIABLE_BITS, 4096), CONSTANT(LW_MAX_EQUATIONS, 64),
        CONSTANT(LW_ACCEPTED, 0),
        CONSTANT(LW_REFUSED_TABLE, 11), CONSTANT(LW_REFUSED_KIND, 12), CONSTANT(LW_REFUSED_UNUSED, 13),
        CONSTANT(LW_REFUSED_NAME, 14), CONSTANT(LW_REFUSED_WIDTH, 15), CONSTANT(LW_REFUSED_CUT, 16),
        CONSTANT(LW_REFUSED_MAXIMUM, 17), CONSTANT(LW_REFUSED_SIDES, 18),
        CONSTANT(LW_REFUSED_ROW, 30), CONSTANT(LW_REFUSED_PATTERN, 31), CONSTANT(LW_REFUSED_OUTPUT, 32),
        CONSTANT(LW_REFUSED_VALUE, 40),
    };
    check_constants(HERE, constants, COUNT(constants));
    check(sizeof(lw_record) == 24, HERE, "a record has %zu bytes", sizeof(lw_record));
}

static void test_values(void)
{
    /* Variables and fills. */
    ACCEPT(TABLE(VARIABLE(8)), 0, "10110010", "10110010");
    ACCEPT(TABLE(VARIABLE(1)), 0, "0", "0");
    ACCEPT(TABLE(VARIABLE(1)), 0, "1", "1");
    ACCEPT(TABLE(FILL(1, 5)), 0, "", "11111");
    ACCEPT(TABLE(FILL(0, 3)), 0, "", "000");

    /* Variables are numbered as they appear, whatever stands between them. */
    ACCEPT(TABLE(VARIABLE(3), VARIABLE(2)), 0, "11001", "110");
    ACCEPT(TABLE(VARIABLE(3), VARIABLE(2)), 1, "11001", "01");
    static const uint16_t between[] = {
        FILL(1, 2), VARIABLE(2), EQUATION(0, 1), VARIABLE(3), CUT(3, 0, 0), VARIABLE(1),
    };
    ACCEPT(between, 24, 1, "101100", "10");
    ACCEPT(between, 24, 3, "101100", "110");
    ACCEPT(between, 24, 4, "101100", "0");
    ACCEPT(between, 24, 5, "101101", "1");

    /* Line numbers, and equations that do not count, bear on no value. */
    static const uint16_t lines[] = {
        VARIABLE(4), FILL(0, 2), LINE(0, 1, 7), CUT(0, 3, 2), LINE(3, 1, 7), FILL(1, 2), LINE(3, 5, 65535), JOIN(1, 3),
    };
    ACCEPT(lines, 32, 0, "1101", "1101");
    ACCEPT(lines, 32, 3, "1001", "10");
    ACCEPT(lines, 32, 5, "0000", "11");
    ACCEPT(lines, 32, 7, "1101", "0011");
    REFUSE(lines, 32, 2, "1101", 4, 30);
    REFUSE(lines, 32, 4, "1101", 4, 30);
    REFUSE(lines, 32, 6, "1101", 4, 30);

    /* Joins: the left part is high. */
    ACCEPT(TABLE(VARIABLE(3), FILL(0, 2), JOIN(0, 1)), 2, "101", "10100");
    ACCEPT(TABLE(VARIABLE(3), FILL(0, 2), JOIN(1, 0)), 2, "101", "00101");
    ACCEPT(TABLE(VARIABLE(3), VARIABLE(2), JOIN(1, 0)), 2, "11001", "01110");
    ACCEPT(TABLE(VARIABLE(2), JOIN(0, 0)), 1, "01", "0101");
    ACCEPT(TABLE(VARIABLE(1), FILL(1, 1), JOIN(0, 1), JOIN(2, 2), JOIN(3, 0)), 4, "0", "01010");

    /* Cuts: bits 7 to 0 are 1 0 1 1 0 0 1 0. */
    ACCEPT(TABLE(VARIABLE(8), CUT(0, 6, 3)), 1, "10110010", "0110");
    ACCEPT(TABLE(VARIABLE(8), CUT(0, 7, 5)), 1, "10110010", "101");
    ACCEPT(TABLE(VARIABLE(8), CUT(0, 4, 0)), 1, "10110010", "10010");
    ACCEPT(TABLE(VARIABLE(8), CUT(0, 7, 7)), 1, "10110010", "1");
    ACCEPT(TABLE(VARIABLE(8), CUT(0, 1, 1)), 1, "10110010", "1");
    ACCEPT(TABLE(VARIABLE(8), CUT(0, 0, 0)), 1, "10110010", "0");
    ACCEPT(TABLE(VARIABLE(8), CUT(0, 7, 0)), 1, "10110010", "10110010");
    ACCEPT(TABLE(FILL(1, 8), CUT(0, 6, 3)), 1, "", "1111");

    /* A cut of the second variable, whose bits are 0 0 1 1 1. */
    ACCEPT(TABLE(VARIABLE(2), VARIABLE(5), CUT(1, 3, 1)), 2, "1100111", "011");

    /* A cut of a cut: 6 to 1 is 0 1 1 0 0 1, and 4 to 2 of that is 1 1 0. */
    ACCEPT(TABLE(VARIABLE(8), CUT(0, 6, 1), CUT(1, 4, 2)), 2, "10110010", "110");

    /* Cuts of a join 1 1 0, 0 1: on the right, on the left, through the seam. */
    ACCEPT(TABLE(VARIABLE(3), VARIABLE(2), JOIN(0, 1), CUT(2, 1, 0)), 3, "11001", "01");
    ACCEPT(TABLE(VARIABLE(3), VARIABLE(2), JOIN(0, 1), CUT(2, 4, 2)), 3, "11001", "110");
    ACCEPT(TABLE(VARIABLE(3), VARIABLE(2), JOIN(0, 1), CUT(2, 3, 1)), 3, "11001", "100");
    ACCEPT(TABLE(VARIABLE(3), VARIABLE(2), JOIN(0, 1), CUT(2, 2, 2)), 3, "11001", "0");
    ACCEPT(TABLE(VARIABLE(3), VARIABLE(2), JOIN(0, 1), CUT(2, 1, 1)), 3, "11001", "0");
    ACCEPT(TABLE(VARIABLE(3), VARIABLE(2), JOIN(0, 1), CUT(2, 0, 0)), 3, "11001", "1");

    /* Two halves joined again, in order and crossed. */
    ACCEPT(TABLE(VARIABLE(8), CUT(0, 7, 4), CUT(0, 3, 0), JOIN(1, 2)), 3, "10110010", "10110010");
    ACCEPT(TABLE(VARIABLE(8), CUT(0, 7, 4), CUT(0, 3, 0), JOIN(2, 1)), 3, "10110010", "00101011");

    /* Equations do not bear on values: the sides may differ under the pattern. */
    ACCEPT(TABLE(VARIABLE(8), CUT(0, 6, 3), CUT(0, 4, 1), EQUATION(1, 2)), 1, "10110010", "0110");
    ACCEPT(TABLE(VARIABLE(8), CUT(0, 6, 3), CUT(0, 4, 1), EQUATION(1, 2)), 2, "10110010", "1001");
    ACCEPT(TABLE(FILL(0, 1), FILL(1, 1), EQUATION(0, 1)), 1, "", "1");

    /* Nor are sides of unequal width filled in their values, whichever is the narrower. */
    ACCEPT(TABLE(VARIABLE(5), VARIABLE(2), EQUATION(0, 1)), 0, "1011001", "10110");
    ACCEPT(TABLE(VARIABLE(5), VARIABLE(2), EQUATION(0, 1)), 1, "1011001", "01");
    ACCEPT(TABLE(VARIABLE(5), VARIABLE(2), EQUATION(1, 0), JOIN(1, 0)), 3, "1011001", "0110110");
    ACCEPT(TABLE(FILL(1, 1), FILL(1, 3), EQUATION(0, 1), CUT(1, 2, 2)), 3, "", "1");
}

/* Markers: the bits of a number, high bit first. */
static void test_markers(void)
{
    ACCEPT(TABLE(MARKER(6, 4)), 0, "", "0110");
    ACCEPT(TABLE(MARKER(6, 3)), 0, "", "110");
    ACCEPT(TABLE(MARKER(0, 1)), 0, "", "0");
    ACCEPT(TABLE(MARKER(1, 1)), 0, "", "1");
    ACCEPT(TABLE(MARKER(1, 16)), 0, "", "0000000000000001");
    ACCEPT(TABLE(MARKER(32768, 16)), 0, "", "1000000000000000");
    ACCEPT(TABLE(MARKER(0, 16)), 0, "", "0000000000000000");
    ACCEPT(TABLE(MARKER(65535, 16)), 0, "", "1111111111111111");
    ACCEPT(TABLE(MARKER(0xACE1, 16)), 0, "", "1010110011100001");

    /* It takes no place in a pattern, and does not count among the variables. */
    ACCEPT(TABLE(MARKER(2, 2), VARIABLE(3), MARKER(5, 3), VARIABLE(2)), 0, "01110", "10");
    ACCEPT(TABLE(MARKER(2, 2), VARIABLE(3), MARKER(5, 3), VARIABLE(2)), 1, "01110", "011");
    ACCEPT(TABLE(MARKER(2, 2), VARIABLE(3), MARKER(5, 3), VARIABLE(2)), 2, "01110", "101");
    ACCEPT(TABLE(MARKER(2, 2), VARIABLE(3), MARKER(5, 3), VARIABLE(2)), 3, "01110", "10");

    /* Joined on either side, and cut: bits 3 to 0 of 1010 1100 1110 0001 are 0001, 15 to 12 are 1010. */
    ACCEPT(TABLE(MARKER(2, 3), VARIABLE(2), JOIN(0, 1)), 2, "11", "01011");
    ACCEPT(TABLE(MARKER(2, 3), VARIABLE(2), JOIN(1, 0)), 2, "11", "11010");
    ACCEPT(TABLE(MARKER(2, 3), JOIN(0, 0)), 1, "", "010010");
    ACCEPT(TABLE(MARKER(2, 3), FILL(0, 2), JOIN(0, 1)), 2, "", "01000");
    ACCEPT(TABLE(MARKER(0xACE1, 16), CUT(0, 3, 0)), 1, "", "0001");
    ACCEPT(TABLE(MARKER(0xACE1, 16), CUT(0, 15, 12)), 1, "", "1010");
    ACCEPT(TABLE(MARKER(0xACE1, 16), CUT(0, 11, 4)), 1, "", "11001110");
    ACCEPT(TABLE(MARKER(0xACE1, 16), CUT(0, 15, 0)), 1, "", "1010110011100001");
    ACCEPT(TABLE(MARKER(0xACE1, 16), CUT(0, 11, 4), CUT(1, 5, 2)), 2, "", "0011");
    ACCEPT(TABLE(MARKER(0xACE1, 16), VARIABLE(2), JOIN(0, 1), CUT(2, 4, 1)), 3, "10", "0011");
    ACCEPT(TABLE(MARKER(0xACE1, 16), VARIABLE(2), JOIN(1, 0), CUT(2, 17, 14)), 3, "10", "1010");
    for (uint16_t bit = 0; bit < 16; bit++)
        ACCEPT(TABLE(MARKER(0xACE1, 16), CUT(0, bit, bit)), 1, "", (0xACE1 >> bit & 1) == 1 ? "1" : "0");

    /* An equation of it does not bear on values. */
    ACCEPT(TABLE(VARIABLE(3), MARKER(5, 3), EQUATION(0, 1)), 0, "010", "010");
    ACCEPT(TABLE(VARIABLE(3), MARKER(5, 3), EQUATION(0, 1)), 1, "010", "101");

    /* It is no variable and no equation, of which there may be 64: 512 markers. */
    table t = {.len = 0};
    for (size_t i = 0; i < 512; i++)
        add(&t, MARKER(i, 9));
    ACCEPT(ALL(t), 511, "", "111111111");
    ACCEPT(ALL(t), 0, "", "000000000");
    ACCEPT(ALL(t), 342, "", "101010110");
}

/* Every number of every width; and all widths with the numbers next to each power of 2, c being 0 or not. */
static void test_all_markers(void)
{
    static const size_t unused[] = {0, 1, 65535};
    uint8_t bits[16];

    for (size_t w = 1; w <= 16; w++)
        for (size_t number = 0; number < (size_t)1 << w; number++) {
            table t = {.len = 0};
            add(&t, MARKER(number, w));
            for (size_t j = 0, rest = number; j < w; j++, rest /= 2)
                bits[w - 1 - j] = (uint8_t)(rest % 2);
            call(HERE, "marker", ALL(t), 0, NULL, 0, w, (lw_record){.free = (uint32_t)w}, bits);
        }

    for (size_t w = 0; w < 65536; w += w < 1100 ? 1 : 997)
        for (size_t i = 0; i < 3 * 17 * COUNT(unused); i++) {
            size_t number = ((size_t)1 << i % 17) + i / 17 % 3 - 1, c = unused[i / (3 * 17)];
            lw_record want = {.outcome = c != 0 ? 13 : w < 1 || w > 1024 ? 15 : w > 16 || number >> w != 0 ? 40 : 0};
            table t = {.len = 0};
            if (number > 65535)
                continue;
            want.free = want.outcome == 0 ? (uint32_t)w : 0;
            add(&t, LW_VALUE, number, w, c);
            check_record(HERE, "marker or none", lw_value(ALL(t), 0, NULL, 0, bits, sizeof bits), want);
        }
}

/* Bits without a period or a symmetry that a slip could hide in. */
static void uneven_bits(uint8_t *bits, size_t n)
{
    uint32_t x = 1;
    for (size_t i = 0; i < n; i++) {
        x = x * 1664525 + 1013904223;
        bits[i] = (uint8_t)(x >> 31);
    }
}

/* Every width: a variable, a fill, and the cuts of all bits, of each end bit and of one bit too many. */
static void test_widths(void)
{
    uint8_t bits[1024], ones[1024];
    memset(ones, 1, sizeof ones);
    for (size_t w = 1; w <= 1024; w++) {
        uneven_bits(bits, w);
        table t = {.len = 0};
        add(&t, VARIABLE(w));
        add(&t, FILL(1, w));
        add(&t, CUT(0, w - 1, 0));
        add(&t, CUT(0, w - 1, w - 1));
        add(&t, CUT(0, 0, 0));
        ACCEPT_BYTES(ALL(t), 0, bits, w, bits, w);
        ACCEPT_BYTES(ALL(t), 1, bits, w, ones, w);
        ACCEPT_BYTES(ALL(t), 2, bits, w, bits, w);
        ACCEPT_BYTES(ALL(t), 3, bits, w, bits, 1);
        ACCEPT_BYTES(ALL(t), 4, bits, w, bits + w - 1, 1);
        add(&t, CUT(0, w, 0));
        REFUSE_TABLE(ALL(t), 16, 5);
    }
}

/* Tables at their limits, and one beyond. */
static void test_limits(void)
{
    uint8_t bits[4096];
    uneven_bits(bits, sizeof bits);

    /* 512 rows, that is 2048 numbers; then 2049 to 2052. */
    table t = {.len = 0};
    add(&t, VARIABLE(5));
    while (t.len < 2048)
        add(&t, FILL(1, 2));
    add(&t, FILL(0, 1)); /* behind the table until its length takes it in */
    t.len = 2048;
    ACCEPT(ALL(t), 0, "10010", "10010");
    ACCEPT(ALL(t), 511, "10010", "11");
    for (t.len = 2049; t.len <= 2052; t.len++)
        REFUSE_TABLE(ALL(t), 11, 512);

    /* 64 variables of 64 bits are 4096 variable bits. */
    t.len = 0;
    for (size_t i = 0; i < 64; i++)
        add(&t, VARIABLE(64));
    for (size_t i = 0; i < 64; i++)
        ACCEPT_BYTES(ALL(t), i, bits, 4096, bits + 64 * i, 64);
    add(&t, CUT(63, 0, 0));
    ACCEPT_BYTES(ALL(t), 64, bits, 4096, bits + 4095, 1);

    /* The 65th variable. */
    t.len = 0;
    for (size_t i = 0; i < 64; i++)
        add(&t, VARIABLE(1));
    ACCEPT_BYTES(ALL(t), 63, bits, 64, bits + 63, 1);
    add(&t, FILL(0, 1));
    add(&t, VARIABLE(1));
    REFUSE_TABLE(ALL(t), 17, 65);

    /* 4096 and 4097 variable bits, in few variables. */
    t.len = 0;
    for (size_t i = 0; i < 4; i++)
        add(&t, VARIABLE(1024));
    ACCEPT_BYTES(ALL(t), 3, bits, 4096, bits + 3072, 1024);
    add(&t, VARIABLE(1));
    REFUSE_TABLE(ALL(t), 17, 4);
    t.len = 0;
    for (size_t i = 0; i < 3; i++)
        add(&t, VARIABLE(1024));
    add(&t, VARIABLE(1000));
    add(&t, VARIABLE(24));
    ACCEPT_BYTES(ALL(t), 4, bits, 4096, bits + 4072, 24);
    t.numbers[4 * 4 + 1] = 25;
    REFUSE_TABLE(ALL(t), 17, 4);
    t.numbers[4 * 4 + 1] = 1024;
    REFUSE_TABLE(ALL(t), 17, 4);

    /* Markers count neither as variables nor as equations nor among the bits. */
    t.len = 0;
    for (size_t i = 0; i < 64; i++) {
        add(&t, VARIABLE(64));
        add(&t, MARKER(40961, 16));
    }
    for (size_t i = 0; i < 64; i++)
        add(&t, EQUATION(1, 3));
    ACCEPT_BYTES(ALL(t), 126, bits, 4096, bits + 4032, 64);
    add(&t, MARKER(2, 2));
    add(&t, VARIABLE(1));
    REFUSE_TABLE(ALL(t), 17, 193);

    /* 64 and 65 equations. */
    t.len = 0;
    add(&t, VARIABLE(2));
    for (size_t i = 0; i < 64; i++)
        add(&t, EQUATION(0, 0));
    add(&t, CUT(0, 1, 1));
    ACCEPT(ALL(t), 65, "10", "1");
    add(&t, EQUATION(0, 0));
    REFUSE_TABLE(ALL(t), 17, 66);

    /* Widths add up to 1024 and beyond: a word joined with itself ten times, and once more. */
    t.len = 0;
    add(&t, VARIABLE(1));
    for (size_t i = 0; i < 10; i++)
        add(&t, JOIN(i, i));
    uint8_t ones[1024];
    memset(ones, 1, sizeof ones);
    ACCEPT_BYTES(ALL(t), 10, ones, 1, ones, 1024);
    add(&t, JOIN(10, 10));
    REFUSE_TABLE(ALL(t), 15, 11);
}

/* Deep tables: each row is made of the one before it. */
static void test_chains(void)
{
    uint8_t bits[1024], grown[512];
    uneven_bits(bits, sizeof bits);

    /* 500 cuts, of one bit each, in turn at the high and at the low end. */
    table t = {.len = 0};
    add(&t, VARIABLE(1024));
    for (size_t i = 0; i < 500; i++)
        if (i % 2 == 0)
            add(&t, CUT(i, 1024 - i - 2, 0));
        else
            add(&t, CUT(i, 1024 - i - 1, 1));
    ACCEPT_BYTES(ALL(t), 500, bits, 1024, bits + 250, 524);
    ACCEPT_BYTES(ALL(t), 499, bits, 1024, bits + 250, 525);
    ACCEPT_BYTES(ALL(t), 1, bits, 1024, bits + 1, 1023);

    /* 511 cuts of the whole word. */
    t.len = 0;
    add(&t, VARIABLE(1024));
    for (size_t i = 0; i < 511; i++)
        add(&t, CUT(i, 1023, 0));
    ACCEPT_BYTES(ALL(t), 511, bits, 1024, bits, 1024);

    /* 510 joins, with one bit more each, in turn a 1 on the right and the variable on the left. */
    t.len = 0;
    add(&t, VARIABLE(1));
    add(&t, FILL(1, 1));
    for (size_t i = 2; i < 512; i++)
        if (i % 2 == 0)
            add(&t, JOIN(i - 1, 1));
        else
            add(&t, JOIN(0, i - 1));
    memset(grown, 1, sizeof grown);
    memset(grown, 0, 255); /* rows 3, 5, .., 511 have put a 0 in front */
    ACCEPT_BYTES(ALL(t), 511, zeros, 1, grown, 511);
}

/* Refusals 11 to 17 and 40: refused_tables.h has the tables. */
static void test_table_refusals(void)
{
    refuse_one_by_one(refuse_table);
    refuse_beyond_maximum(refuse_table);
}

static void test_two_table_refusals(void)
{
    refuse_two_at_once(refuse_table);
}

/* Refusals 30 to 32, one by one and two at once. */
static void test_call_refusals(void)
{
    static const uint16_t four[] = {VARIABLE(3), VARIABLE(2), CUT(0, 1, 0), EQUATION(1, 2)};
    const size_t len = COUNT(four);

    /* 30: no such row, also where a product or a shorter number would wrap; or an equation. */
    static const size_t absent[] = {
        4, 5, 511, 512, 65535, 65536, (size_t)UINT32_MAX + 1,
        SIZE_MAX / 4 + 1, SIZE_MAX / 2 + 1, SIZE_MAX - 3, SIZE_MAX,
    };
    for (size_t i = 0; i < COUNT(absent); i++)
        REFUSE(four, len, absent[i], "10110", 1024, 30);
    REFUSE(four, len, 3, "10110", 1024, 30);
    REFUSE(four, 0, 0, "", 1024, 30);

    /* 31: a pattern of another length; a byte above 1, also of a variable that the row is not made of. */
    REFUSE(four, len, 2, "1011", 2, 31);
    REFUSE(four, len, 2, "101101", 2, 31);
    REFUSE(four, len, 2, "", 2, 31);
    REFUSE(TABLE(FILL(0, 2)), 0, "0", 2, 31);
    REFUSE(four, len, 2, "20110", 2, 31);
    REFUSE(four, len, 2, "10210", 2, 31);
    REFUSE(four, len, 2, "10112", 2, 31);
    for (size_t i = 0; i < 5; i++)
        for (uint8_t byte = 2; byte != 0; byte++) {
            uint8_t pattern[] = {1, 0, 1, 1, 0};
            pattern[i] = byte;
            call(HERE, "refused", four, len, 2, pattern, 5, 2, (lw_record){.outcome = 31}, NULL);
        }

    /* 32: an output below the row's width. */
    REFUSE(four, len, 0, "10110", 2, 32);
    REFUSE(four, len, 0, "10110", 0, 32);
    REFUSE(four, len, 2, "10110", 1, 32);
    for (size_t value_len = 0; value_len < 1024; value_len++)
        REFUSE(TABLE(FILL(1, 1024)), 0, "", value_len, 32);

    /* 30 before 31 before 32. */
    REFUSE(four, len, 4, "1011", 1024, 30);
    REFUSE(four, len, 3, "10112", 1024, 30);
    REFUSE(four, len, 4, "10110", 0, 30);
    REFUSE(four, len, 3, "2", 0, 30);
    REFUSE(four, len, 0, "1011", 2, 31);
    REFUSE(four, len, 0, "10112", 0, 31);

    /* A fault of the table comes before all three, also behind the row asked for. */
    REFUSE_TABLE(TABLE(VARIABLE(3), VARIABLE(2), CUT(0, 1, 0), 6, 0, 0, 0), 12, 3);
    REFUSE_TABLE(TABLE(VARIABLE(3), VARIABLE(2), CUT(0, 1, 0), MARKER(4, 2)), 40, 3);
}

/* NULL with length 0 for each buffer. */
static void test_null(void)
{
    static const uint16_t fill[] = {FILL(1, 2)}, variable[] = {VARIABLE(2)};
    static const uint8_t pattern[] = {1, 0};
    uint8_t value[2] = {9, 9};

#define REFUSE_NULL(name, number, at, ...) \
    check_record(HERE, name, lw_value(__VA_ARGS__), (lw_record){.outcome = (number), .row = (at)})
    REFUSE_NULL("all NULL", 30, 0, NULL, 0, 0, NULL, 0, NULL, 0);
    REFUSE_NULL("all NULL, row SIZE_MAX", 30, 0, NULL, 0, SIZE_MAX, NULL, 0, NULL, 0);
    REFUSE_NULL("table NULL", 30, 0, NULL, 0, 0, pattern, 2, value, 2);
    REFUSE_NULL("pattern NULL", 31, 0, variable, 4, 0, NULL, 0, value, 2);
    REFUSE_NULL("value NULL", 32, 0, variable, 4, 0, pattern, 2, NULL, 0);
    REFUSE_NULL("pattern and value NULL", 32, 0, fill, 4, 0, NULL, 0, NULL, 0);
    REFUSE_NULL("pattern and value NULL, table refused", 11, 512, fill, 3, 0, NULL, 0, NULL, 0);
#undef REFUSE_NULL
    check(value[0] == 9 && value[1] == 9, HERE, "value written by a refusal");
    check_record(HERE, "pattern NULL", lw_value(fill, 4, 0, NULL, 0, value, 2), (lw_record){.free = 2});
    check(value[0] == 1 && value[1] == 1, HERE, "value is %u %u, expected 1 1", value[0], value[1]);
}

/* Random tables. */

/* The library against the reference on one random table and one random call. Gives the outcome. */
static uint32_t test_random_call(unsigned long number)
{
    static draft d;
    static uint8_t pattern[8192], value[1100];
    char name[64];

    make_table(&d);
    size_t rows = d.rows, bits = d.bits < sizeof pattern ? d.bits : sizeof pattern - 1;
    for (size_t i = one_in(3) ? 1 + below(2) : 0; i != 0; i--)
        damage(&d, some_refusal(11));

    size_t row = rows == 0 ? 0 : below(rows);
    if (one_in(20))
        row = one_in(4) ? SIZE_MAX - below(3) : rows + below(3);
    if (row < rows && d.width[row] == 0 && !one_in(4))
        row = 0; /* an equation is asked for now and then only */
    size_t width = row < rows ? d.width[row] : 0;

    for (size_t i = 0; i < bits; i++)
        pattern[i] = (uint8_t)below(2);
    if (bits != 0 && one_in(20))
        pattern[below(bits)] = (uint8_t)(2 + below(254));
    size_t pattern_len = !one_in(20) ? bits : one_in(2) || bits == 0 ? bits + 1 : bits - 1;
    size_t value_len = one_in(16) && width != 0 ? below(width) : width + (one_in(2) ? 0 : below(70));

    lw_record want = ref_value(d.t.numbers, d.t.len, row, pattern, pattern_len, value, value_len);
    snprintf(name, sizeof name, "random table %lu, row %zu", number, row);
    call(HERE, name, d.t.numbers, d.t.len, row, pattern, pattern_len, value_len, want, value);
    return want.outcome;
}

static void test_random(unsigned long tables)
{
    static const uint32_t outcomes[] = {0, 11, 12, 13, 14, 15, 40, 16, 17, 30, 31, 32};
    unsigned long seen[41] = {0};

    for (unsigned long i = 0; i < tables; i++)
        seen[test_random_call(i)]++;
    printf("%lu random tables:", tables);
    for (size_t i = 0; i < COUNT(outcomes); i++)
        printf(" %s%u %lu", i == 0 ? "outcome " : "", outcomes[i], seen[outcomes[i]]);
    printf("\n");
    for (size_t i = 0; i < COUNT(outcomes); i++)
        check(seen[outcomes[i]] != 0, HERE, "no random table has outcome %u", outcomes[i]);
}

const test_list tests = {
    .name = "value", .inputs = 20000,
    .groups = {
        {.name = "the header's constants", .run = test_constants},
        {.name = "values worked by hand", .run = test_values},
        {.name = "markers worked by hand", .run = test_markers},
        {.name = "every marker", .run = test_all_markers},
        {.name = "widths 1 to 1024", .run = test_widths},
        {.name = "limits", .run = test_limits},
        {.name = "chains of 500 rows and more", .run = test_chains},
        {.name = "refusals 11 to 17, 40, one by one", .run = test_table_refusals},
        {.name = "refusals 11 to 17, 40, two at once", .run = test_two_table_refusals},
        {.name = "refusals 30 to 32", .run = test_call_refusals},
        {.name = "NULL with length 0", .run = test_null},
        {.name = "random tables against the reference", .run_random = test_random},
    },
};
