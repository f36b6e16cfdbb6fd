/*
  test_forms.c -- tests of lw_normal_form

      test_forms [TABLES]

  First normal forms and refusals worked by hand. Then TABLES random tables
  (20000 if not given), on which the library is compared with reference.c, and
  a twentieth as many small ones, on which the normal forms of each two rows are
  compared with the rows' values under every pattern: test_forms_random.c. Last,
  how the time of a call grows. But for the last two, every call is made on
  guarded buffers, and its record and every number of every buffer are compared.

  The run fails too if some kind of random table does not occur; so there should
  be at least 1000.
*/

#define _POSIX_C_SOURCE 199309L /* clock_gettime */

#include "guard.h"
#include "refused_tables.h"
#include "test_forms.h"
#include "timing.h"

/* Calls and what they are compared with. */

void print_form(const char *name, const uint16_t *form, size_t pieces)
{
    printf("  %s:", name);
    for (size_t i = 0; i < pieces && i < 16; i++)
        printf(" (%u %u %u %u)", form[4 * i], form[4 * i + 1], form[4 * i + 2], form[4 * i + 3]);
    printf("%s\n", pieces > 16 ? " .." : "");
}

void call(where at, const char *name, const uint16_t *numbers, size_t len, size_t row,
          const uint16_t *content, size_t form_len, lw_record want, const uint16_t *want_form)
{
    unsigned long failed = checks_failed;
    guarded t = guard(numbers, len * sizeof *numbers);
    guarded f = guard(content, form_len * sizeof *content);
    static uint16_t start[4 * 16]; /* of the output, to be printed */

    lw_record got = lw_normal_form(guarded_buffer(&t), len, row, guarded_buffer(&f), form_len);
    if (want_form != NULL)
        guard_expect(&f, want_form, 4 * want.pieces * sizeof *want_form);
    if (form_len >= 4 * 16)
        memcpy(start, guarded_buffer(&f), sizeof start);
    check_record(at, name, got, want);
    guard_check(&t, at, "table");
    guard_check(&f, at, "form");
    if (checks_failed != failed && failed == 0) {
        printf("  row %zu, output of %zu numbers\n", row, form_len);
        print_table(numbers, len);
        if (want.outcome == 0 && got.outcome == 0) {
            print_form("form", start, got.pieces < 16 ? got.pieces : 16);
            print_form("expected", want_form, want.pieces);
        }
    }
}

/*
  The row has this width and this form: with an output of exactly 4096 numbers
  and with longer ones, whatever stands there before. Numbers that are all 0, 1
  or 2 look like pieces to go on from.
*/
static void accept(where at, const uint16_t *numbers, size_t len, size_t row, size_t width,
                   const uint16_t *form, size_t form_len)
{
    lw_record want = {.pieces = (uint32_t)(form_len / 4), .free = (uint32_t)width};
    uint16_t content[4096];

    size_t sum = 0; /* a slip in what is expected is found too */
    for (size_t i = 0; i < form_len; i += 4)
        sum += (size_t)form[i + 2] - form[i + 3] + 1;
    check(sum == width, at, "expected pieces have %zu bits, expected width %zu", sum, width);

    call(at, "accepted", numbers, len, row, NULL, 4096, want, form);
    call(at, "accepted, longer output", numbers, len, row, NULL, 4096 + 9, want, form);
    for (uint16_t k = 0; k < 3; k++) {
        for (size_t i = 0; i < 4096; i++)
            content[i] = k;
        call(at, "accepted, output of like numbers", numbers, len, row, content, 4096, want, form);
    }
}

/* The call is refused for its row or its output. */
static void refuse(where at, const uint16_t *numbers, size_t len, size_t row, size_t form_len, uint32_t number)
{
    call(at, "refused", numbers, len, row, NULL, form_len, (lw_record){.outcome = number}, NULL);
}

/* The table is refused, whether or not the row and the output are wrong as well. */
static void refuse_table(where at, const uint16_t *numbers, size_t len, uint32_t number, uint32_t row)
{
    lw_record want = {.outcome = number, .row = row};
    call(at, "refused", numbers, len, 0, NULL, 4096, want, NULL);
    call(at, "refused, row wrong too", numbers, len, SIZE_MAX, NULL, 4096, want, NULL);
    call(at, "refused, output wrong too", numbers, len, 0, NULL, 4095, want, NULL);
    call(at, "refused, all else wrong too", numbers, len, SIZE_MAX, NULL, 0, want, NULL);
}

#define ACCEPT(...)       accept(HERE, __VA_ARGS__)
#define REFUSE(...)       refuse(HERE, __VA_ARGS__)
#define REFUSE_TABLE(...) refuse_table(HERE, __VA_ARGS__)

/* The header's numbers are those of the specification. */
static void test_constants(void)
{
    static const constant constants[] = {
        CONSTANT(LW_PART, 2), CONSTANT(LW_PIECE_NUMBERS, 4), CONSTANT(LW_FORM_NUMBERS, 4096),
    };
    check_constants(HERE, constants, COUNT(constants));
}

/* Variables and fills. */
static void test_leaves(void)
{
    ACCEPT(TABLE(VARIABLE(8)), 0, 8, FORM(2, 0, 7, 0));
    ACCEPT(TABLE(VARIABLE(1)), 0, 1, FORM(2, 0, 0, 0));
    ACCEPT(TABLE(VARIABLE(1024)), 0, 1024, FORM(2, 0, 1023, 0));
    ACCEPT(TABLE(FILL(0, 1)), 0, 1, FORM(0, 0, 0, 0));
    ACCEPT(TABLE(FILL(1, 1)), 0, 1, FORM(1, 0, 0, 0));
    ACCEPT(TABLE(FILL(0, 3)), 0, 3, FORM(0, 0, 2, 0));
    ACCEPT(TABLE(FILL(1, 1024)), 0, 1024, FORM(1, 0, 1023, 0));

    /* Variables are numbered as they appear, whatever stands between them. A fill's variable is 0. */
    static const uint16_t between[] = {
        FILL(1, 2), VARIABLE(2), EQUATION(0, 1), VARIABLE(3), CUT(3, 0, 0), VARIABLE(1), FILL(1, 4),
    };
    ACCEPT(between, 28, 0, 2, FORM(ONES(2)));
    ACCEPT(between, 28, 1, 2, FORM(PART(0, 1, 0)));
    ACCEPT(between, 28, 3, 3, FORM(PART(1, 2, 0)));
    ACCEPT(between, 28, 4, 1, FORM(PART(1, 0, 0)));
    ACCEPT(between, 28, 5, 1, FORM(PART(2, 0, 0)));
    ACCEPT(between, 28, 6, 4, FORM(1, 0, 3, 0));

    /* Equations do not bear on normal forms. */
    ACCEPT(TABLE(VARIABLE(8), CUT(0, 6, 3), CUT(0, 4, 1), EQUATION(1, 2)), 1, 4, FORM(PART(0, 6, 3)));
    ACCEPT(TABLE(VARIABLE(8), CUT(0, 6, 3), CUT(0, 4, 1), EQUATION(1, 2)), 2, 4, FORM(PART(0, 4, 1)));
    ACCEPT(TABLE(VARIABLE(2), FILL(1, 2), EQUATION(0, 1), JOIN(0, 1)), 3, 4, FORM(PART(0, 1, 0), ONES(2)));

    /* Nor do line numbers, whether or not the equations count. */
    static const uint16_t lines[] = {
        VARIABLE(4), FILL(0, 2), LINE(0, 1, 7), CUT(0, 3, 2), LINE(3, 1, 7), FILL(1, 2), LINE(3, 5, 65535), JOIN(1, 3),
    };
    ACCEPT(lines, 32, 0, 4, FORM(PART(0, 3, 0)));
    ACCEPT(lines, 32, 3, 2, FORM(PART(0, 3, 2)));
    ACCEPT(lines, 32, 7, 4, FORM(ZEROS(2), PART(0, 3, 2)));
    REFUSE(lines, 32, 2, 4096, 30);
    REFUSE(lines, 32, 4, 4096, 30);
    REFUSE(lines, 32, 6, 4096, 30);

    /* Nor are sides of unequal width filled in their forms, whichever is the narrower. */
    ACCEPT(TABLE(VARIABLE(5), VARIABLE(2), EQUATION(0, 1)), 0, 5, FORM(PART(0, 4, 0)));
    ACCEPT(TABLE(VARIABLE(5), VARIABLE(2), EQUATION(0, 1)), 1, 2, FORM(PART(1, 1, 0)));
    ACCEPT(TABLE(VARIABLE(5), VARIABLE(2), EQUATION(1, 0), JOIN(1, 0)), 3, 7, FORM(PART(1, 1, 0), PART(0, 4, 0)));
}

/* Fills side by side. */
static void test_fills(void)
{
    /* One bit. */
    ACCEPT(TABLE(FILL(0, 2), FILL(0, 3), JOIN(0, 1)), 2, 5, FORM(0, 0, 4, 0));
    ACCEPT(TABLE(FILL(1, 2), FILL(1, 3), JOIN(0, 1)), 2, 5, FORM(1, 0, 4, 0));
    ACCEPT(TABLE(FILL(0, 1), FILL(0, 1), JOIN(0, 1)), 2, 2, FORM(ZEROS(2)));
    ACCEPT(TABLE(FILL(1, 4), JOIN(0, 0)), 1, 8, FORM(ONES(8)));
    ACCEPT(TABLE(FILL(1, 1023), FILL(1, 1), JOIN(0, 1)), 2, 1024, FORM(ONES(1024)));
    ACCEPT(TABLE(FILL(1, 1), FILL(1, 2), FILL(1, 4), JOIN(0, 1), JOIN(3, 2)), 4, 7, FORM(ONES(7)));
    ACCEPT(TABLE(FILL(1, 1), FILL(1, 2), FILL(1, 4), JOIN(1, 2), JOIN(0, 3)), 4, 7, FORM(ONES(7)));

    /* Different bits. */
    ACCEPT(TABLE(FILL(0, 2), FILL(1, 3), JOIN(0, 1)), 2, 5, FORM(ZEROS(2), ONES(3)));
    ACCEPT(TABLE(FILL(0, 2), FILL(1, 3), JOIN(1, 0)), 2, 5, FORM(ONES(3), ZEROS(2)));
    ACCEPT(TABLE(FILL(0, 1), FILL(1, 1), JOIN(0, 1), JOIN(2, 2)), 3, 4,
           FORM(ZEROS(1), ONES(1), ZEROS(1), ONES(1)));

    /* 0 11 joined with 1 00: the fills in the middle are one. */
    ACCEPT(TABLE(FILL(0, 1), FILL(1, 2), JOIN(0, 1), FILL(1, 1), FILL(0, 2), JOIN(3, 4), JOIN(2, 5)), 6, 6,
           FORM(ZEROS(1), ONES(3), ZEROS(2)));

    /* A variable between fills keeps them apart; so does one bit of the other kind. */
    ACCEPT(TABLE(FILL(1, 2), VARIABLE(1), JOIN(0, 1), JOIN(2, 0)), 3, 5, FORM(ONES(2), PART(0, 0, 0), ONES(2)));
    ACCEPT(TABLE(FILL(0, 4), FILL(1, 1), JOIN(0, 1), JOIN(2, 0)), 3, 9, FORM(ZEROS(4), ONES(1), ZEROS(4)));

    /* Fills that meet once what is between them is cut away: 11 x cut to 11, then 111. */
    ACCEPT(TABLE(FILL(1, 2), VARIABLE(4), JOIN(0, 1), CUT(2, 5, 4), FILL(1, 3), JOIN(3, 4)), 5, 5, FORM(ONES(5)));
    /* 11 x cut to 11 and the high bit of x. */
    ACCEPT(TABLE(FILL(1, 2), VARIABLE(4), JOIN(0, 1), CUT(2, 5, 3), FILL(1, 3), JOIN(3, 4)), 5, 6,
           FORM(ONES(2), PART(0, 3, 3), ONES(3)));

    /* A fill beside a part is not put to it, though the numbers of the pieces are in step. */
    ACCEPT(TABLE(VARIABLE(8), CUT(0, 7, 4), FILL(0, 4), JOIN(1, 2)), 3, 8, FORM(PART(0, 7, 4), ZEROS(4)));
    ACCEPT(TABLE(VARIABLE(8), CUT(0, 7, 4), FILL(1, 4), JOIN(1, 2)), 3, 8, FORM(PART(0, 7, 4), ONES(4)));
    ACCEPT(TABLE(VARIABLE(8), FILL(1, 4), JOIN(1, 0)), 2, 12, FORM(ONES(4), PART(0, 7, 0)));
    ACCEPT(TABLE(VARIABLE(8), FILL(0, 4), JOIN(1, 0)), 2, 12, FORM(ZEROS(4), PART(0, 7, 0)));
}

/* Markers are shown as fills. */
static void test_markers(void)
{
    /* The request's: 6 in 4 bits; joined with a fill 0 of 3; 3 in 2 bits has the form of a fill. */
    ACCEPT(TABLE(MARKER(6, 4)), 0, 4, FORM(0, 0, 0, 0, 1, 0, 1, 0, 0, 0, 0, 0));
    ACCEPT(TABLE(MARKER(6, 4), FILL(0, 3), JOIN(0, 1)), 2, 7, FORM(0, 0, 0, 0, 1, 0, 1, 0, 0, 0, 3, 0));
    ACCEPT(TABLE(MARKER(3, 2)), 0, 2, FORM(1, 0, 1, 0));

    /* The sync marker: 1010 1100 1110 0001. */
    ACCEPT(TABLE(MARKER(0xACE1, 16)), 0, 16, FORM(ONES(1), ZEROS(1), ONES(1), ZEROS(1), ONES(2), ZEROS(2), ONES(3),
                                                  ZEROS(4), ONES(1)));

    /* All bits alike, and one bit otherwise at either end. */
    for (uint16_t w = 1; w <= 16; w++) {
        uint16_t high = (uint16_t)(w - 1), all = (uint16_t)((1UL << w) - 1);
        ACCEPT(TABLE(MARKER(0, w)), 0, w, FORM(0, 0, high, 0));
        ACCEPT(TABLE(MARKER(all, w)), 0, w, FORM(1, 0, high, 0));
        if (w == 1)
            continue;
        ACCEPT(TABLE(MARKER(1, w)), 0, w, FORM(ZEROS(high), ONES(1)));
        ACCEPT(TABLE(MARKER((uint16_t)(all - 1), w)), 0, w, FORM(ONES(high), ZEROS(1)));
        ACCEPT(TABLE(MARKER((uint16_t)(1U << high), w)), 0, w, FORM(ONES(1), ZEROS(high)));
        ACCEPT(TABLE(MARKER(all >> 1, w)), 0, w, FORM(ZEROS(1), ONES(high)));
    }

    /* Beside fills and other markers, on either side: like bits are one piece, unlike ones are not. */
    ACCEPT(TABLE(MARKER(6, 4), FILL(0, 3), JOIN(1, 0)), 2, 7, FORM(ZEROS(4), ONES(2), ZEROS(1)));
    ACCEPT(TABLE(MARKER(6, 4), FILL(1, 3), JOIN(0, 1)), 2, 7, FORM(ZEROS(1), ONES(2), ZEROS(1), ONES(3)));
    ACCEPT(TABLE(MARKER(6, 4), FILL(1, 3), JOIN(1, 0)), 2, 7, FORM(ONES(3), ZEROS(1), ONES(2), ZEROS(1)));
    ACCEPT(TABLE(MARKER(6, 4), JOIN(0, 0)), 1, 8, FORM(ZEROS(1), ONES(2), ZEROS(2), ONES(2), ZEROS(1)));
    ACCEPT(TABLE(MARKER(1, 2), MARKER(2, 2), JOIN(0, 1)), 2, 4, FORM(ZEROS(1), ONES(2), ZEROS(1)));
    ACCEPT(TABLE(MARKER(1, 2), MARKER(2, 2), JOIN(1, 0)), 2, 4, FORM(ONES(1), ZEROS(2), ONES(1)));
    ACCEPT(TABLE(MARKER(7, 3), MARKER(3, 2), JOIN(0, 1)), 2, 5, FORM(ONES(5)));
    ACCEPT(TABLE(FILL(1, 1008), MARKER(65535, 16), JOIN(0, 1)), 2, 1024, FORM(ONES(1024)));

    /* Beside parts of a variable. */
    ACCEPT(TABLE(VARIABLE(8), MARKER(2, 2), JOIN(0, 1)), 2, 10, FORM(PART(0, 7, 0), ONES(1), ZEROS(1)));
    ACCEPT(TABLE(VARIABLE(8), MARKER(2, 2), JOIN(1, 0)), 2, 10, FORM(ONES(1), ZEROS(1), PART(0, 7, 0)));
    ACCEPT(TABLE(VARIABLE(8), MARKER(2, 2), CUT(0, 7, 4), CUT(0, 3, 0), JOIN(2, 1), JOIN(4, 3)), 5, 10,
           FORM(PART(0, 7, 4), ONES(1), ZEROS(1), PART(0, 3, 0)));

    /* A marker is no variable: those behind it keep their numbers. */
    ACCEPT(TABLE(MARKER(2, 2), VARIABLE(3), MARKER(2, 2), VARIABLE(2)), 1, 3, FORM(PART(0, 2, 0)));
    ACCEPT(TABLE(MARKER(2, 2), VARIABLE(3), MARKER(2, 2), VARIABLE(2)), 3, 2, FORM(PART(1, 1, 0)));

    /* Cut: 1010 1100 1110 0001 from bit to bit, and a cut of a cut. */
    static const struct { uint16_t high, low; size_t pieces; uint16_t form[4 * 6]; } cuts[] = {
        {15, 15, 1, {ONES(1)}},
        {14, 14, 1, {ZEROS(1)}},
        {0, 0, 1, {ONES(1)}},
        {15, 14, 2, {ONES(1), ZEROS(1)}},
        {11, 10, 1, {ONES(2)}},
        {10, 9, 2, {ONES(1), ZEROS(1)}},
        {4, 1, 1, {ZEROS(4)}},
        {3, 0, 2, {ZEROS(3), ONES(1)}},
        {11, 4, 4, {ONES(2), ZEROS(2), ONES(3), ZEROS(1)}},
        {12, 3, 5, {ZEROS(1), ONES(2), ZEROS(2), ONES(3), ZEROS(2)}},
    };
    for (size_t i = 0; i < COUNT(cuts); i++) {
        size_t width = (size_t)cuts[i].high - cuts[i].low + 1;
        ACCEPT(TABLE(MARKER(0xACE1, 16), CUT(0, cuts[i].high, cuts[i].low)), 1, width, cuts[i].form,
               4 * cuts[i].pieces);
        ACCEPT(TABLE(MARKER(0xACE1, 16), CUT(0, 15, 0), CUT(1, cuts[i].high, cuts[i].low)), 2, width, cuts[i].form,
               4 * cuts[i].pieces);
    }
    ACCEPT(TABLE(MARKER(0xACE1, 16), CUT(0, 11, 4), CUT(1, 5, 2)), 2, 4, FORM(ZEROS(2), ONES(2)));

    /* A cut through a join of it; cut in two and joined again; its halves crossed. */
    ACCEPT(TABLE(MARKER(6, 4), VARIABLE(4), JOIN(0, 1), CUT(2, 5, 2)), 3, 4, FORM(ONES(1), ZEROS(1), PART(0, 3, 2)));
    ACCEPT(TABLE(MARKER(6, 4), FILL(0, 4), JOIN(0, 1), CUT(2, 5, 2)), 3, 4, FORM(ONES(1), ZEROS(3)));
    ACCEPT(TABLE(MARKER(6, 4), CUT(0, 3, 2), CUT(0, 1, 0), JOIN(1, 2)), 3, 4, FORM(ZEROS(1), ONES(2), ZEROS(1)));
    ACCEPT(TABLE(MARKER(6, 4), CUT(0, 3, 2), CUT(0, 1, 0), JOIN(2, 1)), 3, 4, FORM(ONES(1), ZEROS(2), ONES(1)));

    /* The longest form that markers make: 0101 .. in 64 joins of one of 16 bits. */
    static uint16_t form[4 * 1024];
    table t = {.len = 0};
    add(&t, MARKER(0x5555, 16));
    for (size_t i = 0; i < 6; i++)
        add(&t, JOIN(i, i));
    for (uint16_t i = 0; i < 1024; i++)
        memcpy(form + 4 * i, (const uint16_t[]){i % 2, 0, 0, 0}, 8);
    ACCEPT(ALL(t), 6, 1024, form, 4096);
    ACCEPT(ALL(t), 5, 512, form, 2048);
}

/* The bits of a number, so many, high bit first, as the fills of a normal form. Gives how many they are. */
static size_t fills_of(size_t number, size_t width, uint16_t form[4 * 16])
{
    size_t pieces = 0;
    for (size_t j = width; j != 0; j--) {
        uint16_t bit = number >> (j - 1) & 1;
        if (pieces != 0 && form[4 * pieces - 4] == bit)
            form[4 * pieces - 2]++;
        else
            memcpy(form + 4 * pieces++, (const uint16_t[]){bit, 0, 0, 0}, 8);
    }
    return pieces;
}

/* Every number of up to 12 bits, and each 61st of up to 16. */
static void test_all_markers(void)
{
    uint16_t form[4 * 16];
    for (size_t w = 1; w <= 16; w++)
        for (size_t number = 0; number < (size_t)1 << w; number += w <= 12 ? 1 : 61) {
            table t = {.len = 0};
            add(&t, MARKER(number, w));
            lw_record want = {.pieces = (uint32_t)fills_of(number, w, form), .free = (uint32_t)w};
            call(HERE, "marker", ALL(t), 0, NULL, 4096, want, form);
        }
}

/* Parts of variables side by side. */
static void test_parts(void)
{
    /* Worked case 9: a variable of 8, cut 7 to 4 joined with cut 3 to 0. */
    static const uint16_t nine[] = {0, 8, 0, 0, 3, 0, 7, 4, 3, 0, 3, 0, 2, 1, 2, 0};
    ACCEPT(nine, 16, 0, 8, FORM(2, 0, 7, 0));
    ACCEPT(nine, 16, 1, 4, FORM(2, 0, 7, 4));
    ACCEPT(nine, 16, 2, 4, FORM(2, 0, 3, 0));
    ACCEPT(nine, 16, 3, 8, FORM(2, 0, 7, 0));

    /* A word cut at every place and joined again: in order one piece, crossed two. */
    for (size_t w = 2; w <= 8; w++)
        for (size_t at = 1; at < w; at++) {
            uint16_t high = (uint16_t)(w - 1), cut = (uint16_t)at, under = (uint16_t)(at - 1), wide = (uint16_t)w;
            ACCEPT(TABLE(VARIABLE(wide), CUT(0, high, cut), CUT(0, under, 0), JOIN(1, 2)), 3, w,
                   FORM(PART(0, high, 0)));
            ACCEPT(TABLE(VARIABLE(wide), CUT(0, high, cut), CUT(0, under, 0), JOIN(2, 1)), 3, w,
                   FORM(PART(0, under, 0), PART(0, high, cut)));
        }

    /* Parts that meet, away from the ends. */
    ACCEPT(TABLE(VARIABLE(8), CUT(0, 6, 4), CUT(0, 3, 2), JOIN(1, 2)), 3, 5, FORM(PART(0, 6, 2)));
    ACCEPT(TABLE(VARIABLE(8), CUT(0, 5, 5), CUT(0, 4, 4), JOIN(1, 2)), 3, 2, FORM(PART(0, 5, 4)));
    ACCEPT(TABLE(VARIABLE(8), CUT(0, 7, 6), CUT(0, 5, 3), CUT(0, 2, 0), JOIN(1, 2), JOIN(4, 3)), 5, 8,
           FORM(PART(0, 7, 0)));
    ACCEPT(TABLE(VARIABLE(8), CUT(0, 7, 6), CUT(0, 5, 3), CUT(0, 2, 0), JOIN(2, 3), JOIN(1, 4)), 5, 8,
           FORM(PART(0, 7, 0)));

    /* Parts that do not meet: a bit left out, a bit twice, bits in common. */
    ACCEPT(TABLE(VARIABLE(8), CUT(0, 7, 5), CUT(0, 3, 0), JOIN(1, 2)), 3, 7, FORM(PART(0, 7, 5), PART(0, 3, 0)));
    ACCEPT(TABLE(VARIABLE(8), CUT(0, 7, 7), CUT(0, 0, 0), JOIN(1, 2)), 3, 2, FORM(PART(0, 7, 7), PART(0, 0, 0)));
    ACCEPT(TABLE(VARIABLE(8), CUT(0, 7, 4), CUT(0, 4, 0), JOIN(1, 2)), 3, 9, FORM(PART(0, 7, 4), PART(0, 4, 0)));
    ACCEPT(TABLE(VARIABLE(8), CUT(0, 6, 3), CUT(0, 5, 1), JOIN(1, 2)), 3, 9, FORM(PART(0, 6, 3), PART(0, 5, 1)));
    ACCEPT(TABLE(VARIABLE(8), CUT(0, 6, 3), CUT(0, 4, 1), JOIN(1, 2)), 3, 8, FORM(PART(0, 6, 3), PART(0, 4, 1)));
    ACCEPT(TABLE(VARIABLE(8), CUT(0, 3, 3), JOIN(1, 1)), 2, 2, FORM(PART(0, 3, 3), PART(0, 3, 3)));

    /* Reversed order: low part first, and a word bit by bit from the low end. */
    ACCEPT(TABLE(VARIABLE(8), CUT(0, 2, 0), CUT(0, 6, 3), JOIN(1, 2)), 3, 7, FORM(PART(0, 2, 0), PART(0, 6, 3)));
    ACCEPT(TABLE(VARIABLE(2), CUT(0, 1, 1), CUT(0, 0, 0), JOIN(2, 1)), 3, 2, FORM(PART(0, 0, 0), PART(0, 1, 1)));
    ACCEPT(TABLE(VARIABLE(3), CUT(0, 0, 0), CUT(0, 1, 1), CUT(0, 2, 2), JOIN(1, 2), JOIN(4, 3)), 5, 3,
           FORM(PART(0, 0, 0), PART(0, 1, 1), PART(0, 2, 2)));

    /* A variable joined with itself. */
    ACCEPT(TABLE(VARIABLE(1), JOIN(0, 0)), 1, 2, FORM(PART(0, 0, 0), PART(0, 0, 0)));
    ACCEPT(TABLE(VARIABLE(2), JOIN(0, 0)), 1, 4, FORM(PART(0, 1, 0), PART(0, 1, 0)));
    ACCEPT(TABLE(VARIABLE(512), JOIN(0, 0)), 1, 1024, FORM(PART(0, 511, 0), PART(0, 511, 0)));
    ACCEPT(TABLE(VARIABLE(2), JOIN(0, 0), JOIN(1, 0)), 2, 6, FORM(PART(0, 1, 0), PART(0, 1, 0), PART(0, 1, 0)));

    /* Two variables: the last bit of one before the first of the next, and the other way round. */
    ACCEPT(TABLE(VARIABLE(3), VARIABLE(2), JOIN(0, 1)), 2, 5, FORM(PART(0, 2, 0), PART(1, 1, 0)));
    ACCEPT(TABLE(VARIABLE(3), VARIABLE(2), JOIN(1, 0)), 2, 5, FORM(PART(1, 1, 0), PART(0, 2, 0)));
    ACCEPT(TABLE(VARIABLE(1), VARIABLE(1), JOIN(0, 1)), 2, 2, FORM(PART(0, 0, 0), PART(1, 0, 0)));
    ACCEPT(TABLE(VARIABLE(3), VARIABLE(2), CUT(0, 0, 0), CUT(1, 1, 1), JOIN(2, 3)), 4, 2,
           FORM(PART(0, 0, 0), PART(1, 1, 1)));

    /* Two variables whose bit numbers are in step. */
    ACCEPT(TABLE(VARIABLE(8), VARIABLE(8), CUT(0, 7, 4), CUT(1, 3, 0), JOIN(2, 3)), 4, 8,
           FORM(PART(0, 7, 4), PART(1, 3, 0)));
    ACCEPT(TABLE(VARIABLE(8), VARIABLE(8), CUT(1, 7, 4), CUT(0, 3, 0), JOIN(2, 3)), 4, 8,
           FORM(PART(1, 7, 4), PART(0, 3, 0)));

    /* Parts that would meet, were there nothing between them. */
    ACCEPT(TABLE(VARIABLE(8), CUT(0, 7, 4), CUT(0, 3, 0), FILL(1, 1), JOIN(1, 3), JOIN(4, 2)), 5, 9,
           FORM(PART(0, 7, 4), ONES(1), PART(0, 3, 0)));
    ACCEPT(TABLE(VARIABLE(8), VARIABLE(8), CUT(0, 7, 4), CUT(0, 3, 0), JOIN(2, 1), JOIN(4, 3)), 5, 16,
           FORM(PART(0, 7, 4), PART(1, 7, 0), PART(0, 3, 0)));

    /* Joins of joins: what meets across the seams of four parts; x 0 and 0 x. */
    ACCEPT(TABLE(VARIABLE(8), CUT(0, 7, 6), CUT(0, 5, 4), CUT(0, 3, 2), CUT(0, 1, 0), JOIN(1, 2), JOIN(3, 4),
                 JOIN(5, 6)), 7, 8, FORM(PART(0, 7, 0)));
    ACCEPT(TABLE(VARIABLE(8), CUT(0, 7, 6), CUT(0, 5, 4), CUT(0, 3, 2), CUT(0, 1, 0), JOIN(1, 3), JOIN(2, 4),
                 JOIN(5, 6)), 7, 8, FORM(PART(0, 7, 6), PART(0, 3, 2), PART(0, 5, 4), PART(0, 1, 0)));
    ACCEPT(TABLE(VARIABLE(8), CUT(0, 7, 6), CUT(0, 5, 4), CUT(0, 3, 2), CUT(0, 1, 0), JOIN(4, 2), JOIN(3, 1),
                 JOIN(5, 6)), 7, 8, FORM(PART(0, 1, 0), PART(0, 5, 2), PART(0, 7, 6)));
    ACCEPT(TABLE(VARIABLE(3), FILL(0, 2), JOIN(0, 1), JOIN(1, 0), JOIN(2, 3)), 4, 10,
           FORM(PART(0, 2, 0), ZEROS(4), PART(0, 2, 0)));
    ACCEPT(TABLE(VARIABLE(3), FILL(0, 2), JOIN(0, 1), JOIN(1, 0), JOIN(3, 2)), 4, 10,
           FORM(ZEROS(2), PART(0, 2, 0), PART(0, 2, 0), ZEROS(2)));
}

/* Cuts through joins, cuts of cuts and cuts of fills. */
static void test_cuts(void)
{
    /* Every cut of a word of one piece. */
    for (uint16_t high = 0; high < 5; high++)
        for (uint16_t low = 0; low <= high; low++) {
            size_t w = (size_t)high - low + 1;
            ACCEPT(TABLE(VARIABLE(5), CUT(0, high, low)), 1, w, FORM(PART(0, high, low)));
            ACCEPT(TABLE(FILL(0, 5), CUT(0, high, low)), 1, w, FORM(0, 0, (uint16_t)(high - low), 0));
            ACCEPT(TABLE(FILL(1, 5), CUT(0, high, low)), 1, w, FORM(1, 0, (uint16_t)(high - low), 0));
        }

    /* Every cut of x of 3 bits joined with y of 2: the border is between bits 2 and 1. */
    static const struct { uint16_t high, low; size_t pieces; uint16_t form[8]; } cuts[] = {
        {4, 4, 1, {PART(0, 2, 2)}},
        {4, 3, 1, {PART(0, 2, 1)}},
        {4, 2, 1, {PART(0, 2, 0)}},
        {4, 1, 2, {PART(0, 2, 0), PART(1, 1, 1)}},
        {4, 0, 2, {PART(0, 2, 0), PART(1, 1, 0)}},
        {3, 3, 1, {PART(0, 1, 1)}},
        {3, 2, 1, {PART(0, 1, 0)}},
        {3, 1, 2, {PART(0, 1, 0), PART(1, 1, 1)}},
        {3, 0, 2, {PART(0, 1, 0), PART(1, 1, 0)}},
        {2, 2, 1, {PART(0, 0, 0)}},
        {2, 1, 2, {PART(0, 0, 0), PART(1, 1, 1)}},
        {2, 0, 2, {PART(0, 0, 0), PART(1, 1, 0)}},
        {1, 1, 1, {PART(1, 1, 1)}},
        {1, 0, 1, {PART(1, 1, 0)}},
        {0, 0, 1, {PART(1, 0, 0)}},
    };
    for (size_t i = 0; i < COUNT(cuts); i++)
        ACCEPT(TABLE(VARIABLE(3), VARIABLE(2), JOIN(0, 1), CUT(2, cuts[i].high, cuts[i].low)), 3,
               (size_t)cuts[i].high - cuts[i].low + 1, cuts[i].form, 4 * cuts[i].pieces);

    /* A cut through the seam of what is one piece. */
    ACCEPT(TABLE(FILL(1, 3), FILL(1, 2), JOIN(0, 1), CUT(2, 3, 1)), 3, 3, FORM(ONES(3)));
    ACCEPT(TABLE(VARIABLE(8), CUT(0, 7, 4), CUT(0, 3, 0), JOIN(1, 2), CUT(3, 5, 2)), 4, 4, FORM(PART(0, 5, 2)));
    ACCEPT(TABLE(VARIABLE(8), CUT(0, 7, 4), CUT(0, 3, 0), JOIN(1, 2), CUT(3, 4, 3)), 4, 2, FORM(PART(0, 4, 3)));

    /* The halves crossed: bits 3 to 0, then 7 to 4. */
    ACCEPT(TABLE(VARIABLE(8), CUT(0, 7, 4), CUT(0, 3, 0), JOIN(2, 1), CUT(3, 5, 2)), 4, 4,
           FORM(PART(0, 1, 0), PART(0, 7, 6)));

    /* A fill and a word, cut at the border, before and after it. */
    ACCEPT(TABLE(FILL(1, 4), VARIABLE(4), JOIN(0, 1), CUT(2, 7, 4)), 3, 4, FORM(ONES(4)));
    ACCEPT(TABLE(FILL(1, 4), VARIABLE(4), JOIN(0, 1), CUT(2, 6, 5)), 3, 2, FORM(ONES(2)));
    ACCEPT(TABLE(FILL(1, 4), VARIABLE(4), JOIN(0, 1), CUT(2, 6, 3)), 3, 4, FORM(ONES(3), PART(0, 3, 3)));
    ACCEPT(TABLE(FILL(1, 4), VARIABLE(4), JOIN(0, 1), CUT(2, 3, 0)), 3, 4, FORM(PART(0, 3, 0)));
    ACCEPT(TABLE(FILL(1, 4), VARIABLE(4), JOIN(0, 1), CUT(2, 2, 1)), 3, 2, FORM(PART(0, 2, 1)));

    /* Through two borders: x 00 y of 2 bits each, its joins nested either way. */
    ACCEPT(TABLE(VARIABLE(2), FILL(0, 2), VARIABLE(2), JOIN(0, 1), JOIN(3, 2), CUT(4, 4, 1)), 5, 4,
           FORM(PART(0, 0, 0), ZEROS(2), PART(1, 1, 1)));
    ACCEPT(TABLE(VARIABLE(2), FILL(0, 2), VARIABLE(2), JOIN(1, 2), JOIN(0, 3), CUT(4, 4, 1)), 5, 4,
           FORM(PART(0, 0, 0), ZEROS(2), PART(1, 1, 1)));
    ACCEPT(TABLE(VARIABLE(2), FILL(0, 2), VARIABLE(2), JOIN(1, 2), JOIN(0, 3), CUT(4, 3, 1)), 5, 3,
           FORM(ZEROS(2), PART(1, 1, 1)));

    /* Cuts of cuts: bits 6 to 1 of a variable, and of those 4 to 2, all, the ends. */
    ACCEPT(TABLE(VARIABLE(8), CUT(0, 6, 1), CUT(1, 4, 2)), 2, 3, FORM(PART(0, 5, 3)));
    ACCEPT(TABLE(VARIABLE(8), CUT(0, 6, 1), CUT(1, 5, 0)), 2, 6, FORM(PART(0, 6, 1)));
    ACCEPT(TABLE(VARIABLE(8), CUT(0, 6, 1), CUT(1, 5, 5)), 2, 1, FORM(PART(0, 6, 6)));
    ACCEPT(TABLE(VARIABLE(8), CUT(0, 6, 1), CUT(1, 0, 0)), 2, 1, FORM(PART(0, 1, 1)));
    ACCEPT(TABLE(VARIABLE(8), CUT(0, 6, 1), CUT(1, 4, 2), CUT(2, 1, 1)), 3, 1, FORM(PART(0, 4, 4)));
    ACCEPT(TABLE(VARIABLE(9), VARIABLE(8), CUT(1, 7, 2), CUT(2, 4, 1), CUT(3, 2, 1)), 4, 2, FORM(PART(1, 5, 4)));

    /* A cut and a cut of a cut that meet, and that do not. */
    ACCEPT(TABLE(VARIABLE(8), CUT(0, 6, 1), CUT(1, 5, 3), CUT(1, 2, 0), JOIN(2, 3)), 4, 6, FORM(PART(0, 6, 1)));
    ACCEPT(TABLE(VARIABLE(8), CUT(0, 6, 1), CUT(1, 2, 0), CUT(0, 7, 4), JOIN(3, 2)), 4, 7, FORM(PART(0, 7, 1)));
    ACCEPT(TABLE(VARIABLE(8), CUT(0, 6, 1), CUT(1, 3, 0), CUT(0, 7, 4), JOIN(3, 2)), 4, 8,
           FORM(PART(0, 7, 4), PART(0, 4, 1)));

    /* Cuts of a cut through a join: x2 x1 x0 y1, and of those bits 2 to 0, 1 to 0, 3 to 1 and 0. */
    ACCEPT(TABLE(VARIABLE(3), VARIABLE(2), JOIN(0, 1), CUT(2, 4, 1), CUT(3, 2, 0)), 4, 3,
           FORM(PART(0, 1, 0), PART(1, 1, 1)));
    ACCEPT(TABLE(VARIABLE(3), VARIABLE(2), JOIN(0, 1), CUT(2, 4, 1), CUT(3, 1, 0)), 4, 2,
           FORM(PART(0, 0, 0), PART(1, 1, 1)));
    ACCEPT(TABLE(VARIABLE(3), VARIABLE(2), JOIN(0, 1), CUT(2, 4, 1), CUT(3, 3, 1)), 4, 3, FORM(PART(0, 2, 0)));
    ACCEPT(TABLE(VARIABLE(3), VARIABLE(2), JOIN(0, 1), CUT(2, 4, 1), CUT(3, 0, 0)), 4, 1, FORM(PART(1, 1, 1)));

    /* What is between two parts cut away: x7 to x4, y, x3 to x0. */
    ACCEPT(TABLE(VARIABLE(8), VARIABLE(3), CUT(0, 7, 4), CUT(0, 3, 0), JOIN(2, 1), JOIN(4, 3), CUT(5, 10, 7),
                 CUT(5, 3, 0), JOIN(6, 7)), 8, 8, FORM(PART(0, 7, 0)));

    /* Cuts of fills, again cut and joined. */
    ACCEPT(TABLE(FILL(1, 8), CUT(0, 6, 3), CUT(1, 2, 1)), 2, 2, FORM(ONES(2)));
    ACCEPT(TABLE(FILL(1, 8), CUT(0, 6, 3), CUT(0, 7, 7), JOIN(1, 2)), 3, 5, FORM(ONES(5)));
    ACCEPT(TABLE(FILL(1, 8), CUT(0, 6, 3), FILL(0, 8), CUT(2, 1, 0), JOIN(1, 3)), 4, 6, FORM(ONES(4), ZEROS(2)));
}

/* Every width: a variable, a fill, and the cuts of all bits, of each end bit and of both halves, joined. */
static void test_widths(void)
{
    for (size_t w = 1; w <= 1024; w++) {
        uint16_t high = (uint16_t)(w - 1), half = (uint16_t)(w / 2);
        table t = {.len = 0};
        add(&t, VARIABLE(w));
        add(&t, FILL(1, w));
        add(&t, CUT(0, high, 0));
        add(&t, CUT(0, high, high));
        add(&t, CUT(0, 0, 0));
        ACCEPT(ALL(t), 0, w, FORM(PART(0, high, 0)));
        ACCEPT(ALL(t), 1, w, FORM(1, 0, high, 0));
        ACCEPT(ALL(t), 2, w, FORM(PART(0, high, 0)));
        ACCEPT(ALL(t), 3, 1, FORM(PART(0, high, high)));
        ACCEPT(ALL(t), 4, 1, FORM(PART(0, 0, 0)));
        if (w == 1)
            continue;
        add(&t, CUT(0, high, half));
        add(&t, CUT(0, (size_t)half - 1, 0));
        add(&t, JOIN(5, 6));
        add(&t, JOIN(6, 5));
        ACCEPT(ALL(t), 7, w, FORM(PART(0, high, 0)));
        ACCEPT(ALL(t), 8, w, FORM(PART(0, (uint16_t)(half - 1), 0), PART(0, high, half)));
    }
}

/* Long forms, many variables, deep tables. */
static void test_limits(void)
{
    static uint16_t form[4 * 1024];
    table t;

    /* A bit joined with itself ten times: 1024 pieces, and 1023 without its first or last bit. */
    t.len = 0;
    add(&t, VARIABLE(1));
    for (size_t i = 0; i < 10; i++)
        add(&t, JOIN(i, i));
    add(&t, CUT(10, 1022, 0));
    add(&t, CUT(10, 1023, 1));
    for (size_t i = 0; i < 1024; i++)
        memcpy(form + 4 * i, (const uint16_t[]){PART(0, 0, 0)}, 8);
    ACCEPT(ALL(t), 10, 1024, form, 4096);
    ACCEPT(ALL(t), 11, 1023, form, 4092);
    ACCEPT(ALL(t), 12, 1023, form, 4092);
    ACCEPT(ALL(t), 5, 32, form, 128);

    /* The same below 500 cuts of the bit: 1024 times 500 rows are passed. */
    t.len = 0;
    add(&t, VARIABLE(1));
    for (size_t i = 0; i < 500; i++)
        add(&t, CUT(i, 0, 0));
    for (size_t i = 500; i < 510; i++)
        add(&t, JOIN(i, i));
    ACCEPT(ALL(t), 510, 1024, form, 4096);
    t.numbers[0] = LW_FILL, t.numbers[1] = 1, t.numbers[2] = 1; /* the same of a fill is one piece */
    ACCEPT(ALL(t), 510, 1024, FORM(ONES(1024)));

    /* 0 1 joined with itself nine times: 1024 pieces of fills. */
    t.len = 0;
    add(&t, FILL(0, 1));
    add(&t, FILL(1, 1));
    add(&t, JOIN(0, 1));
    for (size_t i = 2; i < 11; i++)
        add(&t, JOIN(i, i));
    add(&t, CUT(11, 1022, 1)); /* 1 0 1 0 .. 1 0 */
    for (uint16_t i = 0; i < 1024; i++)
        memcpy(form + 4 * i, (const uint16_t[]){i % 2, 0, 0, 0}, 8);
    ACCEPT(ALL(t), 11, 1024, form, 4096);
    ACCEPT(ALL(t), 12, 1022, form + 4, 4088);

    /* A word of 255 bits in reverse, bit by bit: row 0, its bits in rows 1 to 255, joins from row 256 on. */
    t.len = 0;
    add(&t, VARIABLE(255));
    for (size_t i = 0; i < 255; i++)
        add(&t, CUT(0, i, i));
    add(&t, JOIN(1, 2));
    for (size_t i = 2; i < 255; i++)
        add(&t, JOIN(254 + i, i + 1));
    for (uint16_t i = 0; i < 255; i++)
        memcpy(form + 4 * i, (const uint16_t[]){PART(0, i, i)}, 8);
    ACCEPT(ALL(t), 509, 255, form, 4 * 255);

    /* The same in order: one piece. */
    t.len = 4 * 256;
    add(&t, JOIN(255, 254));
    for (size_t i = 2; i < 255; i++)
        add(&t, JOIN(254 + i, 255 - i));
    ACCEPT(ALL(t), 509, 255, FORM(PART(0, 254, 0)));

    /* 64 variables of 64 bits. */
    t.len = 0;
    for (size_t i = 0; i < 64; i++)
        add(&t, VARIABLE(64));
    add(&t, CUT(63, 62, 1));
    add(&t, JOIN(64, 63));
    for (uint16_t i = 0; i < 64; i++)
        ACCEPT(ALL(t), i, 64, FORM(PART(i, 63, 0)));
    ACCEPT(ALL(t), 64, 62, FORM(PART(63, 62, 1)));
    ACCEPT(ALL(t), 65, 126, FORM(PART(63, 62, 1), PART(63, 63, 0)));

    /* 64 variables of 16 bits, joined in order and then in reverse order: 64 pieces of 1024 bits. */
    t.len = 0;
    for (size_t i = 0; i < 64; i++)
        add(&t, VARIABLE(16));
    add(&t, JOIN(0, 1));
    for (size_t i = 2; i < 64; i++)
        add(&t, JOIN(62 + i, i)); /* rows 64 to 126 */
    add(&t, JOIN(63, 62));
    for (size_t i = 2; i < 64; i++)
        add(&t, JOIN(125 + i, 63 - i)); /* rows 127 to 189 */
    for (uint16_t i = 0; i < 64; i++)
        memcpy(form + 4 * i, (const uint16_t[]){PART(i, 15, 0)}, 8);
    ACCEPT(ALL(t), 126, 1024, form, 4 * 64);
    for (uint16_t i = 0; i < 64; i++)
        memcpy(form + 4 * i, (const uint16_t[]){PART(63 - i, 15, 0)}, 8);
    ACCEPT(ALL(t), 189, 1024, form, 4 * 64);

    /* 4 variables of 1024 bits: the middle of the last. */
    ACCEPT(TABLE(VARIABLE(1024), VARIABLE(1024), VARIABLE(1024), VARIABLE(1024), CUT(3, 1000, 24)), 4, 977,
           FORM(PART(3, 1000, 24)));

    /* 511 cuts, each of the row before: all of it; and one bit less each, in turn the high and the low one. */
    t.len = 0;
    add(&t, VARIABLE(1024));
    for (size_t i = 0; i < 511; i++)
        add(&t, CUT(i, 1023, 0));
    ACCEPT(ALL(t), 511, 1024, FORM(PART(0, 1023, 0)));
    t.len = 4;
    for (size_t i = 0; i < 511; i++)
        if (i % 2 == 0)
            add(&t, CUT(i, 1024 - i - 2, 0));
        else
            add(&t, CUT(i, 1024 - i - 1, 1));
    ACCEPT(ALL(t), 511, 513, FORM(PART(0, 767, 255))); /* 256 bits less at the high end, 255 at the low */
    ACCEPT(ALL(t), 1, 1023, FORM(PART(0, 1022, 0)));
    ACCEPT(ALL(t), 2, 1022, FORM(PART(0, 1022, 1)));

    /* 510 joins, with one bit more each, in turn a 1 on the right and the variable on the left. */
    t.len = 0;
    add(&t, VARIABLE(1));
    add(&t, FILL(1, 1));
    for (size_t i = 2; i < 512; i++)
        if (i % 2 == 0)
            add(&t, JOIN(i - 1, 1));
        else
            add(&t, JOIN(0, i - 1));
    for (size_t i = 0; i < 255; i++) /* of rows 3, 5, .., 511 */
        memcpy(form + 4 * i, (const uint16_t[]){PART(0, 0, 0)}, 8);
    memcpy(form + 4 * 255, (const uint16_t[]){ONES(256)}, 8);
    ACCEPT(ALL(t), 511, 511, form, 4 * 256);
}

/* Refusals 11 to 17 and 40. */
static void test_table_refusals(void)
{
    table t;

    t.len = 0;
    while (t.len < 2048)
        add(&t, FILL(1, 2));
    ACCEPT(ALL(t), 511, 2, FORM(ONES(2)));
    refuse_too_long(refuse_table);
    refuse_one_by_one(refuse_table);
    refuse_two_at_once(refuse_table);
    refuse_beyond_maximum(refuse_table);
}

/* Refusals 30 and 32, and both at once. */
static void test_call_refusals(void)
{
    static const uint16_t four[] = {VARIABLE(3), VARIABLE(2), CUT(0, 1, 0), EQUATION(1, 2)};
    const size_t len = COUNT(four);
    ACCEPT(four, len, 2, 2, FORM(PART(0, 1, 0)));

    /* 30: no such row, also where a product or a shorter number would wrap; or an equation. 30 before 32. */
    static const size_t absent[] = {
        3, 4, 5, 511, 512, 65535, 65536, (size_t)UINT32_MAX + 1,
        SIZE_MAX / 4 + 1, SIZE_MAX / 2 + 1, SIZE_MAX - 3, SIZE_MAX,
    };
    static const size_t lengths[] = {4096, 5000, 4095, 8, 0};
    for (size_t i = 0; i < COUNT(absent); i++)
        for (size_t j = 0; j < COUNT(lengths); j++)
            REFUSE(four, len, absent[i], lengths[j], 30);
    for (size_t j = 0; j < COUNT(lengths); j++) {
        REFUSE(four, 0, 0, lengths[j], 30);
        REFUSE(TABLE(VARIABLE(2), EQUATION(0, 0)), 1, lengths[j], 30);
    }

    /* 32: an output below 4096 numbers, however few the form needs; one of exactly 4096 is enough. */
    for (size_t form_len = 0; form_len < 4096; form_len++)
        REFUSE(four, len, 2, form_len, 32);
    REFUSE(TABLE(FILL(1, 1024)), 0, 4095, 32);
    table t = {.len = 0};
    add(&t, VARIABLE(1));
    for (size_t i = 0; i < 10; i++)
        add(&t, JOIN(i, i));
    REFUSE(ALL(t), 10, 4095, 32); /* 1024 pieces */
    REFUSE(ALL(t), 9, 2048, 32);  /* 512 pieces, which would fit */

    /* Long outputs, also of lengths that are short as 16-bit numbers. */
    static const size_t long_lengths[] = {4097, 4099, 4100, 8192, 65535, 65536, 65537, 65536 + 4095, 200000};
    for (size_t i = 0; i < COUNT(long_lengths); i++)
        call(HERE, "accepted, long output", four, len, 2, NULL, long_lengths[i],
             (lw_record){.pieces = 1, .free = 2}, (const uint16_t[]){PART(0, 1, 0)});

    /* A fault of the table comes before both, also behind the row asked for. */
    REFUSE_TABLE(TABLE(VARIABLE(3), VARIABLE(2), CUT(0, 1, 0), 6, 0, 0, 0), 12, 3);
    REFUSE_TABLE(TABLE(VARIABLE(3), VARIABLE(2), CUT(0, 1, 0), MARKER(4, 2)), 40, 3);
}

/* NULL with length 0 for each buffer. */
static void test_null(void)
{
    static const uint16_t fill[] = {FILL(1, 2)};
    static uint16_t form[4096];
    for (size_t i = 0; i < 4096; i++)
        form[i] = 9;

#define REFUSE_NULL(name, number, at, ...) \
    check_record(HERE, name, lw_normal_form(__VA_ARGS__), (lw_record){.outcome = (number), .row = (at)})
    REFUSE_NULL("all NULL", 30, 0, NULL, 0, 0, NULL, 0);
    REFUSE_NULL("all NULL, row SIZE_MAX", 30, 0, NULL, 0, SIZE_MAX, NULL, 0);
    REFUSE_NULL("table NULL", 30, 0, NULL, 0, 0, form, 4096);
    REFUSE_NULL("form NULL", 32, 0, fill, 4, 0, NULL, 0);
    REFUSE_NULL("form NULL, no such row", 30, 0, fill, 4, 1, NULL, 0);
    REFUSE_NULL("form NULL, table refused", 11, 512, fill, 3, 0, NULL, 0);
#undef REFUSE_NULL
    for (size_t i = 0; i < 4096; i++)
        if (!check(form[i] == 9, HERE, "form written by a refusal"))
            break;
}

/* Speed. */

/* The form of the last row of a table. */
static void make_form(const void *input)
{
    static uint16_t form[4096];
    const table *t = input;
    lw_normal_form(t->numbers, t->len, t->len / 4 - 1, form, 4096);
}

/* A variable of 1024 bits, and cuts of the row before, each by one bit less. */
static void make_chain(table *t, size_t rows)
{
    t->len = 0;
    add(t, VARIABLE(1024));
    for (size_t i = 1; i < rows; i++)
        add(t, CUT(i - 1, 1024 - i, 1));
}

/* The time grows with the rows passed, not with their square. */
static void test_speed(void)
{
    static table small, large;

    make_chain(&small, 64);
    make_chain(&large, 512);
    ACCEPT(ALL(small), 63, 961, FORM(PART(0, 1023, 63)));
    ACCEPT(ALL(large), 511, 513, FORM(PART(0, 1023, 511)));
    medians t = time_both(make_form, &small, &large);
    printf("a call on 64 rows of chained cuts: %.2f us, on 512 rows: %.2f us\n", 1e6 * t.small, 1e6 * t.large);
    printf("time for 512 rows of chained cuts / 64 rows: %.1f\n", t.large / t.small);
    check(t.large <= 16 * t.small, HERE, "512 rows take over 16 times as long as 64");
}

const test_list tests = {
    .name = "forms", .inputs = 20000,
    .groups = {
        {.name = "the header's constants", .run = test_constants},
        {.name = "variables and fills", .run = test_leaves},
        {.name = "fills side by side", .run = test_fills},
        {.name = "markers", .run = test_markers},
        {.name = "every marker of up to 12 bits", .run = test_all_markers},
        {.name = "parts side by side", .run = test_parts},
        {.name = "cuts", .run = test_cuts},
        {.name = "widths 1 to 1024", .run = test_widths},
        {.name = "long forms and deep tables", .run = test_limits},
        {.name = "refusals 11 to 17, 40", .run = test_table_refusals},
        {.name = "refusals 30 and 32", .run = test_call_refusals},
        {.name = "NULL with length 0", .run = test_null},
        {.name = "random tables against the reference", .run_random = test_random_forms},
        {.name = "the same value, the same form", .run_random = test_same_forms},
        {.name = "speed", .run = test_speed},
    },
};
