/*
  test_pieces.c -- tests of lw_solve_pieces

      test_pieces [TABLES]

  The call has to say and to leave what lw_solve does, number by number. So each
  table goes through both on guarded buffers of the same content, and the two
  records and every byte of the buffers and of the zones around them are compared;
  and the record and the answer's rows with those of the plain solver
  (plain_solver.c), which shares no code with either.

  The tables: worked by hand; words that repeat after 1 to 1023 bits; chains of
  turned words in both orders; single bits in odd order; fills, markers, line
  numbers and narrower sides; equations that cannot be met, by a bit of their first,
  a middle or their last slice; tables on either side of where the call gives up
  working in pieces; the tables of the benchmark; every sheet of crates/cases;
  refused tables; and TABLES random ones (100000 if not given) in nine families,
  some of them damaged (test_pieces_random.c).
*/

#include "test_pieces.h"

#include "answer_rows.h"
#include "guard.h"
#include "linkwords.h"
#include "made_table.h"
#include "piece_tables.h"
#include "plain_solver.h"
#include "reference.h"
#include "refused_tables.h"
#include "revised_tables.h"

enum { ANSWER_LEAST = 24576, WORK_LEAST = 16384 };

unsigned long outcomes[64];

/* Both calls. */

/* A buffer between two zones. There are many calls, so the memory is the same for all. */
enum { MOST = 2 * ANSWER_LEAST };

typedef struct {
    size_t size; /* of all of it, in bytes */
    _Alignas(16) unsigned char block[2 * ZONE + MOST * sizeof(uint16_t)];
} lent;

static uint16_t *buffer(lent *l)
{
    return (uint16_t *)(void *)(l->block + ZONE);
}

/* Puts bytes between zones: now such as nobody would expect, now zeros, now any that are alike; in both the same. */
static void lend(lent *a, lent *b, size_t len, size_t turn)
{
    static unsigned char unexpected[sizeof a->block];

    for (size_t i = 0; unexpected[0] == 0 && i < sizeof unexpected; i++)
        unexpected[sizeof unexpected - 1 - i] = (unsigned char)(0x80 | (i * 37 + 11));
    a->size = b->size = 2 * ZONE + len * sizeof(uint16_t);
    memcpy(a->block, unexpected, a->size);
    if (turn % 3 != 0)
        memset(buffer(a), turn % 3 == 1 ? 0 : (int)(turn % 256), len * sizeof(uint16_t));
    memcpy(b->block, a->block, a->size);
}

/* What is left in the one and around it is what is left in the other. */
static void check_alike(where at, const char *name, const lent *got, const lent *want)
{
    size_t i = 0;
    if (check(memcmp(got->block, want->block, got->size) == 0, at, "%s: not what lw_solve leaves", name))
        return;
    while (got->block[i] == want->block[i])
        i++;
    printf("  byte %ld of %zu is %u, after lw_solve %u\n", (long)i - ZONE, got->size - 2 * ZONE, got->block[i], want->block[i]);
}

lw_record solve_both(where at, const char *name, const uint16_t *numbers, size_t len, size_t answer_len,
                     size_t work_len)
{
    static lent answer, work, want_answer, want_work;
    static uint16_t rows[ANSWER_LEAST];
    static size_t turn;
    unsigned long failed = checks_failed;
    guarded t = guard(numbers, len * sizeof *numbers);

    lend(&answer, &want_answer, answer_len, turn);
    lend(&work, &want_work, work_len, turn++);
    lw_record want = lw_solve(guarded_buffer(&t), len, buffer(&want_answer), answer_len, buffer(&want_work), work_len);
    lw_record got = lw_solve_pieces(guarded_buffer(&t), len, buffer(&answer), answer_len, buffer(&work), work_len);
    lw_record plain = plain_call(numbers, len, answer_len, work_len, rows);
    check_record(at, name, got, want);
    check_record(at, "the plain solver", got, plain);
    check(plain.outcome != 2 || memcmp(buffer(&answer), rows, 6 * plain.pieces * sizeof *rows) == 0, at,
          "%s: the plain solver's rows are others", name);
    check_alike(at, "answer", &answer, &want_answer);
    check_alike(at, "work area", &work, &want_work);
    guard_check(&t, at, "table");
    if (checks_failed != failed && failed == 0) {
        printf("  %s, answer of %zu numbers, work area of %zu\n", name, answer_len, work_len);
        print_table(numbers, len);
    }
    outcomes[got.outcome < COUNT(outcomes) ? got.outcome : 0]++;
    return got;
}

/* The same with buffers just as long as they have to be. */
static lw_record solve(where at, const char *name, const draft *d)
{
    check(d->rows <= 512, at, "%s: %zu rows", name, d->rows); /* a slip in what is made is found too */
    return solve_both(at, name, ALL(d->t), ANSWER_LEAST, WORK_LEAST);
}

/* The table has this record. */
static void solve_as(where at, const char *name, const draft *d, lw_record want)
{
    check_record(at, name, solve(at, name, d), want);
}

/* Records in the order of their fields. */
#define ALWAYS(free)                      (lw_record){0, 0, 0, (uint32_t)(free), 0, 0}
#define NEVER(ties, row)                  (lw_record){1, 0, 0, 0, (uint32_t)(ties), (uint32_t)(row)}
#define SOLVED(pieces, fresh, free, ties) \
    (lw_record){2, (uint32_t)(pieces), (uint32_t)(fresh), (uint32_t)(free), (uint32_t)(ties), 0}

/* Worked by hand. */

/* The table has this record and these rows, written down by their first four numbers. */
static void accept(where at, const uint16_t *numbers, size_t len, lw_record want, const uint16_t *four, size_t four_len)
{
    static const size_t more[] = {0, 1, 9, 4096};
    static uint16_t six[ANSWER_LEAST], answer[ANSWER_LEAST], work[WORK_LEAST];

    check(four_len == 4 * (size_t)want.pieces, at, "expected rows of %zu numbers", four_len);
    add_homes(four, four_len / 4, six);
    for (size_t i = 0; i < COUNT(more); i++)
        for (size_t k = 0; k < COUNT(more); k++)
            check_record(at, "accepted",
                         solve_both(at, "worked by hand", numbers, len, ANSWER_LEAST + more[i], WORK_LEAST + more[k]), want);
    for (size_t i = 0; i < 3; i++)
        check_record(at, "memory", solve_both(at, "too short a buffer", numbers, len, ANSWER_LEAST - (i != 0),
                                              WORK_LEAST - (i != 1)), (lw_record){.outcome = 10});
    memset(work, 255, sizeof work);
    check_record(at, "by itself", lw_solve_pieces(numbers, len, answer, ANSWER_LEAST, work, WORK_LEAST), want);
    check(want.outcome != 2 || memcmp(answer, six, 6 * want.pieces * sizeof *six) == 0, at, "other rows");
}

#define ACCEPT(...) accept(HERE, __VA_ARGS__)
#define NO_ANSWER   NULL, 0

static void test_worked(void)
{
    /* Case 2: bits 7 to 3 of nine are bits 5 to 1; one bit more, and the pieces have two bits. */
    ACCEPT(TABLE(VARIABLE(9), CUT(0, 7, 3), CUT(0, 5, 1), EQUATION(1, 2)), SOLVED(9, 4, 4, 5),
           ANSWER(FRESH(0, 1, 0), FRESH(0, 1, 1), FRESH(0, 1, 2), FRESH(0, 1, 1), FRESH(0, 1, 2), FRESH(0, 1, 1),
                  FRESH(0, 1, 2), FRESH(0, 1, 1), FRESH(0, 1, 3)));
    ACCEPT(TABLE(VARIABLE(10), CUT(0, 8, 3), CUT(0, 6, 1), EQUATION(1, 2)), SOLVED(6, 3, 4, 6),
           ANSWER(FRESH(0, 1, 0), FRESH(0, 2, 1), FRESH(0, 2, 1), FRESH(0, 2, 1), FRESH(0, 2, 1), FRESH(0, 1, 2)));

    /* The running example of document 001, section 6. */
    ACCEPT(TABLE(VARIABLE(3), VARIABLE(4), VARIABLE(5), FILL(0, 4), JOIN(1, 2), CUT(4, 5, 4), JOIN(0, 5), JOIN(6, 3),
                 CUT(1, 2, 1), JOIN(8, 0), CUT(9, 4, 0), JOIN(10, 2), JOIN(11, 0), CUT(12, 10, 2), EQUATION(7, 13)),
           SOLVED(7, 3, 6, 6), ANSWER(ZEROS(0, 1), FRESH(0, 2, 0), FRESH(1, 3, 1), FRESH(1, 1, 2), FRESH(2, 1, 2),
                                      FRESH(2, 1, 2), ZEROS(2, 3)));

    /* Zeros in front and a fill of 0 behind them are one piece. */
    ACCEPT(TABLE(VARIABLE(8), VARIABLE(4), FILL(0, 2), JOIN(2, 1), EQUATION(0, 3)), SOLVED(3, 1, 4, 8),
           ANSWER(ZEROS(0, 4), FRESH(0, 4, 0), FRESH(1, 4, 0)));

    /* No rows, no equations, an equation that says nothing, one that cannot be met, and one bit. */
    ACCEPT(NULL, 0, ALWAYS(0), NO_ANSWER);
    ACCEPT(TABLE(VARIABLE(1024)), ALWAYS(1024), NO_ANSWER);
    ACCEPT(TABLE(VARIABLE(1024), EQUATION(0, 0)), ALWAYS(1024), NO_ANSWER);
    ACCEPT(TABLE(FILL(0, 9), FILL(1, 9), EQUATION(0, 1)), NEVER(0, 2), NO_ANSWER);
    ACCEPT(TABLE(VARIABLE(1), FILL(1, 1), EQUATION(0, 1)), SOLVED(1, 0, 0, 1), ANSWER(ONES(0, 1)));
    ACCEPT(TABLE(VARIABLE(1), VARIABLE(1), FILL(0, 1), FILL(1, 1), EQUATION(0, 1), EQUATION(1, 2), EQUATION(0, 3)),
           NEVER(2, 6), NO_ANSWER);

    /* A run beside a run of another variable: neither goes on in the other. */
    ACCEPT(TABLE(VARIABLE(2), VARIABLE(2), VARIABLE(4), JOIN(0, 1), EQUATION(2, 3)), SOLVED(4, 2, 4, 4),
           ANSWER(FRESH(0, 2, 0), FRESH(1, 2, 1), FRESH(2, 2, 0), FRESH(2, 2, 1)));
}

/* Words that repeat. */

/* A word of 1024 bits that repeats after so many: a period and a rest, again and again. */
static void test_periods(void)
{
    static draft d;
    char name[64];

    for (size_t p = 1; p < 1024; p++) {
        size_t times = 1024 / p, rest = 1024 % p;
        snprintf(name, sizeof name, "period %zu", p);
        clear(&d);
        variables(&d, 1, 1024);
        repeat(&d, 0, p);
        solve_as(HERE, name, &d, rest == 0 ? SOLVED(times, 1, p, 1024 - p) : SOLVED(2 * times + 1, 2, p, 1024 - p));
        clear(&d);
        make_overlaps_once(&d, p);
        solve(HERE, name, &d);
    }
    for (size_t p = 1; p < 1023; p++)
        for (size_t order = 0; order < 2; order++) {
            snprintf(name, sizeof name, "periods %zu and %zu", p + order, p + 1 - order);
            clear(&d);
            variables(&d, 1, 1024);
            repeat(&d, 0, p + order);
            repeat(&d, 0, p + 1 - order);
            if (2 * p <= 1024) /* then all bits are equal */
                solve_as(HERE, name, &d, SOLVED(1024, 1, 1, 1023));
            else
                solve(HERE, name, &d);
        }
    for (size_t p = 1; p < 1023; p += 7) {
        clear(&d);
        make_periods(&d, p);
        solve(HERE, "four words of two periods", &d);
        clear(&d);
        make_period_filled(&d, p);
        solve_as(HERE, "four words that repeat and are 0", &d, SOLVED(4, 0, 0, 4096));
        clear(&d);
        make_periods_never(&d, p);
        solve(HERE, "two periods, and then never", &d);
    }
}

/* Overlaps of parts: all widths and periods of a word of 40 bits, alone and behind another. */
static void test_overlaps(void)
{
    static draft d;

    for (size_t period = 1; period < 40; period++)
        for (size_t width = 1; period + width <= 40; width++)
            for (size_t low = 0; low + period + width <= 40; low += 1 + low / 3) {
                clear(&d);
                variables(&d, 1, 40);
                size_t a = part(&d, 0, low, width), b = part(&d, 0, low + period, width);
                equation(&d, a, b);
                solve(HERE, "an overlap", &d);
                repeat(&d, 0, 1 + (period * 5 + width) % 39);
                solve(HERE, "an overlap and a period", &d);
            }
}

/* Chains. */

/* How a chain ends: in free bits, in a word of fixed bits, or in two that cannot be met. */
enum { FREE, FIXED, BROKEN, ENDS };

/* Each word is the one before it turned; the equations from the first to the last or the other way round. */
static void chain(draft *d, size_t words, size_t at, bool down, int end)
{
    size_t next[64], width = 4096 / words < 1024 ? 4096 / words : 1024;

    clear(d);
    variables(d, words, width);
    for (size_t v = 0; v + 1 < words; v++)
        next[v] = at % width == 0 ? v : turned_at(d, v, at % width);
    size_t zeros = fill(d, 0, width), one = fill(d, 1, 1);
    if (end == BROKEN)
        equation(d, 0, zeros);
    for (size_t k = 1; k < words && d->equations < 62; k++) {
        size_t v = down ? words - k : k;
        equation(d, v, next[v - 1]);
    }
    if (end == FIXED)
        equation(d, words - 1, zeros);
    if (end == BROKEN)
        equation(d, part(d, words - 1, width / 2, 1), one);
}

static void test_chains(void)
{
    static draft d;
    char name[64];

    for (size_t words = 2; words <= 64; words++)
        for (size_t at = 0; at < 1024; at += at < 3 ? 1 : at / 2)
            for (int end = 0; end < ENDS; end++)
                for (int down = 0; down < 2; down++) {
                    snprintf(name, sizeof name, "%zu words turned at %zu, %s", words, at, down ? "down" : "up");
                    chain(&d, words, at, down, end);
                    solve(HERE, name, &d);
                }
}

/* Single bits. */

static void test_bits(void)
{
    static draft d;

    for (size_t bits = 1; bits <= 64; bits++) {
        clear(&d); /* against a word, */
        variables(&d, 3, 64);
        size_t x = scattered(&d, 0, bits);
        equation(&d, x, part(&d, 1, 64 - bits, bits));
        solve(HERE, "single bits against a word", &d);
        equation(&d, part(&d, 1, 0, bits), part(&d, 0, 0, bits)); /* and then the word whole, */
        solve(HERE, "single bits, then whole words", &d);
        equation(&d, part(&d, 2, 0, bits), x); /* and again by way of a third */
        equation(&d, fill(&d, 0, (bits + 1) / 2), part(&d, 2, 0, (bits + 1) / 2));
        solve(HERE, "single bits, then a fill", &d);

        clear(&d); /* against single bits in another order */
        variables(&d, 2, 64);
        size_t y = scattered(&d, 0, bits), z = scattered(&d, 1, bits);
        if (bits > 1)
            z = turned_at(&d, z, bits / 2);
        equation(&d, y, z);
        equation(&d, fill(&d, 1, 1), part(&d, y, bits / 2, 1));
        solve(HERE, "single bits against single bits", &d);
    }
}

/* Fills, markers, line numbers and narrower sides. */

static void test_sides(void)
{
    static draft d;
    static table revised, counting;

    /* Each width against 1024: a word, its own low bits, zeros before a word, a fill before and behind it. */
    for (size_t w = 1; w < 1024; w++) {
        clear(&d);
        variables(&d, 1, 1024);
        add_row(&d, w, VARIABLE(w));
        equation(&d, w % 2, 1 - w % 2);
        solve_as(HERE, "a narrower word", &d, SOLVED(3, 1, w, 1024));
        clear(&d);
        variables(&d, 1, 1024);
        equation(&d, 0, cut(&d, 0, w - 1, 0));
        solve_as(HERE, "its own low bits", &d, SOLVED(2, 1, w, 1024 - w));
        clear(&d);
        variables(&d, 1, 1024);
        add_row(&d, w, VARIABLE(w));
        size_t zeros = fill(&d, 0, (1024 - w + 1) / 2);
        equation(&d, join(&d, zeros, 1), 0);
        solve_as(HERE, "zeros before zeros", &d, SOLVED(3, 1, w, 1024));
        if (w < 1023) {
            size_t ones = fill(&d, 1, 1);
            equation(&d, join(&d, ones, join(&d, 1, zeros)), 0);
            solve(HERE, "a fill on either side", &d);
        }
    }

    /* Each marker of 5 bits, and some of 16, against words narrower and wider, behind a tie or before one. */
    for (size_t width = 1; width <= 20; width++)
        for (size_t value = 0; value < 40; value++) {
            size_t bits = value < 32 ? 5 : 16, number = value < 32 ? value : (value * 0x9E37U) & 0xFFFF;
            clear(&d);
            variables(&d, 2, width);
            size_t marker = add_row(&d, bits, MARKER(number, bits));
            if (value % 2 == 0)
                equation(&d, 0, 1);
            equation(&d, marker, 1);
            if (value % 2 != 0)
                equation(&d, 1, 0);
            solve(HERE, "a marker", &d);
        }

    for (size_t i = 0; i < REVISED_CASES; i++) {
        make_revised(&revised_cases[i], &revised, &counting);
        check_record(HERE, revised_cases[i].name,
                     solve_both(HERE, revised_cases[i].name, ALL(revised), ANSWER_LEAST, WORK_LEAST), revised_cases[i].want);
        solve_both(HERE, "counting equations alone", ALL(counting), ANSWER_LEAST, WORK_LEAST);
    }

    /* Line numbers on equations of long words: all different, and each twice. */
    for (size_t lines = 64; lines != 0; lines /= 2) {
        clear(&d);
        seed = 20240229;
        make_rotated(&d, 1024);
        for (size_t r = 0, e = 0; r < d.rows; r++)
            if (d.t.numbers[4 * r] == LW_EQUATION)
                d.t.numbers[4 * r + 3] = (uint16_t)(1 + e++ % lines);
        solve(HERE, "turned words with line numbers", &d);
    }
}

/* Nevers. */

/* A word's pieces, so many of this width, the low one first, with a fill in the place of one of them unless that is NONE. */
static size_t pieces_of(draft *d, size_t word, size_t pieces, size_t width, size_t at, size_t bit)
{
    size_t x = NONE;
    for (size_t i = 0; i < pieces; i++) {
        size_t p = i == at ? fill(d, bit, width) : part(d, word, i * width, width);
        x = x == NONE ? p : join(d, x, p);
    }
    return x;
}

/* A bit of a word is this one. */
static void fix(draft *d, size_t word, size_t bit, size_t value)
{
    size_t b = part(d, word, bit, 1);
    equation(d, b, fill(d, value, 1));
}

/* Equations of many slices that cannot be met, by a bit of the first slice, of a middle one and of the last. */
static void test_nevers(void)
{
    static const size_t counts[] = {1, 2, 3, 4, 7, 16, 64, 100};
    static draft d;

    for (size_t i = 0; i < COUNT(counts); i++)
        for (size_t where_in = 0; where_in < 3; where_in++)
            for (size_t place = 0; place < 3; place++) {
                size_t count = counts[i], width = 1024 / count;
                size_t slice = where_in == 0 ? 0 : where_in == 1 ? count / 2 : count - 1;
                size_t bit = slice * width + (place == 0 ? width - 1 : place == 1 ? width / 2 : 0);

                clear(&d); /* by bits that were fixed before; with a tie in front, whose number stays */
                variables(&d, 2, 1024);
                size_t a = pieces_of(&d, 0, count, width, NONE, 0), b = pieces_of(&d, 1, count, width, NONE, 0);
                fix(&d, 0, bit, 1);
                fix(&d, 1, bit, 0);
                equation(&d, a, b);
                solve_as(HERE, "never by fixed bits", &d, NEVER(2, d.rows - 1));

                clear(&d); /* by a fill against a fill, where all else is equal already */
                variables(&d, 2, 1024);
                equation(&d, 0, 1);
                a = pieces_of(&d, 0, count, width, slice, 1);
                b = pieces_of(&d, 1, count, width, slice, 0);
                equation(&d, place == 1 ? b : a, place == 1 ? a : b);
                equation(&d, 0, 0);
                solve_as(HERE, "never by a fill", &d, NEVER(1024, d.rows - 2));

                clear(&d); /* by way of a third word, turned, and of equations behind it that are not reached */
                variables(&d, 3, 1024);
                equation(&d, 2, turned_at(&d, 0, 333));
                fix(&d, 2, (bit + 691) % 1024, 1);
                fix(&d, 1, bit, 0);
                a = pieces_of(&d, 0, count, width, NONE, 0);
                b = pieces_of(&d, 1, count, width, NONE, 0);
                equation(&d, a, b);
                size_t row = d.rows - 1;
                equation(&d, 0, 1);
                solve_as(HERE, "never by way of a third word", &d, NEVER(1026, row));
            }
}

/* Giving up. */

/*
  A step is worth 8 pairs, and 4096 of them are taken for nothing: a word of so many
  bits that repeats after a few bits is on one side or the other, at some width just
  so, with one equation or with more. What follows is taken or not, and nothing of it
  may be seen.
*/
static void test_giving_up(void)
{
    static draft d;
    static const size_t periods[] = {1, 2, 3, 5, 8};

    for (size_t i = 0; i < COUNT(periods); i++)
        for (size_t width = periods[i] + 1; width <= 1024; width += i == 0 ? 1 : 1 + periods[i] / 2) {
            size_t p = periods[i];
            clear(&d);
            variables(&d, 3, width);
            repeat(&d, 0, p);
            solve(HERE, "a word that repeats", &d);
            repeat(&d, 1, p);
            repeat(&d, 2, p);
            solve(HERE, "three words that repeat", &d);
            size_t behind = d.rows;
            equation(&d, 0, 1);
            equation(&d, 1, 2);
            solve(HERE, "three words that repeat, and are equal", &d);
            size_t zero = fill(&d, 0, 1), one = fill(&d, 1, 1);
            equation(&d, part(&d, 0, width - 1, 1), zero);
            equation(&d, part(&d, 2, 0, 1), one);
            solve(HERE, "and never, perhaps", &d);
            d.t.numbers[4 * behind] = LW_FILL, d.t.numbers[4 * behind + 1] = 0, d.t.numbers[4 * behind + 2] = 1;
            solve(HERE, "and never or not", &d);
        }
    for (size_t words = 1; words <= 4; words++) /* single bits of a word against another's, one more in each table */
        for (size_t bits = 1; bits <= 120 / words; bits++) {
            clear(&d);
            variables(&d, words + 1, 1000);
            for (size_t v = 0; v < words; v++)
                equation(&d, scattered(&d, v, bits), part(&d, v + 1, 7, bits));
            while (d.rows + 2 <= 512 && d.equations < 64)
                equation(&d, words, d.equations % 2 == 0 ? 0 : words / 2);
            solve(HERE, "single bits, and then whole words", &d);
        }
}

/* The tables of the benchmark. */

static void test_made(void)
{
    static const struct {
        const char *name;
        void (*make)(draft *, size_t);
        size_t sizes[8]; /* up to the first 0 behind the first */
    } made[] = {
        {"whole", make_whole, {4, 8, 16, 32, 64}},
        {"fields", make_fields, {1, 2, 4, 8, 16, 64, 256}},
        {"slots", make_slots, {1, 2, 4, 8, 16, 64, 256}},
        {"rotated", make_rotated, {32, 64, 128, 256, 512, 1024}},
        {"shifted", make_shifted, {1, 2, 333, 512, 1023}},
        {"filled", make_filled, {1, 2, 100, 500, 900, 1023, 1024}},
        {"overlaps", make_overlaps, {1, 2, 5, 16, 33, 100, 300, 512}},
        {"periods", make_periods, {1, 2, 7, 30, 100, 400, 1000, 1022}},
        {"period turned", make_period_turned, {1, 2, 5, 37, 100, 512, 1000}},
        {"chain down", make_chain_down, {4, 5, 16, 33, 64}},
        {"chain turned", make_chain_turned, {4, 5, 16, 33, 64}},
        {"chain wide", make_chain_wide, {1, 2, 21, 32, 63}},
        {"straddled", make_straddled, {4, 8, 16, 32, 64}},
        {"anywhere", make_anywhere, {0}},
        {"scattered", make_scattered, {0}},
        {"scattered on both sides", make_scattered_both, {0}},
        {"scattered once", make_scattered_once, {0}},
        {"reversed", make_reversed, {0}},
    };
    static draft d;

    for (size_t i = 0; i < COUNT(made); i++)
        for (size_t k = 0; k < COUNT(made[i].sizes) && (k == 0 || made[i].sizes[k] != 0); k++)
            for (uint64_t begin = 20240229; begin < 20240239; begin++) {
                seed = begin;
                clear(&d);
                made[i].make(&d, made[i].sizes[k]);
                solve(HERE, made[i].name, &d);
            }
}

/* Sheets. */

/* Every sheet of the crate cases that is read has a table. */
static void test_cases(void)
{
    static uint8_t sheet[LW_MAX_SHEET + 1];
    static uint16_t numbers[LW_TABLE_NUMBERS];
    unsigned long sheets = 0, tables = 0;
    char name[256], path[512];

    FILE *names = fopen(CASES "/args", "r");
    if (!check(names != NULL, HERE, CASES "/args cannot be read"))
        return;
    while (fscanf(names, "%255s", name) == 1) {
        snprintf(path, sizeof path, CASES "/data/%s", name);
        FILE *file = fopen(path, "rb");
        if (!check(file != NULL, HERE, "%s cannot be read", path))
            continue;
        size_t len = fread(sheet, 1, sizeof sheet, file);
        fclose(file);
        sheets++;
        lw_record read = lw_read_sheet(sheet, len, numbers, LW_TABLE_NUMBERS);
        if (read.outcome != LW_ACCEPTED)
            continue;
        tables++;
        solve_both(HERE, name, numbers, 4 * (size_t)read.pieces, ANSWER_LEAST, WORK_LEAST);
        solve_both(HERE, name, numbers, 4 * (size_t)read.pieces, ANSWER_LEAST + 6, WORK_LEAST + 5);
    }
    fclose(names);
    printf("%lu sheets, %lu of them with a table\n", sheets, tables);
    check(tables >= 300, HERE, "there are too few sheets");
}

/* Refusals. */

static void refuse_table(where at, const uint16_t *numbers, size_t len, uint32_t number, uint32_t row)
{
    lw_record want = {.outcome = number, .row = row}, memory = {.outcome = 10};
    check_record(at, "refused", solve_both(at, "refused", numbers, len, ANSWER_LEAST, WORK_LEAST), want);
    check_record(at, "refused", solve_both(at, "refused", numbers, len, ANSWER_LEAST + 9, 2 * WORK_LEAST), want);
    check_record(at, "memory", solve_both(at, "refused", numbers, len, ANSWER_LEAST - 1, WORK_LEAST), memory);
    check_record(at, "memory", solve_both(at, "refused", numbers, len, ANSWER_LEAST, WORK_LEAST - 1), memory);
    check_record(at, "memory", solve_both(at, "refused", numbers, len, 0, 0), memory);
}

static void test_refusals(void)
{
    refuse_too_long(refuse_table);
    refuse_one_by_one(refuse_table);
    refuse_two_at_once(refuse_table);
    refuse_beyond_maximum(refuse_table);
    check_record(HERE, "all NULL", lw_solve_pieces(NULL, 0, NULL, 0, NULL, 0), (lw_record){.outcome = 10});
}

/* Each outcome was had. */
static void test_outcomes(void)
{
    static const unsigned seen[] = {0, 1, 2, 10, 11, 12, 13, 14, 15, 40, 16, 17};

    check_outcomes(HERE, outcomes, COUNT(outcomes), seen, COUNT(seen));
}

const test_list tests = {
    .name = "pieces", .inputs = 100000,
    .groups = {
        {.name = "worked by hand", .run = test_worked},
        {.name = "words that repeat", .run = test_periods},
        {.name = "overlapping parts", .run = test_overlaps},
        {.name = "chains of turned words", .run = test_chains},
        {.name = "single bits in odd order", .run = test_bits},
        {.name = "fills, markers, lines, narrower sides", .run = test_sides},
        {.name = "never by a slice", .run = test_nevers},
        {.name = "on either side of giving up", .run = test_giving_up},
        {.name = "the benchmark's tables", .run = test_made},
        {.name = "the sheets of cases", .run = test_cases},
        {.name = "refusals", .run = test_refusals},
        {.name = "random tables", .run_random = test_random},
        {.name = "outcomes", .run = test_outcomes},
    },
};
