/*
  test_pattern.c -- tests of lw_make_pattern

      test_pattern [TABLES]

  First patterns worked by hand, each way to break the form of an answer table by
  itself, and the order of the refusals. Then answer tables that are not the
  table's own, and refused tables and work areas: test_pattern_other.c. Then
  TABLES random answer tables (60000 if not given), with tables made for them:
  test_pattern_random.c. Last random tables with equations, which lw_solve solves:
  test_pattern_solved.c. Every call is made on guarded buffers, and its record and
  every byte of every buffer are compared.

  The run fails too if some kind of random table is missing; so there should be
  at least 20000.
*/

#include "guard.h"
#include "large_table.h"
#include "test_pattern.h"

void put(answer_table *a, size_t variable, size_t kind, size_t width, size_t fresh)
{
    uint16_t *n = a->numbers + a->len;
    n[0] = (uint16_t)variable, n[1] = (uint16_t)kind, n[2] = (uint16_t)width, n[3] = (uint16_t)fresh;
    a->len += 4;
}

void put_six(answer_table *a, size_t variable, size_t kind, size_t width, size_t fresh)
{
    put(a, variable, kind, width, fresh);
    a->len += 2;
}

void close_rows(answer_table *a)
{
    set_homes(a->numbers, a->len / 6);
}

bool make_table_of(const uint16_t *answer, size_t len, table *t)
{
    size_t rows = len / 6, bits[64] = {0}, variables = rows == 0 ? 0 : answer[len - 6] + 1U;

    if (2 * rows + variables > 512)
        return false;
    t->len = 0;
    for (size_t r = 0; r < rows; r++)
        bits[answer[6 * r]] += answer[6 * r + 2];
    for (size_t v = 0; v < variables; v++)
        add(t, VARIABLE(bits[v]));
    for (size_t r = 0, v = 0; v < variables; v++) {
        size_t side = SIZE_MAX;
        for (; r < rows && answer[6 * r] == v; r++) {
            const uint16_t *n = answer + 6 * r;
            size_t part = t->len / 4;
            if (n[1] == LW_FRESH)
                add(t, CUT(n[4], n[5], n[5] + 1U - n[2]));
            else
                add(t, FILL(n[1], n[2]));
            if (side != SIZE_MAX)
                add(t, JOIN(side, part));
            side = t->len / 4 - 1;
        }
        add(t, EQUATION(v, side));
    }
    return true;
}

/* Calls and what they are compared with. */

void print_answer(const uint16_t *answer, size_t len)
{
    printf("  variable kind width fresh home high, %zu numbers:", len);
    for (size_t i = 0; i < len && i < 144; i++)
        printf("%s%u%s", i % 6 == 0 ? " (" : " ", answer[i], i % 6 == 5 ? ")" : "");
    printf("%s\n", len > 144 ? " .." : "");
}

/* The buffers of a call, which are used again by the next one where that has one of the same length. */

enum { TABLE_LENT, ANSWER_LENT, FRESH_LENT, PATTERN_LENT, LENT };

static guarded *buffer_of(size_t which, const void *content, size_t size)
{
    static guarded buffers[LENT];
    guarded *g = &buffers[which];

    if (g->block == NULL || g->size != size + 2 * ZONE) {
        free(g->block);
        free(g->kept);
        *g = guard(content, size);
    } else if (content != NULL) {
        guard_put(g, content, size);
    } else { /* other bytes than in any pattern */
        memset(g->block + ZONE, 0xCB, size);
        memset(g->kept + ZONE, 0xCB, size);
    }
    return g;
}

/* The work area of a length. */
static guarded *area_of(size_t len)
{
    static guarded areas[8];
    static size_t lens[COUNT(areas)], made;
    size_t i = 0;

    while (i < made && lens[i] != len)
        i++;
    if (i == COUNT(areas)) {
        printf("too many lengths of work areas\n");
        exit(1);
    }
    if (i == made) {
        areas[made] = guard(NULL, len * sizeof(uint16_t));
        lens[made++] = len;
    }
    return &areas[i];
}

/* Numbers none of which is 0. */
static void put_noise(guarded *area, size_t len)
{
    static uint16_t noise[LONG_AREA + 64];
    for (size_t i = COUNT(noise); noise[0] == 0 && i != 0; i--)
        noise[i - 1] = (uint16_t)(random_number() | 1);
    guard_put(area, noise + below(64), len * sizeof *noise);
}

void call(where at, const char *name, const lent *in, lw_record want, const uint8_t *want_pattern)
{
    static const uint16_t zeros[LONG_AREA];
    unsigned long failed = checks_failed;
    guarded *t = buffer_of(TABLE_LENT, in->table, in->table_len * sizeof *in->table);
    guarded *a = buffer_of(ANSWER_LENT, in->answer, in->answer_len * sizeof *in->answer);
    guarded *f = buffer_of(FRESH_LENT, in->fresh, in->fresh_len);
    guarded *p = buffer_of(PATTERN_LENT, in->content, in->pattern_len), *w = area_of(in->work_len);

    if (!in->used)
        put_noise(w, in->work_len);
    lw_record got = lw_make_pattern(guarded_buffer(t), in->table_len, guarded_buffer(a), in->answer_len,
                                    guarded_buffer(f), in->fresh_len, guarded_buffer(p), in->pattern_len,
                                    guarded_buffer(w), in->work_len);
    if (want.outcome == 0)
        guard_expect(p, want_pattern, want.free);
    if (want.outcome == 0 || want.outcome == 46 || want.outcome == 34 || want.outcome == 32)
        guard_expect(w, zeros, in->work_len * sizeof *zeros);
    check_record(at, name, got, want);
    guard_compare(t, at, "table");
    guard_compare(a, at, "answer table");
    guard_compare(f, at, "fresh bytes");
    guard_compare(p, at, "pattern");
    guard_compare(w, at, "work area");
    if (checks_failed != failed && failed == 0) {
        printf("  %s, %zu fresh bytes, output of %zu bytes, work area of %zu numbers\n", name, in->fresh_len,
               in->pattern_len, in->work_len);
        print_table(in->table, in->table_len);
        print_answer(in->answer, in->answer_len);
    }
}

void call_both(where at, const char *name, lent in, lw_record want, const uint8_t *want_pattern)
{
    in.work_len = AREA;
    call(at, name, &in, want, want_pattern);
    in.work_len = LONG_AREA;
    call(at, name, &in, want, want_pattern);
}

/* Bytes of a length, all zeros but for one place. */
static const uint8_t *zeros_but(size_t len, size_t place, uint8_t byte)
{
    static uint8_t bytes[LONG];
    memset(bytes, 0, len);
    if (place < len)
        bytes[place] = byte;
    return bytes;
}

/* Fresh bytes of another number, or with one above 1: 34, also where the output is too short. */
static void refuse_fresh(where at, lent in, size_t bits)
{
    static const uint8_t above[] = {2, 3, 128, 254, 255};
    static uint8_t bytes[LONG];
    const size_t right = in.fresh_len, others[] = {0, right / 2, right - 1, right + 1, right + 2, bits, bits + 1, BITS,
                                                   65535, 65536 + right};
    const size_t places[] = {0, right / 3, right / 2, right - 1};

    memset(bytes, 0, sizeof bytes);
    if (right != 0)
        memcpy(bytes, in.fresh, right);
    in.fresh = bytes;
    for (size_t i = 0; i < 2 * COUNT(others); i++) {
        in.fresh_len = others[i / 2];
        in.pattern_len = i % 2 == 0 ? bits + 3 : 0;
        if (in.fresh_len <= LONG && in.fresh_len != right) /* none less one is far above LONG */
            call_both(at, "other number of fresh bytes", in, REFUSED(34), NULL);
    }
    in.fresh_len = right;
    for (size_t i = 0; i < COUNT(places) * sizeof above && right != 0; i++) {
        size_t place = places[i % COUNT(places)];
        uint8_t kept = bytes[place];
        bytes[place] = above[i / COUNT(places)];
        in.pattern_len = bits - i % 2;
        call_both(at, "a fresh byte above 1", in, REFUSED(34), NULL);
        bytes[place] = kept;
    }
    bytes[right] = 2;
    in.fresh_len = right + 1;
    call_both(at, "a fresh byte too many, above 1", in, REFUSED(34), NULL);
}

/*
  The answer table, rows of six numbers, is the table's own and gives this
  pattern with these fresh bytes: in an output of exactly its length and in longer
  ones, whatever stands there before. Other fresh bytes are refused 34, a shorter
  output is refused 32.
*/
static void accept_rows(where at, lent in, const uint8_t *pattern, size_t bits)
{
    static uint8_t content[LONG];
    static uint16_t area[AREA];
    static const uint8_t likes[] = {0, 1, 2, 255};
    const size_t longer[] = {bits, bits + 1, bits + 2, bits + 9, BITS + 1, 65535, 65536, 65536 + bits};
    const size_t shorter[] = {bits - 1, bits / 2, 0};
    lw_record want = {.free = (uint32_t)bits};

    /* A slip in what is expected is found too. */
    memset(content, 9, bits);
    check_record(at, "plain pattern maker",
                 plain_make_pattern(in.table, in.table_len, in.answer, in.answer_len, in.fresh, in.fresh_len, content,
                                    bits, area, AREA), want);
    check(memcmp(content, pattern, bits) == 0, at, "the plain pattern maker's pattern is another");

    for (size_t i = 0; i < COUNT(longer); i++) {
        in.pattern_len = longer[i];
        call_both(at, "accepted", in, want, pattern);
    }
    in.pattern_len = bits + 5;
    in.content = content;
    for (size_t k = 0; k < sizeof likes; k++) {
        memset(content, likes[k], bits + 5);
        call_both(at, "accepted, output of like bytes", in, want, pattern);
    }
    in.content = NULL;
    refuse_fresh(at, in, bits);
    for (size_t i = 0; i < COUNT(shorter); i++) {
        in.pattern_len = shorter[i];
        call_both(at, "output too short", in, REFUSED(32), NULL);
    }
}

/*
  The answer table, rows of six numbers, breaks these clauses of the form and no
  others. It is refused 33, whatever the table is, with as many fresh bytes as it
  seems to have fresh bits and as much output as it seems to need; and so it is
  with other fresh bytes and other outputs.
*/
static void refuse_rows(where at, unsigned clauses, const uint16_t *answer, size_t len)
{
    static const uint16_t solved[] = {VARIABLE(8), CUT(0, 6, 3), CUT(0, 4, 1), EQUATION(1, 2)};
    static const uint16_t always[] = {VARIABLE(2), VARIABLE(3)}, never[] = {VARIABLE(4), FILL(0, 1), FILL(1, 1), EQUATION(1, 2)};
    static const uint16_t ones[] = {VARIABLE(2), FILL(1, 2), EQUATION(0, 1)};
    static const struct { const uint16_t *numbers; size_t len; } good[] = {
        {solved, COUNT(solved)}, {ones, COUNT(ones)}, {always, COUNT(always)}, {never, COUNT(never)}, {NULL, 0},
    };
    size_t fresh = plain_fresh_bits(answer, len), bits = plain_pattern_bits(answer, len);
    unsigned faults = plain_faults(answer, len);
    const size_t lens[] = {fresh, 0, 1, fresh + 1, BITS}, outputs[] = {bits, 0, bits + 7, BITS, 65536};

    check(faults == clauses, at, "clauses broken are %x, expected %x", faults, clauses);
    for (size_t i = 0; i < COUNT(lens); i++)
        for (size_t k = 0; k < COUNT(outputs); k++) {
            size_t g = (i + k) % COUNT(good);
            lent in = {.table = good[g].numbers, .table_len = good[g].len, .answer = answer, .answer_len = len,
                       .fresh_len = lens[i], .pattern_len = outputs[k], .work_len = (i + k) % 2 == 0 ? AREA : LONG_AREA};
            if (lens[i] > LONG || outputs[k] > LONG)
                continue;
            in.fresh = zeros_but(lens[i], SIZE_MAX, 0);
            call(at, "not of the form", &in, REFUSED(33), NULL);
            in.fresh = zeros_but(lens[i], lens[i] / 2, 2);
            call(at, "not of the form, a byte above 1", &in, REFUSED(33), NULL);
        }
}

#define BROKEN(clause)     (1U << (clause))

/* The same of answer tables that are written down by the first four numbers of their rows. */

enum { MANY_ROWS = 65538 };
static uint16_t six[6 * MANY_ROWS];

/* An answer table as it is lent with a table, and fresh bytes. */
static lent lend(const uint16_t *numbers, size_t table_len, size_t rows, const uint8_t *fresh, size_t fresh_len)
{
    return (lent){.table = numbers, .table_len = table_len, .answer = six, .answer_len = 6 * rows, .fresh = fresh,
                  .fresh_len = fresh_len};
}

/* It is the answer of this table. */
static void accept_of(where at, const uint16_t *numbers, size_t table_len, const uint16_t *four, size_t len,
                      const uint8_t *fresh, size_t fresh_len, const uint8_t *pattern, size_t bits)
{
    add_homes(four, len / 4, six);
    accept_rows(at, lend(numbers, table_len, len / 4, fresh, fresh_len), pattern, bits);
}

/* It is the answer of the table that is made for it: written down by its six numbers, or by four. */

static void accept_six(where at, const uint16_t *answer, size_t len, const uint8_t *fresh, size_t fresh_len,
                       const uint8_t *pattern, size_t bits)
{
    static table t;
    check(make_table_of(answer, len, &t), at, "too many rows");
    accept_rows(at, (lent){.table = t.numbers, .table_len = t.len, .answer = answer, .answer_len = len, .fresh = fresh,
                           .fresh_len = fresh_len}, pattern, bits);
}

static void accept(where at, const uint16_t *four, size_t len, const uint8_t *fresh, size_t fresh_len,
                   const uint8_t *pattern, size_t bits)
{
    add_homes(four, len / 4, six);
    accept_six(at, six, len / 4 * 6, fresh, fresh_len, pattern, bits);
}

/*
  It is the answer of no table, though it has the form, since each of its
  patterns meets a table, or since its pieces could be longer. The table that is
  made for it refuses it 46, and this one too.
*/
static void refuse_other(where at, const uint16_t *numbers, size_t table_len, const uint16_t *four, size_t len)
{
    static table t;
    const size_t outputs[] = {0, BITS};

    add_homes(four, len / 4, six);
    check(plain_faults(six, len / 4 * 6) == 0, at, "not of the form");
    size_t right = plain_fresh_bits(six, len / 4 * 6);
    bool made = make_table_of(six, len / 4 * 6, &t);
    for (size_t i = 0; i < COUNT(outputs); i++)
        for (size_t fresh = right; fresh < right + 2; fresh++) {
            lent in = lend(numbers, table_len, len / 4, zeros_but(fresh, SIZE_MAX, 0), fresh);
            in.pattern_len = outputs[i];
            call_both(at, "no table's answer", in, REFUSED(46), NULL);
            in.table = t.numbers, in.table_len = t.len;
            if (made)
                call_both(at, "no table's answer, its own table", in, REFUSED(46), NULL);
        }
}

/* Where a high bit is no 16-bit number, it cannot be right. */
static void refuse_form(where at, unsigned clauses, const uint16_t *four, size_t len)
{
    bool fits = add_homes(four, len / 4, six);
    refuse_rows(at, fits ? clauses : clauses | BROKEN(RIGHT_HIGH), six, len / 4 * 6);
}

#define ACCEPT(...)        accept(HERE, __VA_ARGS__)
#define ACCEPT_ROWS(...)   accept_six(HERE, __VA_ARGS__)
#define ACCEPT_OF(...)     accept_of(HERE, __VA_ARGS__)
#define REFUSE_OTHER(...)  refuse_other(HERE, __VA_ARGS__)
#define REFUSE_FORM(...)   refuse_form(HERE, __VA_ARGS__)
#define REFUSE_ROWS(...)   refuse_rows(HERE, __VA_ARGS__)

/* The header's numbers are those of the specification. */
static void test_constants(void)
{
    static const constant constants[] = {
        CONSTANT(LW_ACCEPTED, 0), CONSTANT(LW_FRESH, 2), CONSTANT(LW_REFUSED_OUTPUT, 32),
        CONSTANT(LW_REFUSED_ANSWER, 33), CONSTANT(LW_REFUSED_FRESH, 34), CONSTANT(LW_REFUSED_OTHER_ANSWER, 46),
        CONSTANT(LW_REFUSED_MEMORY, 10), CONSTANT(LW_WORK_NUMBERS, 16384), CONSTANT(LW_ANSWER_ROW_NUMBERS, 6),
        CONSTANT(LW_MAX_WIDTH, 1024), CONSTANT(LW_MAX_VARIABLES, 64), CONSTANT(LW_MAX_VARIABLE_BITS, 4096),
    };
    check_constants(HERE, constants, COUNT(constants));
}

/* The answers of the specification's cases 1 and 2. */
static void test_worked(void)
{
#define SHEET_1 TABLE(VARIABLE(8), CUT(0, 6, 3), CUT(0, 4, 1), EQUATION(1, 2))
#define CASE_1 ANSWER(FRESH(0, 1, 0), FRESH(0, 2, 1), FRESH(0, 2, 1), FRESH(0, 2, 1), FRESH(0, 1, 2))
    ACCEPT_OF(SHEET_1, CASE_1, BYTES(1, 0, 1, 0), BYTES(1, 0, 1, 0, 1, 0, 1, 0));
    ACCEPT_OF(SHEET_1, CASE_1, BYTES(0, 1, 0, 1), BYTES(0, 1, 0, 1, 0, 1, 0, 1));
    ACCEPT_OF(SHEET_1, CASE_1, BYTES(0, 0, 1, 1), BYTES(0, 0, 1, 0, 1, 0, 1, 1));
    ACCEPT_OF(SHEET_1, CASE_1, BYTES(1, 1, 0, 0), BYTES(1, 1, 0, 1, 0, 1, 0, 0));
#undef CASE_1
#undef SHEET_1
#define SHEET_2 TABLE(VARIABLE(9), CUT(0, 7, 3), CUT(0, 5, 1), EQUATION(1, 2))
#define CASE_2 ANSWER(FRESH(0, 1, 0), FRESH(0, 1, 1), FRESH(0, 1, 2), FRESH(0, 1, 1), FRESH(0, 1, 2), FRESH(0, 1, 1), \
                      FRESH(0, 1, 2), FRESH(0, 1, 1), FRESH(0, 1, 3))
    ACCEPT_OF(SHEET_2, CASE_2, BYTES(0, 1, 0, 1), BYTES(0, 1, 0, 1, 0, 1, 0, 1, 1));
    ACCEPT_OF(SHEET_2, CASE_2, BYTES(1, 0, 1, 0), BYTES(1, 0, 1, 0, 1, 0, 1, 0, 0));
#undef CASE_2
#undef SHEET_2
}

/* Answer tables of every shape. */
static void test_hand_made(void)
{
    /* One row. */
    ACCEPT(ANSWER(ZEROS(0, 1)), NO_BITS, BYTES(0));
    ACCEPT(ANSWER(ONES(0, 1)), NO_BITS, BYTES(1));
    ACCEPT(ANSWER(ZEROS(0, 3)), NO_BITS, BYTES(0, 0, 0));
    ACCEPT(ANSWER(ONES(0, 3)), NO_BITS, BYTES(1, 1, 1));

    /* Fills beside fresh pieces, fills that differ, and fills of one bit that are no neighbours in one variable. */
    ACCEPT(ANSWER(ONES(0, 2), FRESH(0, 2, 0), ZEROS(0, 1)), BYTES(0, 1), BYTES(1, 1, 0, 1, 0));
    ACCEPT(ANSWER(ZEROS(0, 2), ONES(0, 1), ZEROS(0, 3)), NO_BITS, BYTES(0, 0, 1, 0, 0, 0));
    ACCEPT(ANSWER(ONES(0, 1), FRESH(0, 1, 0), ONES(0, 1)), BYTES(0), BYTES(1, 0, 1));
    ACCEPT(ANSWER(ZEROS(0, 1), FRESH(0, 1, 0), ZEROS(0, 1)), BYTES(1), BYTES(0, 1, 0));
    ACCEPT(ANSWER(ONES(0, 2), ONES(1, 1)), NO_BITS, BYTES(1, 1, 1));
    ACCEPT(ANSWER(ZEROS(0, 2), ZEROS(1, 1), ZEROS(2, 1)), NO_BITS, BYTES(0, 0, 0, 0));

    /* A fresh piece at several places: in a row, in one variable, in several, behind higher numbers. */
    ACCEPT(ANSWER(FRESH(0, 2, 0), FRESH(0, 2, 0)), BYTES(1, 0), BYTES(1, 0, 1, 0));
    ACCEPT(ANSWER(FRESH(0, 1, 0), FRESH(0, 1, 0), FRESH(0, 1, 0)), BYTES(1), BYTES(1, 1, 1));
    ACCEPT(ANSWER(FRESH(0, 2, 0), ONES(0, 1), FRESH(0, 2, 0)), BYTES(0, 1), BYTES(0, 1, 1, 0, 1));
    ACCEPT(ANSWER(FRESH(0, 2, 0), FRESH(1, 1, 1), FRESH(1, 2, 0), FRESH(2, 1, 1)), BYTES(1, 0, 1),
           BYTES(1, 0, 1, 1, 0, 1));
    ACCEPT(ANSWER(FRESH(0, 1, 0), FRESH(0, 2, 1), FRESH(0, 3, 2), FRESH(1, 3, 2), FRESH(1, 2, 1), FRESH(1, 1, 0)),
           BYTES(1, 0, 1, 0, 0, 1), BYTES(1, 0, 1, 0, 0, 1, 0, 0, 1, 0, 1, 1));

    /* A new fresh piece behind an old one; each takes the bits behind those of the number before. */
    ACCEPT(ANSWER(FRESH(0, 2, 0), FRESH(0, 1, 1), FRESH(0, 2, 0), FRESH(0, 3, 2), FRESH(0, 1, 1), FRESH(0, 1, 3)),
           BYTES(1, 0, 1, 0, 1, 1, 0), BYTES(1, 0, 1, 1, 0, 0, 1, 1, 1, 0));

    /* Fresh pieces of one width and different numbers. */
    ACCEPT(ANSWER(FRESH(0, 2, 0), FRESH(1, 2, 1), FRESH(2, 2, 1)), BYTES(1, 0, 0, 1), BYTES(1, 0, 0, 1, 0, 1));
    ACCEPT(ANSWER(FRESH(0, 1, 0), FRESH(0, 1, 1), FRESH(1, 1, 1), FRESH(1, 1, 0)), BYTES(0, 1), BYTES(0, 1, 1, 0));

    /* The numbers of fills do not count: fresh piece 0 is the first piece that is fresh. */
    ACCEPT(ANSWER(ZEROS(0, 1), ONES(0, 4), ZEROS(1, 2), FRESH(1, 1, 0), FRESH(2, 2, 1)), BYTES(1, 0, 1),
           BYTES(0, 1, 1, 1, 1, 0, 0, 1, 0, 1));
}

/* Answer tables of the form that are no table's answer. */
static void test_no_answers(void)
{
#define EIGHT TABLE(VARIABLE(8), CUT(0, 6, 3), CUT(0, 4, 1), EQUATION(1, 2))
#define THREE TABLE(VARIABLE(3), VARIABLE(3), EQUATION(0, 1))
    /* No rows. */
    REFUSE_OTHER(NULL, 0, NULL, 0);
    REFUSE_OTHER(EIGHT, NULL, 0);
    REFUSE_OTHER(TABLE(FILL(1, 3)), NULL, 0);
    REFUSE_OTHER(TABLE(FILL(1, 3), FILL(1, 3), EQUATION(0, 1)), NULL, 0);
    REFUSE_OTHER(TABLE(FILL(1, 3), FILL(0, 3), EQUATION(0, 1)), NULL, 0);
    REFUSE_OTHER(TABLE(VARIABLE(1), EQUATION(0, 0)), NULL, 0);

    /* Each of their patterns meets the table. */
    REFUSE_OTHER(TABLE(VARIABLE(1)), ANSWER(FRESH(0, 1, 0)));
    REFUSE_OTHER(TABLE(VARIABLE(5), EQUATION(0, 0)), ANSWER(FRESH(0, 5, 0)));
    REFUSE_OTHER(EIGHT, ANSWER(FRESH(0, 8, 0)));
    REFUSE_OTHER(THREE, ANSWER(FRESH(0, 3, 0), FRESH(1, 3, 1)));

    /* Pieces that could be one. */
    REFUSE_OTHER(TABLE(VARIABLE(4)), ANSWER(FRESH(0, 2, 0), FRESH(0, 2, 1)));
    REFUSE_OTHER(THREE, ANSWER(FRESH(0, 1, 0), FRESH(0, 2, 1), FRESH(1, 1, 0), FRESH(1, 2, 1)));
    REFUSE_OTHER(THREE, ANSWER(FRESH(0, 1, 0), FRESH(0, 1, 1), FRESH(0, 1, 2)));
    REFUSE_OTHER(TABLE(VARIABLE(4), FILL(1, 1), CUT(0, 0, 0), EQUATION(1, 2)),
                 ANSWER(FRESH(0, 1, 0), FRESH(0, 2, 1), ONES(0, 1)));
#undef EIGHT
#undef THREE
}

/* All bits of so many variables of 1,024 bits are equal. */
static void make_equal_bits(table *t, size_t variables)
{
    t->len = 0;
    for (size_t v = 0; v < variables; v++)
        add(t, VARIABLE(1024));
    add(t, CUT(0, 1023, 1));
    add(t, CUT(0, 1022, 0));
    add(t, EQUATION(variables, variables + 1));
    for (size_t v = 1; v < variables; v++)
        add(t, EQUATION(0, v));
}

/* The exact limits. */
static void test_limits(void)
{
    static table t;
    static answer_table a;
    static uint8_t fresh[BITS], pattern[BITS];

    for (size_t i = 0; i < BITS; i++)
        fresh[i] = (uint8_t)below(2);

    /* Variable 63: 64 variables of one bit, and of 64 bits that are one fresh piece. */
    a.len = 0;
    for (size_t v = 0; v < 64; v++) {
        put(&a, FRESH(v, 1, v % 63));
        pattern[v] = fresh[v % 63];
    }
    ACCEPT(ALL(a), fresh, 63, pattern, 64);
    a.len = 0;
    for (size_t v = 0; v < 64; v++)
        put(&a, FRESH(v, 1, v));
    REFUSE_OTHER(NULL, 0, ALL(a));
    a.len = 0;
    for (size_t v = 0; v < 64; v++) {
        put(&a, FRESH(v, 64, 0));
        memcpy(pattern + 64 * v, fresh, 64);
    }
    ACCEPT(ALL(a), fresh, 64, pattern, BITS);

    /* 1,024 in a variable: in one row, in two, in 1,024. */
    memset(pattern, 1, 1024);
    ACCEPT(ANSWER(ONES(0, 1024)), NO_BITS, pattern, 1024);
    memcpy(pattern + 1, fresh, 1023);
    ACCEPT(ANSWER(ONES(0, 1), FRESH(0, 1023, 0)), fresh, 1023, pattern, 1024);
    memcpy(pattern, fresh, 512);
    memcpy(pattern + 512, fresh, 512);
    ACCEPT(ANSWER(FRESH(0, 512, 0), FRESH(0, 512, 0)), fresh, 512, pattern, 1024);
    a.len = 0;
    for (size_t i = 0; i < 1024; i++)
        put(&a, FRESH(0, 1, 0));
    make_equal_bits(&t, 1);
    memset(pattern, 1, 1024);
    ACCEPT_OF(ALL(t), ALL(a), BYTES(1), pattern, 1024);
    REFUSE_OTHER(ALL(t), ANSWER(FRESH(0, 1024, 0)));
    REFUSE_OTHER(ALL(t), ANSWER(FRESH(0, 1000, 0), FRESH(0, 24, 1)));

    /* 4,096 in all: four rows; 64 variables; 4,096 rows of width 1, all one fresh piece, and fills. */
    for (size_t v = 0; v < 4; v++)
        memcpy(pattern + 1024 * v, fresh, 1024);
    ACCEPT(ANSWER(FRESH(0, 1024, 0), FRESH(1, 1024, 0), FRESH(2, 1024, 0), FRESH(3, 1024, 0)), fresh, 1024, pattern,
           BITS);
    a.len = 0;
    for (size_t v = 0; v < 64; v++) {
        put(&a, FRESH(v, 64, v / 2));
        memcpy(pattern + 64 * v, fresh + 64 * (v / 2), 64);
    }
    ACCEPT(ALL(a), fresh, BITS / 2, pattern, BITS);
    a.len = 0;
    for (size_t i = 0; i < BITS; i++)
        put(&a, FRESH(i / 1024, 1, 0));
    make_equal_bits(&t, 4);
    memset(pattern, 1, BITS);
    ACCEPT_OF(ALL(t), ALL(a), BYTES(1), pattern, BITS);
    for (size_t at = 0; at < BITS; at += at % 1365 < 2 || at >= BITS - 3 ? 1 : 341) { /* one row another, anywhere */
        const uint16_t kept[] = {FRESH((uint16_t)(at / 1024), 1, 0)}, other[] = {ONES((uint16_t)(at / 1024), 1)};
        memcpy(a.numbers + 4 * at, other, sizeof other);
        REFUSE_OTHER(ALL(t), ALL(a));
        memcpy(a.numbers + 4 * at, kept, sizeof kept);
    }
    for (size_t v = 1; v < 4; v++) { /* whole variables left off, or added */
        REFUSE_OTHER(ALL(t), a.numbers, 4 * 1024 * v);
        make_equal_bits(&t, v);
        REFUSE_OTHER(ALL(t), ALL(a));
        make_equal_bits(&t, 4);
    }
    a.len = 0;
    for (size_t i = 0; i < BITS; i++) {
        put(&a, i / 1024, i % 2, 1, 0);
        pattern[i] = (uint8_t)(i % 2);
    }
    make_fixed_bits(&t);
    ACCEPT_OF(ALL(t), ALL(a), NO_BITS, pattern, BITS);

    /* As many rows as that, fresh, of one bit each, and of 2,048 numbers that come again in reverse order. */
    for (size_t i = 0; i < 2; i++) {
        a.len = 0;
        for (size_t k = 0; k < BITS; k++)
            put(&a, FRESH(k / 1024, 1, i == 0 || k < BITS / 2 ? k : BITS - 1 - k));
        REFUSE_OTHER(ALL(t), ALL(a));
        make_equal_bits(&t, 4);
        REFUSE_OTHER(ALL(t), ALL(a));
    }
}

/* Refusal 33: variables, kinds. */
static void test_variables_and_kinds(void)
{
    static const uint16_t starts[] = {1, 2, 63}, kinds[] = {3, 4, 256, 257, 258, 32768, 65535};
    static answer_table a;

    /* The first variable is not 0. */
    for (size_t i = 0; i < COUNT(starts); i++) {
        REFUSE_FORM(BROKEN(STARTS_AT_0), ANSWER(FRESH(starts[i], 2, 0)));
        REFUSE_FORM(BROKEN(STARTS_AT_0), ANSWER(ONES(starts[i], 1), FRESH(starts[i], 2, 0)));
    }
    REFUSE_FORM(BROKEN(STARTS_AT_0), ANSWER(ONES(1, 1), FRESH(2, 2, 0)));
    REFUSE_FORM(BROKEN(STARTS_AT_0) | BROKEN(UP_TO_63), ANSWER(ONES(64, 1)));
    REFUSE_FORM(BROKEN(STARTS_AT_0) | BROKEN(UP_TO_63), ANSWER(ONES(256, 1)));
    REFUSE_FORM(BROKEN(STARTS_AT_0) | BROKEN(UP_TO_63), ANSWER(ONES(65535, 1)));
    REFUSE_FORM(BROKEN(STARTS_AT_0) | BROKEN(STAYS_OR_RISES) | BROKEN(UP_TO_63),
                ANSWER(ONES(65535, 1), ONES(0, 1))); /* one more than 65,535 is not 0 */

    /* A variable falls, or rises by two or more. */
    REFUSE_FORM(BROKEN(STAYS_OR_RISES), ANSWER(ONES(0, 1), ONES(1, 1), ONES(0, 1)));
    REFUSE_FORM(BROKEN(STAYS_OR_RISES), ANSWER(ONES(0, 1), ONES(1, 1), ONES(2, 1), ONES(1, 1), ONES(2, 1)));
    REFUSE_FORM(BROKEN(STAYS_OR_RISES), ANSWER(ONES(0, 1), ONES(1, 1), ONES(2, 1), ONES(0, 1)));
    REFUSE_FORM(BROKEN(STAYS_OR_RISES), ANSWER(ONES(0, 1), ONES(2, 1)));
    REFUSE_FORM(BROKEN(STAYS_OR_RISES), ANSWER(ONES(0, 1), FRESH(0, 1, 0), ONES(2, 1), ONES(3, 1)));
    REFUSE_FORM(BROKEN(STAYS_OR_RISES), ANSWER(FRESH(0, 1, 0), FRESH(1, 1, 1), FRESH(3, 1, 2)));
    REFUSE_FORM(BROKEN(STAYS_OR_RISES), ANSWER(ONES(0, 1), ONES(63, 1)));
    REFUSE_FORM(BROKEN(STAYS_OR_RISES) | BROKEN(UP_TO_63), ANSWER(ONES(0, 1), ONES(257, 1)));
    REFUSE_FORM(BROKEN(STAYS_OR_RISES) | BROKEN(UP_TO_63), ANSWER(ONES(0, 1), ONES(65535, 1)));
    for (size_t v = 1; v < 63; v++) { /* left out or repeated late, anywhere */
        a.len = 0;
        for (size_t i = 0; i < 64; i++)
            if (i != v)
                put(&a, FRESH(i, 1, i < v ? i : i - 1));
        REFUSE_FORM(BROKEN(STAYS_OR_RISES), ALL(a));
        put(&a, FRESH(v, 1, 63));
        REFUSE_FORM(BROKEN(STAYS_OR_RISES), ALL(a));
    }

    /* A variable above 63. */
    a.len = 0;
    for (size_t v = 0; v < 65; v++)
        put(&a, ONES(v, 1));
    REFUSE_FORM(BROKEN(UP_TO_63), ALL(a));
    for (size_t v = 65; v < 300; v++)
        put(&a, ONES(v, 1));
    REFUSE_FORM(BROKEN(UP_TO_63), ALL(a));

    /* A kind above 2. */
    for (size_t i = 0; i < COUNT(kinds); i++) {
        uint16_t kind = kinds[i];
        REFUSE_FORM(BROKEN(KIND_UP_TO_2), ANSWER(0, kind, 1, 0));
        REFUSE_FORM(BROKEN(KIND_UP_TO_2), ANSWER(0, kind, 1, 5));
        REFUSE_FORM(BROKEN(KIND_UP_TO_2), ANSWER(FRESH(0, 2, 0), 0, kind, 2, 0, FRESH(0, 2, 1)));
        REFUSE_FORM(BROKEN(KIND_UP_TO_2), ANSWER(FRESH(0, 2, 0), ONES(0, 1), 1, kind, 2, 0));
    }
}

/* Refusal 33: widths. */
static void test_widths(void)
{
    static answer_table a;
    static uint16_t many[4 * MANY_ROWS];
    unsigned variable = BROKEN(VARIABLE_UP_TO_1024), all = BROKEN(ALL_UP_TO_4096);

    /* A width of 0. */
    REFUSE_FORM(BROKEN(WIDTH_FROM_1), ANSWER(ZEROS(0, 0)));
    REFUSE_FORM(BROKEN(WIDTH_FROM_1), ANSWER(FRESH(0, 0, 0)));
    REFUSE_FORM(BROKEN(WIDTH_FROM_1), ANSWER(ONES(0, 0), FRESH(0, 2, 0)));
    REFUSE_FORM(BROKEN(WIDTH_FROM_1), ANSWER(FRESH(0, 2, 0), ONES(0, 0), FRESH(0, 2, 0)));
    REFUSE_FORM(BROKEN(WIDTH_FROM_1), ANSWER(FRESH(0, 2, 0), ONES(1, 0)));
    REFUSE_FORM(BROKEN(WIDTH_FROM_1), ANSWER(FRESH(0, 2, 0), FRESH(0, 0, 1), FRESH(1, 0, 1)));
    REFUSE_FORM(BROKEN(WIDTH_FROM_1), ANSWER(FRESH(0, 1024, 0), ONES(0, 0)));

    /* More than 1,024 in a variable: in one row, in several, in a later variable, beside others of few bits. */
    REFUSE_FORM(variable, ANSWER(FRESH(0, 1025, 0)));
    REFUSE_FORM(variable, ANSWER(ONES(0, 1025)));
    REFUSE_FORM(variable, ANSWER(FRESH(0, 4096, 0)));
    REFUSE_FORM(variable, ANSWER(FRESH(0, 1024, 0), ONES(0, 1)));
    REFUSE_FORM(variable, ANSWER(ONES(0, 1), FRESH(0, 1024, 0)));
    REFUSE_FORM(variable, ANSWER(FRESH(0, 512, 0), FRESH(0, 512, 0), FRESH(0, 1, 1)));
    REFUSE_FORM(variable, ANSWER(FRESH(0, 512, 0), FRESH(0, 513, 1)));
    REFUSE_FORM(variable, ANSWER(FRESH(0, 1024, 0), FRESH(1, 1025, 1)));
    REFUSE_FORM(variable, ANSWER(FRESH(0, 1, 0), FRESH(1, 1, 0), FRESH(1, 1000, 1), ONES(1, 24), FRESH(2, 1, 2)));
    REFUSE_FORM(variable, ANSWER(FRESH(0, 1024, 0), FRESH(1, 1024, 0), FRESH(2, 1024, 0), FRESH(2, 1024, 0)));
    a.len = 0;
    for (size_t i = 0; i < 1025; i++)
        put(&a, FRESH(0, 1, i));
    REFUSE_FORM(variable, ALL(a));

    /* Sums that are small or 0 in 16 bits: 65,535 and 1, and so on, up to exactly 65,536 + 1,024. */
    REFUSE_FORM(variable | all, ANSWER(FRESH(0, 65535, 0)));
    REFUSE_FORM(variable | all, ANSWER(ONES(0, 65535), FRESH(0, 1, 0)));
    REFUSE_FORM(variable | all, ANSWER(FRESH(0, 1, 0), ONES(0, 65535)));
    REFUSE_FORM(variable | all, ANSWER(FRESH(0, 65535, 0), ONES(0, 2)));
    REFUSE_FORM(variable | all, ANSWER(FRESH(0, 32768, 0), FRESH(0, 32768, 0)));
    REFUSE_FORM(variable | all, ANSWER(FRESH(0, 32768, 0), FRESH(0, 32768, 0), FRESH(0, 5, 1)));
    REFUSE_FORM(variable | all, ANSWER(FRESH(0, 1024, 0), ONES(0, 64512)));
    REFUSE_FORM(variable | all, ANSWER(ONES(0, 65535), FRESH(0, 1024, 0), ONES(0, 1)));
    REFUSE_FORM(variable | all, ANSWER(FRESH(0, 1, 0), FRESH(1, 65535, 1), FRESH(2, 1, 2)));
    a.len = 0;
    for (size_t i = 0; i < 64; i++) { /* 65,536 in a variable, by rows of 1,024 */
        put(&a, FRESH(0, 1024, 0));
        if (i > 0)
            REFUSE_FORM(i < 4 ? variable : variable | all, ALL(a));
    }

    /* More than 4,096 in all: by one bit; by 1,024 in each variable; 65,536 exactly; and 65,536 + 64. */
    REFUSE_FORM(all, ANSWER(FRESH(0, 1024, 0), FRESH(1, 1024, 0), FRESH(2, 1024, 0), FRESH(3, 1024, 0), ONES(4, 1)));
    REFUSE_FORM(all, ANSWER(ONES(0, 1), FRESH(1, 1024, 0), FRESH(2, 1024, 0), FRESH(3, 1024, 0), FRESH(4, 1024, 0)));
    a.len = 0;
    for (size_t i = 0; i < 4097; i++)
        put(&a, FRESH(i / 1024, 1, i));
    REFUSE_FORM(all, ALL(a));
    a.len = 0;
    for (size_t i = 0; i < 4097; i++)
        put(&a, i / 1024, i % 2, 1, 0);
    REFUSE_FORM(all, ALL(a));
    a.len = 0;
    for (size_t v = 0; v < 64; v++)
        put(&a, FRESH(v, v == 40 ? 65 : 64, v));
    REFUSE_FORM(all, ALL(a));
    a.len = 0;
    for (size_t v = 0; v < 64; v++) {
        put(&a, FRESH(v, 1024, 0));
        if (v > 3)
            REFUSE_FORM(all, ALL(a));
    }
    a.len = 0;
    for (size_t v = 0; v < 64; v++)
        put(&a, FRESH(v, 1024, v)); /* 65,536 fresh bits */
    REFUSE_FORM(all, ALL(a));
    a.len = 0;
    for (size_t v = 0; v < 64; v++)
        put(&a, ONES(v, v == 0 ? 1025 : 1024)); /* 65,537 in all */
    REFUSE_FORM(variable | all, ALL(a));

    /* 65,538 numbers, as many rows as that, and 2 to the 32 bits in them; and 65,536 bits in one variable. */
    for (size_t r = 0; r < MANY_ROWS; r++)
        memcpy(many + 4 * r, (const uint16_t[]){0, r % 2, r < 65537 ? 65535 : 1, 0}, 8);
    REFUSE_FORM(variable | all, many, 4 * 10923);
    REFUSE_FORM(variable | all, many, 4 * MANY_ROWS);
    for (size_t r = 0; r < MANY_ROWS; r++)
        many[4 * r + 2] = 1;
    REFUSE_FORM(variable | all, many, 4 * 10923);
    REFUSE_FORM(variable | all, many, 4 * 65536);
    REFUSE_FORM(variable | all, many, 4 * 65537);
}

/* Refusal 33: fills and fresh numbers. */
static void test_fills_and_fresh(void)
{
    static const uint16_t numbers[] = {1, 2, 256, 65535};
    static answer_table a;

    /* A fill with a fresh number, seen or not. */
    for (size_t i = 0; i < COUNT(numbers); i++) {
        REFUSE_FORM(BROKEN(FILL_WITHOUT_FRESH), ANSWER(0, 0, 1, numbers[i]));
        REFUSE_FORM(BROKEN(FILL_WITHOUT_FRESH), ANSWER(0, 1, 1, numbers[i]));
        REFUSE_FORM(BROKEN(FILL_WITHOUT_FRESH), ANSWER(FRESH(0, 1, 0), 0, 1, 1, numbers[i]));
        REFUSE_FORM(BROKEN(FILL_WITHOUT_FRESH), ANSWER(FRESH(0, 1, 0), FRESH(0, 1, 1), 1, 0, 1, numbers[i]));
    }
    REFUSE_FORM(BROKEN(LOWEST_UNSEEN) | BROKEN(FILL_WITHOUT_FRESH), /* a fill's number is not seen */
                ANSWER(FRESH(0, 1, 0), 0, 1, 1, 1, FRESH(0, 1, 2)));

    /* Neighbouring fills of one bit in one variable. */
    REFUSE_FORM(BROKEN(FILLS_DIFFER), ANSWER(ZEROS(0, 1), ZEROS(0, 1)));
    REFUSE_FORM(BROKEN(FILLS_DIFFER), ANSWER(ONES(0, 1), ONES(0, 2)));
    REFUSE_FORM(BROKEN(FILLS_DIFFER), ANSWER(ONES(0, 1), ZEROS(0, 1), ZEROS(0, 1)));
    REFUSE_FORM(BROKEN(FILLS_DIFFER), ANSWER(FRESH(0, 1, 0), ONES(0, 3), ONES(0, 1), FRESH(0, 1, 0)));
    REFUSE_FORM(BROKEN(FILLS_DIFFER), ANSWER(ONES(0, 1), ONES(1, 1), ONES(1, 1)));
    REFUSE_FORM(BROKEN(FILLS_DIFFER), ANSWER(ONES(0, 1), FRESH(1, 1, 0), ZEROS(2, 1), ZEROS(2, 1)));

    /* A fresh number seen with another width: the one before, an earlier one, in another variable. */
    REFUSE_FORM(BROKEN(SEEN_WITH_WIDTH), ANSWER(FRESH(0, 2, 0), FRESH(0, 1, 0)));
    REFUSE_FORM(BROKEN(SEEN_WITH_WIDTH), ANSWER(FRESH(0, 2, 0), FRESH(0, 3, 0)));
    REFUSE_FORM(BROKEN(SEEN_WITH_WIDTH), ANSWER(FRESH(0, 2, 0), FRESH(0, 258, 0)));
    REFUSE_FORM(BROKEN(SEEN_WITH_WIDTH), ANSWER(FRESH(0, 2, 0), FRESH(1, 3, 0)));
    REFUSE_FORM(BROKEN(SEEN_WITH_WIDTH), ANSWER(FRESH(0, 2, 0), FRESH(0, 3, 1), FRESH(0, 3, 0)));
    REFUSE_FORM(BROKEN(SEEN_WITH_WIDTH), ANSWER(FRESH(0, 2, 0), FRESH(0, 3, 1), FRESH(0, 2, 1)));
    REFUSE_FORM(BROKEN(SEEN_WITH_WIDTH), ANSWER(FRESH(0, 2, 0), FRESH(0, 2, 0), FRESH(0, 2, 1), FRESH(0, 1, 0)));
    REFUSE_FORM(BROKEN(SEEN_WITH_WIDTH), ANSWER(FRESH(0, 2, 0), FRESH(1, 1, 1), ONES(1, 2), FRESH(2, 1, 0),
                                                FRESH(2, 2, 0)));

    /* A fresh number that skips one. */
    for (size_t i = 0; i < COUNT(numbers); i++) {
        uint16_t number = numbers[i];
        REFUSE_FORM(BROKEN(LOWEST_UNSEEN), ANSWER(FRESH(0, 1, number)));
        REFUSE_FORM(BROKEN(LOWEST_UNSEEN), ANSWER(FRESH(0, 1, number), FRESH(0, 1, 0)));
        if (number > 1) {
            REFUSE_FORM(BROKEN(LOWEST_UNSEEN), ANSWER(FRESH(0, 1, 0), FRESH(0, 1, number)));
            REFUSE_FORM(BROKEN(LOWEST_UNSEEN), ANSWER(FRESH(0, 1, 0), FRESH(1, 2, number), FRESH(1, 2, 1)));
            REFUSE_FORM(BROKEN(LOWEST_UNSEEN), ANSWER(FRESH(0, 1, 0), ONES(0, 1), FRESH(1, 1, 0), FRESH(1, 1, number)));
        }
    }
    REFUSE_FORM(BROKEN(LOWEST_UNSEEN), ANSWER(FRESH(0, 1, 0), FRESH(0, 1, 1), FRESH(0, 1, 0), FRESH(0, 1, 3)));
    for (size_t at = 0; at < BITS; at += at % 1024 < 4 ? 1 : 255) { /* of 4,096 rows one skips */
        a.len = 0;
        for (size_t i = 0; i < BITS; i++)
            put(&a, FRESH(i / 1024, 1, i < at ? i : i + 1));
        REFUSE_FORM(BROKEN(LOWEST_UNSEEN), ALL(a));
    }
}

/* Refusal 33: home and high. */

/* Row r has this home and this high in place of its own, where they are others; then it has its own again. */
static void change(where at, answer_table *a, size_t r, size_t home, size_t high)
{
    uint16_t *n = a->numbers + 6 * r, kept[] = {n[4], n[5]};
    n[4] = (uint16_t)home, n[5] = (uint16_t)high;
    unsigned wrong = (n[4] != kept[0] ? BROKEN(RIGHT_HOME) : 0) | (n[5] != kept[1] ? BROKEN(RIGHT_HIGH) : 0);
    if (wrong != 0)
        refuse_rows(at, wrong, ALL(*a));
    n[4] = kept[0], n[5] = kept[1];
}

/* An answer table of the form, by the first four numbers of its rows: each home and each high changed, in many ways. */
static void refuse_changed(where at, const uint16_t *four, size_t len)
{
    static answer_table a;
    size_t rows = len / 4;

    a.len = 6 * rows;
    add_homes(four, rows, a.numbers);
    check(plain_faults(ALL(a)) == 0, at, "not of the form");
    for (size_t r = 0; r < rows; r++) {
        const uint16_t *n = a.numbers + 6 * r;
        size_t home = n[4], high = n[5];
        change(at, &a, r, home + 1, high);
        change(at, &a, r, home - 1, high); /* 65,535 for 0 */
        change(at, &a, r, home, high + 1);
        change(at, &a, r, home, high - 1);
        change(at, &a, r, home + 256, high);
        change(at, &a, r, home, high + 1024);
        change(at, &a, r, high, home);
        change(at, &a, r, home, high + 1U - n[2]); /* its lowest bit */
        for (size_t i = 0; i < rows; i++) {        /* taken from another row, from fills too; and a row's own place */
            change(at, &a, r, a.numbers[6 * i + 4], a.numbers[6 * i + 5]);
            change(at, &a, r, a.numbers[6 * i], high);
            change(at, &a, r, a.numbers[6 * i], a.numbers[6 * i + 5]);
        }
    }
}

/*
  A table of the form whose last row is followed by a row of the same variable,
  fresh or a fill, so that all highs of the variable are wrong; or by one of the
  next variable, whose own high is wrong.
*/
static void refuse_longer(where at, const uint16_t *four, size_t len)
{
    static answer_table a;
    size_t rows = len / 4, fresh = 0, last = four[len - 4], bit = four[len - 3] == 0;

    for (size_t r = 0; r < rows; r++)
        fresh += four[4 * r + 1] == LW_FRESH && four[4 * r + 3] == fresh;
    const uint16_t v = (uint16_t)last, next = (uint16_t)(last + 1), number = (uint16_t)fresh, other = (uint16_t)bit;
    const uint16_t behind[][6] = {
        {FRESH_AT(v, 1, number, v, 0)}, {v, other, 3, 0, v, 2}, {FRESH_AT(next, 1, number, next, 1)},
    };
    for (size_t i = 0; i < COUNT(behind); i++) {
        a.len = 6 * rows + 6;
        add_homes(four, rows, a.numbers);
        memcpy(a.numbers + 6 * rows, behind[i], sizeof behind[i]);
        refuse_rows(at, BROKEN(RIGHT_HIGH), ALL(a));
    }
    a.numbers[a.len - 1] = 0; /* a row of the next variable does no harm */
    check(plain_faults(ALL(a)) == 0, at, "not of the form");
}

static void test_homes(void)
{
    static const uint16_t one[] = {FRESH(0, 1, 0)}, again[] = {FRESH(0, 1, 0), FRESH(0, 1, 0)};
    static const uint16_t twice[] = {FRESH(0, 3, 0), ONES(0, 2), FRESH(0, 3, 0)};
    static const uint16_t case_1[] = {FRESH(0, 1, 0), FRESH(0, 2, 1), FRESH(0, 2, 1), FRESH(0, 2, 1), FRESH(0, 1, 2)};
    static const uint16_t fill_first[] = {ONES(0, 2), FRESH(0, 3, 0), FRESH(1, 3, 0), ONES(1, 1), ZEROS(2, 4)};
    static const uint16_t fills[] = {ZEROS(0, 2), ONES(0, 1), ZEROS(0, 2), ZEROS(1, 3), ONES(1, 2), ONES(2, 2)};
    static const uint16_t three[] = {
        FRESH(0, 2, 0), FRESH(0, 4, 1), ZEROS(0, 1), FRESH(1, 4, 1), FRESH(1, 1, 2), FRESH(2, 1, 2), FRESH(2, 2, 0),
        FRESH(2, 4, 1), ONES(2, 3), FRESH(3, 5, 3),
    };
    static const struct { const uint16_t *four; size_t len; } tables[] = {
        {one, COUNT(one)}, {again, COUNT(again)}, {twice, COUNT(twice)}, {case_1, COUNT(case_1)},
        {fill_first, COUNT(fill_first)}, {fills, COUNT(fills)}, {three, COUNT(three)},
    };
    static answer_table a;

    for (size_t i = 0; i < COUNT(tables); i++) {
        refuse_changed(HERE, tables[i].four, tables[i].len);
        refuse_longer(HERE, tables[i].four, tables[i].len);
    }

    /* Worked by hand: fine alone, and wrong where the variable goes on. */
    ACCEPT_ROWS(ANSWER(ZEROS_AT(0, 1, 0)), NO_BITS, BYTES(0));
    REFUSE_ROWS(BROKEN(RIGHT_HIGH), ANSWER(ZEROS_AT(0, 1, 0), ONES_AT(0, 1, 0)));
    REFUSE_ROWS(BROKEN(RIGHT_HIGH), ANSWER(FRESH_AT(0, 1, 0, 0, 0), ONES_AT(0, 1, 0)));
    ACCEPT_ROWS(ANSWER(FRESH_AT(0, 1, 0, 0, 1), ONES_AT(0, 1, 0)), BYTES(0), BYTES(0, 1));

    /* A second appearance names the first place, and not its own. */
    ACCEPT_ROWS(ANSWER(FRESH_AT(0, 2, 0, 0, 3), FRESH_AT(0, 2, 0, 0, 3)), BYTES(1, 0), BYTES(1, 0, 1, 0));
    REFUSE_ROWS(BROKEN(RIGHT_HIGH), ANSWER(FRESH_AT(0, 2, 0, 0, 3), FRESH_AT(0, 2, 0, 0, 1)));
    ACCEPT_ROWS(ANSWER(FRESH_AT(0, 2, 0, 0, 1), FRESH_AT(1, 2, 0, 0, 1)), BYTES(1, 0), BYTES(1, 0, 1, 0));
    REFUSE_ROWS(BROKEN(RIGHT_HOME), ANSWER(FRESH_AT(0, 2, 0, 0, 1), FRESH_AT(1, 2, 0, 1, 1)));

    /* A fill names its own place, and not that of the first fill of its bit; nor is it the home of fresh piece 0. */
    ACCEPT_ROWS(ANSWER(ONES_AT(0, 2, 1), ONES_AT(1, 2, 1)), NO_BITS, BYTES(1, 1, 1, 1));
    REFUSE_ROWS(BROKEN(RIGHT_HOME), ANSWER(ONES_AT(0, 2, 1), ONES(1, 2), 0, 1));
    ACCEPT_ROWS(ANSWER(ONES_AT(0, 1, 1), FRESH_AT(0, 1, 0, 0, 0)), BYTES(0), BYTES(1, 0));
    REFUSE_ROWS(BROKEN(RIGHT_HIGH), ANSWER(ONES_AT(0, 1, 1), FRESH_AT(0, 1, 0, 0, 1)));
    ACCEPT_ROWS(ANSWER(ONES_AT(0, 1, 0), FRESH_AT(1, 1, 0, 1, 0)), BYTES(0), BYTES(1, 0));
    REFUSE_ROWS(BROKEN(RIGHT_HOME), ANSWER(ONES_AT(0, 1, 0), FRESH_AT(1, 1, 0, 0, 0)));

    /* Home and high exchanged; high counted from the high end. */
    REFUSE_ROWS(BROKEN(RIGHT_HOME) | BROKEN(RIGHT_HIGH), ANSWER(FRESH_AT(0, 3, 0, 2, 0)));
    REFUSE_ROWS(BROKEN(RIGHT_HIGH), ANSWER(FRESH_AT(0, 3, 0, 0, 0), FRESH_AT(0, 2, 1, 0, 3)));

    /* 4,096 rows of one bit: right up to some row, and wrong there, at both ends of the table and of each variable. */
    for (size_t at = 0; at < BITS; at += at % 1024 < 2 || at % 1024 >= 1022 ? 1 : 255) {
        a.len = 0;
        for (size_t i = 0; i < BITS; i++)
            put_six(&a, FRESH(i / 1024, 1, i % 2048));
        close_rows(&a);
        change(HERE, &a, at, a.numbers[6 * at + 4] + 1U, a.numbers[6 * at + 5]);
        change(HERE, &a, at, a.numbers[6 * at + 4], a.numbers[6 * at + 5] + 1U);
        change(HERE, &a, at, at / 1024, 1023 - at % 1024); /* its own place, where that is not home */
    }
}

/* Refusal 33: numbers that are not whole rows, though the whole rows are of the form. */
static void test_whole_rows(void)
{
    static answer_table a;

    for (size_t rows = 0; rows < 5; rows++) { /* and so many numbers more, which are those of a row */
        a.len = 0;
        for (size_t i = 0; i <= rows; i++)
            put_six(&a, ONES(i, 2));
        close_rows(&a);
        for (size_t more = 1; more < 6; more++)
            REFUSE_ROWS(BROKEN(WHOLE_ROWS), a.numbers, 6 * rows + more);
    }
    REFUSE_ROWS(BROKEN(WHOLE_ROWS), ANSWER(FRESH(0, 1, 0))); /* four numbers were a row */
    REFUSE_ROWS(BROKEN(WHOLE_ROWS), ANSWER(ONES_AT(0, 1, 0), ONES(1, 1)));

    /* Behind 4,095 rows, and behind 4,096: 24,576 numbers and a few. */
    for (size_t rows = BITS; rows <= BITS + 1; rows++)
        for (size_t less = 1; less < 6; less++) {
            a.len = 0;
            for (size_t i = 0; i < rows; i++)
                put_six(&a, i / 1024, i % 2, 1, 0);
            set_homes(a.numbers, rows - 1);
            a.len -= less;
            REFUSE_ROWS(BROKEN(WHOLE_ROWS), ALL(a));
        }
}

/* 10, the table's, 33, 46, 34, 32: each alone, and with each of those behind it. */

enum { ORDER = 6 };

/* What is wrong of a call, in the order of the refusals: 0 for right, or which of its ways. */
typedef struct {
    size_t way[ORDER];
} wrongs;

static const size_t ways[ORDER] = {3, 4, 11, 5, 7, 4}; /* of each, the right one among them */

static void test_one_order(const wrongs *w)
{
    static const uint16_t good[] = {VARIABLE(2), VARIABLE(3), FILL(1, 1), JOIN(2, 0), EQUATION(1, 3)};
    static const uint16_t bad[][20] = {
        {9, 2, 0, 0, VARIABLE(3), FILL(1, 1), JOIN(2, 0), EQUATION(1, 3)},
        {VARIABLE(2), VARIABLE(3), FILL(1, 1), JOIN(2, 0), EQUATION(1, 5)},
        {VARIABLE(2), VARIABLE(3), FILL(1, 1), JOIN(2, 0), CUT(1, 3, 0)},
    };
    static const lw_record told[] = {{.outcome = 12}, {.outcome = 14, .row = 4}, {.outcome = 16, .row = 4}};
    static const uint16_t right[] = {FRESH_AT(0, 2, 0, 0, 1), ONES_AT(1, 1, 2), FRESH_AT(1, 2, 0, 0, 1)};
    static const uint16_t malformed[][18] = {
        {FRESH_AT(1, 2, 0, 1, 4), ONES_AT(1, 1, 2), FRESH_AT(1, 2, 0, 1, 4)},
        {FRESH_AT(0, 2, 0, 0, 1), ONES_AT(2, 1, 2), FRESH_AT(2, 2, 0, 0, 1)},
        {FRESH_AT(0, 2, 0, 0, 1), 1, 3, 1, 0, 1, 2, FRESH_AT(1, 2, 0, 0, 1)},
        {FRESH_AT(0, 2, 0, 0, 1), ONES_AT(1, 0, 1), FRESH_AT(1, 2, 0, 0, 1)},
        {FRESH_AT(0, 2, 0, 0, 1), 1, 1, 1, 1, 1, 2, FRESH_AT(1, 2, 0, 0, 1)},
        {FRESH_AT(0, 2, 0, 0, 1), ONES_AT(1, 1, 1), FRESH_AT(1, 1, 0, 0, 1)},
        {FRESH_AT(0, 2, 0, 0, 1), ONES_AT(1, 1, 2), FRESH_AT(1, 2, 2, 1, 1)},
        {FRESH_AT(0, 2, 0, 0, 1), ONES_AT(1, 1, 2), ONES_AT(1, 2, 1)},
        {FRESH_AT(0, 2, 0, 0, 1), ONES_AT(1, 1, 2), FRESH_AT(1, 2, 0, 1, 1)},
        {FRESH_AT(0, 2, 0, 0, 1), ONES_AT(1, 1, 0), FRESH_AT(1, 2, 0, 0, 1)},
    };
    static const uint16_t others[][18] = {
        {FRESH_AT(0, 2, 0, 0, 1), ZEROS_AT(1, 1, 2), FRESH_AT(1, 2, 0, 0, 1)},
        {FRESH_AT(0, 2, 0, 0, 1), FRESH_AT(1, 2, 0, 0, 1), ONES_AT(1, 1, 0)},
        {FRESH_AT(0, 2, 0, 0, 1), ONES_AT(1, 1, 2), FRESH_AT(1, 2, 1, 1, 1)},
        {FRESH_AT(0, 2, 0, 0, 1), ONES_AT(1, 3, 2), 0}, /* of which the first two rows are lent */
    };
    static const struct { uint8_t bytes[3]; size_t len; } fresh[] = {
        {{1, 0, 0}, 2}, {{1, 0, 0}, 1}, {{1, 0, 0}, 3}, {{1, 0, 0}, 0}, {{1, 2, 0}, 2}, {{255, 0, 0}, 2}, {{2, 2, 2}, 3},
    };
    static const size_t areas[] = {AREA, AREA - 1, 0}, outputs[] = {5, 4, 1, 0};
    static const uint8_t pattern[] = {1, 0, 1, 1, 0};
    const size_t *way = w->way;
    const lw_record refusals[ORDER] = {REFUSED(10), way[1] == 0 ? REFUSED(0) : told[way[1] - 1], REFUSED(33), REFUSED(46),
                                       REFUSED(34), REFUSED(32)};
    lent in = {.table = way[1] == 0 ? good : bad[way[1] - 1], .table_len = COUNT(good), .answer = right,
               .answer_len = COUNT(right), .fresh = fresh[way[4]].bytes, .fresh_len = fresh[way[4]].len,
               .pattern_len = outputs[way[5]], .work_len = areas[way[0]]};

    if (way[2] != 0)
        in.answer = malformed[way[2] - 1];
    else if (way[3] != 0)
        in.answer = others[way[3] - 1];
    if (way[2] == 0 && way[3] == 4)
        in.answer_len = 12;
    size_t first = 0;
    while (first < ORDER && way[first] == 0)
        first++;
    call(HERE, "order", &in, first == ORDER ? (lw_record){.free = 5} : refusals[first], pattern);
}

/* Every combination of what is right or wrong, and of each place every way. */
static void test_order(void)
{
    for (size_t wrong = 0; wrong < 1 << ORDER; wrong++)
        for (size_t turn = 0; turn < 12; turn++) {
            wrongs w = {{0}};
            for (size_t i = 0; i < ORDER; i++)
                if (wrong >> i & 1)
                    w.way[i] = 1 + (turn + (i == 0 ? 0 : wrong)) % (ways[i] - 1);
            test_one_order(&w);
        }
}

/* NULL with length 0 for each buffer. */
static void test_null(void)
{
    static const uint16_t two[] = {VARIABLE(2), FILL(1, 2), EQUATION(0, 1)}, ones[] = {ONES_AT(0, 2, 1)};
    static const uint16_t equal[] = {VARIABLE(1), VARIABLE(1), EQUATION(0, 1)};
    static const uint16_t piece[] = {FRESH_AT(0, 1, 0, 0, 0), FRESH_AT(1, 1, 0, 0, 0)};
    static const uint8_t bits[] = {1, 0};
    static uint16_t area[AREA];
    uint8_t pattern[] = {9, 9, 9};

#define NOTHING NULL, 0
#define WORK    area, AREA
    check_record(HERE, "all NULL", lw_make_pattern(NOTHING, NOTHING, NOTHING, NOTHING, NOTHING), REFUSED(10));
    check_record(HERE, "work NULL", lw_make_pattern(two, 12, ones, 6, NOTHING, pattern, 3, NOTHING), REFUSED(10));
    check_record(HERE, "all but work", lw_make_pattern(NOTHING, NOTHING, NOTHING, NOTHING, WORK), REFUSED(46));
    check_record(HERE, "table NULL", lw_make_pattern(NOTHING, ones, 6, NOTHING, pattern, 3, WORK), REFUSED(46));
    check_record(HERE, "table NULL, not whole rows", lw_make_pattern(NOTHING, ones, 4, NOTHING, NOTHING, WORK),
                 REFUSED(33));
    check_record(HERE, "answer NULL", lw_make_pattern(two, 12, NOTHING, NOTHING, pattern, 3, WORK), REFUSED(46));
    check_record(HERE, "answer NULL, fresh bytes", lw_make_pattern(two, 12, NOTHING, bits, 2, pattern, 3, WORK),
                 REFUSED(46));
    check_record(HERE, "fresh NULL, fresh bits", lw_make_pattern(equal, 12, piece, 12, NOTHING, pattern, 3, WORK),
                 REFUSED(34));
    check_record(HERE, "fresh NULL, pattern NULL", lw_make_pattern(equal, 12, piece, 12, NOTHING, NOTHING, WORK),
                 REFUSED(34));
    check_record(HERE, "pattern NULL", lw_make_pattern(equal, 12, piece, 12, bits, 1, NOTHING, WORK), REFUSED(32));
    check_record(HERE, "fill, both NULL", lw_make_pattern(two, 12, ones, 6, NOTHING, NOTHING, WORK), REFUSED(32));
    check(pattern[0] == 9 && pattern[1] == 9 && pattern[2] == 9, HERE, "output written by a refusal");
    check_record(HERE, "fill, fresh NULL", lw_make_pattern(two, 12, ones, 6, NOTHING, pattern, 3, WORK),
                 (lw_record){.free = 2});
    check(pattern[0] == 1 && pattern[1] == 1 && pattern[2] == 9, HERE, "output of a fill");
#undef NOTHING
#undef WORK
}

const test_list tests = {
    .name = "pattern", .inputs = 60000,
    .groups = {
        {.name = "the header's constants", .run = test_constants},
        {.name = "worked cases", .run = test_worked},
        {.name = "answer tables worked by hand", .run = test_hand_made},
        {.name = "46: no table's answer", .run = test_no_answers},
        {.name = "exact limits", .run = test_limits},
        {.name = "33: variables, kinds", .run = test_variables_and_kinds},
        {.name = "33: widths", .run = test_widths},
        {.name = "33: fills, fresh numbers", .run = test_fills_and_fresh},
        {.name = "33: home, high", .run = test_homes},
        {.name = "33: not whole rows", .run = test_whole_rows},
        {.name = "10, 11 to 17, 40", .run = test_memory_and_table},
        {.name = "the order 10 to 32", .run = test_order},
        {.name = "46: other answers of a table", .run = test_other_answers},
        {.name = "46: answers of other tables", .run = test_other_tables},
        {.name = "sheets and their answers", .run = test_shown},
        {.name = "NULL with length 0", .run = test_null},
        {.name = "random answer tables", .run_random = test_random_answers},
        {.name = "all patterns of small tables", .run_random = test_small},
        {.name = "patterns of large tables", .run = test_large},
    },
};
