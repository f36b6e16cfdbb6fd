/*
  test_pattern_other.c -- answer tables that are not the table's own, and work
  areas and tables that are refused: see test_pattern.c

  Where it is not written down what a call yields, it is what the plain pattern
  maker (plain_pattern.c) says: 33 or 46, and where an answer turns out to be the
  table's own, the pattern.
*/

#include "guard.h"
#include "plain_solver.h"
#include "refused_tables.h"
#include "revised_tables.h"
#include "test_pattern.h"

/* A table with its answer, by the plain solver. */
typedef struct {
    const uint16_t *numbers;
    size_t len;
    lw_record record;
    answer_table answer; /* of no rows for outcomes 0 and 1 */
} solved_table;

static void solve(const uint16_t *numbers, size_t len, solved_table *s)
{
    static ref_table facts;

    s->numbers = numbers, s->len = len;
    check(ref_check(numbers, len, &facts).outcome == 0, HERE, "the table is refused");
    s->record = plain_solve(numbers, &facts, s->answer.numbers);
    s->answer.len = 6 * (size_t)s->record.pieces;
}

/* How often each outcome was expected. */
static unsigned long seen[64];

/*
  An answer table lent with a table: with as many fresh bytes as it seems to have
  fresh bits, and one more, and with as much output as it seems to need, and none.
*/
static void offer(where at, const char *name, const solved_table *s, const answer_table *a)
{
    static uint8_t fresh[BITS + 1], pattern[BITS];
    static uint16_t area[AREA];
    size_t bits = plain_pattern_bits(ALL(*a)), right = plain_fresh_bits(ALL(*a));

    bits = bits > BITS ? BITS : bits; /* more can only be in tables that are refused 33 */
    right = right > BITS ? BITS : right;
    for (size_t i = 0; i < right + 1; i++)
        fresh[i] = (uint8_t)below(2);
    for (size_t i = 0; i < 4; i++) {
        lent in = {.table = s->numbers, .table_len = s->len, .answer = a->numbers, .answer_len = a->len, .fresh = fresh,
                   .fresh_len = right + i % 2, .pattern_len = i < 2 ? bits : 0};
        lw_record want = plain_make_pattern(s->numbers, s->len, ALL(*a), fresh, in.fresh_len, pattern, in.pattern_len,
                                            area, AREA);
        call_both(at, name, in, want, pattern);
        seen[want.outcome]++;
    }
}

/* The same, and it must be refused with this number, or be accepted. */
static void offer_for(where at, const char *name, const solved_table *s, const answer_table *a, uint32_t number)
{
    unsigned long before = seen[number];
    offer(at, name, s, a);
    check(seen[number] != before, at, "%s: not refused %u", name, number);
}

/* Changes of an answer table. */

static void put_row(answer_table *a, const uint16_t row[6])
{
    memcpy(a->numbers + a->len, row, 6 * sizeof *row);
    a->len += 6;
}

/* Numbers the fresh pieces anew, as they appear, and puts home and high into the rows. */
static void put_right(answer_table *a)
{
    static size_t number[65536];
    size_t next = 0;

    memset(number, 0, sizeof number);
    for (size_t r = 0; r < a->len / 6; r++) {
        uint16_t *n = a->numbers + 6 * r;
        if (n[1] != LW_FRESH)
            continue;
        if (number[n[3]] == 0)
            number[n[3]] = ++next;
        n[3] = (uint16_t)(number[n[3]] - 1);
    }
    close_rows(a);
}

/* Each number one more and one less. */
static void change_numbers(where at, const solved_table *s)
{
    static answer_table a;
    for (size_t i = 0; i < s->answer.len; i++)
        for (size_t more = 0; more < 2; more++) {
            a = s->answer;
            a.numbers[i] = (uint16_t)(more ? a.numbers[i] + 1U : a.numbers[i] - 1U);
            offer(at, "a number changed by one", s, &a);
            if (i % 6 < 4) {
                close_rows(&a);
                offer(at, "a number changed by one, home and high right", s, &a);
            }
        }
}

/* A row left off, or there twice, wherever it stands; and a variable more, or one less. */
static void change_rows(where at, const solved_table *s)
{
    static answer_table a;
    size_t rows = s->answer.len / 6, last = s->answer.numbers[s->answer.len - 6];

    for (size_t off = 0; off < rows; off++)
        for (size_t times = 0; times < 3; times += 2) {
            a.len = 0;
            for (size_t r = 0; r < rows; r++)
                for (size_t i = 0; i < (r == off ? times : 1); i++)
                    put_row(&a, s->answer.numbers + 6 * r);
            offer(at, "a row left off or added", s, &a);
            put_right(&a);
            offer(at, "a row left off or added, fresh number, home and high right", s, &a);
        }
    for (uint16_t kind = 0; kind < 3 && last < 63; kind++) {
        const uint16_t row[6] = {(uint16_t)(last + 1), kind, 1, kind == LW_FRESH ? 4095 : 0, 0, 0};
        a = s->answer;
        put_row(&a, row);
        put_right(&a);
        offer_for(at, "a variable added", s, &a, 46);
    }
    a = s->answer;
    while (a.len != 0 && a.numbers[a.len - 6] == last)
        a.len -= 6;
    offer_for(at, "all rows of the last variable left off", s, &a, 46);
    a.len = 0;
    offer_for(at, "no rows", s, &a, 46);
}

/* A fill of the other bit; and two rows exchanged, with all that keeps the form. */
static void change_order(where at, const solved_table *s)
{
    static answer_table a;
    size_t rows = s->answer.len / 6;

    for (size_t r = 0; r < rows; r++) {
        a = s->answer;
        if (a.numbers[6 * r + 1] != LW_FRESH) {
            a.numbers[6 * r + 1] ^= 1;
            offer(at, "a fill's bit inverted", s, &a);
        }
        for (size_t q = r + 1; q < rows; q++) {
            a = s->answer; /* all but the variable is exchanged */
            memcpy(a.numbers + 6 * r + 1, s->answer.numbers + 6 * q + 1, 5 * sizeof(uint16_t));
            memcpy(a.numbers + 6 * q + 1, s->answer.numbers + 6 * r + 1, 5 * sizeof(uint16_t));
            offer(at, "rows exchanged", s, &a);
            put_right(&a);
            offer(at, "rows exchanged, fresh number, home and high right", s, &a);
        }
    }
}

/* A fresh piece cut in two, wherever it stands; and all of them cut to single bits. */
static void change_pieces(where at, const solved_table *s)
{
    static answer_table a;
    const uint16_t *from = s->answer.numbers;
    size_t rows = s->answer.len / 6;

    for (size_t first = 0; first < rows; first++)
        for (uint16_t width = 1; from[6 * first + 1] == LW_FRESH && width < from[6 * first + 2]; width++) {
            a.len = 0;
            for (size_t r = 0; r < rows; r++) {
                const uint16_t *n = from + 6 * r;
                put_row(&a, n);
                if (n[1] != LW_FRESH || n[3] != from[6 * first + 3])
                    continue;
                a.numbers[a.len - 4] = width;
                put_row(&a, (const uint16_t[]){n[0], LW_FRESH, (uint16_t)(n[2] - width), 60000, 0, 0});
            }
            put_right(&a);
            offer_for(at, "a piece cut in two", s, &a, 46);
        }
    a.len = 0;
    for (size_t r = 0; r < rows; r++)
        for (uint16_t i = 0; i < (from[6 * r + 1] == LW_FRESH ? from[6 * r + 2] : 1); i++) {
            put_row(&a, from + 6 * r);
            if (from[6 * r + 1] == LW_FRESH) {
                a.numbers[a.len - 4] = 1;
                a.numbers[a.len - 3] = (uint16_t)(from[6 * r + 5] + 1024U * from[6 * r + 4] - i); /* by its place */
            }
        }
    put_right(&a);
    offer(at, "single bits", s, &a);
}

/* Tables. */

#define OVERLAP VARIABLE(8), CUT(0, 6, 3), CUT(0, 4, 1), EQUATION(1, 2)
#define SHORT   VARIABLE(8), VARIABLE(12), EQUATION(0, 1)
#define MARKED  VARIABLE(16), VARIABLE(12), FILL(1, 1), FILL(0, 1), JOIN(2, 3), FILL(0, 2), JOIN(4, 1), JOIN(6, 5), \
                EQUATION(0, 7)
#define REVISED VARIABLE(12), CUT(0, 11, 8), MARKER(3, 4), LINE(1, 2, 10), CUT(0, 3, 0), FILL(0, 4), LINE(4, 5, 20), \
                MARKER(0xc, 4), LINE(1, 7, 10)

static const uint16_t overlap[] = {OVERLAP}, sides[] = {SHORT}, marked[] = {MARKED}, revised[] = {REVISED};
static const uint16_t nine[] = {VARIABLE(9), CUT(0, 7, 3), CUT(0, 5, 1), EQUATION(1, 2)};
static const uint16_t ones[] = {VARIABLE(2), FILL(1, 2), EQUATION(0, 1)};
static const uint16_t bits[] = {VARIABLE(6), MARKER(0x13, 6), EQUATION(0, 1)};
static const uint16_t turned[] = {VARIABLE(2), VARIABLE(2), CUT(0, 0, 0), CUT(0, 1, 1), JOIN(2, 3), EQUATION(1, 4)};
static const uint16_t equal[] = {VARIABLE(3), VARIABLE(3), VARIABLE(3), EQUATION(0, 1), EQUATION(2, 1)};
static const uint16_t equal_2[] = {VARIABLE(3), VARIABLE(3), VARIABLE(3), EQUATION(0, 1)};
static const uint16_t far[] = {VARIABLE(2), FILL(1, 1), CUT(0, 1, 1), EQUATION(1, 2), VARIABLE(2), CUT(4, 0, 0),
                                 EQUATION(5, 1), VARIABLE(3)};
static const uint16_t packed[] = {
    VARIABLE(12), VARIABLE(12), VARIABLE(8), VARIABLE(8), VARIABLE(8), CUT(0, 11, 4), CUT(0, 3, 0), CUT(1, 11, 8),
    JOIN(6, 7), CUT(1, 7, 0), EQUATION(2, 5), EQUATION(3, 8), EQUATION(4, 9),
};
static const uint16_t chain[] = {
    VARIABLE(8), VARIABLE(8), VARIABLE(8), CUT(2, 7, 4), FILL(0, 4), EQUATION(0, 1), EQUATION(1, 2), EQUATION(3, 4),
};
static const uint16_t seven[] = {VARIABLE(8), CUT(0, 7, 7), FILL(1, 1), EQUATION(1, 2)};
static const uint16_t seven_0[] = {VARIABLE(8), CUT(0, 7, 7), FILL(0, 1), EQUATION(1, 2)};
static const uint16_t crossed[] = {VARIABLE(8), CUT(0, 4, 1), CUT(0, 6, 3), EQUATION(1, 2), EQUATION(2, 1)};
static const uint16_t always[] = {VARIABLE(8)}, always_2[] = {VARIABLE(8), EQUATION(0, 0), FILL(0, 3), LINE(2, 2, 7)};
static const uint16_t never[] = {VARIABLE(8), FILL(0, 1), FILL(1, 1), EQUATION(1, 2)};
static const uint16_t never_2[] = {OVERLAP, FILL(0, 8), EQUATION(0, 4), FILL(1, 8), EQUATION(0, 6)};
static const uint16_t fills[] = {FILL(0, 3), FILL(0, 3), EQUATION(0, 1)};

static const struct { const uint16_t *numbers; size_t len; } tables[] = {
#define ONE(name) {name, COUNT(name)}
    ONE(overlap), ONE(sides), ONE(marked), ONE(revised), ONE(nine), ONE(ones), ONE(bits), ONE(turned), ONE(equal),
    ONE(equal_2), ONE(far), ONE(packed), ONE(chain), ONE(seven), ONE(seven_0), ONE(crossed), ONE(always),
    ONE(always_2), ONE(never), ONE(never_2), ONE(fills), {NULL, 0},
#undef ONE
};

static solved_table solved[COUNT(tables)];

static void solve_all(void)
{
    for (size_t i = 0; i < COUNT(tables); i++)
        solve(tables[i].numbers, tables[i].len, &solved[i]);
}

void test_other_answers(void)
{
    solve_all();
    memset(seen, 0, sizeof seen);
    for (size_t i = 0; i < COUNT(tables); i++) {
        if (solved[i].record.outcome != 2)
            continue;
        offer_for(HERE, "the right answer", &solved[i], &solved[i].answer, 0);
        change_numbers(HERE, &solved[i]);
        change_rows(HERE, &solved[i]);
        change_order(HERE, &solved[i]);
        change_pieces(HERE, &solved[i]);
    }
    printf("changed answers: accepted %lu, refused 33 %lu, 46 %lu, 34 %lu, 32 %lu\n", seen[0], seen[33], seen[46],
           seen[34], seen[32]);
    check(seen[0] != 0 && seen[33] != 0 && seen[46] != 0 && seen[34] != 0 && seen[32] != 0, HERE,
          "some outcome does not occur");
}

/* Answers of other tables. */

/* Each of two tables with the answer of the other. */
static void exchange(where at, const char *name, const solved_table *s, const solved_table *other)
{
    offer(at, name, s, &other->answer);
    offer(at, name, other, &s->answer);
}

/* The table with one equation less, for each of them: the row that says nothing stands in its place. */
static void test_less(const solved_table *s)
{
    static solved_table less;
    static table t;

    for (size_t i = 0; i < s->len; i += 4) {
        if (s->numbers[i] != LW_EQUATION)
            continue;
        memcpy(t.numbers, s->numbers, s->len * sizeof *s->numbers);
        t.len = s->len;
        memcpy(t.numbers + i, (const uint16_t[]){EQUATION(0, 0)}, 4 * sizeof *t.numbers);
        solve(ALL(t), &less);
        exchange(HERE, "an equation less or more", s, &less);
    }
}

/* A case of revised equations: what counts has the same answer; before a revision there is another. */
static void test_revised(const revised_case *c)
{
    static table t, counting;
    static solved_table s, counts, before;

    make_revised(c, &t, &counting);
    solve(ALL(t), &s);
    solve(ALL(counting), &counts);
    offer_for(HERE, c->name, &s, &counts.answer, s.record.outcome == 2 ? 0 : 46);
    offer_for(HERE, c->name, &counts, &s.answer, s.record.outcome == 2 ? 0 : 46);
    for (size_t len = 4 * REVISED_FRONT; len < t.len; len += 4) {
        solve(t.numbers, len, &before);
        exchange(HERE, "before a revision", &s, &before);
    }
}

void test_other_tables(void)
{
    solve_all();
    memset(seen, 0, sizeof seen);
    for (size_t i = 0; i < COUNT(tables); i++) {
        for (size_t k = 0; k < COUNT(tables); k++)
            if (k != i)
                offer(HERE, "the answer of another table", &solved[i], &solved[k].answer);
        test_less(&solved[i]);
    }
    for (size_t i = 0; i < REVISED_CASES; i++)
        test_revised(&revised_cases[i]);
    printf("answers of other tables: accepted %lu, refused 33 %lu, 46 %lu, 34 %lu, 32 %lu\n", seen[0], seen[33],
           seen[46], seen[34], seen[32]);
    check(seen[0] != 0 && seen[33] == 0 && seen[46] != 0, HERE, "some outcome does not occur");
}

/* The example sheets, and tables beside them, with the outcomes written down. */

static void show(where at, const uint16_t *numbers, size_t len, const uint16_t *answer, size_t answer_len,
                 const uint8_t *fresh, size_t fresh_len, size_t pattern_len, lw_record want, const uint8_t *pattern)
{
    lent in = {.table = numbers, .table_len = len, .answer = answer, .answer_len = answer_len, .fresh = fresh,
               .fresh_len = fresh_len, .pattern_len = pattern_len};
    call_both(at, "shown", in, want, pattern);
}

#define SHOW(...) show(HERE, __VA_ARGS__)

/* The overlap's answer, and others with its table. */
static void test_shown_overlap(void)
{
#define SHEET overlap, COUNT(overlap)
#define OWN   ANSWER(FRESH_AT(0, 1, 0, 0, 7), FRESH_AT(0, 2, 1, 0, 6), FRESH_AT(0, 2, 1, 0, 6), FRESH_AT(0, 2, 1, 0, 6), \
                     FRESH_AT(0, 1, 2, 0, 0))
#define FOUR  BYTES(1, 0, 1, 0)
    SHOW(SHEET, OWN, FOUR, 8, (lw_record){.free = 8}, (const uint8_t[]){1, 0, 1, 0, 1, 0, 1, 0});
    SHOW(SHEET, OWN, BYTES(1, 0, 1), 8, REFUSED(34), NULL);
    SHOW(SHEET, OWN, BYTES(1, 0, 2, 0), 8, REFUSED(34), NULL);
    SHOW(SHEET, OWN, FOUR, 7, REFUSED(32), NULL);
    SHOW(SHEET, OWN, BYTES(1, 0, 1), 7, REFUSED(34), NULL);
    SHOW(SHEET, ANSWER(FRESH_AT(0, 1, 0, 0, 7), FRESH_AT(0, 2, 1, 0, 6), FRESH_AT(0, 2, 1, 0, 6), FRESH_AT(0, 2, 1, 0, 6),
                       FRESH_AT(0, 1, 2, 0, 1)), FOUR, 8, REFUSED(33), NULL); /* the last high 1 */
    SHOW(SHEET, ANSWER(FRESH_AT(0, 1, 0, 0, 7), FRESH_AT(0, 2, 1, 0, 6), FRESH_AT(0, 2, 1, 0, 6),
                       FRESH_AT(0, 2, 1, 0, 6)), FOUR, 8, REFUSED(33), NULL); /* the last row left off */
    SHOW(SHEET, NULL, 0, FOUR, 8, REFUSED(46), NULL);
    SHOW(SHEET, ANSWER(FRESH_AT(0, 8, 0, 0, 7)), BYTES(1, 0, 1), 8, REFUSED(46), NULL);
    SHOW(SHEET, ANSWER(FRESH_AT(0, 1, 0, 0, 7), FRESH_AT(0, 1, 1, 0, 6), FRESH_AT(0, 1, 2, 0, 5), FRESH_AT(0, 1, 1, 0, 6),
                       FRESH_AT(0, 1, 2, 0, 5), FRESH_AT(0, 1, 1, 0, 6), FRESH_AT(0, 1, 2, 0, 5),
                       FRESH_AT(0, 1, 3, 0, 0)), FOUR, 8, REFUSED(46), NULL); /* finer */

    /* With other tables: the marker sheet's, its own first three rows, one kind wrong, and one of the same answer. */
    SHOW(marked, COUNT(marked), OWN, FOUR, 8, REFUSED(46), NULL);
    SHOW(overlap, 12, OWN, FOUR, 8, REFUSED(46), NULL);
    SHOW(TABLE(9, 8, 0, 0, CUT(0, 6, 3), CUT(0, 4, 1), EQUATION(1, 2)), OWN, FOUR, 8, REFUSED(12), NULL);
    SHOW(TABLE(9, 8, 0, 0, CUT(0, 6, 3), CUT(0, 4, 1), EQUATION(1, 2)), TABLE(7), FOUR, 8, REFUSED(12), NULL);
    SHOW(crossed, COUNT(crossed), OWN, FOUR, 8, (lw_record){.free = 8}, (const uint8_t[]){1, 0, 1, 0, 1, 0, 1, 0});
#undef SHEET
#undef OWN
#undef FOUR
}

void test_shown(void)
{
    test_shown_overlap();

    /* One row of two: the highs of the first are wrong without the second, those of the second are right by itself. */
    SHOW(seven, COUNT(seven), ANSWER(ONES_AT(0, 1, 7), FRESH_AT(0, 7, 0, 0, 6)), BYTES(0, 1, 0, 1, 0, 1, 0), 8,
         (lw_record){.free = 8}, (const uint8_t[]){1, 0, 1, 0, 1, 0, 1, 0});
    SHOW(seven, COUNT(seven), ANSWER(FRESH_AT(0, 7, 0, 0, 6)), BYTES(0, 1, 0, 1, 0, 1, 0), 8, REFUSED(46), NULL);
    SHOW(seven, COUNT(seven), ANSWER(ONES_AT(0, 1, 7)), BYTES(0, 1, 0, 1, 0, 1, 0), 8, REFUSED(33), NULL);
    SHOW(always, COUNT(always), ANSWER(FRESH_AT(0, 8, 0, 0, 7)), BYTES(0, 1, 0, 1, 0, 1, 0, 1), 8, REFUSED(46), NULL);

    /* The revised sheet, and the answer of its first eight rows. */
    SHOW(revised, COUNT(revised), ANSWER(ONES_AT(0, 2, 11), ZEROS_AT(0, 2, 9), FRESH_AT(0, 4, 0, 0, 7), ZEROS_AT(0, 4, 3)),
         BYTES(0, 0, 0, 1), 12, (lw_record){.free = 12}, (const uint8_t[]){1, 1, 0, 0, 0, 0, 0, 1, 0, 0, 0, 0});
    SHOW(revised, COUNT(revised), ANSWER(ZEROS_AT(0, 2, 11), ONES_AT(0, 2, 9), FRESH_AT(0, 4, 0, 0, 7), ZEROS_AT(0, 4, 3)),
         BYTES(0, 0, 0, 1), 12, REFUSED(46), NULL);
    SHOW(revised, 32, ANSWER(ZEROS_AT(0, 2, 11), ONES_AT(0, 2, 9), FRESH_AT(0, 4, 0, 0, 7), ZEROS_AT(0, 4, 3)),
         BYTES(0, 0, 0, 1), 12, (lw_record){.free = 12}, (const uint8_t[]){0, 0, 1, 1, 0, 0, 0, 1, 0, 0, 0, 0});

    /* The short sheet, and the first row of its answer alone: all rows of the last variable are left off. */
    SHOW(sides, COUNT(sides), ANSWER(FRESH_AT(0, 8, 0, 0, 7), ZEROS_AT(1, 4, 11), FRESH_AT(1, 8, 0, 0, 7)),
         BYTES(0, 0, 0, 0, 0, 0, 0, 1), 20, (lw_record){.free = 20},
         (const uint8_t[]){0, 0, 0, 0, 0, 0, 0, 1, 0, 0, 0, 0, 0, 0, 0, 0, 0, 0, 0, 1});
    SHOW(sides, COUNT(sides), ANSWER(FRESH_AT(0, 8, 0, 0, 7)), BYTES(0, 0, 0, 0, 0, 0, 0, 1), 20, REFUSED(46), NULL);
}

/* 10 and the table's refusals, with everything behind them right, and wrong. */

static const uint16_t right[] = {
    FRESH_AT(0, 1, 0, 0, 7), FRESH_AT(0, 2, 1, 0, 6), FRESH_AT(0, 2, 1, 0, 6), FRESH_AT(0, 2, 1, 0, 6),
    FRESH_AT(0, 1, 2, 0, 0),
};
static const struct { size_t answer_len; size_t fresh_len; size_t pattern_len; } behind[] = {
    {COUNT(right), 4, 8}, {7, 4, 8}, {0, 4, 8}, {COUNT(right), 3, 8}, {COUNT(right), 4, 7}, {7, 3, 0}, {0, 9, 0},
};

/* A table is refused with this record, whatever is behind; and 10 with each work area that is too short. */
static void refuse_table(where at, const uint16_t *numbers, size_t len, uint32_t number, uint32_t row)
{
    static const uint8_t fresh[] = {1, 0, 1, 0, 2, 2, 2, 2, 2};
    static const size_t below_least[] = {0, 1, AREA - 1};

    for (size_t i = 0; i < COUNT(behind); i++) {
        lent in = {.table = numbers, .table_len = len, .answer = right, .answer_len = behind[i].answer_len,
                   .fresh = fresh, .fresh_len = behind[i].fresh_len, .pattern_len = behind[i].pattern_len};
        if (number != 0)
            call_both(at, "table refused", in, (lw_record){.outcome = number, .row = row}, NULL);
        in.work_len = below_least[i % COUNT(below_least)];
        call(at, "work area too short", &in, REFUSED(10), NULL);
    }
}

void test_memory_and_table(void)
{
    for (size_t i = 0; i < COUNT(tables); i++)
        refuse_table(HERE, tables[i].numbers, tables[i].len, 0, 0);
    refuse_one_by_one(refuse_table);
    refuse_two_at_once(refuse_table);
    refuse_beyond_maximum(refuse_table);
    refuse_too_long(refuse_table);
}
