/*
  test_rows.c -- tests of lw_value_rows, lw_normal_form_rows and lw_solve_rows

      test_rows [TABLES]

  TABLES random tables (20000 if not given), sound and with one fault or two,
  and runs of up to 70000 rows. Each call is made twice on guarded buffers of
  the same content: on rows, and on the numbers of these rows by the call on
  numbers, for a solve by both of them, lw_solve and lw_solve_pieces. The records
  and every byte of the buffers must be the same, and the rows unchanged. And each
  refusal of a table by itself, with the number and the row that the specification
  gives.
*/

#include "guard.h"
#include "linkwords.h"
#include "random_table.h"
#include "refused_tables.h"
#include "revised_tables.h"

enum { ANSWER = LW_ANSWER_NUMBERS, WORK = LW_WORK_NUMBERS };

static unsigned long outcomes[64];

/* A table as two arguments: its numbers and its rows. */
#define ALL_ROWS(t) (t).numbers, (t).len / 4

/* The records of a run of numbers; count of them. */
static guarded records(const uint16_t *numbers, size_t count)
{
    guarded g = guard(NULL, count * sizeof(lw_row));
    lw_row *rows = guarded_buffer(&g);
    for (size_t i = 0; i < count; i++)
        rows[i] = (lw_row){numbers[4 * i], numbers[4 * i + 1], numbers[4 * i + 2], numbers[4 * i + 3]};
    memcpy(g.kept, g.block, g.size);
    return g;
}

/* The buffer of one call ought to hold what that of the other holds. */
static void same(guarded *got, guarded *want, const char *name)
{
    memcpy(got->kept, want->block, got->size);
    guard_check(got, HERE, name);
    free(want->block);
    free(want->kept);
}

static void value(const uint16_t *numbers, size_t count, size_t row, const uint8_t *pattern, size_t pattern_len,
                  size_t room)
{
    guarded r = records(numbers, count), got = guard(NULL, room), want = guard(NULL, room);
    lw_record wanted = lw_value(numbers, 4 * count, row, pattern, pattern_len, guarded_buffer(&want), room);
    lw_record found = lw_value_rows(guarded_buffer(&r), count, row, pattern, pattern_len, guarded_buffer(&got), room);
    check_record(HERE, "lw_value_rows", found, wanted);
    same(&got, &want, "value");
    guard_check(&r, HERE, "rows of a value");
    outcomes[wanted.outcome]++;
}

static void form(const uint16_t *numbers, size_t count, size_t row, size_t room)
{
    guarded r = records(numbers, count), got = guard(NULL, 2 * room), want = guard(NULL, 2 * room);
    lw_record wanted = lw_normal_form(numbers, 4 * count, row, guarded_buffer(&want), room);
    lw_record found = lw_normal_form_rows(guarded_buffer(&r), count, row, guarded_buffer(&got), room);
    check_record(HERE, "lw_normal_form_rows", found, wanted);
    same(&got, &want, "form");
    guard_check(&r, HERE, "rows of a normal form");
    outcomes[wanted.outcome]++;
}

typedef lw_record solver(const uint16_t *, size_t, uint16_t *, size_t, uint16_t *, size_t);

static void solve_by(solver *by, const char *name, const uint16_t *numbers, size_t count, size_t answer_len,
                     size_t work_len)
{
    guarded r = records(numbers, count);
    guarded answer = guard(NULL, 2 * answer_len), want_answer = guard(NULL, 2 * answer_len);
    guarded work = guard(NULL, 2 * work_len), want_work = guard(NULL, 2 * work_len);
    lw_record wanted = by(numbers, 4 * count, guarded_buffer(&want_answer), answer_len, guarded_buffer(&want_work),
                          work_len);
    lw_record found = lw_solve_rows(guarded_buffer(&r), count, guarded_buffer(&answer), answer_len,
                                    guarded_buffer(&work), work_len);
    check_record(HERE, name, found, wanted);
    same(&answer, &want_answer, "answer");
    same(&work, &want_work, "work");
    guard_check(&r, HERE, "rows of a solve");
    outcomes[wanted.outcome]++;
}

static void solve(const uint16_t *numbers, size_t count, size_t answer_len, size_t work_len)
{
    solve_by(lw_solve, "lw_solve_rows, lw_solve", numbers, count, answer_len, work_len);
    solve_by(lw_solve_pieces, "lw_solve_rows, lw_solve_pieces", numbers, count, answer_len, work_len);
}

static void all_three(const uint16_t *numbers, size_t count, size_t bits)
{
    static uint8_t pattern[4096 + 8];
    size_t row = count == 0 ? 0 : below(count + 1), len = one_in(8) ? below(sizeof pattern) : bits;
    for (size_t i = 0; i < len && i < sizeof pattern; i++)
        pattern[i] = one_in(20000) ? 2 : (uint8_t)below(2);
    value(numbers, count, row, pattern, len < sizeof pattern ? len : sizeof pattern, one_in(3) ? below(1024) : 1024);
    form(numbers, count, row, one_in(8) ? below(4096) : 4096 + below(3));
    solve(numbers, count, one_in(8) ? below(ANSWER) : ANSWER + below(3), one_in(8) ? below(WORK) : WORK + below(3));
}

static void test_random(unsigned long tables)
{
    static draft d;
    for (unsigned long i = 0; i < tables; i++) {
        make_table(&d);
        if (one_in(2))
            damage(&d, some_refusal(12));
        if (one_in(4))
            damage(&d, some_refusal(12));
        all_three(d.t.numbers, d.rows, d.bits);
    }
}

/* Every length near 512 rows, and long runs, whose first 512 rows alone are a table. */
static void test_long(void)
{
    enum { LONGEST = 70000 };
    static uint16_t numbers[4 * LONGEST];
    static const size_t counts[] = {0, 1, 2, 510, 511, 512, 513, 514, 515, 516, 1000, 1024, 1025, 2000, 16384, 16385,
                                    65535, 65536, 65537, 65536 + 512, LONGEST};
    for (size_t i = 0; i < LONGEST; i++) {
        const uint16_t variable[] = {VARIABLE(1)}, fill[] = {FILL(1, 3)}, cut[] = {CUT(0, 0, 0)};
        memcpy(numbers + 4 * i, i == 0 ? variable : i % 2 ? fill : cut, 4 * sizeof *numbers);
    }
    for (size_t c = 0; c < COUNT(counts); c++) {
        static const uint8_t one[] = {1};
        size_t bits = counts[c] == 0 ? 0 : 1;
        value(numbers, counts[c], 0, one, bits, 3);
        value(numbers, counts[c], counts[c] / 2, one, bits, 3);
        value(numbers, counts[c], 512, one, bits, 3);
        form(numbers, counts[c], 0, 4096);
        form(numbers, counts[c], 512, 4096);
        solve(numbers, counts[c], ANSWER, WORK);
        solve(numbers, counts[c], ANSWER - 1, WORK);
        solve(numbers, counts[c], ANSWER, WORK - 1);
    }
}

/* A table that each of the calls refuses; one that is not whole rows cannot be lent so. */
static void refuse(where at, const uint16_t *numbers, size_t len, uint32_t number, uint32_t row)
{
    if (len % 4 != 0)
        return;
    lw_record want = {.outcome = number, .row = row};
    guarded r = records(numbers, len / 4), value = guard(NULL, 1024), form = guard(NULL, 2 * 4096);
    guarded answer = guard(NULL, 2 * ANSWER), work = guard(NULL, 2 * WORK);
    const lw_row *rows = guarded_buffer(&r);

    check_record(at, "value", lw_value_rows(rows, len / 4, 0, NULL, 0, guarded_buffer(&value), 1024), want);
    check_record(at, "form", lw_normal_form_rows(rows, len / 4, 0, guarded_buffer(&form), 4096), want);
    check_record(at, "solve",
                 lw_solve_rows(rows, len / 4, guarded_buffer(&answer), ANSWER, guarded_buffer(&work), WORK), want);
    guard_check(&value, at, "value of a refusal");
    guard_check(&form, at, "form of a refusal");
    guard_check(&answer, at, "answer of a refusal");
    guard_check(&work, at, "work of a refusal");
    guard_check(&r, at, "rows of a refusal");
}

static void test_refusals(void)
{
    refuse_one_by_one(refuse);
    refuse_two_at_once(refuse);
    refuse_beyond_maximum(refuse);
    refuse_too_long(refuse);
}

/* NULL with 0. */
static void test_null(void)
{
    static uint16_t answer[ANSWER], work[WORK], out[4096];
    lw_record row = {.outcome = LW_REFUSED_ROW}, memory = {.outcome = LW_REFUSED_MEMORY};
    lw_record always = {.outcome = LW_ALWAYS};
    check_record(HERE, "value", lw_value_rows(NULL, 0, 0, NULL, 0, NULL, 0), row);
    check_record(HERE, "form", lw_normal_form_rows(NULL, 0, 0, NULL, 0), row);
    check_record(HERE, "form", lw_normal_form_rows(NULL, 0, SIZE_MAX, out, 4096), row);
    check_record(HERE, "solve", lw_solve_rows(NULL, 0, NULL, 0, NULL, 0), memory);
    check_record(HERE, "solve", lw_solve_rows(NULL, 0, answer, ANSWER, work, WORK), always);
}

/* A marker as a record: its value, its form, and a word that is equal to it. */
static void test_marker(void)
{
    static const lw_row rows[] = {{LW_VARIABLE, 3, 0, 0}, {LW_VALUE, 6, 3, 0}, {LW_EQUATION, 0, 1, 0}};
    static const uint8_t pattern[] = {0, 0, 1}, bits[] = {1, 1, 0};
    static const uint16_t pieces[] = {1, 0, 1, 0, 0, 0, 0, 0}, fills[] = {0, 1, 2, 0, 0, 2, 0, 0, 1, 0, 0, 0};
    static uint16_t answer[ANSWER], work[WORK], out[4096];
    uint8_t got[3];

    check_record(HERE, "value", lw_value_rows(rows, 3, 1, pattern, 3, got, 3), (lw_record){.free = 3});
    check(memcmp(got, bits, sizeof bits) == 0, HERE, "value %u %u %u", got[0], got[1], got[2]);
    check_record(HERE, "form", lw_normal_form_rows(rows, 3, 1, out, 4096), (lw_record){.pieces = 2, .free = 3});
    check(memcmp(out, pieces, sizeof pieces) == 0, HERE, "form");
    check_record(HERE, "solve", lw_solve_rows(rows, 3, answer, ANSWER, work, WORK),
                 (lw_record){.outcome = 2, .pieces = 2, .ties = 3});
    check(memcmp(answer, fills, sizeof fills) == 0, HERE, "answer");
}

/* Sides of unequal width as records, in either order: the narrower word has zeros at its high end. */
static void test_short(void)
{
    static const uint16_t rows_of_answer[] = {0, 0, 2, 0, 0, 4, 0, 2, 3, 0, 0, 2, 1, 2, 3, 0, 0, 2};
    static uint16_t answer[ANSWER], work[WORK];

    for (uint16_t left = 0; left < 2; left++) {
        const lw_row rows[] = {{LW_VARIABLE, 5, 0, 0}, {LW_VARIABLE, 3, 0, 0}, {LW_EQUATION, left, left ^ 1, 0}};
        memset(answer, 9, sizeof answer);
        check_record(HERE, "solve", lw_solve_rows(rows, 3, answer, ANSWER, work, WORK),
                     (lw_record){.outcome = 2, .pieces = 3, .fresh = 1, .free = 3, .ties = 5});
        check(memcmp(answer, rows_of_answer, sizeof rows_of_answer) == 0, HERE, "answer");
    }
}

/* Both tables as records: one record, which is this one, and the same buffers. */
static void solve_revised(where at, const char *name, const table *revised, const table *counting, lw_record want)
{
    guarded r = records(ALL_ROWS(*revised)), c = records(ALL_ROWS(*counting));
    guarded answer = guard(NULL, 2 * ANSWER), want_answer = guard(NULL, 2 * ANSWER);
    guarded work = guard(NULL, 2 * WORK), want_work = guard(NULL, 2 * WORK);
    check_record(at, name, lw_solve_rows(guarded_buffer(&c), counting->len / 4, guarded_buffer(&want_answer), ANSWER,
                                         guarded_buffer(&want_work), WORK), want);
    check_record(at, name, lw_solve_rows(guarded_buffer(&r), revised->len / 4, guarded_buffer(&answer), ANSWER,
                                         guarded_buffer(&work), WORK), want);
    same(&answer, &want_answer, "answer of a revised table");
    same(&work, &want_work, "work of a revised table");
    guard_check(&r, at, "rows of a revised table");
    guard_check(&c, at, "rows of its counting equations");
}

/* Revised equations: the answer is that of the equations that count. Values and forms ask no equation. */
static void test_revised(void)
{
    static table revised, counting;

    for (size_t i = 0; i < REVISED_CASES; i++) {
        make_revised(&revised_cases[i], &revised, &counting);
        solve_revised(HERE, revised_cases[i].name, &revised, &counting, revised_cases[i].want);
        all_three(ALL_ROWS(revised), 16);
    }
    for (size_t line = 1; line <= 65535; line += 13107) {
        make_one_line(&revised, 64, line);
        make_one_line(&counting, 1, 0);
        solve_revised(HERE, "64 equations of one line", &revised, &counting,
                      (lw_record){.outcome = 2, .pieces = 2, .fresh = 1, .free = 8, .ties = 8});
        make_one_line(&revised, 65, line);
        refuse(HERE, ALL(revised), 17, REVISED_FRONT + 64);
    }
}

/* Each outcome was had. */
static void test_outcomes(void)
{
    static const unsigned seen[] = {0, 1, 2, 10, 11, 12, 13, 14, 15, 40, 16, 17, 30, 31, 32};

    check_outcomes(HERE, outcomes, COUNT(outcomes), seen, COUNT(seen));
    check(outcomes[18] == 0, HERE, "outcome 18 occurred");
}

const test_list tests = {
    .name = "rows", .inputs = 20000,
    .groups = {
        {.name = "no records", .run = test_null},
        {.name = "a marker", .run = test_marker},
        {.name = "sides of unequal width", .run = test_short},
        {.name = "revised equations", .run = test_revised},
        {.name = "refusals 11 to 17, 40", .run = test_refusals},
        {.name = "long runs", .run = test_long},
        {.name = "random tables", .run_random = test_random},
        {.name = "outcomes", .run = test_outcomes},
    },
};
