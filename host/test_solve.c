/*
  test_solve.c -- tests of lw_solve, lw_solve_pieces and lw_right_side

      test_solve [TABLES]

  Every table goes through both solvers. First answers and refusals worked by
  hand, and the right sides. Then TABLES random tables of up to 14 variable bits
  (100000 if not given), on which the library is compared with the enumeration of
  all patterns (enumerate.c), and so is the plain solver (plain_solver.c); a fifth
  as many tables that are damaged; and 2000 tables of up to 4096 variable bits, on
  which the library is compared with the plain solver. Every call is made on
  guarded buffers, and its record and every number of every buffer are compared.
  What lw_solve_pieces is most likely to get wrong is in test_pieces.c.

  The run fails too if some kind of random table is too rare; so there should be
  at least 1000.
*/

#include "answer_rows.h"
#include "enumerate.h"
#include "guard.h"
#include "large_table.h"
#include "linkwords.h"
#include "plain_solver.h"
#include "refused_tables.h"
#include "reference.h"
#include "revised_tables.h"
#include "small_table.h"

/* Least numbers of an answer table and of a work area; and more than either. */
enum { ANSWER_LEAST = 24576, WORK_LEAST = 16384, LONGEST = 32768, LARGE_TABLES = 2000 };

#define NO_ANSWER NULL, 0

/* Records in the order of their fields, as the specification prints them. */
#define ALWAYS(free)                      (lw_record){0, 0, 0, (free), 0, 0}
#define NEVER(ties, row)                  (lw_record){1, 0, 0, 0, (ties), (row)}
#define SOLVED(pieces, fresh, free, ties) (lw_record){2, (pieces), (fresh), (free), (ties), 0}

/* Calls and what they are compared with. */

static const uint16_t zeros[LONGEST];

static void print_answer(const char *name, const uint16_t *answer, size_t rows)
{
    printf("  %s:", name);
    for (size_t i = 0; i < rows && i < 16; i++, answer += 6)
        printf(" (%u %u %u %u %u %u)", answer[0], answer[1], answer[2], answer[3], answer[4], answer[5]);
    printf("%s\n", rows > 16 ? " .." : "");
}

/* The right side of a variable, by a plain loop. */
static lw_part plain_right_side(const uint16_t *answer, size_t answer_len, size_t rows, size_t variable)
{
    size_t first = 0, behind;

    if (rows > answer_len / 6)
        return (lw_part){0, 0};
    while (first < rows && answer[6 * first] != variable)
        first++;
    if (first == rows)
        return (lw_part){0, 0};
    for (behind = first; behind < rows && answer[6 * behind] == variable; behind++)
        ;
    return (lw_part){6 * first, 6 * (behind - first)};
}

static bool check_part(where at, const char *name, lw_part got, lw_part want)
{
    return check(got.start == want.start && got.len == want.len, at,
                 "%s: part {%zu, %zu}, expected {%zu, %zu}", name, got.start, got.len, want.start, want.len);
}

/* In an answer of this table, the parts of variables 0, 1, .. are not empty and cover the rows in use. */
static void check_parts(where at, const uint16_t *numbers, size_t len, const uint16_t *answer, size_t answer_len,
                        size_t rows)
{
    size_t variables = 0, covered = 0;
    bool each = true;

    for (size_t i = 0; i < len; i += 4)
        if (numbers[i] == LW_VARIABLE) {
            lw_part part = lw_right_side(answer, answer_len, rows, variables);
            lw_part want = plain_right_side(answer, answer_len, rows, variables++);
            each = each && part.start == want.start && part.len == want.len && part.start == covered && part.len != 0;
            covered += part.len;
        }
    check(each && covered == 6 * rows, at, "the right sides cover %zu of %zu numbers", covered, 6 * rows);
    check_part(at, "variable that there is not", lw_right_side(answer, answer_len, rows, variables),
               (lw_part){0, 0});
}

/* The two solvers, of which all that is tested here is asked. */
typedef struct {
    const char *name;
    lw_record (*solve)(const uint16_t *, size_t, uint16_t *, size_t, uint16_t *, size_t);
} solver;

static const solver solvers[] = {{"lw_solve", lw_solve}, {"lw_solve_pieces", lw_solve_pieces}};

/*
  One call: the record; table unchanged; want_answer as the first
  6 * want.pieces numbers of the answer table, and behind them what was there
  before; each number of the work area 0 if the call is accepted, else what was
  there before. Where content is not NULL, both buffers have its numbers before
  the call.
*/
static void call_one(const solver *s, where at, const char *name, const uint16_t *numbers, size_t len,
                     const uint16_t *content, size_t answer_len, size_t work_len, lw_record want,
                     const uint16_t *want_answer)
{
    unsigned long failed = checks_failed;
    guarded t = guard(numbers, len * sizeof *numbers);
    guarded a = guard(content, answer_len * sizeof *content);
    guarded w = guard(content, work_len * sizeof *content);
    static uint16_t start[6 * 16]; /* of the answer, to be printed */

    lw_record got = s->solve(guarded_buffer(&t), len, guarded_buffer(&a), answer_len, guarded_buffer(&w), work_len);
    if (want.outcome == 2)
        guard_expect(&a, want_answer, 6 * want.pieces * sizeof *want_answer);
    if (want.outcome <= 2)
        guard_expect(&w, zeros, work_len * sizeof *zeros);
    if (answer_len >= COUNT(start))
        memcpy(start, guarded_buffer(&a), sizeof start);
    check_record(at, name, got, want);
    if (want.outcome == 2 && got.outcome == 2)
        check_parts(at, numbers, len, guarded_buffer(&a), answer_len, got.pieces);
    guard_check(&t, at, "table");
    guard_check(&a, at, "answer");
    guard_check(&w, at, "work area");
    if (checks_failed != failed && failed == 0) {
        printf("  %s: %s, answer of %zu numbers, work area of %zu\n", s->name, name, answer_len, work_len);
        print_table(numbers, len);
        if (want.outcome == 2 && got.outcome == 2) {
            print_answer("answer", start, got.pieces);
            print_answer("expected", want_answer, want.pieces);
        }
    }
}

/* One call to each solver. */
static void call(where at, const char *name, const uint16_t *numbers, size_t len, const uint16_t *content,
                 size_t answer_len, size_t work_len, lw_record want, const uint16_t *want_answer)
{
    for (size_t i = 0; i < COUNT(solvers); i++)
        call_one(&solvers[i], at, name, numbers, len, content, answer_len, work_len, want, want_answer);
}

static bool same_answer(lw_record record, const uint16_t *a, const uint16_t *b)
{
    return record.outcome != 2 || memcmp(a, b, 6 * record.pieces * sizeof *a) == 0;
}

/* Enumeration and plain solver give this answer too, the enumeration if the table is small. */
static void check_others(where at, const char *name, const uint16_t *numbers, size_t len, lw_record want,
                         const uint16_t *want_answer)
{
    static ref_table facts;
    static uint16_t answer[ANSWER_LEAST];
    static enumeration found;

    lw_record record = ref_check(numbers, len, &facts);
    if (!check(record.outcome == 0, at, "%s: refused %u", name, record.outcome))
        return;
    record = plain_solve(numbers, &facts, answer);
    if (!check(same_record(record, want) && same_answer(want, answer, want_answer), at,
               "%s: the plain solver's answer is another", name) && checks_failed == 1) {
        print_table(numbers, len);
        check_record(at, "plain solver", record, want);
        print_answer("plain solver", answer, record.pieces);
        print_answer("expected", want_answer, want.pieces);
    }
    if (facts.bits > ENUM_BITS)
        return;
    enumerate(numbers, &facts, &found);
    if (!check(same_record(found.record, want) && same_answer(want, found.answer, want_answer), at,
               "%s: the enumeration's answer is another", name) && checks_failed == 1) {
        check_record(at, "enumeration", found.record, want);
        print_answer("enumeration", found.answer, found.record.pieces);
    }
}

/*
  The table has this record and this answer, rows of six numbers: with buffers of
  exactly 24576 and 16384 numbers and with longer ones, whatever stands there
  before.
*/
static void accept_rows(where at, const uint16_t *numbers, size_t len, lw_record want, const uint16_t *answer,
                        size_t answer_len)
{
    static uint16_t content[ANSWER_LEAST];
    static const uint16_t likes[] = {0, 1, 2, 65535};

    check(answer_len == 6 * (size_t)want.pieces, at, "expected answer of %zu numbers, %u pieces",
          answer_len, want.pieces); /* a slip in what is expected is found too */
    check_others(at, "worked by hand", numbers, len, want, answer);
    call(at, "accepted", numbers, len, NULL, ANSWER_LEAST, WORK_LEAST, want, answer);
    call(at, "accepted, longer answer table", numbers, len, NULL, ANSWER_LEAST + 9, WORK_LEAST, want, answer);
    call(at, "accepted, longer work area", numbers, len, NULL, ANSWER_LEAST, WORK_LEAST + 1, want, answer);
    call(at, "accepted, both longer", numbers, len, NULL, LONGEST, LONGEST, want, answer);
    for (size_t k = 0; k < COUNT(likes); k++) {
        for (size_t i = 0; i < ANSWER_LEAST; i++)
            content[i] = likes[k];
        call(at, "accepted, buffers of like numbers", numbers, len, content, ANSWER_LEAST, WORK_LEAST, want, answer);
    }
}

/* The same, with an answer written down by the first four numbers of its rows. */
static void accept(where at, const uint16_t *numbers, size_t len, lw_record want, const uint16_t *four, size_t four_len)
{
    static uint16_t six[ANSWER_LEAST];
    add_homes(four, four_len / 4, six);
    accept_rows(at, numbers, len, want, six, four_len / 4 * 6);
}

/* The table is refused; and if a buffer is too short, that is told instead. */
static void refuse_table(where at, const uint16_t *numbers, size_t len, uint32_t number, uint32_t row)
{
    lw_record want = {.outcome = number, .row = row}, memory = {.outcome = 10};
    call(at, "refused", numbers, len, NULL, ANSWER_LEAST, WORK_LEAST, want, NULL);
    call(at, "refused, longer buffers", numbers, len, NULL, ANSWER_LEAST + 9, LONGEST, want, NULL);
    call(at, "refused, answer table too short", numbers, len, NULL, ANSWER_LEAST - 1, WORK_LEAST, memory, NULL);
    call(at, "refused, work area too short", numbers, len, NULL, ANSWER_LEAST, WORK_LEAST - 1, memory, NULL);
    call(at, "refused, both too short", numbers, len, NULL, 0, 0, memory, NULL);
}

#define ACCEPT(...)       accept(HERE, __VA_ARGS__)
#define ACCEPT_ROWS(...)  accept_rows(HERE, __VA_ARGS__)
#define REFUSE_TABLE(...) refuse_table(HERE, __VA_ARGS__)

/* The header's numbers are those of the specification. */
static void test_constants(void)
{
    static const constant constants[] = {
        CONSTANT(LW_ALWAYS, 0), CONSTANT(LW_NEVER, 1), CONSTANT(LW_SOLVED, 2), CONSTANT(LW_FRESH, 2),
        CONSTANT(LW_REFUSED_MEMORY, 10), CONSTANT(LW_ANSWER_NUMBERS, 24576), CONSTANT(LW_WORK_NUMBERS, 16384),
        CONSTANT(LW_ANSWER_ROW_NUMBERS, 6),
    };
    check_constants(HERE, constants, COUNT(constants));
    check(sizeof(lw_part) == 2 * sizeof(size_t), HERE, "a part has %zu bytes", sizeof(lw_part));
}

/* The specification's cases 1 to 9; case 10 is about a sheet alone. */
static void test_worked(void)
{
    ACCEPT(TABLE(VARIABLE(8), CUT(0, 6, 3), CUT(0, 4, 1), EQUATION(1, 2)), SOLVED(5, 3, 4, 4),
           ANSWER(FRESH(0, 1, 0), FRESH(0, 2, 1), FRESH(0, 2, 1), FRESH(0, 2, 1), FRESH(0, 1, 2)));
    ACCEPT(TABLE(VARIABLE(9), CUT(0, 7, 3), CUT(0, 5, 1), EQUATION(1, 2)), SOLVED(9, 4, 4, 5),
           ANSWER(FRESH(0, 1, 0), FRESH(0, 1, 1), FRESH(0, 1, 2), FRESH(0, 1, 1), FRESH(0, 1, 2), FRESH(0, 1, 1),
                  FRESH(0, 1, 2), FRESH(0, 1, 1), FRESH(0, 1, 3)));
    ACCEPT(TABLE(VARIABLE(4), EQUATION(0, 0)), ALWAYS(4), NO_ANSWER);
    ACCEPT(TABLE(FILL(0, 1), FILL(1, 1), EQUATION(0, 1)), NEVER(0, 2), NO_ANSWER);
    ACCEPT(TABLE(VARIABLE(1), VARIABLE(1), FILL(0, 1), FILL(1, 1), EQUATION(0, 1), EQUATION(1, 2), EQUATION(0, 3)),
           NEVER(2, 6), NO_ANSWER);
    ACCEPT(NULL, 0, ALWAYS(0), NO_ANSWER);
    ACCEPT(TABLE(VARIABLE(1024)), ALWAYS(1024), NO_ANSWER);
    ACCEPT(TABLE(FILL(1, 1024)), ALWAYS(0), NO_ANSWER);
    ACCEPT(TABLE(VARIABLE(512), JOIN(0, 0)), ALWAYS(512), NO_ANSWER);
    REFUSE_TABLE(TABLE(VARIABLE(1025)), 15, 0);
    REFUSE_TABLE(TABLE(FILL(1, 1025)), 15, 0);
    REFUSE_TABLE(TABLE(VARIABLE(512), VARIABLE(513), JOIN(0, 1)), 15, 2);
    ACCEPT(TABLE(VARIABLE(8), CUT(0, 7, 0)), ALWAYS(8), NO_ANSWER);
    ACCEPT(TABLE(VARIABLE(8), CUT(0, 7, 0), EQUATION(0, 1)), ALWAYS(8), NO_ANSWER);
    REFUSE_TABLE(TABLE(VARIABLE(8), CUT(0, 8, 0)), 16, 1);
    ACCEPT(TABLE(VARIABLE(8), CUT(0, 7, 4), CUT(0, 3, 0), JOIN(1, 2), EQUATION(0, 3)), ALWAYS(8), NO_ANSWER);
}

/* The specification's sheet, read and solved, and its record and answer table printed as there. */
static void print_sheet(const solver *s)
{
    static const char sheet[] = "kind a b c\n0 8 0 0\n3 0 6 3\n3 0 4 1\n4 1 2 0\n";
    static const char want[] = "outcome pieces fresh free ties row\n2 5 3 4 4 0\nvariable kind width fresh home high\n"
                               "0 2 1 0 0 7\n0 2 2 1 0 6\n0 2 2 1 0 6\n0 2 2 1 0 6\n0 2 1 2 0 0\n";
    static uint16_t numbers[LW_TABLE_NUMBERS], answer[ANSWER_LEAST], work[WORK_LEAST];
    char got[1024];

    lw_record read = lw_read_sheet((const uint8_t *)sheet, strlen(sheet), numbers, LW_TABLE_NUMBERS);
    check_record(HERE, "sheet", read, (lw_record){.pieces = 4});
    lw_record r = s->solve(numbers, 4 * (size_t)read.pieces, answer, ANSWER_LEAST, work, WORK_LEAST);
    int n = snprintf(got, sizeof got, "outcome pieces fresh free ties row\n%u %u %u %u %u %u\n"
                     "variable kind width fresh home high\n", r.outcome, r.pieces, r.fresh, r.free, r.ties, r.row);
    for (const uint16_t *row = answer; row < answer + 6 * r.pieces && row < answer + 6 * 16; row += 6)
        n += snprintf(got + n, sizeof got - (size_t)n, "%u %u %u %u %u %u\n", row[0], row[1], row[2], row[3], row[4],
                      row[5]);
    check(strcmp(got, want) == 0, HERE, "%s printed:\n%sexpected:\n%s", s->name, got, want);
}

static void test_sheet(void)
{
    for (size_t i = 0; i < COUNT(solvers); i++)
        print_sheet(&solvers[i]);
}

/* Fresh pieces: where one ends and where it may not. */
static void test_pieces(void)
{
    /* A word that stands twice, whole and in parts; and one that no equation reaches. */
    ACCEPT(TABLE(VARIABLE(2), VARIABLE(2), EQUATION(0, 1)), SOLVED(2, 1, 2, 2), ANSWER(FRESH(0, 2, 0), FRESH(1, 2, 0)));
    ACCEPT(TABLE(VARIABLE(4), VARIABLE(2), VARIABLE(2), JOIN(1, 2), EQUATION(0, 3)), SOLVED(4, 2, 4, 4),
           ANSWER(FRESH(0, 2, 0), FRESH(0, 2, 1), FRESH(1, 2, 0), FRESH(2, 2, 1)));
    ACCEPT(TABLE(VARIABLE(4), VARIABLE(2), VARIABLE(2), JOIN(2, 1), EQUATION(0, 3)), SOLVED(4, 2, 4, 4),
           ANSWER(FRESH(0, 2, 0), FRESH(0, 2, 1), FRESH(1, 2, 1), FRESH(2, 2, 0)));
    ACCEPT(TABLE(VARIABLE(5), VARIABLE(2), VARIABLE(2), EQUATION(1, 2)), SOLVED(3, 2, 7, 2),
           ANSWER(FRESH(0, 5, 0), FRESH(1, 2, 1), FRESH(2, 2, 1)));

    /* Only the bits tied to the higher of two neighbours stand apart, or only those tied to the lower. */
    ACCEPT(TABLE(VARIABLE(2), VARIABLE(1), CUT(0, 1, 1), EQUATION(1, 2)), SOLVED(3, 2, 2, 1),
           ANSWER(FRESH(0, 1, 0), FRESH(0, 1, 1), FRESH(1, 1, 0)));
    ACCEPT(TABLE(VARIABLE(2), VARIABLE(1), CUT(0, 0, 0), EQUATION(1, 2)), SOLVED(3, 2, 2, 1),
           ANSWER(FRESH(0, 1, 0), FRESH(0, 1, 1), FRESH(1, 1, 1)));

    /* Side by side in a pattern, but in two variables: before and behind the word that they are tied to. */
    ACCEPT(TABLE(VARIABLE(1), VARIABLE(1), VARIABLE(2), JOIN(0, 1), EQUATION(2, 3)), SOLVED(4, 2, 2, 2),
           ANSWER(FRESH(0, 1, 0), FRESH(1, 1, 1), FRESH(2, 1, 0), FRESH(2, 1, 1)));
    ACCEPT(TABLE(VARIABLE(2), VARIABLE(1), VARIABLE(1), JOIN(1, 2), EQUATION(0, 3)), SOLVED(4, 2, 2, 2),
           ANSWER(FRESH(0, 1, 0), FRESH(0, 1, 1), FRESH(1, 1, 0), FRESH(2, 1, 1)));

    /* In reverse order; and neighbours tied to each other. */
    ACCEPT(TABLE(VARIABLE(2), VARIABLE(2), CUT(0, 0, 0), CUT(0, 1, 1), JOIN(2, 3), EQUATION(1, 4)), SOLVED(4, 2, 2, 2),
           ANSWER(FRESH(0, 1, 0), FRESH(0, 1, 1), FRESH(1, 1, 1), FRESH(1, 1, 0)));
    ACCEPT(TABLE(VARIABLE(2), CUT(0, 1, 1), CUT(0, 0, 0), EQUATION(1, 2)), SOLVED(2, 1, 1, 1),
           ANSWER(FRESH(0, 1, 0), FRESH(0, 1, 0)));

    /* Cuts of one variable that overlap: by all but one bit, two bits on in 6, two bits on in 7. */
    ACCEPT(TABLE(VARIABLE(4), CUT(0, 3, 1), CUT(0, 2, 0), EQUATION(1, 2)), SOLVED(4, 1, 1, 3),
           ANSWER(FRESH(0, 1, 0), FRESH(0, 1, 0), FRESH(0, 1, 0), FRESH(0, 1, 0)));
    ACCEPT(TABLE(VARIABLE(6), CUT(0, 5, 2), CUT(0, 3, 0), EQUATION(1, 2)), SOLVED(3, 1, 2, 4),
           ANSWER(FRESH(0, 2, 0), FRESH(0, 2, 0), FRESH(0, 2, 0)));
    ACCEPT(TABLE(VARIABLE(7), CUT(0, 6, 2), CUT(0, 4, 0), EQUATION(1, 2)), SOLVED(7, 2, 2, 5),
           ANSWER(FRESH(0, 1, 0), FRESH(0, 1, 1), FRESH(0, 1, 0), FRESH(0, 1, 1), FRESH(0, 1, 0), FRESH(0, 1, 1),
                  FRESH(0, 1, 0)));

    /* An equation before its variables' successors: variables are numbered as they appear. */
    ACCEPT(TABLE(FILL(1, 1), VARIABLE(1), EQUATION(0, 1), VARIABLE(3), CUT(3, 2, 2), VARIABLE(1), EQUATION(4, 5)),
           SOLVED(4, 2, 3, 2), ANSWER(ONES(0, 1), FRESH(1, 1, 0), FRESH(1, 2, 1), FRESH(2, 1, 0)));
}

/* Fixed bits, and the fills that they make. */
static void test_fills(void)
{
    ACCEPT(TABLE(VARIABLE(3), VARIABLE(2), FILL(1, 3), EQUATION(0, 2)), SOLVED(2, 1, 2, 3),
           ANSWER(ONES(0, 3), FRESH(1, 2, 0)));
    ACCEPT(TABLE(VARIABLE(4), FILL(0, 2), FILL(1, 2), JOIN(1, 2), EQUATION(0, 3)), SOLVED(2, 0, 0, 4),
           ANSWER(ZEROS(0, 2), ONES(0, 2)));
    ACCEPT(TABLE(VARIABLE(3), CUT(0, 1, 1), FILL(1, 1), EQUATION(1, 2)), SOLVED(3, 2, 2, 1),
           ANSWER(FRESH(0, 1, 0), ONES(0, 1), FRESH(0, 1, 1)));

    /* A run of one fixed bit is one fill, from whatever equations it comes, but not over a variable's end. */
    ACCEPT(TABLE(VARIABLE(4), CUT(0, 3, 2), FILL(0, 2), CUT(0, 1, 1), FILL(0, 1), EQUATION(1, 2), EQUATION(3, 4)),
           SOLVED(2, 1, 1, 3), ANSWER(ZEROS(0, 3), FRESH(0, 1, 0)));
    ACCEPT(TABLE(VARIABLE(2), VARIABLE(2), FILL(0, 4), JOIN(0, 1), EQUATION(2, 3)), SOLVED(2, 0, 0, 4),
           ANSWER(ZEROS(0, 2), ZEROS(1, 2)));

    /* A fixed bit is passed along a chain, in whatever order its equations stand. */
    ACCEPT(TABLE(VARIABLE(1), VARIABLE(1), VARIABLE(1), FILL(1, 1), EQUATION(0, 1), EQUATION(1, 2), EQUATION(2, 3)),
           SOLVED(3, 0, 0, 3), ANSWER(ONES(0, 1), ONES(1, 1), ONES(2, 1)));
    ACCEPT(TABLE(VARIABLE(1), VARIABLE(1), VARIABLE(1), FILL(1, 1), EQUATION(2, 3), EQUATION(0, 1), EQUATION(1, 2)),
           SOLVED(3, 0, 0, 3), ANSWER(ONES(0, 1), ONES(1, 1), ONES(2, 1)));
    ACCEPT(TABLE(VARIABLE(1), VARIABLE(1), VARIABLE(1), FILL(0, 1), EQUATION(3, 1), EQUATION(2, 0), EQUATION(0, 1)),
           SOLVED(3, 0, 0, 3), ANSWER(ZEROS(0, 1), ZEROS(1, 1), ZEROS(2, 1)));
    ACCEPT(TABLE(VARIABLE(6), CUT(0, 5, 1), CUT(0, 4, 0), CUT(0, 3, 3), FILL(0, 1), EQUATION(1, 2), EQUATION(4, 3)),
           SOLVED(1, 0, 0, 6), ANSWER(ZEROS(0, 6)));
}

/* The sync marker, 1010 1100 1110 0001, in an answer of variable v. */
#define SYNC(v) \
    ONES(v, 1), ZEROS(v, 1), ONES(v, 1), ZEROS(v, 1), ONES(v, 2), ZEROS(v, 2), ONES(v, 3), ZEROS(v, 4), ONES(v, 1)

/* Markers: fixed bits, solved as fills are. */
static void test_markers(void)
{
    /* A word that is the sync marker, by one row, and by the nine fills that it took before. */
    ACCEPT(TABLE(VARIABLE(16), MARKER(0xACE1, 16), EQUATION(0, 1)), SOLVED(9, 0, 0, 16), ANSWER(SYNC(0)));
    ACCEPT(TABLE(VARIABLE(16), FILL(1, 1), FILL(0, 1), JOIN(1, 2), JOIN(3, 3), FILL(1, 2), FILL(0, 2), FILL(1, 3),
                 FILL(0, 4), JOIN(4, 5), JOIN(9, 6), JOIN(10, 7), JOIN(11, 8), JOIN(12, 1), EQUATION(0, 13)),
           SOLVED(9, 0, 0, 16), ANSWER(SYNC(0)));
    ACCEPT(TABLE(FILL(1, 1), FILL(0, 1), JOIN(0, 1), JOIN(2, 2), FILL(1, 2), FILL(0, 2), FILL(1, 3), FILL(0, 4),
                 JOIN(3, 4), JOIN(8, 5), JOIN(9, 6), JOIN(10, 7), JOIN(11, 0), MARKER(0xACE1, 16), EQUATION(12, 13)),
           ALWAYS(0), NO_ANSWER);

    /* In a table without equations; equal to itself; two of them, alike and not; with a fill. */
    ACCEPT(TABLE(MARKER(6, 4)), ALWAYS(0), NO_ANSWER);
    ACCEPT(TABLE(VARIABLE(3), MARKER(6, 4)), ALWAYS(3), NO_ANSWER);
    ACCEPT(TABLE(MARKER(6, 4), EQUATION(0, 0)), ALWAYS(0), NO_ANSWER);
    ACCEPT(TABLE(MARKER(6, 4), MARKER(6, 4), EQUATION(0, 1)), ALWAYS(0), NO_ANSWER);
    ACCEPT(TABLE(MARKER(6, 4), MARKER(7, 4), EQUATION(0, 1)), NEVER(0, 2), NO_ANSWER);
    ACCEPT(TABLE(MARKER(6, 4), MARKER(14, 4), EQUATION(1, 0)), NEVER(0, 2), NO_ANSWER);
    ACCEPT(TABLE(MARKER(3, 2), FILL(1, 2), EQUATION(0, 1)), ALWAYS(0), NO_ANSWER);
    ACCEPT(TABLE(MARKER(0, 16), FILL(0, 16), EQUATION(0, 1)), ALWAYS(0), NO_ANSWER);
    ACCEPT(TABLE(MARKER(1, 16), FILL(0, 16), EQUATION(0, 1)), NEVER(0, 2), NO_ANSWER);
    ACCEPT(TABLE(MARKER(6, 4), MARKER(1, 2), MARKER(2, 2), JOIN(1, 2), EQUATION(0, 3)), ALWAYS(0), NO_ANSWER);

    /* Its bits against the bits of one word, of two, and of a word that stands twice. */
    ACCEPT(TABLE(VARIABLE(4), VARIABLE(3), MARKER(0x2C, 7), JOIN(0, 1), EQUATION(3, 2)), SOLVED(6, 0, 0, 7),
           ANSWER(ZEROS(0, 1), ONES(0, 1), ZEROS(0, 1), ONES(0, 1), ONES(1, 1), ZEROS(1, 2)));
    ACCEPT(TABLE(VARIABLE(2), JOIN(0, 0), MARKER(10, 4), EQUATION(1, 2)), SOLVED(2, 0, 0, 2),
           ANSWER(ONES(0, 1), ZEROS(0, 1)));
    ACCEPT(TABLE(VARIABLE(2), JOIN(0, 0), MARKER(9, 4), EQUATION(1, 2)), NEVER(0, 3), NO_ANSWER);

    /* A part of a word; a cut of a marker; a marker between pieces that may be chosen. */
    ACCEPT(TABLE(VARIABLE(8), CUT(0, 5, 2), MARKER(6, 4), EQUATION(1, 2)), SOLVED(5, 2, 4, 4),
           ANSWER(FRESH(0, 2, 0), ZEROS(0, 1), ONES(0, 2), ZEROS(0, 1), FRESH(0, 2, 1)));
    ACCEPT(TABLE(VARIABLE(4), MARKER(0xACE1, 16), CUT(1, 12, 9), EQUATION(0, 2)), SOLVED(3, 0, 0, 4),
           ANSWER(ZEROS(0, 1), ONES(0, 2), ZEROS(0, 1)));
    ACCEPT(TABLE(VARIABLE(8), VARIABLE(2), VARIABLE(2), MARKER(6, 4), JOIN(1, 3), JOIN(4, 2), EQUATION(0, 5)),
           SOLVED(7, 2, 4, 8), ANSWER(FRESH(0, 2, 0), ZEROS(0, 1), ONES(0, 2), ZEROS(0, 1), FRESH(0, 2, 1),
                                      FRESH(1, 2, 0), FRESH(2, 2, 1)));

    /* Its end beside fixed bits of other equations: one run. */
    ACCEPT(TABLE(VARIABLE(6), CUT(0, 5, 2), MARKER(6, 4), CUT(0, 1, 0), FILL(0, 2), EQUATION(1, 2), EQUATION(3, 4)),
           SOLVED(3, 0, 0, 6), ANSWER(ZEROS(0, 1), ONES(0, 2), ZEROS(0, 3)));
    ACCEPT(TABLE(VARIABLE(4), CUT(0, 3, 2), MARKER(1, 2), CUT(0, 1, 0), MARKER(2, 2), EQUATION(1, 2), EQUATION(3, 4)),
           SOLVED(3, 0, 0, 4), ANSWER(ZEROS(0, 1), ONES(0, 2), ZEROS(0, 1)));

    /* Passed along a chain, the marker's equation first, last and in the middle; and broken. */
    ACCEPT(TABLE(VARIABLE(2), VARIABLE(2), VARIABLE(2), MARKER(2, 2), EQUATION(0, 3), EQUATION(0, 1), EQUATION(1, 2)),
           SOLVED(6, 0, 0, 6), ANSWER(ONES(0, 1), ZEROS(0, 1), ONES(1, 1), ZEROS(1, 1), ONES(2, 1), ZEROS(2, 1)));
    ACCEPT(TABLE(VARIABLE(2), VARIABLE(2), VARIABLE(2), MARKER(2, 2), EQUATION(0, 1), EQUATION(1, 2), EQUATION(3, 2)),
           SOLVED(6, 0, 0, 6), ANSWER(ONES(0, 1), ZEROS(0, 1), ONES(1, 1), ZEROS(1, 1), ONES(2, 1), ZEROS(2, 1)));
    ACCEPT(TABLE(VARIABLE(2), VARIABLE(2), MARKER(2, 2), MARKER(3, 2), EQUATION(0, 2), EQUATION(0, 1), EQUATION(1, 3)),
           NEVER(4, 6), NO_ANSWER);

    /* Pairs that are there already: the same marker twice, and fills that say the same. */
    ACCEPT(TABLE(VARIABLE(4), MARKER(6, 4), EQUATION(0, 1), EQUATION(1, 0)), SOLVED(3, 0, 0, 4),
           ANSWER(ZEROS(0, 1), ONES(0, 2), ZEROS(0, 1)));
    ACCEPT(TABLE(VARIABLE(4), MARKER(6, 4), CUT(0, 2, 1), FILL(1, 2), EQUATION(2, 3), EQUATION(0, 1)),
           SOLVED(3, 0, 0, 4), ANSWER(ZEROS(0, 1), ONES(0, 2), ZEROS(0, 1)));

    /* A word's low bits against the marker of a word before it: a fixed bit comes by way of the marker. */
    ACCEPT(TABLE(VARIABLE(4), VARIABLE(4), MARKER(9, 4), CUT(0, 1, 0), CUT(1, 3, 2), EQUATION(0, 2), EQUATION(3, 4)),
           SOLVED(6, 1, 2, 6), ANSWER(ONES(0, 1), ZEROS(0, 2), ONES(0, 1), ZEROS(1, 1), ONES(1, 1), FRESH(1, 2, 0)));
}

/* The table with an equation of rows a and b behind it, and with its sides exchanged, has this record and this answer. */
static void accept_short(where at, const uint16_t *numbers, size_t len, size_t a, size_t b, lw_record want,
                         const uint16_t *answer, size_t answer_len)
{
    table t = {.len = len};
    memcpy(t.numbers, numbers, len * sizeof *numbers);
    add(&t, EQUATION(a, b));
    accept(at, ALL(t), want, answer, answer_len);
    t.len = len;
    add(&t, EQUATION(b, a));
    accept(at, ALL(t), want, answer, answer_len);
}

#define ACCEPT_SHORT(...) accept_short(HERE, __VA_ARGS__)

/* Sides of unequal width: the narrower one has zeros at its high end. */
static void test_short(void)
{
    /* Top bits that are free: each of their pairs is a tie. */
    ACCEPT_SHORT(TABLE(VARIABLE(4), VARIABLE(2)), 0, 1, SOLVED(3, 1, 2, 4),
                 ANSWER(ZEROS(0, 2), FRESH(0, 2, 0), FRESH(1, 2, 0)));
    ACCEPT_SHORT(TABLE(VARIABLE(1), VARIABLE(2)), 0, 1, SOLVED(3, 1, 1, 2),
                 ANSWER(FRESH(0, 1, 0), ZEROS(1, 1), FRESH(1, 1, 0)));
    ACCEPT_SHORT(TABLE(VARIABLE(8), CUT(0, 7, 4), VARIABLE(3)), 1, 2, SOLVED(4, 2, 7, 4),
                 ANSWER(ZEROS(0, 1), FRESH(0, 3, 0), FRESH(0, 4, 1), FRESH(1, 3, 0)));
    ACCEPT_SHORT(TABLE(VARIABLE(2), VARIABLE(2), JOIN(0, 1), VARIABLE(3)), 2, 3, SOLVED(5, 2, 3, 4),
                 ANSWER(ZEROS(0, 1), FRESH(0, 1, 0), FRESH(1, 2, 1), FRESH(2, 1, 0), FRESH(2, 2, 1)));
    ACCEPT_SHORT(TABLE(VARIABLE(2), JOIN(0, 0)), 0, 1, SOLVED(1, 0, 0, 2), ANSWER(ZEROS(0, 2)));

    /* Top bits fixed to 0 by an equation before it, all of them or one, and by one behind it. */
    ACCEPT_SHORT(TABLE(VARIABLE(4), VARIABLE(2), CUT(0, 3, 2), FILL(0, 2), EQUATION(2, 3)), 0, 1, SOLVED(3, 1, 2, 4),
                 ANSWER(ZEROS(0, 2), FRESH(0, 2, 0), FRESH(1, 2, 0)));
    ACCEPT_SHORT(TABLE(VARIABLE(4), VARIABLE(2), CUT(0, 2, 2), FILL(0, 1), EQUATION(2, 3)), 0, 1, SOLVED(3, 1, 2, 4),
                 ANSWER(ZEROS(0, 2), FRESH(0, 2, 0), FRESH(1, 2, 0)));
    ACCEPT_SHORT(TABLE(VARIABLE(4), VARIABLE(2), FILL(0, 2), CUT(0, 3, 2), EQUATION(0, 1)), 3, 2, SOLVED(3, 1, 2, 4),
                 ANSWER(ZEROS(0, 2), FRESH(0, 2, 0), FRESH(1, 2, 0)));

    /* A top bit fixed to 1: never, the equation's own ties not counted. */
    ACCEPT_SHORT(TABLE(VARIABLE(4), VARIABLE(2), CUT(0, 3, 3), FILL(1, 1), EQUATION(2, 3)), 0, 1, NEVER(1, 5), NO_ANSWER);
    ACCEPT_SHORT(TABLE(VARIABLE(4), VARIABLE(2), CUT(0, 2, 2), FILL(1, 1), EQUATION(2, 3)), 0, 1, NEVER(1, 5), NO_ANSWER);
    ACCEPT_SHORT(TABLE(VARIABLE(4), VARIABLE(2), CUT(0, 1, 1), FILL(1, 1), EQUATION(2, 3)), 0, 1, SOLVED(5, 1, 1, 5),
                 ANSWER(ZEROS(0, 2), ONES(0, 1), FRESH(0, 1, 0), ONES(1, 1), FRESH(1, 1, 0)));

    /* Fills of either bit, wider and narrower than a word, and against each other. */
    ACCEPT_SHORT(TABLE(VARIABLE(2), FILL(1, 3)), 0, 1, NEVER(0, 2), NO_ANSWER);
    ACCEPT_SHORT(TABLE(VARIABLE(2), FILL(0, 3)), 0, 1, SOLVED(1, 0, 0, 2), ANSWER(ZEROS(0, 2)));
    ACCEPT_SHORT(TABLE(VARIABLE(3), FILL(1, 2)), 0, 1, SOLVED(2, 0, 0, 3), ANSWER(ZEROS(0, 1), ONES(0, 2)));
    ACCEPT_SHORT(TABLE(VARIABLE(3), FILL(0, 2)), 0, 1, SOLVED(1, 0, 0, 3), ANSWER(ZEROS(0, 3)));
    ACCEPT_SHORT(TABLE(FILL(0, 4), FILL(0, 1)), 0, 1, ALWAYS(0), NO_ANSWER);
    ACCEPT_SHORT(TABLE(FILL(1, 4), FILL(1, 1)), 0, 1, NEVER(0, 2), NO_ANSWER);
    ACCEPT_SHORT(TABLE(FILL(0, 4), FILL(1, 1)), 0, 1, NEVER(0, 2), NO_ANSWER);
    ACCEPT_SHORT(TABLE(FILL(1, 4), FILL(0, 1)), 0, 1, NEVER(0, 2), NO_ANSWER);
    ACCEPT_SHORT(TABLE(VARIABLE(3), FILL(0, 4), FILL(0, 1)), 1, 2, ALWAYS(3), NO_ANSWER);

    /* Fixed bits and free ones side by side at the top. */
    ACCEPT_SHORT(TABLE(VARIABLE(2), FILL(0, 2), JOIN(1, 0), VARIABLE(3)), 2, 3, SOLVED(3, 1, 2, 3),
                 ANSWER(FRESH(0, 2, 0), ZEROS(1, 1), FRESH(1, 2, 0)));
    ACCEPT_SHORT(TABLE(VARIABLE(2), FILL(0, 1), JOIN(0, 1), VARIABLE(1)), 2, 3, SOLVED(2, 0, 0, 3),
                 ANSWER(ZEROS(0, 2), ZEROS(1, 1)));
    ACCEPT_SHORT(TABLE(VARIABLE(2), FILL(1, 1), JOIN(0, 1), VARIABLE(1)), 2, 3, SOLVED(2, 0, 0, 3),
                 ANSWER(ZEROS(0, 2), ONES(1, 1)));
    ACCEPT_SHORT(TABLE(VARIABLE(2), FILL(1, 1), JOIN(1, 0), VARIABLE(2)), 2, 3, NEVER(0, 4), NO_ANSWER);

    /* Both sides of one variable: its low bits, its high bits, one bit of it. */
    ACCEPT_SHORT(TABLE(VARIABLE(3), CUT(0, 1, 0)), 1, 0, SOLVED(2, 1, 2, 1), ANSWER(ZEROS(0, 1), FRESH(0, 2, 0)));
    ACCEPT_SHORT(TABLE(VARIABLE(3), CUT(0, 2, 1)), 1, 0, SOLVED(1, 0, 0, 3), ANSWER(ZEROS(0, 3)));
    ACCEPT_SHORT(TABLE(VARIABLE(4), CUT(0, 0, 0)), 1, 0, SOLVED(2, 1, 1, 3), ANSWER(ZEROS(0, 3), FRESH(0, 1, 0)));
    ACCEPT_SHORT(TABLE(VARIABLE(4), CUT(0, 3, 3)), 1, 0, SOLVED(1, 0, 0, 4), ANSWER(ZEROS(0, 4)));
    ACCEPT_SHORT(TABLE(VARIABLE(4), CUT(0, 2, 1)), 1, 0, SOLVED(1, 0, 0, 4), ANSWER(ZEROS(0, 4)));
    ACCEPT_SHORT(TABLE(VARIABLE(6), CUT(0, 5, 3), CUT(0, 1, 0)), 1, 2, SOLVED(4, 2, 3, 3),
                 ANSWER(ZEROS(0, 1), FRESH(0, 2, 0), FRESH(0, 1, 1), FRESH(0, 2, 0)));

    /* Never by the top bits, behind ties of earlier equations; a top bit tied to one that is 1. */
    ACCEPT_SHORT(TABLE(VARIABLE(3), VARIABLE(3), VARIABLE(1), FILL(1, 1), CUT(1, 2, 2), EQUATION(0, 1), EQUATION(4, 3)),
                 0, 2, NEVER(4, 7), NO_ANSWER);
    ACCEPT_SHORT(TABLE(VARIABLE(3), VARIABLE(2), VARIABLE(1), FILL(1, 1), EQUATION(0, 1), CUT(1, 1, 1), EQUATION(5, 3)),
                 1, 2, NEVER(4, 7), NO_ANSWER);
    ACCEPT_SHORT(TABLE(VARIABLE(4), VARIABLE(1), FILL(1, 1), CUT(0, 0, 0), EQUATION(3, 2), CUT(0, 1, 0)), 0, 1,
                 SOLVED(3, 0, 0, 5), ANSWER(ZEROS(0, 3), ONES(0, 1), ONES(1, 1)));

    /* The same words once more, the sides exchanged: no ties are added. And behind a never. */
    ACCEPT(TABLE(VARIABLE(4), VARIABLE(2), EQUATION(0, 1), EQUATION(1, 0), EQUATION(0, 1)), SOLVED(3, 1, 2, 4),
           ANSWER(ZEROS(0, 2), FRESH(0, 2, 0), FRESH(1, 2, 0)));
    ACCEPT(TABLE(FILL(0, 1), FILL(1, 1), EQUATION(0, 1), FILL(0, 2), EQUATION(0, 3)), NEVER(0, 2), NO_ANSWER);

    /* Passed along: words of 8, 4 and 2 bits, each the next; and a word of 4 that is both of one bit and of three. */
    ACCEPT(TABLE(VARIABLE(8), VARIABLE(4), VARIABLE(2), EQUATION(0, 1), EQUATION(1, 2)), SOLVED(5, 1, 2, 12),
           ANSWER(ZEROS(0, 6), FRESH(0, 2, 0), ZEROS(1, 2), FRESH(1, 2, 0), FRESH(2, 2, 0)));
    ACCEPT(TABLE(VARIABLE(8), VARIABLE(4), VARIABLE(2), EQUATION(1, 2), EQUATION(1, 0)), SOLVED(5, 1, 2, 12),
           ANSWER(ZEROS(0, 6), FRESH(0, 2, 0), ZEROS(1, 2), FRESH(1, 2, 0), FRESH(2, 2, 0)));
    ACCEPT(TABLE(VARIABLE(1), VARIABLE(4), VARIABLE(3), EQUATION(0, 1), EQUATION(1, 2)), SOLVED(5, 1, 1, 7),
           ANSWER(FRESH(0, 1, 0), ZEROS(1, 3), FRESH(1, 1, 0), ZEROS(2, 2), FRESH(2, 1, 0)));

    /* Zeros joined by hand give the same. */
    ACCEPT(TABLE(VARIABLE(4), VARIABLE(2), FILL(0, 2), JOIN(2, 1), EQUATION(0, 3)), SOLVED(3, 1, 2, 4),
           ANSWER(ZEROS(0, 2), FRESH(0, 2, 0), FRESH(1, 2, 0)));
    ACCEPT_SHORT(TABLE(VARIABLE(4), VARIABLE(2), FILL(0, 2), JOIN(2, 1), EQUATION(0, 3)), 0, 1, SOLVED(3, 1, 2, 4),
                 ANSWER(ZEROS(0, 2), FRESH(0, 2, 0), FRESH(1, 2, 0)));
    ACCEPT_SHORT(TABLE(VARIABLE(2), FILL(0, 3), JOIN(1, 0)), 2, 0, ALWAYS(2), NO_ANSWER);
    ACCEPT_SHORT(TABLE(VARIABLE(2), FILL(0, 3), JOIN(0, 1)), 2, 0, SOLVED(1, 0, 0, 2), ANSWER(ZEROS(0, 2)));
}

/* Markers narrower and wider than the other side: equal as numbers. */
static void test_short_markers(void)
{
    ACCEPT_SHORT(TABLE(VARIABLE(4), MARKER(6, 3)), 0, 1, SOLVED(3, 0, 0, 4),
                 ANSWER(ZEROS(0, 1), ONES(0, 2), ZEROS(0, 1)));
    ACCEPT_SHORT(TABLE(VARIABLE(2), MARKER(1, 4)), 0, 1, SOLVED(2, 0, 0, 2), ANSWER(ZEROS(0, 1), ONES(0, 1)));
    ACCEPT_SHORT(TABLE(VARIABLE(2), MARKER(4, 3)), 0, 1, NEVER(0, 2), NO_ANSWER);
    ACCEPT_SHORT(TABLE(VARIABLE(2), MARKER(0x8001, 16)), 0, 1, NEVER(0, 2), NO_ANSWER);
    ACCEPT_SHORT(TABLE(MARKER(6, 3), MARKER(6, 16)), 0, 1, ALWAYS(0), NO_ANSWER);
    ACCEPT_SHORT(TABLE(MARKER(6, 3), MARKER(7, 16)), 0, 1, NEVER(0, 2), NO_ANSWER);
    ACCEPT_SHORT(TABLE(MARKER(6, 3), MARKER(14, 4)), 0, 1, NEVER(0, 2), NO_ANSWER);
    ACCEPT_SHORT(TABLE(MARKER(7, 4), FILL(1, 3)), 0, 1, ALWAYS(0), NO_ANSWER);
    ACCEPT_SHORT(TABLE(VARIABLE(8), MARKER(5, 3)), 0, 1, SOLVED(4, 0, 0, 8),
                 ANSWER(ZEROS(0, 5), ONES(0, 1), ZEROS(0, 1), ONES(0, 1)));

    /* Each width of a marker of 1 against words of 1 to 16 bits, and of the greatest value of a width. */
    for (size_t width = 1; width <= 16; width++)
        for (size_t marker = 1; marker <= 16; marker++) {
            table t = {.len = 0};
            uint16_t w = (uint16_t)width, m = (uint16_t)marker;
            add(&t, VARIABLE(width));
            add(&t, MARKER(1, marker));
            add(&t, EQUATION(0, 1));
            if (width == 1)
                ACCEPT(ALL(t), SOLVED(1, 0, 0, 1), ANSWER(ONES(0, 1)));
            else
                ACCEPT(ALL(t), SOLVED(2, 0, 0, w), ANSWER(ZEROS(0, w - 1), ONES(0, 1)));
            t.numbers[4 + 1] = (uint16_t)((1U << marker) - 1);
            if (width < marker)
                ACCEPT(ALL(t), NEVER(0, 2), NO_ANSWER);
            else if (width == marker)
                ACCEPT(ALL(t), SOLVED(1, 0, 0, w), ANSWER(ONES(0, w)));
            else
                ACCEPT(ALL(t), SOLVED(2, 0, 0, w), ANSWER(ZEROS(0, w - m), ONES(0, m)));
        }
}

/* Sides of unequal width up to 1024 bits, and as many as there may be. */
static void test_short_limits(void)
{
    static uint16_t answer[4 * 127];
    table t;

    ACCEPT_SHORT(TABLE(VARIABLE(1024), VARIABLE(1)), 0, 1, SOLVED(3, 1, 1, 1024),
                 ANSWER(ZEROS(0, 1023), FRESH(0, 1, 0), FRESH(1, 1, 0)));
    ACCEPT_SHORT(TABLE(VARIABLE(1024), VARIABLE(1023)), 0, 1, SOLVED(3, 1, 1023, 1024),
                 ANSWER(ZEROS(0, 1), FRESH(0, 1023, 0), FRESH(1, 1023, 0)));
    ACCEPT_SHORT(TABLE(FILL(0, 1024), VARIABLE(1)), 0, 1, SOLVED(1, 0, 0, 1), ANSWER(ZEROS(0, 1)));
    ACCEPT_SHORT(TABLE(FILL(1, 1024), VARIABLE(1)), 0, 1, NEVER(0, 2), NO_ANSWER);
    ACCEPT_SHORT(TABLE(FILL(1, 1), VARIABLE(1024)), 0, 1, SOLVED(2, 0, 0, 1024), ANSWER(ZEROS(0, 1023), ONES(0, 1)));
    ACCEPT_SHORT(TABLE(VARIABLE(1024), CUT(0, 1022, 0)), 0, 1, SOLVED(2, 1, 1023, 1),
                 ANSWER(ZEROS(0, 1), FRESH(0, 1023, 0)));
    ACCEPT_SHORT(TABLE(VARIABLE(1024), CUT(0, 1023, 1)), 0, 1, SOLVED(1, 0, 0, 1024), ANSWER(ZEROS(0, 1024)));

    /* Each width against 1024, a variable's low bits with all of it: the bits above them are 0. */
    for (uint16_t w = 1; w < 1024; w++) {
        const uint16_t left = w % 2, numbers[] = {VARIABLE(1024), CUT(0, w - 1, 0), EQUATION(left, 1 - left)};
        const uint16_t rows[] = {ZEROS_AT(0, 1024 - w, 1023), FRESH_AT(0, w, 0, 0, w - 1)};
        check_others(HERE, "low bits", numbers, COUNT(numbers), SOLVED(2, 1, w, 1024U - w), rows);
        call(HERE, "low bits", numbers, COUNT(numbers), NULL, ANSWER_LEAST, WORK_LEAST, SOLVED(2, 1, w, 1024U - w),
             rows);
    }

    /* 4 words of 1024 bits, each of them 1 as a number: 8 fills. */
    t.len = 0;
    for (size_t v = 0; v < 4; v++)
        add(&t, VARIABLE(1024));
    add(&t, FILL(1, 1));
    for (size_t v = 0; v < 4; v++)
        add(&t, EQUATION(v % 2 == 0 ? v : 4, v % 2 == 0 ? 4 : v));
    ACCEPT(ALL(t), SOLVED(8, 0, 0, 4096), ANSWER(ZEROS(0, 1023), ONES(0, 1), ZEROS(1, 1023), ONES(1, 1),
                                                 ZEROS(2, 1023), ONES(2, 1), ZEROS(3, 1023), ONES(3, 1)));

    /* The same with the high bit of the last word 1 before it: never at the last equation, behind 3 * 1024 + 1 ties. */
    t.len -= 4;
    add(&t, CUT(3, 1023, 1023));
    add(&t, EQUATION(8, 4));
    add(&t, EQUATION(3, 4));
    ACCEPT(ALL(t), NEVER(3 * 1024 + 1, 10), NO_ANSWER);

    /* 64 words of 1 to 64 bits and 64 equations: each with the next, and the last with the first. All have one bit. */
    t.len = 0;
    for (size_t v = 0; v < 64; v++)
        add(&t, VARIABLE(v + 1));
    for (size_t v = 0; v < 64; v++)
        add(&t, EQUATION(v, (v + 1) % 64));
    for (uint16_t v = 0, rows = 0; v < 64; v++) {
        if (v != 0)
            memcpy(answer + 4 * rows++, (const uint16_t[]){ZEROS(v, v)}, 8);
        memcpy(answer + 4 * rows++, (const uint16_t[]){FRESH(v, 1, 0)}, 8);
    }
    ACCEPT(ALL(t), SOLVED(127, 1, 1, 64 * 65 / 2 - 1), answer, 4 * 127);
}

/* Home and high, in rows of six numbers. */
static void test_homes(void)
{
    table t;
    static uint16_t answer[6 * 4096];

    /* The specification's sheet; and the sheet of the header's fills, the second of which names its own place. */
    ACCEPT_ROWS(TABLE(VARIABLE(8), CUT(0, 6, 3), CUT(0, 4, 1), EQUATION(1, 2)), SOLVED(5, 3, 4, 4),
                ANSWER(FRESH_AT(0, 1, 0, 0, 7), FRESH_AT(0, 2, 1, 0, 6), FRESH_AT(0, 2, 1, 0, 6),
                       FRESH_AT(0, 2, 1, 0, 6), FRESH_AT(0, 1, 2, 0, 0)));
    ACCEPT_ROWS(TABLE(VARIABLE(3), VARIABLE(3), FILL(0, 1), CUT(0, 1, 1), EQUATION(3, 2), CUT(1, 2, 2), EQUATION(5, 2)),
                SOLVED(5, 3, 4, 2), ANSWER(FRESH_AT(0, 1, 0, 0, 2), ZEROS_AT(0, 1, 1), FRESH_AT(0, 1, 1, 0, 0),
                                           ZEROS_AT(1, 1, 2), FRESH_AT(1, 2, 2, 1, 1)));

    /* At home in an earlier variable: at its high end, in its middle, at its low end. */
    ACCEPT_ROWS(TABLE(VARIABLE(4), VARIABLE(2), CUT(0, 3, 2), EQUATION(2, 1)), SOLVED(3, 2, 4, 2),
                ANSWER(FRESH_AT(0, 2, 0, 0, 3), FRESH_AT(0, 2, 1, 0, 1), FRESH_AT(1, 2, 0, 0, 3)));
    ACCEPT_ROWS(TABLE(VARIABLE(4), VARIABLE(2), CUT(0, 2, 1), EQUATION(2, 1)), SOLVED(4, 3, 4, 2),
                ANSWER(FRESH_AT(0, 1, 0, 0, 3), FRESH_AT(0, 2, 1, 0, 2), FRESH_AT(0, 1, 2, 0, 0),
                       FRESH_AT(1, 2, 1, 0, 2)));
    ACCEPT_ROWS(TABLE(VARIABLE(4), VARIABLE(2), CUT(0, 1, 0), EQUATION(2, 1)), SOLVED(3, 2, 4, 2),
                ANSWER(FRESH_AT(0, 2, 0, 0, 3), FRESH_AT(0, 2, 1, 0, 1), FRESH_AT(1, 2, 1, 0, 1)));

    /* At home in the narrower word, which stands first; and in variable 1 of four. */
    ACCEPT_ROWS(TABLE(VARIABLE(2), VARIABLE(4), CUT(1, 2, 1), EQUATION(0, 2)), SOLVED(4, 3, 4, 2),
                ANSWER(FRESH_AT(0, 2, 0, 0, 1), FRESH_AT(1, 1, 1, 1, 3), FRESH_AT(1, 2, 0, 0, 1),
                       FRESH_AT(1, 1, 2, 1, 0)));
    ACCEPT_ROWS(TABLE(VARIABLE(5), VARIABLE(3), VARIABLE(2), VARIABLE(3), EQUATION(1, 3)), SOLVED(4, 3, 10, 3),
                ANSWER(FRESH_AT(0, 5, 0, 0, 4), FRESH_AT(1, 3, 1, 1, 2), FRESH_AT(2, 2, 2, 2, 1),
                       FRESH_AT(3, 3, 1, 1, 2)));

    /* Several appearances, in one variable and in others; each names the first. */
    ACCEPT_ROWS(TABLE(VARIABLE(6), VARIABLE(2), VARIABLE(4), JOIN(1, 1), JOIN(3, 1), JOIN(1, 1), EQUATION(0, 4),
                      EQUATION(2, 5)), SOLVED(6, 1, 2, 10),
                ANSWER(FRESH_AT(0, 2, 0, 0, 5), FRESH_AT(0, 2, 0, 0, 5), FRESH_AT(0, 2, 0, 0, 5),
                       FRESH_AT(1, 2, 0, 0, 5), FRESH_AT(2, 2, 0, 0, 5), FRESH_AT(2, 2, 0, 0, 5)));

    /* Halves exchanged: two pieces, the homes of both in variable 0. */
    ACCEPT_ROWS(TABLE(VARIABLE(4), VARIABLE(4), CUT(0, 1, 0), CUT(0, 3, 2), JOIN(2, 3), EQUATION(1, 4)),
                SOLVED(4, 2, 4, 4), ANSWER(FRESH_AT(0, 2, 0, 0, 3), FRESH_AT(0, 2, 1, 0, 1), FRESH_AT(1, 2, 1, 0, 1),
                                           FRESH_AT(1, 2, 0, 0, 3)));

    /* A fill before fresh piece 0, with fresh number 0 too, is not its home. */
    ACCEPT_ROWS(TABLE(VARIABLE(4), VARIABLE(3), CUT(0, 3, 3), FILL(1, 1), CUT(0, 2, 0), EQUATION(2, 3), EQUATION(1, 4)),
                SOLVED(3, 1, 3, 4), ANSWER(ONES_AT(0, 1, 3), FRESH_AT(0, 3, 0, 0, 2), FRESH_AT(1, 3, 0, 0, 2)));
    ACCEPT_ROWS(TABLE(VARIABLE(2), VARIABLE(2), VARIABLE(2), FILL(0, 2), EQUATION(0, 3), EQUATION(1, 2)),
                SOLVED(3, 1, 2, 4), ANSWER(ZEROS_AT(0, 2, 1), FRESH_AT(1, 2, 0, 1, 1), FRESH_AT(2, 2, 0, 1, 1)));

    /* Fills of both bits, at both ends and in every variable: each its own place. */
    ACCEPT_ROWS(TABLE(VARIABLE(5), VARIABLE(5), MARKER(0x12, 5), EQUATION(0, 2), EQUATION(0, 1)), SOLVED(8, 0, 0, 10),
                ANSWER(ONES_AT(0, 1, 4), ZEROS_AT(0, 2, 3), ONES_AT(0, 1, 1), ZEROS_AT(0, 1, 0),
                       ONES_AT(1, 1, 4), ZEROS_AT(1, 2, 3), ONES_AT(1, 1, 1), ZEROS_AT(1, 1, 0)));

    /* One bit; and words of 1024 bits. */
    ACCEPT_ROWS(TABLE(VARIABLE(1), FILL(1, 1), EQUATION(0, 1)), SOLVED(1, 0, 0, 1), ANSWER(ONES_AT(0, 1, 0)));
    ACCEPT_ROWS(TABLE(VARIABLE(1), VARIABLE(1), EQUATION(0, 1)), SOLVED(2, 1, 1, 1),
                ANSWER(FRESH_AT(0, 1, 0, 0, 0), FRESH_AT(1, 1, 0, 0, 0)));
    ACCEPT_ROWS(TABLE(VARIABLE(1024), VARIABLE(1024), EQUATION(1, 0)), SOLVED(2, 1, 1024, 1024),
                ANSWER(FRESH_AT(0, 1024, 0, 0, 1023), FRESH_AT(1, 1024, 0, 0, 1023)));
    ACCEPT_ROWS(TABLE(VARIABLE(1024), VARIABLE(1), CUT(0, 0, 0), EQUATION(2, 1)), SOLVED(3, 2, 1024, 1),
                ANSWER(FRESH_AT(0, 1023, 0, 0, 1023), FRESH_AT(0, 1, 1, 0, 0), FRESH_AT(1, 1, 1, 0, 0)));

    /* 64 variables: the last two equal, so that a home is variable 62; and all of them equal to the first. */
    t.len = 0;
    for (size_t v = 0; v < 64; v++)
        add(&t, VARIABLE(64));
    add(&t, EQUATION(63, 62));
    for (uint16_t v = 0; v < 64; v++) {
        uint16_t home = v < 63 ? v : 62;
        memcpy(answer + 6 * v, (const uint16_t[]){FRESH_AT(v, 64, home, home, 63)}, 12);
    }
    ACCEPT_ROWS(ALL(t), SOLVED(64, 63, 63 * 64, 64), answer, 6 * 64);
    t.len -= 4;
    for (size_t v = 1; v < 64; v++)
        add(&t, EQUATION(v, v - 1));
    for (uint16_t v = 0; v < 64; v++)
        memcpy(answer + 6 * v, (const uint16_t[]){FRESH_AT(v, 64, 0, 0, 63)}, 12);
    ACCEPT_ROWS(ALL(t), SOLVED(64, 1, 64, 63 * 64), answer, 6 * 64);

    /* 4096 rows: each of four words is the one before it turned by a bit, and the first is the last turned so. */
    t.len = 0;
    for (size_t v = 0; v < 4; v++)
        add(&t, VARIABLE(1024));
    for (size_t v = 0; v < 4; v++) { /* from row 4 + 4 * v on */
        add(&t, CUT(v, 1022, 0));
        add(&t, CUT(v, 1023, 1023));
        add(&t, JOIN(4 + 4 * v, 5 + 4 * v));
        add(&t, EQUATION(6 + 4 * v, (v + 1) % 4));
    }
    for (uint16_t i = 0; i < 4096; i++) {
        uint16_t number = (uint16_t)((i + i / 1024) % 4); /* turned by four bits in all */
        memcpy(answer + 6 * i, (const uint16_t[]){FRESH_AT(i / 1024, 1, number, 0, 1023 - number)}, 12);
    }
    ACCEPT_ROWS(ALL(t), SOLVED(4096, 4, 4, 4092), answer, COUNT(answer));
}

/* Ties, and the row at which no pattern is left. */
static void test_ties(void)
{
    /* Pairs repeated, with sides exchanged, or implied by others. */
    ACCEPT(TABLE(VARIABLE(2), VARIABLE(2), EQUATION(0, 1), EQUATION(0, 1), EQUATION(1, 0)), SOLVED(2, 1, 2, 2),
           ANSWER(FRESH(0, 2, 0), FRESH(1, 2, 0)));
    ACCEPT(TABLE(VARIABLE(1), VARIABLE(1), VARIABLE(1), EQUATION(0, 1), EQUATION(1, 2), EQUATION(2, 0)),
           SOLVED(3, 1, 1, 2), ANSWER(FRESH(0, 1, 0), FRESH(1, 1, 0), FRESH(2, 1, 0)));
    ACCEPT(TABLE(VARIABLE(1), VARIABLE(1), FILL(0, 1), EQUATION(0, 2), EQUATION(1, 2), EQUATION(0, 1)),
           SOLVED(2, 0, 0, 2), ANSWER(ZEROS(0, 1), ZEROS(1, 1)));
    ACCEPT(TABLE(VARIABLE(1), JOIN(0, 0), VARIABLE(1), JOIN(2, 2), EQUATION(1, 3)), SOLVED(2, 1, 1, 1),
           ANSWER(FRESH(0, 1, 0), FRESH(1, 1, 0)));
    ACCEPT(TABLE(FILL(0, 3), FILL(0, 3), EQUATION(0, 1)), ALWAYS(0), NO_ANSWER);

    /* The lowest row at which no pattern is left; the ties before it, without those of its own first pairs. */
    ACCEPT(TABLE(VARIABLE(1), FILL(0, 1), FILL(1, 1), EQUATION(0, 1), EQUATION(0, 2), EQUATION(1, 2), EQUATION(0, 1)),
           NEVER(1, 4), NO_ANSWER);
    ACCEPT(TABLE(VARIABLE(2), FILL(0, 1), CUT(0, 0, 0), EQUATION(2, 1), FILL(1, 2), EQUATION(0, 4), EQUATION(0, 0)),
           NEVER(1, 5), NO_ANSWER);
    ACCEPT(TABLE(FILL(0, 1), FILL(1, 1), EQUATION(0, 1), EQUATION(1, 0), VARIABLE(3)), NEVER(0, 2), NO_ANSWER);
    ACCEPT(TABLE(VARIABLE(3), CUT(0, 2, 1), CUT(0, 1, 0), FILL(0, 1), FILL(1, 1), CUT(0, 2, 2), CUT(0, 0, 0),
                 EQUATION(5, 3), EQUATION(6, 4), EQUATION(1, 2), EQUATION(0, 0)), NEVER(2, 9), NO_ANSWER);
}

/* A table of 16 bits and the table of the equations that count alone have one answer, which has this record. */
static void accept_revised(where at, const char *name, const table *revised, const table *counting, lw_record want)
{
    static uint16_t answer[ANSWER_LEAST];

    lw_record record = plain_call(ALL(*counting), ANSWER_LEAST, WORK_LEAST, answer);
    check_record(at, name, record, want);
    check_others(at, name, ALL(*revised), want, answer);
    call(at, name, ALL(*revised), NULL, ANSWER_LEAST, WORK_LEAST, want, answer);
    call(at, "counting equations alone", ALL(*counting), NULL, ANSWER_LEAST, WORK_LEAST, want, answer);
}

/* Revised equations: of each line the last one counts. */
static void test_revised(void)
{
    static table revised, counting;

    for (size_t i = 0; i < REVISED_CASES; i++) {
        make_revised(&revised_cases[i], &revised, &counting);
        accept_revised(HERE, revised_cases[i].name, &revised, &counting, revised_cases[i].want);
    }

    /* The same with words of two bits, and what is solved written down. */
#define FRONT VARIABLE(2), FILL(0, 2), FILL(1, 2)
    ACCEPT(TABLE(FRONT, LINE(0, 1, 7), LINE(0, 2, 7)), SOLVED(1, 0, 0, 2), ANSWER(ONES(0, 2)));
    ACCEPT(TABLE(FRONT, LINE(0, 1, 7), LINE(0, 2, 8)), NEVER(2, 4), NO_ANSWER);
    ACCEPT(TABLE(FRONT, LINE(0, 1, 7), EQUATION(0, 2), LINE(0, 1, 7)), NEVER(2, 5), NO_ANSWER);
    ACCEPT(TABLE(FRONT, LINE(0, 1, 7), EQUATION(0, 2), LINE(0, 0, 7)), SOLVED(1, 0, 0, 2), ANSWER(ONES(0, 2)));
    ACCEPT(TABLE(FRONT, LINE(0, 1, 7)), SOLVED(1, 0, 0, 2), ANSWER(ZEROS(0, 2)));
    ACCEPT(TABLE(FRONT, LINE(0, 0, 1)), ALWAYS(2), NO_ANSWER);
    ACCEPT(TABLE(FRONT, LINE(1, 2, 65535)), NEVER(0, 3), NO_ANSWER);
#undef FRONT
    ACCEPT(TABLE(VARIABLE(4), LINE(0, 0, 1)), ALWAYS(4), NO_ANSWER);
    for (unsigned bit = 0; bit < 16; bit++) { /* two line numbers that differ in one bit */
        const uint16_t line = 0x5a5a, other = (uint16_t)(line ^ 1U << bit);
        ACCEPT(TABLE(FILL(0, 1), FILL(1, 1), LINE(0, 1, line), LINE(0, 0, other)), NEVER(0, 2), NO_ANSWER);
    }
    ACCEPT(TABLE(FILL(0, 1), FILL(1, 1), LINE(0, 1, 1), LINE(0, 0, 1)), ALWAYS(0), NO_ANSWER);
    ACCEPT(TABLE(FILL(0, 1), FILL(1, 1), LINE(0, 0, 1), LINE(0, 1, 1)), NEVER(0, 3), NO_ANSWER);

    /* Unequal sides, and words behind their equation; a variable that the revised equation alone reached. */
    ACCEPT(TABLE(VARIABLE(4), VARIABLE(2), LINE(0, 1, 3), VARIABLE(3), LINE(3, 1, 3)), SOLVED(4, 2, 6, 3),
           ANSWER(FRESH(0, 4, 0), FRESH(1, 2, 1), ZEROS(2, 1), FRESH(2, 2, 1)));
    ACCEPT(TABLE(VARIABLE(2), VARIABLE(2), LINE(0, 1, 2), CUT(0, 1, 1), CUT(1, 0, 0), LINE(3, 4, 2)), SOLVED(4, 3, 3, 1),
           ANSWER(FRESH(0, 1, 0), FRESH(0, 1, 1), FRESH(1, 1, 2), FRESH(1, 1, 0)));
}

/* As many equations as there may be: of one line, of 64 lines, and 32 lines revised. */
static void test_revised_limits(void)
{
    static uint16_t answer[ANSWER_LEAST];
    static table t, counting;

    for (size_t line = 1; line <= 65535; line += line == 1 ? 6 : 65528) {
        make_one_line(&t, 64, line);
        ACCEPT(ALL(t), SOLVED(2, 1, 8, 8), ANSWER(ZEROS(0, 8), FRESH(0, 8, 0)));
        make_one_line(&t, 65, line);
        REFUSE_TABLE(ALL(t), 17, REVISED_FRONT + 64);
    }

    /* 64 words of 64 bits: each with the next by 64 lines; then the second half revises the first, word by word. */
    t.len = counting.len = 0;
    for (size_t v = 0; v < 64; v++)
        add(&t, VARIABLE(64)), add(&counting, VARIABLE(64));
    for (size_t v = 0; v < 64; v++)
        add(&t, LINE(v, (v + 1) % 64, 65535 - v)), add(&counting, EQUATION(v, (v + 1) % 64));
    accept_revised(HERE, "64 lines", &t, &counting, plain_call(ALL(counting), ANSWER_LEAST, WORK_LEAST, answer));
    for (size_t e = 0; e < 64; e++) {
        t.numbers[4 * (64 + e) + 3] = (uint16_t)(1 + e % 32);
        if (e < 32)
            counting.numbers[4 * (64 + e) + 1] = counting.numbers[4 * (64 + e) + 2] = 0;
    }
    accept_revised(HERE, "32 of 64 revised", &t, &counting, SOLVED(64, 32, 32 * 64, 32 * 64));

    /* 512 rows: the first equation is never, and the last row revises it. */
    t.len = 0;
    add_front(&t);
    add(&t, LINE(ZEROS_8, ONES_8, 300));
    while (t.len < 4 * 511)
        add(&t, CUT(WHOLE, 15, t.len % 16));
    add(&t, LINE(HIGH, ONES_8, 300));
    ACCEPT(ALL(t), SOLVED(2, 1, 8, 8), ANSWER(ONES(0, 8), FRESH(0, 8, 0)));
    t.numbers[4 * 511 + 3] = 301;
    ACCEPT(ALL(t), NEVER(0, REVISED_FRONT), NO_ANSWER);
}

/* The largest answers and tables. */
static void test_limits(void)
{
    static uint16_t answer[4 * 4096];
    table t;

    /* Four words of 1024 fixed bits 0 1 0 1 ..: 4096 fills, and the answer table of 24576 numbers is full. */
    make_fixed_bits(&t);
    for (uint16_t i = 0; i < 4096; i++)
        memcpy(answer + 4 * i, (const uint16_t[]){i / 1024, i % 2, 1, 0}, 8);
    ACCEPT(ALL(t), SOLVED(4096, 0, 0, 4096), answer, COUNT(answer));

    /* The same with the last bit of the last word both 0 and 1. */
    add(&t, CUT(15, 0, 0));
    add(&t, EQUATION(0, 20));
    ACCEPT(ALL(t), NEVER(4096, 21), NO_ANSWER);

    /* 64 words of 64 bits, all equal; then turned by one bit. */
    t.len = 0;
    for (size_t v = 0; v < 64; v++)
        add(&t, VARIABLE(64));
    for (size_t v = 0; v < 63; v++)
        add(&t, EQUATION(v, v + 1));
    for (uint16_t v = 0; v < 64; v++)
        memcpy(answer + 4 * v, (const uint16_t[]){FRESH(v, 64, 0)}, 8);
    ACCEPT(ALL(t), SOLVED(64, 1, 64, 4032), answer, 4 * 64);
    add(&t, CUT(0, 62, 0));
    add(&t, CUT(0, 63, 63));
    add(&t, JOIN(127, 128));
    add(&t, EQUATION(63, 129));
    for (uint16_t i = 0; i < 4096; i++)
        memcpy(answer + 4 * i, (const uint16_t[]){FRESH(i / 64, 1, 0)}, 8);
    ACCEPT(ALL(t), SOLVED(4096, 1, 1, 4095), answer, COUNT(answer));

    /*
      512 rows, 64 of them equations: in each of 64 words of 64 bits, bits 10 and
      20 are bits 40 and 50 of the next word. 448 fresh pieces.
    */
    t.len = 0;
    for (size_t v = 0; v < 64; v++)
        add(&t, VARIABLE(64));
    for (size_t v = 0; v < 64; v++) { /* from row 64 + 6 * v on */
        add(&t, CUT(v, 10, 10));
        add(&t, CUT(v, 20, 20));
        add(&t, JOIN(64 + 6 * v, 65 + 6 * v));
        add(&t, CUT(v, 40, 40));
        add(&t, CUT(v, 50, 50));
        add(&t, JOIN(67 + 6 * v, 68 + 6 * v));
    }
    for (size_t v = 0; v < 64; v++)
        add(&t, EQUATION(66 + 6 * v, 69 + 6 * ((v + 1) % 64)));
    uint16_t fresh = 0, bit_10 = 0, bit_20 = 0; /* the next new number; those of bits 10 and 20 of the word before */
    for (uint16_t v = 0; v < 64; v++) {
        static const uint16_t widths[] = {13, 1, 9, 1, 19, 1, 9, 1, 10};
        for (uint16_t i = 0; i < 9; i++) {
            uint16_t number;
            if (v != 0 && (i == 1 || i == 3)) /* bits 50 and 40 */
                number = i == 1 ? bit_20 : bit_10;
            else if (v == 63 && (i == 5 || i == 7)) /* bits 20 and 10: those of word 0 */
                number = i == 5 ? 1 : 3;
            else
                number = fresh++;
            memcpy(answer + 4 * (9 * v + i), (const uint16_t[]){FRESH(v, widths[i], number)}, 8);
        }
        bit_20 = answer[4 * (9 * v + 5) + 3];
        bit_10 = answer[4 * (9 * v + 7) + 3];
    }
    ACCEPT(ALL(t), SOLVED(576, 448, 3968, 128), answer, 4 * 576);

    /* 64 words of 64 bits and 64 equations of 1024 bits, each of a word with itself. */
    t.len = 0;
    for (size_t v = 0; v < 64; v++)
        add(&t, VARIABLE(64));
    for (size_t v = 0; v < 4; v++)
        add(&t, JOIN(v == 0 ? 63 : 63 + v, v == 0 ? 63 : 63 + v)); /* rows 64 to 67 */
    for (size_t e = 0; e < 64; e++)
        add(&t, EQUATION(67, 67));
    ACCEPT(ALL(t), ALWAYS(4096), NO_ANSWER);

    /* 512 rows: a chain of cuts of all bits of a word, equal to another word. */
    t.len = 0;
    add(&t, VARIABLE(1024));
    for (size_t r = 1; r < 510; r++)
        add(&t, CUT(r - 1, 1023, 0));
    add(&t, VARIABLE(1024));
    add(&t, EQUATION(509, 510));
    ACCEPT(ALL(t), SOLVED(2, 1, 1024, 1024), ANSWER(FRESH(0, 1024, 0), FRESH(1, 1024, 0)));
    t.numbers[4 * 511 + 2] = 0;
    ACCEPT(ALL(t), ALWAYS(2048), NO_ANSWER);
}

/* Refusal 10, with tables good and bad. */
static void test_memory(void)
{
    static const size_t answers[] = {0, 1, 6, 30, 4096, 16383, 16384, 24570, ANSWER_LEAST - 2, ANSWER_LEAST - 1,
                                     ANSWER_LEAST, ANSWER_LEAST + 1};
    static const size_t works[] = {0, 1, 4, 2048, 8192, WORK_LEAST - 4, WORK_LEAST - 1, WORK_LEAST, WORK_LEAST + 1,
                                   ANSWER_LEAST};
    static const uint16_t good[] = {VARIABLE(8), CUT(0, 6, 3), CUT(0, 4, 1), EQUATION(1, 2)};
    static const uint16_t bad[] = {VARIABLE(8), 9, 9, 9, 9};
    static uint16_t answer[ANSWER_LEAST];

    for (size_t i = 0; i < COUNT(answers); i++)
        for (size_t j = 0; j < COUNT(works); j++) {
            size_t a = answers[i], w = works[j];
            bool few = a < 24576 || w < 16384;
            lw_record want = plain_call(good, 16, a, w, answer);
            check(want.outcome == (few ? 10 : 2), HERE, "expected %u", want.outcome);
            call(HERE, "good table", good, 16, NULL, a, w, want, answer);
            call(HERE, "no rows", NULL, 0, NULL, a, w, plain_call(NULL, 0, a, w, answer), answer);
            for (size_t len = 7; len <= 8; len++) { /* refused 11, and 12 */
                want = plain_call(bad, len, a, w, answer);
                check(want.outcome == (few ? 10 : len == 7 ? 11 : 12), HERE, "expected %u", want.outcome);
                call(HERE, "bad table", bad, len, NULL, a, w, want, answer);
            }
        }
}

/* Refusals 11 to 17 and 40. */
static void test_table_refusals(void)
{
    table t;

    t.len = 0;
    while (t.len < 2048)
        add(&t, FILL(1, 2));
    ACCEPT(ALL(t), ALWAYS(0), NO_ANSWER);
    refuse_too_long(refuse_table);
    refuse_one_by_one(refuse_table);
    refuse_two_at_once(refuse_table);
    refuse_beyond_maximum(refuse_table);

    /* A table without a pattern is refused too, for a fault behind the row at which none is left. */
    REFUSE_TABLE(TABLE(FILL(0, 1), FILL(1, 1), EQUATION(0, 1), VARIABLE(1), EQUATION(0, 2)), 14, 4);
    REFUSE_TABLE(TABLE(FILL(0, 1), FILL(1, 1), EQUATION(0, 1), MARKER(2, 1)), 40, 3);
}

/* Whether all of so many numbers are this one. */
static bool like(const uint16_t *numbers, size_t count, uint16_t number)
{
    size_t same = 0;
    while (same < count && numbers[same] == number)
        same++;
    return same == count;
}

/* NULL with length 0 for each buffer. */
static void call_null(const solver *s)
{
    static const uint16_t fill[] = {FILL(1, 2)};
    static uint16_t answer[ANSWER_LEAST], work[WORK_LEAST];
    for (size_t i = 0; i < ANSWER_LEAST; i++)
        answer[i] = 9;
    for (size_t i = 0; i < WORK_LEAST; i++)
        work[i] = 9;

#define REFUSE_NULL(name, number, at, ...) \
    check_record(HERE, name, s->solve(__VA_ARGS__), (lw_record){.outcome = (number), .row = (at)})
    REFUSE_NULL("all NULL", 10, 0, NULL, 0, NULL, 0, NULL, 0);
    REFUSE_NULL("answer NULL", 10, 0, fill, 4, NULL, 0, work, WORK_LEAST);
    REFUSE_NULL("work NULL", 10, 0, fill, 4, answer, ANSWER_LEAST, NULL, 0);
    REFUSE_NULL("both NULL, table refused", 10, 0, fill, 3, NULL, 0, NULL, 0);
    REFUSE_NULL("table refused", 11, 512, fill, 3, answer, ANSWER_LEAST, work, WORK_LEAST);
#undef REFUSE_NULL
    check(like(answer, ANSWER_LEAST, 9) && like(work, WORK_LEAST, 9), HERE, "a buffer written by a refusal");
    check_record(HERE, "table NULL", s->solve(NULL, 0, answer, ANSWER_LEAST, work, WORK_LEAST), ALWAYS(0));
    check(like(answer, ANSWER_LEAST, 9) && like(work, WORK_LEAST, 0), HERE, "buffers after a table of no rows");
}

static void test_null(void)
{
    for (size_t i = 0; i < COUNT(solvers); i++)
        call_null(&solvers[i]);
    check_part(HERE, "answer NULL", lw_right_side(NULL, 0, 0, 0), (lw_part){0, 0});
    check_part(HERE, "answer NULL, a row in use", lw_right_side(NULL, 0, 1, 0), (lw_part){0, 0});
    check_part(HERE, "answer NULL, SIZE_MAX", lw_right_side(NULL, 0, SIZE_MAX, SIZE_MAX), (lw_part){0, 0});
}

/* Right sides of any numbers. */

static void part(where at, const uint16_t *numbers, size_t len, size_t rows, size_t variable, lw_part want)
{
    guarded a = guard(numbers, len * sizeof *numbers);
    const uint16_t *answer = guarded_buffer(&a);
    check_part(at, "right side", lw_right_side(answer, len, rows, variable), want);
    guard_check(&a, at, "answer");
}

#define PART(...)       part(HERE, __VA_ARGS__)
#define RUN(start, len) (lw_part){(start), (len)}
#define EMPTY           RUN(0, 0)

static void test_right_side(void)
{
    /* Rows of variables 0, 0, 1, 2, 2, 0, 65535, and five numbers more; no home is looked at. */
    static const uint16_t rows[] = {
        FRESH_AT(0, 1, 0, 0, 2), ZEROS_AT(0, 2, 1), ONES_AT(1, 3, 9), FRESH_AT(2, 1, 0, 7, 7), FRESH_AT(2, 2, 1, 2, 1),
        FRESH_AT(0, 1, 2, 1, 0), ONES_AT(65535, 9, 65535), 0, 0, 0, 0, 0,
    };
    PART(rows, 47, 7, 0, RUN(0, 12));
    PART(rows, 47, 7, 1, RUN(12, 6));
    PART(rows, 47, 7, 2, RUN(18, 12));
    PART(rows, 47, 7, 3, EMPTY);
    PART(rows, 47, 7, 65535, RUN(36, 6));
    PART(rows, 47, 7, 65536, EMPTY);
    PART(rows, 47, 7, SIZE_MAX, EMPTY);
    PART(rows, 47, 6, 65535, EMPTY);  /* that row is not in use */
    PART(rows, 47, 4, 2, RUN(18, 6)); /* nor is the second row of it */
    PART(rows, 47, 1, 0, RUN(0, 6));
    PART(rows, 47, 0, 0, EMPTY);
    PART(rows, 47, 8, 0, EMPTY);      /* seven whole rows are lent */
    PART(rows, 42, 7, 0, RUN(0, 12));
    PART(rows, 41, 7, 0, EMPTY);
    PART(rows, 41, 6, 0, RUN(0, 12));
    PART(rows, 36, 7, 0, EMPTY);      /* nine rows of four, but six of six */
    for (size_t len = 0; len < 6; len++) {
        PART(rows, len, 0, 0, EMPTY);
        PART(rows, len, 1, 0, EMPTY);
    }
    static const size_t many[] = {SIZE_MAX, SIZE_MAX / 6, SIZE_MAX / 6 + 1, SIZE_MAX / 6 + 2, SIZE_MAX / 4,
                                  SIZE_MAX / 4 + 1, SIZE_MAX / 3 + 1, SIZE_MAX / 2 + 1, (size_t)UINT32_MAX + 1, 65536};
    for (size_t i = 0; i < COUNT(many); i++)
        PART(rows, 47, many[i], 0, EMPTY);
    static const size_t absent[] = {65536, 65537, 131071, (size_t)UINT32_MAX + 1, (size_t)UINT32_MAX + 3,
                                    SIZE_MAX - 65535, SIZE_MAX - 65534, SIZE_MAX};
    for (size_t i = 0; i < COUNT(absent); i++) /* not taken for their low 16 bits */
        PART(rows, 47, 7, absent[i], EMPTY);
}

/* Random numbers of any kind, against the plain loop. */
static void test_random_parts(void)
{
    static uint16_t numbers[6 * 600];
    unsigned long empty = 0, whole = 0, longer = 0, rest = 0;

    for (unsigned long i = 0; i < 40000; i++) {
        size_t len = one_in(4) ? below(COUNT(numbers)) : below(90), kinds = one_in(3) ? 2 : one_in(2) ? 64 : 65536;
        uint16_t last = (uint16_t)below(kinds);
        for (size_t k = 0; k < len; k++) { /* often the variable of the row before */
            numbers[k] = k % 6 == 0 && !one_in(4) ? last : (uint16_t)below(kinds);
            if (k % 6 == 0)
                last = numbers[k];
        }
        size_t lent = len / 6, rows, variable;
        switch (below(8)) {
        case 0:  rows = 0; break;
        case 1:  rows = lent + 1 + below(3); break;
        case 2:  rows = one_in(3) ? SIZE_MAX - below(2) : SIZE_MAX / 6 + below(3); break;
        case 3:  rows = below(lent + 1); break;
        default: rows = lent; break;
        }
        switch (below(8)) {
        case 0:  variable = below(64); break;
        case 1:  variable = one_in(2) ? 63 : 65535; break;
        case 2:  variable = one_in(2) ? 65536 + below(kinds) : SIZE_MAX - below(65536); break;
        default: variable = lent == 0 ? 0 : numbers[6 * below(lent)]; break;
        }
        lw_part want = plain_right_side(numbers, len, rows, variable);
        PART(numbers, len, rows, variable, want);
        if (want.len == 0)
            empty++;
        else if (want.len == 6 * rows)
            whole++;
        else if (want.len > 6)
            longer++;
        else
            rest++;
    }
    printf("40000 random parts: %lu empty, %lu of all rows, %lu of some rows, %lu of one row\n", empty, whole, longer,
           rest);
    check(empty != 0 && whole != 0 && longer != 0 && rest != 0, HERE, "some kind of part does not occur");
}

/* Small random tables. */

/* A length of the answer table or of the work area: at least so many numbers. */
static size_t some_length(size_t least)
{
    return least + (one_in(2) ? 0 : one_in(8) ? below(LONGEST - least) : below(70));
}

/* Line numbers in half of the tables, and sides of unequal width in more of them. */
static extent some_extent(void)
{
    return one_in(2) ? WITH_LINES : one_in(2) ? WITH_SHORT_SIDES : one_in(2) ? WITH_MARKERS : EQUAL_SIDES;
}

/* Homes that occur in them. */
enum { EARLIER_VARIABLE, SAME_VARIABLE, AGAIN_AND_AGAIN, NOT_AT_0, FILL_IN_FRONT, BIT_ELSEWHERE, HOMES };

static const char *const home_names[HOMES] = {
    "a piece at home in an earlier variable", "a piece at home higher up in its variable",
    "a piece that appears three times", "a piece that comes again, at home after variable 0",
    "a fill before fresh piece 0", "a fill of a bit that a fill before it has",
};

static void note_homes(const uint16_t *answer, size_t rows, bool has[HOMES])
{
    size_t appeared[ENUM_BITS] = {0}, fills[2] = {0};
    for (size_t r = 0; r < rows; r++) {
        const uint16_t *n = answer + 6 * r;
        if (n[1] != LW_FRESH) {
            has[BIT_ELSEWHERE] |= fills[n[1]]++ != 0;
            continue;
        }
        has[FILL_IN_FRONT] |= n[3] == 0 && appeared[0] == 0 && fills[0] + fills[1] != 0;
        if (appeared[n[3]]++ == 0)
            continue;
        has[n[4] < n[0] ? EARLIER_VARIABLE : SAME_VARIABLE] = true;
        has[AGAIN_AND_AGAIN] |= appeared[n[3]] > 2;
        has[NOT_AT_0] |= n[4] != 0;
    }
}

/* The library and the plain solver against the enumeration, on one small table. */
static void test_small_table(unsigned long number, unsigned long outcomes[3], unsigned long features[FEATURES],
                             unsigned long homes[HOMES], unsigned long met[ENUM_BITS + 1])
{
    static sketch s;
    static ref_table facts;
    static enumeration found;
    static uint16_t answer[ANSWER_LEAST];
    bool has[FEATURES] = {false}, has_home[HOMES] = {false};
    char name[64];

    make_small(&s, some_extent());
    snprintf(name, sizeof name, "small table %lu", number);
    lw_record record = ref_check(s.d.t.numbers, s.d.t.len, &facts);
    if (!check(record.outcome == 0 && facts.bits <= ENUM_BITS, HERE, "%s: refused %u, row %u", name,
               record.outcome, record.row))
        return;

    enumerate(s.d.t.numbers, &facts, &found);
    lw_record want = found.record;
    check(found.met == (want.outcome == 1 ? 0 : (size_t)1 << want.free) &&
          (want.outcome != 0 || want.free == facts.bits) && (want.outcome == 1 || want.free + want.ties == facts.bits),
          HERE, "%s: %zu patterns meet it, free %u, ties %u", name, found.met, want.free, want.ties);

    record = plain_solve(s.d.t.numbers, &facts, answer);
    if (!check(same_record(record, want) && same_answer(want, answer, found.answer), HERE,
               "%s: plain solver and enumeration differ", name) && checks_failed == 1) {
        print_table(s.d.t.numbers, s.d.t.len);
        check_record(HERE, "plain solver", record, want);
        print_answer("plain solver", answer, record.pieces);
        print_answer("enumeration", found.answer, want.pieces);
    }

    size_t answer_len = some_length(ANSWER_LEAST), work_len = some_length(WORK_LEAST);
    call(HERE, name, ALL(s.d.t), NULL, answer_len, work_len, want, found.answer);
    outcomes[want.outcome]++;
    if (want.outcome == 2)
        met[want.free]++;
    note_features(&s.d, &facts, &found, has);
    for (int i = 0; i < FEATURES; i++)
        features[i] += has[i];
    note_homes(found.answer, want.pieces, has_home);
    for (int i = 0; i < HOMES; i++)
        homes[i] += has_home[i];
}

static void test_small(unsigned long tables)
{
    unsigned long outcomes[3] = {0}, features[FEATURES] = {0}, homes[HOMES] = {0}, met[ENUM_BITS + 1] = {0};

    for (unsigned long i = 0; i < tables; i++)
        test_small_table(i, outcomes, features, homes, met);
    printf("%lu small tables: always %lu, never %lu, solved %lu\n  solved with free", tables, outcomes[0], outcomes[1],
           outcomes[2]);
    for (size_t i = 0; i <= ENUM_BITS; i++)
        printf(" %zu: %lu%s", i, met[i], i < ENUM_BITS ? "," : "\n");
    for (int i = 0; i < FEATURES; i++)
        printf("    %-60s %lu\n", feature_names[i], features[i]);
    for (size_t i = 0; i < 3; i++)
        check(5 * outcomes[i] >= tables, HERE, "outcome %zu is rare", i);
    for (int i = 0; i < FEATURES; i++)
        check(features[i] != 0, HERE, "no small table has this: %s", feature_names[i]);
    for (int i = 0; i < HOMES; i++) {
        printf("    %-50s %lu\n", home_names[i], homes[i]);
        check(homes[i] != 0, HERE, "no answer of a small table has this: %s", home_names[i]);
    }
}

/* Damaged tables. */

/* A table about as large as is allowed: in variables, in variable bits, or in equations. */
static void make_limit(draft *d)
{
    size_t kind = below(3), count = 63 + below(4);
    clear(d);
    for (size_t i = 0; i < 4 && kind == 1; i++)
        add_row(d, 1000, VARIABLE(1000));
    while (d->rows < count)
        if (kind == 2 && d->rows != 0)
            add_row(d, 0, EQUATION(0, 0));
        else
            add_row(d, kind + 1, VARIABLE(kind + 1));
}

/* A table with some numbers changed, or none, against the reference and the plain solver. Gives the outcome. */
static uint32_t test_damaged_table(unsigned long number)
{
    static sketch s;
    static draft any;
    static uint16_t answer[ANSWER_LEAST];
    draft *d = &any;
    char name[64];

    if (one_in(2)) {
        make_small(&s, some_extent());
        d = &s.d;
    } else if (one_in(20)) {
        make_limit(d);
    } else {
        make_table(d);
    }
    for (size_t i = below(3); i != 0; i--)
        damage(d, some_refusal(11));
    for (size_t i = one_in(3) ? 1 + below(3) : 0; i != 0 && d->rows != 0; i--) {
        size_t at = below(4 * d->rows);
        d->t.numbers[at] = (uint16_t)below(one_in(2) ? 20 : 65536);
    }
    size_t answer_len = some_length(ANSWER_LEAST), work_len = some_length(WORK_LEAST);
    if (one_in(32))
        answer_len = one_in(2) ? ANSWER_LEAST - 1 : below(ANSWER_LEAST);
    if (one_in(32))
        work_len = one_in(2) ? WORK_LEAST - 1 : below(WORK_LEAST);

    lw_record want = plain_call(d->t.numbers, d->t.len, answer_len, work_len, answer);
    snprintf(name, sizeof name, "damaged table %lu", number);
    call(HERE, name, d->t.numbers, d->t.len, NULL, answer_len, work_len, want, answer);
    return want.outcome;
}

static void test_damaged(unsigned long small_tables)
{
    static const uint32_t outcomes[] = {0, 1, 2, 10, 11, 12, 13, 14, 15, 40, 16, 17};
    unsigned long seen[41] = {0}, tables = small_tables / 5;

    for (unsigned long i = 0; i < tables; i++)
        seen[test_damaged_table(i)]++;
    printf("%lu damaged tables:", tables);
    for (size_t i = 0; i < COUNT(outcomes); i++)
        printf(" %s%u %lu", i == 0 ? "outcome " : "", outcomes[i], seen[outcomes[i]]);
    printf("\n");
    for (size_t i = 0; i < COUNT(outcomes); i++)
        check(seen[outcomes[i]] != 0, HERE, "no damaged table has outcome %u", outcomes[i]);
}

/* Large random tables. */

/* Sides of unequal width that occur in them. */
enum { LEFT_SHORT, RIGHT_SHORT, BY_ONE, BY_HUNDREDS, TO_1024, TO_1024_BY_ONE, ONE_TO_1024, SHORTS };

static const char *const short_names[SHORTS] = {
    "a narrower left side", "a narrower right side", "a side narrower by one bit", "a side narrower by over 500 bits",
    "a narrower side and one of 1024 bits", "sides of 1023 and 1024 bits", "sides of one and 1024 bits",
};

static void note_widths(size_t left, size_t right, bool has[SHORTS])
{
    size_t wider = left < right ? right : left, narrower = left < right ? left : right;
    if (wider == narrower)
        return;
    has[left < right ? LEFT_SHORT : RIGHT_SHORT] = true;
    has[BY_ONE] |= wider == narrower + 1;
    has[BY_HUNDREDS] |= wider > narrower + 500;
    has[TO_1024] |= wider == 1024;
    has[TO_1024_BY_ONE] |= wider == 1024 && narrower == 1023;
    has[ONE_TO_1024] |= wider == 1024 && narrower == 1;
}

/* How many equations do not count. */
static size_t revised_in(const draft *d)
{
    size_t count = 0;
    for (size_t r = 0; r < d->rows; r++)
        count += d->t.numbers[4 * r] == LW_EQUATION && last_of_line(d->t.numbers, d->rows, r) != r;
    return count;
}

static void test_large(void)
{
    static plan p;
    static uint16_t answer[ANSWER_LEAST];
    unsigned long outcomes[3] = {0}, full = 0, wide = 0, chained = 0, early = 0, many = 0, bits_full = 0, marked = 0;
    unsigned long shorter[SHORTS] = {0}, revised = 0, most_revised = 0;
    char name[64];

    for (unsigned long i = 0; i < LARGE_TABLES; i++) {
        size_t answer_len = some_length(ANSWER_LEAST), work_len = some_length(WORK_LEAST);
        size_t widest = 0, last = 0, cuts = 0, longest = 0;
        bool marker = false, has[SHORTS] = {false};
        make_large(&p);
        lw_record want = plain_call(ALL(p.d.t), answer_len, work_len, answer);
        snprintf(name, sizeof name, "large table %lu", i);
        if (!check(want.outcome <= 2, HERE, "%s: refused %u, row %u", name, want.outcome, want.row))
            continue;
        call(HERE, name, ALL(p.d.t), NULL, answer_len, work_len, want, answer);

        for (size_t r = 0; r < p.d.rows; r++) {
            const uint16_t *n = p.d.t.numbers + 4 * r;
            cuts = n[0] == LW_CUT && n[1] + 1U == r ? cuts + 1 : 0;
            longest = cuts > longest ? cuts : longest;
            marker |= n[0] == LW_VALUE;
            if (n[0] == LW_EQUATION) {
                widest = p.d.width[n[1]] > widest ? p.d.width[n[1]] : widest;
                last = r;
                note_widths(p.d.width[n[1]], p.d.width[n[2]], has);
            }
        }
        outcomes[want.outcome]++;
        full += p.d.equations == 64;
        wide += widest == 1024;
        chained += longest >= 100;
        early += want.outcome == 1 && want.row < last;
        many += want.pieces >= 1000;
        bits_full += p.d.bits == 4096;
        marked += marker;
        size_t gone = revised_in(&p.d);
        revised += gone != 0;
        most_revised = gone > most_revised ? gone : most_revised;
        for (int k = 0; k < SHORTS; k++)
            shorter[k] += has[k];
    }
    printf("%d large tables: always %lu, never %lu, solved %lu\n", LARGE_TABLES, outcomes[0], outcomes[1], outcomes[2]);
    printf("    of 4096 variable bits %lu, of 64 equations %lu, with an equation of 1024 bits %lu,\n"
           "    with a chain of 100 cuts %lu, never before the last equation %lu, of 1000 pieces %lu, with a marker %lu,\n"
           "    with a revised equation %lu, with up to %lu of them\n",
           bits_full, full, wide, chained, early, many, marked, revised, most_revised);
    for (int k = 0; k < SHORTS; k++)
        printf("    with %-45s %lu\n", short_names[k], shorter[k]);
    for (size_t i = 0; i < 3; i++)
        check(10 * outcomes[i] >= LARGE_TABLES, HERE, "outcome %zu is rare", i);
    check(bits_full != 0 && full != 0 && wide != 0 && chained != 0 && early != 0 && many != 0 && marked != 0 &&
          10 * revised >= LARGE_TABLES && most_revised > 50, HERE, "some kind of large table does not occur");
    for (int k = 0; k < SHORTS; k++)
        check(shorter[k] != 0, HERE, "no large table has %s", short_names[k]);
}

/* Sides of many pieces. */

enum { PIECED_TABLES = 600 };

static const size_t piece_bits[] = {1, 2, 3, 5, 7, 16, 64, 1024};

/* A word of 1024 bits in pieces of so many, parts of the first variables; the last piece may be shorter. */
static size_t word_of_pieces(draft *d, size_t variables, size_t bits)
{
    size_t word = NONE, piece;
    for (size_t i = 0; i < (bits == 1024 ? 1 : 8); i++) {
        size_t v = bits == 1024 ? 0 : below(variables), at = below(d->width[v] - bits + 1);
        piece = add_row(d, bits, CUT(v, at + bits - 1, at));
        word = word == NONE ? piece : add_row(d, d->width[word] + bits, JOIN(word, piece));
    }
    while (d->width[word] <= 512)
        word = add_row(d, 2 * d->width[word], JOIN(word, word));
    if (d->width[word] < 1024) {
        piece = add_row(d, 1024 - d->width[word], CUT(word, d->width[word] - 1, 2 * d->width[word] - 1024));
        word = add_row(d, 1024, JOIN(word, piece));
    }
    return word;
}

/* The word with the bit that is so many places behind its high end made a fill. */
static size_t with_fixed_bit(draft *d, size_t word, size_t at, size_t bit)
{
    size_t r = add_row(d, 1, FILL(bit, 1)), w = d->width[word];
    if (at != 0) {
        size_t top = add_row(d, at, CUT(word, w - 1, w - at));
        r = add_row(d, at + 1, JOIN(top, r));
    }
    if (at + 1 == w)
        return r;
    size_t low = add_row(d, w - at - 1, CUT(word, w - at - 2, 0));
    return add_row(d, w, JOIN(r, low));
}

/* What occurs in them. */
enum { ONE_TO_ALL, HALF_TO_THIRD, AT_FIRST, AT_MIDDLE, AT_LAST, FILLED, PIECED };

static const char *const pieced_names[PIECED] = {
    "sides of 1024 pieces and of one", "sides of 512 and of 342 pieces", "a conflict at a piece's first bit",
    "a conflict within a piece", "a conflict at a piece's last bit", "a narrower side of many pieces",
};

static size_t pieces_of(const draft *d, size_t row)
{
    static uint16_t form[LW_FORM_NUMBERS];
    return lw_normal_form(ALL(d->t), row, form, LW_FORM_NUMBERS).pieces;
}

/* Equations between sides of many pieces, whose pieces end at different places. */
static void make_pieced(draft *d, bool has[PIECED])
{
    size_t variables = 2 + below(3), conflict = one_in(2) ? 1 + below(4) : 0, place = below(3);
    clear(d);
    add_row(d, 1024, VARIABLE(1024));
    while (d->rows < variables) {
        size_t width = 64 + below(900);
        add_row(d, width, VARIABLE(width));
    }
    for (size_t e = 1; e <= 4; e++) {
        size_t left = piece_bits[below(COUNT(piece_bits))], right = piece_bits[below(COUNT(piece_bits))];
        size_t a = word_of_pieces(d, variables, left), b = word_of_pieces(d, variables, right);
        if (e == conflict) {
            size_t at = below(1024 / left) * left + (place == 0 ? 0 : place == 1 ? left / 2 : left - 1);
            a = with_fixed_bit(d, a, at, 1);
            b = with_fixed_bit(d, b, at, 0);
            has[AT_FIRST + (left == 1 ? 0 : place)] = true;
        } else if (one_in(4)) {
            size_t width = 1 + below(1023);
            b = add_row(d, width, CUT(b, width - 1, 0));
            has[FILLED] |= width > right * 8;
        }
        size_t m = pieces_of(d, a), n = pieces_of(d, b), most = m < n ? n : m, least = m < n ? m : n;
        has[ONE_TO_ALL] |= most == 1024 && least == 1;
        has[HALF_TO_THIRD] |= most == 512 && least == 342;
        add_row(d, 0, EQUATION(a, b));
    }
}

static void test_pieced(void)
{
    static draft d;
    static uint16_t answer[ANSWER_LEAST];
    unsigned long outcomes[3] = {0}, seen[PIECED] = {0};
    char name[64];

    for (unsigned long i = 0; i < PIECED_TABLES; i++) {
        bool has[PIECED] = {false};
        make_pieced(&d, has);
        lw_record want = plain_call(ALL(d.t), ANSWER_LEAST, WORK_LEAST, answer);
        snprintf(name, sizeof name, "table of many pieces %lu", i);
        if (!check(want.outcome <= 2, HERE, "%s: refused %u, row %u", name, want.outcome, want.row))
            continue;
        call(HERE, name, ALL(d.t), NULL, ANSWER_LEAST, WORK_LEAST, want, answer);
        outcomes[want.outcome]++;
        for (int k = 0; k < PIECED; k++)
            seen[k] += has[k];
    }
    printf("%d tables of many pieces: always %lu, never %lu, solved %lu\n", PIECED_TABLES, outcomes[0], outcomes[1],
           outcomes[2]);
    for (int k = 0; k < PIECED; k++) {
        printf("    with %-45s %lu\n", pieced_names[k], seen[k]);
        check(seen[k] != 0, HERE, "no table of many pieces has %s", pieced_names[k]);
    }
    check(outcomes[1] != 0 && outcomes[2] != 0, HERE, "an outcome does not occur");
}

const test_list tests = {
    .name = "solve", .inputs = 100000,
    .groups = {
        {.name = "the header's constants", .run = test_constants},
        {.name = "worked cases", .run = test_worked},
        {.name = "the sheet's printed answer", .run = test_sheet},
        {.name = "fresh pieces", .run = test_pieces},
        {.name = "fixed bits", .run = test_fills},
        {.name = "markers", .run = test_markers},
        {.name = "sides of unequal width", .run = test_short},
        {.name = "markers of another width", .run = test_short_markers},
        {.name = "unequal sides up to 1024 bits", .run = test_short_limits},
        {.name = "home and high", .run = test_homes},
        {.name = "ties, and never", .run = test_ties},
        {.name = "revised equations", .run = test_revised},
        {.name = "64 equations with line numbers", .run = test_revised_limits},
        {.name = "largest answers and tables", .run = test_limits},
        {.name = "refusal 10", .run = test_memory},
        {.name = "refusals 11 to 17, 40", .run = test_table_refusals},
        {.name = "NULL with length 0", .run = test_null},
        {.name = "right sides worked by hand", .run = test_right_side},
        {.name = "random right sides", .run = test_random_parts},
        {.name = "small tables against all patterns", .run_random = test_small},
        {.name = "damaged tables", .run_random = test_damaged},
        {.name = "large tables against the plain solver", .run = test_large},
        {.name = "sides of many pieces against the plain solver", .run = test_pieced},
    },
};
