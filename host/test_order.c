/*
  test_order.c -- tests that neither the order of equations nor which of their sides is left matters to lw_solve

      test_order [TABLES]

  First tables worked by hand. Then TABLES random tables of at most 5 equations
  (10000 if not given), without line numbers, markers and sides of unequal width
  among them: their equations are put into their equation rows in every order, each
  time with sides turned at random. An order in which an equation stands before a
  row that it names is refused 14 and writes nothing, and is not compared. Every
  other gives the outcome, pieces, fresh and free of the table, its ties and row too
  unless it is a never, and leaves the same numbers in both buffers, which are lent
  in several lengths. Never tables are counted by what differs in some other order:
  ties and row, ties alone, row alone, neither. Sides turned alone change nothing,
  of a never neither. Each table, and each never in another order, is also solved by
  the plain solver (plain_solver.c). Last tables of up to 64 equations in some
  orders, those of large_table.h among them.
*/

#include "large_table.h"
#include "linkwords.h"
#include "plain_solver.h"
#include "reference.h"
#include "small_table.h"
#include "test.h"

enum { ANSWER = 24576, WORK = 16384, SLACK = 32, MOST = 5, EQUATIONS = 64 };

/* What a solve returns and leaves, behind the buffers too. */
typedef struct {
    lw_record record;
    uint16_t answer[ANSWER + SLACK], work[WORK + SLACK];
} result;

static result before, first, other; /* what is lent, and what the table and its rearranged table leave */
static size_t answer_len, work_len; /* and how much of it */

/* Other numbers, and some more of them than a solve asks for, or none. */
static void lend(void)
{
    answer_len = ANSWER + below(SLACK / 2);
    work_len = WORK + below(SLACK / 2);
    for (size_t i = 0; i < COUNT(before.answer); i++)
        before.answer[i] = (uint16_t)random_number();
    for (size_t i = 0; i < COUNT(before.work); i++)
        before.work[i] = (uint16_t)random_number();
}

static void solve_with(const table *t, size_t answer_room, size_t work_room, result *r)
{
    memcpy(r->answer, before.answer, sizeof r->answer);
    memcpy(r->work, before.work, sizeof r->work);
    r->record = lw_solve(ALL(*t), r->answer, answer_room, r->work, work_room);
}

static void solve(const table *t, result *r)
{
    solve_with(t, answer_len, work_len, r);
}

/* A table with the rows in which its equations stand. */
typedef struct {
    table t;
    size_t count, rows[EQUATIONS];
} sheet;

static void read_sheet(sheet *s, const uint16_t *numbers, size_t len)
{
    s->count = 0;
    s->t.len = len;
    memcpy(s->t.numbers, numbers, len * sizeof *numbers);
    for (size_t r = 0; r < len / 4; r++)
        if (numbers[4 * r] == LW_EQUATION)
            s->rows[s->count++] = r;
}

/* Whether the equation of row `from` may stand in row `to`: behind the rows that it names. */
static bool may_stand(const sheet *s, size_t from, size_t to)
{
    const uint16_t *n = s->t.numbers + 4 * from;
    return n[1] < to && n[2] < to;
}

/* The lowest equation row at which an order is refused; NONE if it is accepted. Equation order[i] stands in row rows[i]. */
static size_t refused_at(const sheet *s, const size_t *order)
{
    for (size_t i = 0; i < s->count; i++)
        if (!may_stand(s, s->rows[order[i]], s->rows[i]))
            return s->rows[i];
    return NONE;
}

static void rearrange(const sheet *s, const size_t *order, uint64_t turned, table *u)
{
    memcpy(u, &s->t, sizeof *u);
    for (size_t i = 0; i < s->count; i++) {
        const uint16_t *from = s->t.numbers + 4 * s->rows[order[i]];
        uint16_t *to = u->numbers + 4 * s->rows[i];
        bool turn = turned >> i & 1;
        to[1] = from[turn ? 2 : 1];
        to[2] = from[turn ? 1 : 2];
        to[3] = from[3];
    }
}

/* What occurred: orders that are accepted and that are not; never tables by whether ties, and whether the row, differ in some other order;
   and what was seen of the table under way. */
static unsigned long orders, refused, nevers[2][2];
static bool seen[2][2];

static void count_table(void)
{
    for (int ties = 0; ties < 2; ties++)
        for (int row = 0; row < 2; row++)
            nevers[ties][row] += seen[ties][row];
    memset(seen, 0, sizeof seen);
}

/* The record is that of the plain solver, and so is the answer. */
static void check_plain(where at, const table *t, const result *r)
{
    static uint16_t answer[6 * PLAIN_BITS];
    lw_record record = plain_call(ALL(*t), ANSWER, WORK, answer);
    check_record(at, "plain solver", r->record, record);
    check(memcmp(answer, r->answer, 6 * record.pieces * sizeof *answer) == 0, at, "another answer than the plain solver's");
}

/* Both tables leave the same, and return it; ties and row of a never only if all is to be equal. */
static void compare(where at, const table *t, const table *u, bool all)
{
    lw_record a = first.record, b = other.record;
    bool never = a.outcome == LW_NEVER && b.outcome == LW_NEVER;

    if (never && !all) {
        seen[a.ties != b.ties][a.row != b.row] = true;
        b.ties = a.ties;
        b.row = a.row;
    }
    bool same = check_record(at, "rearranged", b, a);
    same &= check(memcmp(first.answer, other.answer, sizeof first.answer) == 0, at, "another answer table");
    same &= check(memcmp(first.work, other.work, sizeof first.work) == 0, at, "another work area");
    if (!same) {
        print_table(ALL(*t));
        print_table(ALL(*u));
    }
}

static bool as_it_was(const sheet *s, const size_t *order)
{
    size_t i = 0;
    while (i < s->count && order[i] == i)
        i++;
    return i == s->count;
}

/* The table in one order, if that is accepted; else it is refused, and nothing is written. In its own order a never keeps ties and row too. */
static void try_order(where at, const sheet *s, const size_t *order)
{
    static table u;
    size_t broken = refused_at(s, order);

    rearrange(s, order, random_number(), &u);
    solve(&u, &other);
    if (broken != NONE) {
        refused++;
        check_record(at, "refused", other.record, (lw_record){.outcome = 14, .row = (uint32_t)broken});
        check(memcmp(before.answer, other.answer, sizeof before.answer) == 0 &&
              memcmp(before.work, other.work, sizeof before.work) == 0, at, "a refusal writes");
        return;
    }
    orders++;
    compare(at, &s->t, &u, as_it_was(s, order));
    if (other.record.outcome == LW_NEVER)
        check_plain(at, &u, &other);
}

/* Every order of the equations from number i on. */
static void try_orders(where at, const sheet *s, size_t *order, size_t i)
{
    if (i == s->count) {
        try_order(at, s, order);
        return;
    }
    for (size_t j = i; j < s->count; j++) {
        size_t kept = order[i];
        order[i] = order[j];
        order[j] = kept;
        try_orders(at, s, order, i + 1);
        order[j] = order[i];
        order[i] = kept;
    }
}

static void in_order(size_t order[EQUATIONS])
{
    for (size_t i = 0; i < EQUATIONS; i++)
        order[i] = i;
}

/* Each equation in its row, with these sides turned. */
static void try_turned(where at, const sheet *s, uint64_t turned)
{
    static table u;
    size_t order[EQUATIONS];

    in_order(order);
    rearrange(s, order, turned, &u);
    solve(&u, &other);
    compare(at, &s->t, &u, true);
}

/* With too little memory both are refused 10. */
static void try_without_room(where at, const sheet *s, const size_t *order)
{
    static table u;
    bool answer = one_in(2);

    rearrange(s, order, random_number(), &u);
    solve_with(&s->t, ANSWER - answer, WORK - !answer, &first);
    solve_with(&u, ANSWER - answer, WORK - !answer, &other);
    check_record(at, "too little memory", first.record, (lw_record){.outcome = 10});
    compare(at, &s->t, &u, true);
}

/* All orders and all sides of a table of at most 5 equations. */
static void try_all(where at, const sheet *s)
{
    size_t order[EQUATIONS];

    in_order(order);
    try_without_room(at, s, order);
    solve(&s->t, &first);
    check_plain(at, &s->t, &first);
    try_orders(at, s, order, 0);
    for (uint64_t turned = 1; turned < (uint64_t)1 << s->count; turned++)
        try_turned(at, s, turned);
    count_table();
}

/* Worked by hand. */

static void solves(where at, const uint16_t *numbers, size_t len, lw_record record)
{
    static sheet s;
    read_sheet(&s, numbers, len);
    try_all(at, &s);
    check_record(at, "worked by hand", first.record, record);
}

#define RECORD(outcome, pieces, fresh, free, ties, row) (lw_record){outcome, pieces, fresh, free, ties, row}

static void test_nevers(void)
{
    lend();
    solves(HERE, TABLE(VARIABLE(1), FILL(0, 1), FILL(1, 1), EQUATION(0, 1), EQUATION(1, 2)), RECORD(1, 0, 0, 0, 1, 4));
    check(nevers[1][1] == 1, HERE, "ties and row do not differ");
    solves(HERE, TABLE(VARIABLE(1), FILL(0, 1), FILL(1, 1), EQUATION(1, 2), EQUATION(0, 1)), RECORD(1, 0, 0, 0, 0, 3));
    solves(HERE, TABLE(VARIABLE(2), VARIABLE(1), FILL(0, 1), FILL(1, 1), EQUATION(1, 2), EQUATION(2, 3), EQUATION(0, 2)),
           RECORD(1, 0, 0, 0, 1, 5));
    solves(HERE, TABLE(VARIABLE(2), VARIABLE(1), FILL(0, 1), FILL(1, 1), EQUATION(0, 2), EQUATION(2, 3), EQUATION(1, 2)),
           RECORD(1, 0, 0, 0, 2, 5));
    check(nevers[1][0] != 0, HERE, "ties alone do not differ");
    solves(HERE, TABLE(VARIABLE(1), FILL(0, 1), FILL(1, 1), EQUATION(0, 0), EQUATION(1, 2)), RECORD(1, 0, 0, 0, 0, 4));
    solves(HERE, TABLE(VARIABLE(1), FILL(0, 1), FILL(1, 1), EQUATION(1, 2), EQUATION(0, 0)), RECORD(1, 0, 0, 0, 0, 3));
    check(nevers[0][1] != 0, HERE, "rows alone do not differ");
}

static void test_solved(void)
{
    lend();
    solves(HERE, TABLE(VARIABLE(8), VARIABLE(8), VARIABLE(8), CUT(2, 7, 4), FILL(0, 4), /* examples/chain.sheet */
                       EQUATION(0, 1), EQUATION(1, 2), EQUATION(3, 4)), RECORD(2, 6, 1, 4, 20, 0));
    solves(HERE, TABLE(VARIABLE(8), VARIABLE(12), EQUATION(0, 1)), RECORD(2, 3, 1, 8, 12, 0)); /* examples/short.sheet */
    solves(HERE, TABLE(VARIABLE(8), VARIABLE(12), EQUATION(1, 0)), RECORD(2, 3, 1, 8, 12, 0));
    solves(HERE, TABLE(VARIABLE(4), EQUATION(0, 0), MARKER(5, 3), EQUATION(0, 0)), RECORD(0, 0, 0, 4, 0, 0));
}

/* The relation does not count how often an equation stands there. */
static void test_repeated(void)
{
    static sheet s, u;
    lend();
    read_sheet(&s, TABLE(VARIABLE(3), VARIABLE(3), VARIABLE(3), EQUATION(0, 1), EQUATION(1, 2), EQUATION(1, 2)));
    read_sheet(&u, TABLE(VARIABLE(3), VARIABLE(3), VARIABLE(3), EQUATION(1, 0), EQUATION(0, 1), EQUATION(2, 1)));
    solve(&s.t, &first);
    solve(&u.t, &other);
    compare(HERE, &s.t, &u.t, true);
    check_record(HERE, "repeated", first.record, RECORD(2, 3, 1, 3, 6, 0));
}

/* What is not claimed: a table that is refused, and line numbers. */
static void test_not_claimed(void)
{
    static sheet s, u;
    unsigned long were = refused;

    lend();
    solves(HERE, TABLE(VARIABLE(1), EQUATION(0, 0), FILL(0, 1), EQUATION(0, 2)), RECORD(2, 1, 0, 0, 1, 0));
    check(refused == were + 1, HERE, "an equation before a row that it names");
    read_sheet(&s, TABLE(VARIABLE(1), FILL(0, 1), FILL(1, 1), LINE(0, 1, 7), LINE(0, 2, 7)));
    read_sheet(&u, TABLE(VARIABLE(1), FILL(0, 1), FILL(1, 1), LINE(0, 2, 7), LINE(0, 1, 7)));
    solve(&s.t, &first);
    solve(&u.t, &other);
    check_record(HERE, "line 7", first.record, RECORD(2, 1, 0, 0, 1, 0));
    check_record(HERE, "line 7, exchanged", other.record, first.record);
    check(memcmp(first.answer, (uint16_t[]){0, 1, 1, 0, 0, 0}, 12) == 0, HERE, "the last of line 7 does not count");
    check(memcmp(other.answer, (uint16_t[]){0, 0, 1, 0, 0, 0}, 12) == 0, HERE, "the last of line 7 does not count");
}

/* Random tables. */

static void clear_counts(void)
{
    orders = refused = 0;
    memset(nevers, 0, sizeof nevers);
}

static void tell_counts(unsigned long tables)
{
    printf("%lu tables, %lu orders, and %lu refused 14; never tables with an order of which both differ %lu, ties alone %lu, row alone %lu, "
           "neither %lu\n", tables, orders, refused, nevers[1][1], nevers[1][0], nevers[0][1], nevers[0][0]);
    check(refused != 0 && nevers[0][0] != 0, HERE, "no order is refused, or each never differs");
    check(nevers[1][1] * 100 >= tables, HERE, "few never tables of which ties and row differ");
    check(nevers[1][0] * 100 >= tables, HERE, "few never tables of which ties alone differ");
    check(nevers[0][1] * 100 >= tables, HERE, "few never tables of which the row alone differs");
}

/* The equations put behind all other rows, which keep their order: then every order of them is accepted. */
static void equations_last(draft *d)
{
    static draft from;
    size_t to[512] = {0};

    from = *d;
    clear(d);
    for (int equations = 0; equations < 2; equations++)
        for (size_t r = 0; r < from.rows; r++) {
            const uint16_t *n = from.t.numbers + 4 * r;
            bool names = n[0] == LW_JOIN || n[0] == LW_CUT || n[0] == LW_EQUATION;
            if ((n[0] == LW_EQUATION) == (equations == 1))
                to[r] = add_row(d, from.width[r], n[0], names ? to[n[1]] : n[1],
                                names && n[0] != LW_CUT ? to[n[2]] : n[2], n[3]);
        }
}

/* Whether a table has markers, and equations whose sides are of unequal width. */
static void note_rows(const draft *d, unsigned long *markers, unsigned long *shorts)
{
    bool marker = false, uneven = false;
    for (size_t r = 0; r < d->rows; r++) {
        const uint16_t *n = d->t.numbers + 4 * r;
        marker |= n[0] == LW_VALUE;
        uneven |= n[0] == LW_EQUATION && d->width[n[1]] != d->width[n[2]];
    }
    *markers += marker;
    *shorts += uneven;
}

static void test_small(unsigned long tables)
{
    static sketch s;
    static sheet t;
    unsigned long markers = 0, shorts = 0, outcomes[3] = {0};

    clear_counts();
    for (unsigned long i = 0; i < tables; i++) {
        do
            make_small(&s, WITH_SHORT_SIDES);
        while (s.d.equations == 0 || s.d.equations > MOST || (s.d.equations == MOST && one_in(2)));
        if (one_in(2))
            equations_last(&s.d);
        note_rows(&s.d, &markers, &shorts);
        if (i % 64 == 0)
            lend();
        read_sheet(&t, ALL(s.d.t));
        try_all(HERE, &t);
        if (check(first.record.outcome <= LW_SOLVED, HERE, "a small table is refused"))
            outcomes[first.record.outcome]++;
    }
    tell_counts(tables);
    printf("    with markers %lu, with sides of unequal width %lu\n", markers, shorts);
    for (int o = 0; o < 3; o++)
        check(outcomes[o] * 20 >= tables, HERE, "few tables of outcome %d", o);
    check(markers * 10 >= tables && shorts * 10 >= tables, HERE, "few markers or short sides");
}

/* Up to 64 equations. */

/* Some order that is accepted: neighbours or others exchanged, again and again, where both may stand there. */
static void shuffle(const sheet *s, size_t order[EQUATIONS])
{
    in_order(order);
    for (size_t n = 4 * s->count; n != 0; n--) {
        size_t i = below(s->count), j = below(s->count), kept = order[i];
        if (!may_stand(s, s->rows[order[j]], s->rows[i]) || !may_stand(s, s->rows[kept], s->rows[j]))
            continue;
        order[i] = order[j];
        order[j] = kept;
    }
}

/* A table in some orders that are accepted, and with some sides turned alone; and in one order whatever it is. */
static void try_some(where at, const sheet *s)
{
    size_t order[EQUATIONS];

    in_order(order);
    try_without_room(at, s, order);
    solve(&s->t, &first);
    check_plain(at, &s->t, &first);
    for (int i = 0; i < 6 && s->count != 0; i++) {
        shuffle(s, order);
        try_order(at, s, order);
        try_turned(at, s, random_number());
    }
    for (size_t i = 0; i < s->count; i++) {
        size_t j = below(i + 1), kept = order[i];
        order[i] = order[j];
        order[j] = kept;
    }
    try_order(at, s, order);
    count_table();
}

/* A small table with more equations, up to 64, of which one perhaps does not hold under the hidden pattern. */
static void make_many(sketch *s)
{
    size_t equations = 6 + below(EQUATIONS - 5), wrong = one_in(2) ? below(equations) : equations;

    make_small(s, WITH_SHORT_SIDES);
    for (int i = 0; i < 400 && s->d.equations < equations && s->d.rows < 400; i++) {
        bool holds = s->d.equations != wrong;
        switch (below(6)) {
        case 0:  equate_short(s, holds); break;
        case 1:  equate_fill(s, holds); break;
        case 2:  equate_marker(s, holds); break;
        case 3:  equate_same(s); break;
        case 4:  equate_again(s); break;
        default: equate_parts(s, holds); break;
        }
    }
}

static void test_many(unsigned long tables)
{
    static sketch s;
    static plan p;
    static sheet t;
    unsigned long full = 0;

    clear_counts();
    tables = tables / 10 + 1;
    for (unsigned long i = 0; i < tables; i++) {
        draft *d = i % 4 == 0 ? &p.d : &s.d;
        if (i % 4 == 0)
            make_large(&p);
        else
            make_many(&s);
        for (size_t r = 0; r < d->rows; r++)
            if (d->t.numbers[4 * r] == LW_EQUATION)
                d->t.numbers[4 * r + 3] = 0;
        if (i % 64 == 0)
            lend();
        read_sheet(&t, ALL(d->t));
        full += t.count == EQUATIONS;
        try_some(HERE, &t);
    }
    tell_counts(tables);
    check(full != 0, HERE, "no table of 64 equations");
}

const test_list tests = {
    .name = "order", .inputs = 10000,
    .groups = {
        {.name = "nevers worked by hand", .run = test_nevers},
        {.name = "orders and sides worked by hand", .run = test_solved},
        {.name = "repeated equations", .run = test_repeated},
        {.name = "what is not claimed", .run = test_not_claimed},
        {.name = "every order of small tables", .run_random = test_small},
        {.name = "up to 64 equations", .run_random = test_many},
    },
};
