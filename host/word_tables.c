/* word_tables.c -- see word_tables.h */

#include "word_tables.h"

#include "plain_pattern.h"
#include "plain_solver.h"

/* Rows. */

static size_t rows_of(const table *t)
{
    return t->len / 4;
}

void add_words(table *t, size_t count)
{
    while (count-- != 0)
        add(t, VARIABLE(WORD));
}

void add_equal(table *t, size_t a, size_t high, size_t low, size_t b, size_t b_high)
{
    size_t r = rows_of(t);
    add(t, CUT(a, high, low));
    add(t, CUT(b, b_high, b_high + low - high));
    add(t, EQUATION(r, r + 1));
}

void add_fixed(table *t, size_t a, size_t high, size_t low, size_t value)
{
    size_t r = rows_of(t);
    add(t, CUT(a, high, low));
    add(t, MARKER(value, high - low + 1));
    add(t, EQUATION(r, r + 1));
}

void solve_plainly(const uint16_t *numbers, size_t len, solved_table *s)
{
    static ref_table facts;

    ref_check(numbers, len, &facts);
    s->bits = facts.bits;
    s->record = plain_solve(numbers, &facts, s->answer);
}

void meeting_words(const solved_table *s, uint16_t words[WINDOW])
{
    uint8_t fresh[WORD * WINDOW], pattern[WORD * WINDOW];

    for (size_t i = 0; i < s->bits; i++)
        pattern[i] = fresh[i] = (uint8_t)below(2);
    if (s->record.outcome == 2)
        plain_fill(s->answer, 6 * (size_t)s->record.pieces, fresh, s->record.free, pattern, s->bits);
    for (size_t i = 0; i < s->bits; i++)
        words[i / WORD] = (uint16_t)(2 * (i % WORD == 0 ? 0 : words[i / WORD]) + pattern[i]);
}

/* Random tables. */

static void some_equation(plan *p, bool holds)
{
    switch (below(8)) {
    case 0:  plan_same(p); break;
    case 1:  plan_fixed(p, holds); break;
    case 2:
    case 3:  plan_marked(p, holds); break;
    case 4:  plan_words(p, holds); break;
    default: plan_parts(p, holds); break;
    }
}

void make_windowed(plan *p, size_t window)
{
    size_t first = one_in(3) ? 1 + below(window) : window, equations = below(one_in(3) ? 20 : 5);
    size_t period = one_in(2) ? WORD : 1 + below(20);
    bool never = one_in(12);

    clear(&p->d);
    p->one_for_all = one_in(4);
    for (size_t i = 0; i < 1024; i++)
        p->hidden[i] = i < period ? (uint8_t)below(2) : p->hidden[i - period];
    if (one_in(6))
        plan_fill(p, below(2), 1 + below(20));
    while (p->d.variables < first)
        plan_variable(p, WORD);
    for (size_t i = 0; i < equations; i++) {
        if (one_in(3) && p->d.variables < window)
            plan_variable(p, WORD);
        if (one_in(6))
            plan_turned(p);
        else if (one_in(8))
            plan_doubled(p);
        some_equation(p, !never || one_in(2));
    }
    while (p->d.variables < window)
        plan_variable(p, WORD);
    if (one_in(3))
        number_lines(&p->d);
}
