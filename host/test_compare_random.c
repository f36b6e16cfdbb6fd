/*
  test_compare_random.c -- random pairs of tables with the same variables: see
  test_compare.c

  What a table says is a set of pairs of bits that it makes equal. A second table is
  mostly made of the pairs of the first: said otherwise, by a chain or a star of the
  bits that are equal, some left out, some added; and then laid out anew in rows, by
  other joins and cuts, in other equations, with sides exchanged or shortened and
  equations that are revised.
*/

#include "large_table.h"
#include "plain_solver.h"
#include "small_table.h"
#include "test_compare.h"

enum {
    MOST_BITS = 14,     /* of a small table */
    FEW_BITS = 9,       /* of most of them: all patterns are tried */
    MOST_SAID = 60,     /* pairs that are laid out */
    SOURCES = MOST_BITS + PLAIN_FIXED,
    ALL_PAIRS = 64 * 1024
};

/* What occurs in the random cases; each has to. (What occurs in a small table is counted elsewhere.) */
enum {
    OTHER_ROWS, SAID_OTHERWISE, FEWER_PAIRS, MORE_PAIRS, FEWER_AND_MORE, UNRELATED, WITHOUT_ROWS, WITHOUT_VARIABLES,
    WITH_SHORTENED, WITH_REVISED, SAME_ANSWERS, OTHER_ANSWERS, SAME_RECORD_OTHER_PATTERNS, COUNTED
};
static const char *const counted[COUNTED] = {
    "the same rows with a change or none", "said otherwise", "pairs left out", "pairs added", "pairs left out and added",
    "unrelated tables", "a table of no rows", "tables without variables", "a side shortened", "an equation revised",
    "two solved tables with equal answers", "two solved tables with other answers",
    "equal records of solved tables that differ",
};
static unsigned long seen_case[COUNTED], outcomes[50], by_kinds[3][3][4];

/* What a table says. */

typedef struct {
    size_t variables, bits, widths[64];
    size_t pairs;
    uint16_t left[MOST_SAID], right[MOST_SAID]; /* sources: 0 and 1 the fixed bits, place i as i + 2 */
} saying;

static void say(saying *s, size_t left, size_t right)
{
    if (s->pairs == MOST_SAID)
        return;
    s->left[s->pairs] = (uint16_t)left;
    s->right[s->pairs++] = (uint16_t)right;
}

/* Reads what an accepted table of at most 14 bits says. Gives whether there was room for all that is not plain. */
static bool read_saying(const table *t, saying *s)
{
    static ref_table facts;
    static uint16_t sources[REF_ROWS][REF_WIDTH], left[REF_WIDTH], right[REF_WIDTH];

    ref_check(ALL(*t), &facts);
    s->variables = s->pairs = 0;
    s->bits = facts.bits;
    plain_sources(t->numbers, &facts, sources);
    for (size_t r = 0; r < facts.rows; r++) {
        const uint16_t *n = t->numbers + 4 * r;
        if (n[0] == LW_VARIABLE)
            s->widths[s->variables++] = facts.width[r];
        size_t count = ref_counts(t->numbers, &facts, r) ? plain_pairs(&facts, sources, n[1], n[2], left, right) : 0;
        for (size_t i = 0; i < count; i++)
            if (left[i] != right[i] && s->pairs == MOST_SAID)
                return false;
            else if (left[i] != right[i])
                say(s, left[i], right[i]);
    }
    return true;
}

static size_t some_source(const saying *s)
{
    return s->bits == 0 || one_in(8) ? below(PLAIN_FIXED) : PLAIN_FIXED + below(s->bits);
}

static void say_more(saying *s, size_t count)
{
    for (; count != 0; count--) {
        size_t a = some_source(s), b = some_source(s);
        say(s, a, b);
    }
}

static void say_less(saying *s, size_t count)
{
    for (; count != 0 && s->pairs != 0; count--) {
        size_t i = below(s->pairs);
        s->pairs--;
        s->left[i] = s->left[s->pairs];
        s->right[i] = s->right[s->pairs];
    }
}

/* The same by other pairs: a star of each class, a chain, or any tree; a never by whatever comes before. */
static void say_otherwise(saying *s)
{
    uint16_t parent[SOURCES], members[SOURCES], class_of[SOURCES];
    size_t form = below(3);

    if (plain_ties(s->left, s->right, s->pairs, parent, s->bits) == SIZE_MAX) {
        s->pairs = one_in(2) ? 0 : s->pairs / 2;
        say(s, below(2), below(2));
        size_t place = PLAIN_FIXED + (s->bits == 0 ? 0 : below(s->bits)), through = s->bits == 0 || one_in(2) ? 0 : place;
        say(s, 0, through);
        say(s, through, 1); /* a bit, or a fixed bit, both ways */
        return;
    }
    for (uint16_t i = 0; i < s->bits + PLAIN_FIXED; i++) {
        class_of[i] = i;
        while (parent[class_of[i]] != class_of[i])
            class_of[i] = parent[class_of[i]];
    }
    s->pairs = 0;
    for (uint16_t c = 0; c < s->bits + PLAIN_FIXED; c++) {
        size_t count = 0;
        for (uint16_t i = 0; i < s->bits + PLAIN_FIXED; i++)
            if (class_of[i] == c)
                members[count++] = i;
        for (size_t i = 1; i < count; i++)
            say(s, members[form == 0 ? 0 : form == 1 ? i - 1 : below(i)], members[i]);
        if (count > 1 && one_in(4))
            say(s, members[below(count)], members[below(count)]); /* what follows already */
    }
}

/* Rows for what is said. */

/* The row of a variable, and the place of its high bit; by the place of one of its bits. */
typedef struct {
    size_t row[64], start[64];
    size_t variables;
} variable_rows;

static size_t variable_at(const variable_rows *v, size_t place)
{
    size_t i = 0;
    while (i + 1 < v->variables && v->start[i + 1] <= place)
        i++;
    return i;
}

/* Whether sources are bits of one variable, one behind the other. */
static bool is_part(const variable_rows *v, const uint16_t *sources, size_t count)
{
    for (size_t i = 0; i < count; i++)
        if (sources[i] < PLAIN_FIXED || sources[i] != sources[0] + i ||
            variable_at(v, sources[i] - PLAIN_FIXED) != variable_at(v, sources[0] - PLAIN_FIXED))
            return false;
    return true;
}

static bool is_fixed(const uint16_t *sources, size_t count)
{
    for (size_t i = 0; i < count; i++)
        if (sources[i] >= PLAIN_FIXED)
            return false;
    return true;
}

static bool is_alike(const uint16_t *sources, size_t count)
{
    for (size_t i = 1; i < count; i++)
        if (sources[i] != sources[0])
            return false;
    return true;
}

/* Bits of a variable: it, a cut of it, a cut of a cut, or a cut of it joined with another row. */
static size_t lay_part(draft *d, const variable_rows *v, size_t place, size_t count)
{
    size_t i = variable_at(v, place), row = v->row[i], width = d->width[row], high = width - 1 - (place - v->start[i]);
    size_t low = high + 1 - count;

    if (count == width && !one_in(3))
        return row;
    if (one_in(4)) { /* first a wider cut */
        size_t more = below(width - high), less = below(low + 1);
        row = add_row(d, high + more - (low - less) + 1, CUT(row, high + more, low - less));
        return add_row(d, count, CUT(row, high - (low - less), less));
    }
    if (one_in(4)) { /* first a join */
        size_t other = some_term(d);
        if (other != NONE && d->width[other] + width <= 60) {
            row = add_row(d, d->width[other] + width, JOIN(row, other));
            return add_row(d, count, CUT(row, high + d->width[other], low + d->width[other]));
        }
    }
    return add_row(d, count, CUT(row, high, low));
}

/* A row with these sources. */
static size_t lay_word(draft *d, const variable_rows *v, const uint16_t *sources, size_t count)
{
    if (is_part(v, sources, count) && (count == 1 || !one_in(5)))
        return lay_part(d, v, sources[0] - PLAIN_FIXED, count);
    if (is_alike(sources, count) && is_fixed(sources, count) && (count == 1 || !one_in(5)))
        return add_row(d, count, FILL(sources[0], count));
    if (is_fixed(sources, count) && count <= 16 && !one_in(5)) {
        size_t value = 0;
        for (size_t i = 0; i < count; i++)
            value = 2 * value + sources[i];
        return add_row(d, count, MARKER(value, count));
    }
    size_t at = 1 + below(count - 1), left = lay_word(d, v, sources, at);
    return add_row(d, count, JOIN(left, lay_word(d, v, sources + at, count - at)));
}

/* Zeros at the high end of one side are left off, now and then. Gives how many. */
static size_t shortened(const uint16_t *side, size_t count)
{
    size_t zeros = 0;
    while (zeros + 1 < count && side[zeros] == 0 && !one_in(4))
        zeros++;
    return zeros;
}

/* An equation of so many pairs, sides exchanged or not; now and then it revises another one. */
static void lay_equation(draft *d, const variable_rows *v, const uint16_t *left, const uint16_t *right, size_t count)
{
    size_t less_left = shortened(left, count), less_right = less_left == 0 ? shortened(right, count) : 0;
    size_t a = lay_word(d, v, left + less_left, count - less_left);
    size_t b = lay_word(d, v, right + less_right, count - less_right);
    size_t line = one_in(6) && d->equations < 60 ? 1 + d->equations + 1000 * below(65) : 0; /* no other has it */

    if (line != 0 && !one_in(4)) {
        size_t other = some_term(d), third = some_term(d);
        if (other != NONE && third != NONE) {
            add_row(d, 0, LINE(other, third, line));
            seen_case[WITH_REVISED]++;
        }
    }
    seen_case[WITH_SHORTENED] += less_left + less_right != 0;
    if (one_in(2))
        add_row(d, 0, LINE(a, b, line));
    else
        add_row(d, 0, LINE(b, a, line));
}

static void exchange(uint16_t *a, uint16_t *b)
{
    uint16_t kept = *a;
    *a = *b;
    *b = kept;
}

/* A table that says it: some rows between the variables, and the pairs in any order, each either way round. */
static void lay_out(const saying *s, draft *d)
{
    saying mixed = *s;
    variable_rows v = {.variables = 0};
    size_t most = 1 + below(one_in(3) ? 12 : 4), place = 0;

    clear(d);
    for (size_t i = 0; i < s->variables; i++) {
        while (one_in(5))
            add_row(d, 3, one_in(2) ? LW_FILL : LW_VALUE, below(2), 3, 0);
        v.start[i] = place;
        v.row[i] = add_row(d, s->widths[i], VARIABLE(s->widths[i]));
        place += s->widths[i];
    }
    v.variables = s->variables;
    for (size_t i = mixed.pairs; i > 1; i--) {
        size_t j = below(i);
        exchange(&mixed.left[i - 1], &mixed.left[j]);
        exchange(&mixed.right[i - 1], &mixed.right[j]);
    }
    for (size_t i = 0; i < mixed.pairs; i++)
        if (one_in(2))
            exchange(&mixed.left[i], &mixed.right[i]);
    for (size_t i = 0, count; i < mixed.pairs; i += count) {
        count = 1 + below(most);
        if (count > mixed.pairs - i || d->equations > 50)
            count = mixed.pairs - i;
        lay_equation(d, &v, mixed.left + i, mixed.right + i, count);
    }
}

/* Pairs of small tables. */

/* A random table and what it says, mostly of few bits; or with its variables some pairs, in rows of their own. */
static void make_first(draft *d, saying *s)
{
    static sketch sk;
    size_t most = one_in(25) ? MOST_BITS : FEW_BITS;

    do
        make_small(&sk, (extent)below(WITH_LINES + 1));
    while (sk.d.bits > most || !read_saying(&sk.d.t, s));
    *d = sk.d;
    if (one_in(2)) {
        s->pairs = 0;
        say_more(s, below(6));
        lay_out(s, d);
    } else if (one_in(2)) {
        lay_out(s, d);
    }
}

/* The second table: of what the first says, changed or not. */
static void make_second(const saying *of, draft *d)
{
    static saying s;
    static const size_t names[] = {UNRELATED, FEWER_PAIRS, FEWER_PAIRS, MORE_PAIRS, MORE_PAIRS, FEWER_AND_MORE,
                                   FEWER_AND_MORE, FEWER_AND_MORE, SAID_OTHERWISE, SAID_OTHERWISE};
    size_t change = names[below(COUNT(names))];

    s = *of;
    if (one_in(3))
        say_otherwise(&s);
    if (change == UNRELATED) {
        s.pairs = 0;
        say_more(&s, below(8));
    }
    if (change == FEWER_PAIRS || change == FEWER_AND_MORE)
        say_less(&s, 1 + below(2));
    if (change == MORE_PAIRS || change == FEWER_AND_MORE)
        say_more(&s, 1 + below(2));
    if (one_in(3))
        say_otherwise(&s);
    lay_out(&s, d);
    seen_case[change]++;
}

/* The same rows, an equation of which is left out, turned round or given another line number, or none. */
static void change_rows(const draft *of, draft *d)
{
    *d = *of;
    seen_case[OTHER_ROWS]++;
    size_t e = some_row(d, LW_EQUATION, LW_EQUATION);
    if (e == NONE)
        return;
    uint16_t *n = d->t.numbers + 4 * e;
    switch (below(4)) {
    case 0:  n[2] = n[1]; break;
    case 1:  exchange(&n[1], &n[2]); break;
    case 2:  n[3] = some_line(d); break;
    default: break;
    }
}

/* Two solved tables compare as 0 exactly if their answer tables are equal; the kinds of the tables are counted. */
static void note_answers(const table *first, const table *second, uint32_t outcome)
{
    static uint16_t answers[2][LW_ANSWER_NUMBERS], work[LW_WORK_NUMBERS];
    lw_record a = lw_solve(ALL(*first), answers[0], LW_ANSWER_NUMBERS, work, LW_WORK_NUMBERS);
    lw_record b = lw_solve(ALL(*second), answers[1], LW_ANSWER_NUMBERS, work, LW_WORK_NUMBERS);

    by_kinds[a.outcome][b.outcome][outcome]++;
    if (a.outcome != LW_SOLVED || b.outcome != LW_SOLVED)
        return;
    bool equal = a.pieces == b.pieces && memcmp(answers[0], answers[1], 6 * a.pieces * sizeof answers[0][0]) == 0;
    check(equal == (outcome == 0), HERE, "outcome %u, and the answer tables are %s", outcome, equal ? "equal" : "not equal");
    seen_case[equal ? SAME_ANSWERS : OTHER_ANSWERS]++;
    seen_case[SAME_RECORD_OTHER_PATTERNS] += same_record(a, b) && !equal;
}

static void test_case(unsigned long number)
{
    static saying said;
    static draft first, second;
    char name[64];

    make_first(&first, &said);
    if (one_in(6))
        change_rows(&first, &second);
    else
        make_second(&said, &second);
    snprintf(name, sizeof name, "random case %lu", number);
    uint32_t outcome = compare(HERE, name, ALL(first.t), ALL(second.t), first.bits <= FEW_BITS || one_in(2));
    outcomes[outcome]++;
    seen_case[WITHOUT_ROWS] += first.rows == 0 || second.rows == 0;
    seen_case[WITHOUT_VARIABLES] += first.bits == 0;
    if (outcome <= 3)
        note_answers(&first.t, &second.t, outcome);
    if (number % 8 == 0)
        check(compare(HERE, name, ALL(first.t), ALL(first.t), false) == 0, HERE, "a table is not the same as itself");
}

void test_random(unsigned long cases)
{
    static const char *const names[] = {"always", "never", "solved"};

    for (unsigned long i = 0; i < cases; i++)
        test_case(i);
    printf("%lu random cases:", cases);
    for (size_t i = 0; i <= 3; i++) {
        printf(" %s%zu %lu", i == 0 ? "outcome " : "", i, outcomes[i]);
        check(outcomes[i] >= cases / 20, HERE, "only %lu random cases have outcome %zu", outcomes[i], i);
    }
    printf("\n");
    check(outcomes[0] + outcomes[1] + outcomes[2] + outcomes[3] == cases, HERE, "a random case is refused");
    for (size_t i = 0; i < 3; i++)
        for (size_t j = 0; j < 3; j++) {
            const unsigned long *n = by_kinds[i][j];
            printf("%-7s against %-7s %lu %lu %lu %lu cases\n", names[i], names[j], n[0], n[1], n[2], n[3]);
            check(n[0] + n[1] + n[2] + n[3] != 0, HERE, "no random case has %s against %s", names[i], names[j]);
        }
    for (size_t i = 0; i < COUNTED; i++) {
        printf("%-43s %lu cases\n", counted[i], seen_case[i]);
        check(seen_case[i] != 0, HERE, "no random case has %s", counted[i]);
    }
}

/* Pairs of large tables: of the rows of the first, with changes of its equations. */

/* A change: an equation left out, turned round, of two other rows, with another line number; or two of them exchanged. */
static void change_equation(draft *d)
{
    size_t e = some_row(d, LW_EQUATION, LW_EQUATION), other = some_row(d, LW_EQUATION, LW_EQUATION), row = some_term(d);
    uint16_t *n = d->t.numbers + 4 * e, *m = d->t.numbers + 4 * other;

    if (e == NONE)
        return;
    switch (below(6)) {
    case 0: /* left out */
        n[2] = n[1];
        break;
    case 1:
        n[3] = some_line(d);
        break;
    case 2: /* another side, of a row before it */
        if (row != NONE && row < e)
            n[2] = (uint16_t)row;
        break;
    case 3: /* exchanged, if each names rows before the other */
        if (n[1] < other && n[2] < other && m[1] < e && m[2] < e)
            for (size_t i = 1; i < 4; i++)
                exchange(&n[i], &m[i]);
        break;
    default:
        exchange(&n[1], &n[2]);
        break;
    }
}

void test_random_large(unsigned long cases)
{
    static plan p;
    static draft second;
    unsigned long found[4] = {0};

    for (unsigned long i = 0; i < cases / 20; i++) {
        make_large(&p);
        second = p.d;
        for (size_t k = below(one_in(2) ? 4 : 40); k != 0; k--)
            change_equation(&second);
        uint32_t outcome = compare(HERE, "large tables", ALL(p.d.t), ALL(second.t), false);
        if (check(outcome <= 3, HERE, "large tables: refused %u", outcome))
            found[outcome]++;
        if (outcome <= 3)
            note_answers(&p.d.t, &second.t, outcome);
    }
    printf("%lu large cases: outcome 0 %lu 1 %lu 2 %lu 3 %lu\n", cases / 20, found[0], found[1], found[2], found[3]);
    for (size_t i = 0; i <= 3; i++)
        check(found[i] != 0, HERE, "no large case has outcome %zu", i);
}
