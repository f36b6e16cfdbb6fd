/*
  test_pattern_solved.c -- the patterns of solved tables: see test_pattern.c

  Random tables with equations, of up to 14 variable bits, until a third as many
  are solved as there are random answer tables: lw_solve gives their answer
  table, which must be that of the enumeration of all patterns (enumerate.c), and
  the patterns of all its fillings must be those that meet the table, each once,
  as many as the enumeration finds, and in each of them the bits of a row must be
  those of its home. Tables of the other outcomes, and the next solved table,
  refuse it. And 1000 such tables of up to 4096 variable bits, with some fillings
  each.
*/

#include "enumerate.h"
#include "large_table.h"
#include "reference.h"
#include "test_pattern.h"

enum {
    LARGE_TABLES = 1000,
    SMALL_BITS = 14,  /* most variable bits of a small table */
    ALL_FILLINGS = 10 /* fresh bits of which all fillings are tried */
};

/* A table that lw_solve has solved. */
typedef struct {
    ref_table facts;
    uint16_t answer[LW_ANSWER_NUMBERS];
    lw_record record;
} solved_table;

/* Solves a table; whether the outcome is 2. The answer table is then of the form, and as wide as the pattern. */
static bool solve(const char *name, const draft *d, solved_table *s)
{
    static uint16_t work[LW_WORK_NUMBERS];

    lw_record accepted = ref_check(d->t.numbers, d->t.len, &s->facts);
    if (!check(accepted.outcome == 0, HERE, "%s: refused %u, row %u", name, accepted.outcome, accepted.row))
        return false;
    s->record = lw_solve(d->t.numbers, d->t.len, s->answer, LW_ANSWER_NUMBERS, work, LW_WORK_NUMBERS);
    if (!check(s->record.outcome <= 2, HERE, "%s: refused %u", name, s->record.outcome) || s->record.outcome != 2)
        return false;
    size_t len = 6 * (size_t)s->record.pieces;
    return check(plain_faults(s->answer, len) == 0 && plain_fresh_bits(s->answer, len) == s->record.free &&
                 plain_pattern_bits(s->answer, len) == s->facts.bits, HERE,
                 "%s: the solver's answer table is not of the form", name);
}

/* The home has the piece: the bits of each row are as many bits of variable home, from bit high down. */
static void test_home_bits(const char *name, const solved_table *s, const uint8_t pattern[BITS])
{
    size_t behind[64] = {0}, place = 0; /* of each variable: the place behind its bit 0 */
    bool same = true;

    for (size_t r = 0; r < s->record.pieces; r++) {
        const uint16_t *n = s->answer + 6 * r;
        place += n[2];
        behind[n[0]] = place;
    }
    place = 0;
    for (size_t r = 0; r < s->record.pieces && same; r++) {
        const uint16_t *n = s->answer + 6 * r;
        size_t home = behind[n[4]] - 1 - n[5];
        same = n[5] + 1U >= n[2] && home < s->facts.bits && memcmp(pattern + place, pattern + home, n[2]) == 0;
        place += n[2];
    }
    check(same, HERE, "%s: a row's bits are not those of its home", name);
}

/* What is lent with a table: the answer, and fresh bytes. */
static lent lend(const draft *d, const uint16_t *answer, size_t len, const uint8_t *fresh, size_t fresh_len)
{
    bool noise = one_in(8);
    return (lent){.table = d->t.numbers, .table_len = d->t.len, .answer = answer, .answer_len = len, .fresh = fresh,
                  .fresh_len = fresh_len, .work_len = noise && one_in(2) ? LONG_AREA : AREA, .used = !noise};
}

/* One filling: the pattern is that of the plain pattern maker, it meets the table, and each home has its piece. */
static void test_filling(const char *name, const draft *d, const solved_table *s, const uint8_t *fresh,
                         uint8_t pattern[BITS])
{
    size_t len = 6 * (size_t)s->record.pieces, bits = s->facts.bits;
    lent in = lend(d, s->answer, len, fresh, s->record.free);

    in.pattern_len = bits + (one_in(4) ? below(20) : 0);
    check_record(HERE, name, plain_fill(s->answer, len, fresh, s->record.free, pattern, bits),
                 (lw_record){.free = (uint32_t)bits});
    call(HERE, name, &in, (lw_record){.free = (uint32_t)bits}, pattern); /* from here on it is the library's too */
    test_home_bits(name, s, pattern);
    if (!check(ref_meets(d->t.numbers, &s->facts, pattern), HERE, "%s: a pattern does not meet the table",
               name) && checks_failed == 1) {
        print_table(d->t.numbers, d->t.len);
        print_answer(s->answer, len);
    }
}

/* The answer of the table before, and no rows: both are refused 46, unless the first is the table's own. */
static void test_refused(const char *name, const draft *d, const solved_table *s, const solved_table *before)
{
    static const uint8_t fresh[BITS];
    size_t len = 6 * (size_t)before->record.pieces;
    lent in = lend(d, before->answer, len, fresh, before->record.free);

    in.pattern_len = BITS;
    if (s->record.outcome != 2 || s->record.pieces != before->record.pieces ||
        memcmp(s->answer, before->answer, len * sizeof *s->answer) != 0)
        call(HERE, name, &in, REFUSED(46), NULL);
    in = lend(d, NULL, 0, NULL, 0);
    call(HERE, name, &in, REFUSED(46), NULL);
}

/* What occurs in the solved tables. */
enum { WITH_FILL, ALL_FIXED, WITH_TWICE, WITH_WIDE_TWICE, WITH_TWO_VARIABLES, WITH_ONE_BIT, TRAITS };

static const char *const trait_names[TRAITS] = {
    "a fill", "every bit fixed", "a fresh piece that appears twice", "one wider than 1 that appears twice",
    "a fresh piece in two variables", "a fresh piece of one bit",
};

static void note_traits(const solved_table *s, unsigned long traits[TRAITS])
{
    static size_t variable[BITS]; /* of each fresh piece seen: that of its first row */
    bool has[TRAITS] = {false};
    size_t seen = 0;

    for (size_t r = 0; r < s->record.pieces; r++) {
        const uint16_t *n = s->answer + 6 * r;
        has[WITH_FILL] |= n[1] != LW_FRESH;
        if (n[1] != LW_FRESH)
            continue;
        has[WITH_ONE_BIT] |= n[2] == 1;
        if (n[3] == seen) {
            variable[seen++] = n[0];
            continue;
        }
        has[WITH_TWICE] = true;
        has[WITH_WIDE_TWICE] |= n[2] > 1;
        has[WITH_TWO_VARIABLES] |= variable[n[3]] != n[0];
    }
    has[ALL_FIXED] = s->record.fresh == 0;
    for (size_t i = 0; i < TRAITS; i++)
        traits[i] += has[i];
}

static void print_traits(const unsigned long traits[TRAITS])
{
    for (size_t i = 0; i < TRAITS; i++)
        printf("    %-50s %lu\n", trait_names[i], traits[i]);
    for (size_t i = 0; i < TRAITS; i++)
        check(traits[i] != 0, HERE, "no answer has this: %s", trait_names[i]);
}

/* A variable's high end and low end are equal, and overlap often: a piece that comes again and again. */
static void equate_ends(draft *d)
{
    size_t v = some_row(d, LW_VARIABLE, LW_VARIABLE), w = v == NONE ? 1 : d->width[v];
    if (w == 1)
        return;
    size_t less = 1 + below(one_in(2) && w > 3 ? 3 : w - 1);
    size_t high = add_row(d, w - less, CUT(v, w - 1, less)), low = add_row(d, w - less, CUT(v, w - 1 - less, 0));
    add_row(d, 0, EQUATION(high, low));
}

/* Each variable is a fill. */
static void fix_all(draft *d)
{
    size_t rows = d->rows;
    for (size_t r = 0; r < rows && d->equations < 64; r++)
        if (d->t.numbers[4 * r] == LW_VARIABLE) {
            size_t fill = add_row(d, d->width[r], FILL(below(2), d->width[r]));
            add_row(d, 0, EQUATION(r, fill));
        }
}

/*
  So many variable bits in a few variables, and then rows of the other kinds, so
  many; the last is an equation. A third of the tables have line numbers.
*/
static void make_equations(draft *d, size_t bits, size_t widest, size_t rows)
{
    static const size_t kinds[] = {LW_CUT, LW_CUT, LW_JOIN, LW_EQUATION, LW_EQUATION, LW_FILL, LW_VALUE};

    clear(d);
    while (bits != 0 && d->variables < 60) {
        size_t most = bits < widest ? bits : widest, w = one_in(3) ? most : 1 + below(most);
        if (d->rows != 0 && d->width[d->rows - 1] <= bits && one_in(2))
            w = d->width[d->rows - 1]; /* as wide as the one before */
        add_row(d, w, VARIABLE(w));
        bits -= w;
    }
    if (one_in(4))
        equate_ends(d);
    if (one_in(30)) {
        fix_all(d);
        return;
    }
    for (size_t i = 0; i < rows; i++)
        grow(d, kinds[below(COUNT(kinds))], widest < 4 ? widest : 4);
    grow(d, LW_EQUATION, 1);
    if (one_in(3))
        number_lines(d);
}

/* All fillings of a solved table, or some: different patterns, and as many as meet the table. */
static void test_fillings(const char *name, const draft *d, const solved_table *s, unsigned long *patterns)
{
    static bool seen[1 << ENUM_BITS];
    static enumeration found;
    uint8_t fresh[ENUM_BITS], pattern[BITS];
    size_t count = (size_t)1 << s->record.free;
    bool all = s->record.free <= ALL_FILLINGS;

    memset(seen, 0, sizeof seen);
    for (size_t i = 0; i < (all ? count : 40); i++) {
        size_t filling = all ? i : i * 2654435761U % count, number = 0; /* odd times i: different for each i */
        for (size_t k = 0; k < s->record.free; k++)
            fresh[k] = (uint8_t)(filling >> k & 1);
        test_filling(name, d, s, fresh, pattern);
        for (size_t k = 0; k < s->facts.bits; k++)
            number = 2 * number + (pattern[k] & 1);
        check(!seen[number], HERE, "%s: two fillings give one pattern", name);
        seen[number] = true;
        ++*patterns;
    }
    enumerate(d->t.numbers, &s->facts, &found);
    check(found.met == count, HERE, "%s: %zu fillings, but %zu patterns meet it", name, count, found.met);
    check(same_record(found.record, s->record) &&
          memcmp(found.answer, s->answer, 6 * (size_t)s->record.pieces * sizeof *found.answer) == 0, HERE,
          "%s: the enumeration has another answer", name);
}

void test_small(unsigned long answer_tables)
{
    static draft d;
    static solved_table s, before;
    unsigned long tables = 0, solved = 0, complete = 0, patterns = 0;
    unsigned long free_bits[ENUM_BITS + 1] = {0}, traits[TRAITS] = {0};
    char name[64];

    for (; solved < answer_tables / 3; tables++) {
        size_t bits = 1 + below(SMALL_BITS), widest = one_in(3) ? SMALL_BITS : 1 + below(6);
        do
            make_equations(&d, bits, widest, 1 + below(one_in(3) ? 16 : 6));
        while (d.bits > SMALL_BITS); /* a variable more, where no row could be named */
        snprintf(name, sizeof name, "small table %lu", tables);
        bool other = !solve(name, &d, &s);
        test_refused(name, &d, &s, &before);
        if (other)
            continue;
        test_fillings(name, &d, &s, &patterns);
        before = s;
        solved++;
        complete += s.record.free <= ALL_FILLINGS;
        free_bits[s.record.free]++;
        note_traits(&s, traits);
    }
    printf("%lu small tables: solved %lu, all fillings tried of %lu, patterns %lu\n  solved with free", tables, solved,
           complete, patterns);
    for (size_t i = 0; i <= ENUM_BITS; i++)
        printf(" %zu: %lu%s", i, free_bits[i], i < ENUM_BITS ? "," : "\n");
    print_traits(traits);
    check(5 * solved >= tables, HERE, "solved tables are rare");
    for (size_t i = 0; i <= ALL_FILLINGS; i++)
        check(free_bits[i] != 0, HERE, "no small table has %zu free bits", i);
}

void test_large(void)
{
    static draft d;
    static plan p;
    static solved_table s, before;
    static uint8_t fresh[BITS], pattern[BITS];
    unsigned long solved = 0, full = 0, many = 0, most_free = 0, most_pieces = 0, traits[TRAITS] = {0};
    char name[64];

    for (unsigned long i = 0; i < LARGE_TABLES; i++) {
        static const size_t widths[] = {1024, 64, 300, 20};
        size_t bits = one_in(3) ? BITS : 1 + below(BITS);
        if (one_in(3))
            make_large(&p);
        else
            make_equations(&d, bits, widths[below(4)], 1 + below(one_in(3) ? 120 : 20));
        if (p.d.rows != 0)
            d = p.d;
        clear(&p.d);
        snprintf(name, sizeof name, "large table %lu", i);
        bool other = !solve(name, &d, &s);
        test_refused(name, &d, &s, &before);
        if (other)
            continue;
        for (size_t f = 0; f < 5; f++) { /* all 0, all 1, and random */
            for (size_t k = 0; k < s.record.free; k++)
                fresh[k] = (uint8_t)(f < 2 ? f : below(2));
            test_filling(name, &d, &s, fresh, pattern);
        }
        before = s;
        solved++;
        full += s.facts.bits == BITS;
        many += s.record.pieces >= 500;
        most_free = s.record.free > most_free ? s.record.free : most_free;
        most_pieces = s.record.pieces > most_pieces ? s.record.pieces : most_pieces;
        note_traits(&s, traits);
    }
    printf("%d large tables: solved %lu, of 4096 variable bits %lu, of 500 pieces %lu, most pieces %lu, most free bits %lu\n",
           LARGE_TABLES, solved, full, many, most_pieces, most_free);
    print_traits(traits);
    check(5 * solved >= LARGE_TABLES && full != 0 && many != 0 && most_free > 3000, HERE,
          "some kind of large table does not occur");
}
