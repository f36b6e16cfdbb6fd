/*
  test_random.c -- why and compare on random tables

  The commands run in this program. What they print is read back, and checked by
  all patterns of the tables: a set of equations leaves none, and without any one
  of them it leaves some; the chain leads from a 0 to a 1 over bit pairs of its
  rows, and through all of them, and no way is shorter; the patterns that tell two
  tables apart meet the one and not the other.
*/

#include "test_reasons.h"

static sketch s;
static all_patterns all, other;

/* A random accepted table of few bits, some of them with line numbers; all of its patterns. */
static void next_table(void)
{
    ref_table facts;

    do
        make_small(&s, WITH_LINES);
    while (ref_check(s.d.t.numbers, s.d.t.len, &facts).outcome != 0 || facts.bits > MOST_BITS || s.d.rows > 60);
    try_all(s.d.t.numbers, &facts, &all);
}

/* The chain leads from one source to the other, each of its pairs is one of its row, and it has all rows, and no others. */
static void check_chain(const reason *found, size_t from, size_t to)
{
    size_t at = from, seen = 0;

    for (size_t i = 0; i < found->pairs; i++) {
        check(found->chain[i].a == at, HERE, "the chain breaks off at pair %zu", i);
        at = found->chain[i].b;
        check(is_pair(&all, found->chain[i].row, found->chain[i].a, at), HERE, "pair %zu is none of its row", i);
    }
    check(at == to, HERE, "the chain ends elsewhere");
    for (size_t k = 0; k < found->rows; k++) {
        bool there = false;
        for (size_t i = 0; i < found->pairs; i++)
            there = there || found->chain[i].row == found->row[k];
        seen += there;
    }
    check(seen == found->rows, HERE, "the chain leaves out a row");
    check(found->pairs == shortest_way(&all, found, from, to), HERE, "a chain of %zu pairs is not the shortest", found->pairs);
    for (size_t k = 1; k < found->rows; k++)
        check(found->row[k] > found->row[k - 1], HERE, "the rows do not rise");
}

/* ---- why a never */

static void test_never(unsigned long inputs)
{
    unsigned long wide = 0; /* of more than two equations */

    while (inputs != 0) {
        reason found;
        const char *print;
        next_table();
        if (some_meets(&all, everything(&all)))
            continue;
        inputs--;
        int status = run_desk("why", NULL, NULL, &s.d, NULL, &print);
        const char *line = strchr(print, '\n');
        check(status == 1 && strncmp(print, "never: ", 7) == 0 && line != NULL, HERE, "why prints %s", print);
        if (line == NULL || !check(read_reason(line + 1, &all, &found), HERE, "why cannot be read: %s", print))
            continue;
        check(is_reason(&all, &found, 0, 1), HERE, "the set leaves a pattern, or a row can be left out: %s", print);
        check_chain(&found, 0, 1);
        wide += found.rows > 2;
    }
    check(wide > 20, HERE, "only %lu sets of more than two equations", wide);
}

/* ---- why a bit is what it is */

/* The lowest source that a place always equals. */
static size_t home_of(size_t place)
{
    size_t source = 0;

    while (!always_equal(&all, everything(&all), place + FIXED, source))
        source++;
    return source;
}

static void test_bit(unsigned long inputs)
{
    unsigned long fixed = 0, tied = 0, free = 0;

    while (inputs != 0) {
        reason found;
        const char *print;
        char text[32];
        next_table();
        if (all.facts.bits == 0 || !some_meets(&all, everything(&all)))
            continue;
        inputs--;
        size_t variable = below(all.variables), row = all.variable_row[variable], bit = below(all.facts.width[row]);
        size_t place = all.facts.place[row] + all.facts.width[row] - 1 - bit, home = home_of(place);
        snprintf(text, sizeof text, "%s%zu:%zu", one_in(2) ? "x" : "", variable, bit);
        int status = run_desk("why", "--bit", text, &s.d, NULL, &print);
        const char *line = strchr(print, '\n');
        check(status == 0 && line != NULL, HERE, "why --bit gives %d and prints %s", status, print);
        if (home == place + FIXED) {
            check(strstr(print, " is free, and at home there") != NULL, HERE, "a free bit: %s", print);
            free++;
            continue;
        }
        if (line == NULL || !check(read_reason(line + 1, &all, &found), HERE, "why cannot be read: %s", print))
            continue;
        check(is_reason(&all, &found, place + FIXED, home), HERE, "the set does not do it, or a row can be left out: %s", print);
        check_chain(&found, place + FIXED, home);
        *(home < FIXED ? &fixed : &tied) += 1;
    }
    check(fixed > 100 && tied > 50 && free > 100, HERE, "%lu fixed, %lu tied, %lu free", fixed, tied, free);
}

/* ---- two tables */

/* Changes some equations of a table: other sides, another line number, or nothing said. */
static void change(uint16_t *t, const all_patterns *a)
{
    for (size_t k = below(4); k != 0 && a->equations != 0; k--) {
        uint16_t *n = t + 4 * a->row[below(a->equations)];
        size_t side = below((size_t)(n - t) / 4);
        switch (below(4)) {
        case 0: n[1] = n[2] = n[3] = 0; break;
        case 1: n[3] = (uint16_t)below(3); break;
        default: if (t[4 * side] != 4) n[1 + below(2)] = (uint16_t)side;
        }
    }
}

static void test_compare(unsigned long inputs)
{
    static uint16_t second[4 * 512];
    unsigned long seen[4] = {0};

    for (; inputs != 0; inputs--) {
        ref_table facts;
        const char *print;
        next_table();
        do {
            memcpy(second, s.d.t.numbers, s.d.t.len * sizeof *second);
            change(second, &all);
        } while (ref_check(second, s.d.t.len, &facts).outcome != 0);
        try_all(second, &facts, &other);
        int status = run_desk("compare", NULL, NULL, &s.d, second, &print);
        seen[check_compared(print, status, &all, &other)]++;
    }
    for (size_t i = 0; i < 4; i++)
        check(seen[i] > 20, HERE, "only %lu pairs of outcome %zu", seen[i], i);
}

const test_list tests = {
    .name = "desk", .inputs = 2000,
    .groups = {
        {.name = "why: random never tables", .run_random = test_never},
        {.name = "why --bit: random tables", .run_random = test_bit},
        {.name = "compare: random pairs of tables", .run_random = test_compare},
    },
};
