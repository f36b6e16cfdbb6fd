/*
  test_lies.c -- a library that says something else: the desk finds it out

  The calls are wrapped (test_wrapped.h). At one of its calls a wrapped one yields
  something else than the library does; the desk then says "internal error", with
  status 3, or what it prints is right all the same, by all patterns of the table.
  And the solves of why are counted.
*/

#include "test_reasons.h"
#include "test_wrapped.h"

/* ---- random tables */

static sketch s;
static all_patterns all, other;

typedef enum { ALWAYS, NEVER, MET } outcome; /* MET: by some pattern, or by all */

/* A random table of few bits, without line numbers, of an outcome. */
static void next_table(outcome wanted)
{
    ref_table facts;
    bool right;

    do {
        do
            make_small(&s, WITH_SHORT_SIDES);
        while (ref_check(s.d.t.numbers, s.d.t.len, &facts).outcome != 0 || facts.bits > MOST_BITS || s.d.rows > 60 || s.d.equations == 0);
        try_all(s.d.t.numbers, &facts, &all);
        right = some_meets(&all, everything(&all)) == (wanted != NEVER);
        for (size_t p = 0; wanted == ALWAYS && p >> facts.bits == 0; p++)
            right = right && all.holds[p] == everything(&all);
    } while (!right);
}

/* Whether what why prints is right of the two sources. */
static bool is_right(const char *print, size_t from, size_t to)
{
    reason found;
    const char *line = strchr(print, '\n');

    return line != NULL && read_reason(line + 1, &all, &found) && is_reason(&all, &found, from, to);
}

/* Lets each solve but the first lie in turn: how many lies were found out. The first is that of the sheet, which is not asked again. */
static unsigned long lie_in_turn(const char *option, const char *value, size_t from, size_t to)
{
    const char *print;
    unsigned long found = 0;

    solves = lie_at = 0;
    int truly = run_desk("why", option, value, &s.d, NULL, &print);
    check(is_right(print, from, to), HERE, "why prints %s", print);
    for (unsigned long calls = solves, at = 2; at <= calls; at++) {
        solves = 0, lie_at = at;
        int status = run_desk("why", option, value, &s.d, NULL, &print);
        bool out = found_out(status, print);
        check(out || (status == truly && is_right(print, from, to)), HERE, "solve %lu lies, and why gives %d: %s", at, status, print);
        found += out;
    }
    lie_at = 0;
    return found;
}

static void test_solve(unsigned long inputs)
{
    unsigned long found = 0;

    for (; inputs != 0; inputs--) {
        next_table(NEVER);
        found += lie_in_turn(NULL, NULL, 0, 1);
    }
    check(found > 100, HERE, "only %lu lies were found out", found);
}

static void test_bit(unsigned long inputs)
{
    unsigned long found = 0;

    while (inputs != 0) {
        char text[32];
        next_table(MET);
        for (size_t v = 0; v < all.variables && inputs != 0; v++) {
            size_t row = all.variable_row[v], bit = below(all.facts.width[row]), home = 0;
            size_t source = all.facts.place[row] + all.facts.width[row] - 1 - bit + FIXED;
            while (!always_equal(&all, everything(&all), source, home))
                home++;
            if (home == source) /* a free bit: nothing is solved for it */
                continue;
            inputs--;
            snprintf(text, sizeof text, "%zu:%zu", v, bit);
            found += lie_in_turn("--bit", text, source, home);
        }
    }
    check(found > 100, HERE, "only %lu lies were found out", found);
}

static void test_others(unsigned long inputs)
{
    unsigned long found = 0;

    for (; inputs != 0; inputs--) {
        static uint16_t second[4 * 512];
        const char *print;
        ref_table facts;
        next_table(MET);
        memcpy(second, s.d.t.numbers, s.d.t.len * sizeof *second);
        lie_outcome = 1 + (uint32_t)below(3);
        int status = run_desk("compare", NULL, NULL, &s.d, second, &print);
        check(found_out(status, print), HERE, "a table is compared with itself: %d %s", status, print);
        lie_outcome = 0;
        lie_preview = true;
        status = run_desk("steps", NULL, NULL, &s.d, NULL, &print);
        check(found_out(status, print), HERE, "a preview lies: %d %s", status, print);
        lie_preview = false;
        second[4 * all.row[0] + 2] = second[4 * all.row[0] + 1], second[4 * all.row[0] + 3] = 0; /* it says nothing */
        ref_check(second, s.d.t.len, &facts);
        try_all(second, &facts, &other);
        lie_pattern = true;
        status = run_desk("compare", NULL, NULL, &s.d, second, &print);
        lie_pattern = false;
        if (found_out(status, print))
            found++;
        else
            check_compared(print, status, &all, &other);
    }
    check(found > 3, HERE, "only %lu wrong patterns were found out", found);
}

/* ---- check, recordings, and how often why solves */

int desk(int argc, char **argv);
const char *output_text(size_t *len);
void forget_output(void);

/* Runs a command line, and checks that it ends in an internal error. */
static void check_error(int argc, char **argv, const char *what)
{
    size_t len;

    forget_output();
    int status = desk(argc, argv);
    output_text(&len);
    check(found_out(status, len == 0 ? "" : "something"), HERE, "%s, and the status is %d", what, status);
}

static void test_check(unsigned long inputs)
{
    for (; inputs != 0; inputs--) {
        char bits[MOST_BITS + 1] = "", *words[] = {(char[]){"desk"}, (char[]){"check"}, (char[]){SHEETS "/first.sheet"}, bits};
        bool never = one_in(2);
        next_table(never ? NEVER : ALWAYS);
        for (size_t i = 0; i < all.facts.bits; i++)
            bits[i] = one_in(2) ? '1' : '0';
        write_sheet(words[2], s.d.t.numbers, s.d.rows);
        *(never ? &lie_zeros : &lie_value) = true;
        check_error(4, words, never ? "all values are 0 of a never" : "a value is another of an always");
        lie_zeros = false;
    }
}

static void write_file(const char *name, const void *bytes, size_t len)
{
    FILE *file = fopen(name, "wb");

    check(file != NULL && fwrite(bytes, 1, len, file) == len && fclose(file) == 0, HERE, "%s cannot be written", name);
}

static void test_recordings(void)
{
    static const char sheet[] = "kind a b c\n0 16 0 0\n0 16 0 0\n4 0 1 0\n";
    static const uint8_t sent[] = {1, 0, 7, 0, 2, 0, 8, 0}, received[] = {1, 0, 7, 0, 2, 0, 9, 0};
    char *words[] = {(char[]){"desk"}, (char[]){"recordings"}, (char[]){"--list"}, (char[]){SHEETS "/first.sheet"},
                     (char[]){SHEETS "/sent"}, (char[]){SHEETS "/received"}};

    write_file(words[3], sheet, sizeof sheet - 1);
    write_file(words[4], sent, sizeof sent);
    write_file(words[5], received, sizeof received);
    forget_output();
    check(desk(6, words) == 1, HERE, "one pair is broken");
    lie_free = 1;
    check_error(6, words, "the record says one more");
    lie_free = 0;
}

/* 63 words tied in a chain, and the ends of it 0 and 1: each of the 64 equations is needed. */
static void test_solves(void)
{
    const char *print;
    size_t zero, one;

    clear(&s.d);
    for (int i = 0; i < 63; i++)
        add_row(&s.d, 1, VARIABLE(1));
    zero = add_row(&s.d, 1, FILL(0, 1)), one = add_row(&s.d, 1, FILL(1, 1));
    for (size_t i = 0; i + 1 < 63; i++)
        add_row(&s.d, 0, EQUATION(i, i + 1));
    add_row(&s.d, 0, EQUATION(0, zero));
    add_row(&s.d, 0, EQUATION(62, one));
    solves = by_pieces = 0;
    int status = run_desk("why", NULL, NULL, &s.d, NULL, &print);
    check(status == 1 && strstr(print, "row 128: x62 = 1\n") != NULL, HERE, "why: %d %s", status, print);
    check(s.d.equations == 64 && by_pieces <= 64, HERE, "why of 64 equations solves %lu times to find the set", by_pieces);
    check(solves - by_pieces <= 66, HERE, "why solves %lu times to read the sheet and to check the set", solves - by_pieces);
}

const test_list tests = {
    .name = "lies", .inputs = 200,
    .groups = {
        {.name = "internal errors are told in a file", .run = keep_told},
        {.name = "why: a solve that lies", .run_random = test_solve},
        {.name = "why --bit: a solve that lies", .run_random = test_bit},
        {.name = "compare, steps: calls that lie", .run_random = test_others},
        {.name = "check: a value that lies", .run_random = test_check},
        {.name = "recordings: a record that lies", .run = test_recordings},
        {.name = "why: how often it solves", .run = test_solves},
    },
};
