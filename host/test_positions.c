/*
  test_positions.c -- tests of lw_marker_positions

      test_positions [CASES]

  First starts and refusals worked by hand: windows and runs of every length,
  lists of every length, the longest run, the order of the refusals. Then fixed
  bits at every place and equal bits at every shift: test_positions_bits.c. Last
  CASES random tables and runs (40000 if not given): test_positions_random.c.
  Every call is made on guarded buffers, and its record and every number of every
  buffer are compared, mostly with what plain_positions.c finds, start by start.

  The run fails too if some kind of random case is missing; so there should be at
  least 5000.
*/

#include "guard.h"
#include "refused_tables.h"
#include "revised_tables.h"
#include "test_positions.h"

static const lw_record refused_41 = {.outcome = 41}, refused_42 = {.outcome = 42};

/* Words as two arguments: the words and their count. */
#define WORDS(...) \
    (const uint16_t[]){__VA_ARGS__}, sizeof((const uint16_t[]){__VA_ARGS__}) / sizeof(uint16_t)

/* Words. */

static guarded long_words;

const uint16_t *long_run(void)
{
    if (long_words.block == NULL)
        long_words = guard(NULL, LONG * sizeof(uint16_t));
    return guarded_buffer(&long_words);
}

void check_long_run(where at)
{
    check(memcmp(long_words.block, long_words.kept, long_words.size) == 0, at, "the long run is changed");
}

/* Calls and what they are compared with. */

static void print_call(const char *name, const uint16_t *numbers, size_t len, const uint16_t *words, size_t words_len,
                       size_t list_len)
{
    printf("  %s, %zu words, list of %zu:", name, words_len, list_len);
    for (size_t i = 0; i < words_len && i < 40; i++)
        printf(" %04x", words[i]);
    printf("%s\n", words_len > 40 ? " .." : "");
    print_table(numbers, len);
}

void call(where at, const char *name, const uint16_t *numbers, size_t len, const uint16_t *words, size_t words_len,
          size_t list_len, lw_record want, const uint32_t *want_list)
{
    bool from_long_run = words == long_run();
    unsigned long failed = checks_failed;
    guarded t = guard(numbers, len * sizeof *numbers);
    guarded w = from_long_run ? long_words : guard(words, words_len * sizeof *words);
    guarded l = guard(NULL, list_len * sizeof(uint32_t));

    lw_record got = lw_marker_positions(guarded_buffer(&t), len, guarded_buffer(&w), words_len, guarded_buffer(&l),
                                        list_len);
    if (want.outcome == 0)
        guard_expect(&l, want_list, (want.pieces < list_len ? want.pieces : list_len) * sizeof *want_list);
    check_record(at, name, got, want);
    guard_check(&t, at, "table");
    if (!from_long_run)
        guard_check(&w, at, "words");
    guard_check(&l, at, "list");
    if (checks_failed != failed && failed == 0)
        print_call(name, numbers, len, words, words_len, list_len);
}

const uint32_t *plain_list(const uint16_t *numbers, size_t len, const uint16_t *words, size_t words_len,
                           lw_record *record)
{
    static uint32_t list[RUN];

    *record = plain_positions(numbers, len, words, words_len, list, RUN);
    return list;
}

size_t compare(where at, const char *name, const uint16_t *numbers, size_t len, const uint16_t *words,
               size_t words_len, size_t more)
{
    lw_record want;
    const uint32_t *list = plain_list(numbers, len, words, words_len, &want);

    call(at, name, numbers, len, words, words_len, want.pieces + more, want, list);
    return want.pieces;
}

size_t compare_lists(where at, const char *name, const uint16_t *numbers, size_t len, const uint16_t *words,
                     size_t words_len)
{
    lw_record want;
    const uint32_t *list = plain_list(numbers, len, words, words_len, &want);
    size_t found = want.pieces;
    const size_t lens[] = {0, 1, found / 2, found - 1, found, found + 1, found + 9, words_len};

    for (size_t i = 0; i < COUNT(lens); i++)
        if (lens[i] <= words_len + 9) /* none less one is far above it */
            call(at, name, numbers, len, words, words_len, lens[i], want, list);
    return found;
}

void compare_changed(where at, const char *name, const table *t, size_t count, size_t changes)
{
    static uint16_t words[WINDOW * (1 + WORD * WINDOW)];
    static solved_table solved;
    size_t bits = WORD * count, each = count <= 4 ? bits : changes, n = 0;

    solve_plainly(ALL(*t), &solved);
    for (size_t i = 0; i <= each; i++, n += count) {
        meeting_words(&solved, words + n);
        if (i != 0) {
            size_t bit = count <= 4 ? i - 1 : below(bits);
            words[n + bit / WORD] ^= (uint16_t)(1U << bit % WORD);
        }
    }
    size_t found = compare(at, name, ALL(*t), words, n, below(3));
    check(found != 0, at, "%s: no start", name);
    check(count > 4 || found <= n - count, at, "%s: every start", name);
}

/* The windows that meet a table are these starts, and no others. */
static void expect(where at, const uint16_t *numbers, size_t len, const uint16_t *words, size_t words_len,
                   const uint32_t *starts, size_t found)
{
    lw_record want;
    const uint32_t *list = plain_list(numbers, len, words, words_len, &want);

    /* A slip in what is expected is found too. */
    check_record(at, "plain search", want, (lw_record){.pieces = (uint32_t)found});
    check(found == 0 || memcmp(list, starts, found * sizeof *list) == 0, at, "the plain search's starts are others");
    compare_lists(at, "worked by hand", numbers, len, words, words_len);
}

#define STARTS(...) \
    (const uint32_t[]){__VA_ARGS__}, sizeof((const uint32_t[]){__VA_ARGS__}) / sizeof(uint32_t)
#define NO_STARTS   NULL, 0
#define EXPECT(...) expect(HERE, __VA_ARGS__)

/* The header's numbers are those of the specification. */
static void test_constants(void)
{
    static const constant constants[] = {
        CONSTANT(LW_ACCEPTED, 0), CONSTANT(LW_REFUSED_WINDOW, 41), CONSTANT(LW_REFUSED_RUN, 42),
        CONSTANT(LW_MAX_WORDS, 1048576), CONSTANT(LW_MAX_VARIABLES, 64),
    };
    check_constants(HERE, constants, COUNT(constants));
}

/* A marker, and a word with its low four bits. */
#define MARKED TABLE(VARIABLE(16), VARIABLE(16), MARKER(0xace1, 16), EQUATION(0, 2), CUT(0, 3, 0), CUT(1, 3, 0), \
                     EQUATION(4, 5))

static void test_worked(void)
{
    static const uint16_t words[] = {0xace1, 0x0001, 0xace1, 0xace1, 0x1231};
    static const uint32_t starts[] = {0, 2, 3};

    EXPECT(MARKED, words, 5, starts, 3);
    for (size_t room = 0; room <= 5; room++)
        call(HERE, "worked case", MARKED, words, 5, room, (lw_record){.pieces = 3}, starts);
    EXPECT(MARKED, words, 4, STARTS(0, 2));
    EXPECT(MARKED, words, 2, STARTS(0));
    EXPECT(MARKED, words, 1, NO_STARTS);

    /* The first word is variable 0; bit 15 is the high bit. */
#define FIRST_HIGH TABLE(VARIABLE(16), VARIABLE(16), CUT(0, 15, 15), FILL(1, 1), EQUATION(2, 3))
    EXPECT(FIRST_HIGH, WORDS(0x8000, 0, 0x0001, 0x8000), STARTS(0));
    EXPECT(FIRST_HIGH, WORDS(0, 0x8000, 0, 0x8000, 0x8000, 0), STARTS(1, 3, 4));
#undef FIRST_HIGH
#define SECOND_LOW TABLE(VARIABLE(16), VARIABLE(16), CUT(1, 0, 0), FILL(1, 1), EQUATION(2, 3))
    EXPECT(SECOND_LOW, WORDS(0x8000, 0, 0x0001, 0x8000), STARTS(1));
    EXPECT(SECOND_LOW, WORDS(0x0001, 0x8000, 0x8001, 0xffff), STARTS(1, 2));
#undef SECOND_LOW

    /* The high byte of a word is the low byte of the next: the shift is that way round. */
#define PASSED_ON TABLE(VARIABLE(16), VARIABLE(16), CUT(0, 15, 8), CUT(1, 7, 0), EQUATION(2, 3))
    EXPECT(PASSED_ON, WORDS(0xab00, 0xcdab, 0x00cd, 0xab01), STARTS(0, 1));
    EXPECT(PASSED_ON, WORDS(0x00ab, 0xabcd, 0xcd00), NO_STARTS);
#undef PASSED_ON

    /* Variables behind other rows, and one that no equation names: the window has as many words as variables. */
#define LATE TABLE(FILL(1, 4), VARIABLE(16), CUT(1, 7, 4), EQUATION(0, 2), VARIABLE(16), MARKER(0x12, 8), \
                   VARIABLE(16), CUT(6, 15, 8), EQUATION(7, 5))
    EXPECT(LATE, WORDS(0x00f0, 0, 0x1200), STARTS(0));
    EXPECT(LATE, WORDS(0x00f0, 0x1200), NO_STARTS);
    EXPECT(LATE, WORDS(0x00f0, 0x12f0, 0x12ff, 0x1200, 0x12ab), STARTS(0, 1, 2));
#undef LATE
}

/* Windows of 1 to 64 words, on runs that are too short, of just one window, and longer. */
static void test_windows(void)
{
    static const uint16_t kinds[] = {0, 1, 0x8000, 0xffff, 0xace1};
    uint16_t words[4 * WINDOW + 9];
    uint32_t all[4 * WINDOW + 9];

    for (size_t i = 0; i < COUNT(all); i++)
        all[i] = (uint32_t)i;
    for (size_t k = 1; k <= WINDOW; k++) {
        const size_t lens[] = {0, 1, k - 1, k, k + 1, 2 * k - 1, 2 * k, 2 * k + 1, 4 * k + 9};
        table any = {.len = 0}, last = {.len = 0}, ends = {.len = 0}, alike = {.len = 0};
        add_words(&any, k);
        add_words(&last, k);
        add_fixed(&last, k - 1, 15, 0, 0xace1);
        add_words(&ends, k);
        add_equal(&ends, 0, 15, 0, k - 1, 15);
        add_words(&alike, k);
        for (size_t v = 1; v < k; v++)
            add(&alike, EQUATION(v - 1, v));
        for (size_t i = 0; i < COUNT(lens); i++) {
            size_t len = lens[i];
            for (size_t j = 0; j < len; j++)
                words[j] = kinds[one_in(4) ? below(5) : 4];
            lw_record want = {.pieces = (uint32_t)(len < k ? 0 : len - k + 1)};
            for (size_t room = 0; room < 3; room++)
                call(HERE, "no equations", ALL(any), words, len, room * want.pieces, want, all);
            compare(HERE, "last word fixed", ALL(last), words, len, i % 3);
            compare(HERE, "first and last word equal", ALL(ends), words, len, i % 3);
            compare(HERE, "all words alike", ALL(alike), words, len, i % 3);
            /* A window of words that are alike, with others before and behind it. */
            for (size_t j = 0; j < len; j++)
                words[j] = (uint16_t)(j < len / 2 ? j : j < len / 2 + k ? 0x5a5a : j);
            compare(HERE, "some words alike", ALL(alike), words, len, i % 3);
        }
    }
}

/* Lists that take none, one, too few, just all and more; up to a list that is longer than the run. */
static void test_lists(void)
{
    table t = {.len = 0};
    uint16_t words[200];

    add_words(&t, 2);
    add_equal(&t, 0, 7, 4, 1, 3);
    for (size_t len = 0; len <= 200; len += len < 8 ? 1 : 24) {
        for (size_t i = 0; i < len; i++)
            words[i] = (uint16_t)(0x10 * below(2) + below(2));
        lw_record want;
        const uint32_t *list = plain_list(ALL(t), words, len, &want);
        for (size_t room = 0; room <= want.pieces + 5; room++)
            call(HERE, "list", ALL(t), words, len, room, want, list);
        call(HERE, "list", ALL(t), words, len, len + 70, want, list);
        call(HERE, "list", ALL(t), words, len, 66000, want, list);
    }
}

/* Windows that overlap: words all alike, and words that come again after 2, 3 and more. */
static void test_overlapping(void)
{
    uint16_t words[150];

    for (size_t k = 1; k <= 12; k++) {
        table alike = {.len = 0}, period = {.len = 0}, marked = {.len = 0};
        add_words(&alike, k);
        for (size_t v = 1; v < k; v++)
            add(&alike, EQUATION(0, v));
        add_words(&period, k);
        for (size_t v = 2; v < k; v++)
            add(&period, EQUATION(v - 2, v));
        add_words(&marked, k);
        add_fixed(&marked, 0, 11, 0, 0xce1);
        if (k > 1)
            add_equal(&marked, 0, 11, 0, k - 1, 11);
        for (size_t every = 1; every <= 5; every++) {
            for (size_t i = 0; i < COUNT(words); i++)
                words[i] = (uint16_t)(i % every == 0 ? 0xace1 : 0x0ce1 + i % every * 0x1000);
            size_t found = compare_lists(HERE, "alike", ALL(alike), words, COUNT(words));
            check(found == (every == 1 || k == 1 ? COUNT(words) - k + 1 : 0), HERE, "%zu words alike: %zu", k, found);
            compare_lists(HERE, "every second word", ALL(period), words, COUNT(words));
            compare_lists(HERE, "marked", ALL(marked), words, COUNT(words));
        }
    }
}

/* The longest runs. */
static void test_long_runs(void)
{
    static uint16_t words[RUN];
    static uint32_t all[RUN];
    table any = {.len = 0}, alike = {.len = 0}, marked = {.len = 0}, never = {.len = 0};

    for (size_t i = 0; i < RUN; i++)
        all[i] = (uint32_t)i;
    add_words(&any, 1);
    add_words(&alike, 64);
    for (size_t v = 1; v < 64; v++)
        add(&alike, EQUATION(v, v - 1));
    add_words(&marked, 3);
    add_fixed(&marked, 0, 15, 0, 0xace1);
    add_equal(&marked, 1, 7, 0, 2, 15);
    add_words(&never, 1);
    add_fixed(&never, 0, 0, 0, 0);
    add_fixed(&never, 0, 0, 0, 1);

    /* Every start. */
    memset(words, 0, sizeof words);
    call(HERE, "long run, no equations", ALL(any), words, RUN, RUN, (lw_record){.pieces = RUN}, all);
    call(HERE, "long run, all alike", ALL(alike), words, RUN, RUN, (lw_record){.pieces = RUN - 63}, all);
    call(HERE, "long run, all alike", ALL(alike), words, RUN, 0, (lw_record){.pieces = RUN - 63}, all);
    call(HERE, "long run, all alike", ALL(alike), words, RUN - 1, 65537, (lw_record){.pieces = RUN - 64}, all);
    call(HERE, "long run, never", ALL(never), words, RUN, 5, (lw_record){.pieces = 0}, NULL);

    /* The first start and the last, and some that are a window's length apart, or on both sides of 65536. */
    static const uint32_t at[] = {0, 3, 65533, 65536, 524288, 1048567, 1048570, RUN - 3};
    memset(words, 0, sizeof words);
    for (size_t i = 0; i < COUNT(at); i++)
        words[at[i]] = 0xace1, words[at[i] + 1] = (uint16_t)(0x5500 + i), words[at[i] + 2] = (uint16_t)(i << 8);
    for (size_t room = 0; room <= 9; room += 3)
        call(HERE, "long run, marked", ALL(marked), words, RUN, room, (lw_record){.pieces = COUNT(at)}, at);
    call(HERE, "long run, marked", ALL(marked), words, RUN - 1, 9, (lw_record){.pieces = COUNT(at) - 1}, at);

    /* Random words. */
    for (size_t i = 0; i < RUN; i++)
        words[i] = (uint16_t)(one_in(8) ? 0xace1 : random_number() & 0x0f03);
    check(compare(HERE, "long run, random words", ALL(marked), words, RUN, 4) != 0, HERE, "none found");
}

/* Tables that all words meet, and tables that none meet. */
static void test_always_and_never(void)
{
    uint16_t words[40];

    for (size_t i = 0; i < COUNT(words); i++)
        words[i] = (uint16_t)random_number();
#define ALL_STARTS(...) \
    check(compare_lists(HERE, "always", TABLE(__VA_ARGS__), words, 40) >= 37, HERE, "not all starts")
#define NONE_FOUND(...) \
    check(compare_lists(HERE, "never", TABLE(__VA_ARGS__), words, 40) == 0, HERE, "a start")
    ALL_STARTS(VARIABLE(16));
    ALL_STARTS(VARIABLE(16), EQUATION(0, 0));
    ALL_STARTS(VARIABLE(16), VARIABLE(16), JOIN(0, 1), CUT(2, 31, 16), EQUATION(0, 3), CUT(2, 15, 0), EQUATION(5, 1));
    ALL_STARTS(VARIABLE(16), MARKER(6, 4), FILL(1, 2), CUT(1, 2, 1), EQUATION(2, 3));
    ALL_STARTS(FILL(0, 3), FILL(0, 3), EQUATION(0, 1), VARIABLE(16));
    NONE_FOUND(VARIABLE(16), FILL(0, 1), FILL(1, 1), EQUATION(1, 2));
    NONE_FOUND(VARIABLE(16), FILL(0, 16), MARKER(1, 16), EQUATION(0, 1), EQUATION(0, 2));
    NONE_FOUND(VARIABLE(16), CUT(0, 3, 0), CUT(0, 3, 3), FILL(1, 1), MARKER(7, 4), EQUATION(4, 1), EQUATION(2, 3));
    /* All bits alike, the first 0 and the last 1; so a chain through three words. */
    NONE_FOUND(VARIABLE(16), CUT(0, 15, 1), CUT(0, 14, 0), EQUATION(1, 2), CUT(0, 15, 15), FILL(0, 1), EQUATION(4, 5),
               CUT(0, 0, 0), FILL(1, 1), EQUATION(7, 8));
    NONE_FOUND(VARIABLE(16), VARIABLE(16), VARIABLE(16), EQUATION(0, 1), EQUATION(1, 2), MARKER(0xace1, 16),
               MARKER(0xace0, 16), EQUATION(0, 5), EQUATION(6, 2));
    /* The conflict is in the first equation, and others follow. */
    NONE_FOUND(FILL(1, 1), FILL(0, 1), EQUATION(0, 1), VARIABLE(16), EQUATION(3, 3), CUT(3, 5, 5), EQUATION(5, 1));
#undef ALL_STARTS
#undef NONE_FOUND

    /* Words that would meet a plan of no tests, of zeros alone and of ones alone. */
    static const uint16_t kinds[] = {0, 0xffff, 1, 0x8000};
    for (size_t i = 0; i < COUNT(kinds); i++) {
        for (size_t j = 0; j < COUNT(words); j++)
            words[j] = kinds[i];
        for (size_t k = 1; k <= 64; k *= 2) {
            table t = {.len = 0};
            add_words(&t, k);
            add_fixed(&t, k - 1, 15, 15, 1);
            add_fixed(&t, 0, 0, 0, 0);
            add_equal(&t, 0, 0, 0, k - 1, 15);
            check(compare(HERE, "never", ALL(t), words, 40, 2) == 0, HERE, "a start");
        }
    }
}

/* A table is refused whatever the run and the list. */
static void refuse(where at, const uint16_t *numbers, size_t len, uint32_t number, uint32_t row)
{
    static const uint16_t words[5] = {1, 2, 3, 4, 5};
    lw_record want = {.outcome = number, .row = row};

    call(at, "refused", numbers, len, words, 5, 4, want, NULL);
    call(at, "refused, nothing lent", numbers, len, words, 0, 0, want, NULL);
    call(at, "refused, run too long", numbers, len, long_run(), RUN + 1, 3, want, NULL);
}

/* Words of which many are bytes of zeros, of ones, of the marker and alike: 24 bytes beside each other, each with each. */
static size_t revised_words(uint16_t words[24 * 24])
{
    uint8_t bytes[24] = {0, 0xff, 0x5a, 0xa5, 0x0f, 0xf0, 0x05, 0x50};

    for (size_t i = 8; i < 24; i++)
        bytes[i] = (uint8_t)random_number();
    for (size_t i = 0; i < 24 * 24; i++)
        words[i] = (uint16_t)(bytes[i / 24] << 8 | bytes[i % 24]);
    return 24 * 24;
}

/* The starts of a table are those of its counting equations alone, as plain_positions finds them. Gives their number. */
static size_t compare_revised(where at, const char *name, const table *revised, const table *counting,
                              const uint16_t *words, size_t words_len)
{
    lw_record want;
    const uint32_t *list = plain_list(ALL(*counting), words, words_len, &want);

    call(at, name, ALL(*revised), words, words_len, want.pieces, want, list);
    call(at, name, ALL(*revised), words, words_len, want.pieces / 2, want, list);
    return compare(at, name, ALL(*revised), words, words_len, 2);
}

/* Revised equations: of each line the last one counts. */
static void test_revised(void)
{
    static table revised, counting;
    static uint16_t words[24 * 24];
    size_t len = revised_words(words);

    for (size_t i = 0; i < REVISED_CASES; i++) {
        const revised_case *c = &revised_cases[i];
        make_revised(c, &revised, &counting);
        size_t found = compare_revised(HERE, c->name, &revised, &counting, words, len);
        check(c->want.outcome == 0 ? found == len : c->want.outcome == 1 ? found == 0 : found != 0 && found < len, HERE,
              "%s: %zu starts", c->name, found);
    }
    make_one_line(&revised, 64, 5);
    make_one_line(&counting, 1, 0);
    compare_revised(HERE, "64 equations of one line", &revised, &counting, words, len);
    make_one_line(&revised, 65, 5);
    refuse(HERE, ALL(revised), 17, REVISED_FRONT + 64);

    /* Two words: the marker was 1234 and is ace1 now; the second word was the first, and is not asked now. */
#define REMARKED VARIABLE(16), VARIABLE(16), MARKER(0x1234, 16), MARKER(0xace1, 16)
    EXPECT(TABLE(REMARKED, LINE(0, 2, 10), LINE(0, 3, 10)), WORDS(0x1234, 0xace1, 0xace1, 0x1234), STARTS(1, 2));
    EXPECT(TABLE(REMARKED, LINE(0, 2, 10), LINE(0, 3, 11)), WORDS(0x1234, 0xace1, 0xace1, 0x1234), NO_STARTS);
    EXPECT(TABLE(REMARKED, LINE(0, 3, 10), LINE(0, 1, 20), LINE(1, 1, 20)), WORDS(0xace1, 0x1234, 0xace1, 0xace1, 9),
           STARTS(0, 2, 3));
    EXPECT(TABLE(REMARKED, LINE(0, 3, 10), LINE(1, 1, 20), LINE(0, 1, 20)), WORDS(0xace1, 0x1234, 0xace1, 0xace1, 9),
           STARTS(2));
    EXPECT(TABLE(REMARKED, LINE(2, 3, 65535), LINE(1, 2, 65535)), WORDS(0, 0x1234, 0x1234), STARTS(0, 1));
    EXPECT(TABLE(REMARKED, LINE(1, 2, 65535), LINE(2, 3, 65535)), WORDS(0, 0x1234, 0x1234), NO_STARTS);
#undef REMARKED

    /* A table is asked for its window, and refused, whether or not its equations count. */
    refuse(HERE, TABLE(VARIABLE(16), VARIABLE(15), LINE(0, 1, 4), LINE(0, 0, 4)), 41, 0);
}

/* Refusals. */

static void test_table_refusals(void)
{
    refuse_one_by_one(refuse);
    refuse_two_at_once(refuse);
    refuse_beyond_maximum(refuse);
    refuse_too_long(refuse);
    check_long_run(HERE);
}

/* 41: no variable, or one that has not 16 bits; the table's faults come before it, and it comes before 42. */
static void test_window_refusals(void)
{
    static const uint16_t widths[] = {1, 8, 15, 17, 32, 1008};

#define REFUSE_41(...) refuse(HERE, TABLE(__VA_ARGS__), 41, 0)
    refuse(HERE, NULL, 0, 41, 0);
    REFUSE_41(FILL(1, 16));
    REFUSE_41(MARKER(0xace1, 16), FILL(0, 16), EQUATION(0, 1)); /* never */
    REFUSE_41(MARKER(0, 16), FILL(0, 16), EQUATION(0, 1));      /* always */
    for (size_t i = 0; i < COUNT(widths); i++) {
        REFUSE_41(VARIABLE(widths[i]));
        REFUSE_41(VARIABLE(16), VARIABLE(widths[i]));
        REFUSE_41(VARIABLE(widths[i]), VARIABLE(16));
        REFUSE_41(VARIABLE(16), FILL(0, 16), EQUATION(0, 1), VARIABLE(widths[i]));
        REFUSE_41(VARIABLE(16), FILL(0, 1), FILL(1, 1), EQUATION(1, 2), VARIABLE(widths[i])); /* never */
    }
    /* As many bits as words of 16 would have. */
    REFUSE_41(VARIABLE(15), VARIABLE(17));
    REFUSE_41(VARIABLE(17), VARIABLE(16), VARIABLE(15));
    REFUSE_41(VARIABLE(1), VARIABLE(31), CUT(1, 15, 0), EQUATION(2, 2));
    /* Two of 8 bits that make a word, and one of 32 that makes two. */
    REFUSE_41(VARIABLE(8), VARIABLE(8), JOIN(0, 1));
    REFUSE_41(VARIABLE(32), CUT(0, 31, 16), CUT(0, 15, 0), EQUATION(1, 2));
#undef REFUSE_41

    /* Any one of 1 to 64 variables. */
    for (size_t k = 1; k <= 64; k++)
        for (size_t v = 0; v < k; v++) {
            table t = {.len = 0};
            add_words(&t, v);
            add(&t, VARIABLE(v % 2 == 0 ? 15 : 17));
            add_words(&t, k - v - 1);
            refuse(HERE, ALL(t), 41, 0);
        }

    /* A fault of the table behind such a variable. */
    refuse(HERE, TABLE(VARIABLE(8), 6, 0, 0, 0), 12, 1);
    /* Sides of unequal width are filled, and hide no fault of a later row. */
    refuse(HERE, TABLE(FILL(0, 8), FILL(0, 9), EQUATION(0, 1), 6, 0, 0, 0), 12, 3);
    refuse(HERE, TABLE(VARIABLE(15), VARIABLE(16), MARKER(4, 2)), 40, 2);
    refuse(HERE, TABLE(VARIABLE(15), VARIABLE(16), 0), 11, 512);
    check_long_run(HERE);
}

/* 42: longer than 1,048,576 words, whatever the table and the list. */
static void test_run_refusals(void)
{
    static const size_t lens[] = {RUN + 1, RUN + 2, RUN + 63, LONG};
    table alike = {.len = 0};

    add_words(&alike, 64);
    for (size_t v = 1; v < 64; v++)
        add(&alike, EQUATION(v, v - 1));
    for (size_t i = 0; i < COUNT(lens); i++)
        for (size_t room = 0; room < 50; room += 7) {
            call(HERE, "run too long", MARKED, long_run(), lens[i], room, refused_42, NULL);
            call(HERE, "run too long, no equations", TABLE(VARIABLE(16)), long_run(), lens[i], room, refused_42, NULL);
            call(HERE, "run too long, alike", ALL(alike), long_run(), lens[i], room, refused_42, NULL);
            call(HERE, "run too long, never", TABLE(VARIABLE(16), FILL(0, 1), FILL(1, 1), EQUATION(1, 2)), long_run(),
                 lens[i], room, refused_42, NULL);
            call(HERE, "run too long, no variable", TABLE(FILL(1, 1)), long_run(), lens[i], room, refused_41, NULL);
        }
    compare(HERE, "the longest run", MARKED, long_run(), RUN, 1);
    check_long_run(HERE);
}

/* NULL with length 0 for each buffer. */
static void test_null(void)
{
    static const uint16_t words[] = {1, 2};
    static const uint16_t one[] = {VARIABLE(16)};
    uint32_t list[2] = {9, 9};

#define NULLS(name, want, ...) check_record(HERE, name, lw_marker_positions(__VA_ARGS__), want)
    NULLS("all NULL", refused_41, NULL, 0, NULL, 0, NULL, 0);
    NULLS("table NULL", refused_41, NULL, 0, words, 2, list, 2);
    NULLS("words and list NULL", ((lw_record){.pieces = 0}), one, 4, NULL, 0, NULL, 0);
    NULLS("words NULL", ((lw_record){.pieces = 0}), one, 4, NULL, 0, list, 2);
    check(list[0] == 9 && list[1] == 9, HERE, "list written without words");
    NULLS("list NULL", ((lw_record){.pieces = 2}), one, 4, words, 2, NULL, 0);
#undef NULLS
}

const test_list tests = {
    .name = "positions", .inputs = 40000,
    .groups = {
        {.name = "the header's constants", .run = test_constants},
        {.name = "worked by hand", .run = test_worked},
        {.name = "windows of 1 to 64 words", .run = test_windows},
        {.name = "lists of every length", .run = test_lists},
        {.name = "overlapping windows", .run = test_overlapping},
        {.name = "the longest runs", .run = test_long_runs},
        {.name = "always and never", .run = test_always_and_never},
        {.name = "revised equations", .run = test_revised},
        {.name = "refusals 11 to 17, 40", .run = test_table_refusals},
        {.name = "refusal 41", .run = test_window_refusals},
        {.name = "refusal 42", .run = test_run_refusals},
        {.name = "NULL with length 0", .run = test_null},
        {.name = "fixed bits at every place", .run = test_fixed_bits},
        {.name = "fixed parts and words", .run = test_fixed_parts},
        {.name = "equal bits of two words", .run = test_equal_bits},
        {.name = "equal parts, shifts -15 to 15", .run = test_equal_parts},
        {.name = "equal bits within a word", .run = test_within_a_word},
        {.name = "chains of ties", .run = test_chains},
        {.name = "parts that go across words", .run = test_across_words},
        {.name = "the most groups", .run = test_most_groups},
        {.name = "random tables and runs", .run_random = test_random},
    },
};
