/*
  test_recordings.c -- tests of lw_compare_recordings

      test_recordings [CASES]

  First records worked by hand, for 1 to 32 words: counters that interleave in
  every way, differing bits one by one, sheets of every kind, the longest
  recordings, every refusal with others behind it. Last CASES random tables and
  recordings (20000 if not given): test_recordings_random.c. Every call is made on
  guarded buffers, all of which have to be as they were, and its record is compared,
  mostly with what plain_recordings.c finds by searching each record's partner.

  The run fails too if some kind of random case is missing; so there should be at
  least 5000.
*/

#include "guard.h"
#include "refused_tables.h"
#include "revised_tables.h"
#include "test_recordings.h"

static const lw_record refused_47 = {.outcome = 47}, refused_48 = {.outcome = 48};

/* Numbers as two arguments: the numbers and their count. */
#define NUMBERS(...) \
    (const uint16_t[]){__VA_ARGS__}, sizeof((const uint16_t[]){__VA_ARGS__}) / sizeof(uint16_t)
#define EMPTY NULL, 0

/* Recordings. */

void add_record(recording *r, size_t counter, const uint16_t *words, size_t k)
{
    r->numbers[r->len] = (uint16_t)counter;
    memcpy(r->numbers + r->len + 1, words, k * sizeof *words);
    r->len += k + 1;
}

/* A record of random words. */
static void add_some(recording *r, size_t counter, size_t k)
{
    uint16_t words[MOST_K];

    for (size_t j = 0; j < k; j++)
        words[j] = (uint16_t)random_number();
    add_record(r, counter, words, k);
}

/* A record whose words are all alike. */
static void add_alike(recording *r, size_t counter, size_t word, size_t k)
{
    uint16_t words[MOST_K];

    for (size_t j = 0; j < k; j++)
        words[j] = (uint16_t)word;
    add_record(r, counter, words, k);
}

/* So many records of random words, each counter a little above the one before. */
static void make_rising(recording *r, size_t records, size_t k)
{
    r->len = 0;
    for (size_t i = 0, counter = below(100); i < records; i++, counter += 1 + below(9))
        add_some(r, counter, k);
}

/* Each word comes back as it was sent. */
static void make_echo(table *t, size_t k)
{
    t->len = 0;
    add_words(t, 2 * k);
    for (size_t j = 0; j < k; j++)
        add(t, EQUATION(j, k + j));
}

static guarded far;

const uint16_t *far_numbers(void)
{
    if (far.block == NULL)
        far = guard(NULL, FAR * sizeof(uint16_t));
    return guarded_buffer(&far);
}

void check_far(where at)
{
    far_numbers();
    guard_compare(&far, at, "the long recording");
}

/* Calls and what they are compared with. */

static void print_recording(const char *name, const uint16_t *numbers, size_t len)
{
    printf("  %s, %zu numbers:", name, len);
    for (size_t i = 0; i < len && i < 40; i++)
        printf(" %u", numbers[i]);
    printf("%s\n", len > 40 ? " .." : "");
}

static guarded guard_recording(const uint16_t *numbers, size_t len)
{
    return numbers == far_numbers() ? far : guard(numbers, len * sizeof *numbers);
}

static void check_recording(guarded *g, where at, const char *name)
{
    if (g->block != far.block)
        guard_check(g, at, name);
}

void call(where at, const char *name, const uint16_t *numbers, size_t len, const uint16_t *sent, size_t sent_len,
          const uint16_t *received, size_t received_len, lw_record want)
{
    unsigned long failed = checks_failed;
    guarded t = guard(numbers, len * sizeof *numbers);
    guarded s = guard_recording(sent, sent_len), r = guard_recording(received, received_len);

    lw_record got = lw_compare_recordings(guarded_buffer(&t), len, guarded_buffer(&s), sent_len, guarded_buffer(&r),
                                          received_len);
    check_record(at, name, got, want);
    guard_check(&t, at, "table");
    check_recording(&s, at, "sent");
    check_recording(&r, at, "received");
    if (checks_failed != failed && failed == 0) {
        print_recording("sent", sent, sent_len);
        print_recording("received", received, received_len);
        print_table(numbers, len);
    }
}

lw_record compare(where at, const char *name, const uint16_t *numbers, size_t len, const uint16_t *sent,
                  size_t sent_len, const uint16_t *received, size_t received_len)
{
    lw_record want = plain_compare_recordings(numbers, len, sent, sent_len, received, received_len);

    call(at, name, numbers, len, sent, sent_len, received, received_len, want);
    return want;
}

/* The record is this one; a slip in what is expected is found too. */
static void expect(where at, const char *name, const uint16_t *numbers, size_t len, const uint16_t *sent,
                   size_t sent_len, const uint16_t *received, size_t received_len, lw_record want)
{
    lw_record plain = compare(at, name, numbers, len, sent, sent_len, received, received_len);

    check_record(at, "the plain comparison", plain, want);
}

/* Outcome 0: pieces, fresh, free, ties, row. */
#define FOUND(pieces, fresh, free, ties, row) ((lw_record){0, (pieces), (fresh), (free), (ties), (row)})
#define EXPECT(...) expect(HERE, "worked by hand", __VA_ARGS__)

/* The header's numbers are those of the specification. */
static void test_constants(void)
{
    static const constant constants[] = {
        CONSTANT(LW_ACCEPTED, 0), CONSTANT(LW_REFUSED_RECORDING, 47), CONSTANT(LW_REFUSED_COUNTERS, 48),
        CONSTANT(LW_MAX_RECORDING, 65535), CONSTANT(LW_MAX_VARIABLES, 64),
    };
    check_constants(HERE, constants, COUNT(constants));
}

/* One word that comes back; two; and two words of 16 bits, for other equations. */
#define ECHO   TABLE(VARIABLE(16), VARIABLE(16), EQUATION(0, 1))
#define ECHO_2 TABLE(VARIABLE(16), VARIABLE(16), VARIABLE(16), VARIABLE(16), EQUATION(0, 2), EQUATION(1, 3))
#define WORDS_2 VARIABLE(16), VARIABLE(16)
#define NEVER  TABLE(WORDS_2, FILL(0, 1), FILL(1, 1), EQUATION(2, 3))

static void test_worked(void)
{
    EXPECT(ECHO, NUMBERS(1, 5, 2, 7, 4, 9), NUMBERS(1, 5, 3, 1, 4, 8), FOUND(2, 2, 1, 1, 4));
    EXPECT(ECHO, EMPTY, EMPTY, FOUND(0, 0, 0, 0, 0));
    EXPECT(ECHO, NUMBERS(0, 1), NUMBERS(0, 2), FOUND(1, 0, 1, 2, 0));
    EXPECT(ECHO, NUMBERS(1, 5, 1, 7), EMPTY, refused_48);
    EXPECT(ECHO, NUMBERS(1, 5, 1, 7, 1), EMPTY, refused_47);
    EXPECT(ECHO, NUMBERS(1, 5, 1, 7), NUMBERS(1, 5, 2), refused_47);

    /* The high byte comes back in place, or the low byte as the high one: not the same with the sides exchanged. */
#define BYTE_UP TABLE(WORDS_2, CUT(0, 7, 0), CUT(1, 15, 8), EQUATION(2, 3))
    EXPECT(BYTE_UP, NUMBERS(0, 0x1234, 7, 0xabcd), NUMBERS(0, 0x3400, 7, 0xab00), FOUND(2, 0, 1, 11, 7));
    EXPECT(BYTE_UP, NUMBERS(0, 0x3400, 7, 0xab00), NUMBERS(0, 0x1234, 7, 0xabcd), FOUND(2, 0, 2, 11, 0));
#undef BYTE_UP

    /* Two words. */
    EXPECT(ECHO_2, NUMBERS(0, 1, 2, 5, 0x00ff, 0x0f0f, 65535, 7, 7), NUMBERS(5, 0x00ff, 0x0ff0, 9, 0, 0, 65535, 7, 7),
           FOUND(2, 2, 1, 8, 5));
    EXPECT(ECHO_2, NUMBERS(3, 0x1234, 0x5678), NUMBERS(3, 0x5678, 0x1234), FOUND(1, 0, 1, 10, 3));

    /* Revised: low bytes alone, whatever the high ones are. */
    EXPECT(TABLE(WORDS_2, LINE(0, 1, 7), CUT(0, 7, 0), CUT(1, 7, 0), LINE(3, 4, 7)), NUMBERS(3, 0x12ab, 4, 0x0001),
           NUMBERS(3, 0x34ab, 4, 0x0002), FOUND(2, 0, 1, 5, 4));

    /* Never, and variables that are none, odd, or not of 16 bits. */
    EXPECT(NEVER, NUMBERS(2, 1, 6, 1), NUMBERS(2, 1, 6, 1, 7, 0), FOUND(2, 1, 2, 0, 2));
    EXPECT(NEVER, NUMBERS(2, 1), NUMBERS(3, 1), FOUND(0, 2, 0, 0, 0));
    EXPECT(TABLE(WORDS_2, VARIABLE(16)), EMPTY, EMPTY, refused_47);
    EXPECT(TABLE(WORDS_2, VARIABLE(16), VARIABLE(8)), EMPTY, EMPTY, refused_47);
    EXPECT(TABLE(EQUATION(0, 0)), EMPTY, EMPTY, ((lw_record){.outcome = 14}));

    /* examples/echo.sheet: word 0 comes back, word 1 with the marker 1100 in its high bits. */
    EXPECT(TABLE(WORDS_2, WORDS_2, EQUATION(0, 2), MARKER(0xc, 4), CUT(3, 15, 12), EQUATION(5, 6), CUT(1, 11, 0),
                 CUT(3, 11, 0), EQUATION(8, 9)),
           NUMBERS(1, 0xabcd, 0x1234, 2, 0x0001, 0x0fff, 4, 0x5555, 0x0abc),
           NUMBERS(1, 0xabcd, 0xc234, 3, 0x0001, 0x0fff, 4, 0x5555, 0x0abc), FOUND(2, 2, 1, 3, 4));

    /* Swapped bytes are asked for, and the bits are counted as they were recorded. */
    EXPECT(TABLE(WORDS_2, CUT(0, 7, 0), CUT(0, 15, 8), JOIN(2, 3), EQUATION(1, 4)), NUMBERS(8, 0x00ff, 9, 0x1212),
           NUMBERS(8, 0xff00, 9, 0x1212), FOUND(2, 0, 0, 16, 0));

    /* Variables behind other rows, and some that no equation names: k is 2, and word 1 is sent as variable 1. */
    EXPECT(TABLE(FILL(1, 8), VARIABLE(16), CUT(1, 7, 0), EQUATION(0, 2), VARIABLE(16), VARIABLE(16), VARIABLE(16)),
           NUMBERS(6, 0x00ff, 0, 7, 0, 0x00ff, 8, 0x12ff, 1), NUMBERS(6, 1, 2, 7, 0x00ff, 0, 8, 0, 0),
           FOUND(3, 0, 1, 8 + 16 + 11, 7));
}

/* Records of 1 to 32 words: sheets of several kinds on recordings of few records. */
static void test_widths(void)
{
    static recording sent, received;
    static table sheets[5];

    for (size_t k = 1; k <= MOST_K; k++) {
        for (size_t i = 0; i < COUNT(sheets); i++) {
            sheets[i].len = 0;
            add_words(&sheets[i], 2 * k);
        }
        make_echo(&sheets[1], k);
        add_fixed(&sheets[2], 2 * k - 1, 15, 0, 0xace1); /* the last received word */
        add_fixed(&sheets[3], k - 1, 3, 0, 1);           /* the last sent word */
        for (size_t j = 0; j < k; j++)                   /* the words turned round */
            add(&sheets[4], EQUATION(j, 2 * k - 1 - j));
        for (size_t records = 0; records <= 20; records += records < 3 ? 1 : 17) {
            make_rising(&sent, records, k);
            received = sent;
            for (size_t i = 0; i < records; i++)
                if (one_in(2))
                    received.numbers[i * (k + 1) + 1 + below(k)] = (uint16_t)(one_in(2) ? 0xace1 : random_number());
            for (size_t i = 0; i < COUNT(sheets); i++) {
                compare(HERE, "k words", ALL(sheets[i]), ALL(sent), ALL(received));
                compare(HERE, "k words, sides exchanged", ALL(sheets[i]), ALL(received), ALL(sent));
                compare(HERE, "k words, nothing received", ALL(sheets[i]), ALL(sent), EMPTY);
                compare(HERE, "k words, nothing sent", ALL(sheets[i]), EMPTY, ALL(received));
            }
            make_rising(&received, records + 3, k);
            compare(HERE, "k words, other counters", ALL(sheets[1]), ALL(sent), ALL(received));
        }
    }
}

/* Counters. */

enum { SENT = 1, RECEIVED = 2, BOTH = 3, MOST_FRAMES = 12 };

/* A word that differs from this one in so many bits, 0 to 16. */
static uint16_t with_changes(uint16_t word, size_t bits)
{
    uint16_t changed = 0;

    while (bits != 0) {
        uint16_t bit = (uint16_t)(1U << below(16));
        if ((changed & bit) == 0) {
            changed |= bit;
            bits--;
        }
    }
    return word ^ changed;
}

/* So many frames, of each of which it is told who recorded it. The counters begin at 0, end at 65535, or do neither. */
static void test_frames(const uint8_t *recorded, size_t frames, size_t k)
{
    static recording sent, received;
    static table echo;
    size_t gaps[MOST_FRAMES], last = 0, counter;
    lw_record want = {.outcome = 0};

    make_echo(&echo, k);
    sent.len = received.len = 0;
    for (size_t i = 0; i < frames; i++)
        last += gaps[i] = i == 0 ? 0 : one_in(2) ? 1 : 1 + below(5000);
    counter = one_in(3) ? 0 : one_in(2) ? 65535 - last : below(65536 - last);
    for (size_t i = 0; i < frames; i++) {
        uint16_t words[2] = {(uint16_t)random_number(), (uint16_t)random_number()};
        size_t changes = one_in(2) ? 0 : below(17);
        counter += gaps[i];
        if (recorded[i] & SENT)
            add_record(&sent, counter, words, k);
        words[k - 1] = with_changes(words[k - 1], changes);
        if (recorded[i] & RECEIVED)
            add_record(&received, counter, words, k);
        want.pieces += recorded[i] == BOTH;
        want.fresh += recorded[i] != BOTH;
        if (recorded[i] != BOTH || changes == 0)
            continue;
        want.ties += (uint32_t)changes;
        want.row = want.free++ == 0 ? (uint32_t)counter : want.row;
    }
    expect(HERE, "interleaved", ALL(echo), ALL(sent), ALL(received), want);
}

/* All ways to go on from so many frames. Gives how many there are. */
static size_t test_ways(uint8_t *recorded, size_t frames, size_t sent_left, size_t received_left)
{
    size_t ways = 1;

    for (size_t k = 1; k <= 2; k++)
        test_frames(recorded, frames, k);
    for (uint8_t who = SENT; who <= BOTH; who++) {
        size_t takes_sent = who & SENT, takes_received = who >> 1;
        if (takes_sent > sent_left || takes_received > received_left)
            continue;
        recorded[frames] = who;
        ways += test_ways(recorded, frames + 1, sent_left - takes_sent, received_left - takes_received);
    }
    return ways;
}

/* Up to 6 records on each side. */
static void test_interleaved(void)
{
    uint8_t recorded[MOST_FRAMES];
    size_t ways = test_ways(recorded, 0, 6, 6);

    check(ways > 20000, HERE, "only %zu ways", ways);
}

/* The lowest counter and the highest, alone and in pairs; a first broken pair of counter 0. */
static void test_counters(void)
{
    EXPECT(ECHO, NUMBERS(0, 1), EMPTY, FOUND(0, 1, 0, 0, 0));
    EXPECT(ECHO, EMPTY, NUMBERS(65535, 1), FOUND(0, 1, 0, 0, 0));
    EXPECT(ECHO, NUMBERS(0, 1), NUMBERS(65535, 1), FOUND(0, 2, 0, 0, 0));
    EXPECT(ECHO, NUMBERS(65535, 1), NUMBERS(0, 1), FOUND(0, 2, 0, 0, 0));
    EXPECT(ECHO, NUMBERS(0, 1, 65535, 2), NUMBERS(0, 1, 65535, 2), FOUND(2, 0, 0, 0, 0));
    EXPECT(ECHO, NUMBERS(0, 1, 65535, 2), NUMBERS(0, 1, 65535, 3), FOUND(2, 0, 1, 1, 65535));
    EXPECT(ECHO, NUMBERS(0, 1, 65535, 2), NUMBERS(0, 3, 65535, 3), FOUND(2, 0, 2, 2, 0));
    EXPECT(ECHO, NUMBERS(0, 1, 65535, 2), NUMBERS(0, 3, 65535, 2), FOUND(2, 0, 1, 1, 0));
    EXPECT(ECHO, NUMBERS(0, 0, 1, 0), NUMBERS(0, 1, 1, 1), FOUND(2, 0, 2, 2, 0));
    EXPECT(ECHO, NUMBERS(65534, 7), NUMBERS(65534, 7, 65535, 7), FOUND(1, 1, 0, 0, 0));
    /* Above and below 32768. */
    EXPECT(ECHO, NUMBERS(32767, 1, 32768, 2), NUMBERS(32768, 2, 65535, 9), FOUND(1, 2, 0, 0, 0));
    EXPECT(ECHO, NUMBERS(1, 1, 40000, 2), NUMBERS(2, 2, 39999, 9, 40000, 6), FOUND(1, 3, 1, 1, 40000));
    /* Counters that are words of the other recording, and the other way round. */
    EXPECT(ECHO, NUMBERS(5, 6, 7, 8), NUMBERS(6, 5, 8, 7), FOUND(0, 4, 0, 0, 0));
    EXPECT(ECHO_2, NUMBERS(1, 2, 3, 4, 5, 6), NUMBERS(2, 3, 4, 5, 6, 7), FOUND(0, 4, 0, 0, 0));
}

/* Differing bits. */

/* Each bit of each word alone, all bits, and none. */
static void test_bits(void)
{
    static recording sent, received;
    static table echo, any;

    for (size_t k = 1; k <= MOST_K; k += k < 4 ? 1 : 7) {
        make_echo(&echo, k);
        any.len = 0;
        add_words(&any, 2 * k);
        for (size_t bit = 0; bit < 16 * k; bit++) {
            sent.len = 0;
            add_some(&sent, bit, k);
            received = sent;
            received.numbers[1 + bit / 16] ^= (uint16_t)(1U << bit % 16);
            expect(HERE, "one bit", ALL(echo), ALL(sent), ALL(received), FOUND(1, 0, 1, 1, (uint32_t)bit));
            expect(HERE, "one bit, no equations", ALL(any), ALL(sent), ALL(received), FOUND(1, 0, 0, 1, 0));
        }
        for (size_t records = 0; records <= 9; records += 3) {
            uint32_t n = (uint32_t)records, bits = (uint32_t)(16 * k * records);
            sent.len = received.len = 0;
            for (size_t i = 0; i < records; i++) {
                add_alike(&sent, 3 * i, 0x1111 * i, k);
                add_alike(&received, 3 * i, 0xffff - 0x1111 * i, k);
            }
            expect(HERE, "all bits", ALL(any), ALL(sent), ALL(received), FOUND(n, 0, 0, bits, 0));
            expect(HERE, "all bits, echo", ALL(echo), ALL(sent), ALL(received), FOUND(n, 0, n, bits, 0));
            expect(HERE, "no bits", ALL(echo), ALL(sent), ALL(sent), FOUND(n, 0, 0, 0, 0));
        }
    }
    for (size_t bits = 0; bits <= 16; bits++) {
        uint16_t word = (uint16_t)random_number(), other = with_changes(word, bits);
        EXPECT(TABLE(WORDS_2), NUMBERS(9, word), NUMBERS(9, other), FOUND(1, 0, 0, (uint32_t)bits, 0));
    }
}

/* Sheets. */

/* So many pairs of equal words, of which those from one up to another are changed, each in one bit. */
static void test_broken(size_t pairs, size_t from, size_t to, size_t k)
{
    static recording sent, received;
    static table echo;
    uint32_t broken = (uint32_t)(to - from);

    make_echo(&echo, k);
    sent.len = 0;
    for (size_t i = 0; i < pairs; i++)
        add_some(&sent, 10 * i + 4, k);
    received = sent;
    for (size_t i = from; i < to; i++)
        received.numbers[i * (k + 1) + 1 + below(k)] ^= (uint16_t)(1U << below(16));
    expect(HERE, "broken pairs", ALL(echo), ALL(sent), ALL(received),
           FOUND((uint32_t)pairs, 0, broken, broken, broken == 0 ? 0 : (uint32_t)(10 * from + 4)));
}

/* Tables that every pair meets, and tables that each breaks. */
static void test_always_and_never(void)
{
    static recording sent, received;

    make_rising(&sent, 30, 1);
    received = sent;
    for (size_t i = 0; i < 30; i++)
        received.numbers[2 * i + 1] = (uint16_t)random_number();
#define MET(...) \
    check(compare(HERE, "always", TABLE(__VA_ARGS__), ALL(sent), ALL(received)).free == 0, HERE, "a broken pair")
#define ALL_BROKEN(...) \
    check(compare(HERE, "never", TABLE(__VA_ARGS__), ALL(sent), ALL(received)).free == 30, HERE, "a pair that meets it")
    MET(WORDS_2);
    MET(WORDS_2, EQUATION(0, 0), EQUATION(1, 1));
    MET(WORDS_2, JOIN(0, 1), CUT(2, 31, 16), EQUATION(0, 3), CUT(2, 15, 0), EQUATION(5, 1));
    MET(FILL(0, 3), MARKER(0, 5), EQUATION(0, 1), WORDS_2);
    MET(WORDS_2, FILL(0, 4), JOIN(2, 0), EQUATION(3, 0));
    ALL_BROKEN(WORDS_2, FILL(0, 1), FILL(1, 1), EQUATION(2, 3));
    ALL_BROKEN(MARKER(1, 2), FILL(0, 9), EQUATION(0, 1), WORDS_2);
    ALL_BROKEN(WORDS_2, CUT(1, 0, 0), FILL(0, 1), FILL(1, 1), EQUATION(2, 3), EQUATION(4, 2));
    ALL_BROKEN(WORDS_2, EQUATION(0, 1), MARKER(0xace1, 16), MARKER(0xace0, 16), EQUATION(0, 3), EQUATION(1, 4));
    ALL_BROKEN(WORDS_2, FILL(1, 1), JOIN(2, 0), EQUATION(3, 0));
#undef MET
#undef ALL_BROKEN
}

static void test_sheets(void)
{
    for (size_t k = 1; k <= MOST_K; k *= 2)
        for (size_t pairs = 0; pairs <= 12; pairs++)
            for (size_t i = 0; i <= pairs; i++) {
                test_broken(pairs, i, pairs, k);                      /* the last ones, all of them, none */
                test_broken(pairs, i, i + 1 < pairs ? i + 1 : pairs, k); /* one alone */
                test_broken(pairs, 0, i, k);                          /* the first ones */
            }
    test_always_and_never();

    /* Sides of unequal width: the byte that was sent comes back in a word, and four bits above a word are 0. */
#define BYTE_BACK TABLE(WORDS_2, CUT(0, 7, 0), EQUATION(2, 1))
    EXPECT(BYTE_BACK, NUMBERS(1, 0x12ab, 2, 0x34cd, 3, 0xffff), NUMBERS(1, 0x00ab, 2, 0x01cd, 3, 0x00ff),
           FOUND(3, 0, 1, 2 + 4 + 8, 2));
#undef BYTE_BACK
#define NIBBLE_BACK TABLE(WORDS_2, CUT(1, 15, 12), EQUATION(0, 2))
    EXPECT(NIBBLE_BACK, NUMBERS(1, 0x000c, 2, 0x001c, 3, 0), NUMBERS(1, 0xcfff, 2, 0xc000, 3, 0x0fff),
           FOUND(3, 0, 1, 12 + 5 + 12, 2));
#undef NIBBLE_BACK
    EXPECT(TABLE(WORDS_2, MARKER(0x5, 4), EQUATION(2, 1)), NUMBERS(1, 5, 2, 5, 3, 5), NUMBERS(1, 5, 2, 0x15, 3, 0x8005),
           FOUND(3, 0, 2, 2, 2));
}

/* Revised equations: of each line the last one counts. */
static void test_revised(void)
{
    static table revised, counting;
    static recording sent, received;
    static const uint8_t bytes[] = {0, 0xff, 0x5a, 0xa5, 0x0f, 0xf0};

    sent.len = received.len = 0;
    for (size_t i = 0; i < 36; i++) {
        add_alike(&sent, 5 * i, (size_t)bytes[i / 6] << 8 | bytes[i % 6], 1);
        add_some(&received, 5 * i, 1);
    }
    for (size_t i = 0; i < REVISED_CASES; i++) {
        const revised_case *c = &revised_cases[i];
        make_revised(c, &revised, &counting);
        add_words(&revised, 1); /* the received word, of which nothing is said */
        add_words(&counting, 1);
        lw_record want = compare(HERE, c->name, ALL(counting), ALL(sent), ALL(received));
        expect(HERE, c->name, ALL(revised), ALL(sent), ALL(received), want);
        check(c->want.outcome == 0 ? want.free == 0 : c->want.outcome == 1 ? want.free == 36 : want.free != 0, HERE,
              "%s: %u of 36 pairs broken", c->name, want.free);
    }

    /* A word came back as it was sent; now with its bytes swapped, or with nothing asked of it. */
#define SWAPPED WORDS_2, CUT(0, 7, 0), CUT(0, 15, 8), JOIN(2, 3)
    EXPECT(TABLE(SWAPPED, LINE(0, 1, 7), LINE(4, 1, 7)), NUMBERS(1, 0x1234, 2, 0x1234), NUMBERS(1, 0x3412, 2, 0x1234),
           FOUND(2, 0, 1, 6, 2));
    EXPECT(TABLE(SWAPPED, LINE(4, 1, 7), LINE(0, 1, 7)), NUMBERS(1, 0x1234, 2, 0x1234), NUMBERS(1, 0x3412, 2, 0x1234),
           FOUND(2, 0, 1, 6, 1));
    EXPECT(TABLE(SWAPPED, LINE(0, 1, 7), LINE(4, 1, 8)), NUMBERS(1, 0x1234, 2, 0x1212), NUMBERS(1, 0x3412, 2, 0x1212),
           FOUND(2, 0, 1, 6, 1));
    EXPECT(TABLE(SWAPPED, LINE(0, 1, 65535), LINE(0, 0, 65535)), NUMBERS(1, 0x1234, 2, 0), NUMBERS(1, 0x3412, 2, 9),
           FOUND(2, 0, 0, 6 + 2, 0));
#undef SWAPPED
}

/* The longest recordings. */

/* So many records of words that tell their counter: every step-th counter from one on. */
static void make_long(recording *r, size_t records, size_t from, size_t step, size_t k)
{
    r->len = 0;
    for (size_t i = 0; i < records; i++)
        add_alike(r, from + i * step, (from + i * step) * 40503U, k);
}

static void test_long(void)
{
    static recording sent, received;
    static table echo;

    for (size_t k = 1; k <= MOST_K; k++) {
        size_t most = MOST / (k + 1), last = (most - 1) * (k + 1);
        uint32_t n = (uint32_t)most;
        make_echo(&echo, k);

        /* All paired; the last pair broken; the first too. */
        make_long(&sent, most, 0, 65535 / (most - 1), k);
        received = sent;
        call(HERE, "long, alike", ALL(echo), ALL(sent), ALL(received), FOUND(n, 0, 0, 0, 0));
        received.numbers[last + k] ^= 0x8001;
        call(HERE, "long, the last broken", ALL(echo), ALL(sent), ALL(received),
             FOUND(n, 0, 1, 2, sent.numbers[last]));
        received.numbers[1] ^= 0x8000;
        call(HERE, "long, first and last broken", ALL(echo), ALL(sent), ALL(received), FOUND(n, 0, 2, 3, 0));
        call(HERE, "long, all bits", ALL(echo), ALL(sent), EMPTY, FOUND(0, n, 0, 0, 0));

        /* None paired; every second paired. */
        make_long(&sent, most, 0, 2, k);
        make_long(&received, most, 1, 2, k);
        call(HERE, "long, none paired", ALL(echo), ALL(sent), ALL(received), FOUND(0, 2 * n, 0, 0, 0));
        make_long(&sent, most, 0, 1, k);
        make_long(&received, most, 0, 2, k);
        call(HERE, "long, every second paired", ALL(echo), ALL(sent), ALL(received),
             FOUND((n + 1) / 2, 2 * (n / 2), 0, 0, 0));

        /* All bits of all pairs. */
        received = sent;
        for (size_t i = 0; i < received.len; i++)
            if (i % (k + 1) != 0)
                received.numbers[i] ^= 0xffff;
        call(HERE, "long, all bits", ALL(echo), ALL(sent), ALL(received), FOUND(n, 0, n, (uint32_t)(16 * k) * n, 0));

        /* A record and a number more, on either side. */
        for (size_t more = 1; more <= k + 1; more += k) {
            call(HERE, "sent too long", ALL(echo), sent.numbers, sent.len + more, ALL(received), refused_47);
            call(HERE, "received too long", ALL(echo), ALL(sent), sent.numbers, sent.len + more, refused_47);
        }
    }
    for (size_t k = 1; k <= MOST_K; k *= 2) { /* records left out at random */
        size_t most = MOST / (k + 1);
        make_echo(&echo, k);
        sent.len = received.len = 0;
        for (size_t counter = 0; counter < 65536; counter++) {
            if (!one_in(k + 1) && sent.len < most * (k + 1))
                add_alike(&sent, counter, counter, k);
            if (!one_in(k + 1) && received.len < most * (k + 1))
                add_alike(&received, counter, one_in(9) ? random_number() : counter, k);
        }
        compare(HERE, "long, random", ALL(echo), ALL(sent), ALL(received));
    }
}

/* Refusals. */

/* Recordings for a table that is refused, whatever they are: good ones, and ones that break every rule. */
static void refuse(where at, const uint16_t *numbers, size_t len, uint32_t number, uint32_t row)
{
    static const uint16_t good[] = {1, 5, 2, 7, 4, 9}, falling[] = {4, 5, 2, 7, 2, 9, 1};
    lw_record want = {.outcome = number, .row = row};

    call(at, "refused, nothing lent", numbers, len, EMPTY, EMPTY, want);
    call(at, "refused", numbers, len, good, 6, good, 6, want);
    call(at, "refused, counters fall", numbers, len, falling, 6, falling, 6, want);
    call(at, "refused, not whole", numbers, len, falling, 7, falling, 5, want);
    call(at, "refused, too long", numbers, len, far_numbers(), 65536, far_numbers(), FAR, want);
}

static void test_table_refusals(void)
{
    refuse_one_by_one(refuse);
    refuse_two_at_once(refuse);
    refuse_beyond_maximum(refuse);
    refuse_too_long(refuse);
    check_far(HERE);
}

/* 47: no variable, an odd number of them, or one that has not 16 bits. */
static void test_variable_refusals(void)
{
    static const uint16_t widths[] = {1, 8, 15, 17, 32, 1008};
    table t;

#define REFUSE_47(...) refuse(HERE, TABLE(__VA_ARGS__), 47, 0)
    refuse(HERE, NULL, 0, 47, 0);
    REFUSE_47(FILL(1, 16));
    REFUSE_47(MARKER(0xace1, 16), FILL(0, 16), EQUATION(0, 1)); /* never */
    REFUSE_47(MARKER(0, 16), FILL(0, 16), EQUATION(0, 1));      /* always */
    for (size_t i = 0; i < COUNT(widths); i++) {
        REFUSE_47(VARIABLE(widths[i]));
        REFUSE_47(VARIABLE(16), VARIABLE(widths[i]));
        REFUSE_47(VARIABLE(widths[i]), VARIABLE(16));
        REFUSE_47(VARIABLE(widths[i]), VARIABLE(widths[i]));
        REFUSE_47(WORDS_2, FILL(0, 16), EQUATION(0, 2), VARIABLE(16), VARIABLE(widths[i]));
        REFUSE_47(WORDS_2, VARIABLE(widths[i]), FILL(0, 1), FILL(1, 1), EQUATION(3, 4)); /* never, and odd */
    }
    /* As many bits as two words have. */
    REFUSE_47(VARIABLE(15), VARIABLE(17));
    REFUSE_47(VARIABLE(32));
    REFUSE_47(VARIABLE(8), VARIABLE(8), VARIABLE(8), VARIABLE(8));
    REFUSE_47(VARIABLE(16), VARIABLE(15), VARIABLE(17), VARIABLE(16));
    /* Equations that do not count change nothing. */
    REFUSE_47(VARIABLE(16), LINE(0, 0, 4), LINE(0, 0, 4));
#undef REFUSE_47

    for (size_t count = 1; count <= 64; count++) {
        t.len = 0;
        add_words(&t, count);
        if (count % 2 != 0)
            refuse(HERE, ALL(t), 47, 0);
        else
            call(HERE, "even", ALL(t), EMPTY, EMPTY, FOUND(0, 0, 0, 0, 0));
        for (size_t v = 0; v < count; v++) { /* any one of them */
            t.numbers[4 * v + 1] = v % 2 == 0 ? 15 : 17;
            refuse(HERE, ALL(t), 47, 0);
            t.numbers[4 * v + 1] = WORD;
        }
    }

    /* A fault of the table behind such a variable is told first. */
    refuse(HERE, TABLE(VARIABLE(8), 6, 0, 0, 0), 12, 1);
    refuse(HERE, TABLE(VARIABLE(16), VARIABLE(16), VARIABLE(16), MARKER(4, 2)), 40, 3);
    refuse(HERE, TABLE(VARIABLE(16), 0), 11, 512);
    check_far(HERE);
}

/* 47: either recording too long, or not of whole records, beside one that is good, falls, or is that too. */
static void test_length_refusals(void)
{
    static recording good, falling;
    static table echo;

    for (size_t k = 1; k <= MOST_K; k++) {
        const size_t far_lens[] = {65536, 65536 + k, (MOST / (k + 1) + 1) * (k + 1), 65536 * (k + 1), FAR};
        make_echo(&echo, k);
        make_rising(&good, 5, k);
        falling = good;
        falling.numbers[3 * (k + 1)] = good.numbers[0];
        const recording *others[] = {&good, &falling};
        for (size_t o = 0; o < 2; o++) {
            const uint16_t *other = others[o]->numbers;
            for (size_t len = 1; len < 5 * (k + 1); len++)
                if (len % (k + 1) != 0) {
                    call(HERE, "sent not whole", ALL(echo), good.numbers, len, other, good.len, refused_47);
                    call(HERE, "received not whole", ALL(echo), other, good.len, good.numbers, len, refused_47);
                    call(HERE, "both not whole", ALL(echo), other, len, falling.numbers, len, refused_47);
                }
            for (size_t i = 0; i < COUNT(far_lens); i++) {
                call(HERE, "sent too long", ALL(echo), far_numbers(), far_lens[i], other, good.len, refused_47);
                call(HERE, "received too long", ALL(echo), other, good.len, far_numbers(), far_lens[i], refused_47);
            }
        }
        call(HERE, "both too long", ALL(echo), far_numbers(), 65536, far_numbers(), 65536, refused_47);
        call(HERE, "not whole, nothing sent", ALL(echo), EMPTY, good.numbers, k, refused_47);
        call(HERE, "not whole, nothing received", ALL(echo), good.numbers, k, EMPTY, refused_47);
        call(HERE, "falls, nothing sent", ALL(echo), EMPTY, ALL(falling), refused_48);
    }
    check_far(HERE);
}

/* 48: a counter of either side that is not above the one before it, wherever it stands. */
static void test_counter_refusals(void)
{
    static recording good, bad;
    static table echo;
    static const size_t counts[] = {2, 3, 7, 40};

    for (size_t k = 1; k <= MOST_K; k += k < 4 ? 1 : 7) {
        make_echo(&echo, k);
        for (size_t c = 0; c < COUNT(counts); c++)
            for (size_t i = 1; i < counts[c]; i++) {
                make_rising(&good, counts[c], k);
                uint16_t before = good.numbers[(i - 1) * (k + 1)];
                const size_t wrong[] = {before, before - 1U, 0};
                for (size_t w = 0; w < COUNT(wrong); w++) {
                    if (wrong[w] > before)
                        continue; /* below 0 */
                    bad = good;
                    bad.numbers[i * (k + 1)] = (uint16_t)wrong[w];
                    call(HERE, "sent falls", ALL(echo), ALL(bad), ALL(good), refused_48);
                    call(HERE, "received falls", ALL(echo), ALL(good), ALL(bad), refused_48);
                    call(HERE, "both fall", ALL(echo), ALL(bad), ALL(bad), refused_48);
                    call(HERE, "sent falls, nothing received", ALL(echo), ALL(bad), EMPTY, refused_48);
                    call(HERE, "received falls, nothing sent", ALL(echo), EMPTY, ALL(bad), refused_48);
                }
                call(HERE, "rises", ALL(echo), ALL(good), ALL(good), FOUND((uint32_t)counts[c], 0, 0, 0, 0));
            }
    }

    /* Round past 65535; whatever the sheet is, and at the end of the longest recording. */
    EXPECT(ECHO, NUMBERS(65534, 0, 65535, 0, 0, 0), EMPTY, refused_48);
    EXPECT(ECHO, NUMBERS(65535, 0, 65535, 0), EMPTY, refused_48);
    EXPECT(ECHO, NUMBERS(0, 7, 0, 7), NUMBERS(0, 7), refused_48);
    EXPECT(ECHO, NUMBERS(32768, 0, 32767, 0), NUMBERS(1, 1), refused_48);
    EXPECT(NEVER, NUMBERS(1, 1), NUMBERS(3, 1, 2, 1), refused_48);
    make_long(&good, 32767, 0, 2, 1);
    bad = good;
    bad.numbers[2 * 32766] = bad.numbers[2 * 32765];
    EXPECT(ECHO, ALL(bad), EMPTY, refused_48);
    EXPECT(ECHO, ALL(good), ALL(bad), refused_48);
}

/* One recording lent as both, recordings that overlap, and rows of the table lent as records. */
static void test_overlapping(void)
{
    static recording r;
    static table echo;
    static const uint16_t kinds[] = {
        VARIABLE(16), VARIABLE(16), VARIABLE(16), VARIABLE(16), VARIABLE(16), VARIABLE(16), FILL(0, 4), JOIN(6, 5),
        CUT(7, 15, 0), EQUATION(8, 5), MARKER(3, 2),
    };

    for (size_t k = 1; k <= MOST_K; k++) {
        make_echo(&echo, k);
        make_rising(&r, 9, k);
        guarded g = guard(r.numbers, r.len * sizeof *r.numbers);
        const uint16_t *from = guarded_buffer(&g);
        size_t size = k + 1;
        check_record(HERE, "one as both", lw_compare_recordings(ALL(echo), from, r.len, from, r.len),
                     FOUND(9, 0, 0, 0, 0));
        check_record(HERE, "overlapping", lw_compare_recordings(ALL(echo), from, 8 * size, from + 2 * size, 7 * size),
                     FOUND(6, 3, 0, 0, 0));
        check_record(HERE, "apart", lw_compare_recordings(ALL(echo), from + 5 * size, 4 * size, from, 5 * size),
                     FOUND(0, 9, 0, 0, 0));
        guard_check(&g, HERE, "one as both");
    }
    /* Rows 5 to 10 have the kinds 0 to 5 as counters. */
    guarded g = guard(kinds, sizeof kinds);
    const uint16_t *numbers = guarded_buffer(&g);
    check_record(HERE, "rows as records", lw_compare_recordings(numbers, 44, numbers + 20, 24, numbers + 20, 24),
                 FOUND(6, 0, 0, 0, 0));
    check_record(HERE, "rows as records", lw_compare_recordings(numbers, 44, numbers + 20, 24, numbers + 24, 4),
                 FOUND(1, 5, 0, 0, 0));
    guard_check(&g, HERE, "rows as records");
}

/* NULL with length 0, for each and for all. */
static void test_null(void)
{
    static const uint16_t sent[] = {1, 2};

#define NULLS(name, want, ...) check_record(HERE, name, lw_compare_recordings(__VA_ARGS__), want)
    NULLS("all NULL", refused_47, NULL, 0, NULL, 0, NULL, 0);
    NULLS("table NULL", refused_47, NULL, 0, sent, 2, sent, 2);
    NULLS("both NULL", FOUND(0, 0, 0, 0, 0), ECHO, NULL, 0, NULL, 0);
    NULLS("sent NULL", FOUND(0, 1, 0, 0, 0), ECHO, NULL, 0, sent, 2);
    NULLS("received NULL", FOUND(0, 1, 0, 0, 0), ECHO, sent, 2, NULL, 0);
    NULLS("sent NULL, not whole", refused_47, ECHO, NULL, 0, sent, 1);
#undef NULLS
}

const test_list tests = {
    .name = "recordings", .inputs = 20000,
    .groups = {
        {.name = "the header's constants", .run = test_constants},
        {.name = "worked by hand", .run = test_worked},
        {.name = "records of 1 to 32 words", .run = test_widths},
        {.name = "counters that interleave", .run = test_interleaved},
        {.name = "counters 0 to 65535", .run = test_counters},
        {.name = "differing bits", .run = test_bits},
        {.name = "sheets met and broken", .run = test_sheets},
        {.name = "revised equations", .run = test_revised},
        {.name = "the longest recordings", .run = test_long},
        {.name = "refusals 11 to 17, 40", .run = test_table_refusals},
        {.name = "refusal 47 of variables", .run = test_variable_refusals},
        {.name = "refusal 47 of recordings", .run = test_length_refusals},
        {.name = "refusal 48", .run = test_counter_refusals},
        {.name = "recordings that overlap", .run = test_overlapping},
        {.name = "NULL with length 0", .run = test_null},
        {.name = "random tables and recordings", .run_random = test_random},
    },
};
