/*
  test_recordings_random.c -- random tables on random recordings: see
  test_recordings.c

  The equations of a table mostly hold under a hidden pattern, so that some words
  meet it. The words of a frame that both recordings have mostly meet it too, often
  with a bit changed behind that; so pairs that break it are neither rare nor all
  there are.
*/

#include "test_recordings.h"

enum { WORK = 6000 /* rows and words to be looked at by the plain comparison */ };

/* What occurs in the random cases; each has to. */
enum {
    NOTHING_SENT, NOTHING_RECEIVED, NO_PAIR, SOME_PAIRS, ALL_PAIRS, NONE_BROKEN, SOME_BROKEN, ALL_BROKEN, LAST_BROKEN,
    BROKEN_AT_0, COUNTER_65535, MET_AND_DIFFERS, BROKEN_AND_EQUAL, OTHERS_IF_EXCHANGED, MORE_IF_ALL, WIDTHS, LONG_SENT,
    LONG_RECEIVED, PART_SENT, PART_RECEIVED, FALLS_SENT, FALLS_RECEIVED, FALLS_BEHIND_47, FEATURES
};
static const char *const features[FEATURES] = {
    "nothing sent", "nothing received", "no pair", "some pairs", "every record in a pair", "no pair broken",
    "some pairs broken", "every pair broken", "the last pair broken alone", "the first broken pair at counter 0",
    "a pair at counter 65535", "a pair that meets its sheet and differs", "a broken pair of equal words",
    "other broken pairs with the sides exchanged", "more broken pairs if all equations counted",
    "refused 47 for variables", "sent too long", "received too long", "sent not whole", "received not whole",
    "sent not rising", "received not rising", "47 with 48 behind it",
};
static unsigned long seen[FEATURES], outcomes[49], widths[MOST_K + 1];

/* Tables. */

static size_t some_k(void)
{
    return 1 + below(one_in(12) ? MOST_K : one_in(3) ? 8 : 3);
}

/* A table of 2 k words, in which sides of unequal width are not rare; now and then some words come back. */
static void make_sheet(plan *p, size_t k)
{
    make_windowed(p, 2 * k);
    if (one_in(4))
        plan_short(p, true, one_in(2));
    if (p->d.equations >= 30 || !one_in(4))
        return;
    size_t row = some_row(&p->d, LW_VARIABLE, LW_VARIABLE), other = some_row(&p->d, LW_VARIABLE, LW_VARIABLE);
    add_row(&p->d, 0, EQUATION(row, other));
}

/* Something that is refused, mostly. */
static void spoil(draft *d)
{
    static const size_t others[] = {1, 8, 15, 17, 32, 300};
    size_t other = others[below(6)];

    if (one_in(16))
        while (d->variables <= WINDOW && d->rows < 500)
            add_row(d, WORD, VARIABLE(WORD)); /* one too many */
    else if (one_in(12))
        clear(d); /* no variable is left */
    else if (one_in(3) && d->variables < WINDOW && d->rows < 500)
        add_row(d, WORD, VARIABLE(WORD)); /* an odd number of them */
    else if (one_in(3) && d->variables + 1 < WINDOW && d->rows < 500) {
        add_row(d, WORD, VARIABLE(WORD));
        add_row(d, other, VARIABLE(other));
    }
    for (size_t i = one_in(2) ? 0 : 1 + below(2); i != 0; i--)
        damage(d, some_refusal(11));
}

/* Recordings. */

/* The words of a frame, as they were sent and as they were received. */
static void make_words(const solved_table *solved, size_t k, uint16_t words[WINDOW])
{
    size_t changes = one_in(2) ? 0 : one_in(2) ? 1 : below(6);

    meeting_words(solved, words);
    if (one_in(12))
        memcpy(words + k, words, k * sizeof *words); /* what was sent, whatever the sheet asks */
    for (; changes != 0; changes--)
        words[below(2 * k)] ^= (uint16_t)(1U << below(WORD));
}

/* Both recordings, frame by frame. Some of the frames are recorded by both, and some by one alone. */
static void make_recordings(const draft *d, size_t k, recording *sent, recording *received)
{
    static solved_table solved;
    size_t most = 1 + WORK / (d->rows + 4 * k), frames = one_in(20) ? 0 : below(one_in(3) ? most : 12);
    size_t widest = one_in(2) ? 1 : 1 + below(60000 / (frames + 1)), counter = one_in(2) ? 0 : below(5000);
    size_t missed_sent = below(4), missed_received = below(4); /* so many of 4 */
    uint16_t words[WINDOW];

    if (one_in(3))
        missed_sent = missed_received = one_in(3) ? 1 : 0;
    else if (one_in(20))
        *(one_in(2) ? &missed_sent : &missed_received) = 4;
    if (one_in(20))
        counter = 65536 - frames, widest = 1;
    solve_plainly(ALL(d->t), &solved);
    sent->len = received->len = 0;
    for (size_t i = 0; i < frames && counter < 65536; i++, counter += 1 + below(widest)) {
        make_words(&solved, k, words);
        if (below(4) >= missed_sent)
            add_record(sent, counter, words, k);
        if (below(4) >= missed_received)
            add_record(received, counter, words + k, k);
    }
}

/* A counter becomes one that is not above the one before it; or a number is taken off or added. */
static void spoil_recording(recording *r, size_t k)
{
    size_t records = r->len / (k + 1);

    if (one_in(3))
        r->len = r->len == 0 || one_in(2) ? r->len + 1 + below(k + 2) : r->len - 1;
    else if (records > 1) {
        size_t i = 1 + below(records - 1);
        uint16_t before = r->numbers[(i - 1) * (k + 1)];
        r->numbers[i * (k + 1)] = (uint16_t)(one_in(2) ? before : below((size_t)before + 1));
    }
}

/* Cases. */

/* Whether a counter of its whole records is not above the one before it. */
static bool falls(const recording *r, size_t k)
{
    for (size_t i = k + 1; i < r->len; i += k + 1)
        if (r->numbers[i] <= r->numbers[i - k - 1])
            return true;
    return false;
}

static void note_refusal(const recording *sent, const recording *received, size_t k, bool wide, lw_record want)
{
    if (want.outcome == 47) {
        bool part = sent->len % (k + 1) != 0 || received->len % (k + 1) != 0;
        seen[WIDTHS] += wide;
        seen[PART_SENT] += !wide && sent->len % (k + 1) != 0;
        seen[PART_RECEIVED] += !wide && received->len % (k + 1) != 0;
        seen[FALLS_BEHIND_47] += !wide && part && (falls(sent, k) || falls(received, k));
    } else if (want.outcome == 48) {
        seen[FALLS_SENT] += falls(sent, k) && !falls(received, k);
        seen[FALLS_RECEIVED] += falls(received, k) && !falls(sent, k);
    }
}

static void note(const recording *sent, const recording *received, size_t k, lw_record want)
{
    const uint16_t *last = sent->numbers + sent->len - (sent->len == 0 ? 0 : k + 1);

    widths[k]++;
    seen[NOTHING_SENT] += sent->len == 0;
    seen[NOTHING_RECEIVED] += received->len == 0;
    seen[NO_PAIR] += want.pieces == 0 && sent->len != 0 && received->len != 0;
    seen[SOME_PAIRS] += want.pieces != 0 && want.fresh != 0;
    seen[ALL_PAIRS] += want.pieces > 1 && want.fresh == 0;
    seen[NONE_BROKEN] += want.pieces != 0 && want.free == 0;
    seen[SOME_BROKEN] += want.free != 0 && want.free < want.pieces;
    seen[ALL_BROKEN] += want.free > 1 && want.free == want.pieces;
    seen[LAST_BROKEN] += want.pieces > 1 && want.free == 1 && want.row == *last;
    seen[BROKEN_AT_0] += want.free > 1 && want.row == 0;
    seen[COUNTER_65535] += want.fresh == 0 && want.pieces != 0 && *last == 65535;
    seen[MET_AND_DIFFERS] += want.ties != 0 && want.free == 0;
    seen[BROKEN_AND_EQUAL] += want.ties == 0 && want.free != 0;
}

/* What would be found with the sides exchanged, and if no equation had a line number. */
static void note_others(const table *t, const recording *sent, const recording *received, lw_record want)
{
    static table all;

    all = *t;
    for (size_t i = 0; i < t->len; i += 4)
        if (t->numbers[i] == LW_EQUATION)
            all.numbers[i + 3] = 0;
    seen[OTHERS_IF_EXCHANGED] += plain_compare_recordings(ALL(*t), ALL(*received), ALL(*sent)).free != want.free;
    seen[MORE_IF_ALL] += plain_compare_recordings(ALL(all), ALL(*sent), ALL(*received)).free > want.free;
}

static void test_case(unsigned long number)
{
    static plan p;
    static recording sent, received;
    size_t k = some_k();
    char name[64];

    make_sheet(&p, k);
    make_recordings(&p.d, k, &sent, &received);
    bool wide = one_in(10);
    if (wide)
        spoil(&p.d);
    if (one_in(10))
        spoil_recording(&sent, k);
    if (one_in(10))
        spoil_recording(&received, k);
    snprintf(name, sizeof name, "random case %lu", number);
    if (one_in(200)) { /* a recording that is too long, and whole */
        size_t len = (MOST / (k + 1) + 1 + below(9)) * (k + 1);
        bool of_sent = one_in(2);
        compare(HERE, name, ALL(p.d.t), of_sent ? far_numbers() : sent.numbers, of_sent ? len : sent.len,
                of_sent ? received.numbers : far_numbers(), of_sent ? received.len : len);
        seen[of_sent ? LONG_SENT : LONG_RECEIVED]++;
        return;
    }
    lw_record want = compare(HERE, name, ALL(p.d.t), ALL(sent), ALL(received));
    outcomes[want.outcome]++;
    if (want.outcome != 0) {
        note_refusal(&sent, &received, k, wide, want);
        return;
    }
    note(&sent, &received, k, want);
    if (number % 4 == 0)
        note_others(&p.d.t, &sent, &received, want);
}

void test_random(unsigned long cases)
{
    static const uint32_t all[] = {0, 11, 12, 13, 14, 15, 40, 16, 17, 47, 48};

    for (unsigned long i = 0; i < cases; i++)
        test_case(i);
    check_far(HERE);
    printf("%lu random cases:", cases);
    for (size_t i = 0; i < COUNT(all); i++)
        printf(" %s%u %lu", i == 0 ? "outcome " : "", all[i], outcomes[all[i]]);
    printf("\n");
    for (size_t i = 0; i < COUNT(all); i++)
        check(outcomes[all[i]] != 0, HERE, "no random case has outcome %u", all[i]);
    for (size_t i = 0; i < FEATURES; i++) {
        printf("%-43s %lu cases\n", features[i], seen[i]);
        check(seen[i] != 0, HERE, "no random case has %s", features[i]);
    }
    for (size_t k = 1; k <= MOST_K; k++)
        check(widths[k] != 0, HERE, "no random case has records of %zu words", k);
}
