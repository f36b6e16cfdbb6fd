/*
  test_positions_random.c -- random tables on random runs: see test_positions.c

  The equations of a table mostly hold under a hidden window, so that some words
  meet it. A run is put together of windows that meet the table, of these with a
  bit changed, of words that came before, and of others. So starts are neither
  rare nor all there are.
*/

#include "test_positions.h"

enum { MOST_WORDS = 700 /* of a random run */, WORK = 5000 /* rows and words to be looked at by the plain search */ };

/* What occurs in the random cases; each has to. */
enum {
    NO_WORDS, SHORT_RUN, ONE_WINDOW, NONE_FOUND, SOME_FOUND, ALL_FOUND, OVERLAPPING, LIST_EMPTY, LIST_SHORT, LIST_EXACT,
    LIST_LONG, FEWER_IF_ALL, NONE_IF_ALL, FEATURES
};
static const char *const features[FEATURES] = {
    "no words", "a run shorter than the window", "a run of one window", "no start", "some starts", "every start",
    "starts that overlap", "an empty list", "a list too short", "a list of just the starts", "a list longer than that",
    "fewer starts if all equations counted", "starts, and none if all equations counted",
};
static unsigned long seen[FEATURES], outcomes[43], windows[WINDOW + 1];

/* A table of 16-bit variables. */

static size_t some_window(void)
{
    return 1 + below(one_in(12) ? WINDOW : one_in(3) ? 16 : 4);
}

/* Something that is refused, mostly. */
static void spoil(draft *d)
{
    static const size_t widths[] = {1, 8, 15, 17, 32, 300};
    size_t other = widths[below(6)];

    if (one_in(16))
        while (d->variables <= WINDOW && d->rows < 500)
            add_row(d, WORD, VARIABLE(WORD)); /* one too many */
    else if (one_in(12))
        clear(d); /* no variable is left */
    else if (one_in(4) && d->variables < WINDOW && d->rows < 500)
        add_row(d, other, VARIABLE(other));
    for (size_t i = one_in(2) ? 0 : 1 + below(2); i != 0; i--)
        damage(d, some_refusal(11));
}

/* Words. */

/* The next words of a run, which has so many already. Gives how many are added, at most a window. */
static size_t add_some(const solved_table *solved, size_t window, uint16_t *words, size_t len)
{
    uint16_t *at = words + len;
    size_t count = 1 + below(window), from;

    switch (below(8)) {
    case 0: /* words as they come */
        for (size_t i = 0; i < count; i++)
            at[i] = (uint16_t)random_number();
        return count;
    case 1: /* alike */
        at[0] = (uint16_t)(one_in(2) || len == 0 ? 0xffff * below(2) : words[below(len)]);
        for (size_t i = 1; i < count; i++)
            at[i] = at[0];
        return count;
    case 2: /* again */
    case 3:
        if (len < count)
            break;
        from = one_in(2) ? len - count : below(len - count + 1);
        memmove(at, words + from, count * sizeof *at);
        return count;
    default:
        break;
    }
    meeting_words(solved, at);
    if (one_in(3))
        at[below(window)] ^= (uint16_t)(1U << below(WORD));
    return one_in(6) ? count : window;
}

static size_t make_run(const draft *d, size_t window, uint16_t *words)
{
    static solved_table solved;
    size_t most = window + WORK / (d->rows + 4 * window), len = 0;
    size_t wanted = one_in(8) ? below(window + 2) : one_in(20) ? window : window + below(most - window + 1);

    solve_plainly(ALL(d->t), &solved);
    while (len < wanted)
        len += add_some(&solved, window, words, len);
    return wanted;
}

/* Cases. */

static void note(size_t window, size_t words_len, lw_record want, const uint32_t *list, size_t list_len)
{
    size_t starts = words_len < window ? 0 : words_len - window + 1, found = want.pieces;

    windows[window]++;
    seen[NO_WORDS] += words_len == 0;
    seen[SHORT_RUN] += words_len < window;
    seen[ONE_WINDOW] += starts == 1;
    seen[NONE_FOUND] += found == 0 && starts != 0;
    seen[SOME_FOUND] += found != 0 && found < starts;
    seen[ALL_FOUND] += found > 1 && found == starts;
    for (size_t i = 1; i < found; i++)
        if (list[i] - list[i - 1] < window) {
            seen[OVERLAPPING]++;
            break;
        }
    seen[LIST_EMPTY] += list_len == 0 && found != 0;
    seen[LIST_SHORT] += list_len != 0 && list_len < found;
    seen[LIST_EXACT] += list_len == found && found != 0;
    seen[LIST_LONG] += list_len > found;
}

/* What would be found if no equation had a line number. */
static void note_lines(const table *t, const uint16_t *words, size_t words_len, lw_record want)
{
    static table all;

    all = *t;
    for (size_t i = 0; i < t->len; i += 4)
        if (t->numbers[i] == LW_EQUATION)
            all.numbers[i + 3] = 0;
    size_t found = plain_positions(ALL(all), words, words_len, NULL, 0).pieces;
    seen[FEWER_IF_ALL] += found != 0 && found < want.pieces;
    seen[NONE_IF_ALL] += found == 0 && want.pieces != 0;
}

static void test_case(unsigned long number)
{
    static plan p;
    static uint16_t words[MOST_WORDS + WORK + 2 * WINDOW];
    size_t window = some_window();
    char name[64];

    make_windowed(&p, window);
    size_t len = make_run(&p.d, window, words);
    const uint16_t *run = words;
    if (one_in(10))
        spoil(&p.d);
    if (one_in(200)) {
        run = long_run();
        len = RUN + 1 + below(64);
    }
    lw_record want;
    const uint32_t *list = plain_list(ALL(p.d.t), run, len, &want);
    size_t found = want.pieces, room = found + below(4);
    if (one_in(2))
        room = one_in(3) ? 0 : one_in(2) ? below(found + 1) : found + below(70);
    snprintf(name, sizeof name, "random case %lu", number);
    call(HERE, name, ALL(p.d.t), run, len, room, want, list);
    outcomes[want.outcome]++;
    if (want.outcome != 0)
        return;
    note(window, len, want, list, room);
    if (number % 4 == 0)
        note_lines(&p.d.t, run, len, want);
}

void test_random(unsigned long cases)
{
    static const uint32_t all[] = {0, 11, 12, 13, 14, 15, 40, 16, 17, 41, 42};

    for (unsigned long i = 0; i < cases; i++)
        test_case(i);
    check_long_run(HERE);
    printf("%lu random cases:", cases);
    for (size_t i = 0; i < COUNT(all); i++)
        printf(" %s%u %lu", i == 0 ? "outcome " : "", all[i], outcomes[all[i]]);
    printf("\n");
    for (size_t i = 0; i < COUNT(all); i++)
        check(outcomes[all[i]] != 0, HERE, "no random case has outcome %u", all[i]);
    for (size_t i = 0; i < FEATURES; i++) {
        printf("%-42s %lu cases\n", features[i], seen[i]);
        check(seen[i] != 0, HERE, "no random case has %s", features[i]);
    }
    for (size_t k = 1; k <= WINDOW; k++)
        check(windows[k] != 0, HERE, "no random case has a window of %zu words", k);
}
