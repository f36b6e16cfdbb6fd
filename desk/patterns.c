/*
  patterns.c -- patterns: the patterns that meet a sheet, the first of them, one
  for given fresh bits, or some drawn at random

  Each pattern comes from exactly one choice of the fresh bits. So if each fresh
  bit is drawn by itself, each pattern is equally likely.
*/

#include <string.h>

#include "desk.h"

static sheet s;
static uint8_t fresh[LW_MAX_VARIABLE_BITS], pattern[LW_MAX_VARIABLE_BITS];

/* splitmix64 (Steele, Lea, Flood 2014): the same numbers for the same seed on every machine. */
static uint64_t seed;

static uint64_t random_number(void)
{
    uint64_t z = seed += 0x9E3779B97F4A7C15;
    z = (z ^ (z >> 30)) * 0xBF58476D1CE4E5B9;
    z = (z ^ (z >> 27)) * 0x94D049BB133111EB;
    return z ^ (z >> 31);
}

/* A number up to 2^64 - 1, which stands for no greater one. */
static bool read_seed(const char *text)
{
    const char *digits = text + strspn(text, "0");
    size_t len = strlen(digits);

    return read_number(text, UINT64_MAX, &seed) && (len < 20 || (len == 20 && strcmp(digits, "18446744073709551615") <= 0));
}

static void draw_fresh(void)
{
    uint64_t bits = 0;

    for (uint32_t i = 0; i < s.solved.free; i++, bits >>= 1) {
        if (i % 64 == 0)
            bits = random_number();
        fresh[i] = bits & 1;
    }
}

/* The next fresh bits, counting up; false behind the last. */
static bool next_fresh(void)
{
    for (uint32_t i = s.solved.free; i-- != 0;) {
        fresh[i] ^= 1;
        if (fresh[i] == 1)
            return true;
    }
    return false;
}

/* One line; what was put goes out now and then, since the lines may be many. */
static int put_made(void)
{
    size_t len;

    if (!make_pattern(&s, fresh, pattern))
        return internal_error("lw_make_pattern refuses the sheet's own answer");
    put_pattern(&s, pattern);
    output_text(&len);
    return len < 1 << 20 ? YES : give_output();
}

/* The first patterns, or with a seed as many drawn. */
static int put_all(bool drawn, uint64_t most)
{
    for (uint32_t i = 0; i < s.solved.free; i++)
        fresh[i] = 0;
    for (uint64_t i = 0; i < most; i++) {
        if (drawn)
            draw_fresh();
        int status = put_made();
        if (status != YES)
            return status;
        if (!drawn && !next_fresh())
            break;
    }
    return YES;
}

static int put_one(const char *text)
{
    size_t count = read_bits(text, s.solved.free, fresh);

    if (count == s.solved.free)
        return put_made();
    if (count == s.solved.free + 2)
        return trouble(s.name, "%s is no text of fresh bits", text);
    return trouble(s.name, "there are %s fresh bits than %" PRIu32, count > s.solved.free ? "more" : "fewer", s.solved.free);
}

static int run(const arguments *given)
{
    const char *most_text = given->value[MOST], *seed_text = given->value[RANDOM];
    uint64_t most = 64;
    int status;

    if (most_text != NULL && !read_number(most_text, UINT64_MAX, &most))
        return trouble(most_text, "is no number of patterns");
    if (seed_text != NULL && !read_seed(seed_text))
        return trouble(seed_text, "is no seed: a number up to 2^64 - 1 is");
    if (given->value[FRESH] != NULL && (seed_text != NULL || most_text != NULL))
        return trouble("--fresh", "goes neither with --most nor with --random");
    status = load_accepted(given->words == 0 ? NULL : given->word[0], &s);
    if (status != YES)
        return status;
    if (s.solved.outcome == LW_NEVER) {
        put("no pattern: none is left at row %" PRIu32 "\n", s.solved.row);
        return NO;
    }
    if (given->value[FRESH] != NULL)
        return put_one(given->value[FRESH]);
    if (seed_text == NULL)
        put("2^%" PRIu32 " patterns\n", s.solved.free);
    return put_all(seed_text != NULL, most);
}

const command patterns_command = {
    .name = "patterns", .synopsis = "[--most N] [--fresh BITS | --random SEED] [FILE]",
    .options = 1U << MOST | 1U << FRESH | 1U << RANDOM, .most = 1, .run = run,
    .help = "Prints how many patterns meet the sheet and then the first 64, or N, one a line:\n"
            "the variables one behind the other, each high bit first, in the order of their\n"
            "fresh bits. --fresh prints the one that these fresh bits give; --random prints 64,\n"
            "or N, drawn anew, each pattern equally likely, the same for the same seed.\n"
            "Exit status: 0 if some pattern meets the sheet, 1 if none does, 2 if it is refused.\n"};
