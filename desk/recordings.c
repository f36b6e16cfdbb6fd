/* recordings.c -- recordings: what was sent and what was received, frame by frame */

#include "desk.h"

enum { ROOM = LW_MAX_RECORDING + 1 };

static sheet s;
static uint16_t sent[ROOM], received[ROOM];
static size_t sent_len, received_len;

/* The pattern of a pair: the words that were sent, and then those received, high bit first. */
static void pair_pattern(const uint16_t *a, const uint16_t *b, uint32_t k, uint8_t *pattern)
{
    for (uint32_t i = 0; i < 2 * k; i++) {
        unsigned word = i < k ? a[1 + i] : b[1 + i - k];
        for (unsigned bit = 16; bit-- != 0;)
            *pattern++ = word >> bit & 1;
    }
}

static void put_words(const char *what, const uint16_t *record, uint32_t k)
{
    put("    %s", what);
    for (uint32_t i = 1; i <= k; i++)
        put(" h%04x", record[i]);
    put("\n");
}

/* A pair that breaks the sheet: its counter, its words, the equations. */
static void put_broken_pair(const uint16_t *a, const uint16_t *b, uint32_t k, const uint8_t *pattern)
{
    static sides v;

    put("frame %u\n", a[0]);
    put_words("sent    ", a, k);
    put_words("received", b, k);
    for (uint32_t r = 0; r < s.rows; r++) {
        if (!counts(&s, r))
            continue;
        value_sides(&s, r, pattern, &v);
        if (v.same)
            continue;
        put("    ");
        put_broken(&s, r, &v);
    }
}

/* Writes the broken pairs, which are as many as the record says, the first at its row; YES or TROUBLE. */
static int put_list(lw_record told)
{
    static uint8_t pattern[LW_MAX_VARIABLE_BITS];
    uint32_t k = s.variables / 2, broken = 0, row;
    const uint16_t *a = sent, *b = received;
    bool first_is_there = true;

    while (a < sent + sent_len && b < received + received_len)
        if (*a != *b)
            *(*a < *b ? &a : &b) += k + 1;
        else {
            pair_pattern(a, b, k, pattern);
            if (!meets(&s, pattern, &row)) {
                if (broken++ == 0)
                    first_is_there = *a == told.row;
                put_broken_pair(a, b, k, pattern);
            }
            a += k + 1, b += k + 1;
        }
    if (broken != told.free || !first_is_there)
        return internal_error("the list of broken pairs is not as the record says");
    return YES;
}

static int load_all(const arguments *given)
{
    bool big = given->value[BIG] != NULL;
    int status = load(given->word[0], &s);

    if (status == YES)
        status = load_words(given->word[1], big, LW_MAX_RECORDING, sent, &sent_len);
    if (status == YES)
        status = load_words(given->word[2], big, LW_MAX_RECORDING, received, &received_len);
    if (status == YES && s.solved.outcome > LW_SOLVED)
        status = tell_refusal(s.name, s.solved);
    return status;
}

/* Whether the counters of a recording rise. */
static bool rises(const uint16_t *numbers, size_t len, uint32_t k)
{
    for (size_t i = k + 1; i < len; i += k + 1)
        if (numbers[i] <= numbers[i - (k + 1)])
            return false;
    return true;
}

/* Which file a refusal is about. */
static const char *refused_file(const arguments *given, lw_record r)
{
    uint32_t k = s.variables / 2, all = s.variables;

    if (r.outcome == LW_REFUSED_COUNTERS)
        return rises(sent, sent_len, k) ? given->word[2] : given->word[1];
    for (uint32_t v = 0; v < s.variables; v++)
        all -= s.width[v] == 16;
    if (r.outcome != LW_REFUSED_RECORDING || s.variables == 0 || s.variables % 2 != 0 || all != 0)
        return s.name;
    return sent_len > LW_MAX_RECORDING || sent_len % (k + 1) != 0 ? given->word[1] : given->word[2];
}

static int run(const arguments *given)
{
    lw_record r;
    int status = load_all(given);

    if (status != YES)
        return status;
    r = lw_compare_recordings(s.table, ROW * s.rows, sent, sent_len, received, received_len);
    if (r.outcome != LW_ACCEPTED)
        return tell_refusal(refused_file(given, r), r);
    put("frames in both recordings: %" PRIu32 "\n", r.pieces);
    put("frames in one of them only: %" PRIu32 "\n", r.fresh);
    put("frames that break the sheet: %" PRIu32, r.free);
    if (r.free != 0)
        put(", the first has counter %" PRIu32, r.row);
    put("\nbits that differ: %" PRIu32 "\n", r.ties);
    if (given->value[LIST] != NULL)
        status = put_list(r);
    return status != YES ? status : r.free == 0 ? YES : NO;
}

const command recordings_command = {
    .name = "recordings", .synopsis = "[--list] [--big] SHEET SENT RECEIVED", .options = 1U << LIST | 1U << BIG,
    .least = 3, .most = 3, .run = run,
    .help = "Compares two recordings by a sheet of k variables for the words as sent and k as\n"
            "received, all of 16 bits: the frames that both have, that one has alone, that break\n"
            "the sheet, and the bits that differ. A recording is a file of 16-bit numbers, low\n"
            "byte first, or with --big high byte first: for each frame its counter, which rises,\n"
            "and k words. --list prints each frame that breaks the sheet, with its words and the\n"
            "equations that it breaks.\n"
            "Exit status: 0 if no frame breaks the sheet, 1 if one does, 2 if something is refused.\n"};
