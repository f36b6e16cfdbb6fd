/*
  test_pattern_random.c -- lw_make_pattern on random answer tables: see
  test_pattern.c

  For a random answer table of the form a table is made that its patterns meet,
  where it has not too many rows. With it are lent its own answer, the answer
  table that it was made for, which mostly is no table's answer, the answer of a
  table before, or one of these with a number changed. The library is compared
  with the plain pattern maker (plain_pattern.c).
*/

#include "plain_solver.h"
#include "test_pattern.h"

/* Which fresh pieces there are, so that the next row keeps to the form. */
typedef struct {
    answer_table a;
    size_t bits, pieces, width[BITS]; /* of each fresh piece: its width */
} answer_draft;

/* A fresh piece of at most so many bits, often the last one; NONE_SEEN if none is found. */
enum { NONE_SEEN = BITS };

static size_t seen_piece(const answer_draft *d, size_t most)
{
    for (int i = 0; i < 6 && d->pieces != 0; i++) {
        size_t number = one_in(3) ? d->pieces - 1 : below(d->pieces);
        if (d->width[number] <= most)
            return number;
    }
    return NONE_SEEN;
}

/* The rows of one variable, of so many bits together. One in so many rows is a fill, or a fresh piece seen before. */
static void add_right_side(answer_draft *d, size_t variable, size_t bits, size_t widest, size_t fills, size_t again)
{
    size_t last = 2; /* the kind of the row before in this variable */

    while (bits != 0) {
        size_t width = 1 + below(bits < widest ? bits : widest), number = NONE_SEEN;
        if (one_in(fills)) {
            last = last == 2 ? below(2) : 1 - last;
            put_six(&d->a, variable, last, width, 0);
        } else {
            if (one_in(again))
                number = seen_piece(d, bits);
            if (number == NONE_SEEN) {
                number = d->pieces++;
                d->width[number] = width;
            }
            width = d->width[number];
            last = 2;
            put_six(&d->a, FRESH(variable, width, number));
        }
        bits -= width;
        d->bits += width;
    }
}

/* An answer table of the form. */
static void make_answer(answer_draft *d)
{
    static const size_t widths[] = {1, 2, 5, 40, 300, 1024}, shares[] = {1, 2, 2, 4, 20, 1000000};
    size_t widest = widths[below(6)], fills = shares[below(6)], again = shares[below(6)];
    size_t variables = one_in(60) ? 0 : one_in(5) ? 64 : 1 + below(one_in(2) ? 4 : 64);
    size_t each = one_in(12) ? 1024 : one_in(8) ? 64 : 0; /* bits of each variable; any if 0 */
    size_t most = one_in(6) ? 1024 : one_in(2) ? 12 : 3;

    d->a.len = d->bits = d->pieces = 0;
    for (size_t v = 0; v < variables && d->bits < BITS; v++) {
        size_t bits = each != 0 ? each : one_in(40) ? 1024 : 1 + below(most), room = BITS - d->bits;
        add_right_side(d, v, bits < room ? bits : room, widest, fills, again);
    }
    close_rows(&d->a);
}

/*
  Changes one number, or the length by fewer than a row. Homes and highs are then
  those of the changed rows in half of the tables, so that it alone is wrong.
*/
static void change_number(answer_table *a)
{
    size_t rows = a->len / 6, r, column;
    if (rows == 0 || one_in(16)) {
        put_six(a, one_in(2) ? 0 : 63, below(3), 1, below(2)); /* one to five numbers of a row more */
        a->len -= 1 + below(5);
        return;
    }
    r = one_in(4) ? rows - 1 : one_in(4) ? 0 : below(rows);
    column = below(6);
    uint16_t *n = a->numbers + 6 * r + column;
    switch (below(6)) {
    case 0:  *n = (uint16_t)(*n + 1U); break;
    case 1:  *n = (uint16_t)(*n - 1U); break;
    case 2:  *n = a->numbers[6 * below(rows) + column]; break;
    case 3:  *n = (uint16_t)below(4); break;
    case 4:  *n = (uint16_t)(*n + 256 * (1 + below(255))); break;
    default: *n = (uint16_t)below(65536); break;
    }
    if (column < 4 && one_in(2))
        close_rows(a);
}

/* Takes a row's last two numbers, home and high, from another row, or exchanges them. */
static void change_home(answer_table *a)
{
    size_t rows = a->len / 6;
    if (rows == 0)
        return;
    uint16_t *n = a->numbers + 6 * below(rows), *other = a->numbers + 6 * below(rows), home = n[4];
    if (one_in(4)) {
        n[4] = n[5];
        n[5] = home;
    } else {
        memcpy(n + 4, other + 4, 2 * sizeof *n);
    }
}

static void damage_answer(answer_table *a)
{
    if (one_in(8))
        change_home(a);
    else
        change_number(a);
}

/* What occurs in the answer tables that are accepted, and in those refused 46. */
enum {
    EMPTY, ALL_OF_WIDTH_1, COULD_BE_ONE, ONLY_46,
    ONE_ROW = ONLY_46, VARIABLE_63, FULL_VARIABLE, FULL_TABLE, NO_FRESH, NO_FILLS, ONE_FRESH_FOR_ALL, FILLS_BESIDE,
    FILLS_OVER_END, TWICE_IN_A_ROW, TWICE_IN_ONE, TWICE_IN_TWO, WIDE_TWICE, OLD_BEFORE_NEW, OUTPUT_EXACT, OUTPUT_LONGER,
    FEATURES
};

static const char *const feature_names[FEATURES] = {
    "no rows", "over 1000 rows, each of width 1", "fresh pieces that could be one", "one row", "variable 63",
    "1024 in a variable", "4096 in all", "no fresh pieces", "no fills", "one fresh piece, in every variable of several",
    "neighbouring fills of 0 and 1", "fills of one bit on both sides of a variable's end", "a fresh piece twice in a row",
    "a fresh piece twice in one variable, not in a row", "a fresh piece in two variables",
    "a fresh piece wider than 1 that appears twice", "a new fresh piece behind one seen before",
    "output as long as the pattern", "output longer than the pattern",
};

/* Whether two fresh pieces stand in one variable, the second directly behind the first, wherever either stands. */
static bool could_be_one(const uint16_t *answer, size_t rows, size_t first, size_t second)
{
    for (size_t r = 0; r < rows; r++) {
        const uint16_t *n = answer + 6 * r, *next = n + 6, *before = n - 6;
        if (n[1] != LW_FRESH)
            continue;
        if (n[3] == first && !(r + 1 < rows && next[0] == n[0] && next[1] == LW_FRESH && next[3] == second))
            return false;
        if (n[3] == second && !(r != 0 && before[0] == n[0] && before[1] == LW_FRESH && before[3] == first))
            return false;
    }
    return true;
}

static void note_features(const uint16_t *answer, size_t rows, bool has[FEATURES])
{
    static size_t last_row[BITS]; /* of each fresh piece seen: its last row so far */
    size_t seen = 0, bits = 0, own = 0, fills = 0, of_width_1 = 0;
    size_t variables = rows == 0 ? 0 : answer[6 * rows - 6] + 1U;
    bool old = false, compared = false;

    for (size_t r = 0; r < rows; r++) {
        const uint16_t *n = answer + 6 * r, *above = r == 0 ? n : n - 6;
        bool stays = r != 0 && above[0] == n[0], fresh = n[1] == LW_FRESH;
        bits += n[2];
        own = stays ? own + n[2] : n[2];
        of_width_1 += n[2] == 1;
        fills += !fresh;
        has[VARIABLE_63] |= n[0] == 63;
        has[FULL_VARIABLE] |= own == 1024;
        has[FILLS_BESIDE] |= stays && !fresh && above[1] != LW_FRESH;
        has[FILLS_OVER_END] |= r != 0 && !stays && !fresh && above[1] == n[1];
        if (fresh && n[3] == seen) {
            if (r != 0 && stays && above[1] == LW_FRESH && !compared && rows < 200) {
                has[COULD_BE_ONE] |= could_be_one(answer, rows, above[3], n[3]);
                compared = true; /* one pair of a table is enough */
            }
            has[OLD_BEFORE_NEW] |= old;
            last_row[seen++] = r;
        } else if (fresh) {
            size_t before = last_row[n[3]];
            old = true;
            has[TWICE_IN_A_ROW] |= stays && before + 1 == r;
            has[TWICE_IN_ONE] |= answer[6 * before] == n[0] && before + 1 != r;
            has[TWICE_IN_TWO] |= answer[6 * before] != n[0];
            has[WIDE_TWICE] |= n[2] > 1;
            last_row[n[3]] = r;
        }
    }
    has[EMPTY] = rows == 0;
    has[ONE_ROW] = rows == 1;
    has[FULL_TABLE] = bits == BITS;
    has[ALL_OF_WIDTH_1] = rows > 1000 && of_width_1 == rows;
    has[NO_FRESH] = rows != 0 && seen == 0;
    has[NO_FILLS] = rows != 0 && fills == 0;
    has[ONE_FRESH_FOR_ALL] = seen == 1 && variables > 1 && rows == variables && fills == 0;
}

static const char *const clause_names[CLAUSES] = {
    "not whole rows", "the first variable is not 0", "a variable falls, or rises by more than one",
    "a variable above 63", "a kind above 2", "a width of 0", "over 1024 in a variable", "a fill with a fresh number",
    "neighbouring fills of one bit", "a fresh number seen with another width", "a fresh number that skips one",
    "over 4096 in all", "a wrong home", "a wrong high",
};

/* The answer that is lent with a table: its own, the one that it was made for, or one that has to do with another. */
enum { OWN, MADE_FOR, OF_ANOTHER, KINDS };

/* What occurs in the random calls. */
typedef struct {
    unsigned long outcomes[64], refused_tables;
    unsigned long alone[CLAUSES];                           /* 33 by one clause alone */
    unsigned long always, never, damaged_other, kinds[KINDS], accepted[KINDS]; /* 46 by its causes; and accepted */
    unsigned long form_fresh, other_fresh, form_output, other_output, fresh_output; /* and the second applies too */
    unsigned long number_less, number_more, byte_above;     /* 34 by its causes */
    unsigned long features[2][FEATURES];                    /* of the accepted, and of 46 */
} mix;

/* A table with its own answer. */
typedef struct {
    table t;
    lw_record record;
    answer_table answer;
} own_table;

/* The table of an answer table, which is solved; now and then it is a never. False if it would have too many rows. */
static bool make_own(const answer_table *a, own_table *own)
{
    static ref_table facts;
    if (!make_table_of(ALL(*a), &own->t))
        return false;
    if (one_in(20) && own->t.len <= 4 * 500 && a->len != 0 && a->numbers[a->len - 6] < 63) { /* an equation more */
        size_t fill = own->t.len / 4;
        add(&own->t, FILL(0, 1));
        add(&own->t, FILL(1, 1));
        add(&own->t, EQUATION(fill, fill + 1));
    }
    ref_check(ALL(own->t), &facts);
    own->record = plain_solve(own->t.numbers, &facts, own->answer.numbers);
    own->answer.len = 6 * (size_t)own->record.pieces;
    return true;
}

/* Fresh bytes, mostly as many as there are fresh bits; whether one is above 1. */
static bool make_fresh(uint8_t *fresh, size_t right, size_t *len)
{
    switch (below(24)) {
    case 0:  *len = right == 0 ? 0 : right - 1; break;
    case 1:  *len = right + 1; break;
    case 2:  *len = below(one_in(2) ? right + 9 : BITS); break;
    default: *len = right; break;
    }
    for (size_t i = 0; i < *len; i++)
        fresh[i] = (uint8_t)below(2);
    if (!one_in(12) || *len == 0)
        return false;
    fresh[one_in(3) ? *len - 1 : below(*len)] = (uint8_t)(2 + below(one_in(2) ? 2 : 254));
    return true;
}

/* An output's length, mostly enough for so many bits. */
static size_t some_output(size_t bits)
{
    switch (below(16)) {
    case 0:  return bits == 0 ? 0 : bits - 1;
    case 1:  return below(bits + 1);
    case 2:  return bits + below(LONG - BITS);
    case 3:
    case 4:
    case 5:  return bits + below(9);
    default: return bits;
    }
}

/* Notes a call: what was lent, and whether it was changed. */
static void note_call(mix *m, const lent *in, lw_record want, uint32_t table_outcome, size_t kind, bool damaged, bool above)
{
    bool has[FEATURES] = {false};
    unsigned faults = plain_faults(in->answer, in->answer_len);
    size_t right = plain_fresh_bits(in->answer, in->answer_len), bits = plain_pattern_bits(in->answer, in->answer_len);
    bool bad_fresh = in->fresh_len != right || above, short_output = in->pattern_len < bits;

    m->outcomes[want.outcome]++;
    m->refused_tables += want.outcome > 10 && want.outcome < 33;
    switch (want.outcome) {
    case 0:
    case 46:
        note_features(in->answer, in->answer_len / 6, has);
        has[OUTPUT_EXACT] = in->pattern_len == bits;
        has[OUTPUT_LONGER] = in->pattern_len > bits;
        for (size_t i = 0; i < FEATURES; i++)
            m->features[want.outcome != 0][i] += has[i];
        m->accepted[kind] += want.outcome == 0;
        m->kinds[kind] += want.outcome != 0 && !damaged && table_outcome == 2;
        m->damaged_other += want.outcome != 0 && damaged && table_outcome == 2 && kind == OWN;
        m->always += want.outcome != 0 && table_outcome == 0;
        m->never += want.outcome != 0 && table_outcome == 1;
        m->other_fresh += want.outcome != 0 && bad_fresh;
        m->other_output += want.outcome != 0 && short_output;
        break;
    case 33:
        for (size_t i = 0; i < CLAUSES; i++)
            m->alone[i] += faults == 1U << i;
        m->form_fresh += bad_fresh;
        m->form_output += short_output;
        break;
    case 34:
        m->number_less += in->fresh_len < right;
        m->number_more += in->fresh_len > right;
        m->byte_above += in->fresh_len == right;
        m->fresh_output += short_output;
        break;
    default:
        break;
    }
}

/* One random call against the plain pattern maker. */
static void test_random_answer(unsigned long number, mix *m)
{
    static const size_t areas[] = {AREA, AREA, AREA, AREA + 1, LONG_AREA};
    static answer_draft d;
    static own_table own, before;
    static answer_table lent_answer;
    static table lent_table;
    static uint8_t fresh[LONG], pattern[BITS];
    static uint16_t area[LONG_AREA];
    char name[64];

    make_answer(&d);
    check(plain_faults(ALL(d.a)) == 0 && d.pieces <= BITS, HERE, "answer table %lu: made, not of the form", number);
    before = own;
    bool made = make_own(&d.a, &own), damaged = one_in(5);
    size_t kind = !made || one_in(10) ? OF_ANOTHER : one_in(4) ? MADE_FOR : OWN;
    lent_answer = kind == OWN ? own.answer : kind == MADE_FOR || !made ? d.a : before.answer;
    lent_table = own.t;
    if (damaged)
        damage_answer(&lent_answer);
    if (one_in(40) && lent_table.len != 0) {
        lent_table.numbers[below(lent_table.len)] = (uint16_t)below(one_in(2) ? 7 : 65536);
        kind = OF_ANOTHER;
    }

    size_t bits = plain_pattern_bits(ALL(lent_answer)), right = plain_fresh_bits(ALL(lent_answer));
    right = right > BITS ? BITS : right; /* more can only be in tables that are refused 33 */
    lent in = {.table = lent_table.numbers, .table_len = lent_table.len, .answer = lent_answer.numbers,
               .answer_len = lent_answer.len, .fresh = fresh, .pattern_len = some_output(bits),
               .work_len = one_in(30) ? AREA - 1 : areas[below(COUNT(areas))]};
    bool above = make_fresh(fresh, right, &in.fresh_len);
    lw_record want = plain_make_pattern(ALL(lent_table), ALL(lent_answer), fresh, in.fresh_len, pattern,
                                        in.pattern_len, area, in.work_len);
    snprintf(name, sizeof name, "answer table %lu", number);
    call(HERE, name, &in, want, pattern);
    note_call(m, &in, want, own.record.outcome, kind, damaged, above);
}

static void print_mix(const mix *m, unsigned long tables)
{
    printf("%lu random answer tables: accepted %lu, refused 10 %lu, 11 to 17 or 40 %lu, 33 %lu, 46 %lu, 34 %lu, 32 %lu\n",
           tables, m->outcomes[0], m->outcomes[10], m->refused_tables, m->outcomes[33], m->outcomes[46],
           m->outcomes[34], m->outcomes[32]);
    printf("  46 with pieces that could be longer %lu, of another table %lu, one number changed %lu, always %lu, never %lu\n",
           m->kinds[MADE_FOR], m->kinds[OF_ANOTHER], m->damaged_other, m->always, m->never);
    printf("  with the cause of 34 too 33 %lu, 46 %lu; with that of 32 too 33 %lu, 46 %lu, 34 %lu\n", m->form_fresh,
           m->other_fresh, m->form_output, m->other_output, m->fresh_output);
    printf("  34 by fewer bytes %lu, by more %lu, by a byte above 1 alone %lu\n", m->number_less, m->number_more,
           m->byte_above);
    printf("  33 for one cause alone:\n");
    for (size_t i = 0; i < CLAUSES; i++)
        printf("    %-50s %lu\n", clause_names[i], m->alone[i]);
    printf("  accepted, and 46:\n");
    for (size_t i = 0; i < FEATURES; i++)
        printf("    %-50s %lu, %lu\n", feature_names[i], m->features[0][i], m->features[1][i]);
}

void test_random_answers(unsigned long tables)
{
    static mix m;

    for (unsigned long i = 0; i < tables; i++)
        test_random_answer(i, &m);
    print_mix(&m, tables);
    check(4 * m.outcomes[0] >= tables && 50 * m.outcomes[10] >= tables && m.refused_tables != 0 &&
          20 * m.outcomes[33] >= tables && 10 * m.outcomes[46] >= tables && 50 * m.outcomes[34] >= tables &&
          50 * m.outcomes[32] >= tables, HERE, "some outcome is rare");
    check(m.kinds[MADE_FOR] != 0 && m.kinds[OF_ANOTHER] != 0 && m.kinds[OWN] == 0 && m.damaged_other != 0 &&
          m.always != 0 && m.never != 0 && m.accepted[MADE_FOR] != 0 && m.form_fresh != 0 && m.other_fresh != 0 &&
          m.form_output != 0 && m.other_output != 0 && m.fresh_output != 0 && m.number_less != 0 &&
          m.number_more != 0 && m.byte_above != 0, HERE, "some kind of call does not occur");
    for (size_t i = 0; i < CLAUSES; i++)
        check(m.alone[i] != 0, HERE, "no answer table has this alone: %s", clause_names[i]);
    for (size_t i = 0; i < FEATURES; i++)
        check((m.features[0][i] != 0) == (i >= ONLY_46) && m.features[1][i] != 0, HERE,
              "no answer table, accepted or refused 46, has this, or one that should not: %s", feature_names[i]);
}
