/*
  test_forms_random.c -- random tests of lw_normal_form: see test_forms.c

  On random tables the library is compared with reference.c; on small ones the
  normal forms of each two rows are compared with the rows' values under every
  pattern.
*/

#include "reference.h"
#include "test_forms.h"

/* Random tables. */

static size_t cut(draft *d, size_t a, size_t high, size_t low)
{
    return add_row(d, high - low + 1, CUT(a, high, low));
}

/* NONE if it would be too wide. */
static size_t join(draft *d, size_t a, size_t b)
{
    size_t w = d->width[a] + d->width[b];
    return w > 1024 ? NONE : add_row(d, w, JOIN(a, b));
}

/* Joins two cuts of some row, which mostly meet; at times crossed, or with a fill between them. Adds 5 rows at most. */
static void regroup(draft *d)
{
    size_t a = some_term(d), w = a == NONE ? 0 : d->width[a];
    if (w < 2)
        return;
    size_t low = 1 + below(w - 1), high = one_in(3) ? below(w) : low - 1; /* of the left part and of the right one */
    size_t left = cut(d, a, one_in(2) ? w - 1 : low + below(w - low), low);
    size_t right = cut(d, a, high, one_in(2) ? 0 : below(high + 1));
    if (one_in(5)) {
        size_t other = left;
        left = right, right = other;
    }
    if (one_in(6) && d->width[left] < 1000) {
        size_t between = 1 + below(3);
        left = join(d, left, add_row(d, between, FILL(below(2), between)));
    }
    join(d, left, right);
}

/* A valid table, full of parts that may meet. */
static void make_parts(draft *d)
{
    static const size_t sizes[] = {12, 40, 120, 500}, widths[] = {1, 2, 4, 8, 60, 300, 1024};
    size_t rows = 6 + below(sizes[one_in(12) ? 3 : below(3)]), widest = widths[below(7)], joins = below(6);

    clear(d);
    for (size_t i = 1 + below(4); i != 0; i--)
        grow(d, LW_VARIABLE, widest);
    while (d->rows + 5 <= rows)
        if (below(6) < joins)
            grow(d, LW_JOIN, one_in(2) ? 3 : widest);
        else if (one_in(2))
            regroup(d);
        else
            grow(d, one_in(12) ? LW_EQUATION : one_in(4) ? LW_CUT : one_in(4) ? LW_VARIABLE
                  : one_in(3) ? LW_VALUE : LW_FILL, widest);
}

/*
  What can stand on the two sides of a seam, that is where a row is joined, or
  between two bits of a marker. In the first three cases it is one piece.
*/
enum {
    FILLS_MERGE, PARTS_MERGE, MARKER_ALIKE, MARKER_CHANGES,
    FILLS_DIFFER, FILL_AND_PART, BIT_LEFT_OUT, BIT_TWICE, NEXT_HIGHER, FIRST_AGAIN, BACK,
    NEXT_VARIABLE, IN_STEP, OTHER_VARIABLE, SEAMS
};

static const char *const seam_names[SEAMS] = {
    "fills of one bit, merged", "parts that meet, merged", "like bits of a marker, merged", "unlike bits of a marker",
    "fills of different bits", "a fill and a part", "a bit or more left out", "a bit twice", "the next higher bit",
    "the last bit and the first", "another higher bit",
    "the last bit, the first of the next variable", "bits of two variables, in step", "bits of two variables, not so",
};

/* Between a bit and the one on its right, whose variable has this width if it is a variable's. */
static int seam_of(ref_source left, ref_source right, size_t width)
{
    if (left.kind != 2 && right.kind != 2)
        return left.kind == right.kind ? FILLS_MERGE : FILLS_DIFFER;
    if (left.kind != 2 || right.kind != 2)
        return FILL_AND_PART;
    bool first = left.bit == 0 && right.bit == width - 1;
    if (left.variable != right.variable)
        return left.variable + 1 == right.variable && first ? NEXT_VARIABLE
             : left.bit == right.bit + 1 ? IN_STEP : OTHER_VARIABLE;
    return left.bit == right.bit + 1 ? PARTS_MERGE
         : left.bit > right.bit + 1 ? BIT_LEFT_OUT
         : left.bit == right.bit ? BIT_TWICE
         : first ? FIRST_AGAIN
         : left.bit + 1 == right.bit ? NEXT_HIGHER : BACK;
}

/* Counts the seams in what a row of an accepted table is made of. */
static void count_seams(const table *t, size_t row, size_t seams[SEAMS])
{
    static ref_table facts;
    static ref_source sources[REF_ROWS][REF_WIDTH];
    enum { NO_SEAM, JOINED, IN_MARKER };
    static uint8_t seam[REF_ROWS][REF_WIDTH]; /* of each bit but the first: whether it is on the right of a seam */
    static size_t variables[REF_ROWS];     /* their widths */
    size_t count = 0;

    ref_check(t->numbers, t->len, &facts);
    ref_sources(t->numbers, &facts, row + 1, sources);
    for (size_t r = 0; r <= row; r++) {
        const uint16_t *n = t->numbers + 4 * r;
        size_t w = facts.width[r];
        if (n[0] == LW_VARIABLE)
            variables[count++] = w;
        if (n[0] == LW_VARIABLE || n[0] == LW_FILL) {
            memset(seam[r], NO_SEAM, w);
        } else if (n[0] == LW_VALUE) {
            memset(seam[r], IN_MARKER, w);
            seam[r][0] = NO_SEAM;
        } else if (n[0] == LW_JOIN) {
            memcpy(seam[r], seam[n[1]], facts.width[n[1]]);
            memcpy(seam[r] + facts.width[n[1]], seam[n[2]], facts.width[n[2]]);
            seam[r][facts.width[n[1]]] = JOINED;
        } else if (n[0] == LW_CUT) {
            memcpy(seam[r], seam[n[1]] + (facts.width[n[1]] - 1 - n[2]), w);
            seam[r][0] = NO_SEAM;
        }
    }
    for (size_t i = 1; i < facts.width[row]; i++) {
        ref_source left = sources[row][i - 1], right = sources[row][i];
        if (seam[row][i] == JOINED)
            seams[seam_of(left, right, variables[right.variable])]++;
        else if (seam[row][i] == IN_MARKER)
            seams[left.kind == right.kind ? MARKER_ALIKE : MARKER_CHANGES]++;
    }
}

/* The library against the reference on one random table and one random call. Gives the record. */
static lw_record test_random_call(unsigned long number, size_t seams[SEAMS])
{
    static draft d;
    static uint16_t form[4096];
    char name[64];

    bool parts = !one_in(4);
    if (parts)
        make_parts(&d);
    else
        make_table(&d);
    size_t rows = d.rows;
    if (!parts && one_in(2))
        damage(&d, some_refusal(11));

    size_t row = rows == 0 ? 0 : below(rows);
    for (size_t i = one_in(3) ? 0 : 4; rows != 0 && i != 0; i--) { /* mostly the widest of some */
        size_t other = below(rows);
        if (d.width[other] > d.width[row])
            row = other;
    }
    if (one_in(40))
        row = one_in(4) ? SIZE_MAX - below(3) : rows + below(3);
    if (row < rows && d.width[row] == 0 && !one_in(4))
        row = 0; /* an equation is asked for now and then only */
    size_t form_len = 4096 + (one_in(2) ? 0 : below(70));
    if (one_in(30))
        form_len = one_in(2) ? 4095 : below(4096);

    lw_record want = ref_normal_form(d.t.numbers, d.t.len, row, form, form_len);
    snprintf(name, sizeof name, "random table %lu, row %zu", number, row);
    call(HERE, name, d.t.numbers, d.t.len, row, NULL, form_len, want, form);
    if (want.outcome == 0) {
        size_t of_row[SEAMS] = {0}, apart = 1;
        count_seams(&d.t, row, of_row);
        for (int i = 0; i < SEAMS; i++) {
            seams[i] += of_row[i];
            if (i != FILLS_MERGE && i != PARTS_MERGE && i != MARKER_ALIKE)
                apart += of_row[i];
        }
        check(want.pieces == apart, HERE, "%s: %u pieces, expected %zu", name, want.pieces, apart);
    }
    return want;
}

void test_random_forms(unsigned long tables)
{
    static const uint32_t outcomes[] = {0, 11, 12, 13, 14, 15, 40, 16, 17, 30, 32};
    static const uint32_t limits[] = {1, 2, 3, 10, 100, 1024};
    unsigned long seen[41] = {0}, forms[6] = {0};
    size_t seams[SEAMS] = {0};

    for (unsigned long i = 0; i < tables; i++) {
        lw_record record = test_random_call(i, seams);
        seen[record.outcome]++;
        for (size_t j = 0; record.outcome == 0; j++)
            if (record.pieces <= limits[j]) {
                forms[j]++;
                break;
            }
    }

    printf("%lu random tables:", tables);
    for (size_t i = 0; i < COUNT(outcomes); i++)
        printf(" %s%u %lu", i == 0 ? "outcome " : "", outcomes[i], seen[outcomes[i]]);
    printf("\n  forms of");
    for (size_t j = 0; j < COUNT(limits); j++)
        printf("%s %s%u %s %lu", j == 0 ? "" : ",", j < 3 ? "" : "up to ", limits[j],
               j == 0 ? "piece" : "pieces", forms[j]);
    printf("\n  seams in them:\n");
    for (int i = 0; i < SEAMS; i++)
        printf("    %-46s %zu\n", seam_names[i], seams[i]);

    for (size_t i = 0; i < COUNT(outcomes); i++)
        check(seen[outcomes[i]] != 0, HERE, "no random table has outcome %u", outcomes[i]);
    for (size_t j = 0; j < COUNT(limits); j++)
        check(forms[j] != 0, HERE, "no random form of up to %u pieces", limits[j]);
    for (int i = 0; i < SEAMS; i++)
        check(seams[i] != 0, HERE, "no random row has this seam: %s", seam_names[i]);
}

/* Small tables: the same value under every pattern, exactly if the same normal form. */

enum { SMALL_BITS = 10, SMALL_ROWS = 64, SMALL_WIDTH = 24 };

/* A row that is not too wide; the first rows are variables. */
static size_t narrow_term(const draft *d)
{
    size_t r = some_term(d);
    return d->width[r] <= SMALL_WIDTH ? r : below(d->variables);
}

/* Adds rows for a word that is the same as row r, and gives the last of them. */
static size_t rebuild(draft *d, size_t r)
{
    size_t w = d->width[r], other = narrow_term(d), at, left, right;

    switch (below(4)) {
    case 0: /* cut out of a join, whose left part it is */
        return cut(d, join(d, r, other), w + d->width[other] - 1, d->width[other]);
    case 1: /* or its right part */
        return cut(d, join(d, other, r), w - 1, 0);
    default: /* cut in two and joined again */
        if (w == 1)
            return cut(d, r, 0, 0);
        at = 1 + below(w - 1);
        left = cut(d, r, w - 1, at);
        right = cut(d, r, at - 1, 0);
        if (d->rows < SMALL_ROWS && one_in(2))
            left = rebuild(d, left);
        return join(d, left, right);
    }
}

/* Adds rows for a word that is row r but for one bit, which is of another row or fixed. */
static void replace_bit(draft *d, size_t r)
{
    size_t w = d->width[r], at = below(w), other = narrow_term(d), place = below(d->width[other]);
    size_t bit = one_in(2) ? cut(d, other, place, place) : add_row(d, 1, FILL(below(2), 1));
    if (at != w - 1)
        bit = join(d, cut(d, r, w - 1, at + 1), bit);
    if (at != 0)
        join(d, bit, cut(d, r, at - 1, 0));
}

/* Adds a cut through a join, and the join of the cuts of its parts. */
static void cut_join(draft *d, size_t a, size_t b)
{
    size_t right = d->width[b], high = right + below(d->width[a]), low = below(right);
    cut(d, join(d, a, b), high, low);
    size_t left = cut(d, a, high - right, 0);
    join(d, left, cut(d, b, right - 1, low));
}

/* Adds the join of three rows, made in both ways. */
static void join_three(draft *d, size_t a, size_t b, size_t c)
{
    join(d, join(d, a, b), c);
    join(d, a, join(d, b, c));
}

/* A valid table of at most SMALL_BITS variable bits, with many rows that are the same word, or nearly so. */
static void make_small(draft *d)
{
    size_t variables = 1 + below(4), rows = 20 + below(SMALL_ROWS - 20);

    clear(d);
    while (d->variables < variables && d->bits < SMALL_BITS) {
        size_t room = SMALL_BITS - d->bits, w = 1 + below(room < 4 || one_in(3) ? room : 4);
        add_row(d, w, VARIABLE(w));
    }
    while (d->rows < rows) {
        size_t a = narrow_term(d), b = narrow_term(d), c = narrow_term(d), w = 1 + below(3), low = below(d->width[a]);
        switch (below(8)) {
        case 0:  add_row(d, w, FILL(below(2), w)); break;
        case 7:  add_row(d, w, MARKER(some_bits(w), w)); break;
        case 1:  join(d, a, b); break;
        case 2:  cut(d, a, low + below(d->width[a] - low), low); break;
        case 3:  rebuild(d, a); break;
        case 4:  replace_bit(d, a); break;
        case 5:  cut_join(d, a, b); break;
        default: join_three(d, a, b, c); break;
        }
    }
}

/* Pairs of different rows: of one width and the same under every pattern, of one width and not, of two widths. */
enum { SAME, DIFFERENT, OTHER_WIDTH };

static void test_small_table(unsigned long number, unsigned long pairs[3])
{
    static draft d;
    static ref_table facts;
    static uint8_t values[REF_ROWS][REF_WIDTH], pattern[SMALL_BITS];
    static bool same[REF_ROWS][REF_ROWS];
    static uint16_t forms[REF_ROWS][4096];
    static lw_record records[REF_ROWS];

    make_small(&d);
    ref_check(d.t.numbers, d.t.len, &facts);
    for (size_t a = 0; a < d.rows; a++) {
        records[a] = lw_normal_form(d.t.numbers, d.t.len, a, forms[a], 4096);
        if (!check(records[a].outcome == 0 && records[a].pieces <= 1024, HERE,
                   "small table %lu, row %zu: outcome %u, %u pieces", number, a, records[a].outcome,
                   records[a].pieces))
            return;
        for (size_t b = 0; b < a; b++)
            same[a][b] = d.width[a] == d.width[b];
    }

    for (size_t p = 0; p < (size_t)1 << facts.bits; p++) {
        for (size_t i = 0; i < facts.bits; i++)
            pattern[i] = p >> i & 1;
        ref_values(d.t.numbers, &facts, d.rows, pattern, values);
        for (size_t a = 0; a < d.rows; a++)
            for (size_t b = 0; b < a; b++)
                if (same[a][b] && memcmp(values[a], values[b], d.width[a]) != 0)
                    same[a][b] = false;
    }

    for (size_t a = 0; a < d.rows; a++)
        for (size_t b = 0; b < a; b++) {
            bool same_form = records[a].pieces == records[b].pieces &&
                             memcmp(forms[a], forms[b], 4 * records[a].pieces * sizeof forms[a][0]) == 0;
            if (!check(same[a][b] == same_form, HERE, "small table %lu: rows %zu and %zu %s, %s forms",
                       number, b, a, same[a][b] ? "are the same under every pattern" : "differ under a pattern",
                       same_form ? "the same" : "different") && checks_failed == 1) {
                print_table(d.t.numbers, d.t.len);
                print_form("one form", forms[b], records[b].pieces);
                print_form("the other", forms[a], records[a].pieces);
            }
            if (memcmp(d.t.numbers + 4 * a, d.t.numbers + 4 * b, 8) != 0)
                pairs[same[a][b] ? SAME : d.width[a] == d.width[b] ? DIFFERENT : OTHER_WIDTH]++;
        }
}

void test_same_forms(unsigned long random_tables)
{
    unsigned long pairs[3] = {0}, tables = random_tables / 20;

    for (unsigned long i = 0; i < tables; i++)
        test_small_table(i, pairs);
    printf("%lu small tables, pairs of rows built differently: %lu the same under every pattern, %lu not, "
           "%lu of two widths\n", tables, pairs[SAME], pairs[DIFFERENT], pairs[OTHER_WIDTH]);
    check(pairs[SAME] >= 10 * tables, HERE, "few pairs of rows are the same");
    check(pairs[DIFFERENT] >= 10 * tables, HERE, "few pairs of rows of one width differ");
}
