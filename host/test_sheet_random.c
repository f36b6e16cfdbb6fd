/*
  test_sheet_random.c -- tests of lw_read_sheet against reference.c: see
  test_sheet.c

  Texts that differ in one byte from a short sheet, texts with a short word for
  a value, and random sheets in both spellings with bytes changed.
*/

#include "reference.h"
#include "test_sheet.h"

static uint32_t compare(where at, const char *name, const text *t, size_t table_len)
{
    static uint16_t numbers[2048];
    lw_record want = ref_read_sheet(t->bytes, t->len, numbers, table_len);
    call(at, name, t->bytes, t->len, t->len, NULL, table_len, want, want.outcome == 0 ? numbers : NULL);
    return want.outcome;
}

static void remove_bytes(text *t, size_t at, size_t count)
{
    memmove(t->bytes + at, t->bytes + at + count, t->len - at - count);
    t->len -= count;
}

/* Inserts a copy of bytes of the text, or of others. */
static void insert_bytes(text *t, size_t at, const uint8_t *bytes, size_t count)
{
    static uint8_t copy[sizeof t->bytes];
    if (t->len + count > sizeof t->bytes)
        return;
    memcpy(copy, bytes, count);
    memmove(t->bytes + at + count, t->bytes + at, t->len - at);
    memcpy(t->bytes + at, copy, count);
    t->len += count;
}

/* Every text that one changed, inserted or removed byte makes of a short sheet. */
void test_one_byte(void)
{
    static const char *const sheets[] = {NAMES, "c a kind b\n10 0 65535 7\n", SHEET, "b a kind c\nh1f hace1 h0 h00a\n"};
    static text t, good;
    unsigned long texts = 0, accepted = 0;

    for (size_t i = 0; i < COUNT(sheets); i++) {
        good.len = 0;
        put(&good, sheets[i]);
        for (size_t at = 0; at <= good.len; at++)
            for (int byte = 0; byte < 256; byte++)
                for (int kind = 0; kind < 3; kind++) {
                    uint8_t b = (uint8_t)byte;
                    t.len = good.len;
                    memcpy(t.bytes, good.bytes, good.len);
                    if (kind == 0)
                        insert_bytes(&t, at, &b, 1);
                    else if (at == good.len || (kind == 2 && byte != 0))
                        continue;
                    else if (kind == 1)
                        t.bytes[at] = b;
                    else
                        remove_bytes(&t, at, 1);
                    texts++;
                    if (compare(HERE, "one byte", &t, 2048) == 0)
                        accepted++;
                }
    }
    printf("%lu texts with one byte changed, inserted or removed: %lu accepted\n", texts, accepted);
}

/* Every word of some letters and then up to so many bytes of these, as the second and as the last value. */
static void compare_words(const char *start, const char *bytes, size_t most)
{
    static text t;
    size_t count = strlen(bytes);
    unsigned long texts = 0, accepted = 0;

    for (size_t len = 0, words = 1; len <= most; len++, words *= count)
        for (size_t word = 0; word < words; word++)
            for (int place = 0; place < 2; place++) {
                t.len = 0;
                put(&t, place == 0 ? "kind b a c\n3 " : "kind b a c\n3 1 5 ");
                put(&t, start);
                for (size_t i = 0, rest = word; i < len; i++, rest /= count)
                    put_byte(&t, bytes[rest % count]);
                put(&t, place == 0 ? " 5 7\n" : "\n");
                texts++;
                if (compare(HERE, "word", &t, 2048) == 0)
                    accepted++;
            }
    printf("%lu texts with a word of %s%sup to %zu bytes: %lu accepted\n", texts, start, *start == '\0' ? "" : " and ",
           most, accepted);
    check(accepted != 0 && accepted < texts, HERE, "all or none of the words are values");
}

void test_words(void)
{
    compare_words("", "0169 \n\r\t+-ahA", 3);
    compare_words("h", "09afgAh \n", 4);
    compare_words("h", "0c", 9);
}

static unsigned random_value(void)
{
    static const unsigned edges[] = {0, 1, 9, 10, 99, 100, 999, 1000, 6553, 6554, 9999, 10000, 65529, 65534, 65535};
    return one_in(4) ? edges[below(COUNT(edges))]
         : (unsigned)(one_in(2) ? below(12) : one_in(2) ? below(1025) : below(65536));
}

/* A value in one of its spellings. */
static void put_value(text *t, unsigned number)
{
    if (one_in(2))
        put_number(t, number);
    else
        put_hexadecimal(t, number, (int)below(5)); /* as many digits as it needs, or more */
}

/* A good sheet of so many lines. */
static void make_sheet(text *t, size_t lines)
{
    static const char *const names[] = {"kind", "a", "b", "c"};
    size_t order[4] = {0, 1, 2, 3};

    for (size_t i = 4; i > 1; i--) {
        size_t j = below(i), kept = order[j];
        order[j] = order[i - 1], order[i - 1] = kept;
    }
    t->len = 0;
    for (size_t i = 0; i < 4; i++) {
        put(t, names[order[i]]);
        put_byte(t, i == 3 ? '\n' : ' ');
    }
    for (size_t i = 0; i < 4 * lines; i++) {
        put_value(t, random_value());
        put_byte(t, i % 4 == 3 ? '\n' : ' ');
    }
}

/* Mostly a byte that a sheet may have. */
static uint8_t random_byte(void)
{
    static const char bytes[] = "0123456789 \nkindabcefhgAH\r\t+-";
    return one_in(4) ? (uint8_t)below(256) : one_in(2) ? (uint8_t)bytes[below(12)]
         : (uint8_t)bytes[below(sizeof bytes - 1)];
}

/* The line that has this byte, its end included, as far as it has one. */
static void line_at(const text *t, size_t at, size_t *from, size_t *count)
{
    size_t to = at;
    *from = at;
    while (*from != 0 && t->bytes[*from - 1] != '\n')
        (*from)--;
    while (to + 1 < t->len && t->bytes[to] != '\n')
        to++;
    *count = to + 1 - *from;
}

enum { CHANGE, INSERT, REMOVE, DOUBLE, SWAP, SWAP_NEXT, CUT_SHORT, DOUBLE_LINE, REMOVE_LINE, LENGTHEN, MUTATIONS };

static const char *const mutation_names[MUTATIONS] = {
    "a byte changed", "inserted", "removed", "doubled", "two swapped", "two neighbours swapped",
    "cut short", "a line doubled", "a line removed", "lines up to some 16384 bytes",
};

static void mutate(text *t, int mutation)
{
    if (t->len == 0)
        return;
    size_t at = below(t->len), other = mutation == SWAP_NEXT ? (at + 1) % t->len : below(t->len), from, count;
    uint8_t byte = random_byte();

    switch (mutation) {
    case CHANGE:
        t->bytes[at] = byte;
        break;
    case INSERT:
        insert_bytes(t, below(t->len + 1), &byte, 1);
        break;
    case REMOVE:
        remove_bytes(t, at, 1);
        break;
    case DOUBLE:
        insert_bytes(t, at, t->bytes + at, 1);
        break;
    case SWAP:
    case SWAP_NEXT:
        byte = t->bytes[at];
        t->bytes[at] = t->bytes[other];
        t->bytes[other] = byte;
        break;
    case CUT_SHORT:
        t->len = one_in(3) ? t->len - 1 : at;
        break;
    case DOUBLE_LINE:
        line_at(t, at, &from, &count);
        insert_bytes(t, from, t->bytes + from, count);
        break;
    case REMOVE_LINE:
        line_at(t, at, &from, &count);
        remove_bytes(t, from, count);
        break;
    case LENGTHEN: /* the last line again and again; then cut at 16384 bytes, or up to two fewer or more, or not */
        line_at(t, t->len - 1, &from, &count);
        while (t->len < 16384 + 2)
            insert_bytes(t, t->len, t->bytes + from, count);
        if (!one_in(4))
            t->len = 16382 + below(5);
        break;
    }
}

void test_random_sheets(unsigned long sheets)
{
    static const uint32_t outcomes[] = {0, 20, 21, 22, 23, 32};
    static const char *const row_names[] = {"0", "1 to 9", "10 to 510", "511"};
    unsigned long seen[33] = {0}, rows[4] = {0}, reads[4] = {0}, mutations[MUTATIONS] = {0}, kept = 0;
    static text t, good;
    static uint16_t numbers[2048];
    char name[64];

    for (unsigned long i = 0; i < sheets; i++) {
        size_t lines = one_in(50) ? (one_in(2) ? 505 + below(8) : below(513)) : below(one_in(4) ? 40 : 6);
        make_sheet(&good, lines);
        t.len = good.len;
        memcpy(t.bytes, good.bytes, good.len);
        for (size_t count = one_in(5) ? below(5) : 1; count != 0; count--) {
            int mutation = one_in(150) ? LENGTHEN : (int)below(LENGTHEN);
            if (lines >= 505 && one_in(2))
                mutation = DOUBLE_LINE;
            mutations[mutation]++;
            mutate(&t, mutation);
        }
        if (lines == 512 && one_in(3)) { /* something at the last line */
            t.len = good.len;
            memcpy(t.bytes, good.bytes, good.len);
            if (one_in(2))
                t.bytes[t.len - 1 - below(8)] = random_byte();
            else
                for (size_t count = 1 + below(3); count != 0; count--)
                    put_byte(&t, random_byte());
        }
        size_t table_len = 2048 + (one_in(3) ? below(70) : 0);
        if (one_in(20))
            table_len = one_in(2) ? 2047 : below(2048);

        lw_record want = ref_read_sheet(t.bytes, t.len, numbers, table_len);
        snprintf(name, sizeof name, "random sheet %lu", i);
        call(HERE, name, t.bytes, t.len, t.len, NULL, table_len, want, want.outcome == 0 ? numbers : NULL);
        seen[want.outcome]++;
        size_t n = want.outcome == 0 ? want.pieces : want.row;
        size_t class = n == 0 ? 0 : n < 10 ? 1 : n < 511 ? 2 : 3;
        if (want.outcome == 0)
            reads[class]++;
        if (want.outcome == 22)
            rows[class]++;
        if (want.outcome == 0 && (t.len != good.len || memcmp(t.bytes, good.bytes, t.len) != 0))
            kept++;
    }

    printf("%lu random sheets:", sheets);
    for (size_t i = 0; i < COUNT(outcomes); i++)
        printf(" %s%u %lu", i == 0 ? "outcome " : "", outcomes[i], seen[outcomes[i]]);
    printf("\n  changed and yet read %lu; rows read", kept);
    for (size_t i = 0; i < 4; i++)
        printf("%s %s %lu", i == 0 ? "" : ",", i == 3 ? "511 or 512" : row_names[i], reads[i]);
    printf("\n  outcome 22 in row");
    for (size_t i = 0; i < 4; i++)
        printf("%s %s: %lu", i == 0 ? "" : ",", row_names[i], rows[i]);
    printf("\n");
    for (int i = 0; i < MUTATIONS; i++)
        printf("    %-46s %lu\n", mutation_names[i], mutations[i]);

    for (size_t i = 0; i < COUNT(outcomes); i++)
        check(seen[outcomes[i]] != 0, HERE, "no random sheet has outcome %u", outcomes[i]);
    for (size_t i = 0; i < 4; i++) {
        check(reads[i] != 0, HERE, "no random sheet read has rows %s", row_names[i]);
        check(rows[i] != 0, HERE, "no random sheet is refused 22 in row %s", row_names[i]);
    }
    for (int i = 0; i < MUTATIONS; i++)
        check(mutations[i] != 0, HERE, "no random sheet has this: %s", mutation_names[i]);
    check(kept != 0, HERE, "no changed sheet is read");
}
