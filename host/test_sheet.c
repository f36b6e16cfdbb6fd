/*
  test_sheet.c -- tests of lw_read_sheet

      test_sheet [SHEETS]

  First sheets and refusals worked by hand, and every byte behind the letter h.
  Then texts that are compared with reference.c: each that differs in one byte from a short sheet, and SHEETS
  random ones (100000 if not given), which are good sheets with bytes changed:
  test_sheet_random.c. Last, how the time of a call grows. But for the last,
  every call is made on guarded buffers, and its record, every byte of the sheet
  and every number of the table are compared.

  The run fails too if some kind of random sheet does not occur; so there should
  be at least 10000.
*/

#define _POSIX_C_SOURCE 199309L /* clock_gettime */

#include "guard.h"
#include "test_sheet.h"
#include "timing.h"

/* Texts. */

/* A literal as two arguments: its bytes and their count; and all of a text. */
#define TEXT(literal) (const uint8_t *)(literal), sizeof(literal) - 1
#define ALL_OF(t)     (t).bytes, (t).len

/* The numbers of the specification's sheet; and of one without rows. */
#define ROWS    TABLE(0, 8, 0, 0, 3, 0, 6, 3, 3, 0, 4, 1, 4, 1, 2, 0)
#define NO_ROWS NULL, 0

/* The normal form of a part of variable 0. */
#define PART_OF(high, low) LW_PART, 0, (high), (low)

void put_byte(text *t, int byte)
{
    if (t->len == sizeof t->bytes) {
        printf("text too long\n");
        exit(1);
    }
    t->bytes[t->len++] = (uint8_t)byte;
}

void put(text *t, const char *words)
{
    while (*words != '\0')
        put_byte(t, *words++);
}

void put_times(text *t, const char *words, size_t times)
{
    for (size_t i = 0; i < times; i++)
        put(t, words);
}

void put_number(text *t, unsigned number)
{
    char digits[16];
    snprintf(digits, sizeof digits, "%u", number);
    put(t, digits);
}

void put_hexadecimal(text *t, unsigned number, int digits)
{
    char word[16];
    snprintf(word, sizeof word, "h%0*x", digits, number);
    put(t, word);
}

static void print_text(const uint8_t *bytes, size_t len)
{
    printf("  %zu bytes: \"", len);
    for (size_t i = 0; i < len && i < 400; i++)
        if (bytes[i] == 10)
            printf("\\n");
        else if (bytes[i] < 32 || bytes[i] > 126)
            printf("\\%03o", bytes[i]);
        else
            printf("%c", bytes[i]);
    printf("\"%s\n", len > 400 ? " .." : "");
}

/* Calls and what they are compared with. */

void call(where at, const char *name, const uint8_t *bytes, size_t len, size_t lent,
          const uint16_t *content, size_t table_len, lw_record want, const uint16_t *want_table)
{
    unsigned long failed = checks_failed;
    guarded s = guard(bytes, len);
    guarded t = guard(content, table_len * sizeof *content);

    lw_record got = lw_read_sheet(guarded_buffer(&s), lent, guarded_buffer(&t), table_len);
    if (want_table != NULL)
        guard_expect(&t, want_table, 4 * want.pieces * sizeof *want_table);
    check_record(at, name, got, want);
    guard_check(&s, at, "sheet");
    guard_check(&t, at, "table");
    if (checks_failed != failed && failed == 0) {
        printf("  output of %zu numbers\n", table_len);
        print_text(bytes, lent);
    }
}

/*
  The sheet has these rows: with an output of exactly 2048 numbers and with
  longer ones, whatever stands there before. An output of fewer numbers is
  refused, also where the rows would fit.
*/
static void accept(where at, const uint8_t *bytes, size_t len, const uint16_t *numbers, size_t count)
{
    static uint16_t content[2048];
    lw_record want = {.pieces = (uint32_t)(count / 4)}, too_short = {.outcome = 32};

    call(at, "accepted", bytes, len, len, NULL, 2048, want, numbers);
    call(at, "accepted, one number more", bytes, len, len, NULL, 2049, want, numbers);
    call(at, "accepted, longer output", bytes, len, len, NULL, 2048 + 70, want, numbers);
    for (size_t i = 0; i < 2048; i++)
        content[i] = 0;
    call(at, "accepted, output of 0", bytes, len, len, content, 2048, want, numbers);
    for (size_t i = 0; i < 2048; i++)
        content[i] = i < count ? (uint16_t)~numbers[i] : 0xFFFF;
    call(at, "accepted, output of other numbers", bytes, len, len, content, 2048, want, numbers);

    call(at, "output of 2047", bytes, len, len, NULL, 2047, too_short, NULL);
    call(at, "output of 2044", bytes, len, len, NULL, 2044, too_short, NULL);
    call(at, "output of 0", bytes, len, len, NULL, 0, too_short, NULL);
    if (count < 2048)
        call(at, "output of the rows only", bytes, len, len, NULL, count, too_short, NULL);
}

/* The sheet is refused, whether or not the output is too short as well. */
static void refuse(where at, const uint8_t *bytes, size_t len, uint32_t number, uint32_t row)
{
    static const size_t lengths[] = {2048, 2048 + 70, 2047, 4, 0};
    lw_record want = {.outcome = number, .row = row};
    for (size_t i = 0; i < COUNT(lengths); i++)
        call(at, "refused", bytes, len, len, NULL, lengths[i], want, NULL);
}

#define ACCEPT(...) accept(HERE, __VA_ARGS__)
#define REFUSE(...) refuse(HERE, __VA_ARGS__)

/* The header's numbers are those of the specification. */
static void test_constants(void)
{
    static const constant constants[] = {
        CONSTANT(LW_ACCEPTED, 0), CONSTANT(LW_REFUSED_SHEET, 20), CONSTANT(LW_REFUSED_NAMES, 21),
        CONSTANT(LW_REFUSED_LINE, 22), CONSTANT(LW_REFUSED_LINES, 23), CONSTANT(LW_REFUSED_OUTPUT, 32),
        CONSTANT(LW_MAX_SHEET, 16384), CONSTANT(LW_TABLE_NUMBERS, 2048), CONSTANT(LW_MAX_ROWS, 512),
        CONSTANT(LW_ROW_NUMBERS, 4),
    };
    check_constants(HERE, constants, COUNT(constants));
}

/* Sheets that are read. */
static void test_sheets(void)
{
    static text t;

    ACCEPT(TEXT(SHEET), ROWS);
    ACCEPT(TEXT(NAMES), NO_ROWS);
    ACCEPT(TEXT(NAMES "0 0 0 0\n"), TABLE(0, 0, 0, 0));
    ACCEPT(TEXT(NAMES "65535 65535 65535 65535\n"), TABLE(65535, 65535, 65535, 65535));
    ACCEPT(TEXT(NAMES "65535 0 65535 0\n0 65535 0 65535\n"), TABLE(65535, 0, 65535, 0, 0, 65535, 0, 65535));
    ACCEPT(TEXT(NAMES "1 22 333 4444\n55555 6 77 888\n"), TABLE(1, 22, 333, 4444, 55555, 6, 77, 888));
    ACCEPT(TEXT(NAMES "10 100 1000 10000\n"), TABLE(10, 100, 1000, 10000));

    /* The reader tests no table: no kind, no name of a row, no width, no number of variables. */
    ACCEPT(TEXT(NAMES "9 9 9 9\n"), TABLE(9, 9, 9, 9));
    ACCEPT(TEXT(NAMES "9 0 0 0\n5 1 2 3\n65535 0 0 0\n"), TABLE(9, 0, 0, 0, 5, 1, 2, 3, 65535, 0, 0, 0));
    ACCEPT(TEXT(NAMES "0 8 1 1\n2 7 7 0\n0 1025 0 0\n3 0 8 0\n4 0 2 0\n"),
           TABLE(0, 8, 1, 1, 2, 7, 7, 0, 0, 1025, 0, 0, 3, 0, 8, 0, 4, 0, 2, 0));
    static uint16_t variables[4 * 70];
    t.len = 0;
    put(&t, NAMES);
    for (size_t i = 0; i < 70; i++) {
        put(&t, "0 1024 0 0\n");
        memcpy(variables + 4 * i, (const uint16_t[]){VARIABLE(1024)}, 8);
    }
    ACCEPT(ALL_OF(t), variables, 4 * 70);
}

/* Every value, each in one place of 32 sheets; and those at which a digit more is needed, in each column. */
static void test_values(void)
{
    static text t;
    static uint16_t rows[2048];

    for (unsigned from = 0; from < 65536; from += 2048) {
        t.len = 0;
        put(&t, NAMES);
        for (unsigned i = 0; i < 2048; i++) {
            put_number(&t, from + i);
            put_byte(&t, i % 4 == 3 ? '\n' : ' ');
            rows[i] = (uint16_t)(from + i);
        }
        ACCEPT(ALL_OF(t), rows, 2048);
    }
    static const uint16_t edges[] = {
        0, 1, 9, 10, 11, 99, 100, 255, 256, 999, 1000, 9999, 10000, 32767, 32768, 65534, 65535,
    };
    for (size_t i = 0; i < COUNT(edges); i++)
        for (size_t column = 0; column < 4; column++) {
            uint16_t row[4] = {5, 6, 7, 8};
            row[column] = edges[i];
            t.len = 0;
            put(&t, NAMES);
            for (size_t j = 0; j < 4; j++) {
                put_number(&t, row[j]);
                put_byte(&t, j == 3 ? '\n' : ' ');
            }
            ACCEPT(ALL_OF(t), row, 4);
        }
}

/* Values of h and hexadecimal digits, beside decimal ones. */
static void test_hexadecimal(void)
{
    static text t;
    static uint16_t rows[2048];

    ACCEPT(TEXT(NAMES "0 16 0 0\n5 hace1 16 0\n4 0 1 0\n"), TABLE(VARIABLE(16), MARKER(44257, 16), EQUATION(0, 1)));
    ACCEPT(TEXT(NAMES "h5 h3 h2 h0\n"), TABLE(5, 3, 2, 0));
    ACCEPT(TEXT(NAMES "h0 h1 h9 ha\nhf h10 h1f hff\n"), TABLE(0, 1, 9, 10, 15, 16, 31, 255));
    ACCEPT(TEXT(NAMES "h100 hfff h1000 hffff\n"), TABLE(256, 4095, 4096, 65535));
    ACCEPT(TEXT(NAMES "hbad hbeef hcafe hdead\n"), TABLE(2989, 48879, 51966, 57005));
    ACCEPT(TEXT(NAMES "h0 h00 h000 h0000\n"), TABLE(0, 0, 0, 0));
    ACCEPT(TEXT(NAMES "ha h0a h00a h000a\n"), TABLE(10, 10, 10, 10));
    ACCEPT(TEXT(NAMES "h10 10 h0010 16\n"), TABLE(16, 10, 16, 16));
    ACCEPT(TEXT(NAMES "h9999 9999 hffff 65535\n"), TABLE(39321, 9999, 65535, 65535));

    /* The reader tests no table. */
    ACCEPT(TEXT(NAMES "h9 0 0 0\n"), TABLE(9, 0, 0, 0));
    ACCEPT(TEXT(NAMES "hffff hffff hffff hffff\n"), TABLE(65535, 65535, 65535, 65535));
    ACCEPT(TEXT(NAMES "5 4 2 1\n5 4 2 0\n5 0 1025 0\n"), TABLE(5, 4, 2, 1, 5, 4, 2, 0, 5, 0, 1025, 0));

    /* Under other orders of the names, among which one is b and one c. */
    ACCEPT(TEXT("c b a kind\nh0 h10 hace1 h5\n"), TABLE(MARKER(44257, 16)));
    ACCEPT(TEXT("b c kind a\nhb hc h1 ha\n"), TABLE(1, 10, 11, 12));

    /* Every value in each of its spellings, in one place of the sheets: h0 to hf, h00 to hff, .., hffff. */
    size_t count = 0;
    t.len = 0;
    for (int digits = 1; digits <= 4; digits++)
        for (unsigned number = 0; number < 1U << 4 * digits; number++) {
            if (count == 0) {
                t.len = 0;
                put(&t, NAMES);
            }
            put_hexadecimal(&t, number, digits);
            put_byte(&t, count % 4 == 3 ? '\n' : ' ');
            rows[count++] = (uint16_t)number;
            if (count == 2048 || (number == 65535 && digits == 4)) {
                ACCEPT(ALL_OF(t), rows, count);
                count = 0;
            }
        }
    check(count == 0, HERE, "%zu values are not read", count);
}

/*
  A word of h and len bytes, one of which is the byte and the others digits: as
  value i of the only line, under names whose columns are place[0], place[1], ..
  It is a value if there are one to four of them and the byte is a digit. A
  newline ends the line, and is the end of a good one before bytes that are none.
*/
static void test_word(const text *names, const size_t place[4], size_t i, size_t len, size_t at, int byte)
{
    static const char digits[] = "0123456789abcdef";
    static text t;
    static uint16_t numbers[2048];
    uint16_t row[5] = {5, 6, 7, 8, 9}; /* one number more than a row: it stays */
    unsigned value = 0;
    bool good = len >= 1 && len <= 4;

    t.len = names->len;
    memcpy(t.bytes, names->bytes, names->len);
    for (size_t j = 0; j < 4; j++) {
        if (j != i) {
            put_number(&t, row[place[j]]);
        } else {
            put_byte(&t, 'h');
            for (size_t k = 0; k < len; k++) {
                int put_here = k == at ? byte : digits[(5 * k + 3 * i + len) % 16];
                const char *digit = put_here == 0 ? NULL : strchr(digits, put_here);
                put_byte(&t, put_here);
                good = good && digit != NULL;
                value = 16 * value + (good ? (unsigned)(digit - digits) : 0);
            }
        }
        put_byte(&t, j == 3 ? '\n' : ' ');
    }
    row[place[i]] = (uint16_t)value;

    for (size_t k = 0; k < 5; k++)
        numbers[k] = 9;
    lw_record want = {.pieces = 1};
    if (!good)
        want = (lw_record){.outcome = 22, .row = byte == '\n' && len != 0 && i == 3 && at >= 1};
    lw_record got = lw_read_sheet(t.bytes, t.len, numbers, 2048);
    if (!good)
        row[0] = row[1] = row[2] = row[3] = 9;
    if (!check(same_record(got, want) && memcmp(numbers, row, sizeof row) == 0, HERE,
               "h and %zu bytes, byte %d at %zu, value %zu: record %u %u .. %u, expected %u %u .. %u", len, byte, at, i,
               got.outcome, got.pieces, got.row, want.outcome, want.pieces, want.row) && checks_failed == 1)
        print_text(t.bytes, t.len);
}

/* h and up to five bytes, of which each is every byte once; in each column, under each order of the names. */
static void test_bytes_behind_h(void)
{
    static const char *const column[] = {"kind", "a", "b", "c"};
    static text names;
    size_t orders = 0;

    for (size_t code = 0; code < 256; code++) {
        const size_t place[4] = {code / 64, code / 16 % 4, code / 4 % 4, code % 4};
        unsigned seen = 0;
        names.len = 0;
        for (size_t i = 0; i < 4; i++) {
            put(&names, column[place[i]]);
            put_byte(&names, i == 3 ? '\n' : ' ');
            seen |= 1U << place[i];
        }
        if (seen != 15)
            continue;
        orders++;
        for (size_t i = 0; i < 4; i++) {
            test_word(&names, place, i, 0, 0, 0);
            for (size_t len = 1; len <= 5; len++)
                for (size_t at = 0; at < len; at++)
                    for (int byte = 0; byte < 256; byte++)
                        test_word(&names, place, i, len, at, byte);
        }
    }
    check(orders == 24, HERE, "%zu orders of the names", orders);
}

/* The names in each order, and every other row of four names; the columns are written as kind, a, b, c. */
static void test_orders(void)
{
    static const char *const names[] = {"kind", "a", "b", "c"};
    static text t;
    size_t orders = 0;

    ACCEPT(TEXT("c b a kind\n0 0 8 0\n"), TABLE(VARIABLE(8)));
    ACCEPT(TEXT("a kind b c\n8 0 0 0\n0 3 6 3\n"), TABLE(VARIABLE(8), CUT(0, 6, 3)));
    ACCEPT(TEXT("b c kind a\n3 4 1 2\n7 8 5 6\n11 12 9 10\n"), TABLE(1, 2, 3, 4, 5, 6, 7, 8, 9, 10, 11, 12));
    for (size_t code = 0; code < 256; code++) {
        const size_t place[4] = {code / 64, code / 16 % 4, code / 4 % 4, code % 4};
        uint16_t rows[12];
        bool seen[4] = {false, false, false, false};

        t.len = 0;
        for (size_t i = 0; i < 4; i++) {
            put(&t, names[place[i]]);
            put_byte(&t, i == 3 ? '\n' : ' ');
            seen[place[i]] = true;
        }
        size_t names_len = t.len;
        for (size_t r = 0; r < 3; r++)
            for (size_t i = 0; i < 4; i++) {
                uint16_t value = (uint16_t)(r * 20000 + i * 11 + code);
                put_number(&t, value);
                put_byte(&t, i == 3 ? '\n' : ' ');
                rows[4 * r + place[i]] = value;
            }
        if (seen[0] && seen[1] && seen[2] && seen[3]) {
            orders++;
            ACCEPT(ALL_OF(t), rows, 12);
            ACCEPT(t.bytes, names_len, NO_ROWS);
        } else {
            REFUSE(ALL_OF(t), 21, 0);
            REFUSE(t.bytes, names_len, 21, 0);
        }
    }
    check(orders == 24, HERE, "%zu orders of the names", orders);
}

/* 21: an empty text, and each wrong line of names, before good lines, bad lines and none. */
static void test_names(void)
{
    static const char *const wrong[] = {
        /* a name missing, doubled, too much, unknown */
        "a b c\n", "kind b c\n", "kind a c\n", "kind a b\n", "kind\n", "a\n",
        "kind a b b\n", "kind kind b c\n", "a a b c\n", "kind a a c\n", "c c c c\n",
        "kind a b c c\n", "kind a b c kind\n", "kind a b c d\n", "kind kind a b c\n",
        "kind a b d\n", "d a b c\n", "kind a b cc\n", "kind aa b c\n", "kin a b c\n", "kinds a b c\n", "ind a b c\n",
        "kid a b c\n", "knid a b c\n", "k a b c\n", "kindkind a b c\n", "kind a b row\n", "variable kind width fresh\n",
        "kind a b 0\n", "0 8 0 0\n", "outcome pieces fresh free ties row\n",
        "kind a b h\n", "kind a b hc\n", "hkind a b c\n", "kind ha hb hc\n", "h0 a b c\n", "h0 h8 h0 h0\n",
        /* upper case */
        "Kind a b c\n", "KIND A B C\n", "kind A b c\n", "kind a B c\n", "kind a b C\n", "kinD a b c\n",
        /* spaces: two, at the start, at the end, none; a space within a name */
        "kind  a b c\n", "kind a  b c\n", "kind a b  c\n", " kind a b c\n", "kind a b c \n", "kind a b c  \n",
        "kinda b c\n", "kind ab c\n", "kind a bc\n", "kindabc\n", "ki nd a b c\n", " \n", "    \n",
        /* other bytes for the space */
        "kind\ta b c\n", "kind a\tb c\n", "kind a b\tc\n", "kind,a,b,c\n", "kind, a, b, c\n", "kind\ra b c\n",
        "kind\va b c\n", "kind\302\240a b c\n",
        /* a tab or a carriage return at the start or the end; other ends; quotes, a comment, a byte order mark */
        "\tkind a b c\n", "kind a b c\t\n", "\rkind a b c\n", "kind a b c\r\n", "kind a b c\r", "kind a b c\r\r\n",
        "kind a b c\f\n", "kind a b c\v\n", "\"kind\" a b c\n", "# kind a b c\n", "\357\273\277kind a b c\n",
        "kind a b \343\n", "\353ind a b c\n",
        /* an empty line first, and the names on two lines */
        "\n", "\nkind a b c\n", "\n\n", "kind\na b c\n", "kind a b\nc\n", "kind a b ",
    };
    static const char *const behind[] = {"", "0 8 0 0\n", "0 8 0 0\n1 1 8 0\n", "x\n", "\n", "0 8 0 0"};
    static text t;

    REFUSE((const uint8_t *)"", 0, 21, 0);
    REFUSE(TEXT("kind a b c"), 21, 0); /* no line's end */
    REFUSE(TEXT("kind a b c0 8 0 0\n"), 21, 0);
    REFUSE(TEXT("kind a b c 0 8 0 0\n"), 21, 0);
    for (size_t i = 0; i < COUNT(wrong); i++)
        for (size_t j = 0; j < COUNT(behind); j++) {
            t.len = 0;
            put(&t, wrong[i]);
            put(&t, behind[j]);
            REFUSE(ALL_OF(t), 21, 0);
        }
    REFUSE(TEXT("kind a b c\0\n0 8 0 0\n"), 21, 0);
    REFUSE(TEXT("\0kind a b c\n0 8 0 0\n"), 21, 0);
    REFUSE(TEXT("kind\0a b c\n0 8 0 0\n"), 21, 0);
    REFUSE(TEXT("kind a b c\0"), 21, 0);
    REFUSE(TEXT("kind a b c\212"), 21, 0); /* 10 with its high bit set */

    /* No line's end at all. */
    t.len = 0;
    put_times(&t, "kind a b c ", 1000);
    REFUSE(ALL_OF(t), 21, 0);
}

/* 22: the line is the first of good ones, the only one, the last and a middle one; before and behind good lines. */
static void refuse_line(where at, const char *words)
{
    static const size_t around[][2] = {{0, 0}, {0, 1}, {1, 0}, {1, 1}, {5, 5}, {511, 0}, {3, 600}};
    static text t;

    for (size_t i = 0; i < COUNT(around); i++) {
        t.len = 0;
        put(&t, NAMES);
        put_times(&t, "0 8 0 0\n", around[i][0]);
        put(&t, words);
        put_times(&t, "0 8 0 0\n", around[i][1]);
        refuse(at, ALL_OF(t), 22, (uint32_t)around[i][0]);
    }
}

/* 22: each wrong value, in each of the four places of a line. */
static void test_wrong_values(void)
{
    static const char *const wrong[] = {
        /* empty: then there are two spaces, or one at the start or the end of the line */
        "",
        /* leading zeros */
        "00", "01", "000", "007", "010", "00000", "000000", "000001", "065535", "0000065535", "00000000000000000008",
        /* signs */
        "+0", "+1", "-0", "-1", "+", "-", "--1", "+65535", "-65535", "1-", "1+",
        /* above 65535: by a little, and by so much that a shorter number wraps */
        "65536", "65537", "65540", "65544", "65599", "65600", "66000", "70000", "75535", "99999", "100000", "131071",
        "131072", "655350", "655360", "999999", "1000000", "4294967295", "4294967296", "4294967297", "4294967304",
        "9999999999", "42949672960", "18446744073709551615", "18446744073709551616", "18446744073709551617",
        "18446744073709551624", "99999999999999999999", "10000000000000000000", "12345678901234567890",
        "340282366920938463463374607431768211456", "340282366920938463463374607431768211464",
        /* letters and other bytes, by themselves and beside digits */
        "a", "kind", "x", "x1", "1x", "1a", "0x8", "0x", "0b1", "0o7", "8u", "8L", "1e3", "1E3", "one", "O", "l", "I",
        /* h without digits, with too many, with capitals and others, with h behind; a number otherwise hexadecimal */
        "h", "hh", "H", "H1", "Hace1", "hA", "hACE1", "hAce1", "hacE1", "hFFFF", "hg", "h1g", "hg1", "hG", "h:", "h/",
        "h`", "h@", "h12345", "h00000", "h00001", "h10000", "h0ace1", "hfffff", "hffffffff", "h00000000000000000001",
        "h0000000000000001", "h100000001", "h10000000000000001", "1h", "ffh", "hffh", "0h1", "00h1", "hh1", "h1h",
        "0x1", "0xace1", "h0x1", "hx1", "x1", "$1", "#1", "ace1", "f", "h+1", "h-1", "+h1", "-h1", "h.1", "h1.", "h_1",
        "h1_0", "h'1", "\\h1", "'h1", "h\2601", "\3501", "h\t1", "h1\t", "h\r1", "h1\r",
        /* other marks */
        "1.0", "1.", ".1", "1,0", "1,", "1'000", "1_000", "65,535", "1;", ":", "/", "0/", "0:", "9:", "*", "#", "\"1\"",
        "\260", "1\260", "\270", "\302\262", "\331\241", "(1)", "1\b",
        /* tabs, carriage returns and other white space beside it */
        "\t1", "1\t", "\r1", "1\r", "\v1", "1\v", "\f1", "1\f", "\t", "\r", "\302\2401",
    };
    static text t;

    for (size_t i = 0; i < COUNT(wrong); i++)
        for (int place = 0; place < 4; place++) {
            char line[256];
            const char *words[4] = {"3", "0", "6", "1"};
            words[place] = wrong[i];
            snprintf(line, sizeof line, "%s %s %s %s\n", words[0], words[1], words[2], words[3]);
            refuse_line(HERE, line);
        }

    /* A space behind h, and within its digits. */
    refuse_line(HERE, "h 1 0 6 1\n");
    refuse_line(HERE, "h 1 0 6\n");
    refuse_line(HERE, "3 h1 0 h 6\n");
    refuse_line(HERE, "3 0 6 h 1\n");
    refuse_line(HERE, "3 0 6 ha 1\n");
    refuse_line(HERE, "3 0 6 h1 \n");

    /* A byte 0, and a value of as many digits as there is room for. */
    REFUSE(TEXT(NAMES "0 8 0 0\0\n"), 22, 0);
    REFUSE(TEXT(NAMES "0 8 0 \0\n"), 22, 0);
    REFUSE(TEXT(NAMES "0 8 0 0\n0 8\0000 0 0\n"), 22, 1);
    REFUSE(TEXT(NAMES "0 8 0 0\n\0"), 22, 1);
    REFUSE(TEXT(NAMES "0 h8 0 h\0\n"), 22, 0);
    REFUSE(TEXT(NAMES "0 h8 0 h0\0\n"), 22, 0);
    REFUSE(TEXT(NAMES "0 h8 0 h0\n0 h\0008 0 0\n"), 22, 1);
    for (int digit = '0'; digit <= '9'; digit++)
        for (int h = 0; h < 2; h++) {
            t.len = 0;
            put(&t, h == 0 ? NAMES "0 8 0 " : NAMES "0 8 0 h");
            while (t.len < 16383)
                put_byte(&t, digit);
            put_byte(&t, '\n');
            REFUSE(ALL_OF(t), 22, 0);
        }
}

/* 22: lines wrong otherwise. */
static void test_wrong_lines(void)
{
    static const char *const wrong[] = {
        /* too few, too many */
        "0\n", "0 8\n", "0 8 0\n", "0 8 0 0 0\n", "0 8 0 0 0 0 0 0\n", "0 8 0 0 x\n", "0800\n", "0 80 0\n",
        /* two spaces, at the start, at the end; other separators */
        "0  8 0 0\n", "0 8  0 0\n", "0 8 0  0\n", " 0 8 0 0\n", "  0 8 0 0\n", "0 8 0 0 \n", "0 8 0 0  \n", " \n",
        "   \n", "0 8 0 \n", " 8 0 0\n", "0\t8\t0\t0\n", "0 8 0\t0\n", "0,8,0,0\n", "0, 8, 0, 0\n", "\t0 8 0 0\n",
        "0 8 0 0\t\n",
        /* a carriage return before the end, or for it */
        "0 8 0 0\r\n", "0 8 0 0\r\r\n", "\r\n", "\r0 8 0 0\n", "0 8 0 0\r0 8 0 0\n", "0 8 0 0\f\n", "0 8 0 0\v\n",
        /* a line in two */
        "0 8\n0 0\n", "0 8 0\n0\n", "0 8 0 \n0\n",
        /* empty, names, a comment */
        "\n", "\n\n", NAMES, "# 0 8 0 0\n", "0 8 0 0 # x\n", "x\n", ";\n", "0 8 0 0;\n",
    };
    static text t;

    for (size_t i = 0; i < COUNT(wrong); i++)
        refuse_line(HERE, wrong[i]);

    /* An empty line in the middle, at the end, right behind the names; two of them. */
    REFUSE(TEXT(NAMES "0 8 0 0\n\n3 0 6 3\n"), 22, 1);
    REFUSE(TEXT(NAMES "0 8 0 0\n3 0 6 3\n\n"), 22, 2);
    REFUSE(TEXT(NAMES "\n0 8 0 0\n"), 22, 0);
    REFUSE(TEXT(NAMES "\n"), 22, 0);
    REFUSE(TEXT(NAMES "\n\n"), 22, 0);
    REFUSE(TEXT(SHEET "\n"), 22, 4);
    REFUSE(TEXT(SHEET "\n\n"), 22, 4);

    /* The last line without its end: whole, cut short, with another byte for its end. */
    static const char *const last[] = {
        "0 8 0 0", "0 8 0 ", "0 8 0", "0 8 ", "0 8", "0 ", "0", " ", "x", "65536", "0 8 0 00", "0 8 0 0 ", "0 8 0 0\r",
        "0 8 0 0\t", "0 8 0 0\212", "0 8 0 0\v", "0 8 0 65535", "0 8 0 65536", "\r",
        "0 8 0 h", "0 8 0 h0", "0 8 0 hffff", "0 8 0 hfffff", "h", "h1", "h1 ",
    };
    for (size_t i = 0; i < COUNT(last); i++)
        for (size_t lines = 0; lines < 512; lines = 2 * lines + 1) {
            t.len = 0;
            put(&t, NAMES);
            put_times(&t, "0 8 0 0\n", lines);
            put(&t, last[i]);
            REFUSE(ALL_OF(t), 22, (uint32_t)lines);
        }

    /* Two bad lines: the first. */
    REFUSE(TEXT(NAMES "0 8 0 0\nx\n0 8 0 0\ny\n"), 22, 1);
    REFUSE(TEXT(NAMES "0 8 0 0\n0 8 0 0\n0 8 0 \n0 8 0 0"), 22, 2);
    REFUSE(TEXT(NAMES "0 8 0 0\n\n0 8 0 0"), 22, 1);
}

/* 512 and 513 lines, and a malformed line among many. */
static void test_lines(void)
{
    static const char *const more[] = {
        "0 8 0 0\n", "65535 65535 65535 65535\n", "x\n", "\n", "\n\n", "0 8 0 0", "0 8 0", "0", " ", "x", "0 8 0 0\r\n",
        "0 8 0 65536\n", "00 8 0 0\n", "\r", "\r\n", "0 8 0 0\n0 8 0 0\n", "0 8 0 0\nx\n", "0 8 0 0\n0 8 0 0", NAMES,
    };
    static text t, lines;
    static uint16_t rows[2048];

    /* 508 to 512 lines, each with numbers of its own. */
    lines.len = 0;
    put(&lines, "b kind c a\n");
    for (size_t i = 0; i < 512; i++) {
        uint16_t *row = rows + 4 * i;
        row[0] = (uint16_t)i, row[1] = (uint16_t)(65535 - i), row[2] = (uint16_t)(i * i), row[3] = (uint16_t)(7 * i);
        put_number(&lines, row[2]);
        put_byte(&lines, ' ');
        put_number(&lines, row[0]);
        put_byte(&lines, ' ');
        put_number(&lines, row[3]);
        put_byte(&lines, ' ');
        put_number(&lines, row[1]);
        put_byte(&lines, '\n');
        if (i >= 508 - 1)
            ACCEPT(ALL_OF(lines), rows, 4 * (i + 1));
    }

    /* A 513th line is 23 whatever it holds. */
    for (size_t i = 0; i < COUNT(more); i++) {
        t = lines;
        put(&t, more[i]);
        REFUSE(ALL_OF(t), 23, 512);
    }
    for (size_t count = 514; count < 1500; count += 241) {
        t.len = 0;
        put(&t, NAMES);
        put_times(&t, "0 8 0 0\n", count);
        REFUSE(ALL_OF(t), 23, 512);
    }

    /* Lines 0 to 511 come first: a malformed line of 600 is 22, and from line 512 on it is not looked at. */
    for (size_t bad = 0; bad < 600; bad++) {
        bool often = bad < 8 || (bad >= 508 && bad < 516) || bad == 599;
        if (!often && bad % 50 != 0)
            continue;
        for (int kind = 0; kind < 3; kind++) {
            t.len = 0;
            put(&t, NAMES);
            put_times(&t, "0 8 0 0\n", bad);
            put(&t, kind == 0 ? "x\n" : kind == 1 ? "\n" : "0 8 0 65536\n");
            put_times(&t, "0 8 0 0\n", 600 - bad - 1);
            if (bad < 512)
                REFUSE(ALL_OF(t), 22, (uint32_t)bad);
            else
                REFUSE(ALL_OF(t), 23, 512);
        }
    }

    /* Line 5 and a later one; the last of 512 without its end. */
    t.len = 0;
    put(&t, NAMES);
    put_times(&t, "0 8 0 0\n", 5);
    put(&t, "0 8 0 0 \n");
    put_times(&t, "0 8 0 0\n", 506);
    put(&t, "0 8 0 0");
    REFUSE(ALL_OF(t), 22, 5);
    t.len = 0;
    put(&t, NAMES);
    put_times(&t, "0 8 0 0\n", 511);
    put(&t, "0 8 0 0");
    REFUSE(ALL_OF(t), 22, 511);

    /* The names are tested before the lines. */
    t.len = 0;
    put(&t, "kind a b C\n");
    put_times(&t, "0 8 0 0\n", 600);
    REFUSE(ALL_OF(t), 21, 0);
}

/* 20: over 16384 bytes, whatever they are. */
static void test_size(void)
{
    static text t;
    static uint16_t rows[2048];

    /* The longest good sheet has 12299 bytes: 512 lines of values of five digits. */
    t.len = 0;
    put(&t, NAMES);
    put_times(&t, "65535 65535 65535 65535\n", 512);
    for (size_t i = 0; i < 2048; i++)
        rows[i] = 65535;
    check(t.len == 12299, HERE, "the longest good sheet has %zu bytes", t.len);
    ACCEPT(ALL_OF(t), rows, 2048);
    t.len = 0;
    put(&t, NAMES);
    put_times(&t, "hffff 65535 hffff hffff\n", 512);
    check(t.len == 12299, HERE, "the longest good sheet in hexadecimal has %zu bytes", t.len);
    ACCEPT(ALL_OF(t), rows, 2048);

    /*
      So one of 16384 bytes has some fault, which is then the refusal: names, a
      line, too many lines. With one byte more it is 20, and so are all longer
      ones, also those whose length is that of a good sheet as a 16-bit number.
    */
    static const struct { const char *start, *line; uint32_t number, row; } sheets[] = {
        {"", "kind a b c ", 21, 0},
        {"", "k", 21, 0},
        {"", "\n", 21, 0},
        {"kind a b b\n", "0 8 0 0\n", 21, 0},
        {NAMES, "9", 22, 0},
        {NAMES, "0", 22, 0},
        {NAMES, "\n", 22, 0},
        {NAMES "0 8 0 0\n1 1 8 0\n", "x\n", 22, 2},
        {NAMES "0 8 0 0\n1 1 8 0\n", "0 0 0 0 ", 22, 2},
        {NAMES, "0 8 0 0\n", 23, 512},
        {NAMES "0 8 0 0\n", "65535 65535 65535 65535\n", 23, 512},
        {NAMES, "hf", 22, 0},
        {NAMES "5 hace1 16 0\n", "h0 h8 h0 h0\n", 23, 512},
    };
    static const size_t longer[] = {16385, 16386, 16400, 32768, 65535, 65536, 65536 + 11, 65536 + 19, 131072 + 11};
    for (size_t i = 0; i < COUNT(sheets); i++) {
        t.len = 0;
        put(&t, sheets[i].start);
        while (t.len < 140000)
            put(&t, sheets[i].line);
        REFUSE(t.bytes, 16384, sheets[i].number, sheets[i].row);
        REFUSE(t.bytes, 16383, sheets[i].number, sheets[i].row);
        for (size_t j = 0; j < COUNT(longer); j++)
            REFUSE(t.bytes, longer[j], 20, 0);
    }

    /* Good lines only, of exactly 16384 and 16385 bytes. */
    for (int more = 0; more < 2; more++) {
        t.len = 0;
        put(&t, NAMES "0 0 0 0\n");
        put_times(&t, "65535 65535 65535 65535\n", 681);
        put(&t, more == 0 ? "10000 10000 10000 10\n" : "10000 10000 10000 100\n");
        check(t.len == 16384 + (size_t)more, HERE, "%zu bytes", t.len);
        if (more == 0)
            REFUSE(ALL_OF(t), 23, 512);
        else
            REFUSE(ALL_OF(t), 20, 0);
    }
}

/* 32: an output below 2048 numbers, however few the rows are; tested last. */
static void test_output(void)
{
    static text t;
    static uint16_t rows[2048];
    static const size_t long_lengths[] = {
        2048, 2049, 2050, 2051, 2052, 4096, 65535, 65536, 65537, 65536 + 2047, 200000,
    };

    t.len = 0;
    put(&t, NAMES);
    for (size_t i = 0; i < 512; i++) {
        put(&t, "3 1 4 15\n");
        memcpy(rows + 4 * i, (const uint16_t[]){3, 1, 4, 15}, 8);
    }
    for (size_t len = 0; len < 2048; len++) {
        lw_record want = {.outcome = 32};
        call(HERE, "short output", TEXT(SHEET), sizeof SHEET - 1, NULL, len, want, NULL);
        if (len % 64 == 0 || len >= 2040 || len < 8) {
            call(HERE, "short output, no rows", TEXT(NAMES), sizeof NAMES - 1, NULL, len, want, NULL);
            call(HERE, "short output, 512 rows", ALL_OF(t), t.len, NULL, len, want, NULL);
        }
    }
    for (size_t i = 0; i < COUNT(long_lengths); i++) {
        call(HERE, "long output", TEXT(NAMES "3 1 4 15\n"), sizeof NAMES + 8, NULL, long_lengths[i],
             (lw_record){.pieces = 1}, rows);
        call(HERE, "long output, no rows", TEXT(NAMES), sizeof NAMES - 1, NULL, long_lengths[i],
             (lw_record){.pieces = 0}, NULL);
        call(HERE, "long output, 512 rows", ALL_OF(t), t.len, NULL, long_lengths[i], (lw_record){.pieces = 512}, rows);
    }

    /* Behind every other refusal; most are had with short outputs by refuse() too. */
    put(&t, "3 1 4 15");
    call(HERE, "23 before 32", ALL_OF(t), t.len, NULL, 2047, (lw_record){.outcome = 23, .row = 512}, NULL);
    call(HERE, "22 before 32", ALL_OF(t), t.len - 9, NULL, 2047, (lw_record){.outcome = 22, .row = 511}, NULL);
    call(HERE, "21 before 32", ALL_OF(t), 10, NULL, 2047, (lw_record){.outcome = 21}, NULL);
}

/* Every start of a sheet that goes on behind what is lent: nothing behind it is read. */
static void test_starts_of(const char *sheet, const uint16_t *rows)
{
    size_t len = strlen(sheet), lines = 0; /* that end within what is lent */

    for (size_t lent = 0; lent <= len; lent++) {
        lw_record want = {.outcome = 0};
        if (lent != 0 && sheet[lent - 1] == '\n')
            lines++;
        if (lines == 0)
            want.outcome = 21;
        else if (sheet[lent - 1] == '\n')
            want.pieces = (uint32_t)(lines - 1);
        else
            want.outcome = 22, want.row = (uint32_t)(lines - 1);
        call(HERE, "start of a sheet", (const uint8_t *)sheet, len, lent, NULL, 2048, want, rows);
    }
}

static void test_starts(void)
{
    static const uint16_t rows[] = {0, 8, 0, 0, 3, 0, 6, 3, 3, 0, 4, 1, 4, 1, 2, 0};
    static const uint16_t marker[] = {0, 16, 0, 0, 5, 44257, 16, 0, 4, 0, 1, 0};
    test_starts_of(SHEET, rows);
    test_starts_of(NAMES "h0 h10 h0 h0\n5 hace1 16 h0000\nh4 h0 h1 h0\n", marker);
}

/* NULL with length 0 for each buffer. */
static void test_null(void)
{
    static uint16_t numbers[2048];
    static const uint8_t bytes[] = {'k', 'i', 'n', 'd', ' ', 'a', ' ', 'b', ' ', 'c', 10};
    for (size_t i = 0; i < 2048; i++)
        numbers[i] = 9;

#define REFUSE_NULL(name, number, ...) \
    check_record(HERE, name, lw_read_sheet(__VA_ARGS__), (lw_record){.outcome = (number)})
    REFUSE_NULL("both NULL", 21, NULL, 0, NULL, 0);
    REFUSE_NULL("sheet NULL", 21, NULL, 0, numbers, 2048);
    REFUSE_NULL("sheet NULL, short output", 21, NULL, 0, numbers, 2047);
    REFUSE_NULL("table NULL", 32, bytes, sizeof bytes, NULL, 0);
    REFUSE_NULL("table NULL, names refused", 21, bytes, sizeof bytes - 1, NULL, 0);
#undef REFUSE_NULL
    for (size_t i = 0; i < 2048; i++)
        if (!check(numbers[i] == 9, HERE, "table written by a refusal"))
            break;
}

/* The specification's sheet, read and then worked on. */
static void test_use(void)
{
    static uint16_t numbers[2048], form[4096];
    static const uint8_t pattern[] = {1, 0, 1, 1, 0, 0, 1, 0};
    static const struct { size_t row, width; uint8_t value[8]; uint16_t form[4]; } rows[] = {
        {0, 8, {1, 0, 1, 1, 0, 0, 1, 0}, {PART_OF(7, 0)}},
        {1, 4, {0, 1, 1, 0}, {PART_OF(6, 3)}},
        {2, 4, {1, 0, 0, 1}, {PART_OF(4, 1)}},
    };
    uint8_t value[8];

    lw_record read = lw_read_sheet(TEXT(SHEET), numbers, 2048);
    check_record(HERE, "read", read, (lw_record){.pieces = 4});
    size_t len = 4 * (size_t)read.pieces;
    for (size_t i = 0; i < COUNT(rows); i++) {
        check_record(HERE, "value", lw_value(numbers, len, rows[i].row, pattern, 8, value, 8),
                     (lw_record){.free = (uint32_t)rows[i].width});
        check(memcmp(value, rows[i].value, rows[i].width) == 0, HERE, "value of row %zu", rows[i].row);
        check_record(HERE, "normal form", lw_normal_form(numbers, len, rows[i].row, form, 4096),
                     (lw_record){.pieces = 1, .free = (uint32_t)rows[i].width});
        check(memcmp(form, rows[i].form, 8) == 0, HERE, "normal form of row %zu", rows[i].row);
    }
    check_record(HERE, "an equation", lw_value(numbers, len, 3, pattern, 8, value, 8), (lw_record){.outcome = 30});

    /* A kind of 9 is read, and refused by the call that works on the table. */
    read = lw_read_sheet(TEXT(NAMES "0 8 0 0\n9 0 0 0\n"), numbers, 2048);
    check_record(HERE, "kind 9", read, (lw_record){.pieces = 2});
    check_record(HERE, "kind 9", lw_value(numbers, 4 * (size_t)read.pieces, 0, pattern, 8, value, 8),
                 (lw_record){.outcome = 12, .row = 1});

    /* A marker: its bits, and its fills. One that is too large is read, and refused by the call. */
    static const uint8_t bits[] = {0, 1, 1, 0};
    static const uint16_t fills[] = {0, 0, 0, 0, 1, 0, 1, 0, 0, 0, 0, 0};
    read = lw_read_sheet(TEXT(NAMES "0 8 0 0\n5 h6 4 0\n"), numbers, 2048);
    check_record(HERE, "marker", read, (lw_record){.pieces = 2});
    check_record(HERE, "marker", lw_value(numbers, 8, 1, pattern, 8, value, 8), (lw_record){.free = 4});
    check(memcmp(value, bits, sizeof bits) == 0, HERE, "value of a marker");
    check_record(HERE, "marker", lw_normal_form(numbers, 8, 1, form, 4096), (lw_record){.pieces = 3, .free = 4});
    check(memcmp(form, fills, sizeof fills) == 0, HERE, "normal form of a marker");
    read = lw_read_sheet(TEXT(NAMES "0 8 0 0\n5 h10 4 0\n"), numbers, 2048);
    check_record(HERE, "marker of 16 in 4 bits", read, (lw_record){.pieces = 2});
    check_record(HERE, "marker of 16 in 4 bits", lw_value(numbers, 8, 1, pattern, 8, value, 8),
                 (lw_record){.outcome = 40, .row = 1});

    /* No rows. */
    read = lw_read_sheet(TEXT(NAMES), numbers, 2048);
    check_record(HERE, "no rows", read, (lw_record){.pieces = 0});
    check_record(HERE, "no rows", lw_normal_form(numbers, 4 * (size_t)read.pieces, 0, form, 4096),
                 (lw_record){.outcome = 30});
}

/* Speed. */

static void read_text(const void *input)
{
    static uint16_t numbers[2048];
    const text *t = input;
    lw_read_sheet(t->bytes, t->len, numbers, 2048);
}

/* The time grows with the text, not with its square. */
static void test_speed(void)
{
    static text small, large;
    static uint16_t rows[2048];

    small.len = large.len = 0;
    put(&small, NAMES);
    put_times(&small, "65535 65535 65535 65535\n", 64);
    put(&large, NAMES);
    put_times(&large, "65535 65535 65535 65535\n", 512);
    for (size_t i = 0; i < 2048; i++)
        rows[i] = 65535;
    ACCEPT(ALL_OF(small), rows, 4 * 64);
    ACCEPT(ALL_OF(large), rows, 4 * 512);
    medians t = time_both(read_text, &small, &large);
    printf("a call on a sheet of 64 lines: %.2f us, of 512 lines: %.2f us\n", 1e6 * t.small, 1e6 * t.large);
    printf("time for 512 lines / 64 lines: %.1f\n", t.large / t.small);
    check(t.large <= 16 * t.small, HERE, "512 lines take over 16 times as long as 64");
}

const test_list tests = {
    .name = "sheet", .inputs = 100000,
    .groups = {
        {.name = "the header's constants", .run = test_constants},
        {.name = "sheets", .run = test_sheets},
        {.name = "values", .run = test_values},
        {.name = "hexadecimal values", .run = test_hexadecimal},
        {.name = "every byte behind h", .run = test_bytes_behind_h},
        {.name = "the 24 orders of the names", .run = test_orders},
        {.name = "refusal 21", .run = test_names},
        {.name = "refusal 22: wrong values", .run = test_wrong_values},
        {.name = "refusal 22: wrong lines", .run = test_wrong_lines},
        {.name = "512 lines, and a 513th", .run = test_lines},
        {.name = "16384 bytes, and 16385", .run = test_size},
        {.name = "refusal 32", .run = test_output},
        {.name = "every start of a sheet", .run = test_starts},
        {.name = "NULL with length 0", .run = test_null},
        {.name = "a sheet read and used", .run = test_use},
        {.name = "one byte, against the reference", .run = test_one_byte},
        {.name = "words, against the reference", .run = test_words},
        {.name = "random sheets against the reference", .run_random = test_random_sheets},
        {.name = "speed", .run = test_speed},
    },
};
