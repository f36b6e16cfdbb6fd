/* reference.c -- a second evaluator of term tables, and a second reader of sheets: see reference.h */

#include "reference.h"

#include <stdlib.h>
#include <string.h>

enum { VARIABLE = 0, FILL = 1, JOIN = 2, CUT = 3, EQUATION = 4, VALUE = 5 };

typedef struct {
    unsigned kind, a, b, c;
} row_numbers;

static row_numbers row_of(const uint16_t *table, size_t r)
{
    const uint16_t *n = table + 4 * r;
    return (row_numbers){n[0], n[1], n[2], n[3]};
}

static lw_record refusal(unsigned number, size_t row)
{
    return (lw_record){.outcome = number, .row = (uint32_t)row};
}

/* How many rows of a kind there are among rows 0 to r. */
static size_t count_to(const uint16_t *table, size_t r, unsigned kind)
{
    size_t count = 0;
    for (size_t i = 0; i <= r; i++)
        if (row_of(table, i).kind == kind)
            count++;
    return count;
}

/* The variable bits of rows 0 to r. */
static size_t bits_to(const uint16_t *table, size_t r)
{
    size_t bits = 0;
    for (size_t i = 0; i <= r; i++)
        if (row_of(table, i).kind == VARIABLE)
            bits += row_of(table, i).a;
    return bits;
}

/* Whether row r may not name row n. */
static bool bad_name(const uint16_t *table, size_t r, size_t n)
{
    return n >= r || row_of(table, n).kind == EQUATION;
}

/* The width of row r, which breaks none of the rules 12 to 14, nor 16 if it is a cut. */
static size_t width_of(const uint16_t *table, size_t r, const size_t width[])
{
    row_numbers w = row_of(table, r);
    switch (w.kind) {
    case VARIABLE: return w.a;
    case FILL:     return w.b;
    case VALUE:    return w.b;
    case JOIN:     return width[w.a] + width[w.b];
    case CUT:      return (size_t)w.b - w.c + 1;
    default:       return 0;
    }
}

/* 2 to the width; that is at most 16. */
static unsigned power_of_2(size_t width)
{
    unsigned power = 1;
    while (width-- != 0)
        power *= 2;
    return power;
}

/* Whether row r breaks the rule of this number. It breaks none before that, and earlier rows break none. */
static bool breaks(const uint16_t *table, size_t r, unsigned rule, const size_t width[])
{
    row_numbers w = row_of(table, r);
    size_t own;

    switch (rule) {
    case 12: /* no such kind: it begins at 6 */
        return w.kind >= 6;
    case 13: /* unused column not 0 */
        switch (w.kind) {
        case VARIABLE: return w.b != 0 || w.c != 0;
        case CUT:
        case EQUATION: return false; /* c is the low bound, or the line number */
        default:       return w.c != 0;
        }
    case 14: /* a named row is not earlier, or is an equation */
        switch (w.kind) {
        case JOIN:
        case EQUATION: return bad_name(table, r, w.a) || bad_name(table, r, w.b);
        case CUT:      return bad_name(table, r, w.a);
        default:       return false;
        }
    case 15: /* width of any row but a cut outside 1 to 1,024, or a fill's bit above 1 */
        if (w.kind == CUT || w.kind == EQUATION)
            return false;
        own = width_of(table, r, width);
        return own < 1 || own > 1024 || (w.kind == FILL && w.a > 1);
    case 40: /* a width above 16 or a value that does not fit its width */
        return w.kind == VALUE && (w.b > 16 || w.a >= power_of_2(w.b));
    case 16: /* cut: high not below the width, or low above high */
        return w.kind == CUT && (w.b >= width[w.a] || w.c > w.b);
    case 17: /* variable or equation beyond its maximum, or variable bits beyond 4,096 */
        switch (w.kind) {
        case VARIABLE: return count_to(table, r, VARIABLE) > 64 || bits_to(table, r) > 4096;
        case EQUATION: return count_to(table, r, EQUATION) > 64;
        default:       return false;
        }
    default:
        return false;
    }
}

lw_record ref_check(const uint16_t *table, size_t table_len, ref_table *facts)
{
    static const unsigned rules[] = {12, 13, 14, 15, 40, 16, 17}; /* in this order; 40 is after 15 */

    if (table_len % 4 != 0 || table_len / 4 > 512)
        return refusal(11, 512);
    facts->rows = table_len / 4;
    facts->bits = 0;
    for (size_t r = 0; r < facts->rows; r++) {
        for (size_t i = 0; i < sizeof rules / sizeof rules[0]; i++)
            if (breaks(table, r, rules[i], facts->width))
                return refusal(rules[i], r);
        facts->width[r] = width_of(table, r, facts->width);
        facts->place[r] = facts->bits;
        if (row_of(table, r).kind == VARIABLE)
            facts->bits += facts->width[r];
    }
    return refusal(0, 0);
}

/* Bit j of a number, the low bit being bit 0. */
static uint8_t bit_of(unsigned number, size_t j)
{
    return number / power_of_2(j) % 2;
}

void ref_values(const uint16_t *table, const ref_table *facts, size_t count,
                const uint8_t *pattern, uint8_t values[][REF_WIDTH])
{
    const size_t *width = facts->width;

    for (size_t r = 0; r < count; r++) {
        row_numbers w = row_of(table, r);
        switch (w.kind) {
        case VARIABLE:
            memcpy(values[r], pattern + facts->place[r], width[r]);
            break;
        case FILL:
            memset(values[r], (int)w.a, width[r]);
            break;
        case VALUE: /* the high bit first */
            for (size_t i = 0; i < width[r]; i++)
                values[r][i] = bit_of(w.a, width[r] - 1 - i);
            break;
        case JOIN: /* side by side, the left part high */
            memcpy(values[r], values[w.a], width[w.a]);
            memcpy(values[r] + width[w.a], values[w.b], width[w.b]);
            break;
        case CUT: /* bit j of a word of n bits stands at n - 1 - j */
            memcpy(values[r], values[w.a] + (width[w.a] - 1 - w.b), width[r]);
            break;
        default:
            break;
        }
    }
}

bool ref_counts(const uint16_t *table, const ref_table *facts, size_t r)
{
    row_numbers w = row_of(table, r);

    if (w.kind != EQUATION)
        return false;
    for (size_t later = r + 1; w.c > 0 && later < facts->rows; later++)
        if (row_of(table, later).kind == EQUATION && row_of(table, later).c == w.c)
            return false;
    return true;
}

/* A value brought to a width that is not below its own: zeros at the high end, and then its bits. */
static void fill_up(const uint8_t *value, size_t width, uint8_t *filled, size_t filled_width)
{
    memset(filled, 0, filled_width - width);
    memcpy(filled + (filled_width - width), value, width);
}

bool ref_meets(const uint16_t *table, const ref_table *facts, const uint8_t *pattern)
{
    static uint8_t values[REF_ROWS][REF_WIDTH], left[REF_WIDTH], right[REF_WIDTH];
    const size_t *width = facts->width;

    ref_values(table, facts, facts->rows, pattern, values);
    for (size_t r = 0; r < facts->rows; r++) {
        row_numbers w = row_of(table, r);
        if (!ref_counts(table, facts, r))
            continue;
        size_t wider = width[w.a] > width[w.b] ? width[w.a] : width[w.b];
        fill_up(values[w.a], width[w.a], left, wider);
        fill_up(values[w.b], width[w.b], right, wider);
        if (memcmp(left, right, wider) != 0)
            return false;
    }
    return true;
}

lw_record ref_value(const uint16_t *table, size_t table_len, size_t row,
                    const uint8_t *pattern, size_t pattern_len,
                    uint8_t *value, size_t value_len)
{
    static ref_table facts;
    static uint8_t values[REF_ROWS][REF_WIDTH];

    lw_record record = ref_check(table, table_len, &facts);
    if (record.outcome != 0)
        return record;
    if (row >= facts.rows || row_of(table, row).kind == EQUATION)
        return refusal(30, 0);
    if (pattern_len != facts.bits)
        return refusal(31, 0);
    for (size_t i = 0; i < pattern_len; i++)
        if (pattern[i] > 1)
            return refusal(31, 0);
    if (value_len < facts.width[row])
        return refusal(32, 0);

    ref_values(table, &facts, row + 1, pattern, values);
    memcpy(value, values[row], facts.width[row]);
    return (lw_record){.outcome = 0, .free = (uint32_t)facts.width[row]};
}

void ref_sources(const uint16_t *table, const ref_table *facts, size_t count,
                 ref_source sources[][REF_WIDTH])
{
    const size_t *width = facts->width;
    uint8_t variables = 0; /* those met so far */

    for (size_t r = 0; r < count; r++) {
        row_numbers w = row_of(table, r);
        switch (w.kind) {
        case VARIABLE: /* numbered from 0 as they appear */
            for (size_t i = 0; i < width[r]; i++)
                sources[r][i] = (ref_source){2, variables, (uint16_t)(width[r] - 1 - i)};
            variables++;
            break;
        case FILL:
            for (size_t i = 0; i < width[r]; i++)
                sources[r][i] = (ref_source){(uint8_t)w.a, 0, 0};
            break;
        case VALUE:
            for (size_t i = 0; i < width[r]; i++)
                sources[r][i] = (ref_source){bit_of(w.a, width[r] - 1 - i), 0, 0};
            break;
        case JOIN:
            memcpy(sources[r], sources[w.a], width[w.a] * sizeof(ref_source));
            memcpy(sources[r] + width[w.a], sources[w.b], width[w.b] * sizeof(ref_source));
            break;
        case CUT:
            memcpy(sources[r], sources[w.a] + (width[w.a] - 1 - w.b), width[r] * sizeof(ref_source));
            break;
        default:
            break;
        }
    }
}

/* Whether a bit belongs to the piece of the bit on its left. */
static bool one_piece(ref_source left, ref_source right)
{
    if (left.kind == 2 && right.kind == 2) /* bits i to j and j-1 to k of one variable */
        return left.variable == right.variable && left.bit == right.bit + 1;
    return left.kind == right.kind;        /* fills of one bit */
}

lw_record ref_normal_form(const uint16_t *table, size_t table_len, size_t row,
                          uint16_t *form, size_t form_len)
{
    static ref_table facts;
    static ref_source sources[REF_ROWS][REF_WIDTH];

    lw_record record = ref_check(table, table_len, &facts);
    if (record.outcome != 0)
        return record;
    if (row >= facts.rows || row_of(table, row).kind == EQUATION)
        return refusal(30, 0);
    if (form_len < 4096)
        return refusal(32, 0);

    ref_sources(table, &facts, row + 1, sources);
    const ref_source *bits = sources[row];
    size_t width = facts.width[row], pieces = 0, from = 0;
    while (from < width) {
        size_t to = from; /* the last bit of the piece */
        while (to + 1 < width && one_piece(bits[to], bits[to + 1]))
            to++;
        uint16_t *piece = form + 4 * pieces;
        piece[0] = bits[from].kind;
        piece[1] = bits[from].variable;
        piece[2] = bits[from].kind == 2 ? bits[from].bit : (uint16_t)(to - from);
        piece[3] = bits[to].bit; /* 0 for a fill */
        pieces++;
        from = to + 1;
    }
    return (lw_record){.outcome = 0, .pieces = (uint32_t)pieces, .free = (uint32_t)width};
}

/* Sheets. */

/* A part of a text: a line without its end, or a word. */
typedef struct {
    const uint8_t *bytes;
    size_t len;
} part;

/*
  Splits a text at every byte of this value into the parts between them, which
  may be empty: always one part more than there are such bytes. Gives how many
  they are; the first max of them are kept.
*/
static size_t split(part text, uint8_t at, part parts[], size_t max)
{
    size_t count = 0, from = 0;
    for (size_t i = 0; i <= text.len; i++)
        if (i == text.len || text.bytes[i] == at) {
            if (count < max)
                parts[count] = (part){text.len == 0 ? text.bytes : text.bytes + from, i - from};
            count++;
            from = i + 1;
        }
    return count;
}

/* The column of this name; -1 if there is none. */
static int column_of(part word)
{
    static const char *const names[] = {"kind", "a", "b", "c"};
    for (int i = 0; i < 4; i++)
        if (word.len == strlen(names[i]) && memcmp(word.bytes, names[i], word.len) == 0)
            return i;
    return -1;
}

/*
  The number that a word stands for; -1 if there is none. It is decimal, or the
  letter h and one to four hexadecimal digits, among which leading zeros are
  good.
*/
static long number_of(part word)
{
    char text[5 + 1] = ""; /* 65,535 has five digits, and leading zeros are bad there */
    if (word.len < 1 || word.len > 5)
        return -1;
    memcpy(text, word.bytes, word.len);
    if (text[0] == 'h') {
        if (word.len == 1 || strspn(text + 1, "0123456789abcdef") != word.len - 1)
            return -1;
        return strtol(text + 1, NULL, 16);
    }
    if (strspn(text, "0123456789") != word.len || (text[0] == '0' && word.len > 1))
        return -1;
    long number = strtol(text, NULL, 10);
    return number <= 65535 ? number : -1;
}

/* Whether a line is the four names, each once; place[i] is then the column of its i-th word. */
static bool read_names(part line, int place[4])
{
    part words[4];
    bool seen[4] = {false, false, false, false};

    if (split(line, ' ', words, 4) != 4)
        return false;
    for (int i = 0; i < 4; i++) {
        place[i] = column_of(words[i]);
        if (place[i] < 0 || seen[place[i]])
            return false;
        seen[place[i]] = true;
    }
    return true;
}

/* Whether a line is four values; row then has them at their places. */
static bool read_values(part line, const int place[4], uint16_t row[4])
{
    part words[4];

    if (split(line, ' ', words, 4) != 4)
        return false;
    for (int i = 0; i < 4; i++) {
        long number = number_of(words[i]);
        if (number < 0)
            return false;
        row[place[i]] = (uint16_t)number;
    }
    return true;
}

lw_record ref_read_sheet(const uint8_t *sheet, size_t sheet_len, uint16_t *table, size_t table_len)
{
    static part lines[16384 + 1];
    static uint16_t rows[512][4];
    int place[4];

    if (sheet_len > 16384)
        return refusal(20, 0);

    /* Each line ends in byte 10: what is behind the last one is a line if it is not empty, but not a good one. */
    size_t ended = split((part){sheet, sheet_len}, 10, lines, 16384 + 1) - 1;
    size_t count = ended + (lines[ended].len != 0 ? 1 : 0);

    if (ended == 0 || !read_names(lines[0], place))
        return refusal(21, 0);
    for (size_t i = 1; i < count; i++) {
        if (i - 1 == 512)
            return refusal(23, 512);
        if (i == ended || !read_values(lines[i], place, rows[i - 1]))
            return refusal(22, i - 1);
    }
    if (table_len < 4 * 512)
        return refusal(32, 0);
    memcpy(table, rows, (count - 1) * sizeof rows[0]);
    return (lw_record){.outcome = 0, .pieces = (uint32_t)(count - 1)};
}
