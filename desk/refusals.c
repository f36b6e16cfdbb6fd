/*
  refusals.c -- a refused sheet in words: the rule, the line as it stands in the
  sheet, what is wrong with it and what would be right

  The library says which rule is broken and at which row; the words are found by
  looking at that line alone.
*/

#include <string.h>

#include "desk.h"

/* ---- the lines of a sheet */

typedef struct {
    const char *text;
    size_t len;
    bool ended; /* by a newline */
} line;

/* A line by its number, from 0. */
static line line_of(const sheet *s, uint32_t number)
{
    const char *text = (const char *)s->bytes, *end = text + s->len;
    const char *newline;

    while ((newline = memchr(text, '\n', (size_t)(end - text))) != NULL && number-- != 0)
        text = newline + 1;
    return (line){text, (size_t)((newline == NULL ? end : newline) - text), newline != NULL};
}

enum { MOST_SHOWN = 120 };

/* As it stands there; what cannot be seen is written as \r, \t or its number. */
static void put_line(uint32_t number, line l)
{
    put("line %" PRIu32 ": ", number + 1);
    for (size_t i = 0; i < l.len && i < MOST_SHOWN; i++) {
        unsigned char c = (unsigned char)l.text[i];
        if (c == '\r' || c == '\t')
            put(c == '\r' ? "\\r" : "\\t");
        else if (c < 32 || c > 126)
            put("\\x%02x", c);
        else
            put("%c", c);
    }
    put(l.len > MOST_SHOWN ? " ..\n" : "\n");
}

/* Writes that there are two spaces, or a byte that no line has; false if there is neither. */
static bool put_bytes_fault(line l, const char *noun)
{
    for (size_t i = 0; i < l.len; i++) {
        unsigned char c = (unsigned char)l.text[i];
        if (c == ' ' && i != 0 && l.text[i - 1] == ' ')
            put("there are two spaces: one space stands between two %ss\n", noun);
        else if (c < 32 || c > 126)
            put("byte %zu of the line is %u, which stands in no sheet\n", i + 1, c);
        else
            continue;
        return true;
    }
    return false;
}

/* Writes what is wrong with the blanks or the end of a line of names or of values; false if nothing is. */
static bool put_layout(line l, const char *noun)
{
    if (l.len != 0 && l.text[l.len - 1] == '\r')
        put("the line ends in a carriage return (byte 13) %s: lines end in a newline alone\n",
            l.ended ? "before the newline" : "and has no newline");
    else if (!l.ended)
        put("there is no newline at the end: the last line ends in one too\n");
    else if (l.len == 0)
        put("the line is empty: there are no empty lines, also not at the end\n");
    else if (memchr(l.text, '\t', l.len) != NULL)
        put("there is a tab: one space stands between two %ss\n", noun);
    else if (l.text[0] == ' ')
        put("there is a space at the start: a line begins with its first %s\n", noun);
    else if (l.text[l.len - 1] == ' ')
        put("there is a space at the end: the newline follows the last %s\n", noun);
    else
        return put_bytes_fault(l, noun);
    return true;
}

/* The word of a line by its number from 0; len 0 behind the last. */
static line word_of(line l, unsigned number)
{
    const char *end = l.text + l.len;

    for (;; l.text++) {
        const char *space = memchr(l.text, ' ', (size_t)(end - l.text));
        l.len = (size_t)((space == NULL ? end : space) - l.text);
        if (number-- == 0)
            return l;
        if (space == NULL)
            return (line){end, 0, true};
        l.text = space;
    }
}

static unsigned words_of(line l)
{
    unsigned count = 0;

    while (word_of(l, count).len != 0)
        count++;
    return count;
}

/* ---- the line of names and the lines of values */

static const char *const names[ROW] = {"kind", "a", "b", "c"};

/* The column that a word names; ROW if it names none. */
static unsigned column_of(line word)
{
    unsigned column = 0;

    while (column < ROW && (strlen(names[column]) != word.len || memcmp(names[column], word.text, word.len) != 0))
        column++;
    return column;
}

static void put_names_fault(line l)
{
    bool seen[ROW] = {false};

    if (put_layout(l, "name"))
        return;
    for (unsigned i = 0; i < words_of(l); i++) {
        line word = word_of(l, i);
        unsigned column = column_of(word);
        if (column == ROW) {
            put("%.*s is none of the names kind, a, b and c\n", word.len > 40 ? 40 : (int)word.len, word.text);
            return;
        }
        if (seen[column]) {
            put("%s stands there twice: each of the names kind, a, b and c stands there once\n", names[column]);
            return;
        }
        seen[column] = true;
    }
    put("the line has %u name%s: a line of names has the four kind, a, b and c\n", words_of(l), plural(words_of(l)));
}

/* What is wrong with a value; NULL if nothing is. */
static const char *value_fault(line v)
{
    size_t decimal = 0, hexadecimal = 0;
    unsigned number = 0;

    while (decimal < v.len && v.text[decimal] >= '0' && v.text[decimal] <= '9') {
        number = number > 65535 ? number : 10 * number + (unsigned)(v.text[decimal] - '0');
        decimal++;
    }
    while (1 + hexadecimal < v.len && memchr("0123456789abcdef", v.text[1 + hexadecimal], 16) != NULL)
        hexadecimal++;
    if (v.text[0] == 'h')
        return v.len == 1 ? "has no digits: one to four stand behind the h"
               : hexadecimal + 1 < v.len ? "is no number: behind the h stand digits 0 to 9 and a to f alone"
               : hexadecimal > 4 ? "has more than four digits behind the h" : NULL;
    if (v.text[0] == '+' || v.text[0] == '-')
        return "has a sign: values are 0 to 65535, without one";
    if (decimal < v.len)
        return v.len > 2 && v.text[0] == '0' && v.text[1] == 'x' ? "is no number: hexadecimal is h and one to four digits"
                                                                 : "is no number: a number is digits, or h and hexadecimal digits";
    return v.len > 1 && v.text[0] == '0' ? "has a leading zero: decimal values have none"
           : number > 65535 ? "is too large: 65535 is the most" : NULL;
}

static void put_values_fault(const sheet *s, line l)
{
    if (put_layout(l, "value"))
        return;
    for (unsigned i = 0; i < words_of(l) && i < ROW; i++) {
        line word = word_of(l, i);
        const char *fault = value_fault(word);
        if (fault != NULL) {
            put("column %s: %.*s %s (value %u of the line)\n", names[column_of(word_of(line_of(s, 0), i))],
                word.len > 40 ? 40 : (int)word.len, word.text, fault, i + 1);
            return;
        }
    }
    put("the line has %u value%s: a line of values has four, one for each name\n", words_of(l), plural(words_of(l)));
}

/* ---- all of it */

unsigned value_of_column(const sheet *s, unsigned column)
{
    unsigned i = 0;

    while (i < ROW && column_of(word_of(line_of(s, 0), i)) != column)
        i++;
    return i + 1;
}

void put_refusal(const sheet *s)
{
    lw_record r = s->solved;
    uint32_t number = r.outcome == LW_REFUSED_NAMES ? 0 : r.row + 1;
    line l = line_of(s, number);

    put("refused %" PRIu32, r.outcome);
    if (r.outcome != LW_REFUSED_SHEET && r.outcome != LW_REFUSED_NAMES)
        put(" at row %" PRIu32, r.row);
    put(": %s\n", rule(r.outcome));
    if (r.outcome == LW_REFUSED_SHEET) {
        put("there are more than 16384 bytes, which is the most\n");
        return;
    }
    if (s->len == 0) {
        put("the sheet is empty: its first line is the names kind, a, b and c\n");
        return;
    }
    put_line(number, l);
    if (r.outcome == LW_REFUSED_NAMES)
        put_names_fault(l);
    else if (r.outcome == LW_REFUSED_LINE)
        put_values_fault(s, l);
    else if (r.outcome == LW_REFUSED_LINES)
        put("512 lines of values are the most\n");
    else
        put_row_fault(s, r);
}
