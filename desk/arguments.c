/* arguments.c -- numbers, rows, bits and patterns on the command line */

#include <string.h>

#include "desk.h"

bool read_number(const char *text, uint64_t most, uint64_t *number)
{
    if (*text == '\0')
        return false;
    for (*number = 0; *text != '\0'; text++) {
        if (*text < '0' || *text > '9')
            return false;
        uint64_t digit = (uint64_t)(*text - '0');
        *number = *number > most / 10 || 10 * *number > most - digit ? most : 10 * *number + digit;
    }
    return true;
}

int load_row(const sheet *s, const char *text, size_t *row)
{
    uint64_t number = 0;

    if (!read_number(text, SIZE_MAX, &number) && s->rows == 0)
        return trouble(s->name, "%s is no row: the sheet has none", text);
    if (!read_number(text, SIZE_MAX, &number))
        return trouble(s->name, "%s is no row: the rows are 0 to %" PRIu32, text, s->rows - 1);
    *row = (size_t)number;
    return YES;
}

size_t read_bits(const char *text, size_t most, uint8_t *bits)
{
    size_t count = 0;

    for (; *text != '\0'; text++) {
        if (*text == ' ' || *text == '\t' || *text == '\n')
            continue;
        if (*text != '0' && *text != '1')
            return most + 2;
        if (count < most)
            bits[count] = *text == '1';
        count += count <= most;
    }
    return count;
}

/* The value of a hexadecimal digit; 16 if it is none. */
static unsigned digit_of(char c)
{
    return c >= '0' && c <= '9' ? (unsigned)(c - '0') : c >= 'a' && c <= 'f' ? (unsigned)(c - 'a') + 10 : 16;
}

/* The number of a variable, h and hexadecimal digits, as bits. */
typedef enum { READ, NO_NUMBER, TOO_LARGE } reading;

static reading read_variable(const char *text, size_t len, uint32_t width, uint8_t *bits)
{
    reading got = READ;

    if (len < 2 || text[0] != 'h')
        return NO_NUMBER;
    memset(bits, 0, width);
    for (size_t i = 1; i < len; i++) {
        unsigned digit = digit_of(text[i]);
        size_t low = 4 * (len - 1 - i); /* the number of its lowest bit */
        if (digit == 16)
            return NO_NUMBER;
        for (unsigned k = 0; k < 4; k++) {
            if ((digit >> k & 1) == 0)
                continue;
            if (low + k >= width)
                got = TOO_LARGE;
            else
                bits[width - 1 - (low + k)] = 1;
        }
    }
    return got;
}

/* The next word of a text between blanks; its length. */
static size_t next_word(const char **text)
{
    *text += strspn(*text, " \t\n");
    return strcspn(*text, " \t\n");
}

/* One number for each variable, from the words of the command line; YES or TROUBLE. */
static int load_numbers(const sheet *s, int words, char **word, uint8_t *pattern)
{
    uint32_t variable = 0;

    for (int i = 0; i < words; i++) {
        const char *text = word[i];
        for (size_t len; (len = next_word(&text)) != 0; text += len) {
            if (variable == s->variables)
                return trouble(s->name, "the pattern has more numbers than the sheet has variables, %" PRIu32, s->variables);
            reading got = read_variable(text, len, s->width[variable], pattern + s->place[variable]);
            int shown = len > 40 ? 40 : (int)len;
            if (got == NO_NUMBER)
                return trouble(s->name, "%.*s is no number: a number is h and digits 0 to 9 and a to f", shown, text);
            if (got == TOO_LARGE)
                return trouble(s->name, "%.*s does not fit the %" PRIu32 " bit%s of x%" PRIu32, shown, text, s->width[variable],
                               plural(s->width[variable]), variable);
            variable++;
        }
    }
    if (variable < s->variables)
        return trouble(s->name, "the pattern has %" PRIu32 " number%s, and the sheet %" PRIu32 " variable%s", variable,
                       plural(variable), s->variables, plural(s->variables));
    return YES;
}

int load_pattern(const sheet *s, int words, char **word, uint8_t *pattern)
{
    size_t count = 0;

    for (int i = 0; i < words; i++)
        if (strchr(word[i], 'h') != NULL)
            return load_numbers(s, words, word, pattern);
    for (int i = 0; i < words; i++) {
        size_t more = read_bits(word[i], s->bits - count, pattern + count);
        if (more == s->bits - count + 2)
            return trouble(s->name, "a pattern is bits, or for each variable h and hexadecimal digits, and not %s", word[i]);
        count += more;
        if (count > s->bits)
            break;
    }
    if (count > s->bits)
        return trouble(s->name, "the pattern has more than %" PRIu32 " bit%s", s->bits, plural(s->bits));
    if (count < s->bits)
        return trouble(s->name, "the pattern has %zu bit%s and not %" PRIu32, count, plural(count), s->bits);
    return YES;
}
