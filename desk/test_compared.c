/* test_compared.c -- what compare prints, by all patterns of both tables; see test_reasons.h */

#include "test_reasons.h"

/* Whether some pattern meets the one and not the other. */
static bool allows_more(const all_patterns *a, const all_patterns *b)
{
    uint64_t in_a = counting(a, everything(a)), in_b = counting(b, everything(b));

    for (size_t p = 0; p >> a->facts.bits == 0; p++)
        if ((a->holds[p] & in_a) == in_a && (b->holds[p] & in_b) != in_b)
            return true;
    return false;
}

/* The pattern behind a line that says which allows it; it meets the one and not the other, which the row that it breaks shows. */
static void check_between(const char *print, const char *line, const all_patterns *a, const all_patterns *b)
{
    const char *text = strstr(print, line);
    size_t p = 0, bits = 0, row = 0, hits = 0;

    if (!check(text != NULL, HERE, "there is no line %s in %s", line, print))
        return;
    for (text += strlen(line); *text == ' ' || *text == '0' || *text == '1'; text++)
        if (*text != ' ')
            p = 2 * p + (*text == '1'), bits++;
    check(bits == a->facts.bits && sscanf(text, "\n  it breaks row %zu: ", &row) == 1, HERE, "no pattern, or no row: %s", print);
    uint64_t in_a = counting(a, everything(a)), in_b = counting(b, everything(b));
    check((a->holds[p] & in_a) == in_a && (b->holds[p] & in_b) != in_b, HERE, "the pattern does not tell them apart: %s", print);
    for (size_t i = 0; i < b->equations; i++)
        if (b->row[i] == row) {
            hits++;
            check((in_b >> i & 1) != 0 && (b->holds[p] >> i & 1) == 0, HERE, "row %zu is not broken", row);
        }
    check(hits == 1, HERE, "row %zu is no equation of the other: %s", row, print);
}

size_t check_compared(const char *print, int status, const all_patterns *first, const all_patterns *second)
{
    static const char *const words[] = {"same\n", "fewer\n", "more\n", "neither\n"};
    bool fewer = allows_more(first, second), more = allows_more(second, first);
    size_t word = (fewer ? 1U : 0U) + (more ? 2U : 0U);

    check(strncmp(print, words[word], strlen(words[word])) == 0 && status == (word != 0), HERE, "%s: %d %s", words[word], status, print);
    if (more)
        check_between(print, SHEETS "/second.sheet allows and " SHEETS "/first.sheet does not:\n", second, first);
    if (fewer)
        check_between(print, SHEETS "/first.sheet allows and " SHEETS "/second.sheet does not:\n", first, second);
    return word;
}
