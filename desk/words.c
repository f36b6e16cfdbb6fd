/* words.c -- words of rows: sources, terms, equations, patterns; and the rules of the refusals */

#include "desk.h"

/* ---- terms */

void put_source(const sheet *s, uint32_t source)
{
    uint32_t place = source - PLACES, v = 0;

    if (source < PLACES) {
        put("%" PRIu32, source);
        return;
    }
    while (v + 1 < s->variables && s->place[v + 1] <= place)
        v++;
    if (s->width[v] == 1)
        put("x%" PRIu32, v);
    else
        put("bit %" PRIu32 " of x%" PRIu32, s->width[v] - 1 - (place - s->place[v]), v);
}

enum { MOST_WRITTEN = 16 }; /* bits of a fill that are written one by one */

void put_fill(unsigned bit, size_t width)
{
    if (width > MOST_WRITTEN) {
        put("%zu %s", width, bit == 1 ? "ones" : "zeros");
        return;
    }
    while (width-- != 0)
        put("%u", bit);
}

/* A part of a variable. */
static void put_part(const sheet *s, const uint16_t *n)
{
    if (n[2] == n[3])
        put_source(s, s->place[n[1]] + s->width[n[1]] - 1 - n[2] + PLACES);
    else if (n[2] + 1U == s->width[n[1]] && n[3] == 0)
        put("x%u", n[1]);
    else
        put("bits %u to %u of x%u", n[2], n[3], n[1]);
}

/* Short fills that follow each other are one run of bits. */
void put_form(const sheet *s, const uint16_t *form, size_t pieces)
{
    bool written = false; /* whether the piece before is bits */

    for (size_t i = 0; i < pieces; i++) {
        const uint16_t *n = form + LW_PIECE_NUMBERS * i;
        bool bits = n[0] != LW_PART && n[2] < MOST_WRITTEN;
        if (i != 0 && !(written && bits))
            put(" & ");
        if (n[0] == LW_PART)
            put_part(s, n);
        else
            put_fill(n[0], n[2] + 1U);
        written = bits;
    }
}

void put_term(const sheet *s, uint32_t r)
{
    static uint16_t form[LW_FORM_NUMBERS];
    lw_record found = lw_normal_form(s->table, ROW * s->rows, r, form, LW_FORM_NUMBERS);

    put_form(s, form, found.pieces);
}

void put_equation(const sheet *s, uint32_t r)
{
    const uint16_t *n = s->table + ROW * r;
    uint32_t left = s->row_width[n[1]], right = s->row_width[n[2]], more = left > right ? left - right : right - left;

    put_term(s, n[1]);
    put(" = ");
    put_term(s, n[2]);
    if (more != 0)
        put(", the %s side with %" PRIu32 " zero%s in front", left < right ? "left" : "right", more, plural(more));
}

/* ---- patterns */

void put_pattern(const sheet *s, const uint8_t *pattern)
{
    for (uint32_t v = 0; v < s->variables; v++) {
        if (v != 0)
            put(" ");
        put_bits(pattern + s->place[v], s->width[v]);
    }
    put("\n");
}

void put_broken(const sheet *s, uint32_t r, const sides *v)
{
    put("row %" PRIu32 ": ", r);
    put_equation(s, r);
    put(": ");
    put_bits(v->value[0], v->width[0]);
    put(" is not ");
    put_bits(v->value[1], v->width[1]);
    put("\n");
}

/* ---- refusals */

const char *rule(uint32_t outcome)
{
    switch (outcome) {
    case LW_REFUSED_MEMORY:       return "an answer table or a work area is too short";
    case LW_REFUSED_TABLE:        return "the table has over 512 rows";
    case LW_REFUSED_KIND:         return "the kind is above 5";
    case LW_REFUSED_UNUSED:       return "a column that the kind does not use is not 0";
    case LW_REFUSED_NAME:         return "a row that is named is not an earlier one, or is an equation";
    case LW_REFUSED_WIDTH:        return "the width is outside 1 to 1024, or a fill's bit is above 1";
    case LW_REFUSED_CUT:          return "the high of a cut is not below the width, or its low is above its high";
    case LW_REFUSED_MAXIMUM:      return "a 65th variable or equation, or over 4096 variable bits";
    case LW_REFUSED_SHEET:        return "the sheet has over 16384 bytes";
    case LW_REFUSED_NAMES:        return "the line of names is malformed, or there is none";
    case LW_REFUSED_LINE:         return "the line of values is malformed";
    case LW_REFUSED_LINES:        return "a 513th line of values";
    case LW_REFUSED_ROW:          return "the row that is asked for is not there, or is an equation";
    case LW_REFUSED_PATTERN:      return "the pattern has another length";
    case LW_REFUSED_OUTPUT:       return "the output is too short";
    case LW_REFUSED_ANSWER:       return "the answer table is not of its form";
    case LW_REFUSED_FRESH:        return "the fresh bits are not as many as there have to be";
    case LW_REFUSED_VALUE:        return "a marker's width is above 16, or its value does not fit its width";
    case LW_REFUSED_WINDOW:       return "the sheet has no variable, or one that has not 16 bits";
    case LW_REFUSED_RUN:          return "the run has over 1048576 words";
    case LW_REFUSED_REVISED:      return "an equation has a line number";
    case LW_REFUSED_OTHER_ANSWER: return "the answer table is not that of the sheet";
    case LW_REFUSED_RECORDING:    return "the variables are none, odd in number or not of 16 bits, or a recording is over 65535 numbers or not "
                                         "whole records";
    case LW_REFUSED_COUNTERS:     return "the counters of a recording do not rise from record to record";
    case LW_REFUSED_LAYOUT:       return "the variables of the two sheets differ in number or width";
    default:                      return "see linkwords(3)";
    }
}
