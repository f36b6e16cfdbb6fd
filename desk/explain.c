/* explain.c -- explain: each row as a term, and the answer or the refusal in words */

#include "desk.h"

static sheet s;

/* Which row counts in place of the revised equation at row r. */
static uint32_t revised_by(uint32_t r)
{
    uint32_t last = r;

    for (uint32_t i = r + 1; i < s.rows; i++)
        if (s.table[ROW * i] == LW_EQUATION && s.table[ROW * i + 3] == s.table[ROW * r + 3])
            last = i;
    return last;
}

/* The line number of an equation, and what counts in its place. */
static void put_remarks(uint32_t r)
{
    if (s.table[ROW * r + 3] != 0)
        put(", line %u", s.table[ROW * r + 3]);
    if (!counts(&s, r))
        put(", revised by row %" PRIu32, revised_by(r));
}

static void put_row(uint32_t r, uint32_t *variables)
{
    put("row %" PRIu32 ": ", r);
    switch (s.table[ROW * r]) {
    case LW_VARIABLE:
        put("x%" PRIu32 ", a word of %" PRIu32 " bit%s", *variables, s.row_width[r], plural(s.row_width[r]));
        ++*variables;
        break;
    case LW_EQUATION:
        put_equation(&s, r);
        put_remarks(r);
        break;
    default:
        put_term(&s, r);
    }
    put("\n");
}

/* ---- the answer */

/* s, t, u, .. without x; from the 26th on with a number behind the letter. */
static void put_name(uint32_t fresh)
{
    static const char letters[] = "stuvwyzabcdefghijklmnopqr";

    put("%c", letters[fresh % 25]);
    if (fresh >= 25)
        put("%" PRIu32, fresh / 25);
}

static void put_count(uint32_t free)
{
    put("2^%" PRIu32, free);
    if (free <= 63)
        put(" = %" PRIu64, (uint64_t)1 << free);
    put(free == 0 ? " pattern meets" : " patterns meet");
}

/* A variable as its pieces. */
static void put_right_side(uint32_t variable)
{
    lw_part part = lw_right_side(s.answer, LW_ANSWER_NUMBERS, s.solved.pieces, variable);
    bool bits = false; /* whether the piece before is bits */

    put("x%" PRIu32 " =", variable);
    for (size_t i = part.start; i < part.start + part.len; i += ANSWER_ROW) {
        const uint16_t *n = s.answer + i;
        bool short_fill = n[1] != LW_FRESH && n[2] <= 16;
        if (!(bits && short_fill))
            put(" ");
        if (n[1] == LW_FRESH)
            put_name(n[3]);
        else if (short_fill)
            put_fill(n[1], n[2]);
        else {
            put("[");
            put_fill(n[1], n[2]);
            put("]");
        }
        bits = short_fill;
    }
    put("\n");
}

/* The fresh pieces, each where it first appears: its width and its home. */
static void put_pieces(void)
{
    uint32_t seen = 0;

    for (uint32_t i = 0; i < s.solved.pieces; i++) {
        const uint16_t *n = s.answer + ANSWER_ROW * i;
        if (n[1] != LW_FRESH || n[3] != seen)
            continue;
        put("    ");
        put_name(seen++);
        put(": %u bit%s, at home in ", n[2], plural(n[2]));
        put_form(&s, (const uint16_t[]){LW_PART, n[4], n[5], (uint16_t)(n[5] + 1 - n[2])}, 1);
        put("\n");
    }
}

static void put_answer(void)
{
    switch (s.solved.outcome) {
    case LW_ALWAYS:
        put("always: ");
        put_count(s.solved.free);
        put(" the sheet, all there are\n");
        break;
    case LW_NEVER:
        put("never: no pattern meets the sheet; none is left at row %" PRIu32 " (linkwords why tells the reason)\n", s.solved.row);
        break;
    default:
        put("solved: ");
        put_count(s.solved.free);
        put(" the sheet\n");
        for (uint32_t v = 0; v < s.variables; v++)
            put_right_side(v);
        put_pieces();
    }
}

static int run(const arguments *given)
{
    uint32_t variables = 0;
    int status = load(given->words == 0 ? NULL : given->word[0], &s);

    if (status != YES)
        return status;
    if (s.solved.outcome > LW_SOLVED) {
        put_refusal(&s);
        return REFUSED;
    }
    for (uint32_t r = 0; r < s.rows; r++)
        put_row(r, &variables);
    put_answer();
    return status_of(s.solved);
}

const command explain_command = {
    .name = "explain", .synopsis = "[FILE]", .most = 1, .run = run,
    .help = "Prints each row as a term, x0, x1, .. being the variables and & a join, and then\n"
            "the answer: the outcome, the number of patterns, each variable as its pieces,\n"
            "and of each fresh piece its width and where it is at home. Of a refusal: the\n"
            "rule, the line, what is wrong with it and what would be right.\n"
            "Exit status: 0 if some pattern meets the sheet, 1 if none does, 2 if it is refused.\n"};
