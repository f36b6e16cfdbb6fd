/*
  smt.c -- smt: the equations as SMT-LIB 2, logic QF_BV

  Each variable is declared as v0, v1, .., each row but an equation defined as
  r0, r1, .., and each equation that counts asserted, its narrower side with
  zero_extend; then follows (check-sat).

  With --check the table is solved by lw_solve too, and what it answers is asked
  of the other solver, question by question: before each (check-sat) stands an
  (echo ..) with the answer that is expected. So in the output of the other
  solver each pair of lines has to agree:

      linkwords smt --check SHEET | z3 -in | paste - - | awk '$1 != $2'

  prints nothing. Asked are

    - whether some pattern meets the table, and whether some does not;
    - for outcome 2, of each row of the answer whether its bits can differ from
      the fill, or from the bits where home and high say that its fresh piece
      first appears: they cannot;
    - whether all fresh bits can be as given, for as many givings that of each
      two fresh bits one has 0 where the other has 1 in some of them: they can.

  Together these tell outcome, fixed bits and equal bits.
*/

#include "desk.h"

static sheet s;

static void put_constant(unsigned bit, unsigned count)
{
    put("#b");
    for (unsigned i = 0; i < count; i++)
        put("%c", bit == 1 ? '1' : '0');
}

/* The declaration or definition of row r; how many variables there are before it is told, and counted. */
static void put_row(uint32_t r, unsigned *variables)
{
    const uint16_t *n = s.table + ROW * r;

    if (n[0] == LW_EQUATION)
        return;
    if (n[0] == LW_VARIABLE)
        put("(declare-const v%u (_ BitVec %u))\n", *variables, n[1]);
    put("(define-fun r%" PRIu32 " () (_ BitVec %" PRIu32 ") ", r, s.row_width[r]);
    switch (n[0]) {
    case LW_VARIABLE:
        put("v%u", (*variables)++);
        break;
    case LW_FILL:
        put_constant(n[1], n[2]);
        break;
    case LW_VALUE: /* the number a in b bits, as SMT-LIB writes it */
        put("(_ bv%u %u)", n[1], n[2]);
        break;
    case LW_JOIN:
        put("(concat r%u r%u)", n[1], n[2]);
        break;
    default:
        put("((_ extract %u %u) r%u)", n[2], n[3], n[1]);
    }
    put(")\n");
}

/* A side of an equation, brought to the other side's width if it is narrower. */
static void put_side(unsigned r, unsigned other)
{
    if (s.row_width[r] < s.row_width[other])
        put(" ((_ zero_extend %" PRIu32 ") r%u)", s.row_width[other] - s.row_width[r], r);
    else
        put(" r%u", r);
}

static void put_equal(unsigned a, unsigned b)
{
    put(" (=");
    put_side(a, b);
    put_side(b, a);
    put(")");
}

/* The declarations, the definitions, and the equations that count together as eqs. */
static void put_table(void)
{
    unsigned variables = 0;

    put("(set-logic QF_BV)\n");
    for (uint32_t r = 0; r < s.rows; r++)
        put_row(r, &variables);
    put("(define-fun eqs () Bool (and true");
    for (uint32_t r = 0; r < s.rows; r++)
        if (counts(&s, r))
            put_equal(s.table[ROW * r + 1], s.table[ROW * r + 2]);
    put("))\n");
}

/* A question is an assertion between these two. */
static void begin_question(void)
{
    put("(push 1)\n(assert ");
}

static void end_question(bool possible)
{
    put(")\n(echo \"%s\")\n(check-sat)\n(pop 1)\n", possible ? "sat" : "unsat");
}

enum { ANSWER_ROWS = LW_ANSWER_NUMBERS / ANSWER_ROW };

/* Of each row of the answer: its low bit in its variable. Of each fresh piece: the row of its first appearance. */
static unsigned low[ANSWER_ROWS];
static uint32_t first[ANSWER_ROWS], seen;

static void find_parts(uint32_t rows)
{
    unsigned left = 0; /* bits of the variable below the rows before */

    seen = 0;
    for (uint32_t i = 0; i < rows; i++) {
        const uint16_t *n = s.answer + ANSWER_ROW * i;
        if (i == 0 || n[0] != n[-ANSWER_ROW])
            left = s.width[n[0]];
        left -= n[2];
        low[i] = left;
        if (n[1] == LW_FRESH && n[3] == seen)
            first[seen++] = i;
    }
}

/* The part of a variable that a row of the answer stands for. */
static void put_part(uint32_t i)
{
    const uint16_t *n = s.answer + ANSWER_ROW * i;
    put("((_ extract %u %u) v%u)", low[i] + n[2] - 1, low[i], n[0]);
}

/* The part of a variable where a row's piece is at home, by the row itself. */
static void put_home(uint32_t i)
{
    const uint16_t *n = s.answer + ANSWER_ROW * i;
    put("((_ extract %d %d) v%u)", n[5], n[5] + 1 - n[2], n[4]);
}

/* Fixed and equal bits: they cannot be otherwise. A piece at its first appearance is that of its home. */
static void ask_rows(uint32_t rows)
{
    for (uint32_t i = 0; i < rows; i++) {
        const uint16_t *n = s.answer + ANSWER_ROW * i;
        begin_question();
        put("(distinct ");
        put_part(i);
        put(" ");
        if (n[1] == LW_FRESH)
            put_home(i);
        else
            put_constant(n[1], n[2]);
        put(")");
        end_question(false);
    }
}

/* Fresh bit j is bit k of its number j, or the other bit: that can be. */
static void ask_fresh(uint32_t k, unsigned other)
{
    uint32_t number = 0;

    begin_question();
    put("(and true");
    for (uint32_t piece = 0; piece < seen; piece++) {
        put(" (= ");
        put_part(first[piece]);
        put(" #b");
        for (unsigned i = 0; i < s.answer[ANSWER_ROW * first[piece] + 2]; i++)
            put("%c", ((number++ >> k & 1) ^ other) == 1 ? '1' : '0');
        put(")");
    }
    put(")");
    end_question(true);
}

static void ask_all(lw_record solved)
{
    begin_question();
    put("eqs");
    end_question(solved.outcome != LW_NEVER);
    begin_question();
    put("(not eqs)");
    end_question(solved.outcome != LW_ALWAYS);
    if (solved.outcome != LW_SOLVED)
        return;
    put("(assert eqs)\n");
    find_parts(solved.pieces);
    ask_rows(solved.pieces);
    for (uint32_t k = 0; k == 0 || solved.free >> k != 0; k++) {
        ask_fresh(k, 0);
        ask_fresh(k, 1);
    }
}

static int run(const arguments *given)
{
    int status = load_accepted(given->words == 0 ? NULL : given->word[0], &s);

    if (status != YES)
        return status;
    put_table();
    if (given->value[CHECK] != NULL)
        ask_all(s.solved);
    else
        put("(assert eqs)\n(check-sat)\n");
    return YES;
}

const command smt_command = {
    .name = "smt", .synopsis = "[--check] [FILE]", .options = 1U << CHECK, .most = 1, .run = run,
    .help = "Prints the equations that count as SMT-LIB 2, logic QF_BV. With --check the answer\n"
            "is asked too, question by question, each behind an (echo ..) with what is expected.\n"
            "Exit status: 0, 2 if the sheet is refused.\n"};
