/*
  desk.h -- what the commands of linkwords share

  Everything that decides is a call of the library; the desk reads files, calls
  and writes words. A command writes by put, and what it has written goes to
  standard output when it ends: at status 3, and where it tells a refusal on
  standard error, nothing does.
*/

#ifndef DESK_H
#define DESK_H

#include <inttypes.h>
#include <stdbool.h>
#include <stddef.h>
#include <stdint.h>

#include "linkwords.h"

/* Exit statuses, the same for all commands. */
enum { YES = 0, NO = 1, REFUSED = 2, TROUBLE = 3 };

/* ---- arguments */

/* Options; those from BIG on take no value. */
typedef enum { MOST, FRESH, RANDOM, BIT, NUMBER, BIG, LIST, CHECK, OPTIONS } option;

typedef struct {
    int words;
    char **word;                /* what is no option, in its order */
    const char *value[OPTIONS]; /* of each option that is given; NULL if it is not */
} arguments;

typedef struct {
    const char *name;
    const char *synopsis; /* what stands behind the name */
    unsigned options;     /* a sum of 1 << option */
    int least, most;      /* numbers of words */
    int (*run)(const arguments *given);
    const char *help;     /* what it prints, in lines */
} command;

extern const command check_command, compare_command, draw_command, explain_command, form_command, page_command,
    patterns_command, positions_command, recordings_command, smt_command, solve_command, steps_command,
    value_command, why_command;

/* Runs a command line: its exit status. What it writes is in the output that give_output gives away. */
int desk(int argc, char **argv);

/* A number in decimal, at most the given one, which stands for all above it; false if the text is none. */
bool read_number(const char *text, uint64_t most, uint64_t *number);

/* ---- trouble and output */

/* Tells one line on standard error, behind the name of a file or an argument, whatever bytes they have; gives TROUBLE. */
__attribute__((format(printf, 2, 3))) int trouble(const char *name, const char *format, ...);

/* What a command says is not what the library says: that is told, and TROUBLE is given. */
int internal_error(const char *what);

__attribute__((format(printf, 1, 2))) void put(const char *format, ...);
void put_bytes(const void *bytes, size_t len);
void put_bits(const uint8_t *bits, size_t count);
const char *plural(uint64_t count); /* "" for 1, else "s" */

/* What was put so far, without a 0 at its end; and it is forgotten. */
const char *output_text(size_t *len);
void forget_output(void);

/* Writes what was put so far to standard output; TROUBLE, which is told, if that fails. */
int give_output(void);

/* ---- sheets and runs */

enum { ROW = LW_ROW_NUMBERS, ANSWER_ROW = LW_ANSWER_ROW_NUMBERS };

typedef struct {
    const char *name;                 /* of the file, as it is told */
    uint8_t bytes[LW_MAX_SHEET + 1];  /* one more than is accepted, so that a longer sheet is refused */
    size_t len;
    uint16_t table[LW_TABLE_NUMBERS];
    uint32_t rows;                    /* 0 of a sheet that is refused */
    lw_record solved;                 /* what lw_solve yields, or the refusal of the sheet */
    uint16_t answer[LW_ANSWER_NUMBERS];
    /* of an accepted table */
    uint32_t variables, bits;         /* bits of all variables */
    uint32_t width[LW_MAX_VARIABLES], place[LW_MAX_VARIABLES]; /* of each variable; place is that of its high bit */
    uint32_t row_width[LW_MAX_ROWS];  /* of each row; 0 for an equation */
} sheet;

extern uint16_t work[LW_WORK_NUMBERS];

/* Reads a file, NULL or "-" being standard input, and solves it; YES or TROUBLE, a refusal being in solved. */
int load(const char *name, sheet *s);

/* The same, a refusal being told and REFUSED given. */
int load_accepted(const char *name, sheet *s);

/* Tells a refusal in one line; gives REFUSED. */
int tell_refusal(const char *name, lw_record record);

/* Words of 16 bits from a file, low byte first or high byte first, at most one more than most; YES or TROUBLE. */
int load_words(const char *name, bool big, size_t most, uint16_t *words, size_t *len);

/* A row of an accepted sheet, or a number above its rows; YES or TROUBLE. */
int load_row(const sheet *s, const char *text, size_t *row);

/* A pattern of an accepted sheet from words of the command line; YES or TROUBLE. */
int load_pattern(const sheet *s, int words, char **word, uint8_t *pattern);

/* Bits from a text, blanks passed over: how many; most + 1 if there are more, and most + 2 if it is no text of bits. */
size_t read_bits(const char *text, size_t most, uint8_t *bits);

/* The status of a solved sheet: YES, NO or REFUSED. */
int status_of(lw_record solved);

/* ---- tables: equations, bit pairs, what holds a bit */

/* Whether row r is an equation that counts; and whether an equation of the table has a line number. */
bool counts(const sheet *s, uint32_t r);
bool has_lines(const sheet *s);

/* Makes row r the equation that says nothing. */
void leave_off(uint16_t *table, uint32_t r);

/* A source of bits: the constants are 0 and 1, the variable bit at place p is p + PLACES. */
enum { PLACES = 2, SOURCES = LW_MAX_VARIABLE_BITS + PLACES };

typedef struct {
    uint32_t a, b;
} pair;

/* The bit pairs of the equation at row r, high end first: how many. */
size_t pairs_of(const sheet *s, uint32_t r, pair pairs[LW_MAX_WIDTH]);

/* Of each place, by an answer table: its fixed bit, or the source where it is at home. Without one each is its own. */
void hold_by(const sheet *s, lw_record solved, const uint16_t *answer, uint32_t *held);

/* Whether the sides of the equation at row r have the same value under a pattern, by lw_value; what they are. */
typedef struct {
    uint8_t value[2][LW_MAX_WIDTH];
    size_t width[2];
    bool same;
} sides;
void value_sides(const sheet *s, uint32_t r, const uint8_t *pattern, sides *v);

/* Whether a pattern meets the sheet, and if not the first row that it breaks. */
bool meets(const sheet *s, const uint8_t *pattern, uint32_t *broken);

/* The pattern of an accepted sheet, always or solved, and fresh bits, as many as solved.free; false if that is refused. */
bool make_pattern(const sheet *s, const uint8_t *fresh, uint8_t *pattern);

/* ---- words */

void put_source(const sheet *s, uint32_t source);             /* 0, 1 or "bit 7 of x0" */
void put_form(const sheet *s, const uint16_t *form, size_t pieces);
void put_term(const sheet *s, uint32_t r);                    /* of a row that is no equation, by its normal form */
void put_equation(const sheet *s, uint32_t r);                /* "bits 6 to 3 of x0 = bits 4 to 1 of x0", and zeros in front */
void put_fill(unsigned bit, size_t width);                    /* 000, or "40 zeros" */
void put_pattern(const sheet *s, const uint8_t *pattern);     /* its variables, a blank between two */
void put_broken(const sheet *s, uint32_t r, const sides *v);  /* an equation with the two values that are not the same */
const char *rule(uint32_t outcome);                           /* of a refusal */
void put_refusal(const sheet *s);                             /* of the sheet or its table, with its line */
void put_row_fault(const sheet *s, lw_record r);              /* what is wrong with the row of a refused table */
unsigned value_of_column(const sheet *s, unsigned column);    /* the value of a line, from 1, that is this column of the row */

#endif /* DESK_H */
