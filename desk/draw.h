/* draw.h -- what the parts of a picture share */

#ifndef DRAW_H
#define DRAW_H

#include "desk.h"

/* ---- where things stand */

enum {
    MARGIN = 24,  /* around everything */
    HEAD = 88,    /* from the upper edge to the rows of bits */
    LABEL = 136,  /* left of the bits, for a variable's name */
    CELL = 34,    /* width of a bit */
    BOX = 36,     /* height of a bit */
    ABOVE = 15,   /* above the bits, for their numbers */
    LINE = 58,    /* from a line of bits to the next */
    BETWEEN = 12, /* between variables, beyond that */
    OUT = 8,      /* how far a piece sticks out that goes on */
    NOTE = 20,    /* from a line of text to the next */
    SIGN = 36,    /* left of the heading, for a sign */
    LEAST = 600   /* width of a picture, at least */
};

enum { LINE_BITS = 32 };

/* A variable: its row in the table, its width, and the upper edge of its first line. */
typedef struct {
    uint32_t row;
    unsigned width, top;
} word;

extern word words[LW_MAX_VARIABLES];
extern unsigned variables;
extern unsigned columns; /* bits of the longest line */
extern unsigned bottom;  /* lower edge of what is drawn, above the last lines of text */

/* Finds the variables of a sheet, and a place for each. */
void lay_out(const sheet *s);

/* ---- what every picture has */

enum { COLOURS = 7, TEXTURES = 4 };

void begin_text(const char *class, unsigned x, unsigned y); /* the start of a text, which ends in </text> */
void draw_note(unsigned y, const char *note);
void draw_box(unsigned left, unsigned right, unsigned y, const char *fill);
void begin_picture(lw_record r, unsigned width, unsigned height); /* down to the record */
void end_picture(void);

/* ---- variables and their pieces */

enum { FREE = 3 }; /* a kind beside 0, 1 and LW_FRESH: a whole variable that is free */

/* A piece of a variable: its bits, and kind and number as in an answer table, and where it is at home. */
typedef struct {
    const word *of;
    unsigned high, low, kind, number, home, home_high;
} piece;

void draw_word(const word *w); /* its name, and its bits' numbers */
void draw_piece(const piece *p);

/* ---- no pattern, or no table */

void draw_never(const sheet *s);
void draw_refused(const sheet *s);

#endif /* DRAW_H */
