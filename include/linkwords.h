/* linkwords.h -- words of fixed width, built by joins and cuts

  A word is a sequence of bits. This library works on terms over such words: a
  term is a variable, a fill (a constant whose bits are all alike), a marker (a
  constant given as a number), a join of two words (concatenation) or a cut out
  of a word (extraction), and equations stand between terms. The caller
  describes the terms in a table of numbers, which can also be read from a text,
  or of row structs; the calls take that table and leave their results in
  buffers of the caller. One of them solves the equations: it tells whether
  every, no or some choice of the variables' bits meets them all, and for some
  it describes these choices; a second one says the same, and is faster where
  words are long. Another makes such a choice from the description, one finds
  the places of a long run of words at which the words meet them, one compares
  two recordings of frames by them, one compares two such tables, and one prints
  the description on pages for a line printer. A job takes the equations one by
  one, and tells after each what is still allowed, or before each what it would
  leave.

  The library is proved: for every input each call yields the record and the
  buffer contents that this header names, and it always returns. It is linked
  as liblinkwords.a, or where it is installed as liblinkwords.so too (x86-64).


                                 The table

  A table is a run of rows, numbered from 0. A row is four 16-bit numbers,
  kind, a, b and c, in this order:

     kind           meaning                 a           b         c
     0 LW_VARIABLE  variable                width       0         0
     1 LW_FILL      fill, all bits alike    bit 0 or 1  width     0
     2 LW_JOIN      join, left part high    left row    right row 0
     3 LW_CUT       bits b down to c of a   row         high      low
     4 LW_EQUATION  a and b are equal       left row    right row line
     5 LW_VALUE     marker, a value as bits value       width     0

  A row names only rows before it, and never an equation. Many rows may name
  the same row. Columns that a kind does not use are 0.

  Every row but an equation has a width of 1 to 1024 bits: a join has the sum
  of the widths of its two sides, and a cut has high - low + 1. A marker has a
  width of 1 to 16 bits, and its value is below 2 to the width. An equation has
  no width. Its sides may differ in width: they are compared as the panel's
  comparator compares words, the narrower one filled with zeros at its high end
  up to the width of the other. Only the equation fills: rows keep their widths,
  values and normal forms.

  An equation's column c is its line number, 0 to 65535, and 0 is none. Among
  equations with the same line number above 0 only the last one counts: it takes
  the place of those before it, and stands at its own row. Equations with line
  number 0 all count. So a table is revised by rows added at its end, and no row
  gets another number. A revised equation, one that does not count, is tested
  like all others and is one of the 64; but it shuts out no pattern, gives no
  tie and is never the row at which no pattern is left. The low of a cut is no
  line number. With a variable x of 2 bits, two zeros and two ones as rows 0 to
  2, the rows 4 0 1 7 and 4 0 2 7 say that x is two ones; 4 0 1 7 and 4 0 2 8
  are met by no pattern.

  A table has at most 512 rows, 64 variables, 4096 variable bits (the widths of
  its variables together) and 64 equations. The variables are numbered from 0
  in the order of their rows. A table of no rows is a table.


                            Patterns and values

  The bits of a word of width n are numbered n-1 (high, left) down to 0. Where
  bits stand in a buffer, each is one byte, 0 or 1, and the high bit is first.

  A pattern gives a bit to every variable bit of a table: variable 0 first, the
  high bit of each variable first. So its length is the number of variable bits.

  A row's value under a pattern is as many bits as the row is wide: a variable
  has its bits of the pattern, a fill has copies of its bit, a join has the
  value of a followed by the value of b, and a cut has the bits high down to
  low of the value of a. A marker has the bits of its number a, with zeros at
  the high end up to its width: 6 in 4 bits is 0110. Equations do not bear on
  the values of other rows: a value is to be had under every pattern.


                               Normal forms

  A row's normal form tells where its bits come from: it is a list of pieces
  that stand side by side, the high end of the row first. A piece is four 16-bit
  numbers, in this order:

     kind       meaning                     variable    high      low
     0 or 1     fill, all bits are kind     0           width - 1 0
     2 LW_PART  bits high down to low of a  its number  high      low
                variable

  So a piece has high - low + 1 bits, in either case. Pieces are as long as they
  can be: neighbouring fills of one bit are one piece, and so are bits i down to
  j and bits j-1 down to k of one variable. Nothing else is put together: not
  parts of a variable that leave out a bit, overlap, or stand in reverse order,
  nor parts of two variables.

  A marker is shown as fills, and these are put together like others. So the
  normal form of 6 in 4 bits is 0 0 0 0, 1 0 1 0, 0 0 0 0; joined with a fill of
  three zeros behind it, its last piece is 0 0 3 0; and 3 in 2 bits has the
  normal form of a fill of two ones.

  Two rows of a table have the same value under every pattern exactly if their
  normal forms are the same, piece by piece.


                              Solved systems

  A pattern meets a table if in each equation that counts both sides have the
  same value, once the narrower one is filled with zeros at its high end: that
  is, if both are the same binary number. A table without equations is met by
  every pattern.

  A variable bit is fixed if it is 0 in every pattern that meets the table, or 1
  in every such pattern. Two variable bits are tied if they are equal in every
  such pattern; a bit is tied to itself.

  If some patterns meet the table and some do not, the table has a solved
  system. It gives each variable a right side as wide as it: fills, which stand
  where its bits are fixed, and fresh pieces, words whose bits are free. A fresh
  piece may stand at several places, in one variable or in several, and has the
  same bits at all of them. Each choice of bits for the fresh pieces, put into
  the right sides, gives one pattern, and these are exactly the patterns that
  meet the table: two choices give two patterns.

  A fill is as long as the run of that fixed bit within its variable. Of two
  unfixed bits that are neighbours in a variable, p the higher and q the lower,
  both lie in one fresh piece exactly if each bit tied to p has a next lower bit
  in its variable and that one is tied to q, and each bit tied to q has a next
  higher bit in its variable and that one is tied to p. So fresh pieces are as
  few and as long as they can be.

  An answer table is a solved system as numbers: the right sides, variable 0
  first, each from its high end on. A row of it is six 16-bit numbers, in this
  order:

     variable    kind         width  fresh       home  high
     its number  0 or 1       width  0           its own place
     its number  2 LW_FRESH   width  its number  the piece's first place

  A row of kind 0 or 1 is a fill, all of whose bits are kind. The fresh pieces
  are numbered from 0 in the order in which they first appear; a fresh piece
  that stands at several places has one number and one width. A variable that no
  equation bears on is one fresh piece.

  Home and high say where a piece stands first: home is the variable, and high
  the number of the highest bit that it takes there. Of a fresh piece this is
  the place of the first row of kind 2 with its fresh number, so that a first
  appearance names its own place, and each later one the same. A fill names its
  own place, also where the same fixed bit stands elsewhere before it. So the
  bits of a row are the bits high down to high - width + 1 of variable home.

  The sheet that stands under Sheets has this answer table, in which fresh piece
  1 stands three times, first at bits 6 and 5:

     0 2 1 0 0 7
     0 2 2 1 0 6
     0 2 2 1 0 6
     0 2 2 1 0 6
     0 2 1 2 0 0

  So the variable is s t t t u, with any words s, t and u of one, two and one
  bits: 16 patterns meet the table.

  Fresh bits give a bit to every bit of the fresh pieces: fresh piece 0 first,
  the high bit of each fresh piece first, and each fresh piece once, however
  often it stands. So the fresh bits 1 0 1 0 are s = 1, t = 01 and u = 0, and
  with them the pattern is 1 0 1 0 1 0 1 0.


                             Runs and windows

  A run is 16-bit words, numbered from 0, such as a recording of a link. A table
  whose variables all have 16 bits describes some words of a run that stand one
  behind the other: its window. A window is as many words as the table has
  variables, also those that no equation names, and word j of a window is
  variable j. Bit 15 of a word is the high bit of the variable.

  A start is the number of a window's first word. A window begins at each word
  from which on there are words enough, so windows overlap. A window meets the
  table if the pattern that its words are does.

  This sheet describes two words: the marker ace1, and a word whose low four
  bits are those of the marker.

     kind a b c
     0 16 0 0
     0 16 0 0
     5 hace1 16 0
     4 0 2 0
     3 0 3 0
     3 1 3 0
     4 4 5 0

  In the run ace1 0001 ace1 ace1 1231 the windows from 0, 2 and 3 on meet it.


                                Recordings

  A recording is a run of records, each of k + 1 16-bit numbers: a frame counter
  and then k words, k being 1 to 32. The counters of a recording rise strictly;
  they may leave numbers out, and need not begin at 0. A recording of no records
  is one. Where a counter goes round past 65535, the host divides the recording
  there, and has each part compared by itself.

  Two recordings of the same frames, what was sent and what was received, are
  compared by a table of 2 * k variables, all of 16 bits: variable j is word j as
  it was sent, and variable k + j is word j as it was received, j being 0 to
  k - 1. Variables that no equation names count.

  A sent record and a received record with equal counters are a pair, so that a
  record has at most one partner. A pair meets the table if the pattern does that
  its words are, the k sent ones and then the k received ones; else it breaks the
  table. Beside that, and whatever the table says, the bits are counted in which
  sent word j and received word j differ.

  In this table k is 1, and the word comes back as it was sent:

     0 16 0 0
     0 16 0 0
     4 0 1 0

  Sent are the records 1 5, 2 7 and 4 9, and received 1 5, 3 1 and 4 8. Frames 1
  and 4 are pairs, 2 was only sent and 3 only received; the pair of frame 4
  breaks the table, and its words 9 and 8 differ in one bit.


                                  Sheets

  A sheet is the numbers of a table as text: a line of names, and then for each
  row, from row 0 on, a line of values. This sheet has four rows, a variable of
  8 bits, two cuts of it, and the equation of the two cuts:

     kind a b c
     0 8 0 0
     3 0 6 3
     3 0 4 1
     4 1 2 0

  The line of names is the four names kind, a, b and c in any order, each once.
  A line of values is four values, the first of which belongs to the first name,
  and so on: under the names c b a kind, the line 0 0 8 0 is the variable of 8
  bits again.

  One space (byte 32) stands between a name or value and the next. Each line,
  the last one too, ends in a newline (byte 10). Nothing else is in a line:
  there is no space at its start or end, no tab, no carriage return (byte 13)
  before the newline, and no line is empty. A name is in lower case.

  A value is a number from 0 to 65535, in one of two spellings. In decimal it is
  digits without a sign and without leading zeros: 0 is a value; 00, 01, +1 and
  65536 are not. In hexadecimal it is the letter h and one to four of the digits
  0 to 9 and a to f, and leading zeros may stand there: hace1 is 44257, and each
  of ha, h0a and h000a is 10; h, hA, Ha, hg, h12345, 0x1 and 1h are not values.
  Both spellings may stand in every column. So this line is a marker of 16 bits,
  1010 1100 1110 0001:

     5 hace1 16 0

  What follows the last newline is one more line, which is malformed, since it
  does not end in a newline; if nothing follows, there is no line more. So a
  text that ends in two newlines has an empty last line, which is malformed too.

  A sheet has at most 16384 bytes and 512 lines of values. The line of names
  alone is a sheet of no rows. A sheet says nothing of what its numbers mean:
  any four values are a row of a sheet, and it is the call that works on the
  table which refuses a kind of 9.


                                  Pages

  An answer table can be had as a result sheet: pages of text, numbered from 0,
  each of 60 lines of exactly 40 characters and a newline (byte 10), 2460 bytes
  in all. A line has four columns of 10 characters. What stands in a column
  stands at its right end, with blanks (byte 32) before it, and numbers are
  decimal without leading zeros. Line one has the names variable, kind, width
  and fresh; each line below it has these four numbers of one row of the answer
  table, a piece, 59 of them on a page, and lines that are left are blanks. Home
  and high are not printed. The first lines of page 0 of the answer table above
  are

       variable      kind     width     fresh
              0         2         1         0
              0         2         2         1


                                   Jobs

  A job takes the equations of a table one by one, in the order of their rows.
  After each, and at any moment between, the answer so far is to be had: that of
  the table with the equations left off that are not yet taken, in which rows
  keep their numbers. No equation of a job's table may have a line number.

  The caller keeps the job and lends it to each call: a struct of two numbers,
  next and ties, and a work area. Both are to be read at any time, and are only
  to be changed by the calls.

  The next row is the row of the lowest equation that is not yet taken, or the
  number of rows if none is left; in a table of no rows it is 0. The ties are
  those of all equations taken, counted as lw_solve counts them.

  The work area tells what holds each variable bit. These are counted as in a
  pattern, variable 0 first, its high bit being place 0, over all variables of
  the table, also those behind the next row. A bit that the equations taken have
  fixed is held by the fixed bit: the number at its place is LW_HELD_FIXED
  (4096) plus 0 or 1. All other bits that they tie to each other are held by the
  lowest place among them, and its number stands at each of them; a bit that is
  tied to nothing is held by itself. Behind the last variable bit each number of
  the work area is 0, up to its length.

  If an equation leaves no pattern, the next row becomes LW_JOB_NEVER (1000),
  which is no row, and nothing else changes: the ties and the work area stay as
  they were before it, also where the first bit pairs of that equation would be
  ties. From then on nothing changes any more.

  A call believes no job: it reads the equations taken anew, and refuses what no
  number of steps from the opening of this table, over a work area of this
  length, would leave. What another table left is accepted exactly if this one
  leaves it too. So steps take longer the more equations are taken.

  In this table x and y are words of one bit, and there are three equations:

     0 1 0 0     row 0: x
     0 1 0 0     row 1: y
     1 0 1 0     row 2: a zero
     1 1 1 0     row 3: a one
     4 0 1 0     row 4: x is y
     4 1 2 0     row 5: y is 0
     4 0 3 0     row 6: x is 1

  Its job: the record that each call yields, and then next and ties, and the
  work area, of which the numbers that follow are 0.

     lw_job_open   0 0 0 2 0 0        4  0       0    1  0  ..
     lw_job_step   2 2 1 1 1 0        5  1       0    0  0  ..
     lw_job_step   2 2 0 0 2 0        6  2    4096 4096  0  ..
     lw_job_step   1 0 0 0 2 6     1000  2    4096 4096  0  ..
     lw_job_step   1 0 0 0 2 6     1000  2    4096 4096  0  ..

  After the first step both bits are held by place 0, and the answer so far is
  0 2 1 0 0 0, 1 2 1 0 0 0: x and y are one fresh piece. Before each of these
  steps lw_job_preview yields the step's record and leaves the job: at 6 2 that
  is 1 0 0 0 2 6, row 6 would leave no pattern, and the job is still at 6 2.


                         Refusals of a term table

  A call that works on a table tests all of it, also rows that it does not need.
  First the length is tested, then the rows, from the lowest up, and each by all
  of 12 to 17 and 40, in the order below, before the next row. So the refusal is
  about the lowest row at fault.

     outcome                 cause                               field row
     11 LW_REFUSED_TABLE     table_len is no multiple of 4, or   512
                             is above 2048 (over 512 rows)
     12 LW_REFUSED_KIND      the kind is above 5                 that row
     13 LW_REFUSED_UNUSED    b or c of a variable is not 0, or   that row
                             c of a fill, a join or a marker
     14 LW_REFUSED_NAME      a or b of a join or an equation,    that row
                             or a of a cut, is not the number
                             of an earlier row, or is the number
                             of an equation
     15 LW_REFUSED_WIDTH     the width of a variable, a fill, a  that row
                             join or a marker is outside 1 to
                             1024, or a fill's bit is above 1
     40 LW_REFUSED_VALUE     the width of a marker is above 16,  that row
                             or its value is 2 to the width or
                             more
     16 LW_REFUSED_CUT       high of a cut is not below the      that row
                             width of the row it cuts, or low is
                             above high
     17 LW_REFUSED_MAXIMUM   the row is the 65th variable or the that row
                             65th equation, also if fewer count,
                             or a variable with which the
                             variable bits exceed 4096

  18 was the refusal of an equation whose sides differ in width. No call yields
  it any more, whatever the input, and the number is not used again.


                               Every call

  Lengths count elements, not bytes: 16-bit numbers for a table, for a normal
  form, for an answer table, for a work area, for a run and for a recording,
  32-bit numbers for a list of starts, bytes for a pattern, for a value, for
  fresh bits and for a sheet. A table of R rows has length 4 * R, and an answer table of R rows has
  length 6 * R. The calls whose names end in _rows take the table as an array of
  row structs instead, and the number of rows.

  Each pointer is to as many elements as its length says, aligned for their
  type. A buffer that a call writes must not overlap another one of that call;
  buffers that it only reads may overlap each other. A pointer may be NULL where
  its length is 0. Nothing else is asked of the arguments: a call refuses what
  it cannot work on. A job is the one pointer without a length: it is to one
  lw_job, is not NULL, and overlaps no buffer.

  No state is kept from one call to the next, and no memory is allocated. All
  calls are reentrant, and threads may call at the same time as long as no
  buffer that one call writes is used by another.

  How much stack a call needs is said under Stack below.
*/

#ifndef LINKWORDS_H
#define LINKWORDS_H

#include <stddef.h>
#include <stdint.h>

#ifdef __cplusplus
extern "C" {
#endif

/* version */

/*
  The version of the library, as text and as a number that grows from version to
  version: major * 1000000 + minor * 1000 + patch.
*/
#define LW_VERSION_TEXT "0.28.0"
#define LW_VERSION      28000

/* constants */

/* Kinds of a row. */
#define LW_VARIABLE 0
#define LW_FILL     1
#define LW_JOIN     2
#define LW_CUT      3
#define LW_EQUATION 4
#define LW_VALUE    5 /* a marker */

/* Kind of a piece that is a part of a variable; a fill has its bit as kind. */
#define LW_PART 2

/* Kind of an answer table's row that is a fresh piece; a fill has its bit as kind. */
#define LW_FRESH 2

/* Limits. */
#define LW_ROW_NUMBERS          4 /* numbers of a row: kind, a, b, c */
#define LW_PIECE_NUMBERS        4 /* of a piece: kind, variable, high, low */
#define LW_ANSWER_ROW_NUMBERS   6 /* of an answer table's row: variable, kind, width, fresh, home, high */
#define LW_FORM_NUMBERS      4096 /* least output of a normal form */
#define LW_TABLE_NUMBERS     2048 /* least output of a sheet's reading */
#define LW_ANSWER_NUMBERS   24576 /* least answer table of a solve, and of a job's answer */
#define LW_WORK_NUMBERS     16384 /* least work area of a solve, of a job, and of a pattern's making */
#define LW_MAX_SHEET        16384 /* bytes of a sheet */
#define LW_MAX_ROWS           512
#define LW_MAX_WIDTH         1024
#define LW_MAX_VARIABLES       64
#define LW_MAX_VARIABLE_BITS 4096
#define LW_MAX_EQUATIONS       64
#define LW_MAX_WORDS      1048576 /* words of a run */
#define LW_MAX_RECORDING    65535 /* numbers of a recording */
#define LW_PAGE_BYTES        2460 /* of a page */
#define LW_PAGE_LINES          60
#define LW_PAGE_PIECES         59 /* lines of a page below the names */

/* Numbers of a job: the next row after a never, and what the fixed bit 0 has in the work area; 1 has one more. */
#define LW_JOB_NEVER  1000
#define LW_HELD_FIXED 4096

/* Outcomes of an accepted call: of both solves and of a job's calls the last three, of most others the first. */
#define LW_ACCEPTED 0
#define LW_ALWAYS   0 /* every pattern meets the table */
#define LW_NEVER    1 /* no pattern does */
#define LW_SOLVED   2 /* every other table */

/* Outcomes of two tables compared; all four are accepted. */
#define LW_SAME     0 /* the same patterns meet both */
#define LW_STRICTER 1 /* every pattern that meets the first meets the second, and some pattern meets the second only */
#define LW_LOOSER   2 /* every pattern that meets the second meets the first, and some pattern meets the first only */
#define LW_NEITHER  3 /* some pattern meets the first only, and some the second only */

/* Refusals. */
#define LW_REFUSED_MEMORY    10 /* answer table below 24576 numbers, or work area below 16384 */
#define LW_REFUSED_TABLE     11 /* length no multiple of 4, or over 512 rows */
#define LW_REFUSED_KIND      12 /* kind above 5 */
#define LW_REFUSED_UNUSED    13 /* a column that the kind does not use is not 0 */
#define LW_REFUSED_NAME      14 /* a named row is not earlier, or is an equation */
#define LW_REFUSED_WIDTH     15 /* width outside 1 to 1024, or a fill's bit above 1 */
#define LW_REFUSED_CUT       16 /* high not below the width, or low above high */
#define LW_REFUSED_MAXIMUM   17 /* a 65th variable or equation, or over 4096 variable bits */
#define LW_REFUSED_SIDES     18 /* yielded no more, and not used again: sides of unequal width are filled */
#define LW_REFUSED_SHEET     20 /* sheet over 16384 bytes */
#define LW_REFUSED_NAMES     21 /* the line of names is malformed, or there is none */
#define LW_REFUSED_LINE      22 /* a line of values is malformed */
#define LW_REFUSED_LINES     23 /* a 513th line of values */
#define LW_REFUSED_ROW       30 /* the row asked for is absent, or is an equation */
#define LW_REFUSED_PATTERN   31 /* pattern of another length, or a byte above 1 */
#define LW_REFUSED_OUTPUT    32 /* output buffer too short */
#define LW_REFUSED_ANSWER    33 /* answer table not of its form, or over 4096 bits */
#define LW_REFUSED_FRESH     34 /* fresh bits of another number, or a byte above 1 */
#define LW_REFUSED_VALUE     40 /* a marker's width above 16, or its value 2 to the width or more */
#define LW_REFUSED_WINDOW    41 /* no variable, or one that has not 16 bits */
#define LW_REFUSED_RUN       42 /* run over 1048576 words */
#define LW_REFUSED_REVISED   43 /* an equation of a job's table has a line number */
#define LW_REFUSED_JOB       44 /* no number of steps leaves this job and this work area */
#define LW_REFUSED_STEP      45 /* a step, or a preview of it, with no equation left */
#define LW_REFUSED_OTHER_ANSWER 46 /* answer table other than the one solved from the table, or the table has none */
#define LW_REFUSED_RECORDING 47 /* variables that are none, odd in number or not 16 bits; a recording too long or not whole */
#define LW_REFUSED_COUNTERS  48 /* counters of a recording that do not strictly rise */
#define LW_REFUSED_LAYOUT    49 /* two tables whose variables differ in number or width */

/*
  Stack: the most bytes that a call was seen to use, on tables made for that; it
  is measured, not proved. The return address counts. What a dynamic linker uses
  that binds memcpy or memset only at its first use does not.
*/
#define LW_STACK_VALUE              2496
#define LW_STACK_NORMAL_FORM       39104
#define LW_STACK_READ_SHEET         4352
#define LW_STACK_SOLVE             64256
#define LW_STACK_RIGHT_SIDE           64
#define LW_STACK_MAKE_PATTERN     121536
#define LW_STACK_MARKER_POSITIONS  74944
#define LW_STACK_PAGE               2752
#define LW_STACK_JOB_OPEN           2496
#define LW_STACK_JOB_STEP         105088
#define LW_STACK_JOB_PREVIEW      105088
#define LW_STACK_JOB_ANSWER        72192
#define LW_STACK_VALUE_ROWS         6656
#define LW_STACK_NORMAL_FORM_ROWS  43264
#define LW_STACK_SOLVE_ROWS        68416
#define LW_STACK_COMPARE_RECORDINGS  75136
#define LW_STACK_COMPARE_TABLES    64064
#define LW_STACK_SOLVE_PIECES     121664

/* the record */

/*
  What each call but lw_right_side and lw_page yields. Every call says which
  fields it sets; the others are 0. A refusal has its number as outcome, in row
  the place given at the call, and 0 in all other fields. What stands at the
  fields below is what most calls say by them; after lw_compare_recordings they
  mean what is said there.
*/
typedef struct {
    uint32_t outcome; /* 0 to 3, or the number of the refusal */
    uint32_t pieces;
    uint32_t fresh;   /* a number of fresh pieces */
    uint32_t free;    /* a number of bits */
    uint32_t ties;    /* a number of bit pairs */
    uint32_t row;     /* of a refusal: its place, mostly a row of the table; of LW_NEVER: an equation's row */
} lw_record;

/* What a job keeps beside its work area (see Jobs). */
typedef struct {
    uint32_t next; /* the next row, the number of rows, or LW_JOB_NEVER */
    uint32_t ties; /* of the equations taken */
} lw_job;

/* A part of the caller's answer table: its first number, and how many they are. */
typedef struct {
    size_t start, len; /* both count numbers, not rows */
} lw_part;

/* calls */

lw_record lw_value(const uint16_t *table, size_t table_len, size_t row,
                   const uint8_t *pattern, size_t pattern_len,
                   uint8_t *value, size_t value_len);
/*
     Writes the value of the given row of the table under the pattern.

     If the call is accepted, outcome is LW_ACCEPTED, free is the width of the
     row, and all other fields are 0. The first free bytes of value are then the
     row's bits, high bit first; the bytes of value that follow keep their
     content.

     Otherwise outcome is the first refusal that applies, in the order below,
     and nothing is written to value. The table is tested first, all of it, also
     behind the row asked for; then the row, the pattern and the output.

     outcome                 cause                               field row
     11 to 17, 40            the table is refused: see Refusals  512, or
                             of a term table above               that row
     30 LW_REFUSED_ROW       the table has no such row, or it is 0
                             an equation
     31 LW_REFUSED_PATTERN   pattern_len is not the number of    0
                             the table's variable bits, or a
                             byte of the pattern is above 1
     32 LW_REFUSED_OUTPUT    value_len is below the row's width  0

     The table and the pattern are only read.
*/

lw_record lw_normal_form(const uint16_t *table, size_t table_len, size_t row,
                         uint16_t *form, size_t form_len);
/*
     Writes the normal form of the given row of the table.

     If the call is accepted, outcome is LW_ACCEPTED, pieces is the number of
     pieces, which is at least 1 and at most the width of the row, free is the
     width of the row, and all other fields are 0. The first 4 * pieces numbers
     of form are then the pieces, the high end of the row first, each as kind,
     variable, high and low; the numbers of form that follow keep their content.

     A fill of w bits is its bit, 0, w - 1, 0. Bits i down to j of variable v
     are 2, v, i, j; v is the variable's number, not that of its row.
     Neighbouring pieces are put together where both are fills of one bit, or
     where both are parts of one variable and the low of the left one is the
     high of the right one plus 1, and nowhere else.

     Otherwise outcome is the first refusal that applies, in the order below,
     and nothing is written to form. The table is tested first, all of it, also
     behind the row asked for; then the row, and then the output.

     outcome                 cause                               field row
     11 to 17, 40            the table is refused: see Refusals  512, or
                             of a term table above               that row
     30 LW_REFUSED_ROW       the table has no such row, or it is 0
                             an equation
     32 LW_REFUSED_OUTPUT    form_len is below LW_FORM_NUMBERS   0
                             (4096), however few the pieces are

     The table is only read.
*/

lw_record lw_read_sheet(const uint8_t *sheet, size_t sheet_len,
                        uint16_t *table, size_t table_len);
/*
     Reads a sheet, and writes its rows as a table.

     If the call is accepted, outcome is LW_ACCEPTED, pieces is the number of
     rows, that is of lines of values, which is at most 512, and all other
     fields are 0. The first 4 * pieces numbers of table are then the rows, in
     the order of their lines, each as kind, a, b and c, whatever the order of
     the names is; the numbers of table that follow keep their content. So
     4 * pieces is the length to give to a call that works on this table.

     Otherwise outcome is the first refusal that applies, in the order below,
     and nothing is written to table. The sheet's length is tested first, then
     the line of names, then the lines of values, and last the output. The lines
     of values are numbered from 0 and tested from the first to the last, each
     by 23 before 22, so that the refusal is about the first line at fault: that
     is 22 for the first malformed line among the first 512, and if they have
     none, 23 for the line that follows them, whatever it holds.

     outcome                 cause                               field row
     20 LW_REFUSED_SHEET     sheet_len is above LW_MAX_SHEET     0
                             (16384), whatever the sheet holds
     21 LW_REFUSED_NAMES     there is no line, or the first one  0
                             is no line of names: a name is
                             missing, there twice or unknown, or
                             spaces or the line's end are
                             otherwise than said under Sheets
     23 LW_REFUSED_LINES     the line is the 513th line of       512
                             values
     22 LW_REFUSED_LINE      the line is no line of values: a    that line
                             value is missing, too much or no
                             number up to 65535, or spaces or
                             the line's end are otherwise than
                             said under Sheets
     32 LW_REFUSED_OUTPUT    table_len is below LW_TABLE_NUMBERS 0
                             (2048), however few the rows are

     The numbers are not tested as a table: the call that works on them does so.

     The sheet is only read.
*/

lw_record lw_solve(const uint16_t *table, size_t table_len,
                   uint16_t *answer, size_t answer_len,
                   uint16_t *work, size_t work_len);
/*
     Solves the equations of the table that count (see The table). If some
     patterns meet it and some do not, it writes the solved system as an answer
     table. Wherever equations are named here, those that count are meant; which
     they are is settled by the whole table, also for the rows before a never.
     lw_solve_pieces, below, says the same, and is faster where words are long.

     An equation gives bit pairs: the high bits of its two sides, then the next
     lower ones, and so on. Where one side is wider, the pairs of its top bits
     with the zeros that fill the other come first, in their order, and count as
     all others do. A tie is a pair whose two bits are not yet equal in every
     pattern that meets all pairs before it, those of earlier equations and those
     before it in its own. So a top bit is tied to 0, or is 0 already; if it is 1
     already, no pattern is left at this row.

     There are three outcomes of an accepted call:

     0 LW_ALWAYS  Every pattern meets the table. The field free is the number of
                  the table's variable bits, and all other fields are 0. Nothing
                  is written to answer.
     1 LW_NEVER   No pattern meets the table. The field row is the lowest row of
                  an equation such that no pattern meets the equations up to
                  and including that row; ties is the number of ties of the
                  equations before it, and all other fields are 0. Nothing is
                  written to answer.
     2 LW_SOLVED  Every other table. The field pieces is the number of rows of
                  the answer table, which is at least 1 and at most 4096; fresh
                  is the number of fresh pieces; free is the number of their
                  bits, each fresh piece once; ties is the number of ties of all
                  equations; row is 0. The first 6 * pieces numbers of answer
                  are then the rows of the answer table (see Solved systems),
                  each as variable, kind, width, fresh number, home and high;
                  the numbers of answer that follow keep their content.

     After LW_ALWAYS and LW_SOLVED, free plus ties is the number of the table's
     variable bits, and the patterns that meet the table are 2 to the free.

     Neither the order of equations nor which side of one is left matters: two
     accepted tables without line numbers that differ only in which equation
     stands in which equation row, or in which side is left, yield the same record,
     and leave the same numbers in answer and in work where these held the same
     before. Only after LW_NEVER may ties and row differ, both or either one, and
     not where sides alone are exchanged.

     work is memory for the call to work in, and may hold anything before it.
     After an accepted call, whatever the outcome, each number of work is 0, all
     work_len of them, also those past the 16384th.

     Otherwise outcome is the first refusal that applies, in the order below,
     and nothing is written to answer nor to work. The lengths of the two are
     tested first, before anything of the table, and also where the outcome
     would need no answer table; then the table.

     outcome                 cause                               field row
     10 LW_REFUSED_MEMORY    answer_len is below                 0
                             LW_ANSWER_NUMBERS (24576), or
                             work_len is below LW_WORK_NUMBERS
                             (16384), however small the table is
     11 to 17, 40            the table is refused: see Refusals  512, or
                             of a term table above               that row

     The table is only read. No two of table, answer and work may overlap.
*/

lw_record lw_solve_pieces(const uint16_t *table, size_t table_len,
                          uint16_t *answer, size_t answer_len,
                          uint16_t *work, size_t work_len);
/*
     Solves the table as lw_solve does, by another way. For every input, also one
     that is refused, it yields the record that lw_solve yields, and leaves in
     answer and in work, up to their lengths, the numbers that lw_solve leaves.
     All that is said of lw_solve above is said of this call too, outcomes,
     refusals and their order among it. Only time and stack differ, so a host may
     take either, for each table anew.

     lw_solve ties the bits of an equation pair by pair, and writes the answer
     table bit by bit: its time grows with the bits. This call cuts both sides of
     an equation wherever one of their normal forms has a border, and takes pairs
     of runs of bits, as many at once as the runs of both sides go; and so it
     writes the rows. Its time grows with the pieces, and hardly with the bits:
     four words that are turned into each other take nearly as long with 1024
     bits as with 32.

     When to use which. The figures say how many times as fast as lw_solve this
     call is; below 1 it is slower. They are measured (docs/BENCHMARKS.md has all
     tables), and no promise.

       Long words, this call:
         words of 1024 bits, equated whole, or in a chain      10
         words of 1024 bits turned or shifted                   8
         words of 1024 bits in fields of 256 bits, of 64 bits   7, 4
         a word that repeats each 512 bits, each 100, each 16   7, 5, 1.7
         fills of 900 bits, of 100 bits                        15, 4
         one equation of 1024 bits                              5
       Words of 16 bits in some pieces each, as in most sheets, either: 1.2.
       Words cut into single bits, or by many equations each at other places,
       lw_solve: 0.8 to 1.0; and where no pattern is left after such, 0.7.
       A small table, one of some words of 16 bits and an equation or two,
       lw_solve: 0.2 to 0.3. Either takes two or three microseconds at most.

     Where runs are short, so that taking them costs more than taking bits would,
     the call gives up after some equations, and answers by the way of lw_solve,
     from the start. That is part of the figures above, and changes nothing else.

     outcome                 cause                               field row
     10, 11 to 17, 40        as for lw_solve                     as there

     The table is only read. No two of table, answer and work may overlap. There
     is no such call on row records.
*/

lw_part lw_right_side(const uint16_t *answer, size_t answer_len,
                      size_t rows_in_use, size_t variable);
/*
     Finds the right side of a variable in an answer table. rows_in_use is the
     number of rows that count, mostly the field pieces of lw_solve's record;
     what stands behind them in answer is not looked at.

     The part that is yielded is the run from the first row of that variable
     through the rows of it that follow directly: len numbers of answer, from
     answer[start] on. Both start and len are multiples of 6. Rows of the same
     variable behind another variable's row do not belong to it; after lw_solve
     there are none.

     The part is empty, start 0 and len 0, if none of the rows in use is of that
     variable (always so for a variable above 65535), or if rows_in_use is more
     than the whole rows of answer, that is answer_len / 6 rounded down.

     Nothing is asked of the numbers in answer, home and high among them, and
     there is no refusal. The answer table is only read.
*/

lw_record lw_make_pattern(const uint16_t *table, size_t table_len,
                          const uint16_t *answer, size_t answer_len,
                          const uint8_t *fresh, size_t fresh_len,
                          uint8_t *pattern, size_t pattern_len,
                          uint16_t *work, size_t work_len);
/*
     Writes the pattern that the table's answer table gives with the fresh bits.
     After lw_solve with outcome LW_SOLVED, the answer table is the first
     6 * pieces numbers of its buffer, and the fresh bits are free in number. The
     call tests by itself that the answer is that of the table, so every pattern
     that it makes meets the table; and every choice of fresh bits gives one, and
     no two of them the same.

     All of answer is rows in use: answer_len is 6 times their number. They have
     this form:

       - The variable of the first row is 0. That of each other row is that of
         the row before it, or 1 more. None is above 63.
       - The kind is 0, 1 or 2.
       - The width is at least 1. The widths of a variable's rows add up to at
         most 1024, and those of all rows to at most 4096.
       - A fill has fresh number 0. Two fills that follow directly in one
         variable differ in their bit.
       - The fresh number of a fresh piece is that of an earlier row which is a
         fresh piece, and then the two have the same width; or it is the lowest
         number which is not that of an earlier fresh piece.
       - The home and high of a fill are its own variable, and the widths of
         that variable's rows from its own on, added up, less 1. Those of a
         fresh piece are these two numbers of the first row of kind 2 with its
         fresh number.

     And they are, number by number and in their number, the rows that lw_solve
     writes for this table, of whose equations those count that stand under The
     table. Where the rows come from is not asked: the answer of another table is
     the right one if it is the same. The same right sides with a fresh piece cut
     in two are not the right answer, nor is the answer of the table before it was
     revised.

     An answer table of no rows has the form, and is no table's answer: it is
     refused 46, also for a table without variables or rows. After LW_ALWAYS there
     is no answer table and nothing to make: any bits, as many as the field free
     says, are a pattern, and the host writes them itself. After LW_NEVER there is
     no pattern. The answer so far of a job is that of its table once no equation
     is left; before that, lend a table in which each later equation is 4 0 0 0.

     If the call is accepted, outcome is LW_ACCEPTED, free is the length of the
     pattern, that is the number of the table's variable bits, and all other
     fields are 0. The first free bytes of pattern are then the pattern: row by
     row, the bit of a fill as many times as it is wide, and the bits of a fresh
     piece, high bit first, wherever it stands. The bytes of pattern that follow
     keep their content.

     Otherwise outcome is the first refusal that applies, in the order below,
     and nothing is written to pattern.

     outcome                 cause                               field row
     10 LW_REFUSED_MEMORY    work_len is below LW_WORK_NUMBERS   0
                             (16384), however small the table is
     11 to 17, 40            the table is refused: see Refusals  512, or
                             of a term table above               that row
     33 LW_REFUSED_ANSWER    answer_len is no multiple of 6, or  0
                             the rows are not of the form above
     46 LW_REFUSED_OTHER_ANSWER
                             the outcome of lw_solve for the     0
                             table is LW_ALWAYS or LW_NEVER, or
                             answer is not the answer table that
                             it writes
     34 LW_REFUSED_FRESH     fresh_len is not the number of      0
                             fresh bits, that is the widths of
                             the fresh pieces together, each
                             fresh piece once; or a byte of
                             fresh is above 1
     32 LW_REFUSED_OUTPUT    pattern_len is below the length of  0
                             the pattern

     work is memory for the call to work in, and may hold anything before it.
     After 10, a refusal of the table and 33 it holds what it held. After an
     accepted call, and after the refusals 46, 34 and 32 too, each number of work
     is 0, all work_len of them, also those past the 16384th. These three are the
     only refusals of any call that write to a buffer.

     Each call solves the table once, and so takes somewhat longer than lw_solve.
     A host that makes all patterns of a table pays a solve for each of them.

     The table, the answer table and the fresh bits are only read. None of them
     may overlap pattern or work, nor may these two overlap.
*/

lw_record lw_marker_positions(const uint16_t *table, size_t table_len,
                              const uint16_t *words, size_t words_len,
                              uint32_t *list, size_t list_len);
/*
     Lists the starts in the run at which the words meet the table, that is its
     equations that count, for a table whose variables all have 16 bits (see Runs
     and windows). words is the run.

     If the call is accepted, outcome is LW_ACCEPTED, pieces is the number of
     all starts of windows that meet the table, and all other fields are 0. The
     beginning of list then has these starts, rising, each once: all of them, or
     if they are more than list_len the first list_len of them. The numbers of
     list that follow keep their content. So pieces may be above list_len, and
     with a list of length 0 the starts are counted; a list as long as the run
     takes them all.

     With k variables the starts that are tested are 0 to words_len - k. A run
     of fewer than k words has none: pieces is 0, and nothing is written. A table
     that no pattern meets finds none, and one that every pattern meets, such as
     a table without equations, finds them all.

     Otherwise outcome is the first refusal that applies, in the order below,
     and nothing is written to list. The table is tested first, then its
     variables, and then the length of the run. The length of the list is not
     tested.

     outcome                 cause                               field row
     11 to 17, 40            the table is refused: see Refusals  512, or
                             of a term table above               that row
     41 LW_REFUSED_WINDOW    the table has no variable, or one   0
                             whose width is not 16, wherever it
                             stands
     42 LW_REFUSED_RUN       words_len is above LW_MAX_WORDS     0
                             (1048576)

     The table is analysed once, and then a start takes a few operations on
     words: one for each word that has fixed bits, and one for each two words
     (or one word) and each shift at which a bit of the one stands to the lowest
     bit that it is tied to, in the other; up to the first that fails.

     The table and the run are only read. Neither may overlap list.
*/

lw_record lw_compare_recordings(const uint16_t *table, size_t table_len,
                                const uint16_t *sent, size_t sent_len,
                                const uint16_t *received, size_t received_len);
/*
     Compares a sent and a received recording, frame by frame, by a table of 2 * k
     variables that says how the received words follow from the sent ones, that
     is by its equations that count (see Recordings).

     If the call is accepted, the fields are

     outcome  LW_ACCEPTED
     pieces   the number of pairs: of frames that both recordings have
     fresh    the number of records without a partner, those of both recordings
              added
     free     the number of pairs that break the table
     ties     the number of bits in which sent word j and received word j differ,
              added over all j and over all pairs, those that meet the table as
              well as those that break it
     row      the counter of the first pair that breaks the table, that is the
              lowest; 0 if none does. It is 0 too where that is the frame with
              counter 0: free tells the two apart

     So 2 * pieces + fresh is the number of records of both recordings, free is
     at most pieces, and ties is at most 16 * k * pieces. The record of the two
     recordings above is 0 2 2 1 1 4.

     A table that every pattern meets, such as one without equations, is broken
     by no pair, and one that no pattern meets by every pair. The differing bits
     have nothing to do with the table: also where it asks for swapped bytes, the
     words are compared bit by bit as they were recorded.

     Otherwise outcome is the first refusal that applies, in the order below. The
     table is tested first, then its variables and the lengths of both
     recordings, and last the counters of both. There is no 10: no memory is lent
     to work in.

     outcome                  cause                              field row
     11 to 17, 40             the table is refused: see Refusals 512, or
                              of a term table above              that row
     47 LW_REFUSED_RECORDING  the table has no variable, or an   0
                              odd number of them, or one whose
                              width is not 16, wherever it
                              stands; or sent_len or
                              received_len is above
                              LW_MAX_RECORDING (65535), or is no
                              multiple of k + 1
     48 LW_REFUSED_COUNTERS   in one of the two recordings a     0
                              counter is not above the one
                              before it

     65535 numbers are whole records for k = 2, 4, 14 and 16; for k = 1 the most
     are 65534.

     The table is analysed once, and then the recordings are read once, side by
     side.

     All three are only read, and nothing is written. They may overlap: one
     recording may be lent as both.
*/

lw_record lw_compare_tables(const uint16_t *first, size_t first_len,
                            const uint16_t *second, size_t second_len,
                            uint16_t *work, size_t work_len);
/*
     Compares the patterns that meet two tables, such as an old layout and its
     revision. The tables may be written quite differently; what counts is which
     patterns meet them.

     Two tables can be compared if they have as many variables, and the variables
     have the same widths in the same order, each as it appears. The rows between
     them, how the terms are built, the equations, their number and order, and
     their line numbers need not agree. In each table by itself the equations that
     count hold.

     If the call is accepted, all fields but outcome are 0, and outcome is

     0 LW_SAME      A pattern meets the first exactly if it meets the second.
     1 LW_STRICTER  Every pattern that meets the first meets the second, and some
                    pattern meets the second and not the first: the first allows
                    fewer.
     2 LW_LOOSER    Every pattern that meets the second meets the first, and some
                    pattern meets the first and not the second: the first allows
                    more.
     3 LW_NEITHER   Some pattern meets the first and not the second, and some the
                    second and not the first.

     These are not the outcomes of lw_solve, and 3 is no refusal. With the tables
     exchanged 1 and 2 are exchanged, and 0 and 3 stay.

     A table that no pattern meets is stricter than every table that some pattern
     meets, and the same as every other that no pattern meets, wherever their
     equations fail. Tables without variables have one pattern, that of no bits.
     Two tables for which lw_solve yields LW_SOLVED are the same exactly if the
     answer tables that it writes are equal, number by number.

     work is memory for the call to work in, and may hold anything before it.
     After an accepted call, whatever the outcome, each number of work is 0, all
     work_len of them, also those past the 16384th.

     Otherwise outcome is the first refusal that applies, in the order below, and
     nothing is written to work. Its length is tested first, then the first table,
     then the second, and last whether the two can be compared. Which table it is
     that is refused is not told: if lw_value or another call refuses the first
     one so, it is that.

     outcome                 cause                               field row
     10 LW_REFUSED_MEMORY    work_len is below LW_WORK_NUMBERS   0
                             (16384), however small the tables
                             are
     11 to 17, 40            the first table is refused: see     512, or
                             Refusals of a term table above      that row
     11 to 17, 40            the second table is refused, and    512, or
                             the first is not                    that row
     49 LW_REFUSED_LAYOUT    the tables have not as many         0
                             variables, or a variable of one has
                             another width than that of the same
                             number in the other

     The tables are only read. They may overlap, and one table may be lent as
     both; work may overlap neither.
*/

/* The bytes of a page. */
typedef struct {
    uint8_t bytes[LW_PAGE_BYTES];
} lw_page_bytes;

lw_page_bytes lw_page(lw_record record, const uint16_t *answer, size_t answer_len,
                      size_t number);
/*
     Yields a page of the result sheet of a record and an answer table (see
     Pages), by its number from 0. Mostly both come from lw_solve.

     If the field outcome is LW_SOLVED, the pieces are the rows of answer, in
     their order: as many as the field pieces says, or as many as there are
     whole rows, that is answer_len / 6 rounded down, if these are fewer. Page k
     has the names, and below them pieces 59 * k to 59 * k + 58, as many of them
     as there are, and then blank lines. Of a row its first four numbers are
     printed. There are as many pages as the pieces need: 1 for 0 to 59 pieces, 2
     for 60 to 118, and so on. So page 0 is always there; without a piece it has
     the names and 59 blank lines.

     With any other outcome there is one page: the names, then a line with that
     number in the first column and blanks in the other three, and 58 blank
     lines. Nothing else of the record is used then, and nothing of answer.

     A number past the last page yields 60 blank lines, without the names.

     Of the record only outcome, and with LW_SOLVED pieces, are used. Nothing is
     asked of any number: none is tested, and each is printed as it is. There is
     no refusal. The answer table is only read.
*/

/* calls of a job */

lw_record lw_job_open(const uint16_t *table, size_t table_len,
                      lw_job *job, uint16_t *work, size_t work_len);
/*
     Opens a job of the table: no equation is taken. What job and work hold
     before does not matter.

     If the call is accepted, outcome is LW_ALWAYS, free is the number of the
     table's variable bits, and all other fields are 0, whatever the equations
     are. job->next is then the row of the first equation, or the number of rows
     if there is none, and job->ties is 0. Each place of work is held by itself:
     its numbers are 0, 1, 2 and so on, one for each variable bit, and 0 behind
     the last, all work_len of them, also those past the 16384th.

     Otherwise outcome is the first refusal that applies, in the order below,
     and nothing is written to job nor to work.

     outcome                 cause                               field row
     10 LW_REFUSED_MEMORY    work_len is below LW_WORK_NUMBERS   0
                             (16384), however small the table is
     11 to 17, 40            the table is refused: see Refusals  512, or
                             of a term table above               that row
     43 LW_REFUSED_REVISED   an equation has a line number above 0
                             0, also if it revises none

     The table is only read. No two of table, job and work may overlap.
*/

lw_record lw_job_step(const uint16_t *table, size_t table_len,
                      lw_job *job, uint16_t *work, size_t work_len);
/*
     Takes the equation of the next row, with all of its bit pairs.

     If the call is accepted, it yields the record that lw_solve yields of the
     table with all equations behind that row left off, while rows keep their
     numbers: LW_ALWAYS as long as there is no tie, LW_SOLVED with pieces, fresh,
     free and ties, though no answer table is written, or LW_NEVER.

     After LW_ALWAYS and LW_SOLVED, job->next is the row of the next equation, or
     the number of rows if none is left, job->ties is the number of ties of all
     equations taken, and work has what holds each variable bit (see Jobs).

     With LW_NEVER, row is the row of the equation that leaves no pattern, and
     ties is job->ties. job->next becomes LW_JOB_NEVER, and job->ties and work
     stay as they were. A step of a job whose next row is LW_JOB_NEVER yields the
     same record again and changes nothing; it is not refused 45.

     Otherwise outcome is the first refusal that applies, in the order below,
     and nothing is written to job nor to work.

     outcome                 cause                               field row
     10 LW_REFUSED_MEMORY    work_len is below LW_WORK_NUMBERS   0
                             (16384), however small the table is
     11 to 17, 40            the table is refused: see Refusals  512, or
                             of a term table above               that row
     43 LW_REFUSED_REVISED   an equation has a line number above 0
                             0, also if it revises none
     44 LW_REFUSED_JOB       lw_job_open of this table and any   0
                             number of steps, over a work area
                             of this length, leave another job
                             or work area: next is the row of no
                             equation and not the number of
                             rows, or is behind the row of a
                             never, or is LW_JOB_NEVER where
                             there is none; ties or a number of
                             work, up to its length, are not
                             those of that next row
     45 LW_REFUSED_STEP      no equation is left: next is the    0
                             number of rows

     The table is only read: all equations taken, and the next one. No two of
     table, job and work may overlap.
*/

lw_record lw_job_preview(const uint16_t *table, size_t table_len,
                         const lw_job *job, const uint16_t *work, size_t work_len);
/*
     Tells what the next step would yield, and takes nothing.

     If the call is accepted, it yields the whole record that lw_job_step yields
     of the same table, job and work area: LW_ALWAYS, LW_SOLVED with pieces,
     fresh, free and ties, or LW_NEVER with ties and row. It is not the record of
     the answer so far, nor what differs from it: with LW_ALWAYS and LW_SOLVED the
     ties that the equation of the next row brings are the field ties less
     job->ties. An equation that says nothing new yields the record of the answer
     so far.

     LW_NEVER is yielded of an equation that would leave no pattern, with its row,
     and the job stays where it was: the preview can be made again, the step can
     still be taken, and lw_job_answer gives the answer before it. A job whose
     next row is LW_JOB_NEVER yields the record of its last step, as a further
     step does; it is not refused 45.

     Otherwise outcome is the first refusal that applies, in the order below, and
     is that of the step.

     outcome                 cause                               field row
     10 LW_REFUSED_MEMORY    work_len is below LW_WORK_NUMBERS   0
                             (16384), however small the table
                             is, though nothing is written
     11 to 17, 40            the table is refused: see Refusals  512, or
                             of a term table above               that row
     43 LW_REFUSED_REVISED   as for lw_job_step                  0
     44 LW_REFUSED_JOB       as for lw_job_step, of all numbers  0
                             of work, up to its length
     45 LW_REFUSED_STEP      no equation is left: next is the    0
                             number of rows

     Nothing is written, whatever the outcome: the table, the job and the work
     area are only read, and may lie in read-only memory. Threads may preview one
     job at the same time, as long as none of them changes it. job is not NULL.

     Nothing is kept for the step that follows, which does the same again. So a
     preview takes the time of a step, and a host that always steps after it should
     step, and compare the record with the one before.
*/

lw_record lw_job_answer(const uint16_t *table, size_t table_len,
                        const lw_job *job, const uint16_t *work, size_t work_len,
                        uint16_t *answer, size_t answer_len);
/*
     Writes the answer so far as an answer table.

     If the call is accepted, it yields the record that lw_solve yields of the
     table with the equations from the next row on left off, while rows keep
     their numbers: that of the step that led here, or of the opening. If
     job->next is LW_JOB_NEVER, it is the record of the never.

     For LW_SOLVED the first 6 * pieces numbers of answer are then the rows of
     the answer table (see Solved systems), as lw_solve writes them; the numbers
     of answer that follow keep their content. For LW_ALWAYS and LW_NEVER nothing
     is written to answer. Unlike lw_solve the call leaves the work area as it is.

     Otherwise outcome is the first refusal that applies, in the order below,
     and nothing is written to answer. There is no 45: a job whose equations are
     all taken has an answer.

     outcome                 cause                               field row
     10 LW_REFUSED_MEMORY    work_len is below LW_WORK_NUMBERS   0
                             (16384), or answer_len is below
                             LW_ANSWER_NUMBERS (24576), however
                             small the table is
     11 to 17, 40            the table is refused: see Refusals  512, or
                             of a term table above               that row
     43 LW_REFUSED_REVISED   as for lw_job_step                  0
     44 LW_REFUSED_JOB       as for lw_job_step                  0

     The table, of which all equations taken are read, the job and the work area
     are only read. No two of table, job, work and answer may overlap.
*/

/* calls on row records */

/* A row of a table as a record. */
typedef struct {
    uint16_t kind, a, b, c;
} lw_row;

lw_record lw_value_rows(const lw_row *rows, size_t row_count, size_t row,
                        const uint8_t *pattern, size_t pattern_len,
                        uint8_t *value, size_t value_len);
lw_record lw_normal_form_rows(const lw_row *rows, size_t row_count, size_t row,
                              uint16_t *form, size_t form_len);
lw_record lw_solve_rows(const lw_row *rows, size_t row_count,
                        uint16_t *answer, size_t answer_len, uint16_t *work, size_t work_len);
/*
     As lw_value, lw_normal_form and lw_solve, with the table lent as row_count
     records. Each yields the record and the buffer contents that the call on
     numbers yields of the 4 * row_count numbers of the records. So a table of
     over 512 records is refused 11; numbers that are not whole rows cannot occur.

     The records are only read, at most 513 of them, and may not overlap a buffer
     that the call writes.
*/

#ifdef __cplusplus
}
#endif

#endif /* LINKWORDS_H */
