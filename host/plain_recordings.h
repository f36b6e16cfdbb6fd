/*
  plain_recordings.h -- a second comparison of two recordings, to compare the
  library with

  It is written from the request's text alone: for each record of one recording
  all records of the other are searched for its counter, the bits of two words
  are compared one by one, and the sheet is tested by the values of all rows
  (plain_meets). It shares no code with the library, and has the specification's
  numbers written out.
*/

#ifndef PLAIN_RECORDINGS_H
#define PLAIN_RECORDINGS_H

#include "linkwords.h"

/* What lw_compare_recordings yields. Not reentrant. */
lw_record plain_compare_recordings(const uint16_t *table, size_t table_len, const uint16_t *sent, size_t sent_len,
                                   const uint16_t *received, size_t received_len);

#endif /* PLAIN_RECORDINGS_H */
