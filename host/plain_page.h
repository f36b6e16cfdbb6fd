/*
  plain_page.h -- a second page maker, to compare the library with

  It is written from the request's text alone, by snprintf, and shares no code
  with the library. The record and the type of a page are the only things that
  it takes from linkwords.h.
*/

#ifndef PLAIN_PAGE_H
#define PLAIN_PAGE_H

#include <stddef.h>
#include <stdint.h>

#include "linkwords.h"

/* How many pages there are. */
size_t plain_page_count(lw_record record, size_t answer_len);

/* What lw_page yields. */
lw_page_bytes plain_page(lw_record record, const uint16_t *answer, size_t answer_len, size_t number);

#endif /* PLAIN_PAGE_H */
