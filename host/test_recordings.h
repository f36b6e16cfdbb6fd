/* test_recordings.h -- what the two files of the tests of lw_compare_recordings share */

#ifndef TEST_RECORDINGS_H
#define TEST_RECORDINGS_H

#include "plain_recordings.h"
#include "test.h"
#include "word_tables.h"

enum {
    MOST_K = 32,              /* words of a record */
    MOST = 65535,             /* numbers of a recording */
    ROOM = MOST + MOST_K + 2, /* a record more */
    FAR = 65536 * 33          /* numbers of a recording that is far too long */
};

/* A recording in the making. */
typedef struct {
    uint16_t numbers[ROOM];
    size_t len;
} recording;

void add_record(recording *r, size_t counter, const uint16_t *words, size_t k);

/* FAR numbers, with guards; check_far tests that no call has changed them. */
const uint16_t *far_numbers(void);
void check_far(where at);

/* One call: the record, and all that it is lent unchanged. */
void call(where at, const char *name, const uint16_t *numbers, size_t len, const uint16_t *sent, size_t sent_len,
          const uint16_t *received, size_t received_len, lw_record want);

/* One call against plain_compare_recordings. Gives the record of the latter. */
lw_record compare(where at, const char *name, const uint16_t *numbers, size_t len, const uint16_t *sent,
                  size_t sent_len, const uint16_t *received, size_t received_len);

/* The group of the other file. */
void test_random(unsigned long cases);

#endif /* TEST_RECORDINGS_H */
