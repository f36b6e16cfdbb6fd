/*
  masks.h -- the starts of a run at which its words meet a table, and the pairs of
  two recordings that meet one, by masks that were laid out by hand

  This is what a host would write that knows its layout: for each word a mask and
  a value of its fixed bits, and for two words and a shift a mask of the bits that
  are equal. The benchmark compares with it.
*/

#ifndef MASKS_H
#define MASKS_H

#include <stddef.h>
#include <stdint.h>

#include "linkwords.h"

typedef struct {
    uint16_t word, mask, value;
} fixed_bits;

/* Bit i of word is bit i - shift of other. */
typedef struct {
    uint16_t word, other, shift, mask;
} equal_bits;

typedef struct {
    size_t window, fixed_count, equal_count;
    fixed_bits fixed[64];
    equal_bits equal[1023];
} masks;

/* The starts of a run of so many words; the list takes the first of them. Gives their number. */
size_t masked_starts(const masks *m, const uint16_t *words, size_t count, uint32_t *list, size_t room);

/*
  What lw_compare_recordings yields of recordings whose records are whole: 48, or
  by a merge of the two what it finds. The window is the words of both records of a
  pair. masked_merge is the merge alone, which tests no counters.
*/
lw_record masked_comparison(const masks *m, const uint16_t *sent, size_t sent_len, const uint16_t *received,
                            size_t received_len);
lw_record masked_merge(const masks *m, const uint16_t *sent, size_t sent_len, const uint16_t *received,
                       size_t received_len);

#endif /* MASKS_H */
