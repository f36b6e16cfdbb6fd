/* masks.c -- see masks.h */

#include "masks.h"

#include <stdbool.h>
#include <string.h>

static bool meets_masks(const masks *m, const uint16_t *words)
{
    for (size_t i = 0; i < m->fixed_count; i++) {
        const fixed_bits *f = &m->fixed[i];
        if ((words[f->word] & f->mask) != f->value)
            return false;
    }
    for (size_t i = 0; i < m->equal_count; i++) {
        const equal_bits *e = &m->equal[i];
        if (((words[e->word] ^ ((uint32_t)words[e->other] << e->shift)) & e->mask) != 0)
            return false;
    }
    return true;
}

size_t masked_starts(const masks *m, const uint16_t *words, size_t count, uint32_t *list, size_t room)
{
    size_t found = 0;
    for (size_t i = 0; i + m->window <= count; i++)
        if (meets_masks(m, words + i)) {
            if (found < room)
                list[found] = (uint32_t)i;
            found++;
        }
    return found;
}

/* Adds a pair, whose words stand from sent and from received on, so many each, to the record. */
static void compare_pair(const masks *m, size_t count, uint16_t counter, const uint16_t *sent, const uint16_t *received,
                         lw_record *record)
{
    uint16_t words[LW_MAX_VARIABLES];
    uint32_t bits = 0;

    for (size_t j = 0; j < count; j++)
        bits += (uint32_t)__builtin_popcount((unsigned)sent[j] ^ received[j]);
    memcpy(words, sent, count * sizeof *sent);
    memcpy(words + count, received, count * sizeof *received);
    record->pieces++;
    record->ties += bits;
    if (!meets_masks(m, words) && record->free++ == 0)
        record->row = counter;
}

lw_record masked_merge(const masks *m, const uint16_t *sent, size_t sent_len, const uint16_t *received,
                       size_t received_len)
{
    size_t count = m->window / 2, size = count + 1, s = 0, r = 0;
    lw_record record = {.outcome = LW_ACCEPTED};

    while (s < sent_len && r < received_len)
        if (sent[s] < received[r]) {
            s += size;
        } else if (sent[s] > received[r]) {
            r += size;
        } else {
            compare_pair(m, count, sent[s], sent + s + 1, received + r + 1, &record);
            s += size;
            r += size;
        }
    record.fresh = (uint32_t)((sent_len + received_len) / size) - 2 * record.pieces;
    return record;
}

/* Whether each counter is above the one before it, in records of so many numbers. */
static bool rises(const uint16_t *numbers, size_t len, size_t size)
{
    for (size_t i = size; i < len; i += size)
        if (numbers[i] <= numbers[i - size])
            return false;
    return true;
}

lw_record masked_comparison(const masks *m, const uint16_t *sent, size_t sent_len, const uint16_t *received,
                            size_t received_len)
{
    size_t size = m->window / 2 + 1;

    if (!rises(sent, sent_len, size) || !rises(received, received_len, size))
        return (lw_record){.outcome = LW_REFUSED_COUNTERS};
    return masked_merge(m, sent, sent_len, received, received_len);
}
