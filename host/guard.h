/*
  guard.h -- buffers in guard zones, on which the C tests make their calls

  A guarded buffer has a zone of known bytes on each side. Before a call the
  whole block is kept; after it, the whole block is compared with what was
  kept, in which the test has first written what the call ought to write. So a
  byte changed before, behind or within the buffer is found.
*/

#ifndef GUARD_H
#define GUARD_H

#include "test.h"

enum { ZONE = 64 }; /* a multiple of every element's size */

typedef struct {
    size_t size;                  /* of the block: both zones and the buffer, in bytes */
    unsigned char *block, *kept;
} guarded;

/* A guarded copy of size bytes; of bytes that a test would not expect where content is NULL. */
static inline guarded guard(const void *content, size_t size)
{
    guarded g = {.size = size + 2 * ZONE};
    g.block = malloc(g.size);
    g.kept = malloc(g.size);
    if (g.block == NULL || g.kept == NULL) {
        printf("out of memory\n");
        exit(1);
    }
    for (size_t i = 0; i < g.size; i++)
        g.block[i] = (unsigned char)(0x80 | (i * 37 + 11));
    if (content != NULL && size != 0)
        memcpy(g.block + ZONE, content, size);
    memcpy(g.kept, g.block, g.size);
    return g;
}

static inline void *guarded_buffer(const guarded *g)
{
    return g->block + ZONE;
}

/* Says that the call ought to leave these bytes at the start of the buffer. */
static inline void guard_expect(guarded *g, const void *content, size_t size)
{
    if (size != 0)
        memcpy(g->kept + ZONE, content, size);
}

/* Puts bytes at the start of the buffer, before a call. */
static inline void guard_put(guarded *g, const void *content, size_t size)
{
    if (size != 0)
        memcpy(g->block + ZONE, content, size);
    guard_expect(g, content, size);
}

/* Compares the whole block, and says where it differs first; then it is what was expected, for a next call. */
static inline void guard_compare(guarded *g, where at, const char *name)
{
    size_t i = 0;
    if (memcmp(g->block, g->kept, g->size) == 0) {
        check(true, at, "%s", name);
        return;
    }
    while (g->block[i] == g->kept[i])
        i++;
    check(false, at, "%s: byte %ld of %zu is %u, expected %u", name, (long)i - ZONE, g->size - 2 * ZONE, g->block[i],
          g->kept[i]);
    memcpy(g->block, g->kept, g->size);
}

/* Compares the whole block, and frees it. */
static inline void guard_check(guarded *g, where at, const char *name)
{
    guard_compare(g, at, name);
    free(g->block);
    free(g->kept);
}

#endif /* GUARD_H */
