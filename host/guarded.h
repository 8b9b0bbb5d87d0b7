/* Buffers of an exact size with guard bytes before and behind them. */
#ifndef GUARDED_H
#define GUARDED_H

#include <stddef.h>
#include <stdint.h>
#include <stdlib.h>
#include <string.h>

#define GUARD_SIZE 67 /* odd, so that the buffers are not aligned */
#define NUMBERS_GUARD_SIZE 68 /* aligned for numbers of 4 bytes, no more */
#define GUARD_BYTE 0xA5

struct guarded {
    uint8_t *bytes;
    size_t size;           /* without the guards */
    size_t before, behind; /* sizes of the guards */
};

/* Write the guards, and the fill between them. */
static inline void guarded_fill(struct guarded *g, uint8_t fill)
{
    memset(g->bytes - g->before, GUARD_BYTE, g->before);
    memset(g->bytes, fill, g->size);
    memset(g->bytes + g->size, GUARD_BYTE, g->behind);
}

/* Allocate size bytes of the given fill between two guards; 1 on success. */
static inline int guarded_make_between(struct guarded *g, size_t size,
                                       uint8_t fill, size_t guard)
{
    uint8_t *block = malloc(guard + size + guard);

    if (block == NULL)
        return 0;
    g->bytes = block + guard;
    g->size = size;
    g->before = g->behind = guard;
    guarded_fill(g, fill);
    return 1;
}

static inline int guarded_make(struct guarded *g, size_t size, uint8_t fill)
{
    return guarded_make_between(g, size, fill, GUARD_SIZE);
}

static inline int guarded_make_numbers(struct guarded *g, size_t size,
                                       uint8_t fill)
{
    return guarded_make_between(g, size, fill, NUMBERS_GUARD_SIZE);
}

static inline void guarded_free(struct guarded *g)
{
    free(g->bytes - g->before);
    g->bytes = NULL;
    g->size = 0;
}

/* 1 when every guard byte stands as it was made. */
static inline int guarded_intact(const struct guarded *g)
{
    const uint8_t *before = g->bytes - g->before;
    size_t i;

    for (i = 0; i < g->before; i++)
        if (before[i] != GUARD_BYTE)
            return 0;
    for (i = 0; i < g->behind; i++)
        if (g->bytes[g->size + i] != GUARD_BYTE)
            return 0;
    return 1;
}

#endif
