/* Buffers whose surroundings are watched: between guard bytes, or beside a page that may not be touched. */
#ifndef GUARD_H
#define GUARD_H

#include <stdint.h>
#include <stdio.h>
#include <stdlib.h>
#include <string.h>
#include <sys/mman.h>
#include <unistd.h>

enum { GUARD = 64, GUARD_BYTE = 0xa5 };

struct guarded {
    uint8_t *base;      /* what may be touched: what is lent, with guard bytes around it or on one side */
    size_t room;        /* bytes of that */
    size_t page;        /* bytes of each of the pages around it that may not be touched, 0 if there are none */
    uint8_t *bytes;     /* what is lent */
    size_t length;
};

/* whole pages for so many bytes and guard bytes, between two pages that may not be touched */
static inline struct guarded guarded_map(size_t length)
{
    struct guarded g = { .page = (size_t)sysconf(_SC_PAGESIZE), .length = length };

    g.room = (length + GUARD + g.page - 1) / g.page * g.page;
    g.base = mmap(NULL, g.room + 2 * g.page, PROT_NONE, MAP_PRIVATE | MAP_ANONYMOUS, -1, 0);
    if (g.base == MAP_FAILED || mprotect(g.base + g.page, g.room, PROT_READ | PROT_WRITE) != 0) {
        perror("guarded_map");
        exit(2);
    }
    g.base += g.page;
    return g;
}

/* a buffer that begins right after a page that may not be touched */
static inline struct guarded guarded_after_page(size_t length)
{
    struct guarded g = guarded_map(length);

    g.bytes = g.base;
    memset(g.bytes + length, GUARD_BYTE, g.room - length);
    return g;
}

/* a buffer that ends right before a page that may not be touched, or stands between guard bytes */
static inline struct guarded guarded_new(size_t length, int at_page)
{
    struct guarded g;

    if (at_page) {
        g = guarded_map(length);
        g.bytes = g.base + g.room - length;
        memset(g.base, GUARD_BYTE, g.room - length);
        return g;
    }
    g = (struct guarded){ .base = malloc(length + 2 * GUARD), .room = length + 2 * GUARD, .length = length };
    if (g.base == NULL) {
        perror("guarded_new");
        exit(2);
    }
    memset(g.base, GUARD_BYTE, g.room);
    g.bytes = g.base + GUARD;
    return g;
}

static inline int guard_bytes(const uint8_t *from, const uint8_t *to)
{
    for (; from < to; from++)
        if (*from != GUARD_BYTE)
            return 0;
    return 1;
}

/* whether the guard bytes are as they were */
static inline int guarded_intact(const struct guarded *g)
{
    return guard_bytes(g->base, g->bytes) && guard_bytes(g->bytes + g->length, g->base + g->room);
}

static inline void guarded_free(struct guarded *g)
{
    if (g->page != 0)
        munmap(g->base - g->page, g->room + 2 * g->page);
    else
        free(g->base);
}

/* what is lent, as words */
static inline uint64_t *lent_words(const struct guarded *g)
{
    return (uint64_t *)(void *)g->bytes;
}

static inline size_t word_count(const struct guarded *g)
{
    return g->length / 8;
}

#endif
