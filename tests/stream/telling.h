/* Log words told, at the edges of blocks and past all memory, and logs and outputs that are too short by one and long enough. */
#ifndef TELLING_H
#define TELLING_H

#include "areas.h"

static inline void short_logs(void)
{
    struct guarded area = prepared(64, 4096);

    feed_byte(&area, 9, 0);
    feed_byte(&area, UINT64_MAX, 0);
    feed_byte(&area, 1, 1);
    feed(&area, BYTES(""), 0, 0, 0);
    feed_byte(&area, 1, 2);
    end_stream(&area, 0, 3);
    end_stream(&area, 1, 3);
    end_stream(&area, 1, 4);
    row_free(&area);
}

/* the telling for a feed of so many bits to a stream that was fed ones */
static inline void told(uint64_t limit, uint64_t fed, uint64_t bits)
{
    struct guarded area = prepared(limit, fed);

    tell(&area, bits);
    row_free(&area);
}

/* tellings at the edges of the first blocks: parallel levels, the sequential level of L = 0, and that of L = 1 */
static inline void told_edges(void)
{
    static const uint64_t rows[][3] = {
        { 64, 0, 0 }, { 64, 0, 1 }, { 64, 0, 4096 }, { 64, 0, 4097 }, { 64, 1, 4095 }, { 64, 1, 4096 },
        { 64, 4096, 0 }, { 64, 4096, 1 }, { 64, 4096, 4096 }, { 64, 4096, 4097 }, { 64, 16384, 0 }, { 64, 16384, 1 },
        { 0, 0, 3072 }, { 0, 0, 3073 }, { 0, 3072, 0 }, { 0, 3072, 1 }, { 0, 3072, 3072 }, { 0, 3072, 3073 },
        { 1, 0, 12288 }, { 1, 0, 12289 }, { 1, 12288, 0 }, { 1, 12288, 1 }, { 1, 12289, 12287 }, { 1, 12289, 12288 },
    };
    size_t i;

    for (i = 0; i < sizeof rows / sizeof *rows; i++)
        told(rows[i][0], rows[i][1], rows[i][2]);
}

/* the longest feed to a stream of no bits, for several height limits */
static inline void told_longest(void)
{
    static const uint64_t limits[] = { 0, 1, 2, 26, 27, 64 };
    size_t i;

    for (i = 0; i < sizeof limits / sizeof *limits; i++)
        told(limits[i], 0, UINT64_MAX);
}

/* makes of an area without bits one that holds zeros: so many bits in all, and so many nodes made */
static inline void set_zeros(const struct guarded *area, uint64_t total, uint64_t made)
{
    lent_words(area)[1] = total;
    lent_words(area)[14] = made;
}

/* the most zero bits but one that a stream with L = 64 can have, 2^64 - 2, and the nodes that are made then */
static inline struct guarded long_area(void)
{
    struct guarded area = prepared(64, 0);

    set_zeros(&area, UINT64_MAX - 1, UINT64_C(6004799503160634));
    return area;
}

/* the bit that makes a node at each of 27 levels: L = 26, after 3 * 2^62 zero bits; then the feeds that reach 2^64 - 1 bits and that
 * pass them */
static inline void most_nodes(void)
{
    struct guarded area = prepared(26, 0);

    set_zeros(&area, UINT64_C(3) << 62, UINT64_C(4503599627370469));
    tell(&area, 0);
    tell(&area, 1);
    feed_byte(&area, 1, 53);
    feed_byte(&area, 1, 54);
    printf("%" PRIu64 "\n", lent_words(&area)[14]);
    tell(&area, (UINT64_C(1) << 62) - 2);
    tell(&area, (UINT64_C(1) << 62) - 1);
    row_free(&area);
}

/* the longest stream, up to its end */
static inline void long_stream(void)
{
    struct guarded area = long_area();

    tell(&area, 2);
    feed_byte(&area, 2, 0);
    feed_byte(&area, 9, 0);
    tell(&area, 1);
    feed_byte(&area, 1, 0);
    tell(&area, 0);
    tell(&area, 1);
    feed_byte(&area, 1, 0);
    preview(&area, 3);
    end_stream(&area, 3, 53);
    close_stream(&area, BYTES("\x00"), 53);
    end_and_close(&area, BYTES("\x00"));
    tell(&area, 1);
    row_free(&area);
}

#endif
