/* The rows of document 01's "Reels by hand", messages of ones with r = 0 and no key: fed whole and cut, ended, and closed with the
 * digest that stands there; and two blocks with rounds at each edge. */
#ifndef BY_HAND_H
#define BY_HAND_H

#include "lines.h"

enum { PIECES = 4 };

/* L, d and the bits of each piece */
struct row {
    uint64_t limit, d, pieces[PIECES];
};

/* a row in its pieces, with a preview of what was fed so far in front of the first and behind each */
static inline void by_hand(const struct row *row)
{
    struct guarded area = filled_words(MORE_WORDS);
    int i;

    open_stream(&area, BYTES(""), row->d, row->limit, 0);
    preview(&area, 3);
    for (i = 0; i < PIECES; i++) {
        feed_ones(&area, row->pieces[i]);
        preview(&area, 3);
    }
    end_stream(&area, 3, MD6_END_LOG_WORDS);
    row_free(&area);
}

enum { WHOLE = 10 };
static const struct row whole[WHOLE] = {
    { 64, 8, { 0 } }, { 64, 8, { 4096 } }, { 64, 8, { 4097 } }, { 64, 8, { 16384 } }, { 64, 9, { 16384 } }, { 64, 8, { 16385 } },
    { 0, 8, { 0 } }, { 0, 8, { 3073 } }, { 1, 8, { 12288 } }, { 1, 8, { 12289 } },
};

static inline void whole_rows(void)
{
    int i;

    for (i = 0; i < WHOLE; i++)
        by_hand(&whole[i]);
}

/* the rows cut at the edges of the first block */
static inline void cut_rows(void)
{
    static const struct row rows[] = {
        { 64, 8, { 1, 4095 } }, { 64, 8, { 1, 4095, 1 } }, { 64, 8, { 1, 4095, 1, 12287 } }, { 64, 9, { 1, 4095, 1, 12287 } },
        { 64, 8, { 1, 4095, 1, 12288 } }, { 0, 8, { 3071, 1, 1 } }, { 1, 8, { 1, 4095, 1, 8191 } }, { 1, 8, { 1, 4095, 1, 8192 } },
    };
    size_t i;

    for (i = 0; i < sizeof rows / sizeof *rows; i++)
        by_hand(&rows[i]);
}

/* the whole rows, ended and closed with the digest that stands there */
static inline void closed_rows(void)
{
    static const uint8_t figures[WHOLE][2] = {
        { 0x00 }, { 0xff }, { 0x00 }, { 0xff }, { 0xff, 0x80 }, { 0x00 }, { 0x00 }, { 0x00 }, { 0xff }, { 0x00 },
    };
    int i;

    for (i = 0; i < WHOLE; i++) {
        struct guarded area = filled_words(MORE_WORDS);

        open_stream(&area, BYTES(""), whole[i].d, whole[i].limit, 0);
        feed_ones(&area, whole[i].pieces[0]);
        end_and_close(&area, figures[i], (size_t)(whole[i].d + 7) / 8);
        row_free(&area);
    }
}

/* Two blocks with the rounds at an edge of r, before M-108 and as of it, and with 2^32 + 5. Where the open is refused the area is
 * unsound for the calls behind it. */
static inline void rounds_edges(void)
{
    static const uint64_t rounds[] = { 255, 256, 4095, 4096, (UINT64_C(1) << 32) + 5 };
    size_t i;

    for (i = 0; i < sizeof rounds / sizeof *rounds; i++) {
        struct guarded area = filled_words(MORE_WORDS);

        open_stream(&area, BYTES(""), 24, 64, rounds[i]);
        feed_ones(&area, 4097);
        end_stream(&area, 3, MD6_END_LOG_WORDS);
        row_free(&area);
    }
}

#endif
