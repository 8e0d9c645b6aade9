/* A feed, from documents 01 and 02 alone, with the second program's compression: the bits come one by one, and the nodes are made one by
 * one. It feeds any sound area, also one that no message in memory reaches. */
#ifndef FEEDING_H
#define FEEDING_H

#include "ending.h"

/* an area, and the words of log since the model began; of the area those that L asks */
enum { FED_LOG = 256 };
struct fed {
    uint64_t area[MD6_AREA_WORDS], log[FED_LOG];
    size_t words;
};

/* Makes the node of a level whose block is full, and logs it: a later bit has come, so that it has no padding and is not the root. The
 * level holds nothing then. The output goes behind what the level above holds; a sequential level keeps it in front. */
static inline void make_full(struct fed *fed, uint64_t level)
{
    struct param P = area_params(fed->area);
    uint64_t total = fed->area[1], u = node_id((int)level, made_at(level, P.L, total)), v = control(&P, 0, 0);
    uint64_t *words = level_words(fed->area, level), output[C_WORDS];

    compress(P.key, u, v, words, P.r, output);
    fed->log[fed->words++] = u;
    fed->log[fed->words++] = v;
    fed->area[14]++;
    memset(words, 0, 8 * B_WORDS);
    if (level <= P.L)
        words = level_words(fed->area, level + 1) + (level == P.L ? C_WORDS : 0) + held_at(level + 1, P.L, total) / 64;
    memcpy(words, output, sizeof output);
}

/* Document 01: "A block is compressed as soon as it is full and a later message bit has come". So one more bit first makes the nodes
 * that this total has and the one before had not, from level 1 up. Then it goes behind the bits that level 1 holds. */
static inline void feed_bit(struct fed *fed, unsigned bit)
{
    uint64_t *area = fed->area, limit = area[4], total = area[1], level, at;

    for (level = 1; made_at(level, limit, total + 1) > made_at(level, limit, total); level++)
        make_full(fed, level);
    at = held_at(1, limit, total + 1) - 1 + (limit == 0 ? 64 * C_WORDS : 0);
    level_words(area, 1)[at / 64] |= (uint64_t)bit << (63 - at % 64);
    area[1]++;
}

/* feeds bits of some bytes, from one of them on */
static inline void feed_model(struct fed *fed, const uint8_t *bytes, uint64_t at, uint64_t bits)
{
    uint64_t end = at + bits;

    for (; at < end; at++)
        feed_bit(fed, bytes[at / 8] >> (7 - at % 8) & 1u);
}

#endif
