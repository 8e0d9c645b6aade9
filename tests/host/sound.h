/* Sound areas, from documents 01 and 02 alone: how many nodes a stream has made and what its levels hold, areas of any total, which
 * no message in memory would reach, and whether an area is sound. */
#ifndef SOUND_H
#define SOUND_H

#include "area.h"

/* The nodes of a level that an open stream of so many bits has made. A node of level k up to L covers 4,096 * 4^(k - 1) bits,
 * that is 2^(10 + 2 k); one of the sequential level L + 1 covers 3 * 2^(10 + 2 L). It is made as soon as a bit past those that
 * it covers has come. */
static inline uint64_t made_at(uint64_t level, uint64_t limit, uint64_t total)
{
    if (total == 0 || level > limit + 1)
        return 0;
    if (level == limit + 1)
        return (total - 1) / (UINT64_C(3) << (10 + 2 * limit));
    return level == LEVELS ? 0 : (total - 1) >> (10 + 2 * level);
}

static inline uint64_t made(uint64_t limit, uint64_t total)
{
    uint64_t level, sum = 0;

    for (level = 1; level <= LEVELS; level++)
        sum += made_at(level, limit, total);
    return sum;
}

/* the nodes of the whole tree: an end makes one more at each level, up to the first that has made none or is sequential */
static inline uint64_t made_by_end(uint64_t limit, uint64_t total)
{
    uint64_t level, sum = 0;

    for (level = 1; ; level++) {
        uint64_t nodes = made_at(level, limit, total);

        sum += nodes + 1;
        if (nodes == 0 || level == limit + 1)
            return sum;
    }
}

/* the bits that a level of an open stream holds: those that came to it and are in no node yet */
static inline uint64_t held_at(uint64_t level, uint64_t limit, uint64_t total)
{
    uint64_t came = level == 1 ? total : 1024 * made_at(level - 1, limit, total);

    if (level > limit + 1)
        return 0;
    return came - (level == limit + 1 ? 3072 : 4096) * made_at(level, limit, total);
}

static inline uint64_t *level_words(uint64_t *area, uint64_t level)
{
    return area + 16 + 64 * (level - 1);
}

/* random bits, and zero bits after them in their last word */
static inline void hold(uint64_t *words, uint64_t bits)
{
    random_bytes((uint8_t *)words, 8 * (size_t)((bits + 63) / 64));
    if (bits % 64 != 0)
        words[bits / 64] &= UINT64_MAX << (64 - bits % 64);
}

/* makes of just the words that L asks an open area of that total which is sound: each level holds random bits, as many as came to it and are in no node yet, after
 * a random output if it is the sequential level and has made a node */
static inline void sound_area(uint64_t *area, const struct params *p, uint64_t total)
{
    uint64_t level;

    expect(md6_open(area, words_for(p->limit), p->key, p->key_bytes, p->d, p->limit, p->rounds).number == 0, "open of a sound area");
    area[1] = total;
    area[14] = made(p->limit, total);
    for (level = 1; level <= levels_for(p->limit); level++) {
        uint64_t *words = level_words(area, level);

        if (level == p->limit + 1) {
            random_bytes((uint8_t *)words, made_at(level, p->limit, total) == 0 ? 0 : 8 * C_WORDS);
            words += C_WORDS;
        }
        hold(words, held_at(level, p->limit, total));
    }
}

/* makes of an open area one that has ended: the whole tree is made, and no level holds anything */
static inline void ended_area(uint64_t *area)
{
    area[0] = 2;
    area[14] = made_by_end(area[4], area[1]);
    memset(level_words(area, 1), 0, 8 * 64 * (size_t)levels_for(area[4]));
}

/* a total: small, at or beside 2^k or 3 * 2^k, near 2^64 - 1, or anywhere */
static inline uint64_t pick_total(void)
{
    switch (below(4)) {
    case 0: return below(70000);
    case 1: return ((1 + 2 * below(2)) << below(63)) + below(5) - 2;
    case 2: return UINT64_MAX - (below(2) == 0 ? below(5) : below(70000));
    default: return next() >> below(64);
    }
}

/* whether so many words have no bit set from a bit on */
static inline int zero_from(const uint64_t *words, size_t count, uint64_t bit)
{
    size_t i = (size_t)(bit / 64);

    if (i < count && (words[i] & UINT64_MAX >> bit % 64) != 0)
        return 0;
    for (i++; i < count; i++)
        if (words[i] != 0)
            return 0;
    return 1;
}

/* whether a level has no bit set but those that it holds and, if it is sequential, of the output of its last node */
static inline int level_sound(const uint64_t *area, uint64_t level)
{
    const uint64_t *words = level_words((uint64_t *)area, level);
    uint64_t limit = area[4], total = area[1];

    if (area[0] == 2)
        return zero_from(words, 64, 0);
    if (level != limit + 1)
        return zero_from(words, 64, held_at(level, limit, total));
    return zero_from(words, C_WORDS, made_at(level, limit, total) == 0 ? 0 : 64 * C_WORDS)
        && zero_from(words + C_WORDS, 64 - C_WORDS, held_at(level, limit, total));
}

/* document 01: "An area is sound if word 0 is 1 or 2, its parameters are in range, unused key bytes are zero, word 14 is the count
 * that total, L and phase give, word 15 is 0, and so is every bit of a level that is neither held nor of a sequential output". By
 * M-109 it has the levels that L gives, and no other word is looked at. */
static inline int is_sound(const uint64_t *area)
{
    uint64_t level;

    if (area[0] < 1 || area[0] > 2 || area[2] > 64 || area[3] < 1 || area[3] > 512 || area[4] > 64 || area[5] > MOST_ROUNDS)
        return 0;
    if (!zero_from(area + 6, K_WORDS, 8 * area[2]) || area[15] != 0)
        return 0;
    if (area[14] != (area[0] == 1 ? made : made_by_end)(area[4], area[1]))
        return 0;
    for (level = 1; level <= levels_for(area[4]); level++)
        if (!level_sound(area, level))
            return 0;
    return 1;
}

/* The number that an area of so many words gives by itself to a feed, an end, a preview, a close or a telling: 7 if it is short, which it also is
 * without a word 4, or unsound, 10 if it has ended, or 0. M-109: "Soundness, every call on an area and the untouched tail go by
 * this length." */
static inline uint64_t area_number(const uint64_t *area, size_t words)
{
    if (words <= 4 || words < words_for(area[4]) || !is_sound(area))
        return 7;
    return area[0] == 2 ? 10 : 0;
}

#endif
