/* Areas of any length, from document 02 alone: how many words an area has by L, areas with words past those, and whether these have
 * stayed. */
#ifndef AREA_H
#define AREA_H

#include "host.h"

/* an area of the tests has at most so many words past the longest */
enum { TAIL = 8, MOST_WORDS = MD6_AREA_WORDS + TAIL };

/* document 02, M-109: "The area is now 16 words plus 64 times the smaller of L + 1 and 27" */
static inline uint64_t levels_for(uint64_t limit)
{
    return limit < LEVELS ? limit + 1 : LEVELS;
}

static inline size_t words_for(uint64_t limit)
{
    return 16 + 64 * (size_t)levels_for(limit);
}

/* a height limit at an edge of those that make an area longer, a low one, or any */
static inline uint64_t pick_limit(void)
{
    static const uint64_t edges[] = { 0, 1, 2, 25, 26, 27, 64 };

    switch (below(3)) {
    case 0: return edges[below(sizeof edges / sizeof *edges)];
    case 1: return below(5);
    default: return below(65);
    }
}

/* how many words an area of that L is lent: just those that it asks, one more, as many as the longest, or others */
static inline size_t pick_words(uint64_t limit)
{
    size_t words = words_for(limit);

    switch (below(6)) {
    case 0: return words + 1;
    case 1: return MD6_AREA_WORDS;
    case 2: return words + (size_t)below(MOST_WORDS - words + 1);
    default: return words;
    }
}

/* what stands past the words that L asks */
static inline uint64_t tail_word(size_t i)
{
    return (i + 1) * UINT64_C(0x9e3779b97f4a7c15);
}

/* words of no area, in which now and then another limit stands where an area has it */
static inline void dirty_words(uint64_t *to, size_t words)
{
    random_words(to, words);
    if (words > 4 && below(2) == 0)
        to[4] = pick_limit();
}

/* a dirty area of so many words, which ends before a page that may not be touched or begins after one; its tail can be told */
static inline struct guarded area_new(uint64_t limit, size_t words)
{
    struct guarded area = below(4) == 0 ? guarded_after_page(8 * words) : guarded_new(8 * words, 1);
    size_t i;

    dirty_words(lent_words(&area), words);
    for (i = words_for(limit); i < words; i++)
        lent_words(&area)[i] = tail_word(i);
    return area;
}

/* whether nothing was written past the words that L asks, or outside the area */
static inline int area_intact(const struct guarded *area, uint64_t limit)
{
    size_t i;

    for (i = words_for(limit); i < word_count(area); i++)
        if (lent_words(area)[i] != tail_word(i))
            return 0;
    return guarded_intact(area);
}

/* a copy of the first bytes of an area, which ends at a page that may not be touched */
static inline struct guarded copy_of(const struct guarded *area, size_t length)
{
    struct guarded copy = guarded_new(length, 1);

    memcpy(copy.bytes, area->bytes, length);
    return copy;
}

/* says whether an area, which stands beside a page that may not be touched, can be written or only read: then a write anywhere in it
 * stops the program, as a read past its end does anyhow */
static inline void let_write(const struct guarded *area, int written)
{
    expect(mprotect(area->base, area->room, written ? PROT_READ | PROT_WRITE : PROT_READ) == 0, "the access to an area");
}

static inline md6_answer open_area(const struct guarded *area, const struct params *p)
{
    return md6_open(lent_words(area), word_count(area), p->key, p->key_bytes, p->d, p->limit, p->rounds);
}

/* an end, with the most words of log that one needs */
static inline md6_answer end_area(const struct guarded *area, uint8_t *digest, size_t bytes, uint64_t log[MD6_END_LOG_WORDS])
{
    return md6_end(lent_words(area), word_count(area), digest, bytes, log, MD6_END_LOG_WORDS);
}

#endif
