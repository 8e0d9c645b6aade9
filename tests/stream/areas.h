/* Areas of every length, and areas with a word that was changed: sound, unsound, short and ended ones. */
#ifndef AREAS_H
#define AREAS_H

#include "lines.h"

/* an area that is open under the key "key", and was fed so many ones */
static inline struct guarded prepared(uint64_t limit, uint64_t bits)
{
    struct guarded area = filled_words(MORE_WORDS), log = filled_words(LOG_WORDS);

    md6_open(lent_words(&area), MORE_WORDS, BYTES("key"), 8, limit, 0);
    md6_feed(lent_words(&area), MORE_WORDS, ones(), bytes_for(0, bits), 0, bits, lent_words(&log), LOG_WORDS);
    row_free(&log);
    return area;
}

/* ends an area of d = 8 */
static inline void finish(const struct guarded *area)
{
    uint64_t log[MD6_END_LOG_WORDS];
    uint8_t digest[1];

    end_area(area, digest, sizeof digest, log);
}

/* a feed of so many bits of a byte */
static inline void feed_byte(const struct guarded *area, uint64_t bits, size_t words)
{
    feed(area, BYTES("a"), 0, bits, words);
}

/* a telling, a feed, a preview, a close with no figure, which ends no area, and an end */
static inline void fair_calls(const struct guarded *area)
{
    tell(area, 8);
    feed_byte(area, 8, LOG_WORDS);
    preview(area, 3);
    close_stream(area, BYTES(""), MD6_END_LOG_WORDS);
    end_stream(area, 3, MD6_END_LOG_WORDS);
}

/* the same, each call with all later refusals as well */
static inline void refused_calls(const struct guarded *area)
{
    tell(area, UINT64_MAX);
    feed_byte(area, 9, 0);
    preview(area, 0);
    close_stream(area, BYTES(""), 0);
    end_stream(area, 0, 0);
}

/* a word of an area that was fed so many ones, and what it is changed to */
struct change {
    uint64_t limit, bits;
    size_t at;
    uint64_t word;
};

/* the calls on the first words, so many, of an area with that change */
static inline void altered_words(size_t words, const struct change *c)
{
    struct guarded whole = prepared(c->limit, c->bits), area;

    lent_words(&whole)[c->at] = c->word;
    area = copy_of(&whole, 8 * words);
    fair_calls(&area);
    row_free(&area);
    row_free(&whole);
}

static inline void altered(const struct change *changes, size_t count)
{
    size_t i;

    for (i = 0; i < count; i++)
        altered_words(MORE_WORDS, &changes[i]);
}

/* the calls on areas that had ended before the change */
static inline void altered_ended(const struct change *changes, size_t count)
{
    size_t i;

    for (i = 0; i < count; i++) {
        struct guarded area = prepared(changes[i].limit, changes[i].bits);

        finish(&area);
        lent_words(&area)[changes[i].at] = changes[i].word;
        refused_calls(&area);
        row_free(&area);
    }
}

/* a table of changes and their number */
#define CHANGES(table) table, sizeof table / sizeof *table

/* words before the levels that make an area unsound */
static inline void unsound_heads(void)
{
    static const struct change changes[] = {
        { 64, 1, 0, 0 }, { 64, 1, 0, 3 }, { 64, 1, 1, 0 }, { 64, 1, 2, 2 }, { 64, 1, 2, 65 }, { 64, 1, 3, 0 }, { 64, 1, 3, 513 },
        { 64, 1, 3, (UINT64_C(1) << 32) + 8 }, { 64, 1, 5, 4096 }, { 64, 1, 6, UINT64_C(0x6b65790000000001) }, { 64, 1, 13, 1 },
        { 64, 1, 14, 1 }, { 64, 4097, 14, 0 }, { 64, 1, 15, 1 },
    };

    altered(CHANGES(changes));
}

/* Another L in word 4: over 64, however many words are lent; one whose levels are zeros, in just enough words and in one fewer; and
 * one whose levels hold what was there before the open. */
static inline void other_limits(void)
{
    static const struct {
        size_t words;
        struct change change;
    } rows[] = {
        { 80, { 0, 0, 4, 65 } }, { 1744, { 0, 0, 4, 65 } }, { 1750, { 64, 1, 4, 65 } },
        { 80, { 0, 0, 4, UINT64_MAX } }, { 1744, { 0, 0, 4, UINT64_MAX } }, { 1750, { 64, 1, 4, UINT64_MAX } },
        { 80, { 64, 0, 4, 0 } }, { 143, { 64, 0, 4, 1 } }, { 144, { 64, 0, 4, 1 } }, { 1750, { 0, 0, 4, 1 } },
    };
    size_t i;

    for (i = 0; i < sizeof rows / sizeof *rows; i++)
        altered_words(rows[i].words, &rows[i].change);
}

/* levels with a bit behind the held ones, or where no sequential output is yet, which make an area unsound; two of the bits stand
 * above the sequential level, past the area, and do not */
static inline void altered_levels(void)
{
    static const struct change changes[] = {
        { 64, 1, 16, UINT64_C(3) << 62 }, { 64, 4095, 79, UINT64_MAX }, { 64, 4096, 80, 1 }, { 64, 4097, 96, UINT64_C(1) << 63 },
        { 0, 3072, 31, 1 }, { 0, 3073, 32, UINT64_C(3) << 62 }, { 0, 3073, 80, 1 }, { 1, 4097, 95, 1 }, { 1, 12289, 96, 1 },
        { 1, 12289, 144, 1 },
    };

    altered(CHANGES(changes));
}

/* areas with another word changed that are sound, as it may hold anything there, or as many rounds */
static inline void sound_areas(void)
{
    static const struct change changes[] = {
        { 64, 1, 16, 0 }, { 64, 4096, 79, 0 }, { 0, 3073, 31, 0 }, { 64, 1, 5, 255 }, { 64, 1, 5, 256 }, { 64, 1, 5, 4095 },
    };

    altered(CHANGES(changes));
}

/* ended areas that are unsound */
static inline void ended_areas(void)
{
    static const struct change changes[] = { { 64, 1, 16, 1 }, { 64, 1, 14, 0 }, { 64, 1, 0, 1 } };

    altered_ended(CHANGES(changes));
}

/* the refusals of open on the first words, so many, of an area that is open with L = 0, each with all later ones as well; then rounds
 * that are not refused */
static inline void opens_in(size_t words)
{
    static const struct {
        size_t key_bytes;
        uint64_t d, limit, rounds;
    } rows[] = {
        { 65, 0, 65, 4096 }, { 65, 513, 65, 4096 }, { 65, (UINT64_C(1) << 32) + 8, 65, 4096 }, { 65, 512, 65, 4096 },
        { 0, 1, 65, 4096 }, { 0, 1, 64, 4096 }, { 0, 1, 64, 4095 }, { 0, 1, 64, 256 }, { 0, 1, 64, 255 },
    };
    struct guarded whole = prepared(0, 1), area = copy_of(&whole, 8 * words);
    size_t i;

    for (i = 0; i < sizeof rows / sizeof *rows; i++)
        open_stream(&area, ones(), rows[i].key_bytes, rows[i].d, rows[i].limit, rows[i].rounds);
    row_free(&area);
    row_free(&whole);
}

/* no words, enough for L = 0 alone, one word too few for L = 64, and just enough */
static inline void opens(void)
{
    opens_in(0);
    opens_in(80);
    opens_in(1743);
    opens_in(1744);
}

/* tells the words of an area */
static inline void tell_words(uint64_t limit)
{
    md6_answer o = md6_area_words(limit);

    printf("%" PRIu64 " %" PRIu64 "\n", o.number, o.count);
}

/* a stream of ones in so many words, whatever they held; then closed with the figure of its preview */
static inline void stream_in(size_t words, uint64_t limit)
{
    struct guarded area = filled_words(words), figure = filled_new(3);

    open_stream(&area, BYTES(""), 24, limit, 9);
    tell(&area, 16385);
    feed_ones(&area, 16385);
    preview_to(&area, &figure);
    end_and_close(&area, figure.bytes, figure.length);
    row_free(&figure);
    row_free(&area);
}

/* the calls on the first words of an area, which are too few, and an open with its height limit */
static inline void short_calls(const struct guarded *whole, size_t words, uint64_t limit)
{
    struct guarded area = copy_of(whole, 8 * words);

    refused_calls(&area);
    open_stream(&area, BYTES(""), 8, limit, 0);
    row_free(&area);
}

/* these of an open stream, and of one that has ended */
static inline void shortened(size_t words, uint64_t limit)
{
    struct guarded whole = prepared(limit, 1);

    short_calls(&whole, words, limit);
    finish(&whole);
    short_calls(&whole, words, limit);
    row_free(&whole);
}

/* An area in just enough words, in more and in one fewer; then with its last word and the word past it changed, open and ended. The
 * last is sound, and is refused by 10 before anything else. */
static inline void by_limit(uint64_t limit)
{
    size_t words = words_for(limit);
    const struct change changes[] = { { limit, 1, words - 1, 1 }, { limit, 1, words, 1 } };

    tell_words(limit);
    stream_in(words, limit);
    stream_in(MORE_WORDS, limit);
    stream_in(words - 1, limit);
    shortened(words - 1, limit);
    altered(CHANGES(changes));
    altered_ended(CHANGES(changes));
}

/* height limits at the edges of an area's length, which from 26 on is the same; numbers that are no height limit; then areas with the
 * first level of many, without all of the words before the levels, and with no level */
static inline void all_lengths(void)
{
    static const uint64_t limits[] = { 0, 1, 2, 25, 26, 27, 64 }, refused[] = { 65, UINT64_C(1) << 32, UINT64_MAX };
    size_t i, words;

    for (i = 0; i < sizeof limits / sizeof *limits; i++)
        by_limit(limits[i]);
    for (i = 0; i < sizeof refused / sizeof *refused; i++)
        tell_words(refused[i]);
    shortened(80, 64);
    for (words = 0; words <= 16; words++)
        shortened(words, 0);
}

#endif
