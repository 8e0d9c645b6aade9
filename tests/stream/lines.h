/* The calls of a stream, and the lines that they write. A call that may change an area writes its number, its count, and whether the
 * words lent, those past the area and the log past the nodes are as before; then a line U V for each node; an end then writes its
 * output. A telling of log words and a preview write their number, their count and whether the area is as before; a preview then
 * writes its output. What a call is lent ends at a page that may not be touched, and what it only reads cannot be written. */
#ifndef LINES_H
#define LINES_H

#include "../host/area.h"
#include "../host/rows.h"

/* words of an area that are more than any height limit asks, and words of log that are enough for every call here */
enum { MORE_WORDS = MD6_AREA_WORDS + 6, LOG_WORDS = 64 };

/* the bytes of a string literal and their number */
#define BYTES(literal) (const uint8_t *)(literal), sizeof(literal) - 1

/* words that hold what no call needs */
static inline struct guarded filled_words(size_t words)
{
    return filled_new(8 * words);
}

/* whether the words of an area are as before, from one of them on */
static inline int same_from(const struct guarded *area, const struct guarded *before, size_t from)
{
    size_t i;

    for (i = from; i < word_count(area); i++)
        if (lent_words(area)[i] != lent_words(before)[i])
            return 0;
    return 1;
}

/* the words of an area by the height limit that it has in word 4 */
static inline size_t own_words(const struct guarded *area)
{
    return word_count(area) > 4 ? words_for(lent_words(area)[4]) : 0;
}

/* writes what a call answered that only reads an area */
static inline void report_read(md6_answer o, const struct guarded *area, struct guarded *before)
{
    print_answer(o);
    print_same(same_from(area, before, 0));
    printf("\n");
    row_free(before);
}

/* writes an output, on a line of its own */
static inline void print_output(const struct guarded *output)
{
    print_bytes(output);
    printf("\n");
}

/* writes what a call answered, what it changed and what it logged; the log was filled before. Gives the copy and the log back. */
static inline void report(md6_answer o, const struct guarded *area, struct guarded *before, struct guarded *log)
{
    size_t nodes = o.count < word_count(log) / 2 ? (size_t)o.count : word_count(log) / 2;

    print_answer(o);
    print_same(same_from(area, before, 0));
    print_same(same_from(area, before, own_words(area)));
    print_same(still_filled(log, 16 * nodes));
    printf("\n");
    print_words(log, 2 * nodes, 2);
    expect(guarded_intact(area), "a call wrote in front of the area");
    row_free(before);
    row_free(log);
}

static inline void open_stream(const struct guarded *area, const uint8_t *key, size_t key_bytes, uint64_t d, uint64_t limit, uint64_t rounds)
{
    struct guarded lent = read_only(key, key_bytes), before = copy_of(area, area->length), no_log = filled_new(0);
    md6_answer o = md6_open(lent_words(area), word_count(area), lent.bytes, key_bytes, d, limit, rounds);

    report(o, area, &before, &no_log);
    row_free(&lent);
}

/* a feed with a log of so many words */
static inline void feed(const struct guarded *area, const uint8_t *piece, size_t bytes, uint64_t start, uint64_t bits, size_t words)
{
    struct guarded lent = read_only(piece, bytes), before = copy_of(area, area->length), log = filled_words(words);
    md6_answer o = md6_feed(lent_words(area), word_count(area), lent.bytes, bytes, start, bits, lent_words(&log), words);

    report(o, area, &before, &log);
    row_free(&lent);
}

/* an end with an output of so many bytes and a log of so many words */
static inline void end_stream(const struct guarded *area, size_t room, size_t words)
{
    struct guarded digest = filled_new(room), before = copy_of(area, area->length), log = filled_words(words);
    md6_answer o = md6_end(lent_words(area), word_count(area), digest.bytes, room, lent_words(&log), words);

    report(o, area, &before, &log);
    print_output(&digest);
    row_free(&digest);
}

/* a close with a figure and a log of so many words */
static inline void close_stream(const struct guarded *area, const uint8_t *figure, size_t bytes, size_t words)
{
    struct guarded lent = read_only(figure, bytes), before = copy_of(area, area->length), log = filled_words(words);
    md6_answer o = md6_close(lent_words(area), word_count(area), lent.bytes, bytes, lent_words(&log), words);

    report(o, area, &before, &log);
    row_free(&lent);
}

/* tells the log words for a feed of so many bits */
static inline void tell(const struct guarded *area, uint64_t bits)
{
    struct guarded before = copy_of(area, area->length);
    md6_answer o;

    let_write(area, 0);
    o = md6_log_words(lent_words(area), word_count(area), bits);
    let_write(area, 1);
    report_read(o, area, &before);
}

/* a preview with an output that is lent */
static inline void preview_to(const struct guarded *area, const struct guarded *digest)
{
    struct guarded before = copy_of(area, area->length);
    md6_answer o;

    let_write(area, 0);
    o = md6_preview(lent_words(area), word_count(area), digest->bytes, digest->length);
    let_write(area, 1);
    report_read(o, area, &before);
    print_output(digest);
}

/* a preview with an output of so many bytes */
static inline void preview(const struct guarded *area, size_t room)
{
    struct guarded digest = filled_new(room);

    preview_to(area, &digest);
    row_free(&digest);
}

/* ends an area and, as it was before, closes it with a figure; then writes word 0, the nodes, and whether both left the same words */
static inline void end_and_close(const struct guarded *area, const uint8_t *figure, size_t bytes)
{
    struct guarded ended = copy_of(area, area->length);

    end_stream(&ended, 3, MD6_END_LOG_WORDS);
    close_stream(area, figure, bytes, MD6_END_LOG_WORDS);
    printf("%" PRIu64 " %" PRIu64, lent_words(&ended)[0], lent_words(&ended)[14]);
    print_same(same_from(area, &ended, 0));
    printf("\n");
    row_free(&ended);
}

/* as many ones as the rows need */
static inline const uint8_t *ones(void)
{
    static uint8_t bytes[2049];

    memset(bytes, 0xff, sizeof bytes);
    return bytes;
}

/* a feed of so many of them */
static inline void feed_ones(const struct guarded *area, uint64_t bits)
{
    feed(area, ones(), bytes_for(0, bits), 0, bits, LOG_WORDS);
}

#endif
