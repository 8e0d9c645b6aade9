/* Pieces from every start bit on, and the refusals of a feed. Of the many pieces a line is what feed and end answered, and the
 * digest. */
#ifndef PIECES_H
#define PIECES_H

#include "telling.h"

enum { MESSAGE_BYTES = 513, MESSAGE_BITS = 8 * MESSAGE_BYTES };

/* a message of bytes that differ; in the first, 55, each bit differs from the next */
static inline struct guarded cut_message(void)
{
    uint8_t bytes[MESSAGE_BYTES];
    int i;

    for (i = 0; i < MESSAGE_BYTES; i++)
        bytes[i] = (uint8_t)(85 + 73 * i);
    return read_only(bytes, MESSAGE_BYTES);
}

/* an open area of d = 64 and r = 9, in the most words that a height limit asks */
static inline struct guarded open_for_pieces(uint64_t limit)
{
    struct guarded area = filled_words(MD6_AREA_WORDS);

    md6_open(lent_words(&area), MD6_AREA_WORDS, NULL, 0, 64, limit, 9);
    return area;
}

/* feeds bits of a message, from a bit of one of its bytes on; what is lent is all of the message from that byte on */
static inline md6_answer feed_from(const struct guarded *area, const struct guarded *message, size_t at, uint64_t start, uint64_t bits)
{
    struct guarded log = filled_words(8);
    md6_answer o = md6_feed(lent_words(area), word_count(area), message->bytes + at, message->length - at, start, bits,
                            lent_words(&log), word_count(&log));

    row_free(&log);
    return o;
}

/* ends such an area, and writes what the end answered and the digest */
static inline void print_end(struct guarded *area)
{
    struct guarded digest = filled_new(8), log = filled_words(MD6_END_LOG_WORDS);
    md6_answer o = end_area(area, digest.bytes, digest.length, lent_words(&log));

    printf("%" PRIu64 " %" PRIu64 " ", o.number, o.count);
    print_output(&digest);
    row_free(&log);
    row_free(&digest);
    row_free(area);
}

/* a piece from a start bit on, fed behind as many bits as are held */
static inline void behind(const struct guarded *message, uint64_t limit, uint64_t held, uint64_t start, uint64_t bits)
{
    struct guarded area = open_for_pieces(limit);
    md6_answer o;

    feed_from(&area, message, 0, 0, held);
    o = feed_from(&area, message, 0, start, bits);
    printf("%" PRIu64 " %" PRIu64 " ", o.number, o.count);
    print_end(&area);
}

/* pieces from every start bit on, with bit counts at the edges of a byte and of a block: behind no bit, a part of a byte, a word, and a
 * block with its last bit or without; then behind a sequential block without it */
static inline void starts(const struct guarded *message)
{
    static const struct {
        uint64_t limit, held;
    } rows[] = { { 64, 0 }, { 64, 1 }, { 64, 7 }, { 64, 64 }, { 64, 4095 }, { 64, 4096 }, { 0, 3071 } };
    static const uint64_t counts[] = { 0, 1, 7, 8, 9, 4095, 4096, 4097 };
    size_t i, k;
    uint64_t start;

    for (i = 0; i < sizeof rows / sizeof *rows; i++)
        for (start = 0; start < STARTS; start++)
            for (k = 0; k < sizeof counts / sizeof *counts; k++)
                behind(message, rows[i].limit, rows[i].held, start, counts[k]);
}

/* a message in pieces of so many bits, each from the bit on where the last one ended: the nodes that they make, what the end answers,
 * and the digest */
static inline void in_pieces(const struct guarded *message, uint64_t bits)
{
    struct guarded area = open_for_pieces(64);
    uint64_t at;

    for (at = 0; at + bits <= MESSAGE_BITS; at += bits)
        feed_from(&area, message, (size_t)(at / 8), at % 8, bits);
    printf("%" PRIu64 " ", lent_words(&area)[14]);
    print_end(&area);
}

/* pieces that share bytes: of a bit, of some, of parts of the first block, and whole; each count divides the message's */
static inline void shared_bytes(const struct guarded *message)
{
    static const uint64_t counts[] = { 1, 3, 9, 19, 171, 513, 1026, 4104 };
    size_t i;

    for (i = 0; i < sizeof counts / sizeof *counts; i++)
        in_pieces(message, counts[i]);
}

/* the message in three pieces that share bytes, with the log; the second makes a node */
static inline void logged_pieces(const struct guarded *message)
{
    struct guarded area = filled_words(MORE_WORDS);

    open_stream(&area, BYTES(""), 24, 64, 9);
    feed(&area, message->bytes, MESSAGE_BYTES, 0, 4093, LOG_WORDS);
    feed(&area, message->bytes + 511, MESSAGE_BYTES - 511, 5, 5, LOG_WORDS);
    feed(&area, message->bytes + 512, MESSAGE_BYTES - 512, 2, 6, LOG_WORDS);
    end_stream(&area, 3, MD6_END_LOG_WORDS);
    row_free(&area);
}

static inline void message_cut(void)
{
    struct guarded message = cut_message();

    starts(&message);
    shared_bytes(&message);
    logged_pieces(&message);
    row_free(&message);
}

/* start bits that are refused for three bytes: above 7, or with a count whose sum with them passes 2^64 - 1 or comes near it */
static inline void refused_starts(const struct guarded *area)
{
    static const struct {
        uint64_t start, bits;
    } rows[] = {
        { 8, 0 }, { 8, 8 }, { UINT64_C(1) << 32, 8 }, { UINT64_MAX, 0 }, { UINT64_MAX, 1 }, { UINT64_MAX, UINT64_MAX },
        { 1, UINT64_MAX }, { 7, UINT64_MAX }, { 7, UINT64_MAX - 6 }, { 7, UINT64_MAX - 7 },
    };
    size_t i;

    for (i = 0; i < sizeof rows / sizeof *rows; i++)
        feed(area, BYTES("abc"), rows[i].start, rows[i].bits, 0);
}

/* Refused start bits and counts change nothing, and the accepted ones among them make the digest. From every start bit on: nothing of
 * no bytes, one bit more than a byte then has, and all its bits. */
static inline void start_edges(void)
{
    struct guarded area = filled_words(MORE_WORDS);
    uint64_t start;

    open_stream(&area, BYTES(""), 24, 64, 9);
    refused_starts(&area);
    for (start = 0; start < STARTS; start++) {
        feed(&area, BYTES(""), start, 0, 0);
        feed(&area, BYTES("a"), start, 9 - start, 0);
        feed(&area, BYTES("a"), start, 8 - start, 0);
    }
    end_stream(&area, 3, MD6_END_LOG_WORDS);
    row_free(&area);
}

/* a feed of two bits of three bytes, with no log */
static inline void two_bits(const struct guarded *area, uint64_t start)
{
    feed(area, BYTES("abc"), start, 2, 0);
}

/* the refusals of a feed, from the last of their order to the first: those of the log, the total, the start bit, an area that has
 * ended and an unsound one, each with some that come behind it */
static inline void ordered_refusals(void)
{
    struct guarded area = prepared(64, 4096), longest = long_area();

    two_bits(&area, 7);
    two_bits(&longest, 7);
    two_bits(&longest, 8);
    finish(&longest);
    two_bits(&longest, 8);
    lent_words(&longest)[15] = 1;
    two_bits(&longest, 8);
    row_free(&longest);
    row_free(&area);
}

#endif
