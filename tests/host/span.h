/* Bits of lent bytes, high bit first: which of them a call is given, number 5 and its edges, and a copy bit by bit. */
#ifndef SPAN_H
#define SPAN_H

#include <stddef.h>
#include <stdint.h>

enum { STARTS = 8 };

/* `bits` bits of so many bytes, from bit `start` of the first byte on */
struct span {
    size_t bytes;
    uint64_t start, bits;
};

/* the bytes that so many bits need */
static inline size_t bytes_for(uint64_t start, uint64_t bits)
{
    return (size_t)((start + bits + 7) / 8);
}

/* a span of just the bytes that it needs */
static inline struct span just(uint64_t start, uint64_t bits)
{
    return (struct span){ bytes_for(start, bits), start, bits };
}

/* document 02, M-104: "Number 5 is also given for a start bit above 7 or where start and count together pass the bytes' bits";
 * in 128 bits the sum does not wrap */
static inline int refused_span(const struct span *span)
{
    return span->start > 7 || (unsigned __int128)span->start + span->bits > (unsigned __int128)8 * span->bytes;
}

/* copies bits one by one, from a bit of some bytes to a bit of others; the bits beside them stay */
static inline void copy_bits(uint8_t *to, uint64_t to_bit, const uint8_t *from, uint64_t from_bit, uint64_t bits)
{
    uint64_t i;

    for (i = 0; i < bits; i++) {
        uint64_t t = to_bit + i, f = from_bit + i;
        unsigned bit = from[f / 8] >> (7 - f % 8) & 1u;
        to[t / 8] = (uint8_t)((to[t / 8] & ~(0x80u >> t % 8)) | bit << (7 - t % 8));
    }
}

/* what tries a span: the number that it must get is 5, or 0 */
typedef void try_span(const struct span *span, uint64_t number);

/* a start bit of a byte: no bits, the last count that the bytes hold, the first that they do not, and the last counts of all, with
 * most of which the sum wraps */
static inline void near_edges(try_span *try, size_t bytes, uint64_t start)
{
    struct span span = { bytes, start, 0 };
    uint64_t all = 8 * (uint64_t)bytes, i;

    try(&span, start > all ? 5 : 0);
    if (start <= all) {
        span.bits = all - start;
        try(&span, 0);
        span.bits++;
        try(&span, 5);
    }
    for (i = 0; i < STARTS; i++) {
        span.bits = UINT64_MAX - i;
        try(&span, 5);
    }
}

/* a start bit above 7: no bits, some, those that the bytes would hold without the start, and counts with which the sum wraps to
 * nothing, to a byte and to itself less one */
static inline void far_edges(try_span *try, size_t bytes, uint64_t start)
{
    const uint64_t counts[] = { 0, 1, 8 * (uint64_t)bytes, 0 - start, 8 - start, UINT64_MAX };
    size_t i;

    for (i = 0; i < sizeof counts / sizeof *counts; i++) {
        struct span span = { bytes, start, counts[i] };
        try(&span, 5);
    }
}

/* the edges of number 5; some of the starts would be in the range if they were cut to 3, 8, 16 or 32 bits */
static inline void edge_spans(try_span *try)
{
    static const size_t lent[] = { 0, 1, 2, 512, 513 };
    static const uint64_t far_starts[] = {
        8, 9, 15, 255, 256, 65536, UINT64_C(1) << 32, (UINT64_C(1) << 32) + 3, UINT64_C(1) << 63, UINT64_MAX - 7, UINT64_MAX,
    };
    size_t i, k;
    uint64_t start;

    for (i = 0; i < sizeof lent / sizeof *lent; i++) {
        for (start = 0; start < STARTS; start++)
            near_edges(try, lent[i], start);
        for (k = 0; k < sizeof far_starts / sizeof *far_starts; k++)
            far_edges(try, lent[i], far_starts[k]);
    }
}

#endif
