/* Inputs of the calls on a whole message, md6_hash and md6_layers: random ones, ones at the edges, refused ones, and the number that
 * both give by the checks they share; and what is lent to be written, with what it must hold after a call. */
#ifndef WHOLE_H
#define WHOLE_H

#include "host.h"

/* a length in bits at or beside an edge of the tree, or anywhere */
static inline uint64_t pick_bits(void)
{
    static const uint64_t edges[] = { 0, 1, 3072, 4096, 6144, 8192, 9216, 12288, 16384, 49152, 65536, 3072 * 4, 4096 * 3, 4096 * 12 };
    uint64_t edge = edges[below(sizeof edges / sizeof *edges)];

    switch (below(4)) {
    case 0: return edge;
    case 1: return edge + below(9);
    case 2: return edge - (edge < 9 ? below(edge + 1) : below(9));
    default: return below(70000);
    }
}

static inline uint64_t pick_limit(void)
{
    return below(2) == 0 ? below(6) : 26 + below(39);
}

/* rounds; with a long message there are mostly few, to spare time */
static inline uint64_t pick_rounds(uint64_t bits)
{
    if (below(bits <= 4096 ? 2 : 12) == 0)
        return wide_rounds();
    return below(4) == 0 ? below(6) : below(OLD_ROUNDS + 1);
}

struct input {
    struct span message;
    uint64_t d, limit, rounds;
    size_t key_bytes, digest_bytes;
};

/* the number that documents 01 and 02 give by the checks of the whole message, in their order */
static inline uint64_t whole_number(const struct input *in)
{
    if (refused_span(&in->message))
        return 5;
    if (in->d < 1 || in->d > 512)
        return 1;
    if (in->key_bytes > 64)
        return 2;
    if (in->limit > 64)
        return 3;
    if (in->rounds > MOST_ROUNDS)
        return 4;
    if (in->digest_bytes < (in->d + 7) / 8)
        return 9;
    return 0;
}

/* numbers that are out of a range, some of which would be in it if they were cut to 32 bits */
enum { FAR = 7 };
static const uint64_t far[FAR] = { 65, 513, 4096, UINT64_C(1) << 32, (UINT64_C(1) << 32) + 8, UINT64_MAX, UINT64_C(1) << 63 };

static inline void spoil_some(struct input *in)
{
    if (below(6) == 0)
        in->message.start = below(2) == 0 ? 8 + below(3) : far[below(FAR)];
    else if (below(3) == 0)
        in->message.bits = below(2) == 0 ? 8 * in->message.bytes - in->message.start + 1 + below(9) : far[below(FAR)];
    if (below(3) == 0)
        in->d = below(2) == 0 ? 0 : 513 + below(2) * far[below(FAR)];
    if (below(3) == 0)
        in->key_bytes = (size_t)(65 + below(3));
    if (below(3) == 0)
        in->limit = far[below(FAR)];
    if (below(3) == 0)
        in->rounds = over_rounds[below(OVER)];
    if (below(3) == 0 && in->digest_bytes > 0)
        in->digest_bytes -= 1 + (size_t)below(in->digest_bytes);
}

/* an input that is accepted */
static inline struct input pick_input(void)
{
    struct input in;

    in.message = just(below(2) == 0 ? 0 : below(STARTS), pick_bits());
    in.message.bytes += (size_t)(below(2) == 0 ? below(3) : 0);
    in.d = below(4) == 0 ? 8 * (1 + below(64)) : 1 + below(512);
    in.limit = pick_limit();
    in.rounds = pick_rounds(in.message.bits);
    in.key_bytes = (size_t)(below(3) == 0 ? 0 : below(65));
    in.digest_bytes = (size_t)((in.d + 7) / 8 + (below(2) == 0 ? below(20) : 0));
    return in;
}

/* the bits of a span moved to the front of bytes of their own, which end at a page that may not be touched; the bits behind them are
 * random */
static inline struct guarded moved_bits(const struct span *span, const uint8_t *bytes)
{
    struct guarded front = guarded_new(bytes_for(0, span->bits), 1);

    random_bytes(front.bytes, front.length);
    copy_bits(front.bytes, 0, bytes, span->start, span->bits);
    return front;
}

/* what is lent to be written, of any contents, and what it must hold after the call: at first the same */
struct lent {
    struct guarded now;
    uint8_t *after;
};

static inline struct lent lent_new(size_t bytes, int at_page)
{
    struct lent lent = { guarded_new(bytes, at_page), get(bytes, 1) };

    random_bytes(lent.now.bytes, bytes);
    memcpy(lent.after, lent.now.bytes, bytes);
    return lent;
}

/* frees what was lent; whether it holds what it must, and the guard bytes are as they were */
static inline int lent_free(struct lent *lent)
{
    int good = memcmp(lent->now.bytes, lent->after, lent->now.length) == 0 && guarded_intact(&lent->now);

    free(lent->after);
    guarded_free(&lent->now);
    return good;
}

/* what tries an input, its message at a page that may not be touched or between guard bytes; whether all is as it should be */
typedef int try_input(const struct input *in, int at_page);

/* what ran: messages at every start bit, messages of whole leaves and beside them, and spans at the edges of number 5 */
static uint64_t starts, whole_leaves, edges;

/* every start bit with counts at the edges of a byte, of a block and of a level: the bytes end with the last bit that is taken */
static inline void every_start(try_input *try)
{
    static const uint64_t counts[] = { 0, 1, 7, 8, 9, 3071, 3072, 3073, 4095, 4096, 4097, 12287, 12288, 12289, 16383, 16384, 16385 };
    static const uint64_t limits[] = { 0, 1, 64 };
    size_t i, k;
    uint64_t start;

    for (i = 0; i < sizeof limits / sizeof *limits; i++)
        for (k = 0; k < sizeof counts / sizeof *counts; k++)
            for (start = 0; start < STARTS; start++) {
                struct input in = pick_input();

                in.limit = limits[i];
                in.message = just(start, counts[k]);
                bad += !try(&in, 1);
                starts++;
            }
}

/* a message of so many full leaves, a bit fewer, and one more, which is a leaf by itself; with no leaves there is no bit fewer */
static inline void beside_leaves(try_input *try, uint64_t limit, uint64_t leaves, uint64_t start)
{
    static const uint64_t rounds[] = { 0, 1, 5, 12 };
    uint64_t bits = leaves * (limit == 0 ? 3072 : 4096), i;

    for (i = leaves == 0; i < 3; i++) {
        struct input in = pick_input();

        in.message = just(start, bits - 1 + i);
        in.d = 512;
        in.digest_bytes = 64;
        in.limit = limit;
        in.rounds = rounds[below(4)];
        bad += !try(&in, 1);
        whole_leaves++;
    }
}

/* Leaves are made two at a time, the last of an odd number alone: every number of leaves up to a few groups of four and of three, at every
 * start bit, and those about 48 and 64, where with L = 3 the first sequential node is full, and with more the first of level 4. */
static inline void every_leaves(try_input *try)
{
    static const uint64_t limits[] = { 0, 1, 2, 3, 64 };
    uint64_t leaves, start;
    size_t i;

    for (i = 0; i < sizeof limits / sizeof *limits; i++) {
        for (leaves = 0; leaves <= 20; leaves++)
            for (start = 0; start < STARTS; start++)
                beside_leaves(try, limits[i], leaves, start);
        for (leaves = 44; leaves <= 68; leaves++)
            beside_leaves(try, limits[i], leaves, below(STARTS));
    }
}

/* a message at an edge of number 5; 5 comes before every other number, were all of them to hold */
static inline void edge_right(try_input *try, const struct span *message, uint64_t number)
{
    struct input in = pick_input();

    in.message = *message;
    expect(whole_number(&in) == number, "the table's number at an edge of 5");
    bad += !try(&in, 1);
    if (number == 5) {
        in.d = 513;
        bad += !try(&in, 1);
        in = (struct input){ *message, 0, 65, MOST_ROUNDS + 1, 65, 0 };
        bad += !try(&in, 1);
    }
    edges++;
}

/* the last numbers of rounds before M-108 and now, and where the first part of the table of constants ends, on trees of several levels
 * and on a chain */
static inline void rounds_edges(try_input *try)
{
    static const uint64_t rounds[] = { OLD_ROUNDS, OLD_ROUNDS + 1, 273, 274, MOST_ROUNDS - 1, MOST_ROUNDS };
    static const uint64_t counts[] = { 0, 1, 4096, 4097, 16385 }, limits[] = { 0, 1, 64 };
    size_t i, k, l;

    for (i = 0; i < sizeof rounds / sizeof *rounds; i++)
        for (k = 0; k < sizeof counts / sizeof *counts; k++)
            for (l = 0; l < sizeof limits / sizeof *limits; l++) {
                struct input in = pick_input();

                in.message = just(below(STARTS), counts[k]);
                in.limit = limits[l];
                in.rounds = rounds[i];
                bad += !try(&in, 1);
            }
}

/* rounds over the range get 4, which comes after 5, 1, 2 and 3, and before 9 */
static inline void rounds_refused(try_input *try)
{
    size_t i;

    for (i = 0; i < OVER; i++) {
        struct input in = pick_input();

        in.rounds = over_rounds[i];
        expect(whole_number(&in) == 4, "the table's number for rounds over the range");
        bad += !try(&in, 1);
        in.digest_bytes = 0;
        bad += !try(&in, 1);
        in.limit = 65;
        bad += !try(&in, 1);
        in.key_bytes = 65;
        bad += !try(&in, 1);
        in.d = 513;
        bad += !try(&in, 1);
        in.message.start = 8;
        bad += !try(&in, 1);
    }
}

#endif
