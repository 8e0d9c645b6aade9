/* The end of a stream, from documents 01 and 02 alone, with the second program's compression: the nodes that a sound area has left, and
 * its digest. And previews and closes of any area, with every kind of figure, against that. */
#ifndef ENDING_H
#define ENDING_H

#include "sound.h"

/* What the end of an area comes to: the number that the area gives by itself, 7, 10 or 0, and if that is 0 the digest and the log. An
 * area that has no digest has the bytes of one all the same, so that figures can be made for it. */
struct ending {
    uint64_t number;
    uint8_t digest[64];
    size_t bytes, words;
    uint64_t log[MD6_END_LOG_WORDS];
};

/* the parameters in an area, as the second program takes them */
static inline struct param area_params(const uint64_t *area)
{
    struct param P = { .keylen = (unsigned)area[2], .d = (unsigned)area[3], .L = (unsigned)area[4], .r = (unsigned)area[5] };

    memcpy(P.key, area + 6, sizeof P.key);
    return P;
}

/* Document 01: "A block is compressed as soon as it is full and a later message bit has come, or at the end". Makes the node of a level
 * that is left at the end: its block is what the level holds and, above level 1, the output of the node below, whose place the node's own
 * output takes. Answers whether it is the root. */
static inline int end_level(const uint64_t *area, uint64_t level, uint64_t output[C_WORDS], struct ending *e)
{
    struct param P = area_params(area);
    uint64_t nodes = made_at(level, P.L, area[1]), bits = held_at(level, P.L, area[1]), block[B_WORDS];
    int sequential = level == P.L + 1, root = sequential || nodes == 0;
    size_t first = sequential ? C_WORDS : 0;

    memcpy(block, level_words((uint64_t *)area, level), sizeof block);
    if (level > 1) {
        memcpy(block + first + bits / 64, output, 8 * C_WORDS);
        bits += 64 * C_WORDS;
    }
    e->log[e->words] = node_id((int)level, nodes);
    e->log[e->words + 1] = control(&P, (unsigned)root, 64 * (B_WORDS - first) - bits);
    compress(P.key, e->log[e->words], e->log[e->words + 1], block, P.r, output);
    e->words += 2;
    return root;
}

/* the last d bits of the root's output, moved to the front */
static inline void root_digest(const uint64_t output[C_WORDS], uint64_t d, uint8_t digest[64])
{
    uint8_t bytes[8 * C_WORDS];
    size_t i;

    for (i = 0; i < sizeof bytes; i++)
        bytes[i] = (uint8_t)(output[i / 8] >> (56 - 8 * (i % 8)));
    memset(digest, 0, 64);
    copy_bits(digest, 0, bytes, 8 * sizeof bytes - d, d);
}

static inline struct ending ending_of(const uint64_t *area, size_t words)
{
    struct ending e = { .number = area_number(area, words) };
    uint64_t output[C_WORDS] = { 0 }, level = 1;

    e.bytes = e.number == 7 ? 32 : (size_t)(area[3] + 7) / 8;
    if (e.number != 0)
        return e;
    while (!end_level(area, level, output, &e))
        level++;
    root_digest(output, area[3], e.digest);
    return e;
}

/* figures that a close is given; where d has no spare bits, one of the last byte is changed for them */
enum figure { RIGHT, NO_BYTE, BYTE_FEWER, BYTE_MORE, FIRST_CHANGED, LAST_CHANGED, ANY_CHANGED, SPARE_SET, OTHER, FIGURES };

/* what ran: previews and closes by number, figures that were refused by 14, and closes with a short log and a wrong figure */
static uint64_t previewed[15], closed[15], differed[FIGURES], short_and_wrong;

static inline size_t figure_bytes(const struct ending *e, enum figure kind)
{
    switch (kind) {
    case NO_BYTE: return 0;
    case BYTE_FEWER: return e->bytes - 1;
    case BYTE_MORE: return e->bytes + 1;
    case OTHER: return (size_t)below(2 * sizeof e->digest);
    default: return e->bytes;
    }
}

static inline void change_byte(uint8_t *byte)
{
    *byte ^= (uint8_t)(1 + below(255));
}

/* a figure of a kind, which ends at a page that may not be touched; a byte more is now and then a zero byte */
static inline struct guarded make_figure(const struct ending *e, uint64_t d, enum figure kind)
{
    struct guarded figure = guarded_new(figure_bytes(e, kind), 1);
    size_t same = figure.length < e->bytes ? figure.length : e->bytes;

    random_bytes(figure.bytes, figure.length);
    if (kind != OTHER)
        memcpy(figure.bytes, e->digest, same);
    if (kind == BYTE_MORE && below(2) == 0)
        figure.bytes[e->bytes] = 0;
    if (kind == FIRST_CHANGED)
        change_byte(figure.bytes);
    if (kind == LAST_CHANGED)
        change_byte(figure.bytes + e->bytes - 1);
    if (kind == ANY_CHANGED)
        change_byte(figure.bytes + below(e->bytes));
    if (kind == SPARE_SET)
        figure.bytes[e->bytes - 1] ^= (uint8_t)(1u << below(d % 8 == 0 ? 8 : 8 - d % 8));
    return figure;
}

/* A preview into so many bytes: 7, 10, 9, or the digest, past which the bytes stay. The area can only be read meanwhile, so that it is
 * byte for byte as it was. */
static inline void preview_right(const struct guarded *area, const struct ending *e, size_t bytes)
{
    uint64_t number = e->number != 0 ? e->number : bytes < e->bytes ? 9 : 0;
    struct guarded digest = guarded_new(bytes, 1), expected = guarded_new(bytes, 0);
    md6_answer o;

    random_bytes(digest.bytes, bytes);
    memcpy(expected.bytes, digest.bytes, bytes);
    if (number == 0)
        memcpy(expected.bytes, e->digest, e->bytes);
    let_write(area, 0);
    o = md6_preview(lent_words(area), word_count(area), digest.bytes, bytes);
    let_write(area, 1);
    if ((o.number != number || o.count != 0) && shown())
        printf("a preview into %zu bytes: number %" PRIu64 ", count %" PRIu64 ", expected %" PRIu64 "\n", bytes, o.number, o.count, number);
    expect(o.number == number && o.count == 0, "the number of a preview");
    expect(memcmp(expected.bytes, digest.bytes, bytes) == 0 && guarded_intact(&digest), "the output of a preview");
    previewed[number]++;
    guarded_free(&digest);
    guarded_free(&expected);
}

/* whether what was lent is as it must be, and nothing around it has changed; frees what it is compared with */
static inline void left_right(const struct guarded *lent, struct guarded *expected, const char *what)
{
    expect(memcmp(expected->bytes, lent->bytes, lent->length) == 0 && guarded_intact(lent), what);
    guarded_free(expected);
}

/* an end of a copy of an area gives the digest, the log and the count, and leaves an area that has ended */
static inline void end_right(const struct guarded *area, const struct ending *e)
{
    struct guarded copy = copy_of(area, area->length), expected = copy_of(area, area->length);
    uint64_t log[MD6_END_LOG_WORDS];
    uint8_t digest[64];
    md6_answer o = end_area(&copy, digest, e->bytes, log);

    ended_area(lent_words(&expected));
    expect(o.number == 0 && 2 * o.count == e->words && memcmp(log, e->log, 8 * e->words) == 0, "the log of an end");
    expect(memcmp(digest, e->digest, e->bytes) == 0, "the digest of an end");
    left_right(&copy, &expected, "the area after an end");
    guarded_free(&copy);
}

static inline int figure_differs(const struct ending *e, const struct guarded *figure)
{
    return figure->length != e->bytes || memcmp(figure->bytes, e->digest, e->bytes) != 0;
}

/* M-106: "14, the figure differs, last in the order 7, 10, 8, 14 for closing" */
static inline uint64_t close_number(const struct ending *e, const struct guarded *figure, size_t log_words)
{
    return e->number != 0 ? e->number : log_words < e->words ? 8 : figure_differs(e, figure) ? 14 : 0;
}

/* A close with a figure and so many words of log, which ends the area or is refused and changes nothing: the number, the count, the
 * area, and the log, which stays past the nodes. The figure stays. */
static inline void close_right(const struct guarded *area, const struct ending *e, const struct guarded *figure, size_t log_words)
{
    struct guarded log = guarded_new(8 * log_words, 1), expected_log;
    struct guarded expected = copy_of(area, area->length), kept = copy_of(figure, figure->length);
    uint64_t number = close_number(e, figure, log_words), count = number == 0 ? e->words / 2 : 0;
    md6_answer o;

    random_bytes(log.bytes, log.length);
    expected_log = copy_of(&log, log.length);
    if (number == 0) {
        ended_area(lent_words(&expected));
        memcpy(expected_log.bytes, e->log, 8 * e->words);
    }
    o = md6_close(lent_words(area), word_count(area), figure->bytes, figure->length, lent_words(&log), log_words);
    if ((o.number != number || o.count != count) && shown())
        printf("a close with a figure of %zu bytes and %zu words: number %" PRIu64 ", count %" PRIu64 ", expected %" PRIu64 ", %" PRIu64 "\n",
               figure->length, log_words, o.number, o.count, number, count);
    expect(o.number == number && o.count == count, "the number of a close");
    left_right(area, &expected, "the area after a close");
    left_right(&log, &expected_log, "the log after a close");
    left_right(figure, &kept, "the figure after a close");
    guarded_free(&log);
    closed[number]++;
    short_and_wrong += number == 8 && figure_differs(e, figure);
}

/* an area that a close has ended: every call but write, open and read refuses it by 10 */
static inline void closed_for_all(const struct guarded *area, const struct guarded *figure)
{
    struct ending e = ending_of(lent_words(area), word_count(area));
    uint64_t log[MD6_END_LOG_WORDS];
    uint8_t digest[64];

    expect(e.number == 10, "an area that was closed");
    preview_right(area, &e, e.bytes);
    close_right(area, &e, figure, MD6_END_LOG_WORDS);
    expect(end_area(area, digest, sizeof digest, log).number == 10, "an end after a close");
    expect(md6_feed(lent_words(area), word_count(area), NULL, 0, 0, 0, NULL, 0).number == 10, "a feed after a close");
    expect(md6_log_words(lent_words(area), word_count(area), 1).number == 10, "a telling after a close");
}

/* A close of an area with a figure of a kind; if it is to be accepted, of a copy, so that the stream in the area goes on. An end of
 * another copy must leave what the close does: "ends the area, with log and count as end does". */
static inline void try_close(const struct guarded *area, const struct ending *e, enum figure kind, size_t log_words)
{
    struct guarded figure = make_figure(e, e->number == 7 ? 8 : lent_words(area)[3], kind), copy;
    uint64_t number = close_number(e, &figure, log_words);

    /* a figure has spare bits only if d is no multiple of 8 */
    differed[kind] += number == 14 && (kind != SPARE_SET || lent_words(area)[3] % 8 != 0);
    if (number != 0)
        close_right(area, e, &figure, log_words);
    else {
        end_right(area, e);
        copy = copy_of(area, area->length);
        close_right(&copy, e, &figure, log_words);
        closed_for_all(&copy, &figure);
        guarded_free(&copy);
    }
    guarded_free(&figure);
}

/* words of log: just those of the nodes, one fewer, some more, none, or as many as an end ever needs */
enum { LOGS = 5 };
static inline size_t log_for(const struct ending *e, unsigned which)
{
    const size_t words[LOGS] = { e->words, e->words == 0 ? 0 : e->words - 1, e->words + 1 + (size_t)below(8), 0, MD6_END_LOG_WORDS };

    return words[which];
}

/* bytes of output: just those of the digest, one fewer, some more, none, or as many as a digest ever needs */
enum { OUTPUTS = 5 };
static inline size_t output_for(const struct ending *e, unsigned which)
{
    const size_t bytes[OUTPUTS] = { e->bytes, e->bytes - 1, e->bytes + 1 + (size_t)below(8), 0, sizeof e->digest };

    return bytes[which];
}

/* a preview and a close, of any kind; the area is as it was */
static inline void try_ending(const struct guarded *area, const struct ending *e)
{
    preview_right(area, e, output_for(e, below(2) == 0 ? 0 : (unsigned)below(OUTPUTS)));
    try_close(area, e, below(3) == 0 ? RIGHT : (enum figure)below(FIGURES), log_for(e, below(2) == 0 ? 0 : (unsigned)below(LOGS)));
}

/* a close with a figure of a kind and every length of log; the area is as it was */
static inline void try_every_log(const struct guarded *area, const struct ending *e, enum figure kind)
{
    unsigned which;

    for (which = 0; which < LOGS; which++)
        try_close(area, e, kind, log_for(e, which));
}

/* every kind of preview and of close; the area is as it was */
static inline void try_every_ending(const struct guarded *area)
{
    struct ending e = ending_of(lent_words(area), word_count(area));
    unsigned i;

    for (i = 0; i < OUTPUTS; i++)
        preview_right(area, &e, output_for(&e, i));
    for (i = 0; i < FIGURES; i++)
        try_every_log(area, &e, (enum figure)i);
}

/* that every number of a preview and of a close, and every kind of wrong figure, has come about */
static inline void endings_came(void)
{
    unsigned kind;

    expect(previewed[7] > 0 && previewed[10] > 0 && previewed[9] > 0 && previewed[0] > 0, "a number of a preview that never came about");
    expect(closed[7] > 0 && closed[10] > 0 && closed[8] > 0 && closed[14] > 0 && closed[0] > 0, "a number of a close that never came about");
    expect(short_and_wrong > 0, "a short log and a wrong figure, which never came about");
    for (kind = RIGHT + 1; kind < FIGURES; kind++)
        expect(differed[kind] > 0, "a kind of wrong figure that never came about");
}

#endif
