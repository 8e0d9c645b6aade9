/*
 * Short calls of the archive, nanoseconds a call: md6_hash of 0 and of 64
 * bytes, an open, feeds of one byte and of a block, an end, and a suspended
 * stream written and read; those on an area with L = 64 and with L = 0, whose
 * area is short. What is told is the best of many turns, at the best of four
 * places of the code: the archive is linked four times, by bench/run, its calls
 * named now_0_md6_hash, now_16_md6_hash and so on.
 *
 * With -DBEFORE the archive of an earlier commit is linked too, its calls
 * named before_0_md6_hash and so on; all take turns in one run, and each row
 * shows the one side, the other, and the ratio. The calls must have had the
 * same parameters there. An area is lent with the words that each side asks for
 * L, which are those of the longest if it cannot tell: then it is from before
 * M-109.
 */
#define _POSIX_C_SOURCE 199309L
#include "reference.h"

#include "../include/md6.h"

enum { TURNS = 1000, D = 256, FED = 5000000, PIECE = 65536, LOG = 4 * 128 + 54, BLOCK = 512 };

struct calls {
    __typeof__(md6_hash) *hash;
    __typeof__(md6_area_words) *area_words;     /* NULL if the archive has none */
    __typeof__(md6_open) *open;
    __typeof__(md6_feed) *feed;
    __typeof__(md6_end) *end;
    __typeof__(md6_write) *write;
    __typeof__(md6_read) *read;
};

/* an archive at one place: that it has its calls, and these */
#define DECLARED(at) \
    __typeof__(md6_hash) at##_md6_hash; \
    __typeof__(md6_area_words) at##_md6_area_words __attribute__((weak)); \
    __typeof__(md6_open) at##_md6_open; \
    __typeof__(md6_feed) at##_md6_feed; \
    __typeof__(md6_end) at##_md6_end; \
    __typeof__(md6_write) at##_md6_write; \
    __typeof__(md6_read) at##_md6_read;
#define CALLS(at) \
    { at##_md6_hash, at##_md6_area_words, at##_md6_open, at##_md6_feed, at##_md6_end, at##_md6_write, at##_md6_read }

/* the same at each place */
#define ALL_DECLARED(side) DECLARED(side##_0) DECLARED(side##_16) DECLARED(side##_32) DECLARED(side##_48)
#define ALL_CALLS(side) { CALLS(side##_0), CALLS(side##_16), CALLS(side##_32), CALLS(side##_48) }

/* the archives that take turns: the present one, and after it the one before */
ALL_DECLARED(now)
#ifdef BEFORE
ALL_DECLARED(before)
enum { SIDES = 2 };
#else
enum { SIDES = 1 };
#endif
enum { PLACES = 4 };

static const struct calls archives[SIDES][PLACES] = {
    ALL_CALLS(now),
#ifdef BEFORE
    ALL_CALLS(before),
#endif
};

/* what is lent, of the area the words that are set for an archive and a row; the text has room for either form */
static uint64_t area[MD6_AREA_WORDS], kept[MD6_AREA_WORDS], log_words[LOG];
static uint8_t message[PIECE], text[MD6_TEXT_BYTES], digest[D / 8];
static size_t area_words, text_bytes;

/* a row: what is made ready before a turn and not timed, so many calls in a turn, L and the rounds, the bytes of the message or piece,
 * and what the ratio may be at most */
struct row {
    const char *what;
    void (*ready)(const struct calls *c);
    int (*call)(const struct calls *c, const struct row *row);      /* 0 if it was accepted */
    unsigned times;
    uint64_t limit, rounds;
    size_t bytes;
    const char *most;
};

/* the words of an area that an archive asks for L */
static size_t asked_words(const struct calls *c, uint64_t limit)
{
    return c->area_words == NULL ? MD6_AREA_WORDS : (size_t)c->area_words(limit).count;
}

static void nothing_ready(const struct calls *c)
{
    (void)c;
}

static void area_ready(const struct calls *c)
{
    (void)c;
    memcpy(area, kept, sizeof area);
}

/* the text of the area, as this archive writes it */
static void text_ready(const struct calls *c)
{
    memcpy(area, kept, sizeof area);
    text_bytes = (size_t)c->write(area, area_words, text, sizeof text).count;
}

static int hash_call(const struct calls *c, const struct row *row)
{
    return c->hash(message, row->bytes, 0, 8 * (uint64_t)row->bytes, NULL, 0, D, row->limit, row->rounds, digest, sizeof digest) != 0;
}

static int open_call(const struct calls *c, const struct row *row)
{
    return c->open(area, area_words, NULL, 0, D, row->limit, row->rounds).number != 0;
}

static int feed_call(const struct calls *c, const struct row *row)
{
    return c->feed(area, area_words, message, row->bytes, 0, 8 * (uint64_t)row->bytes, log_words, LOG).number != 0;
}

static int end_call(const struct calls *c, const struct row *row)
{
    (void)row;
    return c->end(area, area_words, digest, sizeof digest, log_words, LOG).number != 0;
}

static int write_call(const struct calls *c, const struct row *row)
{
    (void)row;
    return c->write(area, area_words, text, sizeof text).number != 0;
}

static int read_call(const struct calls *c, const struct row *row)
{
    (void)row;
    return c->read(area, area_words, text, text_bytes).number != 0;
}

/* The area of a row: 5 MB were fed, after which level 1 holds 320 bytes, so that 191 feeds of a byte make no node, or 63 with L = 0.
 * It is made by the earlier archive, which may ask more words for it and have zeros in them. */
static int keep_area(const struct row *row)
{
    const struct calls *c = &archives[SIDES - 1][0];
    size_t at, n;
    int bad;

    area_words = asked_words(c, row->limit);
    bad = open_call(c, row);
    for (at = 0; at < FED; at += n) {
        n = FED - at < PIECE ? FED - at : PIECE;
        bad |= c->feed(area, area_words, message, n, 0, 8 * (uint64_t)n, log_words, LOG).number != 0;
    }
    memcpy(kept, area, sizeof kept);
    return bad;
}

/*
 * The time of a row's calls, so many bytes further down the stack. Where the
 * frames of a call stand within a page, against what is lent, makes up to a
 * tenth of a short call's time, and the frames of two archives differ: each
 * turn is at another place, so that the best time of either is at its best.
 */
static __attribute__((noinline)) double time_calls(const struct calls *c, const struct row *row, size_t deeper, int *bad)
{
    volatile uint8_t gap[deeper];
    double t0;
    unsigned i;

    gap[0] = 0;
    t0 = seconds();
    for (i = 0; i < row->times; i++)
        *bad |= row->call(c, row);
    return seconds() - t0 + gap[0];
}

/*
 * A row's best time by each side. Every turn begins with another archive, so
 * that a swing of the machine, or what the one leaves in the caches, falls on
 * all. What they left in the area and the digest must agree.
 */
static int time_row(const struct row *row)
{
    static uint64_t areas[2][MD6_AREA_WORDS];
    uint8_t digests[2][sizeof digest];
    double best[2] = { 0, 0 };
    unsigned turn;
    int bad = keep_area(row), differ = 0;

    for (turn = 0; turn < TURNS * SIDES * PLACES; turn++) {
        unsigned round = turn / (SIDES * PLACES), at = (turn + round) % (SIDES * PLACES), side = at % SIDES;
        const struct calls *c = &archives[side][at / SIDES];

        area_words = asked_words(c, row->limit);
        row->ready(c);
        keep_best(&best[side], time_calls(c, row, 64 * (round % 64 + 1), &bad) * 1e9 / row->times);
        memcpy(areas[side], area, sizeof area);
        memcpy(digests[side], digest, sizeof digest);
    }
    printf("%-32s%4" PRIu64 "%6" PRIu64, row->what, row->limit, row->rounds);
    if (SIDES == 2) {
        differ = memcmp(areas[0], areas[1], 8 * asked_words(&archives[0][0], row->limit)) != 0 || memcmp(digests[0], digests[1], sizeof digest) != 0;
        printf("%12.1f%12.1f%8.3f%9s  %s\n", best[1], best[0], best[0] / best[1], row->most, differ ? "DIFFER" : "agree");
    } else
        printf("%12s%12.1f\n", "-", best[0]);
    return bad | differ;
}

int main(void)
{
    static const struct row rows[] = {
        { "md6_hash of 0 bytes", nothing_ready, hash_call, 50, 64, 5, 0, "1.05" },
        { "md6_hash of 0 bytes", nothing_ready, hash_call, 20, 64, 104, 0, "1.05" },
        { "md6_hash of 0 bytes", nothing_ready, hash_call, 20, 64, 168, 0, "1.05" },
        { "md6_hash of 64 bytes", nothing_ready, hash_call, 50, 64, 5, 64, "1.05" },
        { "md6_hash of 64 bytes", nothing_ready, hash_call, 20, 64, 104, 64, "1.05" },
        { "md6_hash of 64 bytes", nothing_ready, hash_call, 20, 64, 168, 64, "1.05" },
        { "md6_open", area_ready, open_call, 50, 64, 104, 0, "1.05" },
        { "md6_open", area_ready, open_call, 50, 0, 104, 0, "1.00" },
        { "md6_feed of 1 byte", area_ready, feed_call, 100, 64, 104, 1, "1.05" },
        { "md6_feed of 1 byte", area_ready, feed_call, 50, 0, 104, 1, "1.00" },
        { "md6_feed of 512 bytes", area_ready, feed_call, 20, 64, 5, BLOCK, "1.05" },
        { "md6_feed of 512 bytes", area_ready, feed_call, 20, 64, 104, BLOCK, "1.05" },
        { "md6_end of 5 MB", area_ready, end_call, 1, 64, 104, 0, "1.05" },
        { "md6_end of 5 MB", area_ready, end_call, 1, 0, 104, 0, "1.00" },
        { "md6_write", area_ready, write_call, 10, 64, 104, 0, "1.05" },
        { "md6_write", area_ready, write_call, 10, 0, 104, 0, "1.00" },
        { "md6_read", text_ready, read_call, 10, 64, 104, 0, "1.05" },
        { "md6_read", text_ready, read_call, 10, 0, 104, 0, "1.00" },
    };
    size_t i;
    int bad = 0;

    for (i = 0; i < sizeof message; i++)
        message[i] = (uint8_t)(random_word() >> 8);
    printf("%-32s%4s%6s%12s%12s%8s%9s\n", "best of many turns", "L", "r", "before ns", "now ns", "ratio", "at most");
    for (i = 0; i < sizeof rows / sizeof *rows; i++)
        bad |= time_row(&rows[i]);
    return bad;
}
