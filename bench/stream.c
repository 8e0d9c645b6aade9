/*
 * The stream's calls of the archive, zero bytes, L = 64: a message fed in
 * pieces of 64 KB against md6_hash of it, both in one run, interleaved, best
 * of several; pieces of one byte; an end; log words told; and, of random bytes,
 * pieces of 64 KB from each start bit on. The targets stand in the tables.
 */
#define _POSIX_C_SOURCE 199309L
#include "reference.h"
#include "starts.h"

#include "../include/md6.h"

enum { MESSAGE = 64000000, PIECE = 65536, LOG = 4 * 128 + 54, SHORT = 5000000, TURNS = 12 };

static uint64_t area[MD6_AREA_WORDS], kept[MD6_AREA_WORDS], log_words[LOG];

static int open_area(uint64_t d, uint64_t rounds)
{
    return md6_open(area, MD6_AREA_WORDS, NULL, 0, d, 64, rounds).number != 0;
}

/* feeds the bits of so many bytes from a start bit on, in pieces of the bits of `piece` bytes, the last one shorter; 0 if all were
 * accepted. Each piece begins at that bit, and one that does not begin at bit 0 shares its last byte with the next. */
static int feed_from(const uint8_t *message, uint64_t start, size_t bytes, size_t piece)
{
    size_t at, n;

    for (at = 0; at < bytes; at += n) {
        n = bytes - at < piece ? bytes - at : piece;
        if (md6_feed(area, MD6_AREA_WORDS, message + at, n + (start > 0), start, 8 * (uint64_t)n, log_words, LOG).number != 0)
            return 1;
    }
    return 0;
}

static int feed_pieces(const uint8_t *message, size_t bytes, size_t piece)
{
    return feed_from(message, 0, bytes, piece);
}

static int time_pieces(const uint8_t *message)
{
    uint8_t whole[32], streamed[32];
    double best = 0, best_whole = 0;
    uint64_t rounds = md6_default_rounds(256, 0).count;
    unsigned k;
    int bad = 0, differ;

    for (k = 0; k < 12; k++) {
        double t0 = seconds(), t1, t2;
        bad |= md6_hash(message, MESSAGE, 0, 8 * (uint64_t)MESSAGE, NULL, 0, 256, 64, rounds, whole, sizeof whole) != 0;
        t1 = seconds();
        bad |= open_area(256, rounds);
        bad |= feed_pieces(message, MESSAGE, PIECE);
        t2 = seconds();
        bad |= md6_end(area, MD6_AREA_WORDS, streamed, sizeof streamed, log_words, LOG).number != 0;
        keep_best(&best_whole, t1 - t0);
        keep_best(&best, t2 - t1);
    }
    differ = memcmp(whole, streamed, sizeof whole) != 0;
    printf("64 MB in pieces of 64 KB, time to md6_hash's    %7.3f     1.05  %s\n", best / best_whole,
           differ ? "DIFFER" : "agree");
    return bad | differ;
}

static int time_bytes(const uint8_t *message)
{
    double best = 0;
    unsigned k, calls = 100000;
    int bad = open_area(256, md6_default_rounds(256, 0).count);

    bad |= feed_pieces(message, SHORT, PIECE);
    for (k = 0; k < 5; k++) {
        double t0 = seconds();
        bad |= feed_pieces(message, calls, 1);
        keep_best(&best, seconds() - t0);
    }
    printf("pieces of 1 byte, microseconds a call           %7.3f     3\n", best * 1e6 / calls);
    return bad;
}

/* with no rounds a compression is a copy, so this is the time of an end beyond its compressions */
static int time_end(const uint8_t *message)
{
    uint8_t digest[32];
    double best = 0;
    uint64_t nodes = 0;
    unsigned k;
    int bad = open_area(256, 0);

    bad |= feed_pieces(message, SHORT, PIECE);
    memcpy(kept, area, sizeof kept);
    for (k = 0; k < 1000; k++) {
        md6_answer answer;
        double t0;
        memcpy(area, kept, sizeof kept);
        t0 = seconds();
        answer = md6_end(area, MD6_AREA_WORDS, digest, sizeof digest, log_words, LOG);
        keep_best(&best, seconds() - t0);
        bad |= answer.number != 0;
        nodes = answer.count;
    }
    printf("an end of 5 MB, r = 0, microseconds             %7.3f    30  %u nodes\n", best * 1e6, (unsigned)nodes);
    return bad;
}

/* told log words for a bit, and for as many bits as the total leaves */
static int time_telling(const uint8_t *message)
{
    double best[2] = { 0, 0 };
    uint64_t bits[2] = { 1, UINT64_MAX - 8 * (uint64_t)SHORT };
    unsigned k, i, calls = 10000;
    int bad = open_area(256, md6_default_rounds(256, 0).count);

    bad |= feed_pieces(message, SHORT, PIECE);
    for (k = 0; k < 10; k++) {
        double t0 = seconds();
        for (i = 0; i < calls; i++)
            bad |= md6_log_words(area, MD6_AREA_WORDS, bits[k % 2]).number != 0;
        keep_best(&best[k % 2], seconds() - t0);
    }
    printf("log words told for a bit, microseconds          %7.3f     3\n", best[0] * 1e6 / calls);
    printf("and for nearly 2^64 bits                        %7.3f     3\n", best[1] * 1e6 / calls);
    return bad;
}

static uint8_t digests[STARTS][32];

static int stream_from(const uint8_t *message, uint64_t start)
{
    int bad = open_area(256, md6_default_rounds(256, 0).count);

    bad |= feed_from(message, start, MESSAGE, PIECE);
    return bad | (md6_end(area, MD6_AREA_WORDS, digests[start], 32, log_words, LOG).number != 0);
}

/* the message is filled with random bytes first: of zero bytes every start bit gives the same bits */
static int time_from_bits(uint8_t *message)
{
    uint8_t whole[32];
    double best[STARTS];
    unsigned differ = 0, start;
    size_t i;
    int bad;

    for (i = 0; i <= MESSAGE; i++)
        message[i] = (uint8_t)(random_word() >> 8);
    bad = time_starts(stream_from, message, TURNS, best);
    show_starts("64 MB in pieces of 64 KB, each from a start bit on", best, MESSAGE);
    for (start = 0; start < STARTS; start++) {
        bad |= md6_hash(message, MESSAGE + 1, start, 8 * (uint64_t)MESSAGE, NULL, 0, 256, 64, md6_default_rounds(256, 0).count, whole, sizeof whole) != 0;
        differ += memcmp(whole, digests[start], sizeof whole) != 0;
    }
    printf("digests to md6_hash's: %u of %d differ\n", differ, STARTS);
    return bad || differ != 0;
}

int main(void)
{
    uint8_t *message = get(MESSAGE + 1, 1);
    int bad;

    memset(message, 0, MESSAGE);
    printf("                                                  found  at most\n");
    bad = time_pieces(message);
    bad |= time_bytes(message);
    bad |= time_end(message);
    bad |= time_telling(message);
    bad |= time_from_bits(message);
    free(message);
    return bad;
}
