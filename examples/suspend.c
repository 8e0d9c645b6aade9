/* A stream fed in pieces, suspended as text, read into another area, and ended there; its digest is the whole message's. */
#include <inttypes.h>
#include <stdio.h>
#include <stdlib.h>
#include <string.h>

#include "../include/md6.h"

enum { D = 256, LIMIT = 64, AREA_WORDS = MD6_AREA_WORDS_FOR(LIMIT) };

static void need(int good, const char *what)
{
    if (!good) {
        fprintf(stderr, "suspend: %s was refused\n", what);
        exit(1);
    }
}

static void show_nodes(const uint64_t *log, uint64_t count)
{
    uint64_t i;

    for (i = 0; i < count; i++)
        printf("%016" PRIx64 " %016" PRIx64 "\n", log[2 * i], log[2 * i + 1]);
}

/* feeds bits, from a bit of the first byte on, with a log of just the words that are told for them, and prints the nodes; a log of
 * no words may be a null pointer */
static void feed(uint64_t *area, const uint8_t *piece, size_t bytes, uint64_t start, uint64_t bits)
{
    md6_answer told = md6_log_words(area, AREA_WORDS, bits), o;
    size_t words = (size_t)told.count;
    uint64_t *log = malloc(words * sizeof *log);

    need(told.number == 0, "log words");
    need(log != NULL || words == 0, "memory for a log");
    o = md6_feed(area, AREA_WORDS, piece, bytes, start, bits, log, words);
    need(o.number == 0, "feed");
    show_nodes(log, o.count);
    free(log);
}

int main(void)
{
    static uint64_t here[AREA_WORDS], there[AREA_WORDS], log[MD6_END_LOG_WORDS];
    static uint8_t text[MD6_TEXT_BYTES], message[1500];
    uint8_t digest[D / 8], whole[D / 8];
    uint64_t rounds = md6_default_rounds(D, 0).count;
    md6_answer o;
    size_t i;

    for (i = 0; i < sizeof message; i++)
        message[i] = (uint8_t)i;

    /* 1,000 bytes, then 3 bits of the next byte: cuts may fall anywhere */
    need(md6_open(here, AREA_WORDS, NULL, 0, D, LIMIT, rounds).number == 0, "open");
    feed(here, message, 1001, 0, 8 * 1000 + 3);

    /* the stream as text; from the read on it is in the other area */
    o = md6_write(here, AREA_WORDS, text, sizeof text);
    need(o.number == 0, "write");
    need(md6_read(there, AREA_WORDS, text, (size_t)o.count).number == 0, "read");

    /* the rest, from bit 3 of that byte on, which is lent again */
    feed(there, message + 1000, 500, 3, 8 * 500 - 3);

    /* an end needs at most MD6_END_LOG_WORDS */
    o = md6_end(there, AREA_WORDS, digest, sizeof digest, log, MD6_END_LOG_WORDS);
    need(o.number == 0, "end");
    show_nodes(log, o.count);
    for (i = 0; i < sizeof digest; i++)
        printf("%02x", (unsigned)digest[i]);
    printf("\n");

    need(md6_hash(message, sizeof message, 0, 8 * sizeof message, NULL, 0, D, LIMIT, rounds, whole, sizeof whole) == 0, "hash");
    return memcmp(digest, whole, sizeof digest) != 0;
}
