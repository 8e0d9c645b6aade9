/* Prints the MD6 digest of what scanner frames carry: 256 bits, no key, height limit 64, default rounds. Each file is one frame: 3
 * bits of header, and then its payload to the end of the last byte. The payloads are hashed one behind the other, frame by frame;
 * the headers are not. Memory does not grow with the frames.
 *
 *   frame FRAME..
 */
#include <inttypes.h>
#include <stdio.h>
#include <stdlib.h>

#include "../include/md6.h"

enum { D = 256, LIMIT = 64, AREA_WORDS = MD6_AREA_WORDS_FOR(LIMIT), HEADER_BITS = 3, PIECE_BYTES = 1 << 16 };

static uint64_t accepted(md6_answer o)
{
    if (o.number != 0) {
        fprintf(stderr, "refused %" PRIu64 "\n", o.number);
        exit(1);
    }
    return o.count;
}

/* feeds the bits of a piece from bit `start` on, with a log of just the words that are told for them: the start bit changes
 * nothing about these */
static void feed(uint64_t *area, const uint8_t *piece, size_t bytes, uint64_t start)
{
    uint64_t bits = 8 * (uint64_t)bytes - start;
    size_t words = (size_t)accepted(md6_log_words(area, AREA_WORDS, bits));
    uint64_t *log = malloc(words * sizeof *log);

    if (log == NULL && words > 0) {
        perror("log");
        exit(1);
    }
    accepted(md6_feed(area, AREA_WORDS, piece, bytes, start, bits, log, words));
    free(log);
}

/* feeds the payload of a frame: its first piece begins behind the header, inside a byte, and the others at their first bit */
static void feed_frame(uint64_t *area, const char *name)
{
    static uint8_t piece[PIECE_BYTES];
    uint64_t start = HEADER_BITS;
    FILE *f = fopen(name, "rb");
    size_t n;

    if (f == NULL) {
        perror(name);
        exit(1);
    }
    for (; (n = fread(piece, 1, sizeof piece, f)) > 0; start = 0)
        feed(area, piece, n, start);
    if (ferror(f)) {
        perror(name);
        exit(1);
    }
    fclose(f);
    if (start > 0) {
        fprintf(stderr, "%s: no frame, it has no header\n", name);
        exit(1);
    }
}

int main(int argc, char **argv)
{
    static uint64_t area[AREA_WORDS];
    uint64_t log[MD6_END_LOG_WORDS];
    uint8_t digest[D / 8];
    size_t i;
    int k;

    if (argc < 2) {
        fprintf(stderr, "usage: frame FRAME..\n");
        return 2;
    }
    accepted(md6_open(area, AREA_WORDS, NULL, 0, D, LIMIT, accepted(md6_default_rounds(D, 0))));
    for (k = 1; k < argc; k++)
        feed_frame(area, argv[k]);
    accepted(md6_end(area, AREA_WORDS, digest, sizeof digest, log, MD6_END_LOG_WORDS));
    for (i = 0; i < sizeof digest; i++)
        printf("%02x", (unsigned)digest[i]);
    printf("\n");
    if (fflush(stdout) != 0) {
        perror("standard output");
        return 1;
    }
    return 0;
}
