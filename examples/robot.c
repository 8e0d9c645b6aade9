/* Prints the MD6 digest of what comes on standard input, for a machine with little memory: 256 bits, no key, height limit 0, default
 * rounds. With that limit the nodes are a chain, and a stream's area has 80 words. A piece of one block of the chain makes one node
 * at most, and so does the end, so that 2 words of log are enough. Another limit gives another digest.
 *
 *   robot < FILE
 */
#include <inttypes.h>
#include <stdio.h>
#include <stdlib.h>

#include "../include/md6.h"

enum { D = 256, LIMIT = 0, AREA_WORDS = MD6_AREA_WORDS_FOR(LIMIT), PIECE_BYTES = 3072 / 8, LOG_WORDS = 2 };

static uint64_t accepted(md6_answer o)
{
    if (o.number != 0) {
        fprintf(stderr, "refused %" PRIu64 "\n", o.number);
        exit(1);
    }
    return o.count;
}

int main(void)
{
    uint64_t area[AREA_WORDS], log[LOG_WORDS];
    uint8_t piece[PIECE_BYTES], digest[D / 8];
    size_t n, i;

    accepted(md6_open(area, AREA_WORDS, NULL, 0, D, LIMIT, accepted(md6_default_rounds(D, 0))));
    while ((n = fread(piece, 1, sizeof piece, stdin)) > 0)
        accepted(md6_feed(area, AREA_WORDS, piece, n, 0, 8 * (uint64_t)n, log, LOG_WORDS));
    if (ferror(stdin)) {
        perror("standard input");
        return 1;
    }
    accepted(md6_end(area, AREA_WORDS, digest, sizeof digest, log, LOG_WORDS));
    for (i = 0; i < sizeof digest; i++)
        printf("%02x", (unsigned)digest[i]);
    printf("\n");
    if (fflush(stdout) != 0) {
        perror("standard output");
        return 1;
    }
    return 0;
}
