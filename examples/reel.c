/* The turn of a reel: hashes what comes on standard input, shows the operator the MD6 digest, and ends the stream only if the buyer's
 * figure is that digest: 256 bits, no key, height limit 64, default rounds. The figure is hexadecimal digits, two a byte. If it
 * differs, nothing is lost: the stream is open as it was, and could be fed on, suspended, or closed with another figure. Memory does
 * not grow with the input.
 *
 *   reel FIGURE < FILE
 *
 * Exit status: 0 closed and told so, 1 otherwise, 2 called in another way.
 */
#include <ctype.h>
#include <inttypes.h>
#include <stdio.h>
#include <stdlib.h>
#include <string.h>

#include "../include/md6.h"

enum { D = 256, LIMIT = 64, AREA_WORDS = MD6_AREA_WORDS_FOR(LIMIT), PIECE_BYTES = 1 << 16, FIGURE_DIFFERS = 14 };

/* enough for every feed of a piece, and for the close */
enum { LOG_WORDS = 4 * (8 * PIECE_BYTES / 4096) + MD6_END_LOG_WORDS };

static uint64_t accepted(md6_answer o)
{
    if (o.number != 0) {
        fprintf(stderr, "refused %" PRIu64 "\n", o.number);
        exit(1);
    }
    return o.count;
}

/* the value of a hexadecimal digit, or -1 */
static int digit(char c)
{
    static const char digits[] = "0123456789abcdef";
    const char *at = c == '\0' ? NULL : strchr(digits, tolower((unsigned char)c));

    return at == NULL ? -1 : (int)(at - digits);
}

/* the bytes of a figure, however many: whether they are as many as the digest has is for the library to tell */
static uint8_t *read_figure(const char *digits, size_t *bytes)
{
    size_t n = strlen(digits), i;
    uint8_t *figure = calloc(n / 2 + 1, 1);

    if (figure == NULL) {
        perror("figure");
        exit(1);
    }
    for (i = 0; i < n && digit(digits[i]) >= 0; i++)
        figure[i / 2] = (uint8_t)(figure[i / 2] << 4 | digit(digits[i]));
    if (i < n || n % 2 != 0) {
        fprintf(stderr, "%s: no figure, it is to be hexadecimal digits, two a byte\n", digits);
        exit(2);
    }
    *bytes = n / 2;
    return figure;
}

static void feed_input(uint64_t *area, uint64_t *log)
{
    static uint8_t piece[PIECE_BYTES];
    size_t n;

    while ((n = fread(piece, 1, sizeof piece, stdin)) > 0)
        accepted(md6_feed(area, AREA_WORDS, piece, n, 0, 8 * (uint64_t)n, log, LOG_WORDS));
    if (ferror(stdin)) {
        perror("standard input");
        exit(1);
    }
}

/* a digest that cannot be shown to the operator is no ground to close a reel */
static void show(const uint8_t digest[D / 8])
{
    size_t i;

    for (i = 0; i < D / 8; i++)
        printf("%02x", (unsigned)digest[i]);
    printf("\n");
    if (fflush(stdout) != 0) {
        perror("standard output");
        exit(1);
    }
}

int main(int argc, char **argv)
{
    static uint64_t area[AREA_WORDS], log[LOG_WORDS];
    uint8_t digest[D / 8], *figure;
    size_t figure_bytes;
    md6_answer o;

    if (argc != 2) {
        fprintf(stderr, "usage: reel FIGURE < FILE\n");
        return 2;
    }
    figure = read_figure(argv[1], &figure_bytes);
    accepted(md6_open(area, AREA_WORDS, NULL, 0, D, LIMIT, accepted(md6_default_rounds(D, 0))));
    feed_input(area, log);
    accepted(md6_preview(area, AREA_WORDS, digest, sizeof digest));
    show(digest);
    o = md6_close(area, AREA_WORDS, figure, figure_bytes, log, LOG_WORDS);
    free(figure);
    if (o.number == FIGURE_DIFFERS) {
        fprintf(stderr, "the figure differs, the reel is not closed\n");
        return 1;
    }
    accepted(o);
    printf("closed\n");
    if (fflush(stdout) != 0) {
        perror("standard output");
        return 1;
    }
    return 0;
}
