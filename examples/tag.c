/* Prints the keyed MD6 tag of what comes on standard input: 128 bits, height limit 64, default rounds, which a key makes at
 * least 80. The key is the bytes of a file, 1 to 64 of them. Memory does not grow with the input.
 *
 *   tag KEYFILE < FILE
 */
#include <inttypes.h>
#include <stdio.h>
#include <stdlib.h>

#include "../include/md6.h"

enum { D = 128, LIMIT = 64, AREA_WORDS = MD6_AREA_WORDS_FOR(LIMIT), KEY_ROOM = 65, PIECE_BYTES = 1 << 16 };

/* a log that grows when a piece needs more words than it has; a piece of 64 KB never needs more than some hundreds, however long
 * the input is */
struct log {
    uint64_t *words;
    size_t room;
};

static uint64_t accepted(md6_answer o)
{
    if (o.number != 0) {
        fprintf(stderr, "refused %" PRIu64 "\n", o.number);
        exit(1);
    }
    return o.count;
}

/* the bytes of the key's file; of one that is too long, one byte more than a key may have, for the library to refuse */
static size_t read_key(const char *name, uint8_t key[KEY_ROOM])
{
    FILE *f = fopen(name, "rb");
    size_t n = f == NULL ? 0 : fread(key, 1, KEY_ROOM, f);

    if (f == NULL || ferror(f)) {
        perror(name);
        exit(1);
    }
    fclose(f);
    if (n == 0) {
        fprintf(stderr, "%s: no key\n", name);
        exit(1);
    }
    return n;
}

/* a log of at least so many words */
static void make_room(struct log *log, uint64_t words)
{
    uint64_t *more;

    if (words <= log->room)
        return;
    more = realloc(log->words, (size_t)words * sizeof *more);
    if (more == NULL) {
        perror("log");
        exit(1);
    }
    log->words = more;
    log->room = (size_t)words;
}

int main(int argc, char **argv)
{
    static uint64_t area[AREA_WORDS];
    static uint8_t piece[PIECE_BYTES];
    struct log log = { NULL, 0 };
    uint8_t key[KEY_ROOM], tag[D / 8];
    size_t key_bytes, n, i;
    uint64_t rounds;

    if (argc != 2) {
        fprintf(stderr, "usage: tag KEYFILE < FILE\n");
        return 2;
    }
    key_bytes = read_key(argv[1], key);
    rounds = accepted(md6_default_rounds(D, key_bytes));
    accepted(md6_open(area, AREA_WORDS, key, key_bytes, D, LIMIT, rounds));
    while ((n = fread(piece, 1, sizeof piece, stdin)) > 0) {
        make_room(&log, accepted(md6_log_words(area, AREA_WORDS, 8 * (uint64_t)n)));
        accepted(md6_feed(area, AREA_WORDS, piece, n, 0, 8 * (uint64_t)n, log.words, log.room));
    }
    if (ferror(stdin)) {
        perror("standard input");
        return 1;
    }
    make_room(&log, MD6_END_LOG_WORDS);
    accepted(md6_end(area, AREA_WORDS, tag, sizeof tag, log.words, log.room));
    free(log.words);
    for (i = 0; i < sizeof tag; i++)
        printf("%02x", (unsigned)tag[i]);
    printf("\n");
    if (fflush(stdout) != 0) {
        perror("standard output");
        return 1;
    }
    return 0;
}
