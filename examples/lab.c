/* Prints the MD6 digest of a file, worked out layer by layer, and how many nodes its tree has: 256 bits, no key, height limit 64,
 * default rounds. It is the fast way for a machine with memory to spare: the file is read whole, and besides it a quarter of its
 * length is taken for the words that md6_layers works in, and a twenty-fourth for its log.
 *
 *   lab FILE
 */
#include <inttypes.h>
#include <stdio.h>
#include <stdlib.h>

#include "../include/md6.h"
#include "file.h"

enum { D = 256, LIMIT = 64 };

static uint64_t accepted(md6_answer o)
{
    if (o.number != 0) {
        fprintf(stderr, "refused %" PRIu64 "\n", o.number);
        exit(1);
    }
    return o.count;
}

/* memory for so many elements, or the end of the program */
static void *room_for(uint64_t count, size_t size)
{
    void *room = count <= SIZE_MAX / size ? malloc((size_t)count * size) : NULL;

    if (room == NULL) {
        fprintf(stderr, "no memory for %" PRIu64 " times %zu bytes\n", count, size);
        exit(1);
    }
    return room;
}

/* the digest of all bytes; answers the number of nodes */
static uint64_t seal_layers(const uint8_t *bytes, size_t length, uint8_t digest[D / 8])
{
    uint64_t bits = 8 * (uint64_t)length, rounds = accepted(md6_default_rounds(D, 0));
    uint64_t words_count = accepted(md6_layer_words(bits, LIMIT)), log_words = accepted(md6_layer_log_words(bits, LIMIT));
    uint64_t *words = room_for(words_count, sizeof *words), *log = room_for(log_words, sizeof *log), nodes;

    nodes = accepted(md6_layers(bytes, length, 0, bits, NULL, 0, D, LIMIT, rounds, words, (size_t)words_count, log, (size_t)log_words, digest, D / 8));
    free(words);
    free(log);
    return nodes;
}

int main(int argc, char **argv)
{
    uint8_t digest[D / 8], *bytes;
    size_t length = 0, i;
    uint64_t nodes;

    if (argc != 2) {
        fprintf(stderr, "usage: lab FILE\n");
        return 2;
    }
    bytes = read_file(argv[1], &length);
    if (bytes == NULL)
        return 1;
    nodes = seal_layers(bytes, length, digest);
    free(bytes);
    for (i = 0; i < sizeof digest; i++)
        printf("%02x", (unsigned)digest[i]);
    printf("  %" PRIu64 " nodes\n", nodes);
    if (fflush(stdout) != 0) {
        perror("standard output");
        return 1;
    }
    return 0;
}
