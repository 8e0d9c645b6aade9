/* Prints the MD6 digest of a file: 256 bits, no key, height limit 64, default rounds.
 *
 *   seal FILE
 */
#include <inttypes.h>
#include <stdio.h>
#include <stdlib.h>

#include "../include/md6.h"
#include "file.h"

enum { D = 256, LIMIT = 64 };

int main(int argc, char **argv)
{
    uint8_t digest[D / 8], *bytes;
    size_t length = 0, i;
    uint64_t number;

    if (argc != 2) {
        fprintf(stderr, "usage: seal FILE\n");
        return 2;
    }
    bytes = read_file(argv[1], &length);
    if (bytes == NULL)
        return 1;
    number = md6_hash(bytes, length, 0, 8 * (uint64_t)length, NULL, 0, D, LIMIT, md6_default_rounds(D, 0).count, digest, sizeof digest);
    free(bytes);
    if (number != 0) {
        fprintf(stderr, "refused %" PRIu64 "\n", number);
        return 1;
    }
    for (i = 0; i < sizeof digest; i++)
        printf("%02x", (unsigned)digest[i]);
    printf("  %s\n", argv[1]);
    if (fflush(stdout) != 0) {
        perror("standard output");
        return 1;
    }
    return 0;
}
