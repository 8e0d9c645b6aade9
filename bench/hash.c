/*
 * md6_hash of the archive against the second program's hash: zero bytes,
 * d = 256, L = 64, default rounds; 1, 8 and 64 MB, both in one run,
 * interleaved, best of several. Then random bytes, 64 MB of bits from each
 * start bit on.
 */
#define _POSIX_C_SOURCE 199309L
#include "reference.h"
#include "starts.h"

#include "../include/md6.h"

enum { D = 256, LIMIT = 64, LONG = 64000000, TURNS = 12 };

static int time_bytes(size_t bytes, unsigned repeats, const char *most)
{
    uint8_t *message = get(bytes, 1), ours[32], theirs[64];
    double best = 0, best_second = 0;
    struct param P = plain_params(D, LIMIT, md6_default_rounds(D, 0).count);
    struct tree T;
    unsigned k;
    int same;

    memset(message, 0, bytes);
    for (k = 0; k < repeats; k++) {
        double t0 = seconds(), t1, t2;
        if (md6_hash(message, bytes, 0, 8 * (uint64_t)bytes, NULL, 0, P.d, P.L, P.r, ours, sizeof ours) != 0)
            return 1;
        t1 = seconds();
        hash(&P, message, 8 * (uint64_t)bytes, &T, theirs);
        t2 = seconds();
        drop(&T);
        keep_best(&best, t1 - t0);
        keep_best(&best_second, t2 - t1);
    }
    free(message);
    same = memcmp(ours, theirs, 32) == 0;
    printf("%9zu  %8.2f  %11.2f  %5.3f  %7s  %s\n", bytes, (double)bytes / 1e6 / best_second,
           (double)bytes / 1e6 / best, best / best_second, most, same ? "agree" : "DIFFER");
    return !same;
}

static uint8_t digests[STARTS][D / 8];

/* LONG bytes of bits; past bit 0 they reach into a byte more, which is lent to each */
static int hash_from(const uint8_t *message, uint64_t start)
{
    return md6_hash(message, LONG + 1, start, 8 * (uint64_t)LONG, NULL, 0, D, LIMIT, md6_default_rounds(D, 0).count, digests[start], D / 8) != 0;
}

/* start bits whose digest is not the second program's of the bits moved to the front */
static unsigned differing(const uint8_t *message)
{
    uint8_t *front = get(LONG, 1), theirs[64];
    struct param P = plain_params(D, LIMIT, md6_default_rounds(D, 0).count);
    struct tree T;
    unsigned bad = 0, start;
    size_t i;

    for (start = 0; start < STARTS; start++) {
        for (i = 0; i < LONG; i++)
            front[i] = (uint8_t)((unsigned)message[i] << start | (unsigned)message[i + 1] >> (8 - start));
        hash(&P, front, 8 * (uint64_t)LONG, &T, theirs);
        drop(&T);
        bad += memcmp(theirs, digests[start], D / 8) != 0;
    }
    free(front);
    return bad;
}

static int time_from_bits(void)
{
    uint8_t *message = get(LONG + 1, 1);
    double best[STARTS];
    unsigned differ;
    size_t i;
    int bad;

    for (i = 0; i <= LONG; i++)
        message[i] = (uint8_t)(random_word() >> 8);
    bad = time_starts(hash_from, message, TURNS, best);
    show_starts("64 MB from a start bit on", best, LONG);
    differ = differing(message);
    printf("digests: %u of %d differ\n", differ, STARTS);
    free(message);
    return bad || differ != 0;
}

int main(void)
{
    int bad = 0;

    printf("    bytes    C MB/s  Rattle MB/s  ratio  at most  digests\n");
    bad |= time_bytes(1000000, 20, "-");
    bad |= time_bytes(8000000, 5, "-");
    bad |= time_bytes(LONG, 3, "0.45");
    bad |= time_from_bits();
    return bad;
}
