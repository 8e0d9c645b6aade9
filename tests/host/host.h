/* What the hosts share: the second program's code, the archive's calls, watched buffers, random numbers, spans of bits, and the
 * count of what is wrong. */
#ifndef HOST_H
#define HOST_H

#define main second_main
#include "../second/md6ref.c"
#undef main

#include "../../include/md6.h"
#include "guard.h"
#include "random.h"
#include "span.h"

static uint64_t bad;

/* the first hundred things that are wrong are told, the others only counted */
static inline int shown(void)
{
    return bad < 100;
}

static inline void expect(int good, const char *what)
{
    if (good)
        return;
    if (shown())
        printf("wrong: %s\n", what);
    bad++;
}

/* seeds the random numbers by the first argument, or anew, and answers the seed, for the caller to print; lines are out at once,
 * should a touched page stop the program */
static inline uint64_t begin(int argc, char **argv)
{
    uint64_t seed = argc > 1 ? strtoull(argv[1], NULL, 0) : (uint64_t)time(NULL);

    setvbuf(stdout, NULL, _IOLBF, BUFSIZ);
    random_seed(seed);
    return seed;
}

/* document 02, M-108: "Number 4 is now for r over 4,095"; before it went up to 255 */
enum { MOST_ROUNDS = 4095, OLD_ROUNDS = 255 };

/* rounds over the range; most would be in it if they were cut to 12, 16 or 32 bits */
enum { OVER = 9 };
static const uint64_t over_rounds[OVER] = {
    MOST_ROUNDS + 1, MOST_ROUNDS + 2, 65535, 65536, 65536 + 5, UINT64_C(1) << 32, (UINT64_C(1) << 32) + 5,
    UINT64_C(1) << 63, UINT64_MAX,
};

/* rounds at an edge of the range or of the old one, or anywhere in it */
static inline uint64_t wide_rounds(void)
{
    static const uint64_t edges[] = { 0, OLD_ROUNDS - 1, OLD_ROUNDS, OLD_ROUNDS + 1, MOST_ROUNDS - 1, MOST_ROUNDS };

    return below(2) == 0 ? edges[below(sizeof edges / sizeof *edges)] : below(MOST_ROUNDS + 1);
}

struct params {
    uint8_t key[64];
    size_t key_bytes;
    uint64_t d, limit, rounds;
};

/* the parameters as the second program takes them */
static inline struct param second_params(const uint8_t *key, size_t key_bytes, uint64_t d, uint64_t limit, uint64_t rounds)
{
    struct param P;
    size_t i;

    memset(&P, 0, sizeof P);
    P.keylen = (unsigned)key_bytes;
    P.d = (unsigned)d;
    P.L = (unsigned)limit;
    P.r = (unsigned)rounds;
    for (i = 0; i < key_bytes; i++)
        P.key[i / 8] |= (uint64_t)key[i] << (56 - 8 * (i % 8));
    return P;
}

/* the node lines of the second program's tree, as words U, V, in order */
static inline size_t second_log(const struct tree *T, int level, uint64_t i, uint64_t *log, size_t at)
{
    if (level > 1) {
        uint64_t fan = T->seq && level == T->levels ? 3 : 4, c;
        for (c = fan * i; c < fan * i + fan && c < T->lv[level - 1].nodes; c++)
            at = second_log(T, level - 1, c, log, at);
    }
    log[at] = node_id(level, i);
    log[at + 1] = T->lv[level].v[i];
    return at + 2;
}

/* the second program's tree of a message: its nodes as such a log, the number of whose words is answered, and its digest */
static inline size_t second_tree(const struct params *p, const uint8_t *message, uint64_t bits, uint64_t *log, uint8_t digest[64])
{
    struct param P = second_params(p->key, p->key_bytes, p->d, p->limit, p->rounds);
    struct tree T;
    size_t at = 0;
    uint64_t k;

    hash(&P, message, bits, &T, digest);
    for (k = 0; k < T.lv[T.levels].nodes; k++)
        at = second_log(&T, T.levels, k, log, at);
    drop(&T);
    return at;
}

#endif
