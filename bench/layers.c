/*
 * md6_layers of the archive against the second program's hash and against
 * md6_hash: zero bytes, d = 256, L = 64, default rounds; 16 KB, 1 and 64 MB,
 * all three in one run, interleaved, best of several. Words and log are lent
 * with just what is told, and were touched before the clock starts. Both calls
 * compress leaves two at a time, md6_layers the higher levels, too.
 */
#define _POSIX_C_SOURCE 199309L
#include "reference.h"

#include "../include/md6.h"

enum { D = 256, LIMIT = 64 };

struct lent {
    uint8_t *message, digest[D / 8];
    size_t bytes, words_count, log_words;
    uint64_t bits, rounds, *words, *log;
};

static struct lent lend(size_t bytes)
{
    struct lent l = { .bytes = bytes, .bits = 8 * (uint64_t)bytes, .rounds = md6_default_rounds(D, 0).count };

    l.words_count = (size_t)md6_layer_words(l.bits, LIMIT).count;
    l.log_words = (size_t)md6_layer_log_words(l.bits, LIMIT).count;
    l.message = get(bytes, 1);
    l.words = get(l.words_count, sizeof *l.words);
    l.log = get(l.log_words, sizeof *l.log);
    memset(l.message, 0, bytes);
    memset(l.words, 0, l.words_count * sizeof *l.words);
    memset(l.log, 0, l.log_words * sizeof *l.log);
    return l;
}

static void give_back(struct lent *l)
{
    free(l->message);
    free(l->words);
    free(l->log);
}

static int layers(struct lent *l)
{
    return md6_layers(l->message, l->bytes, 0, l->bits, NULL, 0, D, LIMIT, l->rounds, l->words, l->words_count, l->log, l->log_words, l->digest, D / 8).number != 0;
}

static int whole(const struct lent *l, uint8_t digest[D / 8])
{
    return md6_hash(l->message, l->bytes, 0, l->bits, NULL, 0, D, LIMIT, l->rounds, digest, D / 8) != 0;
}

/* the second program's digest of the same bytes */
static void second(const struct lent *l, uint8_t digest[64])
{
    struct param P = plain_params(D, LIMIT, l->rounds);
    struct tree T;

    hash(&P, l->message, l->bits, &T, digest);
    drop(&T);
}

static double speed(const struct lent *l, double time)
{
    return (double)l->bytes / 1e6 / time;
}

static int time_bytes(size_t bytes, unsigned repeats)
{
    uint8_t theirs[64], ours[D / 8];
    double best = 0, best_second = 0, best_whole = 0;
    struct lent l = lend(bytes);
    unsigned k;
    int bad = 0;

    for (k = 0; k < repeats; k++) {
        double t0 = seconds(), t1, t2, t3;
        bad |= layers(&l);
        t1 = seconds();
        second(&l, theirs);
        t2 = seconds();
        bad |= whole(&l, ours);
        t3 = seconds();
        keep_best(&best, t1 - t0);
        keep_best(&best_second, t2 - t1);
        keep_best(&best_whole, t3 - t2);
    }
    bad |= memcmp(l.digest, theirs, D / 8) != 0 || memcmp(l.digest, ours, D / 8) != 0;
    printf("%9zu  %8.2f  %9.2f  %8.2f  %13.3f  %14.3f  %s\n", bytes, speed(&l, best_second), speed(&l, best_whole), speed(&l, best),
           best / best_second, best / best_whole, bad ? "DIFFER" : "agree");
    give_back(&l);
    return bad;
}

int main(void)
{
    int bad = 0;

    printf("                  MB/s                      layers to C  layers to whole\n");
    printf("    bytes         C      whole    layers  at most 0.50    at most 1.00  digests\n");
    bad |= time_bytes(16384, 1000);
    bad |= time_bytes(1000000, 20);
    bad |= time_bytes(64000000, 4);
    return bad;
}
