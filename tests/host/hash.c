/* A host in C: md6_hash of the archive against the second program's code, on every start bit with counts at the edges, with every
 * number of leaves up to some groups, with every number of rounds, and on random inputs.
 *
 *   hash [SEED [INPUTS]]
 *
 * Every buffer stands between guard bytes or ends at a page that may not be touched. The second program, and md6_hash once more,
 * are given the same bits moved to the front of other bytes; the bits beside them are random in both places. Refused calls are
 * compared with a plain table of the refusals, and must change nothing.
 */
#include "whole.h"

static void second_digest(const uint8_t *message, uint64_t bits, const uint8_t *key, size_t key_bytes, uint64_t d, uint64_t limit, uint64_t rounds, uint8_t out[64])
{
    struct param P = second_params(key, key_bytes, d, limit, rounds);
    struct tree T;

    hash(&P, message, bits, &T, out);
    drop(&T);
}

/* The digest of an accepted input by the second program, which is given the bits moved to the front of bytes of their own.
 * Answers whether md6_hash of the moved bits gives it too. */
static int moved_digest(const struct input *in, const uint8_t *message, const uint8_t *key, uint8_t out[64])
{
    struct guarded front = moved_bits(&in->message, message);
    uint64_t bits = in->message.bits;
    uint8_t ours[64];
    int same;

    second_digest(front.bytes, bits, key, in->key_bytes, in->d, in->limit, in->rounds, out);
    same = md6_hash(front.bytes, front.length, 0, bits, key, in->key_bytes, in->d, in->limit, in->rounds, ours, sizeof ours) == 0
        && memcmp(ours, out, (size_t)(in->d + 7) / 8) == 0;
    guarded_free(&front);
    return same;
}

/* one input through both, its message at a page or between guard bytes; whether all is as it should be */
static int try_hash(const struct input *in, int at_page)
{
    struct guarded message = guarded_new(in->message.bytes, at_page);
    struct guarded key = guarded_new(in->key_bytes, (int)below(2));
    struct lent digest = lent_new(in->digest_bytes, (int)below(2));
    uint64_t number, expected = whole_number(in);
    uint8_t out[64];
    int good = 1;

    random_bytes(message.bytes, message.length);
    random_bytes(key.bytes, key.length);
    number = md6_hash(message.bytes, message.length, in->message.start, in->message.bits, key.bytes, key.length, in->d, in->limit, in->rounds, digest.now.bytes, digest.now.length);
    if (expected == 0) {
        good = moved_digest(in, message.bytes, key.bytes, out);
        memcpy(digest.after, out, (size_t)(in->d + 7) / 8);
    }
    good &= lent_free(&digest) & guarded_intact(&message) & guarded_intact(&key) & (number == expected);
    if (!good && shown())
        printf("differs: bits %" PRIu64 " from bit %" PRIu64 " of %zu bytes, key %zu, d %" PRIu64 ", L %" PRIu64 ", r %" PRIu64 ", out %zu: number %" PRIu64 ", expected %" PRIu64 "\n",
               in->message.bits, in->message.start, message.length, key.length, in->d, in->limit, in->rounds, in->digest_bytes, number, expected);
    guarded_free(&message);
    guarded_free(&key);
    return good;
}

static void edge_hash(const struct span *message, uint64_t number)
{
    edge_right(try_hash, message, number);
}

/* every number of rounds, on messages that are one node at any height limit: each constant of the table is once the last */
static void every_rounds(void)
{
    uint64_t r;

    for (r = 0; r <= MOST_ROUNDS; r++) {
        struct input in = pick_input();

        in.message = just(below(STARTS), below(3073));
        in.rounds = r;
        bad += !try_hash(&in, 1);
    }
}

/* document 02, M-102: "the larger of 80 and 40 + d/4 if the key has any byte", "refuses 1, then 2" */
static int default_right(uint64_t d, uint64_t key_bytes)
{
    md6_answer told = md6_default_rounds(d, key_bytes);
    uint64_t number = d < 1 || d > 512 ? 1 : key_bytes > 64 ? 2 : 0;
    uint64_t rounds = 40 + d / 4;

    if (key_bytes > 0 && rounds < 80)
        rounds = 80;
    return told.number == number && told.count == (number == 0 ? rounds : 0);
}

/* every digest size with every key length and some past the edges, then numbers of `far` */
static int default_rounds_right(void)
{
    uint64_t d, key_bytes, i, j;

    for (d = 0; d < 600; d++)
        for (key_bytes = 0; key_bytes < 70; key_bytes++)
            if (!default_right(d, key_bytes))
                return 0;
    for (i = 0; i < FAR; i++)
        for (j = 0; j < FAR; j++)
            if (!default_right(far[i], far[j]) || !default_right(128, far[i]) || !default_right(far[i], 1))
                return 0;
    return 1;
}

/* empty buffers may be null pointers */
static int null_right(void)
{
    uint8_t digest[32], out[64] = { 0 };

    second_digest(out, 0, out, 0, 256, 64, 104, out);
    return md6_hash(NULL, 0, 0, 0, NULL, 0, 256, 64, 104, digest, 32) == 0 && memcmp(digest, out, 32) == 0
        && md6_hash(NULL, 0, 0, 0, NULL, 0, 256, 64, 104, NULL, 0) == 9
        && md6_hash(NULL, 0, 3, 0, NULL, 0, 256, 64, 104, digest, 32) == 5
        && md6_hash(NULL, 0, 8, 0, NULL, 0, 256, 64, 104, digest, 32) == 5 && memcmp(digest, out, 32) == 0;
}

int main(int argc, char **argv)
{
    uint64_t seed = begin(argc, argv), i, refused = 0;
    uint64_t inputs = argc > 2 ? strtoull(argv[2], NULL, 0) : 3000;

    printf("seed %" PRIu64 ": %" PRIu64 " inputs\n", seed, inputs);
    for (i = 0; i < inputs; i++) {
        struct input in = pick_input();

        if (below(4) == 0)
            spoil_some(&in);
        bad += !try_hash(&in, (int)below(2));
        refused += whole_number(&in) != 0;
    }
    every_start(try_hash);
    every_leaves(try_hash);
    every_rounds();
    rounds_edges(try_hash);
    rounds_refused(try_hash);
    edge_spans(edge_hash);
    expect(default_rounds_right(), "default rounds");
    expect(null_right(), "null pointers");
    printf("%" PRIu64 " refused among them; %" PRIu64 " messages at every start bit, %" PRIu64 " of whole leaves and beside them, %" PRIu64 " edges of number 5; rounds 0 to %d\n",
           refused, starts, whole_leaves, edges, MOST_ROUNDS);
    printf("%" PRIu64 " differ\n", bad);
    return bad != 0;
}
