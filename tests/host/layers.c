/* A host in C: md6_layers of the archive against the second program's tree and against md6_hash, with just enough words and log, with
 * one fewer of each and with more, at every height limit, with two nodes at the sequential level of the small ones, on every start bit
 * with counts at the edges, with every number of leaves up to some groups, and on random inputs.
 *
 *   layers [SEED [INPUTS]]
 *
 * Every buffer stands between guard bytes or ends at a page that may not be touched. The second program, and md6_hash, are given the
 * same bits moved to the front of other bytes. The words must end with the second program's output of the highest node of each index,
 * the log with U and V of its nodes level by level; what is past them must stay, and of a refused call everything.
 */
#include "whole.h"

/* the words and log words that are lent to a call, or that it needs */
struct room {
    uint64_t words, log;
};

/* Document 02, M-100: "16 for each level-1 node", and two for each node; how many there are says document 01's "Tree" */
static struct room needed(uint64_t bits, uint64_t limit)
{
    uint64_t n = blocks(bits, limit == 0 ? 3072 : 4096), first = n, nodes = n, level;

    for (level = 1; level <= limit && n > 1; level++) {
        n = blocks(1024 * n, level < limit ? 4096 : 3072);
        nodes += n;
    }
    return (struct room){ 16 * first, 2 * nodes };
}

/* the number by the order of M-100: "Numbers 7 (too few words) and 8 follow the whole-message checks" */
static uint64_t number_of(const struct input *in, const struct room *room)
{
    uint64_t number = whole_number(in);
    struct room need;

    if (number != 0)
        return number;
    need = needed(in->message.bits, in->limit);
    return room->words < need.words ? 7 : room->log < need.log ? 8 : 0;
}

/* an input, what it lends to be read, and the second program's tree of its bits, if the checks of the whole message let it pass */
struct reel {
    const struct input *in;
    struct guarded message, key;
    struct tree tree;
    uint8_t digest[64];
};

/* the second program's tree has the nodes that are needed here, and its digest is that of md6_hash */
static void second_right(const struct reel *reel, const uint8_t *front, size_t bytes)
{
    const struct input *in = reel->in;
    struct room need = needed(in->message.bits, in->limit);
    uint64_t nodes = 0;
    uint8_t ours[64];
    int l;

    for (l = 1; l <= reel->tree.levels; l++)
        nodes += reel->tree.lv[l].nodes;
    expect(need.words == 16 * reel->tree.lv[1].nodes && need.log == 2 * nodes, "the needed words against the second program's tree");
    expect(md6_hash(front, bytes, 0, in->message.bits, reel->key.bytes, in->key_bytes, in->d, in->limit, in->rounds, ours, sizeof ours) == 0
               && memcmp(ours, reel->digest, (size_t)(in->d + 7) / 8) == 0,
           "md6_hash against the second program");
}

static struct reel reel_new(const struct input *in, int at_page)
{
    struct reel reel = { .in = in, .message = guarded_new(in->message.bytes, at_page), .key = guarded_new(in->key_bytes, (int)below(2)) };

    random_bytes(reel.message.bytes, reel.message.length);
    random_bytes(reel.key.bytes, reel.key.length);
    if (whole_number(in) == 0) {
        struct param P = second_params(reel.key.bytes, in->key_bytes, in->d, in->limit, in->rounds);
        struct guarded front = moved_bits(&in->message, reel.message.bytes);

        hash(&P, front.bytes, in->message.bits, &reel.tree, reel.digest);
        second_right(&reel, front.bytes, front.length);
        guarded_free(&front);
    }
    return reel;
}

/* frees what it has; whether the guard bytes are as they were */
static int reel_free(struct reel *reel)
{
    int good = guarded_intact(&reel->message) && guarded_intact(&reel->key);

    if (whole_number(reel->in) == 0)
        drop(&reel->tree);
    guarded_free(&reel->message);
    guarded_free(&reel->key);
    return good;
}

/* "16 for each index, the output of the highest node of that index" */
static void highest_outputs(const struct tree *T, uint64_t *words)
{
    uint64_t i;

    for (i = 0; i < T->lv[1].nodes; i++) {
        int l = T->levels;

        while (T->lv[l].nodes <= i)
            l--;
        memcpy(words + C_WORDS * i, T->lv[l].out + C_WORDS * i, C_WORDS * sizeof *words);
    }
}

/* "level by level, index by index, and shows in a log like the stream's"; answers how many nodes there are */
static uint64_t level_log(const struct tree *T, uint64_t *log)
{
    uint64_t i, nodes = 0;
    int l;

    for (l = 1; l <= T->levels; l++)
        for (i = 0; i < T->lv[l].nodes; i++, nodes++) {
            log[2 * nodes] = node_id(l, i);
            log[2 * nodes + 1] = T->lv[l].v[i];
        }
    return nodes;
}

/* what ran: calls, and those that were refused, by number */
static uint64_t tried, refused[10];

/* one call with so many words and log words; whether all is as it should be */
static int call_right(const struct reel *reel, struct room room, int at_page)
{
    const struct input *in = reel->in;
    struct lent words = lent_new(8 * (size_t)room.words, at_page), log = lent_new(8 * (size_t)room.log, at_page);
    struct lent digest = lent_new(in->digest_bytes, at_page);
    md6_answer expected = { number_of(in, &room), 0 }, o;
    int good;

    if (expected.number == 0) {
        highest_outputs(&reel->tree, (uint64_t *)(void *)words.after);
        expected.count = level_log(&reel->tree, (uint64_t *)(void *)log.after);
        memcpy(digest.after, reel->digest, (size_t)(in->d + 7) / 8);
    }
    o = md6_layers(reel->message.bytes, reel->message.length, in->message.start, in->message.bits, reel->key.bytes, reel->key.length,
                   in->d, in->limit, in->rounds, lent_words(&words.now), (size_t)room.words, lent_words(&log.now), (size_t)room.log,
                   digest.now.bytes, digest.now.length);
    good = o.number == expected.number && o.count == expected.count;
    good &= lent_free(&words) & lent_free(&log) & lent_free(&digest);
    if (!good && shown())
        printf("differs: bits %" PRIu64 " from bit %" PRIu64 " of %zu bytes, key %zu, d %" PRIu64 ", L %" PRIu64 ", r %" PRIu64 ", words %" PRIu64 ", log %" PRIu64 ", out %zu: number %" PRIu64 ", count %" PRIu64 ", expected %" PRIu64 ", %" PRIu64 "\n",
               in->message.bits, in->message.start, in->message.bytes, in->key_bytes, in->d, in->limit, in->rounds, room.words, room.log,
               in->digest_bytes, o.number, o.count, expected.number, expected.count);
    tried++;
    refused[expected.number]++;
    return good;
}

/* An input with just enough words and log, with one fewer of each and of both, and with more. A refused one needs none, and is tried
 * with none and with some. */
static int try_layers(const struct input *in, int at_page)
{
    struct reel reel = reel_new(in, at_page);
    struct room need = { 0, 0 };
    int good = 1;

    if (whole_number(in) == 0) {
        need = needed(in->message.bits, in->limit);
        good &= call_right(&reel, (struct room){ need.words - 1, need.log }, at_page);
        good &= call_right(&reel, (struct room){ need.words, need.log - 1 }, at_page);
        good &= call_right(&reel, (struct room){ need.words - 1, need.log - 1 }, at_page);
        good &= call_right(&reel, (struct room){ below(need.words), below(need.log) }, at_page);
    }
    good &= call_right(&reel, need, at_page);
    good &= call_right(&reel, (struct room){ need.words + below(70), need.log + below(70) }, !at_page);
    return good & reel_free(&reel);
}

static void edge_layers(const struct span *message, uint64_t number)
{
    edge_right(try_layers, message, number);
}

/* every height limit, on messages at the edges of the first levels */
static void every_limit(void)
{
    static const uint64_t counts[] = { 0, 1, 3073, 4096, 4097, 12289, 16384, 16385, 49153, 65536, 65537 };
    uint64_t limit;
    size_t i;

    for (limit = 0; limit <= 64; limit++)
        for (i = 0; i < sizeof counts / sizeof *counts; i++) {
            struct input in = pick_input();

            in.message = just(below(STARTS), counts[i]);
            in.limit = limit;
            in.rounds = below(6);
            bad += !try_layers(&in, 1);
        }
}

/* at each of the small height limits the smallest message with two nodes at the sequential level */
static void every_chain(void)
{
    uint64_t limit;

    for (limit = 0; limit <= 5; limit++) {
        struct input in = pick_input();

        in.message = just(below(STARTS), (UINT64_C(3072) << 2 * limit) + 1);
        in.limit = limit;
        in.rounds = below(6);
        bad += !try_layers(&in, 1);
    }
}

/* messages up to 100 KB, with few rounds or with those of the default */
static void long_messages(void)
{
    int i;

    for (i = 0; i < 40; i++) {
        struct input in = pick_input();

        in.message = just(below(STARTS), below(8 * 102400));
        in.limit = below(65);
        in.rounds = below(4) == 0 ? md6_default_rounds(in.d, in.key_bytes).count : below(6);
        bad += !try_layers(&in, (int)below(2));
    }
}

/* makes a fair call one that this number refuses */
static void spoil(struct input *in, struct room *room, uint64_t number)
{
    switch (number) {
    case 5: in->message.start = 8; break;
    case 1: in->d = below(2) == 0 ? 0 : 513; break;
    case 2: in->key_bytes = 65; break;
    case 3: in->limit = 65; break;
    case 4: in->rounds = MOST_ROUNDS + 1; break;
    case 9: in->digest_bytes = 0; break;
    case 7: room->words = below(room->words); break;
    default: room->log = below(room->log); break;
    }
}

/* each refusal with each that comes after it in the order, and with itself: the first is told */
static void every_order(void)
{
    static const uint64_t order[] = { 5, 1, 2, 3, 4, 9, 7, 8 };
    size_t i, k;

    for (i = 0; i < sizeof order / sizeof *order; i++)
        for (k = i; k < sizeof order / sizeof *order; k++) {
            struct input in = pick_input();
            struct room room = needed(in.message.bits, in.limit);
            struct reel reel;

            spoil(&in, &room, order[i]);
            if (k > i)
                spoil(&in, &room, order[k]);
            expect(number_of(&in, &room) == order[i], "the table's number of two that hold");
            reel = reel_new(&in, 1);
            bad += !call_right(&reel, room, 1);
            expect(reel_free(&reel), "the guards of a refused message");
        }
}

/* what is told for a length and a height limit; with a limit out of the range it is 3 */
static int told_right(uint64_t bits, uint64_t limit)
{
    md6_answer words = md6_layer_words(bits, limit), log = md6_layer_log_words(bits, limit);
    struct room need;

    if (limit > 64)
        return words.number == 3 && words.count == 0 && log.number == 3 && log.count == 0;
    need = needed(bits, limit);
    return words.number == 0 && words.count == need.words && log.number == 0 && log.count == need.log;
}

/* a length near an edge of some level, or anywhere up to 2^64 - 1 */
static uint64_t pick_length(void)
{
    uint64_t edge = (below(2) == 0 ? UINT64_C(3072) : UINT64_C(4096)) << below(53);

    switch (below(4)) {
    case 0: return edge + below(3) - 1;
    case 1: return (1 + below(9)) * edge + below(3) - 1;
    case 2: return UINT64_MAX - below(3);
    default: return next() >> below(64);
    }
}

/* at every height limit and past them, the smallest messages and such lengths */
static void every_told(void)
{
    uint64_t limit, i, wrong = 0;

    for (limit = 0; limit < 70; limit++)
        for (i = 0; i < 2000; i++)
            wrong += !told_right(i < 5 ? i : pick_length(), limit);
    for (i = 0; i < FAR; i++)
        wrong += !told_right(far[i], far[FAR - 1 - i]) + !told_right(1, far[i]);
    expect(wrong == 0, "told words and log words");
}

/* empty buffers may be null pointers */
static int null_right(void)
{
    uint64_t words[16], log[2];
    uint8_t digest[32], out[32];

    return md6_hash(NULL, 0, 0, 0, NULL, 0, 256, 64, 104, out, 32) == 0
        && md6_layers(NULL, 0, 0, 0, NULL, 0, 256, 64, 104, words, 16, log, 2, digest, 32).number == 0 && memcmp(digest, out, 32) == 0
        && md6_layers(NULL, 0, 0, 0, NULL, 0, 256, 64, 104, words, 16, log, 2, NULL, 0).number == 9
        && md6_layers(NULL, 0, 0, 0, NULL, 0, 256, 64, 104, NULL, 0, log, 2, digest, 32).number == 7
        && md6_layers(NULL, 0, 0, 0, NULL, 0, 256, 64, 104, words, 16, NULL, 0, digest, 32).number == 8
        && md6_layers(NULL, 0, 3, 0, NULL, 0, 256, 64, 104, NULL, 0, NULL, 0, NULL, 0).number == 5;
}

int main(int argc, char **argv)
{
    uint64_t seed = begin(argc, argv), i;
    uint64_t inputs = argc > 2 ? strtoull(argv[2], NULL, 0) : 2000;

    printf("seed %" PRIu64 ": %" PRIu64 " inputs\n", seed, inputs);
    for (i = 0; i < inputs; i++) {
        struct input in = pick_input();

        if (below(4) == 0)
            spoil_some(&in);
        bad += !try_layers(&in, (int)below(2));
    }
    every_start(try_layers);
    every_leaves(try_layers);
    every_limit();
    every_chain();
    long_messages();
    rounds_edges(try_layers);
    rounds_refused(try_layers);
    edge_spans(edge_layers);
    every_order();
    every_told();
    expect(null_right(), "null pointers");
    printf("%" PRIu64 " calls, %" PRIu64 " accepted, %" PRIu64 " refused by 7, %" PRIu64 " by 8; %" PRIu64 " messages at every start bit, %" PRIu64 " of whole leaves and beside them, %" PRIu64 " edges of number 5\n",
           tried, refused[0], refused[7], refused[8], starts, whole_leaves, edges);
    printf("%" PRIu64 " differ\n", bad);
    return bad != 0;
}
