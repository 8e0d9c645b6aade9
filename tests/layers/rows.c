/* A host in C: md6_layers on the rows of document 01's "Reels by hand", on trees of several levels and chains at many height limits, with
 * just enough words and log and with one fewer, on bits from every start bit on, with three words and log words more than are needed, on
 * the edges of each parameter, and on each refusal with each that comes after it. A line is the number, the count, the output, and
 * whether the words past those used and the log past the nodes are as before, when both held a5 in every byte. Then a line U V for each
 * node, and a line of 16 words for each index. Last the words and log words that are told, a line a bit count.
 * tests/layers/expected.py makes the expected lines from documents 01 and 02.
 *
 * Whatever is lent ends at a page that may not be touched; messages and keys can only be read.
 */
#include "../host/rows.h"

/* the messages: ones, one in which no two blocks are equal, and three letters; and the longest key and a byte more */
static uint8_t ones[2049], message[8194], key[65];

static void make_inputs(void)
{
    size_t i;

    memset(ones, 0xff, sizeof ones);
    memset(key, 'k', sizeof key);
    for (i = 0; i < sizeof message; i++)
        message[i] = (uint8_t)(85 + 73 * i + i / 256);
}

/* all that a call is given: words, log and digest as the number of their elements */
struct call {
    const uint8_t *message;
    size_t message_bytes;
    uint64_t start, bits;
    const uint8_t *key;
    size_t key_bytes;
    uint64_t d, limit, rounds;
    size_t words, log, digest;
};

static size_t words_for(uint64_t bits, uint64_t limit)
{
    return (size_t)md6_layer_words(bits, limit).count;
}

static size_t log_for(uint64_t bits, uint64_t limit)
{
    return (size_t)md6_layer_log_words(bits, limit).count;
}

/* what the call answered and left; a call that was refused used no words */
static void print_call(const struct call *call, md6_answer answer,
                       const struct guarded *words, const struct guarded *log, const struct guarded *digest)
{
    size_t used = answer.number == 0 ? words_for(call->bits, call->limit) : 0, logged = 2 * (size_t)answer.count;

    print_answer(answer);
    putchar(' ');
    print_bytes(digest);
    print_same(still_filled(words, 8 * used));
    print_same(still_filled(log, 8 * logged));
    putchar('\n');
    print_words(log, logged, 2);
    print_words(words, used, 16);
}

static void show(struct call call)
{
    struct guarded bytes = read_only(call.message, call.message_bytes), under = read_only(call.key, call.key_bytes);
    struct guarded words = filled_new(8 * call.words), log = filled_new(8 * call.log), digest = filled_new(call.digest);
    md6_answer answer = md6_layers(bytes.bytes, bytes.length, call.start, call.bits, under.bytes, under.length,
                                   call.d, call.limit, call.rounds,
                                   lent_words(&words), call.words, lent_words(&log), call.log, digest.bytes, call.digest);

    print_call(&call, answer, &words, &log, &digest);
    row_free(&bytes);
    row_free(&under);
    row_free(&words);
    row_free(&log);
    row_free(&digest);
}

/* the call with just enough words and log, or so many more of each */
static void enough(struct call call, size_t more)
{
    call.words = words_for(call.bits, call.limit) + more;
    call.log = log_for(call.bits, call.limit) + more;
    show(call);
}

/* rows of "Reels by hand": messages of ones, r = 0 and no key */
static void reels(void)
{
    static const struct { uint64_t bits, limit, d; } rows[] = {
        { 0, 64, 8 }, { 4096, 64, 8 }, { 4097, 64, 8 }, { 16384, 64, 8 }, { 16384, 64, 9 }, { 16385, 64, 8 },
        { 0, 0, 8 }, { 3073, 0, 8 }, { 12288, 1, 8 }, { 12289, 1, 8 },
    };
    size_t i;

    for (i = 0; i < sizeof rows / sizeof *rows; i++)
        enough((struct call){ .message = ones, .message_bytes = sizeof ones, .bits = rows[i].bits, .d = rows[i].d,
                              .limit = rows[i].limit, .digest = 2 }, 0);
}

/* with the words and the log that are told, with one fewer of each of them, and of both */
static void fewer(uint64_t bits, uint64_t limit)
{
    struct call call = { .message = message, .message_bytes = sizeof message, .bits = bits, .key = (const uint8_t *)"key", .key_bytes = 3,
                         .d = 20, .limit = limit, .rounds = 5, .digest = 4 };
    size_t words = words_for(bits, limit), log = log_for(bits, limit), i;

    for (i = 0; i < 4; i++) {
        call.words = words - i % 2;
        call.log = log - i / 2;
        show(call);
    }
}

/* bit counts at the edges of a block and of a level; the small height limits, with some of which a level of these trees is sequential,
 * and the edges of the others */
static void trees(void)
{
    static const uint64_t counts[] = { 0, 1, 3072, 3073, 4096, 4097, 12289, 16385, 65537 };
    static const uint64_t limits[] = { 0, 1, 2, 3, 4, 5, 26, 27, 63, 64 };
    size_t i, k;

    for (i = 0; i < sizeof counts / sizeof *counts; i++)
        for (k = 0; k < sizeof limits / sizeof *limits; k++)
            fewer(counts[i], limits[k]);
}

/* counts about the first block from every start bit on, with r = 1 */
static void starts(uint64_t limit)
{
    static const uint64_t counts[] = { 0, 1, 7, 9, 4095, 4096, 4097 };
    uint64_t start;
    size_t i;

    for (start = 0; start < 8; start++)
        for (i = 0; i < sizeof counts / sizeof *counts; i++)
            enough((struct call){ .message = message, .message_bytes = sizeof message, .start = start, .bits = counts[i],
                                  .d = 64, .limit = limit, .rounds = 1, .digest = 8 }, 3);
}

/* one node: the edges of d, the key, L, r and the bits, of which the first past the range is refused; then more than is needed */
static void edges(void)
{
    static const struct { uint64_t bits; size_t key_bytes; uint64_t d, limit, rounds; size_t more; } rows[] = {
        { 24, 0, 0, 64, 5, 0 }, { 24, 0, 1, 64, 5, 0 }, { 24, 0, 512, 64, 5, 0 }, { 24, 0, 513, 64, 5, 2 },
        { 24, 64, 8, 64, 5, 0 }, { 24, 65, 8, 64, 5, 0 }, { 24, 0, 8, 0, 5, 0 }, { 24, 0, 8, 65, 5, 0 },
        { 24, 0, 8, 64, 4095, 0 }, { 24, 0, 8, 64, 4096, 0 }, { 25, 0, 8, 64, 5, 0 }, { UINT64_MAX, 0, 8, 64, 5, 0 },
        { 23, 0, 9, 64, 0, 1 }, { 23, 0, 9, 0, 1, 2 },
    };
    size_t i;

    for (i = 0; i < sizeof rows / sizeof *rows; i++)
        show((struct call){ (const uint8_t *)"abc", 3, 0, rows[i].bits, key, rows[i].key_bytes, rows[i].d, rows[i].limit, rows[i].rounds,
                            16 + rows[i].more, 2 + rows[i].more, 64 + rows[i].more });
}

/* spoils a call, so that it is refused by this number */
static void spoil(struct call *call, uint64_t number)
{
    switch (number) {
    case 5: call->start = 8; break;
    case 1: call->d = 513; break;
    case 2: call->key_bytes = 65; break;
    case 3: call->limit = 65; break;
    case 4: call->rounds = 4096; break;
    case 9: call->digest = 0; break;
    case 7: call->words = 31; break;
    case 8: call->log = 5; break;
    }
}

/* a call on two blocks that is refused by one number, and by it and each that comes after it */
static void orders(void)
{
    static const uint64_t order[8] = { 5, 1, 2, 3, 4, 9, 7, 8 };
    size_t i, k;

    for (i = 0; i < 8; i++)
        for (k = i; k < 8; k++) {
            struct call call = { message, sizeof message, 0, 4097, key, 64, 8, 64, 5, 32, 6, 1 };

            spoil(&call, order[i]);
            spoil(&call, order[k]);
            show(call);
        }
}

/* what is told for bit counts, of which the last are near 2^64 */
static void told(uint64_t limit)
{
    static const uint64_t counts[] = { 0, 1, 3073, 4097, 16384, 16385, UINT64_MAX - 4095, UINT64_MAX };
    size_t i;

    for (i = 0; i < sizeof counts / sizeof *counts; i++) {
        print_answer(md6_layer_words(counts[i], limit));
        putchar(' ');
        print_answer(md6_layer_log_words(counts[i], limit));
        putchar('\n');
    }
}

/* at every height limit and the first past them, and at 2^32 + 5 and 2^64 - 1 */
static void all_told(void)
{
    uint64_t limit;

    for (limit = 0; limit < 67; limit++)
        told(limit);
    told((UINT64_C(1) << 32) + 5);
    told(UINT64_MAX);
}

int main(void)
{
    begin_rows();
    make_inputs();
    reels();
    trees();
    starts(64);
    starts(1);
    starts(0);
    edges();
    orders();
    all_told();
    return 0;
}
