/* A host in C: feeds that make several leaves, the nodes of level 1.
 *
 *   leaves [SEED]
 *
 * A feed may make two leaves at once, and nothing may show it: each node stands in the log right after its last child, so that a parent,
 * or a chain of them, may stand between the two; and the area is that of the same bits fed one by one. After each feed every word of the
 * area and of the log is compared with the model of feeding.h, which makes node after node. The model itself is compared with the second
 * program's tree of the bits so far: all nodes, with those that an end would make, and the digest.
 *
 * Pieces of up to five blocks and some bits, at every start bit, are fed where level 1 holds a bit of a block, all but one, or all, for
 * blocks at every place of a group of four and of three, and at the ends of the groups above. Whole blocks are so fed at once, and then
 * bit by bit and byte by byte. Each piece is fed with just the log words that it needs, with one fewer, with which nothing changes, and
 * with some more, of which those past the nodes stay; single bits and bytes with just enough. Now and then the stream is suspended before it. Then areas that no message in memory reaches, with
 * blocks of any index.
 */
#include "feeding.h"
#include "form.h"

enum { MOST_BLOCKS = 5, LEAVES = 72, MESSAGE_BYTES = 512 * LEAVES + 1, FAR_AREAS = 3000 };

/* the last block from which pieces are fed, which is full then, the blocks of the longest piece, and some bits */
_Static_assert(64 + 1 + MOST_BLOCKS + 1 <= LEAVES, "the message is long enough");

/* what ran: feeds that were accepted, that were refused, with a log longer than needed, and after a suspension; areas whose block has an
 * index of over 32 bits */
static uint64_t accepted, refused, longer, suspended, far_fed;

/* The message: copy s has it from bit s of its first byte on, so that one of the copies has any bit of it at any start bit. It is never
 * all ones, as equal blocks could change places unseen. */
static uint8_t copies[STARTS][MESSAGE_BYTES];

static void make_message(void)
{
    size_t i, s;

    for (i = 0; i < MESSAGE_BYTES; i++)
        copies[0][i] = (uint8_t)(next() >> 20);
    for (s = 1; s < STARTS; s++) {
        random_bytes(copies[s], MESSAGE_BYTES);
        copy_bits(copies[s], s, copies[0], 0, 8 * (MESSAGE_BYTES - 1));
    }
}

/* what a feed is given: bits of the message from one of them on, which has this start bit */
struct piece {
    uint64_t at, bits, start;
};

static struct params pick_params(uint64_t limit)
{
    static const uint64_t rounds[] = { 0, 1, 5, 12 };
    struct params p = { .key_bytes = (size_t)below(65), .d = 1 + below(512), .limit = limit, .rounds = rounds[below(4)] };

    random_bytes(p.key, sizeof p.key);
    return p;
}

/* the bits that a block of level 1 has */
static uint64_t block_bits(uint64_t limit)
{
    return limit == 0 ? 3072 : 4096;
}

/* What is lent, again and again: an area, and the ends of bytes and of words, for a piece and a log, behind which is a page that may not
 * be touched. */
static struct guarded area, piece_room, log_room;

static void lend(uint64_t limit)
{
    area = area_new(limit, pick_words(limit));
    piece_room = guarded_new(MESSAGE_BYTES, 1);
    log_room = guarded_new(8 * FED_LOG, 1);
}

static void lend_no_more(uint64_t limit)
{
    expect(area_intact(&area, limit) && guarded_intact(&piece_room) && guarded_intact(&log_room),
           "a feed wrote outside what it was lent, or to the tail of the area");
    guarded_free(&area);
    guarded_free(&piece_room);
    guarded_free(&log_room);
}

/* the area becomes that of the model, or is read from the text of that, whatever it held */
static void put_area(const uint64_t *from)
{
    static uint8_t text[MD6_TEXT_BYTES], model[MD6_TEXT_BYTES];
    size_t words = words_for(from[4]), n;

    if (below(8) > 0) {
        memcpy(area.bytes, from, 8 * words);
        return;
    }
    n = text_of(from, NEW_FORM, model);
    expect(md6_write(from, words, text, sizeof text).count == n && memcmp(text, model, n) == 0, "the text of an area before a feed");
    dirty_words(lent_words(&area), words);
    expect(md6_read(lent_words(&area), word_count(&area), text, n).number == 0, "a text read before a feed");
    suspended++;
}

/* the bytes of a piece, lent where they end at the page */
static const uint8_t *put_piece(const struct piece *piece)
{
    uint64_t shift = (piece->start - piece->at) % STARTS;
    size_t bytes = bytes_for(piece->start, piece->bits);

    return memcpy(piece_room.bytes + piece_room.length - bytes, copies[shift] + (shift + piece->at) / 8, bytes);
}

/* A feed with so many words of log: it leaves the area and the log of `to`, whose log goes on from that of `from`, or if the words are too
 * few it is refused, and the area is that of `from`. The rest of the log stays. */
static void feed_right(const struct fed *from, const struct fed *to, const struct piece *piece, size_t words)
{
    uint64_t number = words < to->words - from->words ? 8 : 0;
    const struct fed *after = number == 0 ? to : from;
    size_t made = after->words - from->words;
    uint8_t *end = log_room.bytes + log_room.length;
    uint64_t *log = (uint64_t *)(void *)end - words;
    md6_answer o;
    int good;

    put_area(from->area);
    memset(log_room.bytes, GUARD_BYTE, log_room.length);
    o = md6_feed(lent_words(&area), word_count(&area), put_piece(piece), bytes_for(piece->start, piece->bits), piece->start, piece->bits,
                 log, words);
    good = o.number == number && o.count == made / 2 && memcmp(area.bytes, after->area, 8 * words_for(from->area[4])) == 0
        && memcmp(log, after->log + from->words, 8 * made) == 0
        && guard_bytes(log_room.bytes, (uint8_t *)log) && guard_bytes((uint8_t *)(log + made), end);
    if (!good && shown())
        printf("%" PRIu64 " bits from bit %" PRIu64 " on, after %" PRIu64 ", L %" PRIu64 ", r %" PRIu64 ", log %zu: number %" PRIu64 ", count %" PRIu64 ", expected %" PRIu64 ", %zu\n",
               piece->bits, piece->start, from->area[1], from->area[4], from->area[5], words, o.number, o.count, number, made / 2);
    expect(good, "a feed against the model");
    *(number == 0 ? &accepted : &refused) += 1;
}

/* a feed with one word of log fewer than it needs, with some more, and with just enough, which the area tells */
static void feed_each_log(const struct fed *from, const struct fed *to, const struct piece *piece)
{
    size_t words = to->words - from->words;
    md6_answer told = md6_log_words(from->area, words_for(from->area[4]), piece->bits);

    expect(told.number == 0 && told.count == words, "told words against the model");
    if (words > 0)
        feed_right(from, to, piece, words - 1);
    feed_right(from, to, piece, words + 1 + (size_t)below(8));
    feed_right(from, to, piece, words);
    longer++;
}

/* The model has the second program's nodes of the message so far, first those that it has made and then those that an end would make,
 * and its digest. An end of the area, which was just fed, gives these too. */
static void end_as_second(const struct params *p, const struct fed *to)
{
    static uint64_t expected[FED_LOG + MD6_END_LOG_WORDS];
    struct ending e = ending_of(to->area, words_for(p->limit));
    uint8_t digest[64];
    size_t words = second_tree(p, copies[0], to->area[1], expected, digest);

    expect(e.number == 0 && words == to->words + e.words && memcmp(expected, to->log, 8 * to->words) == 0
               && memcmp(expected + to->words, e.log, 8 * e.words) == 0,
           "the model's nodes against the second program's tree");
    expect(memcmp(digest, e.digest, e.bytes) == 0, "the model's digest against the second program's");
    end_right(&area, &e);
}

/* the bits from one total of a message to another, at every start bit */
static void feed_each_start(const struct params *p, const struct fed *from, const struct fed *to)
{
    struct piece piece = { from->area[1], to->area[1] - from->area[1], 0 };

    for (; piece.start < STARTS; piece.start++)
        feed_each_log(from, to, &piece);
    end_as_second(p, to);
}

/* goes on with the message up to a total */
static void model_to(struct fed *fed, uint64_t total)
{
    feed_model(fed, copies[0], fed->area[1], total - fed->area[1]);
}

/* pieces of every number of blocks, a bit fewer, and one and seven more */
static void feed_blocks(const struct params *p, const struct fed *from)
{
    static struct fed to;
    uint64_t total = from->area[1], size = block_bits(p->limit), k;

    to = *from;
    for (k = 0; k <= MOST_BLOCKS; k++) {
        if (k > 0) {
            model_to(&to, total + size * k - 1);
            feed_each_start(p, from, &to);
        }
        model_to(&to, total + size * k);
        feed_each_start(p, from, &to);
        model_to(&to, total + size * k + 1);
        feed_each_start(p, from, &to);
        model_to(&to, total + size * k + 7);
        feed_each_start(p, from, &to);
    }
}

/* An open area is fed up to a total at once, and from there on by pieces of whole blocks. */
static void feed_from(uint64_t limit, uint64_t total)
{
    static struct fed none, from;
    struct params p = pick_params(limit);

    lend(limit);
    sound_area(none.area, &p, 0);
    from = none;
    model_to(&from, total);
    feed_each_start(&p, &none, &from);
    feed_blocks(&p, &from);
    lend_no_more(limit);
}

/* Level 1 holds nothing, and then a bit, all but one and all of a block: of the first 12 blocks, which end a group of four and one of
 * three together, and of those about the 48th and the 64th, after which up to three nodes are made above: with L = 3 the last of them is
 * the first sequential one, and with more the first of level 4. */
static void every_block(uint64_t limit)
{
    static const uint64_t indices[] = { 0, 1, 2, 3, 4, 5, 6, 7, 8, 9, 10, 11, 12, 45, 46, 47, 48, 61, 62, 63, 64 };
    uint64_t size = block_bits(limit);
    size_t i;

    feed_from(limit, 0);
    for (i = 0; i < sizeof indices / sizeof *indices; i++) {
        feed_from(limit, size * indices[i] + 1);
        feed_from(limit, size * indices[i] + size - 1);
        feed_from(limit, size * indices[i] + size);
    }
}

/* A message fed by pieces of so many bits. Each begins in the area that the model has after the one before, which this one was
 * compared with. */
static void feed_small(uint64_t limit, uint64_t bits, uint64_t total)
{
    static struct fed from, to;
    struct params p = pick_params(limit);

    lend(limit);
    sound_area(from.area, &p, 0);
    from.words = 0;
    to = from;
    while (to.area[1] < total) {
        struct piece piece = { to.area[1], bits, to.area[1] % STARTS };

        model_to(&to, to.area[1] + bits);
        feed_right(&from, &to, &piece, to.words - from.words);
        from = to;
    }
    end_as_second(&p, &to);
    lend_no_more(limit);
}

/* A total with which level 1 holds a bit of a block, all but one, or all: of any index, and often one at an edge of a level or a few before
 * it. It leaves room for so many bits. */
static uint64_t far_total(uint64_t size, uint64_t room)
{
    const uint64_t held[] = { 1, size - 1, size };
    uint64_t most = (UINT64_MAX - room) / size - 1, index = pick_total() / size, back = below(MOST_BLOCKS + 1);

    index -= back < index ? back : index;
    return size * (index < most ? index : most) + held[below(3)];
}

/* whole blocks and some bits to an area that no message in memory reaches, and its end */
static void feed_far(void)
{
    static struct fed from, to;
    struct params p = pick_params(pick_limit());
    struct ending e;
    uint64_t size = block_bits(p.limit), total;
    struct piece piece = { 0, size * (1 + below(MOST_BLOCKS)) + below(9), below(STARTS) };

    total = far_total(size, piece.bits);
    lend(p.limit);
    sound_area(from.area, &p, total);
    from.words = 0;
    to = from;
    feed_model(&to, copies[0], 0, piece.bits);
    feed_each_log(&from, &to, &piece);
    e = ending_of(to.area, words_for(p.limit));
    expect(e.number == 0, "the model of an area is sound");
    end_right(&area, &e);
    far_fed += total / size >> 32 != 0;
    lend_no_more(p.limit);
}

int main(int argc, char **argv)
{
    static const uint64_t limits[] = { 0, 1, 2, 3, 64 };
    uint64_t seed = begin(argc, argv);
    size_t i;

    printf("seed %" PRIu64 ": feeds of up to %d blocks, and %d areas of any total\n", seed, MOST_BLOCKS, FAR_AREAS);
    for (i = 0; i < sizeof limits / sizeof *limits; i++) {
        make_message();
        every_block(limits[i]);
        feed_small(limits[i], 1, 4096 * 13 + 1);
        feed_small(limits[i], 8, 4096 * 65 + 8);
    }
    for (i = 0; i < FAR_AREAS; i++)
        feed_far();
    printf("feeds: %" PRIu64 " accepted, %" PRIu64 " of them with a longer log than needed, %" PRIu64 " refused by 8, %" PRIu64 " after a suspension, %" PRIu64 " areas with an index of over 32 bits\n",
           accepted, longer, refused, suspended, far_fed);
    expect(far_fed > 0 && suspended > 0, "a kind of feed that never came about");
    printf("%" PRIu64 " wrong\n", bad);
    return bad != 0;
}
