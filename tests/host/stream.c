/* A host in C: streams of the archive.
 *
 *   stream [SEED]
 *
 * The rows of document 01's "Reels by hand" are fed whole, bit by bit, and cut at every edge. Random messages, cut at random,
 * are fed and ended, and the digest is compared with md6_hash's and the joined log with the nodes of the second program's tree.
 * Their pieces are lent where they stand in the message, from the byte on in which the one before ended, or copied to any start
 * bit. Each of these feeds gets a log of just the told words, all of which it must use, and before that, if it needs any, one of
 * a word fewer, which is refused. On sound areas that no message in memory reaches the told words are compared with a count of
 * the nodes, level by level. Pieces at every start bit are fed at every reach of a block, and must do what the same bits do when
 * they are moved to the front. The edges of number 5 are tried on areas of every kind, and random calls on damaged areas:
 * whatever is refused must change nothing. An area is opened at every edge of its parameters, and streams run at those of r.
 *
 * Streams are previewed and closed between the pieces, at the end, and on all these areas, with logs and outputs of just enough, too
 * few and more, and with figures that are right, that differ in any way, and that were right before a feed. The digest and the log that
 * they must give are worked out in ending.h, which is compared with the second program's tree wherever there is a message.
 *
 * Areas have just the words that L asks, or others past them, which must stay, and stand beside a page that may not be touched.
 */
#include "ending.h"

enum { CUTTINGS = 2000, EDGE_CUTTINGS = 20, SOUND = 3000, TELLINGS = 10, ENDINGS = 20, DAMAGED = 2000 };
enum { MESSAGE_BYTES = 9000, LOG_WORDS = 4096 };

/* what ran: feeds with just the told words, those of them before which one word fewer was refused, and those that began inside
 * the byte where the one before ended; sound areas; tellings on them that were accepted and that were refused by 6; tellings on
 * damaged areas by number; edges of number 5 by number; opens by number; pieces at every reach; closes with the figure from before a
 * feed */
static uint64_t fed, fed_short, shared, sound, told_accepted, told_past, told_damaged[11];
static uint64_t edge_numbers[11], opened[11], reached, late_figures;

static struct params pick_params(void)
{
    struct params p;

    random_bytes(p.key, sizeof p.key);
    p.key_bytes = (size_t)(below(2) == 0 ? 0 : below(65));
    p.d = 1 + below(512);
    p.limit = pick_limit();
    p.rounds = below(16) == 0 ? wide_rounds() : below(3) == 0 ? below(OLD_ROUNDS + 1) : below(8);
    return p;
}

/* the told log words; the area can only be read meanwhile */
static md6_answer tell(const struct guarded *area, uint64_t bits)
{
    md6_answer o;

    let_write(area, 0);
    o = md6_log_words(lent_words(area), word_count(area), bits);
    let_write(area, 1);
    expect(o.number == 0 || o.count == 0, "a refused telling has a count");
    return o;
}

struct piece {
    const uint8_t *bytes;
    struct span span;
};

static md6_answer feed(const struct guarded *area, const struct piece *piece, uint64_t *log, size_t words)
{
    const struct span *span = &piece->span;

    return md6_feed(lent_words(area), word_count(area), piece->bytes, span->bytes, span->start, span->bits, log, words);
}

/* whether an answer is the one that a feed of this piece must get; otherwise says what differs */
static int answer_right(const struct piece *piece, md6_answer o, uint64_t number, uint64_t count)
{
    const struct span *span = &piece->span;

    if (o.number == number && o.count == count)
        return 1;
    if (shown())
        printf("a feed of %" PRIu64 " bits from bit %" PRIu64 " of %zu bytes: number %" PRIu64 ", count %" PRIu64 ", expected %" PRIu64 ", %" PRIu64 "\n",
               span->bits, span->start, span->bytes, o.number, o.count, number, count);
    return 0;
}

/* a feed, with a log of so many words, that changes nothing: it is refused by this number, or is accepted and has no bits */
static void quiet_feed(const struct guarded *area, const struct piece *piece, size_t words, uint64_t number)
{
    static uint64_t kept[MOST_WORDS], kept_log[LOG_WORDS];
    struct guarded log = guarded_new(8 * words, 1);
    md6_answer o;

    random_bytes(log.bytes, log.length);
    memcpy(kept, area->bytes, area->length);
    memcpy(kept_log, log.bytes, log.length);
    o = feed(area, piece, lent_words(&log), words);
    expect(answer_right(piece, o, number, 0), "the number of a feed");
    expect(memcmp(kept, area->bytes, area->length) == 0 && memcmp(kept_log, log.bytes, log.length) == 0 && guarded_intact(&log),
           "a feed that is refused or has no bits changed something");
    guarded_free(&log);
}

/* feeds a piece with a log of just the told words, joins them to a log that has room for `room` more, and answers how many */
static size_t feed_told(const struct guarded *area, const struct piece *piece, uint64_t *joined, size_t room)
{
    md6_answer told = tell(area, piece->span.bits), o;
    size_t words = (size_t)told.count;
    struct guarded log;

    if (told.number != 0 || words > room) {
        expect(0, "telling before a feed");
        return 0;
    }
    if (words > 0) {
        quiet_feed(area, piece, words - 1, 8);
        fed_short++;
    }
    log = guarded_new(8 * words, 1);
    o = feed(area, piece, lent_words(&log), words);
    expect(answer_right(piece, o, 0, words / 2) && words % 2 == 0 && guarded_intact(&log), "a feed with just the told words");
    memcpy(joined, log.bytes, log.length);
    guarded_free(&log);
    fed++;
    return words;
}

static uint64_t pick_length(void)
{
    static const uint64_t edges[] = { 0, 3072, 4096, 6144, 8192, 12288, 16384, 49152, 65536 };

    if (below(3) == 0)
        return below(8 * MESSAGE_BYTES - 600);
    return edges[below(9)] + (below(2) == 0 ? 0 : below(5));
}

static uint64_t pick_piece(uint64_t left)
{
    static const uint64_t sizes[] = { 1, 7, 8, 64, 1000, 3072, 4095, 4096, 4097, 20000 };
    uint64_t n = sizes[below(10)];

    n = below(2) == 0 ? n : below(n + 1);
    return n < left ? n : left;
}

/* a message: bits from a bit of its first byte on; its bytes end with the last of them, at a page that may not be touched */
struct message {
    struct guarded bytes;
    uint64_t first, bits;
};

static struct message pick_message(void)
{
    struct message m = { .first = below(2) == 0 ? 0 : below(STARTS), .bits = pick_length() };

    m.bytes = guarded_new(bytes_for(m.first, m.bits), 1);
    random_bytes(m.bytes.bytes, m.bytes.length);
    return m;
}

/* feeds so many bits, from bit `at` of the message's bytes on, where they stand: the piece begins in the byte where the one
 * before it ended, and shares it if that was inside a byte */
static size_t feed_in_place(const struct guarded *area, const struct message *m, uint64_t at, uint64_t bits, uint64_t *joined, size_t room)
{
    struct piece piece = { m->bytes.bytes + at / 8, just(at % 8, bits) };

    shared += at > m->first && at % 8 != 0;
    return feed_told(area, &piece, joined, room);
}

/* feeds the same bits out of bytes of their own, at the front or at any start bit; the bits beside them are random */
static size_t feed_copied(const struct guarded *area, const struct message *m, uint64_t at, uint64_t bits, uint64_t *joined, size_t room)
{
    uint64_t start = below(2) == 0 ? 0 : below(STARTS);
    struct guarded bytes = guarded_new(bytes_for(start, bits) + (size_t)below(2), (int)below(2));
    struct piece piece = { bytes.bytes, { bytes.length, start, bits } };
    size_t logged;

    random_bytes(bytes.bytes, bytes.length);
    copy_bits(bytes.bytes, start, m->bytes.bytes, at, bits);
    logged = feed_told(area, &piece, joined, room);
    expect(guarded_intact(&bytes), "feed wrote outside");
    guarded_free(&bytes);
    return logged;
}

/* the digest and the log of a message that was fed are md6_hash's, at its start bit, and the second program's, at the front */
static void fed_right(const struct params *p, const struct message *m, const uint8_t *digest, const uint64_t *joined, size_t logged)
{
    static uint8_t front[MESSAGE_BYTES];
    static uint64_t expected[LOG_WORDS];
    uint8_t whole[64], second[64];
    size_t words, size = (size_t)(p->d + 7) / 8;

    expect(md6_hash(m->bytes.bytes, m->bytes.length, m->first, m->bits, p->key, p->key_bytes, p->d, p->limit, p->rounds, whole, size) == 0, "hash");
    random_bytes(front, sizeof front);
    copy_bits(front, 0, m->bytes.bytes, m->first, m->bits);
    words = second_tree(p, front, m->bits, expected, second);
    expect(memcmp(digest, whole, size) == 0 && memcmp(digest, second, size) == 0, "digest");
    expect(logged == words && memcmp(joined, expected, 8 * words) == 0, "log");
}

/* Previews and closes after the first bits of a message, as the second program has their digest, and their log behind that of the feeds.
 * The stream goes on, and what its end would have come to is answered. */
static struct ending end_so_far(const struct guarded *area, const struct params *p, const struct message *m, uint64_t bits,
                                uint64_t *joined, size_t logged)
{
    struct ending e = ending_of(lent_words(area), word_count(area));
    struct message so_far = { m->bytes, m->first, bits };

    memcpy(joined + logged, e.log, 8 * e.words);
    fed_right(p, &so_far, e.digest, joined, logged + e.words);
    try_ending(area, &e);
    return e;
}

/* A close with the figure of a preview before the last feed, which is refused unless it is that of the longer message too: short digests
 * may be, and with no bits it is no longer. */
static void late_close(const struct guarded *area, const struct ending *before)
{
    struct ending e = ending_of(lent_words(area), word_count(area));
    struct guarded figure = make_figure(before, 8 * before->bytes, RIGHT);

    if (close_number(&e, &figure, MD6_END_LOG_WORDS) == 14) {
        close_right(area, &e, &figure, MD6_END_LOG_WORDS);
        late_figures++;
    }
    guarded_free(&figure);
}

/* feeds a message in pieces cut at random, and answers how many words of log that gave */
static size_t feed_cut(const struct guarded *area, const struct params *p, const struct message *m, uint64_t *joined)
{
    struct ending before;
    uint64_t at = 0, n;
    size_t logged = 0;

    for (; at < m->bits; at += n) {
        int ending = below(8) == 0;

        if (ending)
            before = end_so_far(area, p, m, at, joined, logged);
        n = pick_piece(m->bits - at);
        logged += (below(3) == 0 ? feed_copied : feed_in_place)(area, m, m->first + at, n, joined + logged,
                                                               LOG_WORDS - MD6_END_LOG_WORDS - logged);
        if (ending)
            late_close(area, &before);
    }
    return logged;
}

/* Ends a stream by an end or, as at the turn of a reel, by a preview and a close with the digest that this gave; answers the words of
 * log. */
static size_t end_or_close(const struct guarded *area, uint8_t *digest, size_t bytes, uint64_t log[MD6_END_LOG_WORDS])
{
    md6_answer o;

    if (below(2) == 0)
        o = end_area(area, digest, bytes, log);
    else {
        expect(md6_preview(lent_words(area), word_count(area), digest, bytes).number == 0, "a preview before a close");
        o = md6_close(lent_words(area), word_count(area), digest, (size_t)(lent_words(area)[3] + 7) / 8, log, MD6_END_LOG_WORDS);
    }
    expect(o.number == 0 && lent_words(area)[0] == 2, "an end or a close");
    return 2 * (size_t)o.count;
}

static void one_cutting(struct params p)
{
    static uint64_t joined[LOG_WORDS];
    struct message m = pick_message();
    struct guarded area = area_new(p.limit, pick_words(p.limit));
    uint8_t digest[64];
    size_t logged;
    md6_answer o = open_area(&area, &p);

    expect(o.number == 0 && o.count == 0, "open");
    logged = feed_cut(&area, &p, &m, joined);
    logged += end_or_close(&area, digest, (size_t)(p.d + 7) / 8, joined + logged);
    fed_right(&p, &m, digest, joined, logged);
    expect(area_intact(&area, p.limit) && guarded_intact(&m.bytes), "wrote outside the area or the message, or to the area's tail");
    guarded_free(&area);
    guarded_free(&m.bytes);
}

/* messages cut at random, at the last numbers of rounds that there were before M-108 and are now */
static void rounds_edges(void)
{
    static const uint64_t edges[] = { OLD_ROUNDS, OLD_ROUNDS + 1, MOST_ROUNDS - 1, MOST_ROUNDS };
    struct params p;
    size_t i, k;

    for (i = 0; i < sizeof edges / sizeof *edges; i++)
        for (k = 0; k < EDGE_CUTTINGS; k++) {
            p = pick_params();
            p.rounds = edges[i];
            one_cutting(p);
        }
}

/* document 02, M-109: "Open tests 1, 2, 3, 4 and then 7" */
static uint64_t open_number(size_t words, const struct params *p, size_t key_bytes)
{
    return p->d < 1 || p->d > 512 ? 1 : key_bytes > 64 ? 2 : p->limit > 64 ? 3 : p->rounds > MOST_ROUNDS ? 4
         : words < words_for(p->limit) ? 7 : 0;
}

/* an open of a dirty area of so many words: the first number that holds is given and nothing changes, or the area is as document 01
 * has it, with nothing in its levels, and the words past those that L asks stay */
static void one_open(size_t words, const struct params *p, size_t key_bytes)
{
    static uint64_t expected[MOST_WORDS];
    struct guarded area = area_new(p->limit, words), key = guarded_new(key_bytes, 1);
    uint64_t number = open_number(words, p, key_bytes);
    md6_answer o;
    size_t i;

    random_bytes(key.bytes, key.length);
    memcpy(expected, area.bytes, area.length);
    if (number == 0) {
        memset(expected, 0, 8 * words_for(p->limit));
        memcpy(expected, (uint64_t[]){ 1, 0, key_bytes, p->d, p->limit, p->rounds }, 8 * 6);
        for (i = 0; i < key_bytes; i++)
            expected[6 + i / 8] |= (uint64_t)key.bytes[i] << (56 - 8 * (i % 8));
    }
    o = md6_open(lent_words(&area), words, key.bytes, key_bytes, p->d, p->limit, p->rounds);
    if ((o.number != number || o.count != 0) && shown())
        printf("an open of %zu words, key %zu, d %" PRIu64 ", L %" PRIu64 ", r %" PRIu64 ": number %" PRIu64 ", expected %" PRIu64 "\n",
               words, key_bytes, p->d, p->limit, p->rounds, o.number, number);
    expect(o.number == number && o.count == 0, "the number of an open");
    expect(memcmp(expected, area.bytes, area.length) == 0 && guarded_intact(&area) && guarded_intact(&key), "the area after an open");
    opened[number]++;
    guarded_free(&area);
    guarded_free(&key);
}

/* opens of areas with no word, with one word fewer than L asks, with just enough, with as many as the longest, and with more */
static void open_lengths(const struct params *p, size_t key_bytes)
{
    const size_t words = words_for(p->limit), lengths[] = { 0, words - 1, words, MD6_AREA_WORDS, MOST_WORDS };
    size_t i;

    for (i = 0; i < sizeof lengths / sizeof *lengths; i++)
        one_open(lengths[i], p, key_bytes);
}

/* every edge of a parameter with every edge of the others */
static void open_edges(void)
{
    static const size_t keys[] = { 0, 1, 64, 65 };
    static const uint64_t sizes[] = { 0, 1, 512, 513 }, limits[] = { 0, 1, 25, 26, 64, 65, UINT64_MAX };
    static const uint64_t in_range[] = { 0, OLD_ROUNDS, OLD_ROUNDS + 1, MOST_ROUNDS };
    enum { RANGE = sizeof in_range / sizeof *in_range };
    size_t k, d, l, r;

    for (k = 0; k < 4; k++)
        for (d = 0; d < 4; d++)
            for (l = 0; l < sizeof limits / sizeof *limits; l++)
                for (r = 0; r < RANGE + OVER; r++) {
                    struct params p = { .d = sizes[d], .limit = limits[l], .rounds = r < RANGE ? in_range[r] : over_rounds[r - RANGE] };

                    open_lengths(&p, keys[k]);
                }
}

/* document 01, "Reels by hand": bits, L and d; the message is all ones and r = 0 */
static const struct row { uint64_t bits, limit, d; } rows[] = {
    { 0, 64, 8 }, { 4096, 64, 8 }, { 4097, 64, 8 }, { 16384, 64, 8 }, { 16384, 64, 9 },
    { 16385, 64, 8 }, { 0, 0, 8 }, { 3073, 0, 8 }, { 12288, 1, 8 }, { 12289, 1, 8 },
};

/* previews and closes of a row after so many of its bits, as the second program has their last nodes and their digest */
static void row_ending(const struct guarded *area, const struct params *p, const uint8_t *ones, uint64_t bits, size_t logged)
{
    static uint64_t expected[LOG_WORDS];
    struct ending e = ending_of(lent_words(area), word_count(area));
    uint8_t digest[64];
    size_t words = second_tree(p, ones, bits, expected, digest) - logged;

    expect(e.number == 0 && e.words == words && memcmp(e.log, expected + logged, 8 * words) == 0, "the last nodes of a row");
    expect(memcmp(e.digest, digest, e.bytes) == 0, "the digest of a row before its end");
    try_ending(area, &e);
}

/* a row fed whole, bit by bit, or cut once at a bit: its log and digest are the second program's tree's */
static void one_row(const struct row *row, uint64_t first, uint64_t step)
{
    static uint8_t ones[2100];
    static uint64_t expected[LOG_WORDS], joined[LOG_WORDS];
    struct params p = { .key_bytes = 0, .d = row->d, .limit = row->limit, .rounds = 0 };
    struct guarded area = area_new(p.limit, words_for(p.limit));
    struct piece piece = { ones, { sizeof ones, 0, 0 } };
    uint8_t digest[2], second[64];
    uint64_t at;
    size_t logged = 0, words;

    memset(ones, 0xff, sizeof ones);
    expect(open_area(&area, &p).number == 0, "open of a row");
    for (at = 0; at < row->bits; at += piece.span.bits) {
        piece.span.bits = at == 0 ? first : step;
        if (piece.span.bits > row->bits - at)
            piece.span.bits = row->bits - at;
        logged += feed_told(&area, &piece, joined + logged, LOG_WORDS - MD6_END_LOG_WORDS - logged);
        /* at every cut, and bit by bit at some of them */
        if (step != 1 || at % 64 == 0)
            row_ending(&area, &p, ones, at + piece.span.bits, logged);
    }
    row_ending(&area, &p, ones, row->bits, logged);
    words = second_tree(&p, ones, row->bits, expected, second);
    logged += end_or_close(&area, digest, sizeof digest, joined + logged);
    expect(logged == words && memcmp(joined, expected, 8 * words) == 0, "log of a row");
    expect(memcmp(digest, second, (size_t)(p.d + 7) / 8) == 0, "digest of a row");
    guarded_free(&area);
}

static void all_rows(void)
{
    static const uint64_t cuts[] = { 1, 7, 8, 9, 3071, 3072, 3073, 4095, 4096, 4097, 8191, 8192, 8193, 12287, 12288, 12289, 16383, 16384 };
    size_t i, k;

    for (i = 0; i < sizeof rows / sizeof *rows; i++) {
        one_row(&rows[i], 20000, 20000);
        one_row(&rows[i], 1, 1);
        for (k = 0; k < sizeof cuts / sizeof *cuts; k++)
            one_row(&rows[i], cuts[k], 20000);
    }
}

/* how many bits to tell log words for: some, up to the most that the total leaves, or past them */
static uint64_t pick_told(uint64_t left)
{
    switch (below(6)) {
    case 0: return below(2);
    case 1: return 4096 + below(3) - 1;
    case 2: return below(100000);
    case 3: return left - (below(2) == 0 || left < 5 ? 0 : below(5));
    case 4: return left == UINT64_MAX ? left : left + 1 + below(UINT64_MAX - left);
    default: return next() >> below(64);
    }
}

static void one_telling(const struct guarded *area, uint64_t limit, uint64_t total, uint64_t bits)
{
    md6_answer o = tell(area, bits);

    if (bits > UINT64_MAX - total) {
        expect(o.number == 6 && o.count == 0, "telling for a total past 2^64 - 1");
        told_past++;
    } else {
        expect(o.number == 0 && o.count == 2 * (made(limit, total + bits) - made(limit, total)), "telling on a sound area");
        told_accepted++;
    }
}

/* a preview and a close of whatever words; they stay */
static void end_any(const struct guarded *area)
{
    struct ending e = ending_of(lent_words(area), word_count(area));

    try_ending(area, &e);
}

/* tellings on a sound area, and then a feed of so many bits with just the told words, which are answered */
static size_t one_sound(const struct params *p, uint64_t total, uint64_t bits)
{
    static uint8_t bytes[2600];
    static uint64_t log[LOG_WORDS];
    struct guarded area = area_new(p->limit, pick_words(p->limit));
    struct piece piece = { bytes, { sizeof bytes, below(STARTS), bits } };
    size_t words;
    int i;

    random_bytes(bytes, sizeof bytes);
    sound_area(lent_words(&area), p, total);
    for (i = 0; i < TELLINGS; i++)
        one_telling(&area, p->limit, total, pick_told(UINT64_MAX - total));
    words = feed_told(&area, &piece, log, LOG_WORDS);
    expect(words == 2 * (made(p->limit, total + bits) - made(p->limit, total)), "words of a feed to a sound area");
    one_telling(&area, p->limit, total + bits, pick_told(UINT64_MAX - total - bits));
    if (below(8) == 0)
        end_any(&area);
    expect(area_intact(&area, p->limit), "wrote outside a sound area, or to its tail");
    guarded_free(&area);
    sound++;
    return words;
}

/* one bit to a sound area of 2^k and of 3 * 2^k bits, for every limit: at some of them it makes a node at each of 27 levels, and
 * nowhere more */
static void sound_edges(void)
{
    uint64_t limit, k;
    size_t most = 0, words, i;

    for (limit = 0; limit <= 64; limit++)
        for (k = 0; k < 63; k++)
            for (i = 0; i < 2; i++) {
                struct params p = pick_params();

                p.limit = limit;
                words = one_sound(&p, (UINT64_C(1) + 2 * i) << k, 1);
                most = words > most ? words : most;
            }
    expect(most == 2 * LEVELS, "the most words for a bit");
}

static void random_sound(void)
{
    struct params p = pick_params();
    uint64_t total = pick_total();

    one_sound(&p, total, pick_piece(UINT64_MAX - total));
}

/* The areas on which each edge of number 5 and every kind of preview and close is tried, with the number that comes before 5 there, or
 * 0. Level 1 of the open ones is full, so that any bit makes a node and needs a log. */
enum { FULL, LATE, ENDED, UNSOUND, SHORT, EDGE_AREAS };
static struct edge_area {
    uint64_t total, number;
    struct guarded area;
} edge_areas[EDGE_AREAS] = {
    [FULL] = { .total = 8192, .number = 0 },
    [LATE] = { .total = UINT64_MAX - 4095, .number = 0 },
    [ENDED] = { .total = 8192, .number = 10 },
    [UNSOUND] = { .total = 8192, .number = 7 },
    [SHORT] = { .total = 8192, .number = 7 },
};

static void make_edge_areas(void)
{
    struct params p = pick_params();
    struct guarded whole;
    uint8_t digest[64];
    uint64_t log[MD6_END_LOG_WORDS];
    size_t i;

    p.limit += p.limit == 0;            /* so that a block of level 1 has 4,096 bits */
    whole = area_new(p.limit, words_for(p.limit));
    for (i = 0; i < EDGE_AREAS; i++) {
        sound_area(lent_words(&whole), &p, edge_areas[i].total);
        edge_areas[i].area = copy_of(&whole, whole.length - (i == SHORT ? 8 : 0));
    }
    expect(end_area(&edge_areas[ENDED].area, digest, sizeof digest, log).number == 0, "end of a sound area");
    lent_words(&edge_areas[UNSOUND].area)[4] = 65;      /* the height limit */
    guarded_free(&whole);
}

/* a feed with just the told words, to a copy of an area */
static void feed_to_copy(const struct guarded *area, const struct piece *piece)
{
    static uint64_t log[LOG_WORDS];
    struct guarded copy = copy_of(area, area->length);

    feed_told(&copy, piece, log, LOG_WORDS);
    guarded_free(&copy);
}

/* A piece at an edge of number 5, on each of the areas, with no log: the first of 7, 10, 5, 6 and 8 that holds is given, and
 * nothing changes. If that is 8 the bits are fed, with a log; otherwise a log changes nothing, and stays. */
static void edge_feed(const struct span *span, uint64_t number)
{
    struct guarded bytes = guarded_new(span->bytes, 1);
    struct piece piece = { bytes.bytes, *span };
    size_t i;

    random_bytes(bytes.bytes, bytes.length);
    for (i = 0; i < EDGE_AREAS; i++) {
        const struct edge_area *e = &edge_areas[i];
        uint64_t last = span->bits > UINT64_MAX - e->total ? 6 : span->bits > 0 ? 8 : 0;
        uint64_t expected = e->number != 0 ? e->number : number != 0 ? number : last;

        quiet_feed(&e->area, &piece, 0, expected);
        if (expected == 8)
            feed_to_copy(&e->area, &piece);
        else
            quiet_feed(&e->area, &piece, MD6_END_LOG_WORDS, expected);
        edge_numbers[expected]++;
    }
    guarded_free(&bytes);
}

static void feed_edges(void)
{
    struct piece none = { NULL, { 0, 0, 0 } };
    size_t i;

    make_edge_areas();
    edge_spans(edge_feed);
    quiet_feed(&edge_areas[FULL].area, &none, 0, 0);
    none.span.start = 3;
    quiet_feed(&edge_areas[FULL].area, &none, 0, 5);
    for (i = 0; i < EDGE_AREAS; i++)
        guarded_free(&edge_areas[i].area);
}

/* every kind of preview and of close on each of the areas: 7, 10, and in the open ones 9 and 8, 14 */
static void ending_edges(void)
{
    size_t i;

    make_edge_areas();
    for (i = 0; i < EDGE_AREAS; i++) {
        try_every_ending(&edge_areas[i].area);
        guarded_free(&edge_areas[i].area);
    }
}

/* the same bits twice: from a start bit on, and moved to the front of bytes of their own; the bits beside them are random, and
 * both end at a page that may not be touched */
struct twins {
    struct guarded at_start, at_front;
    uint64_t start, bits;
};

enum { COUNTS = 8, REACH_LOG = 64 };

static struct twins make_twins(uint64_t start, uint64_t bits)
{
    struct twins t = { guarded_new(bytes_for(start, bits), 1), guarded_new(bytes_for(0, bits), 1), start, bits };

    random_bytes(t.at_start.bytes, t.at_start.length);
    random_bytes(t.at_front.bytes, t.at_front.length);
    copy_bits(t.at_front.bytes, 0, t.at_start.bytes, start, bits);
    return t;
}

/* an area and a log, used again and again; a feed is lent the end of the log */
struct desk {
    struct guarded area, log;
};

/* feeds a piece to a copy of an area with so many words of log, which begin as bytes that are given; the words in front of them
 * stay */
static md6_answer feed_at_desk(const struct desk *desk, const struct guarded *from, const struct piece *piece, size_t words, int byte)
{
    uint64_t *log = lent_words(&desk->log), before[REACH_LOG];
    md6_answer o;

    memcpy(desk->area.bytes, from->bytes, from->length);
    memset(log, byte, desk->log.length);
    memcpy(before, log, sizeof before);
    o = feed(&desk->area, piece, log + REACH_LOG - words, words);
    expect(memcmp(before, log, 8 * (REACH_LOG - words)) == 0, "words in front of the log changed");
    return o;
}

/* twins fed to copies of an area, each with just the told words: areas, logs and counts are the same. With a word fewer the one
 * at the start bit is refused. */
static void twins_same(const struct guarded *from, const struct twins *t, const struct desk desks[2], size_t words)
{
    struct piece at_start = { t->at_start.bytes, { t->at_start.length, t->start, t->bits } };
    struct piece at_front = { t->at_front.bytes, { t->at_front.length, 0, t->bits } };
    size_t log_at = 8 * (REACH_LOG - words);
    int same;

    if (words > 0) {
        expect(answer_right(&at_start, feed_at_desk(&desks[0], from, &at_start, words - 1, 0), 8, 0), "a twin with a word fewer than told");
        expect(memcmp(desks[0].area.bytes, from->bytes, from->length) == 0, "a twin that was refused changed something");
    }
    expect(answer_right(&at_start, feed_at_desk(&desks[0], from, &at_start, words, 0x11), 0, words / 2), "a twin at a start bit");
    expect(answer_right(&at_front, feed_at_desk(&desks[1], from, &at_front, words, 0x22), 0, words / 2), "a twin at the front");
    same = memcmp(desks[0].area.bytes, desks[1].area.bytes, from->length) == 0
        && memcmp(desks[0].log.bytes + log_at, desks[1].log.bytes + log_at, 8 * words) == 0;
    if (!same && shown())
        printf("%" PRIu64 " bits, from bit %" PRIu64 " on and at the front, after %" PRIu64 " bits\n", t->bits, t->start, lent_words(from)[1]);
    expect(same, "twins differ");
    reached++;
}

/* All twins, fed to a sound area whose level 1 holds so many bits. It is the first block, or one after other nodes: then a block
 * that holds nothing is the one before it, full. The rounds are enough for every word of a block to show in its output. */
static void one_reach(uint64_t limit, uint64_t held, const struct twins twins[STARTS * COUNTS], const struct desk desks[2])
{
    struct guarded from = area_new(limit, words_for(limit));
    struct params p = pick_params();
    size_t i;

    p.limit = limit;
    p.rounds = 12;
    sound_area(lent_words(&from), &p, held + (limit == 0 ? 3072 : 4096) * (below(2) == 0 ? 0 : below(20)));
    for (i = 0; i < STARTS * COUNTS; i++) {
        md6_answer told = md6_log_words(lent_words(&from), word_count(&from), twins[i].bits);

        expect(told.number == 0 && told.count <= REACH_LOG, "telling at a reach");
        twins_same(&from, &twins[i], desks, told.count <= REACH_LOG ? (size_t)told.count : 0);
    }
    guarded_free(&from);
}

/* every start bit with counts at the edges of a byte and of a block, at every reach of the block */
static void every_reach(uint64_t limit)
{
    static const uint64_t counts[COUNTS] = { 0, 1, 7, 8, 9, 4095, 4096, 4097 };
    struct desk desks[2];
    struct twins twins[STARTS * COUNTS];
    uint64_t held;
    size_t i;

    for (i = 0; i < 2; i++)
        desks[i] = (struct desk){ area_new(limit, words_for(limit)), guarded_new(8 * REACH_LOG, 1) };
    for (i = 0; i < STARTS * COUNTS; i++)
        twins[i] = make_twins(i % STARTS, counts[i / STARTS]);
    for (held = 0; held <= (limit == 0 ? 3072 : 4096); held++)
        one_reach(limit, held, twins, desks);
    for (i = 0; i < STARTS * COUNTS; i++) {
        guarded_free(&twins[i].at_start);
        guarded_free(&twins[i].at_front);
    }
    for (i = 0; i < 2; i++) {
        expect(guarded_intact(&desks[i].area) && guarded_intact(&desks[i].log), "wrote outside at a reach");
        guarded_free(&desks[i].area);
        guarded_free(&desks[i].log);
    }
}

/* an area of a stream that was fed and now and then has ended, of which up to three words are altered, those past the ones that L
 * asks among them; sometimes another limit stands in word 4 */
static struct guarded damaged_area(void)
{
    static uint8_t piece[2048], digest[64];
    static uint64_t log[LOG_WORDS];
    struct params p = pick_params();
    struct guarded area = area_new(p.limit, pick_words(p.limit));
    uint64_t *words = lent_words(&area), start = below(STARTS);
    size_t i, hits = (size_t)below(4);

    random_bytes(piece, sizeof piece);
    expect(open_area(&area, &p).number == 0, "open before a damage");
    feed(&area, &(struct piece){ piece, { sizeof piece, start, below(8 * sizeof piece - start) } }, log, LOG_WORDS);
    if (below(4) == 0)
        end_area(&area, digest, sizeof digest, log);
    for (i = 0; i < hits; i++) {
        size_t w = (size_t)(below(2) == 0 ? below(16) : below(word_count(&area)));
        words[w] = below(2) == 0 ? words[w] ^ UINT64_C(1) << below(64) : next();
    }
    if (below(8) == 0)
        words[4] = below(2) == 0 ? pick_limit() : next() >> below(64);
    return area;
}

/* the first words of an area, down to none; the others are gone */
static struct guarded cut_off(struct guarded *area)
{
    size_t words = word_count(area) - (size_t)(below(2) == 0 ? below(5) : below(word_count(area) + 1));
    struct guarded cut = copy_of(area, 8 * words);

    guarded_free(area);
    return cut;
}

/* a telling on whatever words refuses by 7 and 10 as a feed of no bits does, and after them by 6 */
static void told_as_fed(const struct guarded *area)
{
    uint64_t number = area_number(lent_words(area), word_count(area));
    md6_answer none = tell(area, 0), most = tell(area, UINT64_MAX);

    expect(none.number == number && none.count == 0, "telling for no bits");
    expect(most.number == (number == 0 && lent_words(area)[1] > 0 ? 6 : number), "telling for the most bits");
    quiet_feed(area, &(struct piece){ NULL, { 0, 0, 0 } }, 0, number);
    told_damaged[number]++;
}

/* a random feed, of a log of so many words */
static md6_answer random_feed(const struct guarded *area, uint64_t *log, size_t log_words)
{
    static uint8_t bytes[2048];
    struct piece piece = { bytes, { sizeof bytes, below(4) == 0 ? next() >> below(64) : below(STARTS), next() } };

    if (below(2) == 0)
        piece.span.bits = below(8 * sizeof bytes + 20);
    random_bytes(bytes, sizeof bytes);
    return feed(area, &piece, log, log_words);
}

/* a random feed, end, preview or close, of a log and an output or figure of random lengths */
static md6_answer random_call(const struct guarded *area, uint64_t *log, uint8_t digest[64])
{
    size_t log_words = (size_t)below(80), bytes = (size_t)below(65);

    switch (below(6)) {
    case 0: return md6_preview(lent_words(area), word_count(area), digest, bytes);
    case 1: return md6_close(lent_words(area), word_count(area), digest, bytes, log, log_words);
    case 2:
    case 3: return md6_end(lent_words(area), word_count(area), digest, bytes, log, log_words);
    default: return random_feed(area, log, log_words);
    }
}

/* tellings, a preview, a close and another call on an area that is damaged or short, or now and then is not: a refusal changes nothing,
 * and nothing else changes a word past those that L asks */
static void one_damage(void)
{
    static uint64_t kept[MOST_WORDS], log[LOG_WORDS], kept_log[LOG_WORDS];
    struct guarded area = damaged_area();
    uint8_t digest[64], kept_digest[64];
    uint64_t number;
    size_t at = 0, logged;
    md6_answer o;

    if (below(4) == 0)
        area = cut_off(&area);
    told_as_fed(&area);
    end_any(&area);
    random_bytes((uint8_t *)log, sizeof log);
    random_bytes(digest, sizeof digest);
    memcpy(kept, area.bytes, area.length);
    memcpy(kept_log, log, sizeof log);
    memcpy(kept_digest, digest, sizeof digest);
    number = area_number(kept, word_count(&area));
    o = random_call(&area, log, digest);
    expect(number == 0 || o.number == number, "the number that an area gives by itself");
    if (o.number == 0)
        at = words_for(kept[4]);
    logged = 2 * (size_t)o.count;
    expect(memcmp(kept + at, lent_words(&area) + at, area.length - 8 * at) == 0 && guarded_intact(&area), "words that must stay changed");
    expect(memcmp(kept_log + logged, log + logged, sizeof log - 8 * logged) == 0, "the log past the nodes changed");
    expect(o.number == 0 || (o.count == 0 && memcmp(kept_digest, digest, sizeof digest) == 0), "a refusal changed something");
    guarded_free(&area);
}

int main(int argc, char **argv)
{
    static const uint64_t limits[3] = { 0, 1, 64 };
    uint64_t seed = begin(argc, argv);
    unsigned i;

    printf("seed %" PRIu64 ": %d cuttings, %d random sound areas, %d damaged areas\n", seed, CUTTINGS, SOUND, DAMAGED);
    all_rows();
    for (i = 0; i < CUTTINGS; i++)
        one_cutting(pick_params());
    rounds_edges();
    open_edges();
    sound_edges();
    for (i = 0; i < SOUND; i++)
        random_sound();
    feed_edges();
    for (i = 0; i < ENDINGS; i++)
        ending_edges();
    for (i = 0; i < 3; i++)
        every_reach(limits[i]);
    for (i = 0; i < DAMAGED; i++)
        one_damage();
    printf("%" PRIu64 " feeds with just the told words, %" PRIu64 " of them after one word fewer was refused, %" PRIu64 " from inside a shared byte\n",
           fed, fed_short, shared);
    printf("tellings on %" PRIu64 " sound areas: %" PRIu64 " accepted, %" PRIu64 " refused by 6\n",
           sound, told_accepted, told_past);
    printf("damaged areas: %" PRIu64 " refused a telling by 7, %" PRIu64 " by 10, %" PRIu64 " accepted it\n",
           told_damaged[7], told_damaged[10], told_damaged[0]);
    printf("edges of number 5: %" PRIu64 " refused by 7, %" PRIu64 " by 10, %" PRIu64 " by 5, %" PRIu64 " by 6, %" PRIu64 " by 8, %" PRIu64 " accepted\n",
           edge_numbers[7], edge_numbers[10], edge_numbers[5], edge_numbers[6], edge_numbers[8], edge_numbers[0]);
    printf("opens: %" PRIu64 " refused by 7, %" PRIu64 " by 1, %" PRIu64 " by 2, %" PRIu64 " by 3, %" PRIu64 " by 4, %" PRIu64 " accepted\n",
           opened[7], opened[1], opened[2], opened[3], opened[4], opened[0]);
    printf("%" PRIu64 " pieces at every start bit and every reach of a block\n", reached);
    printf("previews: %" PRIu64 " refused by 7, %" PRIu64 " by 10, %" PRIu64 " by 9, %" PRIu64 " accepted\n",
           previewed[7], previewed[10], previewed[9], previewed[0]);
    printf("closes: %" PRIu64 " refused by 7, %" PRIu64 " by 10, %" PRIu64 " by 8, of which %" PRIu64 " with a wrong figure, ",
           closed[7], closed[10], closed[8], short_and_wrong);
    printf("%" PRIu64 " by 14, of which %" PRIu64 " with that from before a feed, %" PRIu64 " accepted\n", closed[14], late_figures, closed[0]);
    expect(fed_short > 0 && told_past > 0 && told_damaged[0] > 0 && told_damaged[7] > 0 && told_damaged[10] > 0,
           "a kind of telling that never came about");
    expect(shared > 0 && edge_numbers[6] > 0 && edge_numbers[8] > 0, "a kind of feed that never came about");
    expect(late_figures > 0, "a figure from before a feed, which never came about");
    endings_came();
    printf("%" PRIu64 " wrong\n", bad);
    return bad != 0;
}
