/* A host in C: suspended streams of the archive.
 *
 *   text [SEED]
 *
 * Every text that is written is compared with a model of both forms, form.h, and every text that is read or refused with what the
 * model says of it. Texts of the old form, which nothing writes any more, are made by leaving out the two digits of r's high byte.
 *
 * Areas have just the words that L asks, or others past them, which must stay, and stand beside a page that may not be touched. A
 * suspension goes from an area of any of these lengths into one of any other, so that texts of long areas are read into short ones
 * and back. A text that is good is refused by a short area, and one that is not by areas of any length.
 *
 * Suspensions at every edge, the edges of r, each damage of a text that can be named, in both forms, and mixtures of the two.
 * Random runs of 200 calls: feeds cut at random, lent where they stand in the message, from the byte on in which the one before
 * ended, or copied to any start bit; log words told, previews, refused calls, suspensions into a dirty area, by a text of either form;
 * the digest of the end, or of the preview before the close, is compared with md6_hash's and the second program's of the joined message.
 * Sound areas of any total, which no message in memory reaches, up to the longest text. Then damaged texts of both forms: whatever is
 * read must write back to itself, or to itself with r's high byte, and whatever is refused must change nothing.
 */
#include "ending.h"
#include "form.h"

enum { RUNS = 300, CALLS = 200, AREAS = 3000, DAMAGED = 100000, MESSAGE_BYTES = 100000, PIECE_BYTES = 1100, LOG_WORDS = 256 };

/* room for a text that was made longer */
enum { ROOM = MD6_TEXT_BYTES + 2 * LEVEL_LINE };

/* what ran: texts read in runs and from sound areas, and damaged ones that are texts all the same, by form; damaged ones refused */
static uint64_t read_forms[3], damaged_forms[3], damaged_refused;

/* suspensions, by whether the area that was left had more words than L asks, and twice whether the new one has */
static uint64_t moved[4];

static struct params pick_params(void)
{
    struct params p = { .key_bytes = (size_t)below(65), .d = 1 + below(512), .limit = pick_limit() };

    p.rounds = wide_rounds();
    random_bytes(p.key, sizeof p.key);
    return p;
}

/* writes an area of so many words, with room to spare, and answers the text's bytes: it is the model's text in the new form, and no
 * more */
static size_t write_right(const uint64_t *area, size_t words, uint8_t text[ROOM])
{
    static uint8_t model[MD6_TEXT_BYTES];
    size_t n = text_of(area, NEW_FORM, model), i;
    md6_answer o;

    memset(text, GUARD_BYTE, ROOM);
    o = md6_write(area, words, text, ROOM);
    expect(o.number == 0 && o.count == n && memcmp(text, model, n) == 0, "a text that is written");
    for (i = n; i < ROOM; i++)
        expect(text[i] == GUARD_BYTE, "bytes past a text");
    return n;
}

/* reads a text, which ends at a page that may not be touched, into an area */
static md6_answer read_at_page(const struct guarded *into, const uint8_t *text, size_t n)
{
    static struct guarded page;

    if (page.length == 0)
        page = guarded_new(ROOM, 1);
    memcpy(page.bytes + ROOM - n, text, n);
    return md6_read(lent_words(into), word_count(into), page.bytes + ROOM - n, n);
}

/* a text that is refused by this number, by a dirty area of so many words, and nothing changes */
static void refused_by(uint64_t number, const uint8_t *text, size_t n, size_t words, const char *what)
{
    static uint64_t kept[MOST_WORDS];
    struct guarded into = area_new(64, words);
    md6_answer o;

    memcpy(kept, into.bytes, into.length);
    o = read_at_page(&into, text, n);
    expect(o.number == number && o.count == 0 && memcmp(kept, into.bytes, into.length) == 0 && guarded_intact(&into), what);
    guarded_free(&into);
}

/* a text that no sound area writes or wrote: 11, which by M-109 comes before 7, however long the area is */
static void refused(const uint8_t *text, size_t n, const char *what)
{
    refused_by(11, text, n, below(2) == 0 ? pick_words(pick_limit()) : (size_t)below(MOST_WORDS + 1), what);
}

/* reads a text into a dirty area that is long enough: its words are then those given and the others stay, and it writes the text of
 * the new form; an area of a word fewer than L asks, or of any fewer, refuses the text */
static void read_right(const uint8_t *text, size_t n, const uint64_t *area, const char *what)
{
    static uint8_t again[ROOM];
    uint64_t limit = area[4];
    size_t words = words_for(limit);
    struct guarded into = area_new(limit, pick_words(limit));
    md6_answer o = read_at_page(&into, text, n);

    expect(o.number == 0 && o.count == 0 && memcmp(into.bytes, area, 8 * words) == 0 && area_intact(&into, limit), what);
    if (o.number == 0)
        write_right(lent_words(&into), word_count(&into), again);
    guarded_free(&into);
    refused_by(7, text, n, below(2) == 0 ? words - 1 : (size_t)below(words), "a good text and a short area");
}

/* a close that is refused: the log is long enough, and the figure has no byte */
static void refused_close(const struct guarded *area)
{
    uint64_t log[MD6_END_LOG_WORDS], number = lent_words(area)[0] == 2 ? 10 : 14;

    expect(md6_close(lent_words(area), word_count(area), NULL, 0, log, MD6_END_LOG_WORDS).number == number, "a refused close");
}

/* calls that are refused, and so may stand within a suspension */
static void refused_calls(const struct guarded *area)
{
    const uint64_t *a = lent_words(area);
    uint64_t ended = a[0] == 2, log[2];
    uint8_t byte = 0;

    expect(md6_feed(lent_words(area), word_count(area), &byte, 1, 0, 9, log, 2).number == (ended ? 10 : 5), "feed of too many bits");
    expect(md6_feed(lent_words(area), word_count(area), &byte, 1, 3, 6, log, 2).number == (ended ? 10 : 5), "feed of too many bits after the start");
    expect(md6_feed(lent_words(area), word_count(area), &byte, 1, 8, 0, log, 2).number == (ended ? 10 : 5), "feed from bit 8 on");
    if (ended || a[1] > 0)              /* otherwise it would be accepted */
        expect(md6_log_words(a, word_count(area), UINT64_MAX).number == (ended ? 10 : 6), "a refused telling");
    expect(md6_preview(a, word_count(area), &byte, 0).number == (ended ? 10 : 9), "a refused preview");
    refused_close(area);
}

/* Writes the stream and reads it into another area, sometimes by the text that it would have had before M-108; the other area takes
 * the place of the first, which may have been longer or shorter. Only refused calls stand between the two: with an accepted one, be
 * it a telling, which changes nothing, document 01 has the read begin another stream. */
static void suspend(struct guarded *area)
{
    static uint8_t text[ROOM], again[ROOM];
    const uint64_t *a = lent_words(area);
    uint64_t limit = a[4];
    size_t n = write_right(a, word_count(area), text);
    enum form form = a[5] <= OLD_ROUNDS && below(2) == 0 ? OLD_FORM : NEW_FORM;
    struct guarded other = area_new(limit, pick_words(limit));
    md6_answer r;

    expect(md6_write(a, word_count(area), again, n - 1).number == 9, "write to a short output");
    refused_calls(area);
    if (form == OLD_FORM)
        n = drop_high(text, n);
    expect(md6_read(lent_words(&other), word_count(&other), text, n - 1).number == 11, "read of a short text");
    expect(md6_read(lent_words(&other), words_for(limit) - 1, text, n).number == 7, "read into a short area");
    expect(md6_read(lent_words(&other), words_for(limit) - 1, text, n - 1).number == 11, "read of a short text into a short area");
    r = md6_read(lent_words(&other), word_count(&other), text, n);
    expect(r.number == 0 && r.count == 0, "read");
    expect(memcmp(lent_words(&other), a, 8 * words_for(limit)) == 0, "the area read back");
    expect(area_intact(area, limit) && area_intact(&other, limit), "wrote outside the areas of a suspension, or to a tail");
    read_forms[form]++;
    moved[(word_count(area) > words_for(limit)) + 2 * (word_count(&other) > words_for(limit))]++;
    guarded_free(area);
    *area = other;
}

/* a telling for so many bits and the feed of them with just the told words: both are refused by 10 once the stream has ended,
 * and otherwise the words are two for each node made. Answers whether the bits were fed. */
static int tell_and_feed(const struct guarded *area, const uint8_t *piece, struct span span, int ended)
{
    uint64_t log[LOG_WORDS];
    md6_answer told = md6_log_words(lent_words(area), word_count(area), span.bits), o;

    expect(told.number == (ended ? 10 : 0) && told.count <= LOG_WORDS, "telling before a feed");
    o = md6_feed(lent_words(area), word_count(area), piece, span.bytes, span.start, span.bits, log,
                 told.count <= LOG_WORDS ? (size_t)told.count : LOG_WORDS);
    expect(o.number == told.number && 2 * o.count == told.count, "feed with just the told words");
    return o.number == 0;
}

/* a telling with no feed after it, for so many bits that half of the totals would pass 2^64 - 1 */
static void tell_much(const struct guarded *area, uint64_t total, int ended)
{
    uint64_t over = below(2 * total + 1), bits = UINT64_MAX - over;

    expect(md6_log_words(lent_words(area), word_count(area), bits).number == (ended ? 10 : over < total ? 6 : 0), "telling for many bits");
}

/* A run: a stream, now in `area`, and its message, whose bits begin at bit `first` of the bytes; `total` of them are fed. The
 * digest is there once the stream has ended. */
struct run {
    struct params p;
    struct guarded area;
    uint8_t message[MESSAGE_BYTES], digest[64];
    uint64_t first, total;
    int ended;
};

/* feeds the message's next bits: where they stand, so that the piece may begin inside the byte where the one before ended, or
 * copied to a piece at the front or at any start bit, with random bits beside them */
static void feed_some(struct run *r)
{
    uint8_t piece[PIECE_BYTES];
    uint64_t start = below(2) == 0 ? 0 : below(STARTS), bits = below(2) == 0 ? below(8 * PIECE_BYTES - start) : below(20);
    uint64_t at = r->first + r->total;
    int fed;

    if (at + bits > 8 * MESSAGE_BYTES)
        return;
    if (below(2) == 0)
        fed = tell_and_feed(&r->area, r->message + at / 8, just(at % 8, bits), r->ended);
    else {
        random_bytes(piece, sizeof piece);
        copy_bits(piece, start, r->message, at, bits);
        fed = tell_and_feed(&r->area, piece, (struct span){ sizeof piece, start, bits }, r->ended);
    }
    r->total += fed ? bits : 0;
}

/* a preview and a close of any kind; the stream goes on */
static void preview_some(struct run *r)
{
    struct ending e = ending_of(lent_words(&r->area), word_count(&r->area));

    expect(e.number == (r->ended ? 10 : 0), "the area of a run");
    try_ending(&r->area, &e);
}

/* an end, or a preview and a close with the figure that it gave, which is the digest of the run; once the stream has ended all are
 * refused, and the digest stays */
static void end_run(struct run *r)
{
    uint64_t log[MD6_END_LOG_WORDS], *area = lent_words(&r->area), number = r->ended ? 10 : 0;
    size_t words = word_count(&r->area), bytes = (size_t)(r->p.d + 7) / 8;

    if (below(2) == 0)
        expect(md6_end(area, words, r->digest, bytes, log, MD6_END_LOG_WORDS).number == number, "end");
    else {
        expect(md6_preview(area, words, r->digest, bytes).number == number, "preview");
        expect(md6_close(area, words, r->digest, bytes, log, MD6_END_LOG_WORDS).number == number, "close");
    }
    r->ended = 1;
}

/* one call, or a suspension; an end now and then if the run is late */
static void one_call(struct run *r, int late)
{
    switch (below(10)) {
    case 0:
        suspend(&r->area);
        break;
    case 1:
        expect(md6_open(lent_words(&r->area), (size_t)below(word_count(&r->area) + 1), r->p.key, r->p.key_bytes, 0, r->p.limit, r->p.rounds).number == 1, "a refused open");
        break;
    case 2:
        if (late && below(8) == 0)
            end_run(r);
        break;
    case 3:
        tell_much(&r->area, r->total, r->ended);
        break;
    case 4:
        preview_some(r);
        break;
    default:
        feed_some(r);
    }
}

/* the digest of a run is md6_hash's, of the message where it stands, and the second program's, of its bits moved to the front */
static void run_right(const struct run *r)
{
    static uint8_t front[MESSAGE_BYTES];
    const struct params *p = &r->p;
    struct param P = second_params(p->key, p->key_bytes, p->d, p->limit, p->rounds);
    struct tree T;
    uint8_t whole[64], second[64];
    size_t size = (size_t)(p->d + 7) / 8;

    expect(md6_hash(r->message, sizeof r->message, r->first, r->total, p->key, p->key_bytes, p->d, p->limit, p->rounds, whole, size) == 0, "hash of a run");
    expect(memcmp(r->digest, whole, size) == 0, "digest of a run");
    copy_bits(front, 0, r->message, r->first, r->total);
    hash(&P, front, r->total, &T, second);
    drop(&T);
    expect(memcmp(r->digest, second, size) == 0, "digest of a run, by the second program");
}

static void one_run(void)
{
    static struct run r;
    int i;

    r.p = pick_params();
    if (below(8) > 0)
        r.p.rounds = below(6);
    r.area = area_new(r.p.limit, pick_words(r.p.limit));
    r.first = below(2) == 0 ? 0 : below(STARTS);
    r.total = 0;
    r.ended = 0;
    random_bytes(r.message, sizeof r.message);
    expect(open_area(&r.area, &r.p).number == 0, "open");
    for (i = 0; i < CALLS; i++)
        one_call(&r, i > CALLS / 2);
    if (!r.ended)
        end_run(&r);
    suspend(&r.area);
    end_run(&r);                        /* refused, and the digest stays */
    run_right(&r);
    guarded_free(&r.area);
}

/* a stream of so many bits, suspended into a dirty area, fed on to 40,000 bits, from the byte on in which it stopped, and ended:
 * the digest is the whole message's */
static void one_edge(uint64_t bits, uint64_t limit, uint64_t rounds)
{
    static uint8_t message[5000];
    struct params p = { .key_bytes = 5, .d = 256, .limit = limit, .rounds = rounds };
    struct guarded area = area_new(limit, pick_words(limit));
    uint8_t digest[32], whole[32];
    uint64_t log[MD6_END_LOG_WORDS];

    random_bytes(message, sizeof message);
    memcpy(p.key, message, p.key_bytes);
    expect(open_area(&area, &p).number == 0, "open at an edge");
    expect(tell_and_feed(&area, message, (struct span){ sizeof message, 0, bits }, 0), "feed to an edge");
    suspend(&area);
    expect(tell_and_feed(&area, message + bits / 8, just(bits % 8, 8 * sizeof message - bits), 0), "feed past an edge");
    suspend(&area);
    expect(end_area(&area, digest, sizeof digest, log).number == 0, "end past an edge");
    suspend(&area);                     /* an ended stream has a text too */
    expect(!tell_and_feed(&area, message, just(0, 1), 1), "feed after the end");
    md6_hash(message, sizeof message, 0, 8 * sizeof message, message, 5, 256, limit, rounds, whole, sizeof whole);
    expect(memcmp(digest, whole, sizeof digest) == 0, "digest past an edge");
    guarded_free(&area);
}

static void all_edges(void)
{
    static const uint64_t edges[] = { 0, 1, 4095, 4096, 4097, 12289, 16385 }, limits[] = { 0, 1, 2, 25, 26, 27, 64 };
    static const uint64_t rounds[] = { 3, OLD_ROUNDS, OLD_ROUNDS + 1, MOST_ROUNDS };
    size_t i, k, j;

    for (i = 0; i < sizeof edges / sizeof *edges; i++)
        for (k = 0; k < sizeof limits / sizeof *limits; k++)
            for (j = 0; j < sizeof rounds / sizeof *rounds; j++)
                one_edge(edges[i], limits[k], rounds[j]);
}

/* the edges of r in a text, of an open stream that holds some bits and of one that has ended: up to 4,095 it is read in the new
 * form and over that it is not, whatever digits it has; up to 255 it is read in the old form too */
static void rounds_in_texts(const uint64_t *holding)
{
    static const uint64_t in_range[] = { 0, 1, OLD_ROUNDS - 1, OLD_ROUNDS, OLD_ROUNDS + 1, 4080, MOST_ROUNDS - 1, MOST_ROUNDS };
    static const uint64_t over[] = { MOST_ROUNDS + 1, MOST_ROUNDS + 2, 0x10ff, 0x8000, 0xf000, 0xfffe, 0xffff };
    static uint64_t area[MD6_AREA_WORDS];
    static uint8_t text[ROOM];
    size_t n, i;

    memcpy(area, holding, sizeof area);
    for (i = 0; i < sizeof in_range / sizeof *in_range; i++) {
        area[5] = in_range[i];
        n = write_right(area, MD6_AREA_WORDS, text);
        read_right(text, n, area, "r in range");
        n = drop_high(text, n);
        area[5] %= 256;                 /* without its high byte it is a good old text, of another r if that was over 255 */
        read_right(text, n, area, "the old form of r modulo 256");
    }
    n = write_right(area, MD6_AREA_WORDS, text);
    for (i = 0; i < sizeof over / sizeof *over; i++) {
        spell(text + R_AT, over[i], NEW_FORM);
        refused(text, n, "r over 4,095");
    }
}

/* a damage: so many bytes of a text, from a place on, are replaced by others; places are those of the new form */
struct damage {
    size_t at, gone;
    const char *by, *what;
};

/* where a place of the new form is in the old one: what is past r stands two digits further left */
static size_t old_place(size_t at)
{
    return at > R_AT ? at - OLD_SHORTER : at;
}

static void refused_in_new(const uint8_t *good, size_t n, const struct damage *d)
{
    static uint8_t text[ROOM];

    memcpy(text, good, n);
    refused(text, splice(text, n, d->at, d->gone, d->by), d->what);
}

/* the same damage of the text's old form */
static void refused_in_old(const uint8_t *good, size_t n, const struct damage *d)
{
    static uint8_t text[ROOM];
    size_t at = old_place(d->at), gone = old_place(d->at + d->gone) - at;

    memcpy(text, good, n);
    refused(text, splice(text, drop_high(text, n), at, gone, d->by), d->what);
}

static void refused_in_both(const uint8_t *good, size_t n, const struct damage *d)
{
    refused_in_new(good, n, d);
    refused_in_old(good, n, d);
}

/* each damage that can be named of a text with two level lines: 4,100 ones at L = 64, no key, d = 256, r = 1 */
static void named_damages(const uint8_t *good, size_t n)
{
    enum { LEVEL_1 = HEAD_LINES, LEVEL_2 = HEAD_LINES + LEVEL_LINE, PAST = LEVEL_2 + LEVEL_LINE };
    static const struct damage damages[] = {
        { PHASE_AT, 2, "00", "phase 0" }, { PHASE_AT, 2, "02", "phase 2 with lines" }, { PHASE_AT, 2, "03", "phase 3" },
        { L_AT, 2, "41", "L 65" }, { KEY_AT, 2, "41", "65 key bytes" }, { D_AT, 4, "0000", "d 0" }, { D_AT, 4, "0201", "d 513" },
        { TOTAL_AT, 16, "0000000000002001", "another total" }, { COUNT_AT, 16, "0000000000000002", "wrong compressions" },
        { LINE1, 2, "01", "a key byte past the key" },
        { LEVEL_1, 2, "00", "level 0" }, { LEVEL_1, 2, "1c", "level 28" }, { LEVEL_2, 2, "01", "level 1 twice" },
        { L_AT + 1, 1, "A", "a capital in line 1" }, { LEVEL_1 + 3, 1, "F", "a capital" }, { LEVEL_1 + 4, 1, "g", "no digit" },
        { LEVEL_1 + 2 + 1023, 1, "1", "an unheld bit of level 1" }, { LEVEL_2 + 2 + 1023, 1, "1", "an unheld bit of level 2" },
        { 0, PAST, "", "no text" }, { PAST - 1, 1, "", "a missing last byte 10" }, { LEVEL_2, LEVEL_LINE, "", "a missing line" },
        { LEVEL_1, LEVEL_LINE, "", "a missing first line" }, { LEVEL_1, 2 * LEVEL_LINE, "", "no level line" },
        { LINE1, LINE2, "", "no key line" }, { 0, LINE1, "", "no line 1" }, { PAST, 0, "\n", "a byte more" },
        { LINE1 - 1, 1, "\r", "a line that ends otherwise" }, { LINE1 - 1, 1, "\r\n", "CR LF" }, { LINE1 - 1, 1, "", "lines joined" },
        { LINE1 - 1, 1, "\n\n", "an empty line" },
    };
    static uint8_t text[ROOM];
    static char line[LEVEL_LINE + 1], other[LEVEL_LINE + 1];
    struct damage lines[] = { { PAST, 0, line, "a line twice" }, { PAST, 0, other, "a line of zeros" } };
    size_t i;

    for (i = 0; i < sizeof damages / sizeof *damages; i++)
        refused_in_both(good, n, &damages[i]);
    memcpy(line, good + LEVEL_2, LEVEL_LINE);
    memset(other, '0', LEVEL_LINE);
    other[1] = '3';
    other[LEVEL_LINE - 1] = 10;
    for (i = 0; i < 2; i++)
        refused_in_both(good, n, &lines[i]);
    memcpy(other, good + LEVEL_1, LEVEL_LINE);
    memcpy(text, good, n);
    memcpy(text + LEVEL_1, line, LEVEL_LINE);
    memcpy(text + LEVEL_2, other, LEVEL_LINE);
    refused(text, n, "lines swapped");
    refused(text, drop_high(text, n), "lines swapped in the old form");
}

/* Mixtures of the two forms, of the same text. A line 1 of 44 digits in which r keeps two bytes lacks a byte of another field; one
 * of 46 in which r has one byte has a byte too many elsewhere. Other counts of digits belong to no form, and neither form allows
 * another count in a later line. */
static void mixtures(const uint8_t *good, size_t n)
{
    static const struct damage short_fields[] = {
        { PHASE_AT, 2, "", "44 digits without the phase" }, { L_AT, 2, "", "44 digits without L" },
        { KEY_AT, 2, "", "44 digits without the key bytes" }, { D_AT, 2, "", "44 digits with d in one byte" },
        { TOTAL_AT, 2, "", "44 digits with the total in seven bytes" },
        { COUNT_AT, 2, "", "44 digits with the compressions in seven bytes" }, { LINE1 - 3, 2, "", "44 digits without the last byte" },
        { R_AT, 1, "", "45 digits, r short" }, { L_AT, 1, "", "45 digits, L short" }, { LINE1 - 2, 1, "", "45 digits, none at the end" },
        { R_AT, 0, "0", "47 digits" }, { R_AT, 0, "00", "48 digits, r in three bytes" }, { R_AT, 4, "", "42 digits, no r" },
        { R_AT, 3, "", "43 digits" }, { R_AT, 4, "1000", "r 4,096" }, { R_AT, 4, "ffff", "r 65,535" },
    };
    static const struct damage later_lines[] = {
        { LINE1, 1, "", "a key line a digit short" }, { LINE1, 2, "", "a key line two digits short" },
        { LINE1, 0, "0", "a key line a digit long" }, { LINE1, 0, "00", "a key line two digits long" },
        { HEAD_LINES - 3, 2, "", "a key line without its last byte" }, { HEAD_LINES, 1, "", "a level line a digit short" },
        { HEAD_LINES, 2, "", "a level line without the level" }, { HEAD_LINES + 2, 2, "", "a level line two digits short" },
        { HEAD_LINES, 0, "0", "a level line a digit long" }, { HEAD_LINES, 0, "00", "a level line with the level in two bytes" },
        { HEAD_LINES + LEVEL_LINE - 3, 2, "", "a level line without its last byte" },
        { HEAD_LINES + LEVEL_LINE - 1, 0, "00", "a level line a byte long" },
        { HEAD_LINES + LEVEL_LINE, 1, "", "the second level line a digit short" },
        { HEAD_LINES + LEVEL_LINE, 0, "00", "the second level line two digits long" },
    };
    static const struct damage long_fields[] = {
        { PHASE_AT, 0, "00", "46 digits with the phase in two bytes" }, { KEY_AT, 0, "00", "46 digits with the key bytes in two" },
        { D_AT, 0, "00", "46 digits with d in three bytes" }, { TOTAL_AT, 0, "00", "46 digits with the total in nine bytes" },
        { COUNT_AT, 0, "00", "46 digits with the compressions in nine bytes" }, { LINE1 - 1, 0, "00", "46 digits with a byte more" },
        { R_AT, 0, "0", "45 digits, r long" }, { R_AT, 0, "10", "r 4,097" }, { R_AT, 0, "ff", "r 65,281" },
    };
    size_t i;

    for (i = 0; i < sizeof short_fields / sizeof *short_fields; i++)
        refused_in_new(good, n, &short_fields[i]);
    for (i = 0; i < sizeof long_fields / sizeof *long_fields; i++)
        refused_in_old(good, n, &long_fields[i]);
    for (i = 0; i < sizeof later_lines / sizeof *later_lines; i++)
        refused_in_both(good, n, &later_lines[i]);
}

/* Two digits more or fewer that make of a text of one form a text of the other: r has another value there, and is read so. */
static void other_rounds(const uint8_t *good, size_t n, const uint64_t *area)
{
    static uint64_t model[MD6_AREA_WORDS];
    static uint8_t text[ROOM];

    memcpy(model, area, sizeof model);
    memcpy(text, good, n);
    model[5] = 0;
    read_right(text, splice(text, n, L_AT - 2, 2, ""), model, "r 1 without its low byte is 0 in the old form");
    memcpy(text, good, n);
    model[5] = 256;
    read_right(text, splice(text, drop_high(text, n), R_AT + 2, 0, "00"), model, "r 1 and a low byte more is 256 in the new form");
    memcpy(text, good, n);
    model[5] = 0xf01;
    read_right(text, splice(text, drop_high(text, n), R_AT, 0, "0f"), model, "r 1 and a high byte more is 3,841 in the new form");
    memcpy(text, good, n);
    memcpy(text + R_AT, "0100", 4);
    model[5] = 0;
    read_right(text, drop_high(text, n), model, "r 256 without its high byte is 0 in the old form");
}

static void named_texts(void)
{
    static uint64_t area[MD6_AREA_WORDS];
    static uint8_t good[ROOM], ones[600];
    uint64_t log[LOG_WORDS];
    uint8_t digest[32];
    size_t n;

    memset(ones, 0xff, sizeof ones);
    md6_open(area, MD6_AREA_WORDS, NULL, 0, 256, 64, 1);
    expect(write_right(area, MD6_AREA_WORDS, good) == HEAD_LINES, "the text of a stream that holds nothing");
    md6_feed(area, MD6_AREA_WORDS, ones, sizeof ones, 0, 4100, log, LOG_WORDS);
    n = write_right(area, MD6_AREA_WORDS, good);
    expect(n == HEAD_LINES + 2 * LEVEL_LINE, "two level lines");
    read_right(good, n, area, "the text itself");
    named_damages(good, n);
    mixtures(good, n);
    other_rounds(good, n, area);
    rounds_in_texts(area);
    expect(md6_end(area, MD6_AREA_WORDS, digest, sizeof digest, log, LOG_WORDS).number == 0, "end");
    expect(write_right(area, MD6_AREA_WORDS, good) == HEAD_LINES, "the text of an ended stream");
    rounds_in_texts(area);
}

/* The texts of a sound area, open or ended: what is written is the model's text, into just so many bytes and not into one fewer, and
 * is read; so is the model's text of the old form, which is the new one without r's high byte. Answers the text's bytes. */
static size_t area_right(const struct guarded *area)
{
    static uint64_t lower[MD6_AREA_WORDS];
    static uint8_t text[ROOM], old[ROOM];
    const uint64_t *a = lent_words(area);
    size_t n = write_right(a, word_count(area), text), shorter = n - OLD_SHORTER;
    struct guarded just_enough = guarded_new(n, 1);

    expect(md6_write(a, word_count(area), just_enough.bytes, n).count == n && memcmp(just_enough.bytes, text, n) == 0
           && guarded_intact(&just_enough), "write to just enough bytes");
    expect(md6_write(a, word_count(area), just_enough.bytes + 1, n - 1).number == 9 && memcmp(just_enough.bytes, text, n) == 0,
           "write to a byte fewer");
    guarded_free(&just_enough);
    read_right(text, n, a, "the text of a sound area");
    memcpy(lower, a, 8 * words_for(a[4]));
    lower[5] %= 256;
    expect(text_of(lower, OLD_FORM, old) == shorter && drop_high(text, n) == shorter && memcmp(text, old, shorter) == 0,
           "the model's old form");
    read_right(old, shorter, lower, "the old text of a sound area");
    read_forms[NEW_FORM]++;
    read_forms[OLD_FORM]++;
    return n;
}

/* the texts of a sound area of that total, some of them ended; answers the bytes of the text */
static size_t one_sound(const struct params *p, uint64_t total, int ended)
{
    struct guarded area = area_new(p->limit, pick_words(p->limit));
    size_t n;

    sound_area(lent_words(&area), p, total);
    if (ended)
        ended_area(lent_words(&area));
    expect(is_sound(lent_words(&area)), "an area that the model makes is sound by it");
    n = area_right(&area);
    expect(area_intact(&area, p->limit), "wrote outside a sound area, or to its tail");
    guarded_free(&area);
    return n;
}

/* sound areas of any total and limit; the longest text is that of 27 levels which all hold something */
static void sound_areas(void)
{
    struct params p;
    int i;

    for (i = 0; i < AREAS; i++) {
        p = pick_params();
        one_sound(&p, pick_total(), below(4) == 0);
    }
    p = (struct params){ .d = 512, .limit = 64, .rounds = MOST_ROUNDS };
    expect(one_sound(&p, UINT64_MAX, 0) == MD6_TEXT_BYTES, "the longest text");
}

/* A line of zeros for the level above the last that L gives, at the end of a text of an area with that L. Before M-109 every area
 * had words for it, and held nothing there; it has no line now as then. */
static void line_above(uint64_t limit)
{
    static uint64_t area[MD6_AREA_WORDS];
    static uint8_t text[ROOM];
    struct params p = pick_params();
    size_t n;

    p.limit = limit;
    sound_area(area, &p, pick_total());
    n = write_right(area, words_for(limit), text);
    memset(spell(text + n, limit + 2, 1), '0', LEVEL_LINE - 3);
    text[n + LEVEL_LINE - 1] = 10;
    refused(text, n + LEVEL_LINE, "a line above the last level");
    n = drop_high(text, n + LEVEL_LINE);
    refused(text, n, "a line above the last level, in the old form");
}

static void lines_above(void)
{
    uint64_t limit;

    for (limit = 0; limit <= LEVELS; limit++)
        line_above(limit);
}

/* a change of line 1 that leaves it with digits alone: some more or fewer, or r at an edge */
static size_t change_line_1(uint8_t *text, size_t n, enum form form)
{
    static const char *const some[] = { "0", "00", "01", "0f", "10", "7", "a" };
    static const char *const rounds[] = { "00ff", "0100", "0fff", "1000", "ffff", "0000" };
    size_t at = (size_t)below(below(2) == 0 ? 10 : line_1(form));

    switch (below(3)) {
    case 0:
        return splice(text, n, at, 0, some[below(7)]);
    case 1:
        return splice(text, n, at, 1 + (size_t)below(2), "");
    default:
        return splice(text, n, R_AT, 2 * form, rounds[below(6)]);
    }
}

/* a change of a text: bytes, lines, its end */
static size_t damage(uint8_t *text, size_t n, enum form form)
{
    static const char wild[] = "0123456789abcdefABCDEF \n\r-gG";
    size_t k = (size_t)below(4) == 0 ? 1 + (size_t)below(3) : 1, i;

    for (i = 0; i < k; i++)
        switch (below(10)) {
        case 0:
            text[below(n)] = (uint8_t)next();
            break;
        case 1:
            n -= 1 + (size_t)below(3);
            break;
        case 2:
            text[n++] = (uint8_t)(below(2) == 0 ? 10 : '0');
            break;
        case 3:
            if (n > head_lines(form) + LEVEL_LINE)      /* one line left out */
                n = splice(text, n, head_lines(form), LEVEL_LINE, "");
            break;
        case 4:
            text[below(line_1(form) - 1)] = (uint8_t)wild[below(16)];
            break;
        case 5:
            text[below(n)] = (uint8_t)wild[below(16)];
            break;
        case 6:
        case 7:
            n = change_line_1(text, n, form);
            break;
        default:
            text[below(n)] = (uint8_t)wild[below(sizeof wild - 1)];
        }
    return n;
}

/* A damaged text is read exactly if the model has an area for it, and then into that area, if there are words enough, which writes
 * the text back: as itself, or with r's high byte if it is of the old form. M-109: "reading tests 11 and then 7". */
static void damaged_right(uint8_t *text, size_t n)
{
    static uint64_t model[MD6_AREA_WORDS];
    static uint8_t again[MD6_TEXT_BYTES];
    int form = area_of(text, n, model);
    struct guarded into;
    md6_answer o, w;

    if (form == 0) {
        refused(text, n, "a damaged text is read, or changed something");
        damaged_refused++;
        return;
    }
    if (below(4) == 0)
        refused_by(7, text, n, (size_t)below(words_for(model[4])), "a damaged text that is one, and a short area");
    into = area_new(model[4], pick_words(model[4]));
    o = read_at_page(&into, text, n);
    expect(o.number == 0 && o.count == 0 && memcmp(model, into.bytes, 8 * words_for(model[4])) == 0 && area_intact(&into, model[4]),
           "the area of a text that is one all the same");
    w = md6_write(lent_words(&into), word_count(&into), again, sizeof again);
    if (form == OLD_FORM)
        n = put_high(text, n);
    expect(w.number == 0 && w.count == n && memcmp(text, again, n) == 0, "a text that is read writes back as itself");
    damaged_forms[form]++;
    guarded_free(&into);
}

static void one_damage(void)
{
    static uint64_t area[MD6_AREA_WORDS];
    static uint8_t text[ROOM], piece[8192];
    uint64_t log[LOG_WORDS], limit = pick_limit();
    enum form form = below(2) == 0 ? OLD_FORM : NEW_FORM;
    size_t n, words = words_for(limit);

    md6_open(area, words, piece, (size_t)below(65), 1 + below(512), limit, below(3));
    md6_feed(area, words, piece, sizeof piece, 0, below(8 * sizeof piece), log, LOG_WORDS);
    if (below(2) == 0)
        area[5] = wide_rounds();        /* another stream, for which nothing is compressed */
    n = (size_t)md6_write(area, words, text, ROOM).count;
    expect(n >= HEAD_LINES && n <= MD6_TEXT_BYTES, "write before a damage");
    if (n < HEAD_LINES)
        return;
    if (form == OLD_FORM)
        n = drop_high(text, n);
    damaged_right(text, damage(text, n, form));
}

int main(int argc, char **argv)
{
    uint64_t seed = begin(argc, argv);
    int i;

    printf("seed %" PRIu64 ": %d runs of %d calls, %d sound areas, %d damaged texts\n", seed, RUNS, CALLS, AREAS, DAMAGED);
    all_edges();
    named_texts();
    for (i = 0; i < RUNS; i++)
        one_run();
    sound_areas();
    lines_above();
    for (i = 0; i < DAMAGED; i++)
        one_damage();
    printf("texts read: %" PRIu64 " of the new form, %" PRIu64 " of the old\n", read_forms[NEW_FORM], read_forms[OLD_FORM]);
    printf("damaged texts: %" PRIu64 " refused; texts all the same are %" PRIu64 " of the new form, %" PRIu64 " of the old\n",
           damaged_refused, damaged_forms[NEW_FORM], damaged_forms[OLD_FORM]);
    printf("suspensions: %" PRIu64 " from just the words that L asks into just these, %" PRIu64 " from more into these, %" PRIu64 " into more, %" PRIu64 " from more into more\n",
           moved[0], moved[1], moved[2], moved[3]);
    expect(read_forms[OLD_FORM] > 0 && damaged_refused > 0 && damaged_forms[NEW_FORM] > 0 && damaged_forms[OLD_FORM] > 0,
           "a kind of text that never came about");
    printf("%" PRIu64 " wrong\n", bad);
    return bad != 0;
}
