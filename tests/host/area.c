/* A host in C: the calls of the archive on areas of every length (document 02, M-109).
 *
 *   area [SEED]
 *
 * The words that md6_area_words tells and MD6_AREA_WORDS_FOR gives are compared with the document's rule. Then each call is tried on
 * areas of any limit and total. One of just the words that L asks is the measure: with one word fewer, with none, with any fewer, the
 * call answers 7 and changes nothing; with more it answers the same, makes the same of the first words and of what else is lent, and
 * leaves the words past them as they were, whatever they hold. Other limits in word 4 make the area short or unsound, at any length.
 * Each area ends at a page that may not be touched, or begins after one.
 */
#include "ending.h"
#include "form.h"

enum { AREAS = 300, LOG_WORDS = 256, PIECE_BYTES = 1100, HEAD_WORDS = 16 };

/* what ran: calls on areas that were short, that had more words than L asks, that had no limit in word 4, and that had another limit
 * there, with which they were sound, or not */
static uint64_t shorter, longer, no_limit, by_word_4[2];

_Static_assert(MD6_AREA_WORDS_FOR(0) == 80 && MD6_AREA_WORDS_FOR(25) == 1680 && MD6_AREA_WORDS_FOR(26) == 1744
               && MD6_AREA_WORDS_FOR(UINT64_MAX) == 1744 && MD6_AREA_WORDS == 1744, "the figures of document 02");

static void told_right(uint64_t limit)
{
    md6_answer told = md6_area_words(limit);

    expect(told.number == (limit > 64 ? 3 : 0) && told.count == (limit > 64 ? 0 : words_for(limit)), "the told words of an area");
    expect(MD6_AREA_WORDS_FOR(limit) == words_for(limit), "the header's words of an area");
}

/* every limit, and some past them, of which some would be in the range if they were cut to 8, 16 or 32 bits, or if 1 were added */
static void all_told(void)
{
    static const uint64_t far_limits[] = { 128, 255, 256, 65536, UINT64_C(1) << 32, (UINT64_C(1) << 32) + 3, UINT64_C(1) << 63, UINT64_MAX };
    uint64_t limit;
    size_t i;

    for (limit = 0; limit <= 70; limit++)
        told_right(limit);
    for (i = 0; i < sizeof far_limits / sizeof *far_limits; i++)
        told_right(far_limits[i]);
}

/* what the calls are given */
static struct params p;
static uint8_t piece[PIECE_BYTES], text[MD6_TEXT_BYTES];
static struct span span;
static size_t text_bytes;

/* what a call left, of all that was lent but words past those that L asks */
struct outcome {
    md6_answer answer;
    uint64_t area[MD6_AREA_WORDS], log[LOG_WORDS];
    uint8_t digest[64], written[MD6_TEXT_BYTES];
};

typedef md6_answer area_call(uint64_t *area, size_t words, struct outcome *out);

static md6_answer open_call(uint64_t *area, size_t words, struct outcome *out)
{
    (void)out;
    return md6_open(area, words, p.key, p.key_bytes, p.d, p.limit, p.rounds);
}

static md6_answer read_call(uint64_t *area, size_t words, struct outcome *out)
{
    (void)out;
    return md6_read(area, words, text, text_bytes);
}

static md6_answer feed_call(uint64_t *area, size_t words, struct outcome *out)
{
    return md6_feed(area, words, piece, span.bytes, span.start, span.bits, out->log, LOG_WORDS);
}

static md6_answer end_call(uint64_t *area, size_t words, struct outcome *out)
{
    return md6_end(area, words, out->digest, sizeof out->digest, out->log, LOG_WORDS);
}

static md6_answer preview_call(uint64_t *area, size_t words, struct outcome *out)
{
    return md6_preview(area, words, out->digest, sizeof out->digest);
}

/* with the right figure of the area that is lent, by the model; one that is short, unsound or ended has none */
static md6_answer close_call(uint64_t *area, size_t words, struct outcome *out)
{
    struct ending e = ending_of(area, words);

    return md6_close(area, words, e.digest, e.bytes, out->log, LOG_WORDS);
}

static md6_answer tell_call(uint64_t *area, size_t words, struct outcome *out)
{
    (void)out;
    return md6_log_words(area, words, span.bits);
}

static md6_answer write_call(uint64_t *area, size_t words, struct outcome *out)
{
    return md6_write(area, words, out->written, sizeof out->written);
}

/* every call on an area; open and read take whatever it held, and go by a limit of their own */
static const struct call {
    const char *name;
    area_call *run;
    int takes_any;
    uint64_t ended;     /* the number that it gets from an area that has ended */
} calls[] = {
    { "md6_open", open_call, 1, 0 }, { "md6_read", read_call, 1, 0 }, { "md6_feed", feed_call, 0, 10 }, { "md6_end", end_call, 0, 10 },
    { "md6_preview", preview_call, 0, 10 }, { "md6_close", close_call, 0, 10 }, { "md6_log_words", tell_call, 0, 10 },
    { "md6_write", write_call, 0, 0 },
};
enum { CALLS = sizeof calls / sizeof *calls };

static void call_right(int good, const struct call *call, size_t words, const char *what)
{
    if (!good && shown())
        printf("%s on %zu words, L = %" PRIu64 "\n", call->name, words, p.limit);
    expect(good, what);
}

/* Runs a call on a lent area of so many words that begins as the words given, of which there are enough for L, and tells what it
 * left. The words past those are known and must stay. */
static void run_call(const struct call *call, const uint64_t *given, size_t words, struct outcome *out)
{
    struct guarded area = area_new(p.limit, words);
    size_t first = 8 * (words < words_for(p.limit) ? words : words_for(p.limit));

    memset(out, GUARD_BYTE, sizeof *out);
    memcpy(area.bytes, given, first);
    out->answer = call->run(lent_words(&area), words, out);
    memcpy(out->area, area.bytes, first);
    call_right(area_intact(&area, p.limit), call, words, "a call wrote outside the area, or past the words that L asks");
    guarded_free(&area);
}

/* a call that is refused by 7, on the words given or the first of them, and changes nothing */
static void refused_by_7(const struct call *call, const uint64_t *given, size_t words)
{
    static struct outcome out, nothing;
    size_t first = words < words_for(p.limit) ? words : words_for(p.limit);

    memset(&nothing, GUARD_BYTE, sizeof nothing);
    nothing.answer = (md6_answer){ 7, 0 };
    memcpy(nothing.area, given, 8 * first);
    run_call(call, given, words, &out);
    call_right(memcmp(&out, &nothing, sizeof out) == 0, call, words, "a call that is refused by 7");
}

/* a call on an area with fewer words than L asks: one fewer, as many as a level fewer has, none, those of the head and fewer, and any
 * others */
static void short_areas(const struct call *call, const uint64_t *given)
{
    size_t enough = words_for(p.limit), words;

    for (words = 0; words <= HEAD_WORDS; words++)
        refused_by_7(call, given, words);
    refused_by_7(call, given, enough - 64);
    refused_by_7(call, given, (size_t)below(enough));
    refused_by_7(call, given, enough - 1);
    shorter += HEAD_WORDS + 4;
}

/* a call on an area with more words than L asks leaves what it left with just enough */
static void long_areas(const struct call *call, const uint64_t *given, const struct outcome *just_enough)
{
    static struct outcome out;
    size_t enough = words_for(p.limit), i;
    size_t lengths[] = { enough + 1, enough + 64, MD6_AREA_WORDS, enough + (size_t)below(MOST_WORDS - enough + 1), MOST_WORDS };

    for (i = 0; i < sizeof lengths / sizeof *lengths; i++) {
        if (lengths[i] > MOST_WORDS)
            continue;
        run_call(call, given, lengths[i], &out);
        call_right(memcmp(&out, just_enough, sizeof out) == 0, call, lengths[i], "a call on a longer area");
        longer++;
    }
}

/* a call on an area in whose word 4 is no limit: 7, in a slice of any length, and whatever the rest of it is */
static void no_limits(const struct call *call, const uint64_t *given)
{
    const uint64_t none[] = { 65, 66, 128, 255, 256 + p.limit, (UINT64_C(1) << 32) + p.limit, UINT64_C(1) << 63, UINT64_MAX - 1, UINT64_MAX };
    static uint64_t changed[MD6_AREA_WORDS];
    size_t i;

    memcpy(changed, given, 8 * words_for(p.limit));
    for (i = 0; i < sizeof none / sizeof *none; i++) {
        changed[4] = none[i];
        refused_by_7(call, changed, pick_words(p.limit));
        refused_by_7(call, changed, MD6_AREA_WORDS);
        refused_by_7(call, changed, MOST_WORDS);
        no_limit += 3;
    }
}

/* A call on an area in whose word 4 is another limit: if that asks more words, 7 with one fewer than it asks. With all of them the
 * area is sound or not, which the model tells. */
static void one_other_limit(const struct call *call, const uint64_t *changed, uint64_t own)
{
    static struct outcome out;
    size_t words = words_for(changed[4]);
    uint64_t number = area_number(changed, words);

    if (words > words_for(own))
        refused_by_7(call, changed, words - 1);
    p.limit = changed[4];
    run_call(call, changed, pick_words(p.limit), &out);
    p.limit = own;
    call_right(out.answer.number == (number == 10 ? call->ended : number), call, words, "a call by the limit in word 4");
    by_word_4[number == 7]++;
}

static void other_limits(const struct call *call, const uint64_t *given)
{
    static uint64_t changed[MD6_AREA_WORDS];
    uint64_t limit;

    memset(changed, 0, sizeof changed);
    memcpy(changed, given, 8 * words_for(p.limit));
    for (limit = below(9); limit <= 64; limit += 1 + below(9)) {
        changed[4] = limit;
        one_other_limit(call, changed, p.limit);
    }
}

/* every length for a call on an area; the area is sound, and has ended or not */
static void one_call(const struct call *call, const uint64_t *sound)
{
    static uint64_t dirty[MD6_AREA_WORDS];
    static struct outcome just_enough;
    const uint64_t *given = call->takes_any ? dirty : sound;

    dirty_words(dirty, MD6_AREA_WORDS);
    run_call(call, given, words_for(p.limit), &just_enough);
    call_right(just_enough.answer.number == (sound[0] == 2 ? call->ended : 0), call, words_for(p.limit), "a call on just enough words");
    if (call->run == read_call)
        call_right(memcmp(just_enough.area, sound, 8 * words_for(p.limit)) == 0, call, words_for(p.limit), "the area of a text");
    short_areas(call, given);
    long_areas(call, given, &just_enough);
    if (!call->takes_any) {
        no_limits(call, given);
        other_limits(call, given);
    }
}

static void one_area(uint64_t limit)
{
    static uint64_t sound[MD6_AREA_WORDS];
    uint64_t total = pick_total();
    size_t i;

    p = (struct params){ .key_bytes = (size_t)below(65), .d = 1 + below(512), .limit = limit, .rounds = below(8) };
    random_bytes(p.key, sizeof p.key);
    random_bytes(piece, sizeof piece);
    sound_area(sound, &p, total);
    span = just(below(STARTS), below(8 * PIECE_BYTES - STARTS));
    if (span.bits > UINT64_MAX - total)
        span.bits = UINT64_MAX - total;
    if (below(4) == 0)
        ended_area(sound);
    text_bytes = text_of(sound, below(2) == 0 ? OLD_FORM : NEW_FORM, text);
    for (i = 0; i < CALLS; i++)
        one_call(&calls[i], sound);
}

int main(int argc, char **argv)
{
    uint64_t seed = begin(argc, argv), limit;
    int i;

    printf("seed %" PRIu64 ": every limit, and %d random ones, with random totals\n", seed, AREAS);
    all_told();
    for (limit = 0; limit <= 64; limit++)
        one_area(limit);
    for (i = 0; i < AREAS; i++)
        one_area(pick_limit());
    printf("calls: %" PRIu64 " on short areas, %" PRIu64 " on areas with more words than L asks\n", shorter, longer);
    printf("with another word 4: %" PRIu64 " calls with no limit there, %" PRIu64 " with one that makes the area unsound, %" PRIu64 " with one that does not\n",
           no_limit, by_word_4[1], by_word_4[0]);
    expect(by_word_4[0] > 0 && by_word_4[1] > 0, "a kind of limit that never came about");
    printf("%" PRIu64 " wrong\n", bad);
    return bad != 0;
}
