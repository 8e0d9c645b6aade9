/* A host in C: suspends streams at every edge of document 01's "Suspended text", of M-108 and of M-109, and reads damaged texts. Each
 * stream is in more words than it needs, and is suspended into just enough. A line is the case, what md6_write and then md6_read
 * answered, and whether the words read are those of the area written; the text follows. Then the same text as it was before M-108:
 * what md6_read answered, and whether the area is that one; the old text; and from that area back into as many words as at first:
 * what md6_write and md6_read answered, whether all are as at first, and the text. Of a damaged text, as it is and in the old form,
 * and of a text for too few words: what md6_read answered, and whether the area is as before. Of a write alone: what it answered,
 * and its output. tests/text/expected.py makes the expected lines.
 *
 * Whatever is lent ends at a page that may not be touched; areas that are written from and texts that are read can only be read.
 */
#include "../host/form.h"
#include "../host/rows.h"

/* the words of the areas at first, over what any L asks, and after damage the most bytes that a text has more */
enum { LENT_WORDS = 1750, LONGER = 2 * LEVEL_LINE };

/* a text, ended by a byte 0 */
struct text {
    size_t bytes;
    uint8_t at[MD6_TEXT_BYTES + LONGER + 1];
};

/* opens an area of LENT_WORDS under the key "key" and d = 8, and feeds it ones; what is wrong here is told in a line that is not expected */
static struct guarded prepared(uint64_t limit, uint64_t rounds, uint64_t bits)
{
    struct params p = { .key = "key", .key_bytes = 3, .d = 8, .limit = limit, .rounds = rounds };
    struct guarded area = filled_new(8 * LENT_WORDS);
    uint8_t ones[1537];
    uint64_t log[64];

    memset(ones, 0xff, sizeof ones);
    expect(open_area(&area, &p).number == 0, "an open");
    expect(md6_feed(lent_words(&area), LENT_WORDS, ones, sizeof ones, 0, bits, log, 64).number == 0, "a feed");
    return area;
}

/* writes an area, which can then only be read, as text; the bytes past it stay */
static md6_answer write_text(const struct guarded *area, struct text *text)
{
    struct guarded out = filled_new(MD6_TEXT_BYTES);
    md6_answer answer;

    let_write(area, 0);
    answer = md6_write(lent_words(area), word_count(area), out.bytes, out.length);
    let_write(area, 1);
    expect(still_filled(&out, (size_t)answer.count), "the bytes past a text");
    text->bytes = answer.count <= MD6_TEXT_BYTES ? (size_t)answer.count : 0;
    memset(text->at, 0, sizeof text->at);
    memcpy(text->at, out.bytes, text->bytes);
    row_free(&out);
    return answer;
}

static void print_text(const struct text *text)
{
    fwrite(text->at, 1, text->bytes, stdout);
}

/* makes the old form of a text, in which r has one byte */
static void make_old(struct text *text)
{
    if (text->bytes > 0)
        text->bytes = drop_high(text->at, text->bytes);
}

/* reads a text, and prints what was answered and whether the area is then this one */
static void print_read(const struct guarded *area, const struct text *text, const uint64_t *expected)
{
    struct guarded lent = read_only(text->at, text->bytes);

    print_answer(md6_read(lent_words(area), word_count(area), lent.bytes, lent.length));
    print_same(memcmp(area->bytes, expected, area->length) == 0);
    putchar('\n');
    row_free(&lent);
}

/* writes an area as text, and reads it into so many words of junk */
static void pass(const char *name, const struct guarded *area, size_t words, const uint64_t *expected)
{
    static struct text text;
    struct guarded other = filled_new(8 * words);

    printf("%s ", name);
    print_answer(write_text(area, &text));
    putchar(' ');
    print_read(&other, &text, expected);
    print_text(&text);
    row_free(&other);
}

/* reads the old form of an area's text into so many words of junk, and passes the stream on into LENT_WORDS */
static void suspend_old(const char *name, const struct guarded *area, size_t words)
{
    static struct text text;
    struct guarded other = filled_new(8 * words);

    write_text(area, &text);
    make_old(&text);
    printf("old %s ", name);
    print_read(&other, &text, lent_words(area));
    print_text(&text);
    pass("again", &other, LENT_WORDS, lent_words(area));
    row_free(&other);
}

/* suspends an area into just enough words, and frees it */
static void suspend(const char *name, struct guarded area)
{
    size_t words = words_for(lent_words(&area)[4]);

    pass(name, &area, words, lent_words(&area));
    suspend_old(name, &area, words);
    row_free(&area);
}

static struct guarded ended(void)
{
    struct guarded area = prepared(64, 0, 4097);
    uint8_t digest[1];
    uint64_t log[MD6_END_LOG_WORDS];

    expect(end_area(&area, digest, 1, log).number == 0, "an end");
    return area;
}

/* a held zero has a line, too */
static struct guarded zero(void)
{
    struct guarded area = prepared(64, 0, 1);

    lent_words(&area)[16] = 0;
    return area;
}

/* 2^64 - 1 zero bits: every level has a line */
static struct guarded longest(void)
{
    struct guarded area = prepared(64, 0, 0);

    lent_words(&area)[1] = UINT64_MAX;
    lent_words(&area)[14] = UINT64_C(6004799503160634);
    return area;
}

/* The last are the edges of r, in streams that have made no node: from 256 on the old form is that of another area, whose r is the low
 * byte. */
static void suspensions(void)
{
    suspend("empty", prepared(64, 0, 0));
    suspend("one", prepared(64, 0, 1));
    suspend("zero", zero());
    suspend("full", prepared(64, 0, 4096));
    suspend("later", prepared(64, 0, 4097));
    suspend("sequential", prepared(0, 0, 3073));
    suspend("joined", prepared(1, 0, 4097));
    suspend("ended", ended());
    suspend("longest", longest());
    suspend("rounds-255", prepared(64, 255, 1));
    suspend("rounds-256", prepared(64, 256, 1));
    suspend("rounds-4095", prepared(64, 4095, 1));
}

/* reads a text into so many words of junk */
static void read_into(const char *name, size_t words, const struct text *text)
{
    struct guarded area = filled_new(8 * words), before = filled_new(8 * words);

    printf("%s ", name);
    print_read(&area, text, lent_words(&before));
    row_free(&area);
    row_free(&before);
}

/* reads a text, and its old form, which it is then */
static void read_damaged(const char *name, struct text *text)
{
    read_into(name, LENT_WORDS, text);
    make_old(text);
    printf("old ");
    read_into(name, LENT_WORDS, text);
}

/* The text of a stream of so many bits. That of 4,097 has 2,230 bytes: line 1 from 0, K from 47, level 1 from 176 and level 2 from
 * 1,203. */
enum { BASE_BITS = 4097, LEVEL_1 = HEAD_LINES, LEVEL_2 = LEVEL_1 + LEVEL_LINE, BASE_BYTES = LEVEL_2 + LEVEL_LINE };

static struct text text_of_bits(uint64_t bits)
{
    struct guarded area = prepared(64, 0, bits);
    struct text text;

    write_text(&area, &text);
    row_free(&area);
    return text;
}

/* that text with so many bytes at a place replaced by others */
static void spliced(const char *name, size_t at, size_t gone, const char *by)
{
    struct text text = text_of_bits(BASE_BITS);

    text.bytes = splice(text.at, text.bytes, at, gone, by);
    read_damaged(name, &text);
}

/* that text with bytes changed */
static void changed(const char *name, size_t at, const char *to)
{
    spliced(name, at, strlen(to), to);
}

static void damaged_ends(void)
{
    spliced("nothing", 0, BASE_BYTES, "");
    spliced("undamaged", 0, 0, "");
    spliced("last-byte-missing", BASE_BYTES - 1, 1, "");
    spliced("trailing-line-feed", BASE_BYTES, 0, "\n");
    spliced("trailing-digit", BASE_BYTES, 0, "0");
    changed("carriage-return", BASE_BYTES - 1, "\r");
    changed("capital", LINE1, "6B");
    changed("space", R_AT + 2, "0 ");
}

static void damaged_heads(void)
{
    changed("phase-0", PHASE_AT, "00");
    changed("phase-2", PHASE_AT, "02");
    changed("phase-3", PHASE_AT, "03");
    changed("limit-65", L_AT, "41");
    changed("key-bytes-65", KEY_AT, "41");
    changed("key-bytes-2", KEY_AT, "02");
    changed("d-0", D_AT, "0000");
    changed("d-513", D_AT, "0201");
    changed("r-255", R_AT, "00ff");
    changed("r-256", R_AT, "0100");
    changed("r-4095", R_AT, "0fff");
    changed("r-4096", R_AT, "1000");
    changed("r-65535", R_AT, "ffff");
    changed("r-space", R_AT, " ");
    changed("r-capital", R_AT + 2, "F");
}

static void damaged_counts(void)
{
    changed("total-4096", TOTAL_AT, "0000000000001000");
    changed("total-4098", TOTAL_AT, "0000000000001002");
    changed("compressions-0", COUNT_AT, "0000000000000000");
    changed("compressions-2", COUNT_AT, "0000000000000002");
    changed("unused-key-byte", LINE1 + 6, "01");
    changed("unheld-bit", LEVEL_1 + 2, "c");
    changed("unheld-word", LEVEL_2 + 2 + 256, "1");
}

/* both levels' lines, each with the other's level */
static void levels_falling(void)
{
    struct text text = text_of_bits(BASE_BITS);

    memcpy(text.at + LEVEL_1, "02", 2);
    memcpy(text.at + LEVEL_2, "01", 2);
    read_damaged("levels-falling", &text);
}

/* the text of one bit with a line of zeros for level 2 */
static void line_of_zeros(void)
{
    struct text text = text_of_bits(1);
    const uint64_t zeros[64] = { 0 };

    text.bytes = (size_t)(spell_words(spell(text.at + text.bytes, 2, 1), zeros, 64) - text.at);
    read_damaged("zeros", &text);
}

static void damaged_levels(void)
{
    const struct text text = text_of_bits(BASE_BITS);

    spliced("level-1-left-out", LEVEL_1, LEVEL_LINE, "");
    spliced("level-2-left-out", LEVEL_2, LEVEL_LINE, "");
    spliced("level-2-twice", LEVEL_2, 0, (const char *)text.at + LEVEL_2);
    levels_falling();
    changed("level-0", LEVEL_2, "00");
    changed("level-28", LEVEL_2, "1c");
    line_of_zeros();
}

/* with one and with two bytes left out at a place, and with one and with two that stand there twice, behind a line with the place */
static void shifted(size_t at)
{
    const struct text text = text_of_bits(BASE_BITS);
    char one[2] = { (char)text.at[at] }, two[3] = { (char)text.at[at], (char)text.at[at + 1] };

    printf("at %zu\n", at);
    spliced("one-left-out", at, 1, "");
    spliced("two-left-out", at, 2, "");
    spliced("one-twice", at, 0, one);
    spliced("two-twice", at, 0, two);
}

/* mixtures of the two forms, and lines of other lengths: at each field of line 1, its end, K and its end, and each level's line */
static void shifts(void)
{
    static const size_t places[] = { 0, 2, 6, 8, 10, 14, 30, 44, 47, 173, 176, 1203, 2227 };
    size_t i;

    for (i = 0; i < sizeof places / sizeof *places; i++)
        shifted(places[i]);
}

/* what md6_write answers for the first words of an area and an output of so many bytes, and the output */
static void print_write(const char *name, const struct guarded *area, size_t words, size_t bytes)
{
    struct guarded copy = read_only(area->bytes, 8 * words), out = filled_new(bytes);

    printf("%s ", name);
    print_answer(md6_write(lent_words(&copy), words, out.bytes, bytes));
    putchar(' ');
    print_bytes(&out);
    putchar('\n');
    row_free(&copy);
    row_free(&out);
}

/* too few words: of an area, for its text, and for a damaged one; a write is refused for them before its output is found short */
static void too_few(size_t words, uint64_t limit)
{
    struct guarded area = prepared(limit, 0, 12289);
    static struct text text;

    write_text(&area, &text);
    print_write("write", &area, words, 1);
    read_into("read", words, &text);
    text.at[0] = ' ';
    read_into("read-damaged", words, &text);
    row_free(&area);
}

/* a stream into just enough words, and one fewer, for L at the edges of an area's length, which from 26 on is the same; then the first
 * level of many, not all of the words before the levels, and no level */
static void all_limits(void)
{
    static const uint64_t limits[] = { 0, 1, 2, 25, 26, 27, 64 };
    size_t i;

    for (i = 0; i < sizeof limits / sizeof *limits; i++) {
        suspend("limit", prepared(limits[i], 0, 12289));
        too_few(words_for(limits[i]) - 1, limits[i]);
    }
    too_few(80, 64);
    for (i = 0; i <= 16; i++)
        too_few(i, 0);
}

/* writes from the first words of an area in which one word was changed */
static void write_altered(size_t words, size_t at, uint64_t value)
{
    struct guarded area = prepared(0, 0, 0);

    lent_words(&area)[at] = value;
    print_write("write", &area, words, 1);
    row_free(&area);
}

/* word 4 over 64, however many words are lent; then r and word 15 */
static void unsound_writes(void)
{
    static const uint64_t limits[] = { 65, UINT64_MAX };
    size_t i;

    for (i = 0; i < 2; i++) {
        write_altered(80, 4, limits[i]);
        write_altered(MD6_AREA_WORDS, 4, limits[i]);
        write_altered(LENT_WORDS, 4, limits[i]);
    }
    write_altered(80, 5, MOST_ROUNDS + 1);
    write_altered(80, 15, 1);
}

/* outputs that are too short by one, and longer than the text */
static void outputs(void)
{
    struct guarded area = prepared(64, 0, 0);

    print_write("output-short", &area, LENT_WORDS, HEAD_LINES - 1);
    print_write("output-long", &area, LENT_WORDS, HEAD_LINES + 2);
    row_free(&area);
}

int main(void)
{
    begin_rows();
    suspensions();
    damaged_ends();
    damaged_heads();
    damaged_counts();
    damaged_levels();
    shifts();
    all_limits();
    unsound_writes();
    outputs();
    return 0;
}
