/* A host in C: the stack that each call of the archive takes.
 *
 *   stack [ROUNDS]
 *
 * A call runs on a stack of its own that was painted before, each word with another number; the deepest word that is no longer
 * as it was painted tells how far the call went, with its parameters and return address. What an empty call touches is taken off.
 * Only what is touched counts: a frame may be larger than what a call writes to it.
 *
 * The inputs are those that go deep: trees and chains of up to 7 levels, whole and layer by layer, feeds, ends, previews and closes that
 * make a node at each of 27, the longest text, and short areas, which may not cost more; with few rounds and with ROUNDS, which are
 * 4,095 unless they are given (255 for an archive from before M-108, which also refuses the text of the other form). md6_hash goes down the tree
 * level by level and needs more for each; what it would need for 27 levels, which no message in memory has, is worked out from that
 * and said to be.
 */
#include <ucontext.h>

#include "ending.h"
#include "form.h"

enum { STACK_WORDS = 1 << 17, MESSAGE_BYTES = 1 << 20, MEMORY_LEVELS = 7, LOG_WORDS = 1 << 13, LAYER_ROOM = 1 << 16 };

/* The most bytes of stack that each call may take, the figures of docs/C.md. Those of md6_hash are for one level; two, where leaves are
 * compressed two at a time, may take TWO_LEVELS, and each level more A_LEVEL. */
enum call {
    HASH, LAYERS, LAYER_WORDS, LAYER_LOG_WORDS, DEFAULT_ROUNDS, AREA_WORDS, OPEN, FEED, END, PREVIEW, CLOSE, TELL, WRITE, READ, CALLS
};
static const struct { const char *name; size_t most; } calls[CALLS] = {
    [HASH] = { "md6_hash", 9216 },
    [LAYERS] = { "md6_layers", 16384 },
    [LAYER_WORDS] = { "md6_layer_words", 512 },
    [LAYER_LOG_WORDS] = { "md6_layer_log_words", 512 },
    [DEFAULT_ROUNDS] = { "md6_default_rounds", 512 },
    [AREA_WORDS] = { "md6_area_words", 512 },
    [OPEN] = { "md6_open", 512 },
    [FEED] = { "md6_feed", 15360 },
    [END] = { "md6_end", 8704 },
    [PREVIEW] = { "md6_preview", 9216 },
    [CLOSE] = { "md6_close", 9216 },
    [TELL] = { "md6_log_words", 512 },
    [WRITE] = { "md6_write", 512 },
    [READ] = { "md6_read", 42496 },
};
enum { TWO_LEVELS = 23552, A_LEVEL = 1536 };

/* what is lent to the calls, and their answer */
static uint8_t message[MESSAGE_BYTES + 1], digest[64], text[MD6_TEXT_BYTES];
static uint64_t area[MD6_AREA_WORDS], kept[MD6_AREA_WORDS], log_words[LOG_WORDS], layer_words[LAYER_ROOM], start, bits;
static size_t text_bytes;
static struct params p;
static struct ending ending;
static md6_answer answer;

/* the rounds with which each input is tried */
static uint64_t rounds[2] = { 5, MOST_ROUNDS };

static void no_call(void)
{
}

static void hash_call(void)
{
    answer.number = md6_hash(message, sizeof message, start, bits, p.key, p.key_bytes, p.d, p.limit, p.rounds, digest, sizeof digest);
}

static void layers_call(void)
{
    answer = md6_layers(message, sizeof message, start, bits, p.key, p.key_bytes, p.d, p.limit, p.rounds, layer_words, LAYER_ROOM, log_words, LOG_WORDS, digest, sizeof digest);
}

static void layer_words_call(void)
{
    answer = md6_layer_words(bits, p.limit);
}

static void layer_log_words_call(void)
{
    answer = md6_layer_log_words(bits, p.limit);
}

static void default_rounds_call(void)
{
    answer = md6_default_rounds(p.d, p.key_bytes);
}

static void area_words_call(void)
{
    answer = md6_area_words(p.limit);
}

/* an area is lent with just the words that L asks */
static void open_call(void)
{
    answer = md6_open(area, words_for(p.limit), p.key, p.key_bytes, p.d, p.limit, p.rounds);
}

static void feed_call(void)
{
    answer = md6_feed(area, words_for(p.limit), message, sizeof message, start, bits, log_words, LOG_WORDS);
}

static void end_call(void)
{
    answer = md6_end(area, words_for(p.limit), digest, sizeof digest, log_words, LOG_WORDS);
}

static void preview_call(void)
{
    answer = md6_preview(area, words_for(p.limit), digest, sizeof digest);
}

static void close_call(void)
{
    answer = md6_close(area, words_for(p.limit), ending.digest, ending.bytes, log_words, LOG_WORDS);
}

/* a figure of the right length that differs */
static void other_close_call(void)
{
    answer = md6_close(area, words_for(p.limit), message, ending.bytes, log_words, LOG_WORDS);
}

static void tell_call(void)
{
    answer = md6_log_words(area, words_for(p.limit), bits);
}

static void write_call(void)
{
    answer = md6_write(area, words_for(p.limit), text, sizeof text);
}

static void read_call(void)
{
    answer = md6_read(area, words_for(p.limit), text, text_bytes);
}

static uint64_t stack[STACK_WORDS];

static uint64_t paint(size_t i)
{
    return (i + 1) * UINT64_C(0x9e3779b97f4a7c15);
}

/* the bytes that a call touches of a painted stack */
static size_t touched(void (*call)(void))
{
    ucontext_t here, there;
    size_t i;

    for (i = 0; i < STACK_WORDS; i++)
        stack[i] = paint(i);
    expect(getcontext(&there) == 0, "a context");
    there.uc_stack.ss_sp = stack;
    there.uc_stack.ss_size = sizeof stack;
    there.uc_link = &here;
    makecontext(&there, call, 0);
    expect(swapcontext(&here, &there) == 0, "a call on its own stack");
    for (i = 0; i < STACK_WORDS && stack[i] == paint(i); i++)
        ;
    expect(i > STACK_WORDS / 2, "a stack that is long enough");
    return 8 * (STACK_WORDS - i);
}

/* The bytes that a call takes of the stack, on the area that is kept. It runs twice: the first time the names of the C library may
 * still have to be looked up, which takes stack of its own. */
static size_t taken(void (*call)(void))
{
    size_t empty, bytes;

    touched(no_call);
    empty = touched(no_call);
    memcpy(area, kept, sizeof area);
    touched(call);
    memcpy(area, kept, sizeof area);
    bytes = touched(call);
    return bytes > empty ? bytes - empty : 0;
}

/* what a call takes with few rounds and with the most, each of which gives another figure for a close; the larger of the two is
 * answered */
static size_t taken_by_rounds(void (*call)(void), uint64_t number, size_t bytes[2])
{
    int i;

    for (i = 0; i < 2; i++) {
        p.rounds = kept[5] = rounds[i];
        ending = ending_of(kept, words_for(p.limit));
        bytes[i] = taken(call);
        expect(answer.number == number, "the number of a call on its own stack");
    }
    return bytes[0] > bytes[1] ? bytes[0] : bytes[1];
}

static void show_row(enum call call, const char *input, const size_t bytes[2], size_t most)
{
    printf("%-20s%-44s%9zu%9zu%9zu\n", calls[call].name, input, bytes[0], bytes[1], most);
    expect(bytes[0] <= most && bytes[1] <= most, "a call takes more of the stack than it may");
}

/* a call that gets this number */
static void measure(enum call call, void (*run)(void), const char *input, uint64_t number)
{
    size_t bytes[2];

    taken_by_rounds(run, number, bytes);
    show_row(call, input, bytes, calls[call].most);
}

/* the most that md6_hash may take for a tree of so many levels */
static size_t most_hash(unsigned levels)
{
    return levels == 1 ? calls[HASH].most : TWO_LEVELS + (levels - 2) * A_LEVEL;
}

/* what md6_hash takes for a tree of so many levels, from bit 3 on */
static size_t measure_hash(unsigned levels)
{
    size_t bytes[2], larger;
    char input[64];

    start = 3;
    larger = taken_by_rounds(hash_call, 0, bytes);
    snprintf(input, sizeof input, "%" PRIu64 " bits, L = %" PRIu64 ", %u level%s", bits, p.limit, levels, levels == 1 ? "" : "s");
    show_row(HASH, input, bytes, most_hash(levels));
    return larger;
}

/* The smallest messages of 1 to 7 levels, of which none is sequential, and 1 MB with the last of some levels sequential. The largest
 * step from a number of levels to the next, from two on, is what a level takes. */
static void hashes(void)
{
    size_t bytes, before = 0, step = 0, most = 0;
    unsigned levels;

    p.limit = 64;
    for (levels = 1; levels <= MEMORY_LEVELS; levels++, before = bytes) {
        bits = levels == 1 ? 4096 : (UINT64_C(1) << (8 + 2 * levels)) + 1;
        bytes = measure_hash(levels);
        if (levels > 2 && bytes - before > step)
            step = bytes - before;
        most = bytes > most ? bytes : most;
    }
    bits = 8 * (uint64_t)MESSAGE_BYTES;
    for (p.limit = 0; p.limit < MEMORY_LEVELS; p.limit += p.limit < 2 ? 1 : 2) {
        bytes = measure_hash((unsigned)p.limit + 1);
        most = bytes > most ? bytes : most;
    }
    printf("%-64s%9s%9zu%9d\n", "md6_hash, for each level more", "", step, A_LEVEL);
    printf("%-64s%9s%9zu%9zu\n", "md6_hash, 27 levels, computed from these", "", most + (LEVELS - MEMORY_LEVELS) * step,
           most_hash(LEVELS));
    expect(step <= A_LEVEL, "a level of md6_hash takes more of the stack than it may");
}

/* layer by layer: one node, a chain, 1 MB with the last level sequential and with 7 levels, none of which is; then what is told for
 * the longest message */
static void layers(void)
{
    start = 3;
    p.limit = 64;
    bits = 4096;
    measure(LAYERS, layers_call, "4,096 bits, L = 64, 1 level", 0);
    bits = 8 * (uint64_t)MESSAGE_BYTES;
    measure(LAYERS, layers_call, "1 MB, L = 64, 7 levels", 0);
    p.limit = 0;
    measure(LAYERS, layers_call, "1 MB, L = 0", 0);
    p.limit = 2;
    measure(LAYERS, layers_call, "1 MB, L = 2, 3 levels", 0);
    bits = 8 * sizeof message;
    measure(LAYERS, layers_call, "more bits than there are", 5);
    p.limit = 64;
    bits = UINT64_MAX;
    measure(LAYER_WORDS, layer_words_call, "the longest message", 0);
    measure(LAYER_LOG_WORDS, layer_log_words_call, "the longest message", 0);
}

/* feeds: a bit that makes a node at each level that can have one, and a long piece */
static void feeds(void)
{
    p.limit = 64;
    sound_area(kept, &p, UINT64_C(1) << 62);
    start = 7;
    bits = 1;
    measure(FEED, feed_call, "a bit that makes 26 nodes", 0);
    p.limit = 26;
    sound_area(kept, &p, UINT64_C(3) << 62);
    measure(FEED, feed_call, "a bit that makes 27 nodes, one sequential", 0);
    bits = 300001;
    measure(FEED, feed_call, "300,001 bits to the same area", 0);
    p.limit = 0;
    sound_area(kept, &p, 5000);
    measure(FEED, feed_call, "300,001 bits, L = 0", 0);
    bits = 8 * sizeof message;
    measure(FEED, feed_call, "more bits than there are", 5);
}

/* every call that makes the last nodes */
static void end_calls(const char *input)
{
    measure(END, end_call, input, 0);
    measure(PREVIEW, preview_call, input, 0);
    measure(CLOSE, close_call, input, 0);
}

/* ends, previews and closes of a chain, of no message, and with a node at each of 27 levels */
static void ends(void)
{
    p.limit = 0;
    sound_area(kept, &p, 5000);
    end_calls("L = 0");
    p.limit = 64;
    sound_area(kept, &p, 0);
    end_calls("nothing was fed");
    sound_area(kept, &p, UINT64_MAX);
    end_calls("27 levels");
    p.limit = 26;
    sound_area(kept, &p, UINT64_MAX);
    end_calls("27 levels, the last one sequential");
    measure(CLOSE, other_close_call, "another figure", 14);
}

/* the text of the area that is kept, in the new form */
static void take_text(void)
{
    memcpy(area, kept, sizeof area);
    write_call();
    text_bytes = (size_t)answer.count;
}

/* the calls that compress nothing, on an area of 80 words: it holds some bits, or is a word short, or stands for a longer one */
static void short_areas(void)
{
    p.limit = 0;
    measure(AREA_WORDS, area_words_call, "L = 0", 0);
    measure(OPEN, open_call, "a key of 64 bytes, L = 0", 0);
    sound_area(kept, &p, 5000);
    bits = 300001;
    measure(TELL, tell_call, "L = 0", 0);
    measure(WRITE, write_call, "L = 0", 0);
    take_text();
    measure(READ, read_call, "L = 0", 0);
    kept[4] = 1;
    measure(FEED, feed_call, "L = 1 in 80 words", 7);
    measure(END, end_call, "L = 1 in 80 words", 7);
    measure(PREVIEW, preview_call, "L = 1 in 80 words", 7);
    measure(CLOSE, close_call, "L = 1 in 80 words", 7);
    measure(WRITE, write_call, "L = 1 in 80 words", 7);
    spell(text + L_AT, 1, 1);
    measure(READ, read_call, "a text of L = 0 with L = 1 in it", 11);
}

/* the other calls, which compress nothing; the area is that of the longest text */
static void others(void)
{
    measure(DEFAULT_ROUNDS, default_rounds_call, "a key", 0);
    p.limit = 64;
    measure(AREA_WORDS, area_words_call, "L = 64", 0);
    measure(OPEN, open_call, "a key of 64 bytes", 0);
    sound_area(kept, &p, UINT64_MAX);
    bits = 0;
    measure(TELL, tell_call, "27 levels, no bits", 0);
    bits = UINT64_MAX;
    measure(TELL, tell_call, "27 levels, too many bits", 6);
    measure(WRITE, write_call, "the longest text", 0);
    take_text();
    measure(READ, read_call, "the longest text", 0);
    p.limit = 0;
    measure(READ, read_call, "the longest text into 80 words", 7);
    p.limit = 64;
    text[text_bytes - 2] ^= 1;          /* a bit of level 27 that is not held */
    measure(READ, read_call, "the longest text with a wrong last digit", 11);
    kept[5] = OLD_ROUNDS;
    take_text();
    text_bytes = drop_high(text, text_bytes);
    measure(READ, read_call, "the longest text in the old form", 0);
}

int main(int argc, char **argv)
{
    if (argc > 1)
        rounds[1] = strtoull(argv[1], NULL, 0);
    random_bytes(message, sizeof message);
    p = (struct params){ .key_bytes = 64, .d = 512, .rounds = rounds[0] };
    random_bytes(p.key, sizeof p.key);
    printf("%-64s%5s%4" PRIu64 "%5s%4" PRIu64 "%9s\n", "bytes of stack", "r =", rounds[0], "r =", rounds[1], "at most");
    hashes();
    layers();
    feeds();
    ends();
    others();
    short_areas();
    printf("%" PRIu64 " wrong\n", bad);
    return bad != 0;
}
