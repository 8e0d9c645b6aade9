/* A host in C: md6_hash on the rows of document 01's "Reels by hand", on the edges of each parameter, on the messages of the report's
 * Appendix C, with rounds about each edge and on bits from every start bit on. A line is the number and the output, which held a5 in
 * every byte before the call. Then the default rounds of every digest size, a line a size. tests/hash/expected.py makes the expected
 * lines with the second program and from document 02.
 *
 * Whatever is lent ends at a page that may not be touched; messages and keys can only be read.
 */
#include "../host/rows.h"

/* the messages: ones; the bytes 11 22 33 44 55 66 77, repeated, as a whole and from 55 on, in which each bit differs from the next;
 * three letters; nothing. And the longest key and a byte more, and the report's */
static uint8_t ones[2049], repeated[800], key[65];
static const uint8_t *const abc = (const uint8_t *)"abc", *const report_key = (const uint8_t *)"abcde12345";

static void make_inputs(void)
{
    size_t i;

    memset(ones, 0xff, sizeof ones);
    memset(key, 'k', sizeof key);
    for (i = 0; i < sizeof repeated; i++)
        repeated[i] = (uint8_t)(17 * (i % 7 + 1));
}

/* bits of a message, from a start bit of its first byte on */
struct bits {
    const uint8_t *bytes;
    size_t length;
    uint64_t start, count;
};

struct key {
    const uint8_t *bytes;
    size_t length;
};

static const struct key no_key = { NULL, 0 };

static struct bits of_ones(uint64_t count)
{
    return (struct bits){ ones, sizeof ones, 0, count };
}

static struct bits of_abc(uint64_t start, uint64_t count)
{
    return (struct bits){ abc, 3, start, count };
}

static struct key of_key(size_t length)
{
    return (struct key){ key, length };
}

/* what md6_hash answers with an output of so many bytes, and the output */
static void show(struct bits bits, struct key key, uint64_t d, uint64_t limit, uint64_t rounds, size_t room)
{
    struct guarded message = read_only(bits.bytes, bits.length), under = read_only(key.bytes, key.length), out = filled_new(room);
    uint64_t number = md6_hash(message.bytes, message.length, bits.start, bits.count, under.bytes, under.length, d, limit, rounds,
                               out.bytes, out.length);

    printf("%" PRIu64 " ", number);
    print_bytes(&out);
    putchar('\n');
    row_free(&message);
    row_free(&under);
    row_free(&out);
}

/* rows of "Reels by hand": messages of ones, r = 0 and no key */
static void reels(void)
{
    static const struct { uint64_t bits, limit, d; } rows[] = {
        { 0, 64, 8 }, { 4096, 64, 8 }, { 4097, 64, 8 }, { 16384, 64, 8 }, { 16384, 64, 9 }, { 16385, 64, 8 },
        { 0, 0, 8 }, { 3073, 0, 8 }, { 12288, 1, 8 }, { 12289, 1, 8 },
    };
    size_t i;

    for (i = 0; i < sizeof rows / sizeof *rows; i++)
        show(of_ones(rows[i].bits), no_key, rows[i].d, rows[i].limit, 0, (size_t)(rows[i].d + 7) / 8);
}

/* the edges of d, the key, L and r, a bit count over 8 times the bytes, an output that is too short, and one that is longer; then calls
 * that are refused more than once */
static void edges(void)
{
    static const struct { uint64_t bits; size_t key_bytes; uint64_t d, limit, rounds; size_t room; } rows[] = {
        { 24, 0, 0, 64, 5, 1 }, { 24, 0, 1, 64, 5, 1 }, { 24, 0, 512, 64, 5, 64 }, { 24, 0, 513, 64, 5, 66 },
        { 24, 0, (UINT64_C(1) << 32) + 8, 64, 5, 1 },
        { 24, 64, 8, 64, 5, 1 }, { 24, 65, 8, 64, 5, 1 }, { 24, 0, 8, 64, 5, 1 }, { 24, 0, 8, 65, 5, 1 },
        { 24, 0, 8, 64, 255, 1 }, { 24, 0, 8, 64, 256, 1 }, { 24, 0, 8, 64, 4095, 1 }, { 24, 0, 8, 64, 4096, 1 },
        { 25, 0, 0, 65, 4096, 0 }, { UINT64_MAX, 0, 8, 64, 5, 1 }, { 23, 0, 9, 64, 5, 1 }, { 23, 0, 9, 64, 5, 3 },
        { 24, 65, 0, 65, 4096, 0 }, { 24, 65, 8, 65, 4096, 0 }, { 24, 0, 8, 65, 4096, 0 }, { 24, 0, 8, 64, 4096, 0 },
    };
    size_t i;

    for (i = 0; i < sizeof rows / sizeof *rows; i++)
        show(of_abc(0, rows[i].bits), of_key(rows[i].key_bytes), rows[i].d, rows[i].limit, rows[i].rounds, rows[i].room);
}

/* A message of two blocks, under a key: with rounds about 255, the most before M-108, about the ends of parts of the table of constants,
 * which have 273 each, and about 4,095, the most; then 2^12 + 5, 2^16 + 5 and 2^32 + 5, which are 5 where their high bits are lost, and
 * 2^64 - 1. */
static void each_rounds(void)
{
    static const uint64_t rounds[] = {
        254, 255, 256, 273, 274, 546, 547, 3822, 3823, 4094, 4095, 4096,
        4096 + 5, 65536 + 5, (UINT64_C(1) << 32) + 5, UINT64_MAX,
    };
    const struct key three = { (const uint8_t *)"key", 3 };
    size_t i;

    for (i = 0; i < sizeof rounds / sizeof *rounds; i++)
        show(of_ones(4097), three, 512, 64, rounds[i], 64);
}

/* the report's C.1, C.2 and C.3 */
static void report(void)
{
    const struct key ten = { report_key, 10 };

    show(of_abc(0, 24), no_key, 256, 64, 5, 32);
    show((struct bits){ repeated, 600, 0, 4800 }, ten, 224, 64, 5, 28);
    show((struct bits){ repeated, 800, 0, 6400 }, ten, 256, 0, 5, 32);
}

/* with no key, d = 64 and r = 9: enough rounds for each bit to show in the digest */
static void show_bits(struct bits bits, uint64_t limit)
{
    show(bits, no_key, 64, limit, 9, 8);
}

/* counts at the edges of a byte and of the first block from every start bit on */
static void starts(void)
{
    static const uint64_t limits[] = { 64, 1, 0 }, counts[] = { 0, 1, 7, 8, 9, 4095, 4096, 4097 }, sequential[] = { 0, 3071, 3072, 3073 };
    size_t i, k;
    uint64_t start;

    for (i = 0; i < 3; i++)
        for (start = 0; start < 8; start++)
            for (k = 0; k < (limits[i] == 0 ? 4 : 8); k++)
                show_bits((struct bits){ repeated + 4, sizeof repeated - 4, start, limits[i] == 0 ? sequential[k] : counts[k] },
                          limits[i]);
}

/* from every start bit on: nothing of no bytes, all bits that three bytes then have, and one more */
static void last_bits(void)
{
    uint64_t start;

    for (start = 0; start < 8; start++) {
        show_bits((struct bits){ NULL, 0, start, 0 }, 64);
        show_bits(of_abc(start, 24 - start), 64);
        show_bits(of_abc(start, 25 - start), 64);
    }
}

/* Of three bytes: start bits above 7, and counts whose sum with the start bit passes 2^64 - 1 or comes near it. Then parameters that
 * are refused as well, behind the bits. */
static void refused_starts(void)
{
    static const struct { uint64_t start, count; } rows[] = {
        { 8, 0 }, { 8, 8 }, { UINT64_C(1) << 32, 8 }, { UINT64_MAX, 0 }, { UINT64_MAX, 1 }, { UINT64_MAX, UINT64_MAX },
        { 1, UINT64_MAX }, { 7, UINT64_MAX }, { 7, UINT64_MAX - 6 }, { 7, UINT64_MAX - 7 },
    };
    size_t i;

    for (i = 0; i < sizeof rows / sizeof *rows; i++)
        show_bits(of_abc(rows[i].start, rows[i].count), 64);
    show(of_abc(8, 8), no_key, 0, 65, 4096, 8);
    show(of_abc(7, 18), no_key, 0, 65, 4096, 8);
    show(of_abc(7, 17), no_key, 0, 65, 4096, 8);
}

/* the default rounds of a digest size without a key, and with keys about the edges of their length, in one line */
static void default_rounds(uint64_t d)
{
    static const uint64_t key_bytes[] = { 0, 1, 63, 64, 65, UINT64_C(1) << 32, UINT64_MAX };
    size_t i;

    for (i = 0; i < sizeof key_bytes / sizeof *key_bytes; i++) {
        fputs(i == 0 ? "" : " ", stdout);
        print_answer(md6_default_rounds(d, key_bytes[i]));
    }
    putchar('\n');
}

/* those of every digest size and of the first past each edge, then of 2^32 + 8, whose low half is a digest size, and of 2^64 - 1 */
static void all_default_rounds(void)
{
    uint64_t d;

    for (d = 0; d < 514; d++)
        default_rounds(d);
    default_rounds((UINT64_C(1) << 32) + 8);
    default_rounds(UINT64_MAX);
}

int main(void)
{
    begin_rows();
    make_inputs();
    reels();
    edges();
    each_rounds();
    report();
    starts();
    last_bits();
    refused_starts();
    all_default_rounds();
    return 0;
}
