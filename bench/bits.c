/*
 * The block filler: 4,096 bits at several alignments, and what part that is
 * of the time of the compression (r = 104) of the block that it fills.
 * First it is compared with a copy bit by bit on random cases.
 */
#define _POSIX_C_SOURCE 199309L
#include "reference.h"

enum { REPEATS = 2000, CALLS = 200, CASES = 200000, WORDS = 65, BYTES = 1024, ROUNDS = 104 };

/* what the crates bits_bench and compress_bench export; a slice is a pointer and a length */
void md6_bench_fill(uint64_t *block, size_t block_words, size_t at, const uint8_t *bytes, size_t bytes_length,
                    size_t byte, size_t bit, size_t count, size_t times);
void md6_bench_compress(const uint64_t *window, size_t window_words, size_t rounds, size_t times,
                        uint64_t *out, size_t out_words);

static void bit_by_bit(uint64_t *block, size_t at, const uint8_t *bytes, size_t start, size_t count)
{
    size_t i;

    for (i = 0; i < count; i++) {
        size_t to = at + i, from = start + i;
        uint64_t bit = bytes[from / 8] >> (7 - from % 8) & 1, place = UINT64_C(1) << (63 - to % 64);
        block[to / 64] = bit ? block[to / 64] | place : block[to / 64] & ~place;
    }
}

static size_t below(size_t n)
{
    return (size_t)(random_word() >> 8) % n;
}

/* fills that differ from a copy bit by bit; the bytes end where the array ends */
static unsigned long differing(const uint8_t *bytes)
{
    uint64_t a[WORDS], b[WORDS];
    unsigned long bad = 0, k;
    size_t i;

    for (k = 0; k < CASES; k++) {
        size_t words = below(WORDS + 1), length = below(BYTES + 1);
        size_t at = below(64 * words + 1), start = below(8 * length + 1);
        size_t room = 64 * words - at, there = 8 * length - start;
        size_t most = room < there ? room : there;
        size_t count = below(2) ? most : below(2) ? below(most + 1) : below((most < 70 ? most : 70) + 1);
        const uint8_t *from = bytes + BYTES - length;

        for (i = 0; i < WORDS; i++)
            a[i] = b[i] = random_word();
        bit_by_bit(a, at, from, start, count);
        md6_bench_fill(b, words, at, from, length, start / 8, start % 8, count, 1);
        bad += memcmp(a, b, sizeof a) != 0;
    }
    return bad;
}

static double compression_time(void)
{
    uint64_t window[N_WORDS], out[C_WORDS];
    double best = 0;
    unsigned k;

    for (k = 0; k < N_WORDS; k++)
        window[k] = random_word();
    for (k = 0; k < 200; k++) {
        double t = seconds();
        md6_bench_compress(window, N_WORDS, ROUNDS, CALLS, out, C_WORDS);
        keep_best(&best, (seconds() - t) / CALLS);
    }
    return best;
}

static double fill_time(const uint8_t *bytes, size_t at, size_t bit)
{
    uint64_t block[WORDS] = { 0 };
    double best = 0;
    unsigned k;

    for (k = 0; k < REPEATS; k++) {
        double t = seconds();
        md6_bench_fill(block, WORDS, at, bytes, BYTES, 3, bit, 4096, CALLS);
        keep_best(&best, (seconds() - t) / CALLS);
    }
    return best;
}

int main(void)
{
    static const struct { size_t at, bit; int aligned; } cases[] = {
        { 0, 0, 1 }, { 8, 0, 1 }, { 56, 0, 1 }, { 0, 1, 0 }, { 0, 2, 0 }, { 0, 3, 0 }, { 0, 4, 0 }, { 0, 5, 0 }, { 0, 6, 0 }, { 0, 7, 0 },
        { 1, 0, 0 }, { 13, 6, 0 }, { 3, 3, 0 },
    };
    static uint8_t bytes[BYTES];
    double compression = compression_time();
    size_t i;

    for (i = 0; i < BYTES; i++)
        bytes[i] = (uint8_t)(random_word() >> 8);
    printf("different: %lu of %d\n", differing(bytes), CASES);
    printf("compression at r = %d: %.1f ns\n", ROUNDS, compression * 1e9);
    printf("to bit  from bit  ns     of the compression\n");
    for (i = 0; i < sizeof cases / sizeof *cases; i++) {
        double t = fill_time(bytes, cases[i].at, cases[i].bit);
        printf("%6zu  %8zu  %5.1f  %4.1f%% (at most %s)\n", cases[i].at, cases[i].bit, t * 1e9, 100 * t / compression,
               cases[i].aligned ? "6%" : "15%");
    }
    return 0;
}
