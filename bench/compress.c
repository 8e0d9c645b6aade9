/*
 * The compression function, one block and two at a time: this code against
 * the reference in C, which takes them one by one.
 *
 * Both sides make CALLS compressions in a row, each of the window that the
 * one before has changed; the best of REPEATS runs is kept, the sides taking
 * turns. "Rattle" copies the constants of the first 273 rounds once for all
 * of them and lends them, as the tree does once a message; "copied" copies
 * them anew for each compression, which shows what that would cost. "two" is
 * "Rattle" with two windows at a time, its time a block. A round should take
 * the same time however many there are: the last columns have the Rattle
 * code's time a round, and that to the time a round of PLAIN rounds.
 */
#define _POSIX_C_SOURCE 199309L
#include "reference.h"

enum {
    REPEATS = 200, WINDOWS = 20, OUTPUTS = 2 * WINDOWS, R_MOST = 4095,
    R_EACH = 300, DRAWN = 200, PLAIN = 168
};

/* what the crate compress_bench exports; a slice is a pointer and a length */
void md6_bench_compress(const uint64_t *window, size_t window_words,
                        size_t rounds, size_t times,
                        uint64_t *out, size_t out_words);
void md6_bench_compress_two(const uint64_t *windows, size_t window_words,
                            size_t rounds, size_t times,
                            uint64_t *out, size_t out_words);

/* the same compressions in C: the parts of a window are its key, U, V, block */
static __attribute__((noinline)) void in_c(const uint64_t *window,
                                           unsigned rounds, unsigned times,
                                           uint64_t *out)
{
    uint64_t block[B_WORDS];
    unsigned i;

    memcpy(block, window + 25, sizeof block);
    for (i = 0; i < times; i++) {
        compress(window + 15, window[23], window[24], block, rounds, out);
        block[0] ^= out[0];
    }
}

static void in_rattle(const uint64_t *window, unsigned rounds, unsigned times,
                      uint64_t *out)
{
    md6_bench_compress(window, N_WORDS, rounds, times, out, C_WORDS);
}

/* two windows, and two outputs, one after the other */
static void two_in_rattle(const uint64_t *windows, unsigned rounds,
                          unsigned times, uint64_t *out)
{
    md6_bench_compress_two(windows, 2 * N_WORDS, rounds, times,
                           out, 2 * C_WORDS);
}

/* a window with Q and random words */
static void new_window(uint64_t *window)
{
    unsigned i;

    memcpy(window, Q, sizeof Q);
    for (i = Q_WORDS; i < N_WORDS; i++)
        window[i] = random_word();
}

/*
 * How many of the OUTPUTS at r rounds differ: those of random windows, taken
 * one by one and then two at a time.
 */
static unsigned differing_at(unsigned r)
{
    uint64_t windows[2 * N_WORDS], a[2 * C_WORDS], b[2 * C_WORDS];
    unsigned i, j, bad = 0;

    for (i = 0; i < WINDOWS; i += 2) {
        for (j = 0; j < 2; j++) {
            new_window(windows + j * N_WORDS);
            in_c(windows + j * N_WORDS, r, 2, a + j * C_WORDS);
            in_rattle(windows + j * N_WORDS, r, 2, b);
            bad += memcmp(a + j * C_WORDS, b, C_WORDS * sizeof *b) != 0;
        }
        two_in_rattle(windows, r, 2, b);
        for (j = 0; j < 2; j++)
            bad += memcmp(a + j * C_WORDS, b + j * C_WORDS,
                          C_WORDS * sizeof *b) != 0;
    }
    return bad;
}

/*
 * Outputs that differ: at every number of rounds up to R_EACH, at those where a
 * part of the table of constants ends or has just ended, and at random ones.
 */
static unsigned differing(unsigned *tried)
{
    unsigned r, i, bad = 0;

    *tried = 0;
    for (r = 0; r <= R_EACH; r++, *tried += OUTPUTS)
        bad += differing_at(r);
    for (r = 2 * 273; r <= R_MOST; r += 273, *tried += 3 * OUTPUTS)
        bad += differing_at(r - 1) + differing_at(r)
            + differing_at(r < R_MOST ? r + 1 : r);
    for (i = 0; i < DRAWN; i++, *tried += OUTPUTS)
        bad += differing_at((unsigned)(random_word() % (R_MOST + 1)));
    return bad;
}

/* the best time of one compression, in nanoseconds */
struct times {
    double c, rattle, copied, two;
};

static struct times time_at(const uint64_t *windows, unsigned r)
{
    struct times best = { 0, 0, 0, 0 };
    uint64_t out[2 * C_WORDS];
    unsigned calls = r <= 255 ? 300 : 300 * 255 / r + 1, i, j;
    double t;

    for (i = 0; i < REPEATS; i++) {
        t = seconds();
        in_c(windows, r, calls, out);
        keep_best(&best.c, (seconds() - t) * 1e9 / calls);
        t = seconds();
        in_rattle(windows, r, calls, out);
        keep_best(&best.rattle, (seconds() - t) * 1e9 / calls);
        t = seconds();
        for (j = 0; j < calls; j++)
            in_rattle(windows, r, 1, out);
        keep_best(&best.copied, (seconds() - t) * 1e9 / calls);
        t = seconds();
        two_in_rattle(windows, r, calls, out);
        keep_best(&best.two, (seconds() - t) * 1e9 / calls / 2);
    }
    return best;
}

int main(void)
{
    static const unsigned rounds[] = { 0, 5, 40, 104, 168, 255, 1000, R_MOST };
    enum { ROWS = sizeof rounds / sizeof *rounds };
    struct times row[ROWS];
    uint64_t windows[2 * N_WORDS];
    unsigned tried, bad = differing(&tried);
    double plain = 0;
    size_t k;

    printf("different: %u of %u\n", bad, tried);
    printf("one compression, best of %d runs; the constants of the first "
           "rounds are\ncopied once a run (Rattle) or once a compression "
           "(copied)\n", REPEATS);
    printf("%6s %10s %10s %8s %10s %10s %8s %10s %8s\n", "rounds", "C ns",
           "Rattle ns", "ratio", "copied ns", "two ns", "ratio", "ns a round",
           "to 168's");
    new_window(windows);
    new_window(windows + N_WORDS);
    for (k = 0; k < ROWS; k++) {
        row[k] = time_at(windows, rounds[k]);
        if (rounds[k] == PLAIN)
            plain = row[k].rattle / PLAIN;
    }
    for (k = 0; k < ROWS; k++) {
        printf("%6u %10.1f %10.1f %8.3f %10.1f %10.1f %8.3f", rounds[k],
               row[k].c, row[k].rattle, row[k].rattle / row[k].c,
               row[k].copied, row[k].two, row[k].two / row[k].c);
        if (rounds[k] == 0)
            printf(" %10s %8s\n", "-", "-");
        else
            printf(" %10.2f %8.3f\n", row[k].rattle / rounds[k],
                   row[k].rattle / rounds[k] / plain);
    }
    return bad != 0;
}
