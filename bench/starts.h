/*
 * A call at each start bit, 0 to 7, of the same bytes: the times of the others
 * to that of bit 0. A driver includes reference.h first.
 */
enum { STARTS = 8 };

/* one call, from this start bit on; 0 if it was accepted */
typedef int start_call(const uint8_t *message, uint64_t start);

/*
 * The best time at each start bit. They are taken in turn, each turn beginning
 * with another, so that a swing of the machine falls on all of them.
 */
static inline int time_starts(start_call *call, const uint8_t *message, unsigned turns, double best[STARTS])
{
    unsigned k, i;
    int bad = 0;

    memset(best, 0, STARTS * sizeof *best);
    for (k = 0; k < turns; k++)
        for (i = 0; i < STARTS; i++) {
            unsigned start = (k + i) % STARTS;
            double t0 = processor(RUSAGE_SELF);
            bad |= call(message, start);
            keep_best(&best[start], processor(RUSAGE_SELF) - t0);
        }
    return bad;
}

/* a row a start bit; `bytes` is an eighth of the bits that each call had */
static inline void show_starts(const char *what, const double best[STARTS], double bytes)
{
    unsigned i;

    printf("%s\nfrom bit      MB/s  time to bit 0's  at most\n", what);
    for (i = 0; i < STARTS; i++)
        printf("%8u  %8.2f  %15.3f  %7s\n", i, bytes / 1e6 / best[i], best[i] / best[0], i == 0 ? "-" : "1.10");
}
