/*
 * The reference of the benchmarks: tests/second/md6ref.c as it stands, with
 * its main under another name, parameters without a key, and clocks. Each
 * driver includes this file.
 */
#include <sys/resource.h>

#pragma GCC diagnostic push
#pragma GCC diagnostic ignored "-Wunused-function"
#define main md6ref_main
#include "../tests/second/md6ref.c"
#undef main
#pragma GCC diagnostic pop

/* the second program's parameters without a key */
static inline struct param plain_params(unsigned d, unsigned limit, uint64_t rounds)
{
    struct param P;

    memset(&P, 0, sizeof P);
    P.d = d;
    P.L = limit;
    P.r = (unsigned)rounds;
    return P;
}

/* seconds by a clock that is never set back */
static inline double seconds(void)
{
    struct timespec t;
    clock_gettime(CLOCK_MONOTONIC, &t);
    return (double)t.tv_sec + (double)t.tv_nsec / 1e9;
}

/* seconds of processor time, of this program or of its children: what else runs on the machine is not counted */
static inline double processor(int who)
{
    struct rusage u;
    getrusage(who, &u);
    return (double)(u.ru_utime.tv_sec + u.ru_stime.tv_sec) + (double)(u.ru_utime.tv_usec + u.ru_stime.tv_usec) / 1e6;
}

/* the best time of several runs */
static inline void keep_best(double *best, double time)
{
    if (*best == 0 || time < *best)
        *best = time;
}

/* words that look random, the same in each run */
static inline uint64_t random_word(void)
{
    static uint64_t x = UINT64_C(88172645463325252);
    x ^= x << 13;
    x ^= x >> 7;
    x ^= x << 17;
    return x;
}
