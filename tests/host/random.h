/* Random numbers that a printed seed repeats. */
#ifndef RANDOM_H
#define RANDOM_H

#include <stddef.h>
#include <stdint.h>

static uint64_t random_state = 1;

static inline void random_seed(uint64_t seed)
{
    random_state = seed * 2 + 1;
}

static inline uint64_t next(void)
{
    random_state ^= random_state << 13;
    random_state ^= random_state >> 7;
    random_state ^= random_state << 17;
    return random_state * UINT64_C(0x2545f4914f6cdd1d);
}

static inline uint64_t below(uint64_t n)
{
    return (next() >> 8) % n;
}

/* random bytes, now and then all ones */
static inline void random_bytes(uint8_t *to, size_t n)
{
    size_t i;
    int ones = below(8) == 0;

    for (i = 0; i < n; i++)
        to[i] = ones ? 0xff : (uint8_t)(next() >> 20);
}

/* the same of words: a dirty area */
static inline void random_words(uint64_t *to, size_t n)
{
    size_t i;
    int ones = below(8) == 0;

    for (i = 0; i < n; i++)
        to[i] = ones ? UINT64_MAX : next();
}

#endif
