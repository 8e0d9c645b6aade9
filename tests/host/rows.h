/* What the hosts share that print rows, for tests/NAME/test to compare with those made from the documents: lent bytes that end at a
 * page that may not be touched, and what is printed of a call. */
#ifndef ROWS_H
#define ROWS_H

#include <inttypes.h>

#include "../../include/md6.h"
#include "guard.h"

/* lines are out at once, should a touched page stop the program */
static inline void begin_rows(void)
{
    setvbuf(stdout, NULL, _IOLBF, BUFSIZ);
}

/* lent to be written: it holds a5 (GUARD_BYTE) in every byte, as what is before it does */
static inline struct guarded filled_new(size_t bytes)
{
    struct guarded lent = guarded_new(bytes, 1);

    memset(lent.bytes, GUARD_BYTE, bytes);
    return lent;
}

/* lent to be read: a copy of these bytes, and a write to it stops the program */
static inline struct guarded read_only(const void *from, size_t bytes)
{
    struct guarded lent = guarded_new(bytes, 1);

    if (bytes > 0)
        memcpy(lent.bytes, from, bytes);
    if (mprotect(lent.base, lent.room, PROT_READ) != 0) {
        perror("read_only");
        exit(2);
    }
    return lent;
}

/* frees what was lent; bytes before it that were touched are told in a line that no test expects */
static inline void row_free(struct guarded *lent)
{
    if (!guarded_intact(lent))
        printf("bytes before a buffer of %zu have changed\n", lent->length);
    guarded_free(lent);
}

/* whether what was filled is so still, from this byte on */
static inline int still_filled(const struct guarded *lent, size_t from)
{
    return from <= lent->length && guard_bytes(lent->bytes + from, lent->bytes + lent->length);
}

/* the number and the count that a call answered */
static inline void print_answer(md6_answer answer)
{
    printf("%" PRIu64 " %" PRIu64, answer.number, answer.count);
}

static inline void print_bytes(const struct guarded *lent)
{
    size_t i;

    for (i = 0; i < lent->length; i++)
        printf("%02x", lent->bytes[i]);
}

static inline void print_same(int same)
{
    fputs(same ? " same" : " changed", stdout);
}

/* the first words, as far as there are so many, in lines of `width`: a log in lines of two, a node a line */
static inline void print_words(const struct guarded *lent, size_t count, size_t width)
{
    size_t i;

    for (i = 0; i < count && i < word_count(lent); i++)
        printf("%016" PRIx64 "%c", lent_words(lent)[i], i % width == width - 1 ? '\n' : ' ');
}

#endif
