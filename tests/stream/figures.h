/* Figures that a close refuses and accepts, and previews beside them. */
#ifndef FIGURES_H
#define FIGURES_H

#include "areas.h"

/* closes with a log of so many words and figures that are not ff80: none, a byte fewer, a byte more, then with the first of its bits
 * changed, the last, both, and a spare bit behind them */
static inline void wrong_figures(const struct guarded *area, size_t words)
{
    close_stream(area, BYTES(""), words);
    close_stream(area, BYTES("\xff"), words);
    close_stream(area, BYTES("\xff\x80\x00"), words);
    close_stream(area, BYTES("\x7f\x80"), words);
    close_stream(area, BYTES("\xff\x00"), words);
    close_stream(area, BYTES("\x7f\x00"), words);
    close_stream(area, BYTES("\xff\xc0"), words);
    close_stream(area, BYTES("\xff\x81"), words);
}

/* all refusals of a preview and a close, from the last of their order to the first: of ones whose digest is ff80, with logs and outputs
 * that are too short by one and long enough; then of the closed area, and of an unsound one */
static inline void refused_closes(void)
{
    struct guarded area = filled_words(MORE_WORDS);

    open_stream(&area, BYTES(""), 9, 64, 0);
    feed_ones(&area, 16384);
    wrong_figures(&area, 4);
    wrong_figures(&area, 3);
    close_stream(&area, BYTES("\xff\x80"), 3);
    preview(&area, 1);
    preview(&area, 2);
    close_stream(&area, BYTES("\xff\x80"), 4);
    close_stream(&area, BYTES("\xff\x80"), 4);
    fair_calls(&area);
    refused_calls(&area);
    lent_words(&area)[15] = 1;
    refused_calls(&area);
    row_free(&area);
}

/* a feed between a preview and the close, which then goes by the longer message */
static inline void fed_between(void)
{
    struct guarded area = filled_words(MORE_WORDS);

    open_stream(&area, BYTES(""), 8, 64, 0);
    feed_ones(&area, 4096);
    preview(&area, 3);
    feed_ones(&area, 1);
    close_stream(&area, BYTES("\xff"), MD6_END_LOG_WORDS);
    preview(&area, 3);
    close_stream(&area, BYTES("\x00"), MD6_END_LOG_WORDS);
    row_free(&area);
}

/* closes with each byte of a figure changed in turn */
static inline void changed_bytes(const struct guarded *area, const struct guarded *figure)
{
    size_t i;

    for (i = 0; i < figure->length; i++) {
        figure->bytes[i] ^= 1;
        close_stream(area, figure->bytes, figure->length, MD6_END_LOG_WORDS);
        figure->bytes[i] ^= 1;
    }
}

/* The longest figure: previews with an output of a byte fewer, of its length and of a byte more; then closes with each of its bytes
 * changed, without the first, with a byte more, and with the figure. */
static inline void longest_figure(void)
{
    struct guarded area = filled_words(MORE_WORDS), fewer = filled_new(63), figure = filled_new(64), more = filled_new(65);

    open_stream(&area, BYTES("key"), 512, 64, 9);
    feed_ones(&area, 4097);
    preview_to(&area, &fewer);
    preview_to(&area, &figure);
    preview_to(&area, &more);
    changed_bytes(&area, &figure);
    close_stream(&area, figure.bytes + 1, 63, MD6_END_LOG_WORDS);
    close_stream(&area, more.bytes, 65, MD6_END_LOG_WORDS);
    close_stream(&area, figure.bytes, 64, MD6_END_LOG_WORDS);
    row_free(&more);
    row_free(&figure);
    row_free(&fewer);
    row_free(&area);
}

#endif
