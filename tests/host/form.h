/* Suspended texts, from documents 01 and 02 alone: where their fields stand, what is written for an area, in the form of M-108 and
 * in the old one, and which area a text has. */
#ifndef FORM_H
#define FORM_H

#include "sound.h"

/* The places of the fields of line 1, and the bytes of the lines with the byte 10 at their end. M-108: "Line 1 of the suspended
 * text holds r in two bytes, 46 digits." */
enum {
    PHASE_AT = 0, R_AT = 2, L_AT = 6, KEY_AT = 8, D_AT = 10, TOTAL_AT = 14, COUNT_AT = 30, LINE1 = 47,
    LINE2 = 129, HEAD_LINES = LINE1 + LINE2, LEVEL_LINE = 1027
};

/* the bytes that r has in line 1; "Old lines of 44 digits are still read": in the old form everything from r's low byte on stands
 * two digits further left */
enum form { OLD_FORM = 1, NEW_FORM = 2 };
enum { OLD_SHORTER = 2 };

static inline size_t line_1(enum form form)
{
    return form == OLD_FORM ? LINE1 - OLD_SHORTER : LINE1;
}

static inline size_t head_lines(enum form form)
{
    return line_1(form) + LINE2;
}

/* replaces `gone` bytes of a text by others, and answers its new length */
static inline size_t splice(uint8_t *text, size_t n, size_t at, size_t gone, const char *by)
{
    size_t length = strlen(by);

    memmove(text + at + length, text + at + gone, n - at - gone);
    memcpy(text + at, by, length);
    return n - gone + length;
}

/* drops the two digits of r's high byte: what is left is a text of the old form, of r modulo 256 */
static inline size_t drop_high(uint8_t *text, size_t n)
{
    return splice(text, n, R_AT, OLD_SHORTER, "");
}

/* what an area is written as that was read from a text of the old form: r's high byte is 0 */
static inline size_t put_high(uint8_t *text, size_t n)
{
    return splice(text, n, R_AT, 0, "00");
}

/* a number as so many bytes, two digits each, high byte first; answers the place past them */
static inline uint8_t *spell(uint8_t *to, uint64_t value, unsigned bytes)
{
    unsigned i;

    for (i = 2 * bytes; i-- > 0; value >>= 4)
        to[i] = (uint8_t)"0123456789abcdef"[value & 15];
    return to + 2 * bytes;
}

/* the last words of a line, and the byte 10 that ends it */
static inline uint8_t *spell_words(uint8_t *to, const uint64_t *words, size_t count)
{
    size_t i;

    for (i = 0; i < count; i++)
        to = spell(to, words[i], 8);
    *to = 10;
    return to + 1;
}

/* Document 01, "Suspended text": "Line 1: phase (1 byte), r, L (1), key bytes (1), d (2), total (8), compressions (8)", "Line 2: K",
 * "Then, rising, a line for each level that holds bits or has a sequential output: level (1 byte) and its 64 words". The form is
 * the bytes of r. Answers the text's bytes. */
static inline size_t text_of(const uint64_t *area, enum form form, uint8_t *text)
{
    uint8_t *to = text;
    uint64_t level, limit = area[4], total = area[1];

    to = spell(to, area[0], 1);
    to = spell(to, area[5], form);
    to = spell(to, limit, 1);
    to = spell(to, area[2], 1);
    to = spell(to, area[3], 2);
    to = spell(to, total, 8);
    to = spell_words(to, area + 14, 1);
    to = spell_words(to, area + 6, K_WORDS);
    for (level = 1; area[0] == 1 && level <= levels_for(limit); level++)
        if (held_at(level, limit, total) > 0 || (level == limit + 1 && made_at(level, limit, total) > 0))
            to = spell_words(spell(to, level, 1), level_words((uint64_t *)area, level), 64);
    return (size_t)(to - text);
}

/* the number that so many digits spell; whatever is no digit counts as 0 */
static inline uint64_t spelt(const uint8_t *digits, unsigned bytes)
{
    uint64_t value = 0;
    unsigned i;

    for (i = 0; i < 2 * bytes; i++)
        value = value << 4 | (uint64_t)(digit(digits[i]) < 0 ? 0 : digit(digits[i]));
    return value;
}

static inline void spelt_words(const uint8_t *digits, uint64_t *words, size_t count)
{
    size_t i;

    for (i = 0; i < count; i++)
        words[i] = spelt(digits + 16 * i, 8);
}

/* the words that the lines of a text spell, whatever else stands there; those of the longest area, of which an area with this L has
 * the first */
static inline void words_of_text(const uint8_t *text, size_t n, enum form form, uint64_t area[MD6_AREA_WORDS])
{
    const uint8_t *after_r = text + R_AT + 2 * form;
    size_t at;

    memset(area, 0, 8 * MD6_AREA_WORDS);
    area[0] = spelt(text + PHASE_AT, 1);
    area[5] = spelt(text + R_AT, form);
    area[4] = spelt(after_r, 1);
    area[2] = spelt(after_r + KEY_AT - L_AT, 1);
    area[3] = spelt(after_r + D_AT - L_AT, 2);
    area[1] = spelt(after_r + TOTAL_AT - L_AT, 8);
    area[14] = spelt(after_r + COUNT_AT - L_AT, 8);
    spelt_words(text + line_1(form), area + 6, K_WORDS);
    for (at = head_lines(form); at + LEVEL_LINE <= n; at += LEVEL_LINE) {
        uint64_t level = spelt(text + at, 1);

        if (level >= 1 && level <= LEVELS)
            spelt_words(text + at + 2, level_words(area, level), 64);
    }
}

/* M-108: "So a text is read exactly if it is new writing or was old writing". Answers the form in which a sound area was written
 * as this text, which is left in `area`, or 0 if there is none: the words that the lines spell are such an area, and writing it
 * gives the text to the byte. */
static inline int area_of(const uint8_t *text, size_t n, uint64_t area[MD6_AREA_WORDS])
{
    static uint8_t again[MD6_TEXT_BYTES];
    static const enum form forms[] = { NEW_FORM, OLD_FORM };
    size_t i;

    for (i = 0; i < 2; i++) {
        if (n < head_lines(forms[i]) || text[line_1(forms[i]) - 1] != 10)
            continue;
        words_of_text(text, n, forms[i], area);
        if (is_sound(area) && text_of(area, forms[i], again) == n && memcmp(text, again, n) == 0)
            return forms[i];
    }
    return 0;
}

#endif
