/* MD6, proved: the calls for a host in C.
 *
 * Every call ends, reads and writes only within what it is lent, and refuses by number. A refusal changes nothing that was
 * lent. No call keeps a pointer after it has returned, and no call allocates.
 *
 * A buffer is a pointer and then the number of its elements. Buffers lent to one call must not overlap, unless both are only
 * read. Bytes need no alignment; 64-bit words are aligned to 8 bytes. A null pointer with length 0 is a fair empty buffer.
 * Bits stand in bytes high bit first.
 */
#ifndef MD6_H
#define MD6_H

#include <stddef.h>
#include <stdint.h>

#ifdef __cplusplus
extern "C" {
#endif

/* Sizes to lend: the words of a stream's area, by its height limit, and of the longest area, enough for every limit; the most words
 * of log that an end or a close needs; the most bytes of a suspended text. MD6_LEVELS is the most levels that a tree has.
 * MD6_AREA_WORDS_FOR is a constant expression if its limit is one: 80 for 0, and MD6_AREA_WORDS from 26 on; it evaluates its limit
 * twice. */
#define MD6_LEVELS 27
#define MD6_AREA_WORDS_FOR(limit) (16 + 64 * ((limit) < MD6_LEVELS ? (limit) + 1 : MD6_LEVELS))
#define MD6_AREA_WORDS (16 + 64 * MD6_LEVELS)
#define MD6_END_LOG_WORDS 54
#define MD6_TEXT_BYTES 27905

/* A number, 0 if the call was accepted, and a count, 0 if it was refused. */
typedef struct {
    uint64_t number, count;
} md6_answer;

/* The digest of a message: `bits` bits, from bit `start` (0 to 7) of the message's first byte on, under a key of 0 to 64 bytes,
 * with digest size d (1 to 512 bits), height limit `limit` (0 to 64) and `rounds` rounds (0 to 4,095), to the first (d + 7) / 8
 * bytes of `digest`; the bytes past them stay, and so does everything if it is refused. Answers 0, or the first of these that
 * holds:
 *   5  `start` is above 7, or `start` and `bits` together are over 8 times the message's bytes
 *   1  d is not 1 to 512
 *   2  the key has over 64 bytes
 *   3  `limit` is over 64
 *   4  `rounds` is over 4,095
 *   9  `digest` has fewer than (d + 7) / 8 bytes
 */
uint64_t md6_hash(const uint8_t *message, size_t message_bytes, uint64_t start, uint64_t bits,
                  const uint8_t *key, size_t key_bytes,
                  uint64_t d, uint64_t limit, uint64_t rounds,
                  uint8_t *digest, size_t digest_bytes);

/* The digest that md6_hash gives, layer by layer: every node of a level before any of the next. It works in lent words, 16 for each
 * level-1 node, of which there is one for each 4,096 bits begun (3,072 if `limit` is 0), and one for the empty message;
 * md6_layer_words tells how many words. It is the fast way for a host that has them, unless `limit` is 0. The count is the number
 * of nodes of the tree. U and V of each, level by level and index by index, are written to the log from its first word, two words
 * a node; md6_layer_log_words tells how many. The words end with, 16 for each index, the output of the highest node of that index.
 * What is past the words used, past the nodes in the log and past the (d + 7) / 8 bytes of the digest stays, and so does everything
 * if it is refused. What the words and the log held before does not matter. Refuses, the first that holds:
 *   5  `start` is above 7, or `start` and `bits` together are over 8 times the message's bytes
 *   1  d is not 1 to 512
 *   2  the key has over 64 bytes
 *   3  `limit` is over 64
 *   4  `rounds` is over 4,095
 *   9  `digest` has fewer than (d + 7) / 8 bytes
 *   7  `words` has fewer than 16 words for each level-1 node
 *   8  the log has fewer than two words for each node
 */
md6_answer md6_layers(const uint8_t *message, size_t message_bytes, uint64_t start, uint64_t bits,
                      const uint8_t *key, size_t key_bytes,
                      uint64_t d, uint64_t limit, uint64_t rounds,
                      uint64_t *words, size_t words_count,
                      uint64_t *log, size_t log_words,
                      uint8_t *digest, size_t digest_bytes);

/* As count, the words that md6_layers needs for a message of `bits` bits at height limit `limit`: exactly 16 for each level-1 node.
 * With that many words it does not answer 7, and with one fewer it does, unless it refuses for a reason that comes before. Refuses:
 *   3  `limit` is over 64
 */
md6_answer md6_layer_words(uint64_t bits, uint64_t limit);

/* As count, the words of log that md6_layers needs for such a message: exactly two for each node of its tree. Refuses:
 *   3  `limit` is over 64
 */
md6_answer md6_layer_log_words(uint64_t bits, uint64_t limit);

/* As count, the default rounds for a digest of d bits under a key of `key_bytes` bytes: without a key 40 + d/4, rounded down;
 * with a key of any byte the larger of 80 and that. Refuses, the first that holds:
 *   1  d is not 1 to 512
 *   2  `key_bytes` is over 64
 * Rounds that a caller gives to md6_hash, md6_layers or md6_open are used as given.
 */
md6_answer md6_default_rounds(uint64_t d, uint64_t key_bytes);

/* As count, the words of an area for a height limit: 16, and 64 times the smaller of `limit` + 1 and 27. Refuses:
 *   3  `limit` is over 64
 */
md6_answer md6_area_words(uint64_t limit);

/* Opens a stream in an area of at least the words that `limit` asks, which md6_area_words tells, whatever it held. No call reads
 * or writes the words past those, however long the area is. Refuses, the first that holds:
 *   1  d is not 1 to 512
 *   2  the key has over 64 bytes
 *   3  `limit` is over 64
 *   4  `rounds` is over 4,095
 *   7  the area has fewer words than `limit` asks
 * The limit stands in the area's word 4, and the calls below but md6_read go by it: an area is short if it has no word 4, or fewer
 * words than the limit there asks, and it is unsound if that limit is over 64.
 * Between calls nobody else may alter the area; an area that was altered is refused as unsound, or is another stream.
 */
md6_answer md6_open(uint64_t *area, size_t area_words,
                    const uint8_t *key, size_t key_bytes,
                    uint64_t d, uint64_t limit, uint64_t rounds);

/* Feeds a piece: `bits` bits, from bit `start` (0 to 7) of the piece's first byte on. A piece may begin in the byte where the one
 * before it ended. The count is the number of nodes compressed; U and V of each, in order, are written to the log from its first
 * word, and the rest of the log stays. Refuses, the first that holds:
 *   7   the area is short or unsound
 *   10  the stream has ended
 *   5   `start` is above 7, or `start` and `bits` together are over 8 times the piece's bytes
 *   6   the stream's total would pass 2^64 - 1 bits
 *   8   the log has fewer than two words for each node; md6_log_words tells how many it needs
 */
md6_answer md6_feed(uint64_t *area, size_t area_words,
                    const uint8_t *piece, size_t piece_bytes, uint64_t start, uint64_t bits,
                    uint64_t *log, size_t log_words);

/* Ends a stream: the digest to the first (d + 7) / 8 bytes of `digest`, U and V of the last nodes to the log, their number as
 * count; MD6_END_LOG_WORDS words of log are always enough. Refuses, the first that holds:
 *   7   the area is short or unsound
 *   10  the stream has ended
 *   9   `digest` has fewer than (d + 7) / 8 bytes
 *   8   the log has fewer than two words for each node
 */
md6_answer md6_end(uint64_t *area, size_t area_words,
                   uint8_t *digest, size_t digest_bytes,
                   uint64_t *log, size_t log_words);

/* Previews a stream: the digest that md6_end would write now, to the first (d + 7) / 8 bytes of `digest`; the bytes past them stay.
 * The area is only read, so that the stream is open as it was. No node is logged, and the count is 0. Refuses, the first that holds:
 *   7   the area is short or unsound
 *   10  the stream has ended
 *   9   `digest` has fewer than (d + 7) / 8 bytes
 */
md6_answer md6_preview(const uint64_t *area, size_t area_words,
                       uint8_t *digest, size_t digest_bytes);

/* Closes a stream: ends it, with the area, the log and the count as md6_end leaves them, but only if `digest`, the figure, is byte for
 * byte, length included, what md6_preview would write now. The figure is only read, and no digest is written; MD6_END_LOG_WORDS words
 * of log are always enough. Feeds since the preview are allowed: the close goes by the longer message. Refuses, the first that holds,
 * and the stream is then open as it was, if it was open:
 *   7   the area is short or unsound
 *   10  the stream has ended
 *   8   the log has fewer than two words for each node
 *   14  the figure differs: in a byte, in a spare bit behind the last of the d bits, or in its length, which is to be (d + 7) / 8 bytes
 */
md6_answer md6_close(uint64_t *area, size_t area_words,
                     const uint8_t *digest, size_t digest_bytes,
                     uint64_t *log, size_t log_words);

/* As count, the words of log that a feed of `bits` bits to this area needs: exactly two for each node that it would make. With
 * that many words md6_feed does not answer 8, and with one fewer it does, unless it refuses the feed for another reason. The
 * area is only read. Refuses, the first that holds:
 *   7   the area is short or unsound
 *   10  the stream has ended
 *   6   the stream's total would pass 2^64 - 1 bits
 */
md6_answer md6_log_words(const uint64_t *area, size_t area_words, uint64_t bits);

/* Writes a stream as text, to read it back later, there or elsewhere; the count is the text's bytes, at most MD6_TEXT_BYTES.
 * The bytes past the text stay. The text has the rounds in two bytes, so that its first line has 46 digits, also if the stream
 * was read from a text of the old form. Refuses, the first that holds:
 *   7  the area is short or unsound
 *   9  `text` is shorter than the text
 */
md6_answer md6_write(const uint64_t *area, size_t area_words,
                     uint8_t *text, size_t text_bytes);

/* Reads a text into an area of at least the words that the text's height limit asks, whatever it held: from then on the stream is
 * in that area. How long the area was that wrote the text does not matter. The text is the whole of what is lent. Texts of the old
 * form, written when the rounds went up to 255 and stood in one byte, are read too: their first line has 44 digits, and they are
 * written back two bytes longer. Refuses, the first that holds:
 *   11  the text is neither what writing some sound area gives now nor, with rounds up to 255, what it gave in the old form
 *   7   the area has fewer words than the text's limit asks
 */
md6_answer md6_read(uint64_t *area, size_t area_words,
                    const uint8_t *text, size_t text_bytes);

#ifdef __cplusplus
}
#endif

#endif
