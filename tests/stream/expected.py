#!/usr/bin/env python3
"""expected.py [--rattle] MD6REF: the lines that the host rows.c must write, or, with --rattle, those of the program stream_test.

MD6REF is the second program (tests/second/md6ref.c), compiled: it prints a line for each node of the tree of the message fed
so far, and the digest. Document 01, "Runs", says which of those nodes have been made before the end: those that do not reach
the last bit, so all but the last of each level. Bits from a start bit on are cut out here, joined with those fed before and
given to it as one message. Refusals are those of document 01's table, numbers 4, 5 and 7 as document 02 has them, and change
nothing. Told log words are those of document 02, M-103: two for each node that the feed would make; what is past the second
program is counted level by level, by document 01's "Tree". An area has the words that M-109 gives for its L, those lent past
them are as they were after every call, and whatever they hold no call answers otherwise. What a preview writes is the digest
of the message fed so far, and a close is an end if it is given just that, by M-106. Levels are shown in Rattle alone, by M-109.
"""
import functools
import subprocess
import sys

ONES = b"\xff" * 4096
KEY = b"key"
CUT = bytes((85 + 73 * i) % 256 for i in range(513))
FILL = int("a5" * 8, 16)


@functools.lru_cache(None)
def tree(message, bits, key, d, limit, rounds):
    line = f"{d} {limit} {rounds} {key.hex() or '-'}\n".encode()
    run = subprocess.run([sys.argv[-1], "--m108", "--bits", str(bits)], input=line + message, stdout=subprocess.PIPE, check=True)
    lines = run.stdout.decode().splitlines()
    return lines[:-1], lines[-1]


def made_before_end(nodes):
    last = {node[:2]: node for node in nodes}
    return [node for node in nodes if node != last[node[:2]]]


def level_sizes(limit, bits):
    """How many nodes each level of the tree of so many bits has, from level 1 up to the root's."""
    sizes = [max(1, -(-bits // (4096 if limit else 3072)))]
    while sizes[-1] > 1 and len(sizes) <= limit:
        children = 4 if len(sizes) < limit else 3
        sizes.append(-(-sizes[-1] // children))
    return sizes


def made(limit, total):
    """How many nodes a stream has made: all of its tree but the last of each level. The second program is asked if it can be."""
    count = sum(size - 1 for size in level_sizes(limit, total))
    if total <= 8 * len(ONES):
        assert count == len(made_before_end(tree(ONES, total, KEY, 8, limit, 0)[0]))
    return count


def area_levels(limit):
    """Document 02, M-109: "16 words plus 64 times the smaller of L + 1 and 27"."""
    return min(limit + 1, 27)


def area_words(limit):
    return 16 + 64 * area_levels(limit)


def telling(number, words=0):
    return [f"{number} {words} same"]


def told(limit, total, bits):
    if total + bits >= 2 ** 64:
        return telling(6)
    return telling(0, 2 * (made(limit, total + bits) - made(limit, total)))


def answer(number, count, area, log="same"):
    return f"{number} {count} {area} same {log}"


def refused(number):
    return [answer(number, 0, "same")]


def refused_end(number, room):
    return refused(number) + ["a5" * room]


def refused_preview(number, room):
    return telling(number) + ["a5" * room]


def output(digest, room):
    """Document 01: "Output bytes past the digest or text stay"."""
    return [digest + "a5" * (room - len(digest) // 2)]


class Stream:
    """What a stream of one message, open from its first bit on, must log."""

    def __init__(self, key, d, limit, message=ONES, rounds=0):
        self.key, self.d, self.limit, self.message, self.rounds = key, d, limit, message, rounds
        self.total = 0
        self.logged = 0

    def tree(self):
        return tree(self.message, self.total, self.key, self.d, self.limit, self.rounds)

    def feed(self, bits):
        self.total += bits
        nodes = made_before_end(self.tree()[0])
        fresh, self.logged = nodes[self.logged:], len(nodes)
        return [answer(0, len(fresh), "changed" if bits else "same")] + fresh

    def digest(self):
        return self.tree()[1]

    def last_nodes(self):
        """What an end or an accepted close answers, and the nodes that it makes."""
        fresh = self.tree()[0][self.logged:]
        return [answer(0, len(fresh), "changed")] + fresh

    def end(self, room):
        return self.last_nodes() + output(self.digest(), room)

    def preview(self, room):
        """Document 02, M-106: "it refuses 7, 10, 9, has count 0 and writes no log"; of an open, sound area."""
        if 2 * room < len(self.digest()):
            return refused_preview(9, room)
        return telling(0) + output(self.digest(), room)

    def close(self, figure, words):
        """M-106: "14, the figure differs, last in the order 7, 10, 8, 14"; of an open, sound area."""
        if words < 2 * (len(self.tree()[0]) - self.logged):
            return refused(8)
        return refused(14) if figure != bytes.fromhex(self.digest()) else self.last_nodes()

    def end_and_close(self):
        """An end and a close with the right figure, then word 0, the nodes, and that both left the same words."""
        return self.end(3) + self.close(bytes.fromhex(self.digest()), 54) + [f"2 {len(self.tree()[0])} same"]


OPENED = [answer(0, 0, "changed")]


def open_number(words, key_bytes, d, limit, rounds):
    """Document 02, M-109: "Open tests 1, 2, 3, 4 and then 7"; M-108: "Number 4 is now for r over 4,095"."""
    tests = [(1, not 1 <= d <= 512), (2, key_bytes > 64), (3, limit > 64), (4, rounds > 4095), (7, words < area_words(limit))]
    return next((number for number, holds in tests if holds), 0)


def opened(*arguments):
    number = open_number(*arguments)
    return refused(number) if number else OPENED


def row(limit, d, *pieces):
    stream = Stream(b"", d, limit)
    lines = OPENED + stream.preview(3)
    for bits in pieces:
        lines += stream.feed(bits) + stream.preview(3)
    return lines + stream.end(3)


WHOLE = [(64, 8, 0), (64, 8, 4096), (64, 8, 4097), (64, 8, 16384), (64, 9, 16384), (64, 8, 16385),
         (0, 8, 0), (0, 8, 3073), (1, 8, 12288), (1, 8, 12289)]


def whole_rows():
    return [line for limit, d, bits in WHOLE for line in row(limit, d, bits, 0, 0, 0)]


def cut_rows():
    rows = [(64, 8, 1, 4095, 0, 0), (64, 8, 1, 4095, 1, 0), (64, 8, 1, 4095, 1, 12287), (64, 9, 1, 4095, 1, 12287),
            (64, 8, 1, 4095, 1, 12288), (0, 8, 3071, 1, 1, 0), (1, 8, 1, 4095, 1, 8191), (1, 8, 1, 4095, 1, 8192)]
    return [line for r in rows for line in row(*r)]


def closed_row(limit, d, bits):
    stream = Stream(b"", d, limit)
    return OPENED + stream.feed(bits) + stream.end_and_close()


def closed_rows():
    return [line for r in WHOLE for line in closed_row(*r)]


def with_rounds(rounds):
    """An area that was not opened is unsound."""
    lines = opened(1750, 0, 24, 64, rounds)
    if lines != OPENED:
        return lines + refused(7) + refused_end(7, 3)
    stream = Stream(b"", 24, 64, rounds=rounds)
    return lines + stream.feed(4097) + stream.end(3)


def rounds_edges():
    return [line for rounds in (255, 256, 4095, 4096, 2 ** 32 + 5) for line in with_rounds(rounds)]


def opens():
    rows = [(65, 0, 65, 4096), (65, 513, 65, 4096), (65, 2 ** 32 + 8, 65, 4096), (65, 512, 65, 4096), (0, 1, 65, 4096),
            (0, 1, 64, 4096), (0, 1, 64, 4095), (0, 1, 64, 256), (0, 1, 64, 255)]
    return [line for words in (0, 80, 1743, 1744) for r in rows for line in opened(words, *r)]


def unsound(count, number=7, room=3):
    return count * (telling(number) + refused(number) + refused_preview(number, room) + refused(number) + refused_end(number, room))


def sound(limit, bits, message, rounds=0):
    """A byte `a` is fed after so many bits; the message has both."""
    stream = Stream(KEY, 8, limit, message, rounds)
    stream.feed(bits)
    return told(limit, bits, 8) + stream.feed(8) + stream.preview(3) + stream.close(b"", 54) + stream.end(3)


def is_past(limit, at):
    """Whether a word stands past the area. In each row a bit is set there that is neither held nor of a sequential output."""
    return at >= area_words(limit)


def altered(limit, bits, at):
    if not is_past(limit, at):
        return unsound(1)
    return sound(limit, bits, in_bytes("1" * bits + cut(b"a", 0, 8)))


def altered_ended(limit, at):
    return unsound(1, 10 if is_past(limit, at) else 7, 0)


LIMITS = (0, 1, 2, 25, 26, 27, 64)

# words lent, the first L, bits fed, and the L that word 4 then has
OTHER_LIMITS = [(*r, limit) for limit in (65, 2 ** 64 - 1) for r in ((80, 0, 0), (1744, 0, 0), (1750, 64, 1))]
OTHER_LIMITS += [(80, 64, 0, 0), (143, 64, 0, 1), (144, 64, 0, 1), (1750, 0, 0, 1)]

# L, bits fed, and the word changed
ALTERED_LEVELS = [(64, 1, 16), (64, 4095, 79), (64, 4096, 80), (64, 4097, 96), (0, 3072, 31), (0, 3073, 32), (0, 3073, 80),
                  (1, 4097, 95), (1, 12289, 96), (1, 12289, 144)]


def is_other(first, bits, limit):
    """Word 4 has another L than the first, past whose words nothing is zero; its levels are zeros if no bits were fed."""
    return limit <= 64 and not bits and area_words(limit) <= area_words(first)


def other_limit(words, first, bits, limit):
    if is_other(first, bits, limit) and area_words(limit) <= words:
        return sound(limit, 0, b"a")
    return unsound(1)


def other_limits():
    return [line for r in OTHER_LIMITS for line in other_limit(*r)]


def altered_levels():
    return [line for r in ALTERED_LEVELS for line in altered(*r)]


def stream_in(words, limit):
    """An area that was not opened is unsound."""
    lines = opened(words, 0, 24, limit, 9)
    if lines != OPENED:
        lines += telling(7) + refused(7) + refused_preview(7, 3) + refused_end(7, 3) + refused(7)
        return lines + [f"{FILL} {FILL} same"]
    stream = Stream(b"", 24, limit, rounds=9)
    return lines + told(limit, 0, 16385) + stream.feed(16385) + stream.preview(3) + stream.end_and_close()


def shortened(words, limit):
    """An area with no word 4, or with fewer words than the L there asks, is short; for open it goes by the L given."""
    assert words < area_words(limit)
    return 2 * (unsound(1, 7, 0) + opened(words, 0, 8, limit, 0))


def told_words(limit):
    """Document 02, M-109; number 3 is for L over 64."""
    return ["3 0" if limit > 64 else f"0 {area_words(limit)}"]


def by_limit(limit):
    words = area_words(limit)
    lines = told_words(limit)
    for lent in (words, 1750, words - 1):
        lines += stream_in(lent, limit)
    lines += shortened(words - 1, limit) + altered(limit, 1, words - 1) + altered(limit, 1, words)
    return lines + altered_ended(limit, words - 1) + altered_ended(limit, words)


def all_lengths():
    lines = [line for limit in LIMITS for line in by_limit(limit)]
    lines += [line for limit in (65, 2 ** 32, 2 ** 64 - 1) for line in told_words(limit)]
    return lines + shortened(80, 64) + [line for words in range(17) for line in shortened(words, 0)]


def sound_areas():
    """A held word or a chained output is set to zero after the feed: the message is then another one. Or r is."""
    rows = [(64, 1, b"\x30\x80"), (64, 4096, ONES[:504] + bytes(8) + b"a"), (0, 3073, ONES[:376] + bytes(8) + b"\xb0\x80"),
            (64, 1, b"\xb0\x80", 255), (64, 1, b"\xb0\x80", 256), (64, 1, b"\xb0\x80", 4095)]
    return [line for r in rows for line in sound(*r)]


def short_logs():
    stream = Stream(KEY, 8, 64)
    stream.feed(4096)
    lines = refused(5) + refused(5) + refused(8) + [answer(0, 0, "same")] + stream.feed(1)
    return lines + refused_end(9, 0) + refused_end(8, 1) + stream.end(1)


def told_edges():
    rows = [(64, 0, 0), (64, 0, 1), (64, 0, 4096), (64, 0, 4097), (64, 1, 4095), (64, 1, 4096),
            (64, 4096, 0), (64, 4096, 1), (64, 4096, 4096), (64, 4096, 4097), (64, 16384, 0), (64, 16384, 1),
            (0, 0, 3072), (0, 0, 3073), (0, 3072, 0), (0, 3072, 1), (0, 3072, 3072), (0, 3072, 3073),
            (1, 0, 12288), (1, 0, 12289), (1, 12288, 0), (1, 12288, 1), (1, 12289, 12287), (1, 12289, 12288)]
    return [line for r in rows for line in told(*r)]


def told_longest():
    return [line for limit in (0, 1, 2, 26, 27, 64) for line in told(limit, 0, 2 ** 64 - 1)]


def last_nodes(limit, total, ended):
    """U and V of the last node of each level, for totals that fill every level above the first: full blocks, but for the end's
    padding at level 1; the end makes the root."""
    sizes = level_sizes(limit, total)
    lines = []
    for level, size in enumerate(sizes, 1):
        root = ended and level == len(sizes)
        padding = -total % 4096 if level == 1 else 0
        v = limit << 40 | root << 36 | padding << 20 | len(KEY) << 12 | 8
        lines.append(f"{level << 56 | size - 1:016x} {v:016x}")
    return lines


def most_nodes():
    """3 * 2^62 zero bits with L = 26: one bit more, and the last node of each of the 27 levels is no longer the last."""
    limit, total = 26, 3 << 62
    nodes = last_nodes(limit, total, False)
    lines = told(limit, total, 0) + told(limit, total, 1) + refused(8) + [answer(0, 27, "changed")] + nodes
    total += 1
    left = 2 ** 64 - 1 - total
    return lines + [str(made(limit, total))] + told(limit, total, left) + told(limit, total, left + 1)


def long_stream():
    """2^64 - 1 zero bits: 27 levels, each with one node left; level 1 has one padding bit."""
    limit, total = 64, 2 ** 64 - 2
    lines = told(limit, total, 2) + refused(6) + refused(5) + told(limit, total, 1) + [answer(0, 0, "changed")]
    total += 1
    lines += told(limit, total, 0) + told(limit, total, 1) + refused(6) + telling(0) + output("00", 3)
    lines += refused_end(8, 3) + refused(8)
    closed = [answer(0, 27, "changed")] + last_nodes(limit, total, True)
    lines += closed + output("00", 3) + closed + [f"2 {sum(level_sizes(limit, total))} same"]
    return lines + telling(10)


def cut(message, start, bits):
    """The bits of the bytes, high bit first, without the first `start`, and of these `bits`."""
    return "".join(f"{byte:08b}" for byte in message)[start:start + bits]


def in_bytes(bits):
    return bytes(int(bits[i:i + 8].ljust(8, "0"), 2) for i in range(0, len(bits), 8))


def is_refused(message, start, bits):
    """Document 02, M-104: "Number 5 is also given for a start bit above 7 or where start and count together pass the bytes'
    bits"."""
    return start > 7 or start + bits > 8 * len(message)


def made_and_left(bits, limit):
    """How many nodes a stream of these bits has made before its end, and its end makes; and the digest, of 64 bits."""
    nodes, digest = tree(in_bytes(bits), len(bits), b"", 64, limit, 9)
    count = len(made_before_end(nodes))
    return count, len(nodes) - count, digest


def behind(limit, held, start, bits):
    first = cut(CUT, 0, held)
    before = made_and_left(first, limit)[0]
    count, left, digest = made_and_left(first + cut(CUT, start, bits), limit)
    return f"0 {count - before} 0 {left} {digest}"


def starts():
    return [behind(limit, held, start, bits)
            for limit, held in ((64, 0), (64, 1), (64, 7), (64, 64), (64, 4095), (64, 4096), (0, 3071))
            for start in range(8) for bits in (0, 1, 7, 8, 9, 4095, 4096, 4097)]


def pieces(bits):
    fed = "".join(cut(CUT[at // 8:], at % 8, bits) for at in range(0, 8 * len(CUT), bits))
    count, left, digest = made_and_left(fed, 64)
    return f"{count} 0 {left} {digest}"


def logged(fed):
    """Pieces that are fed to a stream, and its end, with their logs. A refused piece is no part of the message."""
    message = "".join(cut(*piece) for piece in fed if not is_refused(*piece))
    stream = Stream(b"", 24, 64, in_bytes(message), 9)
    lines = [line for piece in fed for line in (refused(5) if is_refused(*piece) else stream.feed(piece[2]))]
    return OPENED + lines + stream.end(3)


def start_edges():
    most = 2 ** 64 - 1
    rows = [(8, 0), (8, 8), (2 ** 32, 8), (most, 0), (most, 1), (most, most), (1, most), (7, most), (7, most - 6), (7, most - 7)]
    last = [row for start in range(8) for row in ((b"", start, 0), (b"a", start, 9 - start), (b"a", start, 8 - start))]
    return logged([(b"abc", *row) for row in rows] + last)


def ordered_refusals():
    """Document 01's order for feed, from its end: 7, 10, 5, 6, 8."""
    return [line for number in (8, 6, 5, 10, 7) for line in refused(number)]


def refused_closes():
    """The digest is ff80. After the close all calls are refused by 10; with word 15 set by 7."""
    stream = Stream(b"", 9, 64)
    lines = OPENED + stream.feed(16384)
    wrong = [bytes.fromhex(figure) for figure in ("", "ff", "ff8000", "7f80", "ff00", "7f00", "ffc0", "ff81")]
    right = bytes.fromhex("ff80")
    lines += [line for words in (4, 3) for figure in wrong for line in stream.close(figure, words)]
    lines += stream.close(right, 3) + stream.preview(1) + stream.preview(2) + stream.close(right, 4)
    return lines + refused(10) + unsound(1, 10, 3) + unsound(1, 10, 0) + unsound(1, 7, 0)


def fed_between():
    """M-106: "Feeds between the two are allowed; then the close goes by the longer message"."""
    stream = Stream(b"", 8, 64)
    lines = OPENED + stream.feed(4096) + stream.preview(3) + stream.feed(1) + stream.close(b"\xff", 54)
    return lines + stream.preview(3) + stream.close(b"\x00", 54)


def longest_figure():
    stream = Stream(KEY, 512, 64, rounds=9)
    lines = OPENED + stream.feed(4097) + stream.preview(63) + stream.preview(64) + stream.preview(65)
    right = bytes.fromhex(stream.digest())
    figures = [right[:i] + bytes([right[i] ^ 1]) + right[i + 1:] for i in range(64)] + [right[1:], right + b"\xa5", right]
    return lines + [line for figure in figures for line in stream.close(figure, 54)]


def bare(lines):
    """Of a call's lines the number and the count, which are all that stream_test writes of most."""
    return [" ".join(lines[0].split()[:2])]


def begun(stream, bits):
    return bare(OPENED) + bare(told(stream.limit, 0, bits)) + bare(stream.feed(bits))


def shown(limit):
    """Document 02, M-109: "Showing a level that the area lacks gives the empty part." An unsound or short area shows none."""
    levels = (0, 1, 2, 3, 4, 26, 27, 28, 29, 65, 66, 2 ** 63)
    return ["64" if 1 <= level <= area_levels(limit) else "0" for level in levels]


def shown_in(words, limit):
    if words < area_words(limit):
        return 3 * bare(refused(7)) + shown(-1) + bare(refused(7)) + output("", 3)
    stream = Stream(KEY, 24, limit, rounds=9)
    return begun(stream, 16385) + shown(limit) + bare(stream.last_nodes()) + output(stream.digest(), 3)


def closed_by_figure(stream):
    """A preview, and a close with its figure."""
    return bare(stream.preview(3)) + bare(stream.last_nodes())


def shown_part(limit, bits, is_sound, own=None, words=1750, closed=False):
    """Level 1 of the first words of an area that was changed, and the same after a close of the whole; its own L is another then, if
    word 4 was changed. The area may have been closed before."""
    own = limit if own is None else own
    lines = begun(Stream(KEY, 8, limit), bits)
    if closed:
        lines += closed_by_figure(fed(limit, bits))
    part = ["64" if is_sound and area_words(own) <= words else "0"]
    if is_sound and not closed:
        return lines + part + closed_by_figure(fed(own, bits)) + part
    return lines + part + 2 * bare(refused(10 if is_sound else 7)) + part


def fed(limit, bits):
    stream = Stream(KEY, 8, limit)
    stream.feed(bits)
    return stream


def shown_by_limit(limit):
    words = area_words(limit)
    lines = told_words(limit)
    for lent in (words, 1750, words - 1):
        lines += shown_in(lent, limit)
    lines += shown_part(limit, 1, True, words=words - 1)
    return lines + [line for closed in (False, True) for at in (words - 1, words)
                    for line in shown_part(limit, 1, is_past(limit, at), closed=closed)]


def shown_parts():
    """What was changed in each of the rows is said where rows.c has them: words before the levels, which are unsound, the L, words of
    levels, words that may be others, and words of closed areas, which are unsound."""
    rows = [shown_part(64, 1, True, words=80)] + [shown_part(0, 1, True, words=words) for words in range(17)]
    rows += [shown_part(64, 4097 if i == 12 else 1, False) for i in range(14)]
    rows += [shown_part(first, bits, is_other(first, bits, limit), limit, words) for words, first, bits, limit in OTHER_LIMITS]
    rows += [shown_part(limit, bits, is_past(limit, at)) for limit, bits, at in ALTERED_LEVELS]
    rows += [shown_part(limit, bits, True) for limit, bits in ((64, 1), (64, 4096), (0, 3073), (64, 1), (64, 1), (64, 1))]
    rows += [shown_part(64, bits, False, closed=True) for bits in (1, 1, 1, 16384)]
    return [line for row in rows for line in row]


def host():
    return (whole_rows() + cut_rows() + closed_rows() + rounds_edges() + opens() + all_lengths() + unsound(14) + other_limits()
            + altered_levels() + sound_areas() + unsound(3, 7, 0) + short_logs() + told_edges() + told_longest() + most_nodes()
            + long_stream() + starts() + [pieces(bits) for bits in (1, 3, 9, 19, 171, 513, 1026, 4104)]
            + logged([(CUT, 0, 4093), (CUT[511:], 5, 5), (CUT[512:], 2, 6)]) + start_edges() + ordered_refusals()
            + refused_closes() + fed_between() + longest_figure())


def rattle():
    return [line for limit in LIMITS for line in shown_by_limit(limit)] + shown_parts()


print("\n".join(rattle() if sys.argv[1] == "--rattle" else host()))
