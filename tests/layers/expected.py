#!/usr/bin/env python3
"""expected.py [--rattle]: the lines that the host rows.c must write, or the program layers_test.

MD6 is written here once more, from document 01's "Compression" and "Tree", level by level, with bits as a string of digits. Document
02, M-100, says in which order the log has the nodes, what the words end with, and the numbers 7 and 8; the other refusals are those
of document 01's table, numbers 4 and 5 as document 02 has them. What is lent holds a5 in every byte before the call; what is past
the words used, past the nodes of the log and past the digest stays, and so does everything if the call is refused.
"""
import functools
import math
import sys

MASK = 2 ** 64 - 1
Q = math.isqrt(6 << 1920) - 2 ** 961
R = [10, 5, 13, 10, 11, 12, 2, 7, 14, 15, 7, 13, 11, 7, 6, 12]
T = [11, 24, 9, 16, 15, 9, 27, 15, 6, 2, 29, 8, 15, 5, 31, 9]
ONES = b"\xff" * 2049
MESSAGE = bytes((85 + 73 * i + i // 256) % 256 for i in range(8194))


def words_of(digits):
    """A string of bits, a multiple of 64 of them, as words."""
    return [int(digits[i:i + 64], 2) for i in range(0, len(digits), 64)]


def bits_of(words):
    return "".join(f"{word:064b}" for word in words)


def compress(key, u, v, block, rounds):
    a = words_of(f"{Q:0960b}") + key + [u, v] + block
    s = 0x0123456789abcdef
    for i in range(89, 89 + 16 * rounds):
        x = s ^ a[i - 17] ^ a[i - 89] ^ (a[i - 18] & a[i - 21]) ^ (a[i - 31] & a[i - 67])
        x ^= x >> R[(i - 89) % 16]
        a.append(x ^ (x << T[(i - 89) % 16]) & MASK)
        if (i - 89) % 16 == 15:
            s = (s << 1 & MASK | s >> 63) ^ (s & 0x7311c2812425cfa0)
    return a[-16:]


def level_nodes(level, data, key, d, limit, rounds):
    """The nodes of a level over these bits: U, V and output of each."""
    sequential = level == limit + 1
    size = 3072 if sequential else 4096
    count = max(1, -(-len(data) // size))
    padded = data.ljust(count * size, "0")
    nodes, before = [], [0] * 16
    for i in range(count):
        last = i == count - 1
        z = last if sequential else count == 1
        p = count * size - len(data) if last else 0
        u = level << 56 | i
        v = rounds << 48 | limit << 40 | z << 36 | p << 20 | len(key) << 12 | d
        block = (before if sequential else []) + words_of(padded[i * size:(i + 1) * size])
        before = compress(words_of("".join(f"{byte:08b}" for byte in key.ljust(64, b"\0"))), u, v, block, rounds)
        nodes.append((u, v, before))
    return nodes


@functools.lru_cache(None)
def tree(data, key, d, limit, rounds):
    """The levels of the tree of a string of bits, from level 1 up to the root's."""
    levels = []
    while not levels or len(levels[-1]) > 1 and len(levels) <= limit:
        levels.append(level_nodes(len(levels) + 1, data, key, d, limit, rounds))
        data = "".join(bits_of(output) for _, _, output in levels[-1])
    return levels


def level_sizes(bits, limit):
    """How many nodes each level of the tree of so many bits has."""
    sizes = [max(1, -(-bits // (4096 if limit else 3072)))]
    while sizes[-1] > 1 and len(sizes) <= limit:
        sizes.append(-(-sizes[-1] // (4 if len(sizes) < limit else 3)))
    return sizes


def needed_words(bits, limit):
    """Document 02, M-100: "in lent words, 16 for each level-1 node"."""
    return 16 * level_sizes(bits, limit)[0]


def needed_log(bits, limit):
    return 2 * sum(level_sizes(bits, limit))


def digest_bytes(d):
    return (d + 7) // 8


def number(message, start, bits, key, d, limit, rounds, words, log, out):
    """The first refusal that holds: "Numbers 7 (too few words) and 8 follow the whole-message checks", 0 if none does."""
    if start > 7 or start + bits > 8 * len(message):
        return 5
    tests = [(not 1 <= d <= 512, 1), (len(key) > 64, 2), (limit > 64, 3), (rounds > 4095, 4), (out < digest_bytes(d), 9)]
    for holds, told in tests:
        if holds:
            return told
    return 7 if words < needed_words(bits, limit) else 8 if log < needed_log(bits, limit) else 0


def rows(words, width):
    return [" ".join(f"{word:016x}" for word in words[i:i + width]) for i in range(0, len(words), width)]


def show(message, start, bits, key, d, limit, rounds, words, log, out):
    """The lines of a call with so many words, log words and bytes of output."""
    refusal = number(message, start, bits, key, d, limit, rounds, words, log, out)
    if refusal:
        return [f"{refusal} 0 {'a5' * out} same same"]
    data = "".join(f"{byte:08b}" for byte in message[:(start + bits + 7) // 8])[start:start + bits]
    levels = tree(data, key, d, limit, rounds)
    nodes = [node for level in levels for node in level]
    assert [len(level) for level in levels] == level_sizes(bits, limit)
    # "16 for each index, the output of the highest node of that index"
    highest = [[level[i] for level in levels if i < len(level)][-1] for i in range(len(levels[0]))]
    root = bits_of(nodes[-1][2])[-d:]
    digest = int(root.ljust(8 * digest_bytes(d), "0"), 2).to_bytes(digest_bytes(d), "big").hex()
    first = f"0 {len(nodes)} {digest}{'a5' * (out - digest_bytes(d))} same same"
    return [first] + rows([word for u, v, _ in nodes for word in (u, v)], 2) + rows([word for node in highest for word in node[2]], 16)


def enough(message, start, bits, key, d, limit, rounds, more, out):
    """The call with the words and log words that it needs, and so many more of each."""
    return show(message, start, bits, key, d, limit, rounds, needed_words(bits, limit) + more, needed_log(bits, limit) + more, out)


def reels():
    """Document 01, "Reels by hand": bits, L, d, nodes and digest."""
    table = [(0, 64, 8, 1, "00"), (4096, 64, 8, 1, "ff"), (4097, 64, 8, 3, "00"), (16384, 64, 8, 5, "ff"), (16384, 64, 9, 5, "ff80"),
             (16385, 64, 8, 8, "00"), (0, 0, 8, 1, "00"), (3073, 0, 8, 2, "00"), (12288, 1, 8, 4, "ff"), (12289, 1, 8, 6, "00")]
    lines = []
    for bits, limit, d, nodes, digest in table:
        shown = enough(ONES, 0, bits, b"", d, limit, 0, 0, 2)
        assert shown[0].startswith(f"0 {nodes} {digest}")
        lines += shown
    return lines


def trees():
    lines = []
    for bits in (0, 1, 3072, 3073, 4096, 4097, 12289, 16385, 65537):
        for limit in (0, 1, 2, 3, 4, 5, 26, 27, 63, 64):
            for few_words, few_log in ((0, 0), (1, 0), (0, 1), (1, 1)):
                words, log = needed_words(bits, limit) - few_words, needed_log(bits, limit) - few_log
                lines += show(MESSAGE, 0, bits, b"key", 20, limit, 5, words, log, 4)
    return lines


def starts():
    return [line for limit in (64, 1, 0) for start in range(8) for bits in (0, 1, 7, 9, 4095, 4096, 4097)
            for line in enough(MESSAGE, start, bits, b"", 64, limit, 1, 3, 8)]


def edges():
    table = [(24, b"", 0, 64, 5, 0), (24, b"", 1, 64, 5, 0), (24, b"", 512, 64, 5, 0), (24, b"", 513, 64, 5, 2),
             (24, b"k" * 64, 8, 64, 5, 0), (24, b"k" * 65, 8, 64, 5, 0), (24, b"", 8, 0, 5, 0), (24, b"", 8, 65, 5, 0),
             (24, b"", 8, 64, 4095, 0), (24, b"", 8, 64, 4096, 0), (25, b"", 8, 64, 5, 0), (MASK, b"", 8, 64, 5, 0),
             (23, b"", 9, 64, 0, 1), (23, b"", 9, 0, 1, 2)]
    return [line for bits, key, d, limit, rounds, more in table
            for line in show(b"abc", 0, bits, key, d, limit, rounds, 16 + more, 2 + more, 64 + more)]


def refused_by(first, second):
    """A call on two blocks that both of these refuse; the first of them is told."""
    def pick(refusal, wrong, fair):
        return wrong if refusal in (first, second) else fair

    lines = show(MESSAGE, pick(5, 8, 0), 4097, b"k" * pick(2, 65, 64), pick(1, 513, 8), pick(3, 65, 64), pick(4, 4096, 5),
                 pick(7, 31, 32), pick(8, 5, 6), pick(9, 0, 1))
    assert lines[0].startswith(f"{first} 0 ") and len(lines) == 1
    return lines


def orders():
    order = [5, 1, 2, 3, 4, 9, 7, 8]
    return [line for i, first in enumerate(order) for second in order[i:] for line in refused_by(first, second)]


def told(bits, limit):
    return "3 0 3 0" if limit > 64 else f"0 {needed_words(bits, limit)} 0 {needed_log(bits, limit)}"


def all_told():
    counts = (0, 1, 3073, 4097, 16384, 16385, 2 ** 64 - 4096, 2 ** 64 - 1)
    return [told(bits, limit) for limit in (*range(67), 2 ** 32 + 5, 2 ** 64 - 1) for bits in counts]


def filled(count, width):
    return rows([int("a5" * 8, 16)] * count, width)


def whole(bits, d, limit):
    """The lines of a call in Rattle, with 96 words and 16 log words, of which all are printed: the last have stayed."""
    shown = show(b"\xff" * 3585, 0, bits, b"key", d, limit, 5, 96, 16, 3)
    words, log = (0, 0) if len(shown) == 1 else (needed_words(bits, limit), needed_log(bits, limit))
    first, nodes, outputs = shown[0].removesuffix(" same same"), shown[1:1 + log // 2], shown[1 + log // 2:]
    return [first] + nodes + filled(16 - log, 2) + outputs + filled(96 - words, 16)


def rattle():
    calls = [(16385, 8, 64), (12289, 20, 1), (3073, 9, 0), (0, 24, 64),
             (28681, 0, 65), (28680, 0, 65), (28680, 25, 65), (28680, 25, 64), (28680, 24, 64), (20481, 24, 64)]
    tellings = [(16385, 64), (16385, 0), (MASK, 1), (16385, 65)]
    return [line for call in calls for line in whole(*call)] + [told(*telling) for telling in tellings]


print("\n".join(rattle() if sys.argv[1:] == ["--rattle"] else reels() + trees() + starts() + edges() + orders() + all_told()))
