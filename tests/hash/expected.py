#!/usr/bin/env python3
"""expected.py MD6REF [--rattle]: the lines that the host rows.c must write, or the program hash_test.

MD6REF is the second program (tests/second/md6ref.c), compiled. Accepted calls are run by it: it prints a line for each node
and then the digest. Bits from a start bit on are cut out here, and given to it as a message of their own. Refusals are those
of document 01's table, numbers 4 and 5 as document 02 has them, and a refused call leaves the output as it was, a5. The default
rounds are worked out from document 02. A call is number, count and output; in C md6_hash does not answer the count.
"""
import subprocess
import sys

ONES = b"\xff" * 2049
REPEATED = bytes(17 * (i % 7 + 1) for i in range(800))


def accepted(message, bits, key, d, limit, rounds, room):
    line = f"{d} {limit} {rounds} {key.hex() or '-'}\n".encode()
    run = subprocess.run([sys.argv[1], "--m108", "--bits", str(bits)], input=line + message, stdout=subprocess.PIPE, check=True)
    lines = run.stdout.decode().split()
    digest = lines[-1]
    return 0, (len(lines) - 1) // 2, digest + "a5" * (room - len(digest) // 2)


def refused(number, room):
    return number, 0, "a5" * room


def reels():
    rows = [(0, 64, 8), (4096, 64, 8), (4097, 64, 8), (16384, 64, 8), (16384, 64, 9), (16385, 64, 8),
            (0, 0, 8), (3073, 0, 8), (12288, 1, 8), (12289, 1, 8)]
    return [accepted(ONES, bits, b"", d, limit, 0, (d + 7) // 8) for bits, limit, d in rows]


def edges():
    abc = b"abc"
    return [
        refused(1, 1),
        accepted(abc, 24, b"", 1, 64, 5, 1),
        accepted(abc, 24, b"", 512, 64, 5, 64),
        refused(1, 66),
        refused(1, 1),
        accepted(abc, 24, b"k" * 64, 8, 64, 5, 1),
        refused(2, 1),
        accepted(abc, 24, b"", 8, 64, 5, 1),
        refused(3, 1),
        accepted(abc, 24, b"", 8, 64, 255, 1),
        accepted(abc, 24, b"", 8, 64, 256, 1),
        accepted(abc, 24, b"", 8, 64, 4095, 1),
        refused(4, 1),
        refused(5, 0),
        refused(5, 1),
        refused(9, 1),
        accepted(abc, 23, b"", 9, 64, 5, 3),
        refused(1, 0),
        refused(2, 0),
        refused(3, 0),
        refused(4, 0),
    ]


def with_rounds(rounds):
    """Document 02, M-108: "Number 4 is now for r over 4,095"."""
    return refused(4, 64) if rounds > 4095 else accepted(ONES, 4097, b"key", 512, 64, rounds, 64)


def each_rounds():
    rows = [254, 255, 256, 273, 274, 546, 547, 3822, 3823, 4094, 4095, 4096, 2 ** 12 + 5, 2 ** 16 + 5, 2 ** 32 + 5, 2 ** 64 - 1]
    return [with_rounds(rounds) for rounds in rows]


def report():
    key = b"abcde12345"
    return [
        accepted(b"abc", 24, b"", 256, 64, 5, 32),
        accepted(REPEATED[:600], 4800, key, 224, 64, 5, 28),
        accepted(REPEATED, 6400, key, 256, 0, 5, 32),
    ]


def cut(message, start, bits):
    """The bits of the bytes, high bit first, without the first `start`, and of these `bits`: as bytes, filled up with zeros."""
    digits = "".join(f"{byte:08b}" for byte in message)[start:start + bits]
    return bytes(int(digits[i:i + 8].ljust(8, "0"), 2) for i in range(0, bits, 8))


def from_start(message, start, bits, limit):
    """Document 02, M-104: "Number 5 is also given for a start bit above 7 or where start and count together pass the bytes'
    bits"."""
    if start > 7 or start + bits > 8 * len(message):
        return refused(5, 8)
    return accepted(cut(message, start, bits), bits, b"", 64, limit, 9, 8)


def starts():
    counts, sequential = (0, 1, 7, 8, 9, 4095, 4096, 4097), (0, 3071, 3072, 3073)
    rows = [(start, bits, limit) for limit in (64, 1, 0) for start in range(8) for bits in (counts if limit else sequential)]
    return [from_start(REPEATED[4:], *row) for row in rows]


def last_bits():
    rows = [row for start in range(8) for row in ((b"", start, 0), (b"abc", start, 24 - start), (b"abc", start, 25 - start))]
    return [from_start(*row, 64) for row in rows]


def refused_starts():
    most = 2 ** 64 - 1
    rows = [(8, 0), (8, 8), (2 ** 32, 8), (most, 0), (most, 1), (most, most), (1, most), (7, most), (7, most - 6), (7, most - 7)]
    return [from_start(b"abc", start, bits, 64) for start, bits in rows] + [refused(5, 8), refused(5, 8), refused(1, 8)]


def by_default(d, key_bytes):
    """Document 02, M-102: "the default is the larger of 80 and 40 + d/4 if the key has any byte"."""
    rounds = 40 + d // 4
    return max(80, rounds) if key_bytes > 0 else rounds


def told(d, key_bytes):
    """M-102: "refuses 1, then 2"."""
    if not 1 <= d <= 512:
        return "1 0"
    if key_bytes > 64:
        return "2 0"
    return f"0 {by_default(d, key_bytes)}"


def defaults():
    sizes = [*range(0, 514), 2**32 + 8, 2**64 - 1]
    return [" ".join(told(d, key_bytes) for key_bytes in (0, 1, 63, 64, 65, 2**32, 2**64 - 1)) for d in sizes]


def all_bits():
    """Messages of ones: the bit counts of the rows above, at each height limit from another start bit on."""
    counts = (0, 1, 7, 8, 9, *range(17, 25), 3071, 3072, 3073, 4095, 4096, 4097, 4800, 6400, 12288, 12289, 16384, 16385)
    return [accepted(ONES, bits, b"key", 9, limit, 0, 3) for bits in counts for limit in (0, 1, 64)]


def orders():
    """Refusals, and all the bits of 2,050 bytes from the last start bit on."""
    return [refused(number, 3) for number in (5, 1, 2, 3, 4, 9)] + [accepted(b"\xff" * 2050, 16393, b"key", 24, 64, 4095, 3)]


def far_out():
    """Start and count whose sum passes 2^64, a start bit and a size of over 32 bits, and no digest bit."""
    return [refused(number, 3) for number in (5, 5, 5, 1, 1)]


def some_told():
    return [f"{told(d, key_bytes)} {by_default(d, key_bytes)}" for d, key_bytes in ((8, 0), (8, 1), (512, 64), (513, 65), (512, 65))]


def lines_from_c():
    calls = reels() + edges() + each_rounds() + report() + starts() + last_bits() + refused_starts()
    return [f"{number} {output}" for number, _, output in calls] + defaults()


def lines_from_rattle():
    """In Rattle the number is told by a call of its own, too."""
    return [f"{number} {number} {count} {output}" for number, count, output in all_bits() + orders() + far_out()] + some_told()


print("\n".join(lines_from_rattle() if sys.argv[2:] == ["--rattle"] else lines_from_c()))
