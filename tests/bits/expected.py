#!/usr/bin/env python3
"""What the program bits_test must write, worked out without our code: each fill bit by bit, on lists of single bits.

    python3 tests/bits/expected.py > crates/bits_test/stdout
"""


def bits_of(numbers, width):
    """The bits of numbers of `width` bits each, high bit first."""
    return [int(c) for n in numbers for c in format(n, f"0{width}b")]


def words_of(bits):
    return [int("".join(map(str, bits[i : i + 64])), 2) for i in range(0, len(bits), 64)]


message = bits_of([(i * 37 + 11) % 256 for i in range(33)], 8)
for k in range(80):
    at, start, count = k * 11 % 67, 8 * (k % 9) + k % 8, k * 29 % 190
    block = bits_of([0xFFFFFFFF00000000, 0x0123456789ABCDEF, 0, 0xFFFFFFFFFFFFFFFF], 64)
    for i in range(count):
        block[at + i] = message[start + i]
    print("".join(f"{w:016x} " for w in words_of(block)))
print("0123456789abcdef")
print("".join(f"{c}={int(c, 16)} " for c in "0123456789abcdef"))
