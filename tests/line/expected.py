#!/usr/bin/env python3
"""The lines of crates/line_test/stdin and what each says, by other means than the library: regular expressions and int().

Writes stdin and stdout of the crate line_test. `expected.py --check` only says whether they are as it would write them.
"""
import os
import random
import re
import sys

NUMBER = re.compile(rb"[0-9]{1,5}")
KEY = re.compile(rb"([0-9a-f]{2})+")
KEPT = 65  # bytes of a key that the library keeps, one more than a key may have


def said(line):
    """What a line says, as line_test writes it."""
    fields = line.split(b" ")
    if len(fields) != 4:
        return "unreadable"
    d, limit, rounds, key = fields
    if not NUMBER.fullmatch(d) or not NUMBER.fullmatch(limit):
        return "unreadable"
    if rounds != b"-" and not NUMBER.fullmatch(rounds):
        return "unreadable"
    if key != b"-" and not KEY.fullmatch(key):
        return "unreadable"
    kept = b"" if key == b"-" else bytes.fromhex(key.decode("ascii"))[:KEPT]
    r = "-" if rounds == b"-" else str(int(rounds))
    return f"{int(d)} {int(limit)} {r} {len(kept)}:{kept.hex()}"


def fixed():
    """Every case that document 01 and its reading name."""
    return [
        b"8 64 0 -", b"512 0 - -", b"00008 064 00 -", b"0 0 0 -", b"99999 99999 99999 -", b"8 64 - 0a9f",
        b"", b"8", b"8 64", b"8 64 0", b"8 64 0 - -", b"8 64 0 00 00", b" ", b"   ", b"    ", b"8   ",
        b" 8 64 0 -", b"8 64 0 - ", b"8  64 0 -", b"8 64 0  -", b"8 64  -", b"8\t64\t0\t-", b"8 64 0 -\r", b"8 64 0 -\0",
        b"+8 64 0 -", b"-8 64 0 -", b"8 64 -0 -", b"8 64 0- -", b"8 64 -- -", b"- 64 0 -", b"8 - 0 -", b"a 64 0 -",
        b"8 0x40 0 -", b"8 64 0. -", b"8 6/ 0 -", b"8 6: 0 -",
        b"000008 64 0 -", b"8 000064 0 -", b"8 64 000000 -", b"100000 64 0 -",
        b"8 64 0 AB", b"8 64 0 aB", b"8 64 0 0g", b"0 64 0 g0", b"8 64 0 a", b"8 64 0 abc", b"8 64 0 ", b"8 64 0 --",
        b"8 64 0 -a", b"8 64 0 a-", b"8 64 0 00-", b"8 64 0 /0", b"8 64 0 :0", b"8 64 0 `0", b"\xff 64 0 -", b"8 64 0 \xff\xff",
    ]


def keys(rng):
    """Keys of every count of digits from 0 to 134, and two long ones."""
    for count in [*range(135), 400, 1501]:
        digits = bytes(rng.choice(b"0123456789abcdef") for _ in range(count))
        yield b"256 64 - " + digits
    yield b"256 64 - " + b"ab" * 700 + b"G0"


def near(rng):
    """A readable line with one byte changed, added or taken away."""
    number = lambda: str(rng.randrange(10 ** rng.randint(1, 6))).zfill(rng.randint(1, 5)).encode("ascii")
    rounds = rng.choice([number(), b"-"])
    key = rng.choice([b"-", bytes(rng.choice(b"0123456789abcdef") for _ in range(2 * rng.randint(1, 12)))])
    line = b" ".join([number(), number(), rounds, key])
    at = rng.randrange(len(line) + 1)
    byte = bytes([rng.choice(b" -0189afgAF/:`@\t\r\x00\xff")])
    kind = rng.randrange(5)
    if kind == 0:
        return line[:at] + byte + line[at:]
    if kind == 1:
        return line[:at] + byte + line[at + 1:]
    if kind == 2:
        return line[:at] + line[at + 1:]
    return line


def main():
    rng = random.Random(6)
    lines = fixed() + list(keys(rng)) + [near(rng) for _ in range(600)]
    text = b"".join(line + b"\n" for line in lines)
    assert len(text) < 65536 and all(b"\n" not in line for line in lines)
    crate = os.path.join(os.path.dirname(os.path.abspath(__file__)), "..", "..", "crates", "line_test")
    made = {"stdin": text, "stdout": "".join(said(line) + "\n" for line in lines).encode("ascii")}
    for name, data in made.items():
        path = os.path.join(crate, name)
        if "--check" in sys.argv[1:]:
            with open(path, "rb") as f:
                if f.read() != data:
                    sys.exit(f"{name} of line_test is not what tests/line/expected.py makes")
        else:
            with open(path, "wb") as f:
                f.write(data)


main()
