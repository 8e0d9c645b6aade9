#!/usr/bin/env python3
"""compare.py OURS SECOND [SEED]: run the program of document 01 and the second program on the same inputs and compare what
they print, byte for byte: the node lines, the digest and the refusals. The second program takes its default rounds by M-102 and
the range of r by M-108.

Edge inputs first (lines that are not read, refusals, the examples of the report), then random ones; the seed is printed.
Then lines with `-` for r against the second program with the rounds that the report gives them. Then inputs that come in
many reads: each piece is written to a pipe when the program has read the one before it.
"""
import fcntl
import os
import random
import struct
import subprocess
import sys
import tempfile
import termios

BLOCK_EDGES = [0, 384, 512, 768, 1024, 1536, 2048, 6144, 8192, 24576, 32768, 98304, 131072]
ROUND_EDGES = [255, 256, 257, 273, 274, 546, 547, 4094, 4095, 4096, 4097, 8191, 65535, 65536, 65541]
SECOND = ("--m102", "--m108")
RANDOM_INPUTS = 1100
RANDOM_ROUNDS = 300
RANDOM_CUTS = 150
BUFFER = 65536

# what documents 01 and 02 say of these inputs
TOLD = [
    (b"8 64 0 -\n", b"0100000000000000 0000401100000008\n00\n"),
    (b"", b"refused line\n"),
    (b"\n", b"refused line\n"),
    (b"8 64 0 -", b"refused line\n"),
    (b"0 65 4096 gg\n", b"refused line\n"),
    (b"0 64 - -\n", b"refused 1\n"),
    (b"513 64 - -\nabc", b"refused 1\n"),
    (b"99999 65 4096 " + b"5a" * 5000 + b"\n", b"refused 1\n"),
    (b"8 65 4096 " + b"5a" * 5000 + b"\n", b"refused 2\n"),
    (b"8 65 4096 -\n", b"refused 3\n"),
    # number 4 is for r over 4,095 (document 02, M-108)
    (b"8 64 4096 -\n", b"refused 4\n"),
    (b"8 64 99999 -\nabc", b"refused 4\n"),
    # the key's digits decide about the default before any refusal (document 02, M-102)
    (b"128 64 - " + b"5a" * 65 + b"\nabc", b"refused 2\n"),
    (b"128 65 - " + b"5a" * 66 + b"\n", b"refused 2\n"),
    (b"0 64 - " + b"5a" * 65 + b"\n", b"refused 1\n"),
    (b"513 65 - 5a\n", b"refused 1\n"),
    (b"128 65 - 5a\n", b"refused 3\n"),
]

# default rounds as the report has them: d, key bytes, r (formula 2.1 without a key, 2.2 with one)
REPORT_ROUNDS = [
    (128, 0, 72), (159, 0, 79), (160, 0, 80), (224, 0, 96), (256, 0, 104), (384, 0, 136), (512, 0, 168),
    (1, 1, 80), (128, 1, 80), (128, 16, 80), (128, 64, 80), (159, 1, 80), (160, 1, 80), (164, 1, 81), (256, 1, 104), (256, 64, 104), (512, 64, 168),
]


def line(d="256", limit="64", r="-", key="-"):
    return f"{d} {limit} {r} {key}\n".encode()


def edge_lines():
    """First lines that are not read, and such that are refused by a number or are just read."""
    good = b"8 64 0 -"
    yield from (b"", b"\n", b"8", good, b" " + good + b"\n", good + b" \n", good + b"\r\n", b"8  64 0 -\n", b"8\t64 0 -\n", b"8 64 0\n")
    yield from (b"8 64 0 - -\n", b"- 64 0 -\n", b"8 - 0 -\n", b"+8 64 0 -\n", b"-8 64 0 -\n", b"000008 64 0 -\n", b"8 000064 0 -\n")
    yield from (b"8 64 000000 -\n", b"8 64 0 A0\n", b"8 64 0 a\n", b"8 64 0 abc\n", b"8 64 0 ag\n", b"8 64 0 --\n", b"8 64 0 \n", b"8 64 -- -\n")
    yield from (b"8 64 -1 -\n", b"8 64 1- -\n", b"8 64 0 -a\n", b"8 64 0 a-\n", b"8 64 0x0 -\n", b"8.0 64 0 -\n", b"8 64 0 0A\n", b" \n", b"   \n")
    yield from (b"0 65 4096 gg\n", b"00008 00064 00000 -\n", b"0 64 0 -\n", b"99999 64 0 -\n", b"8 99999 0 -\n", b"8 64 99999 -\n", b"00000 64 - -\n")
    yield from (b"513 64 - 00\n", b"512 64 - 00\n", b"513 65 4096 " + b"00" * 65 + b"\n", b"512 65 4096 " + b"00" * 65 + b"\n", b"512 65 4096 -\n")
    yield from (b"512 64 04096 -\n", b"512 64 04095 -\n", b"1 0 0 -\n", b"\x008 64 0 -\n", b"8 64 0 \xff\xff\n", b"8 64 0 -\n8 64 0 -\n", b"8 64 0 00\x00\n")
    for rounds in ROUND_EDGES:
        yield line("512", "64", str(rounds))
    for digits in range(0, 131):
        yield b"64 3 1 " + b"5a" * (digits // 2) + b"5" * (digits % 2) + b"\n"
    yield b"64 3 1 " + b"5a" * 100000 + b"\n"
    yield b"64 3 1 " + b"5a" * 100000 + b"5\n"
    yield b"64 3 1 " + b"5a" * 100000 + b"G\n"


def inputs(rng):
    message = b"a message\n\r\x00 of some bytes"
    for first in edge_lines():
        yield first
        yield first + message
    yield line("256", "64", "5") + b"abc"
    yield line("224", "64", "5", b"abcde12345".hex()) + (bytes.fromhex("11223344556677") * 100)[:600]
    yield line("256", "0", "104") + (bytes.fromhex("11223344556677") * 200)[:800]
    for d in (1, 2, 127, 128, 129, 158, 159, 160, 161, 163, 164, 256, 511, 512):
        for key_bytes in (0, 1, 2, 63, 64, 65):
            yield line(str(d), "64", "-", rng.randbytes(key_bytes).hex() or "-") + message
    for limit in range(0, 66):
        yield line("256", str(limit), "1") + rng.randbytes(40000)
    for edge in BLOCK_EDGES:
        for limit in (0, 1, 2, 3, 64):
            for step in (-1, 0, 1):
                yield line("9", str(limit), "1", "00") + b"\xff" * max(0, edge + step)
    for size in (1 << 20, 3 * 1000 * 1000, (1 << 21) + 1):
        for limit in (0, 1, 4, 64):
            yield line("512", str(limit), "1") + rng.randbytes(size)
    for _ in range(RANDOM_INPUTS):
        d = str(rng.randint(1, 512)).zfill(rng.randint(0, 5))
        r = rng.choice(["-", str(rng.randint(0, 12)), str(rng.randint(0, 255))])
        key = rng.choice(["-", rng.randbytes(rng.randint(1, 64)).hex()])
        size = max(0, rng.choice(BLOCK_EDGES) + rng.randint(-2, 2)) if rng.random() < 0.6 else rng.randint(0, 20000)
        yield line(d, str(rng.choice([0, 1, 2, 3, 4, 5, 26, 27, 63, 64])), r, key) + rng.randbytes(size)
    # r of the whole range, and messages of a few blocks
    for _ in range(RANDOM_ROUNDS):
        r = rng.choice([rng.randint(256, 4095), rng.randint(256, 4095), rng.choice(ROUND_EDGES)])
        key = rng.choice(["-", rng.randbytes(rng.randint(1, 64)).hex()])
        yield line(str(rng.randint(1, 512)), str(rng.choice([0, 1, 2, 64])), str(r), key) + rng.randbytes(rng.randint(0, 2600))


def in_pieces(data, size):
    return [data[i : i + size] for i in range(0, len(data), size)]


def long_line(size):
    """A first line of so many bytes, byte 10 not counted: a key of thousands of digits."""
    return b"64 3 1 " + b"5a" * ((size - 7) // 2) + b"5" * ((size - 7) % 2)


def cut_inputs(rng):
    """Inputs as lists of pieces, none longer than the program's buffer: each is one read."""
    message = rng.randbytes(1300)
    for data, _ in TOLD:
        for size in (1, 2, 3, 7):
            yield in_pieces(data, size)
    for limit in ("0", "1", "64"):
        data = line("160", limit, "-", "00ff10") + message
        for size in (1, 2, 3, 5, 8, 511, 512, 513):
            yield in_pieces(data, size)
    yield in_pieces(line("512", "2", "1") + rng.randbytes(9000), 1)
    # byte 10 as the last byte of a read, as the first of the next, and as a read of its own
    first = line("256", "64", "5", "a1" * 64)
    for cut in (len(first) - 1, len(first), len(first) + 1):
        yield [(first + message)[:cut], (first + message)[cut:]]
    yield [first[:-1], b"\n", message]
    yield [first[:-1], b"\n"]
    yield [first, b"\n", b"\n" + message]
    # first lines that end about where the buffer does
    for size in range(BUFFER - 3, BUFFER + 4):
        yield in_pieces(long_line(size) + b"\n" + message, BUFFER)
    yield in_pieces(long_line(3 * BUFFER), BUFFER)
    yield in_pieces(long_line(3 * BUFFER) + b"\n" + message, 4099)
    # a message whose reads are full, and such that a read makes many nodes
    for limit in ("0", "1", "64"):
        yield in_pieces(line("8", limit, "0") + rng.randbytes(5 * BUFFER), BUFFER)
    for _ in range(RANDOM_CUTS):
        data = line(str(rng.randint(0, 514)), str(rng.randint(0, 65)), rng.choice(["-", "0", "2", "4095"]), rng.choice(["-", "5a" * rng.randint(0, 66)]))
        data += rng.randbytes(rng.choice([0, 1, 511, 512, 513, 2048, 2049, 30000]))
        cuts = sorted(rng.randint(0, len(data)) for _ in range(rng.randint(1, 12)))
        pieces = [data[a:b] for a, b in zip([0] + cuts, cuts + [len(data)])]
        yield [piece for piece in pieces if piece]


def unread(fd):
    return struct.unpack("i", fcntl.ioctl(fd, termios.FIONREAD, b"\0" * 4))[0]


def run_cut(program, pieces):
    """What the program prints if each piece comes to it as a read; it may stop reading after a refusal."""
    with tempfile.TemporaryFile() as out, subprocess.Popen([program], stdin=subprocess.PIPE, stdout=out) as p:
        fd = p.stdin.fileno()
        try:
            for piece in pieces:
                if os.write(fd, piece) != len(piece):
                    raise OSError("a piece is longer than the pipe")
                while unread(fd) > 0 and p.poll() is None:
                    os.sched_yield()
        except BrokenPipeError:
            pass
        try:
            p.stdin.close()
        except BrokenPipeError:
            pass
        status = p.wait()
        out.seek(0)
        return out.read(), status


class Tally:
    def __init__(self):
        self.count = self.bad = 0

    def add(self, data, found, status, expected, cut=""):
        self.count += 1
        if found != expected or status != 0:
            self.bad += 1
            if self.bad <= 5:
                print("differs on", data[:80], "of", len(data), "bytes" + cut + ":", found[:60], "for", expected[:60])


def whole(program, data, *flags):
    run = subprocess.run([program, *flags], input=data, capture_output=True, check=False)
    return run.stdout, run.returncode


def by_default(rng):
    """Inputs with `-` for r, and the same with the rounds of the report."""
    for d, key_bytes, rounds in REPORT_ROUNDS:
        key = rng.randbytes(key_bytes).hex() or "-"
        for limit in ("0", "64"):
            message = rng.randbytes(rng.randint(0, 3000))
            yield line(str(d), limit, "-", key) + message, line(str(d), limit, str(rounds), key) + message


def main():
    ours, second = sys.argv[1], sys.argv[2]
    seed = int(sys.argv[3]) if len(sys.argv) > 3 else random.randrange(1 << 32)
    rng = random.Random(seed)
    all_at_once, defaults, in_reads = Tally(), Tally(), Tally()
    for data, expected in TOLD:
        all_at_once.add(data, *whole(ours, data), expected)
    for data in inputs(rng):
        all_at_once.add(data, *whole(ours, data), whole(second, data, *SECOND)[0])
    for data, given in by_default(rng):
        defaults.add(data, *whole(ours, data), whole(second, given)[0])
    told = dict(TOLD)
    for pieces in cut_inputs(rng):
        data = b"".join(pieces)
        expected = told[data] if data in told else whole(second, data, *SECOND)[0]
        in_reads.add(data, *run_cut(ours, pieces), expected, f" in {len(pieces)} reads")
    rows = (("inputs", all_at_once, 1800), ("by default rounds", defaults, 2 * len(REPORT_ROUNDS)), ("inputs in many reads", in_reads, 220))
    for what, tally, least in rows:
        print(f"seed {seed}: {tally.count} {what}, {tally.bad} differ")
        if tally.bad or tally.count < least:
            sys.exit(1)


if __name__ == "__main__":
    main()
