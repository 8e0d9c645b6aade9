#!/usr/bin/env python3
"""seal.py LIBRARY FILE: the MD6 digest of a file by the stream's calls, from Python by ctypes.

LIBRARY is the archive of md6_c as a shared library:
    gcc -shared -o libmd6.so -Wl,--whole-archive target/staticlib/libmd6_c.a -Wl,--no-whole-archive
"""
import ctypes
import sys

END_LOG_WORDS = 54
D, LIMIT = 256, 64


class Answer(ctypes.Structure):
    _fields_ = [("number", ctypes.c_uint64), ("count", ctypes.c_uint64)]


def load(path):
    """The library, with the types of the calls that are used here: a slice is a pointer and a length."""
    md6 = ctypes.CDLL(path)
    u64, size = ctypes.c_uint64, ctypes.c_size_t
    words, octets = ctypes.POINTER(u64), ctypes.c_char_p
    md6.md6_default_rounds.argtypes = [u64, u64]
    md6.md6_area_words.argtypes = [u64]
    md6.md6_open.argtypes = [words, size, octets, size, u64, u64, u64]
    md6.md6_log_words.argtypes = [words, size, u64]
    md6.md6_feed.argtypes = [words, size, octets, size, u64, u64, words, size]
    md6.md6_end.argtypes = [words, size, ctypes.POINTER(ctypes.c_uint8), size, words, size]
    for call in (md6.md6_default_rounds, md6.md6_area_words, md6.md6_open, md6.md6_log_words, md6.md6_feed, md6.md6_end):
        call.restype = Answer
    return md6


def accepted(answer):
    if answer.number:
        sys.exit(f"refused {answer.number}")
    return answer.count


def seal(md6, file):
    area_words = accepted(md6.md6_area_words(LIMIT))
    area = (ctypes.c_uint64 * area_words)()
    rounds = accepted(md6.md6_default_rounds(D, 0))
    accepted(md6.md6_open(area, area_words, b"", 0, D, LIMIT, rounds))
    while piece := file.read(1 << 16):
        told = accepted(md6.md6_log_words(area, area_words, 8 * len(piece)))
        log = (ctypes.c_uint64 * told)()
        accepted(md6.md6_feed(area, area_words, piece, len(piece), 0, 8 * len(piece), log, told))
    digest = (ctypes.c_uint8 * (D // 8))()
    log = (ctypes.c_uint64 * END_LOG_WORDS)()
    accepted(md6.md6_end(area, area_words, digest, len(digest), log, END_LOG_WORDS))
    return bytes(digest).hex()


def main():
    if len(sys.argv) != 3:
        sys.exit(__doc__)
    md6 = load(sys.argv[1])
    with open(sys.argv[2], "rb") as file:
        print(f"{seal(md6, file)}  {sys.argv[2]}")


if __name__ == "__main__":
    main()
