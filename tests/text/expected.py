#!/usr/bin/env python3
"""expected.py [--rattle]: the lines that the host rows.c must write, or the program text_test, by documents 01 and 02 alone.

The streams are of ones (or zeros) with r = 0, so that the output of a full block is ones (or zeros) again: "Reels by hand"; a
stream with another r has made no node. In line 1 r has two bytes as of M-108, and had one before: the width of its field.
A text is read exactly if `sound` says at one of the two that it is what writing some sound area gives, or gave. Its area has
the words that document 02, M-109, gives for its L: "16 words plus 64 times the smaller of L + 1 and 27".
"""
import re
import sys

KEY = b"key"
LEVELS = 27
MOST_ROUNDS = 4095
NEW, OLD = 2, 1


def area_words(limit):
    return 16 + 64 * min(limit + 1, LEVELS)


def state(total, limit, ended):
    """The compressions made, and for each level that has a line the bits of an output kept and the bits held."""
    made, lines = 0, {}
    arrived, width = total, 1
    for level in range(1, LEVELS + 1):
        sequential = level == limit + 1
        block = (3072 if sequential else 4096) // width
        # level 1 keeps its last block, full or not; a higher level's full block is compressed, as a later bit has come
        nodes = max(arrived - 1, 0) // block if level == 1 else arrived // block
        held = width * (arrived - nodes * block)
        made += nodes
        if held or (sequential and nodes):
            lines[level] = (1024 if sequential else 0, bool(nodes), held)
        if sequential:
            break
        arrived, width = nodes, 1024
    if not ended:
        return made, lines
    return nodes_of_tree(total, limit), {}


def nodes_of_tree(total, limit):
    count, blocks = 0, max(1, -(-total // (4096 if limit else 3072)))
    for level in range(1, LEVELS + 1):
        count += blocks
        if level == limit + 1 or blocks == 1:
            return count
        blocks = -(-blocks // (3 if level == limit else 4))
    return count


def line_1(width, phase, r, limit, key_bytes, d, total, made):
    return f"{phase:02x}{r:0{2 * width}x}{limit:02x}{key_bytes:02x}{d:04x}{total:016x}{made:016x}\n"


def text_of(width, total, limit, bit="1", ended=False, r=0):
    made, lines = state(total, limit, ended)
    text = line_1(width, 2 if ended else 1, r, limit, len(KEY), 8, total, made) + KEY.hex().ljust(128, "0") + "\n"
    for level, (place, output, held) in lines.items():
        bits = ((bit if output else "0") * place + bit * held).ljust(4096, "0")
        text += f"{level:02x}{int(bits, 2):01024x}\n"
    return text.encode()


def sound(width, text):
    """Whether some sound area writes this text, with r in so many bytes."""
    form = re.fullmatch(rb"([0-9a-f]{%d})\n([0-9a-f]{128})\n((?:[0-9a-f]{1026}\n)*)" % (42 + 2 * width), text)
    if not form:
        return False
    head, key, rest = (part.decode() for part in form.groups())
    fields = re.fullmatch("(..)(%s)(..)(..)(.{4})(.{16})(.{16})" % (".." * width), head)
    phase, r, limit, key_bytes, d, total, made = (int(field, 16) for field in fields.groups())
    if phase not in (1, 2) or r > MOST_ROUNDS or limit > 64 or key_bytes > 64 or not 1 <= d <= 512:
        return False
    if key[2 * key_bytes:].strip("0"):
        return False
    count, lines = state(total, limit, phase == 2)
    found = [(int(line[:2], 16), f"{int(line[2:], 16):04096b}") for line in rest.splitlines()]
    if made != count or [level for level, _ in found] != list(lines):
        return False
    for level, bits in found:
        place, output, held = lines[level]
        if "1" in bits[place + held:] or (not output and "1" in bits[:place]):
            return False
    return True


def suspended(name, *stream, r=0, **more):
    """The text is written, and read into just enough words. Then what writing gave before M-108 is (with an r over 255, that of its
    low byte), and the area that it gives writes the new form again, which is read into as many words as at first."""
    low = r % 256
    new = text_of(NEW, *stream, r=r, **more)
    old = text_of(OLD, *stream, r=low, **more)
    again = text_of(NEW, *stream, r=low, **more)
    for text in (new, old, again):
        assert read_number(text, area_words(stream[1])) == 0
    same = "same" if r == low else "changed"
    print(f"{name} 0 {len(new)} 0 0 same\n{new.decode()}", end="")
    print(f"old {name} 0 0 {same}\n{old.decode()}", end="")
    print(f"again 0 {len(again)} 0 0 {same}\n{again.decode()}", end="")


def read_number(text, words):
    """M-109: "reading tests 11 and then 7", by the L of the text."""
    width = next((width for width in (NEW, OLD) if sound(width, text)), 0)
    if not width:
        return 11
    return 7 if words < area_words(int(text[2 + 2 * width:4 + 2 * width], 16)) else 0


def read_into(words, name, text):
    number = read_number(text, words)
    print(name, number, 0, "same" if number else "changed")


def read(name, text):
    """A text is read, and then the same without the two digits behind the phase: the old form, if the text was in the new one."""
    read_into(1750, name, text)
    read_into(1750, f"old {name}", text[:2] + text[4:])


def too_few(words, limit):
    assert words < area_words(limit)
    text = text_of(NEW, 12289, limit)
    print("write 7 0 a5")
    read_into(words, "read", text)
    read_into(words, "read-damaged", b" " + text[1:])


def suspensions():
    suspended("empty", 0, 64)
    suspended("one", 1, 64)
    suspended("zero", 1, 64, "0")
    suspended("full", 4096, 64)
    suspended("later", 4097, 64)
    suspended("sequential", 3073, 0)
    suspended("joined", 4097, 1)
    suspended("ended", 4097, 64, ended=True)
    suspended("longest", 2 ** 64 - 1, 64, "0")
    for r in (255, 256, 4095):
        suspended(f"rounds-{r}", 1, 64, r=r)


BASE = text_of(NEW, 4097, 64)
HEAD, LEVEL_1, LEVEL_2 = BASE[:176], BASE[176:1203], BASE[1203:]
assert BASE[:2] + BASE[4:] == text_of(OLD, 4097, 64)


def head(phase=1, r=0, limit=64, key_bytes=3, d=8, total=4097, made=1):
    return line_1(NEW, phase, r, limit, key_bytes, d, total, made).encode() + BASE[47:]


def changed(at, new):
    assert BASE[at:at + len(new)] != new
    return BASE[:at] + new + BASE[at + len(new):]


def damages():
    read("nothing", b"")
    read("undamaged", BASE)
    read("last-byte-missing", BASE[:-1])
    read("trailing-line-feed", BASE + b"\n")
    read("trailing-digit", BASE + b"0")
    read("carriage-return", BASE[:-1] + b"\r")
    read("capital", changed(47, b"6B"))
    read("space", changed(4, b"0 "))
    for phase in (0, 2, 3):
        read(f"phase-{phase}", head(phase=phase))
    read("limit-65", head(limit=65))
    for key_bytes in (65, 2):
        read(f"key-bytes-{key_bytes}", head(key_bytes=key_bytes))
    for d in (0, 513):
        read(f"d-{d}", head(d=d))
    for r in (255, 256, 4095, 4096, 65535):
        read(f"r-{r}", head(r=r))
    read("r-space", changed(2, b" "))
    read("r-capital", changed(4, b"F"))
    # a bit more is a bit that is held: 4,098 bits, the last one zero
    for total in (4096, 4098):
        read(f"total-{total}", head(total=total))
    for made in (0, 2):
        read(f"compressions-{made}", head(made=made))
    read("unused-key-byte", changed(53, b"01"))
    read("unheld-bit", changed(176 + 2, b"c"))
    read("unheld-word", changed(1203 + 2 + 256, b"1"))
    read("level-1-left-out", HEAD + LEVEL_2)
    read("level-2-left-out", HEAD + LEVEL_1)
    read("level-2-twice", BASE + LEVEL_2)
    read("levels-falling", HEAD + b"02" + LEVEL_1[2:] + b"01" + LEVEL_2[2:])
    read("level-0", HEAD + LEVEL_1 + b"00" + LEVEL_2[2:])
    read("level-28", HEAD + LEVEL_1 + b"1c" + LEVEL_2[2:])
    read("zeros", text_of(NEW, 1, 64) + b"02" + b"0" * 1024 + b"\n")


def shifts():
    for at in (0, 2, 6, 8, 10, 14, 30, 44, 47, 173, 176, 1203, 2227):
        print("at", at)
        read("one-left-out", BASE[:at] + BASE[at + 1:])
        read("two-left-out", BASE[:at] + BASE[at + 2:])
        read("one-twice", BASE[:at + 1] + BASE[at:])
        read("two-twice", BASE[:at + 2] + BASE[at:])


def lengths():
    for limit in (0, 1, 2, 25, 26, 27, 64):
        suspended("limit", 12289, limit)
        too_few(area_words(limit) - 1, limit)
    too_few(80, 64)
    for words in range(17):
        too_few(words, 0)
    # word 4, r or word 15 is out of range
    for _ in range(8):
        print("write 7 0 a5")
    print("output-short 9 0", "a5" * 175)
    print("output-long 0 176", text_of(NEW, 0, 64).hex() + "a5" * 2)


def passed(text, words, room):
    """A text is read into so many words of junk, and what is there then written to so many bytes."""
    number = read_number(text, words)
    print(number, 0, "same" if number else "changed", "same", end=" ")
    written = text_of(NEW, 0, 0)
    if number or room < len(written):
        print(7 if number else 9, 0, "a5" * room)
    else:
        print(0, len(written), written.hex() + "a5" * (room - len(written)))


def rattle():
    text, old = text_of(NEW, 0, 0), text_of(OLD, 0, 0)
    for row in ((text, 82, 178), (old, 82, 178), (text, 80, 176), (text, 80, 175), (text, 79, 178), (old, 79, 178), (b"0", 82, 178)):
        passed(*row)


if sys.argv[1:] == ["--rattle"]:
    rattle()
else:
    suspensions()
    damages()
    shifts()
    lengths()
