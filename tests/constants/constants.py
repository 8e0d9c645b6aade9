"""constants.py TABLE: exit with an error unless the numbers in TABLE's parts are S of the rounds 0 to 4,094, in order and no more.

S_0 is 0x0123456789abcdef, and S_(j+1) is (S_j rotated left by 1) xor (S_j and 0x7311c2812425cfa0): the report, section 2.5. It is
computed on strings of 64 binary digits, and not as crates/constants/src/table.py does it.
"""
import re
import sys


def binary(n):
    return format(n, "064b")


MASK = binary(0x7311C2812425CFA0)


def following(s):
    rotated = s[1:] + s[0]
    return "".join("1" if (r == "1") != (b == m == "1") else "0" for r, b, m in zip(rotated, s, MASK))


with open(sys.argv[1], encoding="utf-8") as f:
    body = f.read().split("= [", 1)[1]
entries = [binary(int(n, 0)) for n in re.findall(r"\w+", body)]
if len(entries) != 4095:
    sys.exit(f"{len(entries)} entries")
s = binary(0x0123456789ABCDEF)
for j, entry in enumerate(entries):
    if entry != s:
        sys.exit(f"entry {j} is {int(entry, 2):#018x}, and S of round {j} is {int(s, 2):#018x}")
    s = following(s)
