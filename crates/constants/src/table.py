"""Prints table.rt, which stands beside this script: the constants of all rounds, in so many parts of so many constants."""
PARTS, PART = 15, 273

print(f"// Made by table.py: S of each round, in parts of {PART}; entry j of part p is S of round {PART} * p + j. That it is so is the")
print("// contract of `round_constants`.")
print(f"pub static ROUND_CONSTANTS: [[u64; {PART}]; {PARTS}] = [")
s = 0x0123456789ABCDEF
for _ in range(PARTS):
    print("    [")
    for _ in range(PART):
        print(f"        {s:#018x},")
        s = (s << 1 & 2**64 - 1 | s >> 63) ^ (s & 0x7311C2812425CFA0)
    print("    ],")
print("];")
