#!/usr/bin/env python3
"""expected.py REPORT: print what the program compress_test must print, from the text of the MD6 report (April 2009):

    python3 tests/appendix_c/expected.py tests/appendix_c/report.txt > crates/compress_test/stdout

Appendix C prints, for each of seven nodes, the words A[0] to A[88] of the window, then (C.1 and C.2, r = 5) all words to
A[168], or (C.3, r = 104) the output A[1737] to A[1752]: 991 words in all. They are printed here as they stand in the text,
one to a line, in the order of the text. Nothing is computed from MD6's definition.
"""
import re
import sys

# Six of the 991 words are misprinted in the text; the line `misprint` stands for each, as (node, index): nodes are counted
# from 0 in the order of the text.
MISPRINTED = {
    (0, 102): "15 digits; the same word is whole at node 2, A[102]",
    (0, 135): "fdcdcaaa for fdfdcaaa: the words after it follow from the second only",
    (2, 132): "15 digits",
    (2, 138): "15 digits",
    (3, 51): "acdccc24 for acdccf24: it repeats A[163] of node 2, which is right",
    (3, 102): "15 digits; the same word is whole at node 2, A[102]",
}


def nodes(text):
    """The words of each node, by their index."""
    start = text.index("### C.1 First example")
    found = []
    for line in text[start:].splitlines():
        if line.startswith("## Appendix"):
            break
        if "MD6 compression function computation (level" in line:
            found.append({})
        word = re.match(r"\s*A\[\s*(\d+)\]\s*=\s*([0-9a-f]+)", line)
        if word:
            index = int(word[1])
            assert index not in found[-1], line
            found[-1][index] = word[2]
    return found


def main():
    if len(sys.argv) != 2:
        sys.exit(__doc__)
    with open(sys.argv[1], encoding="utf-8") as report:
        found = nodes(report.read())
    assert sum(len(words) for words in found) == 991
    whole, ends = list(range(169)), list(range(89)) + list(range(1737, 1753))
    assert [list(words) for words in found] == [whole] * 4 + [ends] * 3
    for node, words in enumerate(found):
        for index, word in words.items():
            if (node, index) in MISPRINTED:
                print("misprint")
            else:
                assert len(word) == 16, (node, index, word)
                print(word)


if __name__ == "__main__":
    main()
