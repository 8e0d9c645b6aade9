#!/usr/bin/env python3
"""Brings the names of this repository's own definitions, lemmas, fields and constructors to the spelling of today's Rattle, after
port.py: words in snake case, and a dash only where it joins two names, as in length-take. Types and modules keep their capitals.
Functions of src/, exported names, strings, inputs and outputs keep their names. Run once, at the top of the repository.

usage: python3 tools/spelling.py [--dry]
"""
import collections
import os
import re
import sys

NAME = re.compile(r"[^\W\d][\w'₀-₉?]*(?:-[\w'₀-₉?]+)*")
DEFINED = re.compile(r"^\s*(?:(?:abbrev|unfoldable|pub|data|record)\s+)*(" + NAME.pattern + r")\s*:\s", re.M)
# a lemma that port.py gave the name that its definition has now gets `_lem`
LEMMAS = {"read_number": "read_number_lem", "seq_node": "seq_node_lem", "top_from": "top_from_lem"}
# words of the library that a lemma's name joins to a name
LIBRARY = set(
    "length take drop append replicate get_or set map flatten min max suc zero true false paste list mod div add sub mul pow eqb ltb leb "
    "get_elem head tail nil cons concat reverse sum xor and or not shl shr words bits".split()
)


def snake(part):
    if not re.match(r"[a-z]", part):
        return part
    part = re.sub(r"([a-z0-9'])([A-Z])", r"\1_\2", part)
    return re.sub(r"([A-Z])([A-Z][a-z])", r"\1_\2", part).lower()


def texts():
    for folder, dirs, files in os.walk("crates"):
        dirs[:] = sorted(d for d in dirs if d != "out")
        for f in sorted(files):
            if f.endswith((".antt", ".rt", ".edit")):
                yield os.path.join(folder, f)


def spelled(name, known):
    parts = [snake(p) for p in name.split("-")]
    said = parts[0]
    for before, part in zip(parts, parts[1:]):
        said += ("-" if before in known and part in known else "_") + part
    return said


def walked(path):
    """A function's own proof, whose names are Rattle's."""
    return path.endswith("Proof.antt")


def main(argv):
    files = {p: open(p, encoding="utf-8").read() for p in texts()}
    own = set()
    for p, t in files.items():
        if p.endswith(".antt") and not walked(p):
            own |= {m.group(1) for m in DEFINED.finditer(re.sub(r"--.*", "", t))}
    imported = set()
    crates = set(os.listdir("crates"))
    use = re.compile(r"^\s*(?:ghost )?use ([\w.]+)\.\{([^}]*)\}", re.M)
    for t in files.values():
        for m in use.finditer(t):
            path = m.group(1).split(".")
            if path[0] != "Rattle" or path[1] not in crates:
                imported |= set(NAME.findall(m.group(2)))
    own -= imported
    known = {snake(n) for n in own if "-" not in n} | {n.lower() for n in own if n[0].isupper() and "-" not in n}
    known |= {n for n in own if n[0].isupper() and "-" not in n} | LIBRARY
    names = {}
    for n in sorted(own):
        new = LEMMAS.get(n) or spelled(n, known)
        if new != n:
            names[n] = new
    # a lemma that would have its function's name gets `_lem`
    taken = {n for n in own if n not in names} | {new for n, new in names.items() if "-" not in n}
    for n in sorted(names):
        if "-" in n and names[n] in taken:
            names[n] += "_lem"
    back = collections.defaultdict(set)
    for n, new in names.items():
        back[new].add(n)
    for new, olds in sorted(back.items()):
        if len(olds) > 1 or new in taken and any("-" in n for n in olds) or new in imported:
            print("fall together:", new, sorted(olds))
            return 1
    if "--list" in argv:
        for n in sorted(names):
            print(n, names[n])
    if "--dry" not in argv:
        for p, t in files.items():
            here = names
            if walked(p):
                cited = set()
                for m in use.finditer(t):
                    path = m.group(1).split(".")
                    if path[0] == "Rattle" and path[1] in crates and path[-1] not in ("Goals", "Given", "Tie"):
                        cited |= set(NAME.findall(m.group(2)))
                here = {n: new for n, new in names.items() if n in cited or re.search("[a-z][A-Z]", n)}
            new = NAME.sub(lambda m: here.get(m.group(0), m.group(0)), t)
            if new != t:
                with open(p, "w", encoding="utf-8") as f:
                    f.write(new)
    print(len(names), "names")
    return 0


if __name__ == "__main__":
    raise SystemExit(main(sys.argv[1:]))
