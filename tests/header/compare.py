"""Compares include/md6.h with the exports of crates/md6_c and the struct Answer of crates/refusals. --self: faults must be found."""
import re
import sys

SLICES = {"&[u8]": "const uint8_t *", "&mut [u8]": "uint8_t *", "&[u64]": "const uint64_t *", "&mut [u64]": "uint64_t *"}
SIZES = {"8": "_bytes", "64": "_words"}
LENT_WORDS = {"words": "words_count"}  # a slice that is itself called words


def exported(source):
    """name -> (parameters as C declares them, result) of each export; without the attribute before it a function has no name for C"""
    out = {}
    for name, params, result in re.findall(r'^#\[unsafe\(no_mangle\)\]\npub extern "C" fn (\w+)\(([^)]*)\)\s*->\s*([\w:]+)', source, re.M):
        c = []
        for p in [x.strip() for x in params.split(",") if x.strip()]:
            n, t = [x.strip() for x in p.split(":", 1)]
            if t in SLICES:
                c.append(SLICES[t] + n)
                c.append("size_t " + LENT_WORDS.get(n, n + SIZES[re.search(r"u(\d+)", t)[1]]))
            elif t == "u64":
                c.append("uint64_t " + n)
            else:
                c.append("unknown " + t)
        out[name] = (c, {"u64": "uint64_t", "refusals::Answer": "md6_answer"}.get(result, "unknown " + result))
    return out


def declared(header):
    """the same, as the header has it"""
    text = re.sub(r"/\*.*?\*/", "", header, flags=re.S)
    out = {}
    for result, name, params in re.findall(r"(uint64_t|md6_answer) (md6_\w+)\(([^)]*)\);", text):
        out[name] = ([" ".join(x.split()).replace("* ", "*") for x in params.split(",")], result)
    return out


def faults(header, source, answer):
    found = []
    e, d = exported(source), declared(header)
    for name in sorted(set(e) | set(d)):
        if e.get(name) != d.get(name):
            found.append("%s: the source has %s, the header %s" % (name, e.get(name), d.get(name)))
    fields = re.findall(r"pub (\w+): u64", re.search(r"^#\[repr\(C\)\]\n(?:#\[derive\([\w, ]+\)\]\n)?pub struct Answer \{(.*?)\}", answer, re.S | re.M)[1])
    words = re.search(r"typedef struct \{\s*uint64_t ([^;]*);\s*\} md6_answer;", header)[1].replace(" ", "").split(",")
    if fields != words:
        found.append("md6_answer: the source has %s, the header %s" % (fields, words))
    return found, len(e)


files = [open(p, encoding="utf-8").read() for p in ("include/md6.h", "crates/md6_c/src/lib.rt", "crates/refusals/src/lib.rt")]
if "--self" in sys.argv:
    h, s, n = files
    wrong = [
        (h, s, n.replace("pub number: u64,\n    pub count: u64,", "pub count: u64,\n    pub number: u64,", 1)),
        (h, s.replace("limit: u64,\n    rounds: u64,", "rounds: u64,\n    limit: u64,", 1), n),
        (h.replace("uint64_t d, uint64_t limit", "uint64_t limit, uint64_t d", 1), s, n),
        (h.replace("const uint8_t *text", "uint8_t *text", 1), s, n),
        (h.replace("const uint8_t *digest", "uint8_t *digest", 1), s, n),
        (h, s.replace("words: &mut [u64],\n    log: &mut [u64],", "log: &mut [u64],\n    words: &mut [u64],", 1), n),
        (h, s.replace("#[unsafe(no_mangle)]\n", "", 1), n),
    ]
    missed = [i for i, w in enumerate(wrong) if w == tuple(files) or not faults(*w)[0]]
    print("self-test: %d faults put in, %s" % (len(wrong), "not found: %s" % missed if missed else "each found"))
    sys.exit(1 if missed else 0)
found, count = faults(*files)
for f in found:
    print("FAIL: " + f)
print("%d calls compared, %d differ" % (count, len(found)))
sys.exit(1 if found or not count else 0)
