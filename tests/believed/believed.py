#!/usr/bin/env python3
"""Which files of definitions the contracts and the theorems rest on, worked out by name from the sources, and whether
docs/PROOFS.md, "What has to be believed", lists exactly these.

    believed.py [ROOT]      checks the repository in ROOT (the current folder); exit status 0 only if all holds
    believed.py --all       also prints a chain of names for each file that is reached
    believed.py --self      shows that the check can fail: on a copy, with one fault put in at a time

A `crate/File` is crates/crate/specs/File.antt or else crates/crate/proofs/File.antt, where laws and examples may stand.
Roots are the contracts of the public calls and their exports, those of the functions that docs/PROOFS.md names as
`crate::function`, and the names that it cites after a `crate/File`. Of a theorem the statement counts and not the proof;
of a definition all of it. From each name to the names in it, and so on. A file that has a definition so reached has to
be believed.

A text is refused where this script and the prover could read it in two ways: comments in `/* */` and `{- -}`, a name
that a file brings in or declares twice, an attribute that is not known here, an item or a clause that does not stand as
`rt fmt` lays it out.
"""
import os
import re
import shutil
import sys
import tempfile

# The public calls, a line each: the call, crate/file of the source that has it, which its own crate's lib passes on if it is
# another, and the definition that its contract is an equation with. Their contracts are roots, and none may have a `requires`.
# First the fifteen, then those of the program.
EQUATIONS = [
    ("hash::hash", "hash/lib", "hash_of"),
    ("hash::default_rounds", "hash/lib", "default_rounds_of"),
    ("layers::layers", "layers/lib", "layers_of"),
    ("layers::layer_words", "layers/lib", "layer_words_of"),
    ("layers::layer_log_words", "layers/lib", "layer_log_words_of"),
    ("stream::open", "stream/lib", "open_of"),
    ("stream::feed", "stream/lib", "feed_of"),
    ("stream::end", "ending/lib", "end_of"),
    ("stream::preview", "ending/lib", "preview_of"),
    ("stream::close", "ending/lib", "close_of"),
    ("stream::level", "stream/lib", "level_of"),
    ("stream::log_words", "stream/lib", "log_words_of"),
    ("stream::area_words", "stream/lib", "area_words_of"),
    ("text::write", "text/lib", "write_of"),
    ("text::read", "text/lib", "read_of"),
    ("program::Program::new", "program/lib", "start_of"),
    ("program::take", "program/lib", "took_of"),
    ("program::finish", "program/lib", "took_last_of"),
]
CALLS = [(call, key) for call, key, _ in EQUATIONS]
# A contract is its equation alone, but for this call's, which also says where the part that it gives back stands.
CLAUSES = {"stream::level": 2}
# The crate whose exports are roots too, all of them: each has the contract of the call with its name, but for this one, which
# answers the number alone.
EXPORTS = "md6_c"
NUMBER_ALONE = "md6_hash"
# What else the crates of these calls have that is public: parts of calls that other crates use.
SHARED = {"hash::check", "hash::rounds_by_default"}

PAGE = "docs/PROOFS.md"
TABLE = "What has to be believed"
# the section with the table of edits that the prover must refuse
EDITS = "How to try to break it"
# sections of the page that cite no theorem: this table, and a table of crates
NO_CITATIONS = {TABLE, "Sizes", EDITS}
# words in backticks that are plainly no names of theorems or definitions: the language's, and the C library's
NO_NAMES = {"requires", "ensures", "axioms=", "read", "write"}

# the characters past ASCII that a source or a definition may have: of two that look alike only one
LETTERS = set("«»¬×λᴰ₀₁₂₃ℓℕ←→↔↦∙∣∥∷≡≢≤⊎⊥⌜⌝◌")

# our definitions that the toolchain's library has a namesake of: no source and no file here may bring that
NAMESAKES = {"decimal": "line/Line"}

# what the language brings of its own into every file and clause
PRELUDE = {"ℓ", "⊥", "¬", "Unit", "tt", "absurd"}

# where an operator's name, as `◌+◌`, has its arguments
PLACE = "◌"

KINDS = ("-- Definitions: ", "-- Laws: ", "-- Examples: ")


# ---- reading text: words, groups, scopes

KEYWORDS = {
    "→", ":", "=", "|", "↦", ".", "_", "λ", "∀", "let", "in", "elim", "as", "record", "unfold", "where", "Type", "do", "×",
}
WORD = re.compile(r'"(?:\\.|[^"\\])*"|[(){};,]|[^\s(){};,"]+')
NUMERAL = re.compile(r"[0-9]+(?:_[0-9]+)*|0[xob][0-9a-fA-F_]+")
CLOSING = {"(": ")", "{": "}", "[": "]"}


class Unreadable(Exception):
    pass


def plain(text, *never):
    """Fails if a text has what it never may have, or a character that is not in the table."""
    for number, line in enumerate(text.split("\n"), 1):
        for mark in never:
            if mark in line:
                why = "an escaped name is another spelling of the bare one" if mark == "«" else "comments are `//` and `--` alone"
                raise Unreadable("line %d has `%s`: %s" % (number, mark, why))
        for c in line:
            if not (" " <= c <= "~" or c in LETTERS):
                raise Unreadable("line %d has the character U+%04X, which LETTERS does not have" % (number, ord(c)))


QUOTED = {
    "//": re.compile(r"""b?"(?:\\.|[^"\\])*"|b'(?:\\.[^']*|[^'\\])'|//.*"""),
    "--": re.compile(r""""(?:\\.|[^"\\])*"|(?<![^ (){}.;,@"«»])--.*"""),
}


def live(line, mark):
    """A line without its comment, which begins with the mark, and with its quotations empty, but for the "C" of an export."""
    raw = mark == "//" and re.search(r'\b[bc]?r#*"', line)
    line = QUOTED[mark].sub(lambda m: m.group() if m.group() == '"C"' else "" if m.group().startswith(mark) else '""', line).rstrip()
    if raw or line.count('"') % 2 or "--" in line:
        raise Unreadable("a quotation or a comment is not read: " + line.strip())
    return line


def marks(name):
    """The parts of an operator, as they are written between its arguments; of another name none."""
    return [p for p in name.split(PLACE) if p] if PLACE in name else []


def once(names):
    """In one file a name, and a part of an operator, stands for one thing."""
    seen = {}
    for name in names:
        for word in {name} | set(marks(name)):
            if word in seen:
                both = " (%s, %s)" % (seen[word], name) if seen[word] != name else ""
                raise Unreadable("`%s` is brought in or declared twice%s" % (word, both))
            seen[word] = name


def words(text):
    for m in WORD.finditer(text):
        w = m.group()
        if w[0] == '"':
            continue
        if re.search(r"[\[\]⌜⌝@]", w) and w not in "[]" and not w.endswith(".[]"):
            raise Unreadable("a bracket within a word: " + w)
        if len(w) > 1 and w[-1] == "." and w != "..":
            yield w[:-1]
            yield "."
        else:
            yield w


def groups(text):
    """The words of a text as nested lists: a word is a string, a group is (bracket, list)."""
    top = []
    stack = [("", top)]
    for w in words(text):
        if w in CLOSING:
            inner = []
            stack[-1][1].append((w, inner))
            stack.append((w, inner))
        elif w in CLOSING.values():
            if CLOSING.get(stack[-1][0]) != w:
                raise Unreadable("brackets do not match: " + " ".join(text.split())[:80])
            stack.pop()
        else:
            stack[-1][1].append(w)
    if len(stack) != 1:
        raise Unreadable("a bracket is open: " + " ".join(text.split())[:80])
    return top


def parts(items, at):
    out = [[]]
    for x in items:
        if isinstance(x, str) and x in at:
            out.append([])
        else:
            out[-1].append(x)
    return out


def index(items, word):
    for i, x in enumerate(items):
        if x == word:
            return i
    return -1


def binder(inner):
    """The names of a group `(x y : A)`, if it is one; the language has no other use of such a colon."""
    i = index(inner, ":")
    if i > 0 and all(isinstance(x, str) and x not in KEYWORDS - {"_"} for x in inner[:i]):
        return inner[:i], inner[i + 1 :]
    return None


class Scan:
    """Goes through a term or a type and hands on each word that no binder of the text binds."""

    def __init__(self, ref, constructor):
        self.ref = ref
        self.constructor = constructor
        self.binds = set()

    def bind(self, names, env):
        env.update(names)
        self.binds.update(names)

    def term(self, items, env):
        for part in parts(items, {",", ";"}):
            self.part(part, set(env))

    def part(self, items, env):
        """One part of a group. The set env is changed: what is bound here holds up to the end of the part."""
        i = 0
        while i < len(items):
            x = items[i]
            if x == "λ":
                j = i + 1
                while j < len(items) and items[j] != ".":
                    self.bound(items[j], env)
                    j += 1
                if j == len(items):
                    raise Unreadable("a λ without its dot")
                i = j
            elif x == "let":
                e = i + 1 + index(items[i + 1 :], "=")
                if e == i:
                    raise Unreadable("a let without its =")
                j, depth = e + 1, 1
                while j < len(items):
                    if items[j] in ("let", "unfold"):
                        depth += 1
                    elif items[j] == "in":
                        depth -= 1
                        if depth == 0:
                            break
                    j += 1
                if j == len(items):
                    raise Unreadable("a let without its in")
                self.part(items[e + 1 : j], set(env))
                head = items[i + 1 : e]
                c = index(head, ":")
                if c >= 0:
                    self.part(head[c + 1 :], set(env))
                    head = head[:c]
                self.pattern(head, env)
                i = j
            elif x == "record" and i + 1 < len(items) and items[i + 1][0] == "{":
                self.fields(items[i + 1][1], env)
                i += 1
            elif isinstance(x, tuple):
                self.group(x, env)
            elif x not in KEYWORDS and x not in env:
                self.word(x, env)
            i += 1

    def word(self, x, env):
        if x[0] == "." or NUMERAL.fullmatch(x):
            return
        if "." in x and x.split(".")[0] in env:  # a field of something bound here
            return
        self.ref(x)

    def bound(self, x, env):
        """A binder of a λ."""
        if isinstance(x, str):
            self.bind([x], env)
            return
        b = binder(x[1])
        if b:
            self.part(b[1], set(env))
            self.bind(b[0], env)
        else:
            self.pattern([x], env)

    def group(self, x, env):
        bracket, inner = x
        b = binder(inner)
        if bracket == "[":
            for branch in parts(inner, {"|"}):
                at = index(branch, "↦")
                inside = set(env)
                if at >= 0:
                    self.pattern(branch[:at], inside)
                self.term(branch[at + 1 :], inside)
        elif b:
            self.part(b[1], set(env))
            self.bind(b[0], env)
        elif bracket == "{":
            for part in parts(inner, {",", ";"}):  # an implicit argument, `{x = e}`
                self.part(part[2:] if index(part, "=") == 1 else part, set(env))
        else:
            self.term(inner, env)

    def fields(self, inner, env):
        inside = set(env)
        for part in parts(inner, {";"}):
            if len(part) > 1 and part[1] in ("=", ":"):
                self.term(part[2:], inside)
                if part[1] == ":":
                    inside.add(part[0])
            else:
                self.term(part, inside)

    def pattern(self, items, env):
        for x in items:
            if isinstance(x, tuple):
                for part in parts(x[1], {",", ";"}):
                    self.pattern(part[2:] if index(part, "=") == 1 else part, env)
            elif x in KEYWORDS or x[0] == "." or NUMERAL.fullmatch(x):
                continue
            elif self.constructor(x):
                self.ref(x)
            else:
                self.bind([x], env)


# ---- declarations


class Decl:
    def __init__(self, name, kind, file, tele):
        self.name = name
        self.kind = kind  # abbrev, unfoldable, plain, record, data
        self.file = file
        self.tele = tele  # what the modules around it, and a record or a data type itself, are given
        self.type = []
        self.clauses = []  # (left, right, local declarations)
        self.members = []  # (name, type): a record's fields, a data type's constructors
        self.proof = None


def indent(line):
    return len(line) - len(line.lstrip(" "))


def chunks(lines):
    """The lines of a block, cut where a line stands as far left as the first; a closing bracket goes on."""
    lines = [l for l in lines if l.strip()]
    if not lines:
        return
    base = indent(lines[0])
    chunk = []
    for l in lines:
        if indent(l) <= base and chunk and l.lstrip()[0] not in ")}]":
            yield chunk
            chunk = []
        chunk.append(l)
    yield chunk


def at_where(chunk):
    """A chunk up to its first `where`, and what stands under that."""
    for i, l in enumerate(chunk):
        if l.strip() == "where" or l.endswith(" where"):
            return chunk[:i] + [l.rstrip()[: -len("where")]], chunk[i + 1 :]
    return chunk, []


def declarations(lines, file, tele, on_use=None):
    """The declarations of a block of lines, in their order."""
    out = []
    for chunk in chunks(lines):
        first = chunk[0].split()
        marks = []
        while first and first[0] in ("pub", "abbrev", "unfoldable", "axiom"):
            marks.append(first.pop(0))
        head = first[0] if first else ""
        if head == "use" and on_use:
            on_use(" ".join(" ".join(chunk).split()), "pub" in marks)
        elif head in ("infix", "infixl", "infixr", "unfolding", "ruleset"):
            continue
        elif head in ("open", "mod", "use"):  # a `mod` makes a name with which a `use` can begin
            raise Unreadable("`%s` is not read here" % head)
        elif head in ("module", "mutual"):
            up, under = at_where(chunk)
            if head == "mutual":
                up, under = [""], chunk[1:]
            given = groups(" ".join(up))[2:]
            out += declarations(under, file, tele + given)
        elif head in ("record", "data"):
            up, under = at_where(chunk)
            items = [x for x in groups(" ".join(up)) if x not in ("pub", "record", "data")]
            colon = index(items, ":")
            d = Decl(items[0], head, file, tele + items[1:colon])
            d.type = items[colon + 1 :]
            for member in chunks(under):
                m = [x for x in groups(" ".join(member)) if x != "pub"]
                if index(m, ":") < 1:
                    raise Unreadable("a field or a constructor is not read: " + " ".join(" ".join(member).split())[:80])
                for name in m[: index(m, ":")]:
                    d.members.append((name, m[index(m, ":") + 1 :]))
            out.append(d)
        else:
            up, under = at_where(chunk)
            items = [x for x in groups(" ".join(up))]
            items = items[len(marks) :]
            colon, equals = index(items, ":"), index(items, "=")
            if colon >= 0 and (equals < 0 or colon < equals):
                kind = "abbrev" if "abbrev" in marks else "unfoldable" if "unfoldable" in marks else "plain"
                d = Decl(items[0], kind, file, tele)
                d.type = items[colon + 1 :]
                out.append(d)
            elif not out:
                raise Unreadable("a clause before any signature: " + chunk[0].strip())
            else:
                if equals < 0:  # a clause with no right side: an absurd pattern
                    equals = len(items)
                out[-1].clauses.append((items[:equals], items[equals + 1 :], declarations(under, file, [])))
    return out


# a file of a crate's specs/ or proofs/; the toolchain's own crates are written so too, and ours are those in crates/
MODULE = re.compile(r"^Rattle\.([^.]+)\.(specs|proofs)\.(.+)$")


class Imports:
    """What the `use` lines of a file bring."""

    def __init__(self):
        self.names = {}  # name -> (module, name there)
        self.modules = {}  # name -> module
        self.passed = {}  # of those, what `pub use` passes on
        self.brought = []  # all these names, in their order
        self.others = {}  # name -> (module, name there), of names that are brought in again as something else

    def add(self, line, public=False):
        m = re.match(r"^(?:pub |ghost )?use ([^\s{}*«]+?)(?:\.\{([^{}«]*)\}| as ([^\s«]+))?;?$", line)
        if not m:
            raise Unreadable("a use line is not read: " + line)
        module, items, alias = m.groups()
        if items is None:
            name = alias or module.split(".")[-1]
            self.modules[name] = module
            if not self.both(name):
                self.brought.append(name)
            return
        for item in items.split(","):
            item = item.split()
            if not item:
                continue
            if len(item) != 1 and (len(item) != 3 or item[1] != "as"):
                raise Unreadable("a use line is not read: " + line)
            path = item[0].split(".") if not item[0].startswith(".") else [item[0]]
            where = ".".join([module] + path[:-1])
            name = item[2] if len(item) == 3 else path[-1]
            if name not in self.names:
                self.names[name] = (where, path[-1])
                if not self.both(name):
                    self.brought.append(name)
            elif self.names[name] != (where, path[-1]):
                self.others.setdefault(name, []).append((where, path[-1]))
            if public:
                self.passed[name] = (where, path[-1])

    def both(self, name):
        """Whether a name is brought as a type and as the module of that type: which has its path, or in which it stands."""
        return name in self.names and self.modules.get(name) in (".".join(self.names[name]), self.names[name][0])

    def once(self, own=()):
        """Fails if a name stands for two things, or if a `use` line begins with a name that is the file's own."""
        once(self.brought + list(own))
        for module in [m for m, _ in self.names.values()] + list(self.modules.values()):
            if module.split(".")[0] in self.brought + list(own):
                raise Unreadable("`%s` is brought in or declared, and a use line begins with it" % module.split(".")[0])


class File:
    def __init__(self, key, text):
        self.key = key
        self.text = text
        self.imports = Imports()
        plain(text, "{-", "«")
        self.all = declarations([live(l, "--") for l in text.split("\n")], key, [], self.imports.add)
        self.decls = {d.name: d for d in self.all}
        self.constructors = {m: d for d in self.all if d.kind == "data" for m, _ in d.members}
        self.imports.once([d.name for d in self.all] + [m for d in self.all if d.kind == "data" for m, _ in d.members])
        self.fields = {}
        for d in self.all:
            if d.kind == "record":
                for m, _ in d.members:
                    self.fields.setdefault(m, d)
        # an operator's parts, as it is written between its arguments
        self.operators = {p: d for d in self.all for p in marks(d.name)}

    def own(self, name):
        return self.decls.get(name) or self.constructors.get(name) or self.operators.get(name)


# ---- contracts


def matching(text, i):
    """The place after the bracket that closes the one at i."""
    close = {"(": ")", "{": "}", "<": ">"}[text[i]]
    depth = 0
    for j in range(i, len(text)):
        if text[j] == text[i]:
            depth += 1
        elif text[j] == close:
            depth -= 1
            if depth == 0:
                return j + 1
    raise Unreadable("a bracket is open")


CLAUSE = re.compile(r" +(?:requires|ensures|decreases)(?: \w+)? \{ .* \}")
OPENED = re.compile(r" +(?:requires|ensures|decreases)(?: \w+)? \{ ")
ITEM = re.compile(r"\b(?:ghost|requires|ensures|decreases|fn|impl|trait|mod|use|extern|macro_rules)\b")
# the attributes that a source may have, each on a line of its own: none of them says what is compiled, and
# one under which name a function is exported
ATTRIBUTE = re.compile(r" *#!?\[(?:tactic\([\w, ():'{}◌≡-]*\)|derive\([\w, ]+\)|repr\(C\)|inline\((?:never|always)\)|unsafe\(no_mangle\)|test)\]")
EXPORTED = "#[unsafe(no_mangle)]"
# what an `impl` begins with: of a type, or of a conversion to it
IMPL = re.compile(r"impl(?:<'a>|<const \w+: usize(?:, const \w+: usize)*>)? ((?:Try)?From<[\w<>, ]+> for )?(\w+)(?:<[\w', ]+>)? \{")
GHOST_MEMBER = re.compile(r"    ghost (?:try_)?from_gives = \{ [^{}]* \};")
GHOST_FIELD = re.compile(r"    (?:pub )?ghost \w+: \{ [^{}]* \},")


def joined(lines):
    """The lines of a source, with each clause and each attribute on one line."""
    lines = iter(lines)
    for line in lines:
        while re.match(r" *#!?\[", line) and line.count("[") > line.count("]"):
            line += " " + next(lines, "]").strip()
        opened = OPENED.match(line)
        while opened and line.count("{") > line.count("}"):
            more = next(lines, None)
            if more is None or OPENED.match(more):
                raise Unreadable("a clause is open: " + line.strip())
            line += " " + more.strip()
        yield line


class Source:
    """A source file: its functions with their parameters and contracts. Each item stands as `rt fmt` lays it out: a `ghost use` on a
    line of its own, a clause on lines of its own, with no comment, and a function at the top of the file or in an `impl` there."""

    def __init__(self, text):
        plain(text, "/*", "{-", "«")
        self.imports = Imports()
        self.functions = {}  # name, or Type::name -> (parameters, clauses), of the public ones
        self.order = {}  # the same name -> the parameters in their order
        self.types = {}  # the same name -> the words of its parameters and of what it answers
        self.changed = {}  # the same name -> those of them that are lent to be changed
        self.exports = []
        self.modules = []
        self.open = []  # the public ones among them
        self.uses = {}
        self.traits = []  # the functions that a trait makes public: those of a conversion
        self.held = set()  # the structs with a ghost field: what holds of each of their values
        self.holds = {}  # a type that is declared -> the words of its declaration: the types that it holds are among them
        struct, declaring = "", ""
        seen = ["result"]  # what a clause sees with no `ghost use`
        brought, declared, found = [], [], []  # found: (the place behind its name, what is written before it, name)
        code, size, depth, within, last = [], 0, 0, "", ""
        for line in joined(text.split("\n")):
            if re.fullmatch(r"ghost use [^;]*;", line) and depth == 0 and "--" not in line:
                self.imports.add(line)
                line = ""
            elif re.fullmatch(r"    ghost use [^;]*;", line) and depth == 1 and within not in ("", "enum") and "--" not in line:
                self.imports.add(line.strip())  # of one impl: it brings no name that the file has
                line = ""
            elif CLAUSE.fullmatch(line):
                if re.search(r'//|--|"', line):
                    raise Unreadable("a comment or a quotation in a clause: " + line.strip())
                if matching(line, line.index("{")) != len(line):
                    raise Unreadable("something stands behind a clause: " + line.strip())
            else:
                line = live(line, "//")
                fn = re.fullmatch(r' *((?:pub )?(?:extern "C" )?)fn (\w+)[(<].*', line)
                impl = IMPL.fullmatch(line)
                mod = re.fullmatch(r"(?:pub )?mod (\w+);", line)
                use = re.fullmatch(r"use (?:\w+::)*(?:(\w+)|\{(\w+(?:, \w+)*)\});", line)
                passed = re.fullmatch(r"pub use (\w+)::(?:(\w+)|\{(\w+(?:, \w+)*)\});", line)
                items = re.sub(r"(\w+: (?:&(?:mut )?)?)impl (?=[A-Z]\w*\b)", r"\1", line)  # a parameter of any type that has a trait is no item
                if line.lstrip().startswith("#") and not ATTRIBUTE.fullmatch(line):
                    raise Unreadable("not read: " + line.strip())
                if (last == EXPORTED) != (fn is not None and "extern" in fn.group(1)):
                    raise Unreadable("an export has `%s` before it, and nothing else has: %s" % (EXPORTED, line.strip()))
                last = line
                declares = re.match(r"(?:pub(?:\([\w: ]+\))? )?(struct|enum|type|union) (\w+)", line) if depth == 0 else None
                if declares and declares.group(1) == "struct":
                    struct = declares.group(2)
                declaring = declares.group(2) if declares else declaring
                if declaring:
                    held = line[declares.end() :] if declares else re.sub(r"^    \w+" if within == "enum" else r"^", "", line)  # no variant's name
                    self.holds.setdefault(declaring, set()).update(re.findall(r"\w+\b(?!:(?!:))", held))  # and no field's
                # a clause sees a constant, a type and a variant by its bare name
                own = re.match(r"(?:pub )?(?:const|static|struct|enum|type) (\w+)", line) if depth == 0 else re.match(r"    (\w+)\b", line)
                if own and (depth == 0 or depth == 1 and within == "enum"):
                    seen.append(own.group(1))
                if depth == 0 and re.match(r"(?:pub )?enum\b", line):
                    within = "enum"
                if fn and (depth == 0 or depth == 1 and within not in ("", "enum")) and not ITEM.search(items, fn.end(2)):
                    declared.append((within + "::" if depth else "") + fn.group(2))
                    found.append((size + fn.end(2), fn.group(1), declared[-1]))
                    self.traits += declared[-1:] if depth and " for " in within else []
                elif impl and depth == 0:
                    within = (impl.group(1) or "") + impl.group(2)
                elif GHOST_MEMBER.fullmatch(line) and depth == 1 and within not in ("", "enum"):
                    pass  # what a conversion gives: a caller's contract says again what it takes of it
                elif GHOST_FIELD.fullmatch(line) and depth == 1 and within == "":
                    self.held.add(struct)  # what holds of every value of a struct: the prover asks for it where one is made
                elif mod and depth == 0:
                    self.modules.append(mod.group(1))
                    self.open += [mod.group(1)] if line.startswith("pub ") else []
                elif use and depth == 0:
                    brought += (use.group(1) or use.group(2)).split(", ")
                elif passed and depth == 0:
                    for passes in (passed.group(2) or passed.group(3)).split(", "):
                        self.uses[passes] = passed.group(1)
                        brought.append(passes)
                elif ITEM.search(items):
                    raise Unreadable("not read: " + line.strip())
            code.append(line)
            size += len(line) + 1
            depth += line.count("{") - line.count("}")
            within = within if depth else ""
            # a declaration goes on to the end of its braces, or to a line that ends in its semicolon
            declaring = declaring if depth or not re.search(r"[;}]$", line.rstrip()) else ""
        if depth:
            raise Unreadable("a bracket is open")
        for name in self.uses.values():
            if name in brought:
                raise Unreadable("`%s` is brought in or declared, and a use line begins with it" % name)
        self.imports.once()
        other = [n for n, (module, _) in self.imports.names.items() if ".specs.declared" not in module] + list(self.imports.modules)
        for names in (brought, declared, list(self.imports.others) * 2, [n for n in seen if n in other] * 2):
            for name in names:
                if names.count(name) > 1:
                    raise Unreadable("`%s` is brought in or declared twice" % name)
        text = "\n".join(code)
        for at, marks, name in found:
            if "pub" in marks:
                self.functions[name] = self.contract(text, at, name)
            if "extern" in marks:
                self.exports.append(name)

    def contract(self, text, i, name):
        if text[i] == "<":
            i = matching(text, i)
        end = matching(text, i)
        params = set(re.findall(r"(\w+)\s*:", re.sub(r"::", "  ", text[i:end])))
        self.order[name] = re.findall(r"(\w+): ", text[i:end])
        self.types[name] = set(re.findall(r"\w+", text[i : text.index("{", end)].split(" requires ")[0].split(" ensures ")[0]))
        self.changed[name] = re.findall(r"(\w+): &mut\b", text[i:end])
        params.add("result")
        clauses = []
        j = end
        while True:
            k = re.compile(r"[^{}]*?\b(requires|ensures|decreases)\b(?: \w+)?\s*(?=\{)").match(text, j)
            if not k:
                break
            j = matching(text, k.end())
            clauses.append((k.group(1), text[k.end() + 1 : j - 1]))
        if clauses and not re.compile(r"\s*[{;]").match(text, j):
            raise Unreadable("the contract of %s is not read to its end" % name)
        return params, clauses


# ---- the repository


CACHE = {}


def cached(kind, key, text, path):
    if (kind, key, text) not in CACHE:
        try:
            CACHE[kind, key, text] = File(key, text) if kind is File else Source(text)
        except Unreadable as e:
            raise Unreadable("%s: %s" % (path, e))
    return CACHE[kind, key, text]


def read(path):
    with open(path, encoding="utf-8", newline="") as f:
        return f.read()


def write(path, text):
    with open(path, "w", encoding="utf-8", newline="") as f:
        f.write(text)


RELATIONS = {"≡", "≢", "≤", "<", "⊥", "¬", "↔", "⊎", "T"}
# types that a statement does not end in, though they are given something
DATA = {"List", "Option", "Type"}


def target(items):
    """What a type ends in, behind its arrows and a `let`; of a pair the last part."""
    return pair(items)[-1]


def pair(items):
    """What a type ends in, behind its arrows and a `let`: the parts of a pair, or the one."""
    end = parts(items, {"→"})[-1]
    if len(end) == 1 and isinstance(end[0], tuple):
        return pair(end[0][1])
    if end and end[0] == "let":
        return pair(end[len(end) - end[::-1].index("in") :])
    return parts(end, {"×"})


def states(items, sealed):
    """Whether a type is a statement: a relation; or, of what is never unfolded elsewhere, any type that is given something."""
    if any(isinstance(x, str) and x in RELATIONS for x in items):
        return True
    if not sealed or not items or binder(items[0][1] if isinstance(items[0], tuple) else []):
        return False
    head = items[0]
    if any(x in RELATIONS for x in flat(items)):
        return True
    return isinstance(head, str) and head[0].isupper() and head not in DATA and len(items) > 1


def flat(items):
    for x in items:
        if isinstance(x, tuple):
            yield from flat(x[1])
        else:
            yield x


class Repository:
    def __init__(self, root):
        self.root = root
        self.failures = []
        self.notes = []
        self.files = {}
        self.folders = {}  # of each of the files, whether it stands in specs/ or in proofs/
        self.sources = {}
        self.crates = sorted(c for c in os.listdir(os.path.join(root, "crates")) if os.path.isdir(os.path.join(root, "crates", c)))
        for c in self.crates:
            for folder, kind, end in (("specs", File, ".antt"), ("src", Source, ".rt"), ("proofs", None, ".antt")):
                at = os.path.join(root, "crates", c, folder)
                for base, _, names in os.walk(at):
                    for n in sorted(names):
                        if not n.endswith(end):
                            continue
                        path = os.path.join(base, n)
                        text = read(path)
                        name = os.path.relpath(path, root)
                        # in proofs/ laws and examples stand beside the folders of the functions' own proofs, and say what they are
                        laws = folder == "proofs" and base == at and text.startswith(KINDS)
                        if kind is None and not laws or n == "Lib.antt":
                            if "{-" in text:
                                self.fail("%s has `{-`: comments are `//` and `--` alone" % name)
                            if n == "Lib.antt" and base == at and re.search(r"^(?!(pub )?mod [\w'-]+$|--|$)", text, re.M):
                                self.fail("%s has more than mod lines" % name)
                            continue
                        key = c + "/" + os.path.relpath(path, at)[: -len(end)]
                        if key in self.folders:
                            self.fail("%s stands in specs/ and in proofs/" % key)
                        if kind is not Source:
                            self.folders[key] = folder
                        (self.sources if kind is Source else self.files)[key] = cached(kind or File, key, text, name)
        self.page = read(os.path.join(root, PAGE))
        if "<!--" in self.page:
            self.fail("%s has a comment, which a reader does not see" % PAGE)
        self.exports = {n: k for k in sorted(self.sources) if k.startswith(EXPORTS + "/") for n in self.sources[k].exports}
        self.rests = {}
        self.reached = {}  # (declaration, whether all of it) -> such a pair before it, or a root's label

    def fail(self, text):
        if text not in self.failures:
            self.failures.append(text)

    # -- names

    def ours(self, module):
        """The parts of a module's path, if it is one of our crates': crate, specs or proofs, the rest."""
        m = MODULE.match(module)
        return m if m and m.group(1) in self.crates else None

    def lookup(self, module, name):
        """A name of a module: a declaration of ours, or None for the library's and for what the sources declare."""
        m = self.ours(module)
        if not m and set(self.crates) & set(module.split(".")[:3]):
            self.fail("not read: %s.%s" % (module, name))
        if not m or m.group(2) == "specs" and m.group(3).split(".")[0] == "declared":
            return None
        key = m.group(1) + "/" + m.group(3).replace(".", "/")
        if self.folders.get(key) != m.group(2):
            self.fail("no file %s (used as %s)" % (key, module))
            return None
        f = self.files[key]
        d = f.own(name)
        if d is None and name in f.imports.passed:
            return self.lookup(*f.imports.passed[name])
        if d is None:
            self.fail("%s has no %s" % (key, name))
        return d

    def resolve(self, word, imports, file=None):
        """The declaration that a word means; None if it is the library's, or not known at all."""
        if "." in word.strip("."):
            module, name = word.rsplit(".", 1)
            head = module.split(".")
            if module in imports.modules:
                return self.lookup(imports.modules[module], name)
            if self.ours(module):
                return self.lookup(module, name)
            if head[0] in imports.modules:
                return self.lookup(".".join([imports.modules[head[0]]] + head[1:]), name)
            word = head[0]  # a field, written tight after a name
        if file is not None and file.own(word):
            return file.own(word)
        if word in imports.names:
            return self.lookup(*imports.names[word])
        for full in imports.names:  # an operator between its arguments
            if word in marks(full):
                return self.lookup(*imports.names[full])
        return None

    def meanings(self, word, imports, file=None):
        """The declarations that a word can mean: several only for a constructor's name, which types may share."""
        found = [self.resolve(word, imports, file)] + [self.lookup(*at) for at in imports.others.get(word, [])]
        return [d for d in found if d is not None]

    def is_constructor(self, word, imports, file=None):
        return any(d.kind == "data" and word.split(".")[-1] in dict(d.members) for d in self.meanings(word, imports, file))

    def brought_once(self):
        """A name is brought into a file as one thing, but for constructors, which the prover tells apart by their types."""
        for key, f in sorted(self.files.items()):
            for name, others in sorted(f.imports.others.items()):
                ours = [(at[1], self.lookup(*at)) for at in [f.imports.names[name]] + others if self.ours(at[0])]
                if not ours or not all(d and d.kind == "data" and n in dict(d.members) for n, d in ours):
                    self.fail("%s: `%s` is brought in or declared twice" % (key, name))

    # -- what a declaration rests on

    def is_theorem(self, d):
        """Whether a declaration that the page cites is a theorem: what its type ends in is a statement."""
        return d.kind not in ("record", "data") and states(target(d.type), d.kind == "plain")

    def is_proof(self, d):
        """Whether a declaration that a definition uses is a proof, all of it: of such a one the type alone counts."""
        if d.proof is None:
            d.proof = self.is_theorem(d) and all(states(p, d.kind == "plain") for p in pair(d.type))
        return d.proof

    def refs(self, d, whole):
        """The declarations that the type, or all, of a declaration names, in their order."""
        if (d, whole) not in self.rests:
            f = self.files[d.file]
            found = []

            def ref(word):
                means = self.meanings(word, f.imports, f)
                if not means:
                    self.unknown(word, f.imports, self.reading)
                found.extend(r for r in means if r is not d and r not in found)

            scan = Scan(ref, lambda w: self.is_constructor(w, f.imports, f))
            self.reading = "%s of %s" % (d.name, d.file)
            env = set()
            scan.part(d.tele, env)
            scan.part(d.type, set(env))
            if d.kind == "record":
                inside = set(env)
                for name, type_ in d.members:
                    scan.part(type_, set(inside))
                    inside.add(name)
            for name, type_ in d.members if d.kind == "data" else []:
                scan.part(type_, set(env))
            if whole:
                self.clauses(scan, d, env)
            self.rests[d, whole] = found
        return self.rests[d, whole]

    def clauses(self, scan, d, env):
        for left, right, local in d.clauses:
            inside = set(env)
            scan.pattern([x for x in left if x != d.name and x not in marks(d.name)], inside)
            inside.update(l.name for l in local)
            scan.term(right, inside)
            for l in local:
                scan.part(l.type, set(inside))
                self.clauses(scan, l, inside)

    def unknown(self, word, imports, where):
        """A word that no line of the file brings must be one of the prelude's."""
        name = word.split(".")[0]
        if name in PRELUDE or name in imports.names or name in imports.modules:
            return
        if not any(name in marks(full) for full in imports.names):
            self.fail("cannot tell what %s in %s means" % (word, where))

    # -- roots

    def reach(self, d, before, whole=None):
        """A declaration is reached, all of it or its type alone, from another such or from a root's label."""
        if whole is None:
            # only an example may speak of a proof, by its statement alone; what a definition or a contract names counts whole
            example = isinstance(before, tuple) and self.files[before[0].file].text.startswith(KINDS[2])
            whole = not (example and self.is_proof(d))
        if (d, True) not in self.reached and (d, whole) not in self.reached:
            self.reached[d, whole] = before
            self.queue.append((d, whole))

    def contract(self, key, name, label, free):
        self.contracts.append(label)
        source = self.sources.get(key)
        if source is None or name not in source.functions:
            self.fail("no public function %s in crates/%s.rt" % (name, key.replace("/", "/src/")))
            return
        self.reading = label
        # by the bare name, whichever crate's it is, or as a type that holds one
        bare = {s for other in self.sources.values() for s in other.held}
        for held in sorted(w for w in source.types[name] if free and (w in bare or self.means(key, w) & self.held())):
            self.fail("%s has the type %s, whose ghost field would be a clause that is not seen" % (label, held))
        params, clauses = source.functions[name]
        binds = set()
        if not any(kind == "ensures" for kind, _ in clauses):
            self.fail("%s has no contract" % label)
        for kind, text in clauses:
            if kind == "requires" and free:
                self.fail("%s is a public call and has a `requires`" % label)

            def ref(word):
                means = self.meanings(word, source.imports)
                if not means:
                    self.unknown(word, source.imports, label)
                for r in means:
                    self.reach(r, label)

            scan = Scan(ref, lambda w: self.is_constructor(w, source.imports))
            scan.term(groups(text), params)
            binds |= scan.binds
        for word in sorted(binds.intersection(source.imports.brought)):
            self.fail("%s binds %s, which its file brings in" % (label, word))

    def means(self, key, word):
        """The types that a word of a source can mean, each with its crate: that of its own crate, or else those of others."""
        types = {(k.split("/")[0], word) for k, source in self.sources.items() if word in source.holds}
        return {of for of in types if of[0] == key.split("/")[0]} or types

    def held(self):
        """The types with a ghost field, and those that hold one, however deep, each with its crate."""
        held = {(key.split("/")[0], s) for key, source in self.sources.items() for s in source.held}
        holds = {(key.split("/")[0], t): (key, words) for key, source in self.sources.items() for t, words in source.holds.items()}
        more = True
        while more:
            more = {of for of, (key, words) in holds.items() if of not in held and any(self.means(key, w) & held for w in words)}
            held |= more
        return held

    def ensured(self, key, name):
        """The clauses that a function ensures, as they would stand on one line, with its parameters numbered, and what one of them
        lends written in one way: `#0.now`, and `#0.old` if it is lent to be changed, for `#0.entry.now`."""
        found = [" ".join(text.split()).replace("; }", " }") for kind, text in self.sources[key].functions[name][1] if kind == "ensures"]
        for i, param in enumerate(self.sources[key].order[name]):
            found = [re.sub(r"(?<![\w.])%s(?!\w| =)" % param, "#%d" % i, text) for text in found]
            now = "#%d.%s" % (i, "old" if param in self.sources[key].changed[name] else "now")
            found = [re.sub(r"#%d\.entry\.now\b" % i, now, text) for text in found]
        return found

    def equation(self, key, name, call, definition):
        """What a call's equation has on its right, or None if its contract has another form: `LEFT ≡ definition ..`. LEFT is what
        is answered, or a record each field of which is a part of that or what is left of something lent; all that is lent to be
        changed is there, and the right has every parameter, and of what is lent what it was on entry."""
        source = self.sources[key]
        texts = self.ensured(key, name)
        if len(texts) != CLAUSES.get(call, 1):
            self.fail("%s has not as many clauses as it should" % call)
        whole = re.fullmatch(r"(result|result\.now|record \{ (.*?) \}) ≡ (%s(?![\w.'-])[^≡]*)" % definition, texts[0]) if texts else None
        right = whole and [i for i in groups(whole.group(3)) if isinstance(i, str)]
        if not whole or not all(re.fullmatch(r"[\w'#]+(\.\w+)*", w) for w in right) or re.search(r"\.new\b|\.exit\b|\bresult\b", whole.group(3)):
            self.fail("%s has no equation with %s" % (call, definition))
            return None
        left = []
        for field in whole.group(2).split("; ") if whole.group(2) else []:
            part = re.fullmatch(r"(\w+) = (?:result|result\.\1|told_\1 result|#(\d+)\.new)", field)
            if not part:
                self.fail("the equation of %s has a field that is not what was answered or left: %s" % (call, field))
                return None
            left += [source.order[name][int(part.group(2))]] if part.group(2) else []
        for lent in source.changed[name]:
            if left.count(lent) != 1:
                self.fail("the equation of %s does not say what is left of %s" % (call, lent))
        for i, param in enumerate(source.order[name]):
            said = re.findall(r"#%d\b((?:\.\w+)*)" % i, whole.group(3))
            if not said:
                self.fail("the equation of %s leaves out %s" % (call, param))
            if param in source.changed[name] and set(said) - {".old"}:
                self.fail("the equation of %s does not have %s as it was on entry" % (call, param))
        return whole.group(3)

    def exported(self, rights):
        """An export's contract is that of the call with its name."""
        calls = {call.split("::")[-1]: (call, key) for call, key in CALLS}
        for export, at in self.exports.items():
            call, key = calls.get(export.split("_", 1)[1], (None, None))
            if call is None or key not in self.sources:
                self.fail("no call is exported as %s" % export)
            elif export == NUMBER_ALONE:
                form = "(let h : Hashed = %s in (result ≡ h.number) × (#7.new ≡ h.digest))" % rights.get(call)
                if self.ensured(at, export) != [form]:
                    self.fail("%s has not the contract of %s, less the count" % (export, call))
            else:
                # the export tells in its answer what the call says by its result
                told = [re.sub(r"\btold_(number|count) result\b", r"result.\1", text) for text in self.ensured(key, call.split("::", 1)[1])]
                if self.ensured(at, export) != told:
                    self.fail("%s has not the contract of %s" % (export, call))

    def public(self):
        """The crates of the calls have nothing else that is public, but for what is listed."""
        calls = {key + "::" + call.split("::", 1)[1] for call, key in CALLS}
        passed = {call for call, key in CALLS if key != call.split("::")[0] + "/lib"}
        found = set()
        for key in sorted({key for _, key in CALLS}):
            source, crate = self.sources.get(key), key.split("/")[0]
            for name in source.functions if source else []:
                found.add("%s::%s" % (crate, name))
                if key + "::" + name not in calls and "%s::%s" % (crate, name) not in SHARED:
                    self.fail("%s of crates/%s.rt is public, and no list has it" % (name, key.replace("/", "/src/")))
            for name in source.uses if source else []:
                if "%s::%s" % (crate, name) not in passed:
                    self.fail("crates/%s.rt passes on %s, and no list has it" % (key.replace("/", "/src/"), name))
            for name in source.open if source else []:
                self.fail("the module %s of crates/%s.rt is public" % (name, key.replace("/", "/src/")))
        # an impl is public wherever it stands in a crate
        for key, source in sorted(self.sources.items()):
            if key.split("/")[0] in {k.split("/")[0] for _, k in CALLS}:
                for name in source.traits:
                    self.fail("%s of crates/%s.rt is public by its trait, and no list has it" % (name, key.replace("/", "/src/")))
        for name in sorted(SHARED - found):
            self.fail("no public function %s, which SHARED has" % name)

    def roots(self):
        self.public()
        rights = {}
        for call, key, definition in EQUATIONS:
            crate, name = call.split("::", 1)
            if key != crate + "/lib" and self.passed(crate, name) != key:
                self.fail("crates/%s/src/lib.rt does not pass on %s of crates/%s.rt" % (crate, name, key.replace("/", "/src/")))
            self.contract(key, name, call, True)
            if key in self.sources and name in self.sources[key].functions:
                rights[call] = self.equation(key, name, call, definition)
        if not self.exports:
            self.fail("no exports in crates/%s" % EXPORTS)
        self.exported(rights)
        for name, key in self.exports.items():
            self.contract(key, name, "%s::%s" % (EXPORTS, name), True)
        for function in sorted(self.cited_functions - {call for call, _ in CALLS}):
            at = self.places(function)
            if len(at) != 1:
                self.fail("%s cites %s, and there is no such public function" % (PAGE, function))
            else:
                self.contract(*at[0], function, False)

    def passed(self, crate, name):
        """The source whose function a crate's lib passes on: one of its own modules, or another crate's lib."""
        lib = self.sources.get(crate + "/lib")
        if not lib or name not in lib.uses:
            return None
        at = lib.uses[name]
        return crate + "/" + at if at in lib.modules else at + "/lib"

    def places(self, function):
        """The sources that have a function `crate::name`, and its name there: lib, or the source that lib passes on, or that of
        the module that is named, or the one file of the crate that has it."""
        crate, *path = function.split("::")
        name = "::".join(path)
        has = lambda key, n: [(key, n)] if key in self.sources and n in self.sources[key].functions else []
        found = has(crate + "/lib", name) or has(self.passed(crate, name), name)
        for i in range(1, len(path)):
            found = found or has(crate + "/" + "/".join(path[:i]), "::".join(path[i:]))
        return found or [at for key in sorted(self.sources) if key.startswith(crate + "/") for at in has(key, name)]

    def read_page(self):
        """The table of files, and the citations: a `crate/File` sets the file that names after it are of."""
        self.listed = []
        self.citations = []
        self.cited_functions = set()
        self.cited_files = {}
        library = set()
        for f in list(self.files.values()) + list(self.sources.values()):
            for n, (module, _) in f.imports.names.items():
                if not self.ours(module):
                    library.update([n] + marks(n))
        section = ""
        file = None
        for number, line in enumerate(self.page.split("\n"), 1):
            if line.startswith("## "):
                section = line[3:].strip()
            if section == TABLE and line.startswith("|"):
                for entry in re.findall(r"`([^`]+)`", line.split("|")[1]):
                    self.listed.append(entry)
                    if entry not in self.files:
                        self.fail("%s lists %s, and there is no such file" % (PAGE, entry))
            if section == EDITS and line.startswith("|"):
                for entry in re.findall(r"`(\w+/\w+)`", line):
                    if not os.path.isfile(os.path.join(self.root, "crates/%s.edit" % entry.replace("/", "/must-fail/"))):
                        self.fail("%s names the edit %s, and there is no such file" % (PAGE, entry))
            if section in NO_CITATIONS:
                continue
            if line.startswith("    "):  # a theorem set out with its statement
                m = re.match(r"^    (\S+) : ", line)
                if m and file:
                    self.cite(m.group(1), file, number)
                continue
            for span in re.findall(r"`([^`]+)`", line):
                if re.match(r"^\w+/[A-Z]\w*$", span):
                    if span == "crate/File":
                        continue
                    if span not in self.files:
                        self.fail("%s line %d cites %s, and there is no such file" % (PAGE, number, span))
                    else:
                        file = span
                        self.cited_files.setdefault(span, number)
                    continue
                if re.match(r"^\w+(::\w+)+$", span):
                    self.cited_functions.add(span)
                    continue
                name = span.split()[0]
                if "/" in span or name in NO_NAMES or name in ("rt", "N") or name.endswith(":"):
                    continue
                if name in self.crates and not (file and self.files[file].own(name)):
                    continue
                if name in library and not (file and self.files[file].own(name)):
                    continue
                if name in self.exports:
                    continue
                self.cite(name, file, number)

    def cite(self, name, file, number):
        """A cited name: of the file named last, or a member of a type that was cited before, or what the same name meant
        before, or the one file of that crate, or of all, that has it."""

        def of(f):
            f = self.files[f]
            return f.decls.get(name) or f.constructors.get(name) or f.fields.get(name)

        crate = [f for f in self.files if file and f.startswith(file.split("/")[0] + "/")]
        before = [d for d, _ in self.citations[::-1]]
        found = [of(file)] if file and of(file) else []
        found = found or [d for d in before if name in dict(d.members)][:1]
        found = found or [d for d in before if d.name == name][:1]
        found = found or [of(f) for f in crate if of(f)]
        found = found or [of(f) for f in sorted(self.files) if of(f)]
        if len(found) == 1:
            self.citations.append((found[0], number))
            self.cited_files.pop(found[0].file, None)
        elif found:
            self.fail("%s line %d cites `%s`, which is in several files: %s" % (PAGE, number, name, ", ".join(d.file for d in found)))
        else:
            self.fail("%s line %d cites `%s`, and no file of specs/ or proofs/ has that name" % (PAGE, number, name))

    # -- the check

    def chain(self, key):
        at = (self.believed[key], True)
        names = []
        while isinstance(at, tuple):
            names.append("%s (%s)" % (at[0].name, at[0].file))
            at = self.reached[at]
        return " -> ".join([at] + names[::-1])

    def follow(self):
        while self.queue:
            d, whole = self.queue.pop(0)
            for r in self.refs(d, whole):
                self.reach(r, (d, whole))

    def close(self):
        self.reading = ""
        try:
            self.work_out()
        except Unreadable as e:
            raise Unreadable("%s: %s" % (self.reading, e))

    def work_out(self):
        self.queue = []
        self.contracts = []
        self.read_page()
        self.roots()
        self.follow()  # so that a chain begins with a contract where one leads there
        self.theorems = []
        for d, line in self.citations:
            if self.is_theorem(d):
                self.theorems.append(d)
                self.reach(d, "%s line %d" % (PAGE, line), False)
        self.follow()
        self.believed = {}
        for d, whole in self.reached:  # in the order in which they were reached: the first has the shortest chain
            if whole:
                self.believed.setdefault(d.file, d)
        # tables of computed examples: listed like the others; their names are their own, and no definition may rest on them
        self.examples = {k for k in self.believed if self.files[k].text.startswith(KINDS[2])}

    def check(self):
        self.close()
        for key in sorted(set(self.believed) - set(self.listed)):
            self.fail("%s has to be believed and %s does not list it: %s" % (key, PAGE, self.chain(key)))
        for key in self.listed:
            if key in self.files and key not in self.believed:
                self.fail("%s is listed on %s, and no contract or cited theorem rests on it" % (key, PAGE))
            if self.listed.count(key) > 1:
                self.fail("%s is listed twice on %s" % (key, PAGE))
        self.brought_once()
        self.names_once()
        self.library_names()
        self.headers()
        self.examples_alone()

    def examples_alone(self):
        for key in sorted(set(self.believed) - self.examples):
            brought = list(self.files[key].imports.names.values()) + [(m, "all") for m in self.files[key].imports.modules.values()]
            for m, n in brought:
                ours = self.ours(m)
                at = ours and ours.group(1) + "/" + ours.group(3)
                if at in self.examples:
                    self.fail("%s is a file of definitions and takes %s from the examples %s" % (key, n, at))

    def definitions(self, key):
        return [d for d in self.files[key].all if not self.is_theorem(d)]

    def names_once(self):
        names = {}
        for key in sorted(set(self.believed) - self.examples):
            for d in self.definitions(key):
                names.setdefault(d.name, []).append(key)
        for name, keys in sorted(names.items()):
            if len(keys) > 1:
                self.fail("one name, two definitions: %s of %s" % (name, " and of ".join(keys)))

    def library_names(self):
        rt = shutil.which("rt")
        kit = os.path.dirname(os.path.dirname(os.path.realpath(rt))) if rt else ""
        found = os.path.isdir(os.path.join(kit, "rattle", "logic", "Lib"))
        if not found:
            self.notes.append("the toolchain's library is not found: names are not compared with its names")
        modules = {WORDS}
        read_here = list(self.sources.values()) + [self.files[k] for k in sorted(self.believed)]
        for f in read_here:
            modules.update(m for m, _ in f.imports.names.values())
            modules.update(f.imports.modules.values())
        theirs = library(kit, {m for m in modules if not self.ours(m)}) if found else {}
        # a module of the primitives has no source: its names are those that are brought from it
        for f in list(self.files.values()) + list(self.sources.values()):
            for m, n in f.imports.names.values():
                if m.startswith("Prim."):
                    theirs.setdefault(n, m)
        ours = {d.name: key for key in sorted(set(self.believed) - self.examples) for d in self.definitions(key)}
        for name, key in ours.items():
            if name in theirs and NAMESAKES.get(name) == key:
                for at, f in list(self.sources.items()) + list(self.files.items()):
                    if name in f.imports.names and not self.ours(f.imports.names[name][0]):
                        self.fail("%s brings the library's %s, and %s has another" % (at, name, key))
                del theirs[name]
            elif name in theirs:
                self.fail("%s of %s has the name of the library's %s.%s" % (name, key, theirs[name], name))
        self.brought_as(dict(theirs, **ours), kit if found else "")

    def brought_as(self, taken, kit):
        """In a source and in a file that is believed a library's name means one thing, and nothing has a name that is taken."""
        modules = {}
        for key, f in [(k + ".rt", f) for k, f in sorted(self.sources.items())] + [(k, self.files[k]) for k in sorted(self.believed)]:
            for name, (module, there) in f.imports.names.items():
                if name != there and name in taken:
                    self.fail("%s brings %s.%s under the name of %s.%s" % (key, module, there, taken[name], name))
                if kit and not self.ours(module):
                    at = origin(kit, module, there)
                    if modules.setdefault(name, at) != at:
                        self.fail("%s brings %s of %s, which elsewhere is that of %s" % (key, name, at[0], modules[name][0]))

    def headers(self):
        none, other = [], []
        for key in sorted(self.files):
            first = self.files[key].text.split("\n", 1)[0]
            if not first.startswith(KINDS):
                none.append(key)
            elif key in self.believed and key not in self.examples:
                if not first.startswith(KINDS[0]):
                    other.append(key)
                if self.folders[key] != "specs":
                    self.fail("%s has to be believed and does not stand in specs/" % key)
        if none:
            some = ", ".join(none[:12]) + (", .." if len(none) > 12 else "")
            self.fail("%d files of specs/ do not begin with one of '%s': %s" % (len(none), "', '".join(k.strip() for k in KINDS), some))
        for key in other:
            self.fail("%s has to be believed and does not begin with '%s'" % (key, KINDS[0].strip()))


LIBRARY = {}
# the words that most clauses and definitions take from the toolchain
WORDS = "Rattle.std.specs.Prelude"


def source_of(kit, module):
    """The text of a module of the toolchain's library, or "" if it has no source: that of a primitive, or made from one."""
    if (kit, module) not in LIBRARY:
        at = module.split(".")
        roots = {"mathlib": "antt/port/mathlib/src", "lib": "logic/Lib", "native": "antt/lib/native/src", "borrow": "logic/Borrow", "Rattle": ""}
        path = os.path.join(kit, "rattle", roots[at[0]], *at[1:]) + ".antt" if at[0] in roots else ""
        LIBRARY[kit, module] = read(path) if kit and os.path.isfile(path) else ""
    return LIBRARY[kit, module]


def passes_on(kit, module):
    """What a module of the library passes on: name -> (module, name there)."""
    passed = {}
    for m, items in re.findall(r"^pub use ([^\s{}]+)\.\{([^{}]*)\}", source_of(kit, module), re.M):
        for item in items.split(","):
            item = item.split()
            if item:
                passed[item[-1]] = (m, item[0])
    return passed


def origin(kit, module, name):
    """Where in the library a name is declared that a module has: behind what passes it on, or passes on the module."""
    seen = set()
    while kit and (module, name) not in seen:
        seen.add((module, name))
        above, _, last = module.rpartition(".")
        whole = re.search(r"^pub use ([^\s{}]+\.%s)$" % re.escape(last), source_of(kit, above), re.M) if above else None
        module, name = (whole.group(1), name) if whole else passes_on(kit, module).get(name, (module, name))
    return module, name


def library(kit, modules):
    """The names that these modules of the toolchain's library export, each with its module."""
    names = {}
    for m in sorted(modules):
        text = source_of(kit, m)
        for name in passes_on(kit, m):
            names.setdefault(name, m)
        for d in re.finditer(r"^ *(?:unfoldable |abbrev |axiom )*pub (?:data |record )?(\S+)(?: [({].*)? :", text, re.M):
            names.setdefault(d.group(1), m)
        for d in re.finditer(r"^( *)pub data .* where\n((?:\1 +.*\n|\n)*)", text, re.M):
            for c in re.findall(r"^ +(\S+) :", d.group(2), re.M):
                names.setdefault(c, m)
    return names


def check(root):
    r = Repository(root)
    r.check()
    return r


# ---- that the check can fail


def self_test(root):
    """Faults, one at a time, on a copy: each must be found, and told by what it is."""
    base = check(root)
    helper = next(k for k in sorted(base.files) if k not in base.believed and k not in base.listed and base.folders[k] == "specs")
    listed = next(k for k in base.listed if k in base.believed and base.folders[k] == "specs")
    theorem = base.theorems[0].name
    # the call that most faults are tried on, and a definition that its contract names
    call, key = CALLS[0]
    crate, name = call.split("::")
    source = "crates/%s.rt" % key.replace("/", "/src/")
    brought = base.sources[key].imports.names
    params, clauses = base.sources[key].functions[name]
    word = next(n for n, (module, _) in brought.items() if base.ours(module) and n not in params and n in re.findall(r"\w+", clauses[0][1]))
    operator = next(n for n in brought if len(marks(n)) == 1 and n.count(PLACE) == 2)
    spec = "crates/%s.antt" % listed.replace("/", "/specs/")
    in_spec = next(iter(base.files[listed].imports.names))
    proofs = os.path.join("crates", crate, "proofs")
    of_functions = [os.path.join(at, n) for at, _, names in os.walk(os.path.join(root, proofs)) for n in names if n.endswith(".antt")]
    proof = next(path for path in sorted(of_functions) if os.path.dirname(path) != os.path.join(root, proofs))

    law = next(k for k in sorted(base.files) if k.startswith(crate + "/") and base.folders[k] == "proofs")
    laws, of_laws = "crates/%s.antt" % law.replace("/", "/proofs/"), "Rattle.%s.proofs.%s" % tuple(law.split("/"))
    helps = "Rattle.%s.specs.%s" % tuple(helper.split("/"))
    to_believe = "%s has to be believed and %s does not list it: %s -> %s (%s)" % (helper, PAGE, call, "%s", helper)

    def define(d, body="%s n = n"):
        return ("crates/%s.antt" % helper.replace("/", "/specs/"), r"\Z", "\nabbrev pub %s : ℕ → ℕ\n%s\n" % (d, body.replace("%s", d)))

    def bring(items, how="ghost use %s;\n"):
        return (source, r"^(?=ghost use )", how % (helps + items))

    def ensure(text, of=source, fn=name):
        return (of, r"^( *pub fn %s\([^)]*\) -> [^\n]*\n)" % fn.split("::")[-1], "\\1    %s\n" % text)

    def instead(to):
        """For the line that brings the definition another one; what else it brings it goes on to bring."""
        return (source, r"^(ghost use %s\.\{.*?)\b%s\b,? ?(.*)$" % (re.escape(brought[word][0]), word), "\\1\\2\n" + to)

    honest = "ghost use %s.{%s};" % (brought[word][0], word)
    evil = "ghost use %s.{twisted as %s};" % (helps, word)
    signature = re.search(r"^pub fn %s\(.*?\n\{" % name, read(os.path.join(root, source)), re.M | re.S).group()
    faults = [
        ("an edit that is gone", [(PAGE, r"`(\w+/all_refused)`", r"`\1_twice`")], "%s names the edit hash/all_refused_twice, and" % PAGE),
        (
            "a helper of a contract in a file that is not listed",
            [define("twisted"), bring(".{twisted}"), ensure("ensures { result.count ≡ twisted result.count }")],
            to_believe % "twisted",
        ),
        (
            "a helper that is brought under the name of a definition, and whose type hides that it is one",
            [
                ("crates/%s.antt" % helper.replace("/", "/specs/"), r"\Z", "\npub twisted : ℕ → let T : Type 0 = ℕ in T\ntwisted n = n\n"),
                instead(evil),
            ],
            to_believe % "twisted",
        ),
        (
            "a word of a contract that no line brings",
            [ensure("ensures { result.count ≡ guess }")],
            "cannot tell what guess in %s means" % call,
        ),
        (
            "a row missing in the table",
            [(PAGE, r"^\| `%s`.*\n" % listed, "")],
            "%s has to be believed and %s does not list it: " % (listed, PAGE),
        ),
        (
            "a file listed that nothing rests on",
            [(PAGE, r"^\| `%s`" % listed, "| `%s`, `%s`" % (listed, helper))],
            "%s is listed on %s, and no contract or cited theorem rests on it" % (helper, PAGE),
        ),
        (
            "a row in a comment of the page",
            [(PAGE, r"^(\| `%s`.*)\n" % listed, "<!--\n\\1\n-->\n")],
            "%s has a comment, which a reader does not see" % PAGE,
        ),
        (
            "a theorem cited that does not exist",
            [(PAGE, "`%s`" % re.escape(theorem), "`no-such-theorem`")],
            "cites `no-such-theorem`, and no file of specs/ or proofs/ has that name",
        ),
        # comments that the prover skips and a reader by lines does not
        (
            "the honest line in a comment of a source",
            [instead("%s\n/*\n%s\n*/" % (evil, honest))],
            "%s: line " % source + "%d has `/*`",
        ),
        (
            "the honest function in a comment of a source",
            [ensure("ensures { result ≡ result }"), (source, r"\Z", "/*\n%s\n}\n*/\n" % signature.replace("\\", "\\\\"))],
            "%s: line " % source + "%d has `/*`",
        ),
        (
            "a comment in a clause, which reads as a binder",
            [ensure("ensures { {- %s : result -} result ≡ result }" % word)],
            "%s: line " % source + "%d has `{-`",
        ),
        (
            "the honest line in a comment of a definition's file",
            [(spec, r"^(use .*)$", "use %s.{twisted as %s}\n{-\n\\1\n-}" % (helps, in_spec))],
            "%s: line " % spec + "%d has `{-`",
        ),
        (
            "a comment of that kind in a proof",
            [(os.path.relpath(proof, root), r"\Z", "{- -}\n")],
            "%s has `{-`" % os.path.relpath(proof, root),
        ),
        (
            "a comment in a clause that is none to the prover",
            [ensure("ensures { result ≡ result // %s }" % word)],
            "a comment or a quotation in a clause",
        ),
        (
            "a comment in the second line of a clause",
            [ensure("ensures { result.count\n        ≡ result.count // %s }" % word)],
            "a comment or a quotation in a clause",
        ),
        ("a clause that another one closes", [ensure("ensures { result\n    ensures { result ≡ result } }")], "a clause is open: ensures"),
        # a call's equation, and calls that no list has
        (
            "an equation under a condition",
            [(source, r"\{ record \{(?=[^}]*\}\s*≡ hash_of)", "{ 0 ≡ 1 → record {")],
            "%s has no equation with hash_of" % call,
        ),
        (
            "an equation that is one with what is left",
            [(source, r"\bdigest\.old(?= \}\n\{\n    let span)", "digest.new")],
            "%s has no equation with hash_of" % call,
        ),
        (
            "an equation with what something lent holds at some time",
            [(source, r"\bdigest\.old(?= \}\n\{\n    let span)", "digest.now")],
            "the equation of %s does not have digest as it was on entry" % call,
        ),
        (
            "an equation of something else than what is left",
            [(source, r"digest\.new(?=[^}]*\}\s*≡ hash_of)", "digest.old")],
            "the equation of %s has a field that is not what was answered or left: digest = #7.old" % call,
        ),
        (
            "an equation of something else than what is answered",
            [(source, r"number = told_number result(?=[^}]*\}\s*≡ hash_of)", "number = 0")],
            "the equation of %s has a field that is not what was answered or left: number = 0" % call,
        ),
        (
            "a public call whose parameter has a type with a ghost field",
            [("crates/text/src/lib.rt", r"pub fn read\(area: &mut \[u64\], text: &\[u8\]\)", "pub fn read(area: &mut [u64], text: &[u8], form: Form)")],
            "text::read has the type Form, whose ghost field would be a clause that is not seen",
        ),
        (
            "a public call whose parameter has a type that holds one with a ghost field",
            [
                ("crates/text/src/lib.rt", r"pub fn read\(area: &mut \[u64\], text: &\[u8\]\)", "pub fn read(area: &mut [u64], text: &[u8], told: Told)"),
                ("crates/text/src/lib.rt", r"\Z", "\npub struct Told {\n    pub form: Form,\n}\n"),
            ],
            "text::read has the type Told, whose ghost field would be a clause that is not seen",
        ),
        (
            "a conversion of a call's crate, which its trait makes public",
            [("crates/stream/src/lib.rt", r"\Z", "\nimpl From<Params> for Span {\n    fn from(params: Params) -> Span {\n        Span { start: 0, bits: params.d }\n    }\n}\n")],
            "From<Params> for Span::from of crates/stream/src/lib.rt is public by its trait, and no list has it",
        ),
        (
            "such a conversion in another file of a call's crate",
            [("crates/text/src/spell.rt", r"\Z", "\nimpl From<Area> for Form {\n    fn from(area: Area) -> Form {\n        Form::NEW\n    }\n}\n")],
            "From<Area> for Form::from of crates/text/src/spell.rt is public by its trait, and no list has it",
        ),
        (
            "a public call whose parameter has a type with a ghost field, where its crate has a type of that name",
            [
                ("crates/text/src/lib.rt", r"pub fn read\(area: &mut \[u64\], text: &\[u8\]\)", "pub fn read(area: &mut [u64], text: &[u8], form: Form)"),
                ("crates/text/src/spell.rt", r"\Z", "\nstruct Form {\n    n: u64,\n}\n"),
            ],
            "text::read has the type Form, whose ghost field would be a clause that is not seen",
        ),
        (
            "an equation with a definition of other arguments",
            [(source, r"start = start;(?=[^≡]*\}\n\{\n    let span)", "start = 0;")],
            "the equation of %s leaves out start" % call,
        ),
        (
            "an equation with another definition",
            [("crates/stream/src/lib.rt", r"≡ area_words_of limit", "≡ log_words_of (limit ∷ []) limit")],
            "stream::area_words has no equation with area_words_of",
        ),
        (
            "a clause dropped",
            [("crates/stream/src/lib.rt", r"^    ensures \w+ \{ \(result\.ref_ptr(.|\n)*? \}\n", "")],
            "stream::level has not as many clauses as it should",
        ),
        (
            "an export with another contract",
            [("crates/md6_c/src/lib.rt", r"≡ area_words_of limit", "≡ area_words_of 0")],
            "md6_area_words has not the contract of stream::area_words",
        ),
        (
            "an export that answers the number alone, of another call",
            [("crates/md6_c/src/lib.rt", r"\(result ≡ h\.number\)", "(result ≡ 0)")],
            "md6_hash has not the contract of hash::hash, less the count",
        ),
        (
            "a function passed on that no list has",
            [("crates/stream/src/lib.rt", r"^(?=pub use )", "pub use numbers::check_feed;\n")],
            "crates/stream/src/lib.rt passes on check_feed, and no list has it",
        ),
        ("a public module", [("crates/text/src/lib.rt", r"^mod ", "pub mod ")], "of crates/text/src/lib.rt is public"),
        (
            "a shared function that is gone",
            [(source, r"^pub fn rounds_by_default", "fn rounds_by_default")],
            "no public function hash::rounds_by_default, which SHARED has",
        ),
        (
            "a public function that no list has",
            [(source, r"\Z", "pub fn decoy() -> u64\n    ensures { result ≡ result }\n{\n    0\n}\n")],
            "decoy of %s is public, and no list has it" % source,
        ),
        # one name, two things
        ("a name brought into a source twice", [bring(".{twisted as %s}" % word)], "%s: `%s` is brought in or declared twice" % (source, word)),
        (
            "a name brought into a definition's file twice",
            [define("twisted"), (spec, r"^(?=use )", "use %s.{twisted as %s}\n" % (helps, in_spec))],
            "%s: `%s` is brought in or declared twice" % (listed, in_spec),
        ),
        (
            "a constant with the name of a definition",
            [(source, r"\Z", "const %s: u64 = 0;\n" % word)],
            "%s: `%s` is brought in or declared twice" % (source, word),
        ),
        (
            "a variant with the name of a definition",
            [(source, r"\Z", "enum Decoy {\n    %s,\n}\n" % word)],
            "%s: `%s` is brought in or declared twice" % (source, word),
        ),
        ("another word for what is answered", [bring(".{twisted as result}")], "%s: `result` is brought in or declared twice" % source),
        (
            "an operator with the parts of another",
            [bring(".{%s%s}" % (operator, operator[1:]))],
            "is brought in or declared twice (%s%s, %s)" % (operator, operator[1:], operator),
        ),
        (
            "a public function declared twice",
            [(source, r"\Z", signature.replace("\\", "\\\\") + "\n}\n")],
            "%s: `%s` is brought in or declared twice" % (source, name),
        ),
        (
            "a library's name that is another file",
            [(spec, r"^(?=use )", "use %s as lib\nuse lib.{twisted}\n" % helps)],
            "`lib` is brought in or declared, and a use line begins with it",
        ),
        ("a library's name that is a file below", [(spec, r"^(?=use )", "mod lib\n")], "`mod` is not read here"),
        (
            "something of the library under the name of a definition",
            [instead("ghost use lib.ListN.{length as %s};" % word)],
            "%s.rt brings lib.ListN.length under the name of " % key,
        ),
        (
            "a symbol from another place of the library",
            [(source, r"\b%s(?=\.\{[^}]*%s)" % (re.escape(brought[operator][0]), re.escape(operator)), "mathlib.Other")],
            "brings %s of mathlib.Other, which elsewhere is that of " % operator,
        ),
        (
            "a clause that binds the name of a definition",
            [ensure("ensures { (%s : ℕ) → %s ≡ %s }" % (word, word, word))],
            "%s binds %s, which its file brings in" % (call, word),
        ),
        # items, words and letters that are not what they seem
        ("an item with a space more", [(source, r"^ghost use ", "ghost  use ")], "%s: not read: ghost  use " % source),
        (
            "an item behind a function on its line",
            [(source, r"\Z", "fn decoy() {} %s\n" % evil)],
            "%s: not read: fn decoy() {} ghost use" % source,
        ),
        (
            "an item behind a clause on its line",
            [(source, r"\Z", "fn decoy()\n    ensures { 0 ≡ 0 } {} %s fn other() { }\n" % evil)],
            "%s: something stands behind a clause: " % source,
        ),
        (
            "a function in a module within a source",
            [(source, r"\Z", "mod decoy {\n%s\n}\n}\n" % signature.replace("\\", "\\\\"))],
            "%s: not read: mod decoy {" % source,
        ),
        (
            "an item within a quotation",
            [(source, r"\Z", 'const DECOY: &[u8; 13] = b"\nmod decoy;\n";\n')],
            "%s: a quotation or a comment is not read: const DECOY" % source,
        ),
        (
            "an item within a quotation, behind one in which a stroke escapes nothing",
            [(source, r"\Z", 'const RAW: &[u8; 1] = br"\\\\"; const DECOY: &[u8; 13] = b"\nmod decoy;\n";\n')],
            "%s: a quotation or a comment is not read: const RAW" % source,
        ),
        (
            "a name that begins like a clause",
            [define("⌜twisted"), bring(".{⌜twisted}"), ensure("ensures { result.count ≡ ⌜twisted result.count }")],
            "a bracket within a word: ⌜twisted",
        ),
        (
            "a name that begins like a number",
            [define("1twisted"), bring(".{1twisted}"), ensure("ensures { result.count ≡ 1twisted result.count }")],
            to_believe % "1twisted",
        ),
        (
            "the empty list that is another thing",
            [define("twisted"), bring(".{twisted as []}"), ensure("ensures { result.count ≡ [] result.count }")],
            to_believe % "twisted",
        ),
        (
            "an escaped name in a clause",
            [ensure("ensures { result.count ≡ «%s» }" % word)],
            "has `«`: an escaped name",
        ),
        (
            "an equation with what is answered on both sides",
            [(source, r"\bdigest\.old(?= \}\n\{\n    let span)", "result.digest")],
            "%s has no equation with hash_of" % call,
        ),
        ("a source that stands elsewhere", [(source, r"\Z", '#[path = "decoy.rt"]\nmod decoy;\n')], "%s: not read: #[path" % source),
        (
            "an export under no name",
            [("crates/md6_c/src/lib.rt", r"^#\[unsafe\(no_mangle\)\]\n", "")],
            "crates/md6_c/src/lib.rt: an export has `#[unsafe(no_mangle)]` before it",
        ),
        (
            "a definition in proofs/",
            [
                (laws, r"\A.*\n", "-- Definitions: decoy.\n"),
                (laws, r"\Z", "\nabbrev pub twisted : Type 0\ntwisted = Unit\n"),
                (source, r"^(?=ghost use )", "ghost use %s.{twisted};\n" % of_laws),
                ensure("ensures { twisted }"),
            ],
            "%s has to be believed and does not stand in specs/" % law,
        ),
        (
            "a file of proofs/ brought as one of specs/",
            [(source, r"^(?=ghost use )", "ghost use %s.{twisted};\n" % of_laws.replace(".proofs.", ".specs.")), ensure("ensures { twisted }")],
            "no file %s (used as %s)" % (law, of_laws.replace(".proofs.", ".specs.")),
        ),
        (
            "the library's word for one of ours",
            [(source, r"^(?=ghost use )", "ghost use %s.{%s};\n" % (WORDS, next(iter(NAMESAKES))))],
            "brings the library's %s, and" % next(iter(NAMESAKES)),
        ),
        (
            "a letter that looks like another",
            [bring(".{tw\u0456sted}")],
            "has the character U+0456, which LETTERS does not have",
        ),
    ]
    for c, k in [CALLS[0]] + [c for c in CALLS if c[0].count("::") > 1]:
        path = "crates/%s.rt" % k.replace("/", "/src/")
        message = "%s is a public call and has a `requires`" % c
        faults.append(("a public call with a requires", [ensure("requires { 0 ≡ 0 }", path, c)], message))
    for c, k in [c for c in CALLS if c[1] != c[0].split("::")[0] + "/lib"][:1]:
        at, n = c.split("::")
        lib = "crates/%s/src/lib.rt" % at
        of = base.sources[at + "/lib"].uses[n]
        use = r"^pub use %s::((?:\{.*)?)\b%s\b" % (of, n)
        message = "%s does not pass on %s of crates/%s.rt" % (lib, n, k.replace("/", "/src/"))
        k_crate, k_file = k.split("/")
        other = (lib, r"\A", "mod %s;\n" % k_crate) if k_file == "lib" else (lib, r"^mod %s;.*\n" % k_file, "")
        faults += [
            ("another function passed on", [(lib, use, r"pub use decoy::\1%s" % n)], message),
            ("a function passed on of a crate for that of a module, or the other way", [other], message),
            ("another function passed on under the name", [(lib, use, r"pub use %s::\1other as %s" % (of, n))], "%s: not read: pub use " % lib),
        ]
    missed = 0
    with tempfile.TemporaryDirectory() as copy:
        for folder in ("specs", "src", "proofs", "must-fail"):
            for at in [os.path.join("crates", c, folder) for c in base.crates]:
                if os.path.isdir(os.path.join(root, at)):
                    shutil.copytree(os.path.join(root, at), os.path.join(copy, at))
        os.makedirs(os.path.dirname(os.path.join(copy, PAGE)))
        shutil.copy(os.path.join(root, PAGE), os.path.join(copy, PAGE))
        for what, edits, message in faults:
            kept = {}
            for path, old, new in edits:
                text = read(os.path.join(copy, path))
                kept.setdefault(path, text)
                text, n = re.subn(old, new, text, count=1, flags=re.M)
                if n != 1:
                    missed += 1
                    print("FAIL: self-test: %s: nothing to change in %s" % (what, path))
                write(os.path.join(copy, path), text)
            try:
                found = [f for f in check(copy).failures if f not in base.failures]
            except Unreadable as e:
                found = [str(e)]
            for path, text in kept.items():
                write(os.path.join(copy, path), text)
            if not any(re.search(re.escape(message).replace("%d", r"\d+"), f) for f in found):
                missed += 1
                print("FAIL: self-test: %s is not found; found: %s" % (what, "; ".join(found) or "nothing"))
    if not missed:
        print("self-test: %d faults put in, each found" % len(faults))
    return missed == 0


def main(args):
    root = next((a for a in args if not a.startswith("--")), ".")
    if "--self" in args:
        return 0 if self_test(root) else 1
    r = check(root)
    if "--all" in args:
        for key in sorted(r.believed):
            print("%s: %s" % (key, r.chain(key)))
    print("%d contracts and %d cited theorems rest on %d definitions in %d files; %d files are listed" % (
        len(r.contracts), len(set(r.theorems)), sum(1 for _, whole in r.reached if whole), len(r.believed), len(r.listed)))
    bare = sorted(f for f in r.cited_files if f not in r.listed)
    if bare:
        print("note: cited without a name in them: " + ", ".join(bare))
    for n in r.notes:
        print("note: " + n)
    for f in r.failures:
        print("FAIL: " + f)
    return 1 if r.failures else 0


if __name__ == "__main__":
    try:
        sys.exit(main(sys.argv[1:]))
    except Unreadable as e:
        print("FAIL: " + str(e))
        sys.exit(1)
