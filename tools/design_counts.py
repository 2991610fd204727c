#!/usr/bin/env python3
"""Counts the places where the code of crates/*/src is written in a form that a plainer one could stand for.

    python3 tools/design_counts.py             every place, as file:line: text, and the totals
    python3 tools/design_counts.py --totals    the totals alone
    python3 tools/design_counts.py --point 3   one point
    python3 tools/design_counts.py --kit DIR   beside it: lemmas of proofs/ whose statement one of the kit's .antt files in DIR has too

It goes by patterns, and so counts too many here and too few there: docs/DESIGN-PASS.md says where. A total counts the lines on which a
place begins, each once. Kinds marked "listed" are for reading: their lines are in no total. A place is marked "kept" where a comment
on its line, above it or above its function or type says that something "stays as it is" or "is kept as it is".
"""
import argparse
import collections
import difflib
import itertools
import pathlib
import re

ROOT = pathlib.Path(__file__).resolve().parent.parent
REASON = re.compile(r"\b(stays?|kept) as (it is|they are|it was)\b", re.I)
INT = ("u8", "u16", "u32", "u64", "u128", "usize", "i8", "i16", "i32", "i64", "i128", "isize")
WIDTH = {"bool": 1, "u8": 8, "i8": 8, "u16": 16, "i16": 16, "u32": 32, "i32": 32, "u64": 64, "i64": 64, "usize": 64, "isize": 64}
KIND = r"(?:kind|version|face|bond|gap|directions?)"  # names of numbers that stand for a kind
KEYWORDS = set(
    "as bool break const continue crate dyn else enum extern false fn for ghost if impl in let loop match mod move mut pub ref return "
    "self Self static struct super trait true type unsafe use where while Ok Err Some None usize isize str char".split()
) | set(INT)
TOKEN = re.compile(
    r"""b?"(?:\\.|[^"\\])*"|b?'(?:\\.|[^'\\])'|[A-Za-z_]\w*|\d\w*|\.\.=|\.\.|::|->|=>|<=|>=|==|!=|&&|\|\||[-+*/%|&]=|\S"""
)
LITERAL = re.compile(r"""b?["']|\d""")


def tokens(text):
    return TOKEN.findall(text)


def without_comments(text):
    """The text with comments blanked, so that places stay where they are."""
    out = []
    for line in text.split("\n"):
        cut = None
        for m in re.finditer(r'b?"(?:\\.|[^"\\])*"|//', line):
            if m.group() == "//":
                cut = m.start()
                break
        out.append(line if cut is None else line[:cut] + " " * (len(line) - cut))
    return "\n".join(out)


def closing(text, i, pair="()"):
    """The place after the bracket that closes the one at i."""
    depth = 0
    while i < len(text):
        if text[i] == pair[0]:
            depth += 1
        elif text[i] == pair[1]:
            depth -= 1
            if depth == 0:
                return i + 1
        i += 1
    return len(text)


def parts(text, sep=","):
    """What stands between the separators that are in no bracket."""
    out, depth, last = [], 0, 0
    for i, c in enumerate(text):
        if c in "([{<" and text[i : i + 2] not in ("<=", "< "):
            depth += 1
        elif c in ")]}" or (c == ">" and text[i - 1] not in "-= " and depth):
            depth -= 1
        elif c == sep and depth == 0:
            out.append(text[last:i])
            last = i + 1
    out.append(text[last:])
    return [" ".join(p.split()) for p in out if p.strip()]


class Fn:
    pass


class File:
    def __init__(self, path):
        self.path = path
        self.name = str(path.relative_to(ROOT))
        self.raw = path.read_text(encoding="utf-8")
        self.lines = self.raw.split("\n")
        self.text = without_comments(self.raw)
        self.owners = [
            (m.start(), closing(self.text, self.text.index("{", m.end()), "{}"), " ".join(m.group(1).split()))
            for m in re.finditer(r"^\s*(?:impl|pub trait|trait)\b([^{;]*)(?=\{)", self.text, re.M)
        ]
        self.fns = list(self.functions())
        self.types = list(self.declared())

    def line(self, i):
        return self.text.count("\n", 0, i) + 1

    def functions(self):
        t = self.text
        for m in re.finditer(r"\bfn\s+(\w+)\s*(?=[<(])", t):
            f = Fn()
            f.file, f.name, f.start, f.line = self, m.group(1), m.start(), self.line(m.start())
            f.owner = next((o for a, b, o in self.owners if a < m.start() < b), "")
            i = m.end()
            if t[i] == "<":
                i = closing(t, i, "<>")
            j = closing(t, t.index("(", i))
            inside = t[t.index("(", i) + 1 : j - 1]
            f.params = [tuple(x.strip() for x in p.split(":", 1)) for p in parts(inside) if ":" in p]
            f.params = [(re.sub(r"^mut\s+", "", a), b) for a, b in f.params]
            head = re.compile(r"\s*(?:->\s*((?:\[[^\]]*\]|[^{;\[])*?))?\s*(?=\brequires\b|\bensures\b|\bdecreases\b|\bwhere\b|\{|;)").match(t, j)
            f.ret = " ".join((head.group(1) or "").split()) if head else ""
            i = head.end() if head else j
            f.requires, f.ensures = [], []
            clause = re.compile(r"\s*(requires|ensures|decreases|where)\b\s*([a-z]\w*)?\s*")
            while True:
                c = clause.match(t, i)
                if not c:
                    break
                if c.group(1) == "where":
                    i = re.compile(r"[^{]*?(?=\brequires\b|\bensures\b|\{)").match(t, c.end()).end()
                    continue
                k = t.find("{", c.end())
                e = closing(t, k, "{}")
                if c.group(1) in ("requires", "ensures"):
                    getattr(f, c.group(1)).append((self.line(k), " ".join(t[k + 1 : e - 1].split())))
                i = e
            b = re.compile(r"\s*\{").match(t, i)
            f.body_at = b.end() if b else i
            f.end = closing(t, b.end() - 1, "{}") if b else i
            f.body = t[f.body_at : f.end - 1] if b else ""
            f.tokens = tokens(f.body)
            f.where = self.name.replace("crates/", "").replace("/src/", "/").replace(".rt", "") + "::" + f.name
            yield f

    def declared(self):
        t = self.text
        head = re.compile(r"(?:#\[derive\(([^)]*)\)\]\s*)?((?:pub(?:\([^)]*\))?\s+)?)(struct|enum)\s+(\w+)\s*(?:<[^>]*>)?\s*(?=\{)")
        for m in head.finditer(t):
            d = Fn()
            d.file, d.kind, d.name, d.derives = self, m.group(3), m.group(4), m.group(1) or ""
            d.line = self.line(m.start(3))
            k = t.index("{", m.end())
            d.at = k + 1
            d.body = t[k + 1 : closing(t, k, "{}") - 1]
            d.parts = parts(d.body)
            yield d


FILES = [File(p) for p in sorted(ROOT.glob("crates/*/src/**/*.rt"))]
FNS = [f for x in FILES for f in x.fns]
TYPES = [d for x in FILES for d in x.types]

PLACES = collections.OrderedDict()  # (point, kind) -> [(file, line, text)]
LISTED = set()
TITLES = {
    1: "own Option and Result, flags beside values, numbers for kinds and refusals",
    2: "twins",
    3: "loops that count an index by hand",
    4: "equality, order, copying, conversion and printing by hand",
    5: "facts and parameters that travel together",
    6: "buffers with a length beside them, parallel arrays, searches by hand",
    7: "switches on which step to run",
    8: "proofs",
}


def kind(point, name, listed=False):
    PLACES.setdefault((point, name), [])
    if listed:
        LISTED.add((point, name))
    return PLACES[(point, name)]


def add(places, file, line, text=None):
    entry = (file.name, line, " ".join((text or file.lines[line - 1]).split()))
    if entry not in places:
        places.append(entry)


def each(places, pattern, text=None):
    """A place for each match of the pattern in the code, comments left out."""
    for x in FILES:
        for m in re.finditer(pattern, x.text):
            if re.match(r"\s*(ghost |pub )?use\b", x.lines[x.line(m.start()) - 1]):
                continue
            add(places, x, x.line(m.start()), text(m) if text else None)


def signature(f):
    return f"fn {f.name}({', '.join(a + ': ' + b for a, b in f.params)})" + (f" -> {f.ret}" if f.ret else "")


# ---- 1 ----------------------------------------------------------------------------------------------------------------------------

def point1():
    p = kind(1, "enums with a variant Refused(u8)")
    for d in TYPES:
        if d.kind == "enum" and any(re.match(r"Refused\b", x) for x in d.parts):
            add(p, d.file, d.line, f"enum {d.name} {{ {', '.join(d.parts)} }}")
    p = kind(1, "structs with a refusal's number beside a value")
    for d in TYPES:
        if d.kind == "struct" and any(re.search(r"\brefusal\s*:", x) for x in d.parts):
            add(p, d.file, d.line, f"struct {d.name} {{ {', '.join(d.parts)} }}")
    p = kind(1, "functions that answer a refusal's number, 0 for none")
    for f in FNS:
        if f.ret == "u8" and re.search(r"refusal|(^|_)line(_|$)|fault", f.name):
            add(p, f.file, f.line, signature(f))
    p = kind(1, "functions that answer a number or minus a refusal's")
    minus = set()
    while True:
        more = {
            f.name for f in FNS
            if f.ret == "i32" and ((re.search(r"Refused|Err\(", f.body) and re.search(r"-\(?\w", f.body))
                                   or any(re.search(rf"\b{n}\(", f.body) for n in minus))
        } | minus
        if more == minus:
            break
        minus = more
    for f in FNS:
        if f.ret == "i32" and f.name in minus:
            add(p, f.file, f.line, signature(f))
    each(kind(1, "tests of a refusal's number that hand it on"), r"if [\w.]+ != 0 \{\s*return\b[^;]*;",
         text=lambda m: m.group())
    each(kind(1, "refusals by a literal number"), r"\bRefused\(\d+\)|\bline_or\(\s*\d+|\bErr\(\d+\)")
    p = kind(1, "refusals by a literal number")
    for f in FNS:
        if f.ret == "u8" and re.search(r"(^|_)line$", f.name):
            for m in re.finditer(r"=>\s*\d+", f.body):
                add(p, f.file, f.file.line(f.body_at + m.start()))
    each(kind(1, "match arms on a refusal"), r"\b\w+::Refused\(\w+\)\s*=>")
    p = kind(1, "fields that are a number for a kind")
    for d in TYPES:
        for m in re.finditer(rf"\b({KIND})\s*:\s*(u8|\[u8; *\w+\])", d.body):
            add(p, d.file, d.file.line(d.at + m.start()), f"{d.name}.{m.group(1)}: {m.group(2)}")
    p = kind(1, "parameters that are a number for a kind")
    for f in FNS:
        found = [f"{a}: {b}" for a, b in f.params if re.fullmatch(KIND, a) and re.fullmatch(r"u8|\[u8; *\w+\]|&\[u8\]", b)]
        found += [f"{a}: {b}" for a, b in f.params if re.fullmatch("outer|inner", a) and b == "u8"]
        if found:
            add(p, f.file, f.line, f"{f.name}: {', '.join(found)}")
    p = kind(1, "parameters that are a refusal's number")
    for f in FNS:
        found = [f"{a}: {b}" for a, b in f.params if b == "u8" and re.fullmatch("n|m|number|below|refusal", a)]
        if found and re.search("refus|line_or", f.name):
            add(p, f.file, f.line, f"{f.name}: {', '.join(found)}")
    subject = rf"(?:\b[\w.]*\b{KIND}(?:\[\w+\])?|\bversion_of\(\w+\))"
    literal = r"(?:b'.'|\d+)"
    each(kind(1, "comparisons of such a number with a literal"),
         rf"{subject}\s*(?:==|!=|<=|>=|<|>)\s*{literal}(?![\w'])|(?<![\w.]){literal}\s*(?:==|!=|<=|>=|<|>)\s*{subject}")
    p = kind(1, "a flag with a value beside it, or flags side by side")
    for d in TYPES:
        for x in d.parts:
            if re.search(r"\bbool\b", x):
                m = re.search(re.escape(x.split("(")[0].split(":")[0].split()[-1]) + r"\s*[:(]", d.body)
                add(p, d.file, d.file.line(d.at + m.start()), f"{d.name}: {x}")
    for f in FNS:
        if re.search(r"\([^()]*\bbool\b[^()]*,|,[^()]*\bbool\b|Result<bool>", f.ret):
            add(p, f.file, f.line, signature(f))
    p = kind(1, "a number that says that there is none (by the comment)")
    for x in FILES:
        for i, line in enumerate(x.lines):
            if re.search(r"//.*(\b0 where\b|where there is none|, or 0\b|0 for none|or the text's length|all 0 where|\b0 below\b)", line):
                add(p, x, i + 1)
            elif re.search(r"//.*\bthe (count|length)( where)?$", line) and "there is none" in x.lines[i + 1]:
                add(p, x, i + 1)


# ---- 2 ----------------------------------------------------------------------------------------------------------------------------

def by_literals(f):
    """The body with the function's own name, literals and integer types replaced."""
    out = []
    for t in f.tokens:
        if t == f.name:
            out.append("SELF")
        elif LITERAL.match(t):
            out.append("LIT")
        elif t in INT:
            out.append("INT")
        else:
            out.append(t)
    return tuple(out)


def by_names(f):
    """As by_literals, with every other name replaced by its turn."""
    seen = {}
    return tuple(
        t if t in KEYWORDS or not re.match(r"[A-Za-z_]", t) or t in ("LIT", "INT", "SELF") else "v%d" % seen.setdefault(t, len(seen))
        for t in by_literals(f)
    )


def shape(f):
    """The parameters' types and the result's, integers alike."""
    return tuple(re.sub(r"\b(%s)\b" % "|".join(INT), "INT", b) for _, b in f.params) + (re.sub(r"\b(%s)\b" % "|".join(INT), "INT", f.ret),)


def groups(fs, key, least):
    g = collections.OrderedDict()
    for f in fs:
        if len(f.tokens) >= least:
            g.setdefault(key(f), []).append(f)
    return [x for x in g.values() if len(x) > 1]


def add_groups(p, found):
    for n, g in enumerate(found, 1):
        for f in g:
            add(p, f.file, f.line, f"[{n}: {len(g)}] {f.where.split('::')[0]} {signature(f)}")


LIBRARY = [  # bodies that a library's function has
    ("min, max", r"if (\w+) <=? (\w+) \{ (?:\1|\2) \} else \{ (?:\1|\2) \}"),
    ("saturating_sub", r"if (\w+) <=? (\w+) \{ \2 - \1 \} else \{ 0 \}"),
    ("if", r"if (\w+) \{ (\w+) \} else \{ (\w+) \}"),
    ("From", r"\w+ as \w+"),
    ("contains", r"\( ?(\w+) < (\w+) ?\) \| \( ?(\w+) < \1 ?\)"),
    ("from_be_bytes, to_be_bytes", r"(?!.*; 65536\]).*\b(?:256|65536)\b.*"),
]


def library_twin(f):
    body = " ".join(f.body.split())
    return next((name for name, r in LIBRARY if re.fullmatch(r, body)), None)


def point2():
    fs = [f for f in FNS if f.name != "main"]
    exact = groups(fs, by_literals, 3)
    exact = [g for g in exact if len({f.name for f in g}) == 1 or len(g[0].tokens) >= 8]
    add_groups(kind(2, "functions equal but for numbers, integer types and their name"), exact)
    inside = {id(f): i for i, g in enumerate(exact) for f in g}
    alike = []
    for g in groups(fs, lambda f: (shape(f), by_names(f)), 8):
        if len({inside.get(id(f), -id(f)) for f in g}) > 1:
            alike.append(g)
    add_groups(kind(2, "functions equal but for names, with alike parameters"), alike)
    alike_too = []
    known = {frozenset((id(a), id(b))) for g in exact + alike for a, b in itertools.combinations(g, 2)}
    for g in groups(fs, by_names, 14):
        if any(frozenset((id(a), id(b))) not in known for a, b in itertools.combinations(g, 2)):
            alike_too.append(g)
    add_groups(kind(2, "functions equal but for names, with other parameters", listed=True), alike_too)
    p = kind(2, "near twins (0.85 and more of the tokens, 25 tokens and more)")
    big = [f for f in fs if len(f.tokens) >= 25]
    near = collections.OrderedDict()
    for a, b in itertools.combinations(big, 2):
        if frozenset((id(a), id(b))) in known:
            continue
        x, y = by_literals(a), by_literals(b)
        s = difflib.SequenceMatcher(None, x, y, False)
        if s.real_quick_ratio() >= 0.85 and s.quick_ratio() >= 0.85 and s.ratio() >= 0.85:
            near.setdefault(id(a), [a]).append(b)
    for g in near.values():
        for f in g[1:]:
            add(p, g[0].file, g[0].line, f"{g[0].where} ~ {f.where}")
    p = kind(2, "functions that the library has")
    library = set()
    for f in FNS:
        name = library_twin(f)
        if name:
            library.add(f.name)
            add(p, f.file, f.line, f"{f.where}: {name}")
    p = kind(2, "calls of these", listed=True)
    for f in FNS:
        for m in re.finditer(r"(?<![\w.:])(%s)\(" % "|".join(sorted(library or {"-"})), f.body):
            add(p, f.file, f.file.line(f.body_at + m.start()), f"{f.where}: {m.group(1)}")
    p = kind(2, "types of one shape")
    g = collections.OrderedDict()
    for d in TYPES:
        key = tuple(sorted(re.sub(r"^(pub )?\w+", "V", re.sub(r"\b(%s)\b" % "|".join(INT), "INT", x)) for x in d.parts))
        g.setdefault((d.kind, key), []).append(d)
    for n, ds in enumerate([x for x in g.values() if len(x) > 1], 1):
        for d in ds:
            add(p, d.file, d.line, f"[{n}: {len(ds)}] {d.kind} {d.name} {{ {', '.join(d.parts)} }}")
    p = kind(2, "files equal but for numbers and comments")
    g = collections.OrderedDict()
    for x in FILES:
        ts = [("LIT" if LITERAL.match(t) else t) for t in tokens(x.text)]
        ts = [t for i, t in enumerate(ts) if not (t == "LIT" and ts[i - 2 : i] == ["LIT", ","])]
        g.setdefault(tuple(ts), []).append(x)
    for n, xs in enumerate([x for key, x in g.items() if len(x) > 1 and len(key) > 12], 1):
        for x in xs:
            add(p, x, 1, f"[{n}: {len(xs)}] {x.name}")
    p = kind(2, "one name in two modules", listed=True)
    g = collections.OrderedDict()
    for f in FNS:
        if f.name not in ("main", "run", "answer"):
            g.setdefault((f.name, f.owner), []).append(f)
    for (name, _), xs in sorted(g.items()):
        if len(xs) > 1:
            for f in xs:
                add(p, f.file, f.line, f"[{name}: {len(xs)}] {signature(f)}")


# ---- 3 ----------------------------------------------------------------------------------------------------------------------------

def loops():
    """(function, place, head, body) of each while and each bare loop."""
    for f in FNS:
        for m in re.finditer(r"\bwhile\b([^{]*)\{|\bloop\s*\{", f.body):
            k = f.body.index("{", m.start())
            yield f, f.body_at + m.start(), " ".join((m.group(1) or "").split()), f.body[k + 1 : closing(f.body, k, "{}") - 1]


def point3():
    index = kind(3, "while loops with an index stepped by one by hand")
    step = kind(3, "while loops stepped by more than one, or by a call", listed=True)
    halving = kind(3, "while loops that halve or widen a range", listed=True)
    for f, at, head, body in loops():
        line = f.file.line(at)
        stepped = [v for v in re.findall(r"\b(\w+) [-+]= 1;", body) if re.search(rf"\b{v}\b", head)]
        text = f"{f.where}: while {head}"
        if stepped:
            add(index, f.file, line, text)
        elif re.search(r"/ 2\b", body):
            add(halving, f.file, line, text)
        else:
            add(step, f.file, line, text)
    p = kind(3, "recursive functions", listed=True)
    for f in FNS:
        if re.search(rf"(?<![\w:.]){f.name}\(", f.body) and not re.search(rf"\b{f.name}\b\(", " ".join(a for a, _ in f.params)):
            add(p, f.file, f.line, f.where)
    each(kind(3, "for loops and iterators", listed=True), r"\bfor\s+[\w(,) ]+\s+in\b|\.iter\(\)|\.iter_mut\(\)|\.chunks\w*\(")


# ---- 4 ----------------------------------------------------------------------------------------------------------------------------

FIELDS = collections.defaultdict(set)
for _d in TYPES:
    for _x in _d.parts:
        _m = re.match(r"(?:pub(?:\([^)]*\))? )?(\w+): (.+)", _x)
        if _m:
            FIELDS[_m.group(1)].add(_m.group(2))
RETURNS = collections.defaultdict(set)
for _f in FNS:
    RETURNS[_f.name].add(_f.ret)
CONSTS = {m.group(1): m.group(2) for x in FILES for m in re.finditer(r"\bconst (\w+): (\w+)\b", x.text)}


def type_of(f, operand):
    """A guess of the type of what is cast; None where it cannot be told."""
    operand = operand.strip()
    m = re.fullmatch(r"(\w+)", operand)
    if m:
        w = m.group(1)
        for a, b in f.params if f else []:
            if a == w:
                return b
        if w in CONSTS:
            return CONSTS[w]
        if f:
            k = re.search(rf"let (?:mut )?{w}: (\w+)", f.body)
            if k:
                return k.group(1)
            k = re.search(rf"let (?:mut )?{w} = (?:\w+::)*(\w+)\(", f.body)
            if k and len(RETURNS[k.group(1)]) == 1:
                return next(iter(RETURNS[k.group(1)]))
            k = re.search(rf"let (?:mut )?{w} = \w+(?:\.\w+)*\.(\w+);", f.body)
            if k and len(FIELDS[k.group(1)]) == 1:
                return next(iter(FIELDS[k.group(1)]))
            k = re.search(rf"(\w+)::(\w+)\({w}\) =>", f.body)
            if k:
                for d in TYPES:
                    if d.name == k.group(1):
                        v = re.search(rf"\b{k.group(2)}\((\w+)\)", d.body)
                        return v.group(1) if v else None
        return None
    m = re.fullmatch(r"(\w+)\[[^\]]*\]", operand)
    if m:
        t = type_of(f, m.group(1)) or next(iter(FIELDS[m.group(1)]), "")
        e = re.search(r"\[(\w+)", t or "")
        return e.group(1) if e else None
    m = re.fullmatch(r"[\w.]+\.(\w+)", operand)
    if m and len(FIELDS[m.group(1)]) == 1:
        return next(iter(FIELDS[m.group(1)]))
    m = re.fullmatch(r"(?:\w+::)*(\w+)\(.*\)", operand, re.S)
    if m and len(RETURNS[m.group(1)]) == 1:
        return next(iter(RETURNS[m.group(1)]))
    return None


def operand_before(text, i):
    """What stands before ` as`: a name, a field, a call, an index or a bracket."""
    j = i
    while j > 0:
        c = text[j - 1]
        if c in ")]":
            depth = 0
            while j > 0:
                j -= 1
                depth += (text[j] in ")]") - (text[j] in "([")
                if depth == 0:
                    break
        elif re.match(r"[\w.:]", c):
            j -= 1
        else:
            break
    return text[j:i]


def point4():
    p = kind(4, "equality by hand")
    for f in FNS:
        pairs = re.findall(r"\b(\w+)\.(\w+) == (\w+)\.\2\b", f.body)
        if f.ret == "bool" and (pairs or re.match(r"same_|is_same", f.name)):
            add(p, f.file, f.line, f.where)
    p = kind(4, "tests of a variant by hand")
    for f in FNS:
        for m in re.finditer(r"\bmatch\b[^{]*\{", f.body):
            k = m.end() - 1
            arms = re.findall(r"=>\s*(true|false)\b", f.body[k : closing(f.body, k, "{}")])
            if len(arms) > 1:
                add(p, f.file, f.file.line(f.body_at + m.start()), f.where)
    p = kind(4, "the lesser or the greater of two, and numbers cut off at a bound, by hand")
    for f in FNS:
        for m in re.finditer(r"if ([\w.]+) <=? ([\w.]+) \{\s*([^{};]*?)\s*\} else \{\s*([^{};]*?)\s*\}", f.body):
            a, b, x, y = m.groups()
            bare = lambda s: re.sub(r" as \w+$|^\w+(::\w+)*\((.*)\)$", lambda k: k.group(2) or "", s)
            if {bare(x), bare(y)} == {a, b} or (bare(y) == "0" and re.fullmatch(rf"{re.escape(b)} - {re.escape(a)}", x)):
                add(p, f.file, f.file.line(f.body_at + m.start()), f"{f.where}: {' '.join(m.group().split())}")
    each(kind(4, "range tests by hand"), r"\(?\b([\w.]+) < ([\w.:()]+)\)? \| \(?([\w.:()]+) < \1\b", text=lambda m: m.group())
    p = kind(4, "structs rebuilt field by field")
    for f in FNS:
        for m in re.finditer(r"\b([A-Z]\w*) \{", f.body):
            k = m.end() - 1
            entries = parts(f.body[k + 1 : closing(f.body, k, "{}") - 1])
            same = [e for e in entries if re.fullmatch(r"(\w+): \w+\.\1", e)]
            if len(same) >= 3:
                add(p, f.file, f.file.line(f.body_at + m.start()), f"{f.where}: {m.group(1)}, {len(same)} of {len(entries)} fields")
    each(kind(4, "fields copied to a local of the same name"), r"let (?:mut )?(\w+) = (\w+(?:\.\w+)*)\.\1;")
    each(kind(4, "fields named twice", listed=True), r"(?<=[{,\s])(\w+): \1(?=\s*[,}])",
         text=lambda m: m.group())
    widening, narrowing, signs, unknown = (
        kind(4, "casts that widen"), kind(4, "casts that narrow"),
        kind(4, "casts of one width or of a sign"), kind(4, "casts whose operand is worked out, or of no type told"))
    for x in FILES:
        for m in re.finditer(r" as (u8|u16|u32|u64|usize|i32|i64)\b", x.text):
            if re.match(r"\s*use\b", x.lines[x.line(m.start()) - 1]):
                continue
            f = next((g for g in x.fns if g.start <= m.start() < g.end), None)
            operand = operand_before(x.text, m.start())
            t, to = type_of(f, operand), m.group(1)
            text = f"{f.where if f else x.name}: {' '.join(operand.split())} as {to}"
            line = x.line(m.start())
            if t not in WIDTH:
                add(unknown, x, line, text)
            elif (t in ("i32", "i64")) != (to in ("i32", "i64")) or WIDTH[t] == WIDTH[to]:
                add(signs, x, line, f"{text} (from {t})")
            elif WIDTH[t] < WIDTH[to]:
                add(widening, x, line, f"{text} (from {t})")
            else:
                add(narrowing, x, line, f"{text} (from {t})")
    p = kind(4, "functions that only widen a number, and numbers put together of bytes by hand")
    for f in FNS:
        body = " ".join(f.body.split())
        if re.fullmatch(r"\w+ as \w+", body) or re.search(r"(?<!; )\b(256|65536|16777216)\b", body):
            add(p, f.file, f.line, f.where)
    p = kind(4, "digits written or read by hand")
    for f in FNS:
        if re.search(r"\b48 \+|% 10\b|b'0'\.\.=b'9'|hex_digit\(|decimal_digit\(|with_digit\(|:02x", f.body):
            add(p, f.file, f.line, f.where)
    p = kind(4, "printing by hand of a value of an own type")
    own = "|".join(d.name for d in TYPES)
    for f in FNS:
        if re.match(r"print", f.name) and any(re.fullmatch(rf"(?:{own})", b) for _, b in f.params) and "match" in f.body:
            add(p, f.file, f.line, signature(f))
        elif re.match(r"print", f.name) and re.search(r"match answer", f.body):
            add(p, f.file, f.line, signature(f))
        elif re.match(r"print", f.name) and any(re.fullmatch(rf"(?:{own})", b) for _, b in f.params) and f.file.name.find("test_run") > 0:
            if len(re.findall(r"\b\w+\.\w+\)", f.body)) > 2:
                add(p, f.file, f.line, signature(f))
    p = kind(4, "types that derive neither PartialEq nor Debug", listed=True)
    for d in TYPES:
        if not re.search(r"PartialEq|Debug", d.derives):
            add(p, d.file, d.line, f"{d.kind} {d.name}: derives {d.derives or 'nothing'}")


# ---- 5 ----------------------------------------------------------------------------------------------------------------------------

def conjuncts(text):
    """The facts that × joins, out of their brackets."""
    text = text.strip()
    while text.startswith("(") and closing(text, 0) == len(text):
        text = text[1:-1].strip()
    ps, depth, last = [], 0, 0
    for i, c in enumerate(text):
        depth += (c in "([{") - (c in ")]}")
        if c == "×" and depth == 0:
            ps.append(text[last:i])
            last = i + 1
    ps.append(text[last:])
    if len(ps) == 1:
        return [" ".join(text.split())]
    return [x for q in ps for x in conjuncts(q)]


def normal(fact, f):
    """The fact with each parameter's name replaced by its type; room in a lent space as one fact."""
    if re.search(r"≤ length \w+\.old$", fact):
        kinds = [b for a, b in f.params if f" {a}.old" in fact]
        return f"_ ≤ length ⟨{kinds[0] if kinds else '?'}⟩.old"
    for a, b in f.params:
        fact = re.sub(rf"(?<![\w.]){re.escape(a)}(?!\w)", f"⟨{b}⟩", fact)
    return fact


def facts(which, point, name, drop):
    g = collections.OrderedDict()
    for f in FNS:
        seen = set()
        for line, text in getattr(f, which):
            for fact in conjuncts(text):
                n = normal(fact, f)
                bare = not re.search(r"[A-Za-z0-9]", re.sub(r"⟨[^⟩]*⟩|\bresult\b", "", n))
                if n in seen or bare or drop(n):
                    continue
                seen.add(n)
                g.setdefault(n, []).append((f, line, fact))
    p = kind(point, name)
    for n, xs in sorted(g.items(), key=lambda kv: -len(kv[1])):
        if len(xs) >= 3:
            for f, line, fact in xs:
                add(p, f.file, line, f"[{n}: {len(xs)}] {f.where}: {fact}")


def point5():
    facts("requires", 5, "facts required by three and more functions", lambda n: False)
    equation = re.compile(r"result ≡|⟨.*⟩\.new ≡|result\.\w+ ≡")
    facts("ensures", 5, "facts promised by three and more functions", lambda n: equation.match(n) is not None)
    p = kind(5, "parameters that stand together in three and more functions")
    sets = [(f, frozenset((a, b) for a, b in f.params if a != "rt")) for f in FNS if len(f.params) > 1]
    closed = {s for _, s in sets}
    while True:
        more = {a & b for a, b in itertools.combinations(closed, 2)} | closed
        if more == closed:
            break
        closed = more
    found = []
    for s in closed:
        fs = [f for f, t in sets if s <= t]
        if len(s) > 1 and len(fs) > 2:
            found.append((s, fs))
    for s, fs in sorted(found, key=lambda x: (-len(x[1]), sorted(x[0]))):
        order = [a for a, b in fs[0].params if (a, b) in s]
        types = dict(s)
        label = ", ".join(f"{a}: {types[a]}" for a in order)
        for f in fs:
            add(p, f.file, f.line, f"[{label}: {len(fs)}] {f.where}")


# ---- 6 ----------------------------------------------------------------------------------------------------------------------------

def point6():
    p = kind(6, "a buffer and a place in it")
    for f in FNS:
        if any(re.fullmatch(r"at|from|place|end", a) and b == "usize" for a, b in f.params) and any(
            re.match(r"&(mut )?\[", b) for _, b in f.params
        ):
            add(p, f.file, f.line, signature(f))
    p = kind(6, "a buffer and a length")
    for f in FNS:
        if any(re.fullmatch(r"n|k|len|length|space|count|most", a) and b == "usize" for a, b in f.params) and any(
            re.match(r"&(mut )?\[|\[", b) for _, b in f.params
        ):
            add(p, f.file, f.line, signature(f))
    p = kind(6, "functions that fill a lent buffer and answer how much of it")
    for f in FNS:
        if f.ret == "usize" and any(b.startswith("&mut [") for _, b in f.params):
            add(p, f.file, f.line, signature(f))
    each(kind(6, "the used front of a buffer cut out"), r"&(?:mut )?\w+\[(?:0)?\.\.\w+(?:\(\))?\]|&(?:mut )?\w+\[\w+\.\.\]")
    p = kind(6, "parallel arrays")
    for d in TYPES:
        if re.search(r"\bdirections\b", d.body) and re.search(r"\bthicknesses\b", d.body):
            add(p, d.file, d.line, f"{d.kind} {d.name}")
    for f in FNS:
        names = {a for a, _ in f.params}
        if {"directions", "thicknesses"} <= names:
            add(p, f.file, f.line, signature(f))
        elif re.search(r"\bdirections\b", f.body) and re.search(r"\bthicknesses\b", f.body):
            add(p, f.file, f.line, f"{f.where}: both in the body")
    p = kind(6, "an array and the count of its used places")
    for f in FNS:
        names = dict(f.params)
        if (("thicknesses" in names) != ("directions" in names)) and ({"count", "n"} & set(names)):
            add(p, f.file, f.line, signature(f))
    p = kind(6, "searches and folds by hand")
    for f, at, head, body in loops():
        if re.search(r"/ 2\b", body):
            continue
        if re.search(r"\breturn\b", body):
            add(p, f.file, f.file.line(at), f"{f.where}: leaves at the first")
        elif re.search(r"\b(\w+) = \1 [|&] ", body):
            add(p, f.file, f.file.line(at), f"{f.where}: any or all")
        elif re.search(r"\b\w+ \+= (?!1;)|\b(\w+) = \w+\(\1\b", body):
            add(p, f.file, f.file.line(at), f"{f.where}: sum or fold")
    p = kind(6, "ladders of tests")
    for f in FNS:
        n = len(re.findall(r"\bif [^{};]*(?:<=|<|==|>=|>)[^{};]*\{\s*return [\w:(), ]+;\s*\}", f.body))
        if n > 2:
            add(p, f.file, f.line, f"{f.where}: {n} steps")


# ---- 7 ----------------------------------------------------------------------------------------------------------------------------

def point7():
    p = kind(7, "tests of a word that pick what runs")
    for f in FNS:
        for m in re.finditer(r"\bis_word\(", f.body):
            add(p, f.file, f.file.line(f.body_at + m.start()))
    p = kind(7, "functions of one shape picked among them")
    for f in FNS:
        if re.match(r"answer", f.name) and any(a == "line" for a, _ in f.params):
            add(p, f.file, f.line, f.where)
    p = kind(7, "matches that pick a function or a table and hand it the same")
    for f in FNS:
        for m in re.finditer(r"\bmatch\b([^{]*)\{", f.body):
            k = m.end() - 1
            inner = f.body[k + 1 : closing(f.body, k, "{}") - 1]
            arms = re.findall(r"=>\s*(\{|[\w:]+\(([^()]*)\)|\w+)", inner)
            calls = [re.sub(r"\s", "", a) for t, a in arms if t.endswith(")")]
            tables = re.findall(r"::TABLE\b", inner)
            if len(arms) > 1 and ((len(calls) == len(arms) and len(set(calls)) == 1) or len(tables) > 1):
                add(p, f.file, f.file.line(f.body_at + m.start()), f"{f.where}: match {m.group(1).strip()}")


# the rest of point 7 goes by what a function does with its steps
def point7_steps():
    p = kind(7, "one step done in each fire")
    for f in FNS:
        if re.search(r"\bshown\(", f.body) and re.search(r"\bturned\(", f.body):
            add(p, f.file, f.line, signature(f))
    p = kind(7, "halvings that differ in their test")
    for f, at, head, body in loops():
        if re.search(r"/ 2\b", body):
            add(p, f.file, f.file.line(at), f"{f.where}: while {head}")


# ---- 8 ----------------------------------------------------------------------------------------------------------------------------

DECLARATION = re.compile(r"^( *)(?:abbrev )?(?:pub )?(?:abbrev )?([^\s:(){}]+)\s*:(?!:)\s*(.*)$")


def proof_items(path):
    """(name, line, statement, body) of each declaration of an .antt file."""
    lines = path.read_text(encoding="utf-8").split("\n")
    i, items = 0, []
    while i < len(lines):
        m = DECLARATION.match(lines[i])
        if not m or lines[i].lstrip().startswith("--") or len(m.group(1)) > 2 or m.group(2) in ("where", "let"):
            i += 1
            continue
        name, at, indent = m.group(2), i, len(m.group(1))
        statement = [m.group(3)]
        i += 1
        while i < len(lines) and lines[i].startswith(" " * (indent + 1)) and not re.match(rf" *{re.escape(name)}\b.*=", lines[i]):
            statement.append(lines[i].strip())
            i += 1
        body = []
        while i < len(lines) and not (DECLARATION.match(lines[i]) and len(DECLARATION.match(lines[i]).group(1)) <= indent):
            if re.match(r"\S", lines[i]) and re.match(r"(use|module|open|pub mod)\b", lines[i]):
                break
            if lines[i].lstrip().startswith("--"):
                i += 1
                continue
            body.append(lines[i])
            i += 1
        items.append((name, at + 1, " ".join(" ".join(statement).split()), " ".join(" ".join(body).split())))
    return items


def plain(statement):
    """A lemma's statement with its variables by their turn and its binders left out."""
    s = re.sub(r"\{A : Type 0\}|\{A = ℕ\}", "", statement)
    names = [n for g in re.findall(r"[({]([^(){}:]+) :", s) for n in g.split()]
    s = re.sub(r"[({][^(){}:]+ : [^(){}]*[)}]\s*(→)?", "", s)
    s = re.sub(r"^\s*→\s*", "", " ".join(s.split()))
    seen = {}
    out = []
    for t in re.findall(r"[^\s(){}]+|[(){}]", s):
        out.append("v%d" % seen.setdefault(t, len(seen)) if t in names else t)
    return " ".join(out)


def point8(kit):
    class At:
        def __init__(self, path):
            self.name = str(path.relative_to(ROOT))

    answers, lemmas, invariants = [], [], []
    bodies = {}
    files = sorted(ROOT.glob("crates/*/proofs/**/*.antt"))
    answered = [x for x in files if x.name == "Answers.antt"]
    for path in files:
        if path.name == "Lib.antt":
            continue
        text = path.read_text(encoding="utf-8")
        for name, line, statement, body in proof_items(path):
            where = (At(path).name, line)
            if re.match(r"goal\.", statement):
                if path.name == "Invariants.antt":
                    invariants.append((where, name, statement))
                else:
                    unfolds = re.match(r"unfolding ([^=]*?)(?= \S+ (?:\w+ )?c =|$)", body)
                    term = re.sub(rf"^(?:unfolding [^=]*?)?{re.escape(name)}( \w+)* = ?", "", body).strip()
                    answers.append((where, name, term, bool(unfolds)))
            else:
                lemmas.append((where, name, statement, path.name == "Answers.antt"))
                bodies[where] = body

    def put(p, where, text):
        if (where[0], where[1], text) not in p:
            p.append((where[0], where[1], text))

    p = kind(8, "answer files", listed=True)
    for x in answered:
        put(p, (At(x).name, 1), At(x).name.split("/proofs/")[1])
    p = kind(8, "answers", listed=True)
    for where, name, term, _ in answers:
        put(p, where, f"{name} = {term[:100]}")
    p = kind(8, "invariants and measures", listed=True)
    for where, name, _ in invariants:
        put(p, where, name)
    p = kind(8, "answers that are one tactic with no lemma of ours")
    for where, name, term, unfolds in answers:
        if not unfolds and re.fullmatch(r"refl|cc|tt|\(?(?:omega arith|search rules|grind arith)(?:, (?:omega arith|refl|search rules))*\)?"
                                        r"|omega \(arith(?:, c\.[\w.]+)*\)", term):
            put(p, where, f"{name} = {term[:100]}")
    p = kind(8, "answers whose text stands in three and more places")
    g = collections.OrderedDict()
    for where, name, term, _ in answers:
        g.setdefault(term, []).append((where, name))
    for term, xs in sorted(g.items(), key=lambda kv: -len(kv[1])):
        if len(xs) > 2:
            for where, name in xs:
                put(p, where, f"[{len(xs)}] {name} = {term[:90]}")
    p = kind(8, "parts of answers, of 40 characters and more, that stand in three and more answers")
    g = collections.OrderedDict()
    for where, name, term, _ in answers:
        inner = set()
        for m in re.finditer(r"\(", term):
            s = term[m.start() : closing(term, m.start())]
            if len(s) >= 40:
                inner.add(s)
        for m in re.finditer(r"\b\w+ = ([^;]{40,});", term):
            inner.add(m.group(1))
        for m in re.finditer(r"let \w+(?: : [^=]*)? = ((?:(?! in ).){40,}?) in\b", term):
            inner.add(m.group(1))
        for s in inner:
            g.setdefault(s, []).append((where, name))
    for s, xs in sorted(g.items(), key=lambda kv: -len(kv[1])):
        if len(xs) > 2:
            for where, name in xs:
                put(p, where, f"[{len(xs)}] {name}: {s[:100]}")
    p = kind(8, "lemmas inside answer files", listed=True)
    for where, name, statement, inside in lemmas:
        if inside:
            put(p, where, f"{name} : {statement[:100]}")
    p = kind(8, "lemmas beside them, by file", listed=True)
    count = collections.Counter(where[0] for where, _, _, inside in lemmas if not inside)
    for file, n in count.items():
        put(p, (file, 1), f"{n} lemmas and definitions")
    p = kind(8, "lemmas of one statement in two places")
    g = collections.OrderedDict()
    for where, name, statement, _ in lemmas:
        if re.search(r"[≡≤<]", statement):
            g.setdefault(plain(statement), []).append((where, name, statement))
    for s, xs in g.items():
        if len(xs) > 1 and len(s) > 8:
            for where, name, statement in xs:
                put(p, where, f"[{len(xs)}] {name} : {statement[:90]}")
    p = kind(8, "lemmas about numbers, lists and tests alone, which the library may have", listed=True)
    common = set("ℕ List Bool true false not zero suc length append reverse map take drop get_or set_at min max sum filter IsTrue T "
                 "leb ltb eqb and or Dec refl Type ◌ A B xs ys zs".split())
    for where, name, statement, _ in lemmas:
        bound = {n for gr in re.findall(r"[({]([^(){}:]+) :", statement) for n in gr.split()}
        ws = set(re.findall(r"[A-Za-z_][\w'-]*", statement)) - bound - common
        if not ws and re.search(r"≡|≤|<|\bT ", statement):
            put(p, where, f"{name} : {statement[:110]}")
    p = kind(8, "lemmas proved by one tactic with no lemma of ours", listed=True)
    for where, name, statement, _ in lemmas:
        if re.search(rf"= (omega|grind|search|simp|cc|refl)( arith| rules)?$", bodies[where]) and bodies[where].count(" = ") == 1:
            put(p, where, f"{name} : {statement[:90]}")
    if kit:
        p = kind(8, "lemmas whose statement a file of the kit has too")
        ours = collections.defaultdict(list)
        for where, name, statement, _ in lemmas:
            if re.search(r"[≡≤<]|\bT ", statement) and not re.search(r"→ (Type 0|Bool|ℕ)$", statement):
                ours[plain(statement)].append((where, name, statement))
        hits = collections.defaultdict(list)
        for path in sorted(pathlib.Path(kit).rglob("*.antt")):
            try:
                items = proof_items(path)
            except (UnicodeDecodeError, OSError):
                continue
            for name, line, statement, _ in items:
                for mine in ours.get(plain(statement), []):
                    hits[mine].append((not re.search(r"/std/|/native/|/Author/", str(path)), f"{path.relative_to(kit)} {name}"))
        for (where, own, mine), found in sorted(hits.items()):
            put(p, where, f"{own} : {mine[:80]}  = {sorted(found)[0][1]}")


# ---- what is printed --------------------------------------------------------------------------------------------------------------

def reasons():
    """The lines of each file beside which a comment says that something stays."""
    kept = {}
    for x in FILES:
        lines = set()
        for i, line in enumerate(x.lines):
            words = line.split("//", 1)[1] if "//" in line else ""
            if i + 1 < len(x.lines) and words and x.lines[i + 1].lstrip().startswith("//"):  # a reason may go on in the next line
                words += " " + x.lines[i + 1].lstrip()[2:].lstrip()
            if REASON.search(words):
                j = i + 1
                while j < len(x.lines) and x.lines[j].lstrip().startswith(("//", "#[")):  # attributes stand between
                    j += 1
                lines |= {i + 1, j + 1}
        for f in x.fns:
            if f.line in lines:
                lines |= set(range(f.line, x.line(f.end) + 1))
        for m in re.finditer(r"^(?:pub(?:\(\w+\))? )?(?:struct|enum) [^;{]*\{", x.text, re.M):
            if x.line(m.start()) in lines:
                lines |= set(range(x.line(m.start()), x.line(closing(x.text, m.end() - 1, "{}")) + 1))
        kept[x.name] = lines
    return kept


def main():
    a = argparse.ArgumentParser()
    a.add_argument("--totals", action="store_true")
    a.add_argument("--point", type=int)
    a.add_argument("--kit")
    args = a.parse_args()
    for f in (point1, point2, point3, point4, point5, point6, point7, point7_steps):
        f()
    point8(args.kit)
    kept = reasons()
    for point in sorted(TITLES):
        if args.point and point != args.point:
            continue
        counted = {(f, n) for (q, k), xs in PLACES.items() if q == point and (q, k) not in LISTED for f, n, _ in xs}
        stays = {(f, n) for f, n in counted if n in kept.get(f, ())}
        print(f"== {point}. {TITLES[point]}: {len(counted)} places" + (f", {len(stays)} of them kept" if stays else ""))
        for (q, k), xs in PLACES.items():
            if q != point:
                continue
            labels = {m.group() for m in (re.match(r"\[.*: \d+\]", t) for _, _, t in xs) if m}
            lines = len({(f, n) for f, n, _ in xs})
            print(f"  {lines:4d}  {k}" + (f", {len(labels)} groups" if labels else "") + (" (listed)" if (q, k) in LISTED else ""))
            if not args.totals:
                for f, n, text in xs:
                    print(f"        {f}:{n}: {text}" + ("  [kept]" if n in kept.get(f, ()) else ""))


if __name__ == "__main__":
    main()
