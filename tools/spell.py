#!/usr/bin/env python3
"""Gives the definitions and lemmas of this repository the spelling of today's Rattle: words in snake case.

usage: spell.py FOLDER [--dry]

Run once, at the top of a checkout, after the kit's port.py. `boardOf`, `board-itself` and `length-boardBytes` become `board_of`,
`board_itself` and `length_board_bytes`; a dash beside a fact or a type stays (`IsTrue-left`), as does what begins with a capital.
It turns what specs/ and proofs/ declare (definitions, lemmas, fields, constructors), wherever it is named: in specs/, proofs/, the clauses
and comments of src/, and must-fail/. Strings, code and the names that Rattle makes for the goals of a function are left.
"""
import collections
import glob
import os
import re
import sys

WORD = re.compile(r"[^\s(){}\[\];,.\"`:]+")
# What would fall together with another name, or has a word of the older library in it.
CHOSEN = {
    "T-left": "IsTrue-left",
    "T-right": "IsTrue-right",
    "T-either": "IsTrue-either",
    "T_true": "IsTrue-true",
    "T_false": "IsTrue-false",
    "cardText": "text_of_card",  # text_lines is a crate
    "boardCount": "count_of_boards",  # board_count and lamella_count are fields of a struct
    "lamellaCount": "count_of_lamellae",
}
OLDER = {"getD": "get_or", "eqb": "eqb"}


def snake(name):
    if name in CHOSEN:
        return CHOSEN[name]
    if name[0].isupper():
        return name
    parts = []
    for part in name.split("-"):
        if part in OLDER:
            parts.append(OLDER[part])
            continue
        if part and part[0].isupper():
            parts.append(part)
            continue
        part = re.sub(r"(?<=[a-z0-9])([A-Z])", lambda m: "_" + m[1].lower(), part)
        parts.append(part)
    out = parts[0]
    for a, b in zip(parts, parts[1:]):
        fact = (a and a[0].isupper()) or (b and b[0].isupper())
        out += ("-" if fact else "_") + b
    return out


def declared(path):
    with open(path, encoding="utf-8") as f:
        text = f.read()
    for line in text.split("\n"):
        m = re.match(r"(?:abbrev |unfoldable |pub |mutual )*([^\s:{}()]+)(?: \{[^}]*\})* :(?: |$)", line)
        if m:
            yield m[1]
        m = re.match(r"\s+(?:pub )?([^\s:{}()\[\];,]+) :(?: |$)", line)
        if m:
            yield m[1]


def turn_words(text, names):
    return WORD.sub(lambda m: names.get(m[0], m[0]), text)


def turn_source(text, names):
    """Of a source file: everything but strings. Names with a dash only in clauses, imports and comments, where code cannot stand."""
    out = []
    for line in text.split("\n"):
        bits = re.split(r'("(?:[^"\\]|\\.)*")', line)
        for i in range(0, len(bits), 2):
            bits[i] = turn_words(bits[i], names)
        out.append("".join(bits))
    return "\n".join(out)


def main(argv):
    root = argv[0] if argv else "."
    dry = "--dry" in argv
    os.chdir(root)
    lemma_files = sorted(glob.glob("crates/*/specs/*.antt") + glob.glob("crates/*/proofs/*.antt"))
    all_names = collections.OrderedDict()
    for path in lemma_files:
        for name in declared(path):
            all_names.setdefault(name, []).append(path)
    # helper lemmas beside a function's answers; what answers a goal has Rattle's name
    for path in sorted(glob.glob("crates/*/proofs/*/**/*.antt", recursive=True)):
        with open(path, encoding="utf-8") as f:
            text = f.read()
        for m in re.finditer(r"(?m)^(?:abbrev |pub )*([^\s:{}()]+)(?: \{[^}]*\})* : ?(.*)$", text):
            if not re.match(r"\s*(tie|goal)\.", m[2]) and not m[1].endswith("-spec") and not re.search(r": tie\.|statement", m[0]):
                rest = text[m.end():m.end() + 40]
                if not re.match(r"\s*(tie|goal)\.", rest):
                    all_names.setdefault(m[1], []).append(path)
    names = {n: snake(n) for n in all_names if snake(n) != n}
    # A lemma that would have its definition's name.
    taken = {new for old, new in names.items() if "-" not in old} | {n for n in all_names if n not in names}
    for old in names:
        if "-" in old and names[old] in taken and old not in CHOSEN:
            names[old] += "_lem"
    by_new = collections.defaultdict(set)
    for old, new in names.items():
        by_new[new].add(old)
    for name in all_names:
        if name in by_new:
            by_new[name].add(name)
    for new, olds in sorted(by_new.items()):
        if len(olds) > 1:
            print("together:", new, {o: sorted(set(p.replace("crates/", "") for p in all_names[o])) for o in olds})
    changed = 0
    paths = lemma_files + sorted(glob.glob("crates/*/proofs/*/**/*.antt", recursive=True)) + sorted(glob.glob("crates/*/src/**/*.rt", recursive=True)) + sorted(glob.glob("crates/*/must-fail/*.edit"))
    for path in paths:
        with open(path, encoding="utf-8") as f:
            text = f.read()
        used = {w for w in WORD.findall(text) if w in names}
        there = set(WORD.findall(text))
        for old in sorted(used):
            if names[old] in there:
                print("there already:", path, old, "->", names[old])
        new = turn_source(text, names) if path.endswith(".rt") else turn_words(text, names)
        if new != text:
            changed += 1
            if not dry:
                with open(path, "w", encoding="utf-8") as f:
                    f.write(new)
    print(len(names), "names,", changed, "files")


if __name__ == "__main__":
    main(sys.argv[1:])
