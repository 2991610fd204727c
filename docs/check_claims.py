"""check_claims.py: says which names in docs/CLAIMS.md and docs/SPECIFICATION.md are not those of a definition, a theorem, a function, a
crate, a must-fail edit, a program's data or a file of this repository, and which files of definitions part 10 of SPECIFICATION does not
list. Ends with status 1 if there is one."""
import glob
import os
import re
import sys

os.chdir(os.path.join(os.path.dirname(os.path.abspath(__file__)), ".."))


def text_of(pattern):
    return "\n".join(open(path).read() for path in sorted(glob.glob(pattern, recursive=True)))


def known_names():
    specs, proofs, code = text_of("crates/*/specs/*.antt"), text_of("crates/*/proofs/**/*.antt"), text_of("crates/*/src/**/*.rt")
    names = set(re.findall(r"^\s*(?:(?:unfoldable|abbrev) )?(?:pub )?(?:record |data )?([^\s(){}:=]+)(?: [({]| :|:)", specs + "\n" + proofs, re.M))
    names |= set(re.findall(r"\b(?:fn|struct|enum|const|mod) (\w+)", code)) | set(re.findall(r"^\s+(\w+)(?:\(|,$)", code, re.M))
    names |= {os.path.basename(p)[:-5] for p in glob.glob("crates/*/must-fail/*.edit")}
    names |= {os.path.basename(p) for pattern in ("crates/*", "crates/*/data/*") for p in glob.glob(pattern)}
    names |= {os.path.basename(p)[:-5] for p in glob.glob("crates/*/*/*.antt")}
    names |= set(re.findall(r"\bpub (\w+):", code))
    return names


# Words of the language and its library, of commands and of printed lines.
OTHER = set("""ltb leb eqb not elim take drop length replicate get_or u8 u32 Result Ok Err Option Some None A B c n q lo hi e S t h N P Q M R RS
EI REI CARD CHAR REFUSED read write run refl specs proofs src""".split())


def parts(quoted):
    """The names in a quoted piece: `crate/File`, `crate::module::function`, `name`."""
    if re.fullmatch(r"[\w'-]+", quoted):
        return [quoted]
    if re.fullmatch(r"\w+(?:::\w+)+", quoted):
        return quoted.split("::")
    if re.fullmatch(r"[a-z_]+/[A-Z]\w+", quoted):
        return [] if os.path.exists("crates/{}/specs/{}.antt".format(*quoted.split("/"))) else [quoted]
    if re.fullmatch(r"(?:crates|docs|peer|bench|c)/[\w./]+\.\w+", quoted):
        return [] if os.path.exists(quoted) else [quoted]
    return []


def unlisted():
    """The files of definitions that part 10 of SPECIFICATION does not list, and those that it lists and are not there."""
    text = open("docs/SPECIFICATION.md").read()
    part = text[text.index("## 10."):text.index("## 11.")]
    listed = []
    for row in re.findall(r"^\|.*\|$", part, re.M):
        for crate, files in re.findall(r"`(\w+)`: ([A-Z]\w+(?:, [A-Z]\w+)*)", row):
            listed += [f"{crate}/{name}" for name in files.split(", ")]
    there = ["{}/{}".format(*re.match(r"crates/(\w+)/specs/(\w+)\.antt", p).groups()) for p in glob.glob("crates/*/specs/*.antt")]
    there = [name for name in there if not name.endswith("/Lib")]
    return [f"part 10 lists no {name}" for name in sorted(set(there) - set(listed))] \
        + [f"part 10 lists {name}, which is not there" for name in sorted(set(listed) - set(there))]


def main():
    names, missing = known_names(), []
    for page in ("docs/CLAIMS.md", "docs/SPECIFICATION.md"):
        for quoted in re.findall(r"`([^`\n]+)`", open(page).read()):
            missing += [(page, name) for name in parts(quoted) if name not in names | OTHER]
    for page, name in sorted(set(missing)):
        print(f"{page}: no {name}")
    for line in unlisted():
        print(f"docs/SPECIFICATION.md: {line}")
    sys.exit(1 if missing or unlisted() else 0)


main()
