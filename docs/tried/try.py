"""try.py [--apply] [CRATE[/NAME] ..]

Tries mutations: docs/tried/CRATE/NAME.edit, with no argument all of them, changes a definition or the code of a crate and leaves the
proofs as they are. Each is applied to a copy of the repository (a clone of HEAD, in a temporary folder), and `rt check` runs in the crate,
and where that accepts, in the crates above it, in the order of crates.txt, until one refuses. Prints for each
`CRATE/NAME: refused by X: FACTS`, the facts that the check of X names: a lemma, or a goal of a function, as `bad_pair.returns`.

An edit is in the form of the must-fail edits, with a second comment line: `# refused: X: FACT[, FACT]`, or `# accepted: why` where no crate
refuses. Ends with status 1 where a mutation is accepted, or refused, otherwise than this line says: by another crate, or with a fact
of the line not among those that the check names. What does not apply or compile counts as neither, and ends with status 1 too. Wants `rt`.

With --apply nothing is tried: says which mutations can no longer be applied to the working tree, and ends with status 1 if there is one.
"""
import re
import subprocess
import sys
import tempfile
import time
from pathlib import Path

HERE = Path(__file__).resolve().parent
REPOSITORY = HERE.parents[1]

SHOWN = 6  # facts that are printed of each refusal

# ---------------------------------------------------------------- An edit


class BadEdit(Exception):
    pass


class Edit:
    """What a file says: its changes, as (file, old, new), and by which crate and with which facts it is refused, or that it is accepted."""

    def __init__(self, path):
        self.crate, self.name = path.parent.name, path.stem
        self.refuser, self.facts, self.accepted, self.changes = None, [], False, []
        file, old = None, None
        for line in path.read_text().splitlines():
            word, _, rest = line.partition(": ")
            if word == "# refused":
                self.refuser, _, facts = rest.partition(": ")
                self.facts = [fact for fact in facts.split(", ") if fact]
            elif word == "# accepted":
                self.accepted = True
            elif word == "file":
                file = rest
            elif word == "old":
                old = rest
            elif word in ("new", "new:"):
                self.changes.append((file, old, rest))

    def __str__(self):
        return f"{self.crate}/{self.name}"

    def apply(self, copy):
        """Makes the changes in a copy of the repository; gives the texts that stood there, by path."""
        before = {}
        for file, old, new in self.changes:
            path = copy / "crates" / self.crate / file
            text = path.read_text()
            if text.count(old) != 1:
                undo(before)
                raise BadEdit(f"the old text stands {text.count(old)} times in {file}: {old}")
            before.setdefault(path, text)
            path.write_text(text.replace(old, new))
        return before


def undo(before):
    for path, text in before.items():
        path.write_text(text)


# ---------------------------------------------------------------- What a check says

FAILED = re.compile(r"^\./(specs|proofs)/(\S+?)\.antt:\d+:\d+: error: (.*)")
UNPROVED = re.compile(r"^\w+ (\S+): no proof: (.*)")
NOT_COMPILED = re.compile(r"^src/\S+: error")
NOT_CHECKED = re.compile(r"\d+ declarations? that depends? on")


def of_function(path):
    """The name of a function by its path, with its type where it has one: `a::b` is `b`, `a::T::b` is `T::b`."""
    return "::".join([part for part in path[-2:-1] if part[:1].isupper()] + path[-1:])


def facts_in(said):
    """The facts that no longer hold, in the order in which the check names them, by what it printed."""
    facts = []
    for line in said.splitlines():
        failed, unproved = FAILED.match(line), UNPROVED.match(line)
        if NOT_COMPILED.match(line) or (failed and failed[1] == "specs"):
            raise BadEdit("does not compile: " + line)
        if failed and not NOT_CHECKED.match(failed[3]):
            named = re.match("`([^`]+)`", failed[3]) or re.search(r"\(in `([^`]+)`\)", failed[3])
            module = failed[2].split("/")
            name = named[1] if named else module[-1]
            facts.append(f"{of_function(module[:-1])}.{name}" if module[-1] in ("Answers", "Invariants") else name)
        elif unproved:
            goals = re.search(r"did not prove ((?:`[^`]+`(?:, )?)+)", unproved[2])
            facts += [f"{of_function(unproved[1].split('::'))}.{goal}" for goal in re.findall("`([^`]+)`", goals[1] if goals else "")]
    return list(dict.fromkeys(facts))


def check(copy, crate):
    """The facts that `rt check` refuses a crate for; none where it accepts."""
    run = subprocess.run(["rt", "check"], cwd=copy / "crates" / crate, stdout=subprocess.PIPE, stderr=subprocess.STDOUT, text=True)
    facts = facts_in(run.stdout)
    if (run.returncode == 0) != (not facts):
        raise BadEdit(f"the check of {crate} ends with status {run.returncode}, and names " + (", ".join(facts) or "no fact"))
    return facts


# ---------------------------------------------------------------- All of it


def crates():
    """The crates in the order of crates.txt, each with those that it names."""
    for line in (REPOSITORY / "crates.txt").read_text().splitlines():
        head, colon, named = line.partition(":")
        if colon and not line.startswith("#"):
            yield head.split()[0], named.split()


def crates_above(crate):
    """The crate and those that stand on it."""
    above = [crate]
    for name, named in crates():
        if set(named) & set(above):
            above.append(name)
    return above


def refused_by(copy, edit):
    """The first crate that refuses, and the facts; (None, []) where none does."""
    before = edit.apply(copy)
    try:
        for crate in crates_above(edit.crate):
            facts = check(copy, crate)
            if facts:
                return crate, facts
        return None, []
    finally:
        undo(before)


def complaint(edit, crate, facts):
    """What is otherwise than the edit's line says; None where nothing is."""
    if not (edit.refuser or edit.accepted):
        return "its file does not say what to expect"
    if crate != edit.refuser:
        return f"should be refused by {edit.refuser}" if edit.refuser else "should be accepted"
    missing = [fact for fact in edit.facts if fact not in facts]
    return f"not named: {', '.join(missing)}; all that is named: {', '.join(facts)}" if missing else None


def must_stand(copy, crate, standing):
    """Ends all where the crate is refused as it stands, so that nothing is said of a mutation that it refuses."""
    if crate not in standing:
        facts = check(copy, crate)
        if facts:
            sys.exit(f"{crate} is refused as it stands: {', '.join(facts)}")
        standing.add(crate)


def attempt(copy, edit, standing):
    """Tries an edit and prints what came of it; whether it is as its file says. `standing` are the crates that are known to be proved."""
    start = time.time()
    try:
        must_stand(copy, edit.crate, standing)
        crate, facts = refused_by(copy, edit)
        if crate:
            must_stand(copy, crate, standing)
        more = ", .." if len(facts) > SHOWN else ""
        said = f"refused by {crate}: {', '.join(facts[:SHOWN])}{more}" if crate else "accepted"
        wrong = complaint(edit, crate, facts)
    except BadEdit as bad:
        said, wrong = "BAD EDIT", str(bad)
    print(f"{edit}: {said} ({time.time() - start:.0f} s)" + (f"\n    {wrong}" if wrong else ""), flush=True)
    return wrong is None


def chosen(words):
    """The edits of the crates, or of the names, that are given; with none all, crate by crate as crates.txt has them."""
    paths = [path for crate, _ in crates() for path in sorted((HERE / crate).glob("*.edit"))]
    edits = [Edit(path) for path in paths if not words or {path.parent.name, f"{path.parent.name}/{path.stem}"} & set(words)]
    unknown = [word for word in words if not any(word in (edit.crate, str(edit)) for edit in edits)]
    if unknown:
        sys.exit("no such mutation: " + " ".join(unknown))
    return edits


def not_applied(edits):
    """What stands in the way of the edits that cannot be applied to the working tree."""
    for edit in edits:
        for file, old, _ in edit.changes:
            path = REPOSITORY / "crates" / edit.crate / file
            times = path.read_text().count(old) if path.exists() else 0
            if times != 1:
                yield f"{edit}: the old text stands {times} times in {file}: {old}"


def main():
    apply_only = sys.argv[1:2] == ["--apply"]
    edits = chosen(sys.argv[2 if apply_only else 1:])
    if apply_only:
        bad = list(not_applied(edits))
        print("\n".join(bad + [f"{len(edits)} mutations, {len(bad)} cannot be applied"]))
        sys.exit(1 if bad else 0)
    with tempfile.TemporaryDirectory() as folder:
        copy = Path(folder) / "copy"
        subprocess.run(["git", "clone", "--quiet", str(REPOSITORY), str(copy)], check=True)
        standing = set()
        as_said = [attempt(copy, edit, standing) for edit in edits]
    print(f"{len(edits)} tried, {as_said.count(False)} otherwise than their files say")
    sys.exit(0 if all(as_said) else 1)


if __name__ == "__main__":
    main()
