"""stack.py [REPOSITORY] [--cc COMPILER]

How many bytes of the stack the functions of the proved library use (target/staticlib/libcard_c.a, by tools/staticlib.sh), counted from the
call on, the return address among them, by two ways:

- the most there can be, for any input: the frames along the deepest path of calls, read off the machine code (objdump). What C's memcpy
  uses itself is not in it;
- the most that was used, that included, on a painted stack (bench/stack.c), over the records of test_calls/data/cards,
  records and planing and 300 random panels.

Ends with status 1 where more was used than there can be, or a function recurs, or calls what the machine code does not name, and
where the library wants another name from outside than memcpy.
"""
import os
import random
import re
import subprocess
import sys

HERE = os.path.dirname(os.path.abspath(__file__))
sys.path.insert(0, os.path.join(HERE, "..", "peer"))

import make_cases
import needs
import peer
import random_records

EXPORTS = ("yurbantse_card", "yurbantse_planing", "yurbantse_refusal", "yurbantse_version")
OUTSIDE = re.compile(r"<memcpy@plt>")
RETURN = 8  # bytes of a return address


def build(archive, folder, compiler):
    """The program; what it calls in C's library is bound before it starts, since binding takes stack too."""
    program = os.path.join(folder, "stack")
    needs.run([compiler, "-O2", "-Wall", "-Wextra", "-Wl,-z,now", f"-I{HERE}/../c", f"{HERE}/stack.c", archive, "-o", program])
    return program


def of_others(archive):
    """The names that the library wants from outside."""
    said = subprocess.run(["objdump", "-t", archive], capture_output=True, text=True, check=True).stdout
    return {line.split()[-1] for line in said.splitlines() if "*UND*" in line}


def records():
    yield from (record for record, _, _ in make_cases.card_cases())
    yield from (record for record, _ in make_cases.record_cases())
    yield from (record for record, _ in make_cases.planing_cases())
    rng = random.Random("stack")
    for _ in range(300):
        yield random_records.any_record(rng, random_records.random_panel(rng))


def used(program, folder):
    path = os.path.join(folder, "records")
    with open(path, "wb") as file:
        file.write(b"".join(bytes([len(record)]) + record for record in records() if len(record) < 256))
    said = subprocess.run([program, path], capture_output=True, text=True, check=True).stdout
    return {name: int(count) for name, count in (line.split() for line in said.splitlines())}


def functions(program):
    """The instructions of each function, by their addresses; and where each begins, by its name."""
    said = subprocess.run(["objdump", "-d", "--no-show-raw-insn", program], capture_output=True, text=True, check=True).stdout
    found, starts, lines = {}, {}, {}
    for line in said.splitlines():
        head = re.match(r"([0-9a-f]+) <(.*)>:$", line)
        if head:
            lines = found[int(head[1], 16)] = {}
            starts[head[2]] = int(head[1], 16)
        elif re.match(r" +[0-9a-f]+:\t", line):
            at, text = line.split(":\t", 1)
            lines[int(at, 16)] = text.strip()
    return found, starts


def moved(text):
    """By how much an instruction lets the stack grow."""
    if text.startswith("push"):
        return 8
    if text.startswith("pop"):
        return -8
    amount = re.match(r"(sub|add) +\$(-?0x[0-9a-f]+),%rsp", text)
    if amount:
        return int(amount[2], 16) * (1 if amount[1] == "sub" else -1)
    if re.search(r",%rsp$", text):
        sys.exit(f"an instruction that is not known here: {text}")
    return 0


class Depths:
    def __init__(self, found):
        self.found, self.known, self.open = found, {}, []

    def of(self, start):
        """The most that a function and what it calls lay on the stack, its return address not among it."""
        if start in self.open:
            sys.exit("a function recurs")
        if start not in self.known:
            self.open.append(start)
            self.known[start] = self.walked(start)
            self.open.pop()
        return self.known[start]

    def called(self, text):
        """What a call, or a jump out of the function, lays on the stack."""
        if OUTSIDE.search(text):
            return 0
        target = re.match(r"\w+ +([0-9a-f]+) <", text)
        if target is None or int(target[1], 16) not in self.found:
            sys.exit(f"a call of something else: {text}")
        return self.of(int(target[1], 16))

    def walked(self, start):
        lines = self.found[start]
        following = dict(zip(lines, list(lines)[1:]))
        depth_at, most, ahead = {}, 0, [(start, 0)]
        while ahead:
            at, depth = ahead.pop()
            if at in depth_at or at not in lines:
                continue
            depth_at[at] = depth
            text = lines[at]
            below = re.search(r"-(0x[0-9a-f]+)\(%rsp", text)  # a function that calls none may use the 128 bytes below the stack pointer
            if below:
                most = max(most, depth + int(below[1], 16))
            if text.startswith("call"):
                most = max(most, depth + RETURN + self.called(text))
            jump = re.match(r"j\w+ +([0-9a-f]+) <", text)
            if jump and int(jump[1], 16) in lines:
                ahead.append((int(jump[1], 16), depth))
            elif jump:
                most = max(most, depth + self.called(text))
            elif text.startswith("jmp") or text.startswith("notrack jmp"):  # by a table: to any place that is not reached otherwise
                ahead = [(place, depth) for place in lines if place not in depth_at] + ahead
            depth += moved(text)
            most = max(most, depth)
            if not re.match(r"(ret|jmp|notrack jmp|ud2|hlt)", text) and at in following:
                ahead.append((following[at], depth))
        return most


def main():
    words = needs.arguments(__doc__, os.path.join(HERE, ".."))
    words.add_argument("--cc", default="cc")
    given = words.parse_args()
    archive = os.path.join(given.repository, "target/staticlib/libcard_c.a")
    needs.made(archive, "bash tools/staticlib.sh")
    needs.installed(given.cc, "objdump")
    if of_others(archive) != {"memcpy"}:
        sys.exit(f"the library wants {' '.join(sorted(of_others(archive))) or 'nothing'} from outside, and not memcpy alone")
    folder = os.path.join(given.repository, "target/bench")
    os.makedirs(folder, exist_ok=True)
    program = build(archive, folder, given.cc)
    found, starts = functions(program)
    depths, measured = Depths(found), used(program, folder)
    print(f"{'bytes of stack':>20} {'at most':>10} {'used':>10}")
    for name in EXPORTS:
        most = RETURN + depths.of(starts[name])
        print(f"{name:>20} {most:>10,} {measured[name]:>10,}")
        if measured[name] > most:
            sys.exit("more was used than there can be")


if __name__ == "__main__":
    main()
