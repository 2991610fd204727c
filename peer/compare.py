"""compare.py REPOSITORY [--records N] [--seed S] [--bin] [WORD..]

Runs the test program on random records, and on random raw panels, and compares what it prints with peer.py. WORD is a word of its, as
`read` or `panel`; none: all of them. Nothing has to be proved: `rt try` builds the program with checks, once for all of its input, which goes
in pieces, as the program takes less than 64 KiB at a time. --bin: runs the proved program, crates/test_calls/out/test_calls, instead.
Ends with status 1 at a disagreement, and prints its line; and where something is missing, and says what.
"""
import os
import random
import re
import subprocess
import sys
import tempfile

import needs
import peer
import programs
import random_records

ROOM = 65_000  # bytes of one input
GROUP = 300    # cases of one input
FEW = {"planing": 10, "panel": 50, "each": 2}  # of words whose cases are many steps
PER = {"planing": 10, "each": 50}              # one case for so many of the others: peer.py tries every cut, or asks of 256 panels
THIN = 1_000   # tenths of mm: the cuts of a thicker panel that is accepted take peer.py long


def random_space(rng, record):
    record = peer.taken_for(record)
    return rng.choice([0, 64, max(0, len(record) - 1), min(64, len(record)), rng.randint(0, 64)])


def random_depth(rng, record):
    """Near an edge of a lamella, past the back face, or anywhere in the panel."""
    edges, at = [0], 0
    for _, thickness in peer.from_fire(programs.panel_of(record)):
        at += thickness
        edges.append(at)
    near = rng.choice(edges) + rng.choice([-31, -30, -29, -1, 0, 1, 29, 30, 31])
    return rng.choice([max(0, near), rng.randint(0, at + 1), rng.choice([4_001, 2 ** 32 - 1])])


def partner(rng, record):
    """A second record for a comparison: the same build under another load or in the other version, one number other, the face other on
    the panel or on the panel turned, nearly the same, or any other."""
    panel = programs.panel_of(record)
    way = rng.randrange(7)
    if way == 0 or not panel.lamellae:
        return random_records.random_record(rng)
    if way == 1:
        return peer.encode(panel._replace(strength=rng.randint(1, 400), moment=0))
    if way == 2:
        number = rng.choice([("bond", rng.choice([bond for bond in (0, 1, 2) if bond != panel.bond])), ("rate", rng.randint(50, 100)), ("gap", 1 - panel.gap),
                             ("failure_time", panel.failure_time + 1)])
        return peer.encode(panel._replace(**dict([number])))
    if way == 3:
        return peer.encode(random_records.at_a_limit(rng, panel))
    if way == 4:  # version 1 has no face byte: a panel with face 1 or 2 then has face 0
        return peer.encode(panel._replace(version=3 - panel.version, moment=0))
    if way == 5:
        return peer.encode(panel._replace(version=2, face=rng.randrange(3), lamellae=panel.lamellae[::rng.choice([1, -1])]))
    record = peer.taken_for(record)
    at = rng.randrange(17, len(record))
    return record[:at] + bytes([record[at] ^ 1 << rng.randrange(3)]) + record[at + 1:]


def random_layers(rng, record):
    """The record, or half of the time one with a layer at the switch of the layer step."""
    if rng.random() < 0.5:
        return record
    return random_records.any_record(rng, random_records.at_switch(rng))


def random_minute(rng):
    """Beside a grade, beside 0 or 360, or any."""
    near = rng.choice((0,) + peer.GRADES) + rng.choice([-1, 0, 1])
    return rng.choice([max(0, near), rng.randint(0, 360), rng.choice([361, 65_535])])


def random_fire(rng, record):
    """The record, or most of the time one of a panel that chars fast, or that is about a bond line as its boards fail."""
    way = rng.randrange(4)
    if way == 0:
        return record
    if way == 1:
        return random_records.any_record(rng, random_records.met_at_failure(rng))
    return random_records.any_record(rng, random_records.soon_failing(rng, random_records.random_panel(rng)))


def random_fire_minute(rng, record):
    """Beside the start of a stage, or any."""
    panel = programs.panel_of(record)
    if peer.panel_refusal(panel) or rng.random() < 0.3:
        return random_minute(rng)
    return min(361, max(0, int(rng.choice(peer.stages(panel)).start) + rng.choice([-1, 0, 0, 1, 1, 2])))


def random_load(rng, record):
    """The record, or most of the time one of a panel that fails at any minute from 0 to 360, at once, or as its boards do."""
    way = rng.randrange(8)
    if way == 0:
        return record
    if way == 1:
        return random_fire(rng, record)
    if way == 2:
        return random_records.any_record(rng, random_records.failing_at_once(rng))
    if way == 3:
        return random_records.any_record(rng, random_records.recovering(rng))
    if way == 4:
        return random_records.any_record(rng, random_records.failing_past_lines(rng))
    return random_records.any_record(rng, random_records.failing_about(rng))


def random_card_space(rng, text):
    """Of the text's length or beside it, none, or any."""
    return rng.choice([len(text) - 1, len(text), len(text) + 1, 200, 200, rng.choice([0, rng.randint(0, 200)])])


def random_wanted(rng, record):
    """Beside R, or any."""
    panel = programs.panel_of(record)
    if peer.panel_refusal(panel) or rng.random() < 0.5:
        return random_minute(rng)
    return max(0, peer.load_minute(panel) + rng.choice([-1, 0, 1]))


# Places of a raw panel whose byte is a letter, a direction, a count or another choice; and one past its end.
FLAGS = [0, 1, 2, 4, programs.BOARDS_AT, programs.BOARDS_AT + 1, programs.BOARDS_AT + 5, programs.COUNT_AT, programs.COUNT_AT + 7,
         *range(programs.DIRECTIONS_AT, programs.THICKNESSES_AT), programs.RAW]


def random_board(rng):
    return peer.Board(rng.choice([rng.randrange(256), *peer.TYPES]), rng.randrange(65_536), rng.randrange(256))


def random_lamella(rng):
    return rng.choice([rng.randrange(256), 0, 1]), rng.randrange(65_536)


def raw_of(rng, panel):
    """The raw panel with anything in its unused places, now and then with other counts."""
    count = rng.choice([None] * 40 + [0, 10, rng.randint(0, 12), 2 ** 64 - 1, rng.randrange(2 ** 64)])
    boards = rng.choice([None] * 6 + [rng.randrange(256)]) if len(panel.boards) < 2 else rng.choice([2, 2, 2, 3, rng.randrange(256), 255])
    return programs.raw(panel, count, boards, [random_board(rng) for _ in range(2)], [random_lamella(rng) for _ in range(9)])


def random_raw(rng):
    """Mostly of a thin panel, with fields at their limits or past them; or any numbers."""
    way = rng.randrange(40)
    if way == 0:
        return rng.randbytes(programs.RAW)
    if way == 1:
        return rng.randbytes(programs.RAW)[:rng.randrange(programs.RAW)]
    panel = random_records.any_face(rng, random_records.thin_panel(rng) if way < 30 else random_records.random_panel(rng))
    for _ in range(rng.choice([0, 1, 1, 2, 3])):
        panel = random_records.at_a_limit(rng, panel)
    data = raw_of(rng, panel)
    meant = programs.raw_panel(data)
    if peer.panel_refusal(meant) == 0 and peer.thickness_of(meant.lamellae) > THIN and rng.randrange(100):
        return random_raw(rng)
    return data


def random_pair(rng):
    """Two of one panel, whose unused places differ, and most of the time a number of the second; or any two."""
    way = rng.randrange(4)
    if way == 0:
        return random_raw(rng), random_raw(rng)
    panel = random_records.any_face(rng, random_records.random_panel(rng))
    other = panel
    if way == 1:
        other = random_records.at_a_limit(rng, panel)
    if way == 2:
        other = programs.panel_of(partner(rng, peer.encode(panel)))
    pair = [raw_of(rng, panel), raw_of(rng, other)]
    rng.shuffle(pair)
    return pair


def random_boards(rng):
    """Boards within their limits: t_ch is said of no others. All else is any numbers."""
    panel = random_records.random_panel(rng)._replace(
        version=rng.randrange(256), face=rng.randrange(256), bond=rng.randrange(256), rate=rng.randrange(256), strength=rng.randrange(65_536),
        moment=rng.randrange(2 ** 32), failure_time=rng.randrange(2 ** 32), lamellae=())
    boards = rng.choice([2, 255]) if len(panel.boards) == 2 else None
    return programs.raw(panel, rng.randrange(2 ** 64), boards, [random_board(rng) for _ in range(2)], [random_lamella(rng) for _ in range(9)])


def cases(call, seed, count):
    """Random ones; of `time`, `grade` and `refusal` every thickness, minute and number from 0 on."""
    rng = random.Random(f"{call} {seed}")
    for number in range(0, count, PER.get(call, 1)):
        record = random_records.random_record(rng)
        text = f"case {number}"
        if call == "read":
            yield record, text
        elif call == "write":
            yield random_space(rng, record), record, text
        elif call in ("section", "carried"):
            yield random_depth(rng, record), record, text
        elif call == "build":
            yield record, partner(rng, record), text
        elif call == "sum":
            yield random_layers(rng, record), text
        elif call == "time":
            yield list(programs.TIMES)[number % len(programs.TIMES)], number // len(programs.TIMES), text
        elif call == "grade":
            yield number, text
        elif call == "char":
            record = random_fire(rng, record)
            yield random_fire_minute(rng, record), record, text
        elif call == "table":
            yield rng.choice([400, 400, 361, 361, 362, rng.choice([0, 360, rng.randint(0, 400)])]), random_fire(rng, record), text
        elif call == "rei":
            yield random_minute(rng), random_minute(rng), text
        elif call == "card":
            record = random_load(rng, record)
            yield record, random_card_space(rng, peer.text_lines(record)), text
        elif call == "refusal":
            yield number % 256, random_card_space(rng, peer.refusal_text(number % 256)), text
        elif call == "reserve":
            record = random_load(rng, record)
            yield record, random_wanted(rng, record), text
        elif call == "eigrade":
            yield random_layers(rng, record), text
        elif call == "planing":
            yield random_records.any_record(rng, random_records.thin_panel(rng)), text
        elif call == "panel":
            yield random_raw(rng), random_minute(rng), rng.choice([rng.randint(0, THIN), rng.randint(0, 2 ** 32 - 1)]), text
        elif call == "each":
            yield rng.choice(FLAGS), random_raw(rng), random_minute(rng), rng.randint(0, THIN), text
        elif call == "pair":
            yield *random_pair(rng), text
        elif call == "start":
            yield random_boards(rng), text
        else:
            yield random_load(rng, record), text


def pieces(call, all_cases):
    """The cases in groups whose input fits one run."""
    group, size = [], 0
    most = FEW.get(call, GROUP)
    for case in all_cases:
        length = len(programs.asked(call, case))
        if size + length > ROOM or len(group) == most:
            yield group
            group, size = [], 0
        group.append(case)
        size += length
    yield group


def first_difference(said, expected):
    """The number of the first line that differs, or None."""
    if said == expected:
        return None
    a, b = said.split("\n"), expected.split("\n")
    return next((i for i in range(min(len(a), len(b))) if a[i] != b[i]), min(len(a), len(b)))


def crate_of(repository):
    return os.path.join(repository, "crates", programs.PROGRAM)


def bin_of(repository):
    return os.path.join(crate_of(repository), "out", programs.PROGRAM)


def run_bin(repository, asked):
    """Of the inputs the number of the first that the proved program answers otherwise, the line, and what it says there; or None."""
    for number, (given, expected) in enumerate(asked):
        run = subprocess.run([bin_of(repository)], input=given, capture_output=True, text=True, errors="replace")
        at = first_difference(run.stdout, expected)
        if at is not None or run.returncode:
            return number, at or 0, (run.stdout.split("\n") + [""])[at or 0] + run.stderr
    return None


def run_try(repository, asked):
    """The same of the program as `rt try` runs it, which is built once for all inputs."""
    with tempfile.TemporaryDirectory() as folder:
        for number, (given, expected) in enumerate(asked):
            for name, text in ((f"{number:05}", given), (f"{number:05}.stdout", expected)):
                with open(os.path.join(folder, name), "w") as file:
                    file.write(text)
        run = subprocess.run(["rt", "try", "--cases", folder], cwd=crate_of(repository), stdin=subprocess.DEVNULL,
                             capture_output=True, text=True, errors="replace")
    if run.returncode == 0:
        return None
    said = []
    for line in (run.stdout + run.stderr).split("\n"):
        said.append(line)
        if line.startswith("case="):
            if " run=ended status=0 " not in line or " output=expected " not in line:
                break
            said = []
    else:
        sys.exit("\n".join(said))
    said = "\n".join(said)
    number = int(re.search(r"case=(\d+)", said).group(1))
    at = re.search(r"at byte (\d+)", said)
    return number, asked[number][1].encode()[:int(at.group(1))].count(b"\n") if at else 0, said


def case_at(call, group, line):
    """The case whose answer has a line of the expected text; the last one past its end."""
    for case in group:
        line -= programs.answered(call, case).count("\n")
        if line < 0:
            break
    return case


def compare(run, repository, calls, seed, count):
    drawn = {call: list(cases(call, seed, count)) for call in calls}
    groups = [(call, group) for call in calls for group in pieces(call, drawn[call])]
    asked = [programs.lines(call, group) for call, group in groups]
    wrong = run(repository, asked)
    if wrong:
        number, at, said = wrong
        call, group = groups[number]
        line = (asked[number][1].split("\n") + [""])[at]
        print(f"{programs.PROGRAM} disagrees at\n  {programs.asked(call, case_at(call, group, at))}  peer:    {line}\n  program: {said[-3000:]}")
        return False
    for call in calls:
        print(f"{call}: {len(drawn[call])} agree", flush=True)
    return True


def arguments():
    words = needs.arguments(__doc__)
    words.add_argument("--records", type=needs.count, default=5000)
    words.add_argument("--seed", type=int, default=1)
    words.add_argument("--bin", action="store_true")
    words.add_argument("words", metavar="WORD", nargs="*", default=[])
    given = words.parse_intermixed_args()
    for word in given.words:
        if word not in programs.CALLS:
            words.error(f"{word} is none of {' '.join(programs.CALLS)}")
    return given, given.words or list(programs.CALLS)


def main():
    given, words = arguments()
    if given.bin:
        needs.made(bin_of(given.repository), f"cd {crate_of(given.repository)}; rt run < /dev/null")
    else:
        needs.installed("rt")
    sys.exit(not compare(run_bin if given.bin else run_try, given.repository, words, given.seed, given.records))


if __name__ == "__main__":
    main()
