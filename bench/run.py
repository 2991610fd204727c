"""run.py [REPOSITORY] [--panels N] [--seed S] [--cc COMPILER]

What a card costs, in instructions counted by callgrind: the proved library (target/staticlib/libcard_c.a, by tools/staticlib.sh) beside
bench/card.c, the same steps in plain C at -O3. Both print the same cards for N random panels first, of version 1, with the fire on the
last face of the same panels turned, and with a fire on each face. Of an input the cost is what two more passes over it take beyond one, so
that start-up does not count. Then what the least cut costs (yurbantse_planing), of N/5 of the panels of each kind and of panels that take
long. Ends with status 1 where the cards differ or something is missing.
"""
import os
import random
import re
import subprocess
import sys

HERE = os.path.dirname(os.path.abspath(__file__))
sys.path.insert(0, os.path.join(HERE, "..", "peer"))

import needs
import peer
import random_records
from peer import Panel


def write_tables(path):
    """The basic times that a card needs, by their rules."""
    with open(path, "w") as file:
        file.write("#include <stdint.h>\n")
        for table in ("gypsum_protection", "osb_protection", "particle_board_protection", "wood_protection", "wood_insulation"):
            file.write(f"static const uint32_t {table.upper()}[] = {{{', '.join(map(str, peer.entries(table)))}}};\n")


def build(archive, folder, compiler):
    """The program with each of the two cards."""
    write_tables(os.path.join(folder, "tables.h"))
    words = [compiler, "-O3", "-Wall", "-Wextra", f"-I{HERE}/../c", f"-I{folder}", f"{HERE}/bench.c"]
    programs = {}
    for name, card in (("Rattle", archive), ("C", f"{HERE}/card.c")):
        programs[name] = os.path.join(folder, f"bench_{name}")
        needs.run(words + [card, "-o", programs[name]])
    return programs


def write_records(folder, panels):
    path = os.path.join(folder, "records")
    with open(path, "wb") as file:
        for panel in panels:
            record = peer.encode(panel)
            file.write(bytes([len(record)]) + record)
    return path


def instructions(program, path, passes):
    run = subprocess.run(["valgrind", "--tool=callgrind", "--callgrind-out-file=/dev/null", program, path, str(passes)],
                         capture_output=True, text=True, check=True)
    return int(re.search(r"Collected : (\d+)", run.stderr).group(1))


def cost(program, path, count):
    """Instructions for one of the records, on average."""
    return (instructions(program, path, 3) - instructions(program, path, 1)) / (2 * count)


def costs(programs, folder, panels):
    path = write_records(folder, panels)
    return {name: cost(program, path, len(panels)) for name, program in programs.items()}


def row(word, both):
    print(f"{word:>24} {both['Rattle']:>12,.0f} {both['C']:>12,.0f} {both['Rattle'] / both['C']:>8.2f}", flush=True)


def each_face(moment, rate, strength, boards, lamellae):
    """A panel with a fire on each face, bonds that fall and a wide gap; lamellae across as negative numbers."""
    return Panel(2, peer.EACH_ALONE, 1, rate, 1, strength, moment, 0, boards, tuple((1 if h > 0 else 0, abs(h)) for h in lamellae))


THICKEST = (peer.Board(ord("A"), 250, 100),) * 2

# no cut of them lowers the grade
LONG_SEARCHES = {
    "nine equal, without load": each_face(0, 65, 240, (), (444,) * 9),
    "the longest found with the older kit": each_face(6_950, 95, 100, THICKEST, (537, 569, -552, -238, -465, -554, 274, 386, 425)),
    "the longest found": each_face(6_880, 95, 100, THICKEST, (537, 563, -515, -158, -540, -580, 254, 386, 467)),
}


def plate(total, count):
    """A panel of lamellae along, as equal as can be, that carries nothing: bare, at the greatest rate, with bonds that fall."""
    parts = [total // count + (1 if i < total % count else 0) for i in range(count)]
    return Panel(1, 0, 1, 100, 0, 240, 0, 0, (), tuple((1, part) for part in parts))


def build_planing(archive, folder, compiler):
    program = os.path.join(folder, "bench_planing")
    needs.run([compiler, "-O3", "-Wall", "-Wextra", f"-I{HERE}/../c", f"{HERE}/planing.c", archive, "-o", program])
    return program


def planing_row(word, program, folder, panels):
    count = (instructions(program, write_records(folder, panels), 2) - instructions(program, write_records(folder, panels), 1)) / len(panels)
    print(f"{word:>40} {count:>14,.0f}", flush=True)


def main():
    words = needs.arguments(__doc__, os.path.join(HERE, ".."))
    words.add_argument("--panels", type=needs.count, default=500)
    words.add_argument("--seed", type=int, default=1)
    words.add_argument("--cc", default="cc")
    given = words.parse_args()
    archive = os.path.join(given.repository, "target/staticlib/libcard_c.a")
    needs.made(archive, "bash tools/staticlib.sh")
    needs.installed(given.cc, "valgrind")
    folder = os.path.join(given.repository, "target/bench")
    os.makedirs(folder, exist_ok=True)
    programs = build(archive, folder, given.cc)

    kinds = {word: [kind(random.Random(f"{given.seed} {i}")) for i in range(given.panels)]
             for word, kind in (("any panels", random_records.random_panel), ("failing at any minute", random_records.failing_about))}
    drawn = kinds["failing at any minute"]
    kinds["the same, last face"] = [random_records.turned(panel)._replace(version=2, face=peer.LAST_FACE) for panel in drawn]
    kinds["the same, each face"] = [panel._replace(version=2, face=peer.EACH_ALONE) for panel in drawn]
    for panels in kinds.values():
        path = write_records(folder, panels)
        said = [subprocess.run([program, path], capture_output=True, check=True).stdout for program in programs.values()]
        if said[0] != said[1] or said[0].count(b"CARD ") != len(panels):
            sys.exit("the cards differ")
    print(f"{len(kinds) * given.panels} cards, the same by both")
    print(f"{'instructions per card':>24} {'Rattle':>12} {'C':>12} {'ratio':>8}")
    for word, panels in kinds.items():
        row(word, costs(programs, folder, panels))
    for count in range(2, 10):
        row(f"1,080 tenths, {count} lamellae", costs(programs, folder, [plate(1_080, count)]))
    for total in (500, 1_000, 1_500, 2_000, 2_500, 3_000):
        row(f"{total:,} tenths, 5 lamellae", costs(programs, folder, [plate(total, 5)]))
    row("4,000 tenths, 9 lamellae", costs(programs, folder, [plate(4_000, 9)]))

    planing = build_planing(archive, folder, given.cc)
    print(f"{'instructions per least cut':>40} {'Rattle':>14}")
    for word, panels in kinds.items():
        planing_row(word, planing, folder, panels[:given.panels // 5])
    for word, panel in LONG_SEARCHES.items():
        planing_row(word, planing, folder, [panel])


if __name__ == "__main__":
    main()
