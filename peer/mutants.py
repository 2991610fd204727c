"""mutants.py [--list] [--jobs N] [NAME..]

Holds the stored cases to peer.py: each of its sentences is made wrong, one at a time, and some stored case of the test program must then be
answered otherwise. A mutant that every case answers as before is a missing case, or says the same in other words: those that do are named
in SAME below, each with its reason. NAME: a function of peer.py, whose mutants alone are tried. Takes two and a half hours of processor time.
Ends with status 1 where a mutant lives, and prints it.

The cases are those of make_cases.py, worked out once by peer.py as it is. A mutant is a copy of peer.py with another operator, another
number, the other of two, or a condition left out; and the misreadings of MISREADINGS, which somebody could write down in earnest.
"""
import argparse
import ast
import copy
import multiprocessing
import os
import signal
import sys
import types

HERE = os.path.dirname(os.path.abspath(__file__))
sys.setrecursionlimit(10_000)

with open(os.path.join(HERE, "peer.py")) as file:
    SOURCE = file.read()
with open(os.path.join(HERE, "programs.py")) as file:
    PROGRAMS = file.read()

LONGEST = 600  # seconds that a mutant may take for one case

# What is no sentence of the paper: how the failure time is found, which check.py holds to what it means, by some of these; and tables.
APART = {"LAST_REQUEST", "last_time_at", "scanned_time", "check_closeness", "check_load_minute", "exact_failure", "entries"}

# (function, the line and what stands there in the mutant): why it says the same
NO_THIRD = "the cladding of a panel is none, one or two boards; of a record more are refused as it is read"
ALIKE = "type F stands alone or with F, O and P alone: either board tells"
BESIDE = "beside a refusal no number is looked at"
SEARCH = "another search for the same number"
NO_MORE = "no panel was found whose layers give 325 minutes"
AT_20 = "the rule gives 65 at 20.0 mm, which is the rate of the record"
AT_FACE = "at a depth above the first face every lamella is whole, as at depth 0"
SAME = {
    ("panel_refusal", "if len(panel.boards) > 2: -> pass"): NO_THIRD,
    ("panel_refusal", "if len(panel.boards) > 2: -> if len(panel.boards) > 3:"): NO_THIRD,
    ("panel_refusal", "return 6 -> return 7"): NO_THIRD,
    ("panel_refusal", "return 6 -> return 5"): NO_THIRD,
    ("panel_refusal", "if not depth_passes(panel, 0): -> if not depth_passes(panel, -1):"): AT_FACE,
    ("decode", "if not depth_passes(panel, 0): -> if not depth_passes(panel, -1):"): AT_FACE,
    ("t_ch", "if boards[0].kind in WOOD_TYPES: -> if boards[-1].kind in WOOD_TYPES:"): ALIKE,
    ("t_ch", "return floor(Fraction(boards[0].thickness, 10) / Fraction(90, 100) * 1000) -> "
             "return floor(Fraction(boards[-1].thickness, 10) / Fraction(90, 100) * 1000)"): ALIKE,
    ("t_ch", "return 280 * boards[0].thickness - less -> return 280 * boards[-1].thickness - less"): "there is one board",
    ("is_type_f", "return len(boards) > 0 and boards[0].kind == TYPE_F -> return len(boards) > 0 and boards[-1].kind == TYPE_F"): ALIKE,
    ("charring_rate", "if panel.bond == LVL and h < 200: -> if panel.bond == LVL and h <= 200:"): AT_20,
    ("charring_rate", "if panel.bond == LVL and h < 200: -> if panel.bond == LVL and h < 201:"): AT_20,
    ("charring_rate", "return next((n for n in count() if n ** 2 * h >= 65 ** 2 * 200)) -> "
                      "return next((n for n in count() if n ** 2 * h > 65 ** 2 * 200))"): "65² · 200 is n² · h of no thinner panel",
    ("first_end", "if not panel.boards: -> pass"): "unclad t_ch and t_f are 0, and so is 2·t_f",
    ("first_end", "passed = [line for line in lines if line < depth] -> passed = [line for line in lines if line <= depth]"):
        "the run of a line reached at t_f starts there anyway, with the same end",
    ("stages", "passed = [Stage(Fraction(0), Fraction(0), Fraction(0), 'untouched')] -> "
               "passed = [Stage(Fraction(-1), Fraction(0), Fraction(0), 'untouched')]"): "no time is below 0",
    ("stages", "if depth >= back: -> if depth > back:"): "charred through at t_f itself: it is settled from then on, either way",
    ("section", "return (n, p, q, lo, hi, n > 0 and carried) -> return (n, p, q, lo, hi, n > 1 and carried)"): "what counts is 3.0 mm and more",
    ("first_failing", "return next((depth for depth in range(thickness_of(panel.lamellae) + 1) if not depth_passes(panel, depth))) -> "
                      "return next((depth for depth in range(thickness_of(panel.lamellae) - 1) if not depth_passes(panel, depth)))"):
        "with less than 3.0 mm left nothing counts",
    ("first_failing", "return next((depth for depth in range(thickness_of(panel.lamellae) + 1) if not depth_passes(panel, depth))) -> "
                      "return next((depth for depth in range(thickness_of(panel.lamellae) + 2) if not depth_passes(panel, depth)))"):
        "with less than 3.0 mm left nothing counts",
    ("first_failing", "return next((depth for depth in range(thickness_of(panel.lamellae) + 1) if not depth_passes(panel, depth))) -> "
                      "return next((depth for depth in range(thickness_of(panel.lamellae) + 0) if not depth_passes(panel, depth)))"):
        "with less than 3.0 mm left nothing counts",
    ("time_answer", "return (refusal, (0, 0)) if refusal else (0, load_time(panel)) -> return (refusal, (1, 0)) if refusal else (0, load_time(panel))"): BESIDE,
    ("time_answer", "return (refusal, (0, 0)) if refusal else (0, load_time(panel)) -> return (refusal, (-1, 0)) if refusal else (0, load_time(panel))"): BESIDE,
    ("time_answer", "return (refusal, (0, 0)) if refusal else (0, load_time(panel)) -> return (refusal, (0, 1)) if refusal else (0, load_time(panel))"): BESIDE,
    ("time_answer", "return (refusal, (0, 0)) if refusal else (0, load_time(panel)) -> return (refusal, (0, -1)) if refusal else (0, load_time(panel))"): BESIDE,
    ("reserve", "return (refusal, 0) if refusal else (0, load_minute(panel) - wanted) -> return (refusal, 1) if refusal else (0, load_minute(panel) - wanted)"): BESIDE,
    ("reserve", "return (refusal, 0) if refusal else (0, load_minute(panel) - wanted) -> return (refusal, -1) if refusal else (0, load_minute(panel) - wanted)"): BESIDE,
    ("largest", "above = 1 -> above = 2"): SEARCH,
    ("largest", "above *= 2 -> above *= 3"): SEARCH,
    ("largest", "found = 0 -> found = 1"): SEARCH,
    ("largest", "found = 0 -> found = -1"): SEARCH,
    ("bare_time", "return (11 if table.startswith(LAMELLA) else 8, 0) -> return (11 if table.startswith(LAMELLA) else 8, 1)"): BESIDE,
    ("bare_time", "return (11 if table.startswith(LAMELLA) else 8, 0) -> return (11 if table.startswith(LAMELLA) else 8, -1)"): BESIDE,
    ("ei_minute", "return min(360, ei_sum(panel, parts) // parts) -> return min(361, ei_sum(panel, parts) // parts)"): NO_MORE,
    ("ei_minute", "return min(360, ei_sum(panel, parts) // parts) -> return min(359, ei_sum(panel, parts) // parts)"): NO_MORE,
    ("graded", "return (refusal, 0) if refusal else (0, grade(minute_of(panel))) -> return (refusal, 1) if refusal else (0, grade(minute_of(panel)))"): BESIDE,
    ("graded", "return (refusal, 0) if refusal else (0, grade(minute_of(panel))) -> return (refusal, -1) if refusal else (0, grade(minute_of(panel)))"): BESIDE,
    ("least_cut", "deepest = max((thickness for _, thickness in panel.lamellae)) - LEAST_KEPT -> "
                  "deepest = max((thickness for _, thickness in panel.lamellae)) + LEAST_KEPT"): "a deeper cut is not allowed",
    ("least_cut", "for tenths in range(1, deepest + 1): -> for tenths in range(0, deepest + 1):"): "nothing off lowers no grade",
    ("least_cut", "for tenths in range(1, deepest + 1): -> for tenths in range(1, deepest + 2):"): "a deeper cut is not allowed",
    ("written", "return (14, 0) if space_length < len(text) else (0, len(text)) -> return (14, 1) if space_length < len(text) else (0, len(text))"): BESIDE,
    ("written", "return (14, 0) if space_length < len(text) else (0, len(text)) -> return (14, -1) if space_length < len(text) else (0, len(text))"): BESIDE,
    ("card_call", "return (refusal, 0) if refusal else written(card(panel), space_length) -> "
                  "return (refusal, 1) if refusal else written(card(panel), space_length)"): BESIDE,
    ("card_call", "return (refusal, 0) if refusal else written(card(panel), space_length) -> "
                  "return (refusal, -1) if refusal else written(card(panel), space_length)"): BESIDE,
}

# the rule for the rate of a thin LVL panel, and the lines about LVL and none along as a record is read, in peer.py
THIN_RATE = "next(n for n in count() if n ** 2 * h >= 65 ** 2 * 200)"
LVL_READ = "    if bad_lvl(panel):\n        return 17, BLANK\n"
ALONG_READ = "    if none_along(panel.lamellae):\n        return 12, BLANK\n"
SECTION_READ = "    if not depth_passes(panel, 0):\n        return 13, BLANK\n"
LAMELLAE_READ = "    if bad_lamellae(panel.lamellae):\n        return 11, BLANK\n"

# what bytes are taken for, in peer.py
TAKEN = "return encode(G) if len(data) == 0 else data"

# (what somebody could read, the text of peer.py, what stands there instead)
MISREADINGS = [
    ("zero bytes are refused", TAKEN, "return data"),
    ("zero bytes mean G without moment", TAKEN, "return encode(G._replace(moment=0)) if len(data) == 0 else data"),
    ("zero bytes mean G in version 2", TAKEN, "return encode(G._replace(version=2)) if len(data) == 0 else data"),
    ("zero bytes mean G with falling bond", TAKEN, "return encode(G._replace(bond=1)) if len(data) == 0 else data"),
    ("bytes that are all 0 mean G", TAKEN, "return encode(G) if not any(data) else data"),
    ("what is too short for a record means G", TAKEN, "return encode(G) if len(data) < 21 else data"),
    ("the rate of a thin LVL panel to the nearest", THIN_RATE, "round((65 ** 2 * 200 / h) ** 0.5)"),
    ("the rate of a thin LVL panel rounded down", THIN_RATE, "int((65 ** 2 * 200 / h) ** 0.5)"),
    ("the rate of a thin LVL panel 65·20/h", THIN_RATE, "next(n for n in count() if n * h >= 65 * 200)"),
    ("thin by the first lamella", "    h = thickness_of(panel.lamellae)\n    if", "    h = from_fire(panel)[0][1]\n    if"),
    ("thin by the thinnest lamella", "    h = thickness_of(panel.lamellae)\n    if", "    h = min(h for _, h in panel.lamellae)\n    if"),
    ("thin below 15.0 mm", "panel.bond == LVL and h < 200", "panel.bond == LVL and h < 150"),
    ("thin CLT chars faster too", "if panel.bond == LVL and h < 200:", "if h < 200:"),
    ("every LVL panel by the rule", "if panel.bond == LVL and h < 200:", "if panel.bond == LVL:"),
    ("LVL has bond lines", "if panel.bond in (0, LVL):", "if panel.bond == 0:"),
    ("LVL with the factor of CLT", "factor = 22 if panel.bond == LVL else 23", "factor = 23"),
    ("the factor of LVL where the bond falls too", "factor = 22 if panel.bond == LVL else 23", "factor = 22 if panel.bond else 23"),
    ("k2·β by the record's rate", "slow = k2(panel) * beta", "slow = k2(panel) * Fraction(panel.rate, 100)"),
    ("2·t_f by the record's rate", "end = first_end(panel, depth, failure, 2 * beta)", "end = first_end(panel, depth, failure, Fraction(panel.rate, 50))"),
    ("LVL has no zero-strength layer", "    return char(panel, minute)[0] + k0(panel, minute) * ZERO_STRENGTH",
     "    return char(panel, minute)[0] + (panel.bond != LVL) * k0(panel, minute) * ZERO_STRENGTH"),
    ("17 only where all lamellae lie across", "(any(direction == ACROSS", "(all(direction == ACROSS"),
    ("17 for a greater rate alone", "panel.rate != 65", "panel.rate > 65"),
    ("17 for a lesser rate alone", "panel.rate != 65", "panel.rate < 65"),
    ("a thin LVL panel may give its own rate", "panel.rate != 65", "panel.rate not in (65, charring_rate(panel))"),
    ("17 after 12", LVL_READ + ALONG_READ, ALONG_READ + LVL_READ),
    ("17 after 13", LVL_READ + ALONG_READ + SECTION_READ, ALONG_READ + SECTION_READ + LVL_READ),
    ("17 before 11", LAMELLAE_READ + LVL_READ, LVL_READ + LAMELLAE_READ),
    ("LVL is written with the rate that it chars at", "bytes([panel.bond, panel.rate, panel.gap])", "bytes([panel.bond, charring_rate(panel), panel.gap])"),
    ("LVL and CLT whose bond holds are the same build", "return a._replace(version=0, strength=0, moment=0) == b._replace(version=0, strength=0, moment=0)",
     "return a._replace(version=0, strength=0, moment=0, bond=a.bond % 2) == b._replace(version=0, strength=0, moment=0, bond=b.bond % 2)"),
    ("LVL insulates as OSB", "(entry(\"wood_insulation\", thicknesses[-1], parts), 100)]",
     "(entry(\"osb_insulation\" if panel.bond == LVL else \"wood_insulation\", thicknesses[-1], parts), 100)]"),
    ("EI's grade and REI of a wall by its first face alone",
     "def ei_grade(panel):\n    return graded(ei_minute, panel)", "def ei_grade(panel):\n    return graded(lambda p: ei_minute(fires(p)[0]), panel)"),
    ("REI of a wall by the EI of its first face alone",
     "return graded(lambda panel: min(load_minute(panel), ei_minute(panel)), panel)",
     "return graded(lambda panel: min(load_minute(panel), ei_minute(fires(panel)[0])), panel)"),
    ("the card's REI by the EI of its first face alone", 'f"REI {rei(r, ei)}"', 'f"REI {rei(r, ei_minute(fires(panel)[0]))}"'),
    ("the card's EI grade by the EI of its first face alone", 'f"EI {ei} {grade(ei)}"', 'f"EI {ei} {grade(ei_minute(fires(panel)[0]))}"'),
    ("planing keeps the EI of the first face alone", "ei_minute(panel) >= least and time_passes(panel, least)",
     "ei_minute(fires(panel)[0]) >= least and time_passes(panel, least)"),
    ("with t_ch < t_f the first run ends at 2·t_f too", "    if t_f(panel) > t_ch(panel):\n        return FAST_RUN\n",
     "    if t_f(panel) > t_ch(panel):\n        return min(FAST_RUN, rate * failure)\n"),
    ("no more than 15.0 mm is planed", "- LEAST_KEPT\n    for tenths", "- LEAST_KEPT\n    deepest = min(150, deepest)\n    for tenths"),
    ("k2 by the thinner board", "panel.boards[-1].thickness, 10_000)", "min(b.thickness for b in panel.boards), 10_000)"),
    ("k2 by the thicker board", "panel.boards[-1].thickness, 10_000)", "max(b.thickness for b in panel.boards), 10_000)"),
    ("k2 by the outer board", "panel.boards[-1].thickness, 10_000)", "panel.boards[0].thickness, 10_000)"),
    ("a line passed before the boards failed ends the run after 25 mm, whatever line is next",
     "return min([max(passed) + FAST_RUN] + lines[len(passed):])", "return max(passed) + FAST_RUN"),
    ("the first line passed tells the end", "return min([max(passed) + FAST_RUN] + lines[len(passed):])",
     "return min([min(passed) + FAST_RUN] + lines[len(passed):])"),
    ("D is a letter too", 'TYPES = b"AFHOP"', 'TYPES = b"ADFHOP"'),
    ("DF is a letter too", 'TYPES = b"AFHOP"', 'TYPES = bytes([68]) + b"AFHOP"'),
    ("t_ch of two boards A by the factor of F", "inner = 224 if is_type_f(boards) else 140", "inner = 224"),
    ("t_ch of two boards F by the factor of A", "inner = 224 if is_type_f(boards) else 140", "inner = 140"),
    ("the gap counts behind OSB", "    if boards[0].kind in WOOD_TYPES:\n        return", "    if boards[0].kind in WOOD_TYPES and panel.gap == 0:\n        return"),
    ("the zero-strength layer is full at 20 min behind boards too", "max(20_000, t_ch(panel))))", "20_000)))"),
    ("the zero-strength layer by t_f", "max(20_000, t_ch(panel))))", "max(20_000, t_f(panel))))"),
    ("the effective depth goes past the back face", "return min(weakened(panel, minute), Fraction(thickness_of(panel.lamellae), 10))",
     "return weakened(panel, minute)"),
    ("EI's sum by the first face", "return min(sum(layer_times(fire, parts)) for fire in fires(panel))",
     "return sum(layer_times(fires(panel)[0], parts))"),
    ("R by the first face", "return min(map(fire_minute, fires(panel)))", "return fire_minute(fires(panel)[0])"),
    ("RS by the first face", "return min(map(fire_time, fires(panel)))", "return fire_time(fires(panel)[0])"),
    ("planing looks at load alone", "refusal == 0 and ei_minute(panel) >= least and time_passes(panel, least)",
     "refusal == 0 and time_passes(panel, least)"),
    ("planing looks at EI alone", "refusal == 0 and ei_minute(panel) >= least and time_passes(panel, least)",
     "refusal == 0 and ei_minute(panel) >= least"),
    ("planing does not count refusal 13", "return refusal == 0 and", "return refusal == 13 or"),
    ("of equal cuts the one nearest the first face", "return places[::-1] if panel.face == 1 else places", "return places"),
    ("of equal cuts the one nearest the last face for face 2", "return places[::-1] if panel.face == 1 else places",
     "return places[::-1] if panel.face >= 1 else places"),
    ("the first lamella's direction counts in EI", "layers += [(entry(\"wood_protection\", thickness, parts), 100) for thickness in thicknesses[:-1]]",
     "layers += [(entry(\"wood_protection\", thickness, parts), 100) for thickness in thicknesses[:-1]][panel.lamellae[0][0] - 1:]"),
    ("boards stand on the far face too", "return layers + [(entry(\"wood_insulation\", thicknesses[-1], parts), 100)]",
     "return layers + [(entry(\"wood_insulation\", thicknesses[-1], parts), 100)] + "
     "[(entry(MATERIALS[b.kind] + '_insulation', b.thickness, parts), b.joint) for b in panel.boards]"),
    ("hundredths of a minute", "PARTS = 1_000", "PARTS = 100"),
    ("basic times rounded to hundredths of a minute", "return basic_time(*TABLES[table][:4], h, parts)",
     "return parts // 100 * basic_time(*TABLES[table][:4], h, 100)"),
    ("a base in hundredths of a minute", "<= (base * parts) ** root * h ** power", "<= (base * 100) ** root * h ** power"),
    ("one table's base in hundredths of a minute", "    return basic_time(*TABLES[table][:4], h, parts)",
     "    return basic_time(*TABLES[table][:4], h, 100 if table == 'wood_insulation' else parts)"),
    ("layer times rounded to hundredths of a minute", "return behind * joint // 100", "return behind * joint // 1_000 * 10"),
    ("EI by a hundredth part of the sum", "ei_sum(panel, parts) // parts)", "ei_sum(panel, parts) // 100)"),
    ("EI to the nearest minute", "ei_sum(panel, parts) // parts)", "(ei_sum(panel, parts) + parts // 2) // parts)"),
    ("EI below a grade at its very minute", "ei_sum(panel, parts) // parts)", "(ei_sum(panel, parts) - 1) // parts)"),
    ("EI a thousandth early", "ei_sum(panel, parts) // parts)", "(ei_sum(panel, parts) + 1) // parts)"),
    ("0.6 of the sum rounded down by itself", "behind = (5 * t - 3 * before) // 5", "behind = t - 3 * before // 5"),
    ("a layer rounded once", "        behind = (5 * t - 3 * before) // 5\n    else:\n        behind = largest(lambda n: 4 * n ** 2 * before <= t ** 3)\n"
     "    return behind * joint // 100",
     "        return (5 * t - 3 * before) * joint // 500\n    return largest(lambda n: 40_000 * n ** 2 * before <= joint ** 2 * t ** 3)"),
    ("same build by the fire's lamellae", "return a._replace(version=0, strength=0, moment=0) == b._replace(version=0, strength=0, moment=0)",
     "return a._replace(version=0, strength=0, moment=0, face=0, lamellae=from_fire(a)) == b._replace(version=0, strength=0, moment=0, face=0, lamellae=from_fire(b))"),
    ("turning swaps the first and the last lamella alone", "return panel.lamellae[::-1] if panel.face == LAST_FACE else panel.lamellae",
     "return panel.lamellae[-1:] + panel.lamellae[1:-1] + panel.lamellae[:1] if panel.face == LAST_FACE and len(panel.lamellae) > 1 else panel.lamellae"),
]

ORDERS = {ast.Lt: [ast.LtE], ast.LtE: [ast.Lt], ast.Gt: [ast.GtE], ast.GtE: [ast.Gt], ast.Eq: [ast.NotEq], ast.NotEq: [ast.Eq],
          ast.In: [ast.NotIn], ast.NotIn: [ast.In]}
SUMS = {ast.Add: [ast.Sub], ast.Sub: [ast.Add], ast.Mult: [ast.Add], ast.Div: [ast.Mult], ast.FloorDiv: [ast.Mult], ast.Pow: [ast.Mult]}
TWINS = {"min": "max", "max": "min", "floor": "ceil", "ceil": "floor", "any": "all", "all": "any", "FIRST_FACE": "LAST_FACE",
         "LAST_FACE": "FIRST_FACE", "EACH_ALONE": "LAST_FACE", "t_f": "t_ch", "t_ch": "t_f", "load_minute": "ei_minute"}


def changed(node):
    """The other nodes that may stand in the place of one."""
    if isinstance(node, ast.Compare):
        for i, order in enumerate(node.ops):
            for other in ORDERS.get(type(order), []):
                new = copy.deepcopy(node)
                new.ops[i] = other()
                yield new
    elif isinstance(node, ast.BinOp):
        for other in SUMS.get(type(node.op), []):
            yield ast.BinOp(node.left, other(), node.right)
    elif isinstance(node, ast.BoolOp):
        yield ast.BoolOp(ast.And() if isinstance(node.op, ast.Or) else ast.Or(), node.values)
        for value in node.values:
            yield value
    elif isinstance(node, ast.UnaryOp) and isinstance(node.op, ast.Not):
        yield node.operand
    elif isinstance(node, ast.Constant) and type(node.value) is int:
        yield ast.Constant(node.value + 1)
        yield ast.Constant(node.value - 1)
    elif isinstance(node, ast.IfExp):
        yield node.body
        yield node.orelse
    elif isinstance(node, ast.Name) and node.id in TWINS:
        yield ast.Name(TWINS[node.id], node.ctx)
    elif isinstance(node, ast.If) and not node.orelse:
        yield ast.Pass()
    elif isinstance(node, ast.Slice) and node.step is not None:
        yield ast.Slice(None, None, None)


class Put(ast.NodeTransformer):
    """Puts another node in the place of the one with a number."""

    def __init__(self, place, new):
        self.place, self.new, self.at = place, new, -1

    def visit(self, node):
        self.at += 1
        if self.at == self.place:
            return self.new
        return self.generic_visit(node)


class Nodes(ast.NodeVisitor):
    """The nodes in the order in which `Put` counts them."""

    def __init__(self):
        self.found = []

    def visit(self, node):
        self.found.append(node)
        self.generic_visit(node)


def with_lines(tree):
    return ast.unparse(ast.fix_missing_locations(tree))


def mutants_of(part):
    """(line after, source after) of a definition of peer.py."""
    nodes = Nodes()
    nodes.visit(part)
    before = with_lines(part).split("\n")
    for place, node in enumerate(nodes.found):
        for new in changed(node):
            after = with_lines(Put(place, new).visit(copy.deepcopy(part)))
            lines = [(old.strip(), line.strip()) for line, old in zip(after.split("\n"), before + [""] * 99) if line != old]
            if lines:
                yield " -> ".join(lines[0]), after


def without_doc(part):
    if isinstance(part, ast.FunctionDef) and ast.get_docstring(part):
        part.body = part.body[1:]
    return part


def name_of(part):
    if isinstance(part, ast.FunctionDef):
        return part.name
    if isinstance(part, ast.Assign):
        return ast.unparse(part.targets[0])
    return None


def mutants(names):
    """(function, what stands there, source of peer.py)"""
    tree = ast.parse(SOURCE)
    parts = [without_doc(part) for part in tree.body]
    texts = [with_lines(part) for part in parts]
    for i, part in enumerate(parts):
        name = name_of(part)
        if name is None or name in APART or name == "BLANK" or names and name not in names:
            continue
        for line, after in mutants_of(part):
            yield name, line, "\n".join(texts[:i] + [after] + texts[i + 1:])
    for text, old, new in MISREADINGS:
        if names:
            break
        if SOURCE.count(old) != 1:
            sys.exit(f"MISREADINGS: not once in peer.py: {old}")
        yield "misreading", text, SOURCE.replace(old, new)


def calls_of(source):
    """CALLS of programs.py and text_lines, over that source of peer.py."""
    peer = types.ModuleType("peer")
    programs = types.ModuleType("programs")
    kept = sys.modules.get("peer")
    sys.modules["peer"] = peer
    try:
        exec(compile(source, "peer", "exec"), peer.__dict__)
        exec(compile(PROGRAMS, "programs", "exec"), programs.__dict__)
    finally:
        sys.modules["peer"] = kept
    return programs.answered


def too_long(_signal, _frame):
    raise TimeoutError


CASES = []


def seen_by(mutant):
    """The first case that is answered otherwise, None where there is none."""
    name, line, source = mutant
    signal.signal(signal.SIGALRM, too_long)
    try:
        answered = calls_of(source)
    except Exception:
        return mutant, "cannot be run"
    for call, case, answer in CASES:
        signal.alarm(LONGEST)
        try:
            said = answered(call, case)
        except Exception as error:
            return mutant, f"{type(error).__name__} at {call} .. {case[-1]}"
        finally:
            signal.alarm(0)
        if said != answer:
            return mutant, f"{call} .. {case[-1]}"
    return mutant, None


def stored_cases():
    """(call, case, answer), the cheapest calls first."""
    import time
    import make_cases
    import programs
    found = []
    for call, cases in make_cases.CASES.items():
        for case in cases():
            begun = time.time()
            answer = programs.answered(call, case)
            found.append((time.time() - begun, call, case, answer))
    found.sort(key=lambda each: each[0])
    return [each[1:] for each in found]


def main():
    words = argparse.ArgumentParser(description=__doc__, formatter_class=argparse.RawDescriptionHelpFormatter)
    words.add_argument("names", metavar="NAME", nargs="*")
    words.add_argument("--jobs", type=int, default=os.cpu_count())
    words.add_argument("--list", action="store_true", help="print what each mutant was seen by")
    given = words.parse_args()
    CASES.extend(stored_cases())
    tried = list(mutants(given.names))
    living, same = [], set()
    with multiprocessing.get_context("fork").Pool(given.jobs) as pool:
        for (name, line, _), seen in pool.imap_unordered(seen_by, tried, chunksize=1):
            if given.list:
                print(f"{name}: {line}: {seen}", flush=True)
            if seen is None and (name, line) in SAME:
                same.add((name, line))
            elif seen is None:
                living.append((name, line))
                print(f"lives: {name}: {line}", flush=True)
    if not given.names:
        for name, line in set(SAME) - same:
            print(f"SAME names a mutant that is seen or not there: {name}: {line}")
            living.append((name, line))
    print(f"{len(tried)} mutants, {len(tried) - len(living) - len(same)} seen, {len(same)} that say the same, {len(living)} alive")
    sys.exit(1 if living else 0)


if __name__ == "__main__":
    main()
