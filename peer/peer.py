"""The CLT fire card in exact arithmetic, written from documents 01 and 02 alone.

A peer of the Rattle code: it shares no line with it, and the two are compared on the same records.
Lengths are in tenths of mm, times in thousandths of a minute, unless a name says otherwise.
The parts stand in the order of the document's sections.
"""
from fractions import Fraction
from functools import cache
from itertools import count
from math import ceil, floor
from typing import NamedTuple

LAST_REQUEST = 10  # of document 02

# ---------------------------------------------------------------- The panel record

ACROSS, ALONG = 0, 1
LVL = 2  # a bond of this value means laminated veneer lumber
TYPES = b"AFHOP"
TYPE_F = ord("F")
WOOD_TYPES = b"OP"  # OSB and particle board
FIRST_FACE, LAST_FACE, EACH_ALONE = 0, 1, 2


class Board(NamedTuple):
    kind: int       # the ASCII letter
    thickness: int  # tenths of mm
    joint: int      # joint coefficient, hundredths


class Panel(NamedTuple):
    version: int       # of its record, in which it is written
    face: int          # where the fire is: FIRST_FACE, LAST_FACE, or EACH_ALONE for a fire on each face alone
    bond: int          # 0 holds, 1 falls, LVL
    rate: int          # hundredths of mm/min
    gap: int           # 0 filled or at most 2 mm, 1 wider
    strength: int      # tenths of N/mm2
    moment: int        # N.m per metre of width
    failure_time: int  # the given one, thousandths of a minute
    boards: tuple      # none, one or two, outer first
    lamellae: tuple    # pairs (direction, thickness), from the first face


# What stands beside a refusal: every number 0, no board, no lamella.
BLANK = Panel(0, 0, 0, 0, 0, 0, 0, 0, (), ())
# The document's panel G with moment 3,000: 30 along, 40 across, 30 along (mm).
G = Panel(version=1, face=FIRST_FACE, bond=0, rate=65, gap=0, strength=240, moment=3_000, failure_time=0, boards=(),
          lamellae=((ALONG, 300), (ACROSS, 400), (ALONG, 300)))

VERSION_AT = 2
HEAD = 14  # bytes before the first board, from the bond on


def number(data, at, width):
    """The big-endian number of `width` bytes at `at`."""
    return int.from_bytes(data[at:at + width], "big")


def face_bytes(version):
    """Record version 2 has a face byte after the version; version 1 has none."""
    return 1 if version == 2 else 0


def record_length(version, boards, lamellae):
    return 18 + face_bytes(version) + 4 * boards + 3 * lamellae


def board_at(data, at):
    return Board(data[at], number(data, at + 1, 2), data[at + 3])


def lamella_at(data, at):
    return (data[at], number(data, at + 1, 2))


def encode(panel):
    """The record of a panel whose numbers fit their fields, in the panel's version."""
    boards, lamellae = panel.boards, panel.lamellae
    out = record_length(panel.version, len(boards), len(lamellae)).to_bytes(2, "big")
    out += bytes([panel.version] + [panel.face] * face_bytes(panel.version))
    out += bytes([panel.bond, panel.rate, panel.gap])
    out += panel.strength.to_bytes(2, "big") + panel.moment.to_bytes(4, "big")
    out += bytes([len(boards)]) + panel.failure_time.to_bytes(4, "big")
    for board in boards:
        out += bytes([board.kind]) + board.thickness.to_bytes(2, "big") + bytes([board.joint])
    out += bytes([len(lamellae)])
    for direction, thickness in lamellae:
        out += bytes([direction]) + thickness.to_bytes(2, "big")
    return out


def same_build(a, b):
    """Boards and lamellae agree, in order, and face, bond, rate, gap and failure time: all but version, strength and moment."""
    return a._replace(version=0, strength=0, moment=0) == b._replace(version=0, strength=0, moment=0)


# ---------------------------------------------------------------- Where a record is turned back
# Each line is a function that says whether its cause fits; the numbers are the documents'.

def bad_version(version):  # 2
    return version not in (1, 2)


def bad_face(version, face):  # 16
    return face > 2 or version == 1 and face != FIRST_FACE


def bad_switches(bond, gap):  # 3
    return bond > LVL or gap > 1


def bad_rate(rate):  # 4
    return not 50 <= rate <= 100


def bad_load(strength, moment):  # 5
    return not 1 <= strength <= 400 or moment > 1_000_000


def bad_types(boards):  # 7
    kinds = [board.kind for board in boards]
    if any(kind not in TYPES for kind in kinds):
        return True
    if TYPE_F in kinds and any(kind != TYPE_F for kind in kinds):
        return True
    return len(kinds) > 1 and any(kind in WOOD_TYPES for kind in kinds)


def bad_boards(boards):  # 8
    return any(outside_table(board.kind, board.thickness) or not 1 <= board.joint <= 100 for board in boards)


def bad_failure_time(panel):  # 9
    if is_type_f(panel.boards):
        return not t_ch(panel) <= panel.failure_time <= 360_000
    return panel.failure_time != 0


def bad_count(count):  # 10, but for the length
    return not 1 <= count <= 9


def bad_lamellae(lamellae):  # 11
    if any(direction > 1 or not 100 <= thickness <= 600 for direction, thickness in lamellae):
        return True
    return thickness_of(lamellae) > 4_000


def bad_lvl(panel):  # 17
    return panel.bond == LVL and (any(direction == ACROSS for direction, _ in panel.lamellae) or panel.rate != 65)


def none_along(lamellae):  # 12
    return all(direction != ALONG for direction, _ in lamellae)


def panel_refusal(panel):
    """The first of lines 2, 16, 3 to 11, 17, 12 and 13 that fits the panel, or 0. Lines 6 and 10 speak of counts only: a panel has no length."""
    if bad_version(panel.version):
        return 2
    if bad_face(panel.version, panel.face):
        return 16
    if bad_switches(panel.bond, panel.gap):
        return 3
    if bad_rate(panel.rate):
        return 4
    if bad_load(panel.strength, panel.moment):
        return 5
    if len(panel.boards) > 2:
        return 6
    if bad_types(panel.boards):
        return 7
    if bad_boards(panel.boards):
        return 8
    if bad_failure_time(panel):
        return 9
    if bad_count(len(panel.lamellae)):
        return 10
    if bad_lamellae(panel.lamellae):
        return 11
    if bad_lvl(panel):
        return 17
    if none_along(panel.lamellae):
        return 12
    if not depth_passes(panel, 0):
        return 13
    return 0


def taken_for(data):
    """Zero bytes mean panel G with moment 3,000: its version 1 record stands for them. Others stand for themselves."""
    return encode(G) if len(data) == 0 else data


def decode(data):
    """(refusal, panel): refusal 0 and the panel of the record, or the first of lines 1, 2, 16, 3 to 11, 17, 12 and 13 that fits and BLANK."""
    data = taken_for(data)
    if not 21 <= len(data) <= 54 or number(data, 0, 2) != len(data):
        return 1, BLANK
    version = data[VERSION_AT]
    if bad_version(version):
        return 2, BLANK
    more = face_bytes(version)
    face = data[VERSION_AT + 1] if more else FIRST_FACE
    if bad_face(version, face):
        return 16, BLANK
    body = data[VERSION_AT + 1 + more:]
    bond, rate, gap = body[0], body[1], body[2]
    strength, moment = number(body, 3, 2), number(body, 5, 4)
    if bad_switches(bond, gap):
        return 3, BLANK
    if bad_rate(rate):
        return 4, BLANK
    if bad_load(strength, moment):
        return 5, BLANK
    board_count, failure_time = body[9], number(body, 10, 4)
    if board_count > 2 or len(data) < 21 + more + 4 * board_count:
        return 6, BLANK
    boards = tuple(board_at(body, HEAD + 4 * i) for i in range(board_count))
    panel = Panel(version, face, bond, rate, gap, strength, moment, failure_time, boards, ())
    if bad_types(boards):
        return 7, BLANK
    if bad_boards(boards):
        return 8, BLANK
    if bad_failure_time(panel):
        return 9, BLANK
    count_at = HEAD + 4 * board_count
    count = body[count_at]
    if bad_count(count) or len(data) != record_length(version, board_count, count):
        return 10, BLANK
    part = body[count_at + 1:]
    panel = panel._replace(lamellae=tuple(lamella_at(part, 3 * i) for i in range(count)))
    if bad_lamellae(panel.lamellae):
        return 11, BLANK
    if bad_lvl(panel):
        return 17, BLANK
    if none_along(panel.lamellae):
        return 12, BLANK
    if not depth_passes(panel, 0):
        return 13, BLANK
    return 0, panel


def write(panel, space):
    """(answer, space after): ("written", K) or ("refused", N), and what the lent bytes hold then."""
    refusal = panel_refusal(panel)
    if refusal:
        return ("refused", refusal), space
    record = encode(panel)
    if len(space) < len(record):
        return ("refused", 14), space
    return ("written", len(record)), record + space[len(record):]


# ---------------------------------------------------------------- Fires
# What speaks of one fire takes the panel with face 0 or 1. Of a panel with face 2 it takes the first face's: "the depth table, the CHAR
# lines, the phase and the section at a depth are those of face 0". Its printed minutes look at both fires.

def from_fire(panel):
    """The lamellae from the exposed face on: turning reverses them, and nothing else; boards on the far face are no layer."""
    return panel.lamellae[::-1] if panel.face == LAST_FACE else panel.lamellae


def fires(panel):
    """The panel in each of its fires."""
    faces = (FIRST_FACE, LAST_FACE) if panel.face == EACH_ALONE else (panel.face,)
    return [panel._replace(face=face) for face in faces]


# ---------------------------------------------------------------- Charring

def is_type_f(boards):
    """F stands alone or with F, so the outer board tells."""
    return len(boards) > 0 and boards[0].kind == TYPE_F


def t_ch(panel):
    """The start of charring, thousandths of a minute."""
    boards = panel.boards
    if not boards:
        return 0
    if boards[0].kind in WOOD_TYPES:
        return floor(Fraction(boards[0].thickness, 10) / Fraction(90, 100) * 1_000)
    less = 23_000 if panel.gap == 1 else 14_000
    if len(boards) == 1:
        return 280 * boards[0].thickness - less
    inner = 224 if is_type_f(boards) else 140
    return 280 * boards[0].thickness + inner * boards[1].thickness - less


def t_f(panel):
    """When the boards fail, thousandths of a minute."""
    return panel.failure_time if is_type_f(panel.boards) else t_ch(panel)


class Stage(NamedTuple):
    start: Fraction  # minutes
    depth: Fraction  # mm of char at the start
    rate: Fraction   # mm/min
    phase: object    # "untouched", "under cladding", ("fast", end in hundred-thousandths of mm) or "settled"


FAST_RUN = Fraction(25)  # mm


def bond_lines(panel):
    """The depths in mm, from the exposed face, at which lamellae meet; none where the bond holds, and none of LVL."""
    if panel.bond in (0, LVL):
        return []
    lamellae = from_fire(panel)
    return [Fraction(thickness_of(lamellae[:i]), 10) for i in range(1, len(lamellae))]


def k2(panel):
    return Fraction(10_000 - 18 * panel.boards[-1].thickness, 10_000)


def first_end(panel, depth, failure, rate):
    """The depth in mm where the first run at this rate ends; not above `depth`, that at t_f, where there is no such run."""
    if not panel.boards:
        return depth
    lines = bond_lines(panel)
    passed = [line for line in lines if line < depth]
    if passed:
        return min([max(passed) + FAST_RUN] + lines[len(passed):])
    if t_f(panel) > t_ch(panel):
        return FAST_RUN
    ends = min(2 * failure, failure + FAST_RUN / rate)
    return rate * (ends - failure)


def charring_rate(panel):
    """In hundredths of mm/min: the record's, but for a thin LVL panel the least whole number that is fast enough."""
    h = thickness_of(panel.lamellae)
    if panel.bond == LVL and h < 200:
        return next(n for n in count() if n ** 2 * h >= 65 ** 2 * 200)
    return panel.rate


@cache
def stages(panel):
    """What an accepted panel goes through, in the order of time; a stage ends as the next starts."""
    beta = Fraction(charring_rate(panel), 100)
    back = Fraction(thickness_of(panel.lamellae), 10)
    start, failure = Fraction(t_ch(panel), 1_000), Fraction(t_f(panel), 1_000)
    passed = [Stage(Fraction(0), Fraction(0), Fraction(0), "untouched")]
    depth = Fraction(0)
    if start < failure:
        slow = k2(panel) * beta
        passed.append(Stage(start, depth, slow, "under cladding"))
        depth = slow * (failure - start)
        if depth >= back:
            return passed + [Stage(start + back / slow, back, Fraction(0), "settled")]
    now, lines = failure, bond_lines(panel)
    end = first_end(panel, depth, failure, 2 * beta)
    while depth < back:
        ahead = [line for line in lines if line > depth]
        if depth in lines:
            end = min([depth + FAST_RUN] + ahead)
        if depth < end:
            rate, phase, goals = 2 * beta, ("fast", int(end * 100_000)), [end]
        else:
            rate, phase, goals = beta, "settled", []
        passed.append(Stage(now, depth, rate, phase))
        goal = min(goals + ahead + [back])
        now += (goal - depth) / rate
        depth = goal
    return passed + [Stage(now, back, Fraction(0), "settled")]


def char(panel, minute):
    """(char depth in mm, phase) at a time in minutes, whole or a fraction. At a boundary the later stage counts."""
    stage = [stage for stage in stages(panel) if stage.start <= minute][-1]
    return stage.depth + stage.rate * (minute - stage.start), stage.phase


def micrometres(panel, minute):
    """The char depth, rounded up."""
    return ceil(char(panel, minute)[0] * 1_000)


def depth_table(panel):
    return [micrometres(panel, minute) for minute in range(361)]


def fill_table(panel, space):
    """(refusal, space after): 0 and the depths with what lay past them, or a number and the space as it was."""
    refusal = panel_refusal(panel) or (14 if len(space) < 361 else 0)
    return (refusal, space) if refusal else (0, depth_table(panel) + space[361:])


# ---------------------------------------------------------------- Remaining section

ZERO_STRENGTH = 7        # mm
SMALLEST_REMAINDER = 30  # 3.0 mm


def thickness_of(lamellae):
    return sum(thickness for _, thickness in lamellae)


def k0(panel, minute):
    return min(Fraction(1), Fraction(1_000 * minute, max(20_000, t_ch(panel))))


def weakened(panel, minute):
    """Char depth and zero-strength layer together, in mm, not held at the panel's thickness."""
    return char(panel, minute)[0] + k0(panel, minute) * ZERO_STRENGTH


def effective_depth(panel, minute):
    """In mm, at a time in minutes, whole or a fraction."""
    return min(weakened(panel, minute), Fraction(thickness_of(panel.lamellae), 10))


def effective_tenths(panel, minute):
    """The effective depth, rounded up to a tenth of mm."""
    return ceil(effective_depth(panel, minute) * 10)


def counted_parts(lamellae, depth):
    """The parts (a, b), tenths of mm from the exposed face, that count at a depth."""
    parts, top = [], 0
    for direction, thickness in lamellae:
        bottom = top + thickness
        start = max(top, depth)
        if direction == ALONG and bottom - start >= SMALLEST_REMAINDER:
            parts.append((start, bottom))
        top = bottom
    return parts


def sums(parts):
    """N, P, Q and the outermost ends lo, hi; all 0 where nothing is counted."""
    if not parts:
        return 0, 0, 0, 0, 0
    n = sum(b - a for a, b in parts)
    p = sum(b ** 2 - a ** 2 for a, b in parts)
    q = sum(b ** 3 - a ** 3 for a, b in parts)
    return n, p, q, min(a for a, _ in parts), max(b for _, b in parts)


def section(panel, depth):
    """(N, P, Q, lo, hi, passes) at a depth in whole tenths of mm."""
    n, p, q, lo, hi = sums(counted_parts(from_fire(panel), depth))
    edge = max(p - 2 * n * lo, 2 * n * hi - p)
    factor = 22 if panel.bond == LVL else 23
    carried = 120_000 * panel.moment * edge <= factor * panel.strength * (4 * n * q - 3 * p ** 2)
    return n, p, q, lo, hi, n > 0 and carried


def depth_passes(panel, depth):
    return section(panel, depth)[5]


def time_passes(panel, minute):
    """At a time in minutes, whole or a fraction: every tenth from 0 to its effective depth, rounded up, passes, in each fire."""
    return all(depth_passes(fire, depth) for fire in fires(panel) for depth in range(effective_tenths(fire, minute) + 1))


@cache
def first_failing(panel):
    """The first depth, in tenths of mm, that does not pass. There is one: at the thickness nothing is counted."""
    return next(depth for depth in range(thickness_of(panel.lamellae) + 1) if not depth_passes(panel, depth))


def last_time_at(panel, depth):
    """The last time, in minutes, at which the effective depth is `depth` mm or less; `depth` is from 0 up to below the thickness.

    `weakened` is a line between two bends, and rises from 0 until the panel is charred through.
    """
    bends = sorted({stage.start for stage in stages(panel)} | {Fraction(max(20_000, t_ch(panel)), 1_000)})
    past = next(i for i, bend in enumerate(bends) if weakened(panel, bend) > depth)
    start, end = bends[past - 1], bends[past]
    low, high = weakened(panel, start), weakened(panel, end)
    return start + (end - start) * (depth - low) / (high - low)


@cache
def fire_failure(fire):
    """When the effective depth leaves the last tenth before a failing one, in minutes, of one fire."""
    return last_time_at(fire, Fraction(first_failing(fire) - 1, 10))


def exact_failure(panel):
    """The failure time in minutes, in the fire that fails the panel first; None where it passes through 360."""
    failure = min(map(fire_failure, fires(panel)))
    return None if failure >= 360 else failure


def fire_minute(fire):
    """R of one fire: its failure time's whole minutes, at most 360."""
    return min(360, floor(fire_failure(fire)))


def load_minute(panel):
    """R of an accepted panel: the lesser of its fires."""
    return min(map(fire_minute, fires(panel)))


def fire_time(fire):
    """RS of one fire, (minutes, seconds): its failure time's whole seconds, or 360:00 where it lasts."""
    return divmod(min(360 * 60, floor(60 * fire_failure(fire))), 60)


def load_time(panel):
    """RS of an accepted panel: the lesser of its fires."""
    return min(map(fire_time, fires(panel)))


def time_answer(panel):
    """(refusal, (minutes, seconds))"""
    refusal = panel_refusal(panel)
    return (refusal, (0, 0)) if refusal else (0, load_time(panel))


def scanned_time(fire):
    """RS of one fire found by trying one whole minute after the other, up to 360, and from the last before one fails on the seconds."""
    tried, second = 0, 0  # the last depth and the last time found to pass; depth 0 does
    for step in (60, 1):
        while second + step <= 360 * 60:
            depth = effective_tenths(fire, Fraction(second + step, 60))
            if not all(depth_passes(fire, tenth) for tenth in range(tried + 1, depth + 1)):
                break
            tried, second = depth, second + step
    return divmod(second, 60)


def check_closeness(panel):
    """Holds RS and the exact failure time to the definition of a passing time, and R to RS, whose minutes it is."""
    (minutes, seconds), failure = load_time(panel), exact_failure(panel)
    time, second, soon = minutes + Fraction(seconds, 60), Fraction(1, 60), Fraction(1, 10 ** 9)
    assert load_minute(panel) == minutes and 0 <= seconds < 60 and time_passes(panel, time), panel
    if failure is None:
        assert time == 360, panel
        return
    assert time <= failure < time + second and time < 360, panel
    assert time_passes(panel, failure) and not time_passes(panel, failure + soon) and not time_passes(panel, time + second), panel


def check_load_minute(panel):
    """Holds R and RS of an accepted panel to the definition: of each fire with its own, and the printed ones."""
    for fire in fires(panel):
        minutes, seconds = scanned_time(fire)
        assert load_minute(fire) == minutes and load_time(fire) == (minutes, seconds), fire
        assert effective_depth(fire, fire_failure(fire)) * 10 == first_failing(fire) - 1, fire
        check_closeness(fire)
    check_closeness(panel)


def reserve(panel, wanted):
    """(refusal, R minus the wanted minute)"""
    refusal = panel_refusal(panel) or minute_refusal(wanted)
    return (refusal, 0) if refusal else (0, load_minute(panel) - wanted)


# ---------------------------------------------------------------- Layer times

def largest(keeps):
    """The largest whole number that keeps to a rule; every smaller number keeps to it too."""
    above = 1
    while keeps(above):
        above *= 2
    found = 0
    while above - found > 1:
        middle = (found + above) // 2
        if keeps(middle):
            found = middle
        else:
            above = middle
    return found


PARTS = 1_000  # of a minute, in which basic and layer times are kept


@cache
def basic_time(base, reference, power, root, h, parts):
    """base * (h / reference) ^ (power / root) minutes in so many parts to the minute, rounded down."""
    return largest(lambda v: v ** root * reference ** power <= (base * parts) ** root * h ** power)


# the table: its base in minutes, reference, power and root, and its first and last thickness
TABLES = {
    "gypsum_protection": (30, 150, 6, 5, 90, 250),
    "gypsum_insulation": (24, 150, 7, 5, 90, 250),
    "wood_protection": (30, 200, 11, 10, 100, 600),
    "wood_insulation": (19, 200, 7, 5, 100, 600),
    "osb_protection": (23, 200, 11, 10, 200, 400),
    "osb_insulation": (16, 200, 7, 5, 200, 400),
    "particle_board_protection": (33, 200, 11, 10, 200, 400),
    "particle_board_insulation": (22, 200, 7, 5, 200, 400),
}

MATERIALS = {ord("A"): "gypsum", ord("F"): "gypsum", ord("H"): "gypsum", ord("O"): "osb", ord("P"): "particle_board"}
LAMELLA = "wood"


def entry(table, h, parts=PARTS):
    return basic_time(*TABLES[table][:4], h, parts)


def entries(table):
    low, high = TABLES[table][4:]
    return [entry(table, h) for h in range(low, high + 1)]


def in_table(table, h):
    low, high = TABLES[table][4:]
    return low <= h <= high


def outside_table(kind, h):
    """Whether no board of a known type has this thickness."""
    return not in_table(MATERIALS[kind] + "_protection", h)


def bare_time(table, h):
    """(refusal, time) at a bare thickness: outside its table 11 for a lamella, 8 for a board."""
    if in_table(table, h):
        return 0, entry(table, h)
    return (11 if table.startswith(LAMELLA) else 8), 0


def layer_time(t, before, joint):
    """What a layer of basic time t gives behind layers that give `before` together."""
    if 2 * before <= t:
        behind = (5 * t - 3 * before) // 5
    else:
        behind = largest(lambda n: 4 * n ** 2 * before <= t ** 3)
    return behind * joint // 100


def basic_layers(panel, parts=PARTS):
    """(basic time, joint coefficient) of each layer, from the exposed side: protection, but for the last insulation."""
    thicknesses = [thickness for _, thickness in from_fire(panel)]
    layers = [(entry(MATERIALS[board.kind] + "_protection", board.thickness, parts), board.joint) for board in panel.boards]
    layers += [(entry("wood_protection", thickness, parts), 100) for thickness in thicknesses[:-1]]
    return layers + [(entry("wood_insulation", thicknesses[-1], parts), 100)]


def layer_times(panel, parts=PARTS):
    """What each layer of an accepted panel gives, from the exposed side, in one fire."""
    times = []
    for t, joint in basic_layers(panel, parts):
        times.append(layer_time(t, sum(times), joint))
    return times


def ei_sum(panel, parts=PARTS):
    """The lesser of its fires."""
    return min(sum(layer_times(fire, parts)) for fire in fires(panel))


def ei_minute(panel, parts=PARTS):
    return min(360, ei_sum(panel, parts) // parts)


GRADES = (10, 15, 20, 30, 45, 60, 90, 120, 180, 240, 360)


def grade(minute):
    """The greatest grade not above the minute, else 0."""
    return max([g for g in GRADES if g <= minute], default=0)


def rei(r, ei):
    """The grade of the lower of two minutes."""
    return grade(min(r, ei))


def minute_refusal(*minutes):
    """15 where a bare minute is above 360, or 0."""
    return 15 if any(minute > 360 for minute in minutes) else 0


def graded(minute_of, panel):
    """(refusal, grade) of one of a panel's minutes."""
    refusal = panel_refusal(panel)
    return (refusal, 0) if refusal else (0, grade(minute_of(panel)))


def load_grade(panel):
    return graded(load_minute, panel)


def ei_grade(panel):
    return graded(ei_minute, panel)


def rei_grade(panel):
    return graded(lambda panel: min(load_minute(panel), ei_minute(panel)), panel)


# ---------------------------------------------------------------- Planing

LEAST_KEPT = 100  # tenths of mm that a planed lamella keeps


def planed(panel, place, tenths):
    """The panel with so many tenths of mm taken off the lamella at that place of the record, from 1."""
    lamellae = list(panel.lamellae)
    direction, thickness = lamellae[place - 1]
    lamellae[place - 1] = (direction, thickness - tenths)
    return panel._replace(lamellae=tuple(lamellae))


def keeps_grade(panel, least):
    """Whether a panel is accepted and its REI grade is at least that one; its minutes need not be known."""
    refusal = panel_refusal(panel)
    assert refusal in (0, 13), "a planed panel meets no line but 13"
    return refusal == 0 and ei_minute(panel) >= least and time_passes(panel, least)


def places_from_fire(panel):
    """The places of the lamellae from 1, the one nearest the fire first; for face 2 nearest the first face."""
    places = list(range(1, len(panel.lamellae) + 1))
    return places[::-1] if panel.face == 1 else places


@cache
def least_cut(panel):
    """(place, tenths) of the least cut of an accepted panel that lowers its REI grade, None where no cut does."""
    _, least = rei_grade(panel)
    deepest = max(thickness for _, thickness in panel.lamellae) - LEAST_KEPT
    for tenths in range(1, deepest + 1):
        for place in places_from_fire(panel):
            if panel.lamellae[place - 1][1] - tenths >= LEAST_KEPT and not keeps_grade(planed(panel, place, tenths), least):
                return place, tenths
    return None


def planing(panel):
    """(refusal, least cut or None)."""
    refusal = panel_refusal(panel)
    return (refusal, None) if refusal else (0, least_cut(panel))


# ---------------------------------------------------------------- The card

CARD_MINUTES = (30, 60, 90, 120)


def card(panel):
    """The bytes of an accepted panel's card."""
    r, (minutes, seconds), ei = load_minute(panel), load_time(panel), ei_minute(panel)
    lines = [f"CARD {panel.version}"]
    lines += [f"CHAR {minute} {micrometres(panel, minute)} {effective_tenths(panel, minute)}" for minute in CARD_MINUTES]
    lines += [f"R {r} {grade(r)}", f"RS {minutes}:{seconds:02}", f"EI {ei} {grade(ei)}", f"REI {rei(r, ei)}"]
    return "".join(f"{line}\n" for line in lines).encode("ascii")


def refusal_text(refusal):
    return b"REFUSED %d\n" % refusal


def text_lines(record):
    """What the program `card` prints for the bytes it reads."""
    refusal, panel = decode(record)
    return refusal_text(refusal) if refusal else card(panel)


def written(text, space_length):
    """(refusal, bytes written) of a text into a lent space."""
    return (14, 0) if space_length < len(text) else (0, len(text))


def card_call(record, space_length):
    """(refusal, bytes written) of a record's card into a lent space; a refusal writes nothing."""
    refusal, panel = decode(record)
    return (refusal, 0) if refusal else written(card(panel), space_length)


def refusal_call(number, space_length):
    """(refusal, bytes written) of a refusal's line into a lent space."""
    return written(refusal_text(number), space_length)
