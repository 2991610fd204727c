"""Random panel records for comparing runs, of both versions and every face. The same seed gives the same records.

Half are within the limits of documents 01 and 02, with weight on the limits' ends; the others have a field at or past a limit, or
are damaged: cut short, made longer, one byte changed, a face byte too many or too few, or no record at all.
"""
import random
from functools import cache
from math import gcd

import peer
from peer import Board, Panel


def end_or_between(rng, low, high):
    """A number from low to high: half of the time one of the two ends or beside one."""
    if rng.random() < 0.5:
        return min(high, max(low, rng.choice([low, low + 1, high - 1, high])))
    return rng.randint(low, high)


def random_boards(rng):
    if rng.random() < 0.25:
        return (Board(rng.choice(b"OP"), end_or_between(rng, 200, 400), end_or_between(rng, 1, 100)),)
    count = rng.choice([0, 1, 1, 2, 2])
    kinds = b"F" if rng.random() < 0.4 else b"AH"
    return tuple(Board(rng.choice(kinds), end_or_between(rng, 90, 250), end_or_between(rng, 1, 100)) for _ in range(count))


def random_lamellae(rng):
    """One to nine lamellae of 100 to 600 tenths of mm, at most 4,000 together, at least one along."""
    count = end_or_between(rng, 1, 9)
    thicknesses = [end_or_between(rng, 100, 600) for _ in range(count)]
    while sum(thicknesses) > 4_000:
        i = rng.randrange(count)
        thicknesses[i] = max(100, thicknesses[i] - (sum(thicknesses) - 4_000))
    directions = [rng.randint(0, 1) for _ in range(count)]
    directions[rng.randrange(count)] = 1
    return tuple(zip(directions, thicknesses))


def greatest_moment(panel, depth=0):
    """The greatest moment at which a depth in tenths of mm passes, or 0 where there is none."""
    n, p, q, lo, hi, _ = peer.section(panel, depth)
    edge = max(p - 2 * n * lo, 2 * n * hi - p)
    factor = 22 if panel.bond == peer.LVL else 23
    return factor * panel.strength * (4 * n * q - 3 * p ** 2) // (120_000 * edge) if edge else 0


def as_lvl(panel):
    """The panel of LVL: all along, rate 65."""
    return panel._replace(bond=peer.LVL, rate=65, lamellae=tuple((1, thickness) for _, thickness in panel.lamellae))


def random_panel(rng):
    """A panel within the limits, of version 1; one in four is LVL, and half of these are about or below 20.0 mm. What panels are drawn for is
    said of their fire on the first face; see `any_face`."""
    panel = Panel(1, 0, rng.randint(0, 1), end_or_between(rng, 50, 100), rng.randint(0, 1), end_or_between(rng, 1, 400), 0, 0,
                  random_boards(rng), random_lamellae(rng))
    if peer.is_type_f(panel.boards):
        panel = panel._replace(failure_time=end_or_between(rng, peer.t_ch(panel), 360_000))
    if rng.random() < 0.25:
        panel = as_lvl(panel)
        if rng.random() < 0.5:
            panel = panel._replace(lamellae=((1, end_or_between(rng, 100, 201)),))
    return panel._replace(moment=end_or_between(rng, 0, min(1_000_000, greatest_moment(panel))))


def turned(panel):
    return panel._replace(lamellae=panel.lamellae[::-1])


def any_face(rng, panel):
    """The panel of either version and with any face, laid so that its fire, or one of its two, is the fire on the first face before."""
    version, face = rng.choice([(1, 0), (2, 0), (2, 1), (2, 1), (2, 2), (2, 2)])
    if face == peer.LAST_FACE or face == peer.EACH_ALONE and rng.random() < 0.5:
        panel = turned(panel)
    return panel._replace(version=version, face=face)


def any_record(rng, panel):
    """The record of the panel of either version and with any face."""
    return peer.encode(any_face(rng, panel))


def with_board(panel, i, **changes):
    boards = list(panel.boards)
    boards[i] = boards[i]._replace(**changes)
    return panel._replace(boards=tuple(boards))


def with_lamella(panel, i, direction, thickness):
    lamellae = list(panel.lamellae)
    lamellae[i] = (direction, thickness)
    return panel._replace(lamellae=tuple(lamellae))


def at_a_limit(rng, panel):
    """The panel with one field at a limit or one past it."""
    field = rng.choice(["version", "face", "bond", "lvl", "lvl", "gap", "rate", "strength", "moment", "carried", "failure_time", "kind", "board", "joint",
                        "lamella", "sum", "direction", "along"])
    board = rng.randrange(len(panel.boards)) if panel.boards else None
    lamella = rng.randrange(len(panel.lamellae))
    if field == "version":
        return panel._replace(version=rng.choice([0, 1, 2, 3, 255]))
    if field == "face":
        return panel._replace(face=rng.choice([0, 1, 2, 3, 255]))
    if field in ("bond", "gap"):
        return panel._replace(**{field: rng.choice([0, 1, 2, 3, 255])})
    if field == "lvl":  # as it should be, or with one thing wrong
        panel = as_lvl(panel)
        changed = rng.choice([panel, panel._replace(rate=rng.choice([49, 50, 64, 66, 100, 101])),
                              with_lamella(panel, lamella, rng.choice([0, 0, 2]), panel.lamellae[lamella][1])])
        return changed._replace(moment=min(changed.moment, greatest_moment(changed)))
    if field == "rate":
        return panel._replace(rate=rng.choice([0, 49, 50, 64, 65, 66, 100, 101, 255]))
    if field == "strength":
        return panel._replace(strength=rng.choice([0, 1, 400, 401, 65535]))
    if field == "moment":
        return panel._replace(moment=rng.choice([0, 1_000_000, 1_000_001, 2 ** 32 - 1]))
    if field == "carried":
        return panel._replace(moment=min(greatest_moment(panel) + rng.randint(0, 1), 2 ** 32 - 1))
    if field == "failure_time":
        start = max(1, peer.t_ch(panel))
        return panel._replace(failure_time=rng.choice([0, 1, start - 1, start, 360_000, 360_001]))
    if field == "kind" and board is not None:
        return with_board(panel, board, kind=rng.choice(b"AFHOPBGfhop\0\xff"))
    if field == "board" and board is not None:
        return with_board(panel, board, thickness=rng.choice([0, 89, 90, 199, 200, 250, 251, 400, 401, 65535]))
    if field == "joint" and board is not None:
        return with_board(panel, board, joint=rng.choice([0, 1, 100, 101, 255]))
    if field == "lamella":
        return with_lamella(panel, lamella, panel.lamellae[lamella][0], rng.choice([0, 99, 100, 600, 601, 65535]))
    if field == "sum":
        total = rng.choice([4_000, 4_001])
        count = rng.randint(7, 9)
        parts = [total // count + (1 if i < total % count else 0) for i in range(count)]
        return panel._replace(lamellae=tuple((rng.randint(0, 1), part) for part in parts))
    if field == "direction":
        return with_lamella(panel, lamella, rng.choice([0, 1, 2, 255]), panel.lamellae[lamella][1])
    return panel._replace(lamellae=tuple((0, thickness) for _, thickness in panel.lamellae))


@cache
def thickness_by_time(table):
    """Of each basic time in a table the thickness, in tenths of mm."""
    return {time: peer.TABLES[table][4] + i for i, time in enumerate(peer.entries(table))}


def with_layer_at_switch(panel, layer, *pasts):
    """The panel with a layer, counted from 0, so thick that 2S is past its basic time t by the first of these numbers that some thickness
    gives; None where none of them is given."""
    lamella = layer - len(panel.boards)
    if lamella < 0:
        table = peer.MATERIALS[panel.boards[layer].kind] + "_protection"
    else:
        table = "wood_insulation" if lamella == len(panel.lamellae) - 1 else "wood_protection"
    before, thicknesses = sum(peer.layer_times(panel)[:layer]), thickness_by_time(table)
    for thickness in (thicknesses.get(2 * before - past) for past in pasts):
        if thickness is not None:
            return (with_board(panel, layer, thickness=thickness) if lamella < 0 else
                    with_lamella(panel, lamella, panel.lamellae[lamella][0], thickness))
    return None


def at_switch(rng):
    """A panel without load that has a layer, but for the first, at the switch of the layer step or at most three parts of a minute from it."""
    while True:
        panel = random_panel(rng)._replace(moment=0)
        for layer in range(1, min(4, len(panel.boards) + len(panel.lamellae))):
            changed = with_layer_at_switch(panel, layer, *rng.sample(range(-3, 4), 7))
            if changed is not None and peer.panel_refusal(changed) == 0:
                return changed


def thicknesses_to(rng, total):
    """At most eight thicknesses of lamellae, in tenths of mm, with this sum; None where there are none."""
    counts = [count for count in range(1, 9) if 100 * count <= total <= 600 * count]
    if not counts:
        return None
    parts = [100] * rng.choice(counts)
    while sum(parts) < total:
        i = rng.randrange(len(parts))
        parts[i] += rng.randint(0, min(600 - parts[i], total - sum(parts)))
    return parts


def met_at_failure(rng):
    """A panel behind boards of type F that fail as the char is at a lamella's end or 25 mm past it, or a tenth of mm to either side."""
    while True:
        panel = random_panel(rng)._replace(moment=0)
        if not peer.is_type_f(panel.boards):
            continue
        start = peer.t_ch(panel)
        slow = (10_000 - 18 * panel.boards[-1].thickness) * panel.rate  # picometres in a thousandth of a minute
        step = 10 ** 8 // gcd(10 ** 8, slow)                            # times between whole tenths of mm
        times = range(step, 360_001 - start, step)
        if not times:
            continue
        time = rng.choice(times)
        above = thicknesses_to(rng, slow * time // 10 ** 8 - rng.choice([0, 0, 250]) + rng.choice([-1, 0, 0, 1]))
        if above is None:
            continue
        lamellae = tuple((rng.randint(panel.bond == peer.LVL, 1), thickness) for thickness in above)
        lamellae = (lamellae + ((1, panel.lamellae[0][1]),) + panel.lamellae[1:])[:9]
        if peer.thickness_of(lamellae) <= 4_000:
            return panel._replace(failure_time=start + time, lamellae=lamellae)


def failing_past_lines(rng):
    """A panel of `met_at_failure` that fails within two hours after its boards."""
    while True:
        panel = met_at_failure(rng)
        failing = failing_at(rng, panel, min(360, panel.failure_time // 1_000 + rng.randint(0, 120)))
        if failing:
            return failing


def soon_failing(rng, panel):
    """The panel; behind type F the boards fail at t_ch or within the hour after."""
    if not peer.is_type_f(panel.boards):
        return panel
    start = peer.t_ch(panel)
    return panel._replace(failure_time=start + rng.choice([0, 1, rng.randint(0, 60_000), 1_000 * rng.randint(1, 60)]))


def failing_at(rng, panel, minute):
    """The panel with the moment that the depth of a minute carries just so, or one more; None where depth 0 does not carry that."""
    moment = greatest_moment(panel, peer.effective_tenths(panel, minute)) + rng.choice([0, 0, 1])
    return panel._replace(moment=moment) if 1 < moment <= min(1_000_000, greatest_moment(panel)) else None


def failing_about(rng):
    """A panel that fails about a minute from 0 to 360."""
    while True:
        minute = end_or_between(rng, 0, 360) if rng.random() < 0.2 else rng.randint(0, 360)
        panel = soon_failing(rng, random_panel(rng)) if rng.random() < 0.5 else random_panel(rng)
        failing = failing_at(rng, panel, minute)
        if failing:
            return failing


def recovering(rng):
    """A panel with a depth that carries less than a deeper one does, and a moment between the two or beside the lesser."""
    while True:
        panel = random_panel(rng)
        bottom = 0
        for direction, thickness in panel.lamellae[:-1]:
            bottom += thickness
            # the last depth at which what is left of the lamella counts, and the next
            least, next_one = (greatest_moment(panel, bottom - 30 + more) for more in (0, 1))
            if direction == 1 and least + 1 < min(next_one, 1_000_000, greatest_moment(panel)):
                most = min(next_one, 1_000_000, greatest_moment(panel))
                return panel._replace(moment=rng.choice([least, least + 1, rng.randint(least + 1, most)]))


def failing_at_once(rng):
    """A panel that carries at depth 0 little more than its moment."""
    panel = random_panel(rng)
    most = min(1_000_000, greatest_moment(panel))
    return panel._replace(moment=rng.randint(most - most // 10, most))


def thin_panel(rng):
    """A panel of at most four lamellae of 10 to 30 mm, of which few cuts can be taken: under any load, or failing about a grade's minute."""
    panel = soon_failing(rng, random_panel(rng))
    lamellae = tuple((direction, rng.choice([100, 101, rng.randint(100, 300)])) for direction, _ in panel.lamellae[-4:])
    if not any(direction for direction, _ in lamellae):
        lamellae = ((1, lamellae[0][1]),) + lamellae[1:]
    panel = panel._replace(lamellae=lamellae)
    failing = failing_at(rng, panel, rng.choice(peer.GRADES[:8]))
    return failing if failing and rng.random() < 0.7 else panel._replace(moment=int(greatest_moment(panel) * rng.random() ** 2))


def with_length(record):
    """The record with its own length in the length field."""
    return len(record).to_bytes(2, "big") + record[2:]


def patched(record, at, byte):
    return record[:at] + bytes([byte]) + record[at + 1:]


def damaged(rng, record):
    """The record cut short, made longer, with a byte changed, put in or taken out, or something else in its place."""
    more = peer.face_bytes(record[2])
    way = rng.randrange(13)
    if way == 0:
        return record[:rng.randrange(len(record))]
    if way == 1:
        return with_length(record[:rng.randrange(2, len(record))])
    if way == 2:
        return record + rng.randbytes(rng.randint(1, 40))
    if way == 3:
        return with_length(record + rng.randbytes(rng.randint(1, 40)))
    if way == 4:
        return patched(record, rng.randrange(len(record)), rng.randrange(256))
    if way == 5:  # the count of boards or of lamellae changed
        return patched(record, rng.choice([12, 17 + 4 * record[12 + more]]) + more, rng.choice([0, 1, 2, 3, 9, 10, 255]))
    if way == 6:
        return rng.randbytes(rng.randint(0, 128))
    if way == 7:
        return with_length(b"\0\0" + rng.choice([b"\1", b"\2\0", b"\2\1", b"\2\2"]) + rng.randbytes(rng.randint(18, 50)))
    if way == 8:  # one byte off, the length field right
        return with_length(rng.choice([record[:-1], record + rng.randbytes(1)]))
    if way == 9:
        return patched(record, 2, rng.choice([0, 1, 2, 3, 255]))
    if way == 10:  # where version 2 has its face, and version 1 its bond
        return patched(record, 3, rng.choice([0, 1, 2, 3, 4, 255]))
    if way == 11:  # fewer than any record has, or none
        return rng.randbytes(rng.choice([0, 0, 1, 20]))
    # a face byte in version 1, or none in version 2
    return with_length(record[:3] + record[4:] if more else record[:3] + bytes([rng.randrange(4)]) + record[3:])


def random_record(rng):
    """The bytes of one record, within the limits, at a limit or damaged. At most 128 bytes."""
    panel = any_face(rng, random_panel(rng))
    if rng.random() < 0.5:
        return peer.encode(panel)
    if rng.random() < 0.5:
        return peer.encode(at_a_limit(rng, panel))
    return damaged(rng, peer.encode(panel))[:128]


def records(seed, count):
    rng = random.Random(seed)
    return [random_record(rng) for _ in range(count)]


if __name__ == "__main__":
    from collections import Counter
    print(sorted(Counter(peer.decode(record)[0] for record in records(1, 20_000)).items()))
    rng = random.Random(1)
    for panels in (random_panel, failing_about, failing_at_once, recovering, failing_past_lines):
        print(panels.__name__, sorted(Counter(peer.load_minute(panels(rng)) // 30 * 30 for _ in range(300)).items()))
