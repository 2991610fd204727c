"""make_cases.py REPOSITORY: writes what the test program and the programs that print cards read and must print, from one list of cases.

What a program must print is worked out by peer.py, never by the program itself.
"""
import os
import shutil
from functools import cache
from itertools import accumulate

import needs
import peer
import programs
from peer import ACROSS, ALONG, EACH_ALONE, FIRST_FACE, LAST_FACE, LVL, Board, G, Panel
from programs import raw
from random_records import greatest_moment, with_lamella, with_layer_at_switch

A, F, H, O, P = b"AFHOP"

# ---------------------------------------------------------------- Panels

# The document's panel that recovers: 10 along, 60 across, 60 along.
RECOVERS = G._replace(moment=15_000, lamellae=((ALONG, 100), (ACROSS, 600), (ALONG, 600)))
# The same turned round: the far edge is the outer one.
TURNED = RECOVERS._replace(lamellae=RECOVERS.lamellae[::-1])
# 400 mm, all along: it carries more than the greatest moment allowed.
THICK = G._replace(strength=400, moment=1_000_000, lamellae=((ALONG, 500),) * 8)
# 20 along, 30 across, 40 along: its lesser R is that of the fire on the last face, its lesser EI that of the fire on the first.
WALL = G._replace(moment=5_000, lamellae=((ALONG, 200), (ACROSS, 300), (ALONG, 400)))
# The shortest and the longest record of version 1; version 2 has a byte more.
SHORTEST = G._replace(moment=100, lamellae=((ALONG, 100),))
LONGEST = G._replace(boards=(Board(A, 125, 100), Board(H, 150, 95)), lamellae=((ALONG, 200), (ACROSS, 300)) * 4 + ((ALONG, 200),))


def faced(panel, face):
    """The panel in record version 2, with a face."""
    return panel._replace(version=2, face=face)


def with_first_lamella(panel, direction, thickness):
    return panel._replace(lamellae=((direction, thickness),) + panel.lamellae[1:])


def summing_to(total):
    """Nine lamellae along, with this sum."""
    return G._replace(moment=0, lamellae=((ALONG, 450),) * 8 + ((ALONG, total - 3_600),))


def clad(*boards, failure_time=0, gap=0):
    return G._replace(boards=boards, failure_time=failure_time, gap=gap)


def one(kind=A, thickness=125, joint=100, **more):
    return clad(Board(kind, thickness, joint), **more)


def two(outer, inner, **more):
    return clad(Board(outer, 125, 100), Board(inner, 125, 100), **more)


# ---------------------------------------------------------------- Bytes

# In version 1; in version 2 the face is at 3 and what follows one place further.
VERSION, BOND, RATE, GAP, STRENGTH, MOMENT, BOARDS, GIVEN_TIME, FIRST_BOARD = 2, 3, 4, 5, 6, 8, 12, 13, 17
FACE = 3
# No record: refused, so that a blank panel stands for it. No byte at all is one.
ONE_BYTE = bytes(1)


def with_length(record):
    return len(record).to_bytes(2, "big") + record[2:]


def patched(record, at, *new):
    return record[:at] + bytes(new) + record[at + len(new):]


g = peer.encode(G)
g_each = peer.encode(faced(G, EACH_ALONE))
board_record = peer.encode(one())
lamella_count_at = 17  # in a record without boards

# ---------------------------------------------------------------- Cases


def panel_cases():
    """(panel, text): panels that a record can hold, whether accepted or refused."""
    yield G, "G"
    for bond in (1, 3, 255):
        yield G._replace(bond=bond), f"bond {bond}"
    for gap in (1, 2, 255):
        yield G._replace(gap=gap), f"gap {gap}"
    for rate in (0, 49, 50, 100, 101, 255):
        yield G._replace(rate=rate), f"rate {rate}"
    for strength in (0, 1, 400, 401, 65_535):
        yield G._replace(strength=strength, moment=100), f"strength {strength:,}"
    for moment in (1_000_000, 1_000_001, 2 ** 32 - 1):
        yield THICK._replace(moment=moment), f"400 mm along, moment {moment:,}"
    for moment in (0, 43_056, 43_057):
        yield G._replace(moment=moment), f"G, moment {moment:,}"
    for name, panel in (("the panel that recovers", RECOVERS), ("that panel turned", TURNED)):
        most = greatest_moment(panel)
        for moment in (most, most + 1):
            yield panel._replace(moment=moment), f"{name}, moment {moment:,}"
    yield one()._replace(moment=43_057), "G under one board, moment 43,057"
    yield SHORTEST._replace(moment=1_000_000), "the shortest record, moment 1,000,000"
    yield from board_cases()
    yield from wood_board_cases()
    yield from failure_time_cases()
    yield from lamella_cases()
    yield from lvl_cases()


def board_cases():
    for kind in (A, F, H):
        yield one(kind, failure_time=21_000 if kind == F else 0), f"one board of type {chr(kind)}"
    for kind, name in ((ord("B"), "B"), (ord("a"), "small a"), (0, "0"), (255, "255")):
        yield one(kind), f"one board of type {name}"
    for outer, inner in ((A, A), (H, H), (A, H), (H, A), (F, A), (A, F), (F, H), (H, F)):
        yield two(outer, inner), f"{chr(outer)} over {chr(inner)}"
    yield two(F, F, failure_time=49_000), "F over F"
    yield two(A, ord("B")), "unknown type under A"
    yield two(ord("Q"), A), "unknown type over A"
    for thickness in (0, 89, 90, 250, 251, 65_535):
        yield one(thickness=thickness), f"board {thickness:,}"
        yield clad(Board(H, 125, 100), Board(A, thickness, 100)), f"inner board {thickness:,}"
    for joint in (0, 1, 100, 101, 255):
        yield one(joint=joint), f"coefficient {joint}"
        yield clad(Board(H, 125, joint), Board(A, 125, 100)), f"outer coefficient {joint}"


def wood_board_cases():
    for kind in (O, P):
        name = chr(kind)
        for thickness in (0, 90, 199, 200, 201, 250, 251, 399, 400, 401, 65_535):
            yield one(kind, thickness), f"{name} of {thickness:,}"
        yield one(kind, 300, gap=1), f"{name}, wide gap"
        for joint in (0, 1, 100, 101):
            yield one(kind, 300, joint), f"{name}, coefficient {joint}"
        for time in (1, peer.t_ch(one(kind, 300)), 360_000):
            yield one(kind, 300, failure_time=time), f"{name}, given {time:,}"
        for other in (A, F, H, O, P):
            yield clad(Board(kind, 225, 100), Board(other, 225, 100)), f"{name} over {chr(other)}, both of 225"
        for other in (A, F, H):
            yield clad(Board(other, 225, 100), Board(kind, 225, 100)), f"{chr(other)} over {name}, both of 225"
    yield one(ord("o"), 300), "small o"
    yield one(ord("p"), 300), "small p"


def failure_time_cases():
    """Around t_ch and 360,000 behind type F; above 0 behind others."""
    for name, panel in (("one F", one(F)), ("one F 9.0, wide gap", one(F, 90, gap=1)), ("two F", two(F, F)),
                        ("two F, wide gap", two(F, F, gap=1)),
                        ("F 25.0 over F 9.0", clad(Board(F, 250, 100), Board(F, 90, 100)))):
        start = peer.t_ch(panel)
        for time in (0, start - 1, start, 360_000, 360_001, 2 ** 32 - 1):
            yield panel._replace(failure_time=time), f"{name}, given {time:,}"
    for name, panel in (("unclad", G), ("A", one(A)), ("H", one(H)), ("A over H", two(A, H))):
        for time in (1, peer.t_ch(panel), 2 ** 32 - 1):
            if time:
                yield panel._replace(failure_time=time), f"{name}, given {time:,}"


def lamella_cases():
    for thickness in (0, 99, 100, 600, 601, 65_535):
        yield with_first_lamella(G, ALONG, thickness), f"first lamella {thickness:,}"
        yield G._replace(lamellae=G.lamellae[:2] + ((ALONG, thickness),)), f"last lamella {thickness:,}"
    for direction in (2, 255):
        yield with_first_lamella(G, direction, 300), f"direction {direction}"
    yield summing_to(4_000), "sum 4,000"
    yield summing_to(4_001), "sum 4,001"
    yield G._replace(moment=0, lamellae=((ALONG, 600),) * 9), "nine of 600"
    yield G._replace(lamellae=((ACROSS, 300),) * 3), "none along"
    yield G._replace(lamellae=((ACROSS, 300),)), "one lamella, across"
    yield G._replace(lamellae=((ACROSS, 300),) * 8 + ((ALONG, 300),)), "only the last along"
    yield SHORTEST, "the shortest record"
    yield LONGEST, "the longest record"
    yield RECOVERS, "the panel that recovers"
    yield G._replace(lamellae=((ALONG, 444),) * 9, strength=400, moment=1_000_000), "nine along, moment 1,000,000"


def lvl(*thicknesses, **more):
    """Bare LVL of lamellae along, in tenths of mm, with no moment where none is given."""
    return G._replace(**{"bond": LVL, "moment": 0, "lamellae": tuple((ALONG, thickness) for thickness in thicknesses), **more})


# The LVL floor of two lamellae of 30.0 mm, f 400, and one thin panel.
LVL_FLOOR = lvl(300, 300, strength=400, moment=3_000)
LVL_THIN = lvl(150, strength=400, moment=100)


def lvl_accepted():
    """(panel, text): bare and behind each kind of board; β is 65 from 20.0 mm on, of the whole panel."""
    yield LVL_FLOOR, "LVL 30.0 and 30.0, exact 654/13"
    yield LVL_THIN, "LVL 15.0, rate 76, exact 1,130/111"
    yield LVL_THIN._replace(bond=0), "CLT 15.0, rate 65"
    yield lvl(150, 150, strength=400, moment=100), "LVL 15.0 and 15.0, rate 65"
    yield lvl(100, strength=400, moment=100), "LVL 10.0, rate 92"
    yield lvl(199, strength=400, moment=1_000), "LVL 19.9, rate 66"
    yield lvl(200, strength=400, moment=1_000), "LVL 20.0, rate 65"
    for boards, failure_time in ((((A, 125),), 0), (((H, 90),), 0), (((F, 125),), 41_000), (((A, 125), (H, 95)), 0),
                                 (((F, 125), (F, 90)), 50_000), (((O, 200),), 0), (((P, 225),), 0)):
        name = " over ".join(chr(kind) for kind, _ in boards)
        for panel, text in ((LVL_FLOOR, "LVL 30.0 and 30.0"), (LVL_THIN, "LVL 15.0")):
            yield behind(panel, *boards, failure_time=failure_time), f"{text} behind {name}"
    yield behind(LVL_THIN, (A, 90), gap=1), "LVL 15.0 behind A, wide gap"
    yield behind(lvl(120, 150, 400, strength=400, moment=2_000), (F, 125), failure_time=61_000), "LVL behind F, charred past its first lamellae at t_f"
    yield LVL_FLOOR._replace(moment=greatest_moment(LVL_FLOOR)), "LVL 30.0 and 30.0, as much as depth 0 carries"
    yield lvl(444, 444, 444, 444, 444, 444, 444, 444, 444, moment=100_000), "LVL, nine lamellae"


def lvl_faces():
    """(panel, text): in record version 2."""
    for panel, text in ((LVL_FLOOR, "LVL 30.0 and 30.0"), (LVL_THIN, "LVL 15.0"),
                        (lvl(200, 100, 300, strength=400, moment=2_000), "LVL 20.0, 10.0 and 30.0"),
                        (behind(lvl(300, 120, strength=400, moment=500), (F, 125), failure_time=41_000), "LVL 30.0 and 12.0 behind F")):
        for face in (FIRST_FACE, LAST_FACE, EACH_ALONE):
            yield faced(panel, face), f"{text}, face {face}"


def lvl_refused():
    """(panel, text): line 17, and what comes before and after it."""
    for place in range(3):
        lamellae = tuple((ACROSS if place == i else ALONG, 300) for i in range(3))
        yield lvl(lamellae=lamellae), f"LVL, lamella {place + 1} of 3 across, meets 17"
    yield lvl(lamellae=((ACROSS, 150),)), "LVL, one lamella across, so 17 before 12"
    for rate in (50, 64, 66, 100):
        yield LVL_FLOOR._replace(rate=rate), f"LVL, rate {rate}, meets 17"
    yield LVL_THIN._replace(rate=76), "LVL 15.0, its own rate in the record, meets 17"
    yield LVL_FLOOR._replace(rate=66, moment=1_000_000), "LVL, rate 66, so 17 before 13"
    yield lvl(lamellae=((ACROSS, 300), (ALONG, 300)), moment=1_000_000), "LVL, a lamella across, so 17 before 13"
    yield LVL_FLOOR._replace(rate=40), "LVL, rate 40, meets 4"
    yield LVL_FLOOR._replace(rate=101, lamellae=((ACROSS, 300),)), "LVL, rate 101 and a lamella across, meets 4"
    yield lvl(lamellae=((ACROSS, 99),)), "LVL, a lamella of 9.9 mm across, meets 11"
    yield lvl(lamellae=((2, 300), (ACROSS, 300))), "LVL, direction 2, meets 11"
    yield LVL_FLOOR._replace(moment=greatest_moment(LVL_FLOOR) + 1), "LVL 30.0 and 30.0, more than depth 0 carries, meets 13"
    yield LVL_FLOOR._replace(bond=0, moment=greatest_moment(LVL_FLOOR) + 1), "CLT of the same lamellae and load"
    yield LVL_FLOOR._replace(bond=3), "bond 3, all along"


def lvl_cases():
    """(panel, text)"""
    yield from lvl_accepted()
    yield from lvl_faces()
    yield from lvl_refused()


def length_cases():
    """(record, text): lengths, counts and version."""
    yield b"", "no byte, so G: its record is written, not none"
    for length in (1, 2, 3, 20):
        yield with_length(g)[:length], f"cut to {length} bytes"
    for length in (1, 20, 21):
        yield bytes(length), f"{length} zeros"
    yield bytes([255]), "one byte of 255"
    yield with_length(peer.encode(SHORTEST)[:20]), "cut to 20 bytes, length field 20"
    yield peer.encode(SHORTEST), "21 bytes"
    yield with_length(peer.encode(SHORTEST) + b"\0"), "22 bytes, version 1"
    yield peer.encode(LONGEST), "53 bytes"
    yield peer.encode(LONGEST) + b"\0", "54 bytes, length field 53"
    yield with_length(peer.encode(LONGEST) + b"\0"), "54 bytes, length field 54"
    yield with_length(peer.encode(LONGEST) + b"\0\0"), "55 bytes, length field 55"
    yield g[:-1], "one byte short, length field of the whole"
    yield with_length(g[:-1]), "one byte short, length field right"
    yield g + b"\0", "one byte more, length field of the record"
    yield with_length(g + b"\0"), "one byte more, length field right"
    yield with_length(g + bytes([ALONG, 1, 44])), "one lamella more than counted"
    yield with_length(g + bytes(75)), "102 bytes, length field right"
    yield g + bytes(100), "127 bytes"
    yield patched(g, 0, 1), "length field with a high byte"
    yield patched(g, 0, 0, 0), "length field 0"
    yield bytes([0, 21]) + bytes(19), "zeros behind the length"
    yield bytes([255] * 30), "thirty bytes of 255"
    for version in (0, 3, 255):
        yield patched(g, VERSION, version), f"version {version}"
    yield patched(g, VERSION, 2), "version 2 without its face byte"
    yield from board_count_cases()
    yield from lamella_count_cases()


def board_count_cases():
    for count in (3, 4, 255):
        yield patched(peer.encode(LONGEST), BOARDS, count), f"{count} boards counted"
    yield patched(g, BOARDS, 1), "one board counted, none there"
    yield patched(board_record, BOARDS, 0), "no board counted, one there"
    for length in (21, 24, 25):
        yield with_length(patched(g, BOARDS, 1)[:length]), f"one board counted in {length} bytes"
    for length in (21, 28):
        yield with_length(patched(peer.encode(two(A, A)), BOARDS, 2)[:length]), f"two boards counted in {length} bytes"
    # X 9.0 over A 0.9, one lamella: 28 bytes, where two boards and a lamella need 29
    short = clad(Board(ord("X"), 90, 100), Board(A, 9, 100))._replace(moment=0, lamellae=((ALONG, 100),))
    yield with_length(peer.encode(short)[:28]), "two boards, unknown type, one byte short"


def lamella_count_cases():
    for count in (0, 1, 2, 4, 10, 255):
        yield patched(g, lamella_count_at, count), f"{count} lamellae counted, three there"
    yield with_length(patched(peer.encode(SHORTEST), lamella_count_at, 0)), "no lamella counted, one there"
    for count in (8, 10):
        yield patched(peer.encode(G._replace(lamellae=((ALONG, 300),) * 9)), lamella_count_at, count), f"{count} counted, nine there"
    yield peer.encode(G._replace(lamellae=((ALONG, 300),) * 10)), "ten lamellae"
    yield peer.encode(G._replace(lamellae=())), "no lamella"
    for panel, text in ((one(), "a board"), (two(A, H), "two boards")):
        yield peer.encode(panel._replace(lamellae=())), f"{text} and no lamella"
    bare = G._replace(moment=0, lamellae=((ALONG, 100),))
    yield patched(peer.encode(bare), lamella_count_at, 2), "two lamellae counted, one there"
    yield patched(peer.encode(bare._replace(failure_time=1)), lamella_count_at, 2), "two lamellae counted, one there, given 1, unclad"


def reading_cases():
    """(panel, text): panels on which the document can be read two ways; for the record all are accepted."""
    thin = ((ALONG, 100), (ACROSS, 300), (ALONG, 300))
    yield Panel(1, 0, 0, 100, 1, 240, 2_799, 0, (Board(H, 155, 1),), ((ACROSS, 146), (ALONG, 400), (ACROSS, 101))), "layer step rounded as a whole"
    yield Panel(1, 0, 1, 65, 0, 240, 3, 0, (Board(H, 148, 80), Board(A, 179, 80)), ((ACROSS, 165), (ALONG, 144), (ACROSS, 122))), "two roundings in a layer"
    yield Panel(1, 0, 1, 50, 0, 400, 0, 0, (Board(H, 150, 1),), ((ALONG, 400), (ACROSS, 100))), "coefficient 1, rounded twice"
    yield Panel(1, 0, 1, 80, 0, 240, 500, 41_000, (Board(F, 125, 100),), ((ALONG, 124),) + thin[1:]), "bond line reached as the board fails"
    yield Panel(1, 0, 1, 80, 0, 240, 500, 71_000, (Board(F, 125, 100),), ((ALONG, 310),) + thin[1:]), "25 mm charred before the board fails"
    yield Panel(1, 0, 0, 65, 0, 240, 500, 11_200, (Board(F, 90, 100),), ((ALONG, 600),)), "F fails as charring starts"
    yield Panel(1, 0, 1, 65, 0, 240, 500, 0, (Board(A, 125, 100),), thin), "bond line before the first run ends"
    yield Panel(1, 0, 0, 100, 1, 240, 0, 360_000, (Board(F, 90, 100),), ((ALONG, 100),)), "charred through before the board fails"


def order_cases():
    """(record, text): two faults, of which the line further up is said."""
    no_fault = one(F, failure_time=21_000)
    yield patched(g[:-1], VERSION, 3), "length and version"
    yield patched(g, VERSION, 3, 3), "version and bond"
    yield patched(g_each[:-1], FACE, 3), "length and face"
    yield patched(g_each, VERSION, 3, 3), "version and face"
    yield patched(g_each, FACE, 3, 3), "face and bond"
    yield patched(g, BOND, 3, 49), "bond and rate"
    yield patched(g, RATE, 49, 2), "rate and gap"
    yield peer.encode(G._replace(rate=101, strength=0)), "rate and strength"
    yield peer.encode(G._replace(rate=101, moment=1_000_001)), "rate and moment"
    yield patched(peer.encode(G._replace(strength=401)), BOARDS, 3), "strength and board count"
    yield patched(peer.encode(one(ord("B"))), BOARDS, 3), "board count and type"
    yield peer.encode(one(ord("B"), thickness=89)), "type and board thickness"
    yield peer.encode(clad(Board(A, 89, 100), Board(F, 125, 100))), "board thickness and pair of types"
    yield peer.encode(one(F, thickness=251, failure_time=360_001)), "board thickness and failure time"
    yield peer.encode(one(F, joint=0)), "coefficient and failure time"
    yield patched(peer.encode(no_fault._replace(failure_time=20_999)), 21, 10), "failure time and lamella count"
    yield with_length(peer.encode(G._replace(failure_time=1)) + b"\0"), "failure time and length of the lamellae"
    yield patched(peer.encode(with_first_lamella(G, ALONG, 99)), lamella_count_at, 2), "lamella count and thickness"
    yield peer.encode(G._replace(lamellae=((ACROSS, 99),))), "lamella thickness and none along"
    yield peer.encode(G._replace(lamellae=((ACROSS, 500),) * 9)), "sum and none along"
    yield peer.encode(G._replace(moment=1_000_000, lamellae=((ACROSS, 300),))), "none along and section"
    yield peer.encode(G._replace(moment=1_000_000, lamellae=((ALONG, 601),))), "lamella thickness and section"
    yield peer.encode(G._replace(bond=3, moment=43_057)), "bond and section"
    yield peer.encode(clad(Board(O, 199, 100), Board(A, 89, 100))), "O beside A, both too thin"
    yield peer.encode(one(O, 401, failure_time=1)), "O too thick, given 1"


def version_cases():
    """(record, text): version 2, whose records are a byte longer."""
    for face in (0, 1, 2, 3, 255):
        yield patched(g_each, FACE, face), f"G, version 2, face {face}"
    for version in (0, 1, 3):
        yield patched(g_each, VERSION, version), f"version {version} with a face byte"
    shortest, longest = (peer.encode(faced(panel, EACH_ALONE)) for panel in (SHORTEST, LONGEST))
    yield with_length(shortest[:21]), "21 bytes, version 2"
    yield shortest, "22 bytes, version 2"
    yield with_length(longest[:53]), "53 bytes, version 2"
    yield longest, "54 bytes, version 2"
    yield longest + b"\0", "55 bytes, version 2, length field 54"
    yield with_length(longest + b"\0"), "55 bytes, version 2, length field 55"
    yield with_length(g_each[:-1]), "version 2, one byte short, length field right"
    yield with_length(g_each + b"\0"), "version 2, one byte more, length field right"
    for length in (25, 26):
        yield with_length(patched(g_each, BOARDS + 1, 1)[:length]), f"version 2, one board counted in {length} bytes"
    for count in (0, 2, 4):
        yield patched(g_each, lamella_count_at + 1, count), f"version 2, {count} lamellae counted, three there"
    for panel, text in (
            (G._replace(bond=3), "bond 3"), (G._replace(bond=LVL), "LVL with a lamella across"), (G._replace(rate=101), "rate 101"),
            (G._replace(strength=401), "strength 401"),
            (two(F, A), "F over A"), (one(joint=0), "coefficient 0"), (G._replace(failure_time=1), "given 1"),
            (with_first_lamella(G, 2, 300), "direction 2"), (G._replace(lamellae=((ACROSS, 300),) * 3), "none along"),
            (TURNED._replace(moment=greatest_moment(TURNED) + 1), "depth 0 fails")):
        yield peer.encode(faced(panel, LAST_FACE)), f"face 1, {text}"


def wall_panels():
    """(panel, text): panels that lie otherwise to each fire, clad and unclad, with bonds that fall and that hold; and G, which does not."""
    yield WALL, "wall"
    yield falls(WALL, 80), "wall falling"
    yield behind(WALL, (A, 125)), "wall behind A"
    yield falls(behind(WALL, (A, 125)), 65), "wall behind A, falling"
    yield falls(behind(WALL, (F, 125), failure_time=41_000), 80), "wall behind F, falling"
    yield behind(WALL, (H, 125), (A, 95)), "wall behind H over A"
    yield falls(behind(WALL, (O, 200)), 65), "wall behind O, falling"
    yield RECOVERS, "the panel that recovers"
    yield (behind(G._replace(moment=8_000, lamellae=((ALONG, 500), (ACROSS, 200))), (F, 125), failure_time=41_000),
           "two lamellae behind F, lesser R from the first face, lesser EI from the last")
    yield thickening(), "nine lamellae behind two F, falling"
    yield G, "G, the same from both faces"


def thickening():
    """Nine lamellae, along and across by turns, of 10 to 50 mm; its record is as long as can be."""
    lamellae = tuple(((i + 1) % 2, 100 + 50 * i) for i in range(9))
    return falls(behind(G._replace(lamellae=lamellae), (F, 125), (F, 125), failure_time=60_000), 65)


def wall_records(*faces):
    """(record, text)"""
    for panel, text in wall_panels():
        for face in faces:
            yield peer.encode(faced(panel, face)), f"{text}, face {face}"


def letter_cases():
    """(panel, text): each byte as the letter of a lone board of 20.0 mm, which is a thickness of every type; F has its time."""
    for letter in range(256):
        yield one(letter, 200, failure_time=peer.t_ch(one(F, 200)) if letter == F else 0), f"letter {letter:02x}"


def record_cases():
    for panel, text in panel_cases():
        yield peer.encode(panel), text
    for panel, text in letter_cases():
        yield peer.encode(panel._replace(lamellae=((ALONG, 300),))), text
    yield from length_cases()
    yield from version_cases()
    for panel, text in reading_cases():
        yield peer.encode(panel), text
    yield from order_cases()


def write_cases():
    """(space, record, text)"""
    for name, panel in (("G", G), ("the shortest", SHORTEST), ("the longest", LONGEST), ("two F", two(F, F, failure_time=49_000)),
                        ("400 mm along", THICK)):
        record = peer.encode(panel)
        for space in (0, len(record) - 1, len(record), len(record) + 1, 64):
            yield space, record, f"{name}, {len(record)} bytes into {space}"
    for name, panel, spaces in (("the shortest", faced(SHORTEST, FIRST_FACE), (21, 22)),
                                ("the longest", faced(LONGEST, EACH_ALONE), (53, 54, 64)),
                                ("the wall behind F", faced(behind(WALL, (F, 125), failure_time=41_000), LAST_FACE), (31, 32))):
        record = peer.encode(panel)
        for space in spaces:
            yield space, record, f"{name} of version 2, face {panel.face}, {len(record)} bytes into {space}"
    for space in (0, 20, 21, 64):
        yield space, ONE_BYTE, f"one byte, so a blank panel into {space}"
    yield 64, peer.encode(G._replace(moment=43_057)), "a refused record, so a blank panel"
    for space in (0, 26, 27, 28, 64):
        yield space, b"", f"no byte, so G, 27 bytes into {space}"
    for panel, text in reading_cases():
        yield 64, peer.encode(panel), text
    yield 64, peer.encode(faced(LVL_THIN, EACH_ALONE)), "LVL 15.0, whose record gives rate 65"


def section_cases():
    """(depth, record, text)"""
    for depth in (0, 1, 270, 271, 300, 699, 700, 701, 970, 971, 999, 1000, 1001, 2 ** 32 - 1):
        yield depth, g, f"G at {depth:,}"
    for depth in (0, 1):
        yield depth, peer.encode(G._replace(moment=43_056)), f"G, moment 43,056, at {depth}"
    yield 0, peer.encode(G._replace(moment=43_057)), "a refused record, so a blank panel"
    yield 700, b"", "no byte, so G, at 700"
    for depth in (0, 69, 70, 71, 99, 100, 700, 701, 1270, 1271):
        yield depth, peer.encode(RECOVERS), f"the panel that recovers at {depth:,}"
    turned = TURNED._replace(moment=greatest_moment(TURNED))
    for depth in (0, 1, 570, 571, 1_200, 1_270, 1_271):
        yield depth, peer.encode(turned), f"that panel turned, at {depth:,}"
    for depth in (0, 570, 571, 1_270, 1_271):
        yield depth, peer.encode(faced(RECOVERS, LAST_FACE)), f"the panel that recovers, face 1, at {depth:,}"
    for depth in (70, 71, 1_270):
        yield depth, peer.encode(faced(RECOVERS, EACH_ALONE)), f"the panel that recovers, face 2, at {depth:,}"
    for depth in (0, 700, 970, 971, 1000):
        yield depth, peer.encode(G._replace(moment=0)), f"G, moment 0, at {depth:,}"
    for depth in (0, 500, 2_000, 3_970, 3_971, 4_000, 4_001):
        yield depth, peer.encode(THICK), f"400 mm along at {depth:,}"
    for depth in (0, 70, 71, 100):
        yield depth, peer.encode(SHORTEST), f"10 mm along at {depth}"
    across_first = G._replace(lamellae=((ACROSS, 200), (ALONG, 400), (ACROSS, 200)))
    for depth in (0, 200, 201, 570, 571, 799):
        yield depth, peer.encode(across_first), f"20 across, 40 along, 20 across at {depth}"
    for depth in (0, 170, 171, 500, 2_170, 2_171):
        yield depth, peer.encode(LONGEST), f"nine lamellae at {depth:,}"
    for panel, text in reading_cases():
        yield 71, peer.encode(panel), f"{text}, at 71"
    for panel, text in lvl_sections():
        for depth in (0, 1, 397, 398, 399, 405, 406, 570, 571, 600):
            yield depth, peer.encode(panel), f"{text} at {depth}"
    yield from end_cases()


def lvl_sections():
    """(panel, text): the last depth that carries is less deep than that of CLT."""
    yield LVL_FLOOR, "LVL 30.0 and 30.0"
    yield LVL_FLOOR._replace(bond=0), "CLT of the same lamellae and load"
    yield LVL_FLOOR._replace(moment=greatest_moment(LVL_FLOOR)), "LVL 30.0 and 30.0, as much as depth 0 carries,"


def carried_cases():
    """(depth, record, text)"""
    yield from end_cases()
    yield 0, g, "G at 0"
    for depth in (1_001, 2 ** 32 - 1):
        yield depth, g, f"G at {depth:,}, past its thickness"
    for depth in (570, 1_301):
        yield depth, peer.encode(faced(RECOVERS, EACH_ALONE)), f"the panel that recovers, face 2, at {depth:,}"
    yield 71, peer.encode(G._replace(moment=43_057)), "a refused record, so a blank panel"


def end_cases():
    """(depth, record, text): in either fire."""
    for panel, text in end_panels():
        for fire in (faced(panel, FIRST_FACE), faced(panel, LAST_FACE)):
            for depth in about_ends(fire):
                yield depth, peer.encode(fire), f"{text}, face {fire.face}, at {depth:,}"


def end_panels():
    """(panel, text): one lamella; two, the last across; nine of 10 to 60 mm, 400 mm together, the first across, two along and two across
    side by side. Some of the depths about their ends pass in either fire, and some do not."""
    yield plate(100)._replace(moment=41), "one"
    yield crossed(40, 20)._replace(moment=41), "two"
    yield G._replace(moment=30_480, lamellae=(
        (ACROSS, 100), (ALONG, 600), (ALONG, 263), (ACROSS, 600), (ACROSS, 537), (ALONG, 100), (ACROSS, 600), (ALONG, 600),
        (ALONG, 600))), "nine"


def about_ends(fire):
    """The depths about every lamella end: with 3.0 mm left a lamella counts, with less it does not, and at its end the next one is cut."""
    ends = accumulate(thickness for _, thickness in peer.from_fire(fire))
    return [end - left for end in ends for left in (31, 30, 29, 1, 0)]


def build_cases():
    """(first record, second record, text)"""
    def pair(a, b, text):
        return peer.encode(a), peer.encode(b), text
    clad_g, f = two(A, H), one(F, failure_time=30_000)
    yield pair(G, G, "the same record twice")
    yield pair(G, G._replace(strength=400, moment=0), "other strength and moment")
    yield pair(LONGEST, LONGEST._replace(moment=0), "two boards and nine lamellae, other moment")
    yield pair(G, G._replace(bond=1, rate=100, gap=1, strength=400, moment=0), "all numbers other")
    for a, b, text in (
            (f, f._replace(bond=1), "other bond"), (f, f._replace(rate=66), "other rate"), (f, f._replace(gap=1), "other gap"),
            (f, f._replace(failure_time=30_001), "other failure time"),
            (f, f._replace(strength=241), "other strength"), (f, f._replace(moment=2_999), "other moment"),
            (G, G._replace(gap=1), "other gap, unclad"), (G, G._replace(bond=1), "other bond, unclad"),
            (LVL_FLOOR, LVL_FLOOR._replace(bond=0), "LVL and CLT"), (LVL_FLOOR, LVL_FLOOR._replace(bond=1), "LVL and CLT falling"),
            (LVL_THIN, LVL_THIN._replace(strength=240, moment=0), "LVL, other strength and moment"),
            (LVL_THIN, LVL_THIN._replace(bond=0, rate=76), "LVL 15.0 and CLT of its rate"),
            (LVL_THIN, lvl(151, strength=400, moment=100), "LVL 15.0 and 15.1"),
            (one(O, 250), one(O, 250, gap=1), "O, other gap"),
            (one(O, 250), one(P, 250), "O and P"), (one(A, 250), one(O, 250), "A and O of one thickness"),
            (G, one(), "no board and one"), (one(), clad_g, "one board and two"), (clad_g, G, "two boards and none"),
            (one(A), one(H), "other type"), (one(thickness=125), one(thickness=126), "other board thickness"),
            (one(joint=100), one(joint=99), "other coefficient"), (two(A, H), two(H, A), "boards the other way round"),
            (clad_g, clad_g._replace(boards=(clad_g.boards[0], Board(H, 250, 100))), "other inner board"),
            (clad_g, clad_g._replace(boards=(Board(A, 250, 100), clad_g.boards[1])), "other outer board"),
            (G, with_first_lamella(G, ALONG, 301), "other first lamella"),
            (G, G._replace(lamellae=G.lamellae[:2] + ((ALONG, 299),)), "other last lamella"),
            (G, G._replace(lamellae=((ALONG, 300), (ALONG, 400), (ALONG, 300))), "other direction"),
            (G, G._replace(lamellae=G.lamellae[:2]), "a lamella fewer"),
            (G, G._replace(lamellae=G.lamellae + ((ACROSS, 100),)), "a lamella more"),
            (RECOVERS, TURNED, "turned round")):
        yield pair(a, b, text)
        yield pair(b, a, f"{text}, the other order")
    first, last, each = (faced(RECOVERS, face) for face in (FIRST_FACE, LAST_FACE, EACH_ALONE))
    for a, b, text in (
            (RECOVERS, first, "versions 1 and 2, face 0"),
            (faced(LONGEST, FIRST_FACE)._replace(moment=0), LONGEST, "versions 2 and 1, other moment"),
            (last, last._replace(strength=400, moment=0), "face 1 twice, other strength and moment"),
            (each, each._replace(moment=0), "face 2 twice, other moment"),
            (RECOVERS, last, "version 1 and face 1"), (first, each, "faces 0 and 2"), (last, each, "faces 1 and 2"),
            (faced(TURNED, FIRST_FACE), last, "turned round and the face other, so the same fire"),
            (faced(G, FIRST_FACE), faced(G, LAST_FACE), "the same from both faces, the face other")):
        yield pair(a, b, text)
    yield ONE_BYTE, g, "a blank panel first"
    yield g, ONE_BYTE, "a blank panel second"
    yield ONE_BYTE, ONE_BYTE, "two blank panels"
    yield b"", b"", "no byte twice, so G and G"
    yield b"", peer.encode(G._replace(moment=0)), "no byte, so G, and G without moment"
    yield b"", peer.encode(G._replace(bond=1)), "no byte, so G, and G falling"
    yield peer.encode(with_first_lamella(G, ALONG, 301)), b"", "G of 30.1 and no byte, so G"
    yield b"", peer.encode(faced(G, LAST_FACE)), "no byte, so G, and G with the fire on its last face"
    yield pair(G, G._replace(moment=43_057), "the second refused, so blank")


WOOD_BOARD_TIMES = (201, 220, 250, 279, 300, 333, 399)


def time_cases():
    """(kind, thickness, text): the ends of each table, one past them, document 01's figures and those of example A 1.4 of 000."""
    for layer, kinds, low, high, between in (("board", ("bp", "bi"), 90, 250, (91, 95, 100, 125, 150, 151, 180, 249)),
                                             ("lamella", ("lp", "li"), 100, 600, (101, 150, 200, 201, 300, 333, 400, 512, 599)),
                                             ("board of OSB", ("op", "oi"), 200, 400, WOOD_BOARD_TIMES),
                                             ("particle board", ("pp", "pi"), 200, 400, WOOD_BOARD_TIMES)):
        for kind, what in zip(kinds, ("protection", "insulation")):
            for thickness in (0, low - 1, low) + between + (high, high + 1, 65_535):
                yield kind, thickness, f"{what} by a {layer} of {thickness // 10:,}.{thickness % 10}"


def crossed(*thicknesses):
    """G with these lamellae in mm, along and across by turns."""
    return G._replace(moment=0, lamellae=tuple(((i + 1) % 2, 10 * thickness) for i, thickness in enumerate(thicknesses)))


# Document 000, tables 16 and 17: panel, lamellae in mm, EI printed unclad and under one board F 12.5, and the section in mm printed as
# left unclad after 30 minutes (walls).
PRINTED_WALLS = (
    ("80 C3s", (20, 40, 20), 72, 89, 54.1),
    ("90 C3s", (30, 30, 30), 81, 93, 64.1),
    ("100 C3s", (30, 40, 30), 95, 104, 74.1),
    ("120 C3s", (40, 40, 40), 114, 123, 94.1),
    ("100 C5s", (20, 20, 20, 20, 20), 73, 84, 74.1),
    ("120 C5s", (30, 20, 20, 20, 30), 90, 101, 94.1),
    ("140 C5s", (40, 20, 20, 20, 40), 111, 121, 114.1),
    ("160 C5s", (40, 20, 40, 20, 40), 129, 137, 134.1),
)
# Table 19: unclad ceilings; the section printed as left after 30, 60 and 90 minutes.
PRINTED_CEILINGS = (
    ("100 L5s", (20, 20, 20, 20, 20), 73, (73.5, 34.8, 0.0)),
    ("120 L5s", (30, 20, 20, 20, 30), 90, (93.5, 64.9, 25.7)),
    ("140 L5s", (40, 20, 20, 20, 40), 111, (113.5, 94.0, 55.8)),
    ("160 L5s", (40, 20, 40, 20, 40), 129, (133.5, 114.0, 75.8)),
    ("180 L5s", (40, 30, 40, 30, 40), 143, (153.5, 134.0, 100.7)),
    ("200 L5s", (40, 40, 40, 40, 40), 160, (173.5, 154.0, 120.0)),
)


def printed_cases():
    """(panel, text): panels whose EI document 000 prints. Document 01 adds no delay (delta t) behind type F."""
    behind_f = {"boards": (Board(F, 125, 100),), "failure_time": 55_000}
    for name, lamellae, unclad, _, _ in PRINTED_WALLS:
        yield crossed(*lamellae), f"table 16, {name}, printed {unclad}"
    for name, lamellae, unclad, _ in PRINTED_CEILINGS:
        yield crossed(*lamellae), f"table 19, {name}, printed {unclad}"
    for name, lamellae, _, behind, _ in PRINTED_WALLS:
        yield crossed(*lamellae)._replace(**behind_f), f"table 17, {name}, printed {behind}, delta t behind F left out"
    yield crossed(30, 40, 30)._replace(**behind_f), "example A 1.4, printed 104.8, delta t behind F left out"


def past_switch(panel, layer):
    """2S - t of a layer: up to 0 its time is a difference, then a root."""
    return 2 * sum(peer.layer_times(panel)[:layer]) - peer.basic_layers(panel)[layer][0]


def switch_shapes():
    """(text, layer, panels): panels of one shape, in which the thickness of the layer is still open."""
    pairs = [(first, -second) for first in range(100, 201) for second in range(100, 201)]
    yield "last of three lamellae", 2, (layered(*pair, 100) for pair in pairs)
    yield "third of four lamellae", 2, (layered(*pair, 100, -200) for pair in pairs)
    yield "lamella behind a board", 1, (one(H, thickness, joint) for joint in range(60, 101) for thickness in range(90, 251))
    yield "board behind a board", 1, (
        clad(Board(A, outer, joint), Board(H, 90, 90)) for joint in range(45, 101) for outer in range(90, 251))
    yield "lamella behind two boards", 2, (
        clad(Board(A, 125, joint), Board(H, inner, 30)) for joint in range(30, 101) for inner in range(90, 251))


def switch_cases():
    for text, layer, panels in switch_shapes():
        panels = list(panels)
        for past, where in ((-1, "2S = t - 1"), (0, "2S = t"), (1, "2S = t + 1")):
            panel = next(filter(None, (with_layer_at_switch(panel, layer, past) for panel in panels)))
            assert past_switch(panel, layer) == past
            yield panel, f"{text}, {where}"


def with_last_giving(panel, total):
    """The panel with its last lamella so thick that its layers give so many thousandths of a minute together; None where none is found."""
    before = sum(peer.layer_times(panel)[:-1])

    def given(thickness):
        return before + peer.layer_time(peer.entry("wood_insulation", thickness), before, 100)

    thickness = peer.largest(lambda h: h < 100 or h <= 600 and given(h) <= total)
    return with_lamella(panel, -1, panel.lamellae[-1][0], thickness) if thickness >= 100 and given(thickness) == total else None


def about_grade(grade):
    """Panels without load, of which some have EI about that grade: the thickness of their last lamella is still open."""
    if grade <= 20:
        for joint in range(1, 101):
            for thickness in range(90, 251):
                yield layered(100, rate=50)._replace(boards=(Board(H, thickness, joint),))
    else:
        between = {180: (600,), 240: (600, -600, 600)}.get(grade, ())
        for first in range(100, 601):
            for second in range(100, 601):
                yield layered(first, -second, *between, 100, rate=50)


@cache
def grade_sums():
    """(panel, text): layers that give the minute of a grade, a thousandth less and a thousandth more; of each grade but 360."""
    return [(next(filter(None, (with_last_giving(panel, 1_000 * grade + more) for panel in about_grade(grade)))), f"EI {text}{grade} min")
            for grade in peer.GRADES[:-1] for more, text in ((-1, "a thousandth below "), (0, ""), (1, "a thousandth above "))]


def joint_cases():
    for joint in (1, 2, 50, 99):
        yield one(H, joint=joint), f"G under H 12.5, coefficient {joint}"
    for outer, inner in ((1, 1), (1, 100), (100, 1), (80, 95), (99, 99), (100, 100)):
        yield clad(Board(A, 125, outer), Board(H, 150, inner)), f"G under A 12.5 and H 15.0, coefficients {outer} and {inner}"


def wood_board_layer_cases():
    for kind, name in ((O, "OSB"), (P, "particle board")):
        for thickness in (200, 279, 400):
            for joint in (1, 80, 100):
                yield one(kind, thickness, joint), f"G under {name} of {thickness}, coefficient {joint}"
        yield one(kind, 250, gap=1), f"G under {name} of 250, wide gap"
        yield crossed(20, 20, 20)._replace(boards=(Board(kind, 220, 100),)), f"three lamellae of 20 under {name} of 220"
        yield SHORTEST._replace(boards=(Board(kind, 400, 100),)), f"one lamella of 10 under {name} of 400"


def layer_panel_cases():
    yield G, "G"
    yield G._replace(lamellae=((ALONG, 300),) * 2 + ((ALONG, 400),)), "G's lamellae in another order, all along"
    yield crossed(20, 20, 20)._replace(boards=(Board(A, 125, 100),)), "A 12.5, three lamellae of 20"
    yield from reading_cases()
    yield from joint_cases()
    for thickness in (100, 200, 400, 600):
        lamella = G._replace(moment=0, lamellae=((ALONG, thickness),))
        yield lamella, f"one lamella of {thickness // 10}"
        yield lamella._replace(boards=(Board(H, 90, 100),)), f"one lamella of {thickness // 10} under H 9.0"
    yield SHORTEST._replace(boards=(Board(A, 250, 100),) * 2), "one lamella of 10 under two A 25.0"
    yield LONGEST, "the longest record"
    yield G._replace(moment=0, lamellae=((ALONG, 100),) * 9), "nine lamellae of 10"
    yield summing_to(4_000), "nine lamellae, sum 4,000"
    yield RECOVERS, "the panel that recovers"
    yield TURNED, "that panel turned"
    thickest = G._replace(moment=0, boards=(Board(H, 250, 100),) * 2, lamellae=((ALONG, 600),) * 6 + ((ALONG, 400),))
    yield thickest, "two boards of 25.0, 400 mm"
    yield from switch_cases()
    yield from grade_sums()
    yield from wood_board_layer_cases()
    yield from lvl_accepted()
    yield from lvl_faces()
    yield from printed_cases()
    yield G._replace(moment=43_057), "a refused record, so a blank panel"


def sum_cases():
    """(record, text)"""
    for panel, text in layer_panel_cases():
        yield peer.encode(panel), text
    yield peer.encode(faced(G, FIRST_FACE)), "G, version 2, face 0"
    yield from wall_records(LAST_FACE, EACH_ALONE)
    yield ONE_BYTE, "one byte, so a blank panel"
    yield b"", "no byte, so G"


def grade_cases():
    """(minute, text)"""
    yield 0, "minute 0"
    for grade in peer.GRADES:
        yield grade - 1, f"a minute below {grade}"
        yield grade, f"grade {grade}"
    yield 95, "EI of G"
    yield 103, "R of G, moment 3,000"
    for minute in (361, 65_535):
        yield minute, f"minute {minute:,}"


def rei_cases():
    """(r, ei, text)"""
    yield 103, 95, "G, moment 3,000"
    yield 84, 95, "G, moment 3,000, bond falls"
    yield 138, 95, "G, moment 0"
    for grade in peer.GRADES:
        yield grade, grade - 1, f"R {grade}, EI a minute below"
        yield grade - 1, grade, f"EI {grade}, R a minute below"
    for r, ei in ((0, 0), (0, 360), (360, 0), (90, 90), (360, 360)):
        yield r, ei, f"R {r}, EI {ei}"
    for above in (361, 65_535):
        for r, ei in ((above, 0), (0, above), (above, 360), (360, above), (above, above)):
            yield r, ei, f"R {r:,}, EI {ei:,}"


def falls(panel, rate):
    return panel._replace(bond=1, rate=rate)


def behind(panel, *boards, failure_time=0, gap=0):
    return panel._replace(boards=tuple(Board(kind, thickness, 100) for kind, thickness in boards), failure_time=failure_time, gap=gap)


def plate(thickness):
    """One lamella, in tenths of mm."""
    return G._replace(moment=0, lamellae=((ALONG, thickness),))


def starred_char_cases():
    """(panel, minutes, text)"""
    yield G, (0, 19, 20, 21, 30, 60, 90, 120, 153, 154, 360, 361, 65_535), "G"
    yield falls(G, 65), (0, 30, 46, 47, 60, 90, 120, 360, 361), "G falling"
    yield behind(plate(600), (A, 90)), (11, 12, 22, 23), "A 9.0"
    yield behind(plate(600), (A, 125)), (20, 21, 40, 41, 60), "A 12.5"


def char_boundary_cases():
    """(panel, minutes, text): a phase ends at the second minute of each pair, or between the two."""
    yield falls(G, 50), (59, 60, 84, 85, 114, 115, 139, 140, 149, 150), "G falling, rate 50"
    yield falls(crossed(20, 20, 20), 50), (39, 40, 59, 60, 79, 80), "three of 20 falling"
    yield falls(crossed(30, 25, 30), 50), (60, 84, 85), "25 mm between lines"
    yield behind(plate(600), (H, 125), gap=1), (11, 12, 23, 24), "H 12.5 wide"
    yield behind(plate(600)._replace(rate=100), (A, 125), (H, 125)), (38, 39, 50, 51), "two boards, 25 mm first"
    yield falls(behind(crossed(25, 60), (A, 125), (H, 125)), 100), (50, 51, 63, 64), "line at 25 mm"
    yield falls(behind(crossed(12, 20, 20), (A, 125), gap=1), 50), (23, 24, 43, 44), "line at 2 t_f"
    yield behind(plate(600)._replace(rate=80), (F, 125), failure_time=51_000), (20, 21, 50, 51, 54, 55), "F, t_f, 25 mm"
    yield behind(plate(600)._replace(rate=50), (F, 200), failure_time=120_125), (120, 121), "F, 25 mm at t_f"
    yield falls(behind(crossed(10, 30, 30), (F, 125), failure_time=41_000), 80), (40, 41, 56, 57), "F, line before t_f"
    yield behind(plate(124)._replace(rate=80), (F, 125), failure_time=41_000), (40, 41), "F, back face at t_f"
    yield behind(plate(120)._replace(rate=75), (F, 200), failure_time=90_000), (66, 67, 90), "F, through before t_f"
    yield behind(plate(600), (F, 125), (F, 125), failure_time=49_000), (48, 49), "two F, t_f at t_ch"
    yield behind(plate(600), (F, 125), (F, 125), failure_time=360_000, gap=1), (39, 40, 360), "two F wide, t_f 360"


def floor(*thicknesses, failure_time=61_000, moment=1_000):
    """Lamellae in tenths of mm, along and across by turns, with falling bond behind F 12.5 at rate 80: 0.62 mm/min from 21 min to t_f."""
    lamellae = tuple(((i + 1) % 2, thickness) for i, thickness in enumerate(thicknesses))
    return falls(behind(G._replace(moment=moment, lamellae=lamellae), (F, 125), failure_time=failure_time), 80)


def passed_line_cases():
    """(panel, minutes, text): lines about the char at t_f, 24.8 mm at 61 min and 43.4 mm at 91 min, and the ends of the runs from there."""
    for first, place in ((249, "a tenth short of"), (248, "at"), (247, "a tenth past")):
        yield floor(first, 400, 400), (60, 61, 62, 76, 77), f"char at t_f {place} a line"
    for first, place in ((185, "a tenth short of"), (184, "at"), (183, "a tenth past")):
        yield floor(first, 600, 400, failure_time=91_000), (90, 91, 92), f"char at t_f {place} line + 25 mm"
    yield floor(150, 150, 400, 300, failure_time=91_000), (91, 98, 99), "two lines passed"
    yield floor(*(100,) * 9, failure_time=91_000), (91, 95, 96, 101, 102), "four lines passed, the next nearer than 25 mm"
    yield floor(200, 200, 600), (61, 70, 71, 86, 87), "a line passed, the next 20 mm on"
    yield floor(200, 250, 400), (61, 73, 74), "a line passed, the next 25 mm on"
    yield floor(100, 148, 400), (61, 76, 77), "a line passed, the next reached at t_f"
    yield floor(100, 100, 600), (61, 73, 74), "the last line passed"
    yield floor(100, 140, 100, moment=100), (61, 66, 67), "the last line passed, end past the back face"
    yield falls(behind(crossed(10, 40, 40), (F, 125), (F, 125), failure_time=79_000), 80), (78, 79, 89, 90), "two F, a line passed"


def passed_line_panels():
    """(panel, minutes, text): also with other faces, and with a bond that holds."""
    yield from passed_line_cases()
    for face in (FIRST_FACE, LAST_FACE, EACH_ALONE):
        yield faced(floor(200, 400, 400), face), (61, 73, 74), f"a line passed from the first face alone, face {face}"
        yield faced(floor(200, 400, 150), face), (61, 73, 74), f"another line passed from each face, face {face}"
    for panel, minutes, text in passed_line_cases():
        yield panel._replace(bond=0), minutes[:3], f"{text}, bond holds"


def lvl_char_cases():
    """(panel, minutes, text): each thickness about 20.0 mm, whose char depth at 10 min shows its rate; no line matters; boards."""
    for thickness in range(100, 202):
        yield lvl(thickness), (10,), f"LVL {thickness / 10}"
    yield lvl(150)._replace(bond=0), (10,), "CLT 15.0"
    yield LVL_FLOOR, (0, 46, 47, 60, 92, 93), "LVL 30.0 and 30.0, no line at 30 mm"
    yield falls(LVL_FLOOR, 65), (46, 47, 60), "CLT of the same lamellae, falling"
    yield lvl(100, 100), (15, 16, 30), "LVL 10.0 and 10.0"
    yield behind(LVL_THIN, (A, 90)), (11, 12, 20), "LVL 15.0 behind A, 2 t_f past the back face"
    yield behind(lvl(190), (A, 90), gap=1), (2, 3, 4, 5, 20), "LVL 19.0 behind A, wide gap, fast up to 2 t_f"
    yield behind(LVL_THIN, (F, 125), failure_time=30_000), (21, 22, 30, 31, 40), "LVL 15.0 behind F"
    yield behind(lvl(120, 150, 400), (F, 125), failure_time=61_000), (60, 61, 70, 71, 90), "LVL behind F, past its first lamellae at t_f"
    yield behind(lvl(150), (O, 200)), (22, 23, 30), "LVL 15.0 behind O"
    yield behind(lvl(150), (A, 125), (H, 95)), (34, 35, 40), "LVL 15.0 behind A over H"
    for face in (LAST_FACE, EACH_ALONE):
        yield faced(LVL_THIN, face), (5, 10), f"LVL 15.0, face {face}"
        yield faced(behind(lvl(300, 120), (F, 125), failure_time=41_000), face), (41, 50, 60), f"LVL 30.0 and 12.0 behind F, face {face}"


def char_kind_cases():
    for gap, joint in ((0, "narrow"), (1, "wide")):
        yield falls(G._replace(gap=gap), 65), (45,), f"unclad, {joint}"
        for boards, time in (((A,), 0), ((H,), 0), ((F,), 36_500), ((A, H), 0), ((F, F), 55_555)):
            name = "".join(map(chr, boards))
            panel = behind(G, *zip(boards, (150, 95)), failure_time=time, gap=gap)
            yield falls(panel, 73), (33, 77), f"{name} {joint}"
    yield from wood_board_char_cases()
    yield THICK._replace(moment=0), (360,), "400 mm"
    yield falls(LONGEST, 100), (90, 130), "the longest record"


def wood_board_char_cases():
    """Around t_ch, 25 mm and 2·t_f; the gap changes nothing."""
    for gap, joint in ((0, "narrow"), (1, "wide")):
        yield behind(plate(600), (O, 200), gap=gap), (22, 23, 41, 42, 60), f"O 20.0, 25 mm first, {joint}"
        yield behind(plate(600)._replace(rate=50), (O, 200), gap=gap), (22, 23, 44, 45, 60), f"O 20.0, 2 t_f first, {joint}"
        yield behind(plate(600)._replace(rate=100), (P, 400), gap=gap), (44, 45, 56, 57), f"P 40.0, {joint}"
    yield behind(plate(600)._replace(rate=50), (P, 225)), (24, 25, 26, 49, 50, 51), "P 22.5, t_ch 25 min"
    yield falls(behind(crossed(10, 30, 30), (P, 279)), 80), (30, 31, 37, 38, 50), "P 27.9, t_ch 31 min, falling"


# The minutes at which the panels of `reading_cases` about charring are asked.
READING_MINUTES = {
    "bond line reached as the board fails": (40, 41, 60),
    "25 mm charred before the board fails": (70, 71, 90),
    "F fails as charring starts": (11, 12, 22, 23, 30),
    "bond line before the first run ends": (20, 21, 22, 28, 29),
    "charred through before the board fails": (14, 15, 360),
}


def printed_char_cases():
    """(panel, minutes, text): what documents 000 and 004 print, in mm. 000's 0.86 mm/min behind a wall's first line is not in document 01."""
    clt_180 = falls(crossed(40, 30, 40, 30, 40), 65)
    yield clt_180, (90,), "A 1.1 and A 1.3, printed 72.1 and 79.1"
    wall = falls(behind(crossed(40, 20, 20, 20, 40), (F, 125), failure_time=55_000), 63)
    for minutes, text in (((20, 21), "t_ch printed 21.0"), ((55,), "printed 16.6"), ((61, 62), "25 mm printed at 61.6"),
                          ((85, 86), "40 mm printed at 61.6 + 24.0"), ((90,), "printed 43.8 by 0.86 mm/min")):
        yield wall, minutes, f"A 1.2, {text}"
    for name, lamellae, _, left in PRINTED_CEILINGS:
        for minute, section in zip((30, 60, 90), left):
            yield falls(crossed(*lamellae), 65), (minute,), f"table 19, {name}, printed {section} left"
    for name, lamellae, _, _, section in PRINTED_WALLS:
        yield crossed(*lamellae)._replace(rate=63), (30,), f"table 16, {name}, printed {section} left"
    for thickness, text in ((600, "example, printed 9.8"), (150, "table 1, 15 mm, printed 0.75 mm/min"), (180, "table 1, 18 mm, printed 0.70 mm/min")):
        yield lvl(thickness), (15,), f"004, {text}"


def char_panel_cases():
    yield from starred_char_cases()
    yield from char_boundary_cases()
    yield from passed_line_panels()
    yield from first_run_panels()
    yield from char_kind_cases()
    for panel, text in reading_cases():
        yield panel, READING_MINUTES.get(text, ()), text
    yield from printed_char_cases()
    yield from lvl_char_cases()


def wall_char_cases():
    """(panel, minutes, text): around the bond lines of the two fires and the end of the boards; of face 2 the first face's is told."""
    met = next(panel for panel, text in reading_cases() if text == "bond line reached as the board fails")
    turned = met._replace(lamellae=met.lamellae[::-1])
    for face in (LAST_FACE, EACH_ALONE):
        yield faced(falls(WALL, 80), face), (24, 25, 49, 50, 90), f"wall falling, face {face}"
        yield faced(falls(behind(WALL, (A, 125)), 65), face), (22, 40, 60), f"wall behind A, falling, face {face}"
        yield faced(falls(behind(WALL, (O, 200)), 65), face), (38, 60), f"wall behind O, falling, face {face}"
        yield faced(thickening(), face), (60, 90), f"nine lamellae behind two F, falling, face {face}"
        yield faced(turned, face), (41, 60), f"bond line reached as the board fails, turned, face {face}"
    yield faced(WALL, LAST_FACE), (60,), "wall, face 1"
    yield faced(WALL, EACH_ALONE), (361,), "wall, face 2"


def char_cases():
    """(minute, record, text)"""
    for panel, minutes, text in list(char_panel_cases()) + list(wall_char_cases()):
        for minute in minutes:
            yield minute, peer.encode(panel), text
    for minute in (0, 361):
        yield minute, ONE_BYTE, "a blank panel"
    for minute in (30, 361):
        yield minute, b"", "no byte, so G"


def table_cases():
    """(space, record, text)"""
    for space in (0, 360, 361, 362, 400):
        yield space, g, f"G into {space}"
    yield 400, peer.encode(falls(G, 65)), "G falling"
    yield 361, peer.encode(behind(plate(600), (A, 90))), "A 9.0"
    for panel, text in reading_cases():
        if text in READING_MINUTES:
            yield 400, peer.encode(panel), text
    yield 361, peer.encode(floor(200, 200, 600)), "a line passed before t_f"
    yield 361, peer.encode(LVL_FLOOR), "LVL 30.0 and 30.0"
    yield 361, peer.encode(behind(LVL_THIN, (A, 90))), "LVL 15.0 behind A"
    yield 361, peer.encode(falls(one(O, 279), 65)), "O 27.9, falling"
    yield 400, peer.encode(THICK), "400 mm"
    yield 400, peer.encode(falls(LONGEST, 50)), "the longest record"
    yield 361, peer.encode(behind(THICK, (F, 250), (F, 250), failure_time=360_000)), "400 mm, two F 25.0, t_f 360"
    for face in (LAST_FACE, EACH_ALONE):
        yield 400, peer.encode(faced(falls(WALL, 80), face)), f"wall falling, face {face}"
    yield 361, peer.encode(faced(thickening(), LAST_FACE)), "nine lamellae behind two F, falling, face 1"
    yield 360, peer.encode(faced(WALL, EACH_ALONE)), "wall, face 2, into 360"
    for space in (0, 400):
        yield space, ONE_BYTE, f"a blank panel into {space}"
    for space in (360, 361):
        yield space, b"", f"no byte, so G into {space}"


# ---------------------------------------------------------------- Load minutes and cards

# 400 mm along that chars 180 mm in 360 minutes: its effective depth is 187.0 mm then.
LASTING = THICK._replace(rate=50, strength=240, moment=0)
# Fails in the tenths 68 to 70 alone, that is after minute 6 and before minute 7.
BETWEEN = RECOVERS._replace(rate=70, moment=13_800)
# A record whose failure time is a whole minute.
WHOLE = Panel(1, 0, 0, 80, 0, 240, 500, 61_000, (Board(F, 125, 100),), ((ALONG, 600),))
LONG_CARD = falls(G._replace(moment=0, lamellae=((ALONG, 100),) + ((ALONG, 250),) * 8), 100)
SHORT_CARD = behind(SHORTEST._replace(moment=460), (F, 250), (F, 250), failure_time=360_000)


def load_panels():
    """(panel, text): what document 01 says of R, the ends of R, and panels whose R a short cut misses."""
    yield G, "G, moment 3,000, exact 6,740/65"
    yield falls(G, 65), "G falling, moment 3,000"
    yield G._replace(moment=0), "G, moment 0"
    yield G._replace(moment=42_000), "G, moment 42,000, fails in the first minute"
    yield G._replace(moment=43_056), "G, moment 43,056, fails after time 0"
    yield RECOVERS, "the panel that recovers, from its first failing tenth"
    yield BETWEEN, "fails between two whole minutes alone, and recovers"
    yield WHOLE, "fails at minute 83 exactly"
    most = greatest_moment(LASTING, 1_870)
    yield LASTING._replace(moment=most), "400 mm, rate 50, fails at minute 360 exactly"
    yield LASTING._replace(moment=most + 1), "400 mm, rate 50, fails in the tenth before minute 360"
    yield LASTING, "400 mm, rate 50, moment 0"
    yield behind(LASTING, (F, 250), (F, 250), failure_time=360_000), "400 mm, moment 0, two F 25.0, t_f 360"
    yield behind(plate(600), (A, 90)), "A 9.0, fast up to 22.4 min"
    yield behind(plate(600), (A, 125)), "A 12.5, k0 full at 21 min"
    yield behind(G, (F, 125), (F, 125), failure_time=60_000), "two F 12.5, t_ch 49,000"
    yield from wood_board_loads()
    yield LONG_CARD, "a long card"
    yield SHORT_CARD, "a short card"


def wood_board_loads():
    for kind in (O, P):
        for thickness in (200, 300, 400):
            yield one(kind, thickness), f"G behind {chr(kind)} of {thickness}"
        yield one(kind, 300, gap=1), f"G behind {chr(kind)} of 300, wide gap"
        yield falls(one(kind, 225), 73), f"G behind {chr(kind)} of 225, falling, rate 73"
        yield behind(LASTING, (kind, 400)), f"400 mm, rate 50, moment 0, behind {chr(kind)} of 400"
        yield behind(RECOVERS, (kind, 200)), f"the panel that recovers, behind {chr(kind)} of 200"


def loaded_to(panel, depth):
    """The panel with the greatest moment at which a depth in tenths of mm passes."""
    return panel._replace(moment=greatest_moment(panel, depth))


def second_panels():
    """(panel, text): failure times at, before and after a whole second, a whole minute and 360 minutes, behind every type of board."""
    for panel, text in (
            (G._replace(rate=60, moment=3_500), "G, rate 60, at a whole minute"),
            (G._replace(rate=60, moment=3_000), "G, rate 60, at a whole second"),
            (loaded_to(G._replace(rate=100), 1), "G, rate 100, the soonest after 0:00"),
            (G._replace(rate=74, moment=13_840), "G, rate 74, just before a whole second, shortly before 20 minutes"),
            (falls(G, 73)._replace(moment=10_563), "G falling, in the second after a whole minute"),
            (falls(G, 73)._replace(moment=2_716), "G falling, in the second before a whole minute"),
            (loaded_to(crossed(40, 40, 40, 40, 40)._replace(rate=73), 1_093), "five of 40, seconds below 10"),
            (one(A, 90)._replace(moment=34_298), "A, in the second after a whole minute"),
            (one(O, 200)._replace(moment=35_079), "O, just before a whole minute"),
            (one(P, 225)._replace(moment=32_461), "P, at a whole minute"),
            (one(H, 125, gap=1)._replace(moment=42_560), "H, wide gap, before charring"),
            (one(F, 90, failure_time=60_000)._replace(moment=30_200), "F 9.0, t_ch 11.2, before 20 minutes"),
            (one(F, 90, failure_time=60_000)._replace(moment=23_348), "F 9.0, t_ch 11.2, after 20 minutes"),
            (one(F, 150, failure_time=37_500)._replace(moment=31_667), "F, before it fails"),
            (one(F, 150, failure_time=37_500), "F, after it failed"),
            (falls(one(F, 125, failure_time=41_000), 80), "F, falling"),
            (behind(G._replace(moment=31_534), (H, 125), (A, 125)), "H over A, seconds below 10"),
            (loaded_to(behind(LASTING._replace(rate=63), (O, 280)), 2_267), "400 mm, just before 360 minutes"),
            (loaded_to(behind(LASTING._replace(rate=73), (A, 141)), 2_637), "400 mm, just after 360 minutes")):
        yield panel, f"{text}, exact {peer.fire_failure(panel)}"


def second_walls():
    """(panel, text): both fires fail in one minute, or one lasts, each way round."""
    for first, last, face in ((300, 302, "first"), (302, 300, "last")):
        wall = G._replace(moment=10_000, lamellae=((ALONG, first), (ACROSS, 400), (ALONG, last)))
        yield wall, f"wall, in the same minute sooner from the {face} face"
        yield falls(wall._replace(moment=2_000), 65), f"wall falling, in the same minute sooner from the {face} face"
    along, across = ((ALONG, 600),), ((ACROSS, 600),) * 5
    for lamellae, face in ((along + across, "last"), (across + along, "first")):
        yield LASTING._replace(moment=5_000, lamellae=lamellae), f"360 mm, lasts from the {face} face"


def second_records():
    """(record, text)"""
    for panel, text in second_panels():
        yield peer.encode(panel), text
    for panel, text in second_walls():
        yield peer.encode(faced(panel, EACH_ALONE)), f"{text}, face 2"


def unstarred_cases():
    """(record, text)"""
    for thickness in (100, 99):
        yield peer.encode(with_first_lamella(G, ALONG, thickness)), f"lamella {thickness}"
    for thickness in (90, 250, 89, 251):
        yield peer.encode(one(thickness=thickness)), f"board {thickness}"


def refused_cases():
    """(record, text): each of lines 1 to 13, 16 and 17, and bytes that are no record."""
    yield ONE_BYTE, "one byte"
    yield bytes(20), "20 zeros"
    yield patched(g, VERSION, 3), "version 3"
    yield patched(g_each, FACE, 3), "face 3"
    yield patched(g_each, VERSION, 0, 3), "version 0, face 3"
    yield patched(g_each, FACE, 2, 3), "face 2, bond 3"
    yield patched(g, BOND, 3), "bond 3"
    yield patched(g, BOND, LVL), "LVL with a lamella across"
    yield patched(g, RATE, 101), "rate 101"
    yield peer.encode(G._replace(strength=401)), "strength 401"
    yield patched(g, BOARDS, 3), "three boards counted"
    yield peer.encode(two(F, A, failure_time=49_000)), "F over A"
    yield peer.encode(one(joint=0)), "coefficient 0"
    yield peer.encode(G._replace(failure_time=1)), "given 1, unclad"
    yield patched(g, lamella_count_at, 4), "four lamellae counted, three there"
    yield peer.encode(with_first_lamella(G, 2, 300)), "direction 2"
    yield peer.encode(G._replace(lamellae=((ACROSS, 300),))), "none along"
    yield peer.encode(G._replace(moment=43_057)), "G, moment 43,057"
    yield g[:20], "cut to 20 bytes"
    yield with_length(peer.encode(LONGEST) + b"\0"), "54 bytes, version 1"
    yield with_length(peer.encode(faced(LONGEST, FIRST_FACE)) + b"\0"), "55 bytes, version 2"
    yield with_length(peer.encode(faced(SHORTEST, FIRST_FACE))[:21]), "21 bytes, version 2"
    yield g + bytes(33), "60 bytes, G before zeros"
    yield with_length(g + bytes(101)), "128 bytes, length field right"
    counted = {text: record for record, text in length_cases()}
    for text in ("two lamellae counted, one there", "two lamellae counted, one there, given 1, unclad",
                 "two boards, unknown type, one byte short"):
        yield counted[text], text


def space_cases():
    """(record, space, text): a space is long enough when this very card fits."""
    for name, panel in (("G", G), ("the long card", LONG_CARD), ("the short card", SHORT_CARD)):
        length = len(peer.card(panel))
        for space in (0, 1, length - 1, length, length + 1):
            yield peer.encode(panel), space, f"{name}, {length} bytes into {space}"
    length = len(peer.card(G))
    yield peer.encode(LONG_CARD), length, "the long card where G's fits"
    yield peer.encode(SHORT_CARD), length, "the short card where G's fits"
    for space in (0, 10, 11):
        yield peer.encode(G._replace(moment=43_057)), space, f"G, moment 43,057, refused before the space of {space} is looked at"
    yield ONE_BYTE, 0, "one byte, no space"
    for space in (0, length - 1, length, length + 1):
        yield b"", space, f"no byte, so G's card of {length} bytes into {space}"
    for space in (length - 1, length):
        yield g_each, space, f"G, face 2, {length} bytes into {space}"


def both_versions():
    """(record, text): the same panel in both versions, whose cards differ in the first line alone."""
    for panel, text in ((G, "G"), (behind(WALL, (A, 125)), "wall behind A")):
        for version in (1, 2):
            yield peer.encode(panel._replace(version=version)), f"{text} in version {version}"


def face_cases():
    """(record, text)"""
    yield from both_versions()
    yield from wall_records(EACH_ALONE)
    for panel, text in wall_panels():
        if panel.bond == 1 or panel == RECOVERS:
            yield peer.encode(faced(panel, LAST_FACE)), f"{text}, face 1"
    for panel, text in ((LASTING, "400 mm, rate 50, moment 0"), (G._replace(moment=43_056), "G, moment 43,056")):
        yield peer.encode(faced(panel, EACH_ALONE)), f"{text}, face 2"


def grade_walls():
    """(panel, text): the lesser EI is that of one face; of the first panel the grade of EI, and REI, differ with it."""
    yield layered(400, 100), "40.0 and 10.0 along"
    yield layered(100, 100, 226, rate=50), "10.0, 10.0 and 22.6 along"
    yield layered(305, 349, 100, rate=50), "30.5, 34.9 and 10.0 along"


def grade_wall_records():
    """(record, text)"""
    for panel, text in grade_walls():
        for face in (FIRST_FACE, LAST_FACE, EACH_ALONE):
            yield peer.encode(faced(panel, face)), f"{text}, face {face}"


# G behind type F, t_ch 2.2 min and t_f 5: the first run ends at 25 mm, and not at 2·t_f.
SOON_FAILED = G._replace(gap=1, boards=(Board(F, 90, 100),), failure_time=5_000)
# G behind two F, the inner one thicker than the outer: k2 goes by the inner.
THICKER_INSIDE = G._replace(boards=(Board(F, 90, 100), Board(F, 250, 100)), failure_time=100_000)


def first_run_panels():
    """(panel, minutes, text)"""
    yield SOON_FAILED, (4, 5, 10, 23, 24, 30), "t_f 5 min, before 2 t_f is at 25 mm"
    yield SOON_FAILED._replace(failure_time=2_200), (2, 3, 4, 5, 30), "t_f at t_ch, 2.2 min"
    yield SOON_FAILED._replace(failure_time=2_201), (2, 3, 4, 5, 30), "t_f a thousandth after t_ch"
    yield THICKER_INSIDE, (90, 100, 110), "two F, the inner one thicker"
    yield THICKER_INSIDE._replace(boards=THICKER_INSIDE.boards[::-1]), (90, 100, 110), "two F, the outer one thicker"
    yield floor(100, 100, 300, failure_time=41_000, moment=100), (40, 41, 45, 46, 55), "a line passed, the next nearer than 25 mm from the face"


def card_cases():
    """(record, space, text)"""
    for panel, text in load_panels():
        yield peer.encode(panel), 200, text
    for panel, text in list(reading_cases()) + list(lvl_cases()):
        yield peer.encode(panel), 200, text
    for panel, _, text in passed_line_panels():
        yield peer.encode(panel), 200, text
    yield peer.encode(LONGEST), 200, "the longest record"
    for panel, _, text in first_run_panels():
        yield peer.encode(panel), 200, text
    for record, text in list(second_records()) + list(face_cases()) + list(grade_wall_records()):
        yield record, 200, text
    for panel, text in grade_sums():
        yield peer.encode(panel), 200, text
    for record, text in list(unstarred_cases()) + list(refused_cases()):
        yield record, 200, text
    yield from space_cases()


def refusal_cases():
    """(number, space, text)"""
    for number in list(range(18)) + [99, 100, 255]:
        length = len(peer.refusal_text(number))
        yield number, length, f"number {number}, exact space"
    for number in (1, 9, 10, 15, 0, 255):
        length = len(peer.refusal_text(number))
        for space, name in ((0, "no space"), (length - 1, "a byte short"), (length + 1, "a byte more"), (200, "long space")):
            yield number, space, f"number {number}, {name}"


def panel_record_cases():
    """(record, text)"""
    for panel, text in load_panels():
        yield peer.encode(panel), text
    for panel, text in list(reading_cases()) + list(lvl_accepted()) + list(lvl_faces()):
        yield peer.encode(panel), text
    yield peer.encode(faced(RECOVERS, LAST_FACE)), "the panel that recovers, face 1"
    yield peer.encode(faced(behind(WALL, (A, 125)), EACH_ALONE)), "wall behind A, face 2"
    yield peer.encode(G._replace(moment=43_057)), "a refused record, so a blank panel"
    yield ONE_BYTE, "one byte, so a blank panel"
    yield b"", "no byte, so G"


def seconds_cases():
    """(record, text)"""
    yield from panel_record_cases()
    yield from second_records()
    for panel, _, text in first_run_panels():
        yield peer.encode(panel), text
    for panel, text in second_walls():
        for face in (FIRST_FACE, LAST_FACE):
            yield peer.encode(faced(panel, face)), f"{text}, face {face}"
    yield peer.encode(faced(RECOVERS, EACH_ALONE)), "the panel that recovers, face 2"


def reserve_cases():
    """(record, wanted, text)"""
    for wanted in (0, 90, 102, 103, 104, 120, 360, 361, 65_535):
        yield g, wanted, f"G, R 103, wanted {wanted:,}"
    for wanted in (0, 1, 360, 361):
        yield peer.encode(G._replace(moment=43_056)), wanted, f"R 0, wanted {wanted}"
    for wanted in (0, 359, 360, 361):
        yield peer.encode(LASTING), wanted, f"R 360, wanted {wanted}"
    for wanted in (6, 7, 60):
        yield peer.encode(RECOVERS), wanted, f"the panel that recovers, wanted {wanted}"
    for wanted in (83, 84):
        yield peer.encode(WHOLE), wanted, f"fails at minute 83 exactly, wanted {wanted}"
    wall = peer.encode(faced(behind(WALL, (A, 125)), EACH_ALONE))
    for wanted in (46, 78, 361):
        yield wall, wanted, f"wall behind A, face 2, R 78 and 46, wanted {wanted}"
    yield peer.encode(faced(RECOVERS, LAST_FACE)), 60, "the panel that recovers, face 1, wanted 60"
    for wanted in (0, 360, 361):
        yield ONE_BYTE, wanted, f"a blank panel, wanted {wanted}"
    for wanted in (103, 361):
        yield b"", wanted, f"no byte, so G, wanted {wanted}"


def grade_panel_cases():
    """(record, text)"""
    yield from panel_record_cases()
    yield from grade_wall_records()
    yield peer.encode(SHORTEST), "one lamella of 10, EI below 10"
    yield peer.encode(crossed(60, 60, 60, 60, 60)), "300 mm, EI above 240"
    for tenths in range(1, 4):
        yield peer.encode(peer.planed(SWITCHING, 2, tenths)), f"the panel at the switch, {tenths} off its second lamella"


# Two lamellae along, without load. The last layer's step changes at 2S = t, so EI is below 45 with a tenth off the second lamella, not with
# two, and again with three.
SWITCHING = G._replace(strength=400, moment=0, lamellae=((ALONG, 130), (ALONG, 326)))


def layered(*lamellae, moment=0, face=None, rate=65, bond=0):
    """Lamellae in tenths of mm, those across as negative numbers."""
    panel = G._replace(moment=moment, rate=rate, bond=bond, lamellae=tuple((ALONG if h > 0 else ACROSS, abs(h)) for h in lamellae))
    return panel if face is None else faced(panel, face)


def planing_panels():
    """(panel, text)"""
    yield G, "G"
    yield SWITCHING, "at the switch: one tenth lowers, two do not, three do"
    yield peer.planed(SWITCHING, 2, 1), "the same with one tenth off, REI 30"
    yield peer.planed(SWITCHING, 2, 2), "the same with two tenths off, REI 45"
    # grade 0: only line 13 counts
    yield layered(120, -100, -110, moment=47), "REI 0, depth 0 always passes"
    yield layered(120, -200, moment=640, rate=50, bond=1), "REI 0, a cut that meets 13"
    yield layered(110, 110, -250, 300, moment=22_306, rate=100), "REI 0, 13 met by a lamella across"
    most = greatest_moment(plate(100))
    for thickness in (150, 101):
        yield plate(thickness)._replace(moment=most), f"one lamella of {thickness}, 10.0 mm carry the load, 9.9 would not"
        yield plate(thickness)._replace(moment=most + 1), f"one lamella of {thickness}, 10.0 mm do not carry the load"
    # lamellae of 10.0 mm may not be cut
    yield plate(100)._replace(moment=most), "one lamella of 10.0 mm"
    yield layered(100, -100, 100), "all of 10.0 mm"
    yield layered(-110, -110, 100, moment=19, rate=50, bond=1), "REI 20, none"
    yield layered(120, 101, 120, moment=271, face=EACH_ALONE, rate=50, bond=1), "REI 20, none, face 2"
    yield layered(100, 110, -100, moment=195, face=LAST_FACE, rate=50), "REI 20, none, face 1"
    yield layered(-150, 100, -200, moment=39, face=EACH_ALONE), "the middle one of 10.0 mm"
    # a lamella is cut down to 10.0 mm
    yield layered(-250, 120, -100, -200, moment=468, rate=100), "REI 15, down to 10.0 mm"
    yield layered(101, -300, 250, 250, moment=465, face=EACH_ALONE, bond=1), "REI 60, the one tenth that may be taken"
    yield from equal_cuts()
    yield from deep_cuts()
    for panel, text in grade_walls():
        for face in (FIRST_FACE, LAST_FACE, EACH_ALONE):
            yield faced(panel, face), f"{text}, face {face}"
    for face in (FIRST_FACE, LAST_FACE, EACH_ALONE):
        yield faced(WALL, face), f"wall, face {face}"
        yield faced(falls(behind(WALL, (A, 125)), 65), face), f"wall behind A, falling, face {face}"
    yield falls(behind(WALL, (F, 125), failure_time=41_000), 80), "wall behind F, falling"
    yield floor(250, 150, 200, 150, 250), "floor past its lines"
    yield behind(crossed(20, 20, 20), (O, 200)), "behind O"
    yield from lvl_planing()
    yield layered(*(120, -120) * 4, 120, moment=900, face=EACH_ALONE, rate=100, bond=1), "nine lamellae, face 2"


def lvl_planing():
    """(panel, text): from 20.0 mm on a tenth off gives another rate."""
    yield lvl(200, moment=100), "LVL 20.0, R 15, with a tenth off rate 66 and R 14"
    yield lvl(200, moment=100, bond=0), "CLT 20.0, R 15"
    yield lvl(201, moment=105), "LVL 20.1"
    yield LVL_THIN, "LVL 15.0"
    yield lvl(100, moment=10), "LVL 10.0, no cut"
    yield LVL_FLOOR, "LVL 30.0 and 30.0"
    yield lvl(100, 101, moment=10), "LVL 10.0 and 10.1, 20.0 mm are left"
    for face in (FIRST_FACE, LAST_FACE, EACH_ALONE):
        yield faced(lvl(200, 110, 250, strength=400, moment=1_500), face), f"LVL 20.0, 11.0 and 25.0, face {face}"
    yield behind(lvl(210, moment=100), (A, 125)), "LVL 21.0 behind A"
    yield behind(lvl(205, moment=100), (F, 125), failure_time=30_000), "LVL 20.5 behind F"


def equal_cuts():
    """(panel, text): as much at several places, of which the nearest to the fire is named."""
    for face, text, panels in (
            (FIRST_FACE, "face 0", (((-200, 250, -101), 2_340, 50, 0), ((-101, -150, 200), 1_050, 65, 0), ((-150, 120, 110, 250), 550, 100, 0))),
            (LAST_FACE, "face 1", (((-150, 300, 300), 1_612, 50, 0), ((200, 100, 250), 7_908, 80, 1), ((150, 300, -150, 200), 534, 100, 0))),
            (EACH_ALONE, "face 2", (((200, 200), 21, 100, 0), ((110, -100, 250, -100), 1_723, 65, 0), ((110, -200, 200), 157, 100, 0),
                                    ((-250, 110, 300, -250), 3_699, 50, 0)))):
        for lamellae, moment, rate, bond in panels:
            yield layered(*lamellae, moment=moment, face=face, rate=rate, bond=bond), f"equal at several places, {text}, {len(lamellae)} lamellae, rate {rate}"


def deep_cuts():
    """(panel, text): nothing less than most of a lamella lowers the grade."""
    yield (faced(behind(layered(600, -600, 200, moment=796, rate=54, bond=1)._replace(strength=400), (F, 250), (F, 150),
                        failure_time=80_601, gap=1), LAST_FACE), "49.9 mm off the lamella farthest from the fire")


def planing_cases():
    """(record, text)"""
    for panel, text in planing_panels():
        yield peer.encode(panel), text
    yield peer.encode(G._replace(moment=43_057)), "a refused record, so a blank panel"
    yield b"", "no byte, so G"


# ---------------------------------------------------------------- Raw panels
# Raw panels: what no record gives too. Where nothing else is said a panel is asked for minute 60 and a depth of 25.0 mm.

FULL_BOARD, FULL_LAMELLA = Board(255, 65_535, 255), (255, 65_535)
GREATEST_COUNT = 2 ** 64 - 1


def full(panel):
    """The panel with every unused place at its greatest."""
    return raw(panel, unused_boards=(FULL_BOARD,) * 2, unused=(FULL_LAMELLA,) * 9)


def raw_panels():
    """(raw panel, text): one number out of its limits, or none."""
    for panel, text in given_panels():
        yield raw(panel), text
    yield raw(G._replace(lamellae=()), unused=G.lamellae), "count 0"
    for count in (10, GREATEST_COUNT):
        yield raw(G._replace(lamellae=((ALONG, 300),) * 9), count=count), f"count {count:,}"
    yield raw(two(A, H), boards=3), "A over H, 3 boards counted"
    yield raw(two(A, H), boards=255), "A over H, 255 boards counted"
    yield raw(two(A, H), boards=1), "A over H, one board counted"
    yield raw(two(A, H), boards=0), "A over H, no board counted"
    yield b"", "no numbers"


def given_panels():
    """(panel, text)"""
    yield G, "G"
    yield G._replace(bond=255), "bond 255"
    yield G._replace(bond=3), "bond 3"
    yield from lvl_refused()
    yield G._replace(gap=2), "gap 2"
    yield G._replace(rate=255), "rate 255"
    yield G._replace(strength=65_535), "strength 65,535"
    for moment in (2 ** 32 - 1, 43_057, 43_056):
        yield G._replace(moment=moment), f"moment {moment:,}"
    yield one(ord("B")), "unknown type B"
    yield one(0), "type 0"
    yield two(H, ord("f")), "unknown type f under H"
    yield two(F, A, failure_time=49_000), "F over A"
    yield two(A, F), "F under A"
    yield two(H, F), "F under H"
    yield two(A, H), "A over H"
    yield two(F, F, failure_time=49_000), "F over F"
    yield two(F, F, failure_time=48_999), "F over F, failure before charring"
    yield one(thickness=65_535), "board thickness 65,535"
    yield one(H, joint=255), "joint coefficient 255"
    yield one(F, failure_time=2 ** 32 - 1), "failure time 4,294,967,295 of F"
    yield clad(failure_time=2 ** 32 - 1), "failure time 4,294,967,295, unclad"
    yield clad(*(Board(F, 65_535, 255),) * 2, failure_time=2 ** 32 - 1), "two F at their greatest"
    yield one(O, 200), "O 20.0"
    yield one(P, 401), "P 40.1"
    yield one(O, 65_535), "O of 65,535"
    yield one(P, 400, failure_time=44_444), "P 40.0, t_ch given"
    yield two(O, A), "O over A"
    yield two(A, O), "O under A"
    yield two(P, P), "P over P"
    nine = G._replace(lamellae=((ALONG, 400),) * 9)
    yield nine._replace(moment=greatest_moment(nine)), "count 9, arrays full"
    yield G._replace(lamellae=((ALONG, 445),) * 9), "count 9, sum 4,005"
    yield G._replace(lamellae=((ALONG, 65_535),) * 9), "nine lamellae of 65,535"
    yield G._replace(lamellae=((ALONG, 65_535),)), "one lamella of 65,535"
    yield G._replace(lamellae=((255, 300), (255, 400), (255, 300))), "direction 255"
    yield G._replace(lamellae=((ACROSS, 300), (ACROSS, 400), (ACROSS, 300))), "all across"
    yield G._replace(lamellae=((ALONG, 0), (ACROSS, 0), (ALONG, 0))), "thickness 0"
    yield G._replace(lamellae=G.lamellae + (FULL_LAMELLA,)), "a full place used"
    loose = G._replace(bond=255)
    for panel, version, face, text in (
            (G, 0, 0, "version 0"), (G, 3, 0, "version 3"), (G, 0, 3, "version 0, face 3"), (G, 1, 1, "version 1, face 1"),
            (G, 1, 2, "version 1, face 2"), (G, 1, 3, "version 1, face 3"), (G, 2, 0, "version 2, face 0"),
            (G, 2, 1, "version 2, face 1"), (G, 2, 2, "version 2, face 2"), (G, 2, 3, "version 2, face 3"),
            (G, 2, 255, "version 2, face 255"), (loose, 3, 0, "version 3, bond 255"), (loose, 1, 1, "version 1, face 1, bond 255"),
            (loose, 2, 2, "version 2, face 2, bond 255")):
        yield panel._replace(version=version, face=face), text


# 20 along, 30 across, 40 along, falling, as its faces differ in every answer.
FALLING = WALL._replace(bond=1, moment=3_000)


def unused_panels():
    """(raw panel, text): the same answers with every unused place full and with every one 0."""
    yield full(G), "unused places full"
    for panel, text in ((LVL_THIN, "LVL 15.0"), (behind(LVL_FLOOR, (A, 125)), "LVL 30.0 and 30.0 behind A")):
        for face in (FIRST_FACE, EACH_ALONE):
            yield full(faced(panel, face)), f"{text}, face {face}, unused places full"
            yield raw(faced(panel, face)), f"{text}, face {face}, unused places 0"
    for face in (FIRST_FACE, LAST_FACE, EACH_ALONE):
        for boards, name in (((), "wall"), ((Board(A, 125, 100),), "wall behind A"), ((Board(A, 125, 100), Board(H, 125, 100)), "wall behind A and H")):
            wall = faced(FALLING._replace(boards=boards), face)
            yield full(wall), f"{name}, face {face}, unused places full"
            yield raw(wall), f"{name}, face {face}, unused places 0"


# A number past each line's limit, in the table's order.
FAULTS = ((2, {"version": 0}), (16, {"face": 3}), (3, {"bond": 3}), (4, {"rate": 49}), (5, {"strength": 0}), (7, {"boards": (Board(0, 125, 100),)}),
          (8, {"boards": (Board(A, 89, 100),)}), (9, {"failure_time": 1}), (10, {"lamellae": ()}), (11, {"lamellae": ((ALONG, 99),)}),
          (17, {"bond": LVL}), (12, {"lamellae": ((ACROSS, 300),)}), (13, {"moment": 43_057}))


def minute_panels():
    """(raw panel, minute, text): 15 is looked at last."""
    for minute in (0, 360, 361, 65_535):
        yield raw(faced(G, EACH_ALONE)), minute, f"G, face 2, minute {minute:,}"
    for refusal, fault in FAULTS:
        panel = faced(G, FIRST_FACE)._replace(**fault)
        assert peer.panel_refusal(panel) == refusal
        for minute in (361, 65_535):
            yield raw(panel), minute, f"meets {refusal}, minute {minute:,}"


def corrected_panels():
    """(raw panel, text): every number at its greatest, and one after the other put right, until there is nothing to refuse."""
    panel = Panel(255, 255, 255, 255, 255, 65_535, 2 ** 32 - 1, 2 ** 32 - 1, (FULL_BOARD,) * 2, (FULL_LAMELLA,) * 9)
    yield raw(panel, GREATEST_COUNT, 255), "all fields at their greatest"
    outer, inner = panel.boards
    for text, right in (
            ("version", {"version": 2}), ("face", {"face": EACH_ALONE}), ("bond", {"bond": 1}), ("gap", {"gap": 1}), ("rate", {"rate": 100}),
            ("strength", {"strength": 400}), ("moment", {"moment": 1_000_000}),
            ("outer letter", {"boards": (outer._replace(kind=F), inner)}),
            ("inner letter", {"boards": (outer._replace(kind=F), inner._replace(kind=F))}),
            ("outer thickness", {"boards": (Board(F, 250, 255), inner._replace(kind=F))}),
            ("inner thickness", {"boards": (Board(F, 250, 255), Board(F, 250, 255))}),
            ("outer joint", {"boards": (Board(F, 250, 100), Board(F, 250, 255))}),
            ("inner joint", {"boards": (Board(F, 250, 100), Board(F, 250, 100))}),
            ("failure time", {"failure_time": 360_000})):
        panel = panel._replace(**right)
        yield raw(panel, GREATEST_COUNT, 255), f"put right up to the {text}"
    yield raw(panel), "put right up to the count"
    for text, lamellae in (
            ("range of the directions", ((ACROSS, 65_535),) * 9), ("range of the thicknesses", ((ACROSS, 600),) * 9),
            ("sum of the thicknesses", ((ACROSS, 444),) * 9), ("last lamella, along", ((ACROSS, 444),) * 8 + ((ALONG, 444),)),
            ("others, along", ((ALONG, 444),) * 9)):
        panel = panel._replace(lamellae=lamellae)
        yield raw(panel), f"put right up to the {text}"
    panel = panel._replace(bond=LVL, lamellae=((ACROSS, 444),) * 9)
    yield raw(panel), "of LVL, put right up to the sum of the thicknesses"
    for text, right in (("others, along", {"lamellae": ((ALONG, 444),) * 9}), ("rate", {"rate": 65})):
        panel = panel._replace(**right)
        yield raw(panel), f"of LVL, put right up to the {text}"


def raw_cases():
    """(raw panel, minute, depth, text)"""
    for data, text in list(raw_panels()) + list(unused_panels()):
        yield data, 60, 250, text
    for data, minute, text in minute_panels():
        yield data, minute, 250, text
    for minute in (360, 361):
        for data, text in corrected_panels():
            yield data, minute, 2 ** 32 - 1, f"{text}, minute {minute}"


# Places of a raw panel.
RAW_VERSION, RAW_FACE, RAW_BOND, RAW_RATE, RAW_OUTER, RAW_INNER = 0, 1, 2, 3, programs.BOARDS_AT + 1, programs.BOARDS_AT + 5
RAW_COUNT = programs.COUNT_AT + 7  # its lowest byte


def each_cases():
    """(place, raw panel, minute, depth, text)"""
    for at, data, text in (
            (RAW_OUTER, raw(one(A, 225)), "letter of a lone board of 22.5 mm"),
            (RAW_OUTER, raw(one(F, 125, failure_time=49_000)), "letter of a lone board of 12.5 mm, given 49,000"),
            (RAW_INNER, raw(two(H, A)), "letter under H"),
            (RAW_INNER, raw(two(F, F, failure_time=49_000)), "letter under F, given 49,000"),
            (RAW_OUTER, raw(two(A, H)), "letter over H"),
            (RAW_VERSION, raw(G), "version"),
            (RAW_FACE, raw(faced(FALLING, FIRST_FACE)), "face in version 2"),
            (RAW_BOND, raw(lvl(120, 120)), "bond, all along"),
            (RAW_RATE, raw(LVL_THIN), "rate of LVL"),
            (programs.DIRECTIONS_AT + 1, raw(lvl(120, 120)), "second direction of LVL"),
            (RAW_COUNT, raw(G._replace(lamellae=((ALONG, 110), (ACROSS, 110)) * 4 + ((ALONG, 110),), moment=10)), "count"),
            (programs.DIRECTIONS_AT, raw(G), "first direction")):
        yield at, data, 60, 250, text


def pair_cases():
    """(raw panel, raw panel, text)"""
    fast, loose = G._replace(rate=255), G._replace(bond=255)
    yield raw(G), raw(G), "unused places 0"
    yield full(G), raw(G), "unused places full and 0"
    yield raw(fast), raw(loose), "the first meets 4, the second 3"
    yield raw(loose), raw(fast), "the first meets 3, the second 4"
    yield raw(G), raw(loose), "the second alone meets 3"
    other = G._replace(strength=400, moment=0)
    yield raw(other, unused=((ALONG, 7),) * 6), raw(G), "other strength, moment and unused places"
    yield raw(other._replace(bond=1), unused=((ALONG, 7),) * 6), raw(G), "other bond too"
    yield full(LVL_THIN), raw(LVL_THIN._replace(moment=0)), "LVL, unused places full and 0"
    yield full(LVL_THIN), raw(LVL_THIN._replace(bond=0)), "LVL and CLT, unused places full and 0"
    for face in (LAST_FACE, EACH_ALONE):
        yield full(faced(FALLING, face)), raw(faced(FALLING, face)), f"walls, face {face}, unused places full and 0"
    yield full(FALLING), raw(faced(FALLING, FIRST_FACE)), "versions 1 and 2, face 0"
    yield full(FALLING), raw(faced(FALLING, LAST_FACE)), "version 1 and face 1"
    yield full(faced(FALLING, LAST_FACE)), raw(faced(FALLING, EACH_ALONE)), "faces 1 and 2"
    yield full(FALLING._replace(face=1)), raw(FALLING._replace(version=3)), "the first meets 16, the second 2"
    yield full(FALLING._replace(version=0)), raw(faced(FALLING, 3)), "the first meets 2, the second 16"
    yield full(one()), raw(one()), "behind A, unused places full and 0"
    yield full(one()), raw(two(A, A)), "behind A and behind two A"
    yield raw(two(A, H), boards=1), raw(one()), "behind A, an inner board that is not counted"
    yield raw(two(A, H), boards=255), raw(two(A, H)), "two boards counted as 255"
    yield raw(G, unused=((ALONG, 300),)), raw(G._replace(lamellae=G.lamellae + ((ALONG, 300),))), "a lamella more"
    for a, b in ((GREATEST_COUNT, 10), (10, 0), (3, 10), (0, 3)):
        yield raw(G, count=a), raw(G, count=b), f"counts {a:,} and {b:,}"
    for (first, fault), (second, other) in zip(FAULTS, FAULTS[1:]):
        a, b = faced(G, FIRST_FACE)._replace(**fault), faced(G, FIRST_FACE)._replace(**other)
        yield raw(b), raw(a), f"the first meets {second}, the second {first}, raw"


def start_cases():
    """(raw panel, text)"""
    a, f = Board(A, 125, 100), Board(F, 125, 100)
    for gap, boards, text in (
            (0, (), "unclad"), (0, (a,), "of A 12.5"), (1, (a,), "of A 12.5, wide gap"), (0, (a, a), "of two A 12.5"),
            (0, (f, f), "of two F 12.5"), (1, (f, f), "of two F 12.5, wide gap"), (1, (Board(H, 90, 100),), "of H 9.0, wide gap"),
            (0, (Board(O, 200, 100),), "of O 20.0"), (1, (Board(O, 200, 100),), "of O 20.0, wide gap"),
            (0, (Board(P, 400, 100),), "of P 40.0")):
        yield raw(peer.BLANK._replace(gap=gap, boards=boards)), f"t_ch {text}"
        yield full(G._replace(gap=gap, boards=boards)), f"t_ch {text}, unused places full"


# ---------------------------------------------------------------- Files

# the word of the call: its cases
CASES = {"read": record_cases, "write": write_cases, "build": build_cases,
         "section": section_cases, "carried": carried_cases,
         "char": char_cases, "table": table_cases,
         "time": time_cases, "sum": sum_cases, "grade": grade_cases, "rei": rei_cases,
         "card": card_cases, "refusal": refusal_cases, "load": panel_record_cases, "seconds": seconds_cases,
         "reserve": reserve_cases,
         "loadgrade": grade_panel_cases, "eigrade": grade_panel_cases, "reigrade": grade_panel_cases,
         "planing": planing_cases,
         "panel": raw_cases, "each": each_cases, "pair": pair_cases, "start": start_cases}

# a file of `cards`: the record in it
CARD_FILES = {"empty": b"", "one_byte": ONE_BYTE, "long": peer.encode(faced(LONGEST, FIRST_FACE)) + bytes(1),
              "refused": peer.encode(G._replace(moment=43_057)),
              "last_face": peer.encode(faced(behind(WALL, (A, 125)), LAST_FACE)),
              "each_face": peer.encode(faced(behind(WALL, (A, 125)), EACH_ALONE)), "face_3": patched(g_each, FACE, 3),
              "lvl": peer.encode(LVL_FLOOR)}


def store(path, data):
    os.makedirs(os.path.dirname(path), exist_ok=True)
    with open(path, "wb") as out:
        out.write(data)


def store_files(repository, program, files):
    """Of a program that is given files, (what is read, what must be printed) by their names: its data, its arguments and its output."""
    folder = os.path.join(repository, "crates", program)
    shutil.rmtree(os.path.join(folder, "data"), ignore_errors=True)
    for name, (given, _) in files.items():
        store(os.path.join(folder, "data", name), given)
        print(f"{program}, {name}: {len(given)} bytes")
    store(os.path.join(folder, "args"), "".join(f"{name}\n" for name in files).encode())
    store(os.path.join(folder, "stdout"), b"".join(expected for _, expected in files.values()))


def called_lines(name):
    """What the test program reads of a file, and what it must print of it."""
    given, expected = "", ""
    for call in programs.FILES[name]:
        cases = list(CASES[call]())
        asked, answered = programs.lines(call, cases)
        assert len(set(asked.split("\n"))) == len(cases) + 1, f"{call}: a case twice"
        print(f"{call}: {len(cases)} cases")
        given, expected = given + asked, expected + answered
    assert len(given) < 65_536, "the program takes no longer file"
    return given.encode(), expected.encode()


def main():
    repository = needs.arguments(__doc__).parse_args().repository
    store_files(repository, programs.PROGRAM, {name: called_lines(name) for name in programs.FILES})
    store_files(repository, "cards", {name: (record, peer.text_lines(record)) for name, record in CARD_FILES.items()})
    store(os.path.join(repository, "crates/card/stdin"), g)
    store(os.path.join(repository, "crates/card/stdout"), peer.text_lines(g))


if __name__ == "__main__":
    main()
