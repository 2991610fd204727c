"""check.py [N]: holds peer.py to the figures of documents 01 and 02 and of the notes on its readings, R and RS to their definition on the
panels of test_calls/data/cards, in either fire, and on N random ones, the last face's fire to that of a panel recorded the other way round, cuts
to the grades of the cut panels, and on ten times N panels the sum of the layer times to that in coarser parts of a minute."""
import argparse
import random
from fractions import Fraction
from itertools import chain

import peer
import random_records
from make_cases import (A, F, G, H, LONGEST, LVL_FLOOR, LVL_THIN, O, P, RECOVERS, SHORTEST, SWITCHING, WALL, behind, clad, crossed, faced, falls,
                        load_panels, lvl, lvl_accepted, lvl_faces, one, patched, plate, reading_cases, second_panels, second_walls, two,
                        wall_panels, with_first_lamella, with_length)
from peer import ACROSS, ALONG, Board, EACH_ALONE, FIRST_FACE, LAST_FACE
from random_records import greatest_moment

ROLES = ("protection", "insulation")

PRINTED = b"""CARD 1
CHAR 30 19500 265
CHAR 60 39000 460
CHAR 90 58500 655
CHAR 120 78000 850
R 103 90
RS 103:41
EI 95 90
REI 90
"""


def same(said, expected):
    assert said == expected, f"{said} where {expected} is stated"


def of(record):
    """The panel of an accepted record in hexadecimal."""
    refusal, panel = peer.decode(bytes.fromhex(record))
    same(refusal, 0)
    same(peer.encode(panel).hex(), record)
    return panel


def check_document():
    """Panels worked through, the card, and the shortcuts."""
    same([peer.t_ch(one()), peer.t_ch(one(gap=1)), peer.t_ch(two(F, F))], [21_000, 12_000, 49_000])
    same(peer.char(behind(plate(600), (A, 90)), Fraction(224, 10)), (Fraction(1456, 100), "settled"))
    same(peer.char(behind(plate(600), (A, 125)), 60)[0], Fraction(3785, 100))
    same(peer.k0(one(), 20), Fraction(20, 21))
    same([peer.char(falls(G, 65), minute)[0] for minute in (60, 90)], [48, 72])
    same([peer.panel_refusal(G._replace(moment=moment)) for moment in (43_056, 43_057)], [0, 13])
    same((peer.exact_failure(G), peer.load_time(G)), (Fraction(6_740, 65), (103, 41)))
    same([peer.load_minute(panel) for panel in (G, falls(G, 65), G._replace(moment=0))], [103, 84, 138])
    same([peer.depth_passes(RECOVERS, depth) for depth in (70, 71)], [False, True])
    same([peer.entry(f"gypsum_{role}", 150) for role in ROLES], [30_000, 24_000])
    same([peer.entry(f"wood_{role}", h) for h in (200, 400) for role in ROLES], [30_000, 19_000, 64_306, 50_141])
    same(peer.entry("wood_insulation", 300), 33_518)
    same([peer.ei_sum(panel) for panel in (G, crossed(20, 20, 20)._replace(boards=one().boards))], [95_079, 59_345])
    same([peer.panel_refusal(one(thickness=thickness)) for thickness in (89, 90, 250, 251)], [8, 0, 0, 8])
    same([peer.panel_refusal(with_first_lamella(G, ALONG, thickness)) for thickness in (99, 100)], [11, 0])
    same(peer.text_lines(peer.encode(G)), PRINTED)
    same(peer.text_lines(peer.encode(G._replace(moment=43_057))), b"REFUSED 13\n")
    same([peer.card_call(peer.encode(G), space) for space in (115, 114)], [(0, 115), (14, 0)])


def check_wood_boards():
    """Document 02, 1/14: at 20.0 mm the bases stand in the rules, at 40.0 mm 2^1.1 and 2^1.4 times as much, and charring starts after 20 mm at
    0.90 mm/min."""
    for h, times in ((200, [23_000, 16_000, 33_000, 22_000]), (400, [49_301, 42_224, 70_737, 58_058])):
        same([peer.entry(f"{material}_{role}", h) for material in ("osb", "particle_board") for role in ROLES], times)
    same([peer.ei_sum(panel) for panel in (one(O, 200, gap=1), one(P, 400))], [100_697, 125_984])
    same([peer.t_ch(one(O, 200, gap=gap)) for gap in (0, 1)], [22_222, 22_222])
    for kind in (O, P):
        same([peer.panel_refusal(one(kind, thickness)) for thickness in (199, 200, 400, 401)], [8, 0, 0, 8])
        same([peer.panel_refusal(clad(Board(kind, 200, 100), Board(other, 200, 100))) for other in (A, F, H, O, P)], [7] * 5)
        same([peer.panel_refusal(clad(Board(other, 200, 100), Board(kind, 200, 100))) for other in (A, F, H, O, P)], [7] * 5)
        same(peer.panel_refusal(one(kind, 200, failure_time=1)), 9)


def check_versions():
    """Document 02, 3/14: what is read, refused and written in both versions, and which panels are the same build."""
    g, g2 = peer.encode(G), peer.encode(faced(G, EACH_ALONE))
    same((len(g2), g2[2:4], g2[4:]), (len(g) + 1, bytes([2, 2]), g[3:]))
    same(peer.text_lines(peer.encode(faced(G, FIRST_FACE))), PRINTED.replace(b"CARD 1", b"CARD 2"))
    for panel in (G, faced(G, LAST_FACE), faced(LONGEST, EACH_ALONE)):
        same(peer.decode(peer.encode(panel)), (0, panel))
    same([len(peer.encode(faced(panel, FIRST_FACE))) for panel in (SHORTEST, LONGEST)], [22, 54])
    for panel, refusals in ((LONGEST, [1, 6, 6, 10, 10, 10, 0, 10, 1]), (faced(LONGEST, FIRST_FACE), [1, 6, 6, 6, 10, 10, 10, 0, 1])):
        record = peer.encode(panel) + bytes(2)
        same([peer.decode(with_length(record[:length]))[0] for length in (20, 21, 28, 29, 30, 52, 53, 54, 55)], refusals)
    same([peer.decode(patched(g2, at, byte))[0] for at, byte in ((2, 0), (2, 3), (3, 3), (3, 255))], [2, 2, 16, 16])
    same([peer.panel_refusal(G._replace(version=version, face=face, bond=3)) for version, face in
          ((0, 3), (3, 0), (1, 1), (1, 2), (2, 3), (1, 0), (2, 2))], [2, 2, 16, 16, 16, 3, 3])
    same([peer.same_build(G, other) for other in (faced(G, 0)._replace(moment=0), faced(G, 1), faced(G, 2))], [True, False, False])


def check_no_byte():
    """Document 02, 9/14: G's card and record for no byte; one to 20 bytes meet 1."""
    same((peer.text_lines(b""), peer.encode(peer.decode(b"")[1])), (PRINTED, peer.encode(G)))
    same({peer.decode(bytes([byte]) * length) for byte in (0, 255) for length in range(1, 21)}, {(1, peer.BLANK)})


def check_lvl():
    """Document 02, 10/14: by hand, 15.0 mm are 75² · 150 < 65² · 200 <= 76² · 150, and 20.0 mm of f 240 carry 22 · 240 · 200² / 120,000 N·m."""
    for thickness in range(100, 602):
        rate = peer.charring_rate(lvl(thickness))
        assert rate == 65 if thickness >= 200 else (rate - 1) ** 2 * thickness < 845_000 <= rate ** 2 * thickness, thickness
    same([peer.charring_rate(lvl(*lamellae)) for lamellae in ((100,), (150,), (199,), (200,), (150, 150), (100, 100))], [92, 76, 66, 65, 65, 65])
    same([peer.charring_rate(lvl(150, bond=bond, rate=50)) for bond in (0, 1)], [50, 50])
    same([peer.panel_refusal(lvl(200, moment=moment)) for moment in (1_760, 1_761)], [0, 13])
    same([peer.panel_refusal(lvl(200, moment=moment, bond=0)) for moment in (1_840, 1_841)], [0, 13])
    same((peer.exact_failure(LVL_FLOOR), peer.load_time(LVL_FLOOR), peer.ei_sum(LVL_FLOOR)), (Fraction(654, 13), (50, 18), 61_035))
    same((peer.exact_failure(LVL_THIN), peer.load_time(LVL_THIN)), (Fraction(1_130, 111), (10, 10)))
    same([peer.char(panel, 60)[0] for panel in (LVL_FLOOR, falls(LVL_FLOOR, 65))], [39, 48])
    same(peer.char(behind(LVL_THIN, (A, 90)), 12), (Fraction(1_216, 1_000), ("fast", 1_702_400)))
    same([peer.panel_refusal(panel) for panel in (
        lvl(lamellae=((ACROSS, 300),)), lvl(300, rate=66), lvl(150, rate=76), lvl(300, rate=40), lvl(lamellae=((ACROSS, 99),)), lvl(300, bond=3))],
        [17, 17, 17, 4, 11, 3])
    same([peer.exact_failure(panel) for panel in (lvl(200, moment=100), lvl(199, moment=100))], [Fraction(76, 5), Fraction(1_510, 101)])
    for panel, text in chain(lvl_accepted(), lvl_faces()):
        same((peer.panel_refusal(panel), text), (0, text))
        same(peer.decode(peer.encode(panel)), (0, panel))
        peer.check_load_minute(panel)


def depths(panel):
    """What is told of the fire at times and at depths."""
    return (peer.depth_table(panel), [(peer.char(panel, minute), peer.effective_depth(panel, minute)) for minute in range(0, 361, 7)],
            [peer.section(panel, depth) for depth in range(0, 4_001, 29)])


def check_faces(panel):
    """The last face's fire is the fire on the panel recorded the other way round; for face 2 what is printed is the lesser of the two."""
    first, last, each = (faced(panel, face) for face in (FIRST_FACE, LAST_FACE, EACH_ALONE))
    turned = first._replace(lamellae=panel.lamellae[::-1])
    same(depths(last), depths(turned))
    same(depths(each), depths(first))
    same(peer.card(first).partition(b"\n")[2], peer.card(panel).partition(b"\n")[2])
    same(peer.card(last), peer.card(turned))
    for minute_of in (peer.load_minute, peer.load_time, peer.ei_sum, peer.ei_minute):
        same(minute_of(last), minute_of(turned))
        same(minute_of(each), min(minute_of(first), minute_of(last)))
    same(peer.depth_passes(first, 0), peer.depth_passes(last, 0))


def check_readings():
    """Records on which the document can be read two ways, by the numbers of the notes."""
    same(peer.ei_sum(of("001f0100640100f000000aef010000000048009b0103000092010190000065")), 73_999)  # 1: with ⌊0.6·S⌋ taken off 74,000
    same(peer.ei_sum(of("00230101410000f0000000030200000000480094504100b350030000a501009000007a")), 59_999)  # 2: rounded once 60,000
    same(peer.ei_sum(of("001c0101320001900000000001000000004800960102010190000064")), 65_629)
    panel = of("001f0101500000f0000001f4010000a02846007d640301007c00012c01012c")  # 3
    same(peer.char(panel, 41), (Fraction(124, 10), ("fast", 3_740_000)))
    same((peer.micrometres(panel, 60), peer.effective_tenths(panel, 60)), (40100, 471))
    same(peer.micrometres(of("001f0101500000f0000001f4010001155846007d640301013600012c01012c"), 90), 58700)  # 4
    same(peer.micrometres(of("00190100410000f0000001f40100002bc046005a6401010258"), 30), 19500)  # 5
    panel = of("001f0101410000f0000001f4010000000041007d640301006400012c01012c")  # 6
    same([peer.char(panel, minute)[1] for minute in (22, 29)], [("fast", 2_500_000), ("fast", 3_500_000)])
    same(peer.char(of("00190100640100f0000000000100057e4046005a6401010064"), 15)[1], "settled")  # 7
    for record, refusal in (("00150100410000f000000000000000000002010064", 10), ("00150100410000f000000000000000000102010064", 9),
                            ("001c0100410000f000000000020000000058005a6441000964010100", 6)):  # 8
        same(peer.text_lines(bytes.fromhex(record)), b"REFUSED %d\n" % refusal)
    panel = of("00190100500000f0000001f4010000ee4846007d6401010258")
    same((peer.exact_failure(panel), peer.load_minute(panel), peer.load_time(panel)), (83, 83, (83, 0)))
    for moment, failure, time in ((42_000, Fraction(48, 60), (0, 48)), (43_056, 0, (0, 0))):
        panel = G._replace(moment=moment)
        same((peer.exact_failure(panel), peer.load_minute(panel), peer.load_time(panel)), (failure, 0, time))


def check_walls():
    """What the layers of a wall give in the fire on its first face, on its last, and on each alone."""
    sums = [peer.ei_sum(faced(WALL, face)) for face in (FIRST_FACE, LAST_FACE, EACH_ALONE)]
    same((sums, [peer.ei_minute(faced(WALL, face)) for face in (FIRST_FACE, LAST_FACE, EACH_ALONE)]), ([82_340, 88_817, 82_340], [82, 88, 82]))


def check_parts(count):
    """Finer parts of a minute take nothing off: in thousandths a sum is ten times that in hundredths or more, and EI no less."""
    rng = random.Random("parts")
    for number in range(count):
        kind = random_records.at_switch if number % 10 == 0 else lambda rng: random_records.random_panel(rng)._replace(moment=0)
        panel = random_records.any_face(rng, kind(rng))
        same(peer.panel_refusal(panel), 0)
        same((peer.ei_sum(panel, 1_000) >= 10 * peer.ei_sum(panel, 100), peer.ei_minute(panel, 1_000) >= peer.ei_minute(panel, 100)), (True, True))


def check_load_minutes(count):
    for panel, _ in chain(load_panels(), reading_cases(), second_panels(), second_walls(), wall_panels()):
        peer.check_load_minute(faced(panel, EACH_ALONE))
        check_faces(panel)
    rng = random.Random(1)
    kinds = (random_records.random_panel, random_records.failing_about, random_records.failing_at_once, random_records.recovering,
             random_records.failing_past_lines)
    for number in range(count):
        peer.check_load_minute(random_records.any_face(rng, kinds[number % len(kinds)](rng)))


def check_planing(count):
    """The panel of which one tenth lowers, two do not and three do; and that a cut keeps the grade exactly when its own is not below, by R, EI
    and the grade of both."""
    same(peer.planing(SWITCHING), (0, (2, 1)))
    same([peer.rei_grade(peer.planed(SWITCHING, 2, tenths)) for tenths in range(4)], [(0, 45), (0, 30), (0, 45), (0, 30)])
    same([peer.planing(plate(150)._replace(moment=greatest_moment(plate(100)) + more)) for more in (0, 1)], [(0, None), (0, (1, 50))])
    rng = random.Random("planing")
    for _ in range(count):
        panel = random_records.any_face(rng, random_records.thin_panel(rng))
        place = rng.randrange(len(panel.lamellae)) + 1
        most = panel.lamellae[place - 1][1] - peer.LEAST_KEPT
        if most:
            cut = peer.planed(panel, place, rng.randint(1, most))
            refusal, minutes = peer.rei_grade(cut)
            least = peer.rei_grade(panel)[1]
            same(peer.keeps_grade(cut, least), refusal == 0 and minutes >= least)


if __name__ == "__main__":
    words = argparse.ArgumentParser(description=__doc__)
    words.add_argument("count", metavar="N", type=int, nargs="?", default=400)
    count = words.parse_args().count
    check_document()
    check_wood_boards()
    check_versions()
    check_no_byte()
    check_lvl()
    check_readings()
    check_walls()
    check_parts(10 * count)
    check_load_minutes(count)
    check_planing(count)
    print("the peer agrees")
