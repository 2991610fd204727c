"""What the test program reads and must print, by peer.py: for a case the line of a file of test_calls/data and the line of `stdout`, after the
word of its call. Below the line of a written card or refusal stand its own lines, as they are in the lent space; below that of an accepted
raw panel what each call answers."""
import peer

SPACE = 64     # bytes of the writers' array
FILLED = 238   # what stands in them before
ENTRIES = 400  # numbers of the depth table's array
ENTRY = 7      # what stands in them before


def word(record):
    return record.hex() or "-"


def panel_of(record):
    """The panel that the program hands on: BLANK where the record is refused."""
    return peer.decode(record)[1]


def refused(number):
    return f"refused {number}"


def said(answer):
    """A number or a word, or the refusal."""
    refusal, value = answer
    return refused(refusal) if refusal else str(value)


def of_accepted(panel, answer):
    """What is answered of an accepted panel, or the refusal."""
    refusal = peer.panel_refusal(panel)
    return refused(refusal) if refusal else answer(panel)


def read_line(record, text):
    return f"{word(record)} {text}"


def read_answer(record, text):
    refusal, panel = peer.decode(record)
    if refusal:
        return f"{refusal} {text}"
    return f"0 {'same' if peer.encode(panel) == record else 'differs'} {text}"


def write_line(space, record, text):
    return f"{space} {word(record)} {text}"


def written(panel, space):
    """The writer's answer, and all of its array."""
    filled = bytes([FILLED] * SPACE)
    answer, after = peer.write(panel, filled[:space])
    return answer, after + filled[space:]


def write_said(panel, space):
    (answer, number), after = written(panel, space)
    return f"{answer} {number} {after.hex()}"


def write_answer(space, record, text):
    return f"{write_said(panel_of(record), space)} {text}"


def section_line(depth, record, text):
    return f"{depth} {word(record)} {text}"


def section_said(panel, depth):
    def of(accepted):
        *numbers, passes = peer.section(accepted, depth)
        return f"{' '.join(map(str, numbers))} {'passes' if passes else 'fails'}"
    return of_accepted(panel, of)


def section_answer(depth, record, text):
    return f"{section_said(panel_of(record), depth)} {text}"


def carried_answer(depth, record, text):
    """The section is carried no further than to the panel's thickness."""
    return section_answer(min(depth, peer.thickness_of(panel_of(record).lamellae)), record, text)


def compared_refusal(a, b):
    """Of two panels the first is checked before the second."""
    return peer.panel_refusal(a) or peer.panel_refusal(b)


def compared(a, b):
    return said((compared_refusal(a, b), "same" if peer.same_build(a, b) else "different"))


def build_line(a, b, text):
    return f"{word(a)} {word(b)} {text}"


def build_answer(a, b, text):
    return f"{compared(panel_of(a), panel_of(b))} {text}"


# the kind in a line of `time`: its table
TIMES = {"bp": "gypsum_protection", "bi": "gypsum_insulation", "lp": "wood_protection", "li": "wood_insulation",
         "op": "osb_protection", "oi": "osb_insulation", "pp": "particle_board_protection", "pi": "particle_board_insulation"}


def time_line(kind, thickness, text):
    return f"{kind} {thickness} {text}"


def time_answer(kind, thickness, text):
    return f"{said(peer.bare_time(TIMES[kind], thickness))} {text}"


def sum_line(record, text):
    return f"{word(record)} {text}"


def sum_said(panel):
    return of_accepted(panel, lambda accepted: f"{peer.ei_sum(accepted)} EI {peer.ei_minute(accepted)}")


def sum_answer(record, text):
    return f"{sum_said(panel_of(record))} {text}"


def grade_line(minute, text):
    return f"{minute} {text}"


def grade_answer(minute, text):
    return f"{said((peer.minute_refusal(minute), peer.grade(minute)))} {text}"


def rei_line(r, ei, text):
    return f"{r} {ei} {text}"


def rei_answer(r, ei, text):
    return f"{said((peer.minute_refusal(r, ei), peer.rei(r, ei)))} {text}"


def char_line(minute, record, text):
    return f"{minute} {word(record)} {text}"


def phase_word(phase):
    return phase if isinstance(phase, str) else f"fast {phase[1]}"


def asked_refusal(panel, minute):
    return peer.panel_refusal(panel) or peer.minute_refusal(minute)


def char_said(panel, minute):
    refusal = asked_refusal(panel, minute)
    if refusal:
        return refused(refusal)
    return f"{peer.micrometres(panel, minute)} {peer.effective_tenths(panel, minute)} {phase_word(peer.char(panel, minute)[1])}"


def char_answer(minute, record, text):
    return f"{char_said(panel_of(record), minute)} {text}"


def table_line(space, record, text):
    return f"{space} {word(record)} {text}"


def filled(panel, space):
    """The refusal, and all of the table's array."""
    before = [ENTRY] * ENTRIES
    refusal, after = peer.fill_table(panel, before[:space])
    return refusal, after + before[space:]


def table_said(panel, space):
    refusal, after = filled(panel, space)
    numbers = [sum(after), sum(i * entry for i, entry in enumerate(after))] + [after[i] for i in (0, 90, 360, 361)]
    return f"{said((refusal, 'filled'))} {' '.join(map(str, numbers))}"


def table_answer(space, record, text):
    return f"{table_said(panel_of(record), space)} {text}"


def written_answer(refusal, text, written):
    """How many bytes were written, that the space past them is the same (on a refusal all of it), and the bytes themselves."""
    if refusal:
        return f"{refused(refusal)} same {text}"
    return f"{len(written)} same {text}\n{written.decode('ascii').removesuffix(chr(10))}"


def card_line(record, space, text):
    return f"{word(record)} {space} {text}"


def card_answer(record, space, text):
    return written_answer(peer.card_call(record, space)[0], text, peer.text_lines(record))


def refusal_line(number, space, text):
    return f"{number} {space} {text}"


def refusal_answer(number, space, text):
    return written_answer(peer.refusal_call(number, space)[0], text, peer.refusal_text(number))


def load_line(record, text):
    return f"{word(record)} {text}"


def load_said(panel):
    return of_accepted(panel, lambda accepted: str(peer.load_minute(accepted)))


def load_answer(record, text):
    return f"{load_said(panel_of(record))} {text}"


def seconds_line(record, text):
    return f"{word(record)} {text}"


def seconds_said(panel):
    refusal, (minutes, seconds) = peer.time_answer(panel)
    return said((refusal, f"{minutes} {seconds}"))


def seconds_answer(record, text):
    return f"{seconds_said(panel_of(record))} {text}"


def reserve_line(record, wanted, text):
    return f"{word(record)} {wanted} {text}"


def reserve_answer(record, wanted, text):
    return f"{said(peer.reserve(panel_of(record), wanted))} {text}"


def panel_grade_line(record, text):
    return f"{word(record)} {text}"


def panel_grade_answer(grade_of):
    return lambda record, text: f"{said(grade_of(panel_of(record)))} {text}"


def planing_line(record, text):
    return f"{word(record)} {text}"


def planing_said(panel):
    refusal, cut = peer.planing(panel)
    return said((refusal, "none" if cut is None else f"place {cut[0]} tenths {cut[1]}"))


def planing_answer(record, text):
    return f"{planing_said(panel_of(record))} {text}"


# ---------------------------------------------------------------- Raw panels
# A raw panel gives every number of a panel and both arrays whole, at fixed places. It is not of the paper, but the program's own: that a
# call takes a panel of any numbers, and looks at no unused place, is what it asks.

RAW = 59                # bytes
BOARDS_AT = 15          # the number of boards; two boards follow, the outer first, counted or not
COUNT_AT = 24           # the number of lamellae, of 8 bytes
DIRECTIONS_AT = 32      # nine bytes
THICKNESSES_AT = 41     # nine numbers of 2 bytes
NO_BOARD, NO_LAMELLA = peer.Board(0, 0, 0), (0, 0)


def raw(panel, count=None, boards=None, unused_boards=(), unused=()):
    """The bytes of a panel with at most two boards; `count` and `boards` are the numbers where they are not the panel's own, and what is in
    the unused places follows."""
    two = (panel.boards + tuple(unused_boards) + (NO_BOARD,) * 2)[:2]
    nine = (panel.lamellae + tuple(unused) + (NO_LAMELLA,) * 9)[:9]
    out = bytes([panel.version, panel.face, panel.bond, panel.rate, panel.gap])
    out += panel.strength.to_bytes(2, "big") + panel.moment.to_bytes(4, "big") + panel.failure_time.to_bytes(4, "big")
    out += bytes([len(panel.boards) if boards is None else boards])
    for board in two:
        out += bytes([board.kind]) + board.thickness.to_bytes(2, "big") + bytes([board.joint])
    out += (len(panel.lamellae) if count is None else count).to_bytes(8, "big")
    return out + bytes(direction for direction, _ in nine) + b"".join(thickness.to_bytes(2, "big") for _, thickness in nine)


def raw_panel(data):
    """The panel that the bytes give, 0 past their end; a count above nine stands as ten lamellae."""
    data = data.ljust(RAW, b"\0")
    boards = tuple(peer.board_at(data, at) for at in (BOARDS_AT + 1, BOARDS_AT + 5)[:data[BOARDS_AT]])
    count = peer.number(data, COUNT_AT, 8)
    lamellae = tuple((data[DIRECTIONS_AT + i], peer.number(data, THICKNESSES_AT + 2 * i, 2)) for i in range(min(count, 9)))
    if count > 9:
        lamellae += (NO_LAMELLA,)
    return peer.Panel(data[0], data[1], data[2], data[3], data[4], peer.number(data, 5, 2), peer.number(data, 7, 4), peer.number(data, 11, 4),
                      boards, lamellae)


def raw_word(data):
    """Zeros at the end may be left out."""
    return word(data.rstrip(b"\0"))


def refusals(panel, minute):
    """Of every open call that takes a panel, in the order in which the program prints them."""
    own, asked = peer.panel_refusal(panel), asked_refusal(panel, minute)
    (answer, _), (answer_none, number_none) = written(panel, SPACE)[0], written(panel, 0)[0]
    assert (answer == "refused") == bool(own) and answer_none == "refused", panel
    return [own, own, own, compared_refusal(panel, peer.G), compared_refusal(peer.G, panel),  # limits: two checks, section; same_build twice
            own, own,                                                                      # layers: ei_sum, ei
            asked, asked, asked, asked, filled(panel, ENTRIES)[0], filled(panel, 0)[0],     # asked; of phases its three calls, depth_table
            own, peer.time_answer(panel)[0], peer.reserve(panel, minute)[0],               # load: load_minute, load_time, reserve
            peer.load_grade(panel)[0], peer.ei_grade(panel)[0], peer.rei_grade(panel)[0],  # ratings
            peer.planing(panel)[0], own, number_none]                                      # planing; write with room and with none


def refusals_said(panel, minute):
    numbers = refusals(panel, minute)
    return f"all {numbers[0]}" if len(set(numbers)) == 1 else " ".join(map(str, numbers))


def past_kept(panel):
    """Whether the lent spaces of the writer and of the table, with room and with none, are unchanged past what was written."""
    for space in (SPACE, 0):
        (answer, number), after = written(panel, space)
        length = number if answer == "written" else 0
        if after[length:] != bytes([FILLED] * (SPACE - length)):
            return False
    for space in (ENTRIES, 0):
        refusal, after = filled(panel, space)
        length = 0 if refusal else 361
        if after[length:] != [ENTRY] * (ENTRIES - length):
            return False
    return True


def values(panel, minute, depth):
    """(word, answer) of each call of an accepted panel."""
    return [("section", section_said(panel, depth)), ("build", compared(panel, peer.G)), ("build", compared(peer.G, panel)),
            ("sum", sum_said(panel)), ("char", char_said(panel, minute)), ("table", table_said(panel, ENTRIES)),
            ("load", load_said(panel)), ("seconds", seconds_said(panel)), ("reserve", said(peer.reserve(panel, minute))),
            ("loadgrade", said(peer.load_grade(panel))), ("eigrade", said(peer.ei_grade(panel))),
            ("reigrade", said(peer.rei_grade(panel))), ("planing", planing_said(panel)), ("write", write_said(panel, SPACE))]


def all_calls(panel, minute, depth, text):
    """The refusals in one line, and below it what the calls answer, where the panel is accepted."""
    lines = [f"{refusals_said(panel, minute)} {'kept' if past_kept(panel) else 'changed'} {text}"]
    if not peer.panel_refusal(panel):
        lines += [f"  {call} {answer}" for call, answer in values(panel, minute, depth)]
    return "\n".join(lines)


def panel_line(data, minute, depth, text):
    return f"{raw_word(data)} {minute} {depth} {text}"


def panel_answer(data, minute, depth, text):
    return all_calls(raw_panel(data), minute, depth, text)


def each_line(at, data, minute, depth, text):
    return f"{at} {raw_word(data)} {minute} {depth} {text}"


def each_answer(at, data, minute, depth, text):
    """With each of the 256 bytes at a place; past the end there is none to change."""
    lines = [f"{at} {text}"]
    for byte in range(256):
        changed = data[:at].ljust(at, b"\0") + bytes([byte]) + data[at + 1:] if at < RAW else data
        lines.append(all_calls(raw_panel(changed), minute, depth, f"{byte:02x}"))
    return "\n".join(lines)


def pair_line(a, b, text):
    return f"{raw_word(a)} {raw_word(b)} {text}"


def pair_answer(a, b, text):
    return f"{compared(raw_panel(a), raw_panel(b))} {text}"


def start_line(data, text):
    return f"{raw_word(data)} {text}"


def start_answer(data, text):
    return f"{peer.t_ch(raw_panel(data))} {text}"


PROGRAM = "test_calls"

# the file: the word of the call: (what follows it in the file, what follows it in stdout)
FILES = {
    "records": {
        "read": (read_line, read_answer),
        "write": (write_line, write_answer),
    },
    "builds": {
        "build": (build_line, build_answer),
    },
    "sections": {
        "section": (section_line, section_answer),
        "carried": (section_line, carried_answer),
    },
    "charring": {
        "char": (char_line, char_answer),
        "table": (table_line, table_answer),
    },
    "layers": {
        "time": (time_line, time_answer),
        "sum": (sum_line, sum_answer),
        "grade": (grade_line, grade_answer),
        "rei": (rei_line, rei_answer),
    },
    "cards": {
        "card": (card_line, card_answer),
        "refusal": (refusal_line, refusal_answer),
        "load": (load_line, load_answer),
        "seconds": (seconds_line, seconds_answer),
        "reserve": (reserve_line, reserve_answer),
    },
    "grades": {
        "loadgrade": (panel_grade_line, panel_grade_answer(peer.load_grade)),
        "eigrade": (panel_grade_line, panel_grade_answer(peer.ei_grade)),
        "reigrade": (panel_grade_line, panel_grade_answer(peer.rei_grade)),
    },
    "planing": {
        "planing": (planing_line, planing_answer),
    },
    "panels": {
        "panel": (panel_line, panel_answer),
        "each": (each_line, each_answer),
        "pair": (pair_line, pair_answer),
        "start": (start_line, start_answer),
    },
}
CALLS = {call: pair for calls in FILES.values() for call, pair in calls.items()}


def asked(call, case):
    return f"{call} {CALLS[call][0](*case)}\n"


def answered(call, case):
    return f"{call} {CALLS[call][1](*case)}\n"


def lines(call, cases):
    """What is read and what must be printed for the cases of one call."""
    return "".join(asked(call, case) for case in cases), "".join(answered(call, case) for case in cases)
