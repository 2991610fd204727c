"""compare_cards.py REPOSITORY [--records N] [--seed S] [--jobs J] [--cuts C]

Calls the proved functions as C does (target/staticlib/libcard_c.a, by tools/staticlib.sh, made a shared object by cc) on N records and
compares with peer.py: the card, the number answered, and every byte of the lent space. The records, of both versions and every face, are
in turn within the limits, failing at any minute, at once or after a recovery, at a limit, damaged, and with one byte changed, each place
of the record in its turn; the first are all lengths from none to 128 bytes. The space is the longest card's, the very card's, or one byte
less. Then the least cut of C panels of thin lamellae, and of as many of these records that are refused or have no byte. For no byte the
pointer is to nothing that could be read: none may be. It is null too, of which the language promises nothing, and the header keeps its rule.
Before, that the library and its header say which requests are in, as peer.py does.
Ends with status 1 at a disagreement, and prints the record; and where something is missing, and says what.
"""
import ctypes
import multiprocessing
import os
import random
import re
import sys
from collections import Counter

import needs
import peer
import random_records
from random_records import any_face, any_record

LONGEST = 249  # bytes of a card, at most
LENGTHS = 129  # of records that are cut or filled up, from 0 on
LONG = 54      # bytes of a record, at most
ROOM = bytes(1 + i % 255 for i in range(LONGEST + 16))  # what stands in the lent space and behind it


def changed(rng, place):
    """A record with one byte changed; places past its end count from its start again."""
    record = bytearray(any_record(rng, random_records.random_panel(rng)))
    record[place % len(record)] = rng.choice([0, 1, 2, 255, rng.randrange(256), record[place % len(record)] ^ 1])
    return bytes(record)


def of_length(rng, length):
    """A record cut or filled up to a length, with that length in its length field."""
    record = any_record(rng, random_records.random_panel(rng))
    return random_records.with_length((record + rng.randbytes(length))[:length])[:length]


KINDS = (
    lambda rng, number: any_record(rng, random_records.random_panel(rng)),
    lambda rng, number: any_record(rng, random_records.failing_about(rng)),
    lambda rng, number: peer.encode(random_records.at_a_limit(rng, any_face(rng, random_records.random_panel(rng)))),
    lambda rng, number: changed(rng, number // len(KINDS) % LONG),
    lambda rng, number: any_record(rng, random_records.failing_at_once(rng)),
    lambda rng, number: random_records.damaged(rng, any_record(rng, random_records.random_panel(rng))),
    lambda rng, number: any_record(rng, random_records.recovering(rng)),
    lambda rng, number: any_record(rng, random_records.failing_past_lines(rng)),
    lambda rng, number: random_records.random_record(rng),
)


def record_of(seed, number):
    rng = random.Random(f"cards {seed} {number}")
    return of_length(rng, number) if number < LENGTHS else KINDS[number % len(KINDS)](rng, number)


def handed(record):
    """The pointers that are handed over for a record."""
    if not record:
        return [ctypes.c_void_p(1), ctypes.c_void_p(None)]
    return [(ctypes.c_ubyte * len(record)).from_buffer_copy(record)]


def called(function, space, *words):
    """What a function answers, and what it leaves in a lent space; beyond the space nothing may change."""
    room = bytearray(ROOM)
    out = (ctypes.c_ubyte * len(room)).from_buffer(room)
    answer = function(*words, out, ctypes.c_size_t(space))
    return answer, bytes(room)


def expected(text, refusal, space):
    if refusal or space < len(text):
        return -(refusal or 14), ROOM
    return len(text), text + ROOM[len(text):]


def differs(library, seed, number):
    """The refusal that peer.py says, and the record where the library says something else."""
    record = record_of(seed, number)
    refusal, panel = peer.decode(record)
    card = b"" if refusal else peer.card(panel)
    said = peer.refusal_text(refusal or number % 256)
    agree = [called(library.yurbantse_card, space, given, ctypes.c_size_t(len(record))) == expected(card, refusal, space)
             for given in handed(record) for space in {LONGEST, len(card), max(0, len(card) - 1)}]
    agree += [called(library.yurbantse_refusal, space, ctypes.c_ubyte(refusal or number % 256)) == expected(said, 0, space)
              for space in (LONGEST, len(said), len(said) - 1)]
    return refusal, None if all(agree) else record.hex() or "no byte"


def cut_differs(library, seed, number):
    """The record of a panel of thin lamellae, or of those above where refused, if the library says another cut than peer.py."""
    rng = random.Random(f"cuts {seed} {number}")
    records = [any_record(rng, random_records.thin_panel(rng)), record_of(seed, number)]
    for record in records:
        refusal, panel = peer.decode(record)
        if record is records[1] and record and not refusal:
            continue
        cut = None if refusal else peer.least_cut(panel)
        expected = -refusal if refusal else 0 if cut is None else 1_000 * cut[0] + cut[1]
        if any(library.yurbantse_planing(given, ctypes.c_size_t(len(record))) != expected for given in handed(record)):
            return record.hex() or "no byte"
    return None


def version_of(header):
    """The number that the header says."""
    with open(header) as file:
        return int(re.search(r"#define YURBANTSE_VERSION (\d+)", file.read())[1])


def start(path, seed):
    global library, seeded
    library, seeded = ctypes.CDLL(path), seed


def compared(number):
    return differs(library, seeded, number)


def cut_compared(number):
    return cut_differs(library, seeded, number)


def main():
    words = needs.arguments(__doc__)
    words.add_argument("--records", type=needs.count, default=5000)
    words.add_argument("--seed", type=int, default=1)
    words.add_argument("--jobs", type=needs.count, default=1)
    words.add_argument("--cuts", type=needs.count, default=100)
    given = words.parse_args()
    archive = os.path.join(given.repository, "target/staticlib/libcard_c.a")
    needs.made(archive, "bash tools/staticlib.sh")
    needs.installed("cc")
    folder = os.path.join(given.repository, "target/c")
    os.makedirs(folder, exist_ok=True)
    path = os.path.abspath(os.path.join(folder, "libcard_c.so"))
    needs.run(["cc", "-shared", "-o", path, "-Wl,--whole-archive", archive, "-Wl,--no-whole-archive"])
    versions = ctypes.CDLL(path).yurbantse_version(), version_of(os.path.join(given.repository, "c/yurbantse.h")), peer.LAST_REQUEST
    if len(set(versions)) != 1:
        sys.exit(f"library, header and peer have requests up to {versions}")
    refusals = Counter()
    with multiprocessing.Pool(given.jobs, start, (path, given.seed)) as pool:
        for number, (refusal, wrong) in enumerate(pool.imap(compared, range(given.records), 50)):
            if wrong is not None:
                print(f"record {number} disagrees: {wrong}")
                sys.exit(1)
            refusals[refusal] += 1
        for number, wrong in enumerate(pool.imap(cut_compared, range(given.cuts), 5)):
            if wrong is not None:
                print(f"cut {number} disagrees: {wrong}")
                sys.exit(1)
    print(f"{given.records} records agree: {refusals.pop(0, 0)} cards, refusals {dict(sorted(refusals.items()))}; so do {given.cuts} least cuts")


if __name__ == "__main__":
    main()
