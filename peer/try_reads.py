"""try_reads.py REPOSITORY

Tries on the proved programs what no contract says of files, standard input and standard output: where one cannot be opened or read, or a
write fails, a program says so in one line on standard error and ends with status 1, and of an input that it could not read it prints nothing,
no card of panel G either; else it prints what peer.py says, of a refused record too, and of an input that ended with no byte the card of
panel G, with nothing on standard error and status 0. The programs are `card`
(crates/card/out), `cards` with files, `test_calls` with files and with the reads that fail, and c/example.c, where
target/staticlib/libcard_c.a (by tools/staticlib.sh) and cc are there.
Prints a line for each case. Ends with status 1 where a program does otherwise, and prints what it did; and where something is missing, and
says what.
"""
import os
import select
import shutil
import signal
import subprocess
import sys
import tempfile
import threading
import time
from contextlib import contextmanager, nullcontext

import needs
import peer
import programs

SECONDS = 20  # more than any program takes
PAUSE = 0.01  # before each piece that is written into a pipe
QUIET = 0.5   # that a pipe gives nothing, before it ends

# ---------------------------------------------------------------- What a program reads or writes to: a descriptor, None where it is closed


@contextmanager
def file_of(text):
    with tempfile.TemporaryFile() as file:
        file.write(text)
        file.seek(0)
        yield file.fileno()


@contextmanager
def opened(path, way):
    descriptor = os.open(path, way)
    yield descriptor
    os.close(descriptor)


@contextmanager
def pipe_of(*pieces, ends=True):
    """A pipe into which the pieces are written one by one; where it does not end, its writer stays open."""
    reader, writer = os.pipe()

    def write():
        for piece in pieces:
            time.sleep(PAUSE)
            os.write(writer, piece)
        if ends:
            os.close(writer)

    writing = threading.Thread(target=write)
    writing.start()
    yield reader
    writing.join()
    os.close(reader)
    if not ends:
        os.close(writer)


@contextmanager
def pipe_without_waiting(text):
    """A pipe with this text, whose writer stays open: the read after the text does not wait, but fails."""
    reader, writer = os.pipe()
    os.set_blocking(reader, False)
    os.write(writer, text)
    yield reader
    os.close(reader)
    os.close(writer)


@contextmanager
def pipe_without_reader():
    reader, writer = os.pipe()
    os.close(reader)
    yield writer
    os.close(writer)


closed = nullcontext

# ---------------------------------------------------------------- Cases


def reads(g, refused):
    """(what, what is read, the record) of inputs that have an end, or are longer than any record."""
    longer = g + bytes(100)
    return [("panel G in a file", file_of(g), g),
            ("panel G by a pipe, byte for byte", pipe_of(*(bytes([byte]) for byte in g)), g),
            ("a refused record", file_of(refused), refused),
            ("an empty file", file_of(b""), b""),
            ("a pipe that ends at once", pipe_of(), b""),
            ("more than 64 bytes in a file", file_of(longer), longer),
            ("more than 64 bytes by a pipe that does not end", pipe_of(longer, ends=False), longer)]


def failed_reads(g):
    return [("standard input closed", closed()),
            ("a folder", opened("/", os.O_RDONLY)),
            ("what is open for writing alone", opened(os.devnull, os.O_WRONLY)),
            ("an empty pipe that does not wait", pipe_without_waiting(b"")),
            ("a pipe that does not wait, after the whole of panel G", pipe_without_waiting(g))]


def failed_writes():
    return [("standard output closed", closed()),
            ("a full device", opened("/dev/full", os.O_WRONLY)),
            ("a pipe without reader", pipe_without_reader())]


# ---------------------------------------------------------------- Files


@contextmanager
def folder_of(files):
    """A folder with these files, the contents by their names."""
    with tempfile.TemporaryDirectory() as folder:
        for name, contents in files.items():
            with open(os.path.join(folder, name), "wb") as file:
                file.write(contents)
        os.mkdir(os.path.join(folder, "folder"))
        yield folder


def file_lists(names):
    """(what, the arguments, how many of them are answered before one cannot be opened or read)"""
    first, second = names
    return [("one file", [first], 1),
            ("two files", [first, second], 2),
            ("the same file twice", [second, second], 2),
            ("a file that is not there", ["missing"], 0),
            ("a folder as a file", ["folder"], 0),
            ("a file below a file", [f"{first}/{second}"], 0),
            ("an empty name", [""], 0),
            ("a file that is not there after another, and before one", [first, "missing", second], 1),
            ("a folder after two files", [second, first, "folder"], 2)]


# ---------------------------------------------------------------- Runs


def ran(program, reads_from, writes_to=subprocess.PIPE, as_started=False, arguments=(), folder=None):
    """(status, standard output, standard error) of a program; status None where it does not end. A write into a pipe without reader raises
    a signal. The program begins with that ignored, so that the write fails; not where it begins as a shell starts it."""
    shut = [place for place, descriptor in enumerate((reads_from, writes_to)) if descriptor is None]
    process = subprocess.Popen([program, *arguments], stdin=reads_from, stdout=writes_to, stderr=subprocess.PIPE, cwd=folder,
                               restore_signals=as_started,
                               preexec_fn=(lambda: [os.close(place) for place in shut]) if shut else None)
    try:
        said, wrong = process.communicate(timeout=SECONDS)
        return process.returncode, said or b"", wrong
    except subprocess.TimeoutExpired:
        process.kill()
        said, wrong = process.communicate()
        return None, said or b"", wrong


def is_line(text):
    return len(text) > 1 and text.find(b"\n") == len(text) - 1


def has_failed(result, before=b""):
    """Of inputs before the one that failed, what is said of them is printed."""
    status, said, wrong = result
    return status == 1 and said == before and is_line(wrong)


class Tried:
    """Prints each case, and keeps whether all were as said."""

    def __init__(self):
        self.all_as_said = True

    def case(self, program, what, result, as_said):
        name = os.path.basename(program)
        print(f"{name}, {what}: " + ("as said" if as_said else "status {}, prints {}, says {}".format(*result)))
        self.all_as_said &= as_said


def try_failed_reads(tried, program, g):
    for what, stdin in failed_reads(g):
        with stdin as descriptor:
            result = ran(program, descriptor)
        tried.case(program, what, result, has_failed(result))


def try_nothing_yet(tried, program):
    """As long as a pipe gives nothing nothing is printed; once it has ended, panel G's card is."""
    reader, writer = os.pipe()
    with subprocess.Popen([program], stdin=reader, stdout=subprocess.PIPE, stderr=subprocess.PIPE) as process:
        os.close(reader)
        silent = not select.select([process.stdout, process.stderr], [], [], QUIET)[0] and process.poll() is None
        os.close(writer)
        said, wrong = process.communicate(timeout=SECONDS)
    result = process.returncode, said, wrong
    tried.case(program, "a pipe that gives nothing yet, and then ends", result, silent and result == (0, peer.text_lines(b""), b""))


def try_all(tried, program, g, refused):
    for what, stdin, record in reads(g, refused):
        with stdin as descriptor:
            result = ran(program, descriptor)
        tried.case(program, what, result, result == (0, peer.text_lines(record), b""))
    try_nothing_yet(tried, program)
    try_failed_reads(tried, program, g)
    for what, stdout in failed_writes():
        with file_of(g) as descriptor, stdout as taker:
            result = ran(program, descriptor, taker)
        tried.case(program, what, result, has_failed(result))


def try_files(tried, program, files):
    """`files`: by their names, what is in two files and what is printed of it."""
    with folder_of({name: contents for name, (contents, _) in files.items()}) as folder:
        for what, paths, good in file_lists(list(files)):
            result = ran(program, subprocess.DEVNULL, arguments=paths, folder=folder)
            printed = b"".join(files[path][1] for path in paths[:good])
            tried.case(program, what, result, result == (0, printed, b"") if good == len(paths) else has_failed(result, printed))
        for what, stdout in failed_writes():
            with stdout as taker:
                result = ran(program, subprocess.DEVNULL, taker, arguments=list(files), folder=folder)
            tried.case(program, f"{what}, with files", result, has_failed(result))


def try_lengths(tried, program):
    """The test program takes less than 64 KiB at a time, from a file and from standard input."""
    for length, as_said in ((65_535, lambda result: result[0] == 0 and is_line(result[1]) and result[2] == b""), (65_536, has_failed),
                            (100_000, has_failed)):
        text = b"x" * length
        with folder_of({"text": text}) as folder, file_of(text) as descriptor:
            for where, result in (("a file", ran(program, subprocess.DEVNULL, arguments=["text"], folder=folder)),
                                  ("standard input", ran(program, descriptor))):
                tried.case(program, f"{length} bytes, {where}", result, as_said(result))


def try_signal(tried, program, g, as_said):
    with file_of(g) as descriptor, pipe_without_reader() as taker:
        result = ran(program, descriptor, taker, as_started=True)
    tried.case(program, "a pipe without reader, as a shell starts it", result, as_said(result))


def lines(call, *cases):
    """What the test program reads and prints for cases of a call."""
    return tuple(text.encode() for text in programs.lines(call, cases))


def example_in_c(repository):
    """The example, compiled; None where there is nothing to compile it with."""
    archive = os.path.join(repository, "target/staticlib/libcard_c.a")
    if not os.path.exists(archive) or shutil.which("cc") is None:
        return None
    folder = os.path.join(repository, "target/c")
    os.makedirs(folder, exist_ok=True)
    path = os.path.abspath(os.path.join(folder, "example"))
    needs.run(["cc", "-O2", "-Wall", "-Wextra", "-o", path, os.path.join(repository, "c/example.c"), archive])
    return path


def stored(repository, path):
    with open(os.path.join(repository, "crates", path), "rb") as file:
        return file.read()


def built(repository, program):
    path = os.path.join(repository, "crates", program, "out", program)
    needs.made(path, f"(cd crates/{program} && rt run < /dev/null)")
    return os.path.abspath(path)


def main():
    repository = needs.arguments(__doc__).parse_args().repository
    g, refused = stored(repository, "card/stdin"), stored(repository, "cards/data/refused")
    (card, cards, test_calls), example = (built(repository, program) for program in ("card", "cards", "test_calls")), example_in_c(repository)
    tried = Tried()
    try_all(tried, card, g, refused)
    try_signal(tried, card, g, has_failed)
    try_files(tried, cards, {name: (record, peer.text_lines(record)) for name, record in (("g", g), ("refused", refused))})
    try_failed_reads(tried, test_calls, g)
    try_files(tried, test_calls, {"grade": lines("grade", (60, "text")), "two": lines("rei", (90, 60, "a"), (361, 0, "b"))})
    try_lengths(tried, test_calls)
    if example is None:
        print("the example in C: not tried, for want of target/staticlib/libcard_c.a (`bash tools/staticlib.sh`) or cc")
    else:
        try_all(tried, example, g, refused)
        try_signal(tried, example, g, lambda result: result == (-signal.SIGPIPE, b"", b""))
    if not tried.all_as_said:
        sys.exit(1)
    print("all as said")


if __name__ == "__main__":
    main()
