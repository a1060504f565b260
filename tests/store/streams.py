"""Runs the program `store` on input that comes in pieces, waits or is very long, and on many lists.

usage: python3 tests/store/streams.py [--long] [--seed N] PROGRAM

The input comes through pipes and through a terminal. What is printed is compared byte
for byte; what has to come out before more is put in is waited for, and everything has
a limit of time. Memory is the greatest resident size, as Linux counts it in /proc,
while the program waits for more. Prints a line for each part, with the seed of the
random ones, and exits 0; says at the first difference what it is and exits 1. --long
tries a line of a gigabyte too. Bad arguments exit with 2.
"""

import argparse
import fcntl
import os
import select
import subprocess
import sys
import termios
import threading
import time
from contextlib import contextmanager

from vectors import Parser, read_vectors, run_script, shown

HERE = os.path.dirname(os.path.abspath(__file__))
sys.path.append(os.path.join(HERE, os.pardir, "reference"))

from splitmix import SplitMix64  # noqa: E402

VECTORS = [os.path.join(HERE, os.pardir, "vectors", name) for name in ("lines.in", "lines.out")]
SECONDS, SECONDS_FOR_A_GIGABYTE = 20, 300
SECONDS_FOR_AN_ANSWER = 10
LONG_LINE, GIGABYTE = 2**26, 2**30
MOST_MEMORY = 1024  # KiB that a line of any length may add
LISTS, LONGEST_LIST = 100000, 128

# Lines and what is printed for them, the last without its byte 10.
LINES = (
    (b"put=1 2 3\n", b"1 3 2\n"),
    (b"x\n", b"refused=2\n"),
    (b"back=10 12 14 11 13\n", b"10 11 12 13 14\n"),
    (b"put=\n", b"\n"),
    (b"put=5", b"refused=2\n"),
)


class Differs(Exception):
    """The program did something else than it should."""


def expect(name, expected, got):
    """What was got is what was expected."""
    if expected != got:
        raise Differs(f"{name}: expected {shown(expected)}\ngot      {shown(got)}")


@contextmanager
def started(name, program, seconds=SECONDS, **streams):
    """The program while it runs; it ends by itself, with 0 and nothing on standard error."""
    pipes = {"stdin": subprocess.PIPE, "stdout": subprocess.PIPE, "stderr": subprocess.PIPE}
    process = subprocess.Popen([program], bufsize=0, **(pipes | streams))
    late = threading.Timer(seconds, process.kill)
    late.start()
    try:
        yield process
        if process.stdin:
            process.stdin.close()
        said = process.stderr.read()
        process.wait()
    except BrokenPipeError:
        why = "ended before its input did" if late.is_alive() else f"took over {seconds} s"
        raise Differs(f"{name}: the program {why}") from None
    finally:
        late.cancel()
        process.kill()
        process.wait()
        for stream in (process.stdin, process.stdout, process.stderr):
            if stream:
                stream.close()
    if process.returncode != 0 or said:
        raise Differs(f"{name}: status {process.returncode}, standard error {said!r}")


def await_output(name, descriptor, expected):
    """What the program prints now, without more input, is this; it has some seconds for it."""
    got, end = b"", time.monotonic() + SECONDS_FOR_AN_ANSWER
    while len(got) < len(expected):
        ready = select.select([descriptor], [], [], max(0, end - time.monotonic()))[0]
        piece = os.read(descriptor, len(expected) - len(got)) if ready else b""
        if not piece:
            name += ", the end of the output" if ready else ", nothing more while the input waits"
            break
        got += piece
    expect(name, expected, got)


def write_all(descriptor, text):
    """All bytes to a pipe or a terminal."""
    while text:
        text = text[os.write(descriptor, text) :]


def ended_vectors():
    """The inputs of the vectors that end with byte 10, and what is printed for each."""
    return [vector for vector in read_vectors(*VECTORS) if vector[0][-1:] in (b"", b"\n")]


def answers(text):
    """How many answers a text has, in words."""
    return f"{text.count(10):,} answers agree"


# Pieces.


def run_in_pieces(name, program, pieces, flags=0, is_read=lambda pipe: True):
    """What is printed for an input that is put into a pipe piece by piece, each when it may be."""
    source, drain = os.pipe2(flags | os.O_CLOEXEC)
    got = []
    with started(name, program, stdin=source) as process:
        os.close(source)
        reader = threading.Thread(target=lambda: got.append(process.stdout.read()))
        reader.start()
        try:
            for piece in pieces:
                write_all(drain, piece)
                while not is_read(drain) and process.poll() is None:
                    os.sched_yield()
        finally:
            os.close(drain)
            reader.join()
    return got[0]


def is_empty(pipe):
    """Whether all that was put into a pipe has been read."""
    return fcntl.ioctl(pipe, termios.FIONREAD, bytes(4)) == bytes(4)


def check_single_bytes(program):
    """Each byte is a packet of its own, so that no read brings two."""
    name = "pieces of one byte"
    short = [vector for vector in ended_vectors() if len(vector[0]) < 100][::2]
    long = [vector for vector in ended_vectors() if 8190 <= len(vector[0]) <= 8220][:3]
    text, expected = (b"".join(part) for part in zip(*short, *long, (b"put=1", b"refused=2\n")))
    pieces = (text[at : at + 1] for at in range(len(text)))
    expect(name, expected, run_in_pieces(name, program, pieces, flags=os.O_DIRECT))
    return f"{name}: {len(text):,} bytes, {answers(expected)}"


def random_pieces(source, text):
    """The text in pieces of up to 20,000 bytes, short ones often."""
    at = 0
    while at < len(text):
        length = 1 + source.below(2 ** (1 + source.below(14)) + source.below(4000))
        yield text[at : at + length]
        at += length


def check_random_pieces(program, source):
    """All inputs of the vectors as one, the next piece when the one before has been read."""
    name = "pieces of any length"
    text, expected = (b"".join(part) for part in zip(*ended_vectors()))
    pieces = list(random_pieces(source, text))
    expect(name, expected, run_in_pieces(name, program, pieces, is_read=is_empty))
    return f"{name}: {len(pieces):,} pieces, {len(text):,} bytes, {answers(expected)}"


# Input that waits.


def check_cuts(program):
    """An input cut at every place: the answers to what is ended come before the rest is put in."""
    text, printed = (b"".join(part) for part in zip(*LINES))
    for place in range(len(text) + 1):
        name = f"input cut behind {text[:place]!r}"
        ended = text[:place].count(10)
        before = b"".join(answer for _, answer in LINES[:ended])
        with started(name, program) as process:
            write_all(process.stdin.fileno(), text[:place])
            await_output(name, process.stdout.fileno(), before)
            write_all(process.stdin.fileno(), text[place:])
            process.stdin.close()
            expect(name, printed[len(before) :], process.stdout.read())
    return f"input cut at every place, with a wait: {len(text) + 1} cuts agree"


def check_one_write(program):
    """Thousands of lines put in at once are all answered while the input stays open."""
    name = "many lines at once"
    lines = (b"put=1 2 3\nback=7\nx\nput=\n", b"1 3 2\n7\nrefused=2\n\n")
    text, printed = (part * 2500 for part in lines)
    with started(name, program) as process:
        write_all(process.stdin.fileno(), text)
        await_output(name, process.stdout.fileno(), printed)
        process.stdin.close()
        expect(name, b"", process.stdout.read())
    return f"{name}, answered before the input ends: {answers(printed)}"


def check_terminal(program):
    """A terminal: line by line, a line that it hands over in two parts, and the end by its key."""
    name = "a terminal"
    master, terminal = os.openpty()
    modes = termios.tcgetattr(terminal)
    modes[1] &= ~termios.OPOST
    modes[3] &= ~termios.ECHO
    termios.tcsetattr(terminal, termios.TCSANOW, modes)
    end = modes[6][termios.VEOF]
    in_parts = (b"put=1 2" + end + b" 3\n", b"1 3 2\n")
    not_ended = (b"put=5" + end + end, b"refused=2\n")
    steps = (*LINES[:4], in_parts, *LINES[:4], not_ended)
    with started(name, program, stdin=terminal, stdout=terminal):
        for typed, printed in steps:
            write_all(master, typed)
            await_output(f"{name}, {typed!r}", master, printed)
    is_more = select.select([master], [], [], 0)[0]
    expect(name, b"", os.read(master, 1000) if is_more else b"")
    os.close(master)
    os.close(terminal)
    return f"{name}, line by line: {len(steps)} answers agree"


# Long lines, and memory.


def most_memory(process):
    """The greatest resident size of the program so far, in KiB."""
    with open(f"/proc/{process.pid}/status", encoding="ascii") as file:
        (line,) = (line for line in file if line.startswith("VmHWM:"))
    return int(line.split()[1])


def write_long_line(descriptor, length):
    """A line of this length without its byte 10."""
    block = b"1 " * 32768
    write_all(descriptor, b"put=")
    for left in range(length - 4, 0, -len(block)):
        write_all(descriptor, block[:left])


def check_long_line(program, length, seconds=SECONDS):
    """A long line is refused, the next is answered, memory stays; then one that is not ended."""
    name = f"a line of {length // 2**20:,} MiB"
    with started(name, program, seconds) as process:
        inlet, outlet = process.stdin.fileno(), process.stdout.fileno()
        write_all(inlet, b"put=1 2 3\n")
        await_output(name, outlet, b"1 3 2\n")
        before = most_memory(process)
        write_long_line(inlet, length - 1)
        write_all(inlet, b"\nback=1 3 2\n")
        await_output(name, outlet, b"refused=1\n1 2 3\n")
        more = most_memory(process) - before
        write_long_line(inlet, length)
        process.stdin.close()
        expect(name, b"refused=1\n", process.stdout.read())
    if more > MOST_MEMORY:
        raise Differs(f"{name}: memory grows by {more:,} KiB, and may by {MOST_MEMORY:,}")
    return f"{name}, ended and not ended: refused, memory {before:,} KiB and {more:,} more"


# Many lists.


def random_list(source):
    """A random list in the text's form: some of any length, most short; numbers of all sizes."""
    length = source.below(LONGEST_LIST + 1) if source.below(16) == 0 else source.below(12)
    words = (source.word() for _ in range(length))
    return b" ".join(b"%d" % (word >> 32 >> word % 32) for word in words)


def answered(name, program, key, lists):
    """What is printed for these lists behind a key."""
    text = b"".join(key + line + b"\n" for line in lists)
    ran = subprocess.run([program], input=text, capture_output=True, timeout=SECONDS)
    if ran.returncode != 0 or ran.stderr:
        raise Differs(f"{name}: status {ran.returncode}, standard error {ran.stderr!r}")
    *printed, rest = ran.stdout.split(b"\n")
    expect(name, b"", rest)
    if len(printed) != len(lists):
        raise Differs(f"{name}: {len(lists)} lines have {len(printed)} answers")
    return printed


def check_lists(program, source):
    """Random lists: what is printed by either key comes back by the other."""
    name = "lists there and back"
    lists = [random_list(source) for _ in range(LISTS)]
    for first, then in ((b"put=", b"back="), (b"back=", b"put=")):
        moved = answered(name, program, first, lists)
        for line, got in zip(lists, moved):
            words = line.split(b" ")
            if first == b"put=":
                expect(f"{name}, put={line!r}", b" ".join(words[0::2] + words[1::2]), got)
        for line, got in zip(lists, answered(name, program, then, moved)):
            expect(f"{name}, {first!r} {line!r}", line, got)
    return f"{name}: {LISTS:,} lists agree, by put= and back= and by back= and put="


def seed_number(word):
    """A seed from the command line: a whole number below 2^64."""
    if not (word.isascii() and word.isdigit() and len(word) <= 20 and int(word) < 2**64):
        raise argparse.ArgumentTypeError(f"a seed is a whole number below 2^64, not {word!r}")
    return int(word)


def main():
    """All parts, with one random source."""
    parser = Parser(__doc__)
    parser.add_argument("--long", action="store_true")
    parser.add_argument("--seed", type=seed_number)
    parser.add_argument("program", metavar="PROGRAM")
    arguments = parser.parse_args()
    program, seed = arguments.program, arguments.seed
    if seed is None:
        seed = int.from_bytes(os.urandom(8))
    source = SplitMix64(seed)
    parts = [
        lambda: check_single_bytes(program),
        lambda: check_random_pieces(program, source) + f", seed {seed}",
        lambda: check_cuts(program),
        lambda: check_one_write(program),
        lambda: check_terminal(program),
        lambda: check_long_line(program, LONG_LINE),
        lambda: check_lists(program, source) + f", seed {seed}",
    ]
    if arguments.long:
        parts.append(lambda: check_long_line(program, GIGABYTE, SECONDS_FOR_A_GIGABYTE))
    try:
        for part in parts:
            print(part(), flush=True)
    except Differs as difference:
        print(f"streams: seed {seed}: {difference}", file=sys.stderr)
        return 1
    return 0


if __name__ == "__main__":
    run_script("streams", main)
