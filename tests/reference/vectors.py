"""Vectors for the library's calls: a file of cases and one of expected answers.

usage: python3 tests/reference/vectors.py [--calls 1,2,3] [--check] IN OUT

Both files hold decimal numbers only, one space between two, one case a line
ended by byte 10, every list preceded by its length. A line of IN is

    call m |a| a.. |b| b.. |c| c.. |v| v.. output-length working-length

with the call's number, the lists before the call and v as cases.py says. A
line of OUT is the answer (0 or the refusal number), the output after the call
preceded by its length (for the inverse: the one inverse, or nothing) and then,
for the inverse, the greatest common factor in the same way (one number, or
nothing where none is told) or, for a call that is lent a working list, two
numbers more: how many of its numbers are zero after the call, and their sum
modulo 4294967291.

Without --check both files are written, or neither. With it they are compared
byte for byte: exit 1 if they differ. Bad arguments exit with 2.
"""

import argparse
import os
import sys
import tempfile
from itertools import zip_longest

import cases
from vector_cases import cases_of_call, reasons_of_call

sys.dont_write_bytecode = True
sys.path.append(os.path.join(os.path.dirname(os.path.abspath(__file__)), os.pardir, os.pardir, "bin"))

from script import Parser, run_script  # noqa: E402

SUM_MODULUS = 4294967291


class Unusable(Exception):
    """A file named on the command line cannot be used."""


def with_length(numbers):
    """A list preceded by its length."""
    return [len(numbers), *numbers]


def line(numbers):
    """Numbers on one line."""
    return " ".join(map(str, numbers)) + "\n"


def input_line(case):
    """The line of IN for a case."""
    return line(
        [
            case.call,
            case.modulus,
            *with_length(case.a),
            *with_length(case.b),
            *with_length(case.c),
            *with_length(case.curve),
            case.output_length,
            case.working_length,
        ]
    )


def outcome_line(outcome):
    """The line of OUT for what a call leaves."""
    numbers = [outcome.verdict, *with_length(outcome.output)]
    if outcome.factor is not None:
        numbers += with_length(outcome.factor)
    if outcome.working is not None:
        numbers += [outcome.working.count(0), sum(outcome.working) % SUM_MODULUS]
    return line(numbers)


def expected_line(case):
    """The line of OUT for a case."""
    return outcome_line(cases.run(case))


def contents_of(found, *lines):
    """The bytes of each file, which has a line for every case; lines make them."""
    return ["".join(map(line_of, found)).encode() for line_of in lines]


def vectors(selection):
    """The bytes of IN and of OUT for the selected calls, in order of number.

    Zeros and shared factors stand behind all else.
    """
    chosen = [
        case
        for cases_of in (cases_of_call, reasons_of_call)
        for call in selection
        for case in cases_of(call)
    ]
    return contents_of(chosen, input_line, expected_line)


def call_selection(word):
    """The calls named on the command line, ascending."""
    names = {str(call): call for call in cases.CALL_NAMES}
    words = word.split(",")
    if any(name not in names for name in words) or len(set(words)) < len(words):
        raise argparse.ArgumentTypeError(
            f"calls are different numbers from 1 to 9 with commas between, not {word!r}"
        )
    return sorted(names[name] for name in words)


def write_aside(path, content, asides):
    """The content in a new file beside the path, noted in asides."""
    handle, asides[path] = tempfile.mkstemp(
        dir=os.path.dirname(path) or ".", prefix=os.path.basename(path) + "."
    )
    with os.fdopen(handle, "wb") as file:
        file.write(content)
    os.chmod(asides[path], 0o644)


def write_all(contents):
    """Each path with its content; no path is touched before all are written aside."""
    asides = {}
    try:
        for path, content in contents.items():
            if os.path.isdir(path):
                raise Unusable(f"cannot write {path}: it is a directory")
            write_aside(path, content, asides)
        for path in contents:
            os.replace(asides[path], path)
            del asides[path]
    except OSError as error:
        raise Unusable(f"cannot write {path}: {error.strerror}") from error
    finally:
        for aside in asides.values():
            os.unlink(aside)


def read_file(path):
    """The bytes of a file."""
    try:
        with open(path, "rb") as file:
            return file.read()
    except OSError as error:
        raise Unusable(f"cannot read {path}: {error.strerror}") from error


def first_difference(found, expected):
    """The number of the first line in which two contents differ, or None."""
    pairs = zip_longest(found.split(b"\n"), expected.split(b"\n"))
    return next((number for number, (x, y) in enumerate(pairs, 1) if x != y), None)


def compare(contents):
    """Whether every path holds its content; a message for each that does not."""
    same = True
    for path, content in contents.items():
        number = first_difference(read_file(path), content)
        if number is not None:
            print(f"{path} differs from the reference, first at line {number}")
            same = False
    return same


def exit_status(parser, unit, make):
    """The exit status after the two files of the command line were written or compared."""
    parser.add_argument("--check", action="store_true")
    parser.add_argument("input", metavar="IN")
    parser.add_argument("expected", metavar="OUT")
    arguments = parser.parse_args()
    paths = (arguments.input, arguments.expected)
    if os.path.realpath(paths[0]) == os.path.realpath(paths[1]):
        parser.error("IN and OUT have to be two files")
    contents = dict(zip(paths, make(arguments)))
    try:
        if arguments.check:
            return 0 if compare(contents) else 1
        write_all(contents)
    except Unusable as problem:
        print(f"{parser.prog}: {problem}", file=sys.stderr)
        return 2
    sizes = ", ".join(f"{path} {len(content)} bytes" for path, content in contents.items())
    print(f"{contents[paths[0]].count(10)} {unit}: {sizes}")
    return 0


def write_or_compare(document, unit, make, add_options=lambda parser: None):
    """All that a script with this docstring does: write what make(arguments) gives, or compare.

    make gives the bytes of IN and those of OUT, and unit is what a line of either says.
    """
    parser = Parser(document)
    add_options(parser)
    run_script(parser.prog, lambda: exit_status(parser, unit, make))


def add_calls(parser):
    """The option that selects calls; all nine by default."""
    parser.add_argument("--calls", type=call_selection, default=sorted(cases.CALL_NAMES))


if __name__ == "__main__":
    write_or_compare(__doc__, "cases", lambda arguments: vectors(arguments.calls), add_calls)
