"""Every answer that a call can give is met in the files of vectors, and no other.

The tables of refusals say which answers those are. That the files are what the
cases give is compared by the programs that write them, with --check.
"""

import ast
import os

import cases
import check_texts
import joining_cases
import ordered_cases
import ordering
import prepared_cases
import second_ways
import written_cases
from joining import number_of

KIND = "answers met"
DIRECTORY = os.path.join(os.path.dirname(os.path.abspath(__file__)), os.pardir, "vectors")

CHANGES = {
    "empty": (3,),
    "append": (14, 5, 9, 17, 10, 18, 11),
    "drop_last": (14, 15),
    "replace": (14, 16, 9, 17, 10, 18, 11),
}


def file_lines(name):
    """The lines of a file of vectors."""
    with open(os.path.join(DIRECTORY, name), encoding="ascii") as file:
        return file.read().splitlines()


def lines_of(name):
    """Each line of IN with the answer of its line of OUT."""
    lists = (file_lines(name + ending) for ending in (".in", ".out"))
    return [(given, int(left.split()[0])) for given, left in zip(*lists, strict=True)]


def met_by_first_word(name):
    """Pairs of the first word of a line, which names the call, and its answer."""
    return {(given.split()[0], answer) for given, answer in lines_of(name)}


def met_by_text():
    """Pairs of the operation that a text says, None if it is too long or not of the form."""
    met = set()
    for given, answer in lines_of("texts"):
        text = ast.literal_eval("b" + given.split(" ", 2)[2])
        values = second_ways.read_by_pattern(text) if len(text) <= 8192 else None
        met.add((None if values is None else values[4], answer))
    return met


def met_by_line():
    """Pairs of the key of a store's line, None if it is too long or not of the form."""
    met = set()
    for given, left in zip(file_lines("lines.in"), file_lines("lines.out"), strict=True):
        lines = second_ways.lines_byte_by_byte(ast.literal_eval("b" + given))
        answers = ast.literal_eval("b" + left).splitlines()
        for line, answer in zip(lines, answers, strict=True):
            read = second_ways.line_by_pattern(line) if len(line) <= 8192 else None
            number = int(answer.removeprefix(b"refused=")) if b"=" in answer else 0
            met.add((None if read is None else read[0], number))
    return met


def with_finished(refusals):
    """Pairs of a call and an answer, 0 among them, from a table of refusals."""
    return {(call, answer) for call, numbers in refusals.items() for answer in (0, *numbers)}


def of_calls():
    """The answers of the nine calls, which are named by their numbers."""
    return with_finished({str(call): numbers for call, numbers in cases.REFUSALS.items()})


def of_texts():
    """The answers to texts, 1 and 2 to those that say no operation."""
    operations = check_texts.OPERATION_OF.items()
    refusals = {name: check_texts.refusals(call) for call, name in operations}
    return with_finished(refusals) | {(None, 1), (None, 2)}


def of_writing():
    """The answers of the call that writes a job: 2 to a number that names no operation."""
    refusals = {
        str(operation): [number for number in written_cases.refusals(operation) if number != 2]
        for operation in written_cases.OPERATIONS
    }
    return with_finished(refusals) | {(str(x), 2) for x in written_cases.NO_OPERATIONS}


def of_steps():
    """The answers of changes and operations on a record; record and set are no calls."""
    operations = {
        prepared_cases.operation_name(call): (14, *prepared_cases.call_refusals(call))
        for call in prepared_cases.OPERATIONS
    }
    made = {(name, answer) for name in prepared_cases.MADE for answer in (7, 14)}
    return with_finished(CHANGES | operations) | made


def of_joining():
    """The answers of join and of expand and join, which are the calls 1 and 2 of their file."""
    tests = joining_cases.TESTS.values()
    return with_finished({str(call): map(number_of, names) for call, names in enumerate(tests, 1)})


def of_ordering():
    """The answers of even first and of even back, which are the calls 1 and 2 of their file."""
    return with_finished({str(call): ordering.TESTS for call in ordered_cases.CALLS})


def of_lines():
    """The answers to a store's lines: no line is refused with 7."""
    return with_finished({b"put": (5,), b"back": (5,)}) | {(None, 1), (None, 2)}


def check(tally, _source):
    """The seven pairs of files; the random source is not used."""
    for name, expected, met in (
        ("calls", of_calls(), met_by_first_word("calls")),
        ("texts", of_texts(), met_by_text()),
        ("written", of_writing(), met_by_first_word("written")),
        ("prepared", of_steps(), met_by_first_word("prepared")),
        ("joined", of_joining(), met_by_first_word("joined")),
        ("ordered", of_ordering(), met_by_first_word("ordered")),
        ("lines", of_lines(), met_by_line()),
    ):
        for pair in sorted(expected | met, key=repr):
            tally.equal(KIND, (name, *pair), pair in expected, pair in met)
