"""The store's lines: stated answers, a second reader, lists there and back, and the vectors.

Every line that is one byte away from a good one is read in two ways, which have to
agree. What is printed for every input of the vectors is held against a second way
to split it into lines and to answer each.
"""

import ast
from functools import cache

import check_vectors
import line_cases
import lines
import second_ways
import store
from check_texts import near_texts
from jobs import WrongForm
from line_cases import BACK, KEYS, PUT, listed, of_the_form
from ordered_cases import random_numbers

STATED, READ, PRINTED, RETURNED = "store stated", "store read", "store printed", "store returned"
GREATEST_128 = b" ".join([b"4294967295"] * 128)

# An input, and what is printed for it.
STATED_INPUTS = (
    (b"", b""),
    (b"\n", b"refused=2\n"),
    (b"\n\n", b"refused=2\nrefused=2\n"),
    (b"put=\n", b"\n"),
    (b"back=\n", b"\n"),
    (b"put=\nback=\n", b"\n\n"),
    (b"put=", b"refused=2\n"),
    (b"put=7\n", b"7\n"),
    (b"put=1 2 3\n", b"1 3 2\n"),
    (b"back=1 3 2\n", b"1 2 3\n"),
    (b"put=10 11 12 13\nback=10 12 11 13\n", b"10 12 11 13\n10 11 12 13\n"),
    (b"put=10 11 12 13 14\nback=10 12 14 11 13\n", b"10 12 14 11 13\n10 11 12 13 14\n"),
    (b"put=0 4294967295\n", b"0 4294967295\n"),
    (b"put=0 4294967296\n", b"refused=2\n"),
    (b"put=01\nput=1\n", b"refused=2\n1\n"),
    (b"put=1 2 3", b"refused=2\n"),
    (b"put=1 2 3\nback=1 3 2", b"1 3 2\nrefused=2\n"),
    (b"put=1\r\nput=1\n", b"refused=2\n1\n"),
    (b"put=1\0\nput=1\n", b"refused=2\n1\n"),
    (b"put=1 \nput= 1\nput=1  2\nput=1\t2\n", b"refused=2\n" * 4),
    (b"Put=1\nput =1\nputs=1\nv=1\nout=1\nback\nput1\n", b"refused=2\n" * 7),
    (b"put=+1\nput=-1\nput=1,2\nput=0x1\n", b"refused=2\n" * 4),
    (b"put=%b\n" % GREATEST_128, GREATEST_128 + b"\n"),
    (b"back=%b\n" % GREATEST_128, GREATEST_128 + b"\n"),
    (b"put=" + b"0 " * 127 + b"0\n", b"0 " * 127 + b"0\n"),
    (b"put=" + b"0 " * 128 + b"0\nput=1\n", b"refused=5\n1\n"),
    (b"back=" + b"0 " * 128 + b"0\n", b"refused=5\n"),
    (b"put=" + b"0 " * 129 + b"\n", b"refused=2\n"),
    (b"put=" + b"0 " * 4093 + b"0\n", b"refused=5\n"),  # 8,192 bytes
    (b"put=" + b"0 " * 4093 + b"x\n", b"refused=2\n"),
    (b"put=" + b"0 " * 4093 + b"0", b"refused=2\n"),
    (b"put=" + b"0 " * 4093 + b"00", b"refused=2\n"),
    (b"put=" + b"0 " * 4093 + b"10\nput=1\n", b"refused=1\n1\n"),
    (b"put=" + b"0 " * 4093 + b"100", b"refused=1\n"),
    (b"x" * 8191 + b"\nput=1\n", b"refused=2\n1\n"),
    (b"x" * 8192 + b"\nput=1\n", b"refused=1\n1\n"),
    (b"x" * 8192, b"refused=2\n"),
    (b"x" * 8193, b"refused=1\n"),
    (b"x" * 100000 + b"\n" + b"\0" * 9000 + b"\nput=2 1\n", b"refused=1\nrefused=1\n2 1\n"),
)


def read_or_none(line):
    """The key and the numbers that read_line finds, or None."""
    try:
        call, numbers = store.read_line(line)
    except WrongForm:
        return None
    (key,) = (key for key, named in store.CALLS.items() if named is call)
    return key.removesuffix(b"="), numbers


def check_reading(tally, line):
    """Both readers find the same list, or both none."""
    tally.equal(READ, line, second_ways.line_by_pattern(line), read_or_none(line))


def check_longest(tally):
    """The longest line that is taken has 1,413 bytes, and the longest that is looked at 8,192."""
    tally.equal(STATED, "longest", 1413, len(BACK + GREATEST_128 + b"\n"))
    for key, length in ((PUT, 8192), (BACK, 8192), (PUT, 8193), (BACK, 8193)):
        line = of_the_form(key, length)
        numbers = store.read_line(line)[1]
        tally.equal(STATED, line, (length, (length - len(key)) // 2), (len(line), len(numbers)))
        expected = b"refused=5\n" if length == 8192 else b"refused=1\n"
        tally.equal(STATED, line, expected, store.answer(line))


def check_returned(tally, source):
    """Lists of every length: put, and what is printed behind back=; and the other way about."""
    for length in range(129):
        numbers = listed(random_numbers(source, length))
        for first, then in (KEYS, KEYS[::-1]):
            printed = store.program_answer(first + numbers + b"\n")
            returned = store.program_answer(then + printed)
            tally.equal(RETURNED, (first, numbers), numbers + b"\n", returned)


@cache
def vectors():
    """Each input of the vectors and what is printed for it, as the files have them."""
    found = []
    both = (check_vectors.file_lines("lines" + ending) for ending in (".in", ".out"))
    for text, given, printed in zip(line_cases.line_cases(), *both, strict=True):
        if lines.input_line(text) != given + "\n":
            raise ValueError(f"not the line of its case: {given}")
        found.append((text, ast.literal_eval("b" + printed)))
    return found


def check_vector(tally, text, printed):
    """One vector: its lines, and what is printed for them, by the second way."""
    found = second_ways.lines_byte_by_byte(text)
    tally.equal(PRINTED, text, found, store.lines_of(text))
    expected = b"".join(map(second_ways.printed_for_line, found))
    tally.equal(PRINTED, text, expected, printed)


def check(tally, source):
    """Stated inputs, near lines, lists there and back, and the vectors."""
    for text, printed in STATED_INPUTS:
        tally.equal(STATED, text, printed, store.program_answer(text))
    check_longest(tally)
    for line in (b"put=3 0 12\n", b"back=10 4294967295\n", b"put=\n"):
        for near in near_texts(line):
            check_reading(tally, near)
    check_returned(tally, source)
    for vector in vectors():
        check_vector(tally, *vector)
