"""Vectors for the calls on two channels: a file of cases and one of expected answers.

usage: python3 tests/reference/joined.py [--check] IN OUT

Both files hold decimal numbers, with a leading - if they are below zero, one
space between two, one case a line, every list preceded by its length. A line of
IN is a case of join or one of expand and join:

    1 m1 m2 |first| first.. |second| second.. output-length
    2 m1 m2 |a| a.. |b| b.. |c| c.. |curve| curve.. output-length

A line of OUT is the answer (0 or the refusal number) and the output after the
call preceded by its length:

    2 7 11 2 1 -2 2 0 -3 2 1 -5 3 -3 0 -1 3
    0 3 2 3 2

Without --check both files are written, or neither. With it they are compared
byte for byte: exit 1 if they differ. Bad arguments exit with 2.
"""

from dataclasses import astuple

from joined_cases import joined_cases
from joining_cases import JoinCase, run
from vectors import contents_of, line, outcome_line, with_length, write_or_compare


def input_line(case):
    """The line of IN for a case."""
    m1, m2, *lists, output_length = astuple(case)
    numbers = [number for entries in lists for number in with_length(entries)]
    return line([1 if isinstance(case, JoinCase) else 2, m1, m2, *numbers, output_length])


def expected_line(case):
    """The line of OUT for a case."""
    return outcome_line(run(case))


if __name__ == "__main__":
    write_or_compare(__doc__, "cases", lambda _: contents_of(joined_cases(), input_line, expected_line))
