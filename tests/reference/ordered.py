"""Vectors for the calls that put even powers first: a file of cases and one of expected answers.

usage: python3 tests/reference/ordered.py [--check] IN OUT

Both files hold decimal numbers, one space between two, one case a line, every
list preceded by its length. A line of IN is a case of even first or one of even
back, and a line of OUT is the answer (0 or the refusal number) and the output
after the call preceded by its length:

    1 |list| list.. output-length
    2 |list| list.. output-length

    1 5 10 11 12 13 14 5
    0 5 10 12 14 11 13

Without --check both files are written, or neither. With it they are compared
byte for byte: exit 1 if they differ. Bad arguments exit with 2.
"""

from ordered_cases import ordered_cases, run
from vectors import contents_of, line, outcome_line, with_length, write_or_compare


def input_line(case):
    """The line of IN for a case."""
    return line([case.call, *with_length(case.numbers), case.output_length])


def expected_line(case):
    """The line of OUT for a case."""
    return outcome_line(run(case))


if __name__ == "__main__":
    write_or_compare(__doc__, "cases", lambda _: contents_of(ordered_cases(), input_line, expected_line))
