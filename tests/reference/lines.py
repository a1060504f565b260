"""Vectors for the program `store`: a file of inputs and one of what is printed for them.

usage: python3 tests/reference/lines.py [--check] IN OUT

One case a line. A line of IN is a whole input of the program, one of OUT all that
it prints, each quoted as texts.py quotes:

    "put=3 0 1\\nback=3 1 0\\nput=\\nput=01\\n"
    "3 1 0\\n3 0 1\\n\\nrefused=2\\n"

Without --check both files are written, or neither. With it they are compared
byte for byte: exit 1 if they differ. Bad arguments exit with 2.
"""

import store
from line_cases import line_cases
from texts import quoted
from vectors import contents_of, write_or_compare


def input_line(text):
    """The line of IN for a case."""
    return quoted(text) + "\n"


def expected_line(text):
    """The line of OUT for a case."""
    return quoted(store.program_answer(text)) + "\n"


if __name__ == "__main__":
    write_or_compare(__doc__, "inputs", lambda _: contents_of(line_cases(), input_line, expected_line))
