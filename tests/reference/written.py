"""Vectors for the call that writes a job: a file of jobs and one of expected texts.

usage: python3 tests/reference/written.py [--check] IN OUT

One case a line. A line of IN holds decimal numbers with one space between two,
every list preceded by its length:

    operation m |a| a.. |b| b.. |c| c.. |v| v.. output-length

The operation is 0 expand, 1 adjoint, 2 decompose, 3 moments, 4 norms; other
numbers name none. A line of OUT is the answer (0 or the refusal number) and
the job text, quoted as texts.py quotes and empty on refusal:

    0 7 2 1 2 2 0 3 2 1 5 3 3 0 1 8192
    0 "mod=7\\na=1 2\\nb=0 3\\nc=1 5\\nop=expand\\nv=3 0 1\\n"

Without --check both files are written, or neither. With it they are compared
byte for byte: exit 1 if they differ. Bad arguments exit with 2.
"""

from texts import outcome_line
from vectors import contents_of, line, with_length, write_or_compare
from written_cases import run, written_cases


def input_line(case):
    """The line of IN for a case."""
    lists = (case.a, case.b, case.c, case.curve)
    numbers = [number for entries in lists for number in with_length(entries)]
    return line([case.operation, case.modulus, *numbers, case.output_length])


def expected_line(case):
    """The line of OUT for a case."""
    return outcome_line(run(case))


if __name__ == "__main__":
    write_or_compare(__doc__, "jobs", lambda _: contents_of(written_cases(), input_line, expected_line))
