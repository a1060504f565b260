"""Vectors for the text call: a file of texts and one of expected answers.

usage: python3 tests/reference/texts.py [--check] IN OUT

One case a line. A line of IN is the length of the output, the length of the
working list and the text; a line of OUT is the answer (0 or the refusal
number) and the answer text, which is empty on refusal:

    4096 16384 "mod=7\\na=1 2\\nb=0 3\\nc=1 5\\nop=expand\\nv=3 0 1\\n"
    0 "op=expand\\nout=1 3 2\\n"

A text stands between quotes, byte 10 as \\n and a byte that is not printable
ASCII, a quote or a backslash as \\x and two hexadecimal digits.

Without --check both files are written, or neither. With it they are compared
byte for byte: exit 1 if they differ. Bad arguments exit with 2.
"""

import jobs
from text_cases import text_cases
from vectors import contents_of, write_or_compare

ESCAPED = b'"\\'


def quoted(text):
    """The bytes of a text on one line of ASCII characters."""

    def written(byte):
        if byte == 10:
            return "\\n"
        return chr(byte) if 32 <= byte < 127 and byte not in ESCAPED else f"\\x{byte:02x}"

    return '"' + "".join(map(written, text)) + '"'


def input_line(case):
    """The line of IN for a case."""
    return f"{case.output_length} {case.working_length} {quoted(case.text)}\n"


def outcome_line(outcome):
    """The line of OUT for what a call that writes a text leaves."""
    return f"{outcome.verdict} {quoted(outcome.output[: outcome.length])}\n"


def expected_line(case):
    """The line of OUT for a case."""
    return outcome_line(
        jobs.text_call(case.text, bytes(case.output_length), [0] * case.working_length)
    )


if __name__ == "__main__":
    write_or_compare(__doc__, "texts", lambda _: contents_of(text_cases(), input_line, expected_line))
