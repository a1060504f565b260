"""Runs the reference's inputs through the program `store` and compares.

usage: python3 tests/store/vectors.py PROGRAM IN OUT

IN and OUT are what tests/reference/lines.py writes. Each input is given to a start
of the program of its own, as a file. Prints how many agree and exits 0; shows the
first input for which something else is printed and exits 1; exits 2 if something
cannot be read, run, or is not of the form.
"""

import os
import re
import subprocess
import sys
import tempfile

sys.dont_write_bytecode = True
sys.path.append(os.path.join(os.path.dirname(os.path.abspath(__file__)), os.pardir, os.pardir, "bin"))

from script import Parser, run_script  # noqa: E402

SECONDS = 20
SHOWN = 300
QUOTED = re.compile(rb'"([^"]*)"\n')
ESCAPE = re.compile(rb"\\(?:n|x([0-9a-f]{2}))")


class Unusable(Exception):
    """A file or the program cannot be used."""


def unquoted(text):
    """The bytes that stand between quotes."""
    return ESCAPE.sub(lambda found: bytes([int(found[1], 16)]) if found[1] else b"\n", text)


def texts_of(path):
    """The text on each line of a file."""
    with open(path, "rb") as file:
        for number, line in enumerate(file, 1):
            found = QUOTED.fullmatch(line)
            if found is None:
                raise Unusable(f"{path}, line {number}: not of the form")
            yield unquoted(found[1])


def read_vectors(in_path, out_path):
    """Each input, and what is to be printed for it."""
    inputs, outputs = list(texts_of(in_path)), list(texts_of(out_path))
    if len(inputs) != len(outputs) or not inputs:
        raise Unusable(f"{in_path} has {len(inputs)} lines and {out_path} {len(outputs)}")
    return list(zip(inputs, outputs))


def printed(program, text):
    """What the program prints for an input, or what it does amiss."""
    with tempfile.TemporaryFile() as file:
        file.write(text)
        file.seek(0)
        ran = subprocess.run([program], stdin=file, capture_output=True, timeout=SECONDS)
    if ran.returncode != 0 or ran.stderr:
        said = b"status %d, standard output %r, standard error %r"
        return said % (ran.returncode, ran.stdout, ran.stderr)
    return ran.stdout


def shown(text):
    """A text on one line, its middle left out if it is long."""
    if len(text) <= 2 * SHOWN:
        return repr(text)
    return f"{text[:SHOWN]!r} and {len(text) - 2 * SHOWN} bytes more and {text[-SHOWN:]!r}"


def compare(program, in_path, out_path):
    """Run every input."""
    vectors = read_vectors(in_path, out_path)
    for number, (text, expected) in enumerate(vectors, 1):
        got = printed(program, text)
        if got != expected:
            lines = (f"{in_path}, line {number}: {shown(text)}", f"expected {shown(expected)}")
            print("\n".join(("vectors: " + lines[0], lines[1], f"got      {shown(got)}")))
            return 1
    answers = b"".join(expected for _, expected in vectors)
    print(
        f"vectors: {len(vectors)} inputs agree, {answers.count(10)} answers, "
        f"{answers.count(b'refused=')} of them refusals"
    )
    return 0


def main():
    """Compare, or say what cannot be used."""
    parser = Parser(__doc__)
    for name in ("PROGRAM", "IN", "OUT"):
        parser.add_argument(name)
    try:
        return compare(*vars(parser.parse_args()).values())
    except (OSError, Unusable, subprocess.TimeoutExpired) as problem:
        print(f"vectors: {problem}", file=sys.stderr)
        return 2


if __name__ == "__main__":
    run_script("vectors", main)
