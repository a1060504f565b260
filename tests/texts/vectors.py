"""Runs the reference's text vectors through the program and compares.

usage: python3 tests/texts/vectors.py PROGRAM IN OUT

IN and OUT are what tests/reference/texts.py writes. Texts that are lent less
than the program lends are passed over. Prints how many answers agree and exits
0; shows the first text whose answer differs and exits 1; exits 2 if something
cannot be read, run, or is not of the form.
"""

import os
import re
import subprocess
import sys

sys.dont_write_bytecode = True
sys.path.append(os.path.join(os.path.dirname(os.path.abspath(__file__)), os.pardir, os.pardir, "bin"))

from script import Parser, run_script  # noqa: E402

OUTPUT, WORKING = 4096, 16384
SECONDS = 20
INPUT_LINE = re.compile(rb'([0-9]+) ([0-9]+) "([^"]*)"')
EXPECTED_LINE = re.compile(rb'([0-9]+) "([^"]*)"')
ESCAPE = re.compile(rb"\\(?:n|x([0-9a-f]{2}))")


class Unusable(Exception):
    """A file or the program cannot be used."""


def unquoted(text):
    """The bytes that stand between quotes."""
    return ESCAPE.sub(lambda found: bytes([int(found[1], 16)]) if found[1] else b"\n", text)


def program_answer(verdict, answer):
    """What the program has to print."""
    return answer if verdict == b"0" else b"refused=%s\n" % verdict


def fields(path, pattern):
    """The fields of each line of a file."""
    with open(path, "rb") as file:
        for number, line in enumerate(file, 1):
            found = pattern.fullmatch(line.removesuffix(b"\n"))
            if found is None:
                raise Unusable(f"{path}, line {number}: not of the form")
            yield found.groups()


def printed(program, text):
    """What the program prints for a text, and what else it does amiss."""
    ran = subprocess.run([program], input=text, capture_output=True, timeout=SECONDS)
    if ran.returncode != 0 or ran.stderr:
        return b"status %d, standard output %r, standard error %r" % (
            ran.returncode,
            ran.stdout,
            ran.stderr,
        )
    return ran.stdout


def first_difference(program, texts):
    """The first text whose answer differs, described, or None."""
    for number, text, expected in texts:
        got = printed(program, text)
        if got != expected:
            return f"line {number}: {text!r}\nexpected {expected!r}\ngot      {got!r}"
    return None


def compare(program, in_path, out_path):
    """Run every text that the program can be given."""
    lines, answers = list(fields(in_path, INPUT_LINE)), list(fields(out_path, EXPECTED_LINE))
    if len(lines) != len(answers) or not lines:
        raise Unusable(f"{in_path} has {len(lines)} lines and {out_path} {len(answers)}")
    texts = [
        (number, unquoted(text), program_answer(verdict, unquoted(answer)))
        for number, ((output, working, text), (verdict, answer)) in enumerate(
            zip(lines, answers), 1
        )
        if int(output) >= OUTPUT and int(working) >= WORKING
    ]
    difference = first_difference(program, texts)
    if difference is not None:
        print(f"vectors: {in_path}, {difference}")
        return 1
    refusals = sum(expected.startswith(b"refused=") for _, _, expected in texts)
    print(
        f"vectors: {len(texts)} answers agree, {refusals} of them refusals; "
        f"{len(lines) - len(texts)} texts are for the library alone"
    )
    return 0


def main():
    """Compare, or say what cannot be used."""
    parser = Parser(__doc__)
    for name in ("PROGRAM", "IN", "OUT"):
        parser.add_argument(name)
    try:
        return compare(*vars(parser.parse_args()).values())
    except (OSError, Unusable, subprocess.TimeoutExpired) as problem:
        print(f"vectors: {problem}", file=sys.stderr)
        return 2


if __name__ == "__main__":
    run_script("vectors", main)
