"""What the programs `channel` and `store` print for inputs in files.

usage: python3 tests/reference/answers.py [--check] NAME.job... NAME.lines...

What `channel` prints for NAME.job stands beside it in NAME.answer, what `store`
prints for NAME.lines in NAME.answers. Without --check all of it is written, or
nothing. With it the files are compared byte for byte: exit 1 if one differs.
Bad arguments exit with 2.
"""

import argparse
import os
import sys

import jobs
import store
from vectors import Parser, Unusable, compare, read_file, run_script, write_all

# The ending of an input's file, that of its answer's, and what is printed.
PROGRAMS = {
    ".job": (".answer", jobs.program_answer),
    ".lines": (".answers", store.program_answer),
}


def input_path(word):
    """A path from the command line that ends in .job or .lines."""
    if os.path.splitext(word)[1] not in PROGRAMS:
        raise argparse.ArgumentTypeError(f"an input's file ends in .job or .lines, not {word!r}")
    return word


def answer_to(path):
    """The path of the answer to an input, and the answer."""
    name, ending = os.path.splitext(path)
    answer_ending, program_answer = PROGRAMS[ending]
    return name + answer_ending, program_answer(read_file(path))


def main():
    """Write or compare the answers."""
    parser = Parser(__doc__)
    parser.add_argument("--check", action="store_true")
    parser.add_argument("inputs", metavar="NAME.job|NAME.lines", nargs="+", type=input_path)
    arguments = parser.parse_args()
    try:
        contents = dict(map(answer_to, arguments.inputs))
        if arguments.check:
            return 0 if compare(contents) else 1
        write_all(contents)
    except Unusable as problem:
        print(f"answers.py: {problem}", file=sys.stderr)
        return 2
    print(f"{len(contents)} answers")
    return 0


if __name__ == "__main__":
    run_script("answers", main)
