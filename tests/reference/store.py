"""The program `store`, from item 7 of the change requests: what it prints for its input.

A line opens with `put=` or `back=`. The list follows as after v in a job text, and
the result is printed as after `out=`, without a key, one list a line. A line that
fails prints `refused=` and the number of the first test that it fails:

1   the line has over 8,192 bytes, its byte 10 among them
2   it is of another form
5   it has more than 128 numbers

Bytes after the last byte 10 are a line too, which is of another form. The output
that the program lends is as long as the list, so no line is refused with 7.
"""

import jobs
import ordering
from jobs import WrongForm

LONGEST_LINE = 8192
CALLS = {b"put=": ordering.even_first_call, b"back=": ordering.even_back_call}


def lines_of(text):
    """The lines of an input, each with its byte 10; bytes after the last one are a line without."""
    *ended, rest = text.split(b"\n")
    return [line + b"\n" for line in ended] + ([rest] if rest else [])


def read_line(line):
    """The call that a line of the form names, and its numbers; else WrongForm."""
    if line[-1:] != b"\n":
        raise WrongForm("the line is not ended")
    for key, call in CALLS.items():
        if line.startswith(key):
            return call, jobs.read_numbers(line[len(key) : -1])
    raise WrongForm("a line without a key")


def verdict_and_result(line):
    """0 and the list that the line asks for, or the number of its refusal and nothing."""
    if len(line) > LONGEST_LINE:
        return 1, None
    try:
        call, numbers = read_line(line)
    except WrongForm:
        return 2, None
    done = call(numbers, [0] * len(numbers))
    return done.verdict, None if done.verdict else done.output


def answer(line):
    """What is printed for a line."""
    verdict, result = verdict_and_result(line)
    return (b"refused=%d" % verdict if verdict else jobs.write_numbers(result)) + b"\n"


def program_answer(text):
    """What the program `store` prints for this input."""
    return b"".join(map(answer, lines_of(text)))
