"""The job text, the text call and the call that writes a job.

A job is six lines, each ended by byte 10: mod, a, b, c, op, v. Both calls
answer with a TextOutcome: verdict 0 or a refusal number from 1 to 12, 17 or
18, the length of the text that was written (0 on refusal), the output bytes
after the call and the working list after the call (None for the call that
writes a job, which is lent none).
"""

from dataclasses import dataclass

import calls

LONGEST_JOB = 8192
SHORTEST_OUTPUT = 4096
SHORTEST_JOB_OUTPUT = 8192
LARGEST_NUMBER = 4294967295
KEYS = (b"mod", b"a", b"b", b"c", b"op", b"v")
TEXT_TESTS = (3, 4, 5, 6, 7, 8, 9, 17, 10, 18, 11, 12)
TEXT_CONDITIONS = calls.CONDITIONS | {
    7: lambda lent: len(lent.output) < SHORTEST_OUTPUT,
}
WRITING_TESTS = (3, 4, 5, 6, 7, 9, 17, 10, 18, 11, 12)
WRITING_CONDITIONS = calls.CONDITIONS | {
    7: lambda lent: len(lent.output) < SHORTEST_JOB_OUTPUT,
}
# Whoever has a job written names its operation by its place here, the scope paper's order.
OPERATION_NAMES = ("expand", "adjoint", "decompose", "moments", "norms")


class WrongForm(Exception):
    """A text is not of the job's form: refusal 2."""


@dataclass(frozen=True)
class Job:
    """What a job text says."""

    modulus: int
    a: tuple
    b: tuple
    c: tuple
    operation: str
    curve: tuple


@dataclass(frozen=True)
class TextOutcome:
    """What a call that writes a text leaves."""

    verdict: int
    length: int
    output: bytes
    working: list | None


def read_number(word):
    """A decimal number without a leading zero, at most 4294967295."""
    if word == b"" or any(byte not in b"0123456789" for byte in word):
        raise WrongForm("not a decimal number")
    if word[:1] == b"0" and word != b"0":
        raise WrongForm("leading zero")
    if len(word) > len(str(LARGEST_NUMBER)) or int(word) > LARGEST_NUMBER:
        raise WrongForm("number above 4294967295")
    return int(word)


def read_numbers(words):
    """Zero or more numbers with one space between two."""
    return () if words == b"" else tuple(read_number(word) for word in words.split(b" "))


def read_operation(word):
    """The name of one of the five operations."""
    names = {name.encode(): name for name in calls.OPERATIONS}
    if word not in names:
        raise WrongForm("unknown operation")
    return names[word]


def read_values(text):
    """What stands after the six keys, in order."""
    if text[-1:] != b"\n":
        raise WrongForm("the last line is not ended")
    lines = text[:-1].split(b"\n")
    if len(lines) != len(KEYS):
        raise WrongForm("not six lines")
    for line, key in zip(lines, KEYS):
        if not line.startswith(key + b"="):
            raise WrongForm("a line without its key")
    return [line[len(key) + 1 :] for line, key in zip(lines, KEYS)]


def read_job(text):
    """The job that a text of the right form says; else WrongForm."""
    modulus, a, b, c, operation, curve = read_values(text)
    return Job(
        read_number(modulus),
        read_numbers(a),
        read_numbers(b),
        read_numbers(c),
        read_operation(operation),
        read_numbers(curve),
    )


def write_numbers(numbers):
    """Numbers in decimal with one space between two."""
    return b" ".join(str(number).encode() for number in numbers)


def text_of(job):
    """The one text that says this job."""
    values = (
        write_numbers([job.modulus]),
        write_numbers(job.a),
        write_numbers(job.b),
        write_numbers(job.c),
        job.operation.encode(),
        write_numbers(job.curve),
    )
    return b"".join(key + b"=" + value + b"\n" for key, value in zip(KEYS, values))


def write_answer(operation, numbers):
    """The answer text: the operation, then the result list."""
    return b"op=" + operation.encode() + b"\nout=" + write_numbers(numbers) + b"\n"


def finished(text, output, working):
    """The outcome of a call that writes this text; past it the output is as it was."""
    return TextOutcome(0, len(text), text + output[len(text) :], working)


def text_call(text, output, working):
    """The text call on a job text, an output of bytes and a working list."""
    if len(text) > LONGEST_JOB:
        return TextOutcome(1, 0, output, working)
    try:
        job = read_job(text)
    except WrongForm:
        return TextOutcome(2, 0, output, working)
    lent = calls.Lent(
        job.operation, job.modulus, job.a, job.b, job.c, job.curve, output, working
    )
    verdict = calls.first_refusal(lent, TEXT_TESTS, TEXT_CONDITIONS)
    if verdict != 0:
        return TextOutcome(verdict, 0, output, working)
    answer = write_answer(job.operation, calls.result(lent))
    return finished(answer, output, calls.cleared(working))


def write_job(modulus, a, b, c, operation, curve, output):
    """The call that writes a job, to an output of bytes; 2 if no operation has this number."""
    if operation >= len(OPERATION_NAMES):
        return TextOutcome(2, 0, output, None)
    name = OPERATION_NAMES[operation]
    lent = calls.Lent(name, modulus, a, b, c, curve, output, None)
    verdict = calls.first_refusal(lent, WRITING_TESTS, WRITING_CONDITIONS)
    if verdict != 0:
        return TextOutcome(verdict, 0, output, None)
    return finished(text_of(Job(modulus, a, b, c, name, curve)), output, None)


def program_answer(text):
    """What the program `channel` prints for this input."""
    outcome = text_call(text, bytes(SHORTEST_OUTPUT), [0] * calls.WORKING_LENGTH)
    if outcome.verdict != 0:
        return b"refused=%d\n" % outcome.verdict
    return outcome.output[: outcome.length]
