"""Vectors for the prepared family: a file of steps and one of what each leaves.

usage: python3 tests/reference/prepared_vectors.py [--check] IN OUT

One step a line, a name and decimal numbers with one space between two, every
list preceded by its length. The steps of a line of IN are those of
prepared_cases.py:

    record m rows |a| a.. |b| b.. |c| c.. |a'| a'.. |c'| c'.. |d| d..
    set place number
    empty m
    append a b c
    drop_last
    replace row a b c
    plain_expand |v| v.. output-length
    norms output-length
    tree_expand |v| v.. output-length working-length
    moments output-length working-length

with adjoint and decompose as expand, plain and tree. A record is its modulus,
its row count and its six lists (the rows, the inverses of a and of c, the
norms), each up to its last number that is not zero. Every step is lent the
record that the one before left; record and empty need none.

A line of OUT is, for a change, the answer (0 or the refusal number) and the
record handed out; for an operation what a line of vectors.py says of a call.
For record and set, which are no calls, it is what norms then answers when it
is lent an output of length 0: 14, or 7 if the record is right.

    append 2 3 5
    0 7 2 2 1 2 2 0 3 2 1 5 2 1 4 2 0 3 3 1 1 5

Without --check both files are written, or neither. With it they are compared
byte for byte: exit 1 if they differ. Bad arguments exit with 2.
"""

import prepared
from prepared_cases import CHANGES, MADE, loaded, run_operation, sequences
from vectors import contents_of, line, outcome_line, with_length, write_or_compare


def flat(given):
    """Numbers, and lists preceded by their lengths, one after the other."""
    for part in given:
        yield from with_length(part) if isinstance(part, tuple) else (part,)


def input_lines(steps):
    """The lines of IN for a sequence."""
    return "".join(line([name, *flat(given)]) for name, *given in steps)


def after(record, step):
    """The record after a step, and the line of OUT."""
    name, *given = step
    if name in MADE:
        made = MADE[name](record, *given)
        return made, line([prepared.norms(made, []).verdict])
    if name in CHANGES:
        changed = CHANGES[name](record, *given)
        return changed.record, line([changed.verdict, *flat(loaded(changed.record)[1:])])
    return record, outcome_line(run_operation(record, *step))


def expected_lines(steps):
    """The lines of OUT for a sequence."""
    record, lines = None, []
    for step in steps:
        record, expected = after(record, step)
        lines.append(expected)
    return "".join(lines)


if __name__ == "__main__":
    write_or_compare(__doc__, "steps", lambda _: contents_of(sequences(), input_lines, expected_lines))
