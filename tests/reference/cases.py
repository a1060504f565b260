"""A case: one call by its number, with its arguments and the lengths lent.

1 plain expand   2 plain adjoint   3 plain decompose   4 norms   5 inverse
6 tree expand    7 tree adjoint    8 tree decompose    9 moments

Before a call the output holds 4294967295 - i at place i, and the working list
4000000000 + (i % 1000). The number to invert is the curve's one entry. A list
that a call is not lent is empty here, or has length 0.
"""

from dataclasses import dataclass
from functools import cache

import calls

CALL_NAMES = {
    1: "plain expand",
    2: "plain adjoint",
    3: "plain decompose",
    4: "norms",
    5: "inverse",
    6: "tree expand",
    7: "tree adjoint",
    8: "tree decompose",
    9: "moments",
}
NORMS, INVERSE, MOMENTS = 4, 5, 9
ON_CURVES = {
    1: calls.plain_expand,
    2: calls.plain_adjoint,
    3: calls.plain_decompose,
    6: calls.tree_expand,
    7: calls.tree_adjoint,
    8: calls.tree_decompose,
}
WITH_WORKING = (6, 7, 8, 9)
# The numbers of each call in the order of its tests.
REFUSALS = {
    1: (3, 4, 5, 6, 7, 9, 17, 10, 18, 11, 12),
    2: (3, 4, 5, 6, 7, 9, 17, 10, 18, 11, 12),
    3: (3, 4, 5, 6, 7, 9, 17, 10, 18, 11, 12),
    4: (3, 4, 5, 7, 9, 17, 10, 18, 11),
    5: (3, 12, 13),
    6: (3, 4, 5, 6, 7, 8, 9, 17, 10, 18, 11, 12),
    7: (3, 4, 5, 6, 7, 8, 9, 17, 10, 18, 11, 12),
    8: (3, 4, 5, 6, 7, 8, 9, 17, 10, 18, 11, 12),
    9: (3, 4, 5, 7, 8, 9, 17, 10, 18, 11),
}


@dataclass(frozen=True)
class Case:
    """One call with all that it is lent."""

    call: int
    modulus: int
    a: tuple
    b: tuple
    c: tuple
    curve: tuple
    output_length: int
    working_length: int


def family_case(call, family, curve):
    """The case of an accepted call on a family; the curve only where it is lent."""
    n = family.n
    return Case(
        call,
        family.modulus,
        family.a,
        family.b,
        family.c,
        tuple(curve) if call in ON_CURVES else (),
        2 * n - 1 if call == MOMENTS else n,
        calls.WORKING_LENGTH if call in WITH_WORKING else 0,
    )


def inverse_case(modulus, number):
    """The case that inverts one number."""
    return Case(INVERSE, modulus, (), (), (), (number,), 0, 0)


def output_before(length):
    """What the output holds before a call."""
    return [4294967295 - place for place in range(length)]


@cache
def working_before(length):
    """What the working list holds before a call; not to be altered."""
    return [4000000000 + place % 1000 for place in range(length)]


def run(case):
    """The outcome of the case."""
    if case.call == INVERSE:
        return calls.inverse(case.modulus, *case.curve)
    arguments = [case.modulus, case.a, case.b, case.c]
    if case.call in ON_CURVES:
        arguments.append(case.curve)
    arguments.append(output_before(case.output_length))
    if case.call in WITH_WORKING:
        arguments.append(working_before(case.working_length))
    return {**ON_CURVES, NORMS: calls.norms, MOMENTS: calls.moments}[case.call](*arguments)
