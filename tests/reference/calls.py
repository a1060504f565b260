"""Every call of the scope paper on numbers, with its verdict.

A call is given lists of any length and any modulus. It answers with an
Outcome: verdict 0 or the refusal number, the output after the call, and the
working list after the call (None for a call that is lent none). A refusal
leaves both as they were. Lists that are handed in are never altered. The
inverse tells the greatest common factor of the number and the modulus besides.

Tests run in the order below, each over all rows or entries before the next:
that of their numbers, with 17 at the place of 10 and 18 at that of 11, where
they are given instead. With r the length of a, and n = r + 1:

3   the modulus is below 2 or above 2147483647
4   b or c is not as long as a
5   more than 127 rows
6   the curve is not n long (for moments and norms: not empty)
7   the output is not n long (for moments: 2n - 1)
8   the working list is under 16,384 numbers
9   an entry of a, b or c is not below the modulus
17  the lowest row without an inverse for a has a zero there
10  some a has no inverse
18  the lowest row from row 2 on without an inverse for c has a zero there
11  some c from row 2 on has no inverse
12  an entry of the curve, or the number to invert, is not below the modulus
13  the number to invert has no inverse
"""

from dataclasses import dataclass

import curves

LARGEST_MODULUS = 2147483647
LARGEST_ROW_COUNT = 127
WORKING_LENGTH = 16384

OPERATIONS = {
    "expand": curves.expand,
    "adjoint": curves.adjoint,
    "decompose": curves.decompose,
    "moments": lambda family, curve: curves.moments(family),
    "norms": lambda family, curve: curves.norms(family),
}
WITHOUT_CURVE = ("moments", "norms")

PLAIN_TESTS = (3, 4, 5, 6, 7, 9, 17, 10, 18, 11, 12)
TREE_TESTS = (3, 4, 5, 6, 7, 8, 9, 17, 10, 18, 11, 12)
MOMENTS_TESTS = (3, 4, 5, 7, 8, 9, 17, 10, 18, 11)
NORMS_TESTS = (3, 4, 5, 7, 9, 17, 10, 18, 11)


@dataclass(frozen=True)
class Lent:
    """What a call is lent. A curve or working list of None is not lent."""

    operation: str
    modulus: int
    a: list
    b: list
    c: list
    curve: list | None
    output: list
    working: list | None

    @property
    def row_count(self):
        """The paper's r, by the length of a."""
        return len(self.a)

    @property
    def curve_length(self):
        """How long the curve has to be."""
        return 0 if self.operation in WITHOUT_CURVE else self.row_count + 1

    @property
    def result_length(self):
        """How long the result is: n, or 2n - 1 for moments."""
        n = self.row_count + 1
        return 2 * n - 1 if self.operation == "moments" else n


@dataclass(frozen=True)
class Outcome:
    """What a call leaves: verdict (0 is accepted), output, working list.

    The factor is for the inverse alone: the one number, or empty if it tells none.
    """

    verdict: int
    output: list
    working: list | None
    factor: list | None = None


def modulus_outside(modulus):
    """Whether the modulus is outside its range."""
    return modulus < 2 or modulus > LARGEST_MODULUS


def some_reach(numbers, modulus):
    """Whether some number is not below the modulus."""
    return any(number >= modulus for number in numbers)


def lowest_without_inverse(numbers, modulus):
    """The number of the lowest row that has no inverse, or None if every one has."""
    return next((x for x in numbers if curves.inverse(x, modulus) is None), None)


def some_without_inverse(numbers, modulus):
    """Whether some number has no inverse."""
    return lowest_without_inverse(numbers, modulus) is not None


def zero_is_lowest(numbers, modulus):
    """Whether the lowest row that has no inverse has a zero."""
    return lowest_without_inverse(numbers, modulus) == 0


CONDITIONS = {
    3: lambda lent: modulus_outside(lent.modulus),
    4: lambda lent: len(lent.b) != len(lent.a) or len(lent.c) != len(lent.a),
    5: lambda lent: lent.row_count > LARGEST_ROW_COUNT,
    6: lambda lent: len(lent.curve) != lent.curve_length,
    7: lambda lent: len(lent.output) != lent.result_length,
    8: lambda lent: len(lent.working) < WORKING_LENGTH,
    9: lambda lent: some_reach([*lent.a, *lent.b, *lent.c], lent.modulus),
    10: lambda lent: some_without_inverse(lent.a, lent.modulus),
    11: lambda lent: some_without_inverse(lent.c[1:], lent.modulus),
    12: lambda lent: some_reach(lent.curve, lent.modulus),
    17: lambda lent: zero_is_lowest(lent.a, lent.modulus),
    18: lambda lent: zero_is_lowest(lent.c[1:], lent.modulus),
}


def first_refusal(lent, numbers, conditions):
    """The first of the numbers whose condition holds, or 0."""
    return next((number for number in numbers if conditions[number](lent)), 0)


def result(lent):
    """The list that the definition gives for an accepted call."""
    family = curves.Family(lent.modulus, tuple(lent.a), tuple(lent.b), tuple(lent.c))
    return OPERATIONS[lent.operation](family, lent.curve)


def cleared(working):
    """The working list after an accepted call: 16,384 zeros, then as it was."""
    return [0] * WORKING_LENGTH + list(working[WORKING_LENGTH:])


def outcome(lent, numbers, conditions=CONDITIONS):
    """The outcome of a call whose tests have the given numbers."""
    verdict = first_refusal(lent, numbers, conditions)
    if verdict != 0:
        return Outcome(verdict, lent.output, lent.working)
    working = None if lent.working is None else cleared(lent.working)
    return Outcome(0, result(lent), working)


def plain_expand(modulus, a, b, c, curve, output):
    """Expand, the plain way."""
    return outcome(Lent("expand", modulus, a, b, c, curve, output, None), PLAIN_TESTS)


def plain_adjoint(modulus, a, b, c, curve, output):
    """Adjoint, the plain way."""
    return outcome(Lent("adjoint", modulus, a, b, c, curve, output, None), PLAIN_TESTS)


def plain_decompose(modulus, a, b, c, curve, output):
    """Decompose, the plain way."""
    return outcome(Lent("decompose", modulus, a, b, c, curve, output, None), PLAIN_TESTS)


def tree_expand(modulus, a, b, c, curve, output, working):
    """Expand with the promises of the tree way."""
    return outcome(Lent("expand", modulus, a, b, c, curve, output, working), TREE_TESTS)


def tree_adjoint(modulus, a, b, c, curve, output, working):
    """Adjoint with the promises of the tree way."""
    return outcome(Lent("adjoint", modulus, a, b, c, curve, output, working), TREE_TESTS)


def tree_decompose(modulus, a, b, c, curve, output, working):
    """Decompose with the promises of the tree way."""
    return outcome(Lent("decompose", modulus, a, b, c, curve, output, working), TREE_TESTS)


def moments(modulus, a, b, c, output, working):
    """Moments: lent no curve, always lent a working list."""
    return outcome(Lent("moments", modulus, a, b, c, None, output, working), MOMENTS_TESTS)


def norms(modulus, a, b, c, output):
    """Norms: lent neither a curve nor a working list."""
    return outcome(Lent("norms", modulus, a, b, c, None, output, None), NORMS_TESTS)


def inverse(modulus, number):
    """Inverse: the output is the one inverse, or empty on refusal 3, 12 or 13.

    It tells the greatest common factor when it accepts and with 13.
    """
    if modulus_outside(modulus):
        return Outcome(3, [], None, [])
    if number >= modulus:
        return Outcome(12, [], None, [])
    factor = [curves.greatest_common_factor(number, modulus)]
    found = curves.inverse(number, modulus)
    if found is None:
        return Outcome(13, [], None, factor)
    return Outcome(0, [found], None, factor)
