"""The classical families: their F_i are the textbook's polynomials.

Some polynomials are stated as textbooks print them; all up to F_127 are
compared with closed forms, and norms and moments with the known ones. All of
it holds with c_1 = 0, which the textbook's recurrence has for most of them,
and with a unit there.
"""

from fractions import Fraction
from itertools import product

import cases
import curves
from classical import (
    MOMENTS,
    NORMS,
    POLYNOMIALS,
    ROWS,
    classical_family,
    classical_row,
    least_prime,
    residue,
)

KIND = "classical"
LARGE_PRIME = 2147483647

# index, coefficients with the lowest power first, and what divides them all
STATED = {
    "Chebyshev T": (
        (1, (0, 1), 1),
        (2, (-1, 0, 2), 1),
        (4, (1, 0, -8, 0, 8), 1),
        (5, (0, 5, 0, -20, 0, 16), 1),
    ),
    "Chebyshev U": (
        (1, (0, 2), 1),
        (2, (-1, 0, 4), 1),
        (3, (0, -4, 0, 8), 1),
        (4, (1, 0, -12, 0, 16), 1),
    ),
    "Legendre": (
        (1, (0, 1), 1),
        (2, (-1, 0, 3), 2),
        (3, (0, -3, 0, 5), 2),
        (4, (3, 0, -30, 0, 35), 8),
        (5, (0, 15, 0, -70, 0, 63), 8),
    ),
    "Laguerre": (
        (1, (1, -1), 1),
        (2, (2, -4, 1), 2),
        (3, (6, -18, 9, -1), 6),
        (4, (24, -96, 72, -16, 1), 24),
    ),
    "Hermite": (
        (1, (0, 2), 1),
        (2, (-2, 0, 4), 1),
        (3, (0, -12, 0, 8), 1),
        (4, (12, 0, -48, 0, 16), 1),
    ),
}


def residues(numbers, prime):
    """Whole numbers and fractions modulo a prime."""
    return [residue(number, prime) for number in numbers]


def check_stated(tally, name, prime, first_c):
    """The stated polynomials, each as what Expand makes of F_i alone."""
    for i, coefficients, divisor in STATED[name]:
        family = classical_family(name, prime, i, first_c)
        expected = residues([Fraction(number, divisor) for number in coefficients], prime)
        got = cases.run(cases.family_case(1, family, (0,) * i + (1,)))
        tally.equal(KIND, (name, prime, i, first_c), (0, expected), (got.verdict, got.output))


def check_closed_forms(tally, name, prime, row_count, first_c):
    """All polynomials, norms and moments; the family's own next row closes it."""
    family = classical_family(name, prime, row_count, first_c)
    closing = classical_row(name, prime, row_count + 1)
    case = (name, prime, row_count, first_c)
    basis = curves.basis(family, closing)
    for i in range(row_count + 1):
        expected = residues(POLYNOMIALS[name](i), prime)
        tally.equal(KIND, (*case, f"F_{i}"), expected, basis[i])
    expected = residues([NORMS[name](i) for i in range(row_count + 1)], prime)
    tally.equal(KIND, (*case, "norms"), expected, curves.norms(family, closing))
    expected = residues([MOMENTS[name](k) for k in range(2 * row_count + 1)], prime)
    tally.equal(KIND, (*case, "moments"), expected, curves.moments(family, closing))


def check_accepted(tally, name, prime, row_count):
    """Zero as c_1, as published, and units are accepted by every call on families."""
    for first_c in (0, 1, prime - 1):
        family = classical_family(name, prime, row_count, first_c)
        for call in cases.CALL_NAMES:
            if call != cases.INVERSE:
                got = cases.run(cases.family_case(call, family, (1,) * family.n)).verdict
                tally.equal(KIND, (name, prime, row_count, first_c, call), 0, got)


def check(tally, source):
    """Every classical family; the random source is not used."""
    del source
    for name in ROWS:
        for row_count, first_c in product((0, 1, 2, 3, 8, 15, 127), (0, 1)):
            check_closed_forms(tally, name, LARGE_PRIME, row_count, first_c)
        for row_count in (1, 2, 3, 6):
            check_accepted(tally, name, least_prime(name, row_count), row_count)
    for name in STATED:
        for prime, first_c in product((11, 257, 65537, LARGE_PRIME), (0, 1)):
            check_stated(tally, name, prime, first_c)
