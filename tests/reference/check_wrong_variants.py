"""The scope paper's known ways to lose a curve, and those about c_1, told from the right way.

Each wrong variant stands here with a stated family on which its answer
differs from the right one. The right answers are stated too.
"""

from itertools import product
from math import gcd, prod

import calls
import curves
import second_ways
from cases import family_case, inverse_case, run
from check_figures import P10_FAMILY, P12_FAMILY, ZERO_FIRST_C, R
from curves import Family

ZERO_FACTOR = Family(7, (1, 0), (0, 3), (1, 5))
SHARED_FACTOR = Family(15, (6,), (0,), (1,))
SHARED_FIRST_C = Family(35, (1, 3), (0, 0), (5, 6))
SHARED_SECOND_C = Family(35, (1, 3), (0, 0), (0, 7))
REACHING_ONE_ROW = Family(7, (1,), (0,), (7,))
KIND = "wrong variants"


def powered(x, modulus):
    """An inverse by powering, which is right over a prime but never tested."""
    return pow(x, modulus - 2, modulus)


def decompose_by_powering(family, coefficients):
    """Back substitution that divides by powering, with no test before."""
    modulus = family.modulus
    polynomials = curves.basis(family)
    rest = list(coefficients)
    curve = [0] * family.n
    for i in range(family.n - 1, -1, -1):
        curve[i] = rest[i] * powered(polynomials[i][i], modulus) % modulus
        for power in range(i + 1):
            rest[power] -= curve[i] * polynomials[i][power]
    return curve


def norms_by_formula(family, first_c, last_c, divisor):
    """(-1)^i c_{first_c} ... c_{last_c(i)} / a_{divisor(i)}."""
    rows = family.rows()
    found = []
    for i in range(family.n):
        total = (-1) ** i
        for row in range(first_c, last_c(i) + 1):
            total *= rows[row - 1][2]
        found.append(curves.divide(total, rows[divisor(i) - 1][0], family.modulus))
    return found


def norms_by_earlier_a(family):
    """Norm i divided by a_i; norm 0, which has no a_0, by a_1."""
    return norms_by_formula(family, 2, lambda i: i + 1, lambda i: max(i, 1))


def norms_from_c_1(family):
    """The product c_1 ... c_{i+1}, one factor too many."""
    return norms_by_formula(family, 1, lambda i: i + 1, lambda i: i + 1)


def norms_shifted_to_c_1(family):
    """The product c_1 ... c_i, every factor one row early."""
    return norms_by_formula(family, 1, lambda i: i, lambda i: i + 1)


def moments_with_long_reversal(family):
    """G_{n-1} reversed with length n + 1, as F_n is."""
    n = family.n
    return curves.series_quotient(
        curves.reversal(curves.associated(family)[n - 1], n + 1),
        curves.reversal(curves.basis(family)[n], n + 1),
        2 * n - 1,
        family.modulus,
    )


def last_basis_from_halves(family, in_order):
    """F_n from the matrices of two halves of the rows, joined in one order."""
    rows, modulus = family.rows(), family.modulus
    half = (len(rows) + 1) // 2
    first, second = (
        second_ways.matrix_of_rows(part, modulus) for part in (rows[:half], rows[half:])
    )
    joined = (second, first) if in_order else (first, second)
    return second_ways.trimmed(second_ways.matrix_product(*joined, modulus)[1][1], len(rows) + 1)


def verdict_by_non_zero(family):
    """17 or 18 if some a or c_2 on is zero, and no more: too few where m is composite."""
    return 17 if 0 in family.a else 18 if 0 in family.c[1:] else 0


def verdict_from_row(first):
    """The verdict, as a function of a family, of tests for 18 and 11 from this row on."""

    def verdict(family):
        lowest = calls.lowest_without_inverse(family.c[first - 1 :], family.modulus)
        return 0 if lowest is None else 18 if lowest == 0 else 11

    return verdict


def verdict_of_more_rows(family):
    """The verdict of a test of rows that leaves a single row out."""
    return 0 if len(family.a) == 1 else run(family_case(4, family, ())).verdict


def cofactor(x, modulus):
    """Euclid's multiplier of x: it leaves the greatest common factor, be that 1 or not."""
    factor = gcd(x, modulus)
    return pow(x // factor, -1, modulus // factor)


def decompose_by_one_inverse(family, coefficients):
    """Tree Decompose with every norm's inverse from one of all c, c_1 too, that is not tested."""
    modulus, rows = family.modulus, family.rows()
    factors = [c for _, _, c in rows]
    of_all = cofactor(prod(factors) % modulus, modulus)
    found = []
    for i, x in enumerate(second_ways.decomposed_times_norms(family, coefficients)):
        others = prod(factors[:1] + factors[i + 1 :])
        found.append((-1) ** i * x * rows[i][0] * of_all * others % modulus)
    return found


def check_powering(tally):
    """Powering, on zero modulo 7 and on 2 modulo 15."""
    tally.equal(KIND, "inverse of 0 mod 7", 13, run(inverse_case(7, 0)).verdict)
    tally.equal(KIND, "0 powered mod 7", 0, powered(0, 7))
    tally.equal(KIND, "inverse of 2 mod 15", [8], run(inverse_case(15, 2)).output)
    tally.equal(KIND, "2 powered mod 15", 2, powered(2, 15))
    coefficients = (1, 3, 2)
    case = family_case(3, ZERO_FACTOR, coefficients)
    tally.equal(KIND, case, 17, run(case).verdict)
    lost = curves.expand(ZERO_FACTOR, decompose_by_powering(ZERO_FACTOR, coefficients))
    tally.differ(KIND, case, list(coefficients), lost)


def check_non_zero(tally):
    """6 modulo 15 is not zero, yet no curve expands to 1 + x."""
    case = family_case(3, SHARED_FACTOR, (1, 1))
    tally.equal(KIND, case, 10, run(case).verdict)
    tally.differ(KIND, case, 10, verdict_by_non_zero(SHARED_FACTOR))
    reached = [
        curve
        for curve in product(range(15), repeat=2)
        if curves.expand(SHARED_FACTOR, curve) == [1, 1]
    ]
    tally.equal(KIND, case, [], reached)


def check_norms_and_moments(tally):
    """The wrong norms and the wrong moments, on R and on P12's family."""
    for family, right, wrong in (
        (R, [1, 1, 5], norms_by_earlier_a),
        (P12_FAMILY, [8, 14], norms_from_c_1),
        (R, [1, 1, 5], norms_shifted_to_c_1),
        (ZERO_FIRST_C, [1, 33, 6], norms_from_c_1),
        (ZERO_FIRST_C, [1, 33, 6], norms_shifted_to_c_1),
    ):
        tally.equal(KIND, family, right, curves.norms(family))
        tally.differ(KIND, (wrong.__name__, family), right, wrong(family))
    tally.equal(KIND, R, [1, 0, 1, 2, 1], curves.moments(R))
    tally.equal(KIND, R, [0, 1, 0, 1, 2], moments_with_long_reversal(R))


def check_order_of_halves(tally):
    """The halves of R and its closing row, joined in both orders."""
    right = curves.basis(R)[R.n]
    tally.equal(KIND, R, right, last_basis_from_halves(R, True))
    tally.differ(KIND, R, right, last_basis_from_halves(R, False))


def check_rows_of_c(tally):
    """18 and 11 from another row than row 2 on, and a single row that is not tested."""
    for family, right, wrong in (
        (ZERO_FIRST_C, 0, verdict_from_row(1)),
        (SHARED_FIRST_C, 0, verdict_from_row(1)),
        (SHARED_SECOND_C, 11, verdict_from_row(3)),
        (P10_FAMILY, 10, verdict_of_more_rows),
        (REACHING_ONE_ROW, 9, verdict_of_more_rows),
    ):
        case = family_case(4, family, ())
        tally.equal(KIND, case, right, run(case).verdict)
        tally.differ(KIND, case, right, wrong(family))


def check_one_inverse(tally):
    """One inverse of all c is right where c_1 has one, and loses the curve where not."""
    tally.equal(KIND, R, [3, 0, 1], decompose_by_one_inverse(R, (1, 3, 2)))
    for family in (ZERO_FIRST_C, SHARED_FIRST_C):
        case = family_case(8, family, (19, 2, 9))
        tally.equal(KIND, case, [1, 2, 3], run(case).output)
        tally.differ(KIND, case, [1, 2, 3], decompose_by_one_inverse(family, (19, 2, 9)))


def check(tally, _source):
    """All wrong variants; they are the same for every seed."""
    check_powering(tally)
    check_non_zero(tally)
    check_norms_and_moments(tally)
    check_order_of_halves(tally)
    check_rows_of_c(tally)
    check_one_inverse(tally)
