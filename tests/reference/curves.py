"""Orthogonal curves modulo m, straight from the definitions of the scope paper.

Family      == modulus m (the channel number) and the lists a, b, c of r rows.
closing row == row n = r + 1, an argument; the paper's is (1, 1, 1).
curve       == list of n numbers below m; the lowest index or power comes first.

Every function wants an accepted family and states no refusal: those are in
calls.py. Polynomials are lists of coefficients, lowest power first. Nothing is
done quickly here; each formula is the paper's, with one remainder at its end.
"""

from dataclasses import dataclass
from functools import lru_cache
from math import isqrt

CLOSING_ROW = (1, 1, 1)


@dataclass(frozen=True)
class Family:
    """A family: the modulus and, row by row, the factors a_i, b_i, c_i."""

    modulus: int
    a: tuple
    b: tuple
    c: tuple

    @property
    def n(self):
        """The length of a curve: one more than the number of rows."""
        return len(self.a) + 1

    def rows(self, closing=CLOSING_ROW):
        """Rows 1 to n, the closing row last; row i stands at place i - 1."""
        return list(zip(self.a, self.b, self.c)) + [closing]


def inverse(x, modulus):
    """The number below the modulus that times x leaves 1, or None.

    Extended Euclid keeps two pairs (remainder, multiplier of x). The product
    is tried at the end, so what is handed out is an inverse by definition.
    """
    older, newer = (modulus, 0), (x, 1)
    while newer[0] != 0:
        quotient = older[0] // newer[0]
        older, newer = newer, (
            older[0] - quotient * newer[0],
            older[1] - quotient * newer[1],
        )
    candidate = older[1] % modulus
    return candidate if x * candidate % modulus == 1 else None


@lru_cache(maxsize=1000)
def divisors(number):
    """All divisors of a number above zero: those up to its square root, and their cofactors."""
    small = [divisor for divisor in range(1, isqrt(number) + 1) if number % divisor == 0]
    return sorted({*small, *(number // divisor for divisor in small)})


def greatest_common_factor(x, modulus):
    """The greatest number that divides both; zero is divided by every number."""
    return max(divisor for divisor in divisors(modulus) if x % divisor == 0)


def divide(x, y, modulus):
    """x divided by y, which must have an inverse."""
    return x * inverse(y, modulus) % modulus


def coefficient(polynomial, power):
    """The coefficient of x^power, zero outside the list."""
    return polynomial[power] if 0 <= power < len(polynomial) else 0


def next_polynomial(row, last, before_last, modulus):
    """(a x + b) * last + c * before_last, one coefficient longer than last."""
    a, b, c = row
    return [
        (
            a * coefficient(last, power - 1)
            + b * coefficient(last, power)
            + c * coefficient(before_last, power)
        )
        % modulus
        for power in range(len(last) + 1)
    ]


def run_recurrence(rows, modulus):
    """P_0 = 1, P_1, ... by one row each, from P_{-1} = 0."""
    found = [[1]]
    before_last = []
    for row in rows:
        found.append(next_polynomial(row, found[-1], before_last, modulus))
        before_last = found[-2]
    return found


def basis(family, closing=CLOSING_ROW):
    """F_0 to F_n; F_i has i + 1 coefficients. Only F_n uses the closing row."""
    return run_recurrence(family.rows(closing), family.modulus)


def associated(family, closing=CLOSING_ROW):
    """G_0 to G_{n-1}: the same recurrence from row 2 on."""
    return run_recurrence(family.rows(closing)[1:], family.modulus)


def expand(family, curve):
    """The n coefficients, in powers of x, of the sum of curve_i F_i."""
    polynomials = basis(family)
    return [
        sum(
            curve[i] * coefficient(polynomials[i], power)
            for i in range(power, family.n)
        )
        % family.modulus
        for power in range(family.n)
    ]


def adjoint(family, curve):
    """Entry j is the sum over i of curve_i times coefficient i of F_j."""
    polynomials = basis(family)
    return [
        sum(curve[i] * polynomials[j][i] for i in range(j + 1)) % family.modulus
        for j in range(family.n)
    ]


def decompose(family, coefficients):
    """The curve that expand turns into the coefficients.

    Back substitution: the top power that is left names its F_i, which is
    taken away as often as the top coefficient asks.
    """
    modulus = family.modulus
    polynomials = basis(family)
    rest = list(coefficients)
    curve = [0] * family.n
    for i in range(family.n - 1, -1, -1):
        curve[i] = divide(rest[i], polynomials[i][i], modulus)
        for power in range(i + 1):
            rest[power] = (rest[power] - curve[i] * polynomials[i][power]) % modulus
    return curve


def reversal(polynomial, length):
    """x^{length-1} P(1/x); the length is stated and not taken from the degree."""
    return [coefficient(polynomial, length - 1 - power) for power in range(length)]


def series_quotient(numerator, denominator, count, modulus):
    """The first count coefficients of the power series numerator / denominator."""
    quotient = []
    for power in range(count):
        known = sum(
            coefficient(denominator, power - lower) * quotient[lower]
            for lower in range(max(0, power - len(denominator) + 1), power)
        )
        rest = coefficient(numerator, power) - known
        quotient.append(divide(rest, denominator[0], modulus))
    return quotient


def moments(family, closing=CLOSING_ROW):
    """The first 2n - 1 coefficients of rev(G_{n-1}, n) / rev(F_n, n + 1)."""
    n = family.n
    return series_quotient(
        reversal(associated(family, closing)[n - 1], n),
        reversal(basis(family, closing)[n], n + 1),
        2 * n - 1,
        family.modulus,
    )


def norms(family, closing=CLOSING_ROW):
    """d_i = (-1)^i c_2 ... c_{i+1} / a_{i+1} for i from 0 to n - 1."""
    rows = family.rows(closing)
    found = []
    for i in range(family.n):
        product = (-1) ** i
        for row in range(2, i + 2):
            product = product * rows[row - 1][2] % family.modulus
        found.append(divide(product, rows[i][0], family.modulus))
    return found


def uncut_product(left, right, modulus):
    """All coefficients of the product of two polynomials that are not empty."""
    product = [0] * (len(left) + len(right) - 1)
    for i, from_left in enumerate(left):
        for j, from_right in enumerate(right):
            product[i + j] += from_left * from_right
    return [total % modulus for total in product]


def product_law_totals(family, u, v, closing=CLOSING_ROW):
    """The two totals of the product law, equal on every accepted family.

    First the sum over k of coefficient k of expand(u) * expand(v) times
    moment k, then the sum over i of u_i v_i times norm i.
    """
    modulus = family.modulus
    product = uncut_product(expand(family, u), expand(family, v), modulus)
    by_moments = sum(x * y for x, y in zip(product, moments(family, closing), strict=True))
    by_norms = sum(
        x * y * z for x, y, z in zip(u, v, norms(family, closing), strict=True)
    )
    return by_moments % modulus, by_norms % modulus
