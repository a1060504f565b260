"""The families that textbooks know, modulo a prime.

ROWS holds each textbook's recurrence solved for F_i, with its fractions:
modulo a prime above its denominators they are whole numbers. So F_i is T_i,
U_i, P_i, L_i or H_i itself; two families more have F_i = i! P_i and i! L_i,
which need no fraction. The c_1 of all of them multiplies F_{-1} = 0 and is
free, so it is an argument.

POLYNOMIALS, NORMS and MOMENTS say the same families in closed form, with no
recurrence. Norms and moments are those of a family that its own next row
closes.
"""

from fractions import Fraction
from math import comb, factorial, gcd

from curves import Family
from families import with_first_c

ROWS = {
    "Chebyshev T": lambda i: (1 if i == 1 else 2, 0, -1),
    "Chebyshev U": lambda i: (2, 0, -1),
    "Legendre": lambda i: (Fraction(2 * i - 1, i), 0, Fraction(1 - i, i)),
    "Laguerre": lambda i: (Fraction(-1, i), Fraction(2 * i - 1, i), Fraction(1 - i, i)),
    "Hermite": lambda i: (2, 0, 2 - 2 * i),
    "Legendre times i!": lambda i: (2 * i - 1, 0, -((i - 1) ** 2)),
    "Laguerre times i!": lambda i: (-1, 2 * i - 1, -((i - 1) ** 2)),
}


def residue(number, prime):
    """A whole number or a fraction modulo a prime that its denominator lacks."""
    fraction = Fraction(number)
    return fraction.numerator * pow(fraction.denominator, -1, prime) % prime


def classical_row(name, prime, i):
    """Row i of a classical family."""
    return tuple(residue(factor, prime) for factor in ROWS[name](i))


def classical_family(name, prime, row_count, first_c):
    """The first rows of a classical family, with c_1 as stated."""
    rows = [classical_row(name, prime, i) for i in range(1, row_count + 1)]
    a, b, c = (tuple(row[place] for row in rows) for place in range(3))
    return with_first_c(Family(prime, a, b, c), first_c)


def has_rows(name, number, row_count):
    """Whether modulo this number the rows exist and are accepted."""
    rows = [ROWS[name](i) for i in range(1, row_count + 1)]
    fractions = [Fraction(factor) for row in rows for factor in row]
    dividing = [fraction.denominator for fraction in fractions]
    dividing += [Fraction(a).numerator for a, _, _ in rows]
    dividing += [Fraction(c).numerator for _, _, c in rows[1:]]
    return all(gcd(factor, number) == 1 for factor in dividing)


def least_prime(name, row_count):
    """The least prime modulo which so many rows exist and are accepted."""
    number = 2
    while any(number % d == 0 for d in range(2, number)) or not has_rows(name, number, row_count):
        number += 1
    return number


def from_the_top(i, coefficient):
    """The polynomial with coefficient(k) at x^{i-2k}, lowest power first."""
    found = [Fraction(0)] * (i + 1)
    for k in range(i // 2 + 1):
        found[i - 2 * k] = Fraction(coefficient(k))
    return found


def chebyshev_t(i):
    """T_i, half the sum over k of (-1)^k i/(i-k) C(i-k, k) (2x)^{i-2k}; T_0 = 1."""
    if i == 0:
        return [Fraction(1)]
    return from_the_top(
        i, lambda k: Fraction((-1) ** k * i * comb(i - k, k) * 2 ** (i - 2 * k), 2 * (i - k))
    )


def chebyshev_u(i):
    """U_i, the sum over k of (-1)^k C(i-k, k) (2x)^{i-2k}."""
    return from_the_top(i, lambda k: (-1) ** k * comb(i - k, k) * 2 ** (i - 2 * k))


def legendre(i):
    """P_i, the sum over k of (-1)^k C(i, k) C(2i-2k, i) x^{i-2k} / 2^i."""
    return from_the_top(
        i, lambda k: Fraction((-1) ** k * comb(i, k) * comb(2 * i - 2 * k, i), 2**i)
    )


def laguerre(i):
    """L_i, the sum over k of C(i, k) (-x)^k / k!."""
    return [Fraction((-1) ** k * comb(i, k), factorial(k)) for k in range(i + 1)]


def hermite(i):
    """H_i, the sum over k of (-1)^k i! (2x)^{i-2k} / (k! (i-2k)!)."""
    return from_the_top(
        i,
        lambda k: Fraction(
            (-1) ** k * factorial(i) * 2 ** (i - 2 * k), factorial(k) * factorial(i - 2 * k)
        ),
    )


def times_factorial(polynomial):
    """i! times a polynomial of index i."""
    return lambda i: [factorial(i) * coefficient for coefficient in polynomial(i)]


POLYNOMIALS = {
    "Chebyshev T": chebyshev_t,
    "Chebyshev U": chebyshev_u,
    "Legendre": legendre,
    "Laguerre": laguerre,
    "Hermite": hermite,
    "Legendre times i!": times_factorial(legendre),
    "Laguerre times i!": times_factorial(laguerre),
}

NORMS = {
    "Chebyshev T": lambda i: 1 if i == 0 else Fraction(1, 2),
    "Chebyshev U": lambda i: Fraction(1, 2),
    "Legendre": lambda i: Fraction(1, 2 * i + 1),
    "Laguerre": lambda i: -1,
    "Hermite": lambda i: Fraction(2**i * factorial(i), 2),
    "Legendre times i!": lambda i: Fraction(factorial(i) ** 2, 2 * i + 1),
    "Laguerre times i!": lambda i: -(factorial(i) ** 2),
}


def even_moment(value):
    """A sequence of moments whose odd ones are zero."""
    return lambda k: value(k // 2) if k % 2 == 0 else 0


MOMENTS = {
    "Chebyshev T": even_moment(lambda h: Fraction(comb(2 * h, h), 4**h)),
    "Chebyshev U": even_moment(lambda h: Fraction(comb(2 * h, h), 2 * (h + 1) * 4**h)),
    "Legendre": even_moment(lambda h: Fraction(1, 2 * h + 1)),
    "Laguerre": lambda k: -factorial(k),
    "Hermite": even_moment(lambda h: Fraction(factorial(2 * h), 2 * 4**h * factorial(h))),
}
MOMENTS["Legendre times i!"] = MOMENTS["Legendre"]
MOMENTS["Laguerre times i!"] = MOMENTS["Laguerre"]
