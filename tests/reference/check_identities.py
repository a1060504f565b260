"""Identities and second ways, on random families and on the greatest.

Sizes run over the ends of the tree's levels; moduli are prime, composite and
powers of two. Every size meets at least one modulus of each kind. c_1 is of a
random kind, and of every kind on some families.
"""

from math import gcd

import curves
import second_ways
from families import (
    COMPOSITES,
    OTHER_SIZES,
    POWERS_OF_TWO,
    PRIMES,
    SIZES,
    first_cs,
    greatest_family,
    random_curve,
    random_family_any_first_c,
    random_unit,
    with_first_c,
)

ROUNDS_SHORT, ROUNDS_LONG = 8, 2
LARGE_PRIME = 2147483647
GREAT_COMPOSITES = (46337**2, 46327 * 46337, 46340**2)
FIRST_C_BASES = ((2, 1), (7, 2), (35, 2), (15, 3), (2**30, 8), (1001, 31), (LARGE_PRIME, 127))


def inner(left, right, modulus):
    """The sum of the products of two equally long lists."""
    return sum(x * y for x, y in zip(left, right, strict=True)) % modulus


def check_factors(tally, source, modulus):
    """The factor of zero, of m - 1, of any number and of multiples of a divisor, against gcd."""
    divisor = source.choice(curves.divisors(modulus))
    multiples = (divisor % modulus, divisor * source.below(modulus // divisor))
    for x in (0, modulus - 1, source.below(modulus), *multiples):
        factor = curves.greatest_common_factor(x, modulus)
        tally.equal("factors", (modulus, x), gcd(x, modulus), factor)
        has_inverse = curves.inverse(x, modulus) is not None
        tally.equal("factors", (modulus, x), factor == 1, has_inverse)


def check_inverse(tally, source):
    """Inverse and factor against search for small moduli, against gcd for great ones."""
    for modulus in range(2, 41):
        for x in range(modulus):
            expected = second_ways.inverse_by_search(x, modulus)
            tally.equal("inverse", (modulus, x), expected, curves.inverse(x, modulus))
            expected = second_ways.factor_by_search(x, modulus)
            got = curves.greatest_common_factor(x, modulus)
            tally.equal("factors", (modulus, x), expected, got)
    for modulus in (*PRIMES, *COMPOSITES, *POWERS_OF_TWO, *GREAT_COMPOSITES):
        check_factors(tally, source, modulus)
    for _ in range(300):
        check_factors(tally, source, 2 + source.below(LARGE_PRIME - 1))
    for _ in range(2000):
        modulus = 2 + source.below(LARGE_PRIME - 1)
        x = source.below(modulus)
        found = curves.inverse(x, modulus)
        tally.equal("inverse", (modulus, x), gcd(x, modulus) == 1, found is not None)
        if found is not None:
            tally.equal("inverse", (modulus, x), (1, True), (x * found % modulus, found < modulus))


def check_curves(tally, source, family):
    """Both round trips, the transposed identity, and the second ways."""
    modulus, n = family.modulus, family.n
    u, v = random_curve(source, modulus, n), random_curve(source, modulus, n)
    expanded = curves.expand(family, u)
    decomposed = curves.decompose(family, v)
    tally.equal("round trip", (family, u), list(u), curves.decompose(family, expanded))
    tally.equal("round trip", (family, v), list(v), curves.expand(family, decomposed))
    turned = curves.adjoint(family, v)
    case = (family, u, v)
    tally.equal(
        "transposed", case, inner(v, expanded, modulus), inner(turned, u, modulus)
    )
    tally.equal("second way", case, second_ways.expand_from_the_top(family, u), expanded)
    tally.equal("second way", case, second_ways.adjoint_by_table(family, v), turned)
    tally.equal("second way", case, second_ways.decompose_by_moments(family, v), decomposed)


def check_moments(tally, source, family, closing):
    """Moments and norms: the product law, the quotient multiplied out, paths."""
    modulus, n = family.modulus, family.n
    case = (family, closing)
    moments = curves.moments(family, closing)
    norms = curves.norms(family, closing)
    u, v = random_curve(source, modulus, n), random_curve(source, modulus, n)
    by_moments, by_norms = curves.product_law_totals(family, u, v, closing)
    tally.equal("product law", (*case, u, v), by_norms, by_moments)
    tally.equal("norms", case, True, all(gcd(norm, modulus) == 1 for norm in norms))
    tally.equal("moments", case, second_ways.moments_by_paths(family, closing), moments)
    denominator = curves.reversal(curves.basis(family, closing)[n], n + 1)
    numerator = curves.reversal(curves.associated(family, closing)[n - 1], 2 * n - 1)[n - 1 :]
    product = curves.uncut_product(moments, denominator, modulus)[: 2 * n - 1]
    tally.equal("moments", case, numerator + [0] * (n - 1), product)
    other_b = (closing[0], source.below(modulus), closing[2])
    tally.equal("moments", (case, other_b), moments, curves.moments(family, other_b))


def check_free_first_c(tally, source, family):
    """c_1 multiplies F_{-1} = 0, so a number of any kind there changes no list."""
    curve = random_curve(source, family.modulus, family.n)
    others = first_cs(source, family.modulus)
    for operation in (curves.expand, curves.adjoint, curves.decompose):
        right = operation(family, curve)
        for other in others:
            case = (operation.__name__, family, curve, other)
            got = operation(with_first_c(family, other), curve)
            tally.equal("free c_1", case, right, got)
    for operation in (curves.moments, curves.norms):
        right = operation(family)
        for other in others:
            case = (operation.__name__, family, other)
            tally.equal("free c_1", case, right, operation(with_first_c(family, other)))


def check_matrices(tally, family):
    """F_n and G_{n-1} against the products of their rows' matrices."""
    n, modulus = family.n, family.modulus
    rows = family.rows()
    matrix = second_ways.matrix_of_rows(rows, modulus)
    tally.equal(
        "matrices",
        family,
        curves.basis(family)[n],
        second_ways.trimmed(matrix[1][1], n + 1),
    )
    matrix = second_ways.matrix_of_rows(rows[1:], modulus)
    tally.equal(
        "matrices",
        family,
        curves.associated(family)[n - 1],
        second_ways.trimmed(matrix[1][1], n),
    )


def check_orthogonal(tally, family):
    """Every pair F_i, F_j under the moments: norm i if i = j, else zero."""
    units = [tuple(int(i == j) for j in range(family.n)) for i in range(family.n)]
    norms = curves.norms(family)
    for i, u in enumerate(units):
        for j, v in enumerate(units):
            expected = norms[i] if i == j else 0
            by_moments, by_norms = curves.product_law_totals(family, u, v)
            tally.equal("orthogonal", (family, i, j), (expected, expected), (by_moments, by_norms))


def check_family(tally, source, family):
    """All identities on one family, with the paper's closing row and another."""
    modulus = family.modulus
    check_curves(tally, source, family)
    check_moments(tally, source, family, curves.CLOSING_ROW)
    closing = (random_unit(source, modulus), source.below(modulus), random_unit(source, modulus))
    check_moments(tally, source, family, closing)


def check(tally, source):
    """Identities on families of every size and kind of modulus."""
    check_inverse(tally, source)
    for row_count in SIZES + OTHER_SIZES:
        for moduli in (PRIMES, COMPOSITES, POWERS_OF_TWO):
            for _ in range(ROUNDS_SHORT if row_count < 9 else ROUNDS_LONG):
                family = random_family_any_first_c(source, source.choice(moduli), row_count)
                check_family(tally, source, family)
                if row_count > 0:
                    check_free_first_c(tally, source, family)
                if row_count < 40:
                    check_matrices(tally, family)
                if row_count < 9:
                    check_orthogonal(tally, family)
    for row_count in (0, 1, 2, 127):
        check_family(tally, source, greatest_family(LARGE_PRIME, row_count))
    for modulus, row_count in FIRST_C_BASES:
        family = random_family_any_first_c(source, modulus, row_count)
        for first_c in first_cs(source, modulus):
            check_family(tally, source, with_first_c(family, first_c))
