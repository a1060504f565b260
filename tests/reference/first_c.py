"""Families with a c_1 of every kind, each with a curve, for the vectors.

c_1 multiplies F_{-1} = 0. Below m every number is taken there, one without an
inverse too; from m on it is refused with 9.
"""

from check_figures import ZERO_FIRST_C
from classical import classical_family
from families import (
    first_cs,
    numbers_without_inverse,
    random_curve,
    random_family,
    with_first_c,
)
from faults import LARGEST_WORD, with_entry

PRIMES = (2, 7, 257, 2147483647)
COMPOSITES = (4, 6, 15, 35, 1001, 2**30, 2147483646)
MODULI = PRIMES + COMPOSITES
PUBLISHED_WITH_ZERO = ("Legendre", "Chebyshev T", "Laguerre", "Hermite")


def every_kind(source, modulus, row_count):
    """A random family and curve with each kind of c_1, below m and then not."""
    family = random_family(source, modulus, row_count)
    curve = random_curve(source, modulus, family.n)
    numbers = (*first_cs(source, modulus), modulus, modulus + 1, LARGEST_WORD)
    return [(with_first_c(family, number), curve) for number in numbers]


def in_turn(source, moduli, row_count, step):
    """For each modulus one kind of c_1 out of so many, so that the kinds take turns."""
    for place, modulus in enumerate(moduli):
        yield from every_kind(source, modulus, row_count)[place % step :: step]


def beside_a_fault(source, modulus, row_count):
    """c_1 without an inverse, and a_1, c_2 or the last c like it, or the curve (12) spoiled.

    That is 17 or 10 for a_1, and 18 or 11 for c from row 2 on.
    """
    family = random_family(source, modulus, row_count)
    curve = random_curve(source, modulus, family.n)
    places = [("a", 0), *(("c", place) for place in sorted({1, row_count - 1}))]
    for number in numbers_without_inverse(modulus):
        passed = with_first_c(family, number)
        for name, place in places:
            yield with_entry(passed, name, place, number), curve
        yield passed, (*curve[:-1], modulus)


def published(source, names, prime, row_count):
    """Classical families as published, with c_1 = 0, each with a random curve."""
    for name in names:
        family = classical_family(name, prime, row_count, 0)
        yield family, random_curve(source, prime, family.n)


def stated():
    """The stated family with c_1 = 0, with two curves and what the first expands to."""
    for curve in ((1, 2, 3), (4, 5, 6), (19, 2, 9)):
        yield ZERO_FIRST_C, curve


def pairs(source):
    """One row with every kind over every modulus, longer families in turn, and faults beside."""
    for modulus in MODULI:
        yield from every_kind(source, modulus, 1)
    for row_count, step in ((2, 4), (3, 4), (8, 8)):
        yield from in_turn(source, MODULI, row_count, step)
    yield from in_turn(source, (7, 15, 4), 31, 4)
    yield from in_turn(source, (4, 6, 2), 127, 6)
    for base in ((7, 2), (15, 4), (2147483646, 3)):
        yield from beside_a_fault(source, *base)
    yield from stated()
    yield from published(source, PUBLISHED_WITH_ZERO, 257, 127)
    yield from published(source, ["Legendre"], 2147483647, 127)


def fewer_pairs(source):
    """The same in fewer and shorter families."""
    yield from in_turn(source, MODULI, 1, 6)
    for row_count in (2, 3, 8):
        yield from in_turn(source, (7, 15, 35), row_count, 6)
    yield from in_turn(source, (4, 6), 31, 6)
    yield from beside_a_fault(source, 15, 3)
    yield from stated()
    yield from published(source, PUBLISHED_WITH_ZERO, 257, 5)
    yield from published(source, ["Legendre"], 257, 127)
