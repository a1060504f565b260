"""Zeros and shared factors in a and in c: families, each with a curve and its verdict.

A number below m without an inverse is zero or shares a factor with m. For a the
lowest row that has one decides: 17 if it is zero there, else 10. If every a has
an inverse, the lowest row from row 2 on decides for c: 18, else 11. The verdict
is known by where the numbers were put, and is that of a call that takes a curve.

A plan is a tuple of entries (list, place, kind) and the verdict; row i stands at
place i - 1.
"""

from itertools import combinations, product

import curves
from families import random_curve, random_family
from faults import with_entry

ZERO, SHARED, MODULUS, TWICE = "zero", "shares a factor", "m", "2 m"
BY_A = {ZERO: 17, SHARED: 10}
BY_C = {ZERO: 18, SHARED: 11}

# modulus, row count, and of how many plans one is taken: an odd number, as a and c take turns
BASES = (
    *((2, 1, 1), (7, 1, 1), (4, 1, 1), (15, 1, 1), (2147483646, 1, 3), (2147483647, 1, 3)),
    *((2, 2, 1), (7, 2, 1), (4, 2, 3), (15, 2, 1), (2147483646, 2, 3), (2147483647, 2, 3)),
    *((2, 3, 3), (7, 3, 1), (4, 3, 3), (15, 3, 1), (2147483646, 3, 3), (2147483647, 3, 3)),
    *((15, 6, 3), (1001, 9, 7), (2**30, 5, 5)),
    *((2, 127, 3), (4, 127, 11), (2147483646, 127, 57), (2147483647, 127, 31)),
)
FEWER_BASES = (
    *((2, 1, 1), (15, 1, 1), (7, 2, 1), (4, 2, 3), (15, 3, 1)),
    *((2147483647, 3, 3), (2147483646, 3, 5), (1001, 6, 5), (2, 127, 3), (4, 127, 13)),
)


def kinds_of(modulus):
    """The kinds of number without an inverse: no number shares a factor with a prime."""
    return (ZERO, SHARED) if len(curves.divisors(modulus)) > 2 else (ZERO,)


def number_of(source, modulus, kind):
    """A number of this kind, a random one if it shares a factor."""
    if kind == SHARED:
        divisor = source.choice(curves.divisors(modulus)[1:-1])
        return divisor * (1 + source.below(modulus // divisor - 1))
    return {ZERO: 0, MODULUS: modulus, TWICE: 2 * modulus}[kind]


def alone(places, kinds):
    """One number without an inverse; as c_1 it is passed over."""
    for place, kind in product(places, kinds):
        yield (("a", place, kind),), BY_A[kind]
        yield (("c", place, kind),), BY_C[kind] if place > 0 else 0


def two_of_a_list(places, kinds):
    """Two in one list: the lower row decides, of c the lower from row 2 on."""
    for (lower, higher), (first, second) in product(
        combinations(places, 2), product(kinds, repeat=2)
    ):
        yield (("a", lower, first), ("a", higher, second)), BY_A[first]
        decides = first if lower > 0 else second
        yield (("c", lower, first), ("c", higher, second)), BY_C[decides]


def of_both_lists(places, kinds):
    """One in a and one in c: that of a decides, in whatever rows they stand."""
    last, second = places[-1], places[min(1, len(places) - 1)]
    for (in_a, in_c), (first, other) in product(
        ((last, second), (0, last)), product(kinds, repeat=2)
    ):
        yield (("a", in_a, first), ("c", in_c, other)), BY_A[first]


def not_below_m(places):
    """9: a multiple of m is no zero, and goes before every zero."""
    last = places[-1]
    for name in ("a", "c"):
        yield ((name, 0, MODULUS),), 9
        yield ((name, last, TWICE),), 9
    yield (("a", 0, ZERO), ("b", last, MODULUS)), 9
    yield (("a", 0, ZERO), ("c", 0, TWICE)), 9
    yield (("c", last, ZERO), ("a", last, MODULUS)), 9


def with_a_curve(places, kinds):
    """A curve that is not below m (12), which comes after the rows."""
    last = places[-1]
    for kind in kinds:
        yield (("a", last, kind), ("curve", 0, MODULUS)), BY_A[kind]
        yield (("c", last, kind), ("curve", 0, MODULUS)), BY_C[kind] if last > 0 else 12
        yield (("c", 0, kind), ("curve", last, TWICE)), 12


def plans(modulus, row_count):
    """All plans with numbers at the first two, a middle and the last row."""
    places = sorted({0, min(1, row_count - 1), row_count // 2, row_count - 1})
    kinds = kinds_of(modulus)
    return [
        *alone(places, kinds),
        *two_of_a_list(places, kinds),
        *of_both_lists(places, kinds),
        *not_below_m(places),
        *with_a_curve(places, kinds),
    ]


def carried_out(source, family, curve, entries):
    """The family and the curve with the entries of a plan."""
    for name, place, kind in entries:
        number = number_of(source, family.modulus, kind)
        if name == "curve":
            curve = (*curve[:place], number, *curve[place + 1 :])
        else:
            family = with_entry(family, name, place, number)
    return family, curve


def families(source, bases=BASES):
    """For each base a random family with a curve, spoiled by its plans in turn, and the verdict."""
    for turn, (modulus, row_count, step) in enumerate(bases):
        family = random_family(source, modulus, row_count)
        curve = random_curve(source, modulus, family.n)
        for entries, verdict in plans(modulus, row_count)[turn % step :: step]:
            yield *carried_out(source, family, curve, entries), verdict
