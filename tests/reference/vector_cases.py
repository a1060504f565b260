"""The cases of the vectors, the same in every run.

The cases of a call do not depend on which other calls are selected, and every
call on families meets the same families and curves. Long families come few
times each, since a row of great numbers takes some forty bytes.
"""

from dataclasses import replace
from itertools import combinations

import cases
import classical
import curves
import faults
import first_c
import reasons
from cases import family_case, inverse_case
from classical import classical_family, least_prime
from families import (
    MODULI,
    OTHER_SIZES,
    SIZES,
    greatest_family,
    numbers_without_inverse,
    random_curve,
    random_family,
    random_unit,
)
from splitmix import SplitMix64

SEED = 20240229
SIZED_MODULI = (2, 15, 257)
SIZED_GREAT_MODULI = (2147483647, 2147483646, 2**30)
SMALL_MODULI = (2, 3, 4, 5, 6, 7, 8, 15, 16, 30)
GREAT_MODULI = (2**30, 2147483629, 2147483646, 2147483647)
SHORT_FAMILIES = 80
FAULT_BASES = ((15, 5), (7, 3), (2**30, 4), (2147483646, 3))
REASON_BASE = (15, 4)
FACTOR_MODULI = (2, 3, 4, 12, 30, 97, 2**30, 46337**2, 46327 * 46337, 46340**2, *GREAT_MODULI[1:])
STORY_BASES = ((7, 1), (15, 1), (15, 3), (257, 7), (1024, 6), (2**30, 4), (2147483646, 5))


def sized_families(source):
    """Every stated size over small and great moduli, other sizes over one each.

    The great moduli take turns, but the largest size and short ones meet all.
    """
    for place, row_count in enumerate(SIZES):
        for modulus in SIZED_MODULI:
            yield random_family(source, modulus, row_count)
        meets_all = row_count < 9 or row_count == 127
        for turn, modulus in enumerate(SIZED_GREAT_MODULI):
            if meets_all or turn == place % len(SIZED_GREAT_MODULI):
                yield random_family(source, modulus, row_count)
    for row_count in OTHER_SIZES:
        yield random_family(source, source.choice((3, 4, 1001, 65537)), row_count)


def short_families(source):
    """Short families over every modulus, the stated ones most often."""
    for modulus in SMALL_MODULI + GREAT_MODULI:
        for row_count in range(5):
            yield random_family(source, modulus, row_count)
    for _ in range(SHORT_FAMILIES):
        yield random_family(source, source.choice(MODULI), source.below(9))


def greatest_families():
    """Families whose entries are all m - 1."""
    for modulus, sizes in ((2, (4,)), (3, (9,)), (2147483647, (3, 33, 127))):
        for row_count in sizes:
            yield greatest_family(modulus, row_count)


def classical_families(first_c):
    """The classical families with a stated c_1, modulo three primes and the least one."""
    for name in classical.ROWS:
        for prime, sizes in (
            (257, (1, 2, 5, 127)),
            (65537, (3, 8, 16, 64)),
            (2147483647, (1, 4, 12, 127)),
        ):
            for row_count in sizes:
                yield classical_family(name, prime, row_count, first_c)
        for row_count in (1, 2, 3, 6, 33, 127):
            yield classical_family(name, least_prime(name, row_count), row_count, first_c)


def unit_curves(family):
    """For each place the curve with 1 there and 0 elsewhere."""
    for place in range(family.n):
        yield tuple(int(place == other) for other in range(family.n))


def accepted_cases(source, call):
    """Accepted calls: random, greatest, classical, and special curves.

    Expand turns the unit curves on a classical family into its polynomials.
    """
    for family in (*sized_families(source), *short_families(source)):
        yield family_case(call, family, random_curve(source, family.modulus, family.n))
    for family in greatest_families():
        yield family_case(call, family, (family.modulus - 1,) * family.n)
    for family in classical_families(1):
        yield family_case(call, family, random_curve(source, family.modulus, family.n))
    if call in cases.ON_CURVES:
        for row_count in (0, 1, 2, 3, 6):
            family = random_family(source, 1001, row_count)
            yield family_case(call, family, (0,) * family.n)
            for curve in unit_curves(family):
                yield family_case(call, family, curve)
        for name in classical.ROWS:
            family = classical_family(name, 257, 5, 1)
            for curve in unit_curves(family):
                yield family_case(call, family, curve)


def story_cases(source, call):
    """One factor that is zero, that is m, or that shares a factor with m.

    In a and in c, at the first, a middle and the last row, where c_1 needs no
    inverse; the classical families with c_1 = 0 as well, and Legendre's where
    2i - 1 is m.
    """
    for modulus, row_count in STORY_BASES:
        case = accepted_case(source, call, modulus, row_count)
        for name in ("a", "c"):
            numbers = [*numbers_without_inverse(modulus), modulus]
            yield from faults.at_three_places(case, name, numbers)
        yield from faults.at_three_places(case, "b", [0, modulus - 1, modulus])
    longest = accepted_case(source, call, 4, 127)
    for name in ("a", "c"):
        yield from faults.at_three_places(longest, name, [2])
    for family in classical_families(0):
        if len(family.a) < 40:
            yield family_case(call, family, random_curve(source, family.modulus, family.n))
    for prime in (3, 7, 13):
        for name, row_count in (("Legendre", (prime + 1) // 2), ("Legendre times i!", prime)):
            family = classical_family(name, prime, row_count, 1)
            yield family_case(call, family, random_curve(source, prime, family.n))


def accepted_case(source, call, modulus, row_count):
    """An accepted call on a random family and curve."""
    family = random_family(source, modulus, row_count)
    return family_case(call, family, random_curve(source, modulus, row_count + 1))


def fault_cases(source, call):
    """Every fault alone and every pair of places, on several families.

    A pair with too many rows is long and comes on the first family only.
    """
    numbers = faults.by_place(cases.REFUSALS[call])
    listed = faults.of_both_reasons(faults.faults)
    bases = [accepted_case(source, call, *base) for base in FAULT_BASES]
    for case in bases:
        for number in numbers:
            yield from listed(case, number)
        for pair in combinations(numbers, 2):
            if 5 not in pair or case is bases[0]:
                yield faults.two_faults(source, case, *pair, listed)


def length_cases(source, call):
    """Lengths at their limits: no rows, most rows, and working lists."""
    for row_count in (0, 1, 127):
        case = accepted_case(source, call, 2, row_count)
        yield from (replace(case, output_length=case.output_length + d) for d in (-1, 1))
        if call in cases.ON_CURVES:
            yield from faults.wrong_curves(case)
        if call in cases.WITH_WORKING:
            for length in (16383, 16384, 16385, 20000):
                yield replace(case, working_length=length)


def first_c_cases(source, call):
    """A c_1 of every kind, and the published families' polynomials with c_1 = 0."""
    yield from dict.fromkeys(family_case(call, *pair) for pair in first_c.pairs(source))
    if call in cases.ON_CURVES:
        for name in first_c.PUBLISHED_WITH_ZERO:
            family = classical_family(name, 257, 5, 0)
            for curve in unit_curves(family):
                yield family_case(call, family, curve)


def reason_cases(source, call):
    """Zeros and shared factors in a and c, and either beside a fault of every other number."""
    pairs = (pair[:2] for pair in reasons.families(source))
    yield from dict.fromkeys(family_case(call, *pair) for pair in pairs)
    case = accepted_case(source, call, *REASON_BASE)
    for pair in faults.pairs_with_a_reason(cases.REFUSALS[call]):
        yield faults.two_faults(source, case, *pair)


def factor_cases(source):
    """Numbers to invert that share every factor: the divisors of m and multiples of them.

    46337 and 46327 are primes, and 46340 is not; their squares and their product
    are near the greatest m.
    """
    for modulus in FACTOR_MODULI:
        for divisor in curves.divisors(modulus):
            cofactor = modulus // divisor
            multiples = (1, cofactor - 1, source.below(cofactor))
            numbers = dict.fromkeys(divisor * x % modulus for x in multiples)
            yield from (inverse_case(modulus, number) for number in numbers)


def family_cases(call):
    """All cases of a call on families but those of reason_cases."""
    makers = (accepted_cases, story_cases, fault_cases, length_cases, first_c_cases)
    for part, make in enumerate(makers):
        yield from make(SplitMix64(SEED + part), call)


def inverse_cases():
    """All cases of the inverse but those of factor_cases."""
    source = SplitMix64(SEED)
    for modulus in range(2, 18):
        for number in range(modulus + 1):
            yield inverse_case(modulus, number)
    for modulus in (0, 1, 2147483648, 4294967295):
        for number in (0, 1, 2, modulus, 4294967295):
            yield inverse_case(modulus, number)
    for modulus in MODULI + GREAT_MODULI:
        for number in (0, 1, modulus - 1, modulus, modulus + 1, 4294967295):
            yield inverse_case(modulus, number)
        for _ in range(6):
            yield inverse_case(modulus, source.below(modulus))
            yield inverse_case(modulus, random_unit(source, modulus))
    for _ in range(200):
        modulus = 2 + source.below(2147483646)
        yield inverse_case(modulus, source.below(modulus))


def cases_of_call(call):
    """The cases of a call but reasons_of_call, always the same ones in the same order."""
    return list(inverse_cases() if call == cases.INVERSE else family_cases(call))


def reasons_of_call(call):
    """The cases about zero and shared factors, of the inverse those about the factor it tells."""
    source = SplitMix64(SEED + 5)
    return list(factor_cases(source) if call == cases.INVERSE else reason_cases(source, call))
