"""Wrong reasons and wrong factors, told from the right ones.

Each wrong variant stands here with a stated family, or a number to invert, on
which its answer differs from the right one. The right answers are stated too.
"""

from math import gcd

import calls
from calls import some_without_inverse, zero_is_lowest
from cases import NORMS, family_case, inverse_case, run
from curves import Family

KIND = "wrong reasons"
ROW_TESTS = (9, 17, 10, 18, 11)


def modulo_15(a, c):
    """The family modulo 15 with these lists, and zeros for b."""
    return Family(15, a, (0,) * len(a), c)


def verdict_by(numbers, other):
    """The verdict, as a function of a family, of tests in this order with other conditions."""

    def verdict(family):
        lent = calls.Lent("norms", family.modulus, family.a, family.b, family.c, None, [], None)
        return calls.first_refusal(lent, numbers, calls.CONDITIONS | other)

    return verdict


def shared_is_lowest(numbers, modulus):
    """Whether the lowest row that has no inverse has a shared factor."""
    return some_without_inverse(numbers, modulus) and not zero_is_lowest(numbers, modulus)


any_zero = verdict_by(
    ROW_TESTS, {17: lambda lent: 0 in lent.a, 18: lambda lent: 0 in lent.c[1:]}
)
highest_row = verdict_by(
    ROW_TESTS,
    {
        17: lambda lent: zero_is_lowest(lent.a[::-1], lent.modulus),
        18: lambda lent: zero_is_lowest(lent.c[:0:-1], lent.modulus),
    },
)
swapped = verdict_by(
    ROW_TESTS,
    {
        17: lambda lent: shared_is_lowest(lent.a, lent.modulus),
        18: lambda lent: shared_is_lowest(lent.c[1:], lent.modulus),
    },
)
first_a_only = verdict_by(ROW_TESTS, {17: lambda lent: lent.a[0] == 0})
second_c_only = verdict_by(ROW_TESTS, {18: lambda lent: lent.c[1] == 0})
zero_from_c_1 = verdict_by(ROW_TESTS, {18: lambda lent: zero_is_lowest(lent.c, lent.modulus)})
zero_after_shared = verdict_by((9, 10, 17, 11, 18), {})
c_before_a = verdict_by((9, 18, 11, 17, 10), {})
both_zeros_first = verdict_by((9, 17, 18, 10, 11), {})
zero_before_9 = verdict_by((17, 9, 10, 18, 11), {})
multiple_of_m = verdict_by(
    (17, 9, 10, 18, 11), {17: lambda lent: any(x % lent.modulus == 0 for x in lent.a)}
)

REASONS = (
    (modulo_15((2, 3, 0), (1, 1, 1)), 10, (any_zero, highest_row, swapped)),
    (modulo_15((2, 0, 3), (1, 1, 1)), 17, (highest_row, swapped, first_a_only, zero_after_shared)),
    (modulo_15((2, 1, 1), (1, 5, 0)), 11, (any_zero, highest_row, swapped)),
    (modulo_15((2, 1, 1), (1, 0, 5)), 18, (highest_row, swapped, zero_after_shared)),
    (modulo_15((2, 1, 1), (1, 1, 0)), 18, (second_c_only,)),
    (modulo_15((2, 1), (0, 1)), 0, (zero_from_c_1,)),
    (modulo_15((2, 1), (0, 5)), 11, (zero_from_c_1,)),
    (modulo_15((2, 1), (5, 0)), 18, (zero_from_c_1,)),
    (modulo_15((2, 1, 0), (1, 5, 1)), 17, (c_before_a,)),
    (modulo_15((2, 1, 3), (1, 0, 1)), 10, (c_before_a, both_zeros_first)),
    (modulo_15((0, 15), (1, 1)), 9, (zero_before_9,)),
    (modulo_15((1, 15), (1, 1)), 9, (multiple_of_m,)),
)


def told_always(modulus, number):
    """The factor with every verdict, with 3 and 12 too."""
    return [gcd(number, modulus)]


def told_with_13_only(modulus, number):
    """No factor where there is an inverse."""
    return [gcd(number, modulus)] if gcd(number, modulus) > 1 else []


def up_to_the_number(modulus, number):
    """The greatest factor from 1 to the number itself, and so 0 for zero."""
    found = (d for d in range(1, number + 1) if modulus % d == number % d == 0)
    return [max(found, default=0)]


def least_factor(modulus, number):
    """The least common factor above 1 in place of the greatest."""
    return [next((d for d in range(2, modulus + 1) if modulus % d == number % d == 0), 1)]


def number_itself(modulus, number):
    """The number without an inverse in place of what it shares."""
    return [number if gcd(number, modulus) > 1 else 1]


FACTORS = (
    (15, 4, 0, [1], (told_with_13_only,)),
    (15, 6, 13, [3], (number_itself,)),
    (12, 8, 13, [4], (least_factor, number_itself)),
    (15, 0, 13, [15], (up_to_the_number, least_factor, number_itself)),
    (15, 15, 12, [], (told_always,)),
    (15, 18, 12, [], (told_always,)),
    (1, 0, 3, [], (told_always,)),
)


def check(tally, _source):
    """All wrong variants; they are the same for every seed."""
    for family, right, variants in REASONS:
        case = family_case(NORMS, family, ())
        tally.equal(KIND, case, right, run(case).verdict)
        for wrong in variants:
            tally.differ(KIND, case, right, wrong(family))
    for modulus, number, verdict, factor, variants in FACTORS:
        case = inverse_case(modulus, number)
        outcome = run(case)
        tally.equal(KIND, case, (verdict, factor), (outcome.verdict, outcome.factor))
        for wrong in variants:
            tally.differ(KIND, (wrong.__name__, case), factor, wrong(modulus, number))
