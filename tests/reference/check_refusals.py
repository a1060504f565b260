"""Each refusal number for each call that can give it, alone and with another.

The expected number is known by how the case was spoiled, not by calls.py. On
every case the output and the working list after the call are checked whole.
"""

from dataclasses import replace
from itertools import product
from math import gcd

import cases
import faults
import reasons
from curves import Family
from families import (
    first_cs,
    numbers_without_inverse,
    random_curve,
    random_family_any_first_c,
)

BASES = ((15, 5), (7, 3), (2**30, 4), (2147483646, 3), (2, 6))
FIRST_C_BASES = ((2, 1), (7, 1), (35, 1), (15, 2), (2**30, 3), (2147483647, 8))
PAIRS_EACH = 4


def accepted_case(source, call, modulus, row_count):
    """An accepted call on a random family, with any c_1, and a random curve."""
    family = random_family_any_first_c(source, modulus, row_count)
    return cases.family_case(call, family, random_curve(source, modulus, family.n))


def base_cases(source, call):
    """Accepted cases of a call, with three rows or more."""
    if call == cases.INVERSE:
        return [cases.inverse_case(m, x) for m, x in ((15, 4), (7, 6), (2**30, 3))]
    return [accepted_case(source, call, *base) for base in BASES]


def factor_told(case, verdict):
    """What the inverse tells, when it accepts and with 13; no other call tells a factor."""
    if case.call != cases.INVERSE:
        return None
    return [gcd(case.modulus, *case.curve)] if verdict in (0, 13) else []


def check_refused(tally, kind, case, verdict):
    """A refused case: its number, both lists as they were, and the factor with 13 only."""
    outcome = cases.run(case)
    has_working = case.call in cases.WITH_WORKING
    expected = (
        verdict,
        cases.output_before(case.output_length),
        cases.working_before(case.working_length) if has_working else None,
        factor_told(case, verdict),
    )
    got = (outcome.verdict, outcome.output, outcome.working, outcome.factor)
    tally.equal(kind, case, expected, got)


def check_accepted(tally, case):
    """An accepted case: verdict 0, an output below m, the working list's rule."""
    outcome = cases.run(case)
    tally.equal("accepted", case, 0, outcome.verdict)
    tally.equal("accepted", case, factor_told(case, 0), outcome.factor)
    length = 1 if case.call == cases.INVERSE else case.output_length
    tally.equal("accepted", case, length, len(outcome.output))
    tally.equal("accepted", case, True, all(0 <= x < case.modulus for x in outcome.output))
    if case.call in cases.WITH_WORKING:
        kept = [4000000000 + place % 1000 for place in range(16384, case.working_length)]
        tally.equal("accepted", case, [0] * 16384 + kept, outcome.working)
    else:
        tally.equal("accepted", case, None, outcome.working)


def check_longer_working(tally, source, call):
    """Working lists longer than asked for keep what they held further on."""
    for row_count in (0, 1, 6):
        case = accepted_case(source, call, 15, row_count)
        for length in (16384, 16385, 20000):
            check_accepted(tally, replace(case, working_length=length))


def check_first_c(tally, source, call):
    """c_1 needs no inverse but has to be below m, and it hides no other fault."""
    kind = "first c"
    for modulus, row_count in FIRST_C_BASES:
        case = accepted_case(source, call, modulus, row_count)
        for number in first_cs(source, modulus):
            check_accepted(tally, faults.with_entry(case, "c", 0, number))
        for number in (modulus, modulus + 1, faults.LARGEST_WORD):
            check_refused(tally, kind, faults.with_entry(case, "c", 0, number), 9)
        for number in numbers_without_inverse(modulus):
            passed = faults.with_entry(case, "c", 0, number)
            in_a, in_c = (17, 18) if number == 0 else (10, 11)
            check_refused(tally, kind, faults.with_entry(passed, "a", 0, number), in_a)
            for place in range(1, row_count):
                check_refused(tally, kind, faults.with_entry(passed, "c", place, number), in_c)
            if call in cases.ON_CURVES:
                check_refused(tally, kind, faults.with_entry(passed, "curve", 0, modulus), 12)


def check_reasons(tally, source, call):
    """Zeros and shared factors in several rows; without a curve 12 is not tested."""
    for family, curve, verdict in reasons.families(source, reasons.FEWER_BASES):
        case = cases.family_case(call, family, curve)
        if verdict == 0 or (verdict == 12 and call not in cases.ON_CURVES):
            check_accepted(tally, case)
        else:
            check_refused(tally, "reasons", case, verdict)


def last_word(numbers, modulus, zero, shared):
    """The reason of a list, from its highest row down: the lowest has the last word."""
    verdict = 0
    for number in reversed(numbers):
        if all(number * other % modulus != 1 for other in range(modulus)):
            verdict = zero if number == 0 else shared
    return verdict


def check_every_reason(tally):
    """Every a and every c of short families over small moduli, by the norms."""
    for modulus, row_count in ((2, 3), (3, 2), (4, 1), (4, 2), (6, 2), (9, 1)):
        for a, c in product(product(range(modulus), repeat=row_count), repeat=2):
            case = cases.family_case(cases.NORMS, Family(modulus, a, (0,) * row_count, c), ())
            in_a, in_c = last_word(a, modulus, 17, 10), last_word(c[1:], modulus, 18, 11)
            tally.equal("reasons", case, in_a or in_c, cases.run(case).verdict)


def check(tally, source):
    """All calls, all their numbers, all pairs of places, c_1, and zeros and shared factors."""
    for call, numbers in cases.REFUSALS.items():
        for case in base_cases(source, call):
            check_accepted(tally, case)
            possible = [number for number in numbers if faults.faults(case, number)]
            for number in possible:
                for spoiled in faults.faults(case, number):
                    check_refused(tally, "one fault", spoiled, number)
            for first, later in faults.pairs_of_places(possible):
                for _ in range(PAIRS_EACH):
                    spoiled = faults.two_faults(source, case, first, later)
                    check_refused(tally, "two faults", spoiled, first)
        if call in cases.WITH_WORKING:
            check_longer_working(tally, source, call)
        if call != cases.INVERSE:
            check_first_c(tally, source, call)
            check_reasons(tally, source, call)
    check_every_reason(tally)
