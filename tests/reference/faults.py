"""Faults: ways to spoil a case, listed by the refusal number they provoke.

`faults(case, number)` lists cases that differ from the given one by one fault
each. The given case wants three rows or more, so that the first, a middle and
the last row are three, and its own output and curve lengths to be right.
`two_faults` puts a fault on top of one that is tested later. A prime modulus
shares a factor with no number below it, so 10 and 11 have no fault there.

Zero and a shared factor stand at one place, 17 and 10 for a, 18 and 11 for c,
where the lowest row decides. `by_place` names a place by 10 or 11 alone, and
`of_both_reasons` lists for it numbers without an inverse of both kinds. Row 1's
c needs no inverse, so without one it is no fault; there it is listed as well.
"""

from dataclasses import replace
from itertools import combinations

import cases
from families import numbers_without_inverse, sharing_numbers

LARGEST_WORD = 4294967295
PLACE_OF_ZERO = {17: 10, 18: 11}


def outside_moduli(case):
    """3: the modulus is out of its range."""
    return [replace(case, modulus=m) for m in (0, 1, 2147483648, LARGEST_WORD)]


def unequal_lists(case):
    """4: b or c is not as long as a, a being the odd one too."""
    return [
        replace(case, b=case.b[:-1]),
        replace(case, b=case.b + (1,)),
        replace(case, b=()),
        replace(case, c=case.c[:-1]),
        replace(case, c=case.c + (1,)),
        replace(case, b=case.b[:-1], c=case.c + (1,)),
        replace(case, a=case.a[:-1]),
        replace(case, a=case.a + (1,)),
        replace(case, a=()),
    ]


def with_rows_of_ones(case, added):
    """The case with so many rows of ones added, and nothing else changed."""
    ones = (1,) * added
    return replace(case, a=case.a + ones, b=case.b + ones, c=case.c + ones)


def lengthened(case, row_count):
    """The case with rows of ones added, curve and output longer to match."""
    added = row_count - len(case.a)
    return replace(
        with_rows_of_ones(case, added),
        curve=case.curve + (0,) * added if case.call in cases.ON_CURVES else (),
        output_length=case.output_length
        + (2 * added if case.call == cases.MOMENTS else added),
    )


def many_rows(case):
    """5: more than 127 rows."""
    return [lengthened(case, 128), lengthened(case, 129)]


def wrong_curves(case):
    """6: the curve is not n long."""
    return [
        replace(case, curve=case.curve[:-1]),
        replace(case, curve=case.curve + (0,)),
        replace(case, curve=()),
    ]


def unwanted_curves(case):
    """6: the curve of a job for moments or norms is not empty."""
    return [replace(case, curve=(0,)), replace(case, curve=case.a)]


def wrong_outputs(case):
    """7: the output is not as long as the result."""
    n = len(case.a) + 1
    wrong = (
        case.output_length - 1,
        case.output_length + 1,
        0,
        n if case.call == cases.MOMENTS else 2 * n - 1,
    )
    return [replace(case, output_length=length) for length in wrong]


def short_workings(case):
    """8: the working list is under 16,384 numbers."""
    return [replace(case, working_length=length) for length in (16383, 0)]


def with_entry(case, name, place, number):
    """The case with one entry of one list replaced."""
    entries = list(getattr(case, name))
    entries[place] = number
    return replace(case, **{name: tuple(entries)})


def at_three_places(case, name, numbers, first=0):
    """Each number at a first, a middle and the last place of a list."""
    length = len(getattr(case, name))
    places = sorted({first, length // 2, length - 1}) if length > first else []
    return [with_entry(case, name, place, x) for x in numbers for place in places]


def reaching_numbers(case):
    """Numbers that are not below the modulus, the least one first."""
    return [case.modulus, LARGEST_WORD]


def reaching_factors(case):
    """9: an entry of a, b or c is not below the modulus."""
    return [
        spoiled
        for name in ("a", "b", "c")
        for spoiled in at_three_places(case, name, reaching_numbers(case))
    ]


def zero_a(case):
    """17: some a is zero."""
    return at_three_places(case, "a", [0])


def sharing_a(case):
    """10: some a shares a factor with the modulus."""
    return at_three_places(case, "a", sharing_numbers(case.modulus))


def zero_c(case):
    """18: some c from row 2 on is zero."""
    return at_three_places(case, "c", [0], first=1)


def sharing_c(case):
    """11: some c from row 2 on shares a factor with the modulus."""
    return at_three_places(case, "c", sharing_numbers(case.modulus), first=1)


def reaching_curves(case):
    """12: an entry of the curve, or the number to invert, is not below the modulus."""
    return at_three_places(case, "curve", reaching_numbers(case))


def dead_numbers(case):
    """13: the number to invert has no inverse."""
    return at_three_places(case, "curve", numbers_without_inverse(case.modulus))


FAULTS = {
    3: outside_moduli,
    4: unequal_lists,
    5: many_rows,
    6: wrong_curves,
    7: wrong_outputs,
    8: short_workings,
    9: reaching_factors,
    10: sharing_a,
    11: sharing_c,
    12: reaching_curves,
    13: dead_numbers,
    17: zero_a,
    18: zero_c,
}


def faults(case, number):
    """Cases that differ from this one by one fault with this number."""
    return FAULTS[number](case)


def by_place(numbers):
    """The numbers without 17 and 18, which stand at the places of 10 and 11."""
    return [number for number in numbers if number not in PLACE_OF_ZERO]


def of_both_reasons(listed):
    """The faults as listed, but for 10 and 11 all numbers without an inverse, in every row.

    Zero or a shared factor, at the first, a middle and the last row of a for 10
    and of c for 11: refused with 17 or 10, with 18 or 11, and passed over as c_1.
    """

    def listing(case, number):
        if number in (10, 11):
            name = "a" if number == 10 else "c"
            return at_three_places(case, name, numbers_without_inverse(case.modulus))
        return listed(case, number)

    return listing


def pairs_of_places(numbers):
    """Every two of the numbers in their order that stand at two places."""
    places = {number: PLACE_OF_ZERO.get(number, number) for number in numbers}
    return [pair for pair in combinations(numbers, 2) if places[pair[0]] != places[pair[1]]]


def pairs_with_a_reason(numbers):
    """Those of these pairs in which zero or a shared factor is a fault."""
    return [pair for pair in pairs_of_places(numbers) if {10, 11, 17, 18} & {*pair}]


def two_faults(source, case, first, later, listed=faults):
    """A case with one random fault of each number, as listed; that of the first is put on last."""
    return source.choice(listed(source.choice(listed(case, later)), first))
