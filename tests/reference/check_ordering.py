"""Even powers first: the orders by other ways, the two calls, where the zeros lie, and the vectors.

The orders are held against the formulas of the C header, against slices, and
against each other on lists of every length. Where all b are zero, what is put even
first of an expanded curve has its zeros in the odd part for a curve with only even
entries, and in the even part for one with only odd entries. With one b that is not
zero there is a curve that breaks this, so the check can fail.
"""

from dataclasses import replace
from functools import cache
from itertools import product

import calls
import cases
import check_vectors
import classical
import curves
import ordered
from check_classical import STATED, residues
from families import MODULI, random_curve, random_family_any_first_c
from ordered_cases import (
    CALLS,
    EVEN_BACK,
    EVEN_FIRST,
    GREATEST,
    MOST,
    order_case,
    ordered_cases,
    other_lengths,
    random_numbers,
    run,
)
from ordering import even_back, even_first

ORDERS, ORDERED, REFUSED, ZEROS = "orders", "ordered lists", "ordering refusals", "zeros"
STATED_ORDERS = (
    ((), ()),
    ((7,), (7,)),
    ((7, 8), (7, 8)),
    ((7, 8, 9), (7, 9, 8)),
    ((0, 1, 2, 3), (0, 2, 1, 3)),
    ((0, 1, 2, 3, 4), (0, 2, 4, 1, 3)),
    ((0, 1, 2, 3, 4, 5), (0, 2, 4, 1, 3, 5)),
    ((0, 1, 2, 3, 4, 5, 6), (0, 2, 4, 6, 1, 3, 5)),
    ((5, 5, 0, GREATEST, 5), (5, 0, 5, 5, GREATEST)),
)
# Families of textbooks whose b are all zero, and one whose b are not.
WITHOUT_B = ("Chebyshev T", "Chebyshev U", "Legendre", "Hermite", "Legendre times i!")
WITH_B = ("Laguerre", "Laguerre times i!")
ROW_COUNTS = (0, 1, 2, 3, 4, 5, 8, 15, 16, 31)


def half_of(length):
    """How many indices below this length are even, as the header has it."""
    return (length + 1) // 2


def first_by_formula(numbers):
    """The header's even first: where each entry of the list goes."""
    output, half = [None] * len(numbers), half_of(len(numbers))
    for i, number in enumerate(numbers):
        output[i // 2 if i % 2 == 0 else half + i // 2] = number
    return output


def back_by_formula(numbers):
    """The header's even back: what each entry of the output becomes."""
    half = half_of(len(numbers))
    return [numbers[i // 2 if i % 2 == 0 else half + i // 2] for i in range(len(numbers))]


def first_by_slices(numbers):
    """Every second entry from the first on, then every second from the second on."""
    return [*numbers[0::2], *numbers[1::2]]


def back_by_slices(numbers):
    """Both parts laid into every second place."""
    output, half = [None] * len(numbers), half_of(len(numbers))
    output[0::2], output[1::2] = numbers[:half], numbers[half:]
    return output


OTHER_WAYS = {
    EVEN_FIRST: (first_by_formula, first_by_slices),
    EVEN_BACK: (back_by_formula, back_by_slices),
}


def check_orders(tally, numbers):
    """One list: both orders by the other ways, and each after the other."""
    listed = list(numbers)
    for order, call in ((even_first, EVEN_FIRST), (even_back, EVEN_BACK)):
        for way in OTHER_WAYS[call]:
            tally.equal(ORDERS, (way.__name__, numbers), way(listed), order(numbers))
        tally.equal(ORDERS, (order.__name__, numbers), sorted(listed), sorted(order(numbers)))
    tally.equal(ORDERS, numbers, listed, even_back(even_first(numbers)))
    tally.equal(ORDERS, numbers, listed, even_first(even_back(numbers)))


def check_finished(tally, case, got):
    """What is known of an accepted case: its list by the other ways, and back by the other call."""
    for way in OTHER_WAYS[case.call]:
        tally.equal(ORDERED, (way.__name__, case), way(list(case.numbers)), got)
    (other,) = (call for call in CALLS if call != case.call)
    returned = run(order_case(other, got))
    tally.equal(ORDERED, case, calls.Outcome(0, list(case.numbers), None), returned)


def check_refused(tally, case, verdict):
    """A refused case: its number, and the output as it was."""
    expected = calls.Outcome(verdict, cases.output_before(case.output_length), None)
    tally.equal(REFUSED, case, expected, run(case))


def check_calls(tally, source):
    """Both calls on every length: finished, refused with 7, and with 5 whatever the output is."""
    for call, length in product(CALLS, range(MOST + 3)):
        case = order_case(call, random_numbers(source, length))
        others = (replace(case, output_length=other) for other in other_lengths(length))
        if length > MOST:
            for refused in (case, *others):
                check_refused(tally, refused, 5)
        else:
            done = run(case)
            tally.equal(ORDERED, case, (0, None), (done.verdict, done.working))
            check_finished(tally, case, done.output)
            for refused in others:
                check_refused(tally, refused, 7)


# Where the zeros lie.


def parts(family, curve):
    """The even and the odd part of an expanded curve that is put even first."""
    put = even_first(curves.expand(family, curve))
    return put[: half_of(len(put))], put[half_of(len(put)) :]


def with_only(parity, curve):
    """The curve with zeros at all indices that are not of this parity."""
    return tuple(x if index % 2 == parity else 0 for index, x in enumerate(curve))


def check_law(tally, family, curve):
    """All b are zero: of either half of a curve one part is zero, and the other only with it."""
    for parity in (0, 1):
        half_curve = with_only(parity, curve)
        found = parts(family, half_curve)
        case = (family, half_curve)
        tally.equal(ZEROS, case, [0] * len(found[1 - parity]), found[1 - parity])
        tally.equal(ZEROS, case, any(half_curve), any(found[parity]))


def check_law_fails(tally, family, row):
    """The first b that is not zero is this row's, or all b are not: F_row breaks the law."""
    curve = tuple(int(index == row) for index in range(family.n))
    tally.equal(ZEROS, (family, curve), True, any(parts(family, curve)[1 - row % 2]))


def check_random_families(tally, source):
    """Random families of every kind of modulus without b, and then with one b."""
    for modulus, row_count in product(MODULI, ROW_COUNTS):
        family = random_family_any_first_c(source, modulus, row_count)
        family = replace(family, b=(0,) * row_count)
        check_law(tally, family, random_curve(source, modulus, row_count + 1))
        check_law(tally, family, (1,) * (row_count + 1))
        if row_count > 0:
            row = 1 + source.below(row_count)
            b = 1 + source.below(modulus - 1)
            one_b = (0,) * (row - 1) + (b,) + (0,) * (row_count - row)
            check_law_fails(tally, replace(family, b=one_b), row)


def check_classical_families(tally, source):
    """Textbook families modulo primes and other numbers; those that have b break the law."""
    moduli = (257, 2147483647, 1001, 2147483645)
    for name, modulus, row_count in product(WITHOUT_B, moduli, (0, 1, 4, 9)):
        if classical.has_rows(name, modulus, row_count):
            family = classical.classical_family(name, modulus, row_count, 0)
            tally.equal(ZEROS, family, False, any(family.b))
            check_law(tally, family, random_curve(source, modulus, row_count + 1))
    for name in WITHOUT_B:
        family = classical.classical_family(name, 2147483647, 127, 1)
        check_law(tally, family, random_curve(source, 2147483647, 128))
    for name, row in product(WITH_B, (1, 2, 3, 9)):
        check_law_fails(tally, classical.classical_family(name, 2147483647, 9, 0), row)


def check_stated_polynomials(tally):
    """Polynomials as textbooks print them: one part is zero, by even first alone."""
    for name in set(STATED) & set(WITHOUT_B):
        for i, coefficients, _ in STATED[name]:
            put = even_first(residues(coefficients, 2147483647))
            both = put[: half_of(i + 1)], put[half_of(i + 1) :]
            tally.equal(ZEROS, (name, i), (True, False), (any(both[i % 2]), any(both[1 - i % 2])))


# The vectors.


@cache
def vectors():
    """Each case of the vectors with its answer and the output after it, as the files have them."""
    found = []
    lines = (check_vectors.file_lines("ordered" + ending) for ending in (".in", ".out"))
    for case, given, left in zip(ordered_cases(), *lines, strict=True):
        if ordered.input_line(case) != given + "\n":
            raise ValueError(f"not the line of its case: {given}")
        answer, length, *output = map(int, left.split())
        if length != len(output):
            raise ValueError(f"not a list preceded by its length: {left}")
        found.append((case, answer, output))
    return found


def check_vector(tally, case, answer, output):
    """One vector: numbers of 32 bits, its answer by its lengths, the output by the other ways."""
    tally.equal(ORDERED, case, True, all(0 <= x <= GREATEST for x in case.numbers))
    length = len(case.numbers)
    expected = 5 if length > 128 else 7 if case.output_length != length else 0
    tally.equal(REFUSED, case, expected, answer)
    if answer == 0:
        check_finished(tally, case, output)
    else:
        tally.equal(REFUSED, case, cases.output_before(case.output_length), output)


def check(tally, source):
    """Stated orders, every length, the calls, the zeros, and the vectors."""
    for numbers, put in STATED_ORDERS:
        tally.equal(ORDERS, numbers, list(put), even_first(numbers))
        tally.equal(ORDERS, put, list(numbers), even_back(put))
    for length in range(MOST + 1):
        for numbers in (range(length), random_numbers(source, length)):
            check_orders(tally, numbers)
    check_calls(tally, source)
    check_random_families(tally, source)
    check_classical_families(tally, source)
    check_stated_polynomials(tally)
    for vector in vectors():
        check_vector(tally, *vector)
    lengths = {(case.call, len(case.numbers)) for case, answer, _ in vectors() if answer == 0}
    tally.equal(ORDERED, "lengths", set(product(CALLS, range(129))), lengths)
