"""The cases of the vectors for two channels, the same in every run."""

from dataclasses import replace
from itertools import chain, product
from math import gcd, isqrt

import classical
import faults
import joining
from joining_cases import (
    GREATEST,
    LEAST,
    TESTS,
    JoinCase,
    faults_of,
    join_case,
    least_factor,
    pairs_of_tests,
    random_join,
    random_pair,
    random_rows,
    random_signed,
    rows_case,
    two_faults,
)
from splitmix import SplitMix64

SEED = 20240306
LAGUERRE = ((-1, 1, 0), (-1, 3, -1), (-1, 5, -4))  # i! times his L_i, as published
PRIMES = (2147483647, 2147483629)
PAIRS = (
    *((2, 3), (3, 2), (4, 7), (7, 11), (15, 14), (2, 2147483647), (2147483646, 5)),
    *((65536, 65535), (46341, 46340), (2**30, 2147483647), PRIMES, PRIMES[::-1]),
    *((2147483645, 2147483629), (2147483646, 2147483647), (2147483647, 2147483646)),
)
SIZES = (0, 1, 2, 3, 4, 7, 8, 15, 16, 31, 32, 63, 64, 126, 127)
FAULT_PAIRS = ((15, 14), (2147483646, 2147483647), (46341, 2**30), (2147483647, 2))
KINDS = ("unit", "zero", "shared")
OF_15 = {"unit": 2, "zero": 0, "shared": 6}
OF_14 = {"unit": 3, "zero": 0, "shared": 4}
# Published families of whole numbers, and the last F_n that fits the joined value of PRIMES.
FITTING = {
    "Chebyshev T": 50,
    "Chebyshev U": 50,
    "Hermite": 25,
    "Legendre times i!": 16,
    "Laguerre times i!": 18,
}


def all_remainders():
    """Every two remainders of small channel numbers; those of 24 and 25 are the longest lists."""
    small = [pair for pair in product(range(2, 10), repeat=2) if gcd(*pair) == 1]
    for m1, m2 in (*small, (16, 15), (24, 25)):
        pairs = list(product(range(m1), range(m2)))
        yield join_case(m1, m2, [x for x, _ in pairs], [y for _, y in pairs])


def edge_values(m1, m2):
    """The ends and the half of the range, and numbers near 0, m1, m2, 2^31, 2^32 and a quarter."""
    whole = m1 * m2
    ends = (whole // 2, whole // 2 - 1, -((whole - 1) // 2), 1 - (whole - 1) // 2)
    near = (x + d for x in (0, m1, m2, 2**31, 2**32, whole // 4) for d in (-1, 0, 1))
    signed = (sign * x for x in near for sign in (1, -1))
    return [v for v in dict.fromkeys((*ends, *signed)) if joining.in_range(v, m1, m2)]


def case_of_values(m1, m2, values):
    """The case that joins the remainders of these numbers."""
    return join_case(m1, m2, [v % m1 for v in values], [v % m2 for v in values])


def joined_edges():
    """The values at the edges in one list, each of the first by itself, and no value."""
    for m1, m2 in PAIRS:
        values = edge_values(m1, m2)
        yield case_of_values(m1, m2, values)
        for v in values[:7]:
            yield case_of_values(m1, m2, [v])
        yield join_case(m1, m2, (), ())
        yield case_of_values(m1, m2, [values[0]] * 5)


def random_joins(source):
    """Random channel numbers and lists; some with the channels changed about."""
    for turn in range(120):
        case = random_join(source, *random_pair(source), source.below(9))
        yield case
        if turn % 4 == 0:
            yield join_case(case.m2, case.m1, case.second, case.first)
    yield random_join(source, *PRIMES, 400)


def empty_lists():
    """No remainders, with every fault that is left."""
    case = join_case(15, 14, (), ())
    for test in ("3", "3'", "19"):
        yield from faults_of(case, test)
    yield replace(case, output_length=1)
    for first, second in (((), (0,)), ((0,), ()), ((15,), ()), ((), (14,))):
        for length in (0, 1):
            yield JoinCase(15, 14, first, second, length)


def figures():
    """Rows that the scope paper states and signed ones, the example's last."""
    for m1, m2 in ((7, 11), (11, 7), (2, 3), (8, 7), (15, 14), PRIMES):
        yield rows_case(m1, m2, ((1, 0, 1), (2, 3, 5)), (3, 0, 1))
        yield rows_case(m1, m2, ((1, 0, 1), (-2, -3, -5)), (-3, 0, -1))
        yield rows_case(m1, m2, LAGUERRE[:2], (5, -7, 1))
    yield rows_case(101, 103, LAGUERRE, (0, 0, 0, 1))


def published_rows(name, row_count):
    """The rows of a published family, with the c_1 that is published."""
    return [tuple(map(int, classical.ROWS[name](i))) for i in range(1, row_count + 1)]


def published(name, degree, pair=PRIMES):
    """The case that expands F_degree of a published family."""
    return rows_case(*pair, published_rows(name, degree), (0,) * degree + (1,))


def published_cases(source):
    """The first polynomials of published families, the last that fit, and the next; all rows."""
    for name, last in FITTING.items():
        for degree in (*range(7), last - 1, last, last + 1):
            yield published(name, degree)
        yield published(name, 5, (257, 263))
        yield published(name, last, PRIMES[::-1])
    for name in ("Hermite", "Laguerre times i!"):
        curve = [random_signed(source, 32) for _ in range(128)]
        yield rows_case(*PRIMES, published_rows(name, 127), curve)


def edge_numbers(m1, m2):
    """The ends of the numbers with a sign, those near 0, and those near multiples of m1 and m2."""
    ends = (LEAST, LEAST + 1, LEAST + 2, LEAST + 3, GREATEST, GREATEST - 1, GREATEST - 2)
    near = (x * m + d for m in (m1, m2) for x in (1, -1) for d in (-1, 0, 1))
    numbers = dict.fromkeys((*ends, 0, 1, -1, 2, -2, *near, 2 * m1, -2 * m2))
    return [x for x in numbers if LEAST <= x <= GREATEST]


def reduced_numbers():
    """Numbers at the edges by themselves, as b and as a: without a row, and F_1 alone."""
    for m1, m2 in PAIRS:
        for number in edge_numbers(m1, m2):
            yield rows_case(m1, m2, (), (number,))
            if max(m1, m2) > 100:
                yield rows_case(m1, m2, ((1, number, number),), (0, 1))
                yield rows_case(m1, m2, ((number, 1, 0),), (0, 1))


def in_every_place(source):
    """The two ends in each place of rows and curve, and everywhere."""
    for pair in ((2147483645, 2147483629), (15, 14), PRIMES):
        case = random_rows(source, *pair, 3, 16)
        for name in ("a", "b", "c", "curve"):
            yield from faults.at_three_places(case, name, (LEAST, GREATEST))
    for number, row_count in product((LEAST, GREATEST), (1, 2, 3, 127)):
        rows = ((number,) * 3,) * row_count
        yield rows_case(2147483645, 2147483629, rows, (number,) * (row_count + 1))


def reaching_a_number(m1, m2, target):
    """One row and a curve whose true coefficient of x^0 is the target."""
    sign, size = (1, target) if target >= 0 else (-1, -target)
    b = isqrt(size) + 1
    return rows_case(m1, m2, ((1, b, 0),), (sign * (size % b), sign * (size // b)))


def true_numbers():
    """True coefficients at the ends of the range, one past them, and whole ranges away."""
    for m1, m2 in PAIRS:
        whole = m1 * m2
        half, least = whole // 2, -((whole - 1) // 2)
        targets = (half - 1, half, half + 1, least - 1, least, least + 1, -half, whole, -whole)
        for target in dict.fromkeys(targets):
            yield reaching_a_number(m1, m2, target)


def sizes(source):
    """Every row count, with small and with great numbers; long families few times each."""
    for turn, row_count in enumerate(SIZES):
        for step, pair in enumerate(PAIRS):
            if row_count < 9 or step % 5 == turn % 5:
                yield random_rows(source, *pair, row_count, (3, 8, 17, 32)[(turn + step) % 4])
    for _ in range(80):
        bits = source.choice((2, 5, 12, 32))
        yield random_rows(source, *random_pair(source), source.below(6), bits)


def free_numbers(source):
    """c_1, b and curve that are zero or share a factor on a channel: all are accepted."""
    for m1, m2 in ((15, 14), (2147483646, 2147483645)):
        case = random_rows(source, m1, m2, 3, 32)
        for number in (0, m1, -m1, m2, -m2, least_factor(m1), -least_factor(m2)):
            yield faults.with_entry(case, "c", 0, number)
            yield faults.with_entry(case, "b", 1, number)
            yield faults.with_entry(case, "curve", 2, number)
            single = rows_case(m1, m2, ((1, number, number),), (number, 1))
            yield from (single, replace(single, c=(0,)))


def of_kinds(source, on_15, on_14):
    """A number with a sign that is of these kinds modulo 15 and modulo 14."""
    least = joining.joined_value(OF_15[on_15], OF_14[on_14], 15, 14)
    return least + 210 * random_signed(source, 16)


def reasons(source):
    """Zeros and shared factors on either channel in two a, in two c, and in an a and a c."""
    kinds = list(product(KINDS, repeat=2))
    for one, two in product(kinds, repeat=2):
        x, y = of_kinds(source, *one), of_kinds(source, *two)
        yield rows_case(15, 14, ((x, 5, 7), (y, -4, -11)), (1, -2, 3))
        yield rows_case(15, 14, ((1, 5, 210), (-1, -4, x), (11, 0, y)), (1, -2, 3, -4))
        yield rows_case(15, 14, ((-1, 5, 210), (11, -4, x), (y, 0, 1)), (1, -2, 3, -4))


def with_faults(source, case):
    """Every fault alone, and a random one of every two tests.

    Faults with too many rows are long: on another case than the first there are none.
    """
    long_ones = (case.m1, case.m2) == FAULT_PAIRS[0]
    for test in TESTS[type(case)]:
        if test != "5" or long_ones:
            yield from faults_of(case, test)
    for pair in pairs_of_tests(case):
        if "5" not in pair or long_ones:
            yield two_faults(source, case, *pair)


def of_join(source):
    """All cases of join."""
    yield join_case(101, 103, (95, 18, 92, 1), (97, 18, 94, 1))
    yield from all_remainders()
    yield from joined_edges()
    yield from random_joins(source)
    yield from empty_lists()
    for pair in FAULT_PAIRS:
        yield from with_faults(source, random_join(source, *pair, 4))


def of_expand_join(source):
    """All cases of expand and join."""
    yield from figures()
    yield from published_cases(source)
    yield from reduced_numbers()
    yield from in_every_place(source)
    yield from true_numbers()
    yield from sizes(source)
    yield from free_numbers(source)
    yield from reasons(source)
    for pair in FAULT_PAIRS:
        yield from with_faults(source, random_rows(source, *pair, 4, 32))


def joined_cases():
    """All cases in their order, none of them twice."""
    cases = chain(of_join(SplitMix64(SEED)), of_expand_join(SplitMix64(SEED + 1)))
    return list(dict.fromkeys(cases))
