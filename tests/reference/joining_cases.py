"""Cases of the calls on two channels: random ones, and faults.

A case is what a call is lent, the output by its length: before the call that
holds 9223372036854775807 - i at place i. A fault is listed by the test that it
fails, which has its name from joining.py.
"""

from dataclasses import astuple, dataclass, replace
from itertools import combinations
from math import gcd

import curves
import faults
import joining
from joining import EXPAND_JOIN_CONDITIONS, JOIN_CONDITIONS, ROW_TESTS

LEAST, GREATEST = -(2**31), 2**31 - 1  # of the numbers in rows and curve


@dataclass(frozen=True)
class JoinCase:
    """Two lists of remainders to be joined."""

    m1: int
    m2: int
    first: tuple
    second: tuple
    output_length: int


@dataclass(frozen=True)
class ExpandJoinCase:
    """Rows and a curve to be expanded on two channels."""

    m1: int
    m2: int
    a: tuple
    b: tuple
    c: tuple
    curve: tuple
    output_length: int


CALLS = {
    JoinCase: (joining.join, joining.LentRemainders),
    ExpandJoinCase: (joining.expand_join, joining.LentRows),
}


def output_before(length):
    """What the output holds before a call."""
    return [9223372036854775807 - place for place in range(length)]


def arguments(case):
    """What the call of a case is given."""
    return *astuple(case)[:-1], output_before(case.output_length)


def run(case):
    """The outcome of the case."""
    return CALLS[type(case)][0](*arguments(case))


def lent(case):
    """What the tests of the case's call look at."""
    return CALLS[type(case)][1](*arguments(case))


def join_case(m1, m2, first, second):
    """The case that joins two equally long lists."""
    return JoinCase(m1, m2, tuple(first), tuple(second), len(first))


def rows_case(m1, m2, rows, curve):
    """The case that expands a curve on these rows."""
    a, b, c = (tuple(row[place] for row in rows) for place in range(3))
    return ExpandJoinCase(m1, m2, a, b, c, tuple(curve), len(curve))


# Random numbers, lists and cases.


def random_channel(source):
    """A channel number of a random size, the greatest ones often."""
    if source.below(4) == 0:
        return GREATEST - source.below(40)
    return 2 + source.below(min(2 ** (2 + source.below(30)), GREATEST - 1))


def random_pair(source):
    """Two random channel numbers without a common factor."""
    while True:
        m1, m2 = random_channel(source), random_channel(source)
        if gcd(m1, m2) == 1:
            return m1, m2


def random_join(source, m1, m2, length):
    """Two random lists of remainders."""
    first, second = ([source.below(m) for _ in range(length)] for m in (m1, m2))
    return join_case(m1, m2, first, second)


def random_signed(source, bits):
    """A random number with a sign, of at most so many bits; of 32 bits often an end."""
    if bits == 32 and source.below(4) == 0:
        return source.choice((LEAST, LEAST + 1, GREATEST - 1, GREATEST))
    return source.below(2**bits) - 2 ** (bits - 1)


def random_unit(source, m1, m2, bits):
    """A random number with a sign that has an inverse on both channels."""
    while True:
        number = random_signed(source, bits)
        if gcd(number, m1 * m2) == 1:
            return number


def random_rows(source, m1, m2, row_count, bits):
    """An accepted family and a curve of random numbers; c_1 is any."""
    rows = [
        (
            random_unit(source, m1, m2, bits),
            random_signed(source, bits),
            random_unit(source, m1, m2, bits) if row > 0 else random_signed(source, bits),
        )
        for row in range(row_count)
    ]
    return rows_case(m1, m2, rows, [random_signed(source, bits) for _ in range(row_count + 1)])


# Faults: cases that differ from the given one by one fault each.


def outside(name):
    """3, 3': a channel number is out of its range."""
    numbers = (0, 1, 2147483648, 4294967295)
    return lambda case: [replace(case, **{name: number}) for number in numbers]


def least_factor(m):
    """The least divisor above 1: m itself if it is prime."""
    return curves.divisors(m)[1]


def sharing_channels(m):
    """m, its double, what divides it, and numbers that share a factor and do not divide it."""
    least = least_factor(m)
    numbers = dict.fromkeys((m, 2 * m, least, 2 * least, m - least))
    return [x for x in numbers if 2 <= x <= GREATEST and gcd(x, m) > 1]


def sharing(case):
    """19: the two channel numbers share a factor."""
    found = [replace(case, m2=number) for number in sharing_channels(case.m1)]
    return found + [replace(case, m1=number) for number in sharing_channels(case.m2)]


def unequal_remainders(case):
    """20: one list is shorter, longer or empty, with the output as long as either or neither."""
    found = []
    for name in ("first", "second"):
        numbers = getattr(case, name)
        for other in (numbers[:-1], (*numbers, 0), ()):
            spoiled = replace(case, **{name: other})
            found += [spoiled, replace(spoiled, output_length=len(other))]
    return found + [replace(case, second=case.second[:-1], output_length=len(case.first) + 1)]


def wrong_outputs(case):
    """7: the output is not as long as the result."""
    length = case.output_length
    lengths = dict.fromkeys((length - 1, length + 1, 0, 2 * length, 2 * length - 1))
    return [replace(case, output_length=x) for x in lengths if x != length]


def reaching(name, own, other):
    """12, 12': a number is not below its own channel number; one that is below the other too."""

    def listed(case):
        modulus = getattr(case, own)
        below_other = max(modulus, getattr(case, other) - 1)
        numbers = dict.fromkeys((modulus, below_other, 2147483648, 4294967295))
        return faults.at_three_places(case, name, numbers)

    return listed


def many_rows(case):
    """5: more than 127 rows, curve and output longer to match."""
    found = []
    for row_count in (128, 129):
        added = row_count - len(case.a)
        longer = faults.with_rows_of_ones(case, added)
        length = case.output_length + added
        found.append(replace(longer, curve=case.curve + (0,) * added, output_length=length))
    return found


def multiples(name, own, first_row):
    """17, 17', 18, 18': m or -m in place of a or c, a zero on the one channel and no other."""

    def listed(case):
        m = getattr(case, own)
        return faults.at_three_places(case, name, (m, -m), first=first_row)

    return listed


def sharing_entries(name, own, first_row):
    """10, 10', 11, 11': a divisor of m, with either sign, in place of a or c."""

    def listed(case):
        m = getattr(case, own)
        least = least_factor(m)
        return faults.at_three_places(case, name, (least, -least) if least < m else (), first_row)

    return listed


OF_CHANNELS = {"3": outside("m1"), "3'": outside("m2"), "19": sharing, "7": wrong_outputs}
FAULTS = {
    JoinCase: OF_CHANNELS
    | {
        "20": unequal_remainders,
        "12": reaching("first", "m1", "m2"),
        "12'": reaching("second", "m2", "m1"),
    },
    ExpandJoinCase: OF_CHANNELS
    | {
        "4": faults.unequal_lists,
        "5": many_rows,
        "6": faults.wrong_curves,
        "17": multiples("a", "m1", 0),
        "10": sharing_entries("a", "m1", 0),
        "17'": multiples("a", "m2", 0),
        "10'": sharing_entries("a", "m2", 0),
        "18": multiples("c", "m1", 1),
        "11": sharing_entries("c", "m1", 1),
        "18'": multiples("c", "m2", 1),
        "11'": sharing_entries("c", "m2", 1),
    },
}
# The tests of each call in their order.
TESTS = {
    JoinCase: ("3", "3'", "19", "20", "7", "12", "12'"),
    ExpandJoinCase: (
        *("3", "3'", "19", "4", "5", "6", "7"),
        *("17", "10", "17'", "10'", "18", "11", "18'", "11'"),
    ),
}
CONDITIONS = {JoinCase: JOIN_CONDITIONS, ExpandJoinCase: EXPAND_JOIN_CONDITIONS}
# The lowest row decides between these two, so a fault of each settles nothing.
ONE_PLACE = {("17", "10"), ("17'", "10'"), ("18", "11"), ("18'", "11'")}


def faults_of(case, test):
    """Cases that differ from this one by one fault, which fails this test and none before it."""
    return FAULTS[type(case)][test](case)


def pairs_of_tests(case):
    """Every two tests of the case's call in their order that faults of this case fail."""
    tests = [test for test in TESTS[type(case)] if faults_of(case, test)]
    return [pair for pair in combinations(tests, 2) if pair not in ONE_PLACE]


def fails(case, test):
    """Whether this test fails the case, whatever others do; modulo zero no row is looked at."""
    if test in ROW_TESTS and 0 in (case.m1, case.m2):
        return False
    return CONDITIONS[type(case)][test](lent(case))


def two_faults(source, case, first, later):
    """The case with a random fault of each test, that of the first put on last; both fail."""
    while True:
        both = source.choice(faults_of(source.choice(faults_of(case, later)), first))
        if fails(both, later):
            return both
