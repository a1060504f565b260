"""Two channels: the joined value, join, and expand and join, from item 6 of the change requests.

m1 and m2 are the paper's m and m'. A call is given any two of them and lists of
any length, and answers with an Outcome as those of calls.py do: a refusal leaves
the output as it was. Rows and curve of expand and join are whole numbers with a
sign, of which each channel takes the remainders.

Tests run in the order of JOIN_TESTS and EXPAND_JOIN_TESTS, each over all rows or
entries before the next. A test has the name of its number, with a prime if it is
of the second channel or list. With r the length of a, and n = r + 1:

3 3'             m1, m2 is below 2 or above 2147483647
19               m1 and m2 share a factor

of join:
20               the two lists of remainders differ in length
7                the output is not as long as the first list
12 12'           a number of the first list is not below m1, of the second not below m2

of expand and join:
4                b or c is not as long as a
5                more than 127 rows
6 7              the curve, the output is not n long
17 10 17' 10'    an a without an inverse, as in calls.py: of the remainders modulo m1, modulo m2
18 11 18' 11'    a c from row 2 on without an inverse, likewise
"""

from dataclasses import dataclass

import calls
import curves
from calls import Outcome

JOIN_TESTS = ("3", "3'", "19", "20", "7", "12", "12'")
ROW_TESTS = ("17", "10", "17'", "10'", "18", "11", "18'", "11'")
EXPAND_JOIN_TESTS = ("3", "3'", "19", "4", "5", "6", "7", *ROW_TESTS)


def in_range(value, m1, m2):
    """Whether twice the value is greater than -(m1 m2) and at most m1 m2."""
    return -(m1 * m2) < 2 * value <= m1 * m2


def joined_value(first, second, m1, m2):
    """The one whole number in the range with both remainders.

    first + k m1 leaves the first remainder for every k, and the second for one k
    below m2. That number is in the range or the one m1 m2 below it is: both are
    tried, so what is handed out is the joined value by definition.
    """
    k = (second - first) * curves.inverse(m1, m2) % m2
    (value,) = (
        v
        for v in (first + k * m1, first + k * m1 - m1 * m2)
        if (v % m1, v % m2) == (first, second) and in_range(v, m1, m2)
    )
    return value


def joined(first, second, m1, m2):
    """The joined values of two lists of remainders, place by place."""
    return [joined_value(x, y, m1, m2) for x, y in zip(first, second, strict=True)]


def remainders(numbers, modulus):
    """What the numbers leave, from 0 to the modulus less 1, of a negative number too."""
    return [number % modulus for number in numbers]


def share_a_factor(m1, m2):
    """Whether a number above 1 divides both."""
    return any(m2 % divisor == 0 for divisor in curves.divisors(m1) if divisor > 1)


@dataclass(frozen=True)
class LentRemainders:
    """What join is lent."""

    m1: int
    m2: int
    first: list
    second: list
    output: list


@dataclass(frozen=True)
class LentRows:
    """What expand and join is lent."""

    m1: int
    m2: int
    a: list
    b: list
    c: list
    curve: list
    output: list

    def on(self, modulus):
        """What Expand is lent on a channel."""
        lists = (remainders(x, modulus) for x in (self.a, self.b, self.c, self.curve))
        return calls.Lent("expand", modulus, *lists, self.output, None)


def number_of(test):
    """The refusal number that a test gives."""
    return int(test.rstrip("'"))


def on_its_channel(test):
    """The condition in calls.py of a test of rows, on the channel that the test is of."""
    holds = calls.CONDITIONS[number_of(test)]
    return lambda lent: holds(lent.on(lent.m2 if test.endswith("'") else lent.m1))


OF_CHANNELS = {
    "3": lambda lent: calls.modulus_outside(lent.m1),
    "3'": lambda lent: calls.modulus_outside(lent.m2),
    "19": lambda lent: share_a_factor(lent.m1, lent.m2),
}
JOIN_CONDITIONS = OF_CHANNELS | {
    "20": lambda lent: len(lent.first) != len(lent.second),
    "7": lambda lent: len(lent.output) != len(lent.first),
    "12": lambda lent: calls.some_reach(lent.first, lent.m1),
    "12'": lambda lent: calls.some_reach(lent.second, lent.m2),
}
EXPAND_JOIN_CONDITIONS = OF_CHANNELS | {
    "4": lambda lent: len(lent.b) != len(lent.a) or len(lent.c) != len(lent.a),
    "5": lambda lent: len(lent.a) > calls.LARGEST_ROW_COUNT,
    "6": lambda lent: len(lent.curve) != len(lent.a) + 1,
    "7": lambda lent: len(lent.output) != len(lent.a) + 1,
    **{test: on_its_channel(test) for test in ROW_TESTS},
}


def first_refusal(lent, tests, conditions):
    """The number of the first test whose condition holds, or 0."""
    return next((number_of(test) for test in tests if conditions[test](lent)), 0)


def join(m1, m2, first, second, output):
    """Join: two lists of remainders into signed numbers."""
    lent = LentRemainders(m1, m2, first, second, output)
    verdict = first_refusal(lent, JOIN_TESTS, JOIN_CONDITIONS)
    return Outcome(verdict, output if verdict else joined(first, second, m1, m2), None)


def expand_join(m1, m2, a, b, c, curve, output):
    """Expand and join: Expand on both channels, joined."""
    lent = LentRows(m1, m2, a, b, c, curve, output)
    verdict = first_refusal(lent, EXPAND_JOIN_TESTS, EXPAND_JOIN_CONDITIONS)
    if verdict:
        return Outcome(verdict, output, None)
    first, second = (calls.result(lent.on(modulus)) for modulus in (m1, m2))
    return Outcome(0, joined(first, second, m1, m2), None)
