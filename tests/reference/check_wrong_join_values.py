"""Wrong joined values and wrong remainders of signed numbers, each told by a vector.

A wrong version tests what the right one tests, but hands out something else.
The right answers are those of the files of vectors; each wrong version gives
some of them and not all.
"""

import calls
from check_joining import balanced, by_formula, check_told, true_coefficients, vectors
from joining import ROW_TESTS, number_of
from joining_cases import LEAST, JoinCase

KIND = "wrong joined values"
MOST_ROWS = 3  # of the vectors on which wrong remainders are tried


# Other joined values: functions of the remainders first and second and of m1 and m2.


def c_remainder(number, modulus):
    """The remainder as C has it: negative for a negative number."""
    return abs(number) % modulus * (1 if number >= 0 else -1)


def from_steps(steps, m1, m2, first):
    """first + steps m1, or m1 m2 below it."""
    value = first + steps * m1
    return value - m1 * m2 if 2 * value > m1 * m2 else value


def never_negative(first, second, m1, m2):
    """From 0 to m1 m2 - 1."""
    return by_formula(first, second, m1, m2) % (m1 * m2)


def half_negative(first, second, m1, m2):
    """Half of m1 m2 taken to the negative side."""
    value = by_formula(first, second, m1, m2)
    return -value if 2 * value == m1 * m2 else value


def least_positive(first, second, m1, m2):
    """Negative one place too late, so that the least value of an odd m1 m2 is positive."""
    value = never_negative(first, second, m1, m2)
    return value - m1 * m2 if value > (m1 * m2 + 1) // 2 else value


def greatest_negative(first, second, m1, m2):
    """Negative from half of m1 m2, rounded down, on."""
    value = never_negative(first, second, m1, m2)
    return value - m1 * m2 if value >= m1 * m2 // 2 else value


def channels_swapped(first, second, m1, m2):
    """The first remainder taken modulo m2 and the second modulo m1."""
    return by_formula(second, first, m1, m2)


def steps_negative(first, second, m1, m2):
    """The steps as C's remainder, which is negative where the second remainder is the less."""
    return from_steps(c_remainder((second - first) * pow(m1, -1, m2), m2), m1, m2, first)


def difference_wraps(first, second, m1, m2):
    """second - first as a 32-bit unsigned number."""
    return from_steps((second - first) % 2**32 * pow(m1, -1, m2) % m2, m1, m2, first)


def difference_of_unreduced(first, second, m1, m2):
    """second + m2 - first as a 32-bit unsigned number, as if first were below m2."""
    return from_steps((second + m2 - first) % 2**32 * pow(m1, -1, m2) % m2, m1, m2, first)


def steps_wrap(first, second, m1, m2):
    """The difference times the inverse as a 32-bit number."""
    steps = (second - first) % m2 * pow(m1, -1, m2) % 2**32 % m2
    return from_steps(steps, m1, m2, first)


def other_inverse(first, second, m1, m2):
    """The inverse of m2 modulo m1 in place of that of m1 modulo m2."""
    return from_steps((second - first) * pow(m2, -1, m1) % m2, m1, m2, first)


def products_wrap(first, second, m1, m2):
    """The products of the explicit formula as 64-bit numbers."""
    of_first, of_second = m2 * pow(m2, -1, m1), m1 * pow(m1, -1, m2)
    return balanced((first * of_first + second * of_second) % 2**64, m1 * m2)


def range_wraps(first, second, m1, m2):
    """m1 m2 as a 32-bit number."""
    value = never_negative(first, second, m1, m2)
    whole = m1 * m2 % 2**32
    return value - whole if 2 * value > whole else value


def rounded(first, second, m1, m2):
    """A double, which holds 53 bits."""
    return int(float(by_formula(first, second, m1, m2)))


OTHER_VALUES = (
    *(never_negative, half_negative, least_positive, greatest_negative, channels_swapped),
    *(steps_negative, difference_wraps, difference_of_unreduced, steps_wrap, other_inverse),
    *(products_wrap, range_wraps, rounded),
)


# Other remainders of a signed number x modulo m, the first channel's number being m1.


def kept_negative(x, m, _m1):
    """C's remainder, as a 32-bit unsigned number where it is negative."""
    return c_remainder(x, m) % 2**32


def as_unsigned(x, m, _m1):
    """The signed number taken for an unsigned one."""
    return x % 2**32 % m


def sign_lost(x, m, _m1):
    """The remainder of the size alone."""
    return abs(x) % m


def multiple_left(x, m, _m1):
    """m less the remainder of the size, which is m itself for a negative multiple of m."""
    return x % m if x >= 0 else m - abs(x) % m


def least_negated(x, m, _m1):
    """m less the remainder of -x, where -(-2147483648) stays -2147483648 in 32 bits."""
    size = -x if LEAST < x < 0 else x
    return x % m if x >= 0 else (m - c_remainder(size, m)) % m


def added_once(x, m, _m1):
    """One m added to a negative number, as a 32-bit unsigned one."""
    return x % m if x >= 0 else (x + m) % 2**32


def of_the_first_channel(x, m, m1):
    """The first channel's remainder, reduced again for the second."""
    return x % m1 % m


OTHER_REMAINDERS = (
    *(kept_negative, as_unsigned, sign_lost, multiple_left, least_negated, added_once),
    of_the_first_channel,
)


def outcome_by(remainder, case):
    """The answer to a case that only rows can refuse, and its list, with other remainders."""
    lists = (case.a, case.b, case.c, case.curve)
    channels = [
        calls.Lent(
            "expand", m, *([remainder(x, m, case.m1) for x in y] for y in lists), [], None
        )
        for m in (case.m1, case.m2)
    ]
    for test in ROW_TESTS:
        if calls.CONDITIONS[number_of(test)](channels[test.endswith("'")]):
            return number_of(test), None
    first, second = map(calls.result, channels)
    return 0, [by_formula(x, y, case.m1, case.m2) for x, y in zip(first, second)]


def wrapped(case):
    """The true coefficients as signed 64-bit numbers, with no channel at all."""
    return [balanced(x, 2**64) for x in true_coefficients(case)]


def check_values(tally):
    """Every other joined value, on the remainders of what the accepted vectors hand out."""
    found = [(case.m1, case.m2, output) for case, answer, output in vectors() if answer == 0]
    for wrong in OTHER_VALUES:
        answers = (
            (value, wrong(value % m1, value % m2, m1, m2))
            for m1, m2, output in found
            for value in output
        )
        check_told(tally, KIND, wrong.__name__, answers)


def check_remainders(tally):
    """Every other remainder, on short vectors of expand and join that reach the tests of rows."""
    of_rows = {0, *map(number_of, ROW_TESTS)}
    found = [
        (case, (answer, output if answer == 0 else None))
        for case, answer, output in vectors()
        if not isinstance(case, JoinCase) and answer in of_rows and len(case.a) <= MOST_ROWS
    ]
    for wrong in OTHER_REMAINDERS:
        answers = ((right, outcome_by(wrong, case)) for case, right in found)
        check_told(tally, KIND, wrong.__name__, answers)
    answers = ((output, wrapped(case)) for case, (answer, output) in found if answer == 0)
    check_told(tally, KIND, wrapped.__name__, answers)


def check(tally, _source):
    """All wrong versions; they are the same for every seed."""
    check_values(tally)
    check_remainders(tally)
