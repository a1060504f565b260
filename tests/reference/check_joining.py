"""Two channels: the joined value by other ways, the refusals in their order, and the true curve.

The joined value is searched for in the whole range for small channel numbers,
and found by an explicit formula for great ones. The expected number of a refusal
is known by how a case was spoiled. What expand and join hands out is held
against the coefficients over the whole numbers, and against the two channels'
own lists; so is every vector that is accepted.
"""

from dataclasses import astuple
from functools import cache
from itertools import product
from math import gcd

import calls
import cases
import check_vectors
import classical
import joined
from check_refusals import last_word
from curves import Family
from joined_cases import (
    FITTING,
    KINDS,
    LAGUERRE,
    OF_14,
    OF_15,
    PAIRS,
    PRIMES,
    joined_cases,
    published,
)
from joining import joined_value, number_of, share_a_factor
from joining_cases import (
    GREATEST,
    LEAST,
    TESTS,
    JoinCase,
    faults_of,
    join_case,
    output_before,
    pairs_of_tests,
    random_join,
    random_pair,
    random_rows,
    rows_case,
    run,
    two_faults,
)

VALUES, REFUSED, LISTS = "joined values", "joining refusals", "joined lists"
SMALL = range(2, 14)
FAULT_PAIRS = ((15, 14), (2147483647, 2147483646), (2**30, 35), (2, 9))
PAIRS_EACH = 3

# m1, m2, the two remainders and the joined value.
STATED_VALUES = (
    *((2, 3, 1, 0, 3), (2, 3, 0, 1, -2), (2, 3, 1, 2, -1), (3, 2, 0, 1, 3), (3, 2, 1, 0, -2)),
    *((3, 5, 1, 2, 7), (3, 5, 2, 3, -7), (7, 11, 6, 10, -1), (7, 11, 3, 5, 38), (7, 11, 4, 6, -38)),
    (2147483646, 2147483647, 1073741823, 0, 2305843005992468481),
    (2147483646, 2147483647, 1073741824, 1, -2305843005992468480),
    (2147483647, 2147483629, 2147483646, 2147483628, -1),
)
STATED_LISTS = (
    (rows_case(7, 11, ((1, 0, 1), (2, 3, 5)), (3, 0, 1)), [8, 3, 2]),
    (rows_case(7, 11, ((1, 0, 1), (-2, -3, -5)), (-3, 0, -1)), [2, 3, 2]),
    (rows_case(7, 11, LAGUERRE[:2], (5, -7, 1)), [0, 3, 1]),
    (rows_case(7, 11, LAGUERRE[:2], (0, 0, 1)), [2, -4, 1]),
    (rows_case(7, 11, LAGUERRE[:2], (0, 0, 20)), [-37, -3, 20]),
    (rows_case(101, 103, LAGUERRE, (0, 0, 0, 1)), [6, -18, 9, -1]),
    (join_case(101, 103, (95, 18, 92, 1), (97, 18, 94, 1)), [-6, 18, -9, 1]),
    (rows_case(2, 3, (), (3,)), [3]),
    (rows_case(2, 3, (), (-3,)), [3]),
    (rows_case(2, 3, (), (4,)), [-2]),
)


def fits(value, whole):
    """Whether a number is in the range of the joined value, the whole being m1 m2."""
    return 2 * value > -whole and 2 * value <= whole


def balanced(number, whole):
    """The number in the range that differs from this one by a multiple of the whole."""
    below = (whole - 1) // 2
    return (number + below) % whole - below


def by_formula(first, second, m1, m2):
    """The joined value by two numbers that leave 1 on one channel and 0 on the other."""
    of_first, of_second = m2 * pow(m2, -1, m1), m1 * pow(m1, -1, m2)
    return balanced(first * of_first + second * of_second, m1 * m2)


def by_search(m1, m2):
    """For every two remainders all numbers in the range that leave them."""
    whole = m1 * m2
    found = {pair: [] for pair in product(range(m1), range(m2))}
    for v in range(-whole, whole + 1):
        if fits(v, whole):
            found[v % m1, v % m2].append(v)
    return found


def check_small(tally):
    """Small channel numbers: whether they share a factor, and all their joined values."""
    for m1, m2 in product(SMALL, repeat=2):
        shared = any(m1 % d == m2 % d == 0 for d in SMALL)
        tally.equal(VALUES, (m1, m2), shared, share_a_factor(m1, m2))
        if not shared:
            for pair, found in by_search(m1, m2).items():
                tally.equal(VALUES, (m1, m2, *pair), found, [joined_value(*pair, m1, m2)])
                tally.equal(VALUES, (m1, m2, *pair), found, [by_formula(*pair, m1, m2)])


def check_values(tally, source):
    """Stated values, all of small channels, and random ones of great channels."""
    for m1, m2, first, second, value in STATED_VALUES:
        for found in (joined_value, by_formula):
            tally.equal(VALUES, (m1, m2, first, second), value, found(first, second, m1, m2))
    check_small(tally)
    for m1, m2 in (*PAIRS, *(random_pair(source) for _ in range(200))):
        tally.equal(VALUES, (m1, m2), gcd(m1, m2) > 1, share_a_factor(m1, m2))
        for _ in range(5):
            pair = source.below(m1), source.below(m2)
            expected = by_formula(*pair, m1, m2)
            tally.equal(VALUES, (m1, m2, *pair), expected, joined_value(*pair, m1, m2))


def true_coefficients(case):
    """What the curve expands to over the whole numbers, from the highest F_i down."""
    rows = [*zip(case.a, case.b, case.c), (0, 0, 0), (0, 0, 0)]
    later, latest = [0] * len(case.curve), [0] * len(case.curve)
    for i in range(len(case.curve) - 1, -1, -1):
        (a, b, _), (_, _, c) = rows[i], rows[i + 1]
        shifted = [0, *later[:-1]]
        value = [a * s + b * x + c * y for s, x, y in zip(shifted, later, latest)]
        value[0] += case.curve[i]
        later, latest = value, later
    return later


def channel_lists(case):
    """What the two channels have: the lists that are lent, or what plain Expand hands out."""
    if isinstance(case, JoinCase):
        return [list(case.first), list(case.second)]
    found = []
    for m in (case.m1, case.m2):
        lists = (case.a, case.b, case.c, case.curve)
        a, b, c, curve = (tuple(x % m for x in numbers) for numbers in lists)
        found.append(cases.run(cases.family_case(1, Family(m, a, b, c), curve)).output)
    return found


def check_list(tally, case, got):
    """What an accepted case hands out: both channels' lists, and the true curve where it fits."""
    whole = case.m1 * case.m2
    left = [[value % m for value in got] for m in (case.m1, case.m2)]
    tally.equal(LISTS, case, channel_lists(case), left)
    tally.equal(LISTS, case, True, all(fits(value, whole) for value in got))
    if not isinstance(case, JoinCase):
        true = true_coefficients(case)
        exact = [x == y for x, y in zip(true, got, strict=True)]
        tally.equal(LISTS, case, [fits(x, whole) for x in true], exact)
        tally.equal(LISTS, case, [balanced(x, whole) for x in true], got)


def check_accepted(tally, case):
    """An accepted case: verdict 0, no working list, and what it hands out."""
    outcome = run(case)
    tally.equal(LISTS, case, (0, None), (outcome.verdict, outcome.working))
    check_list(tally, case, outcome.output)


def check_refused(tally, case, verdict):
    """A refused case: its number, and the output as it was."""
    expected = calls.Outcome(verdict, output_before(case.output_length), None)
    tally.equal(REFUSED, case, expected, run(case))


def check_faults(tally, source, case):
    """Every fault of an accepted case alone, and every two tests."""
    check_accepted(tally, case)
    for test in TESTS[type(case)]:
        for spoiled in faults_of(case, test):
            check_refused(tally, spoiled, number_of(test))
    for first, later in pairs_of_tests(case):
        for _ in range(PAIRS_EACH):
            both = two_faults(source, case, first, later)
            check_refused(tally, both, number_of(first))


def check_reasons(tally):
    """Every kind of number on both channels in a_1, a_2 and c_2; c_1 is zero on both."""
    numbers = [by_formula(OF_15[x], OF_14[y], 15, 14) for x, y in product(KINDS, repeat=2)]
    for *a, c_2 in product(numbers, repeat=3):
        case = rows_case(15, 14, ((a[0], 1, 0), (a[1], 2, c_2)), (3, 4, 5))
        found = [last_word([x % m for x in a], m, 17, 10) for m in (15, 14)]
        found += [last_word([c_2 % m], m, 18, 11) for m in (15, 14)]
        verdict = next(filter(None, found), 0)
        if verdict == 0:
            check_accepted(tally, case)
        else:
            check_refused(tally, case, verdict)


def check_published(tally):
    """Published families on two primes: their own coefficients up to the last F_n that fits.

    FITTING says how far that is: H_25 of Hermite's, 18! L_18 of Laguerre's. Of
    the next F_n some coefficient is out of the range, and the list is not its own.
    """
    kind, whole = "published joined", PRIMES[0] * PRIMES[1]
    for name, last in FITTING.items():
        for degree in range(last + 2):
            case = published(name, degree)
            right = classical.POLYNOMIALS[name](degree)
            is_in = degree <= last
            tally.equal(kind, case, is_in, all(fits(x, whole) for x in right))
            tally.equal(kind, case, is_in, run(case).output == right)
            check_accepted(tally, case)


@cache
def vectors():
    """Each case of the vectors with its answer and the output after it, as the files have them."""
    found = []
    lines = (check_vectors.file_lines("joined" + ending) for ending in (".in", ".out"))
    for case, given, left in zip(joined_cases(), *lines, strict=True):
        if joined.input_line(case) != given + "\n":
            raise ValueError(f"not the line of its case: {given}")
        answer, length, *output = map(int, left.split())
        if length != len(output):
            raise ValueError(f"not a list preceded by its length: {left}")
        found.append((case, answer, output))
    return found


def check_vector(tally, case, answer, output):
    """One vector: numbers that C's types hold, and the output by the other ways or as it was."""
    m1, m2, *lists, _ = astuple(case)
    least, greatest = (0, 2**32 - 1) if isinstance(case, JoinCase) else (LEAST, GREATEST)
    held = all(least <= x <= greatest for numbers in lists for x in numbers)
    tally.equal(LISTS, case, (True, True), (held, 0 <= min(m1, m2) <= max(m1, m2) < 2**32))
    if answer == 0:
        check_list(tally, case, output)
    else:
        tally.equal(REFUSED, case, output_before(case.output_length), output)


def check_told(tally, kind, wrong, answers):
    """A wrong version, by pairs of the right answer and its own: some are equal, and some not."""
    seen = set()
    for right, other in answers:
        seen.add(right == other)
        if len(seen) == 2:
            break
    tally.equal(kind, wrong, {True, False}, seen)


def check(tally, source):
    """Values, stated lists, refusals, published families, random cases, and the vectors."""
    check_values(tally, source)
    for case, expected in STATED_LISTS:
        tally.equal(LISTS, case, calls.Outcome(0, expected, None), run(case))
        check_accepted(tally, case)
    for pair in FAULT_PAIRS:
        check_faults(tally, source, random_join(source, *pair, 5))
        check_faults(tally, source, random_rows(source, *pair, 4, 32))
        check_accepted(tally, join_case(*pair, (), ()))
    check_reasons(tally)
    check_published(tally)
    for _ in range(150):
        pair = random_pair(source)
        check_accepted(tally, random_join(source, *pair, source.below(9)))
        bits = source.choice((2, 5, 12, 32))
        check_accepted(tally, random_rows(source, *pair, source.below(9), bits))
    for vector in vectors():
        check_vector(tally, *vector)
