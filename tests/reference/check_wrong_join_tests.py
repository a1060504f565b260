"""Wrong tests before two channels are joined, each told from the right ones by a vector.

A wrong version has its tests in another order, or another condition for one of
them. The right answers are those of the files of vectors; each wrong version
gives some of them and not all. Two orders cannot be told: 3 of m1 and of m2, and
12 of the first and of the second list, are one number each, and a refusal writes
nothing.
"""

from itertools import combinations

import calls
import curves
from check_joining import check_told, vectors
from joining import number_of
from joining_cases import TESTS, ExpandJoinCase, JoinCase, fails, lent

KIND = "wrong tests of joining"

OTHER_ORDERS = {
    JoinCase: (
        "3 3' 20 7 12 12' 19",
        "3 3' 19 12 12' 20 7",
        "3 19 20 7 12 3' 12'",
    ),
    ExpandJoinCase: (
        "3 3' 4 5 6 7 19 17 10 17' 10' 18 11 18' 11'",
        "3 3' 19 4 5 6 7 17' 10' 17 10 18' 11' 18 11",
        "3 3' 19 4 5 6 7 17 10 18 11 17' 10' 18' 11'",
        "3 3' 19 4 5 6 7 17 17' 10 10' 18 18' 11 11'",
        "3 3' 19 4 5 6 7 18 11 18' 11' 17 10 17' 10'",
        "3 3' 19 4 5 6 7 17 10 18 11",
        "3 3' 19 4 5 6 7 17' 10' 18' 11'",
        "3 3' 19 4 5 6 7 10 10' 11 11'",
    ),
}


def orders(kind):
    """These orders, and of every two tests the later one put right before the earlier."""
    yield from (order.split() for order in OTHER_ORDERS[kind])
    for earlier, later in combinations(TESTS[kind], 2):
        if (earlier, later) not in (("3", "3'"), ("12", "12'")):
            order = [test for test in TESTS[kind] if test != later]
            order.insert(order.index(earlier), later)
            yield order


# Other conditions: functions of what is lent; `m` is the name of the channel number, m1 or m2.


def never(_given):
    """A test that is left out."""
    return False


def one_divides(given):
    """19 only if one channel number divides the other."""
    return given.m1 % given.m2 == 0 or given.m2 % given.m1 == 0


def one_is_composite(given):
    """19 for every channel number that is no prime."""
    return any(len(curves.divisors(m)) > 2 for m in (given.m1, given.m2))


def outside(least, greatest):
    """3 with other bounds."""
    return lambda m: lambda given: not least <= getattr(given, m) <= greatest


def reaching(more=0, part=slice(None)):
    """12 for numbers that are so much more than the channel number, or in one part of the list."""

    def on(m):
        name = "first" if m == "m1" else "second"
        return lambda given: calls.some_reach(getattr(given, name)[part], getattr(given, m) + more)

    return on


def reaching_the_other(m):
    """12 by the other channel's number."""
    name, other = ("first", "m2") if m == "m1" else ("second", "m1")
    return lambda given: calls.some_reach(getattr(given, name), getattr(given, other))


def zero(numbers):
    """17 or 18 on other numbers of a channel."""
    return lambda m: lambda given: calls.zero_is_lowest(
        numbers(given.on(getattr(given, m))), getattr(given, m)
    )


def dead(numbers):
    """10 or 11 on other numbers of a channel."""
    return lambda m: lambda given: calls.some_without_inverse(
        numbers(given.on(getattr(given, m))), getattr(given, m)
    )


def any_zero(numbers):
    """17 or 18 for a zero in whatever row."""
    return lambda m: lambda given: 0 in numbers(given.on(getattr(given, m)))


def zero_as_lent(numbers):
    """17 or 18 only if the lowest number without an inverse is 0 as lent, and no multiple of m."""

    def on(m):
        def condition(given):
            modulus = getattr(given, m)
            lowest = (x for x in numbers(given) if curves.inverse(x % modulus, modulus) is None)
            return next(lowest, None) == 0

        return condition

    return on


def on_either(test, condition_on):
    """A condition for the test of the first channel, and for that of the second."""
    return (test, condition_on("m1")), (test + "'", condition_on("m2"))


OF_BOTH_CALLS = (
    *on_either("3", outside(1, 2147483647)),
    *on_either("3", outside(3, 2147483647)),
    *on_either("3", outside(2, 2147483648)),
    *on_either("3", outside(2, 2147483646)),
    ("19", never),
    ("19", one_divides),
    ("19", one_is_composite),
    ("19", lambda given: given.m1 == given.m2),
    ("19", lambda given: given.m1 % 2 == given.m2 % 2 == 0),
    ("19", lambda given: given.m1 >= given.m2),
    ("7", never),
)
OTHER_CONDITIONS = {
    JoinCase: (
        *OF_BOTH_CALLS,
        ("20", never),
        ("20", lambda given: len(given.first) > len(given.second)),
        ("20", lambda given: len(given.first) < len(given.second)),
        ("7", lambda given: len(given.output) < len(given.first)),
        ("7", lambda given: len(given.output) > len(given.first)),
        *on_either("12", lambda m: never),
        *on_either("12", reaching_the_other),
        *on_either("12", reaching(more=1)),
        *on_either("12", reaching(more=-1)),
        *on_either("12", reaching(part=slice(1))),
        *on_either("12", reaching(part=slice(1, None))),
        *on_either("12", reaching(part=slice(-1))),
    ),
    ExpandJoinCase: (
        *OF_BOTH_CALLS,
        ("4", lambda given: len(given.a) != len(given.b)),
        ("4", lambda given: len(given.a) != len(given.c)),
        ("4", lambda given: len(given.b) != len(given.c)),
        ("5", lambda given: len(given.a) > 126),
        ("5", lambda given: len(given.a) > 128),
        ("6", lambda given: len(given.curve) < len(given.a) + 1),
        ("6", lambda given: len(given.curve) > len(given.a) + 1),
        ("7", lambda given: len(given.output) < len(given.a) + 1),
        ("7", lambda given: len(given.output) > len(given.a) + 1),
        *on_either("17", any_zero(lambda channel: channel.a)),
        *on_either("18", any_zero(lambda channel: channel.c[1:])),
        *on_either("17", zero_as_lent(lambda given: given.a)),
        *on_either("18", zero_as_lent(lambda given: given.c[1:])),
        *on_either("17", zero(lambda channel: channel.a[::-1])),
        *on_either("18", zero(lambda channel: channel.c[:0:-1])),
        *on_either("10", dead(lambda channel: channel.a[1:])),
        *on_either("10", dead(lambda channel: channel.a[:-1])),
        *on_either("18", zero(lambda channel: channel.c)),
        *on_either("11", dead(lambda channel: channel.c)),
        *on_either("11", dead(lambda channel: channel.c[2:])),
        *on_either("11", dead(lambda channel: channel.c[1:-1])),
    ),
}


def first_number(tests):
    """The number of the first of the tests, or 0 if there is none."""
    return next(map(number_of, tests), 0)


def vectors_of(kind):
    """What each vector of a call is lent, its answer, and the tests whose conditions hold.

    Nothing is reduced modulo zero, so channel numbers of zero are left out.
    """
    for case, answer, _ in vectors():
        if isinstance(case, kind) and min(case.m1, case.m2) > 0:
            yield lent(case), answer, [test for test in TESTS[kind] if fails(case, test)]


def check_orders(tally, kind, found):
    """Each test is the first to refuse some vector, and every wrong order is told."""
    met = {held[0] for _, _, held in found if held}
    tally.equal(KIND, kind.__name__, set(TESTS[kind]), met)
    for order in orders(kind):
        answers = (
            (answer, first_number(test for test in order if test in held))
            for _, answer, held in found
        )
        check_told(tally, KIND, (kind.__name__, order), answers)


def answer_with(kind, changed, condition, given, held):
    """The answer if one test has another condition; `held` are those whose own conditions hold."""
    return first_number(
        test
        for test in TESTS[kind]
        if (condition(given) if test == changed else test in held)
    )


def check_conditions(tally, kind, found):
    """Every other condition is told."""
    for place, other in enumerate(OTHER_CONDITIONS[kind]):
        answers = (
            (answer, answer_with(kind, *other, given, held)) for given, answer, held in found
        )
        check_told(tally, KIND, (kind.__name__, other[0], place), answers)


def check(tally, _source):
    """All wrong versions; they are the same for every seed."""
    for kind in TESTS:
        found = list(vectors_of(kind))
        check_orders(tally, kind, found)
        check_conditions(tally, kind, found)
