"""Wrong orders and wrong tests of the calls that put even powers first, each told by a vector.

A wrong version puts the list into another order, tests something else, or writes
where it refuses. The right answers are those of the files of vectors; each wrong
version gives some of them and not all.
"""

from collections.abc import Callable
from dataclasses import dataclass, replace

import cases
from check_joining import check_told
from check_ordering import back_by_slices, first_by_slices, vectors
from ordered_cases import EVEN_FIRST, MOST

KIND = "wrong orders"


def half_rounded_down_first(numbers):
    """Odd entries from length / 2 rounded down on: of an odd length the last even one is lost."""
    output = [0] * len(numbers)
    for i, number in enumerate(numbers):
        output[i // 2 if i % 2 == 0 else len(numbers) // 2 + i // 2] = number
    return output


def half_rounded_down_back(numbers):
    """Odd entries taken from length / 2 rounded down on."""
    half = len(numbers) // 2
    return [numbers[i // 2 if i % 2 == 0 else half + i // 2] for i in range(len(numbers))]


def middle_last(numbers):
    """The last even entry of an odd length behind the odd ones."""
    return [*numbers[0:-1:2], *numbers[1::2], *numbers[len(numbers) // 2 * 2 :]]


def by_value(numbers):
    """Even numbers first, by what they are and not by where they stand."""
    return sorted(numbers, key=lambda number: number % 2)


# What puts a list even first, what puts it back, or both.
OTHER_ORDERS = {
    "odd indices first": {"put": lambda x: x[1::2] + x[0::2]},
    "even indices falling": {"put": lambda x: x[0::2][::-1] + x[1::2]},
    "odd indices falling": {"put": lambda x: x[0::2] + x[1::2][::-1]},
    "all indices falling": {"put": lambda x: x[0::2][::-1] + x[1::2][::-1]},
    "put leaves the list": {"put": list},
    "back leaves the list": {"back": list},
    "put turns the list": {"put": lambda x: x[::-1]},
    "put sorts": {"put": sorted},
    "put done as back": {"put": back_by_slices},
    "back done as put": {"back": first_by_slices},
    "exchanged": {"put": back_by_slices, "back": first_by_slices},
    "put twice": {"put": lambda x: first_by_slices(first_by_slices(x))},
    "back twice": {"back": lambda x: back_by_slices(back_by_slices(x))},
    "back turned": {"back": lambda x: back_by_slices(x[::-1])},
    "middle entry last": {"put": middle_last},
    "half rounded down, put": {"put": half_rounded_down_first},
    "half rounded down, back": {"back": half_rounded_down_back},
    "by value": {"put": by_value},
    "odd part left out": {"put": lambda x: x[0::2]},
    "zeros left out": {"put": lambda x: [y for y in first_by_slices(x) if y]},
    "a zero behind an odd length": {"put": lambda x: first_by_slices(x) + [0] * (len(x) % 2)},
    "only 126 entries moved": {"put": lambda x: first_by_slices(x[:126]) + x[126:]},
    "only 64 entries moved": {"back": lambda x: back_by_slices(x[:64]) + x[64:]},
}


@dataclass(frozen=True)
class Calls:
    """Both calls in the right version, part by part; a test looks at lengths alone."""

    put: Callable = first_by_slices
    back: Callable = back_by_slices
    tests: tuple = (5, 7)
    too_many: Callable = lambda length: length > MOST
    unequal: Callable = lambda length, output: output != length
    refused: Callable = lambda numbers, output: output


OTHER_TESTS = {
    "7 before 5": {"tests": (7, 5)},
    "5 left out": {"tests": (7,)},
    "7 left out": {"tests": (5,)},
    "at most 127 numbers": {"too_many": lambda length: length > MOST - 1},
    "at most 129 numbers": {"too_many": lambda length: length > MOST + 1},
    "at most 256 numbers": {"too_many": lambda length: length > 256},
    "count of 8 bits": {"too_many": lambda length: length % 256 > MOST},
    "an empty list refused": {"too_many": lambda length: not 0 < length <= MOST},
    "a longer output taken": {"unequal": lambda length, output: output < length},
    "a shorter output taken": {"unequal": lambda length, output: output > length},
    "output lengths of 8 bits": {"unequal": lambda length, output: (output - length) % 256},
    "an output of 128 wanted": {"unequal": lambda length, output: output != MOST},
    "refusals write zeros": {"refused": lambda numbers, output: [0] * len(output)},
    "refusals write what fits": {
        "refused": lambda numbers, output: (numbers + output[len(numbers) :])[: len(output)]
    },
    "refusals write the first entry": {
        "refused": lambda numbers, output: [*numbers[:1], *output[1:]] if output else output
    },
}


def outcome(version, case):
    """The answer that a version gives and the output that it leaves."""
    numbers, output = list(case.numbers), cases.output_before(case.output_length)
    fails = {
        5: version.too_many(len(numbers)),
        7: version.unequal(len(numbers), len(output)),
    }
    answer = next((test for test in version.tests if fails[test]), 0)
    if answer:
        return answer, version.refused(numbers, output)
    return 0, (version.put if case.call == EVEN_FIRST else version.back)(numbers)


def check(tally, _source):
    """The right version on all vectors, and every wrong one; they are the same for every seed."""
    for case, *right in vectors():
        tally.equal("orders in parts", case, tuple(right), outcome(Calls(), case))
    for name, parts in (OTHER_ORDERS | OTHER_TESTS).items():
        wrong = replace(Calls(), **parts)
        answers = ((tuple(right), outcome(wrong, case)) for case, *right in vectors())
        check_told(tally, KIND, name, answers)
