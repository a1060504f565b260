"""Cases of the calls that put even powers first, and those of the vectors, the same in every run.

A case is a call by its number, its list, and the length of the output. Before a
call the output holds 4294967295 - i at place i.
"""

from dataclasses import dataclass
from itertools import product

import cases
import ordering
from splitmix import SplitMix64

EVEN_FIRST, EVEN_BACK = 1, 2
CALLS = {EVEN_FIRST: ordering.even_first_call, EVEN_BACK: ordering.even_back_call}
MOST = 128
GREATEST = 4294967295

SEED = 20240307
FIGURES = (
    *((10, 11, 12, 13, 14), (10, 11, 12, 13, 14, 15), (10, 12, 14, 11, 13)),
    *((3, 0, 1), (1, 3, 2), (0, 92, 0, 15)),
)
ENDS = (0, 1, 2147483646, 2147483647, 2147483648, GREATEST - 1, GREATEST)
SIZES = (0, 1, 2, 3, 4, 5, 6, 7, 8, 63, 64, 65, 126, 127, 128)
TOO_MANY = (129, 130, 131, 200, 255, 256, 257, 258, 384, 512, 1000)
WITH_OTHER_OUTPUTS = (129, 130, 256, 257)


@dataclass(frozen=True)
class OrderCase:
    """A call by its number, the list that it is lent, and how long the output is."""

    call: int
    numbers: tuple
    output_length: int


def order_case(call, numbers):
    """The case whose output is as long as the list."""
    return OrderCase(call, tuple(numbers), len(numbers))


def run(case):
    """The outcome of the case."""
    return CALLS[case.call](case.numbers, cases.output_before(case.output_length))


def random_number(source):
    """A random number of 32 bits: of any size, and often an end."""
    if source.below(4) == 0:
        return source.choice(ENDS)
    return source.below(2 ** (1 + source.below(32)))


def random_numbers(source, length):
    """A random list."""
    return tuple(random_number(source) for _ in range(length))


def other_lengths(length):
    """Lengths of an output that are not this one: near it or the limit, its half, 256 away."""
    near = (0, 1, length - 1, length + 1, length // 2, (length + 1) // 2, 2 * length)
    far = (MOST - 1, MOST, MOST + 1, length + 256, length - 256)
    return [x for x in dict.fromkeys((*near, *far)) if x >= 0 and x != length]


def figures(call):
    """Short lists, and each end by itself and in each of three places."""
    for numbers in FIGURES:
        yield order_case(call, numbers)
    for number in ENDS:
        yield order_case(call, (number,))
        for place in range(3):
            yield order_case(call, (*range(place), number, *range(place, 2)))


def every_length(source, call):
    """Of every length the list of the indices, which says where each goes, and a random one."""
    for length in range(MOST + 1):
        yield order_case(call, range(length))
        yield order_case(call, random_numbers(source, length))


def equal_numbers(call):
    """Lists of one number alone, and of what the output holds before the call."""
    for length, number in product((2, 3, 127, 128), (0, GREATEST)):
        yield order_case(call, (number,) * length)
    for length in SIZES:
        yield order_case(call, cases.output_before(length))


def wrong_outputs(source, call):
    """7: the output has another length."""
    for length in SIZES:
        for other in other_lengths(length):
            yield OrderCase(call, random_numbers(source, length), other)


def too_many(source, call):
    """5: more than 128 numbers, with an output as long as the list, and with one that is not."""
    for length in TOO_MANY:
        yield order_case(call, random_numbers(source, length))
    for length in WITH_OTHER_OUTPUTS:
        for other in other_lengths(length):
            yield OrderCase(call, random_numbers(source, length), other)


def ordered_cases():
    """All cases in their order, none of them twice."""
    source = SplitMix64(SEED)
    found = []
    for call in CALLS:
        found += figures(call)
        found += every_length(source, call)
        found += equal_numbers(call)
        found += wrong_outputs(source, call)
        found += too_many(source, call)
    return list(dict.fromkeys(found))
