"""The cases of the text vectors, the same in every run.

A case is a text with the lengths of the output and of the working list that
the text call is lent. The first kinds are accepted or refused by their job,
the others are texts one byte or one line away from the form, or at a limit.
"""

from dataclasses import dataclass, replace
from itertools import combinations

import cases
import check_texts
import faults
import first_c
import jobs
import reasons
from check_figures import (
    P10_FAMILY,
    P12_FAMILY,
    SHOWN_JOB,
    R,
    ones,
    run_only_texts,
    text_of_length,
)
from families import greatest_family, random_curve, random_family
from splitmix import SplitMix64

SEED = 20240301
OUTPUT, WORKING = 4096, 16384
LONGER_OUTPUT, LONGER_WORKING = 4999, 16390
SIZES = (0, 1, 2, 3, 4, 5, 7, 8, 15, 16, 31, 32, 63, 64, 126, 127)
SMALL_MODULI = (2, 3, 6, 7, 15, 257, 1001)
GREAT_MODULI = (65537, 2**30, 2147483646, 2147483647)
FAULT_BASES = ((15, 4), (2147483646, 3))
EDGE_NUMBERS = (0, 1, 6, 7, 2147483646, 2147483647, 2147483648, 4294967295, 4294967296)
OTHER_JOB = b"mod=15\na=\nb=\nc=\nop=norms\nv=\n"
BYTES_AT_A_PLACE = 4


@dataclass(frozen=True)
class TextCase:
    """A text, and the lengths of what the text call is lent."""

    text: bytes
    output_length: int = OUTPUT
    working_length: int = WORKING


def job_case(call, family, curve):
    """The text of a job: an operation, by its call's number, on a family and a curve."""
    return TextCase(check_texts.job_text(cases.family_case(call, family, curve)))


def figures():
    """The scope paper's figures that a text can say."""
    yield from (TextCase(text) for _, text, _ in run_only_texts())
    for call in check_texts.OPERATION_OF:
        for curve in ((3, 0, 1), (1, 3, 2), (6, 6, 6), (3, 0, 7)):
            yield job_case(call, R, curve)
        yield job_case(call, P10_FAMILY, (1, 1))
        yield job_case(call, P12_FAMILY, (1, 1))
        yield job_case(call, ones(7, 127), (1,) * 128)
        yield job_case(call, ones(7, 128), (1,) * 129)


def accepted(source, call):
    """Every size over a small and a great modulus, and the greatest answers."""
    for place, row_count in enumerate(SIZES):
        for moduli in (SMALL_MODULI, GREAT_MODULI):
            modulus = moduli[place % len(moduli)]
            family = random_family(source, modulus, row_count)
            curve = random_curve(source, modulus, row_count + 1)
            yield job_case(call, family, curve)
    family = greatest_family(2147483647, 127)
    case = job_case(call, family, (2147483646,) * 128)
    yield case
    yield replace(case, output_length=LONGER_OUTPUT, working_length=LONGER_WORKING)


def text_case(case):
    """The text of a case's job, with the lengths that the case is lent."""
    return TextCase(check_texts.job_text(case), case.output_length, case.working_length)


def accepted_case(source, call, modulus, row_count):
    """An accepted case whose output and working list are of the least length."""
    family = random_family(source, modulus, row_count)
    curve = random_curve(source, modulus, row_count + 1)
    case = cases.family_case(call, family, curve)
    return replace(case, output_length=OUTPUT, working_length=WORKING)


def refused(source, call):
    """A fault of each place from 3 on alone, and of each two places at once."""
    listed = faults.of_both_reasons(check_texts.text_faults)
    numbers = faults.by_place(check_texts.refusals(call))
    for base in FAULT_BASES:
        case = accepted_case(source, call, *base)
        spoiled = [source.choice(listed(case, x)) for x in numbers]
        for pair in combinations(numbers, 2):
            spoiled.append(faults.two_faults(source, case, *pair, listed))
        yield from map(text_case, spoiled)


def with_reasons(source, call):
    """Zeros and shared factors in a and c, and either beside a fault of every other number."""
    for family, curve, _ in reasons.families(source, reasons.FEWER_BASES):
        yield job_case(call, family, curve)
    case = accepted_case(source, call, *FAULT_BASES[0])
    for pair in faults.pairs_with_a_reason(check_texts.refusals(call)):
        yield text_case(faults.two_faults(source, case, *pair, check_texts.text_faults))


def with_numbers():
    """Each number at an edge in each place where a number stands."""
    for number in EDGE_NUMBERS:
        word = b"%d" % number
        yield TextCase(SHOWN_JOB.replace(b"mod=7", b"mod=" + word))
        for spoiled in (b"1 2", b"0 3", b"1 5", b"3 0 1"):
            first, rest = spoiled[:1], spoiled[1:]
            yield TextCase(SHOWN_JOB.replace(b"=" + spoiled, b"=" + word + rest))
            yield TextCase(SHOWN_JOB.replace(b"=" + spoiled, b"=" + first + rest[:-1] + word))


def near(source, text):
    """Texts one byte away, and those that break off."""
    for place in range(len(text)):
        yield text[:place]
        yield text[:place] + text[place + 1 :]
        for _ in range(BYTES_AT_A_PLACE):
            other = source.below(256)
            if other != text[place]:
                yield text[:place] + bytes([other]) + text[place + 1 :]
        for _ in range(BYTES_AT_A_PLACE):
            other = source.choice(check_texts.INSERTED)
            yield text[:place] + bytes([other]) + text[place:]
    for byte in check_texts.INSERTED:
        yield text + bytes([byte])


def in_other_orders():
    """The lines of the shown job with two exchanged, one twice, or one left out."""
    lines = SHOWN_JOB.splitlines(keepends=True)
    for first, second in combinations(range(len(lines)), 2):
        other = list(lines)
        other[first], other[second] = other[second], other[first]
        yield b"".join(other)
    for place in range(len(lines)):
        yield b"".join(lines[:place] + lines[place + 1 :])
        yield b"".join(lines[: place + 1] + lines[place:])


def of_random_words(source, count):
    """Six lines with random words after the keys, some of them of the form."""
    words = (b"", b"1", b"0 1", b"2 3", b"01", b"1 ", b" 1", b"1  1", b"7", b"x", b"4294967296")
    names = (b"expand", b"adjoint", b"decompose", b"moments", b"norms", b"inverse", b"expandexpand")
    for _ in range(count):
        values = [source.choice(words) for _ in jobs.KEYS]
        values[0] = source.choice((b"7", b"15", b"", b"7 7", b"07", b"1"))
        values[4] = source.choice(names)
        yield b"".join(key + b"=" + value + b"\n" for key, value in zip(jobs.KEYS, values))


def lengths():
    """Texts about as long as the longest, of the form and not."""
    for length in (8191, 8192, 8193, 8194, 10000):
        yield text_of_length(length)
        yield b"\0" * length
        yield SHOWN_JOB + b"\n" * (length - len(SHOWN_JOB))


def plain_texts(source):
    """The texts that are lent an output and a working list of the least length."""
    yield from (text for _, text in check_texts.DAMAGED)
    yield from (text for text, _ in check_texts.long_list_texts())
    yield from lengths()
    yield from in_other_orders()
    yield from near(source, SHOWN_JOB)
    yield from near(source, OTHER_JOB)
    yield from of_random_words(source, 100)


def text_cases():
    """All cases in their order, none of them twice."""
    source = SplitMix64(SEED)
    found = [*figures()]
    for call in check_texts.OPERATION_OF:
        found += accepted(source, call)
        found += refused(source, call)
    found += with_numbers()
    found += map(TextCase, plain_texts(source))
    for call in check_texts.OPERATION_OF:
        found += (job_case(call, *pair) for pair in first_c.fewer_pairs(SplitMix64(SEED + 1)))
    for call in check_texts.OPERATION_OF:
        found += with_reasons(SplitMix64(SEED + 2), call)
    return list(dict.fromkeys(found))
