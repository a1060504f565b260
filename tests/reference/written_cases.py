"""Jobs to be written: a case, its faults, and the cases of the vectors.

A case is what the call that writes a job is lent, the output by its length.
The cases of the vectors are the same in every run.
"""

from dataclasses import dataclass, replace
from itertools import combinations

import calls
import faults
import first_c
import jobs
import reasons
from check_figures import NO_ROWS_7, P10_FAMILY, P12_FAMILY, R, ones
from check_texts import OUTPUT_BEFORE
from curves import Family
from families import greatest_family, random_curve, random_family
from splitmix import SplitMix64

OPERATIONS = tuple(range(len(jobs.OPERATION_NAMES)))
NO_OPERATIONS = (5, 6, 8, 255, 256, 65536, 2147483648, 4294967295)
SHORT_OUTPUTS = (0, 4095, 4096, 8191)
OUTPUTS = (*SHORT_OUTPUTS, 8192, 8193, 9000)

SEED = 20240302
SMALL_MODULI = (2, 3, 4, 5, 6, 7, 8, 9)
SIZES = (0, 1, 2, 3, 4, 7, 8, 15, 16, 31, 32, 63, 64, 126, 127)
GREAT_MODULI = (257, 1001, 65537, 2**30, 2147483629, 2147483646, 2147483647)
FAULT_BASES = ((15, 5), (7, 3), (2**30, 4), (2147483646, 3))
EDGE_NUMBERS = (0, 1, 6, 7, 2147483646, 2147483647, 2147483648, 4294967295)


@dataclass(frozen=True)
class WritingCase:
    """A job, its operation by its number, and how long the output is."""

    operation: int
    modulus: int
    a: tuple
    b: tuple
    c: tuple
    curve: tuple
    output_length: int = jobs.SHORTEST_JOB_OUTPUT


def takes_curve(operation):
    """Whether a job of this operation has a curve."""
    return jobs.OPERATION_NAMES[operation] not in calls.WITHOUT_CURVE


def job_case(operation, family, curve):
    """The case of an operation on a family; the curve only where it takes one."""
    return WritingCase(
        operation,
        family.modulus,
        family.a,
        family.b,
        family.c,
        tuple(curve) if takes_curve(operation) else (),
    )


def random_case(source, operation, modulus, row_count):
    """An accepted case on a random family and curve."""
    family = random_family(source, modulus, row_count)
    return job_case(operation, family, random_curve(source, modulus, family.n))


def run(case):
    """The outcome of the case."""
    output = OUTPUT_BEFORE[: case.output_length]
    return jobs.write_job(
        case.modulus, case.a, case.b, case.c, case.operation, case.curve, output
    )


def other_operations(case):
    """2: the number names no operation."""
    return [replace(case, operation=number) for number in NO_OPERATIONS]


def many_rows(case):
    """5: more than 127 rows; the curve, where the job takes one, longer to match."""
    found = []
    for row_count in (128, 129):
        added = row_count - len(case.a)
        curve = case.curve + (0,) * (added if takes_curve(case.operation) else 0)
        found.append(replace(faults.with_rows_of_ones(case, added), curve=curve))
    return found


def wrong_curves(case):
    """6: the curve is not n long, or not empty for moments or norms."""
    wrong = faults.wrong_curves if takes_curve(case.operation) else faults.unwanted_curves
    return wrong(case)


def short_outputs(case):
    """7: the output is under 8,192 bytes."""
    return [replace(case, output_length=length) for length in SHORT_OUTPUTS]


FAULTS = faults.FAULTS | {
    2: other_operations,
    5: many_rows,
    6: wrong_curves,
    7: short_outputs,
}


def writing_faults(case, number):
    """Cases that differ from this one by one fault with this number."""
    return FAULTS[number](case)


def refusals(operation):
    """The numbers that a job of this operation can be refused with: 12 needs a curve."""
    return (2, 3, 4, 5, 6, 7, 9, 17, 10, 18, 11) + ((12,) if takes_curve(operation) else ())


def figures(operation):
    """The scope paper's families and curves, most rows, and the longest text."""
    for curve in ((3, 0, 1), (1, 3, 2), (6, 6, 6), (3, 0, 7), (3, 0, 4294967295)):
        yield job_case(operation, R, curve)
    yield job_case(operation, P10_FAMILY, (1, 1))
    yield job_case(operation, P12_FAMILY, (1, 1))
    yield job_case(operation, NO_ROWS_7, (6,))
    yield job_case(operation, ones(2, 0), (1,))
    yield job_case(operation, ones(2, 1), (1, 1))
    for modulus in (1, 2, 2147483647, 2147483648):
        yield job_case(operation, ones(modulus, 2), (1, 1, 1))
    for row_count in (127, 128):
        yield job_case(operation, ones(7, row_count), (1,) * (row_count + 1))


def longest(operation):
    """The job with the longest text of this operation."""
    return job_case(operation, greatest_family(2147483647, 127), (2147483646,) * 128)


def lengths(operation):
    """Every length of the output, for a short text and for the longest."""
    for case in (job_case(operation, R, (3, 0, 1)), longest(operation)):
        for length in OUTPUTS:
            yield replace(case, output_length=length)


def sizes(source, operation):
    """Every row count over small moduli, some over great ones."""
    for row_count in range(calls.LARGEST_ROW_COUNT + 1):
        modulus = SMALL_MODULI[row_count % len(SMALL_MODULI)]
        yield random_case(source, operation, modulus, row_count)
    for place, row_count in enumerate(SIZES):
        modulus = GREAT_MODULI[place % len(GREAT_MODULI)]
        yield random_case(source, operation, modulus, row_count)


def digits(operation):
    """Numbers of every count of digits: as moduli, in the rows and in the curve."""
    powers = [10**exponent for exponent in range(10)]
    near = sorted({x for power in powers for x in (power - 1, power, power + 1, 2 * power)})
    for modulus in near:
        if modulus >= 2:
            yield job_case(operation, Family(modulus, (), (), ()), (modulus - 1,))
            yield job_case(operation, ones(modulus, 1), (0, modulus - 1))
    units = tuple(near[1:])
    family = Family(2147483647, units, tuple(reversed(near[:-1])), units)
    yield job_case(operation, family, near)


def with_numbers(operation):
    """Each number at an edge in each place where a number stands, and as a whole curve."""
    case = job_case(operation, R, (3, 0, 1))
    for number in EDGE_NUMBERS:
        yield replace(case, modulus=number)
        yield replace(case, curve=(number,) * 3)
        for name in ("a", "b", "c", "curve"):
            yield from faults.at_three_places(case, name, [number])


def long_lists(operation):
    """Lists far longer than a family."""
    case = job_case(operation, R, (3, 0, 1))
    many = (1,) * 1000
    yield replace(case, modulus=1, a=many, b=many, c=many, curve=many)
    yield replace(case, a=many)
    yield replace(case, c=many)
    yield replace(case, a=many, b=many, c=many, curve=many)
    yield replace(case, curve=many)


def with_faults(source, operation):
    """Every fault alone, and with a random one of each later place.

    Two faults with too many rows are long and come on the first family only.
    """
    numbers = faults.by_place(refusals(operation))
    listed = faults.of_both_reasons(writing_faults)
    for base in FAULT_BASES:
        case = random_case(source, operation, *base)
        for number in numbers:
            yield from listed(case, number)
        for first, later in combinations(numbers, 2):
            if 5 not in (first, later) or base == FAULT_BASES[0]:
                yield from listed(source.choice(listed(case, later)), first)


def with_reasons(source, operation):
    """Zeros and shared factors in a and c, and either beside a fault of every other number."""
    for family, curve, _ in reasons.families(source, reasons.FEWER_BASES):
        yield job_case(operation, family, curve)
    case = random_case(source, operation, *FAULT_BASES[0])
    for pair in faults.pairs_with_a_reason(refusals(operation)):
        yield faults.two_faults(source, case, *pair, writing_faults)


def written_cases():
    """All cases in their order, none of them twice."""
    source = SplitMix64(SEED)
    found = []
    for operation in OPERATIONS:
        found += figures(operation)
        found += lengths(operation)
        found += sizes(source, operation)
        found += digits(operation)
        found += with_numbers(operation)
        found += long_lists(operation)
        found += with_faults(source, operation)
    for operation in OPERATIONS:
        pairs = first_c.fewer_pairs(SplitMix64(SEED + 1))
        found += (job_case(operation, *pair) for pair in pairs)
    for operation in OPERATIONS:
        found += with_reasons(SplitMix64(SEED + 2), operation)
    return list(dict.fromkeys(found))
