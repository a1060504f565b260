"""The scope paper's figures, P1 to P12 and those that are run only.

Worked by hand beside them: a family whose c_1 is zero, by every call, families
with zeros and shared factors, and the factors that the inverse tells.
"""

import calls
import curves
import jobs
from cases import MOMENTS, NORMS, ON_CURVES, Case, family_case, inverse_case, run
from curves import Family

R = Family(7, (1, 2), (0, 3), (1, 5))
NO_ROWS_7 = Family(7, (), (), ())
P10_FAMILY = Family(15, (3,), (0,), (5,))
P12_FAMILY = Family(15, (2,), (1,), (4,))
ZERO_FIRST_C = Family(35, (1, 3), (0, 0), (0, 6))
SHOWN_JOB = b"mod=7\na=1 2\nb=0 3\nc=1 5\nop=expand\nv=3 0 1\n"

PROVED = (
    ("P1", family_case(1, R, (3, 0, 1)), 0, [1, 3, 2]),
    ("P1 tree", family_case(6, R, (3, 0, 1)), 0, [1, 3, 2]),
    ("P2", family_case(2, R, (1, 3, 2)), 0, [1, 3, 4]),
    ("P2 tree", family_case(7, R, (1, 3, 2)), 0, [1, 3, 4]),
    ("P3", family_case(3, R, (1, 3, 2)), 0, [3, 0, 1]),
    ("P3 tree", family_case(8, R, (1, 3, 2)), 0, [3, 0, 1]),
    ("P4", family_case(9, R, ()), 0, [1, 0, 1, 2, 1]),
    ("P5", family_case(4, R, ()), 0, [1, 1, 5]),
    ("P6", family_case(1, Family(2, (), (), ()), (1,)), 0, [1]),
    ("P6 tree", family_case(6, Family(2, (), (), ()), (1,)), 0, [1]),
    ("P7", family_case(1, Family(2, (1,), (1,), (1,)), (1, 1)), 0, [0, 1]),
    ("P7 tree", family_case(6, Family(2, (1,), (1,), (1,)), (1, 1)), 0, [0, 1]),
    ("P8", inverse_case(15, 4), 0, [4]),
    ("P9", inverse_case(15, 6), 13, []),
    ("P10", family_case(1, P10_FAMILY, (1, 1)), 10, [4294967295, 4294967294]),
    ("P10 tree", family_case(6, P10_FAMILY, (1, 1)), 10, [4294967295, 4294967294]),
    ("P11 moments", family_case(9, NO_ROWS_7, ()), 0, [1]),
    ("P11 norms", family_case(4, NO_ROWS_7, ()), 0, [1]),
    ("P12 moments", family_case(9, P12_FAMILY, ()), 0, [8, 11, 13]),
    ("P12 norms", family_case(4, P12_FAMILY, ()), 0, [8, 14]),
)

# The inverse: verdict, output and the factor that is told.
FACTORS = (
    ("P8", inverse_case(15, 4), 0, [4], [1]),
    ("P9", inverse_case(15, 6), 13, [], [3]),
    ("m = 15, of 0", inverse_case(15, 0), 13, [], [15]),
    ("m = 15, of 5", inverse_case(15, 5), 13, [], [5]),
    ("m = 15, of 15", inverse_case(15, 15), 12, [], []),
    ("m = 15, of 18", inverse_case(15, 18), 12, [], []),
    ("m = 1", inverse_case(1, 0), 3, [], []),
    ("m = 12, of 8", inverse_case(12, 8), 13, [], [4]),
    ("m = 2, of 0", inverse_case(2, 0), 13, [], [2]),
    ("m = 2, of 1", inverse_case(2, 1), 0, [1], [1]),
    ("m = 2147483647, of 0", inverse_case(2147483647, 0), 13, [], [2147483647]),
    ("m = 2147483646, of its half", inverse_case(2147483646, 1073741823), 13, [], [1073741823]),
    ("m = 2147483648", inverse_case(2147483648, 0), 3, [], []),
)

# Rows of a family modulo 15, and the verdict of every call on families.
REASONS = (
    ("P10", P10_FAMILY, 10),
    ("P10 with a = 0", Family(15, (0,), (0,), (5,)), 17),
    ("P10 with a = 15", Family(15, (15,), (0,), (5,)), 9),
    ("zero a above a shared one", Family(15, (2, 3, 0), (0, 0, 0), (1, 1, 1)), 10),
    ("shared a above a zero one", Family(15, (2, 0, 3), (0, 0, 0), (1, 1, 1)), 17),
    ("zero c above a shared one", Family(15, (2, 1, 1), (0, 0, 0), (1, 5, 0)), 11),
    ("shared c above a zero one", Family(15, (2, 1, 1), (0, 0, 0), (1, 0, 5)), 18),
    ("zero c_1, shared c_2", Family(15, (2, 1), (0, 0), (0, 5)), 11),
    ("shared c_1, zero c_2", Family(15, (2, 1), (0, 0), (5, 0)), 18),
    ("zero c_1 alone", Family(15, (2, 1), (0, 0), (0, 1)), 0),
    ("zero a_3, shared c_2", Family(15, (2, 1, 0), (0, 0, 0), (1, 5, 1)), 17),
    ("shared a_3, zero c_2", Family(15, (2, 1, 3), (0, 0, 0), (1, 0, 1)), 10),
)

WITH_ZERO_FIRST_C = (
    ("expand", family_case(1, ZERO_FIRST_C, (1, 2, 3)), [19, 2, 9]),
    ("expand tree", family_case(6, ZERO_FIRST_C, (1, 2, 3)), [19, 2, 9]),
    ("adjoint", family_case(2, ZERO_FIRST_C, (1, 2, 3)), [1, 2, 15]),
    ("adjoint tree", family_case(7, ZERO_FIRST_C, (1, 2, 3)), [1, 2, 15]),
    ("decompose", family_case(3, ZERO_FIRST_C, (19, 2, 9)), [1, 2, 3]),
    ("decompose tree", family_case(8, ZERO_FIRST_C, (19, 2, 9)), [1, 2, 3]),
    ("moments", family_case(9, ZERO_FIRST_C, ()), [1, 0, 33, 0, 28]),
    ("norms", family_case(4, ZERO_FIRST_C, ()), [1, 33, 6]),
)


def ones(modulus, row_count):
    """The family whose entries are all 1."""
    return Family(modulus, *((1,) * row_count for _ in range(3)))


def run_only_cases():
    """The run-only figures on lists: name, case, verdict."""
    inner = Case(6, 7, (1,), (1,), (1,), (1, 1), 2, 16383)
    return (
        ("m = 1", family_case(1, Family(1, (), (), ()), (0,)), 3),
        ("m = 1, inverse", inverse_case(1, 0), 3),
        ("m = 2147483647", family_case(1, ones(2147483647, 1), (1, 1)), 0),
        ("m = 2147483647, inverse", inverse_case(2147483647, 2147483646), 0),
        ("m = 2147483648", family_case(1, ones(2147483648, 1), (1, 1)), 3),
        ("m = 2147483648, inverse", inverse_case(2147483648, 1), 3),
        ("127 rows", family_case(6, ones(7, 127), (1,) * 128), 0),
        ("128 rows", family_case(6, ones(7, 128), (1,) * 129), 5),
        ("curve entry 6", family_case(1, R, (6, 6, 6)), 0),
        ("curve entry 7", family_case(1, R, (3, 0, 7)), 12),
        ("working list of 16,383", inner, 8),
    )


def text_of_length(length):
    """A text of the job's form with exactly this many bytes."""
    empty = b"mod=7\na=\nb=\nc=\nop=norms\nv=\n"
    missing = length - len(empty)
    zeros = b"0 " * ((missing - 1) // 2) + (b"0" if missing % 2 else b"10")
    return empty.replace(b"v=", b"v=" + zeros)


def run_only_texts():
    """The run-only figures on texts: name, text, verdict."""
    return (
        ("shown job", SHOWN_JOB, 0),
        ("8,192 bytes", text_of_length(8192), 6),
        ("8,193 bytes", text_of_length(8193), 1),
        ("4294967295 in v", SHOWN_JOB.replace(b"3 0 1", b"3 0 4294967295"), 12),
        ("4294967296 in v", SHOWN_JOB.replace(b"3 0 1", b"3 0 4294967296"), 2),
        ("no last byte 10", SHOWN_JOB[:-1], 2),
    )


def check(tally, _source):
    """All figures; they are the same for every seed."""
    for name, case, verdict, output in PROVED:
        outcome = run(case)
        tally.equal("figures", (name, case), (verdict, output), (outcome.verdict, outcome.output))
    for name, case, output in WITH_ZERO_FIRST_C:
        outcome = run(case)
        tally.equal("figures", (name, case), (0, output), (outcome.verdict, outcome.output))
    for name, case, *expected in FACTORS:
        outcome = run(case)
        got = [outcome.verdict, outcome.output, outcome.factor]
        tally.equal("figures", (name, case), expected, got)
    for name, family, verdict in REASONS:
        for call in (*ON_CURVES, NORMS, MOMENTS):
            case = family_case(call, family, (1,) * family.n)
            outcome = run(case)
            tally.equal("figures", (name, case), (verdict, None), (outcome.verdict, outcome.factor))
    totals = curves.product_law_totals(ZERO_FIRST_C, (1, 2, 3), (4, 5, 6))
    tally.equal("figures", ("product law", ZERO_FIRST_C), (22, 22), totals)
    for name, case, verdict in run_only_cases():
        tally.equal("figures", (name, case), verdict, run(case).verdict)
    for length in (8191, 8192, 8193):
        tally.equal("figures", "length of a made text", length, len(text_of_length(length)))
    for name, text, verdict in run_only_texts():
        outcome = jobs.text_call(text, bytes(4096), [0] * calls.WORKING_LENGTH)
        tally.equal("figures", (name, text), verdict, outcome.verdict)
    tally.equal(
        "figures", SHOWN_JOB, b"op=expand\nout=1 3 2\n", jobs.program_answer(SHOWN_JOB)
    )
    tally.equal(
        "figures", SHOWN_JOB[:-1], b"refused=2\n", jobs.program_answer(SHOWN_JOB[:-1])
    )
