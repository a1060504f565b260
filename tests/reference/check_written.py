"""Jobs that are written: the figures, the refusals in their order, and the texts.

The expected number is known by how a case was spoiled, and the expected text
is stated or made by another way. A text that was written says to both readers
exactly what it was written from, and the text call carries it out.
"""

from dataclasses import replace

import calls
import cases
import check_texts
import jobs
import reasons
import second_ways
from check_figures import (
    NO_ROWS_7,
    P10_FAMILY,
    P12_FAMILY,
    SHOWN_JOB,
    ZERO_FIRST_C,
    R,
    ones,
)
from curves import Family
from families import MODULI, SIZES, random_curve, random_family_any_first_c
from faults import pairs_of_places
from written_cases import (
    OPERATIONS,
    job_case,
    longest,
    refusals,
    run,
    takes_curve,
    writing_faults,
)

EXPAND, ADJOINT, DECOMPOSE, MOMENTS, NORMS = OPERATIONS
LONGEST_WRITTEN = 5635
BASES = ((15, 4), (2147483646, 3))

FIGURES = (
    ("P1", job_case(EXPAND, R, (3, 0, 1)), SHOWN_JOB),
    ("P2", job_case(ADJOINT, R, (1, 3, 2)), b"mod=7\na=1 2\nb=0 3\nc=1 5\nop=adjoint\nv=1 3 2\n"),
    (
        "P3",
        job_case(DECOMPOSE, R, (1, 3, 2)),
        b"mod=7\na=1 2\nb=0 3\nc=1 5\nop=decompose\nv=1 3 2\n",
    ),
    ("P4", job_case(MOMENTS, R, ()), b"mod=7\na=1 2\nb=0 3\nc=1 5\nop=moments\nv=\n"),
    ("P5", job_case(NORMS, R, ()), b"mod=7\na=1 2\nb=0 3\nc=1 5\nop=norms\nv=\n"),
    ("P6", job_case(EXPAND, ones(2, 0), (1,)), b"mod=2\na=\nb=\nc=\nop=expand\nv=1\n"),
    ("P7", job_case(EXPAND, ones(2, 1), (1, 1)), b"mod=2\na=1\nb=1\nc=1\nop=expand\nv=1 1\n"),
    ("P11 moments", job_case(MOMENTS, NO_ROWS_7, ()), b"mod=7\na=\nb=\nc=\nop=moments\nv=\n"),
    ("P11 norms", job_case(NORMS, NO_ROWS_7, ()), b"mod=7\na=\nb=\nc=\nop=norms\nv=\n"),
    ("P12 moments", job_case(MOMENTS, P12_FAMILY, ()), b"mod=15\na=2\nb=1\nc=4\nop=moments\nv=\n"),
    ("P12 norms", job_case(NORMS, P12_FAMILY, ()), b"mod=15\na=2\nb=1\nc=4\nop=norms\nv=\n"),
    (
        "c_1 = 0",
        job_case(DECOMPOSE, ZERO_FIRST_C, (19, 2, 9)),
        b"mod=35\na=1 3\nb=0 0\nc=0 6\nop=decompose\nv=19 2 9\n",
    ),
)


def run_only(operation):
    """P10 and the figures that are run only, for an operation: name, case, verdict."""
    case = job_case(operation, R, (3, 0, 1))
    found = (
        ("P10", job_case(operation, P10_FAMILY, (1, 1)), 10),
        ("P10 with a = 0", job_case(operation, replace(P10_FAMILY, a=(0,)), (1, 1)), 17),
        ("m = 1", job_case(operation, ones(1, 0), (0,)), 3),
        ("m = 2147483647", job_case(operation, ones(2147483647, 1), (1, 1)), 0),
        ("m = 2147483648", job_case(operation, ones(2147483648, 1), (1, 1)), 3),
        ("127 rows", job_case(operation, ones(7, 127), (1,) * 128), 0),
        ("128 rows", job_case(operation, ones(7, 128), (1,) * 129), 5),
        ("8,191 bytes", replace(case, output_length=8191), 7),
        ("8,192 bytes", replace(case, output_length=8192), 0),
        ("operation 5", replace(case, operation=5), 2),
    )
    if not takes_curve(operation):
        return found + (("a curve", replace(case, curve=(3, 0, 1)), 6),)
    return found + (
        ("curve entry 6", replace(case, curve=(6, 6, 6)), 0),
        ("curve entry 7", replace(case, curve=(3, 0, 7)), 12),
        ("4294967295 in v", replace(case, curve=(3, 0, 4294967295)), 12),
        ("no curve", replace(case, curve=()), 6),
    )


def said(case):
    """What the text of a case has to say."""
    name = jobs.OPERATION_NAMES[case.operation]
    return case.modulus, case.a, case.b, case.c, name, case.curve


def tree_case(case):
    """The call of the tree way, or of the norms, that does a case's job."""
    call_of = {name: call for call, name in check_texts.OPERATION_OF.items()}
    family = Family(case.modulus, case.a, case.b, case.c)
    return cases.family_case(call_of[jobs.OPERATION_NAMES[case.operation]], family, case.curve)


def after(case, text):
    """The outcome of a case whose job is written as this text."""
    output = check_texts.OUTPUT_BEFORE[: case.output_length]
    return jobs.TextOutcome(0, len(text), text + output[len(text) :], None)


def accepted_case(source, operation, modulus, row_count):
    """An accepted case on a random family, with any c_1, and a random curve."""
    family = random_family_any_first_c(source, modulus, row_count)
    return job_case(operation, family, random_curve(source, modulus, family.n))


def check_refused(tally, kind, case, verdict):
    """A refused case: its number, no length, and the output as it was."""
    output = check_texts.OUTPUT_BEFORE[: case.output_length]
    tally.equal(kind, case, jobs.TextOutcome(verdict, 0, output, None), run(case))


def check_accepted(tally, case):
    """A case whose job is written: the text, what it says, and that it is carried out."""
    outcome = run(case)
    text = outcome.output[: outcome.length]
    right = second_ways.written_by_template(*said(case))
    tally.equal("jobs written", case, after(case, right), outcome)
    tally.equal("jobs written", case, True, len(text) <= LONGEST_WRITTEN)
    tally.equal("jobs read back", text, jobs.Job(*said(case)), jobs.read_job(text))
    tally.equal("jobs read back", text, said(case), second_ways.read_by_pattern(text))
    answer = check_texts.answer_text(tree_case(case))
    tally.equal("jobs carried out", text, answer, jobs.program_answer(text))


def check_figures(tally):
    """The texts of the figures, those that are run only, and the longest text."""
    for name, case, text in FIGURES:
        tally.equal("jobs written", (name, case), after(case, text), run(case))
    for operation in OPERATIONS:
        for name, case, verdict in run_only(operation):
            tally.equal("jobs written", (name, case), verdict, run(case).verdict)
        for length in (8192, 8193, 9000):
            check_accepted(tally, replace(longest(operation), output_length=length))
    lengths = {operation: run(longest(operation)).length for operation in OPERATIONS}
    tally.equal("jobs written", "the longest text", LONGEST_WRITTEN, lengths[DECOMPOSE])
    tally.equal("jobs written", "the longest text", LONGEST_WRITTEN, max(lengths.values()))


def check_refusals(tally, source, operation):
    """Every fault alone and every two; a reader of the job refuses it with the same number."""
    kind = "writing refusals"
    numbers = refusals(operation)
    for base in BASES:
        case = accepted_case(source, operation, *base)
        for number in numbers:
            for spoiled in writing_faults(case, number):
                check_refused(tally, kind, spoiled, number)
                if number not in (2, 7):
                    text = second_ways.written_by_template(*said(spoiled))
                    refused = b"refused=%d\n" % number
                    tally.equal(kind, text, refused, jobs.program_answer(text))
        for first, later in pairs_of_places(numbers):
            for one in writing_faults(case, later):
                for both in writing_faults(one, first):
                    check_refused(tally, kind, both, first)


def check_reasons(tally, source, operation):
    """Zeros and shared factors in several rows; a reader of the job finds the same number."""
    kind = "writing refusals"
    for family, curve, verdict in reasons.families(source, reasons.FEWER_BASES):
        case = job_case(operation, family, curve)
        if verdict == 0 or (verdict == 12 and not takes_curve(operation)):
            check_accepted(tally, case)
        else:
            check_refused(tally, kind, case, verdict)
            text = second_ways.written_by_template(*said(case))
            tally.equal(kind, text, b"refused=%d\n" % verdict, jobs.program_answer(text))


def verdict_by(*numbers, conditions=jobs.WRITING_CONDITIONS):
    """The verdict, as a function of a case, of a writer with these tests in this order."""

    def verdict(case):
        name, output = jobs.OPERATION_NAMES[case.operation], bytes(case.output_length)
        lent = calls.Lent(name, case.modulus, case.a, case.b, case.c, case.curve, output, None)
        return calls.first_refusal(lent, numbers, conditions)

    return verdict


def row_by_row(case):
    """The verdict of a writer that ends its tests of a row before it looks at the next."""
    verdict = verdict_by(9, 17, 10, 18, 11)
    first_rows = (
        replace(case, a=case.a[:count], b=case.b[:count], c=case.c[:count])
        for count in range(1, len(case.a) + 1)
    )
    return next(filter(None, map(verdict, first_rows)), 0)


def looking_at_row_1(case):
    """The verdict of a writer whose 18 and 11 look at the c of every row."""
    every_c = {
        11: lambda lent: calls.some_without_inverse(lent.c, lent.modulus),
        18: lambda lent: calls.zero_is_lowest(lent.c, lent.modulus),
    }
    return verdict_by(*jobs.WRITING_TESTS, conditions=jobs.WRITING_CONDITIONS | every_c)(case)


def looking_for_zeros(case):
    """The verdict of a writer whose 17 and 18 are any zero, in whatever row."""
    zeros = {17: lambda lent: 0 in lent.a, 18: lambda lent: 0 in lent.c[1:]}
    return verdict_by(*jobs.WRITING_TESTS, conditions=jobs.WRITING_CONDITIONS | zeros)(case)


def check_wrong_writers(tally):
    """Writers that test too little or in another order, each with a job that it gets wrong."""
    job = job_case(EXPAND, R, (3, 0, 1))
    short = replace(job, output_length=8191)
    reaching = replace(job, a=(1, 7), curve=(3, 0, 7))
    three_rows = job_case(EXPAND, Family(15, (1, 2, 0), (0, 3, 0), (0, 5, 4)), (3, 0, 1, 0))
    for case, right, wrong in (
        (short, 7, verdict_by(3, 4, 5, 6, 9, 17, 10, 18, 11, 12)),
        (short, 7, verdict_by(*jobs.WRITING_TESTS, conditions=jobs.TEXT_CONDITIONS)),
        (replace(job, operation=MOMENTS), 6, verdict_by(3, 4, 5, 7, 9, 17, 10, 18, 11)),
        (replace(short, a=(1, 0)), 7, verdict_by(3, 4, 5, 6, 9, 17, 10, 18, 11, 7, 12)),
        (reaching, 9, verdict_by(3, 4, 5, 6, 7, 12, 9, 17, 10, 18, 11)),
        (replace(job, a=(1, 0), curve=(3, 0, 7)), 17, verdict_by(3, 4, 5, 6, 7, 9, 12, 17, 10)),
        (replace(job, a=(1, 0)), 17, verdict_by(3, 4, 5, 6, 7, 9, 10, 11, 12, 17, 18)),
        (replace(job, c=(1, 0)), 18, verdict_by(3, 4, 5, 6, 7, 9, 10, 11, 12, 17, 18)),
        (replace(job, a=(0, 7)), 9, row_by_row),
        (three_rows, 17, row_by_row),
        (three_rows, 17, verdict_by(9, 18, 11, 17, 10)),
        (replace(three_rows, a=(1, 3, 0)), 10, looking_for_zeros),
        (replace(three_rows, a=(1, 2, 4), c=(1, 5, 0)), 11, looking_for_zeros),
        (replace(three_rows, a=(1, 2, 4)), 11, looking_at_row_1),
        (job_case(EXPAND, ZERO_FIRST_C, (1, 2, 3)), 0, looking_at_row_1),
    ):
        tally.equal("wrong writers", case, right, run(case).verdict)
        tally.differ("wrong writers", case, right, wrong(case))


def check(tally, source):
    """Figures, refusals, and texts of every size."""
    check_figures(tally)
    check_wrong_writers(tally)
    for operation in OPERATIONS:
        check_refusals(tally, source, operation)
        check_reasons(tally, source, operation)
        for row_count in SIZES:
            case = accepted_case(source, operation, source.choice(MODULI), row_count)
            check_accepted(tally, case)
