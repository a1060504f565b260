"""Job texts: damaged ones, refused ones, answers, and a second reader.

Damaged texts are made from a job that is accepted. Every text that is one
byte away from it is read in two ways, which have to agree.
"""

from dataclasses import replace

import calls
import cases
import faults
import jobs
import reasons
import second_ways
from check_figures import SHOWN_JOB, text_of_length
from families import MODULI, SIZES, random_curve, random_family_any_first_c

OPERATION_OF = {6: "expand", 7: "adjoint", 8: "decompose", 9: "moments", 4: "norms"}
TEXT_REFUSALS = (3, 4, 5, 6, 7, 8, 9, 17, 10, 18, 11, 12)
OUTPUT_BEFORE = bytes(255 - place % 251 for place in range(9000))
INSERTED = b"\x00\t\n\r =+-,.0179abcmv\x7f\x80\xff"

DAMAGED = (
    ("empty file", b""),
    ("one byte 10", b"\n"),
    ("CRLF", SHOWN_JOB.replace(b"\n", b"\r\n")),
    ("CRLF on the last line", SHOWN_JOB[:-1] + b"\r\n"),
    ("CR alone", SHOWN_JOB.replace(b"\n", b"\r")),
    ("tab between numbers", SHOWN_JOB.replace(b"1 2", b"1\t2")),
    ("leading zero in mod", SHOWN_JOB.replace(b"mod=7", b"mod=07")),
    ("leading zero in a", SHOWN_JOB.replace(b"a=1", b"a=01")),
    ("zero twice", SHOWN_JOB.replace(b"b=0", b"b=00")),
    ("sign", SHOWN_JOB.replace(b"a=1", b"a=+1")),
    ("minus", SHOWN_JOB.replace(b"b=0", b"b=-0")),
    ("underscore", SHOWN_JOB.replace(b"a=1 2", b"a=1_2")),
    ("hexadecimal", SHOWN_JOB.replace(b"mod=7", b"mod=0x7")),
    ("point", SHOWN_JOB.replace(b"mod=7", b"mod=7.0")),
    ("doubled space", SHOWN_JOB.replace(b"1 2", b"1  2")),
    ("trailing space", SHOWN_JOB.replace(b"1 2", b"1 2 ")),
    ("leading space", SHOWN_JOB.replace(b"a=1", b"a= 1")),
    ("space in an empty list", SHOWN_JOB.replace(b"v=3 0 1", b"v= ")),
    ("space before a key", SHOWN_JOB.replace(b"b=", b" b=")),
    ("space before =", SHOWN_JOB.replace(b"b=", b"b =")),
    ("missing = in a", SHOWN_JOB.replace(b"a=1", b"a1")),
    ("missing = in op", SHOWN_JOB.replace(b"op=", b"op")),
    ("doubled =", SHOWN_JOB.replace(b"a=", b"a==")),
    ("capital key", SHOWN_JOB.replace(b"mod", b"Mod")),
    ("capital operation", SHOWN_JOB.replace(b"expand", b"Expand")),
    ("longer operation", SHOWN_JOB.replace(b"expand", b"expands")),
    ("shorter operation", SHOWN_JOB.replace(b"expand", b"expan")),
    ("no operation", SHOWN_JOB.replace(b"expand", b"")),
    ("inverse is no operation of a text", SHOWN_JOB.replace(b"expand", b"inverse")),
    ("space after the operation", SHOWN_JOB.replace(b"expand", b"expand ")),
    ("no modulus", SHOWN_JOB.replace(b"mod=7", b"mod=")),
    ("two moduli", SHOWN_JOB.replace(b"mod=7", b"mod=7 7")),
    ("a and b exchanged", SHOWN_JOB.replace(b"a=1 2\nb=0 3\n", b"b=0 3\na=1 2\n")),
    ("op and v exchanged", SHOWN_JOB.replace(b"op=expand\nv=3 0 1\n", b"v=3 0 1\nop=expand\n")),
    ("a line twice", SHOWN_JOB.replace(b"b=0 3\n", b"b=0 3\nb=0 3\n")),
    ("a line missing", SHOWN_JOB.replace(b"b=0 3\n", b"")),
    ("an extra line", SHOWN_JOB + b"w=1\n"),
    ("an empty line at the end", SHOWN_JOB + b"\n"),
    ("an empty line at the start", b"\n" + SHOWN_JOB),
    ("an empty line inside", SHOWN_JOB.replace(b"op", b"\nop")),
    ("bytes after the last line", SHOWN_JOB + b"v"),
    ("no last byte 10", SHOWN_JOB[:-1]),
    ("two jobs", SHOWN_JOB + SHOWN_JOB),
    ("NUL at the end", SHOWN_JOB + b"\x00"),
    ("NUL for a space", SHOWN_JOB.replace(b"1 2", b"1\x002")),
    ("byte 128", SHOWN_JOB.replace(b"1 2", b"1 \x80")),
    ("byte 255", SHOWN_JOB.replace(b"1 2", b"1 \xff")),
    ("wide space", SHOWN_JOB.replace(b"1 2", b"1\xc2\xa02")),
    ("byte order mark", b"\xef\xbb\xbf" + SHOWN_JOB),
    ("other digits", SHOWN_JOB.replace(b"mod=7", "mod=\u0667".encode())),
    ("superscript digit", SHOWN_JOB.replace(b"mod=7", b"mod=\xb2")),
    ("a thousand digits", SHOWN_JOB.replace(b"mod=7", b"mod=" + b"7" * 1000)),
    ("eight thousand digits", SHOWN_JOB.replace(b"v=3", b"v=" + b"7" * 8000)),
    ("a thousand zeros", SHOWN_JOB.replace(b"mod=7", b"mod=" + b"0" * 1000)),
    ("4294967296 in mod", SHOWN_JOB.replace(b"mod=7", b"mod=4294967296")),
    ("4294967296 in c", SHOWN_JOB.replace(b"c=1", b"c=4294967296")),
    ("ten nines", SHOWN_JOB.replace(b"c=1", b"c=9999999999")),
    ("2^64 + 1", SHOWN_JOB.replace(b"c=1", b"c=18446744073709551617")),
)


def long_list_texts():
    """Texts of the form whose lists are far too long: text and verdict."""
    zeros = b"0" + b" 0" * 999
    return (
        (b"mod=1\na=%s\nb=\nc=\nop=expand\nv=\n" % zeros, 3),
        (b"mod=7\na=%s\nb=\nc=\nop=expand\nv=\n" % zeros, 4),
        (b"mod=7\na=\nb=\nc=%s\nop=expand\nv=\n" % zeros, 4),
        (b"mod=7\na=%s\nb=%s\nc=%s\nop=expand\nv=\n" % (zeros, zeros, zeros), 5),
        (b"mod=7\na=1\nb=1\nc=1\nop=expand\nv=%s\n" % zeros, 6),
        (b"mod=7\na=1\nb=1\nc=1\nop=moments\nv=%s\n" % zeros, 6),
        (b"mod=0\na=\nb=\nc=\nop=norms\nv=\n", 3),
        (b"mod=4294967295\na=\nb=\nc=\nop=norms\nv=4294967295\n", 3),
        (b"mod=7\na=\nb=\nc=\nop=norms\nv=0\n", 6),
        (b"mod=7\na=\nb=\nc=\nop=moments\nv=7\n", 6),
    )


def refusals(call):
    """The numbers from 3 on that a text can be refused with: 12 needs a curve."""
    curveless = OPERATION_OF[call] in calls.WITHOUT_CURVE
    return [number for number in TEXT_REFUSALS if number != 12 or not curveless]


def job_text(case):
    """The text of a case's job."""
    return jobs.text_of(
        jobs.Job(case.modulus, case.a, case.b, case.c, OPERATION_OF[case.call], case.curve)
    )


def text_faults(case, number):
    """Faults of a text case.

    Its output is counted in bytes and may be longer than asked for, and it is
    lent a curve and a working list for every operation.
    """
    if number == 7:
        return [replace(case, output_length=length) for length in (4095, 0)]
    if number == 6 and OPERATION_OF[case.call] in calls.WITHOUT_CURVE:
        return faults.unwanted_curves(case)
    if number == 5:
        return [
            replace(spoiled, output_length=case.output_length)
            for spoiled in faults.faults(case, 5)
        ]
    return faults.faults(case, number)


def check_refused(tally, kind, text, output_length, working_length, verdict):
    """A refused text: its number, no length, both lists as they were."""
    output = OUTPUT_BEFORE[:output_length]
    working = cases.working_before(working_length)
    tally.equal(
        kind,
        (text, output_length, working_length),
        jobs.TextOutcome(verdict, 0, output, working),
        jobs.text_call(text, output, working),
    )


def answer_text(case):
    """What the text call has to answer to a case's job: the tree call's list."""
    return b"op=%s\nout=%s\n" % (
        OPERATION_OF[case.call].encode(),
        b" ".join(b"%d" % number for number in cases.run(case).output),
    )


def check_answer(tally, case):
    """An accepted text: the tree call's list in the answer, the rest unchanged."""
    text, answer = job_text(case), answer_text(case)
    for output_length, working_length in ((4096, 16384), (5000, 16390)):
        output = OUTPUT_BEFORE[:output_length]
        working = cases.working_before(working_length)
        expected = jobs.TextOutcome(
            0,
            len(answer),
            answer + output[len(answer) :],
            [0] * 16384 + working[16384:],
        )
        got = jobs.text_call(text, output, working)
        tally.equal("text answers", (text, output_length), expected, got)


def check_text_refusals(tally, source, call):
    """Every number from 3 on by text, alone and in pairs."""
    numbers = refusals(call)
    for modulus, row_count in ((15, 4), (2147483646, 3)):
        family = random_family_any_first_c(source, modulus, row_count)
        curve = random_curve(source, modulus, row_count + 1)
        case = replace(
            cases.family_case(call, family, curve), output_length=4096, working_length=16384
        )
        for number in numbers:
            for spoiled in text_faults(case, number):
                lengths = (spoiled.output_length, spoiled.working_length)
                check_refused(tally, "text refusals", job_text(spoiled), *lengths, number)
        for first, later in faults.pairs_of_places(numbers):
            spoiled = faults.two_faults(source, case, first, later, text_faults)
            lengths = (spoiled.output_length, spoiled.working_length)
            check_refused(tally, "text refusals", job_text(spoiled), *lengths, first)


def check_reasons(tally, source, call):
    """Zeros and shared factors in several rows, by text."""
    for family, curve, verdict in reasons.families(source, reasons.FEWER_BASES):
        case = cases.family_case(call, family, curve)
        if verdict == 0 or (verdict == 12 and 12 not in refusals(call)):
            check_answer(tally, case)
        else:
            check_refused(tally, "text refusals", job_text(case), 4096, 16384, verdict)


def near_texts(text):
    """All texts one byte away: one byte left out, replaced or put in."""
    for place in range(len(text)):
        yield text[:place] + text[place + 1 :]
        for byte in range(256):
            yield text[:place] + bytes([byte]) + text[place + 1 :]
    for place in range(len(text) + 1):
        for byte in INSERTED:
            yield text[:place] + bytes([byte]) + text[place:]


def read_or_none(text):
    """The job that read_job finds, or None."""
    try:
        return jobs.read_job(text)
    except jobs.WrongForm:
        return None


def check_reading(tally, text):
    """Both readers find the same job, or both none."""
    values = second_ways.read_by_pattern(text)
    expected = None if values is None else jobs.Job(*values)
    tally.equal("texts read", text, expected, read_or_none(text))


def check_lengths(tally):
    """Number 1 goes before all others, and 2 before those after it."""
    for text, output_length, working_length, verdict in (
        (text_of_length(8193), 4096, 16384, 1),
        (text_of_length(8193), 0, 0, 1),
        (b"\x00" * 8193, 4096, 16384, 1),
        (b"\x00" * 8192, 4096, 16384, 2),
        (b"\x00" * 100000, 0, 0, 1),
        (SHOWN_JOB + b"\n" * (8193 - len(SHOWN_JOB)), 4096, 16384, 1),
        (SHOWN_JOB + b"\n" * (8192 - len(SHOWN_JOB)), 4096, 16384, 2),
        (SHOWN_JOB[:-1], 0, 0, 2),
        (SHOWN_JOB[:-1].replace(b"mod=7", b"mod=1"), 4096, 16384, 2),
    ):
        check_refused(tally, "text refusals", text, output_length, working_length, verdict)


def check(tally, source):
    """Damage, refusals, answers and the two readers."""
    for name, text in DAMAGED:
        tally.differ("damaged texts", name, SHOWN_JOB, text)
        check_refused(tally, "damaged texts", text, 4096, 16384, 2)
    check_lengths(tally)
    for text, verdict in long_list_texts():
        check_refused(tally, "text refusals", text, 4096, 16384, verdict)
    for call in OPERATION_OF:
        check_text_refusals(tally, source, call)
        check_reasons(tally, source, call)
        for row_count in SIZES:
            modulus = source.choice(MODULI)
            family = random_family_any_first_c(source, modulus, row_count)
            case = cases.family_case(call, family, random_curve(source, modulus, row_count + 1))
            check_answer(tally, case)
            text = job_text(case)
            check_reading(tally, text)
            tally.equal("texts read", text, text, jobs.text_of(jobs.read_job(text)))
    for text in near_texts(SHOWN_JOB):
        check_reading(tally, text)
