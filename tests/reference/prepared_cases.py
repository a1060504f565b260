"""Sequences of steps with one record, for the vectors; the same in every run.

A step is a name and what it is given: numbers, and lists as tuples. The record
that a step leaves is the one that the next is lent. A sequence begins with

    record M ROWS A B C A_INVERSES C_INVERSES NORMS   the record is this one; the
                      lists end with their last number that is not zero
    empty M           the record of the family without rows

and goes on with

    set PLACE NUMBER  the number at this place of the record's words is this one
    append A B C, drop_last, replace ROW A B C        a change
    an operation, by the call's name, with its curve, the length of its output
    and that of its working list, each where it is lent one
"""

from dataclasses import replace
from itertools import combinations, product

import cases
import curves
import faults
import prepared
import reasons
from check_figures import NO_ROWS_7, P10_FAMILY, P12_FAMILY, ZERO_FIRST_C, R, ones
from curves import Family
from families import (
    first_cs,
    greatest_family,
    numbers_without_inverse,
    random_curve,
    random_family,
    random_family_any_first_c,
    random_unit,
)
from faults import LARGEST_WORD
from prepared import FIRST_PLACES, LISTS, MODULUS, ROWS, record_of
from splitmix import SplitMix64

MADE = {
    "record": lambda _, *given: prepared.filled(*given),
    "set": prepared.with_word,
}
CHANGES = {
    "empty": lambda _, modulus: prepared.empty(modulus),
    "append": prepared.append,
    "drop_last": prepared.drop_last,
    "replace": prepared.replace,
}
OPERATIONS = tuple(call for call in cases.CALL_NAMES if call != cases.INVERSE)

SEED = 20240317
OUTSIDE_MODULI = (0, 1, 2147483648, LARGEST_WORD)
SHORT_MODULI = (2, 3, 4, 7, 15, 257, 1001, 2**30, 2147483646, 2147483647)
FIRST_C_MODULI = (2, 7, 15, 35, 2147483647)
ROW_BASES = ((7, 3), (15, 4), (2147483646, 3))
LENGTH_BASES = ((2, 0), (7, 1), (15, 3), (3, 127))
LONGEST_GREAT = ((2147483647, 126), (2147483646, 127))
WALKS, WALK_STEPS = 60, 25
REASON_MODULI = (2, 4, 7, 15, 2147483646, 2147483647)


def call_refusals(call):
    """The numbers besides 14 that an operation on a record can be refused with."""
    return [number for number in cases.REFUSALS[call] if number in (6, 7, 8, 12)]


def operation_name(call):
    """The name of an operation as a step has it."""
    return cases.CALL_NAMES[call].replace(" ", "_")


def operation_step(case):
    """The operation of a case as a step; the case's family is not told."""
    curve = (case.curve,) if case.call in cases.ON_CURVES else ()
    working = (case.working_length,) if case.call in cases.WITH_WORKING else ()
    return (operation_name(case.call), *curve, case.output_length, *working)


def run_operation(record, name, *given):
    """The outcome of an operation's step."""
    curve = given[:1] if isinstance(given[0], tuple) else ()
    output, *working = given[len(curve) :]
    lent = (*curve, cases.output_before(output), *map(cases.working_before, working))
    return getattr(prepared, name)(record, *lent)


def operations(source, family):
    """Every operation on a family that is accepted, with a random curve."""
    curve = random_curve(source, family.modulus, family.n)
    return [operation_step(cases.family_case(call, family, curve)) for call in OPERATIONS]


def rows_of(family):
    """The rows without the closing row."""
    return list(zip(family.a, family.b, family.c))


def grown(family):
    """The rows appended to the empty family one after the other."""
    return [("empty", family.modulus), *(("append", *row) for row in rows_of(family))]


def trimmed(numbers):
    """The numbers up to the last that is not zero."""
    length = max((place for place, number in enumerate(numbers, 1) if number), default=0)
    return tuple(numbers[:length])


def loaded(record):
    """The step that begins with this record."""
    return ("record", record.modulus, record.rows, *map(trimmed, record.lists))


def random_row(source, modulus):
    """A row that is taken anywhere."""
    return (random_unit(source, modulus), source.below(modulus), random_unit(source, modulus))


def some_rows(family):
    """The first, a middle and the last row, counted from 1."""
    count = len(family.a)
    return sorted({1, (count + 1) // 2, count}) if count else []


def replaced_and_back(source, family, row):
    """A row replaced by a random one, which is used, and put back."""
    old = rows_of(family)[row - 1]
    new = random_row(source, family.modulus)
    use = source.choice(operations(source, family))
    return [("replace", row, *new), use, ("replace", row, *old)]


def worked(source, family):
    """Every operation, then some rows replaced and put back."""
    steps = operations(source, family)
    for row in some_rows(family):
        steps += replaced_and_back(source, family, row)
    return steps


def rows_of_every_kind(source, modulus):
    """Rows whose a and c each have an inverse, have none, or reach m, and b is below m or not."""
    without = numbers_without_inverse(modulus)
    reaching = (modulus, LARGEST_WORD)
    units = [
        (random_unit(source, modulus), source.choice(without), source.choice(reaching))
        for _ in range(2)
    ]
    return list(product(units[0], (source.below(modulus), modulus), units[1]))


def absent_rows(rows):
    """Numbers of rows that a family of so many does not have."""
    return (0, rows + 1, 128, LARGEST_WORD)


def changes(source, family):
    """Every change of a record, with a random row; the last is replaced."""
    row = random_row(source, family.modulus)
    return [("append", *row), ("drop_last",), ("replace", max(len(family.a), 1), *row)]


def any_call(source, family):
    """One step of every call, none with a fault of its own if there are rows."""
    return changes(source, family) + operations(source, family)


def places_of_lists(rows):
    """In each list the first place, the last used, the first unused and the last."""
    for name, length in LISTS.items():
        used = rows + (name == "norms")
        places = {0, used - 1, used, length - 1}
        yield from (FIRST_PLACES[name] + place for place in sorted(places) if 0 <= place < length)


def other_numbers(record, place):
    """Numbers to put at a place: beside its own, past m, and at the edges."""
    number, modulus = record.words[place], record.modulus
    near = ((number + 1) % 2**32, (number - 1) % 2**32, (number + modulus) % 2**32)
    found = dict.fromkeys((*near, 0, 1, modulus - 1, modulus, LARGEST_WORD))
    return [other for other in found if other != number]


def used_places(rows):
    """The places that a family of so many rows uses, and of a long one those at the edges."""
    lists = FIRST_PLACES.items() if rows < 10 else ()
    used = {first + i for name, first in lists for i in range(rows + (name == "norms"))}
    return {MODULUS, ROWS, *used, *places_of_lists(rows)}


def damage(record, place, numbers, steps=()):
    """Each number at the place, followed by the steps, and then what was there."""
    for number in numbers:
        yield from (("set", place, number), *steps)
    yield ("set", place, record.words[place])


def figures(source):
    """The scope paper's families, and its P10, whose row is refused."""
    for family in (R, NO_ROWS_7, ones(2, 0), ones(2, 1), P12_FAMILY, ZERO_FIRST_C):
        yield grown(family) + operations(source, family)
    for curve in ((3, 0, 1), (1, 3, 2)):
        steps = (operation_step(cases.family_case(call, R, curve)) for call in OPERATIONS)
        yield [loaded(record_of(R)), *steps]
    yield grown(P10_FAMILY)


def empties(source):
    """The empty family of every kind of modulus, and every call on what is handed out."""
    for modulus in (*OUTSIDE_MODULI, *SHORT_MODULI):
        steps = [("drop_last",)]
        steps += [("replace", row, 1, 1, 1) for row in (0, 1, LARGEST_WORD)]
        steps += operations(source, Family(max(modulus, 2), (), (), ()))
        yield [("empty", modulus), *steps, ("append", 1, 0, 0), ("drop_last",), ("drop_last",)]


def short_families(source):
    """Families that grow, are used, changed row by row and shrink to nothing."""
    for modulus in SHORT_MODULI:
        for rows in (1, 2, 5):
            family = random_family_any_first_c(source, modulus, rows)
            yield [*grown(family), *worked(source, family), *[("drop_last",)] * (rows + 1)]


def long_families(source):
    """Families that grow to 33 rows and shrink, that grow to 127 and one more, and great numbers."""
    family = random_family_any_first_c(source, 15, 33)
    yield [*grown(family), *worked(source, family), *[("drop_last",)] * 34]
    family = random_family_any_first_c(source, 2, 127)
    yield [*grown(family), ("append", 1, 1, 1), *worked(source, family), ("drop_last",)]
    for modulus, rows in LONGEST_GREAT:
        family = random_family_any_first_c(source, modulus, rows)
        steps = [loaded(record_of(family)), *worked(source, family)]
        yield steps + [("append", *random_row(source, modulus))] * 2 + [("drop_last",)]
    greatest = greatest_family(2147483647, 127)
    yield [loaded(record_of(greatest)), *operations(source, greatest), ("drop_last",)]


def first_cs_of_every_kind(source):
    """c_1 of every kind, appended and replaced; the same number as c_2 has to have an inverse."""
    for modulus in FIRST_C_MODULI:
        a, b, _ = random_row(source, modulus)
        numbers = (*first_cs(source, modulus), modulus, LARGEST_WORD)
        for number in numbers:
            yield [("empty", modulus), ("append", a, b, number), ("append", a, b, number)]
        family = random_family(source, modulus, 2)
        steps = [("replace", row, a, b, number) for number in numbers for row in (1, 2)]
        yield grown(family) + steps


def rows_with_faults(source):
    """Rows of every kind, appended and put in every place, absent ones too."""
    for modulus, rows in ROW_BASES:
        family = random_family_any_first_c(source, modulus, rows)
        for new in rows_of_every_kind(source, modulus):
            yield [("empty", modulus), ("append", *new)]
        for row in (1, 2, rows, *absent_rows(rows)):
            for new in rows_of_every_kind(source, modulus):
                yield [loaded(record_of(family)), ("replace", row, *new)]
        for new in rows_of_every_kind(source, modulus):
            yield [loaded(record_of(family)), ("append", *new)]
    full = random_family_any_first_c(source, 2, 127)
    steps = [("append", *new) for new in rows_of_every_kind(source, 2)]
    steps += [("replace", row, 1, 0, 1) for row in (0, 128, LARGEST_WORD)]
    yield [loaded(record_of(full)), *steps]


def lengths_with_faults(source):
    """Every operation with every fault alone and, in their order, with every two."""
    for modulus, rows in LENGTH_BASES:
        family = random_family_any_first_c(source, modulus, rows)
        curve = random_curve(source, modulus, family.n)
        steps = [loaded(record_of(family))]
        for call in OPERATIONS:
            case = cases.family_case(call, family, curve)
            numbers = call_refusals(call)
            spoiled = [fault for number in numbers for fault in faults.faults(case, number)]
            if modulus > 3:
                pairs = combinations(numbers, 2)
                spoiled += (faults.two_faults(source, case, *pair) for pair in pairs)
            if call in cases.WITH_WORKING:
                spoiled += (replace(case, working_length=length) for length in (16385, 20000))
            steps += map(operation_step, spoiled)
        yield steps


def damaged_places(source):
    """Every place of some records one greater, and the used ones set to other numbers."""
    families = (NO_ROWS_7, R, random_family(source, 2147483646, 3), ones(2, 127))
    for record in map(record_of, families):
        steps, used = [loaded(record)], used_places(record.rows)
        for place, number in enumerate(record.words):
            numbers = other_numbers(record, place) if place in used else [number + 1]
            steps += damage(record, place, numbers)
        yield steps


def damaged_calls(source):
    """Every call on records that are damaged at the front, at an edge and at the end of a list.

    Alone, and with faults of its own besides, which are not come to.
    """
    family = random_family_any_first_c(source, 15, 3)
    record = record_of(family)
    for step in any_call(source, family):
        steps = [loaded(record)]
        for place in places_of_lists(record.rows):
            steps += damage(record, place, [record.words[place] + 15], [step])
        yield steps
    faulty = [operation_step(cases.family_case(call, R, (7, 7, 7))) for call in OPERATIONS]
    faulty += [("append", 15, 0, 0), ("replace", 0, 0, 15, 0), ("replace", 4, 15, 0, 0)]
    for place, numbers in ((MODULUS, OUTSIDE_MODULI), (ROWS, (0, 2, 4, 128, LARGEST_WORD))):
        yield [loaded(record), *damage(record, place, numbers, any_call(source, family))]
        yield [loaded(record), *damage(record, place, numbers, faulty)]
    for rows in (126, 127):
        family = random_family_any_first_c(source, 2, rows)
        steps = [loaded(record_of(family))]
        for place in places_of_lists(rows):
            change = source.choice(changes(source, family))
            steps += damage(record_of(family), place, [2], [change])
        yield steps


def other_right_records(source):
    """A number put into b, into c_1 or for the modulus of no rows: the record of another family."""
    for modulus, rows in ((7, 1), (15, 3), (2147483647, 2)):
        family = random_family(source, modulus, rows)
        steps = [loaded(record_of(family))]
        for name, place in (("b", 0), ("b", rows - 1), ("c", 0)):
            for number in (0, modulus - 1):
                steps += [("set", FIRST_PLACES[name] + place, number)]
                steps += operations(source, family)
        yield [*steps, ("append", *random_row(source, modulus)), *[("drop_last",)] * 2]
    yield [("empty", 7), ("set", MODULUS, 15), ("append", 2, 1, 4), ("drop_last",)]


def as_if_inverse(number, modulus):
    """The inverse, and zero where there is none."""
    return curves.inverse(number, modulus) or 0


def as_if_prepared(family):
    """The record by formulas that never ask whether there is an inverse."""
    modulus, rows = family.modulus, family.rows()
    total, norms = 1, []
    for place, (a, _, c) in enumerate(rows):
        total = total * -c % modulus if place else 1 % modulus
        norms.append(total * as_if_inverse(a, modulus) % modulus)
    return prepared.filled(
        modulus,
        len(family.a),
        family.a,
        family.b,
        family.c,
        [as_if_inverse(a, modulus) for a in family.a],
        [as_if_inverse(c, modulus) if place else 0 for place, c in enumerate(family.c)],
        norms,
    )


def families_not_accepted(source):
    """Records that are consistent, of families whose modulus or rows are not accepted."""
    for modulus in (1, 2147483648, LARGEST_WORD):
        for rows in (0, 1, 3):
            family = ones(1, rows)
            if modulus > 1:
                family = random_family_any_first_c(source, modulus, rows)
            yield [loaded(as_if_prepared(family)), *any_call(source, family)]
    for modulus in (7, 15):
        for number in numbers_without_inverse(modulus):
            for name, place in (("a", 0), ("a", 2), ("c", 1), ("c", 2)):
                family = random_family(source, modulus, 3)
                spoiled = faults.with_entry(family, name, place, number)
                steps = [loaded(as_if_prepared(spoiled)), *any_call(source, family)]
                yield [*steps, ("replace", place + 1, 1, 0, 1)]


def records_of_no_family(source):
    """Numbers that no family has: as many rows as there are places and more, and any words."""
    full = record_of(ones(2, 127))
    uses = (("drop_last",), ("append", 1, 1, 1), ("norms", 128))
    for rows in (126, 128, 129, 2**31, LARGEST_WORD):
        yield [loaded(full), ("set", ROWS, rows), *uses]
    for words in (
        [LARGEST_WORD] * prepared.WORD_COUNT,
        [source.below(2**32) for _ in range(prepared.WORD_COUNT)],
        [7, 127, *(source.below(7) for _ in range(prepared.WORD_COUNT - 2))],
        [2, 127, *[1] * (prepared.WORD_COUNT - 2)],
    ):
        yield [loaded(prepared.of_words(words)), *any_call(source, NO_ROWS_7)]


def new_rows(source, modulus):
    """Rows whose a and c each have an inverse, are zero, share a factor, or are m."""
    kinds = (None, *reasons.kinds_of(modulus), reasons.MODULUS)
    for in_a, in_c in product(kinds, repeat=2):
        row = list(random_row(source, modulus))
        for place, kind in ((0, in_a), (2, in_c)):
            if kind is not None:
                row[place] = reasons.number_of(source, modulus, kind)
        yield tuple(row)


def new_rows_with_reasons(source):
    """Zeros and shared factors in a row that is appended or put in the place of a row.

    As row 1 and later, and where 5, 9 or 16 goes before.
    """
    for modulus in REASON_MODULI:
        family = random_family_any_first_c(source, modulus, 3)
        for new in new_rows(source, modulus):
            yield [("empty", modulus), ("append", *new)]
            for change in ("append",), ("replace", 1), ("replace", 2), ("replace", 3):
                yield [loaded(record_of(family)), (*change, *new)]
        a, _, c = random_row(source, modulus)
        refused = [("append", 0, modulus, c), ("append", 2 * modulus, 0, 0)]
        refused += [("replace", 1, 0, modulus, 0), ("replace", 3, a, 2 * modulus, 0)]
        refused += [("replace", 4, 0, 0, 0), ("replace", 0, a, 0, 0)]
        yield [loaded(record_of(family)), *refused]
    for modulus in (4, 2147483647):
        family = random_family_any_first_c(source, modulus, 127)
        steps = [("append", 0, 0, 0), ("append", 1, 0, 0), ("replace", 128, 0, 0, 0)]
        for row in (1, 2, 64, 127):
            steps += [("replace", row, 0, 1, 0), ("replace", row, 1, 1, 0)]
        yield [loaded(record_of(family)), *steps]


def records_with_reasons(source):
    """Consistent records of families with zeros and shared factors: 14, but for those in c_1."""
    for family, _, verdict in reasons.families(source, ((7, 2, 1), (15, 3, 1))):
        if verdict != 12:
            steps = [("append", 0, 0, 0), ("replace", 1, 0, 1, 0), ("replace", 2, 1, 1, 0)]
            yield [loaded(as_if_prepared(family)), *steps, ("norms", family.n)]


def too_many_rows(source):
    """Every call on a record of 127 rows that says that it has more."""
    family = ones(2, 127)
    record = record_of(family)
    calls = any_call(source, family)
    yield [loaded(record), *damage(record, ROWS, (128, 129, 254, LARGEST_WORD), calls)]


def random_step(source, record):
    """A step that most often is accepted: a change, an operation, or a number set."""
    modulus, rows = record.modulus, record.rows
    kind = source.below(12)
    row = random_row(source, modulus)
    if kind == 0:
        row = source.choice(rows_of_every_kind(source, modulus))
    if kind < 4:
        return ("append", *row)
    if kind < 7:
        return ("replace", source.below(rows + 2), *row)
    if kind < 9:
        return ("drop_last",)
    if kind < 11:
        return source.choice(operations(source, record.family))
    place = source.choice([MODULUS, ROWS, *places_of_lists(rows)])
    return ("set", place, source.choice(other_numbers(record, place)))


def walks(source):
    """Random sequences; a record with a number set is used twice and then put right."""
    for _ in range(WALKS):
        modulus = source.choice(SHORT_MODULI)
        record = record_of(random_family_any_first_c(source, modulus, source.below(6)))
        steps = [loaded(record)]
        for _ in range(WALK_STEPS):
            step = random_step(source, record)
            steps.append(step)
            if step[0] == "set":
                family = record.family
                steps.append(source.choice(changes(source, family)))
                steps += [source.choice(operations(source, family)), loaded(record)]
            elif step[0] in CHANGES:
                record = CHANGES[step[0]](record, *step[1:]).record
        yield steps


def sequences():
    """All sequences in their order."""
    makers = (
        figures,
        empties,
        short_families,
        long_families,
        first_cs_of_every_kind,
        rows_with_faults,
        lengths_with_faults,
        damaged_places,
        damaged_calls,
        other_right_records,
        families_not_accepted,
        records_of_no_family,
        walks,
        too_many_rows,
        new_rows_with_reasons,
        records_with_reasons,
    )
    return [steps for part, make in enumerate(makers) for steps in make(SplitMix64(SEED + part))]
