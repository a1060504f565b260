"""The prepared family: figures, changes and their way back, operations, damage, wrong ones.

The expected number is known by how a record or a change was spoiled. Whether a
record is right is held against a second way, which looks at each place by
itself and works out neither an inverse nor a norm.
"""

from itertools import product

import calls
import cases
import prepared
import prepared_cases
from check_figures import NO_ROWS_7, P12_FAMILY, ZERO_FIRST_C, R, ones
from curves import CLOSING_ROW, Family
from families import MODULI, SIZES, random_curve, random_family_any_first_c
from faults import LARGEST_WORD, faults
from prepared import (
    FIRST_PLACES,
    LISTS,
    MODULUS,
    ZEROS,
    Change,
    Changed,
    filled,
    is_right,
    of_words,
    record_of,
)

KIND = "prepared"
DAMAGE = "damaged records"

FIGURES = (
    (NO_ROWS_7, filled(7, 0, (), (), (), (), (), (1,))),
    (R, filled(7, 2, (1, 2), (0, 3), (1, 5), (1, 4), (0, 3), (1, 1, 5))),
    (P12_FAMILY, filled(15, 1, (2,), (1,), (4,), (8,), (0,), (8, 14))),
    (ZERO_FIRST_C, filled(35, 2, (1, 3), (0, 0), (0, 6), (1, 12), (0, 6), (1, 33, 6))),
    (ones(2, 127), filled(2, 127, *((1,) * 127,) * 4, (0,) + (1,) * 126, (1,) * 128)),
)


def right_by_places(record):
    """Whether the record is right, by a product or a comparison for each of its places."""
    modulus, rows = record.modulus, record.rows
    if modulus < 2 or modulus > 2147483647 or rows > 127:
        return False
    for name, places in zip(LISTS, record.lists):
        used = rows + (name == "norms")
        if any(places[used:]) or any(number >= modulus for number in places[:used]):
            return False
    kept = [*zip(*record.lists[:5])][:rows] + [(*CLOSING_ROW, 1, int(rows > 0))]
    numerator = 1
    for place, (a, _, c, a_inverse, c_inverse) in enumerate(kept):
        if place > 0:
            numerator = -numerator * c % modulus
        if a * a_inverse % modulus != 1 or a * record.norms[place] % modulus != numerator:
            return False
        if c_inverse != 0 if place == 0 else c * c_inverse % modulus != 1:
            return False
    return True


def check_figures(tally):
    """Stated records, and those that the call for an empty family gives."""
    for family, record in FIGURES:
        tally.equal(KIND, family, record, record_of(family))
        tally.equal(KIND, family, True, right_by_places(record))
    tally.equal(KIND, "numbers of a record", (765, 637), (len(ZEROS.words), FIRST_PLACES["norms"]))
    tally.equal(KIND, "largest row count", 127, prepared.Record.LARGEST_ROW_COUNT)
    for modulus in (0, 1, 2147483648, LARGEST_WORD):
        tally.equal(KIND, modulus, Changed(3, ZEROS), prepared.empty(modulus))
    for modulus in (2, 7, 2147483647):
        record = filled(modulus, 0, (), (), (), (), (), (1,))
        tally.equal(KIND, modulus, Changed(0, record), prepared.empty(modulus))
    tally.equal(KIND, "the record of no family", False, is_right(ZEROS))


def check_growth(tally, family):
    """The rows appended one by one, each dropped again, make the family's record."""
    record = prepared.empty(family.modulus).record
    for count, row in enumerate(prepared_cases.rows_of(family), 1):
        longer = prepared.append(record, *row)
        first_rows = Family(family.modulus, family.a[:count], family.b[:count], family.c[:count])
        tally.equal(KIND, first_rows, Changed(0, record_of(first_rows)), longer)
        tally.equal(KIND, first_rows, Changed(0, record), prepared.drop_last(longer.record))
        record = longer.record
    tally.equal(KIND, family, record_of(family), record)
    tally.equal(KIND, family, True, right_by_places(record))


def check_replacement(tally, source, family):
    """A row replaced: the record of the other family; the old one put back: the old record."""
    record, rows = record_of(family), prepared_cases.rows_of(family)
    for row in prepared_cases.some_rows(family):
        new = prepared_cases.random_row(source, family.modulus)
        replaced = prepared.replace(record, row, *new)
        other = Family(family.modulus, *zip(*rows[: row - 1], new, *rows[row:]))
        tally.equal(KIND, (family, row, new), Changed(0, record_of(other)), replaced)
        tally.equal(KIND, (family, row, new), True, right_by_places(replaced.record))
        back = prepared.replace(replaced.record, row, *rows[row - 1])
        tally.equal(KIND, (family, row, new), Changed(0, record), back)


def check_operations(tally, source, family):
    """Every operation, accepted and with each fault of its own, answers as on the lists."""
    record, curve = record_of(family), random_curve(source, family.modulus, family.n)
    for call in prepared_cases.OPERATIONS:
        case = cases.family_case(call, family, curve)
        spoiled = [faults(case, number) for number in prepared_cases.call_refusals(call)]
        for one in (case, *map(source.choice, spoiled)):
            step = prepared_cases.operation_step(one)
            given = prepared_cases.run_operation(record, *step)
            tally.equal("prepared operations", one, cases.run(one), given)


def row_fault(modulus, row, new):
    """The number of a new row, by its entries against those that are units."""
    units = {x for x in range(modulus) for y in range(modulus) if x * y % modulus == 1}
    if max(new) >= modulus:
        return 9
    if new[0] not in units:
        return 10 if new[0] else 17
    if row > 1 and new[2] not in units:
        return 11 if new[2] else 18
    return 0


def check_new_rows(tally, source):
    """Every row of numbers up to m, appended and in every place, absent ones too."""
    for modulus, count in ((2, 0), (2, 2), (3, 1), (4, 2), (6, 1)):
        record = record_of(random_family_any_first_c(source, modulus, count))
        for new in product(range(modulus + 1), repeat=3):
            verdict = prepared.append(record, *new).verdict
            tally.equal(KIND, (record, new), row_fault(modulus, count + 1, new), verdict)
            for row in (*range(1, count + 1), *prepared_cases.absent_rows(count)):
                expected = row_fault(modulus, row, new) if 1 <= row <= count else 16
                changed = prepared.replace(record, row, *new)
                tally.equal(KIND, (record, row, new), expected, changed.verdict)
                if expected:
                    tally.equal(KIND, (record, row, new), record, changed.record)
    full = record_of(ones(4, 127))
    for new in product((1, 2, 4), repeat=3):
        tally.equal(KIND, ("128 rows", new), Changed(5, full), prepared.append(full, *new))
    for record in (prepared.empty(2).record, prepared.empty(2147483647).record):
        tally.equal(KIND, record, Changed(15, record), prepared.drop_last(record))


def stays_right(record, place, number):
    """Whether a right record stays right with the number at the place.

    b and c_1 enter no inverse and no norm, and without rows nor does m.
    """
    rows = record.rows
    free = {FIRST_PLACES["b"] + i for i in range(rows)} | ({FIRST_PLACES["c"]} if rows else set())
    if place == MODULUS and rows == 0:
        return 2 <= number <= 2147483647
    return number == record.words[place] or (place in free and number < record.modulus)


def check_damage(tally, record, place, number):
    """One number of a right record replaced."""
    damaged = prepared.with_word(record, place, number)
    right = right_by_places(damaged)
    if place != MODULUS or record.rows < 2:
        tally.equal(DAMAGE, (record, place, number), stays_right(record, place, number), right)
    tally.equal(DAMAGE, (record, place, number), right, is_right(damaged))
    return damaged


def accepted_families(modulus, row_count):
    """Every accepted family of so many rows."""
    numbers = range(modulus)
    units = [x for x in numbers if any(x * y % modulus == 1 for y in numbers)]
    first_row, rows = product(units, numbers, numbers), list(product(units, numbers, units))
    for found in product(first_row, *(rows,) * (row_count - 1)) if row_count else [()]:
        yield Family(modulus, *(zip(*found) if found else ((), (), ())))


def check_refused(tally, source, record):
    """A record that is not right: one call, with and without other faults, answers 14."""
    row = source.choice(((1, 0, 1), (0, 0, 0), (LARGEST_WORD,) * 3))
    number = source.choice((0, 1, record.rows, LARGEST_WORD))
    changed = source.choice(
        (
            prepared.append(record, *row),
            prepared.drop_last(record),
            prepared.replace(record, number, *row),
        )
    )
    tally.equal(DAMAGE, record, Changed(14, record), changed)
    call = source.choice(prepared_cases.OPERATIONS)
    family = Family(7, *((1,) * source.below(3),) * 3)
    case = cases.family_case(call, family, (source.choice((1, 7)),) * family.n)
    left = prepared_cases.run_operation(record, *prepared_cases.operation_step(case))
    working = cases.working_before(case.working_length) if case.working_length else None
    expected = (14, cases.output_before(case.output_length), working)
    tally.equal(DAMAGE, (record, case), expected, (left.verdict, left.output, left.working))


def check_every_place(tally, source):
    """Each place of some records one greater, and the used ones set to other numbers."""
    families = [family for family, _ in FIGURES]
    families.append(random_family_any_first_c(source, source.choice(MODULI), 4))
    for record in map(record_of, families):
        for place, number in enumerate(record.words):
            check_damage(tally, record, place, number + 1)
        for place in prepared_cases.used_places(record.rows):
            for number in prepared_cases.other_numbers(record, place):
                damaged = check_damage(tally, record, place, number)
                if not is_right(damaged):
                    check_refused(tally, source, damaged)


def check_small_moduli(tally):
    """Every family of two rows or fewer, every number up to m + 1 in every place up to its edges.

    Of all records of one row or none over small numbers, those of the families
    are right and no others.
    """
    for modulus in (2, 3):
        numbers = (*range(modulus + 2), LARGEST_WORD)
        for row_count in range(3):
            for record in map(record_of, accepted_families(modulus, row_count)):
                for place in prepared_cases.used_places(row_count):
                    for number in numbers:
                        check_damage(tally, record, place, number)
        right = {record_of(x) for count in (0, 1) for x in accepted_families(modulus, count)}
        found = set()
        for rows, *words in product((0, 1), *(range(modulus + 1),) * 7):
            *lists, first, second = words
            record = filled(modulus, rows, *((number,) for number in lists), (first, second))
            found |= {record} if is_right(record) else set()
        tally.equal(DAMAGE, ("right records", modulus), right, found)


def with_old_last_norm(record, row):
    """An append that keeps the norm of the closing row where the new row's belongs."""
    place = FIRST_PLACES["norms"] + record.rows
    return prepared.with_word(prepared.append(record, *row).record, place, record.words[place])


def with_old_later_norms(record, row, new):
    """A replacement that works out the norm of its row and keeps those behind it."""
    place = FIRST_PLACES["norms"] + row
    return of_words(prepared.replace(record, row, *new).record.words[:place] + record.words[place:])


def with_inverse_of_first_c(record):
    """The record in which c_1 has its inverse beside it."""
    return prepared.with_word(record, FIRST_PLACES["c_inverses"], 1)


def check_wrong_keepers(tally):
    """Records that are kept wrongly, on R."""
    two, one = record_of(R), record_of(Family(7, (1,), (0,), (1,)))
    for right, wrong in (
        (two, with_old_last_norm(one, (2, 3, 5))),
        (prepared.replace(two, 2, 2, 3, 1).record, with_old_later_norms(two, 2, (2, 3, 1))),
        (two, with_inverse_of_first_c(two)),
    ):
        for record, verdict in ((right, True), (wrong, False)):
            tally.equal("wrong keepers", record, verdict, is_right(record))
            tally.equal("wrong keepers", record, verdict, right_by_places(record))


def verdict_by(*numbers, conditions=prepared.CONDITIONS):
    """The verdict, as a function of a change, of tests in this order."""

    def verdict(change):
        return calls.first_refusal(change, numbers, conditions)

    return verdict


def check_wrong_changes(tally):
    """Changes that test a row in another order or look at c_1, each with a row it gets wrong."""
    record, full = record_of(Family(15, (2, 1), (1, 0), (4, 1))), record_of(ones(4, 127))
    damaged = prepared.with_word(record, FIRST_PLACES["norms"], 0)
    of_every_row = prepared.CONDITIONS | {18: lambda change: change.new[2] == 0}
    zeros_last = verdict_by(14, 16, 9, 10, 11, 17, 18)
    for change, right, wrong in (
        (Change(record, 2, (0, 0, 5)), 17, verdict_by(14, 16, 9, 18, 11, 17, 10)),
        (Change(record, 2, (3, 0, 0)), 10, verdict_by(14, 16, 9, 17, 18, 10, 11)),
        (Change(record, 2, (0, 15, 1)), 9, verdict_by(14, 16, 17, 9, 10, 18, 11)),
        (Change(record, 2, (0, 0, 1)), 17, zeros_last),
        (Change(record, 2, (1, 0, 0)), 18, zeros_last),
        (Change(record, 1, (0, 0, 0)), 17, zeros_last),
        (Change(record, 1, (1, 0, 0)), 0, verdict_by(14, 16, 9, 18, conditions=of_every_row)),
        (Change(record, 3, (0, 0, 1)), 16, verdict_by(14, 9, 17, 10, 18, 11, 16)),
        (Change(damaged, 2, (0, 0, 1)), 14, verdict_by(16, 9, 17, 10, 18, 11, 14)),
    ):
        changed = prepared.replace(change.record, change.row, *change.new)
        tally.equal("wrong changes", change, right, changed.verdict)
        tally.differ("wrong changes", change, right, wrong(change))
    change = Change(full, 128, (0, 0, 0))
    tally.equal("wrong changes", change, 5, prepared.append(full, *change.new).verdict)
    tally.differ("wrong changes", change, 5, verdict_by(14, 9, 17, 10, 18, 11, 5)(change))


def check(tally, source):
    """Figures, families of every size, rows of every kind, and damage."""
    check_figures(tally)
    check_wrong_keepers(tally)
    check_wrong_changes(tally)
    for place, row_count in enumerate(SIZES):
        for modulus in (MODULI[place % len(MODULI)], source.choice(MODULI)):
            family = random_family_any_first_c(source, modulus, row_count)
            if row_count < 64 or row_count == 127:
                check_growth(tally, family)
            check_replacement(tally, source, family)
            check_operations(tally, source, family)
    check_new_rows(tally, source)
    check_every_place(tally, source)
    check_small_moduli(tally)
