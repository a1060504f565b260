"""The prepared family: its record, the changes to it and the operations on it.

From items 3 and 5 of the change requests; the order of a record's numbers is
the C header's. A record may hold anything. With m its modulus and r its rows, its
family is the first r entries of its a, b and c, and it is right if that family
is accepted and it is the record of it, in every place: the inverses of every a
and of every c from row 2 on, zero for c_1, the n norms, and zeros past these.

A change answers with a Changed: verdict 0 or the refusal number, and the record
after the change, which on refusal is the one handed in, whatever that holds. An
operation answers with the Outcome that it gives on the lists.

14  the record is not right; stands before every other test
15  a drop from no rows
16  a replacement of row 0 or of one past the last
5   there would be more than 127 rows
9   an entry of the new row is not below the modulus
17  its a is zero
10  its a has no inverse
18  its c is zero, and it is not row 1
11  its c has no inverse, and it is not row 1

An empty family is tested by 3 only; refused, its record is all zeros.
"""

from dataclasses import dataclass
from functools import lru_cache
from itertools import accumulate
from typing import ClassVar

import calls
import curves
from curves import Family

LISTS = {
    "a": calls.LARGEST_ROW_COUNT,
    "b": calls.LARGEST_ROW_COUNT,
    "c": calls.LARGEST_ROW_COUNT,
    "a_inverses": calls.LARGEST_ROW_COUNT,
    "c_inverses": calls.LARGEST_ROW_COUNT,
    "norms": calls.LARGEST_ROW_COUNT + 1,
}
WORD_COUNT = 2 + sum(LISTS.values())
MODULUS, ROWS = 0, 1
FIRST_PLACES = dict(zip(LISTS, accumulate(LISTS.values(), initial=2)))

# 17 and 18 hold only where 10 and 11 do: for whether a family is accepted these are enough.
FAMILY_TESTS = (3, 5, 9, 10, 11)
APPEND_TESTS = (14, 5, 9, 17, 10, 18, 11)
DROP_TESTS = (14, 15)
REPLACE_TESTS = (14, 16, 9, 17, 10, 18, 11)
PLAIN_TESTS = (14, 6, 7, 12)
TREE_TESTS = (14, 6, 7, 8, 12)
MOMENTS_TESTS = (14, 7, 8)
NORMS_TESTS = (14, 7)


@dataclass(frozen=True)
class Record:
    """A prepared family, its lists as long as LISTS says."""

    LARGEST_ROW_COUNT: ClassVar[int] = calls.LARGEST_ROW_COUNT

    modulus: int
    rows: int
    a: tuple
    b: tuple
    c: tuple
    a_inverses: tuple
    c_inverses: tuple
    norms: tuple

    @property
    def family(self):
        """The family of its rows, accepted or not."""
        return Family(self.modulus, *(x[: self.rows] for x in (self.a, self.b, self.c)))

    @property
    def lists(self):
        """Its lists in their order."""
        return [getattr(self, name) for name in LISTS]

    @property
    def words(self):
        """All its numbers in their order."""
        return (self.modulus, self.rows, *(number for x in self.lists for number in x))


@dataclass(frozen=True)
class Changed:
    """What a change leaves: verdict (0 is accepted) and record."""

    verdict: int
    record: Record


@dataclass(frozen=True)
class Change:
    """A change that is asked for: the row that it is about, and what that becomes."""

    record: Record
    row: int
    new: tuple


def filled(modulus, rows, *lists):
    """The record with these lists at the front of its own, and zeros past them."""
    lengths = LISTS.values()
    places = (tuple(x) + (0,) * (length - len(x)) for x, length in zip(lists, lengths, strict=True))
    return Record(modulus, rows, *places)


def of_words(words):
    """The record that has these numbers."""
    modulus, rows, *rest = words
    lists = []
    for length in LISTS.values():
        lists.append(tuple(rest[:length]))
        rest = rest[length:]
    return Record(modulus, rows, *lists)


def with_word(record, place, number):
    """The record with another number at a place of its words."""
    words = list(record.words)
    words[place] = number
    return of_words(words)


@lru_cache(maxsize=1000)
def record_of(family):
    """The record of an accepted family."""
    inverses_a = [curves.inverse(a, family.modulus) for a in family.a]
    inverses_c = [curves.inverse(c, family.modulus) for c in family.c[1:]]
    first = [0] if family.c else []
    return filled(
        family.modulus,
        len(family.a),
        family.a,
        family.b,
        family.c,
        inverses_a,
        first + inverses_c,
        curves.norms(family),
    )


@lru_cache(maxsize=1000)
def is_accepted(family):
    """Whether the family is accepted."""
    lent = calls.Lent("norms", family.modulus, family.a, family.b, family.c, None, [], None)
    return calls.first_refusal(lent, FAMILY_TESTS, calls.CONDITIONS) == 0


def is_right(record):
    """Whether the record is the record of its own rows, and these are accepted."""
    return is_accepted(record.family) and record == record_of(record.family)


ZEROS = of_words((0,) * WORD_COUNT)

CONDITIONS = {
    5: lambda change: change.row > Record.LARGEST_ROW_COUNT,
    9: lambda change: calls.some_reach(change.new, change.record.modulus),
    10: lambda change: calls.some_without_inverse(change.new[:1], change.record.modulus),
    11: lambda change: change.row > 1
    and calls.some_without_inverse(change.new[2:], change.record.modulus),
    14: lambda change: not is_right(change.record),
    15: lambda change: change.record.rows == 0,
    16: lambda change: not 1 <= change.row <= change.record.rows,
    17: lambda change: change.new[0] == 0,
    18: lambda change: change.row > 1 and change.new[2] == 0,
}


def changed(change, numbers):
    """The old rows in front of the row, what it becomes, and the old ones behind it."""
    verdict = calls.first_refusal(change, numbers, CONDITIONS)
    if verdict != 0:
        return Changed(verdict, change.record)
    family = change.record.family
    lists = (
        old[: change.row - 1] + change.new[place : place + 1] + old[change.row :]
        for place, old in enumerate((family.a, family.b, family.c))
    )
    return Changed(0, record_of(Family(family.modulus, *lists)))


def empty(modulus):
    """The record of the family without rows."""
    if calls.modulus_outside(modulus):
        return Changed(3, ZEROS)
    return Changed(0, record_of(Family(modulus, (), (), ())))


def append(record, a, b, c):
    """The record with one row more."""
    return changed(Change(record, record.rows + 1, (a, b, c)), APPEND_TESTS)


def drop_last(record):
    """The record without its last row."""
    return changed(Change(record, record.rows, ()), DROP_TESTS)


def replace(record, row, a, b, c):
    """The record with another row in the place of one, counted from 1."""
    return changed(Change(record, row, (a, b, c)), REPLACE_TESTS)


def outcome(operation, record, curve, output, working, numbers):
    """The outcome of an operation on a record."""
    family = record.family
    lent = calls.Lent(
        operation, family.modulus, family.a, family.b, family.c, curve, output, working
    )
    conditions = calls.CONDITIONS | {14: lambda _: not is_right(record)}
    return calls.outcome(lent, numbers, conditions)


def plain_expand(record, curve, output):
    """Expand, the plain way."""
    return outcome("expand", record, curve, output, None, PLAIN_TESTS)


def plain_adjoint(record, curve, output):
    """Adjoint, the plain way."""
    return outcome("adjoint", record, curve, output, None, PLAIN_TESTS)


def plain_decompose(record, curve, output):
    """Decompose, the plain way."""
    return outcome("decompose", record, curve, output, None, PLAIN_TESTS)


def tree_expand(record, curve, output, working):
    """Expand with the promises of the tree way."""
    return outcome("expand", record, curve, output, working, TREE_TESTS)


def tree_adjoint(record, curve, output, working):
    """Adjoint with the promises of the tree way."""
    return outcome("adjoint", record, curve, output, working, TREE_TESTS)


def tree_decompose(record, curve, output, working):
    """Decompose with the promises of the tree way."""
    return outcome("decompose", record, curve, output, working, TREE_TESTS)


def moments(record, output, working):
    """Moments: lent no curve, always lent a working list."""
    return outcome("moments", record, None, output, working, MOMENTS_TESTS)


def norms(record, output):
    """Norms: lent neither a curve nor a working list."""
    return outcome("norms", record, None, output, None, NORMS_TESTS)
