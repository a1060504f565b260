"""A prepared family: its rows with their inverses and the norms, worked out once."""

from __future__ import annotations

from array import array
from typing import Callable

from . import calls, lent
from .arguments import Bytes, Number, NumberList, byte_list, named_type, number_list
from .calls import expect_finished, length_on, output_of, read_lists
from .declarations import RECORD_BYTES, UNSIGNED, Record
from .refusals import Refusal


class Prepared:
    """The record of a family, for many curves on it.

    It does not change: `append`, `drop_last` and `replace` hand out the record after the change, and raise Refused if there is none.

    >>> family = Prepared(7, [1, 2], [0, 3], [1, 5])
    >>> family.plain_expand([3, 0, 1])
    [1, 3, 2]
    >>> Prepared(7).append(1, 0, 1).append(2, 3, 5) == family
    True

    `bytes(family)` are the 3,060 bytes of the C struct, to be stored or sent, and `Prepared.from_bytes` takes them. Nobody is trusted with
    them: every call tests the whole record, and refuses with 14, RECORD, one that is not the record of its own rows. That is no checksum:
    a record that was changed into the right one of another family is taken.
    """

    __slots__ = ("_record",)
    _record: Record

    def __init__(self, m: Number, a: NumberList = (), b: NumberList = (), c: NumberList = ()) -> None:
        """The record of the rows a, b and c modulo m; refused as `norms` refuses these lists."""
        rows = [number_list(name, column) for name, column in (("a", a), ("b", b), ("c", c))]
        calls.norms(m, *rows)
        record = _changed("prepared_empty", m)
        for row in zip(*rows):
            record = _changed("prepared_append", record, *row)
        self._record = record

    @staticmethod
    def from_bytes(data: Bytes) -> Prepared:
        """The record that these 3,060 bytes are, right or not.

        >>> Prepared.from_bytes(bytes(Prepared(7))) == Prepared(7)
        True
        """
        given = byte_list("data", data)
        if len(given) != RECORD_BYTES:
            raise ValueError(f"data has {len(given)} bytes, and should have {RECORD_BYTES}")
        return _of(Record.from_buffer_copy(given))

    @property
    def modulus(self) -> int:
        """m."""
        return self._record.modulus

    @property
    def rows(self) -> int:
        """r, how many rows there are."""
        return self._record.rows

    @property
    def a(self) -> list[int]:
        """The a of every row."""
        return self._column("a")

    @property
    def b(self) -> list[int]:
        """The b of every row."""
        return self._column("b")

    @property
    def c(self) -> list[int]:
        """The c of every row."""
        return self._column("c")

    @property
    def a_inverses(self) -> list[int]:
        """The inverse of every a modulo m."""
        return self._column("a_inverses")

    @property
    def c_inverses(self) -> list[int]:
        """The inverse of every c modulo m, and 0 for the first, which needs none."""
        return self._column("c_inverses")

    def is_right(self) -> bool:
        """Whether this is the record of its own rows, and these are accepted: whether the calls on it do not refuse with 14.

        >>> Prepared(7, [1], [0], [1]).is_right(), Prepared.from_bytes(bytes(3060)).is_right()
        (True, False)
        """
        return lent.call("prepared_norms", self._record, array(UNSIGNED.code)) != Refusal.RECORD

    def append(self, a: Number, b: Number, c: Number) -> Prepared:
        """The record with the row a, b, c behind its last.

        >>> Prepared(7).append(1, 0, 1).rows
        1
        """
        return _of(_changed("prepared_append", _record_of(self), a, b, c))

    def drop_last(self) -> Prepared:
        """The record without its last row.

        >>> Prepared(7).append(1, 0, 1).drop_last() == Prepared(7)
        True
        """
        return _of(_changed("prepared_drop_last", _record_of(self)))

    def replace(self, row: Number, a: Number, b: Number, c: Number) -> Prepared:
        """The record with a, b, c in the place of a row, counted from 1.

        >>> Prepared(7, [1, 2], [0, 3], [1, 5]).replace(2, 4, 0, 6)
        Prepared(7, a=[1, 4], b=[0, 0], c=[1, 6])
        """
        return _of(_changed("prepared_replace", _record_of(self), row, a, b, c))

    def plain_expand(self, curve: NumberList) -> list[int]:
        """Expand, row by row, as `zahupnik.plain_expand` does it on the lists.

        >>> Prepared(7, [1, 2], [0, 3], [1, 5]).plain_expand([3, 0, 1])
        [1, 3, 2]
        """
        return _converted("prepared_plain_expand", self, curve)

    def plain_adjoint(self, curve: NumberList) -> list[int]:
        """Adjoint, row by row, as `zahupnik.plain_adjoint` does it on the lists.

        >>> Prepared(7, [1, 2], [0, 3], [1, 5]).plain_adjoint([3, 0, 1])
        [3, 0, 3]
        """
        return _converted("prepared_plain_adjoint", self, curve)

    def plain_decompose(self, coefficients: NumberList) -> list[int]:
        """Decompose, from the top power, as `zahupnik.plain_decompose` does it on the lists.

        >>> Prepared(7, [1, 2], [0, 3], [1, 5]).plain_decompose([1, 3, 2])
        [3, 0, 1]
        """
        return _converted("prepared_plain_decompose", self, coefficients)

    def norms(self) -> list[int]:
        """Norms, as `zahupnik.norms` gives them for the lists.

        >>> Prepared(7, [1, 2], [0, 3], [1, 5]).norms()
        [1, 1, 5]
        """
        return _converted("prepared_norms", self)

    def tree_expand(self, curve: NumberList) -> list[int]:
        """Expand by the subproduct tree, as `zahupnik.tree_expand` does it on the lists.

        >>> Prepared(7, [1, 2], [0, 3], [1, 5]).tree_expand([3, 0, 1])
        [1, 3, 2]
        """
        return _converted("prepared_tree_expand", self, curve)

    def tree_adjoint(self, curve: NumberList) -> list[int]:
        """Adjoint by the subproduct tree, as `zahupnik.tree_adjoint` does it on the lists.

        >>> Prepared(7, [1, 2], [0, 3], [1, 5]).tree_adjoint([3, 0, 1])
        [3, 0, 3]
        """
        return _converted("prepared_tree_adjoint", self, curve)

    def tree_decompose(self, coefficients: NumberList) -> list[int]:
        """Decompose by the subproduct tree, as `zahupnik.tree_decompose` does it on the lists.

        >>> Prepared(7, [1, 2], [0, 3], [1, 5]).tree_decompose([1, 3, 2])
        [3, 0, 1]
        """
        return _converted("prepared_tree_decompose", self, coefficients)

    def moments(self) -> list[int]:
        """Moments, as `zahupnik.moments` gives them for the lists.

        >>> Prepared(7, [1, 2], [0, 3], [1, 5]).moments()
        [1, 0, 1, 2, 1]
        """
        return _converted("prepared_moments", self)

    def __bytes__(self) -> bytes:
        return bytes(self._record)

    def __eq__(self, other: object) -> bool:
        if not isinstance(other, Prepared):
            return NotImplemented
        return bytes(self) == bytes(other)

    def __hash__(self) -> int:
        return hash(bytes(self))

    def __reduce__(self) -> tuple[Callable[[Bytes], Prepared], tuple[bytes]]:
        return Prepared.from_bytes, (bytes(self),)

    def __repr__(self) -> str:
        if not self.is_right():
            return f"<Prepared with modulus {self.modulus} and {self.rows} rows that is not the record of its own rows>"
        return f"Prepared({self.modulus}, a={self.a}, b={self.b}, c={self.c})"

    def _column(self, name: str) -> list[int]:
        column: list[int] = getattr(self._record, name)[: self.rows]
        return column


def _of(record: Record) -> Prepared:
    prepared = Prepared.__new__(Prepared)
    prepared._record = record
    return prepared


def _record_of(family: object) -> Record:
    """The record of a family; the header's names for the methods may be called with something else."""
    if not isinstance(family, Prepared):
        raise TypeError(f"family is {named_type(family)}, and should be a Prepared")
    return family._record


def _converted(name: str, family: Prepared, *lists: NumberList) -> list[int]:
    record = _record_of(family)
    return output_of(name, length_on(name, record.rows), record, *read_lists(name, *lists))


def _changed(name: str, *given: lent.Lent) -> Record:
    number, record = lent.change(name, *given)
    expect_finished(number)
    return record


def prepared_empty(m: Number) -> Prepared:
    """The record of the family without rows, which is `Prepared(m)`.

    >>> prepared_empty(7)
    Prepared(7, a=[], b=[], c=[])
    """
    return Prepared(m)


# The header's names for the methods.
prepared_append = Prepared.append
prepared_drop_last = Prepared.drop_last
prepared_replace = Prepared.replace
prepared_plain_expand = Prepared.plain_expand
prepared_plain_adjoint = Prepared.plain_adjoint
prepared_plain_decompose = Prepared.plain_decompose
prepared_norms = Prepared.norms
prepared_tree_expand = Prepared.tree_expand
prepared_tree_adjoint = Prepared.tree_adjoint
prepared_tree_decompose = Prepared.tree_decompose
prepared_moments = Prepared.moments
