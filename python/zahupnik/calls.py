"""Every call on lists and on texts: lists in, lists out. What a call writes to is made for it, and a refusal is raised.

So no call here is refused with 7 or 8, which say that an output or a working list is too short: `lent` has the calls that can be.
"""

from __future__ import annotations

from array import array
from typing import Optional

from . import lent
from .arguments import Array, Bytes, Number, NumberList, byte_list, number_list
from .declarations import (
    CALLS,
    FINISHED,
    LEAST_JOB_OUTPUT,
    LEAST_TEXT_OUTPUT,
    LEAST_WORK,
    MOST_ROWS,
    Kind,
)
from .refusals import Refusal, Refused


def version() -> int:
    """The version of the library that is loaded: 10000 times its major number, 100 times its minor, and its patch, added up.

    A program that asks for it at its start learns there and then whether the library is to be had.

    >>> version() // 10000
    1
    """
    return lent.call("version")


def invert(m: Number, x: Number) -> int:
    """Inverse: the one number below m that times x leaves 1 modulo m.

    With 13, NO_INVERSE, the exception has the greatest common factor of x and m: m where x is zero, above 1 and below m where it is not.

    >>> invert(7, 3)
    5
    >>> try:
    ...     invert(15, 6)
    ... except Refused as refused:
    ...     refused.number.name, refused.factor
    ('NO_INVERSE', 3)
    """
    inverse, factor = _written("invert")
    number = lent.call("invert", m, x, inverse, factor)
    expect_finished(number, factor[0] if number == Refusal.NO_INVERSE else None)
    return inverse[0]


def plain_expand(m: Number, a: NumberList, b: NumberList, c: NumberList, curve: NumberList) -> list[int]:
    """Expand: at k the coefficient of x^k in the sum over i of curve[i] F_i. Row by row.

    >>> plain_expand(7, [1, 2], [0, 3], [1, 5], [3, 0, 1])
    [1, 3, 2]
    """
    return _on_rows("plain_expand", (m,), a, b, c, curve)


def plain_adjoint(m: Number, a: NumberList, b: NumberList, c: NumberList, curve: NumberList) -> list[int]:
    """Adjoint (transposed expand): at j the sum over i of curve[i] times the coefficient of x^i in F_j. Row by row.

    >>> plain_adjoint(7, [1, 2], [0, 3], [1, 5], [3, 0, 1])
    [3, 0, 3]
    """
    return _on_rows("plain_adjoint", (m,), a, b, c, curve)


def plain_decompose(m: Number, a: NumberList, b: NumberList, c: NumberList, coefficients: NumberList) -> list[int]:
    """Decompose: the one curve that Expand turns into the coefficients. From the top power.

    >>> plain_decompose(7, [1, 2], [0, 3], [1, 5], [1, 3, 2])
    [3, 0, 1]
    """
    return _on_rows("plain_decompose", (m,), a, b, c, coefficients)


def norms(m: Number, a: NumberList, b: NumberList, c: NumberList) -> list[int]:
    """Norms: at i the number (-1)^i c_2 .. c_{i+1} / a_{i+1}, where the row behind the last is 1 1 1.

    >>> norms(7, [1, 2], [0, 3], [1, 5])
    [1, 1, 5]
    """
    return _on_rows("norms", (m,), a, b, c)


def tree_expand(m: Number, a: NumberList, b: NumberList, c: NumberList, curve: NumberList) -> list[int]:
    """Expand by the subproduct tree: what `plain_expand` gives.

    >>> tree_expand(7, [1, 2], [0, 3], [1, 5], [3, 0, 1])
    [1, 3, 2]
    """
    return _on_rows("tree_expand", (m,), a, b, c, curve)


def tree_adjoint(m: Number, a: NumberList, b: NumberList, c: NumberList, curve: NumberList) -> list[int]:
    """Adjoint by the subproduct tree: what `plain_adjoint` gives.

    >>> tree_adjoint(7, [1, 2], [0, 3], [1, 5], [3, 0, 1])
    [3, 0, 3]
    """
    return _on_rows("tree_adjoint", (m,), a, b, c, curve)


def tree_decompose(m: Number, a: NumberList, b: NumberList, c: NumberList, coefficients: NumberList) -> list[int]:
    """Decompose by the subproduct tree: what `plain_decompose` gives.

    >>> tree_decompose(7, [1, 2], [0, 3], [1, 5], [1, 3, 2])
    [3, 0, 1]
    """
    return _on_rows("tree_decompose", (m,), a, b, c, coefficients)


def moments(m: Number, a: NumberList, b: NumberList, c: NumberList) -> list[int]:
    """Moments: 2n - 1 numbers, the weights of the powers of x. The header has the formula.

    The product law: if Expand turns the curves u and v into s and t, then modulo m the sum over k of moments[k] times the coefficient of
    x^k in the product of s and t is the sum over i of u[i] v[i] norms[i].

    >>> moments(7, [1, 2], [0, 3], [1, 5])
    [1, 0, 1, 2, 1]
    """
    return _on_rows("moments", (m,), a, b, c)


def convert_text(text: Bytes) -> bytes:
    r"""The text call: the answer text of a job text. The job is done by the tree way.

    >>> convert_text(b"mod=7\na=1 2\nb=0 3\nc=1 5\nop=expand\nv=3 0 1\n")
    b'op=expand\nout=1 3 2\n'
    """
    output, work, length = _written("convert_text", LEAST_TEXT_OUTPUT)
    expect_finished(lent.call("convert_text", byte_list("text", text), output, work, length))
    return output.tobytes()[: length[0]]


def write_job(m: Number, a: NumberList, b: NumberList, c: NumberList, operation: Number, curve: NumberList = ()) -> bytes:
    r"""Writes a job: the text that `convert_text` takes, of an Operation and of lists that it finishes on.

    The curve is empty for MOMENTS and NORMS, and the coefficients for DECOMPOSE.

    >>> from zahupnik import Operation
    >>> write_job(7, [1, 2], [0, 3], [1, 5], Operation.EXPAND, [3, 0, 1])
    b'mod=7\na=1 2\nb=0 3\nc=1 5\nop=expand\nv=3 0 1\n'
    """
    *rows, entries = read_lists("write_job", a, b, c, curve)
    output, length = _written("write_job", LEAST_JOB_OUTPUT)
    expect_finished(lent.call("write_job", m, *rows, operation, entries, output, length))
    return output.tobytes()[: length[0]]


def join(m1: Number, m2: Number, first: NumberList, second: NumberList) -> list[int]:
    """Join: at i the joined value of first[i] modulo m1 and second[i] modulo m2, a whole number with a sign.

    It is the one v that leaves both and has 2 v greater than -(m1 m2) and at most m1 m2.

    >>> join(101, 103, [95, 18, 92, 1], [97, 18, 94, 1])
    [-6, 18, -9, 1]
    """
    remainders = read_lists("join", first, second)
    return output_of("join", len(remainders[0]), m1, m2, *remainders)


def expand_join(m1: Number, m2: Number, a: NumberList, b: NumberList, c: NumberList, curve: NumberList) -> list[int]:
    """Expand and join: rows and curve are whole numbers of 32 bits with a sign, expanded modulo m1 and modulo m2 and joined.

    Where a true coefficient, over the whole numbers, lies in the range that `join` states, it is what comes out; where it does not, it
    comes out wrong by a multiple of m1 m2, and nothing says so.

    >>> expand_join(101, 103, [-1, -1, -1], [1, 3, 5], [0, -1, -4], [0, 0, 0, 1])
    [6, -18, 9, -1]
    """
    return _on_rows("expand_join", (m1, m2), a, b, c, curve)


def even_first(list: NumberList) -> list[int]:
    """Even first: the entries at even indices rising, then those at odd indices rising. At most 128 of them.

    >>> even_first([10, 11, 12, 13, 14])
    [10, 12, 14, 11, 13]
    """
    return _ordered("even_first", list)


def even_back(list: NumberList) -> list[int]:
    """Even back: the list of which `even_first` makes this one.

    >>> even_back([10, 12, 14, 11, 13])
    [10, 11, 12, 13, 14]
    """
    return _ordered("even_back", list)


def expect_finished(number: int, factor: Optional[int] = None) -> None:
    """Raise what a call answers, if it is a refusal."""
    if number != FINISHED:
        raise Refused(number, factor)


def output_of(name: str, length: int, *read: lent.Lent) -> list[int]:
    """What a call writes to an output of so many numbers."""
    written = _written(name, length)
    expect_finished(lent.call(name, *read, *written))
    return written[0].tolist()


def length_on(name: str, rows: int) -> int:
    """The length of a call's output on so many rows; with more than there may be it refuses before it looks at the output."""
    n = min(rows, MOST_ROWS) + 1
    return 2 * n - 1 if name.endswith("moments") else n


def read_lists(name: str, *lists: NumberList) -> list[Array]:
    """The lists that a call reads, as arrays of its types."""
    parameters = (parameter for parameter in CALLS[name] if parameter.kind is Kind.READ)
    return [number_list(parameter.name, numbers, parameter.c_type) for parameter, numbers in zip(parameters, lists)]


def _written(name: str, length: int = 1) -> list[Array]:
    """New arrays for what a call writes: an output of this length, a working list, one number."""
    lengths = {"output": length, "work": LEAST_WORK}
    return [array(part.c_type.code, [0]) * lengths.get(part.name, 1) for part in CALLS[name] if part.is_written]


def _on_rows(name: str, moduli: tuple[Number, ...], *lists: NumberList) -> list[int]:
    """What a call on the rows of a family writes; a, b and c are the first of its lists."""
    read = read_lists(name, *lists)
    return output_of(name, length_on(name, len(read[0])), *moduli, *read)


def _ordered(name: str, list: NumberList) -> list[int]:
    (read,) = read_lists(name, list)
    return output_of(name, len(read), read)
