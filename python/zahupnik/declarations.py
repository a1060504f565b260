"""What include/zahupnik.h declares, in Python: the limits, the operations, the record, and every function's parameters.

This is the one place where the package says how a function of C is called. tests/python holds each of these against the header.
"""

from __future__ import annotations

import ctypes
from array import array
from enum import Enum, IntEnum
from typing import Any, NamedTuple

GREATEST_MODULUS = 2147483647
MOST_ROWS = 127
MOST_ENTRIES = 128
LEAST_WORK = 16384
MOST_TEXT = 8192
LEAST_TEXT_OUTPUT = 4096
LEAST_JOB_OUTPUT = 8192

FINISHED = 0


class Operation(IntEnum):
    """The operations of a job, as `write_job` is told them."""

    EXPAND = 0
    ADJOINT = 1
    DECOMPOSE = 2
    MOMENTS = 3
    NORMS = 4


class Record(ctypes.Structure):
    """struct zahupnik_prepared: a prepared family, by value."""

    modulus: int
    rows: int
    _fields_ = [
        ("modulus", ctypes.c_uint32),
        ("rows", ctypes.c_uint32),
        ("a", ctypes.c_uint32 * MOST_ROWS),
        ("b", ctypes.c_uint32 * MOST_ROWS),
        ("c", ctypes.c_uint32 * MOST_ROWS),
        ("a_inverses", ctypes.c_uint32 * MOST_ROWS),
        ("c_inverses", ctypes.c_uint32 * MOST_ROWS),
        ("norms", ctypes.c_uint32 * (MOST_ROWS + 1)),
    ]


class Change(ctypes.Structure):
    """struct zahupnik_change: what a change of a prepared family returns."""

    answer: int
    family: Record
    _fields_ = [("answer", ctypes.c_uint32), ("family", Record)]


class NumberType(NamedTuple):
    """A type of C's whole numbers: its name, the code of an array of them, the least and the greatest."""

    c_name: str
    code: str
    least: int
    greatest: int


BYTES = NumberType("uint8_t", "B", 0, 2**8 - 1)
UNSIGNED = NumberType("uint32_t", "I", 0, 2**32 - 1)
SIGNED = NumberType("int32_t", "i", -(2**31), 2**31 - 1)
WIDE = NumberType("int64_t", "q", -(2**63), 2**63 - 1)

RECORD_BYTES = ctypes.sizeof(Record)


def fits_this_machine() -> bool:
    """Whether Python's arrays and ctypes have the sizes that the header's types have."""
    sizes = [array(c_type.code).itemsize for c_type in (BYTES, UNSIGNED, SIGNED, WIDE)]
    return sizes == [1, 4, 4, 8] and (RECORD_BYTES, ctypes.sizeof(Change)) == (3060, 3064)


class Kind(Enum):
    """How a parameter is handed over."""

    NUMBER = "one number"
    READ = "a list that is read: a pointer and a length"
    WRITTEN = "a list that is written: a pointer and a length"
    WRITTEN_ONE = "one number that is written: a pointer"
    RECORD = "a record, by value"


class Parameter(NamedTuple):
    """A parameter of a function: a list and its length count as one."""

    name: str
    kind: Kind
    c_type: NumberType = UNSIGNED

    @property
    def is_written(self) -> bool:
        """Whether the function writes to it."""
        return self.kind in (Kind.WRITTEN, Kind.WRITTEN_ONE)

    @property
    def is_list(self) -> bool:
        """Whether a pointer and a length stand for it."""
        return self.kind in (Kind.READ, Kind.WRITTEN)

    def in_c(self) -> str:
        """The parameter as the header declares it."""
        if self.kind is Kind.RECORD:
            return f"struct zahupnik_prepared {self.name}"
        if self.kind is Kind.NUMBER:
            return f"{self.c_type.c_name} {self.name}"
        pointer = f"{'' if self.is_written else 'const '}{self.c_type.c_name} *{self.name}"
        return f"{pointer}, size_t {self.name}_length" if self.is_list else pointer

    def argument_types(self) -> list[Any]:
        """What ctypes is told of it. A pointer goes by its address: that the array has the parameter's type, lent.py looks."""
        if self.kind is Kind.RECORD:
            return [Record]
        if self.kind is Kind.NUMBER:
            return [ctypes.c_uint32]
        return [ctypes.c_void_p, ctypes.c_size_t] if self.is_list else [ctypes.c_void_p]


def _numbers(*names: str) -> tuple[Parameter, ...]:
    return tuple(Parameter(name, Kind.NUMBER) for name in names)


def _read(*names: str, c_type: NumberType = UNSIGNED) -> tuple[Parameter, ...]:
    return tuple(Parameter(name, Kind.READ, c_type) for name in names)


_ROWS = _numbers("m") + _read("a", "b", "c")
_FAMILY = (Parameter("family", Kind.RECORD),)
_CURVE = _read("curve")
_COEFFICIENTS = _read("coefficients")
_OUTPUT = (Parameter("output", Kind.WRITTEN),)
_WIDE_OUTPUT = (Parameter("output", Kind.WRITTEN, WIDE),)
_TEXT_OUTPUT = (Parameter("output", Kind.WRITTEN, BYTES),)
_WORK = (Parameter("work", Kind.WRITTEN),)
_LENGTH = (Parameter("length", Kind.WRITTEN_ONE),)

# The functions that return a number, by the name behind zahupnik_.
CALLS: dict[str, tuple[Parameter, ...]] = {
    "version": (),
    "invert": _numbers("m", "x") + (Parameter("inverse", Kind.WRITTEN_ONE), Parameter("factor", Kind.WRITTEN_ONE)),
    "plain_expand": _ROWS + _CURVE + _OUTPUT,
    "plain_adjoint": _ROWS + _CURVE + _OUTPUT,
    "plain_decompose": _ROWS + _COEFFICIENTS + _OUTPUT,
    "norms": _ROWS + _OUTPUT,
    "tree_expand": _ROWS + _CURVE + _OUTPUT + _WORK,
    "tree_adjoint": _ROWS + _CURVE + _OUTPUT + _WORK,
    "tree_decompose": _ROWS + _COEFFICIENTS + _OUTPUT + _WORK,
    "moments": _ROWS + _OUTPUT + _WORK,
    "convert_text": _read("text", c_type=BYTES) + _TEXT_OUTPUT + _WORK + _LENGTH,
    "write_job": _ROWS + _numbers("operation") + _CURVE + _TEXT_OUTPUT + _LENGTH,
    "prepared_plain_expand": _FAMILY + _CURVE + _OUTPUT,
    "prepared_plain_adjoint": _FAMILY + _CURVE + _OUTPUT,
    "prepared_plain_decompose": _FAMILY + _COEFFICIENTS + _OUTPUT,
    "prepared_norms": _FAMILY + _OUTPUT,
    "prepared_tree_expand": _FAMILY + _CURVE + _OUTPUT + _WORK,
    "prepared_tree_adjoint": _FAMILY + _CURVE + _OUTPUT + _WORK,
    "prepared_tree_decompose": _FAMILY + _COEFFICIENTS + _OUTPUT + _WORK,
    "prepared_moments": _FAMILY + _OUTPUT + _WORK,
    "join": _numbers("m1", "m2") + _read("first", "second") + _WIDE_OUTPUT,
    "expand_join": _numbers("m1", "m2") + _read("a", "b", "c", "curve", c_type=SIGNED) + _WIDE_OUTPUT,
    "even_first": _read("list") + _OUTPUT,
    "even_back": _read("list") + _OUTPUT,
}

# The functions that return a change.
CHANGES: dict[str, tuple[Parameter, ...]] = {
    "prepared_empty": _numbers("m"),
    "prepared_append": _FAMILY + _numbers("a", "b", "c"),
    "prepared_drop_last": _FAMILY,
    "prepared_replace": _FAMILY + _numbers("row", "a", "b", "c"),
}


def declare(library: Any) -> None:
    """Tell ctypes the parameters and the result of every function; AttributeError if the library lacks one."""
    for functions, result in ((CALLS, ctypes.c_uint32), (CHANGES, Change)):
        for name, parameters in functions.items():
            function = getattr(library, f"zahupnik_{name}")
            function.argtypes = [part for parameter in parameters for part in parameter.argument_types()]
            function.restype = result
