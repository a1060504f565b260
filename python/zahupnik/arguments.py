"""What a caller hands in, looked at before C gets it: ctypes itself would cut a number to 32 bits without a word.

What C cannot take raises TypeError (not a whole number, not a list) or ValueError (a whole number that the type does not hold); the message
names the argument, and in a list the index.
"""

from __future__ import annotations

from array import array
from operator import index
from typing import TYPE_CHECKING, Iterable, SupportsIndex, Union

from .declarations import BYTES, UNSIGNED, NumberType

if TYPE_CHECKING:
    Array = array[int]
else:
    Array = array

Number = SupportsIndex
NumberList = Iterable[SupportsIndex]
Bytes = Union[bytes, bytearray, memoryview]


def named_type(value: object) -> str:
    """The type of a value, for a message."""
    name = type(value).__name__
    return f"{'an' if name[0] in 'aeiou' else 'a'} {name}"


def number(name: str, value: Number, c_type: NumberType = UNSIGNED) -> int:
    """A whole number that the type holds. True and False are none."""
    try:
        if isinstance(value, bool):
            raise TypeError
        whole = index(value)
    except TypeError:
        raise TypeError(f"{name} is {named_type(value)}, and should be a whole number (int)") from None
    if not c_type.least <= whole <= c_type.greatest:
        shown = str(whole) if whole.bit_length() <= 128 else f"a number of {whole.bit_length()} bits"
        raise ValueError(f"{name} is {shown}, and should be from {c_type.least} to {c_type.greatest}")
    return whole


def number_list(name: str, values: NumberList, c_type: NumberType = UNSIGNED) -> Array:
    """A new array of the numbers of a list, which is any iterable with an order, but no text."""
    if isinstance(values, array) and values.typecode == c_type.code:
        return values[:]
    try:
        if isinstance(values, (str, bytes, bytearray, set, frozenset, dict)):
            raise TypeError
        iterator = iter(values)
    except TypeError:
        raise TypeError(f"{name} is {named_type(values)}, and should be a list of whole numbers") from None
    entries = list(iterator)
    if bool not in set(map(type, entries)):
        try:
            return array(c_type.code, map(index, entries))
        except (TypeError, OverflowError):
            pass  # said again below, with the index
    return array(c_type.code, [number(f"{name}[{i}]", entry, c_type) for i, entry in enumerate(entries)])


def byte_list(name: str, value: Bytes) -> Array:
    """A new array of the bytes of a text or of a record."""
    if isinstance(value, (bytes, bytearray, memoryview)):
        return array(BYTES.code, bytes(value))
    raise TypeError(f"{name} is {named_type(value)}, and should be bytes{': encode it' if isinstance(value, str) else ''}")


def lent_array(name: str, value: object, c_type: NumberType) -> Array:
    """The very array that a caller lends."""
    if isinstance(value, array) and value.typecode == c_type.code:
        return value
    raise TypeError(f"{name} is {named_type(value)}, and should be an array of typecode '{c_type.code}'")
