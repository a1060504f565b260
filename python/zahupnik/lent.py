"""The functions of C as they are, with all that they read and write lent by the caller.

This is the face below `zahupnik`'s own, which lends for its caller. It is for a program that uses its lists again, and for the tests, since
only what is lent can be too short. A function goes by its name behind zahupnik_, and `declarations` has its parameters. A number is an int,
a list an `array.array` of the typecode that its type has there ('I' for most), `inverse`, `factor` and `length` are arrays of one number,
and the length of a list goes along by itself. What is written is an array that is lent for nothing else, and no other thread touches what
is lent while the call runs.

>>> from array import array
>>> rows = array("I", [1, 2]), array("I", [0, 3]), array("I", [1, 5])
>>> curve, output = array("I", [3, 0, 1]), array("I", [0, 0, 0])
>>> call("plain_expand", 7, *rows, curve, output)
0
>>> output.tolist()
[1, 3, 2]
>>> call("plain_expand", 7, *rows, curve, array("I"))
7
"""

from __future__ import annotations

from typing import Any, Union

from .arguments import Array, Number, lent_array, named_type, number
from .declarations import CALLS, CHANGES, Change, Kind, Parameter, Record
from .library import library

Lent = Union[Number, Array, Record]


def call(name: str, *lent: Lent) -> int:
    """What a function answers: FINISHED (0), or the number of a refusal."""
    arguments = _in_c(CALLS[name], lent)
    answer: int = getattr(library(), f"zahupnik_{name}")(*arguments)
    return answer


def change(name: str, *lent: Lent) -> tuple[int, Record]:
    """What a change of a prepared family answers, and the record that it hands out: after a refusal the one that was lent."""
    arguments = _in_c(CHANGES[name], lent)
    changed: Change = getattr(library(), f"zahupnik_{name}")(*arguments)
    return changed.answer, Record.from_buffer_copy(changed.family)


def _in_c(parameters: tuple[Parameter, ...], lent: tuple[Lent, ...]) -> list[Any]:
    """The arguments as C wants them, each looked at."""
    if len(lent) != len(parameters):
        wanted = ", ".join(parameter.name for parameter in parameters)
        raise TypeError(f"{len(lent)} arguments are lent, and should be {len(parameters)}: {wanted}")
    arguments: list[Any] = []
    for parameter, value in zip(parameters, lent):
        if parameter.kind is Kind.NUMBER:
            arguments.append(number(parameter.name, value))  # type: ignore[arg-type]
        elif parameter.kind is Kind.RECORD:
            if not isinstance(value, Record):
                raise TypeError(f"{parameter.name} is {named_type(value)}, and should be a Record")
            arguments.append(value)
        else:
            address, length = lent_array(parameter.name, value, parameter.c_type).buffer_info()
            if parameter.is_written and sum(other is value for other in lent) > 1:
                raise ValueError(f"{parameter.name} is written, and should be lent for nothing else")
            if not parameter.is_list and length != 1:
                raise ValueError(f"{parameter.name} has {length} numbers, and should have one")
            arguments += [address, length] if parameter.is_list else [address]
    return arguments
