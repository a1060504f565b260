"""Zahupnik from Python: conversion between orthogonal bases and powers of x, modulo m, by the proved library libzahupnik.

A family has r rows, and row i is a_i, b_i, c_i, at index i - 1 of the lists a, b and c; its polynomials are F_{-1} = 0, F_0 = 1 and
F_i = (a_i x + b_i) F_{i-1} + c_i F_{i-2}. n is r + 1, the length of a curve. Lists have the lowest index or power first.

>>> import zahupnik
>>> zahupnik.plain_expand(7, [1, 2], [0, 3], [1, 5], [3, 0, 1])
[1, 3, 2]
>>> family = zahupnik.Prepared(7, [1, 2], [0, 3], [1, 5])
>>> family.plain_decompose([1, 3, 2])
[3, 0, 1]

Every function of include/zahupnik.h is here by its name behind zahupnik_, lists in and lists out. A list is any iterable of whole numbers,
in order; what C cannot take (a negative number, a float, a str) raises ValueError or TypeError and names the argument. A call that refuses
raises Refused:

>>> zahupnik.plain_expand(7, [1, 7], [0, 3], [1, 5], [3, 0, 1])
Traceback (most recent call last):
    ...
zahupnik.Refused: refused with 9: a number of a, b or c is not below the channel number: correct it, or reduce the family

The library is loaded at the first call; NoLibrary says where it was looked for, if there is none. Calls from several threads run side by side
and do not disturb one another. `zahupnik.lent` has the calls with everything lent by the caller, and `python3 -m zahupnik` answers, writes
and explains jobs.
"""

from .calls import (
    convert_text,
    even_back,
    even_first,
    expand_join,
    invert,
    join,
    moments,
    norms,
    plain_adjoint,
    plain_decompose,
    plain_expand,
    tree_adjoint,
    tree_decompose,
    tree_expand,
    version,
    write_job,
)
from .declarations import GREATEST_MODULUS, MOST_ENTRIES, MOST_ROWS, MOST_TEXT, Operation
from .explaining import NoExplanation, explain
from .library import NoLibrary, __version__, library_path
from .prepared import (
    Prepared,
    prepared_append,
    prepared_drop_last,
    prepared_empty,
    prepared_moments,
    prepared_norms,
    prepared_plain_adjoint,
    prepared_plain_decompose,
    prepared_plain_expand,
    prepared_replace,
    prepared_tree_adjoint,
    prepared_tree_decompose,
    prepared_tree_expand,
)
from .refusals import Refusal, Refused

__all__ = [
    "__version__",
    "convert_text",
    "even_back",
    "even_first",
    "expand_join",
    "explain",
    "GREATEST_MODULUS",
    "invert",
    "join",
    "library_path",
    "moments",
    "MOST_ENTRIES",
    "MOST_ROWS",
    "MOST_TEXT",
    "NoExplanation",
    "NoLibrary",
    "norms",
    "Operation",
    "plain_adjoint",
    "plain_decompose",
    "plain_expand",
    "Prepared",
    "prepared_append",
    "prepared_drop_last",
    "prepared_empty",
    "prepared_moments",
    "prepared_norms",
    "prepared_plain_adjoint",
    "prepared_plain_decompose",
    "prepared_plain_expand",
    "prepared_replace",
    "prepared_tree_adjoint",
    "prepared_tree_decompose",
    "prepared_tree_expand",
    "Refusal",
    "Refused",
    "tree_adjoint",
    "tree_decompose",
    "tree_expand",
    "version",
    "write_job",
]
