"""The refusals: their names, their words, and the exception that carries one.

The names are those of include/zahupnik.h, the words those of include/zahupnik_refusal.h; tests/python holds both against the headers.
"""

from __future__ import annotations

from enum import IntEnum
from typing import Optional, Union


class Refusal(IntEnum):
    """Why a call refuses: a number, a name, and `words`, what is wrong and behind the colon what to do.

    >>> Refusal(15).name, Refusal.NO_ROWS.words
    ('NO_ROWS', 'there is no row to drop: drop no more rows than were appended')
    """

    words: str

    def __new__(cls, number: int, words: str) -> Refusal:
        refusal = int.__new__(cls, number)
        refusal._value_ = number
        refusal.words = words
        return refusal

    TEXT_TOO_LONG = 1, "the text has more than 8192 bytes: send a shorter one"
    TEXT_FORM = 2, (
        "the text is not of its form, or no operation has that number: write it as its form is, or name one of the five operations"
    )
    MODULUS = 3, "a channel number is below 2 or above 2147483647: choose another"
    LENGTHS = 4, "a, b and c are not equally long: give each of them one number for every row"
    ROWS = 5, "there are more than 127 rows, or would be, or more than 128 numbers in a list to be ordered: use a shorter family, or list"
    CURVE_LENGTH = 6, "the curve, or the list of coefficients, is too short or too long: give one number more than there are rows, or none for moments and norms"
    OUTPUT_LENGTH = 7, (
        "the output is not as long as the result, or has too little room for a text: lend one of the length that the header states"
    )
    WORK_TOO_SHORT = 8, "the working list has fewer than 16384 numbers: lend a longer one"
    ENTRY = 9, "a number of a, b or c is not below the channel number: correct it, or reduce the family"
    A_INVERSE = 10, "a number of a shares a factor with the channel number: choose a channel number without that factor, or correct the family"
    C_INVERSE = 11, (
        "a number of c, from row 2 on, shares a factor with the channel number: choose a channel number without that factor, or correct the family"
    )
    CURVE_ENTRY = 12, (
        "a number of the curve, a coefficient, or a number to be joined or inverted is not below the channel number: correct it, or reduce it"
    )
    NO_INVERSE = 13, "the number has no inverse: look at the factor that comes with it, which for zero is the channel number itself"
    RECORD = 14, "the prepared family is not the record of its own rows, or these are not accepted: make it anew from its rows"
    NO_ROWS = 15, "there is no row to drop: drop no more rows than were appended"
    ABSENT_ROW = 16, "there is no such row to replace: name one from 1 to the number of rows"
    A_ZERO = 17, "a number of a is zero, or leaves zero, and is the first without an inverse: correct the family, or choose another channel number if it only leaves zero"
    C_ZERO = 18, (
        "a number of c, from row 2 on, is zero, or leaves zero, and is the first without an inverse: correct the family, or choose another channel number if it only leaves zero"
    )
    SHARED_FACTOR = 19, "the two channel numbers share a factor: choose another one of them"
    REMAINDERS = 20, "the two lists of remainders are not equally long: lend as many of the one as of the other"


# Of a number that is no refusal of this version: a library of a later one may have more.
NO_REFUSAL = "no call answers with this number: look where it came from"


class Refused(Exception):
    """A call refused what it was given.

    `number` is the Refusal (a plain int, if a later library has one that this package does not know) and `words` what is wrong and what
    to do. `factor` is the greatest common factor that comes with 13, NO_INVERSE, and None with any other number.
    """

    __module__ = "zahupnik"
    number: Union[Refusal, int]
    words: str
    factor: Optional[int]

    def __init__(self, number: int, factor: Optional[int] = None) -> None:
        super().__init__(number)
        self.factor = factor
        try:
            refusal = Refusal(number)  # type: ignore[call-arg]  # mypy takes it for __new__
        except ValueError:
            self.number, self.words = number, NO_REFUSAL
        else:
            self.number, self.words = refusal, refusal.words

    def __str__(self) -> str:
        return f"refused with {int(self.number)}: {self.words}"
