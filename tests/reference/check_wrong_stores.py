"""Wrong versions of the program `store`, each told from the right one by a vector.

A version is made of parts: how the input falls into lines, how a line is read and
tested, how the list is put, and what is printed. RIGHT gives what the file of vectors
has for every input; a wrong version has another part, and gives what it has for some
inputs and not for all.
"""

import re
from collections.abc import Callable
from dataclasses import dataclass, replace
from functools import cache, partial

from check_joining import check_told
from check_ordering import back_by_slices, first_by_slices
from check_store import vectors
from check_wrong_orders import OTHER_ORDERS

KIND = "wrong stores"
LONGEST, MOST, GREATEST = 8192, 128, 4294967295


# Lines.


def ended_lines(text):
    """The lines of an input, the last as it stands."""
    return re.findall(rb"[^\n]*\n|[^\n]+", text)


def pieces(text, length):
    """The text in pieces of this length."""
    return [text[at : at + length] for at in range(0, len(text), length)]


def lines_by(pattern):
    """Lines that end with whatever the pattern matches."""
    return lambda text: [line for line in re.split(rb"(?<=" + pattern + rb")", text) if line]


def without_unended(text):
    """Only lines that byte 10 ends."""
    return [line for line in ended_lines(text) if line[-1:] == b"\n"]


def unended_completed(text):
    """Byte 10 put behind the last line where it lacks."""
    return [line.removesuffix(b"\n") + b"\n" for line in ended_lines(text)]


def long_lines_in_pieces(text):
    """8,193 bytes of a long line as one line, and the rest as another."""
    return [piece for line in ended_lines(text) for piece in pieces(line, LONGEST + 1)]


def rests_of_long_lines(text):
    """8,193 bytes of a long line as one line, and all of the rest as another."""
    found = []
    for line in ended_lines(text):
        found += [line[: LONGEST + 1], line[LONGEST + 1 :]]
    return [line for line in found if line]


def up_to_a_long_line(text):
    """Nothing after a line that is too long."""
    found = []
    for line in ended_lines(text):
        found.append(line)
        if len(line) > LONGEST:
            break
    return found


def line_after_a_long_one_lost(text):
    """The line after one that is too long passed over with it."""
    found, is_passed = [], False
    for line in ended_lines(text):
        if not is_passed:
            found.append(line)
        is_passed = len(line) > LONGEST and not is_passed
    return found


def blocks_end_lines(length):
    """The input read in blocks of this length, and the end of a block taken for that of a line."""
    return lambda text: [line for block in pieces(text, length) for line in ended_lines(block)]


def cut(length):
    """Only so many bytes of the input."""
    return lambda text: ended_lines(text[:length])


def up_to(byte):
    """Nothing from this byte on."""
    return lambda text: ended_lines(text.split(byte, 1)[0])


def one_more_line(text):
    """An empty line behind the last byte 10."""
    return [*ended_lines(text), b"\n"] if text[-1:] == b"\n" else ended_lines(text)


# Words and numbers.


def right_words(text):
    """What stands between single spaces; nothing in an empty list."""
    return text.split(b" ") if text else []


@cache
def right_number(word):
    """A number without a leading zero, at most 4294967295; else None."""
    is_right = re.fullmatch(rb"0|[1-9][0-9]{0,9}", word)
    return int(word) if is_right and int(word) <= GREATEST else None


def number_by(pattern, value=int, greatest=GREATEST):
    """Words that the pattern matches are numbers, unless their value is too great."""

    def number(word):
        found = value(word) if re.fullmatch(pattern, word) else None
        return None if found is None or found > greatest else found

    return number


def wrapped(bits):
    """The value of a word of digits in a counter of so many bits."""
    return lambda word: int(word[-bits:]) % 2**bits


def as_python_reads(word):
    """What int() takes: signs, leading zeros, underscores, and spaces around."""
    try:
        found = int(word[:100])
    except ValueError:
        return None
    return found if 0 <= found <= GREATEST else None


def digits_in_front(word):
    """What follows the digits of a number left out."""
    found = re.match(rb"[0-9]+", word)
    return right_number(found[0]) if found else None


PLAIN = rb"0|[1-9][0-9]*"


# A program.


def spaced(numbers):
    """Numbers with one space between two."""
    return b" ".join(b"%d" % number for number in numbers)


@dataclass(frozen=True)
class Program:
    """The right version, part by part."""

    lines: Callable = ended_lines
    length: Callable = len
    body: Callable = lambda line: line[:-1] if line[-1:] == b"\n" else None
    keys: tuple = ((b"put=", "put"), (b"back=", "back"))
    words: Callable = right_words
    number: Callable = right_number
    tests: tuple = (1, 2, 5)
    longest: int = LONGEST
    count: Callable = len
    most: int = MOST
    put: Callable = first_by_slices
    back: Callable = back_by_slices
    written: Callable = lambda key, numbers: spaced(numbers) + b"\n"
    refused: Callable = lambda number: b"refused=%d\n" % number
    goes_on: Callable = lambda verdict: True


RIGHT = Program()


def read(program, line):
    """The key and the words behind it, or None."""
    body = program.body(line)
    for key, name in program.keys if body is not None else ():
        if body.startswith(key):
            return name, program.words(body[len(key) :])
    return None


def verdict_and_list(program, line):
    """The verdict on a line, its key and its list; a list is read if no test before 2 fails."""
    found = read(program, line)
    key, words = found or (None, line.split(b" "))
    numbers = []

    def is_of_another_form():
        numbers[:] = map(program.number, words)
        return found is None or None in numbers

    fails = {
        1: lambda: program.length(line) > program.longest,
        2: is_of_another_form,
        5: lambda: program.count(words) > program.most,
    }
    return next((test for test in program.tests if fails[test]()), 0), key, numbers


def printed(program, text):
    """What a version prints for an input."""
    found = []
    for line in program.lines(text):
        verdict, key, numbers = verdict_and_list(program, line)
        if verdict:
            found.append(program.refused(verdict))
        else:
            order = program.put if key == "put" else program.back
            found.append(program.written(key, order(numbers)))
        if not program.goes_on(verdict):
            break
    return b"".join(found)


def given_as(numbers):
    """Refusals with other numbers."""
    return lambda number: b"refused=%d\n" % numbers.get(number, number)


# Versions that keep something from one line to the next.


def line_kept(text):
    """The bytes of a line that is refused with 2 left in front of the next."""
    found, kept = [], b""
    for line in ended_lines(text):
        kept = kept.removesuffix(b"\n") + line
        answer = printed(RIGHT, kept)
        found.append(answer)
        kept = kept if answer == b"refused=2\n" else b""
    return b"".join(found)


def count_kept(text):
    """The numbers of all lines counted together."""
    found, count = [], 0
    for line in ended_lines(text):
        verdict, _, numbers = verdict_and_list(RIGHT, line)
        count += 0 if verdict else len(numbers)
        found.append(b"refused=5\n" if count > MOST else printed(RIGHT, line))
    return b"".join(found)


def answer_kept(text):
    """The last list printed again for a line that is refused."""
    found = []
    for line in ended_lines(text):
        answer = printed(RIGHT, line)
        lists = [x for x in found if not x.startswith(b"refused=")]
        found.append(lists[-1] if answer.startswith(b"refused=") and lists else answer)
    return b"".join(found)


def output_kept(text):
    """A list that is shorter than the one before followed by what that had beyond."""
    found, output = [], []
    for line in ended_lines(text):
        answer = printed(RIGHT, line)
        if not answer.startswith(b"refused="):
            words = answer.split()
            output = words + output[len(words) :]
            answer = b" ".join(output) + b"\n"
        found.append(answer)
    return b"".join(found)


def key_kept(text):
    """The key of the first line that has one taken for all."""
    key = next((key for key in re.findall(rb"^(?:put|back)=", text, re.M)), b"put=")
    return printed(RIGHT, re.sub(rb"(?m)^(?:put|back)=", key, text))


def lists_together(text):
    """All lists printed first, and then the refusals."""
    answers = [printed(RIGHT, line) for line in ended_lines(text)]
    return b"".join(sorted(answers, key=lambda answer: answer.startswith(b"refused=")))


OTHER_OUTPUTS = {
    "out= printed": {"written": lambda _, x: b"out=" + spaced(x) + b"\n"},
    "own key printed": {"written": lambda key, x: key.encode() + b"=" + spaced(x) + b"\n"},
    "op= printed": {"written": lambda key, x: b"op=%b\nout=%b\n" % (key.encode(), spaced(x))},
    "space behind each number": {"written": lambda _, x: b"".join(b"%d " % y for y in x) + b"\n"},
    "space before each number": {"written": lambda _, x: b"".join(b" %d" % y for y in x) + b"\n"},
    "commas": {"written": lambda _, x: spaced(x).replace(b" ", b",") + b"\n"},
    "nothing for an empty list": {"written": lambda _, x: spaced(x) + b"\n" if x else b""},
    "0 for an empty list": {"written": lambda _, x: (spaced(x) or b"0") + b"\n"},
    "no byte 10 behind a list": {"written": lambda _, x: spaced(x)},
    "CR LF printed": {"written": lambda _, x: spaced(x) + b"\r\n"},
    "NUL printed": {"written": lambda _, x: spaced(x) + b"\n\0"},
    "one number a line": {"written": lambda _, x: spaced(x).replace(b" ", b"\n") + b"\n"},
    "signed numbers": {"written": lambda _, x: spaced((y ^ 2**31) - 2**31 for y in x) + b"\n"},
    "31 bits": {"written": lambda _, x: spaced(y % 2**31 for y in x) + b"\n"},
    "nine digits": {"written": lambda _, x: spaced(y % 10**9 for y in x) + b"\n"},
    "ten digits": {"written": lambda _, x: b" ".join(b"%010d" % y for y in x) + b"\n"},
    "nothing for a refusal": {"refused": lambda _: b""},
    "an empty line for a refusal": {"refused": lambda _: b"\n"},
    "a refusal's number alone": {"refused": lambda number: b"%d\n" % number},
    "no byte 10 behind a refusal": {"refused": lambda number: b"refused=%d" % number},
    "a space in a refusal": {"refused": lambda number: b"refused= %d\n" % number},
    "two digits in a refusal": {"refused": lambda number: b"refused=%02d\n" % number},
}
OTHER_TESTS = {
    "1 and 2 exchanged": {"refused": given_as({1: 2, 2: 1})},
    "1 given as 2": {"refused": given_as({1: 2})},
    "5 given as 2": {"refused": given_as({5: 2})},
    "5 given as 1": {"refused": given_as({5: 1})},
    "5 given as 6": {"refused": given_as({5: 6})},
    "5 given as 7": {"refused": given_as({5: 7})},
    "2 before 1": {"tests": (2, 1, 5)},
    "5 before 2": {"tests": (1, 5, 2)},
    "5 before 1": {"tests": (5, 1, 2)},
    "5 before 1, 2 first": {"tests": (2, 5, 1)},
    "1 left out": {"tests": (2, 5)},
    "5 left out": {"tests": (1, 2)},
    "at most 8,191 bytes": {"longest": LONGEST - 1},
    "at most 8,193 bytes": {"longest": LONGEST + 1},
    "at most 4,096 bytes": {"longest": 4096},
    "byte 10 not counted": {"length": lambda line: len(line.removesuffix(b"\n"))},
    "byte 10 counted where it lacks": {"length": lambda line: len(line.removesuffix(b"\n")) + 1},
    "the key not counted": {"length": lambda line: len(re.sub(rb"^(?:put|back)=", b"", line))},
    "length of 16 bits": {"length": lambda line: len(line) % 65536},
    "long and not ended is 2": {"length": lambda x: len(x) if x[-1:] == b"\n" else 0},
    "at most 127 numbers": {"most": MOST - 1},
    "at most 129 numbers": {"most": MOST + 1},
    "at most 256 numbers": {"most": 256},
    "count of 8 bits": {"count": lambda words: len(words) % 256},
}
OTHER_FORMS = {
    "leading zeros taken": {"number": number_by(rb"[0-9]{1,10}")},
    "0 refused": {"number": number_by(rb"[1-9][0-9]{0,9}")},
    "00 taken": {"number": number_by(rb"0+|[1-9][0-9]{0,9}", lambda word: int(word[-10:]))},
    "plus taken": {"number": number_by(rb"\+?(?:0|[1-9][0-9]{0,9})")},
    "minus taken": {"number": number_by(rb"-?(?:0|[1-9][0-9]{0,9})", lambda x: int(x) % 2**32)},
    "-0 taken": {"number": number_by(rb"-0|0|[1-9][0-9]{0,9}")},
    "4294967295 refused": {"number": number_by(PLAIN, lambda x: int(x[:20]), GREATEST - 1)},
    "numbers from 2^31 on refused": {"number": number_by(PLAIN, lambda x: int(x[:20]), 2**31 - 1)},
    "4294967296 taken": {"number": number_by(PLAIN, lambda x: int(x[:20]), GREATEST + 1)},
    "all of ten digits taken": {"number": number_by(rb"0|[1-9][0-9]{0,9}", int, 10**10)},
    "modulo 2^32": {"number": number_by(PLAIN, wrapped(32))},
    "modulo 2^64": {"number": number_by(PLAIN, wrapped(64))},
    "great numbers cut to 4294967295": {
        "number": number_by(PLAIN, lambda word: min(int(word[:20]), GREATEST))
    },
    "ten digits looked at": {"number": number_by(PLAIN, lambda word: int(word[:10]))},
    "as Python reads": {"number": as_python_reads},
    "digits in front of others": {"number": digits_in_front},
    "an empty word is 0": {"number": lambda word: right_number(word or b"0")},
    "bytes above 127 by their low half": {
        "number": lambda word: right_number(bytes(byte & 127 for byte in word))
    },
    "superscripts are digits": {
        "number": lambda word: right_number(word.replace(b"\xb2", b"2").replace(b"\xb1", b"1"))
    },
    "several spaces taken": {"words": lambda text: re.split(b" +", text) if text else []},
    "spaces behind taken": {"words": lambda text: right_words(text.rstrip(b" "))},
    "a space behind taken": {"words": lambda text: right_words(text.removesuffix(b" "))},
    "a space before taken": {"words": lambda text: right_words(text.removeprefix(b" "))},
    "all spaces taken": {"words": bytes.split},
    "tab taken": {"words": lambda text: right_words(text.replace(b"\t", b" "))},
    "commas taken": {"words": lambda text: right_words(text.replace(b",", b" "))},
    "NUL taken for a space": {"words": lambda text: right_words(text.replace(b"\0", b" "))},
    "NUL ends a list": {"words": lambda text: right_words(text.split(b"\0", 1)[0])},
    "empty lists refused": {"words": lambda text: text.split(b" ")},
    "no key taken": {"keys": (*RIGHT.keys, (b"", "put"))},
    "v= taken": {"keys": (*RIGHT.keys, (b"v=", "put"))},
    "out= taken": {"keys": (*RIGHT.keys, (b"out=", "back"))},
    "keys without =": {"keys": (*RIGHT.keys, (b"put", "put"), (b"back", "back"))},
    "a space before =": {"keys": (*RIGHT.keys, (b"put =", "put"), (b"back =", "back"))},
    "first letters": {"keys": (*RIGHT.keys, (b"p=", "put"), (b"b=", "back"))},
    "putback= taken": {"keys": (*RIGHT.keys, (b"putback=", "back"))},
    "two keys": {"keys": ((b"put=back=", "back"), (b"back=put=", "put"), *RIGHT.keys)},
    "only put=": {"keys": RIGHT.keys[:1]},
    "only back=": {"keys": RIGHT.keys[1:]},
}


def body_of(change):
    """A change to a line that byte 10 ends, without it."""
    return {"body": lambda line: change(line[:-1]) if line[-1:] == b"\n" else None}


OTHER_BODIES = {
    "capitals taken": body_of(bytes.lower),
    "CR stripped": body_of(lambda body: body.removesuffix(b"\r")),
    "spaces around stripped": body_of(lambda body: body.strip(b" ")),
    "NULs stripped": body_of(lambda body: body.strip(b"\0")),
    "NULs left out": body_of(lambda body: body.replace(b"\0", b"")),
    "byte order mark stripped": body_of(lambda body: body.removeprefix(b"\xef\xbb\xbf")),
    "key found anywhere": body_of(lambda body: body[max(body.find(b"put="), 0) :]),
    "what follows # left out": body_of(lambda body: body.split(b"#", 1)[0]),
    "seven bits": body_of(lambda body: bytes(byte & 127 for byte in body)),
    "the last line accepted": {"body": lambda line: line.removesuffix(b"\n")},
    "the last byte lost where byte 10 lacks": {"body": lambda line: line[:-1]},
}
OTHER_LINES = {
    "the last line ignored": {"lines": without_unended},
    "the last line completed": {"lines": unended_completed},
    "one line more": {"lines": one_more_line},
    "an empty input has a line": {"lines": lambda text: ended_lines(text) or [b""]},
    "an empty input has an empty list": {"lines": lambda text: ended_lines(text) or [b"put=\n"]},
    "only the first line": {"lines": lambda text: ended_lines(text)[:1]},
    "all but the last line": {"lines": lambda text: ended_lines(text)[:-1]},
    "empty lines passed over": {"lines": lambda text: [x for x in ended_lines(text) if x != b"\n"]},
    "an empty line ends": {"lines": lambda text: ended_lines(re.split(rb"(?m)^\n", text)[0])},
    "comments passed over": {"lines": lambda text: [x for x in ended_lines(text) if x[:1] != b"#"]},
    "long lines passed over": {
        "lines": lambda text: [x for x in ended_lines(text) if len(x) <= LONGEST]
    },
    "a long line ends": {"lines": up_to_a_long_line},
    "a long line in pieces": {"lines": long_lines_in_pieces},
    "the rest of a long line": {"lines": rests_of_long_lines},
    "a long line and the next": {"lines": line_after_a_long_one_lost},
    "a refusal ends": {"goes_on": lambda verdict: verdict == 0},
    "a refusal with 2 ends": {"goes_on": lambda verdict: verdict != 2},
    "a refusal with 5 ends": {"goes_on": lambda verdict: verdict != 5},
    "NUL ends a line": {"lines": lines_by(rb"[\n\0]")},
    "CR ends a line": {"lines": lines_by(rb"[\n\r]")},
    "as Python splits lines": {"lines": lambda text: text.splitlines(keepends=True)},
    "form feed ends a line": {"lines": lines_by(rb"[\n\f]")},
    "NUL ends the input": {"lines": up_to(b"\0")},
    "byte 26 ends the input": {"lines": up_to(b"\x1a")},
    "byte 255 ends the input": {"lines": up_to(b"\xff")},
    "byte 4 ends the input": {"lines": up_to(b"\x04")},
    **{
        f"blocks of {length}": {"lines": blocks_end_lines(length)}
        for length in (512, 4096, 8192, 8193, 16384, 32768, 65536)
    },
    **{f"{length} bytes in all": {"lines": cut(length)} for length in (8192, 8193, 65536)},
}
WRONG = {
    name: partial(printed, replace(RIGHT, **parts))
    for table in (OTHER_ORDERS, OTHER_OUTPUTS, OTHER_TESTS, OTHER_FORMS, OTHER_BODIES, OTHER_LINES)
    for name, parts in table.items()
} | {
    wrong.__name__: wrong
    for wrong in (line_kept, count_kept, answer_kept, output_kept, key_kept, lists_together)
}


def check(tally, _source):
    """The right version on all vectors, and every wrong one; they are the same for every seed."""
    shortest_first = sorted(vectors(), key=lambda vector: len(vector[0]))
    for text, right in shortest_first:
        tally.equal("store in parts", text, right, printed(RIGHT, text))
    for name, wrong in WRONG.items():
        check_told(tally, KIND, name, ((right, wrong(text)) for text, right in shortest_first))
