"""The cases of the vectors for the program `store`, the same in every run.

A case is a whole input. Most have the line that is tried between two good ones, so
that what comes after a refusal is seen too. Some end without byte 10. The length
of a line is counted with its byte 10.
"""

from itertools import product

from check_texts import INSERTED
from ordered_cases import ENDS, GREATEST, random_number, random_numbers
from splitmix import SplitMix64

SEED = 20240308
KEYS = PUT, BACK = b"put=", b"back="
BEFORE, AFTER = b"put=5 6 7\n", b"back=8 9 10 11\n"

SHORT_INPUTS = (
    *(b"", b"\n", b"\n\n", b"\n\n\n", b"\n" * 300, b" ", b" \n", b"\0", b"\0\n", b"\r", b"\r\n"),
    *(b"put=", b"back=", b"put", b"back", b"p", b"b", b"=", b"1", b"put=\nback=", b"put=\nb"),
    *(b"put=\n", b"back=\n", b"put=\nput=\n", b"put=\nback=\nput=\nback=\n", b"put=0\n", b"\xff\n"),
    *(b"put=1 2 3", b"back=1 2 3", b"put=1 2 3\nback=1 3 2", b"put=1\nput=2\nput=3", b"x\nput=1"),
    *(b"put=1 2 3 4 5\nback=1 3 5 2 4\n", b"put=0 92 0 15\nback=0 0 92 15\n"),
)
WRONG_KEYS = (
    *(b"Put=", b"PUT=", b"puT=", b"pUt=", b"put =", b"put", b"puts=", b"pu=", b"ut=", b"p="),
    *(b"Back=", b"BACK=", b"bacK=", b"back =", b"back", b"backs=", b"bac=", b"ack=", b"b="),
    *(b"pput=", b"bback=", b"v=", b"out=", b"op=", b"a=", b"mod=", b"op=put\nv=", b"=", b"", b"=="),
    *(b"put==", b"back==", b"putback=", b"backput=", b"put=back=", b"back=put=", b"put=put="),
    *(b"back back=", b"put= put=", b"put:", b"put:=", b"put-", b"put ", b"'put'=", b'"put='),
    *(b"\\put=", b"even=", b"refused=", b"#put=", b" put=", b" back=", b"\tput=", b"\0put="),
    *(b"put\0=", b"back\0=", b"\rput=", b"\xef\xbb\xbfput=", b"put\xbd", b"\xf0\xf5\xf4="),
    *(b"pet=", b"but=", b"pack=", b"buck=", b"base=", b"puck=", b"kcab=", b"tup="),
)
NUMBERS = (
    *(b"0", b"1", b"9", b"10", b"11", b"99", b"100", b"101", b"999999999", b"1000000000"),
    *(b"3294967296", b"3999999999", b"4194967295", b"4294959999", b"4294967199", b"4294967289"),
    *(b"%d" % number for number in ENDS),
)
WRONG_NUMBERS = (
    *(b"", b"00", b"01", b"000", b"007", b"0000000000", b"0000000001", b"00000000001"),
    *(b"04294967295", b"0" * 1000, b"0" * 999 + b"7", b"+1", b"-1", b"+0", b"-0", b"+", b"-"),
    *(b"1-", b"1+1", b"--1", b"-4294967295", b"+4294967295", b"1.", b"1.0", b".5", b"1,2", b"1,"),
    *(b"1;2", b"1e3", b"1E3", b"1_000", b"1'000", b"0x1", b"0b1", b"0o7", b"a", b"x1", b"1x"),
    *(b"0a", b"l", b"O", b"NaN", b"inf", b"1/2", b"1:2", b"(1)", b'"1"', b"one", b"1\\n2"),
    *(b"4294967296", b"4294967297", b"4294967299", b"4294967300", b"4295000000", b"4300000000"),
    *(b"5000000000", b"8589934592", b"9999999999", b"10000000000", b"42949672950", b"99999999999"),
    *(b"%d" % (2**bits + more) for bits in (63, 64, 65, 128) for more in (-1, 0, 1)),
    *(b"18446744077999999999", b"1" * 20, b"9" * 40, b"1" + b"0" * 64, b"1" + b"0" * 99 + b"1"),
    *(b"4294967295" * 2, b"7" * 1000, b"1\0", b"\0", b"\x001", b"\xb1", b"\xb2", b"1\xb2"),
    *(b"\xd9\xa1", b"\xef\xbc\x91", b"\x80", b"\xff", b"1\xff", b"\x7f", b"1\x1a"),
)
SPACES = (
    *(b" ", b"  ", b" 1", b"1 ", b"1  2", b"1 2 ", b" 1 2", b"  1", b"1  ", b"1   2", b"1 2  3"),
    *(b"1  2 3", b"\t", b"1\t2", b"\t1", b"1\t", b"1 \t2", b"1\v2", b"1\f2", b"1\r2", b"1\r"),
    *(b"\r", b"1 2\r", b"1 \r", b"1\xa02", b"1\xc2\xa02", b"1\xe3\x80\x802", b"1\x852"),
    *(b"1\xe2\x80\xa82", b"1\x1c2", b"1\0 2", b"1 2\0", b"1 2\0 3", b"\x001 2", b"1,2", b"1, 2"),
    *(b"1 ,2", b"1;2", b"1|2", b"1=2", b"=1", b"1="),
)
BASES = (
    b"put=3 0 12\nback=4 70\n",
    b"back=1 20\n\nput=\nput=6",
    b"put=4294967295\nback=10 4294967295\n",
)
BYTES_AT_A_PLACE = 4
COUNTS = (*range(131), 200, 255, 256, 257, 258, 384, 385, 512, 1000)
LONGEST = 8192
FAR_TOO_LONG = (8195, 8200, 12288, 16383, 16384, 16385, 16386, 16387, 20000, 32769, 65536, 65537)
BLOCKS = (512, 1024, 4096, 8192, 16384)
LARGE_BLOCKS = (32768, 65536)


def listed(numbers):
    """Numbers with one space between two."""
    return b" ".join(b"%d" % number for number in numbers)


def between(line):
    """An input with this line, which is without its byte 10, between good ones."""
    return BEFORE + line + b"\n" + AFTER


def last(line):
    """An input that ends with these bytes, after a good line."""
    return BEFORE + line


# Lists.


def counts():
    """Lists of the indices, of every length, by both keys."""
    for count in COUNTS:
        yield b"".join(key + listed(range(count)) + b"\n" for key in KEYS)
    for key, count in product(KEYS, (0, 1, 2, 5, 127, 128, 129, 130, 256)):
        line = key + listed(range(count))
        yield from (between(line), last(line))


def greatest_lists():
    """The longest lines that are taken; one number less and more, and one that is too great."""
    for key, count in product(KEYS, (127, 128, 129)):
        line = key + listed([GREATEST] * count)
        yield from (line + b"\n", between(line), last(line))
        yield from (between(line + b"0"), between(line[:-1] + b"6"))


def random_lists(source):
    """Random lists, several lines each."""
    for turn in range(100):
        longest = 9 if turn % 5 else 129
        lengths = [source.below(longest) for _ in range(1 + source.below(6))]
        lists = [listed(random_numbers(source, length)) for length in lengths]
        yield b"".join(source.choice(KEYS) + line + b"\n" for line in lists)


# Long lines.


def of_the_form(key, length):
    """The line of this length that is of the form and has as many numbers as it can have."""
    room = length - len(key) - 1
    return key + b" ".join([b"1"] * ((room + 1) // 2)) + (b"0" if room % 2 == 0 else b"") + b"\n"


def damaged(line):
    """The line with something else in it, as long as before: its key, its numbers, its end."""
    yield b"P" + line[1:]
    yield line.replace(b"1 1", b"011", 1)
    yield line[:300] + b"\0" + line[301:]
    for byte in (b" ", b"\r", b"x"):
        yield line[:-2] + byte + b"\n"


def at_the_limit():
    """Lines of about 8,192 bytes: of the form, of another, not ended; and of one byte alone."""
    for key, length in product(KEYS, (8191, 8192, 8193, 8194)):
        line = of_the_form(key, length)
        yield from (line, BEFORE + line + AFTER, line[:-1], last(line[:-1] + b"1"))
    for length in (8192, 8193):
        yield from (line + AFTER for line in damaged(of_the_form(PUT, length)))
        for byte in (b"7", b" ", b"="):
            yield BACK + byte * (length - len(BACK) - 1) + b"\n" + AFTER
            yield byte * length
    yield b"\0" * LONGEST + b"\n" + AFTER


def two_long_lines():
    """A line of 8,192 bytes before and after one that is too long, and two that are."""
    longest, too_long = (of_the_form(PUT, length) for length in (LONGEST, LONGEST + 1))
    yield from (longest + too_long + AFTER, too_long + longest + AFTER)
    yield from (too_long + too_long + AFTER, too_long + too_long[:-1], too_long + b"\n" + AFTER)


def far_too_long():
    """Lines that are far too long, some with a good line behind their first 8,192 bytes."""
    for place, length in enumerate(FAR_TOO_LONG):
        line = of_the_form(KEYS[place % 2], length)
        yield BEFORE + line + AFTER
        if length < 13000:
            yield line[:-1]
    for length in (LONGEST - 1, LONGEST, LONGEST + 1, 2 * LONGEST):
        yield b"7" * length + b"put=1 2 3\n" + AFTER


# Numbers, spaces and keys.


def at_places(word):
    """Lists with this word alone, first, in the middle and last."""
    return (word, word + b" 2 3", b"1 " + word + b" 3", b"1 2 " + word)


def numbers():
    """Numbers at an edge, and words that are none, in each place and by both keys."""
    for key, word in product(KEYS, NUMBERS):
        yield b"".join(key + line + b"\n" for line in at_places(word))
    for word in WRONG_NUMBERS:
        yield from (between(PUT + line) for line in at_places(word))
        yield b"".join(BACK + line + b"\n" for line in at_places(word))
        if len(word) < 30:
            yield last(PUT + word)


def spaces():
    """Spaces, and what looks like one, where none may stand."""
    for key, line in product(KEYS, SPACES):
        yield between(key + line)
    for line in SPACES:
        yield from (last(PUT + line), line + b"\n" + AFTER)


def keys():
    """Other keys, with lists and without."""
    for key in WRONG_KEYS:
        yield between(key + b"1 2 3")
        yield b"".join(key + line + b"\n" for line in (b"", b"0", b"4 5"))


def every_byte():
    """Every byte between two numbers, for a number, in a key, before one, behind a number, last."""
    for byte in range(256):
        one = bytes([byte])
        lines = (b"put=1%b2", b"back=%b", b"pu%b=1", b"%bput=1", b"back=1%b")
        yield b"".join(line % one + b"\n" for line in lines) + AFTER + one


def too_many_and_damaged():
    """128 numbers and more, and damage before or behind them."""
    for key, count in product(KEYS, (128, 129, 200)):
        good = listed([1] * count)
        for word in (b" ", b" 01", b"x", b" 4294967296", b"\r"):
            yield between(key + good + word)
        yield from (between(key + b"01 " + good), between(key + b" " + good))
        yield from (between(b"x" + key + good), last(key + good))


# Lines among others.


def near(source, text):
    """Inputs one byte away, and those that break off."""
    for place in range(len(text)):
        yield text[:place]
        yield text[:place] + text[place + 1 :]
        for _ in range(BYTES_AT_A_PLACE):
            yield text[:place] + bytes([source.below(256)]) + text[place + 1 :]
        for byte in (10, 32, source.choice(INSERTED), source.choice(INSERTED)):
            yield text[:place] + bytes([byte]) + text[place:]
    for byte in INSERTED:
        yield text + bytes([byte])


def random_line(source):
    """A line of a random kind, without its byte 10."""
    key, kind = source.choice(KEYS), source.below(8)
    if kind < 3:
        return key + listed(random_numbers(source, source.below(9)))
    if kind == 3:
        return key + listed(range(126 + source.below(6)))
    if kind == 4:
        return source.choice(WRONG_KEYS).replace(b"\n", b" ") + b"%d" % random_number(source)
    if kind == 5:
        return key + b"1 " + source.choice(WRONG_NUMBERS)
    if kind == 6:
        return key + source.choice(SPACES)
    return source.choice((b"", key))


def mixed(source):
    """Lines of all kinds in any order, the last not ended in some, one too long in a few."""
    for turn in range(160):
        lines = [random_line(source) for _ in range(1 + source.below(12))]
        if turn % 16 == 0:
            too_long = of_the_form(PUT, LONGEST + 1 + source.below(3))
            lines.insert(source.below(len(lines) + 1), too_long[:-1])
        yield b"\n".join(lines) + (b"\n" if source.below(3) else b"")


def good_lines(source, length):
    """Good lines of this many bytes in all."""
    text = b""
    while len(text) < length - 200:
        text += source.choice(KEYS) + listed(random_numbers(source, source.below(12))) + b"\n"
    while length - len(text) >= 2 * len(b"put=\n"):
        text += b"put=\n"
    return text + b"put=%b\n" % b"1234"[: length - len(text) - 5]


def blocks(source):
    """Byte 10 as the last byte of a block, as the one before it, and as the first of the next."""
    for block, more in product(BLOCKS, (-1, 0, 1)):
        yield good_lines(source, block + more) + BEFORE + AFTER + b"x\nput="
    for block in LARGE_BLOCKS:
        yield good_lines(source, block) + BEFORE + AFTER
    yield good_lines(source, 70000)


def line_cases():
    """All cases in their order, none of them twice."""
    source = SplitMix64(SEED)
    found = [*SHORT_INPUTS, *counts(), *greatest_lists(), *random_lists(source)]
    found += [*at_the_limit(), *two_long_lines(), *far_too_long(), *too_many_and_damaged()]
    found += [*numbers(), *spaces(), *keys(), *every_byte()]
    for text in BASES:
        found += near(source, text)
    found += [*mixed(source), *blocks(source)]
    return list(dict.fromkeys(found))
