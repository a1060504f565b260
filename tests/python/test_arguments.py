"""What C cannot take is told before the call, with the argument and the index; what it can is taken from any iterable."""

import re
import unittest
from array import array
from collections import deque
from enum import IntEnum

import zahupnik
from zahupnik import Prepared, lent
from zahupnik.declarations import CALLS, CHANGES, SIGNED, Kind, Record


class Seven:
    """A whole number by __index__, as numpy's are."""

    def __index__(self):
        return 7


class Four(IntEnum):
    FOUR = 4


FAMILY = Prepared(7, [1, 2], [0, 3], [1, 5])
GIVEN = {"m": 7, "x": 3, "m1": 101, "m2": 103, "row": 1, "operation": 0, "list": [1, 2], "first": [1], "second": [1]}
GIVEN.update({"a": [1, 2], "b": [0, 3], "c": [1, 5], "curve": [3, 0, 1], "coefficients": [1, 3, 2], "family": FAMILY})
NO_NUMBERS = (1.0, 2.5, None, "1", b"1", True, False, 1j, [1], object())
NO_LISTS = (1, 1.5, None, "12", b"12", bytearray(b"12"), {1, 2}, frozenset([1]), {1: 2}, True, object())


def face():
    """Every function of the package, its parameters that are handed in, and right arguments."""
    for name, parameters in {**CALLS, **CHANGES}.items():
        handed = [parameter for parameter in parameters if not parameter.is_written and parameter.name != "text"]
        if len(handed) < len([parameter for parameter in parameters if not parameter.is_written]):
            continue
        given = [GIVEN[parameter.name] for parameter in handed]
        if name in CHANGES:
            given = [1 if parameter.name in "abc" else value for parameter, value in zip(handed, given)]
        yield getattr(zahupnik, name), handed, given


class Told(unittest.TestCase):
    def expect(self, error, message, function, *given):
        with self.assertRaises(error) as raised:
            function(*given)
        self.assertRegex(str(raised.exception), message)

    def test_right_arguments_are_taken(self):
        self.assertEqual(len([function(*given) for function, _, given in face()]), 27)

    def test_numbers(self):
        tried = 0
        for function, handed, given in face():
            for place, parameter in enumerate(handed):
                if parameter.kind is not Kind.NUMBER:
                    continue
                for wrong in NO_NUMBERS:
                    wanted = f"^{parameter.name} is an? .*should be a whole number"
                    self.expect(TypeError, wanted, function, *given[:place], wrong, *given[place + 1 :])
                for wrong in (-1, 2**32, 2**64, -(2**31), 10**5000):
                    wanted = f"^{parameter.name} is .*should be from 0 to 4294967295"
                    self.expect(ValueError, wanted, function, *given[:place], wrong, *given[place + 1 :])
                tried += 1
        self.assertEqual(tried, 2 + 8 + 2 + 2 + 2 + 1 + 3 + 4)

    def test_lists(self):
        tried = 0
        for function, handed, given in face():
            for place, parameter in enumerate(handed):
                if parameter.kind is not Kind.READ:
                    continue
                for wrong in NO_LISTS:
                    wanted = f"^{parameter.name} is an? .*should be a list of whole numbers"
                    self.expect(TypeError, wanted, function, *given[:place], wrong, *given[place + 1 :])
                self.expect_entries(function, parameter, given, place)
                tried += 1
        self.assertEqual(tried, 6 * 4 + 2 * 3 + 4 + 6 + 2 + 4 + 2)

    def expect_entries(self, function, parameter, given, place):
        """An entry that is wrong is named by its index, in the first place and in the last, which goes before the library's own refusals."""
        least, greatest = (-(2**31), 2**31 - 1) if parameter.c_type is SIGNED else (0, 2**32 - 1)
        for at in (0, 5, 999):
            for error, wrong in [(TypeError, wrong) for wrong in NO_NUMBERS] + [(ValueError, least - 1), (ValueError, greatest + 1)]:
                entries = [1] * 1000
                entries[at] = wrong
                wanted = rf"^{parameter.name}\[{at}\] is .*should be {'a whole number' if error is TypeError else f'from {least} to'}"
                self.expect(error, wanted, function, *given[:place], entries, *given[place + 1 :])

    def test_a_list_that_fails_itself(self):
        def failing():
            yield 1
            raise RuntimeError("of the caller's own")

        self.expect(RuntimeError, "of the caller's own", zahupnik.even_first, failing())

    def test_texts(self):
        for wrong in ("mod=7", 7, None, [1], array("I")):
            self.expect(TypeError, "^text is an? .*should be bytes", zahupnik.convert_text, wrong)
            self.expect(TypeError, "^text is an? .*should be bytes", zahupnik.explain, wrong)
            self.expect(TypeError, "^data is an? .*should be bytes", Prepared.from_bytes, wrong)
        for length in (0, 3059, 3061, 6120):
            self.expect(ValueError, f"^data has {length} bytes, and should have 3060", Prepared.from_bytes, bytes(length))

    def test_what_is_lent(self):
        def lists():
            return array("I", [1, 2]), array("I", [0, 3]), array("I", [1, 5])

        output = array("I", [0] * 3)
        self.assertEqual(lent.call("norms", 7, *lists(), output), 0)
        self.expect(TypeError, "^4 arguments are lent, and should be 5: m, a, b, c, output", lent.call, "norms", 7, *lists())
        for wrong in ([0, 0, 0], array("i", [0] * 3), array("q", [0] * 3), bytearray(12), None, memoryview(output)):
            self.expect(TypeError, "^output is an? .*array of typecode 'I'", lent.call, "norms", 7, *lists(), wrong)
            self.expect(TypeError, "^a is an? .*array of typecode 'I'", lent.call, "norms", 7, wrong, *lists()[1:], output)
        self.expect(TypeError, "^output is .*typecode 'q'", lent.call, "join", 2, 3, *lists()[:2], output)
        self.expect(ValueError, "^output is written", lent.call, "norms", 7, output, *lists()[1:], output)
        one = array("I", [0])
        self.expect(ValueError, "^inverse is written", lent.call, "invert", 7, 3, one, one)
        self.expect(ValueError, "^inverse has 0 numbers", lent.call, "invert", 7, 3, array("I"), one)
        self.expect(ValueError, "^factor has 3 numbers", lent.call, "invert", 7, 3, one, output)
        self.expect(ValueError, "^m is -1, ", lent.call, "invert", -1, 3, one, array("I", [0]))
        self.expect(TypeError, "^family is a Prepared, and should be a Record", lent.call, "prepared_norms", FAMILY, output)
        self.expect(KeyError, "nothing", lent.call, "nothing")
        record = Record.from_buffer_copy(bytes(FAMILY))
        self.assertEqual(lent.call("prepared_norms", record, output), 0)
        self.assertEqual(output.tolist(), [1, 1, 5])

    def test_methods_on_something_else(self):
        for function, handed, given in face():
            if handed[:1] and handed[0].name == "family":
                for wrong in (5, None, bytes(FAMILY), Record.from_buffer_copy(bytes(FAMILY))):
                    self.expect(TypeError, "^family is an? .*, and should be a Prepared", function, wrong, *given[1:])


class Taken(unittest.TestCase):
    def test_iterables(self):
        curve, wanted = [3, 0, 1], [1, 3, 2]
        kinds = (tuple, deque, iter, lambda x: (i for i in x), lambda x: array("I", x), lambda x: array("q", x), lambda x: array("b", x))
        views = (lambda x: memoryview(array("I", x)), lambda x: dict.fromkeys(x).keys(), lambda x: map(int, x))
        for kind in (*kinds, *views):
            self.assertEqual(zahupnik.plain_expand(7, [1, 2], [0, 3], [1, 5], kind(curve)), wanted)
        self.assertEqual(zahupnik.even_first(range(5)), [0, 2, 4, 1, 3])

    def test_indices(self):
        self.assertEqual(zahupnik.plain_expand(Seven(), [1, 2], [0, 3], [1, 5], [3, 0, 1]), [1, 3, 2])
        self.assertEqual(zahupnik.even_first([Seven(), Four.FOUR, 9]), [7, 9, 4])
        self.assertEqual(zahupnik.write_job(7, [], [], [], zahupnik.Operation.NORMS), b"mod=7\na=\nb=\nc=\nop=norms\nv=\n")
        self.assertEqual(zahupnik.write_job(7, [], [], [], Four.FOUR), b"mod=7\na=\nb=\nc=\nop=norms\nv=\n")

    def test_bytes(self):
        job = b"mod=7\na=1 2\nb=0 3\nc=1 5\nop=expand\nv=3 0 1\n"
        for kind in (bytes, bytearray, memoryview):
            self.assertEqual(zahupnik.convert_text(kind(job)), b"op=expand\nout=1 3 2\n")

    def test_what_is_handed_in_stays_as_it_is(self):
        lists = [array("I", numbers) for numbers in ([1, 2], [0, 3], [1, 5], [3, 0, 1])]
        copies = [numbers[:] for numbers in lists]
        given = zahupnik.plain_expand(7, *lists)
        self.assertEqual(lists, copies)
        self.assertIs(type(given), list)
        self.assertTrue(all(type(number) is int for number in given))

    def test_greatest_and_least(self):
        self.assertEqual(zahupnik.even_back([2**32 - 1, 0]), [2**32 - 1, 0])
        m1, m2 = 2147483647, 2147483646
        self.assertEqual(zahupnik.expand_join(m1, m2, [], [], [], [-(2**31)]), [-(2**31)])
        self.assertEqual(zahupnik.expand_join(m1, m2, [], [], [], [2**31 - 1]), [2**31 - 1])
        self.assertEqual(zahupnik.join(m1, m2, [0], [m2 // 2]), [m1 * m2 // 2])

    def test_a_million_remainders(self):
        values = [(i * 7919) % 10403 - 5201 for i in range(1000000)]
        self.assertEqual(zahupnik.join(101, 103, [v % 101 for v in values], array("I", [v % 103 for v in values])), values)

    def test_messages_are_one_line(self):
        for wrong in ("x" * 10000, 10**5000, [object()] * 3):
            with self.assertRaises((TypeError, ValueError)) as raised:
                zahupnik.even_first(wrong if isinstance(wrong, (str, list)) else [wrong])
            self.assertTrue(re.fullmatch("[^\n]{1,120}", str(raised.exception)), raised.exception)
