"""What the package says of C, held against the headers: functions, numbers, names, words, the layout of a record, the version."""

import ctypes
import os
import subprocess
import unittest

import header
import zahupnik
from zahupnik import Operation, Refusal, Refused, declarations
from zahupnik.declarations import CALLS, CHANGES, Change, Record
from zahupnik.library import dotted, library


def facts():
    """The lines of facts.c, each as words; the last of them may have spaces."""
    program = os.path.join(os.environ["ZAHUPNIK_BUILT"], "facts")
    printed = subprocess.run([program], stdout=subprocess.PIPE, check=True, text=True).stdout
    return [line.split(" ", 2) for line in printed.splitlines()]


class Functions(unittest.TestCase):
    def test_prototypes(self):
        """Return types, names, order and types of all parameters are the header's."""
        ours = {}
        for functions, returned in ((CALLS, "uint32_t"), (CHANGES, "struct zahupnik_change")):
            for name, parameters in functions.items():
                in_c = ", ".join(parameter.in_c() for parameter in parameters) or "void"
                ours[name] = f"{returned} zahupnik_{name}({in_c})"
        self.assertEqual(ours, header.prototypes())
        self.assertEqual(len(ours), 28)

    def test_ctypes_is_told_each_parameter(self):
        told = {"uint32_t": ctypes.c_uint32, "size_t": ctypes.c_size_t, "struct zahupnik_prepared": Record}
        for name, prototype in header.prototypes().items():
            function = getattr(library(), f"zahupnik_{name}")
            parameters = [word.strip() for word in prototype.partition("(")[2].rstrip(")").split(",") if word != "void"]
            wanted = [ctypes.c_void_p if "*" in word else told[word.rpartition(" ")[0]] for word in parameters]
            self.assertEqual(list(function.argtypes), wanted, name)
            self.assertIs(function.restype, Change if name in CHANGES else ctypes.c_uint32, name)

    def test_every_function_has_its_name_in_the_package(self):
        for name in header.prototypes():
            self.assertIn(name, zahupnik.__all__)
            self.assertTrue(callable(getattr(zahupnik, name)), name)

    def test_parameters_of_the_face(self):
        """A function of the package takes what C reads, by the header's names and in its order, and no more."""
        for name, parameters in {**CALLS, **CHANGES}.items():
            function = getattr(zahupnik, name)
            ours = list(function.__code__.co_varnames[: function.__code__.co_argcount])
            wanted = [parameter.name for parameter in parameters if not parameter.is_written]
            self.assertEqual(ours, ["self" if word == "family" else word for word in wanted], name)


class Numbers(unittest.TestCase):
    def test_numbers(self):
        ours = {name: getattr(declarations, name) for name in header.numbers() if hasattr(declarations, name)}
        ours.update({operation.name: int(operation) for operation in Operation})
        ours.update({f"REFUSED_{refusal.name}": int(refusal) for refusal in Refusal})
        ours.update(zip(("VERSION_MAJOR", "VERSION_MINOR", "VERSION_PATCH"), map(int, zahupnik.__version__.split("."))))
        self.assertEqual(ours, header.numbers())
        self.assertEqual(len(ours), 8 + 5 + 20 + 3)

    def test_names_in_the_comments(self):
        for pairs in header.refusals().values():
            for name, number in pairs:
                self.assertEqual(Refusal[name], number)

    def test_words(self):
        words = {int(number): said for kind, number, said in (fact for fact in facts() if fact[0] == "words")}
        self.assertEqual(sorted(words), list(range(22)))
        for number in range(1, 22):
            self.assertEqual(Refused(number).words, words[number])
        self.assertEqual([refusal.words for refusal in Refusal], [words[number] for number in range(1, 21)])

    def test_record(self):
        layout = {"prepared": Record, "change": Change}
        fields = [fact for fact in facts() if fact[0] == "field"]
        for _, struct, place in fields:
            field, offset = place.split()
            self.assertEqual(getattr(layout[struct], field).offset, int(offset), field)
        self.assertEqual(len(fields), len(Record._fields_) + len(Change._fields_))
        sizes = {fact[1]: int(fact[2]) for fact in facts() if fact[0] == "size"}
        self.assertEqual(sizes, {"prepared": 3060, "change": 3064})
        self.assertEqual({name: ctypes.sizeof(struct) for name, struct in layout.items()}, sizes)

    def test_version(self):
        (version,) = (int(fact[1]) for fact in facts() if fact[0] == "version")
        self.assertEqual(zahupnik.version(), version)
        self.assertEqual(dotted(version), zahupnik.__version__)
