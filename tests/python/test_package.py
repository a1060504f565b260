"""Refused, Prepared, threads, the examples of the docstrings and of README.md, and where the library is looked for."""

import copy
import doctest
import importlib
import os
import pathlib
import pickle
import pkgutil
import shutil
import subprocess
import sys
import tempfile
import threading
import unittest
from array import array
from unittest import mock

import header
import zahupnik
from zahupnik import NoLibrary, Prepared, Refusal, Refused, lent, library

TOP = pathlib.Path(__file__).parents[2]
BUILT = pathlib.Path(os.environ["ZAHUPNIK_BUILT"]).absolute()
LIBRARY = BUILT / "lib" / "libzahupnik.so.1"
FAMILY = Prepared(7, [1, 2], [0, 3], [1, 5])


def modules():
    """The package's modules but the command line's."""
    names = [module.name for module in pkgutil.iter_modules(zahupnik.__path__) if module.name != "__main__"]
    return [zahupnik, *(importlib.import_module(f"zahupnik.{name}") for name in names)]


class Examples(unittest.TestCase):
    def test_docstrings(self):
        run = sum(doctest.testmod(module).attempted for module in modules())
        self.assertGreaterEqual(run, 45)
        self.assertEqual([doctest.testmod(module).failed for module in modules()], [0] * len(modules()))

    def test_readme(self):
        for path, least in ((TOP / "python" / "README.md", 18), (TOP / "README.md", 3)):
            failed, attempted = doctest.testfile(str(path), module_relative=False)
            self.assertEqual(failed, 0, path)
            self.assertGreaterEqual(attempted, least, path)

    def test_every_call_has_an_example(self):
        for name in header.prototypes():
            self.assertIn(">>> ", getattr(zahupnik, name).__doc__, name)


class Refusals(unittest.TestCase):
    def test_carries_number_and_words(self):
        with self.assertRaises(Refused) as raised:
            zahupnik.norms(7, [1, 7], [0, 3], [1, 5])
        refused = raised.exception
        self.assertIs(refused.number, Refusal.ENTRY)
        self.assertEqual(refused.words, Refusal.ENTRY.words)
        self.assertEqual(str(refused), f"refused with 9: {Refusal.ENTRY.words}")
        self.assertIsNone(refused.factor)

    def test_factor(self):
        for x, factor in ((0, 15), (6, 3), (10, 5)):
            with self.assertRaises(Refused) as raised:
                zahupnik.invert(15, x)
            self.assertEqual((raised.exception.number, raised.exception.factor), (13, factor))
        with self.assertRaises(Refused) as raised:
            zahupnik.invert(15, 15)
        self.assertEqual((raised.exception.number, raised.exception.factor), (12, None))

    def test_pickled(self):
        for refused in (Refused(13, 5), Refused(9), Refused(99)):
            back = pickle.loads(pickle.dumps(refused))
            self.assertEqual((back.number, back.words, back.factor), (refused.number, refused.words, refused.factor))

    def test_a_number_of_a_later_library(self):
        with mock.patch.object(zahupnik.lent, "call", return_value=99), self.assertRaises(Refused) as raised:
            zahupnik.norms(7, [], [], [])
        self.assertEqual(raised.exception.number, 99)
        self.assertTrue(raised.exception.words)


class Records(unittest.TestCase):
    def test_rows_given_or_appended(self):
        self.assertEqual(Prepared(7).append(1, 0, 1).append(2, 3, 5), FAMILY)
        self.assertEqual((FAMILY.a, FAMILY.b, FAMILY.c), ([1, 2], [0, 3], [1, 5]))
        self.assertEqual((FAMILY.a_inverses, FAMILY.c_inverses), ([1, 4], [0, 3]))
        self.assertEqual(Prepared(7, a=iter([1, 2]), b=(0, 3), c=[1, 5]), FAMILY)

    def test_rows_are_refused_as_lists_are(self):
        ones = [1] * 128
        cases = [(1, [], [], []), (7, [1], [1, 1], [1]), (7, ones, ones, ones), (7, [7], [0], [0]), (7, [0], [0], [0])]
        cases += [(15, [3], [0], [0]), (7, [1, 1], [0, 0], [0, 0]), (15, [1, 1], [0, 0], [0, 3])]
        for case, number in zip(cases, (3, 4, 5, 9, 17, 10, 18, 11)):
            with self.assertRaises(Refused) as raised:
                Prepared(*case)
            self.assertEqual(raised.exception.number, number)

    def test_a_refused_change_changes_nothing(self):
        before = bytes(FAMILY)
        for change, number in ((lambda: FAMILY.append(7, 0, 1), 9), (lambda: FAMILY.replace(3, 1, 0, 1), 16)):
            with self.assertRaises(Refused) as raised:
                change()
            self.assertEqual(raised.exception.number, number)
        with self.assertRaises(Refused) as raised:
            Prepared(7).drop_last()
        self.assertEqual(raised.exception.number, 15)
        self.assertEqual(bytes(FAMILY), before)

    def test_it_does_not_change(self):
        changed = FAMILY.replace(2, 4, 0, 6)
        self.assertEqual(FAMILY, Prepared(7, [1, 2], [0, 3], [1, 5]))
        self.assertEqual(changed.replace(2, 2, 3, 5), FAMILY)
        for name in ("modulus", "rows", "a", "norms", "other"):
            with self.assertRaises(AttributeError):
                setattr(FAMILY, name, 1)
        FAMILY.a.append(3)
        self.assertEqual(FAMILY.a, [1, 2])

    def test_equal_and_hashed(self):
        same = Prepared(7, [1, 2], [0, 3], [1, 5])
        self.assertEqual(len({FAMILY, same, Prepared(7)}), 2)
        self.assertNotEqual(FAMILY, FAMILY.drop_last())
        self.assertNotEqual(FAMILY, bytes(FAMILY))
        self.assertIsNot(FAMILY, same)

    def test_copied_stored_and_shown(self):
        for other in (copy.copy(FAMILY), copy.deepcopy(FAMILY), pickle.loads(pickle.dumps(FAMILY))):
            self.assertEqual(other, FAMILY)
        self.assertEqual(len(bytes(FAMILY)), 3060)
        self.assertEqual(Prepared.from_bytes(bytearray(bytes(FAMILY))), FAMILY)
        self.assertEqual(repr(FAMILY), "Prepared(7, a=[1, 2], b=[0, 3], c=[1, 5])")
        self.assertEqual(eval(repr(FAMILY)), FAMILY)

    def test_a_damaged_record_is_refused_by_every_call(self):
        for place in (0, 4, 8, 1532, 2544, 2548, 3056):
            data = bytearray(bytes(FAMILY))
            data[place + 3] = 255
            damaged = Prepared.from_bytes(data)
            self.assertFalse(damaged.is_right())
            self.assertIn("not the record of its own rows", repr(damaged))
            self.assertLessEqual(len(damaged.a), 127)
            for name in header.prototypes():
                if not name.startswith("prepared_") or name == "prepared_empty":
                    continue
                given = {"append": [1, 0, 1], "drop_last": [], "replace": [1, 1, 0, 1], "norms": [], "moments": []}
                with self.assertRaises(Refused) as raised:
                    getattr(zahupnik, name)(damaged, *given.get(name[9:], [[3, 0, 1]]))
                self.assertEqual(raised.exception.number, Refusal.RECORD)
            self.assertEqual(pickle.loads(pickle.dumps(damaged)), damaged)


class Threads(unittest.TestCase):
    def test_side_by_side(self):
        """Each thread converts families of its own, there and back, by every way; what one gets is not another's."""
        wrong = []

        def convert(seed):
            m, rows = 2147483647 - seed, 40 + seed
            a, b, c = ([(seed * i * k + 1) % 1000 * 2 + 1 for i in range(rows)] for k in (3, 5, 7))
            curve = [(seed + i) ** 5 % m for i in range(rows + 1)]
            try:
                family = Prepared(m, a, b, c)
            except Refused:
                m, family = 2147483647, Prepared(2147483647, a, b, c)
            for _ in range(30):
                powers = zahupnik.tree_expand(m, a, b, c, curve)
                ways = [zahupnik.tree_decompose(m, a, b, c, powers), family.plain_decompose(powers), family.tree_decompose(powers)]
                text = zahupnik.convert_text(zahupnik.write_job(m, a, b, c, 2, powers))
                if ways != [curve] * 3 or text != b"op=decompose\nout=" + " ".join(map(str, curve)).encode() + b"\n":
                    wrong.append(seed)

        threads = [threading.Thread(target=convert, args=(seed,)) for seed in range(8)]
        for thread in threads:
            thread.start()
        for thread in threads:
            thread.join()
        self.assertEqual(wrong, [])

    def test_the_lock_is_released(self):
        """Another thread goes on while one is in the library: with no switch between two of Python's steps, that can be only there."""
        count = 4000000
        lists = array("I", bytes(4 * count)), array("I", bytes(4 * count)), array("q", bytes(8 * count))
        begun, ended = threading.Event(), threading.Event()

        def join_long():
            begun.set()
            lent.call("join", 2147483647, 2147483646, *lists)
            ended.set()

        thread = threading.Thread(target=join_long)
        interval = sys.getswitchinterval()
        sys.setswitchinterval(1000)
        try:
            thread.start()
            begun.wait()
            went_on = not ended.is_set()
        finally:
            sys.setswitchinterval(interval)
            thread.join()
        self.assertTrue(went_on)


def run_python(program, python=TOP / "python", **environment):
    """What a program prints that has the package on its path, and the library only as the environment says."""
    clean = {name: value for name, value in os.environ.items() if not name.startswith("ZAHUPNIK_") and name != "LD_LIBRARY_PATH"}
    return subprocess.run(
        [sys.executable, "-B", "-c", program],
        env={**clean, "PYTHONPATH": str(python), **{name: str(value) for name, value in environment.items()}},
        stdout=subprocess.PIPE,
        stderr=subprocess.PIPE,
        text=True,
        check=False,
    )


class Library(unittest.TestCase):
    """Where the library is looked for, and which are taken."""

    SHOW = "import zahupnik; print(zahupnik.norms(7, [1, 2], [0, 3], [1, 5]), zahupnik.library_path())"

    def setUp(self):
        self.folder = pathlib.Path(tempfile.mkdtemp(dir=BUILT))
        self.addCleanup(shutil.rmtree, self.folder)

    def copied_package(self, place):
        shutil.copytree(TOP / "python" / "zahupnik", self.folder / place / "zahupnik", ignore=shutil.ignore_patterns("__pycache__"))
        return self.folder / place

    def copied_library(self, place):
        (self.folder / place).mkdir(parents=True, exist_ok=True)
        shutil.copy(LIBRARY, self.folder / place)
        return self.folder / place / LIBRARY.name

    def compiled(self, name, source, *words):
        """A shared library of a text of C, and what else cc is told."""
        made = self.folder / name
        subprocess.run(["cc", "-shared", "-fPIC", "-o", made, "-x", "c", "-", *words], input=source.encode(), check=True)
        return made

    def shim(self, version):
        """A library of another version, with every function of the real one."""
        source = f"unsigned zahupnik_version(void) {{ return {version}; }}"
        return self.compiled(f"version{version}.so", source, "-x", "none", "-Wl,--no-as-needed", LIBRARY, f"-Wl,-rpath,{LIBRARY.parent}")

    def expect_taken(self, run, place):
        self.assertEqual((run.stdout, run.stderr), (f"[1, 1, 5] {place}\n", ""))

    def expect_none(self, run, *said):
        self.assertEqual(run.returncode, 1)
        self.assertIn("zahupnik.NoLibrary: ", run.stderr)
        for words in said:
            self.assertIn(words, run.stderr)

    def test_named(self):
        self.expect_taken(run_python(self.SHOW, ZAHUPNIK_LIBRARY=LIBRARY), LIBRARY)

    def test_named_and_not_there(self):
        package = self.copied_package("share/zahupnik/python")
        self.copied_library("lib")
        run = run_python(self.SHOW, package, ZAHUPNIK_LIBRARY="/nowhere/libzahupnik.so.1")
        self.expect_none(run, "/nowhere/libzahupnik.so.1: there is no such file", "ZAHUPNIK_LIBRARY")

    def test_beside_the_package(self):
        package = self.copied_package("somewhere")
        place = self.copied_library("somewhere/zahupnik")
        self.expect_taken(run_python(self.SHOW, package), place)

    def test_in_the_archive(self):
        package = self.copied_package("share/zahupnik/python")
        place = self.copied_library("lib")
        self.expect_taken(run_python(self.SHOW, package), place)

    def test_in_the_repository(self):
        package = self.copied_package("python")
        place = self.copied_library("target/lib")
        self.expect_taken(run_python(self.SHOW, package), place)

    def test_in_the_prefix(self):
        package = self.copied_package("somewhere")
        show = f"import sys; sys.prefix = {str(self.folder)!r}; {self.SHOW}"
        place = self.copied_library("lib")
        self.expect_taken(run_python(show, package), place)

    def test_by_the_loader(self):
        package = self.copied_package("somewhere")
        folder = self.copied_library("other").parent
        self.expect_taken(run_python(self.SHOW, package, LD_LIBRARY_PATH=folder), "libzahupnik.so.1")

    def test_an_unfit_one_is_passed_over(self):
        package = self.copied_package("share/zahupnik/python")
        shutil.copy(self.shim(20000), self.folder / "share/zahupnik/python/zahupnik" / LIBRARY.name)
        place = self.copied_library("lib")
        self.expect_taken(run_python(self.SHOW, package), place)

    def test_nowhere(self):
        package = self.copied_package("share/zahupnik/python")
        run = run_python(self.SHOW, package)
        self.expect_none(run, f"{self.folder}/lib/libzahupnik.so.1: there is no such file", "Build the library", "ZAHUPNIK_LIBRARY")

    def test_import_needs_no_library(self):
        run = run_python("import zahupnik; print(zahupnik.Refusal.ENTRY.words[:8], zahupnik.__version__)", ZAHUPNIK_LIBRARY="/nowhere")
        self.assertEqual((run.stdout, run.stderr), (f"a number {zahupnik.__version__}\n", ""))

    def test_other_versions(self):
        for version in (10000, 10001, 10099, 10100, 19999):
            made = self.shim(version)
            self.expect_taken(run_python(self.SHOW, ZAHUPNIK_LIBRARY=made), made)
        for version, said in ((20000, "2.0.0"), (9999, "0.99.99"), (100, "0.1.0")):
            run = run_python(self.SHOW, ZAHUPNIK_LIBRARY=self.shim(version))
            self.expect_none(run, f"its version is {said}, and this package needs 1.0 or later, but below 2")

    def test_no_library_of_ours(self):
        self.expect_none(run_python(self.SHOW, ZAHUPNIK_LIBRARY=self.compiled("other.so", "int other;")), "it has no zahupnik_version")
        self.expect_none(run_python(self.SHOW, ZAHUPNIK_LIBRARY=__file__), "it cannot be loaded")
        alone = self.compiled("alone.so", "unsigned zahupnik_version(void) { return 10000; }")
        self.expect_none(run_python(self.SHOW, ZAHUPNIK_LIBRARY=alone), "it lacks a function", "zahupnik_invert")

    def test_another_machine(self):
        for patched in (mock.patch("platform.machine", return_value="aarch64"), mock.patch("sys.platform", "darwin")):
            with patched, self.assertRaisesRegex(NoLibrary, "is for x86-64 Linux"):
                library._expect_machine()
