"""python3 -m zahupnik, run as a program: what it prints, what it says, and its exit status."""

import fcntl
import os
import pathlib
import signal
import subprocess
import sys
import tempfile
import termios
import threading
import time
import unittest
from array import array

import zahupnik
from zahupnik import Refusal

TOP = pathlib.Path(__file__).parents[2]
BUILT = pathlib.Path(os.environ["ZAHUPNIK_BUILT"]).absolute()
PROGRAM = [sys.executable, "-B", "-m", "zahupnik"]
WHY = BUILT / "bin" / "why"
EXAMPLES = TOP / "examples"
JOB = (EXAMPLES / "expand.job").read_bytes()
REFUSED = (EXAMPLES / "refused_10_a_without_inverse.job").read_bytes()
WORDS = "mod=7 a=1 2 b=0 3 c=1 5 op=expand v=3 0 1"


def environment(**changed):
    clean = {name: value for name, value in os.environ.items() if name != "ZAHUPNIK_WHY"}
    return {**clean, **{name: str(value) for name, value in changed.items()}}


class Program(unittest.TestCase):
    def run_program(self, *words, **given):
        """The program's end; standard input is empty unless it is given."""
        given.setdefault("env", environment())
        if "input" not in given:
            given.setdefault("stdin", subprocess.DEVNULL)
        given.setdefault("stdout", subprocess.PIPE)
        run = subprocess.run([*PROGRAM, *words], stderr=subprocess.PIPE, timeout=60, check=False, **given)
        self.assertNotIn(b"Traceback", run.stderr)
        return run

    def expect_printed(self, run, printed):
        self.assertEqual((run.stdout, run.stderr, run.returncode), (printed, b"", 0))

    def expect_failed(self, run, said, status=1, printed=b""):
        self.assertEqual((run.stdout, run.returncode), (printed, status), run.stderr)
        self.assertIn(said.encode(), run.stderr)
        self.assertTrue(run.stderr.startswith(b"zahupnik: "), run.stderr)


class Answer(Program):
    def test_examples(self):
        """What the program channel prints, refusals too."""
        jobs = sorted(EXAMPLES.glob("*.job"))
        self.assertGreaterEqual(len(jobs), 18)
        for job in jobs:
            with job.open("rb") as text:
                self.expect_printed(self.run_program("answer", stdin=text), job.with_suffix(".answer").read_bytes())

    def test_reads_one_byte_more_than_a_text_may_have(self):
        for length, answer in ((8192, b"refused=2\n"), (8193, b"refused=1\n"), (100000, b"refused=1\n")):
            with tempfile.TemporaryFile(dir=BUILT) as text:
                text.write(b"x" * length)
                text.seek(0)
                self.expect_printed(self.run_program("answer", stdin=text), answer)
                self.assertEqual(os.lseek(text.fileno(), 0, os.SEEK_CUR), min(length, 8193))
        with open("/dev/zero", "rb") as endless:
            self.expect_printed(self.run_program("answer", stdin=endless), b"refused=1\n")
        self.expect_printed(self.run_program("answer"), b"refused=2\n")

    def test_input_in_pieces(self):
        reader, writer = os.pipe()

        def write():
            with os.fdopen(writer, "wb", buffering=0) as pipe:
                for at in range(0, len(JOB), 9):
                    pipe.write(JOB[at : at + 9])
                    time.sleep(0.01)

        thread = threading.Thread(target=write)
        thread.start()
        self.expect_printed(self.run_program("answer", stdin=reader), b"op=expand\nout=1 3 2\n")
        thread.join()
        os.close(reader)

    def test_input_that_fails(self):
        unreadable = os.open(os.devnull, os.O_WRONLY)
        for command in ("answer", "explain"):
            given = {"env": environment(ZAHUPNIK_WHY="/nowhere/why")}
            self.expect_failed(self.run_program(command, stdin=unreadable, **given), "standard input cannot be read: ")
            self.expect_failed(self.run_program(command, preexec_fn=lambda: os.close(0), **given), "standard input is closed")
        os.close(unreadable)


class Write(Program):
    def expect_misused(self, word, words):
        run = self.run_program("write", *words)
        self.expect_failed(run, f"zahupnik: '{word}' ", 2)
        self.assertIn(b"\nusage: python3 -m zahupnik answer < JOB\n", run.stderr)

    def test_examples(self):
        """From the words of an example, in the opposite order and with zeros before the numbers."""
        written = 0
        for job in sorted(EXAMPLES.glob("*.job")):
            if job.with_suffix(".answer").read_bytes().startswith(b"refused="):
                continue
            lines = job.read_text().splitlines()
            zeros = [word if word.startswith("op=") else word.replace("=", "=00") if word[-1] != "=" else word for word in lines]
            for words in (lines, lines[::-1], zeros):
                run = self.run_program("write", *(word for line in words for word in line.split()))
                self.expect_printed(run, job.read_bytes())
                written += 1
        self.assertGreaterEqual(written, 18)

    def test_refusals(self):
        """Each that lists can cause is said in words, and nothing is written."""
        for number in (3, 4, 5, 6, 9, 10, 11, 12, 17, 18):
            (job,) = EXAMPLES.glob(f"refused_{number:02}_*.job")
            run = self.run_program("write", *job.read_text().split())
            self.expect_failed(run, f"zahupnik: refused with {number}: {Refusal(number).words}\n")

    def test_words_of_another_form(self):
        right = "mod=7 a=1 b=1 c=1 op=norms v="
        for word, words in (
            ("mod=", ""),
            ("mod=", "a=1 b=1 c=1 op=norms v="),
            ("v=", "mod=7 a=1 b=1 c=1 op=norms"),
            ("a=2", f"{right} a=2"),
            ("w=1", f"{right} w=1"),
            ("Mod=7", right.replace("mod", "Mod")),
            ("=1", f"=1 {right}"),
            ("7", f"7 {right}"),
            ("mod", right.replace("mod=7", "mod = 7")),
            ("b", right.replace("b=1", "b =1")),
            ("v", right[:-1]),
            ("mod=", right.replace("mod=7", "mod=")),
            ("8", right.replace("mod=7", "mod=7 8")),
            ("op=", right.replace("norms", "")),
            ("norms", right.replace("norms", "norms norms")),
            ("inverse", right.replace("norms", "inverse")),
            ("Expand", right.replace("norms", "Expand")),
            ("4294967296", right.replace("a=1", "a=4294967296")),
            ("-1", right.replace("b=1", "b=-1")),
            ("+1", right.replace("b=1", "b=+1")),
            ("1.0", right.replace("b=1", "b=1.0")),
            ("1_0", right.replace("b=1", "b=1_0")),
            ("1,2", right.replace("a=1", "a=1,2")),
            ("\u0661", right.replace("a=1", "a=\u0661")),
            ("9" * 5000, right.replace("a=1", f"a={'9' * 5000}")),
        ):
            self.expect_misused(word, words.split())
        self.expect_misused("1 2", ["mod=7", "a=1 2", "b=1", "c=1", "op=norms", "v="])
        self.expect_misused("", ["mod=7", "a=1", "", "b=1", "c=1", "op=norms", "v="])

    def test_output_that_fails(self):
        for words, given in ((("answer",), {"input": JOB}), (("write", *WORDS.split()), {}), (("--help",), {}), (("--version",), {})):
            with open("/dev/full", "wb") as full:
                run = self.run_program(*words, stdout=full, **given)
            self.assertEqual((run.returncode, run.stderr), (1, b"zahupnik: the text cannot be printed: No space left on device\n"))
            run = self.run_program(*words, stdout=None, preexec_fn=lambda: os.close(1), **given)
            self.assertEqual((run.returncode, run.stderr), (1, b"zahupnik: the text cannot be printed: standard output is closed\n"))
            reader, writer = os.pipe()
            os.close(reader)
            run = self.run_program(*words, stdout=writer, **given)
            os.close(writer)
            self.assertEqual((run.returncode, run.stderr), (1, b"zahupnik: the text cannot be printed: Broken pipe\n"))

    def test_standard_error_that_fails(self):
        for status, words in ((2, ["foo"]), (1, ["write", "mod=1", "a=", "b=", "c=", "op=norms", "v="])):
            with open("/dev/full", "wb") as full:
                run = subprocess.run([*PROGRAM, *words], env=environment(), stdout=subprocess.PIPE, stderr=full, check=False)
            self.assertEqual((run.returncode, run.stdout), (status, b""))
            run = subprocess.run(
                [*PROGRAM, *words], env=environment(), stdout=subprocess.PIPE, preexec_fn=lambda: os.close(2), check=False
            )
            self.assertEqual((run.returncode, run.stdout), (status, b""))

    def test_written_is_answered(self):
        job = self.run_program("write", *WORDS.split()).stdout
        self.expect_printed(self.run_program("answer", input=job), b"op=expand\nout=1 3 2\n")


class Explain(Program):
    FIRST_LINE = f"refused=10: {Refusal.A_INVERSE.words}\n".encode()

    def why(self, script):
        """A program in the place of why."""
        with tempfile.NamedTemporaryFile("w", dir=BUILT, prefix="why.", delete=False) as file:
            file.write(f"#!/bin/sh\n{script}\n")
        os.chmod(file.name, 0o755)
        self.addCleanup(os.unlink, file.name)
        return environment(ZAHUPNIK_WHY=file.name)

    def test_is_what_why_says(self):
        env = self.why("printf 'refused=2: '; cat; printf 'said\\n'")
        self.expect_printed(self.run_program("explain", input=REFUSED, env=env), b"refused=2: " + REFUSED + b"said\n")
        long = b"x" * 100000
        self.expect_printed(self.run_program("explain", input=long, env=env), b"refused=2: " + long + b"said\n")

    def test_why_that_is_missing(self):
        env = environment(ZAHUPNIK_WHY="/nowhere/why")
        run = self.run_program("explain", input=REFUSED, env=env)
        self.expect_failed(run, "the program why, which explains a job, is not to be found (/nowhere/why): ", 1, self.FIRST_LINE)
        self.expect_failed(self.run_program("explain", input=JOB, env=env), "ZAHUPNIK_WHY", 1, b"accepted\n")

    def test_why_that_fails(self):
        for script, said in (("echo broken >&2; exit 3", "ended with 3: broken"), ("echo hello", "is another program of that name")):
            self.expect_failed(self.run_program("explain", input=REFUSED, env=self.why(script)), said)
        self.expect_failed(self.run_program("explain", input=REFUSED, env=self.why("kill -9 $$")), "ended with -9")

    def test_from_a_program(self):
        env = self.why("head -c 9; exit 0")
        try:
            os.environ["ZAHUPNIK_WHY"] = env["ZAHUPNIK_WHY"]
            self.assertEqual(zahupnik.explain(b"accepted:" + b"x" * 1000000), "accepted:")
            os.environ["ZAHUPNIK_WHY"] = "/nowhere/why"
            with self.assertRaises(zahupnik.NoExplanation):
                zahupnik.explain(JOB)
        finally:
            del os.environ["ZAHUPNIK_WHY"]

    def test_why_beside_the_library(self):
        for job in sorted(EXAMPLES.glob("*.job")):
            text = job.read_bytes()
            run = self.run_program("explain", input=text)
            answer = self.run_program("answer", input=text).stdout.strip()
            self.expect_printed(run, subprocess.run([WHY], input=text, stdout=subprocess.PIPE, check=True).stdout)
            self.assertTrue(run.stdout.startswith(answer + b": " if answer.startswith(b"refused=") else b"accepted"), run.stdout)
        self.assertEqual(zahupnik.explain(REFUSED).encode(), self.run_program("explain", input=REFUSED).stdout)


class Words(Program):
    def test_help(self):
        for words in (["--help"], ["-h"], ["answer", "--help"], ["write", "-h"], ["explain", "--help"]):
            run = self.run_program(*words, env=environment(ZAHUPNIK_LIBRARY="/nowhere"))
            self.assertEqual((run.returncode, run.stderr), (0, b""))
            self.assertTrue(run.stdout.startswith(b"usage: python3 -m zahupnik answer < JOB\n"))

    def test_version(self):
        printed = f"zahupnik {zahupnik.__version__}\nlibrary {zahupnik.__version__}, {zahupnik.library_path()}\n"
        self.expect_printed(self.run_program("--version"), printed.encode())

    def test_unknown_words(self):
        for words, word in ((["foo"], "foo"), (["answer", "x"], "x"), (["explain", "JOB"], "JOB"), (["--version", "y"], "y")):
            self.expect_failed(self.run_program(*words), f"zahupnik: '{word}' is ", 2)
        self.expect_failed(self.run_program(), "a command is missing\nusage: ", 2)
        self.expect_failed(self.run_program(b"\xff"), "is no command", 2)

    def test_no_library(self):
        env = environment(ZAHUPNIK_LIBRARY="/nowhere/libzahupnik.so.1")
        for words in (["answer"], ["write", *WORDS.split()], ["explain"]):
            self.expect_failed(self.run_program(*words, env=env), "/nowhere/libzahupnik.so.1: there is no such file")
        printed = f"zahupnik {zahupnik.__version__}\n".encode()
        self.expect_failed(self.run_program("--version", env=env), "there is no such file", 1, printed)

    def test_interrupted(self):
        """While it waits for more of a text, of which it has taken a byte."""
        reader, writer = os.pipe()
        os.write(writer, b"m")
        running = subprocess.Popen([*PROGRAM, "answer"], stdin=reader, stdout=subprocess.PIPE, stderr=subprocess.PIPE, env=environment())
        for _ in range(1000):
            if not array("i", fcntl.ioctl(reader, termios.FIONREAD, bytes(4)))[0]:
                break
            time.sleep(0.02)
        running.send_signal(signal.SIGINT)
        printed, said = running.communicate(timeout=60)
        os.close(reader)
        os.close(writer)
        self.assertEqual((running.returncode, printed, said), (-signal.SIGINT, b"", b""))
