"""Answers, writes and explains jobs from the command line.

usage: python3 -m zahupnik answer < JOB
       python3 -m zahupnik write mod=7 a=1 2 b=0 3 c=1 5 op=expand v=3 0 1
       python3 -m zahupnik explain < JOB
       python3 -m zahupnik --version
       python3 -m zahupnik --help

answer   prints the answer text of a job text, or refused= and the number, as the program channel does
write    prints a job text. A word with = opens a line of it, and the words up to the next one with = go on with it. The six lines come in
         any order, each once; a= alone is an empty list. op= is expand, adjoint, decompose, moments or norms; for the last two v= stands
         alone
explain  prints what is wrong with a job text, and where, in words, or what the job is: by the program why. Where that is not to be found,
         only whether the job is refused, by which number, and its words

Exit status: 0 if it printed what it was asked for, a refusal of answer being an answer; 1 if the job is refused and so not written, or if
something failed, and standard error says what; 2 if the words are not of this form.
"""

from __future__ import annotations

import os
import re
import signal
import sys
from typing import Callable, NoReturn

from . import NoExplanation, NoLibrary, Operation, Refused, __version__, convert_text, library_path, version, write_job
from .declarations import MOST_TEXT
from .explaining import explain_input, program
from .library import dotted

USAGE = (__doc__ or "").partition("\n\n")[2]
KEYS = ("mod", "a", "b", "c", "op", "v")
OF_ONE_WORD = ("mod", "op")
OPERATIONS = {operation.name.lower(): operation for operation in Operation}


class Misuse(Exception):
    """The words are not of the form; the message says which."""


class Failure(Exception):
    """Something failed; the message says what."""


def read_job() -> bytes:
    """Standard input to its end, but no further than the first byte that makes a text too long."""
    if sys.stdin is None:
        raise Failure("standard input is closed")
    text = b""
    try:
        while len(text) <= MOST_TEXT:
            piece = os.read(0, MOST_TEXT + 1 - len(text))
            if not piece:
                break
            text += piece
    except OSError as error:
        raise Failure(f"standard input cannot be read: {error.strerror}") from None
    return text


def put(text: bytes) -> None:
    """Print all of it; nothing is left to be printed when the program ends."""
    if sys.stdout is None:
        raise Failure("the text cannot be printed: standard output is closed")
    try:
        while text:
            text = text[os.write(1, text) :]
    except OSError as error:
        raise Failure(f"the text cannot be printed: {error.strerror}") from None


def say(message: str) -> None:
    """A message on standard error, if there is one."""
    if sys.stderr is not None:
        try:
            os.write(2, f"zahupnik: {message}\n".encode("utf-8", "backslashreplace"))
        except OSError:
            pass


def answered(text: bytes) -> bytes:
    """What the program channel prints for a job text."""
    try:
        return convert_text(text)
    except Refused as refused:
        return b"refused=%d\n" % refused.number


def misused(word: str, why: str) -> NoReturn:
    """A word of the command line is not as it should be."""
    raise Misuse(f"'{word}' {why}")


def number_of(word: str) -> int:
    """A number of 32 bits; zeros may stand before it."""
    digits = word.lstrip("0") or "0"
    if not re.fullmatch("[0-9]+", word) or len(digits) > 10 or int(digits) > 4294967295:
        misused(word, "is not a number from 0 to 4294967295")
    return int(digits)


def operation_of(word: str) -> int:
    """An operation by its name."""
    if word not in OPERATIONS:
        misused(word, "is not expand, adjoint, decompose, moments or norms")
    return OPERATIONS[word]


def lines_of(words: list[str]) -> dict[str, list[int]]:
    """The numbers of each line of a job, the operation's too."""
    lines: dict[str, list[int]] = {}
    key = ""
    for word in words:
        entry = word
        if "=" in word:
            key, _, entry = word.partition("=")
            if key not in KEYS:
                misused(word, "does not open with mod=, a=, b=, c=, op= or v=")
            if key in lines:
                misused(word, "opens a line that was opened before")
            lines[key] = []
            if not entry:
                continue
        if entry in KEYS:
            misused(entry, "wants its = right behind it, with no space between")
        if not key:
            misused(entry, "stands before every word with =")
        if key in OF_ONE_WORD and lines[key]:
            misused(entry, "is one too many for its line")
        lines[key].append(operation_of(entry) if key == "op" else number_of(entry))
    for key in KEYS:
        if key not in lines:
            misused(f"{key}=", "is missing" if key in OF_ONE_WORD else "is missing; alone it is an empty list")
        if key in OF_ONE_WORD and not lines[key]:
            misused(f"{key}=", "has nothing after it")
    return lines


def expect_no_words(words: list[str]) -> None:
    """Nothing stands behind the command."""
    if words:
        misused(words[0], "is one word too many")


def answer(words: list[str]) -> None:
    """The command answer."""
    expect_no_words(words)
    put(answered(read_job()))


def write(words: list[str]) -> None:
    """The command write."""
    lines = lines_of(words)
    try:
        job = write_job(lines["mod"][0], lines["a"], lines["b"], lines["c"], lines["op"][0], lines["v"])
    except Refused as refused:
        raise Failure(str(refused)) from None
    put(job)


def explained(words: list[str]) -> None:
    """The command explain. Without the program why, only its first line can be told."""
    expect_no_words(words)
    try:
        program()
    except NoExplanation as error:
        put(first_line(read_job()))
        raise Failure(str(error)) from None
    if sys.stdin is None:
        raise Failure("standard input is closed")
    put(explain_input().encode())


def first_line(text: bytes) -> bytes:
    """Whether a job is refused, by which number, and its words."""
    try:
        convert_text(text)
    except Refused as refused:
        return f"refused={int(refused.number)}: {refused.words}\n".encode()
    return b"accepted\n"


def print_version(words: list[str]) -> None:
    """The package's version, and the library's with its file."""
    expect_no_words(words)
    put(f"zahupnik {__version__}\n".encode())
    put(f"library {dotted(version())}, {library_path()}\n".encode())


def print_help(words: list[str]) -> None:
    """The usage."""
    expect_no_words(words)
    put(USAGE.encode())


COMMANDS: dict[str, Callable[[list[str]], None]] = {
    "answer": answer,
    "write": write,
    "explain": explained,
    "--version": print_version,
    "--help": print_help,
    "-h": print_help,
}


def main(words: list[str]) -> int:
    """Do what the words of a command line ask for; the exit status."""
    try:
        if not words:
            raise Misuse("a command is missing")
        if words[0] not in COMMANDS:
            misused(words[0], "is no command")
        if words[1:] in (["--help"], ["-h"]):
            words = ["--help"]
        COMMANDS[words[0]](words[1:])
    except Misuse as misuse:
        say(f"{misuse}\n{USAGE.rstrip()}")
        return 2
    except (Failure, NoExplanation, NoLibrary) as failure:
        say(str(failure))
        return 1
    return 0


if __name__ == "__main__":
    signal.signal(signal.SIGINT, signal.SIG_DFL)  # an interrupted read ends the program, without a traceback
    sys.exit(main(sys.argv[1:]))
