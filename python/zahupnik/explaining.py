"""What is wrong with a job text, in words: by the program `why`, which is found here and run."""

from __future__ import annotations

import os
import re
import shutil
import subprocess
from typing import Optional

from .arguments import Bytes, byte_list
from .library import library_path, repository

VARIABLE = "ZAHUPNIK_WHY"


class NoExplanation(OSError):
    """The program `why` is not to be found, or has failed; the message says which."""

    __module__ = "zahupnik"


def explain(text: Bytes) -> str:
    """What is wrong with a job text, where, and what is expected there, or what the job is: what the program `why` says of it.

    The first line opens with refused= and the number, or with accepted. NoExplanation if there is no such program, or if it fails. The
    number alone is the library's own: `convert_text` raises it.
    """
    return _said(byte_list("text", text).tobytes())


def explain_input() -> str:
    """The same of standard input, which `why` reads by itself."""
    return _said(None)


def places() -> list[str]:
    """Where the program is looked for, the first place first. A bare name is looked for on the PATH."""
    if os.environ.get(VARIABLE):
        return [os.environ[VARIABLE]]
    beside = os.path.dirname(library_path())
    folders = [os.path.dirname(os.path.abspath(beside))] if beside else []
    folders.append(os.path.join(repository(), "target"))
    return [os.path.join(folder, "bin", "why") for folder in folders] + ["why"]


def program() -> str:
    """The file of the program `why`; NoExplanation if there is none."""
    found: Optional[str] = next(filter(None, map(shutil.which, places())), None)
    if found is None:
        looked = ", ".join("on the PATH" if place == "why" else place for place in places())
        raise NoExplanation(
            f"the program why, which explains a job, is not to be found ({looked}): build or install it, or say in {VARIABLE} where it is"
        )
    return found


def _said(text: Optional[bytes]) -> str:
    why = program()
    try:
        run = subprocess.run([why], input=text, stdout=subprocess.PIPE, stderr=subprocess.PIPE, check=False)
    except OSError as error:
        raise NoExplanation(f"{why} cannot be run: {error.strerror}") from None
    said = run.stdout.decode("utf-8", "backslashreplace")
    if run.returncode != 0:
        raise NoExplanation(f"{why} ended with {run.returncode}: {run.stderr.decode('utf-8', 'backslashreplace').strip()}")
    if not re.match("refused=[0-9]|accepted", said):
        raise NoExplanation(f"{why} is another program of that name: say in {VARIABLE} where zahupnik's is")
    return said
