"""Finds libzahupnik.so.1, loads it once, at the first call, and looks whether it is one that this package can use."""

from __future__ import annotations

import ctypes
import os
import platform
import sys
from functools import lru_cache
from typing import Any

from .declarations import declare, fits_this_machine

__version__ = "1.0.0"

NAME = "libzahupnik.so.1"
VARIABLE = "ZAHUPNIK_LIBRARY"
_HERE = os.path.dirname(os.path.abspath(__file__))


class NoLibrary(OSError):
    """There is no library that this package can use; the message says where it looked, what it found there, and what to do."""

    __module__ = "zahupnik"


class _Unfit(Exception):
    """Why a file is no library for this package."""


def prefix() -> str:
    """The folder that the package was unpacked into, if it stands as the archive has it: PREFIX/share/zahupnik/python/zahupnik."""
    folder, parts = os.path.dirname(_HERE), []
    for _ in range(3):
        folder, part = os.path.split(folder)
        parts.append(part)
    return folder if parts == ["python", "zahupnik", "share"] else ""


def repository() -> str:
    """The folder above python/zahupnik, whose target/ has what is built there."""
    return os.path.dirname(os.path.dirname(_HERE))


def places() -> list[str]:
    """Where the library is looked for, the first place first. A bare name is left to the loader."""
    if os.environ.get(VARIABLE):
        return [os.environ[VARIABLE]]
    folders = [_HERE, os.path.join(repository(), "target", "lib"), os.path.join(sys.prefix, "lib")]
    if prefix():
        folders.insert(1, os.path.join(prefix(), "lib"))
    return [os.path.join(folder, NAME) for folder in folders] + [NAME, os.path.join("/usr/local/lib", NAME)]


def numbers_of(version: int) -> tuple[int, int, int]:
    """Major, minor and patch of what zahupnik_version returns."""
    return version // 10000, version // 100 % 100, version % 100


def dotted(version: int) -> str:
    """What zahupnik_version returns, as people write a version."""
    return ".".join(map(str, numbers_of(version)))


def _expect_machine() -> None:
    if sys.platform != "linux" or platform.machine() != "x86_64" or not fits_this_machine():
        raise NoLibrary(
            f"zahupnik's library is for x86-64 Linux and a Python of 64 bits; this is {platform.machine() or 'an unknown machine'},"
            f" {sys.platform}, {8 * ctypes.sizeof(ctypes.c_void_p)} bits"
        )


def _load(place: str) -> Any:
    if os.sep in place and not os.path.exists(place):
        raise _Unfit("there is no such file")
    try:
        library = ctypes.CDLL(place)
    except OSError as error:
        raise _Unfit(f"it cannot be loaded: {error}") from None
    try:
        library.zahupnik_version.argtypes, library.zahupnik_version.restype = [], ctypes.c_uint32
        version: int = library.zahupnik_version()
    except AttributeError:
        raise _Unfit("it has no zahupnik_version: it is older than 1.0.0, or something else") from None
    wanted = [int(part) for part in __version__.split(".")]
    major, minor, _ = numbers_of(version)
    if major != wanted[0] or minor < wanted[1]:
        raise _Unfit(f"its version is {dotted(version)}, and this package needs {wanted[0]}.{wanted[1]} or later, but below {wanted[0] + 1}")
    try:
        declare(library)
    except AttributeError as error:
        raise _Unfit(f"it lacks a function: {error}") from None
    return library


@lru_cache(maxsize=None)
def _loaded() -> tuple[Any, str]:
    _expect_machine()
    found = []
    for place in places():
        try:
            return _load(place), place
        except _Unfit as why:
            found.append(f"  {place}: {why}")
    raise NoLibrary(
        f"zahupnik finds no {NAME} that it can use; it looked at\n"
        + "\n".join(found)
        + f"\nBuild the library and install it, or say in {VARIABLE} where the file stands."
    )


def library() -> Any:
    """The library, with every function declared; NoLibrary if there is none."""
    return _loaded()[0]


def library_path() -> str:
    """The file that was loaded, or the bare name where the loader found it; NoLibrary if there is none."""
    return _loaded()[1]
