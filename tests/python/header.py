"""What include/zahupnik.h says, read from its text: its functions, its numbers by name, and the refusals that each function lists."""

import pathlib
import re

TEXT = (pathlib.Path(__file__).parents[2] / "include" / "zahupnik.h").read_text()
_PROTOTYPE = re.compile(r"^(uint32_t|struct zahupnik_change) zahupnik_([a-z_]+)\(([^;]*)\);", re.MULTILINE)
_PART = re.compile(rf"/\*(?P<comment>.*?)\*/|{_PROTOTYPE.pattern}", re.MULTILINE | re.DOTALL)


def _on_one_line(text):
    return re.sub(r"\s+(\* )?", " ", text).strip()


def prototypes():
    """Each function's declaration on one line, by its name behind zahupnik_."""
    return {
        name: f"{returned} zahupnik_{name}({_on_one_line(parameters)})" for returned, name, parameters in _PROTOTYPE.findall(TEXT)
    }


def numbers():
    """Each macro that is a decimal number, by its name behind ZAHUPNIK_."""
    found = re.findall(r"^#define ZAHUPNIK_([A-Z_]+) (?:UINT32_C\()?([0-9]+)\b", TEXT, re.MULTILINE)
    return {name: int(number) for name, number in found}


def refusals():
    """The names and numbers that each function's comment lists, in order; a comment holds for what follows until the next that lists some."""
    listed, of_function = [], {}
    for part in _PART.finditer(TEXT):
        if part["comment"] is None:
            of_function[part[3]] = listed
        else:
            _, found, rest = _on_one_line(part["comment"]).partition("Refuse")
            listed = [(name, int(number)) for name, number in re.findall(r"\b([A-Z][A-Z_]+) ([0-9]+)\b", rest)] if found else listed
    return of_function
