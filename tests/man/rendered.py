"""A man page as its reader sees it: what a formatter makes of it, as lines of plain text."""

import pathlib
import re
import subprocess

FORMATTERS = {
    "groff": ["groff", "-man", "-Tutf8", "-P-cbou", "-rcR=1", "-rLL={width}n"],
    "mandoc": ["mandoc", "-man", "-Tutf8", "-Owidth={width}"],
}


def render(source, formatter="groff", width=78):
    """The lines that a formatter makes of a page's source, without bold and underlining."""
    words = [word.format(width=width) for word in FORMATTERS[formatter]]
    done = subprocess.run(words, input=source, capture_output=True, encoding="utf-8", check=True)
    return re.sub(".\b", "", done.stdout).split("\n")


def sections(source):
    """The sections of a page by their titles, each as its lines. They are so wide that a paragraph is one line."""
    found, title = {}, None
    for line in render(source, width=100000)[1:]:
        if re.match(r"\S", line):
            title = line
            found[title] = []
        elif title:
            found[title].append(line)
    return found


def read(path):
    """The source of a page."""
    return pathlib.Path(path).read_text(encoding="utf-8")
