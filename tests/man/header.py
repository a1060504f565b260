#!/usr/bin/env python3
"""Holds the man pages to the headers: zahupnik(3) says what they say, word for word, and no page says another name, number or version.

usage: tests/man/header.py [FOLDER]

FOLDER has the pages, man/ if it is not named. A page is read as its reader sees it, and spacing does not count. In zahupnik(3) are
- in NAME every function, and nothing else but the library;
- in SYNOPSIS every prototype, in the headers' order, and no other;
- the comment of every function behind its name, with its refusals in their order, and every comment that stands for several;
- every struct; every constant with its value; every refusal with its meaning; the stack of every call;
- the paragraphs at the top of the header, but for those of IN_OTHER_WORDS.
The refusals and limits of channel(1) are those of the call on texts, in its order, and of store(1) those of the calls that order a list. Of
every page each name of the library is in a header, the version is the header's, and the title is that of the file. Needs groff. Exits 0 only if
all of it is so; 2 for bad arguments.
"""

import pathlib
import re
import sys

from rendered import read, sections

sys.dont_write_bytecode = True
sys.path.append(str(pathlib.Path(__file__).resolve().parents[2] / "bin"))

from script import ROOT, Parser, run_script  # noqa: E402

# Paragraphs at the top of the header that name files of the repository, so that the page says them in words of its own.
IN_OTHER_WORDS = ("Which way to take", "The stack that a call takes", "Where it is installed")
# A text makes none of these, since the program lends the output and the working list; the store's line is tested as a text first.
LENT = ("7", "8")
LINE = ["1", "2"]

PROTOTYPE = r"^(?!#)((?:static inline )?[a-z][\w *]*?\**)(zahupnik_\w+)\(([^()]*)\)(?=;| \{)"
faults = []


def fault(text):
    """Notes what is wrong."""
    faults.append(text)


def spaced(text):
    """A text with one space where any spacing is."""
    return " ".join(text.split())


def plain(comment):
    """The words of a comment, without its marks and without backquotes."""
    lines = re.sub(r"^/\*|\*/$", "", comment).split("\n")
    return spaced("\n".join(re.sub(r"^\s*\*( |$)", "", line) for line in lines).replace("`", ""))


def held(what, text, page):
    """A text of the header stands in the page."""
    if text not in page:
        words = text.split()
        count = max((n for n in range(len(words) + 1) if " ".join(words[:n]) in page), default=0)
        fault(f"zahupnik(3) has not what the header says of {what}: it goes as far as '{' '.join(words[max(0, count - 6):count])}', "
              f"and '{' '.join(words[count:count + 8])}' does not follow")


def prototypes(text):
    """The functions that a text declares, each as its name and its prototype."""
    found = re.findall(PROTOTYPE, text, flags=re.M)
    return [(name, f"{spaced(kind)} {name}({spaced(arguments)})") for kind, name, arguments in found]


def constants(header):
    """The names that the header defines for a program, with their values."""
    gone = set(re.findall(r"^#undef (\w+)", header, flags=re.M))
    values = {}
    for name, value in re.findall(r"^#define (ZAHUPNIK_\w+) +([^\n/]+)", header, flags=re.M):
        if name not in gone:
            expression = re.sub(r"ZAHUPNIK_\w+", lambda match: values[match[0]], value.strip().replace("UINT32_C", ""))
            values[name] = str(eval(expression, {"__builtins__": {}}))
    return values


def entries(header):
    """The comments after the constants in their order, each with the names of the functions that it stands before."""
    found = []
    for match in re.finditer(r"(/\*.*?\*/)|" + PROTOTYPE, header.rpartition("#define ")[2], flags=re.M | re.S):
        if match[1]:
            found.append((plain(match[1]), []))
        else:
            found[-1][1].append(match[3])
    return found[1:]


def refusals(text):
    """The numbers after 'refuses with', in their order."""
    match = re.search(r"Refuses? with ((?:[A-Z_]+ \d+(?:, )?)+)", text)
    return re.findall(r"\d+", match[1]) if match else []


def check_library(page, header, words):
    """zahupnik(3) against both headers."""
    parts = sections(page)
    text = spaced(" ".join(line for lines in parts.values() for line in lines))
    declared = prototypes(header) + prototypes(words)

    named = ["zahupnik"] + [name for name, _ in declared]
    listed = spaced(" ".join(parts["NAME"])).partition(" - ")[0].split(", ")
    if listed != named:
        fault(f"NAME of zahupnik(3) and the headers differ in {sorted(set(listed) ^ set(named)) or 'their order'}")
    shown = prototypes("\n".join(line[7:] for line in parts["SYNOPSIS"]))
    for name, prototype in declared:
        if (name, prototype) not in shown:
            fault(f"SYNOPSIS of zahupnik(3) has not the prototype of the header: {prototype}")
    if [name for name, _ in shown] != [name for name, _ in declared]:
        fault(f"SYNOPSIS of zahupnik(3) has other functions than the headers, or another order: {[name for name, _ in shown]}")

    functions = spaced(" ".join(parts["FUNCTIONS"]))
    for comment, names in entries(header):
        held(" and ".join(names) or f"'{comment[:40]}..'", spaced(" ".join(f"{name}()" for name in names) + " " + comment), functions)
    for name, _ in declared:
        if functions.count(f"{name}() ") != 1:
            fault(f"FUNCTIONS of zahupnik(3) has not one entry of {name}")
    for struct in re.findall(r"^struct \w+ \{.*?^\};", header, flags=re.M | re.S):
        held(struct.split(" {")[0], spaced(struct), functions)

    for paragraph in re.split(r"\n \*\n", re.match(r"/\*.*?\*/", header, flags=re.S)[0]):
        if not any(plain(paragraph).startswith(opening) for opening in IN_OTHER_WORDS):
            held("its use", plain(paragraph).replace("comment", "entry"), text)
    for opening in IN_OTHER_WORDS:
        if f"\n * {opening}" not in header:
            fault(f"tests/man/header.py lets '{opening}' be said in other words, and the header does not begin a paragraph so")
    for stack in re.findall(r"^ \*     (zahupnik_\w+ +\d+)$", header, flags=re.M):
        held("the stack", spaced(stack) + " ", text + " ")

    values = constants(header)
    lines = {spaced(line) for lines in parts.values() for line in lines}
    for name, value in values.items():
        if f"{name} {value}" not in lines:
            fault(f"zahupnik(3) has no line '{name} {value}'")
    meanings = re.findall(r"^#define (ZAHUPNIK_REFUSED_\w+) +(\d+) +/\*(.*?)\*/", header, flags=re.M | re.S)
    if [name for name, _, _ in meanings] != [name for name in values if "_REFUSED_" in name]:
        fault("a refusal of the header has no meaning beside it")
    errors = spaced(" ".join(parts["ERRORS"])).lower()
    for name, number, meaning in meanings:
        held(name, f"{name} {number} {plain(meaning)}.".lower(), errors)
    return values, declared


def check_program(page, title, wanted, limits):
    """The refusals of a program in their order, and its limits."""
    parts = sections(page)
    listed = re.findall(r"^ *refused=(\d+)$", "\n".join(parts["REFUSALS"]), flags=re.M)
    if listed != wanted:
        fault(f"{title} has the refusals {' '.join(listed)}, and the header {' '.join(wanted)}")
    for limit in limits:
        if limit not in spaced(" ".join(parts["LIMITS"])):
            fault(f"LIMITS of {title} has not '{limit}'")


def main():
    """Check every page."""
    parser = Parser(__doc__)
    parser.add_argument("folder", metavar="FOLDER", nargs="?", type=pathlib.Path, default=ROOT / "man")
    folder = parser.parse_args().folder
    if not folder.is_dir():
        parser.error(f"'{folder}' is not a folder of pages")
    header, words = (read(ROOT / "include" / name) for name in ("zahupnik.h", "zahupnik_refusal.h"))
    values, declared = check_library(read(folder / "zahupnik.3"), header, words)

    by_name = {name: refusals(comment) for comment, names in entries(header) for name in names}
    texts = [number for number in by_name["zahupnik_convert_text"] if number not in LENT]
    text, rows, modulus, entry = (
        values[f"ZAHUPNIK_{name}"] for name in ("MOST_TEXT", "MOST_ROWS", "GREATEST_MODULUS", "MOST_ENTRIES")
    )
    text = f"{int(text):,} bytes"
    check_program(read(folder / "channel.1"), "channel(1)", texts, (text, f"{rows} rows", f"at most {modulus}"))
    order = next(refusals(comment) for comment, _ in entries(header) if comment.startswith("Even powers first"))
    line = LINE + [number for number in order if number not in LENT]
    check_program(read(folder / "store.1"), "store(1)", line, (text, f"{entry} numbers"))

    known = {*values, "ZAHUPNIK_REFUSED_", *(name for name, _ in declared), *re.findall(r"struct (zahupnik_\w+)", header)}
    version = ".".join(values[f"ZAHUPNIK_VERSION_{part}"] for part in ("MAJOR", "MINOR", "PATCH"))
    for path in sorted(folder.iterdir()):
        page = read(path)
        shown = "\n".join(line for lines in sections(page).values() for line in lines)
        for name in sorted(set(re.findall(r"\b(?:zahupnik|ZAHUPNIK)_\w*", shown)) - known):
            fault(f"{path.name} names {name}, which no header has")
        title = f'.TH {path.stem.upper()} {path.suffix[1:]} "" "Zahupnik {version}" Zahupnik'
        if page.split("\n")[0] != title:
            fault(f"{path.name} does not begin with {title}")
    for text in faults:
        print(f"man: {text}", file=sys.stderr)
    if faults:
        sys.exit(1)
    print(f"man: {len(declared)} functions, {len(values)} constants and the version {version} are the headers'")


run_script("man", main)
