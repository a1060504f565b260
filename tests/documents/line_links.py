"""Links from a document to the lines of the crates that define a name, for tests/documents/run.

A link is written [`name`] in the text, or [`name f u`][`name`] around a formula that begins with it. Where a document names two things that
are called the same, the link says which it means: [`name`][name of crate]. The target stands at the end of the document, as
[`name`]: FILE#L12. The text and the file of a target are written by hand, its line never: `tests/documents/run --write` finds it.
"""

import pathlib
import re

ROOT = pathlib.Path(__file__).resolve().parents[2]

# The document whose every name is to be linked that the crates define at one place.
LINKED = ROOT / "docs" / "THEOREMS.md"

NOTE = "<!-- Where the names above are defined: the lines are written by `tests/documents/run --write`. -->"
LINK = re.compile(r"\[`([^`]+)`\](?:\[([^\]]+)\])?(?!\()")
TARGET = re.compile(r"^\[([^\]]+)\]: (\S+?)(?:#L(\d+))?$", flags=re.M)
# The files that define what a document names: specifications, the lemmas in proofs/, and the code. A folder in proofs/ has
# the proof of one function, which no document names.
DEFINING = ("crates/*/specs/**/*.antt", "crates/*/proofs/*.antt", "crates/*/src/**/*.rt")
DEFINED = {
    ".antt": re.compile(r"^ *(?:(?:abbrev|unfoldable|pub) )*(?:(?:record|data) (\S+)|([^\s(){}:;]+)(?: \{[^}]*\})* :)(?=\s|$)"),
    ".rt": re.compile(r'^ *(?:pub )?(?:extern "C" )?(?:fn|struct|enum|const) (\w+)'),
}


def index():
    """For every name that a specification, a lemma or the code defines, its places: pairs of file and line."""
    places = {}
    for path in sorted(path for files in DEFINING for path in ROOT.glob(files)):
        for number, line in enumerate(path.read_text(encoding="utf-8").splitlines(), 1):
            if match := DEFINED[path.suffix].match(line):
                places.setdefault(next(filter(None, match.groups())), []).append((path, number))
    return places


def name_of(label):
    """The name that a label is for: `name`, `crate::name` or name of crate."""
    return label.strip("`").split()[0].rpartition("::")[2]


def split(text):
    """The text of a document without its targets, and these as label, file and line."""
    return TARGET.sub("", text).replace(NOTE, "").rstrip() + "\n", TARGET.findall(text)


def asked(body):
    """The labels that the links of a text ask for, each with the words between its backquotes."""
    return [(label or f"`{words}`", words) for words, label in LINK.findall(body)]


def faults(document, text, places, others):
    """What is wrong with the links of a document to lines; `others` are names that are no definitions: those of crates and edits."""
    body, targets = split(text)
    wanted = asked(body)
    labels = {label for label, _, _ in targets}
    for label in sorted({label for label, _ in wanted} - labels):
        yield f"the link [{label}] has no target: {advice(document, label, places)}"
    for label in sorted(labels - {label for label, _ in wanted}):
        yield f"the target [{label}] is linked to by no name"
    for label, words in wanted:
        if name_of(label) not in re.split(r"\s|::", words):
            yield f"the link [`{words}`][{label}] is not called {name_of(label)}"
    for label in sorted(labels):
        same = [other for other in labels if other.casefold() == label.casefold()]
        if len(same) > 1 and label == min(same):
            yield f"the labels {' and '.join(sorted(same))} differ in capitals alone, which Markdown does not look at"
    for label, file, line in targets:
        lines = lines_in(document, file, name_of(label), places)
        if len(lines) != 1:
            yield f"the target [{label}]: {file} defines {name_of(label)} on {len(lines)} lines"
        elif line != str(lines[0]):
            yield f"the target [{label}]: {file} defines it on line {lines[0]} and not on {line or 'one that is named'}: run tests/documents/run --write"
    if document == LINKED:
        for name in sorted(set(re.findall(r"`([^`\s]+)`", LINK.sub("", body)))):
            if len(places.get(name_of(name), [])) == 1 and name not in others:
                yield f"`{name}` is not linked to its line: write [`{name}`], and run tests/documents/run --write"


def lines_in(document, file, name, places):
    """The lines on which a file, named as the document names it, defines a name."""
    path = (document.parent / file).resolve()
    return [line for place, line in places.get(name, []) if place == path]


def advice(document, label, places):
    """What to write for a label that has no target."""
    found = [path.relative_to(ROOT) for path, _ in places.get(name_of(label), [])]
    if len(found) == 1:
        return "run tests/documents/run --write"
    return f"put [{label}]: FILE at the end of {document.name}, with the file that is meant of {', '.join(map(str, found)) or 'none'}"


def rewritten(document, text, places):
    """A document with the line of every target found anew, targets of names that one file defines added, and those without a link left out."""
    body, targets = split(text)
    labels = {label for label, _ in asked(body)}
    files = {label: file for label, file, _ in targets if label in labels}
    up = "../" * len(document.parent.relative_to(ROOT).parts)
    for label in labels - set(files):
        if len(found := places.get(name_of(label), [])) == 1:
            files[label] = f"{up}{found[0][0].relative_to(ROOT)}"
    if not files:
        return text
    block = []
    for label, file in sorted(files.items(), key=lambda item: (item[0].strip("`").casefold(), item)):
        lines = lines_in(document, file, name_of(label), places)
        block.append(f"[{label}]: {file}" + (f"#L{lines[0]}" if len(lines) == 1 else ""))
    return "\n".join([body, NOTE, "", *block, ""])
