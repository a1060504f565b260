"""What docs/AUDIT.md must agree with, for tests/documents/run: the notation of the statements, and the figures of docs/TRUST.md.

The statements are the definitions with their examples, the heads of the functions of the crates whose functions TRUST counts, their laws,
and the two files that say what a record holds and what a number returned to C says.
"""

import pathlib
import re

ROOT = pathlib.Path(__file__).resolve().parents[2]
AUDIT, TRUST = ROOT / "docs" / "AUDIT.md", ROOT / "docs" / "TRUST.md"
DEFINITIONS = ("definitions", "joining", "storing")
MORE = ("lines/specs/Lines.antt", "prepared/specs/Held.antt", "zahupnik/specs/Returned.antt")

NOTATION = "\n## Notation\n"

# The words of the two languages that are no names.
WORDS = set(
    "data record deriving module where use mod pub package using open as unfoldable abbrev axiom unfold unfolding ruleset mutual infix infixl infixr"
    " elim let in do Type ghost fn extern struct enum const self mut requires ensures now old new result u8 u16 u32 u64 usize i8 i16 i32 i64 isize bool".split()
)


def statements(trust):
    """The text of every statement, without comments and quoted texts."""
    counted = re.findall(r"^(?:public )?functions of (\w+)[:,]", trust, flags=re.M)
    specs = [path for crate in DEFINITIONS for path in sorted((ROOT / "crates" / crate / "specs").glob("*.antt"))]
    specs += [path for crate in counted for path in sorted((ROOT / "crates" / crate / "specs").glob("*Laws.antt"))]
    for path in [*specs, *(ROOT / "crates" / name for name in MORE)]:
        text = re.sub(r"(^|(?<=\s))--(?=\s|$)[^\n]*", "", path.read_text(encoding="utf-8"), flags=re.M)
        yield re.sub(r'"[^"\n]*"', "", text)
    for crate in (*DEFINITIONS, *counted):
        text = re.sub(r"//[^\n]*", "", (ROOT / "crates" / crate / "src" / "lib.rt").read_text(encoding="utf-8"))
        yield from re.findall(r"^ghost use [^;]*;", text, flags=re.M)
        yield from re.findall(r'^ *(?:#\[unsafe\(no_mangle\)\]\n *)?(?:pub )?(?:extern "C" )?(?:fn|struct|enum) .*?^ *\{$', text, flags=re.M | re.S)


def notation(text):
    """The words, the names of the kit and the signs outside ASCII that a statement has."""
    found = WORDS & set(re.findall(r"\w+", text)) | {sign for sign in text if ord(sign) > 127}
    for names in re.findall(r"^(?:ghost )?use (?:Rattle\.std|Rattle\.core|mathlib|Prim|native|lib)\.[\w.]+\.\{([^}]*)\}", text, flags=re.M):
        found |= {name.split(" as ")[-1].strip("◌ \n") for name in names.split(",")} - {""}
    return found


def named(path, text):
    """The part of a document whose names are looked up: of the audit's page what stands before the notation, which is looked up here."""
    return text.partition(NOTATION)[0] if path == AUDIT else text


def column(audit, place):
    """What stands between backquotes in a column of the table of the notation."""
    rows = [re.split(r"(?<!\\)\|", row) for row in re.findall(r"^\|.*\|$", audit.partition(NOTATION)[2], flags=re.M)]
    return [span.replace("\\|", "|") for row in rows for span in re.findall(r"`([^`]+)`", row[place])]


def faults(audit, trust):
    """What the audit's page says otherwise, or leaves out."""
    spans, texts = column(audit, 1), list(statements(trust))
    said = set("".join(spans)) | set(" ".join(spans).split()) | set(re.findall(r"\w+", " ".join(spans)))
    for sign in sorted(set().union(*map(notation, texts)) - said):
        yield f"the table of the notation has no {sign}"
    source = " ".join("\n".join(texts).split())
    for example in column(audit, 3):
        if example not in source:
            yield f"no statement has `{example}`, an example of the notation"
    figures = [re.search(pattern, trust) for pattern in (r"crates proved: (\d+)", r"must-fail edits: (\d+)")]
    if not all(figures):
        yield "docs/TRUST.md does not have the figures of the crates and of the edits"
        return
    crates, edits = (int(figure[1]) for figure in figures)
    if (sentence := f"{crates} crates and {edits} edits are {crates + edits}") not in audit:
        yield f"it does not say that {sentence}, as docs/TRUST.md has it"
