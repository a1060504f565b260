#!/usr/bin/env python3
"""Runs every example of a man page, and compares what it prints with what the page shows.

usage: tests/man/examples.py PAGE FOLDER

What stands from .EX to .EE is taken as its reader sees it and would copy it. A line that begins with `$ ` is a command, a backslash at
its end goes on with it, and the lines up to the next command are what it prints, on standard output and standard error. The commands
of a page run in one shell, in the folder, with the PATH as it is here. A block that begins with `/* NAME.c: ` is a program in C: it is
put into the folder first, under that name, and has to compile without a warning. A block without a command may stand outside of the
section EXAMPLES only, and is not run.
Fails on a command that prints something else, on a program that no command compiles, on a page without an example, and on a character
that some formatter shows as another one, so that a copied command would not be what was run. Needs groff. Exits 0 only if everything agrees;
2 for bad arguments.
"""

import os
import pathlib
import re
import shutil
import subprocess
import sys

from rendered import FORMATTERS, read, render

sys.dont_write_bytecode = True
sys.path.append(str(pathlib.Path(__file__).resolve().parents[2] / "bin"))

from script import Failure, Parser, run_script  # noqa: E402

SECONDS = 20
MARK = "\x1e"
COMPILE = "cc -std=c11 -Wall -Wextra -Werror $(pkg-config --cflags zahupnik) -c -o /dev/null"


class Fault(Exception):
    """What is wrong with a page."""


def blocks(source):
    """Each block from .EX to .EE as its section, the number of its first line, and its lines in the source."""
    section, begun, found = "", None, []
    for number, line in enumerate(source.split("\n"), 1):
        if match := re.fullmatch(r'\.SH "?(.*?)"?', line):
            section = match[1]
        if line == ".EX":
            begun = number + 1
        elif line == ".EE":
            found.append((section, begun, source.split("\n")[begun - 1 : number - 1]))
    return found


def shown(lines, formatter):
    """What a formatter shows of a block: its lines, without the indentation that all of them have."""
    page = render("\n".join([".TH page 1", ".SH FIRST", ".EX", *lines, ".EE", ".SH LAST", ""]), formatter, 1000)
    inside = page[page.index("FIRST") + 1 : page.index("LAST") - 1]
    if any(line and not line.startswith(" " * 7) for line in inside):
        raise Fault("a block of an example is not indented as a section is")
    return [line[7:] for line in inside]


def copied(number, lines):
    """The block as every formatter that is here shows it, and all alike; with no character that another may show as one of typography."""
    for offset, line in enumerate(lines):
        if match := re.search(r"['`^~\\-]", re.sub(r"\\(-|&|e|\(aq|\(ga|\(ha|\(ti)", "", line)):
            raise Fault(f"line {number + offset}: {match[0]} in an example has to be escaped, or it is shown as another character")
    seen = {formatter: shown(lines, formatter) for formatter in FORMATTERS if shutil.which(formatter)}
    for formatter, block in seen.items():
        if block != seen["groff"]:
            raise Fault(f"line {number}: {formatter} shows {block}, and groff {seen['groff']}")
    return seen["groff"]


def transcript(block):
    """The commands of a block, each with what it prints."""
    commands, printed = [], []
    for line in block:
        if commands and commands[-1].endswith("\\") and not printed[-1]:
            commands[-1] += "\n" + line
        elif line.startswith("$ "):
            commands.append(line[2:])
            printed.append("")
        else:
            printed[-1] += line + "\n"
    return list(zip(commands, printed))


def run(commands, folder):
    """What each of the commands prints, one after another in one shell."""
    script = [f"mark() {{ local status=$?; printf '{MARK}'; return $status; }}", "exec 2>&1 </dev/null"]
    for command in commands:
        script += [command, "mark"]
    environment = {**os.environ, "LC_ALL": "C"}
    words = ["bash", "--norc", "-c", "\n".join(script)]
    done = subprocess.run(words, cwd=folder, env=environment, capture_output=True, encoding="utf-8", timeout=SECONDS, check=False)
    printed = done.stdout.split(MARK)
    return printed[:-1] if len(printed) == len(commands) + 1 else printed


def check(page, folder):
    """Runs the examples of a page; says how many commands and programs it has."""
    examples, programs = [], {}
    for section, number, lines in blocks(read(page)):
        block = copied(number, lines)
        if block[0].startswith("$ "):
            examples += transcript(block)
        elif match := re.match(r"/\* (\w+\.c): ", block[0]):
            programs[match[1]] = "\n".join(block) + "\n"
        elif section == "EXAMPLES":
            raise Fault(f"line {number}: an example begins with neither a command nor the name of a program")
    if not any(printed for _, printed in examples):
        raise Fault("it has no example that prints something")
    for name, program in programs.items():
        (folder / name).write_text(program, encoding="utf-8")
        if not any(re.search(rf"(^|\s){re.escape(name)}(\s|$)", command) for command, _ in examples):
            raise Fault(f"no command compiles {name}")
        done = subprocess.run(["bash", "-c", f"{COMPILE} {name}"], cwd=folder, capture_output=True, encoding="utf-8", check=False)
        if done.returncode or done.stderr:
            raise Fault(f"{name} does not compile without a warning: {done.stderr}")
    printed = run([command for command, _ in examples], folder)
    for (command, expected), got in zip(examples, printed):
        if got != expected:
            raise Fault(f"$ {command}\n--- prints\n{got}--- and the page shows\n{expected}---")
    if len(printed) != len(examples):
        raise Fault(f"of {len(examples)} commands {len(printed)} ended")
    return len(examples), len(programs)


def main():
    """Check the page of the command line."""
    parser = Parser(__doc__)
    parser.add_argument("page", metavar="PAGE", type=pathlib.Path)
    parser.add_argument("folder", metavar="FOLDER", type=pathlib.Path)
    arguments = parser.parse_args()
    page, folder = arguments.page, arguments.folder
    try:
        commands, programs = check(page, folder)
    except (Fault, subprocess.TimeoutExpired) as fault:
        raise Failure(f"{page}: {fault}") from fault
    print(f"man: {page}: {commands} commands" + (f" and {programs} programs" if programs else "") + " print what the page shows")


run_script("man", main)
