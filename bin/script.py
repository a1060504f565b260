"""What the python scripts of this repository do alike: their help, arguments that they do not know, tools that are missing, files that cannot be
read, and that what a script has started ends with it. bin/script.sh does the same for those of bash."""

import argparse
import os
import pathlib
import shutil
import signal
import sys
import tempfile

ROOT = pathlib.Path(__file__).resolve().parents[1]

SIGNALS = (signal.SIGHUP, signal.SIGINT, signal.SIGTERM)

# What is not in every system, and what has it.
COMES_FROM = {
    "rt": "the command of the Rattle kit that .ci/kit names, to prove and build with",
    "gcc": "of Debian's gcc",
    "git": "of Debian's git",
    "nm": "of Debian's binutils",
    "objdump": "of Debian's binutils",
}


class Failure(Exception):
    """Why the script fails, in words for its user."""


class Parser(argparse.ArgumentParser):
    """Reads a command line by the script's own docstring, which is its help and has its usage: the line that begins so, and those after it
    that are indented."""

    def __init__(self, document):
        self.document = document
        self.options = set()
        super().__init__(prog=str(shown(os.path.abspath(sys.argv[0]))), allow_abbrev=False)

    def add_argument(self, *names, **words):
        self.options.update(names)
        return super().add_argument(*names, **words)

    def parse_args(self):
        # argparse would rather speak of words that are missing
        for word in sys.argv[1:]:
            if word.startswith("-") and word.partition("=")[0] not in self.options:
                self.error(f"there is no option '{word}'")
        return super().parse_args()

    def format_help(self):
        return self.document

    def format_usage(self):
        lines = self.document.splitlines()
        first = next(place for place, line in enumerate(lines) if line.startswith("usage:"))
        last = next((place for place in range(first + 1, len(lines)) if not lines[place].startswith("  ")), len(lines))
        return "\n".join(lines[first:last]) + "\n"

    def error(self, message):
        print(f"{self.prog}: {message}", file=sys.stderr)
        self.print_usage(sys.stderr)
        sys.exit(2)


def need(*tools):
    """All of these are on the PATH."""
    missing = [f"{tool}, {COMES_FROM[tool]}" for tool in tools if shutil.which(tool) is None]
    if missing:
        raise Failure(f"not on the PATH: {'; '.join(missing)}; nothing was begun")


def shown(path):
    """A path as a user types it: from the root, if it is of the repository."""
    return pathlib.Path(path).relative_to(ROOT) if pathlib.Path(path).is_relative_to(ROOT) else path


def text_of(path):
    """The text of a file."""
    try:
        return pathlib.Path(path).read_bytes().decode("utf-8")
    except OSError as problem:
        raise Failure(f"{shown(path)}: {problem.strerror}") from problem
    except UnicodeDecodeError as problem:
        raise Failure(f"{shown(path)}: it is not UTF-8, first at byte {problem.start}") from problem


def parents():
    """The parent of each process, by its number."""
    found = {}
    for name in filter(str.isdigit, os.listdir("/proc")):
        try:
            with open(f"/proc/{name}/stat", "rb") as file:
                found[int(name)] = int(file.read().rpartition(b")")[2].split()[1])
        except OSError:  # it has ended
            pass
    return found


def end_started():
    """Kill all that this process has started, and what that has started; each is stopped first, so that it starts no more."""
    ended, more = {os.getpid()}, True
    while more:
        more = {process for process, parent in parents().items() if parent in ended} - ended
        for process in more:
            try:
                os.kill(process, signal.SIGSTOP)
            except ProcessLookupError:
                pass
        ended |= more
    for process in ended - {os.getpid()}:
        try:
            os.kill(process, signal.SIGKILL)
        except ProcessLookupError:
            pass


def ignore_signals():
    """Nothing is to break off what ends the script."""
    for number in SIGNALS:
        signal.signal(number, signal.SIG_IGN)


def end_by(number, _):
    """A signal ends this script and what it has started."""
    ignore_signals()
    end_started()
    sys.exit(128 + number)


def exit_status(name, main):
    """What main returns, or why it failed, behind the name."""
    try:
        status = main()
        sys.stdout.flush()
    except BrokenPipeError:  # nobody reads what is printed
        os.dup2(os.open(os.devnull, os.O_WRONLY), sys.stdout.fileno())
        status = 128 + signal.SIGPIPE
    except Failure as problem:
        status = f"{name}: {problem}"
    except OSError as problem:
        status = f"{name}: {problem.filename}: {problem.strerror}" if problem.filename else f"{name}: {problem}"
    return status


def run_script(name, main):
    """End with what main returns, or with 1 and why it failed. All that it starts, and what it leaves in the folder for temporary files, ends
    with it."""
    mask = signal.pthread_sigmask(signal.SIG_BLOCK, SIGNALS)
    for number in SIGNALS:
        if signal.getsignal(number) != signal.SIG_IGN:
            signal.signal(number, end_by)
    room = tempfile.mkdtemp(prefix="zahupnik.")
    os.chmod(room, 0o711)  # rt runs programs as nobody, who has to come through
    os.environ["TMPDIR"] = tempfile.tempdir = room
    try:
        signal.pthread_sigmask(signal.SIG_SETMASK, mask)
        sys.exit(exit_status(name, main))
    finally:
        ignore_signals()
        shutil.rmtree(room, ignore_errors=True)
