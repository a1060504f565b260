"""Counts the cases of each kind and stops at the first that differs.

What is shown of a case is cut in the middle where it is very long, as with a
working list; the seed brings the whole case back.
"""

from collections import Counter
from reprlib import Repr

SHOWN = Repr()
SHOWN.maxlist = SHOWN.maxtuple = 300
SHOWN.maxstring = SHOWN.maxother = 9000


class Mismatch(Exception):
    """One case gave something else than expected."""

    def __init__(self, kind, case, expected, got):
        lines = (
            kind,
            f"  case {SHOWN.repr(case)}",
            f"  expected {SHOWN.repr(expected)}",
            f"  got {SHOWN.repr(got)}",
        )
        super().__init__("\n".join(lines))


class Tally:
    """How many cases of each kind were run."""

    def __init__(self):
        self.counts = Counter()

    def equal(self, kind, case, expected, got):
        """One case: what was got has to be what was expected."""
        if expected != got:
            raise Mismatch(kind, case, expected, got)
        self.counts[kind] += 1

    def differ(self, kind, case, right, wrong):
        """One case of a wrong variant: it has to be told from the right answer."""
        if right == wrong:
            raise Mismatch(kind, case, ("anything but", right), wrong)
        self.counts[kind] += 1

    def summary(self):
        """The counts on one line, in the order in which kinds first came."""
        return ", ".join(f"{kind} {count}" for kind, count in self.counts.items())
