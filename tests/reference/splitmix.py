"""A small random source, the same on every machine and in every Python.

SplitMix64: a 64-bit counter that steps by an odd constant, then mixed.
"""

WORD = 2**64


class SplitMix64:
    """Random numbers that depend on the seed alone."""

    def __init__(self, seed):
        self.state = seed % WORD

    def word(self):
        """The next number below 2^64."""
        self.state = (self.state + 0x9E3779B97F4A7C15) % WORD
        mixed = self.state
        mixed = (mixed ^ (mixed >> 30)) * 0xBF58476D1CE4E5B9 % WORD
        mixed = (mixed ^ (mixed >> 27)) * 0x94D049BB133111EB % WORD
        return mixed ^ (mixed >> 31)

    def below(self, bound):
        """A number from 0 to bound - 1."""
        return self.word() % bound

    def choice(self, items):
        """One of the items."""
        return items[self.below(len(items))]
