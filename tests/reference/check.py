"""The reference's checks of itself.

usage: python3 tests/reference/check.py [--seed N]

Prints one line with the seed and how many cases of each kind were run, and
exits 0. At the first case that differs it prints the seed, the case, what was
expected and what was got, and exits 1. Bad arguments exit with 2.
"""

import argparse
import os
import sys

import check_classical
import check_figures
import check_identities
import check_joining
import check_ordering
import check_prepared
import check_refusals
import check_store
import check_texts
import check_vectors
import check_written
import check_wrong_join_tests
import check_wrong_join_values
import check_wrong_orders
import check_wrong_reasons
import check_wrong_stores
import check_wrong_variants
from splitmix import WORD, SplitMix64
from tally import Mismatch, Tally
from vectors import Parser, run_script

PARTS = (
    check_figures,
    check_wrong_variants,
    check_wrong_reasons,
    check_refusals,
    check_texts,
    check_written,
    check_prepared,
    check_joining,
    check_wrong_join_tests,
    check_wrong_join_values,
    check_ordering,
    check_wrong_orders,
    check_store,
    check_wrong_stores,
    check_vectors,
    check_classical,
    check_identities,
)


def seed_number(word):
    """A seed from the command line: a whole number below 2^64."""
    if not (word.isascii() and word.isdigit() and len(word) <= 20 and int(word) < WORD):
        raise argparse.ArgumentTypeError(f"a seed is a whole number below 2^64, not {word!r}")
    return int(word)


def main():
    """Run all parts with one random source."""
    parser = Parser(__doc__)
    parser.add_argument("--seed", type=seed_number)
    seed = parser.parse_args().seed
    if seed is None:
        seed = int.from_bytes(os.urandom(8))
    tally, source = Tally(), SplitMix64(seed)
    try:
        for part in PARTS:
            part.check(tally, source)
    except Mismatch as mismatch:
        print(f"seed {seed}: {mismatch}")
        return 1
    except Exception:
        print(f"seed {seed}: the reference broke off", file=sys.stderr)
        raise
    print(f"reference agrees with itself, seed {seed}: {tally.summary()}")
    return 0


if __name__ == "__main__":
    run_script("check", main)
