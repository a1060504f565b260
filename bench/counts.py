"""Prints the instructions of each call from the files that callgrind wrote: one file for each call (bench.c, count).

usage: python3 bench/counts.py FILES..

bench/run calls it. Exits 1 if a file is missing or is not what callgrind writes; 2 for bad arguments.
"""

import collections
import os
import re
import sys

sys.dont_write_bytecode = True
sys.path.append(os.path.join(os.path.dirname(os.path.abspath(__file__)), os.pardir, "bin"))

from script import Failure, Parser, run_script, text_of  # noqa: E402

LEAST_SHARE = 0.01


def number(path):
    """The number that ends a file's name: callgrind counts them up."""
    last = path.rpartition(".")[2]
    if not last.isdecimal():
        raise Failure(f"{path}: its name does not end in a number, as callgrind has it")
    return int(last)


def read(path):
    """The label of a file, and its instructions by function, where a call of itself ('2) counts for the function."""
    label, total, function, names, is_call = "", 0, None, {}, False
    costs = collections.Counter()
    for line in text_of(path).splitlines():
        if line.startswith("desc: Trigger: Client Request: "):
            label = line.split(": ", 3)[3].strip()
        elif line.startswith("summary: "):
            total = int(line.split()[1])
        elif line.startswith("fn="):
            found = re.match(r"fn=(\(\d+\))(?: (.*))?", line)
            function = names.setdefault(found[1], found[2])
        elif line.startswith("cfn="):
            found = re.match(r"cfn=(\(\d+\))(?: (.*))?", line)
            names.setdefault(found[1], found[2])
        elif line.startswith("calls="):
            is_call = True
        elif re.match(r"[+*\d-]", line):
            if not is_call:
                costs[function.split("'")[0]] += int(line.split()[1])
            is_call = False
    found = sum(costs.values())
    if found != total:
        raise Failure(f"{path}: its functions have {found} instructions, and it says {total}")
    return label, costs


def main():
    """Read the files, and print the tables."""
    parser = Parser(__doc__)
    parser.add_argument("files", metavar="FILES", nargs="+")
    counts = {}
    for path in sorted(parser.parse_args().files, key=number):
        try:
            label, costs = read(path)
        except (AttributeError, LookupError, TypeError, ValueError) as problem:
            raise Failure(f"{path}: it is not what callgrind writes: {problem}") from problem
        if "/" in label:
            modulus, name, call = label.split("/")
            counts.setdefault(modulus, {}).setdefault(name, {})[call] = costs
    for modulus, names in counts.items():
        library, records, contestants = names.pop("library"), names.pop("record"), names
        print(f"\nm = {modulus}, r = 127: thousands of instructions for a call, and the library's over the contestant's\n")
        print("| call | library |" + "".join(f" {name} | ratio |" for name in contestants))
        print("|---|---:|" + "---:|---:|" * len(contestants))
        for call, costs in library.items():
            own = sum(costs.values())
            operation = "Expand" if call == "text, expand" else call.split()[-1]
            print(f"| {call} | {own / 1000:.1f} |", end="")
            for calls in contestants.values():
                other = sum(calls[operation].values())
                print(f" {other / 1000:.1f} | {own / other:.2f} |", end="")
            print()
        print(f"\nm = {modulus}, r = 127: thousands of instructions for a call on a record and on the lists\n")
        print("| call | record | lists | ratio |")
        print("|---|---:|---:|---:|")
        for call, costs in records.items():
            own, other = sum(costs.values()), sum(library[call].values())
            print(f"| {call} | {own / 1000:.1f} | {other / 1000:.1f} | {own / other:.2f} |")
        print(f"\nm = {modulus}, r = 127: where the library's instructions are, with what the compiler has put in line\n")
        print("| call | functions |")
        print("|---|---|")
        for call, costs in library.items():
            shares = ((function, cost / sum(costs.values())) for function, cost in costs.most_common())
            shown = (f"{function} {100 * share:.0f} %" for function, share in shares if share >= LEAST_SHARE)
            print(f"| {call} | {', '.join(shown)} |")


if __name__ == "__main__":
    run_script("counts", main)
