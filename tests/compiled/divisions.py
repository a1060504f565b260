"""Counts the divisions in the compiled functions of an archive, outside loops and in them, and holds the counts to a table.

usage: python3 tests/compiled/divisions.py ARCHIVE

A division takes many times as long as a product, so the remainders of rows and of products are taken by a reciprocal: a high
product each, if the compiler makes one of it. A loop is a cycle of a function's own jumps, and a division is counted by how many
of them stand around it: none, one, or more.

Prints the counts in the form of the table. Fails if a count differs from the table, if a function is in one of them alone, if a
function of ROWS has a division in more than one loop or one of PRODUCTS in any, and if a function's jumps cannot be followed. That join
has none in its loop over the remainders, beside that of Euclid's algorithm, euclid.c counts. Needs objdump. Exits 2 for bad arguments.
"""

import os
import re
import subprocess
import sys

sys.dont_write_bytecode = True
sys.path.append(os.path.join(os.path.dirname(os.path.abspath(__file__)), os.pardir, os.pardir, "bin"))

from script import Failure, Parser, need, run_script  # noqa: E402

# Every function that has a division: how many stand in no loop, in one, and in more. Where the compiler tries a short division before a
# long one, one remainder has two. In more than one loop: Euclid's algorithm for each entry, to find whom to blame. In one loop of the calls
# on two channels: Euclid's algorithm once, and a remainder for each signed number, in loops that the compiler takes five at a time.
TABLE = """
products::add_products            1  0  0
products::transposed              1  0  0
inverses::of_list                 2  2  2
checks::column                    1  2  2
plain::expand                     1  0  0
plain::decompose                  3  0  0
prepared::Prepared::right         1  0  0
prepared::prepare                 1  0  0
prepared::append_verdict          0  4  0
prepared::replace_verdict         0  4  0
subproduct::build                 1  0  0
tree::expand_whole                2  0  0
tree::adjoint_whole               1  0  0
moment_way::moments_whole         2  0  0
moment_way::decompose             2  0  0
verdicts::rows                    1  2  0
plain_calls::norms                1  0  0
expand_join::expand_channel       0 40  0
zahupnik_expand_join              2 42  0
zahupnik_invert                   0  2  0
zahupnik_join                     2  2  0
zahupnik_plain_adjoint            0  1  0
zahupnik_prepared_plain_adjoint   0  1  0
"""
ROWS = (
    "plain::expand",
    "zahupnik_plain_adjoint",
    "plain::decompose",
    "plain_calls::norms",
    "zahupnik_prepared_plain_adjoint",
    "expand_join::expand_channel",
    "zahupnik_join",
)
PRODUCTS = ("products::add_products", "products::transposed", "subproduct::descend", "prepared::Prepared::right", "prepared::prepare")

JUMP = re.compile(r"(j[a-z]+|loop[a-z]*)\s+([0-9a-f]+) <")
END = re.compile(r"(ret[qlw]?|ud2|hlt)\b")
INDIRECT = re.compile(r"(notrack\s+)?jmp[qlw]?\s+\*")
INSTANCE = re.compile(r"::<#[0-9a-f]+>$")  # of a generic function, which the library has once
DIVISION = re.compile(r"i?div[bwlq]?\s")


def disassembled(archive, *words):
    """What objdump writes of the archive's instructions."""
    need("objdump")
    ran = subprocess.run(["objdump", "--disassemble", "--no-show-raw-insn", *words, archive], capture_output=True, text=True)
    if ran.returncode:
        raise Failure(ran.stderr.strip() or f"objdump does not take {archive}")
    return ran.stdout


def functions(archive):
    """Each function of the archive by its name: its instructions by their address, in order."""
    text = disassembled(archive)
    found, body = {}, None
    for line in text.splitlines():
        if match := re.fullmatch(r"[0-9a-f]+ <(.*)>:", line):
            name = INSTANCE.sub("", match[1])
            if name in found:
                raise Failure(f"{archive} has two functions {name}")
            body = found[name] = {}
        elif match := re.fullmatch(r"\s*([0-9a-f]+):\t(.*?)\s*", line):
            body[int(match[1], 16)] = match[2]
    if not found:
        raise Failure(f"{archive} has no function")
    return found


def graph(name, body):
    """Where each instruction may go on to, by their addresses."""
    addresses = list(body)
    after = dict(zip(addresses, addresses[1:]))
    successors = {}
    for address, words in body.items():
        goes_on = [after[address]] if address in after else []
        if END.match(words):
            successors[address] = []
        elif INDIRECT.match(words):
            raise Failure(f"{name} jumps at {address:x} to a place that is not written there")
        elif match := JUMP.match(words):
            target = int(match[2], 16)
            if target not in body:
                raise Failure(f"{name} jumps at {address:x} out of itself")
            successors[address] = [target] if match[1] == "jmp" else [*goes_on, target]
        else:
            successors[address] = goes_on
    return successors


def reached(start, successors):
    """The instructions that are reached from the first: what fills the space between two loops is not."""
    seen, left = {start}, [start]
    while left:
        for target in successors[left.pop()]:
            if target not in seen:
                seen.add(target)
                left.append(target)
    return seen


def cycles(nodes, successors):
    """The largest sets of nodes that reach each other, those that are no cycle left out (Tarjan)."""
    index, low, stack, on_stack, sets = {}, {}, [], set(), []
    for root in nodes:
        if root in index:
            continue
        work = [(root, iter(successors[root]))]
        index[root] = low[root] = len(index)
        stack.append(root)
        on_stack.add(root)
        while work:
            node, left = work[-1]
            for target in left:
                if target not in nodes:
                    continue
                if target not in index:
                    index[target] = low[target] = len(index)
                    stack.append(target)
                    on_stack.add(target)
                    work.append((target, iter(successors[target])))
                    break
                if target in on_stack:
                    low[node] = min(low[node], index[target])
            else:
                work.pop()
                if work:
                    low[work[-1][0]] = min(low[work[-1][0]], low[node])
                if low[node] == index[node]:
                    members = set()
                    while node not in members:
                        members.add(stack.pop())
                    on_stack -= members
                    if len(members) > 1 or node in successors[node]:
                        sets.append(members)
    return sets


def entries(loop, nodes, successors):
    """Where a loop is entered."""
    return {t for node in nodes - loop for t in successors[node] if t in loop} or {min(loop)}


def one_round(loop, nodes, successors):
    """The ways within a loop, without those to where it is entered."""
    entered = entries(loop, nodes, successors)
    return {node: [t for t in successors[node] if t in loop and t not in entered] for node in loop}


def loops(nodes, successors, depth=1):
    """Each loop, how many stand around its nodes with it, and whether none is within it: that would still go round in one round of it."""
    for loop in cycles(nodes, successors):
        within = list(loops(loop, one_round(loop, nodes, successors), depth + 1))
        yield loop, depth, not within
        yield from within


def depths(nodes, successors):
    """How many loops stand around each node."""
    found = dict.fromkeys(nodes, 0)
    for loop, depth, _ in loops(nodes, successors):
        found.update(dict.fromkeys(loop, depth))
    return found


def counted(name, body):
    """The divisions in no loop, in one, and in more."""
    divisions = [address for address, words in body.items() if DIVISION.match(words)]
    if not divisions:
        return 0, 0, 0
    successors = graph(name, body)
    deep = depths(reached(min(body), successors), successors)
    if not all(address in deep for address in divisions):
        raise Failure(f"{name} has a division that no jump reaches")
    return tuple(sum(min(deep[address], 2) == depth for address in divisions) for depth in range(3))


def main():
    """Print the counts, and compare them with the table."""
    parser = Parser(__doc__)
    parser.add_argument("archive", metavar="ARCHIVE")
    found = functions(parser.parse_args().archive)
    wanted = {name: tuple(map(int, counts)) for name, *counts in map(str.split, TABLE.strip().splitlines())}
    faults = [f"{name} is not in the archive" for name in (*wanted, *ROWS, *PRODUCTS) if name not in found]
    for name, body in found.items():
        counts = counted(name, body)
        if any(counts):
            print(f"{name:32}", *(f"{count:2}" for count in counts))
        if counts != wanted.get(name, (0, 0, 0)):
            faults.append(f"{name} has {counts}, and in the table {wanted.get(name, 'it is not')}")
        if name in ROWS and counts[2] or name in PRODUCTS and any(counts[1:]):
            faults.append(f"{name} has a division for each coefficient of a row or a product, or Euclid's algorithm for each entry of a list")
    for fault in faults:
        print(f"divisions: {fault}", file=sys.stderr)
    if faults:
        raise Failure("the compiler made divisions where the table has none, or the table is of another source")


if __name__ == "__main__":
    run_script("divisions", main)
