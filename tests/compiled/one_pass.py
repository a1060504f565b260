"""Reads from the compiled products::transposed that it forms the wanted terms in one pass and keeps no array.

usage: python3 tests/compiled/one_pass.py ARCHIVE
       python3 tests/compiled/one_pass.py --places PROGRAM FUNCTION..

Prints a line for each thing that is read from its instructions:
- it calls nothing and goes on in no other function, and names nothing outside itself, so that no array is had from elsewhere;
- it takes little stack, takes no address of it and reads it at no place that is found while it runs: single numbers, and no array;
- one instruction writes elsewhere than to the stack, a number of 32 bits, and stands in one loop, so that no product is kept. Where the
  compiler has made two loops or two ways of one, there may be more, but none runs after another: not in one round of a loop, and not
  in a loop after another;
- every innermost loop that multiplies stands in such a loop and in no other, and goes on or ends by one jump: nothing else is tested in it;
- it divides in no loop: remainders are taken by the reciprocal.

Fails if one of these is not so, and if there is no such function. Needs objdump. Exits 2 for bad arguments.

With --places it prints where each FUNCTION of a program writes elsewhere than to the stack, and where it multiplies, for
tests/compiled/steps.c: what the instructions do not show, such as coefficients that are formed and thrown away, or terms that are written in
two rounds of one loop, is counted there.
"""

import re
import sys

from divisions import DIVISION, END, INDIRECT, JUMP, disassembled, entries, functions, graph, loops, one_round, reached
from divisions import Failure, Parser, run_script

NAME = "products::transposed"
MOST_STACK = 256

PREFIX = re.compile(r"((lock|rep[a-z]*|notrack|bnd|data16|addr32|[c-g]s|rex\S*)\s+)+")
CALL = re.compile(r"call[qlw]?\b")
CHOICE = re.compile(r"cmov")
# What multiplies in a register: numbers of 32 or 64 bits, or several at once.
MULTIPLY = re.compile(r"(i?mul|mulx|pmul\w*)[bwlq]?\s")
# What writes to a place that is no operand of it, or by parts of one.
HIDDEN_WRITE = re.compile(r"(v?maskmov\w*|movdir\w*|enqcmd\w*|stos[bwlq]?|movs[bwlq]|xsave\w*|fxsave\w*)$")
# Names that end in a memory operand and do not write it. Of mul and div those with one operand, which is read.
READS = re.compile(r"((cmp|test|bt|push|call|jmp|nop|mul|imul|div|idiv)[bwlq]?|prefetch\w*|u?comis[sd]|ptest)")
RELOCATION = re.compile(r"\s*[0-9a-f]+: R_X86_64_\w+\s+(.+)")
# What multiplies in another way, which is neither read nor counted.
OTHER_MULTIPLY = re.compile(r"\w*(mul|madd)")
# Registers of 32 bits: what a store of one number has for its source.
NUMBER = re.compile(r"%(e[a-z]{2}|r\d+d)")
# What stands above the place to return to: the arguments that no register has.
ARGUMENTS = 8 + 8 * 4


class Fault(Exception):
    """What the function does that it may not."""


def outside(archive):
    """What the function names outside itself: what the linker has to fill in."""
    names, within = [], False
    for line in disassembled(archive, "--reloc").splitlines():
        if match := re.fullmatch(r"[0-9a-f]+ <(.*)>:", line):
            within = match[1] == NAME
        elif within and (match := RELOCATION.fullmatch(line)):
            names.append(re.sub(r"[+-]0x[0-9a-f]+$", "", match[1]))
    return names


def parts(words):
    """An instruction's name and its operands."""
    name, _, rest = PREFIX.sub("", re.sub(r"\s*[#<].*", "", words)).partition(" ")
    return name, re.findall(r"(?:[^,(]|\([^)]*\))+", rest.strip())


def is_memory(operand):
    """Whether an operand is a place in memory: neither a number, nor a register alone."""
    return "(" in operand or not re.match(r"[$%*]", operand) or re.match(r"%[c-gs]s:", operand)


def written(words):
    """The place in memory that an instruction writes, or nothing; push and call apart, which write to the stack."""
    name, operands = parts(words)
    if not operands or JUMP.match(words) or READS.fullmatch(name) or not is_memory(operands[-1]):
        return None
    return operands[-1]


def signed(number):
    """A number of 64 bits as it is meant."""
    value = int(number, 16)
    return value - (1 << 64) if value >> 63 else value


def stack_step(address, words):
    """By how much an instruction moves the end of the stack down. None may hand its address on."""
    name, operands = parts(words)
    if name in ("enter", "leave") or "%esp" in operands or "%sp" in operands:
        raise Fault(f"moves its stack at {address:x} in a way that is not read")
    if re.fullmatch(r"push[qf]?", name) and operands != ["%rsp"]:
        return 8
    if re.fullmatch(r"popq?", name) and operands != ["%rsp"]:
        return -8
    if match := re.fullmatch(r"(sub|add)q?\s+\$(0x[0-9a-f]+),%rsp", words):
        return signed(match[2]) if match[1] == "sub" else -signed(match[2])
    if match := re.fullmatch(r"lea\s+(-?)(0x[0-9a-f]+)\(%rsp\),%rsp", words):
        return -int(match[1] + match[2], 16)
    if operands and operands[-1] == "%rsp":
        raise Fault(f"moves its stack at {address:x} in a way that is not read")
    if "%rsp" in operands or name.startswith("lea") and "%rsp" in operands[0]:
        raise Fault(f"takes the address of its stack at {address:x}")
    return 0


def stack(body, successors):
    """How many bytes below where it began the function writes or reads."""
    start = min(body)
    down, left, most = {start: 0}, [start], 0
    while left:
        address = left.pop()
        after = down[address] + stack_step(address, body[address])
        most = max(most, after)
        for operand in parts(body[address])[1]:
            if match := re.fullmatch(r"(-?)(?:(0x[0-9a-f]+))?\(%rsp(,.*)?\)", operand):
                if match[3]:
                    raise Fault(f"reads or writes its stack at {address:x} at a place that is found while it runs: an array")
                place = int(match[1] + (match[2] or "0"), 16) - down[address]
                if place >= ARGUMENTS:
                    raise Fault(f"reads or writes the stack of its caller at {address:x}")
                most = max(most, -place)
            elif "%rsp" in operand and operand != "%rsp":
                raise Fault(f"reads or writes its stack at {address:x} in a way that is not read")
        for target in successors[address]:
            if target not in down:
                down[target] = after
                left.append(target)
            elif down[target] != after:
                raise Fault(f"comes to {target:x} with its stack at two places")
    return most


def alone(archive, body):
    """It goes on nowhere else."""
    if names := outside(archive):
        raise Fault(f"names {', '.join(sorted(set(names)))}")
    for address, words in body.items():
        if CALL.match(PREFIX.sub("", words)):
            raise Fault(f"calls a function at {address:x}")
        if INDIRECT.match(words) or (match := JUMP.match(words)) and int(match[2], 16) not in body:
            raise Fault(f"jumps at {address:x} out of itself")
        if re.match(r"(syscall|sysenter|int)\b", words):
            raise Fault(f"calls the system at {address:x}")
        if HIDDEN_WRITE.match(parts(words)[0]):
            raise Fault(f"writes at {address:x} in a way that is not read")
        if OTHER_MULTIPLY.match(words) and not MULTIPLY.match(words):
            raise Fault(f"multiplies at {address:x} in a way that is not read")
    if not any(END.match(words) for words in body.values()):
        raise Fault("does not return")
    return "calls nothing, goes on in no other function and names nothing outside itself"


def little_stack(body, successors):
    """It keeps single numbers alone."""
    taken = stack(body, successors)
    if taken > MOST_STACK:
        raise Fault(f"takes {taken} bytes of stack, and {MOST_STACK} are granted")
    return f"takes {taken} bytes of stack, for single numbers and no array"


def written_once(body, successors, ways):
    """The loops over the wanted terms, and what is to be said of them."""
    stores = [a for a in sorted(body) if (place := written(body[a])) and "(%rsp" not in place]
    if not stores:
        raise Fault("writes nowhere but to its stack")
    around = {}
    for store in stores:
        standing = [loop for loop, _, _ in ways if store in loop]
        if len(standing) != 1:
            raise Fault(f"writes at {store:x} in {len(standing)} loops, and not in one alone")
        around[store] = standing[0]
        name, operands = parts(body[store])
        if name != "movl" and not NUMBER.fullmatch(operands[0]):
            raise Fault(f"writes at {store:x} something else than a number of 32 bits")
    for store in stores:
        loop = around[store]
        if len(entries(loop, set(body), successors)) != 1:
            raise Fault(f"enters the loop at {min(loop):x}, which writes, at two places")
        later = reached(store, one_round(loop, set(body), successors))
        later |= {a for a in reached(store, successors) if a not in loop}
        if again := [a for a in stores if a != store and a in later]:
            raise Fault(f"writes at {store:x}, and after that it may at {again[0]:x}")
    instructions = "one instruction" if len(stores) == 1 else f"one of {len(stores)} instructions"
    return list(around.values()), f"writes by {instructions}, in one loop"


def product_loops(body, ways, wanted):
    """Every sum has its end before it begins."""
    sums = [(loop, depth) for loop, depth, innermost in ways if innermost and any(MULTIPLY.match(body[a]) for a in loop)]
    for loop, depth in sums:
        if depth != 2 or not any(loop < terms for terms in wanted):
            raise Fault(f"multiplies in the loop at {min(loop):x}, which is not within the loop over the wanted terms and no other")
        jumps = [a for a in loop if (match := JUMP.match(body[a])) and match[1] != "jmp"]
        choices = [a for a in loop if CHOICE.match(body[a])]
        if len(jumps) != 1 or choices:
            raise Fault(f"decides {len(jumps) + len(choices)} times in each step of the loop at {min(loop):x}, which multiplies")
    if not sums:
        raise Fault("has no loop that multiplies")
    number = "one loop" if len(sums) == 1 else f"{len(sums)} loops"
    return f"multiplies in {number} within that loop and no other, and goes on or ends by one jump in each step"


def no_division(body, ways):
    """The remainders are taken by the reciprocal, which is found before the loops."""
    for address, words in body.items():
        if DIVISION.match(words) and any(address in loop for loop, _, _ in ways):
            raise Fault(f"divides at {address:x}, in a loop")
    return "divides in no loop"


def print_places(program, names):
    """Where functions write and multiply, those products left out that have a number of the program's in them: they find places."""
    found = functions(program)
    for name in names:
        if name not in found:
            raise Failure(f"{program} has no function {name}")
        body = found[name]
        for address in sorted(reached(min(body), graph(name, body))):
            words = PREFIX.sub("", body[address])
            if OTHER_MULTIPLY.match(words) and not words.startswith(("mul", "imul")):
                raise Failure(f"{name} multiplies at {address:x} in a way that is not counted")
            if MULTIPLY.match(words) and "$" not in words:
                print(f"{name} multiply {address:x}")
            if (place := written(words)) and "(%rsp" not in place:
                print(f"{name} write {address:x}")


def main():
    """Say what the function does, or what it does wrong."""
    parser = Parser(__doc__)
    parser.add_argument("--places", metavar="PROGRAM")
    parser.add_argument("words", metavar="ARCHIVE or FUNCTION..", nargs="+")
    arguments = parser.parse_args()
    if arguments.places is not None:
        return print_places(arguments.places, arguments.words)
    archive, *more = arguments.words
    if more:
        parser.error(f"'{more[0]}' is one argument too many")
    body = {address: PREFIX.sub("", words) for address, words in functions(archive).get(NAME, {}).items()}
    if not body:
        raise Failure(f"{archive} has no function {NAME}: the compiler has put it in line, or it has another name")
    try:
        print(f"{NAME} {alone(archive, body)}")
        successors = graph(NAME, body)
        found = reached(min(body), successors)
        body = {address: body[address] for address in sorted(found)}
        if open_end := [address for address in found if not successors[address] and not END.match(body[address])]:
            raise Fault(f"goes on at {open_end[0]:x} past its end")
        ways = list(loops(found, successors))
        print(f"{NAME} {little_stack(body, successors)}")
        wanted, line = written_once(body, successors, ways)
        print(f"{NAME} {line}")
        print(f"{NAME} {product_loops(body, ways, wanted)}")
        print(f"{NAME} {no_division(body, ways)}")
    except Fault as fault:
        sys.stdout.flush()
        raise Failure(f"{NAME} {fault}") from fault


if __name__ == "__main__":
    run_script("one_pass", main)
