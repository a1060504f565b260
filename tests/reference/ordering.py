"""Even powers first, from item 7 of the change requests: the two orders of a list and the calls.

even first == the entries at even indices rising, then those at odd indices rising.
even back  == the way back.

A call is lent a list of any length and an output, and answers with an Outcome as
those of calls.py do: a refusal leaves the output as it was. The numbers are any of
32 bits, and there is no modulus. Tests run in this order:

5   more than 128 numbers
7   the output is not as long as the list
"""

from calls import Outcome

MOST_NUMBERS = 128


def even_first(numbers):
    """Even indices rising, then odd indices rising."""
    indices = range(len(numbers))
    even = [index for index in indices if index % 2 == 0]
    odd = [index for index in indices if index % 2 == 1]
    return [numbers[index] for index in even + odd]


def even_back(numbers):
    """The way back: the one list of which even_first makes this one.

    What even_first makes of the indices says which index each number came from.
    """
    came_from = even_first(range(len(numbers)))
    found = dict(zip(came_from, numbers, strict=True))
    return [found[index] for index in range(len(numbers))]


TESTS = (5, 7)
CONDITIONS = {
    5: lambda numbers, output: len(numbers) > MOST_NUMBERS,
    7: lambda numbers, output: len(output) != len(numbers),
}


def outcome(order, numbers, output):
    """The outcome of the call that puts a list into an order."""
    verdict = next((test for test in TESTS if CONDITIONS[test](numbers, output)), 0)
    return Outcome(verdict, output if verdict else order(numbers), None)


def even_first_call(numbers, output):
    """Even first, into an output."""
    return outcome(even_first, numbers, output)


def even_back_call(numbers, output):
    """Even back, into an output."""
    return outcome(even_back, numbers, output)
