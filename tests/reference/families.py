"""Families and curves to try: random and greatest ones, and their sizes and moduli."""

from dataclasses import replace
from math import gcd

from curves import Family

SIZES = (0, 1, 2, 3, 4, 7, 8, 15, 16, 31, 32, 63, 64, 126, 127)
OTHER_SIZES = (5, 6, 9, 10, 12, 17, 24, 33, 47, 65, 96, 125)
PRIMES = (2, 3, 5, 7, 257, 65537, 1000003, 2147483629, 2147483647)
COMPOSITES = (6, 15, 1001, 1000000, 2147483645, 2147483646)
POWERS_OF_TWO = (4, 8, 1024, 2**30)
MODULI = PRIMES + COMPOSITES + POWERS_OF_TWO


def random_unit(source, modulus):
    """A random number below the modulus that has an inverse."""
    while True:
        number = source.below(modulus)
        if gcd(number, modulus) == 1:
            return number


def sharing_numbers(modulus):
    """The least number above zero that shares a factor, if there is one."""
    shared = (x for x in range(2, min(modulus, 1000)) if gcd(x, modulus) > 1)
    return [x for x in (next(shared, None),) if x is not None]


def numbers_without_inverse(modulus):
    """Zero and, if there is one, the least number that shares a factor."""
    return [0, *sharing_numbers(modulus)]


def first_cs(source, modulus):
    """Each kind of c_1 once: without an inverse, a random unit, m - 1, and any number."""
    kinds = (random_unit(source, modulus), modulus - 1, source.below(modulus))
    return list(dict.fromkeys((*numbers_without_inverse(modulus), *kinds)))


def random_family(source, modulus, row_count):
    """A random accepted family in which every c has an inverse, c_1 too."""
    return Family(
        modulus,
        tuple(random_unit(source, modulus) for _ in range(row_count)),
        tuple(source.below(modulus) for _ in range(row_count)),
        tuple(random_unit(source, modulus) for _ in range(row_count)),
    )


def with_first_c(family, first_c):
    """The family with this c_1; a family without rows stays as it is."""
    return replace(family, c=(first_c, *family.c[1:])) if family.c else family


def random_family_any_first_c(source, modulus, row_count):
    """A random accepted family with c_1 of a random kind."""
    family = random_family(source, modulus, row_count)
    return with_first_c(family, source.choice(first_cs(source, modulus)))


def random_curve(source, modulus, length):
    """Random numbers below the modulus."""
    return tuple(source.below(modulus) for _ in range(length))


def greatest_family(modulus, row_count):
    """The accepted family whose entries are all as great as they may be."""
    return Family(modulus, *((modulus - 1,) * row_count for _ in range(3)))
