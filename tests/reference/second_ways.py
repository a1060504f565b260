"""Second ways to the same lists, none of which uses the formula in curves.py.

They follow theorems and not definitions, so agreement is evidence for both.
Rows are numbered from 1 as in the scope paper; row i stands at place i - 1.
"""

import re

import curves

NUMBER = rb"(?:0|[1-9][0-9]{0,9})"
NUMBERS = rb"((?:" + NUMBER + rb"(?: " + NUMBER + rb")*)?)"
JOB = re.compile(
    rb"mod=(" + NUMBER + rb")\n"
    rb"a=" + NUMBERS + rb"\n"
    rb"b=" + NUMBERS + rb"\n"
    rb"c=" + NUMBERS + rb"\n"
    rb"op=(expand|adjoint|decompose|moments|norms)\n"
    rb"v=" + NUMBERS + rb"\n"
)
STORE_LINE = re.compile(rb"(put|back)=" + NUMBERS + rb"\n")


def inverse_by_search(x, modulus):
    """The inverse by trying every number below the modulus, or None."""
    return next((y for y in range(modulus) if x * y % modulus == 1), None)


def factor_by_search(x, modulus):
    """The greatest common factor by trying every number from the modulus down."""
    return next(d for d in range(modulus, 0, -1) if modulus % d == 0 and x % d == 0)


def expand_from_the_top(family, curve):
    """Expand by Clenshaw's scheme: from the highest F_i down, no F_i formed."""
    rows = family.rows()
    later, latest = [0] * family.n, [0] * family.n
    for i in range(family.n - 1, -1, -1):
        a, b, _ = rows[i]
        c = rows[i + 1][2] if i + 1 < family.n else 0
        shifted = [0, *later[:-1]]
        value = [a * s + b * x + c * y for s, x, y in zip(shifted, later, latest)]
        value[0] += curve[i]
        later, latest = [x % family.modulus for x in value], later
    return later


def adjoint_by_table(family, curve):
    """Adjoint by a table of the values of x^l F_j, one row of the family a line."""
    found = [curve[0]]
    before_last, last = [0] * len(curve), list(curve)
    for a, b, c in family.rows()[:-1]:
        line = [
            (a * last[power + 1] + b * last[power] + c * before_last[power])
            % family.modulus
            for power in range(len(last) - 1)
        ]
        before_last, last = last, line
        found.append(line[0])
    return found


def decomposed_times_norms(family, coefficients):
    """The decomposed curve, entry i times norm i: Hankel product with the moments, adjoint."""
    moments = curves.moments(family)
    weighted = [
        sum(moments[i + j] * x for j, x in enumerate(coefficients)) % family.modulus
        for i in range(family.n)
    ]
    return curves.adjoint(family, weighted)


def decompose_by_moments(family, coefficients):
    """Decompose as Hankel product with the moments, adjoint, division by norms."""
    return [
        curves.divide(x, norm, family.modulus)
        for x, norm in zip(decomposed_times_norms(family, coefficients), curves.norms(family))
    ]


def moments_by_paths(family, closing=curves.CLOSING_ROW):
    """Moment k as the part of F_0 in x^k, times norm 0.

    x F_{i-1} = (F_i - b_i F_{i-1} - c_i F_{i-2}) / a_i turns x^k into a sum of
    F_i. No path back to F_0 within 2n - 2 steps rises above F_{n-1}.
    """
    modulus, n = family.modulus, family.n
    rows = family.rows(closing)
    inverses = [curves.inverse(a, modulus) for a, _, _ in rows]
    parts = [1] + [0] * (n - 1)
    found = []
    for _ in range(2 * n - 1):
        found.append(parts[0] * inverses[0] % modulus)
        raised = [0] * n
        for place, part in enumerate(parts):
            _, b, c = rows[place]
            share = part * inverses[place] % modulus
            if place + 1 < n:
                raised[place + 1] += share
            raised[place] -= share * b
            if place > 0:
                raised[place - 1] -= share * c
        parts = [part % modulus for part in raised]
    return found


def matrix_product(left, right, modulus):
    """The product of two 2 by 2 matrices of polynomials."""

    def entry(i, j):
        first, second = (
            curves.uncut_product(left[i][k], right[k][j], modulus) for k in range(2)
        )
        return [
            (curves.coefficient(first, power) + curves.coefficient(second, power)) % modulus
            for power in range(max(len(first), len(second)))
        ]

    return [[entry(i, j) for j in range(2)] for i in range(2)]


def row_matrix(row):
    """The matrix that takes (F_{i-2}, F_{i-1}) to (F_{i-1}, F_i)."""
    a, b, c = row
    return [[[0], [1]], [[c], [b, a]]]


def matrix_of_rows(rows, modulus):
    """The product of the rows' matrices, the first row's rightmost."""
    product = [[[1], [0]], [[0], [1]]]
    for row in rows:
        product = matrix_product(row_matrix(row), product, modulus)
    return product


def trimmed(polynomial, length):
    """The polynomial with exactly this many coefficients."""
    return [curves.coefficient(polynomial, power) for power in range(length)]


def written_by_template(modulus, a, b, c, operation, curve):
    """The text of a job from one template, lists by Python's own notation."""
    a, b, c, curve = (str(list(x)).strip("[]").replace(",", "") for x in (a, b, c, curve))
    return f"mod={modulus}\na={a}\nb={b}\nc={c}\nop={operation}\nv={curve}\n".encode()


def read_by_pattern(text):
    """The values of a job text by one regular expression, or None."""
    match = JOB.fullmatch(text)
    if match is None:
        return None
    modulus, a, b, c, operation, curve = match.groups()
    lists = [tuple(int(word) for word in words.split()) for words in (a, b, c, curve)]
    if any(number > 4294967295 for numbers in ((int(modulus),), *lists) for number in numbers):
        return None
    return (int(modulus), lists[0], lists[1], lists[2], operation.decode(), lists[3])


def numbers_of(words):
    """The numbers in a part of a text that the pattern found; None if one is too great."""
    numbers = tuple(int(word) for word in words.split())
    return None if any(number > 4294967295 for number in numbers) else numbers


def line_by_pattern(line):
    """The key and the numbers of a store's line by one regular expression, or None."""
    match = STORE_LINE.fullmatch(line)
    numbers = None if match is None else numbers_of(match[2])
    return None if numbers is None else (match[1], numbers)


def lines_byte_by_byte(text):
    """The lines of an input: one ends with byte 10, or where the input ends if bytes are left."""
    found, line = [], []
    for byte in text:
        line.append(byte)
        if byte == 10:
            found.append(bytes(line))
            line = []
    return found + ([bytes(line)] if line else [])


def printed_for_line(line):
    """What the program `store` prints for a line: its length, the pattern, its numbers, slices."""
    read = line_by_pattern(line) if len(line) <= 8192 else None
    if read is None:
        return b"refused=1\n" if len(line) > 8192 else b"refused=2\n"
    key, numbers = read
    if len(numbers) > 128:
        return b"refused=5\n"
    result = [*numbers[0::2], *numbers[1::2]]
    if key == b"back":
        result = [0] * len(numbers)
        half = len(result[0::2])
        result[0::2], result[1::2] = numbers[:half], numbers[half:]
    return str(result).strip("[]").replace(",", "").encode() + b"\n"
