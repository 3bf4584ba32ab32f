"""GF(256) with the polynomial 0x11D, by carry-less multiplication and reduction.

Document 01, "Field and code": bytes are elements of GF(256), addition and
subtraction are XOR. There is no logarithm table here: the rows below are
built from the multiplication and serve bytes.translate only.
"""

from functools import lru_cache

POLYNOMIAL = 0x11D


def carryless(a, b):
    """The product of two polynomials over GF(2), not reduced."""
    product = 0
    for bit in range(8):
        if b >> bit & 1:
            product ^= a << bit
    return product


def reduce(product):
    """The remainder of a polynomial of degree at most 14 by POLYNOMIAL."""
    for bit in range(14, 7, -1):
        if product >> bit & 1:
            product ^= POLYNOMIAL << (bit - 8)
    return product


def times(a, b):
    return reduce(carryless(a, b))


def power(a, exponent):
    result = 1
    for _ in range(exponent):
        result = times(result, a)
    return result


@lru_cache(maxsize=256)
def inverse(a):
    """a to the 254th: every element but 0 has a**255 = 1."""
    assert a != 0
    return power(a, 254)


@lru_cache(maxsize=256)
def row(a):
    """The 256 multiples of a, as a table for bytes.translate."""
    return bytes(times(a, b) for b in range(256))


def scale(a, block):
    """a times each byte of the block."""
    return block.translate(row(a))


def add(x, y):
    """The sum of two blocks of equal length."""
    assert len(x) == len(y)
    total = int.from_bytes(x, "little") ^ int.from_bytes(y, "little")
    return total.to_bytes(len(x), "little")
