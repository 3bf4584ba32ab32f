"""The code of document 01, "Field and code": encoding and decoding.

Nodes 1 to k hold data, k+1 to n are redundant. A table of blocks has n times
B bytes; block j is its part from (j-1)*B to j*B. Decoding solves the
equations of the k chosen rows by Gauss-Jordan elimination.
"""

from functools import lru_cache

from answers import ACCEPTED, Answer
from field import add, inverse, scale


def permitted(k, n, B):
    """The limits on k, n and B."""
    return 2 <= k <= 12 and 1 <= n - k <= 6 and n - k <= k and 1 <= B <= 4096


def block(table, j, B):
    return bytes(table[(j - 1) * B : j * B])


def put_block(table, j, B, value):
    assert len(value) == B
    table[(j - 1) * B : j * B] = value


@lru_cache(maxsize=None)
def coefficient(j, i):
    """c(j,i) is the inverse of (j-1) XOR (i-1)."""
    return inverse((j - 1) ^ (i - 1))


def unit_row(i, k):
    return bytes(1 if column == i else 0 for column in range(1, k + 1))


def code_row(j, k):
    """Block j is the sum over i of entry i of this row times data block i."""
    if j <= k:
        return unit_row(j, k)
    return bytes(coefficient(j, i) for i in range(1, k + 1))


def combine(row, blocks, B):
    """The sum of the blocks, each times its entry of the row."""
    total = bytes(B)
    for a, value in zip(row, blocks):
        if a != 0:
            total = add(total, scale(a, value))
    return total


def inverse_rows(rows):
    """The inverse of a square matrix by Gauss-Jordan elimination, or None."""
    k = len(rows)
    # Each row is followed by its row of the unit matrix.
    work = [row + unit_row(i, k) for i, row in enumerate(rows, start=1)]
    for column in range(k):
        pivot = next((r for r in range(column, k) if work[r][column]), None)
        if pivot is None:
            return None
        work[column], work[pivot] = work[pivot], work[column]
        work[column] = scale(inverse(work[column][column]), work[column])
        for r in range(k):
            if r != column and work[r][column]:
                work[r] = add(work[r], scale(work[r][column], work[column]))
    return [row[k:] for row in work]


@lru_cache(maxsize=20000)
def decoding_rows(chosen, k):
    """Row i gives data block i from the blocks of the k chosen nodes."""
    return inverse_rows([code_row(j, k) for j in chosen])


def codeword(data, n, B):
    """The n blocks of the codeword with these k data blocks."""
    k = len(data)
    return data + [combine(code_row(j, k), data, B) for j in range(k + 1, n + 1)]


def encode(k, n, B, table):
    """Fills the redundant blocks of the table from its data blocks."""
    if not permitted(k, n, B) or len(table) != n * B:
        return Answer(1)
    data = [block(table, i, B) for i in range(1, k + 1)]
    table[:] = b"".join(codeword(data, n, B))
    return ACCEPTED


def decode(k, n, B, members, table):
    """Makes the table the codeword that the k lowest members determine.

    The members are node numbers in any order; a repeated one counts once.
    """
    if not permitted(k, n, B) or len(table) != n * B:
        return Answer(1)
    if not all(1 <= j <= n for j in members):
        return Answer(2)
    chosen = tuple(sorted(set(members)))
    if len(chosen) < k:
        return Answer(11, len(chosen))
    chosen = chosen[:k]
    rows = decoding_rows(chosen, k)
    if rows is None:
        return Answer(12)
    blocks = [block(table, j, B) for j in chosen]
    data = [combine(row, blocks, B) for row in rows]
    table[:] = b"".join(codeword(data, n, B))
    return ACCEPTED
