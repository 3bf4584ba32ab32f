"""The lines that the programs read, and the calls they stand for.

Document 01, "Due test and runner": fields are one space apart; a number is
one or more decimal digits; bytes are two hexadecimal digits, capitals.
Anything that is not byte for byte one of the forms is unreadable.
"""

import re
from typing import NamedTuple

from answers import Answer

# letter: name of the call, how many numbers follow, whether a value follows
SHELF_FORMS = {
    b"S": ("swap", 2, True),
    b"A": ("add", 2, False),
    b"H": ("check", 2, False),
    b"D": ("drop", 1, False),
    b"G": ("sweep", 1, False),
    b"R": ("read", 1, False),
    b"L": ("lock", 1, False),
    b"P": ("pick", 1, False),
    b"O": ("weaken", 1, False),
    b"I": ("tighten", 1, False),
    b"W": ("write", 1, False),
    b"T": ("settle", 1, False),
    b"U": ("unlock", 1, False),
    b"Q": ("quit", 1, False),
    b"C": ("stop", 1, False),
    b"N": ("fail", 1, True),
}
# with the letters that only striperun knows
FORMS = SHELF_FORMS | {
    b"Z": ("due", 1, False),
    b"K": ("tick", 0, False),
}

# volumerun: lines of the whole volume, and after a stripe's number striperun's but these
VOLUME_FORMS = {
    b"RB": ("read", 1, False),
    b"SB": ("swap", 2, True),
    b"CC": ("stop", 1, False),
    b"NC": ("fail", 1, True),
    b"?": ("look", 1, False),
}
NOT_OF_ONE_STRIPE = {b"C", b"N", b"V", b"M", b"J"}
ONE_STRIPE_FORMS = {letter: form for letter, form in FORMS.items() if letter not in NOT_OF_ONE_STRIPE}

DIGITS = re.compile(rb"[0-9]+")
BYTES = re.compile(rb"(?:[0-9A-F]{2})+")

# Every number that is in range of anything is below this one.
TOO_LARGE = 1_000_000_000


class Call(NamedTuple):
    name: str
    arguments: tuple


def number(digits):
    """The number, or TOO_LARGE for one of more than nine digits."""
    significant = digits.lstrip(b"0")
    if len(significant) > 9:
        return TOO_LARGE
    return int(significant or b"0")


def numbers(fields):
    """The fields as numbers, or None if some field isn't one."""
    if not all(DIGITS.fullmatch(field) for field in fields):
        return None
    return tuple(number(field) for field in fields)


def numbers_of(line, count):
    """The line's numbers, or None if it isn't just so many."""
    fields = numbers(line.split(b" "))
    return fields if fields is not None and len(fields) == count else None


def read_call(line, forms=FORMS):
    """The call that a line without its LF stands for, or None if unreadable."""
    letter, *fields = line.split(b" ")
    if letter not in forms:
        return None
    name, count, has_value = forms[letter]
    if len(fields) != count + has_value:
        return None
    arguments = numbers(fields[:count])
    if arguments is None:
        return None
    if has_value:
        if not BYTES.fullmatch(fields[-1]):
            return None
        arguments += (bytes.fromhex(fields[-1].decode("ascii")),)
    return Call(name, arguments)


def read_volume_call(line):
    """The volume's call; after a stripe's number it is a call of that stripe."""
    first, _, rest = line.partition(b" ")
    if not DIGITS.fullmatch(first):
        return read_call(line, VOLUME_FORMS)
    call = read_call(rest, ONE_STRIPE_FORMS)
    return call and Call("on_stripe", (number(first), call))


def spelled_out(calls):
    """The lines of calls in short: L 1 x3, P 1 stands for L 1, L 1, L 1, P 1."""
    for item in calls.split(", "):
        call, _, times = item.partition(" x")
        yield from [call.strip().encode()] * int(times or 1)


def values_of(call):
    """The bytes that a call gives, at most one string of them."""
    if call.name == "on_stripe":
        _, call = call.arguments
    return [argument for argument in call.arguments if isinstance(argument, bytes)]


def answer_of(machine, call):
    """Makes the call; None, an unreadable line, is answered 1."""
    if call is None:
        return Answer(1)
    return getattr(machine, call.name)(*call.arguments)


def played(lines, read_sizes, play):
    """The output of a program whose first line has the sizes.

    Where they are unreadable or outside the limits, each line is answered 1.
    """
    lines = iter(lines)
    first = next(lines, None)
    if first is None:
        return
    sizes = read_sizes(first)
    yield from ("1 -" for _ in lines) if sizes is None else play(sizes, lines)


def lines_of(stream):
    """The lines of a binary stream without their LF; the last may lack it."""
    for line in stream:
        yield line.removesuffix(b"\n")
