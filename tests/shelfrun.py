"""Compares the program shelfrun with the second implementation, byte by byte.

    shelfrun.py PROGRAM SEED
    shelfrun.py --reference-only SEED       without a program

Plays inputs that are odd as a whole, and random lists, about a tenth of their
lines damaged as a person, a cable or an attacker would; all with little memory,
for lines and input may have any length. On the way the second implementation
checks demand 3 and what C-15 promises of reads (reference/guarantee.py). Prints
how many lines were unreadable, how often each answer was given, each event
printed and which kinds of reads there were; stops at the first difference with
an error exit, or if the lists have too few lines M, which only striperun knows,
or too few of some kind of read.
"""

import itertools
import random
import subprocess
import sys
import time
from collections import Counter

from against import compared, in_order, pool, reference_output
import guarantee
from lists import shelf_author, whole_list
from script import SHELF_FORMS, read_call
from shelfrun import SIZES, run
from striperun import IMAGE_LINE

PROGRAM, SEED = sys.argv[1], int(sys.argv[2])

# 8 MB of memory
COMMAND = ["bash", "-c", 'ulimit -v 8192 && exec "$0"', PROGRAM]

LISTS = 8
LINES = 20_000
IMAGE_LINES = 1000  # unreadable, in all lists together
READS = 20  # of each kind, in all lists together

EVENTS = ["swapped", "added", "locked", "rebuilt"]

SCRIPT = [b"S 1 1 01", b"A 1 3", b"A 1 3", b"R 1"]
MEGABYTE = 2**20
LONG_LINES = [
    b"\0" * MEGABYTE,
    b" " * MEGABYTE,
    b"R " + b" " * MEGABYTE + b"1",
    b"R " + b"0" * MEGABYTE + b"1",
    b"R " + b"9" * MEGABYTE,
    b"R 1" + b" 1" * MEGABYTE,
    b"S 1 1 " + b"AB" * MEGABYTE,
    b"S 1 1 " + b"0" * (MEGABYTE + 1),
    b"N 1 " + b"00" * MEGABYTE,
    b"R 1\r" * MEGABYTE,
]
# Lines to insert before the last of SCRIPT, whose answer shows what they have changed.
ODD_LINES = [
    b"",
    b" ",
    b"R",
    b"R ",
    b"R  1",
    b" R 1",
    b"R 1 ",
    b"R\t1",
    b"R 1\r",
    b"R 1\0",
    b"R\x001",
    b"r 1",
    b"RR 1",
    b"R +1",
    b"R -1",
    b"R 1.0",
    b"R 0x1",
    b"R 0",
    b"R 01",
    b"R 2",
    b"R 3",
    b"R 255",
    b"R 256",
    b"R 257",
    b"R 65537",
    b"R 4294967297",
    b"R 18446744073709551616",
    b"R 18446744073709551617",
    b"R /",
    b"R :",
    b"R \xb2",
    b"R \xef\xbc\x91",
    b"R 1 1",
    b"\xef\xbb\xbfR 1",
    b"S 2 1",
    b"S 2 1 ",
    b"S 2 1 0",
    b"S 2 1 00",
    b"S 2 1 000",
    b"S 2 1 0000",
    b"S 2 1 ab",
    b"S 2 1 aB",
    b"S 2 1 Ab",
    b"S 2 1 G0",
    b"S 2 1 0G",
    b"S 2 1 @A",
    b"S 2 1 0 0",
    b"S 2 1 02 ",
    b"S 2 1 02 03",
    b"S 2 3 02",
    b"S 3 1 02",
    b"S 02 01 02",
    b"s 2 1 02",
    b"N 1",
    b"N 1 ",
    b"N 1 2",
    b"N 5 22",
    b"N 0 22",
    b"N 1 22",
    b"N 1 1 22",
    b"A 1",
    b"A 1 4 1",
    b"A 1 2",
    b"A 1 5",
    b"A 1 4",
    b"H 1 3",
    b"C 1",
    b"L 256",
    b"L 257",
    b"Z 1",
    b"Z 9",
    b"K",
    b"K 1",
    b"k",
    b"M",
    b"M 1",
    b"M ",
    b"m",
]
ODD_INPUTS = [
    b"",
    b"\n",
    b"\n\n\n",
    b"R 1",
    b"R 1\nR",
    b"\n\nR 1\n\n",
    b"R 1\r\nR 1\r\n",
    b"S 1 1 01\n" + b"K\n" * 300 + b"Z 1\nR 1",
    b"M\nS 1 1 01\nM\nR 1\nM",
    b"\0",
    bytes(range(256)) * 40,
]


def inputs():
    yield from ODD_INPUTS
    for line, end in itertools.product(ODD_LINES, [b"", b"\n"]):
        yield b"\n".join([*SCRIPT[:-1], line, SCRIPT[-1]]) + end
    for line in LONG_LINES:
        yield b"\n".join([*SCRIPT, line, *SCRIPT])


def output_of(input):
    if PROGRAM == "--reference-only":
        return reference_output(run, input).splitlines()
    return compared(COMMAND, run, input)


def reads(lines):
    """The kinds of reads, as of a script of striperun."""
    return guarantee.replay([" ".join(map(str, SIZES)).encode(), *lines], forms=SHELF_FORMS).reads


def counts(input):
    """Of lines, of those that are unreadable, of each event, of each answer and of each kind of read."""
    lines = input.split(b"\n")
    seen = Counter(reads(lines))
    for line, output in zip(lines, output_of(input)):
        _, event, number, _ = output.split(b" ")
        seen["lines"] += 1
        seen["unreadable"] += read_call(line, SHELF_FORMS) is None
        seen["M"] += line == IMAGE_LINE and number == b"1"
        seen[event.decode()] += 1
        seen[int(number)] += 1
    return seen


def random_list(seed):
    """Every other one has no end of its last line."""
    author = shelf_author(random.Random(seed))
    lines = whole_list(author, LINES, seed)
    return counts(b"\n".join(lines) + b"\n" * (seed % 2))


def dribble():
    """The output does not go by how the input comes, byte by byte or at once; nor does it wait for more of it than whole lines."""
    with subprocess.Popen(COMMAND, stdin=subprocess.PIPE, stdout=subprocess.PIPE) as program:
        for line, expected in zip(SCRIPT, run(SCRIPT)):
            for byte in line + b"\n":
                program.stdin.write(bytes([byte]))
                program.stdin.flush()
                time.sleep(0.001)
            if program.stdout.readline() != expected.encode() + b"\n":
                sys.exit("byte by byte: DIFFERENT")
        program.stdin.close()
        if program.stdout.read() != b"":
            sys.exit("byte by byte: DIFFERENT")


def show(name, seen):
    print(f"shelfrun, {name}: {seen['lines']} lines the same, {seen['unreadable']} unreadable, {seen['rebuilt']} rebuilds finished")


def main():
    if PROGRAM != "--reference-only":
        dribble()
    whole = sum((counts(input) for input in inputs()), Counter())
    show("odd inputs", whole)
    with pool() as workers:
        seen = sum(workers.imap_unordered(random_list, range(SEED * 1000, SEED * 1000 + LISTS)), Counter())
    show("lists", seen)
    whole += seen
    print("answers:", in_order(whole, range(13)))
    print("events:", in_order(whole, EVENTS))
    print("unreadable M:", whole["M"])
    print("reads:", in_order(whole, guarantee.READS))
    for what, floor in [("M", IMAGE_LINES), *((kind, READS) for kind in guarantee.READS)]:
        if seen[what] < floor:
            sys.exit(f"shelfrun: {what} only {seen[what]} times, not {floor}")


if __name__ == "__main__":
    main()
