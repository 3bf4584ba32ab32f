"""Compares the program striperun with the second implementation, byte by byte.

    striperun.py PROGRAM SEED
    striperun.py --reference-only SEED      without a program

Plays random lists of calls for each of the sizes below, lists with many
damaged lines, inputs that are odd as a whole, lists in which nodes come due
by ticks, lists with images of every kind of state, and lists with reads after
each call of a rebuild. On the way the second implementation checks demand 3
and what C-15 promises of reads (reference/guarantee.py). Prints how many calls
of each kind were accepted, how often each answer was given, how many rebuilds
were finished, what the images show and which kinds of reads there were; stops
at the first difference with an error exit, or if too little of these occurs.
"""

import itertools
import random
import sys
from collections import Counter

from against import compared, in_order, pool, reference_output
from firstlines import BAD_SIZES, GOOD_SIZES
import guarantee
import image
import kinds
from lists import Author, stripe_author, whole_list
from script import FORMS, spelled_out
from stripe import Sizes
from striperun import IMAGE_LINE, new_stripe, read_sizes, run

PROGRAM, SEED = sys.argv[1], int(sys.argv[2])

NODES = [(2, 3), (2, 4), (3, 5), (4, 7), (12, 18)]
LENGTHS = [1, 3, 64]
CALLS = 4600
DAMAGED_CALLS = 500
LONG_BLOCKS = [Sizes(2, 3, 4096, 1, 1), Sizes(12, 18, 4096, 6, 8)]

SCRIPT = b"S 1 1 0102\nA 1 3\nL 2\nR 1\nK\nZ 1\nM\nQ 2\nbogus\nM 1\nM"

# Each is refused somewhere.
DAMAGED_IMAGE_LINES = [b"M 1", b"MM", b"m", b" M", b"M "]
# How often the images show each kind of state, and each kind of read occurs, in the lists written out below and in the random ones.
FLOORS = {"images": 1, "lists": 10}
READ_FLOORS = {"reads": 1, "lists": 20}

MEGABYTE = 2**20
ODD_INPUTS = [
    b"",
    b"\n",
    b"\n\n",
    b"2 4 2 1 2",
    b"2 4 2 1 2\n",
    b"2 4 2 1 2\n\n",
    b"2 4 2 1 2\nR 1",
    b"2 4 2 1 2\nR 1\n\nR 2\n",
    b"2 4 2 1 2\nR 1\r\nR 1\0\nR " + b"0" * MEGABYTE + b"1\nR " + b"1" * MEGABYTE + b"\nR 1",
    b"2 4 2 1 2\nS 1 1 " + b"AB" * MEGABYTE + b"\nS 1 1 ABCD\nN 1 " + b"00" * MEGABYTE,
    b"2 4 2 1 2\n" + b"S" * MEGABYTE + b"\n" + b" " * MEGABYTE + b"\nS 1 1 AB\nS 1 1 ABCDEF\nS 1 1 \nS 1 1 ABC\nS 1 1 abcd",
    b"2 4 2 1 2\nS 1 1 ABCD\nK\nK 1\nK \n K\nk\nKK\nK K\nK 0102\nK\r\nK\0\n\0K\nK\tK\n" + b"K" * MEGABYTE + b"\nK",
    b"2 4 2 1 2\nM\nS 1 1 ABCD\nM\nM 1\nM \n M\nm\nMM\nM M\nM 0102\nM\r\nM\0\n\0M\nM\tM\n" + b"M" * MEGABYTE + b"\nM",
    b"M",
    b"M\nM",
    b"2 4 2 1 2\nM",
    b"2 4 2 1 2\nM\n\nM\n",
    bytes(range(256)) * 40,
    b"2 4 2 1 2\n" + bytes(range(256)) * 40,
]

# Lists of ticks, in short, on a stripe of k=2, n=4, B=1, t_d=1, m=2. Each node is asked, and two that there are not.
ASK = "Z 0, Z 1, Z 2, Z 3, Z 4, Z 5"
FRIDAY = "S 1 1 11, A 1 3, C 1"
DONE = "S 1 1 11, A 1 3, A 1 4"
LATER = "S 2 1 22, A 2 3, A 2 4"
SEVEN_LATER = ", ".join([LATER] * 7)
REBUILD = "L 2 x4, P 2, W 2 x4, T 2 x4, U 2 x4"
TICKS = [
    # A controller stops after its swap and an add: 63 ticks, the 64th, and on past 255.
    f"K, {FRIDAY}, {ASK}, K x63, {ASK}, K, {ASK}, K x190, {ASK}, K, {ASK}, K x9, {ASK}, {REBUILD}, {ASK}, K x64, {ASK}",
    # It stops after its swap alone, and after all its adds; with entries of many ages.
    f"S 1 1 11, C 1, K x64, {ASK}",
    f"{DONE}, C 1, K x64, {ASK}",
    f"S 1 1 11, K x30, S 2 1 22, D 2, K x33, S 2 2 33, A 2 3, K, {ASK}, K x62, {ASK}, K, {ASK}, K x200",
    # Later swaps and adds age nothing; client 2 sweeps after every seventh write.
    f"{DONE}, K x63, " + f"{SEVEN_LATER}, G 2 x8, {ASK}, " * 9 + f"K, {ASK}",
    # Entries marked old keep their ages: node by node, beside others that are recent, due or not, and at 255.
    f"{DONE}, K x63, " + f"G 1, K, {ASK}, " * 8 + f"K x9, {ASK}",
    f"{DONE}, K x63, S 2 1 22, A 2 3, G 1 x8, {ASK}, K x63, {ASK}, K, {ASK}, K x192, {ASK}, G 1 x2, K, {ASK}",
    f"{DONE}, K x256, G 1 x7, K, {ASK}, G 1, K, {ASK}",
    # Nodes that are locked, weakened, expired, RECONS or INIT, and then rebuilt.
    f"{DONE}, K x60, L 2, K, L 2 x3, K, O 2, K, I 2, {ASK}, K, {ASK}, I 2, Q 2, K, {ASK}",
    f"{DONE}, K x60, L 2 x4, P 2, W 2, K, W 2 x3, K x2, {ASK}, K, {ASK}, Q 2, K, C 2, K, {ASK}",
    f"{DONE}, K x60, N 3 99, K x4, {ASK}, N 1 99, K, {ASK}, {REBUILD}, {ASK}, K x64, {ASK}",
    f"{DONE}, K x64, L 2 x4, P 2, W 2 x4, " + f"T 2, K, {ASK}, " * 4 + f"U 2 x4, K, {ASK}, {LATER}, K x64, {ASK}",
]

# Lists with images, on the same stripe: each phase of a rebuild, hands, lists up to full ones, ages, marks, rounds.
EIGHT_DONE = ", ".join([f"{DONE}, M"] * 8)
SIXTEEN = ", ".join(["S 1 1 11, D 1, M"] * 16)
LOCKED_AND_PICKED = "L 2, M, L 2 x2, M, L 2, M, O 2, M, I 2, M, I 2, M, P 2, M"
PHASES = f"{LOCKED_AND_PICKED}, W 2, M, W 2 x3, M, T 2, M, T 2 x3, M, U 2, M, U 2 x3, M"
IMAGES = [
    f"M, M, {PHASES}, {PHASES}, S 1 1 11, M, {PHASES}",
    # Nodes were EXP: the first, some, all; given back by answer 9; lost by answer 10.
    "L 1, Q 1, M, L 2, M, L 2 x2, M, L 2, M, P 2, M",
    "L 1 x3, C 1, M, L 2, M, L 2, M, L 2, M, L 2, M",
    "L 1 x4, Q 1, M, L 2 x3, M, N 4 99, M, L 1, M, L 2, M, Q 2, M",
    "L 1 x2, N 1 99, L 2, M, L 2, M, Q 1, L 2 x3, M, L 2, M, N 3 99, O 2, M, I 2, M",
    # Hands with and without a previous id, of an earlier epoch too, done nowhere and everywhere but at one node.
    "S 1 1 11, M, S 2 1 22, M, A 1 4, A 2 4, M, H 1 1, M, H 2 1, M, A 1 3, M, A 2 3, M",
    f"S 1 1 11, A 1 4, {PHASES}, S 2 2 33, D 1, S 1 2 44, M, A 2 3, M, {PHASES}",
    "S 1 1 11, N 1 99, H 1 1, M, A 1 3, M, C 1, M",
    # Full lists, a round at each of its nodes, moved ids, entries marked old and discarded.
    f"{SIXTEEN}, S 2 1 22, M, K x3, M",
    f"{EIGHT_DONE}, S 1 1 11, M, " + "G 1, M, " * 8 + f"K, {EIGHT_DONE}, " + "G 1, M, " * 8 + f"{DONE}, M",
    # Ages from 0 to 255, and beside entries marked old.
    f"{DONE}, K, M, {LATER}, K x63, M, G 1 x6, M, G 1 x2, K x191, M, K x9, M",
    # RECONS and INIT nodes with rsets, a rebuild that is resumed, epochs.
    "S 1 1 11, A 1 3, L 2 x4, P 2, M, W 2, M, Q 2, M, N 1 99, M, L 1 x4, M, P 1, M, W 1 x2, M, C 1, M, "
    "L 2 x4, P 2, M, W 2 x4, T 2 x2, M, Q 2, M",
]

# Lists of calls on the same stripe; after each call both positions are read, and two numbers that are none.
REBUILD_BY_1 = REBUILD.replace(" 2", " 1")
BEGUN = {
    "locks": "L 2 x4",
    "pick": "L 2 x4, P 2",
    "writes": "L 2 x4, P 2, W 2 x2",
    "settles": "L 2 x4, P 2, W 2 x4, T 2 x2",
    "nth settle": "L 2 x4, P 2, W 2 x4, T 2 x4",
    "unlock": "L 2 x4, P 2, W 2 x4, T 2 x4, U 2",
    "last unlock but one": "L 2 x4, P 2, W 2 x4, T 2 x4, U 2 x3",
}
READS = [
    # Whole rebuilds: of nothing, of writes done, of one that is kept and of one that is lost.
    f"{REBUILD}, {DONE}, {LATER}, {REBUILD}",
    f"{FRIDAY}, {REBUILD}, {LATER}, {REBUILD_BY_1}",
    f"{DONE}, S 2 1 22, {REBUILD}, S 1 2 33, A 1 4, {REBUILD}",
    # Weakened, with an add in between; a pick refused by 11, and then with a failure.
    "S 1 1 11, A 1 3, L 2 x4, O 2, A 1 4, I 2 x2, P 2, W 2 x4, T 2 x4, U 2 x4",
    f"S 1 1 11, A 1 3, S 2 2 22, A 2 4, L 2 x4, P 2, Q 2, N 4 99, {REBUILD}",
    # INIT nodes that are held.
    *[f"{FRIDAY}, N {j} 99, {REBUILD}" for j in (1, 2, 3, 4)],
    f"{DONE}, N 1 99, N 3 98, {REBUILD}",
    # In each phase: the client stops, quits, loses a node and goes on, or loses it to another client; another stops.
    *[f"{FRIDAY}, {begun}, C 2, {REBUILD_BY_1}" for begun in BEGUN.values()],
    *[f"{DONE}, {begun}, Q 2, {REBUILD}" for begun in BEGUN.values()],
    *[f"{FRIDAY}, {begun}, N {j} 99, P 2, W 2, T 2, U 2" for begun in BEGUN.values() for j in (1, 4)],
    *[f"{DONE}, {begun}, N 1 99, L 1 x2, W 2 x2, T 2, U 2" for begun in BEGUN.values()],
    *[f"S 1 1 11, A 1 3, {begun}, L 1, A 1 4, D 1, S 1 2 22, C 1" for begun in BEGUN.values()],
    # All nodes are lost to another client, at once or the last of them before its unlock.
    f"{DONE}, {BEGUN['writes']}, N 1 99, N 2 98, N 3 97, N 4 96, L 1 x4, P 1, W 2",
    f"{DONE}, {BEGUN['last unlock but one']}, N 4 99, L 1 x4, P 1, W 1 x4, U 2, T 1 x4, U 1 x4",
]


def with_reads(calls):
    for line in spelled_out(calls):
        yield from [line, b"R 1", b"R 2", b"R 3", b"R 0"]


def random_lists():
    """One list for each of the sizes, the clients in turn 1 to 8."""
    clients = itertools.cycle([2, 8, 3, 5, 1, 4, 6, 7])
    for k, n in NODES:
        for B, td in itertools.product(LENGTHS, range(n - k + 1)):
            yield Sizes(k, n, B, td, next(clients))


def script_of(sizes, lines):
    return b"\n".join([" ".join(map(str, sizes)).encode(), *lines])


def random_script(seed, sizes):
    author = stripe_author(random.Random(seed), sizes)
    return script_of(sizes, whole_list(author, CALLS, seed))


def damaged_script(seed, sizes):
    author = Author(new_stripe(sizes), random.Random(seed), damaged=0.5, arbitrary=0.3)
    return script_of(sizes, whole_list(author, DAMAGED_CALLS, seed, damaged=0.5))


def long_blocks_script(seed, sizes):
    """A write, and a rebuild up to its writes, with reads; few lines, for each shows all the tables."""
    author = stripe_author(random.Random(seed), sizes)
    done, rebuild = author.done_write(1, sizes.k), author.locks_and_pick(sizes.m)
    asked = [b"R 1", b"R %d" % sizes.k, IMAGE_LINE]
    return script_of(sizes, [*done, *asked, *rebuild, *asked, b"W %d" % sizes.m, *asked])


def output_of(script):
    if PROGRAM == "--reference-only":
        return reference_output(run, script).splitlines()
    return compared([PROGRAM], run, script)


def kinds_shown(returned):
    """The kinds of the state that an image shows."""
    return kinds.of_stripe(image.read(bytes.fromhex(returned.removeprefix(b"image=").decode())))


def counts(script):
    """Of each call how often it was accepted, of each answer, of finished rebuilds, of images and what they show, of reads."""
    first, *lines = script.split(b"\n")
    seen = Counter(guarantee.replay([first, *lines]).reads if read_sizes(first) else {})
    for line, output in zip(lines, output_of(script)):
        number, returned = output.split(b" ")[:2]
        seen["calls"] += 1
        seen["rebuilds"] += returned == b"rebuilt"
        seen[int(number)] += 1
        if number == b"1" and line in DAMAGED_IMAGE_LINES:
            seen[f"refused {line}"] += 1
        if number == b"0" and line == IMAGE_LINE:
            seen["image"] += 1
            seen.update(kinds_shown(returned))
        elif number == b"0":
            seen[FORMS[line[:1]][0]] += 1
    return seen


def play(job):
    make, seed, sizes = job
    return counts(make(seed, sizes))


def show(name, seen):
    happened = f"{seen['rebuilds']} rebuilds finished, {seen['read']} reads accepted, {seen['image']} images"
    print(f"striperun, {name}: {seen['calls']} calls the same, {happened}")


def check_shown(seen, needed, floor):
    for what in needed:
        if seen[what] < floor:
            sys.exit(f"striperun: {what} only {seen[what]} times, not {floor}")


def check_reads(by_name):
    for name, floor in READ_FLOORS.items():
        check_shown(by_name[name], guarantee.READS, floor)


def check_images(by_name, whole):
    for name, floor in FLOORS.items():
        check_shown(by_name[name], kinds.KINDS, floor)
    check_shown(whole, set().union(*map(kinds.of_sizes, [*LONG_BLOCKS, *random_lists()])), 1)
    check_shown(whole, [f"refused {line}" for line in DAMAGED_IMAGE_LINES], 1)


def main():
    odd = [first + b"\n" + SCRIPT for first in GOOD_SIZES + BAD_SIZES] + ODD_INPUTS
    written_out = {
        name: [script_of(Sizes(2, 4, 1, 1, 2), lines_of(calls)) for calls in lists]
        for name, lists, lines_of in [("ticks", TICKS, spelled_out), ("images", IMAGES, spelled_out), ("reads", READS, with_reads)]
    }
    by_name = {}
    for name, scripts in {"odd inputs": odd, **written_out}.items():
        by_name[name] = sum(map(counts, scripts), Counter())
        show(name, by_name[name])
    with pool() as workers:
        for name, make, all_sizes in [
            ("long blocks", long_blocks_script, LONG_BLOCKS),
            ("damaged lists", damaged_script, random_lists()),
            ("lists", random_script, random_lists()),
        ]:
            jobs = [(make, SEED * 1000 + at, sizes) for at, sizes in enumerate(all_sizes)]
            by_name[name] = sum(workers.imap_unordered(play, jobs), Counter())
            show(name, by_name[name])
    whole = sum(by_name.values(), Counter())
    print("answers:", in_order(whole, range(13)))
    print("accepted:", in_order(whole, [*[name for name, _, _ in FORMS.values()], "image"]))
    print("images show:", in_order(whole, kinds.KINDS))
    print("reads:", in_order(whole, guarantee.READS))
    check_images(by_name, whole)
    check_reads(by_name)


if __name__ == "__main__":
    main()
