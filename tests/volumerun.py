"""Compares the program volumerun with the second implementation, byte by byte.

    volumerun.py PROGRAM SEED
    volumerun.py --reference-only SEED      without a program

On the way the second implementation makes each stripe's calls once more on a
stripe of its own (reference/takenout.py). Plays inputs that are odd as a
whole, numbers and lengths at their bounds, ticks of one stripe, volumes as
large as the program has memory for and larger ones, volumes that lose a card,
such as lose it while a rebuild ends, random lists, and lists with many damaged
lines. Prints how many calls of each kind were accepted, how often each answer
was given, how many rebuilds were finished and which kinds of reads there were;
stops at the first difference with an error exit, or if too little happened.
"""

import itertools
import random
import re
import sys
from collections import Counter
from functools import partial

from against import compared, in_order, pool, reference_output
from firstlines import BAD_SIZES, GOOD_SIZES
import guarantee
from lists import text, whole_list
from script import FORMS, VOLUME_FORMS, read_volume_call
from stripe import Sizes
from takenout import run
from volume import VolumeSizes, card_of
from volumelists import VolumeAuthor, block_at, first_line, lost_card, on_stripe, rebuild, volume_text, write_all
from volumerun import new_volume, read_sizes

PROGRAM, SEED = sys.argv[1], int(sys.argv[2])

NODES = [(2, 3), (2, 4), (3, 5), (4, 7), (6, 12), (12, 18)]
CALLS = 3400
DAMAGED_CALLS = 500

KINDS = [letter.decode() for letter in VOLUME_FORMS] + [name for name, _, _ in FORMS.values()]
# What has to happen, in all lists together. Several: lists in which several clients finish rebuilds of several stripes.
FLOORS = {"calls": 100_000, "rebuilds": 1000, "several": 50, "NC": 500, "CC": 800, "tick": 25_000, "M": 1000, "s M": 1000}
# Reads by a block's number and after a stripe's, of either table; and each kind of read.
FLOORS |= {"RB live": 1000, "RB spare": 1000, "s R live": 1000, "s R spare": 1000}
READS = 50
# Lines for an image, unreadable with a stripe's number and without.
IMAGE_LINES = {"M": re.compile(rb"M"), "s M": re.compile(rb"[0-9]+ M")}

SIZES = b"3 2 4 2 1 2"
LAST_STRIPE, LAST_BLOCK = 2, 5
SCRIPT = b"SB 1 1 0102\n0 A 1 3\n0 L 2\nRB 1\n0 K\n? 0\n0 Z 1\nCC 1\nbogus"

GOOD_COUNTS = [b"1", b"2", b"1024", b"0009", b"0" * 5000 + b"3"]
BAD_COUNTS = [
    b"0",
    b"00",
    b"1025",
    b"1026",
    b"2048",
    b"65537",
    b"4294967297",
    b"18446744073709551617",
    b"9" * 5000,
    b"",
    b"-1",
    b"+1",
    b"1.0",
    b"0x1",
    b"/",
    b":",
    b"\xb2",
    b" 1",
    b"1 ",
    b"1\t",
    b"STRIPES",
]
# Within the limits: as large as the program has memory for, then larger.
FITTING = [
    b"1024 12 18 1 1 8",
    b"1024 10 16 8 0 8",
    b"8 2 4 4096 1 8",
    b"16 2 4 2048 2 8",
    b"8 2 3 4096 0 8",
    b"9 2 3 3640 1 8",
    b"1 12 18 4096 6 8",
]
TOO_LARGE = [
    b"1024 12 18 8 0 1",
    b"1024 10 16 9 0 1",
    b"9 2 4 4096 1 1",
    b"16 2 4 2049 2 8",
    b"9 2 3 4096 0 1",
    b"9 2 3 3641 1 1",
    b"1024 2 3 33 0 8",
    b"2 12 18 4096 6 8",
    b"1024 12 18 4096 6 8",
]

# Lines to play after SCRIPT, before a look at all stripes.
ODD_LINES = [
    *[b"", b" ", b"0", b"0 ", b" 0 R 1", b"0  R 1", b"0 R 1 ", b"0 R  1", b"0 R", b"0 R 1 1", b"0\tR 1", b"0,R 1"],
    *[b"0 R 1\r", b"0 R 1\0", b"\x000 R 1", b"\xef\xbb\xbf0 R 1", b"\xb2 R 1", b"/ R 1", b": R 1", b"-0 R 1"],
    *[b"+0 R 1", b"0x0 R 1", b"0.0 R 1", b"zero R 1", b"0R 1", b"0 r 1", b"0 0 R 1", b"00 R 1"],
    *[b"0 K", b"00 K", b"2 K", b"3 K", b"0 K ", b"0  K", b" 0 K", b"0 K 1", b"0 K 0102", b"0 k", b"0 KK", b"0K"],
    *[b"K 0", b"KK", b"K 0 0102", b"? K", b"CC K", b"0 K\r", b"0 K\0", b"0 0 K", b"-0 K", b"4294967296 K"],
    *[b"M 0", b"M 1", b"M ", b"m", b"0 M ", b"0  M", b" 0 M", b"0 M 1", b"0 m", b"0 MM", b"0M", b"2 M", b"3 M", b"4294967296 M"],
    # striperun's lines, and those that are none after a stripe's number
    *[b"R 1", b"S 1 1 0102", b"A 1 3", b"L 1", b"C 1", b"N 1 0102", b"Z 1", b"Q 1", b"M", b"V 0102", b"J 00", b"K"],
    *[b"0 C 1", b"0 N 1 0102", b"0 M", b"0 V 0102", b"0 J 00", b"3 C 1", b"3 N 1 0102", b"0 C 0", b"0 N 5 0102"],
    *[b"0 RB 0", b"0 SB 1 0 0102", b"0 CC 1", b"0 NC 1 010203040506", b"0 ? 0", b"0 ?", b"0 B 1"],
    *[b"2 S 1 1 01", b"3 S 1 1 01", b"3 S 1 1 0102", b"3 S 9 9 0102", b"2 S 9 9 0102", b"2 S 9 9 01", b"2 S 1 1 010203"],
    *[b"?", b"? ", b"?0", b"? 0 ", b"?  0", b"? 0 0", b"? -1", b"? +1", b"? x", b"?? 0", b"\xbf 0"],
    *[b"? 2", b"? 02", b"? 3"],
    *[b"RB", b"RB ", b"RB0", b"RB  0", b"RB 0 ", b"RB 0 0", b"RB -1", b"RB 0x0", b"RB 0 0102"],
    *[b"rb 0", b"Rb 0", b"R B 0", b"B 0", b"BR 0", b"RBB 0", b"RB 5", b"RB 05", b"RB 6"],
    *[b"SB 2 5", b"SB 2 5 ", b"SB 2 5 0", b"SB 2 5 01", b"SB 2 5 010", b"SB 2 5 0102", b"SB 2 5 010203"],
    *[b"SB 2 5 01020304", b"SB 2 5 0a02", b"SB 2 5 010G", b"SB 2 5 01 02", b"SB 5 0102", b"sb 2 5 0102"],
    *[b"SB 2 6 0102", b"SB 2 6 01", b"SB 3 5 0102", b"SB 3 6 01", b"SB 02 005 0102"],
    *[b"CC", b"CC ", b"CC 0", b"CC 1", b"CC 01", b"CC 2", b"CC 3", b"CC 1 1", b"CC -1", b"cc 1", b"CCC 1", b"CC 1 0102"],
    *[b"NC 1", b"NC 1 ", b"NC 1 0", b"NC 1 0102", b"NC 1 0102030405", b"NC 1 01020304050", b"NC 1 010203040506"],
    *[b"NC 1 01020304050607", b"NC 1 010203040506 ", b"NC 1 0102 0304 0506", b"NC 1 01020304050g"],
    *[b"NC 4 010203040506", b"NC 04 010203040506", b"NC 5 010203040506", b"NC 0 010203040506", b"NC 5 0102"],
    *[b"NC 0 01020304050607", b"NC 1 1 010203040506", b"nc 1 010203040506"],
    *[b"%d R 1" % (2**bits + s) for bits in (8, 10, 16, 32, 64) for s in (0, LAST_STRIPE)],
    *[b"RB %d" % (2**bits + b) for bits in (8, 16, 32, 64) for b in (0, LAST_BLOCK)],
]
MEGABYTE = 2**20
ODD_INPUTS = [
    b"",
    b"\n",
    b"\n\n",
    SIZES,
    SIZES + b"\n",
    SIZES + b"\n\n",
    SIZES + b"\nRB 1",
    SIZES + b"\nRB 1\n\nRB 2\n",
    SIZES + b"\nRB 1\r\n0 R 1\0\nRB " + b"0" * MEGABYTE + b"1\nRB " + b"1" * MEGABYTE + b"\nRB 1",
    SIZES + b"\n" + b"0" * MEGABYTE + b"2 R 1\n" + b"1" * MEGABYTE + b" R 1\n? " + b"0" * MEGABYTE + b"\n2 R 1",
    SIZES + b"\nSB 1 1 " + b"AB" * MEGABYTE + b"\nSB 1 1 ABCD\nNC 1 " + b"00" * MEGABYTE + b"\n? 0",
    SIZES + b"\n" + b"SB" * MEGABYTE + b"\n" + b" " * MEGABYTE + b"\nSB 1 1 AB\nSB 1 1 ABCDEF\nSB 1 1 \nSB 1 1 ABC\nSB 1 1 abcd",
    bytes(range(256)) * 40,
    SIZES + b"\n" + bytes(range(256)) * 40,
]


def script_of(sizes, lines):
    return b"\n".join([first_line(sizes), *lines])


# ----------------------------------------------------------------- inputs


def odd_inputs():
    yield from ODD_INPUTS
    firsts = [b"2 " + sizes for sizes in GOOD_SIZES + BAD_SIZES]
    firsts += [stripes + b" 2 4 2 1 2" for stripes in GOOD_COUNTS + BAD_COUNTS]
    for first in firsts + TOO_LARGE:
        yield first + b"\n" + SCRIPT
    looks = [b"? 0", b"? 1", b"? 2"]
    for line in ODD_LINES:
        yield b"\n".join([SIZES, SCRIPT, line, *looks])


def around(first, last):
    """Numbers at the bounds of a range, and such as are these where a number is cut."""
    bounds = [first, last, last + 1]
    cut = [2**bits + number for bits in (8, 16, 32, 64) for number in (first, last)]
    return [*([first - 1] if first else []), *bounds, *cut, 10**40]


def lengths_around(rng, length, *others):
    """Values of this length, one byte shorter and one longer, and of others."""
    return [rng.randbytes(l) for l in (length, length - 1, length + 1, *others)]


def bounds_script(seed, sizes):
    """Stripe, block, client and card at their bounds, some values of wrong length; then a look at some stripes."""
    rng = random.Random(seed)
    stripes, (k, n, B, _, m) = sizes
    lines = []
    for b in around(0, k * stripes - 1):
        lines += [volume_text("swap", c, b, value) for value in lengths_around(rng, B) for c in (m, m + 1)]
        lines += [volume_text("read", b)]
    for s in around(0, stripes - 1):
        calls = [text("swap", c, k, value) for value in lengths_around(rng, B) for c in (1, m + 1)]
        calls += [text("read", 1), text("due", n), text("due", n + 1), text("lock", 1), text("lock", m + 1)]
        calls += [text("tick")]
        lines += [on_stripe(s, call) for call in calls] + [volume_text("look", s)]
    lines += [volume_text("stop", c) for c in around(1, m)]
    for card in around(1, n):
        values = lengths_around(rng, stripes * B, B, (stripes - 1) * B, (stripes + 1) * B)
        lines += [volume_text("fail", card, value) for value in values]
    shown = {*range(min(stripes, 9)), *range(max(0, stripes - 9), stripes)}
    return script_of(sizes, lines + [volume_text("look", s) for s in sorted(shown)])


def ticks_script(seed, sizes):
    """Some stripes have a write whose client stops; one of them gets ticks, and comes due alone."""
    rng = random.Random(seed)
    stripes = rng.sample(range(sizes.stripes), min(sizes.stripes, 5))
    swaps = [volume_text("swap", 1, block_at(sizes, s, 1), rng.randbytes(sizes.stripe.B)) for s in stripes]
    adds = [on_stripe(s, text("add", 1, sizes.stripe.n)) for s in stripes]
    asked = [on_stripe(s, text("due", j)) for s in stripes for j in (1, sizes.stripe.n)]
    asked += [volume_text("look", s) for s in stripes]
    tick = on_stripe(rng.choice(stripes), text("tick"))
    ticks = [tick] * 63 + asked + [tick] + asked + [tick] * 192 + asked
    return script_of(sizes, [*swaps, *adds, volume_text("stop", 1), *ticks])


def lost_card_script(seed, sizes):
    """Of many stripes those at the ends, at multiples of n and where a number needs another byte."""
    rng = random.Random(seed)
    n = sizes.stripe.n
    chosen = {0, 1, 2, n - 1, n, 255, 256, 257, 511, 512, sizes.stripes - 2, sizes.stripes - 1}
    stripes = [s for s in range(sizes.stripes) if sizes.stripes <= 9 or s in chosen]
    return script_of(sizes, lost_card(rng, sizes, stripes, rng.randint(1, n)))


def taken_script(seed, sizes):
    """A card fails when a stripe's rebuild lacks only the unlock there; another client rebuilds. Blocks are read after each call."""
    rng = random.Random(seed)
    stripes, (k, n, B, _, m) = sizes
    s = rng.randrange(stripes)
    reads = [*(volume_text("read", block_at(sizes, s, i)) for i in (1, k)), on_stripe(s, text("read", 1))]
    failure = volume_text("fail", card_of(n, s, n), rng.randbytes(stripes * B))
    calls = [*rebuild(sizes, s, 1)[:-1], failure, *rebuild(sizes, s, m)]
    return script_of(sizes, [*write_all(rng, sizes, s), *(line for call in calls for line in (call, *reads))])


def random_script(seed, sizes):
    author = VolumeAuthor(new_volume(sizes), random.Random(seed))
    return script_of(sizes, whole_list(author, CALLS, seed))


def damaged_script(seed, sizes):
    author = VolumeAuthor(new_volume(sizes), random.Random(seed), damaged=0.5, arbitrary=0.3)
    return script_of(sizes, whole_list(author, DAMAGED_CALLS, seed, damaged=0.5))


def all_sizes():
    """All nodes and t_d twice, with 1 to 9 stripes, 1 to 64 bytes and 1 to 8 clients in turn."""
    stripes = itertools.cycle(range(1, 10))
    lengths = itertools.cycle([1, 3, 1, 16, 2, 64, 1])
    clients = itertools.cycle([2, 8, 3, 5, 1, 4, 6, 7])
    for k, n in NODES * 2:
        for td in range(n - k + 1):
            yield VolumeSizes(next(stripes), Sizes(k, n, next(lengths), td, next(clients)))


# --------------------------------------------------------------- comparing


def output_of(script, reads):
    checked = partial(run, reads=reads)
    if PROGRAM == "--reference-only":
        return reference_output(checked, script).splitlines()
    return compared([PROGRAM], checked, script)


def kind_of(line):
    call = read_volume_call(line)
    return call.arguments[1].name if call.name == "on_stripe" else line.split(b" ")[0].decode()


def counts(script):
    """Of each call how often it was accepted, of each answer, of finished rebuilds, of reads, and of lines for an image."""
    seen = Counter()
    stripes, clients = set(), set()
    for line, output in zip(script.split(b"\n")[1:], output_of(script, seen)):
        seen["calls"] += 1
        number, returned, *more = output.split(b" ")
        seen[number.decode()] += 1
        if number == b"0":
            seen[kind_of(line)] += 1
        if returned.startswith(b"block="):
            seen[f"{'RB' if line.startswith(b'RB') else 's R'} {more[0].decode()}"] += 1
        for what, form in IMAGE_LINES.items():
            seen[what] += number == b"1" and form.fullmatch(line) is not None
        if returned == b"rebuilt":
            seen["rebuilds"] += 1
            stripe, _, client = line.split(b" ")
            stripes.add(stripe)
            clients.add(client)
    seen["several"] += len(stripes) > 1 and len(clients) > 1
    return seen


def play(job):
    make, seed, sizes = job
    return counts(make(seed, sizes))


def show(name, seen):
    print(f"volumerun, {name}: {seen['calls']} calls the same, {seen['rebuilds']} rebuilds finished", flush=True)


def jobs():
    """By name: how to make the scripts, and the sizes."""
    large = [read_sizes(first) for first in FITTING]
    return {
        "bounds": (bounds_script, [*large, *all_sizes()]),
        "ticks": (ticks_script, [*large, *all_sizes()]),
        "lost cards": (lost_card_script, [*large, *all_sizes()]),
        "taken nodes": (taken_script, [*large, *all_sizes()]),
        "damaged lists": (damaged_script, all_sizes()),
        "lists": (random_script, all_sizes()),
    }


def main():
    whole = sum(map(counts, odd_inputs()), Counter())
    show("odd inputs", whole)
    with pool() as workers:
        for name, (make, sizes) in jobs().items():
            seeded = [(make, SEED * 1000 + at, each) for at, each in enumerate(sizes)]
            seen = sum(workers.imap_unordered(play, seeded), Counter())
            show(name, seen)
            whole += seen
    print("answers:", in_order(whole, map(str, range(13))))
    print("accepted:", in_order(whole, KINDS))
    print("altogether:", in_order(whole, FLOORS))
    print("reads:", in_order(whole, guarantee.READS))
    for what, floor in [*FLOORS.items(), *((kind, READS) for kind in guarantee.READS)]:
        if whole[what] < floor:
            sys.exit(f"volumerun: {what} only {whole[what]} times, not {floor}")


if __name__ == "__main__":
    main()
