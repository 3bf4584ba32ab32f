"""Random scripts for volumerun.

    volumelists.py --seed S --calls N [--sizes STRIPES,k,n,B,td,m]

Each stripe of a volume has an author of its own (lists.py), and the volume's
author lets them write in turn. What they write becomes a line of the volume;
stops and failures become those of the whole volume as often as keeps their
share in each stripe's calls. Lines M, with a stripe's number or without, are
unreadable to volumerun. The same options give the same script.
"""

import argparse
import random
import sys
from itertools import chain, zip_longest

from lists import Author, damage, random_sizes, text, whole_list
from script import VOLUME_FORMS, read_call, read_volume_call
from striperun import IMAGE_LINE
from takenout import taken_out
from volume import VolumeSizes, card_of
from volumerun import new_volume, read_sizes

VOLUME_LETTERS = {name: letter for letter, (name, _, _) in VOLUME_FORMS.items()}


def volume_text(name, *arguments):
    """The line of a call of the volume."""
    return text(name, *arguments, letters=VOLUME_LETTERS)


def on_stripe(s, line):
    return b"%d %s" % (s, line)


class VolumeAuthor:
    def __init__(self, volume, rng, damaged=0.03, arbitrary=0.05, looks=0.05):
        """Damaged, arbitrary, looks: shares of damaged lines, arbitrary calls, stripes shown."""
        self.volume = volume
        self.rng = rng
        self.damaged = damaged
        self.arbitrary = arbitrary
        self.looks = looks
        self.authors = [Author(stripe, rng, 0, 0) for stripe in volume.stripes]
        self.at = 0  # the stripe whose author writes

    def chance(self, share):
        return self.rng.random() < share

    def lines(self, count):
        """In the last tenth, calls that nothing restores are let through."""
        for at in range(count):
            line = self.line()
            if at < count * 9 // 10 and self.endangers(line):
                line = volume_text("read", self.odd_block())
            self.play(line)
            yield line

    def play(self, line):
        """Makes the call of the line. A damaged line may hold an LF."""
        for part in line.split(b"\n"):
            self.volume.answer(read_volume_call(part))

    def line(self):
        if self.chance(self.damaged):
            return damage(self.rng, self.plausible_call())
        if self.chance(self.looks):
            return volume_text("look", self.odd_stripe())
        if self.chance(self.arbitrary):
            return self.arbitrary_call()
        return self.plausible_call()

    def image_line(self, rng):
        return rng.choice([IMAGE_LINE, on_stripe(rng.randrange(self.volume.sizes.stripes), IMAGE_LINE)])

    def read_share(self):
        return self.authors[self.at].read_share()

    def read_line(self, rng):
        """A read of the stripe whose author writes, in half of all cases by the block's number."""
        line = self.authors[self.at].read_line(rng)
        (i,) = read_call(line).arguments
        if self.volume.stripes[self.at].is_position(i) and rng.random() < 0.5:
            return volume_text("read", block_at(self.volume.sizes, self.at, i))
        return on_stripe(self.at, line)

    def endangers(self, line):
        calls = taken_out(self.volume.sizes, read_volume_call(line))
        return any(self.authors[s].endangers(call) for s, call in calls.items())

    # ------------------------------------------------------- arguments

    def odd_number(self, highest):
        return self.authors[0].odd_number(highest)

    def odd_stripe(self):
        return self.odd_number(self.volume.sizes.stripes - 1)

    def odd_block(self):
        return self.odd_number(self.volume.sizes.stripes * self.volume.sizes.stripe.k - 1)

    def odd_client(self):
        return self.odd_number(self.volume.sizes.stripe.m)

    def odd_card(self):
        return self.odd_number(self.volume.sizes.stripe.n)

    def odd_bytes(self):
        """For a card's failure: B for each stripe, or about as many."""
        B = self.volume.sizes.stripe.B
        length = self.volume.sizes.stripes * B
        if self.chance(0.5):
            length = self.rng.choice([length - 1, length + 1, length - B, length + B, B])
        return self.rng.randbytes(max(1, length))

    # ---------------------------------------------------------- calls

    def arbitrary_call(self):
        """Any call, some arguments out of range, some values of wrong length."""
        author = self.authors[0]
        calls = [
            on_stripe(self.odd_stripe(), author.arbitrary_call()),
            on_stripe(self.odd_stripe(), text("swap", self.odd_client(), 1, author.odd_value())),
            on_stripe(self.odd_stripe(), text("tick")),
            volume_text("read", self.odd_block()),
            volume_text("swap", self.odd_client(), self.odd_block(), author.odd_value()),
            volume_text("stop", self.odd_client()),
            volume_text("fail", self.odd_card(), self.odd_bytes()),
        ]
        return self.rng.choices(calls, [3, 3, 1, 3, 3, 1, 1])[0]

    def plausible_call(self):
        """What a stripe's author writes; now and then another stripe's."""
        if self.chance(0.3):
            self.at = self.rng.randrange(len(self.authors))
        return self.of_volume(self.at, self.authors[self.at].next_call())

    def of_volume(self, s, line):
        """A stripe's call as a line; a stop or a failure of one stripe alone is unreadable."""
        call = read_call(line)
        of_every = 1 / len(self.authors)
        shares = {"read": 0.5, "swap": 0.5, "stop": of_every, "fail": of_every}
        if not self.chance(shares.get(call.name, 0)):
            return on_stripe(s, line)
        return volume_text(call.name, *getattr(self, f"{call.name}_of_volume")(s, *call.arguments))

    def read_of_volume(self, s, i):
        return [block_at(self.volume.sizes, s, i)]

    def swap_of_volume(self, s, c, i, value):
        return c, block_at(self.volume.sizes, s, i), value

    def stop_of_volume(self, s, c):
        return [c]

    def fail_of_volume(self, s, j, value):
        values = [author.value() for author in self.authors]
        values[s] = value
        return card_of(self.volume.sizes.stripe.n, s, j), b"".join(values)


def block_at(sizes, s, i):
    return s * sizes.stripe.k + i - 1


# --------------------------------------------------------------- a lost card


def write_all(rng, sizes, s):
    """Each block of stripe s is written, by the clients in turn."""
    k, n, B, _, m = sizes.stripe
    for i in range(1, k + 1):
        c = (s + i) % m + 1
        yield volume_text("swap", c, block_at(sizes, s, i), rng.randbytes(B))
        yield from (on_stripe(s, text("add", c, j)) for j in range(k + 1, n + 1))


def rebuild(sizes, s, c):
    n = sizes.stripe.n
    calls = ["lock"] * n + ["pick"] + ["write"] * n + ["settle"] * n + ["unlock"] * n
    return [on_stripe(s, text(name, c)) for name in calls]


def in_turn(lists):
    """A line of each list, then the next of each, up to the end of the longest."""
    return [line for lines in zip_longest(*lists) for line in lines if line is not None]


def with_reads_between(rng, sizes, lines):
    """Lines of calls on stripes; after some of them a block of the same stripe is read."""
    for line in lines:
        yield line
        if rng.random() < 0.3:
            s = int(line.split(b" ")[0])
            yield volume_text("read", block_at(sizes, s, rng.randint(1, sizes.stripe.k)))


def read_all(sizes, s):
    yield from (volume_text("read", block_at(sizes, s, i)) for i in range(1, sizes.stripe.k + 1))
    yield volume_text("look", s)


def lost_card(rng, sizes, stripes, card):
    """The stripes named are written, the card fails, and they are rebuilt side by side.

    The clients take the stripes in turn. All stop on the way, and others begin
    again. On the way some blocks are read, and at last all.
    """
    clients = range(1, sizes.stripe.m + 1)
    begun = [rebuild(sizes, s, s % len(clients) + 1) for s in stripes]
    again = [rebuild(sizes, s, (s + 1) % len(clients) + 1) for s in stripes]
    return [
        *chain.from_iterable(write_all(rng, sizes, s) for s in stripes),
        volume_text("fail", card, rng.randbytes(sizes.stripes * sizes.stripe.B)),
        *with_reads_between(rng, sizes, in_turn(lines[: rng.randrange(len(lines))] for lines in begun)),
        *(volume_text("stop", c) for c in clients),
        *with_reads_between(rng, sizes, in_turn(again)),
        *chain.from_iterable(read_all(sizes, s) for s in stripes),
    ]


# ------------------------------------------------------------------- scripts


def first_line(sizes):
    return " ".join(map(str, [sizes.stripes, *sizes.stripe])).encode()


def random_volume_sizes(rng):
    return VolumeSizes(rng.randint(1, 9), random_sizes(rng))


def volume_script(seed, calls, sizes=None):
    """The lines of a volumerun script, the sizes first."""
    rng = random.Random(seed)
    sizes = sizes or random_volume_sizes(rng)
    yield first_line(sizes)
    author = VolumeAuthor(new_volume(sizes), rng)
    yield from whole_list(author, calls, seed)


def main():
    options = argparse.ArgumentParser(description="random scripts for volumerun")
    options.add_argument("--seed", type=int, required=True)
    options.add_argument("--calls", type=int, default=1000)
    options.add_argument("--sizes", help="STRIPES,k,n,B,td,m")
    options = options.parse_args()
    sizes = options.sizes and read_sizes(options.sizes.replace(",", " ").encode())
    for line in volume_script(options.seed, options.calls, sizes):
        sys.stdout.buffer.write(line + b"\n")


if __name__ == "__main__":
    main()
