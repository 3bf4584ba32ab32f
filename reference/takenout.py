"""A volume's list, and the calls of each stripe taken out of it.

Request C-11 of document 02: the guarantee on rebuilds, for the volume. Each
call of a volume is made once more on stripes that stand alone, one for each
of the volume's: each gets the calls taken out for it, stops and the failures
of its nodes among them. After each call

  - the answer is the one that the stripes alone gave,
  - the volume's stripes are in the same states as those alone, so that the
    call changed nothing of the others,
  - demand 3 holds of each stripe's calls, its reads show what C-15 promises,
    and a tick changes ages only (guarantee.py).

A call that names a stripe, block or card that is not there, or gives a card's
failure bytes of another length, is in no stripe's list.

Homes and nodes are found by counting and by search, and not as in volume.py.

    takenout.py < SCRIPT        checks one volumerun script
"""

import sys
from functools import lru_cache
from itertools import cycle, islice

import guarantee
import volumerun
from answers import Answer
from script import Call, lines_of, values_of
from striperun import new_stripe
from volume import Volume

# How many stripes are compared after a call, in turn, beside those that it acts on.
COMPARED = 9


class Apart(Exception):
    """A stripe of the volume and the same stripe alone differ."""


def alike(got, expected, text):
    if got != expected:
        raise Apart(f"{text}: {got!r} is not {expected!r}")


# ------------------------------------------- the calls of each stripe


@lru_cache(maxsize=None)
def homes(sizes):
    """The stripe and the position of each block, in the order of their numbers."""
    return [(s, i) for s in range(sizes.stripes) for i in range(1, sizes.stripe.k + 1)]


def node_of(n, s, card):
    """The node j of stripe s that is on the card, or None."""
    return next((j for j in range(1, n + 1) if (j - 1 + s) % n + 1 == card), None)


def of_stripe(sizes, s, call):
    return {s: call} if s < sizes.stripes else {}


def of_read(sizes, b):
    return {s: Call("read", (i,)) for s, i in homes(sizes)[b : b + 1]}


def of_swap(sizes, c, b, value):
    return {s: Call("swap", (c, i, value)) for s, i in homes(sizes)[b : b + 1]}


def of_stop(sizes, c):
    return {s: Call("stop", (c,)) for s in range(sizes.stripes)}


def of_failure(sizes, card, value):
    stripes, (_, n, B, *_) = sizes
    if len(value) != stripes * B or node_of(n, 0, card) is None:
        return {}
    parts = [value[first : first + B] for first in range(0, len(value), B)]
    return {s: Call("fail", (node_of(n, s, card), part)) for s, part in enumerate(parts)}


TAKEN_OUT = {"on_stripe": of_stripe, "read": of_read, "swap": of_swap, "stop": of_stop, "fail": of_failure}


def taken_out(sizes, call):
    """The call that a call of the volume is for each stripe, by the stripe's number."""
    if call is None or call.name not in TAKEN_OUT:
        return {}
    return TAKEN_OUT[call.name](sizes, *call.arguments)


def refusal(sizes, call):
    """The answer of a call that is in no stripe's list."""
    if call is None:
        return Answer(1)
    length = sizes.stripe.B * (sizes.stripes if call.name == "fail" else 1)
    return Answer(2 if all(len(value) == length for value in values_of(call)) else 1)


# ------------------------------------------------------- the stripes alone


class Witness:
    """Makes each call of a fresh volume and checks it. Raises Apart or guarantee.Broken."""

    def __init__(self, volume, reads):
        self.volume = volume
        self.alone = [new_stripe(volume.sizes.stripe) for _ in volume.stripes]
        self.histories = [guarantee.begun(stripe, reads) for stripe in self.alone]
        self.turn = cycle(range(len(self.alone)))

    def answer(self, call):
        answer = self.volume.answer(call)
        calls = taken_out(self.volume.sizes, call)
        for expected in self.answers_alone(calls) or [self.answer_of_no_stripe(call)]:
            alike(answer, expected, call)
        for s in {*calls, *islice(self.turn, COMPARED)}:
            alike(vars(self.volume.stripes[s]), vars(self.alone[s]), call)
        return answer

    def answers_alone(self, calls):
        return [self.answer_alone(s, call) for s, call in calls.items()]

    def answer_alone(self, s, call):
        return guarantee.followed(self.histories[s], call, self.alone[s])

    def answer_of_no_stripe(self, call):
        if call is not None and call.name == "look":
            return self.answer_of_look(*call.arguments)
        return refusal(self.volume.sizes, call)

    def answer_of_look(self, s):
        shown = self.volume.stripes[s : s + 1]
        return Answer(0, *shown) if shown else Answer(2)


def run(lines, Volume=Volume, reads=None):
    """volumerun's output for the lines; each call is checked. Reads: counts the kinds of reads."""
    return volumerun.run(lines, Volume, lambda volume: Witness(volume, reads))


def main():
    rebuilds = sum(line == "0 rebuilt" for line in run(lines_of(sys.stdin.buffer)))
    print(f"{rebuilds} rebuilds finished, each stripe's calls give the same alone, {guarantee.HOLDS}")


if __name__ == "__main__":
    main()
