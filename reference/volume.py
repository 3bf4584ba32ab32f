"""A volume of many stripes: request C-11 of document 02.

One run of block numbers, from 0, over stripes of equal sizes and t_d, counted
from 0. Each card has one node of each stripe. A call is one of the whole
volume (a stop, a card's failure, a read or a swap of a block), or a stripe's
own call, such as a tick, on one stripe. 1 is tested before 2, then come the
stripe's own tests.
"""

from typing import NamedTuple

from answers import Answer
from script import Call, answer_of, values_of
from stripe import Sizes


class VolumeSizes(NamedTuple):
    stripes: int
    stripe: Sizes  # of each

    MAX_STRIPES = 1024

    def permitted(self):
        return 1 <= self.stripes <= self.MAX_STRIPES and self.stripe.permitted()


def home(k, b):
    """The stripe and the position of block b."""
    return b // k, b % k + 1


def card_of(n, s, j):
    """The card of node j of stripe s."""
    return (j - 1 + s) % n + 1


def node_on(n, s, card):
    """The node of stripe s on the card, 0 if there is no such card."""
    return (card - 1 - s) % n + 1 if 1 <= card <= n else 0


class Volume:
    Sizes = VolumeSizes

    def __init__(self, stripes):
        """The stripes are a list of equal sizes."""
        self.stripes = stripes
        self.sizes = VolumeSizes(len(stripes), stripes[0].sizes)
        assert self.sizes.permitted()
        assert all(stripe.sizes == self.sizes.stripe for stripe in stripes)

    def answer(self, call):
        return answer_of(self, call)

    def is_stripe(self, s):
        return 0 <= s < self.sizes.stripes

    # ------------------------------------------------- calls on one stripe

    def on_stripe(self, s, call):
        """The call of a stripe, on stripe s."""
        if not all(len(value) == self.sizes.stripe.B for value in values_of(call)):
            return Answer(1)
        if not self.is_stripe(s):
            return Answer(2)
        return answer_of(self.stripes[s], call)

    def read(self, b):
        s, i = home(self.sizes.stripe.k, b)
        return self.on_stripe(s, Call("read", (i,)))

    def swap(self, c, b, value):
        s, i = home(self.sizes.stripe.k, b)
        return self.on_stripe(s, Call("swap", (c, i, value)))

    # ----------------------------------------------- calls on every stripe

    def stop(self, c):
        """Client c stops, in each stripe; each has the same clients."""
        return one_answer(stripe.stop(c) for stripe in self.stripes)

    def fail(self, card, value):
        """The card's node fails in each stripe, with B bytes for each, in stripe order."""
        stripes, (_, n, B, *_) = self.sizes
        if len(value) != stripes * B:
            return Answer(1)
        nodes = [node_on(n, s, card) for s in range(stripes)]
        parts = [value[s * B : (s + 1) * B] for s in range(stripes)]
        return one_answer(stripe.fail(j, part) for stripe, j, part in zip(self.stripes, nodes, parts))

    # ------------------------------------------------------------- showing

    def look(self, s):
        """Stripe s itself; nothing changes."""
        return Answer(0, self.stripes[s]) if self.is_stripe(s) else Answer(2)


def one_answer(answers):
    """The answer that all stripes gave."""
    (answer,) = set(answers)
    return answer
