"""Demand 3, the guarantee on rebuilds, and C-15's promise on reads, checked along a script.

The claim, as read here. Since the last finished rebuild, or from the start:

  REBUILT  When a rebuild finishes, the n blocks are one codeword, and each
           data block is what a first part of the swaps accepted at its
           position since then gave (none of them: what that rebuild gave, or
           zero), with every write reported done since then in that part.
  STEADY   Whenever no node has failed since then, and every write accepted
           since then is reported done, the n blocks are one codeword, and
           each data block is the value of the last swap at its position (what
           that rebuild gave, or zero, if there is none).

Over the whole list, by request C-15 of document 02:

  READ     An accepted read of a position, of the live table or of the spare,
           shows what a first part of all swaps accepted there before gave
           (none of them: zero), with every write reported done there before
           in that part.

At any time, by request C-12:

  TICK     A tick changes ages only: all else of the records and the three
           tables is as before.

The first part is chosen for each position by itself. What is accepted, done,
shown, finished or failed is read off the calls and their answers only; the
blocks are looked at to see what a finished rebuild gave, and all of the stripe
to check the claim and to count the kinds of reads.

    guarantee.py < SCRIPT               checks one striperun script
    guarantee.py --seed S --calls N     checks random scripts, N calls in all
"""

import argparse
import sys
from collections import Counter
from dataclasses import dataclass, replace

import kinds
import lists
from answers import LIVE, SPARE
from code import block, codeword
from script import FORMS, answer_of, lines_of, read_call
from striperun import new_stripe, read_sizes

# The kinds of reads that are counted: by the stripe, and by the history.
BY_HISTORY = ["without the last swap", "after a failure", "after a stop"]
READS = [*kinds.READS, *(f"{table} read {kind}" for table in (LIVE, SPARE) for kind in BY_HISTORY)]


class Broken(Exception):
    """The claim does not hold of the script."""


def demand(condition, text):
    if not condition:
        raise Broken(text)


@dataclass
class Swap:
    """A write: an accepted swap, and whether it was reported done."""

    value: bytes
    done: bool = False


class Swaps:
    """The swaps accepted at a position from some point of the list on, and the value before them."""

    def __init__(self, before):
        self.before = before
        self.swaps = []

    def values(self):
        """What each first part of them gave, from none of them to all."""
        return [self.before] + [swap.value for swap in self.swaps]

    def last_done(self):
        """How many there are up to the last done one."""
        done = [l for l, swap in enumerate(self.swaps, start=1) if swap.done]
        return done[-1] if done else 0

    def with_every_done(self):
        """What each first part with every done write in it gave."""
        return self.values()[self.last_done() :]


class History:
    """What the calls and their answers tell."""

    def __init__(self, sizes, reads=None):
        """Reads: counts the kinds of reads, of other histories too."""
        self.sizes = sizes
        self.reads = Counter() if reads is None else reads
        self.last_swap = {}  # a client's last accepted swap
        self.settles = {}  # a client's accepted settles after its last accepted pick
        self.rebuilds = 0
        zero = [bytes(sizes.B)] * sizes.k
        self.whole = list(map(Swaps, zero))  # of each position, from the start
        self.begin(zero)

    def begin(self, data):
        """What follows is since the rebuild that gave these data blocks."""
        self.since = list(map(Swaps, data))  # of each position, since then
        self.failed = False
        self.stopped = False

    def all_done(self):
        return all(swap.done for since in self.since for swap in since.swaps)

    def is_since(self, swap):
        return any(swap is other for since in self.since for other in since.swaps)


# ------------------------------------------------------ what a call tells


def note(history, call, answer, blocks):
    """Enters an accepted call. Blocks: those that the call left."""
    if call.name == "read":
        check_read(history, *call.arguments, answer.value)
    elif call.name == "swap":
        note_swap(history, *call.arguments)
    elif call.name == "add" and answer.value == "Done":
        note_done(history, call.arguments[0])
    elif call.name == "fail":
        history.failed = True
    elif call.name == "stop":
        history.stopped = True
    elif call.name == "pick":
        history.settles[call.arguments[0]] = 0
    elif call.name == "settle":
        note_settle(history, call.arguments[0], blocks)


def note_swap(history, c, i, value):
    swap = Swap(value)
    history.whole[i - 1].swaps.append(swap)
    history.since[i - 1].swaps.append(swap)
    history.last_swap[c] = swap


def note_done(history, c):
    """The answer Done reports the last accepted swap of the same client."""
    swap = history.last_swap[c]
    demand(history.is_since(swap), "a write from before the last rebuild was reported done after it")
    swap.done = True


def note_settle(history, c, blocks):
    """A client's nth accepted settle after its last accepted pick finishes."""
    history.settles[c] += 1
    if history.settles[c] == history.sizes.n:
        check_rebuilt(history, blocks)
        history.rebuilds += 1
        history.begin(blocks[: history.sizes.k])


# -------------------------------------------------------------- the claim


def check_codeword(history, blocks):
    k, n, B = history.sizes[:3]
    demand(blocks == codeword(blocks[:k], n, B), "the blocks are no codeword")


def check_rebuilt(history, blocks):
    check_codeword(history, blocks)
    for i, (value, since) in enumerate(zip(blocks, history.since), start=1):
        demand(value in since.with_every_done(), f"block {i} is no first part of its swaps with every done write")


def check_steady(history, blocks):
    if history.failed or not history.all_done():
        return
    check_codeword(history, blocks)
    for i, (value, since) in enumerate(zip(blocks, history.since), start=1):
        demand(value == since.values()[-1], f"block {i} is not the last value written")


def check_read(history, i, shown):
    demand(1 <= i <= history.sizes.k, "a block of no position is shown")
    whole = history.whole[i - 1]
    demand(shown.block in whole.with_every_done(), "what is shown is no first part of all swaps with every done write")
    is_so = [shown.block != whole.values()[-1], history.failed, history.stopped]
    history.reads.update(f"{shown.table} read {kind}" for kind, so in zip(BY_HISTORY, is_so) if so)


def but_for_ages(stripe):
    """All of the stripe, without the ages."""
    nodes = [replace(node, entries=[(e.id, e.recent) for e in node.entries]) for node in stripe.nodes.values()]
    return nodes, repr(stripe.clients), bytes(stripe.blocks), bytes(stripe.spare), bytes(stripe.differences)


def ticked(stripe):
    """The answer of a tick. Raises Broken if it changes more than ages."""
    before = but_for_ages(stripe)
    answer = stripe.tick()
    demand(but_for_ages(stripe) == before, "a tick changed more than ages")
    return answer


def all_blocks(stripe):
    return [block(stripe.blocks, j, stripe.sizes.B) for j in range(1, stripe.sizes.n + 1)]


def begun(stripe, reads=None):
    """The history of a fresh stripe."""
    history = History(stripe.sizes, reads)
    check_steady(history, all_blocks(stripe))
    return history


def followed(history, call, stripe):
    """Makes a call, enters it, and checks the stripe that it left; its answer. Raises Broken."""
    name = call and call.name
    answer = ticked(stripe) if name == "tick" else answer_of(stripe, call)
    blocks = all_blocks(stripe)
    if answer.accepted:
        note(history, call, answer, blocks)
    if name == "read":
        history.reads.update(kinds.of_read(stripe, *call.arguments, answer))
    check_steady(history, blocks)
    return answer


def replay(lines, new_stripe=new_stripe, forms=FORMS):
    """Checks a striperun script, of calls in these forms; returns its history. Raises Broken."""
    lines = iter(lines)
    sizes = read_sizes(next(lines))
    demand(sizes is not None, "the sizes are outside the limits")
    stripe = new_stripe(sizes)
    history = begun(stripe)
    for at, line in enumerate(lines, start=2):
        try:
            followed(history, read_call(line, forms), stripe)
        except Broken as broken:
            raise Broken(f"line {at}, {line.decode('latin-1')}: {broken}") from None
    return history


# ------------------------------------------------------------ the program

CALLS_OF_A_LIST = 2000
HOLDS = "demand 3 and C-15's promise hold"


def check_random(seed, calls):
    """Checks random scripts; prints a line for each, and at last how often each kind of read occurs."""
    rebuilds = 0
    reads = Counter()
    for first in range(0, calls, CALLS_OF_A_LIST):
        lines = list(lists.stripe_script(seed, min(CALLS_OF_A_LIST, calls - first)))
        try:
            history = replay(lines)
        except Broken:
            sys.stdout.write("".join(line.decode("latin-1") + "\n" for line in lines))
            raise
        rebuilds += history.rebuilds
        reads += history.reads
        sizes = lines[0].decode()
        print(f"seed {seed}: sizes {sizes}: {len(lines) - 1} lines, {history.rebuilds} rebuilds finished")
        seed += 1
    print("reads: " + ", ".join(f"{kind} {reads[kind]}" for kind in READS))
    print(f"{calls} calls, {rebuilds} rebuilds finished, {HOLDS}")


def main():
    options = argparse.ArgumentParser(description="checks demand 3 and C-15's promise along scripts")
    options.add_argument("--seed", type=int)
    options.add_argument("--calls", type=int, default=100_000)
    options = options.parse_args()
    if options.seed is not None:
        check_random(options.seed, options.calls)
    else:
        history = replay(lines_of(sys.stdin.buffer))
        print(f"{history.rebuilds} rebuilds finished, {HOLDS}")


if __name__ == "__main__":
    main()
