"""volumerun: plays a script on a volume of many stripes.

The first line is `STRIPES k n B t_d m`; each further line is one call. The
format of the output is that of the team's page on the programs.
"""

import sys

from script import lines_of, numbers_of, played, read_volume_call
from stripe import Sizes
from striperun import new_stripe, show_returned, show_state
from volume import Volume

# What the program has memory for, for all stripes together.
NODES = 18 * 1024
CLIENTS = 8 * 1024
BLOCK_BYTES = 131_072  # as many for the spare
DIFFERENCE_BYTES = 262_144
VALUE_BYTES = 32_768  # given at a card's failure


def fits(sizes):
    stripes, (_, n, B, _, m) = sizes
    return (
        stripes * n <= NODES
        and stripes * m <= CLIENTS
        and stripes * n * B <= BLOCK_BYTES
        and stripes * m * B <= DIFFERENCE_BYTES
        and stripes * B <= VALUE_BYTES
    )


def read_sizes(line, Volume=Volume):
    """The sizes, or None if the line is unreadable or outside the limits."""
    fields = numbers_of(line, 6)
    sizes = fields and Volume.Sizes(fields[0], Sizes(*fields[1:]))
    return sizes if sizes and sizes.permitted() else None


def new_volume(sizes, Volume=Volume):
    """Each stripe begins as striperun's does."""
    return Volume([new_stripe(sizes.stripe) for _ in range(sizes.stripes)])


def show_answer(call, answer):
    if answer.value is None:
        return "-"
    if call.name == "look":
        return show_state(answer.value)
    if call.name == "on_stripe":
        _, call = call.arguments
    return show_returned(call, answer)


def play(volume, lines):
    for line in lines:
        call = read_volume_call(line)
        answer = volume.answer(call)
        yield f"{answer.number} {show_answer(call, answer)}"


def run(lines, Volume=Volume, watched=lambda volume: volume):
    """The output lines for the lines of a script. Watched: may put a witness before the volume."""

    def play_what_fits(sizes, calls):
        if not fits(sizes):
            return ["too large"]
        return play(watched(new_volume(sizes, Volume)), calls)

    return played(lines, lambda first: read_sizes(first, Volume), play_what_fits)


def main():
    for line in run(lines_of(sys.stdin.buffer)):
        print(line)


if __name__ == "__main__":
    main()
