"""striperun: plays a script on a stripe of any size, shows everything after each call.

The first line is `k n B t_d m`; each further line is one call, or `M`, which
shows the stripe's image and changes nothing. The format of the output is that
of the team's page on striperun.
"""

import sys

import image
from script import answer_of, lines_of, numbers_of, played, read_call
from stripe import Sizes, Stripe

SPARE_BYTE = b"\xAA"
DIFFERENCE_BYTE = b"\x55"
IMAGE_LINE = b"M"
IMAGE_BYTE = b"\xCC"  # of the buffer that an image is written into


def read_sizes(line):
    """The sizes, or None if the line is unreadable or outside the limits."""
    fields = numbers_of(line, 5)
    sizes = fields and Sizes(*fields)
    return sizes if sizes and sizes.permitted() else None


def new_stripe(sizes):
    return Stripe(sizes, SPARE_BYTE * (sizes.n * sizes.B), DIFFERENCE_BYTE * (sizes.m * sizes.B))


# ------------------------------------------------------------ one text each


def show_bytes(value):
    return value.hex().upper()


def show_set(members):
    return ".".join(str(j) for j in sorted(members)) or "-"


def show_id(id):
    return f"{id.client}.{id.position}.{id.number}"


def show_ids(ids):
    return ";".join(show_id(id) for id in ids) or "-"


def show_entry(entry):
    return f"{show_id(entry.id)}.{'R' if entry.recent else 'O'}.{entry.age}"


def show_node(j, node, value):
    entries = ";".join(show_entry(entry) for entry in node.entries) or "-"
    return (
        f"{j}:{show_bytes(value)},{node.opmode},{node.lmode},{node.holder or 0},"
        f"{node.epoch},{show_set(node.rset)},{entries}"
    )


def show_hand(hand):
    if hand is None:
        return "-"
    previous = "none" if hand.previous is None else show_id(hand.previous)
    return f"{hand.position}/{show_id(hand.id)}/{previous}/{hand.epoch}/{show_set(hand.done)}"


def show_client(c, client):
    return (
        f"{c}:{show_hand(client.hand)},{show_ids(client.finished)},{show_ids(client.moved)},"
        f"{client.sweeps},{client.next_number}"
    )


def show_state(stripe):
    nodes = " ".join(show_node(j, node, stripe.block(j)) for j, node in stripe.nodes.items())
    clients = " ".join(show_client(c, client) for c, client in stripe.clients.items())
    return f"{nodes} # {clients} # {show_bytes(stripe.spare)} # {show_bytes(stripe.differences)}"


def show_returned(call, answer):
    if answer.value is None:
        return "-"
    if answer.number == 4:
        return ",".join(answer.value)
    if answer.number == 6:
        return show_id(answer.value)
    if answer.accepted and call.name == "read":
        return f"block={show_bytes(answer.value.block)} {answer.value.table}"
    if answer.accepted and call.name == "pick":
        chosen, E = answer.value
        return f"set={show_set(chosen)} E={E}"
    return str(answer.value)


def image_shown(stripe, write):
    """The answer of the image's writer, and the image."""
    buffer = bytearray(IMAGE_BYTE * image.length(stripe.sizes))
    answer = write(stripe, buffer)
    return f"{answer.number} image={show_bytes(buffer)}" if answer.accepted else f"{answer.number} -"


def call_shown(stripe, call):
    """The answer of a call, and what it returned."""
    answer = answer_of(stripe, call)
    return f"{answer.number} {show_returned(call, answer)}"


def play(stripe, lines, write):
    for line in lines:
        shown = image_shown(stripe, write) if line == IMAGE_LINE else call_shown(stripe, read_call(line))
        yield f"{shown} | {show_state(stripe)}"


def run(lines, new_stripe=new_stripe, write=image.write):
    """The output lines for the lines of a script. Write: writes an image."""
    return played(lines, read_sizes, lambda sizes, calls: play(new_stripe(sizes), calls, write))


def main():
    for line in run(lines_of(sys.stdin.buffer)):
        print(line)


if __name__ == "__main__":
    main()
