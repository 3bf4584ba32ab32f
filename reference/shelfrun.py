"""shelfrun: the program of document 01, "Due test and runner"."""

import sys

from script import SHELF_FORMS, answer_of, lines_of, read_call
from stripe import Sizes, Stripe

SIZES = Sizes(k=2, n=4, B=1, td=1, m=2)

# Events: swapped, added, locked (each lock), rebuilt (the nth settle).
EVENTS = {"swap": "swapped", "add": "added", "lock": "locked"}


def event_of(call, answer):
    if not answer.accepted:
        return "-"
    if answer.value == "rebuilt":
        return "rebuilt"
    return EVENTS.get(call.name, "-")


def byte_read(call, answer):
    if answer.accepted and call.name == "read":
        return answer.value.block.hex().upper()
    return "-"


def run(lines):
    """The output lines for the lines of the input."""
    stripe = Stripe(SIZES, bytes(SIZES.n * SIZES.B), bytes(SIZES.m * SIZES.B))
    for line_number, line in enumerate(lines, start=1):
        call = read_call(line, SHELF_FORMS)
        answer = answer_of(stripe, call)
        yield f"{line_number} {event_of(call, answer)} {answer.number} {byte_read(call, answer)}"


def main():
    for line in run(lines_of(sys.stdin.buffer)):
        sys.stdout.write(line + "\n")


if __name__ == "__main__":
    main()
