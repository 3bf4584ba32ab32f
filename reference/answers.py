"""Answers of the calls: document 01, "Numbers of the answers"."""

from typing import Any, NamedTuple


class Answer(NamedTuple):
    """A number, 0 if the call is accepted, and what is returned with it."""

    number: int
    value: Any = None

    @property
    def accepted(self):
        """Accepted: answered with none of the numbers from 1 up."""
        return self.number == 0


ACCEPTED = Answer(0)

# the tables that a read shows a block of
LIVE, SPARE = "live", "spare"


class Shown(NamedTuple):
    """What an accepted read returns: the block, and which table it is of."""

    block: bytes
    table: str
