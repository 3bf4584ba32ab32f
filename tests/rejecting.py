"""A test that rejects is itself tried first, on what it must reject."""

import sys


class Rejected(Exception):
    pass


def reject_all(test, look_at, wrong):
    """Each wrong thing, named, is rejected by look_at for its reason; returns how many there are."""
    for name, thing, reason in wrong:
        try:
            look_at(thing)
        except Rejected as error:
            if reason not in str(error):
                sys.exit(f"{test}: {name} was rejected for another reason: {error}")
        else:
            sys.exit(f"{test}: {name} was not rejected")
    return len(wrong)
