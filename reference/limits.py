"""The limits of records: facts of each record that every call keeps.

Document 01 answers 1 for a record outside the limits but does not spell the
limits out; these are the team's. Here no record comes from outside, so that
they serve as a check of the machine, and refuse what has no image (image.py).
"""

from stripe import EXP, INIT, L0, L1, LOCKING, MAX_EPOCH, MAX_WRITES, NORM, PICKING, RECONS, SETTLING, UNL
from stripe import UNLOCKING, WRITING


def id_within(id, sizes):
    return 1 <= id.client <= sizes.m and 1 <= id.position <= sizes.k and 0 <= id.number < MAX_WRITES


def set_within(members, sizes):
    return all(1 <= j <= sizes.n for j in members)


def node_within(node, sizes):
    is_held = node.lmode in (L0, L1)
    return (
        node.opmode in (NORM, RECONS, INIT)
        and node.lmode in (UNL, L0, L1, EXP)
        and (node.holder in range(1, sizes.m + 1) if is_held else node.holder is None)
        and 0 <= node.epoch <= MAX_EPOCH
        and set_within(node.rset, sizes)
        and len(node.entries) <= 16
        and all(id_within(e.id, sizes) and 0 <= e.age <= 255 for e in node.entries)
    )


def hand_within(hand, sizes):
    return (
        id_within(hand.id, sizes)
        and hand.position == hand.id.position
        and (hand.previous is None or id_within(hand.previous, sizes))
        and 0 <= hand.epoch <= MAX_EPOCH
        and set_within(hand.done, sizes)
    )


def rebuild_within(rebuild, sizes):
    if rebuild.phase == LOCKING:
        count_is_right = 1 <= rebuild.count < sizes.n and len(rebuild.old_lmodes) == rebuild.count
        return count_is_right and all(lmode in (UNL, EXP) for lmode in rebuild.old_lmodes)
    if rebuild.phase == PICKING:
        first = sizes.n + 1 - len(rebuild.untightened)
        return first > sizes.k and rebuild.untightened == list(range(first, sizes.n + 1))
    return (
        rebuild.phase in (WRITING, SETTLING, UNLOCKING)
        and 0 <= rebuild.count < sizes.n
        and set_within(rebuild.chosen, sizes)
        and 0 <= rebuild.E < MAX_EPOCH
    )


def client_within(client, sizes):
    # A write in hand leaves room for its id among the finished ones.
    most_finished = 8 if client.hand is None else 7
    return (
        len(client.finished) <= most_finished
        and len(client.moved) <= 8
        and all(id_within(id, sizes) for id in client.finished + client.moved)
        and 0 <= client.sweeps < 2 * sizes.n
        and 0 <= client.next_number <= MAX_WRITES
        and (client.hand is None or hand_within(client.hand, sizes))
        and (client.rebuild is None or rebuild_within(client.rebuild, sizes))
    )


def within(stripe):
    sizes = stripe.sizes
    return all(node_within(node, sizes) for node in stripe.nodes.values()) and all(
        client_within(client, sizes) for client in stripe.clients.values()
    )


def tables_within(stripe):
    """Of n nodes and m clients there is a record each, and the bytes are as many as the sizes say."""
    _, n, B, _, m = stripe.sizes
    return (
        list(stripe.nodes) == list(range(1, n + 1))
        and list(stripe.clients) == list(range(1, m + 1))
        and len(stripe.blocks) == len(stripe.spare) == n * B
        and len(stripe.differences) == m * B
    )
