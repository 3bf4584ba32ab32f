"""Kinds of states, for counting what the images of lists show, and kinds of reads."""

from code import block
from stripe import EXP, INIT, LOCKING, PICKING, RECONS, SETTLING, UNL, UNLOCKING, WRITING
from stripe import Client, Entry, Node

PHASES = {WRITING: "writing", SETTLING: "settling", UNLOCKING: "unlocking"}


def of_rebuild(rebuild):
    if rebuild is None:
        return "no rebuild"
    if rebuild.phase == LOCKING:
        return "locking where some were EXP" if EXP in rebuild.old_lmodes else "locking where all were UNL"
    if rebuild.phase == PICKING:
        return "picking with some untightened" if rebuild.untightened else "picking with none untightened"
    return PHASES[rebuild.phase]


def of_hand(hand):
    if hand is None:
        return "empty hand"
    return "hand without a previous id" if hand.previous is None else "hand with a previous id"


NODE_KINDS = {
    "full entries": Node.is_full,
    "some entries": lambda node: 0 < len(node.entries) < Node.MAX_ENTRIES,
    "marked old": lambda node: any(not e.recent for e in node.entries),
    "age past 0": lambda node: any(e.age > 0 for e in node.entries),
    "age 255": lambda node: any(e.age == Entry.MAX_AGE for e in node.entries),
    "epoch past 0": lambda node: node.epoch > 0,
    "rset": lambda node: node.rset,
}
CLIENT_KINDS = {
    "full finished": Client.is_full,
    "some finished": lambda client: 0 < len(client.finished) < Client.MAX_FINISHED,
    "full moved": lambda client: len(client.moved) == Client.MAX_FINISHED,
    "some moved": lambda client: 0 < len(client.moved) < Client.MAX_FINISHED,
    "round begun": lambda client: client.sweeps > 0,
    "epoch past 0 in hand": lambda client: client.hand and client.hand.epoch > 0,
    "E past 0": lambda client: (client.in_phase(WRITING) or client.in_phase(SETTLING)) and client.rebuild.E > 0,
}
KINDS = [
    *["NORM", "RECONS", "INIT", "UNL", "L0", "L1", "EXP"],
    *NODE_KINDS,
    *["empty hand", "hand without a previous id", "hand with a previous id"],
    *["no rebuild", "locking where all were UNL", "locking where some were EXP"],
    *["picking with none untightened", "picking with some untightened"],
    *PHASES.values(),
    *CLIENT_KINDS,
]


def of_node(node):
    return {node.opmode, node.lmode, *(name for name, is_so in NODE_KINDS.items() if is_so(node))}


def of_client(client):
    kinds = {name for name, is_so in CLIENT_KINDS.items() if is_so(client)}
    return kinds | {of_rebuild(client.rebuild), of_hand(client.hand)}


def of_sizes(sizes):
    return {f"k={sizes.k} n={sizes.n}", f"B={sizes.B}", f"t_d={sizes.td}", f"m={sizes.m}"}


def of_stripe(stripe):
    """The kinds of its sizes, its nodes and its clients."""
    nodes = map(of_node, stripe.nodes.values())
    return of_sizes(stripe.sizes).union(*nodes, *map(of_client, stripe.clients.values()))


# -------------------------------------------------------------------- reads

# What reads are answered and when: all that lists are to reach.
READS = [
    *["live read", "live read beside a held node"],
    *["spare read in the write phase", "spare read in the settle phase", "spare read before the first unlock"],
    *["spare read of an INIT node", "spare read beside an INIT node", "spare read in a resumed rebuild"],
    *["spare read of other bytes than the live ones", "spare read of nodes all locked since another client's pick"],
    *["read refused in the lock phase", "read refused in the pick phase", "read refused beside a weakened node"],
    *["read refused after the first unlock", "read refused beside a failed node"],
    *["read refused beside a node of another client", "read refused of a node locked since another client's pick"],
    "read refused of nodes all locked since another client's pick",
    *["read refused of a failed node", "read refused at EXP"],
    *["read refused of a redundant node", "read refused of no node"],
]


def of_read(stripe, i, answer):
    """What a read of i was answered, once with each circumstance. The read has changed nothing."""
    answered = f"{answer.value.table} read" if answer.accepted else "read refused"
    return {f"{answered} {when}".strip() for when in circumstances(stripe, i)}


def circumstances(stripe, i):
    if not stripe.is_position(i):
        return {"of a redundant node" if stripe.is_redundant(i) else "of no node"}
    node = stripe.nodes[i]
    if node.is_free():
        return {"", *(["beside a held node"] if any(other.holder for other in stripe.nodes.values()) else [])}
    if node.holder is None:
        return {"at EXP" if node.lmode == EXP else "of a failed node"}
    return set(of_held(stripe, i, stripe.clients[node.holder]))


def of_held(stripe, i, holder):
    """Of a node i that the client holds."""
    if holder.has_picked():
        yield from of_some_held(stripe, holder) if not_held(stripe, holder) else of_all_held(stripe, i, holder)
    elif holder.rebuild is not None:
        yield f"in the {holder.rebuild.phase} phase"
        if holder.rebuild.untightened:
            yield "beside a weakened node"
    if any(other.has_picked() for other in stripe.clients.values() if other is not holder):
        yield "of a node locked since another client's pick"
        if not not_held(stripe, holder):
            yield "of nodes all locked since another client's pick"


def not_held(stripe, holder):
    """The nodes that the client does not hold."""
    return [node for node in stripe.nodes.values() if stripe.clients.get(node.holder) is not holder]


def of_some_held(stripe, holder):
    """The holder has picked, and holds some nodes no more."""
    others = not_held(stripe, holder)
    if holder.in_phase(UNLOCKING) and holder.rebuild.count > 0:
        yield "after the first unlock"
    if any(node.opmode == INIT and node.lmode == UNL for node in others):
        yield "beside a failed node"
    if any(node.holder for node in others):
        yield "beside a node of another client"


def of_all_held(stripe, i, holder):
    """The holder has picked, and holds all nodes."""
    yield "before the first unlock" if holder.in_phase(UNLOCKING) else f"in the {holder.rebuild.phase} phase"
    if stripe.nodes[i].opmode == INIT:
        yield "of an INIT node"
    elif stripe.with_opmode(INIT):
        yield "beside an INIT node"
    if holder.in_phase(WRITING) and any(j > holder.rebuild.count for j in stripe.with_opmode(RECONS)):
        yield "in a resumed rebuild"
    if stripe.block(i) != block(stripe.spare, i, stripe.sizes.B):
        yield "of other bytes than the live ones"
