"""The machine of document 01: one stripe, its writers and its rebuild.

Ages are counted in ticks, by request C-12 of document 02, and a read may show
a block of the spare, by request C-15. A Stripe has the node records, the client
records and three tables: blocks, spare and differences. Each call is one
method; it gives an Answer and leaves the records and tables as document 01
says. The tests of a call stand in the order of their numbers, so that the
lowest applicable number wins.
"""

import dataclasses
from dataclasses import dataclass
from typing import NamedTuple, Optional

import code
import field
from answers import ACCEPTED, LIVE, SPARE, Answer, Shown
from code import block, coefficient, put_block

# opmode
NORM, RECONS, INIT = "NORM", "RECONS", "INIT"
# lmode
UNL, L0, L1, EXP = "UNL", "L0", "L1", "EXP"
# phases of a rebuild
LOCKING, PICKING = "lock", "pick"
WRITING, SETTLING, UNLOCKING = "write", "settle", "unlock"

MAX_WRITES = 1_000_000
MAX_EPOCH = 1_000_000


class Sizes(NamedTuple):
    k: int  # data nodes
    n: int  # nodes
    B: int  # bytes of a block
    td: int  # node failures planned for
    m: int  # clients

    def permitted(self):
        return (
            code.permitted(self.k, self.n, self.B)
            and 0 <= self.td <= self.n - self.k
            and 1 <= self.m <= 8
        )


# ---------------------------------------------------------------- records


class WriteId(NamedTuple):
    client: int
    position: int
    number: int


@dataclass
class Entry:
    id: WriteId
    recent: bool = True  # otherwise old
    age: int = 0  # in ticks

    MAX_AGE = 255


@dataclass
class Node:
    opmode: str = NORM
    lmode: str = UNL
    holder: Optional[int] = None
    epoch: int = 0
    rset: frozenset = frozenset()
    entries: list = dataclasses.field(default_factory=list)  # in order of arrival

    MAX_ENTRIES = 16
    DUE_AGE = 64

    def is_free(self):
        """What swap, sweep and a read of the live table need."""
        return self.opmode == NORM and self.lmode == UNL

    def takes_adds(self):
        return self.opmode == NORM and self.lmode in (UNL, L0)

    def held_by(self, c):
        """Held by c: lmode L0 or L1 with holder c."""
        return self.lmode in (L0, L1) and self.holder == c

    def is_due(self):
        """A node is due if INIT or if a recent entry has age 64 or more."""
        aged = any(e.recent and e.age >= self.DUE_AGE for e in self.entries)
        return self.opmode == INIT or aged

    def lists(self, id):
        return any(e.id == id for e in self.entries)

    def recent_ids(self):
        return [e.id for e in self.entries if e.recent]

    def old_ids(self):
        return [e.id for e in self.entries if not e.recent]

    def last_recent_id(self):
        recent = self.recent_ids()
        return recent[-1] if recent else None

    def is_full(self):
        return len(self.entries) == self.MAX_ENTRIES

    def enter(self, id):
        self.entries.append(Entry(id))

    def tick(self):
        """The age of each recent entry rises by 1, up to 255; old ones keep theirs."""
        for e in self.entries:
            if e.recent:
                e.age = min(e.age + 1, Entry.MAX_AGE)

    def discard(self, moved):
        """Discards old entries whose ids are in the moved list."""
        self.entries = [e for e in self.entries if e.recent or e.id not in moved]

    def mark_old(self, finished):
        for e in self.entries:
            if e.id in finished:
                e.recent = False

    def set_lock(self, lmode, holder=None):
        """The holder is none unless L0 or L1."""
        self.lmode = lmode
        self.holder = holder


@dataclass
class Hand:
    """A client's write in hand. Its difference is in the third table."""

    position: int
    id: WriteId
    previous: Optional[WriteId]
    epoch: int
    done: set


@dataclass
class Rebuild:
    """A client's rebuild: its phase, and what that phase needs."""

    phase: str = LOCKING
    count: int = 0  # nodes locked, written, settled or unlocked in this phase
    old_lmodes: list = dataclasses.field(default_factory=list)  # of the nodes locked
    untightened: list = dataclasses.field(default_factory=list)  # weakened nodes, in rising order
    chosen: frozenset = frozenset()  # the set of the accepted pick
    E: int = 0


@dataclass
class Client:
    hand: Optional[Hand] = None
    rebuild: Optional[Rebuild] = None
    finished: list = dataclasses.field(default_factory=list)
    moved: list = dataclasses.field(default_factory=list)
    sweeps: int = 0  # accepted sweeps of the round begun, 0 if none
    next_number: int = 0

    MAX_FINISHED = 8

    def is_full(self):
        return len(self.finished) == self.MAX_FINISHED

    def in_phase(self, phase):
        return self.rebuild is not None and self.rebuild.phase == phase

    def has_picked(self):
        """A pick was accepted in the rebuild that it now has."""
        return self.rebuild is not None and self.rebuild.phase in (WRITING, SETTLING, UNLOCKING)


# ----------------------------------------------------------------- stripe


class Stripe:
    def __init__(self, sizes, spare, differences):
        """A fresh stripe, with any bytes in the spare and the differences."""
        assert sizes.permitted()
        assert len(spare) == sizes.n * sizes.B
        assert len(differences) == sizes.m * sizes.B
        self.sizes = sizes
        self.nodes = {j: Node() for j in range(1, sizes.n + 1)}
        self.clients = {c: Client() for c in range(1, sizes.m + 1)}
        self.blocks = bytearray(sizes.n * sizes.B)
        self.spare = bytearray(spare)
        self.differences = bytearray(differences)

    # ------------------------------------------------------- small things

    def block(self, j):
        return block(self.blocks, j, self.sizes.B)

    def put_block(self, j, value):
        put_block(self.blocks, j, self.sizes.B, value)

    def difference(self, c):
        return block(self.differences, c, self.sizes.B)

    def put_difference(self, c, value):
        put_block(self.differences, c, self.sizes.B, value)

    def is_client(self, c):
        return 1 <= c <= self.sizes.m

    def is_node(self, j):
        return 1 <= j <= self.sizes.n

    def is_position(self, i):
        return 1 <= i <= self.sizes.k

    def is_redundant(self, j):
        return self.sizes.k < j <= self.sizes.n

    def positions(self):
        return range(1, self.sizes.k + 1)

    def redundant_nodes(self):
        return range(self.sizes.k + 1, self.sizes.n + 1)

    def with_opmode(self, opmode):
        return {j for j, node in self.nodes.items() if node.opmode == opmode}

    def holds_all(self, c):
        return all(node.held_by(c) for node in self.nodes.values())

    def holds_all_at_L1(self, c):
        return self.holds_all(c) and all(node.lmode == L1 for node in self.nodes.values())

    # ------------------------------------------------------------ writing

    def read(self, i):
        """Shows block i of the live table; if the node isn't free, perhaps that of the spare."""
        if not self.is_position(i):
            return Answer(2)
        node = self.nodes[i]
        if node.is_free():
            return Answer(0, Shown(self.block(i), LIVE))
        if self.lets_read_spare(node.holder):
            return Answer(0, Shown(block(self.spare, i, self.sizes.B), SPARE))
        return modes_not_met(node)

    def lets_read_spare(self, c):
        """The holder c, if any, has picked and holds all n nodes at L1."""
        return c is not None and self.clients[c].has_picked() and self.holds_all_at_L1(c)

    def swap(self, c, i, value):
        """Difference = value XOR old block; previous id = last recent id there."""
        if len(value) != self.sizes.B:
            return Answer(1)
        if not self.is_client(c) or not self.is_position(i):
            return Answer(2)
        client, node = self.clients[c], self.nodes[i]
        if client.hand is not None or client.sweeps > 0:
            return Answer(3)
        if not node.is_free():
            return modes_not_met(node)
        if node.is_full() or client.is_full():
            return Answer(7)
        if client.next_number == MAX_WRITES:
            return Answer(8)
        id = WriteId(c, i, client.next_number)
        client.next_number += 1
        client.hand = Hand(i, id, node.last_recent_id(), node.epoch, {i})
        self.put_difference(c, field.add(value, self.block(i)))
        self.put_block(i, value)
        node.enter(id)
        return ACCEPTED

    def add(self, c, j):
        """c(j,i) times the difference is added and the id entered; j joins done."""
        if not self.is_client(c) or not self.is_redundant(j):
            return Answer(2)
        client, node = self.clients[c], self.nodes[j]
        hand = client.hand
        if hand is None or j in hand.done:
            return Answer(3)
        if not node.takes_adds():
            return modes_not_met(node)
        if node.epoch > hand.epoch:
            return Answer(5, node.epoch)
        if hand.previous is not None and not node.lists(hand.previous):
            return Answer(6, hand.previous)
        if node.is_full():
            return Answer(7)
        multiple = field.scale(coefficient(j, hand.position), self.difference(c))
        self.put_block(j, field.add(self.block(j), multiple))
        node.enter(hand.id)
        hand.done.add(j)
        if not hand.done.issuperset({hand.position, *self.redundant_nodes()}):
            return Answer(0, "Added")
        client.finished.append(hand.id)
        client.hand = None
        return Answer(0, "Done")

    def check(self, c, j):
        """Whether node j still lists c's write, and the one before it, as recent."""
        if not self.is_client(c) or not self.is_node(j):
            return Answer(2)
        hand = self.clients[c].hand
        if hand is None or j not in hand.done:
            return Answer(3)
        recent = self.nodes[j].recent_ids()
        if hand.id not in recent:
            hand.done.remove(j)
            return Answer(0, "INIT")
        if hand.previous is None or hand.previous not in recent:
            hand.previous = None
            return Answer(0, "GC")
        return Answer(0, "NoChange")

    def drop(self, c):
        """The write leaves the hand."""
        if not self.is_client(c):
            return Answer(2)
        client = self.clients[c]
        if client.hand is None:
            return Answer(3)
        client.hand = None
        return ACCEPTED

    def sweep(self, c):
        """One node of a round: nodes 1 to n discarding, then 1 to n marking."""
        if not self.is_client(c):
            return Answer(2)
        client, n = self.clients[c], self.sizes.n
        if client.hand is not None:
            return Answer(3)
        node = self.nodes[client.sweeps % n + 1]
        if not node.is_free():
            return modes_not_met(node)
        if client.sweeps < n:
            node.discard(client.moved)
        else:
            node.mark_old(client.finished)
        client.sweeps += 1
        if client.sweeps == 2 * n:
            client.moved, client.finished = client.finished, []
            client.sweeps = 0
        return ACCEPTED

    def stop(self, c):
        """All that c held becomes EXP; its record is fresh but for the number."""
        if not self.is_client(c):
            return Answer(2)
        self.expire_held(c)
        # Its write number stays.
        self.clients[c] = Client(next_number=self.clients[c].next_number)
        return ACCEPTED

    def fail(self, j, value):
        """The block becomes the bytes given; INIT, and the rest as fresh."""
        if len(value) != self.sizes.B:
            return Answer(1)
        if not self.is_node(j):
            return Answer(2)
        self.put_block(j, value)
        self.nodes[j] = Node(opmode=INIT)
        return ACCEPTED

    # --------------------------------------------------------------- ages

    def tick(self):
        """A tick of every node, whatever its opmode and lmode; ages only change."""
        for node in self.nodes.values():
            node.tick()
        return ACCEPTED

    def due(self, j):
        """Whether node j is due; nothing changes."""
        if not self.is_node(j):
            return Answer(2)
        return Answer(0, "due" if self.nodes[j].is_due() else "no")

    # ------------------------------------------------------------ rebuild

    def lock(self, c):
        """The next node goes from UNL or EXP to L1; its old lmode is remembered."""
        if not self.is_client(c):
            return Answer(2)
        client = self.clients[c]
        if client.rebuild is not None and not client.in_phase(LOCKING):
            return Answer(3)
        rebuild = client.rebuild or Rebuild()
        node = self.nodes[rebuild.count + 1]
        if node.lmode in (L0, L1):
            self.give_back(c, rebuild)
            return Answer(9)
        rebuild.old_lmodes.append(node.lmode)
        node.set_lock(L1, c)
        client.rebuild = rebuild
        self.step_phase(rebuild, PICKING)
        return ACCEPTED

    def pick(self, c):
        """The spare becomes the codeword decoded from the set; E = largest epoch."""
        if not self.is_client(c):
            return Answer(2)
        client = self.clients[c]
        if not client.in_phase(PICKING) or client.rebuild.untightened:
            return Answer(3)
        E = max(node.epoch for node in self.nodes.values())
        if E == MAX_EPOCH:
            return Answer(8)
        if not self.holds_all_at_L1(c):
            return self.lose(c)
        chosen, needed = self.choose()
        if len(chosen) < needed:
            return Answer(11, len(chosen))
        table = bytearray(self.blocks)
        decoded = code.decode(self.sizes.k, self.sizes.n, self.sizes.B, chosen, table)
        if not decoded.accepted:
            return decoded  # 12
        self.spare[:] = table
        client.rebuild = Rebuild(WRITING, chosen=frozenset(chosen), E=E)
        return Answer(0, (sorted(chosen), E))

    def weaken(self, c):
        """Redundant nodes go to L0: they accept adds, for more nodes to agree."""
        if not self.is_client(c):
            return Answer(2)
        client = self.clients[c]
        if not client.in_phase(PICKING) or client.rebuild.untightened:
            return Answer(3)
        if self.with_opmode(RECONS):
            return Answer(3)
        if not self.holds_all(c):
            return self.lose(c)
        for j in self.redundant_nodes():
            self.nodes[j].set_lock(L0, c)
        client.rebuild.untightened = list(self.redundant_nodes())
        return ACCEPTED

    def tighten(self, c):
        """The lowest redundant node not tightened since the weaken goes to L1."""
        if not self.is_client(c):
            return Answer(2)
        client = self.clients[c]
        if not client.in_phase(PICKING) or not client.rebuild.untightened:
            return Answer(3)
        node = self.nodes[client.rebuild.untightened[0]]
        if not node.held_by(c):
            return self.lose(c)
        node.set_lock(L1, c)
        client.rebuild.untightened.pop(0)
        return ACCEPTED

    def write(self, c):
        """The next node: block from the spare, RECONS, epoch E, rset = the set."""
        if not self.is_client(c):
            return Answer(2)
        client = self.clients[c]
        if not client.in_phase(WRITING):
            return Answer(3)
        rebuild = client.rebuild
        j = rebuild.count + 1
        node = self.nodes[j]
        if not node.held_by(c):
            return self.lose(c)
        self.put_block(j, block(self.spare, j, self.sizes.B))
        node.opmode = RECONS
        node.epoch = rebuild.E
        node.rset = rebuild.chosen
        self.step_phase(rebuild, SETTLING)
        return ACCEPTED

    def settle(self, c):
        """The next node: epoch E+1, entries and rset cleared, NORM, still held."""
        if not self.is_client(c):
            return Answer(2)
        client = self.clients[c]
        if not client.in_phase(SETTLING):
            return Answer(3)
        # A needed node is, for settle, each of all n.
        if not self.holds_all(c):
            return self.lose(c)
        rebuild = client.rebuild
        node = self.nodes[rebuild.count + 1]
        node.opmode = NORM
        node.epoch = rebuild.E + 1
        node.entries = []
        node.rset = frozenset()
        self.step_phase(rebuild, UNLOCKING)
        # The nth settle finishes the rebuild.
        return Answer(0, "rebuilt") if rebuild.phase == UNLOCKING else ACCEPTED

    def unlock(self, c):
        """The next node goes to UNL; the nth ends the rebuild."""
        if not self.is_client(c):
            return Answer(2)
        client = self.clients[c]
        if not client.in_phase(UNLOCKING):
            return Answer(3)
        rebuild = client.rebuild
        node = self.nodes[rebuild.count + 1]
        if not node.held_by(c):
            return self.lose(c)
        node.set_lock(UNL)
        rebuild.count += 1
        if rebuild.count == self.sizes.n:
            client.rebuild = None
        return ACCEPTED

    def quit(self, c):
        """Accepted, and leaves what answer 10 leaves."""
        if not self.is_client(c):
            return Answer(2)
        if self.clients[c].rebuild is None:
            return Answer(3)
        self.lose(c)
        return ACCEPTED

    # ---------------------------------------------- what rebuild calls use

    def step_phase(self, rebuild, next_phase):
        """One node more in this phase; after n nodes the next phase begins."""
        rebuild.count += 1
        if rebuild.count == self.sizes.n:
            rebuild.phase = next_phase
            rebuild.count = 0

    def give_back(self, c, rebuild):
        """Answer 9: nodes still held by c get their old lmode; rebuild ends."""
        for j, lmode in enumerate(rebuild.old_lmodes, start=1):
            if self.nodes[j].held_by(c):
                self.nodes[j].set_lock(lmode)
        self.clients[c].rebuild = None

    def expire_held(self, c):
        for node in self.nodes.values():
            if node.held_by(c):
                node.set_lock(EXP)

    def lose(self, c):
        """Answer 10: all held by c become EXP; rebuild ends."""
        self.expire_held(c)
        self.clients[c].rebuild = None
        return Answer(10)

    # ----------------------------------------------------- the set of pick

    def choose(self):
        """The set that pick goes by, and how many members it needs."""
        if self.with_opmode(RECONS):
            return self.resumed_set(), self.sizes.k
        return self.largest_consistent_set(), self.sizes.k + self.slack()

    def slack(self):
        """t_d less the number of INIT nodes, at least 0."""
        return max(0, self.sizes.td - len(self.with_opmode(INIT)))

    def resumed_set(self):
        """The union of all rsets without INIT nodes, plus every RECONS node."""
        union = set().union(*(node.rset for node in self.nodes.values()))
        return (union - self.with_opmode(INIT)) | self.with_opmode(RECONS)

    def old_anywhere(self):
        """Ids marked old at any NORM node."""
        return {id for j in self.with_opmode(NORM) for id in self.nodes[j].old_ids()}

    def f(self, j):
        """The recent ids of node j, without ids marked old at any NORM node."""
        return set(self.nodes[j].recent_ids()) - self.old_anywhere()

    def is_consistent(self, members):
        """Document 01's definition, word by word."""
        if not all(self.nodes[j].opmode == NORM for j in members):
            return False
        data = [i for i in members if self.is_position(i)]
        redundant = [j for j in members if self.is_redundant(j)]
        equal = all(self.f(j) == self.f(r) for j in redundant for r in redundant)
        return equal and all(self.f(i) == of_position(self.f(j), i) for i in data for j in redundant)

    def expected_f(self, j, ids):
        """The f of a node j that agrees with a redundant node whose f is ids."""
        return ids if self.is_redundant(j) else of_position(ids, j)

    def largest_consistent_set(self):
        """The largest consistent set, on a tie the all-data set, then the one
        with the lowest redundant member.

        A set without redundant members is consistent if its nodes are NORM. A
        redundant member fixes f for all others, so that the largest set with
        it has every node that agrees with it.
        """
        norm = self.with_opmode(NORM)
        f = {j: self.f(j) for j in norm}
        largest = {i for i in norm if self.is_position(i)}
        for r in sorted(j for j in norm if self.is_redundant(j)):
            agreeing = {j for j in norm if f[j] == self.expected_f(j, f[r])}
            if len(agreeing) > len(largest):
                largest = agreeing
        return largest


def of_position(ids, i):
    return {id for id in ids if id.position == i}


def modes_not_met(node):
    return Answer(4, (node.opmode, node.lmode))
