"""Wrong machines, wrong volumes and wrong writers of images: who notices them.

Each mutant is the text of stripe.py, of volume.py or of image.py, with one
edit. A mutant is noticed by a list if the output of striperun, or of
volumerun, differs from that without the edit. A stripe's mutants with a list
of their own break the claim of guarantee.py, which must say so on that list;
those of ages, and those of reads that show what they may, are noticed by their
own list only, and one of reads by records that no list reaches. A volume's
mutants are noticed by their own list, and by each stripe's calls made alone on
it (takenout.py); those of its limits by their own list only. An image's mutants
are noticed by their own list, which has M lines; those that go wrong with a
buffer of another length, or with what is outside the limits, by calls that
must be refused.

    mutants.py [--seed S] [--lists N]
"""

import argparse
import copy
import types
from itertools import product
from pathlib import Path
from typing import NamedTuple

import guarantee
import image
import lists
import striperun
import takenout
import volumelists
import volumerun
from answers import Answer
from script import answer_of, read_call, spelled_out
from stripe import L0, Rebuild, Sizes, WriteId

FOLDER = Path(__file__).parent
STRIPE = (FOLDER / "stripe.py").read_text()
VOLUME = (FOLDER / "volume.py").read_text()
IMAGE = (FOLDER / "image.py").read_text()


class Unnoticed(Exception):
    pass


class Mutant(NamedTuple):
    name: str
    old: str  # occurs once
    new: str
    own: str = ""  # a list of its own, calls separated by commas


# Lists for the mutants of reads, and what a read shows.
DONE = "S 1 1 01, A 1 3, A 1 4"
PICK = "L 1 x4, P 1"
REBUILT = f"{PICK}, W 1 x4, T 1 x4, U 1 x4"
LIVE_SHOWN = "Shown(self.block(i), LIVE)"
SPARE_SHOWN = "Shown(block(self.spare, i, self.sizes.B), SPARE)"

MUTANTS = [
    # The slips seen on the rig, and others that break demand 3.
    Mutant(
        "unlock at settle",
        "        if not self.holds_all(c):\n"
        "            return self.lose(c)\n"
        "        rebuild = client.rebuild\n"
        "        node = self.nodes[rebuild.count + 1]\n",
        "        rebuild = client.rebuild\n"
        "        node = self.nodes[rebuild.count + 1]\n"
        "        node.set_lock(UNL)\n",
        "2 3 1 1 2, L 1 x3, P 1, W 1 x3, T 1, S 2 1 01, T 1 x2",
    ),
    Mutant(
        "settle looks at its own node only",
        "        if not self.holds_all(c):\n"
        "            return self.lose(c)\n"
        "        rebuild = client.rebuild\n",
        "        rebuild = client.rebuild\n"
        "        if not self.nodes[rebuild.count + 1].held_by(c):\n"
        "            return self.lose(c)\n",
        "2 3 1 1 2, L 1 x3, P 1, W 1 x3, T 1, N 1 01, T 1 x2",
    ),
    Mutant(
        "adds at EXP",
        "self.lmode in (UNL, L0)",
        "self.lmode in (UNL, L0, EXP)",
        "2 4 1 1 2, S 2 1 01, L 1 x4, P 1, W 1, Q 1, A 2 3, A 2 4",
    ),
    Mutant(
        "gives back another's lock",
        "            if self.nodes[j].held_by(c):\n                self.nodes[j].set_lock(lmode)",
        "            self.nodes[j].set_lock(lmode)",
        "2 3 1 1 2, L 1, N 1 01, L 2 x3, P 2, W 2, Q 2, L 2 x3, P 2, W 2 x3, T 2, L 1, T 2, "
        "S 1 1 01, N 2 01, L 2 x3, P 2, W 2 x3, T 2 x3",
    ),
    Mutant(
        "previous id from the old entries",
        "        recent = self.recent_ids()\n        return",
        "        recent = self.old_ids()\n        return",
        "2 3 1 1 2, S 1 2 01, S 2 2 01, A 2 3, N 2 01, L 1 x3, P 1, W 1 x3, T 1 x3",
    ),
    Mutant(
        "no previous-id test",
        "if hand.previous is not None and not node.lists(hand.previous):",
        "if False:",
        "2 3 1 1 2, S 1 2 01, S 2 2 01, A 2 3, N 2 01, L 1 x3, P 1, W 1 x3, T 1 x3",
    ),
    Mutant(
        "no epoch test",
        "if node.epoch > hand.epoch:",
        "if False:",
        "2 3 1 0 2, S 1 1 01, L 2 x3, P 2, W 2 x3, T 2 x3, U 2 x3, A 1 3",
    ),
    Mutant(
        "settle keeps the epoch",
        "node.epoch = rebuild.E + 1",
        "node.epoch = rebuild.E",
        "2 3 1 0 2, S 1 1 01, L 2 x3, P 2, W 2 x3, T 2 x3, U 2 x3, A 1 3",
    ),
    Mutant(
        "redundant members not compared",
        "{j for j in norm if f[j] == self.expected_f(j, f[r])}",
        "{j for j in norm if self.is_redundant(j) or all(f[j] == of_position(f[q], j)"
        " for q in norm if self.is_redundant(q))}",
        "2 4 1 0 2, S 1 2 01, A 1 3, N 1 01, L 2 x4, P 2, W 2 x4, T 2 x4",
    ),
    Mutant(
        "weaken with a RECONS node",
        "        if self.with_opmode(RECONS):\n            return Answer(3)\n",
        "",
        "2 4 1 1 2, S 2 1 01, L 1 x4, P 1, W 1, Q 1, L 1 x4, O 1, A 2 3, A 2 4",
    ),
    # Reads that show what no first part of the swaps gave, or one without a done write.
    Mutant(
        "the spare shown before the pick",
        "self.rebuild.phase in (WRITING, SETTLING, UNLOCKING)",
        "self.rebuild.phase in (PICKING, WRITING, SETTLING, UNLOCKING)",
        "2 4 1 1 2, L 1 x4, R 1",
    ),
    Mutant(
        "the spare of an earlier rebuild shown",
        "self.rebuild is not None and self.rebuild.phase in (WRITING, SETTLING, UNLOCKING)",
        "self.rebuild is not None",
        f"2 4 1 1 2, {REBUILT}, {DONE}, L 1 x4, R 1",
    ),
    Mutant(
        "the spare shown at EXP",
        "if self.lets_read_spare(node.holder):",
        "if node.lmode == EXP or self.lets_read_spare(node.holder):",
        f"2 4 1 1 2, {REBUILT}, {DONE}, L 1 x4, C 1, R 1",
    ),
    Mutant(
        "live and spare exchanged",
        f"            return Answer(0, {LIVE_SHOWN})\n"
        "        if self.lets_read_spare(node.holder):\n"
        f"            return Answer(0, {SPARE_SHOWN})\n",
        f"            return Answer(0, {SPARE_SHOWN})\n"
        "        if self.lets_read_spare(node.holder):\n"
        f"            return Answer(0, {LIVE_SHOWN})\n",
        "2 4 1 1 2, R 1",
    ),
    Mutant(
        "the live block shown as the spare's",
        SPARE_SHOWN,
        "Shown(self.block(i), SPARE)",
        f"2 4 1 1 2, {DONE}, N 1 77, {PICK}, R 1",
    ),
    Mutant(
        "block 1 of the spare for all",
        "block(self.spare, i, self.sizes.B)",
        "block(self.spare, 1, self.sizes.B)",
        f"2 4 1 1 2, {DONE}, {PICK}, R 2",
    ),
    Mutant(
        "a failed node's bytes shown",
        f"        if node.is_free():\n            return Answer(0, {LIVE_SHOWN})",
        f"        if node.lmode == UNL:\n            return Answer(0, {LIVE_SHOWN})",
        "2 4 1 1 2, N 1 77, R 1",
    ),
    # A tick that changes more than ages.
    Mutant(
        "a tick marks old what is due",
        "e.age = min(e.age + 1, Entry.MAX_AGE)\n",
        "e.age = min(e.age + 1, Entry.MAX_AGE)\n"
        "                e.recent = e.age < self.DUE_AGE\n",
        "2 4 1 1 2, S 1 1 01, K x64",
    ),
    Mutant(
        "a tick expires what is locked",
        "            node.tick()\n",
        "            node.tick()\n"
        "            if node.lmode == L1:\n"
        "                node.set_lock(EXP)\n",
        "2 4 1 1 2, L 1, K",
    ),
    # Others, which the comparison notices.
    Mutant(
        "previous id from all entries",
        "        recent = self.recent_ids()\n        return",
        "        recent = [e.id for e in self.entries]\n        return",
    ),
    Mutant(
        "f keeps ids marked old",
        "set(self.nodes[j].recent_ids()) - self.old_anywhere()",
        "set(self.nodes[j].recent_ids())",
    ),
    Mutant("no slack", "return max(0, self.sizes.td - len(self.with_opmode(INIT)))", "return 0"),
    Mutant(
        "slack without failures",
        "max(0, self.sizes.td - len(self.with_opmode(INIT)))",
        "self.sizes.td",
    ),
    Mutant("sweep of one pass", "client.sweeps == 2 * n", "client.sweeps == n"),
    Mutant(
        "finished not moved",
        "client.moved, client.finished = client.finished, []",
        "client.finished = []",
    ),
    Mutant(
        "write clears entries",
        "        node.rset = rebuild.chosen\n",
        "        node.rset = rebuild.chosen\n"
        "        node.entries = []\n",
    ),
    Mutant("write keeps the epoch", "        node.epoch = rebuild.E\n", ""),
    Mutant("settle keeps the rset", "        node.rset = frozenset()\n", ""),
    Mutant("settle keeps entries", "        node.entries = []\n", ""),
    Mutant(
        "tie taken by the redundant set",
        "if len(agreeing) > len(largest):",
        "if len(agreeing) >= len(largest):",
    ),
    Mutant(
        "resumed set with INIT nodes",
        "(union - self.with_opmode(INIT)) | self.with_opmode(RECONS)",
        "union | self.with_opmode(RECONS)",
    ),
    Mutant(
        "resumed set of RECONS nodes only",
        "(union - self.with_opmode(INIT)) | self.with_opmode(RECONS)",
        "self.with_opmode(RECONS)",
    ),
    Mutant(
        "resumed set without RECONS nodes",
        "(union - self.with_opmode(INIT)) | self.with_opmode(RECONS)",
        "union - self.with_opmode(INIT)",
    ),
    Mutant(
        "resumed set needs the slack",
        "return self.resumed_set(), self.sizes.k\n",
        "return self.resumed_set(), self.sizes.k + self.slack()\n",
    ),
    Mutant(
        "E of NORM nodes only",
        "E = max(node.epoch for node in self.nodes.values())",
        "E = max([0] + [node.epoch for node in self.nodes.values() if node.opmode == NORM])",
    ),
    Mutant(
        "answer 9 gives back UNL",
        "self.nodes[j].set_lock(lmode)",
        "self.nodes[j].set_lock(UNL)",
    ),
    Mutant("answer 9 leaves EXP", "self.nodes[j].set_lock(lmode)", "self.nodes[j].set_lock(EXP)"),
    Mutant(
        "lock refuses EXP",
        "if node.lmode in (L0, L1):\n            self.give_back",
        "if node.lmode != UNL:\n            self.give_back",
    ),
    Mutant(
        "lock begins anew in the unlock phase",
        "        if client.rebuild is not None and not client.in_phase(LOCKING):",
        "        if client.in_phase(UNLOCKING):\n"
        "            client.rebuild = None\n"
        "        elif client.rebuild is not None and not client.in_phase(LOCKING):",
    ),
    Mutant(
        "weaken takes data nodes too",
        "for j in self.redundant_nodes():\n            self.nodes[j].set_lock(L0, c)",
        "for j in self.nodes:\n            self.nodes[j].set_lock(L0, c)",
    ),
    Mutant(
        "weaken again before tightened",
        " or client.rebuild.untightened:\n            return Answer(3)\n        if self.with",
        ":\n            return Answer(3)\n        if self.with",
    ),
    Mutant(
        "pick before tightened",
        " or client.rebuild.untightened:\n            return Answer(3)\n        E =",
        ":\n            return Answer(3)\n        E =",
    ),
    Mutant(
        "tightens the highest",
        "client.rebuild.untightened.pop(0)",
        "client.rebuild.untightened.pop()",
    ),
    Mutant(
        "failure keeps the epoch",
        "self.nodes[j] = Node(opmode=INIT)",
        "self.nodes[j] = Node(opmode=INIT, epoch=self.nodes[j].epoch)",
    ),
    Mutant(
        "failure keeps the lock",
        "self.nodes[j] = Node(opmode=INIT)",
        "self.nodes[j] = Node(INIT, self.nodes[j].lmode, self.nodes[j].holder)",
    ),
    Mutant(
        "stop loses the write number",
        "Client(next_number=self.clients[c].next_number)",
        "Client()",
    ),
    Mutant(
        "stop keeps its locks",
        "        self.expire_held(c)\n        # Its write number stays.",
        "        # Its write number stays.",
    ),
    Mutant(
        "stop unlocks",
        "        self.expire_held(c)\n        # Its write number stays.",
        "        self.give_back(c, self.clients[c].rebuild or Rebuild())\n"
        "        # Its write number stays.",
    ),
    Mutant(
        "recent entries only are counted",
        "return len(self.entries) == self.MAX_ENTRIES",
        "return len(self.recent_ids()) == self.MAX_ENTRIES",
    ),
    Mutant("17 entries", "MAX_ENTRIES = 16", "MAX_ENTRIES = 17"),
    Mutant("9 finished ids", "MAX_FINISHED = 8", "MAX_FINISHED = 9"),
    Mutant(
        "previous id must be recent",
        "and not node.lists(hand.previous)",
        "and hand.previous not in node.recent_ids()",
    ),
    Mutant("check keeps the previous id", "            hand.previous = None\n", ""),
    Mutant("check leaves done alone", "            hand.done.remove(j)\n", ""),
    Mutant(
        "GC only with a previous id",
        "if hand.previous is None or hand.previous not in recent:",
        "if hand.previous is not None and hand.previous not in recent:",
    ),
    Mutant(
        "drop clears the difference",
        "        client.hand = None\n        return ACCEPTED",
        "        client.hand = None\n"
        "        self.put_difference(c, bytes(self.sizes.B))\n"
        "        return ACCEPTED",
    ),
    Mutant(
        "swap in a round",
        "if client.hand is not None or client.sweeps > 0:",
        "if client.hand is not None:",
    ),
    Mutant("adds at any lmode but L1", "self.lmode in (UNL, L0)", "self.lmode == UNL"),
    Mutant(
        "quit gives back",
        "        self.lose(c)\n        return ACCEPTED",
        "        self.give_back(c, self.clients[c].rebuild)\n        return ACCEPTED",
    ),
]


AGE_MUTANTS = [
    Mutant(
        "a tick ages old entries",
        "            if e.recent:\n                e.age",
        "            if True:\n                e.age",
        "2 4 1 1 2, S 1 1 01, A 1 3, A 1 4, G 1 x5, K",
    ),
    Mutant(
        "a tick passes 255",
        "min(e.age + 1, Entry.MAX_AGE)",
        "e.age + 1",
        "2 4 1 1 2, S 1 1 01, K x256",
    ),
    Mutant("a tick stops at 254", "MAX_AGE = 255", "MAX_AGE = 254", "2 4 1 1 2, S 1 1 01, K x255"),
    Mutant(
        "a tick stops at the limit",
        "min(e.age + 1, Entry.MAX_AGE)",
        "min(e.age + 1, self.DUE_AGE)",
        "2 4 1 1 2, S 1 1 01, K x65",
    ),
    Mutant(
        "a tick ages the oldest entry only",
        "        for e in self.entries:\n            if e.recent:\n                e.age",
        "        for e in self.entries[:1]:\n            if e.recent:\n                e.age",
        "2 4 1 1 2, S 1 1 01, S 2 1 02, K",
    ),
    *[
        Mutant(
            f"a tick of {some} nodes only",
            "        for node in self.nodes.values():\n            node.tick()",
            f"        for j in self.{nodes}():\n            self.nodes[j].tick()",
            "2 4 1 1 2, S 1 1 01, A 1 3, K",
        )
        for some, nodes in [("data", "positions"), ("redundant", "redundant_nodes")]
    ],
    *[
        Mutant(
            f"a tick passes over {mode}",
            "            node.tick()\n",
            f"            if {mode} not in (node.opmode, node.lmode):\n"
            "                node.tick()\n",
            f"2 4 1 1 2, S 1 1 01, A 1 3, {calls}, K",
        )
        for mode, calls in [("L1", "L 2"), ("L0", "L 2 x4, O 2"), ("EXP", "L 2, Q 2"), ("RECONS", "L 2 x4, P 2, W 2")]
    ],
    Mutant(
        "a swap ages",
        "        node.enter(id)\n",
        "        node.tick()\n        node.enter(id)\n",
        "2 4 1 1 2, S 1 1 01, S 2 1 02",
    ),
    Mutant(
        "an add ages",
        "        node.enter(hand.id)\n",
        "        node.tick()\n        node.enter(hand.id)\n",
        "2 4 1 1 2, S 1 1 01, A 1 3, S 2 2 02, A 2 3",
    ),
    Mutant(
        "marking forgets the age",
        "                e.recent = False",
        "                e.recent, e.age = False, 0",
        "2 4 1 1 2, S 1 1 01, A 1 3, A 1 4, K, G 1 x5",
    ),
    Mutant("due at 63", "DUE_AGE = 64", "DUE_AGE = 63", "2 4 1 1 2, S 1 1 01, K x63, Z 1"),
    Mutant("due at 65", "DUE_AGE = 64", "DUE_AGE = 65", "2 4 1 1 2, S 1 1 01, K x64, Z 1"),
    Mutant(
        "due by old entries",
        "any(e.recent and e.age >= self.DUE_AGE",
        "any(e.age >= self.DUE_AGE",
        "2 4 1 1 2, S 1 1 01, A 1 3, A 1 4, K x64, G 1 x5, Z 1",
    ),
]


READ_MUTANTS = [
    Mutant(
        "the spare reported as live",
        SPARE_SHOWN,
        SPARE_SHOWN.replace("SPARE", "LIVE"),
        f"2 4 1 1 2, {PICK}, R 1",
    ),
    Mutant(
        "the live table reported as the spare",
        LIVE_SHOWN,
        LIVE_SHOWN.replace("LIVE", "SPARE"),
        "2 4 1 1 2, R 1",
    ),
    Mutant(
        "one node held is enough",
        "has_picked() and self.holds_all_at_L1(c)",
        "has_picked()",
        f"2 4 1 1 2, {PICK}, N 4 00, R 1",
    ),
    Mutant(
        "all data nodes held are enough",
        "has_picked() and self.holds_all_at_L1(c)",
        "has_picked() and all(self.nodes[i].held_by(c) for i in self.positions())",
        f"2 4 1 1 2, {PICK}, N 4 00, R 1",
    ),
    Mutant(
        "nodes of another client count as held",
        "has_picked() and self.holds_all_at_L1(c)",
        "has_picked() and all(node.lmode == L1 for node in self.nodes.values())",
        f"2 4 1 1 2, {PICK}, N 1 00, L 2, R 2",
    ),
    Mutant(
        "another client's pick counts",
        "self.clients[c].has_picked() and",
        "any(client.has_picked() for client in self.clients.values()) and",
        "2 4 1 1 2, L 2 x4, P 2, N 1 00, N 2 00, N 3 00, N 4 00, L 1 x4, R 1",
    ),
    Mutant(
        "the spare shown after the first unlock",
        "has_picked() and self.holds_all_at_L1(c)",
        "has_picked() and (self.clients[c].in_phase(UNLOCKING) or self.holds_all_at_L1(c))",
        f"2 4 1 1 2, {PICK}, W 1 x4, T 1 x4, U 1, R 2",
    ),
    *[
        Mutant(
            f"4 kept in the {phase} phase",
            "phase in (WRITING, SETTLING, UNLOCKING)",
            f"phase in ({others})",
            f"2 4 1 1 2, {PICK}{calls}, R 1",
        )
        for phase, others, calls in [
            ("write", "SETTLING, UNLOCKING", ""),
            ("settle", "WRITING, UNLOCKING", ", W 1 x4"),
            ("unlock", "WRITING, SETTLING", ", W 1 x4, T 1 x4"),
        ]
    ],
    *[
        Mutant(
            f"4 kept of {opmode} nodes",
            "if self.lets_read_spare(node.holder):",
            f"if node.opmode != {opmode} and self.lets_read_spare(node.holder):",
            f"2 4 1 1 2, {calls}, R 1",
        )
        for opmode, calls in [("NORM", PICK), ("RECONS", f"{PICK}, W 1"), ("INIT", f"N 1 00, {PICK}")]
    ],
    Mutant(
        "4 kept beside an INIT node",
        "if self.lets_read_spare(node.holder):",
        "if not self.with_opmode(INIT) and self.lets_read_spare(node.holder):",
        f"2 4 1 1 2, N 4 00, {PICK}, R 1",
    ),
    Mutant(
        "a redundant node's block shown",
        "        if not self.is_position(i):\n",
        "        if not self.is_node(i):\n",
        f"2 4 1 1 2, {PICK}, R 3",
    ),
]

READ_AT_L0 = Mutant(
    "a node held at L0 is enough",
    "has_picked() and self.holds_all_at_L1(c)",
    "has_picked() and self.holds_all(c)",
)


VOLUME_MUTANTS = [
    Mutant(
        "rotation reversed",
        "(card - 1 - s) % n + 1",
        "(card - 1 + s) % n + 1",
        "2 2 4 1 0 1, NC 1 1122, ? 1",
    ),
    Mutant(
        "rotation by s + 1",
        "(card - 1 - s) % n + 1",
        "(card - 1 - (s + 1)) % n + 1",
        "1 2 4 1 0 1, NC 1 11, ? 0",
    ),
    Mutant(
        "the same node of every stripe",
        "(card - 1 - s) % n + 1",
        "card",
        "2 2 4 1 0 1, NC 1 1122, ? 1",
    ),
    Mutant(
        "the first bytes for all stripes",
        "value[s * B : (s + 1) * B]",
        "value[:B]",
        "2 2 4 1 0 1, NC 1 1122, ? 1",
    ),
    Mutant(
        "bytes not in stripe order",
        "for stripe, j, part in zip(self.stripes, nodes, parts)",
        "for stripe, j, part in zip(self.stripes, nodes, parts[::-1])",
        "2 2 4 1 0 1, NC 1 1122, ? 0",
    ),
    Mutant(
        "longer values at a card's failure",
        "if len(value) != stripes * B:",
        "if len(value) < stripes * B:",
        "2 2 4 1 0 1, NC 1 112233",
    ),
    Mutant("card 0", "if 1 <= card <= n else 0", "if 0 <= card <= n else 0", "2 2 4 1 0 1, NC 0 1122"),
    Mutant(
        "card n + 1",
        "if 1 <= card <= n else 0",
        "if 1 <= card <= n + 1 else 0",
        "2 2 4 1 0 1, NC 5 1122",
    ),
    Mutant(
        "2 before 1 at a card's failure",
        "        if len(value) != stripes * B:\n            return Answer(1)\n",
        "        if node_on(n, 0, card) == 0:\n            return Answer(2)\n"
        "        if len(value) != stripes * B:\n            return Answer(1)\n",
        "2 2 4 1 0 1, NC 5 11",
    ),
    Mutant(
        "a stop in stripe 0 only",
        "for stripe in self.stripes)\n",
        "for stripe in self.stripes[:1])\n",
        "2 2 4 1 0 1, SB 1 2 01, CC 1, ? 1",
    ),
    Mutant(
        "2 before 1 on a stripe",
        "        if not all(len(value) == self.sizes.stripe.B for value in values_of(call)):\n"
        "            return Answer(1)\n"
        "        if not self.is_stripe(s):\n"
        "            return Answer(2)\n",
        "        if not self.is_stripe(s):\n"
        "            return Answer(2)\n",
        "2 2 4 1 0 1, 2 S 1 1 0102",
    ),
    Mutant(
        "every call on stripe 0",
        "return answer_of(self.stripes[s], call)",
        "return answer_of(self.stripes[0], call)",
        "2 2 4 1 0 1, 1 S 1 1 01, ? 1",
    ),
    Mutant(
        "a tick of every stripe",
        "        return answer_of(self.stripes[s], call)",
        "        if call.name == 'tick':\n"
        "            return one_answer(stripe.tick() for stripe in self.stripes)\n"
        "        return answer_of(self.stripes[s], call)",
        "2 2 4 1 0 1, 0 S 1 1 01, 1 K, ? 0",
    ),
    Mutant(
        "stripes counted around",
        "        if not self.is_stripe(s):\n"
        "            return Answer(2)\n"
        "        return answer_of(self.stripes[s], call)",
        "        return answer_of(self.stripes[s % self.sizes.stripes], call)",
        "2 2 4 1 0 1, 2 R 1",
    ),
    Mutant(
        "one stripe for all",
        "self.stripes = stripes\n",
        "self.stripes = stripes[:1] * len(stripes)\n",
        "2 2 4 1 0 1, 0 L 1, ? 1",
    ),
    *[
        Mutant(
            f"the {records} of stripe 0",
            "self.stripes = stripes\n",
            "self.stripes = stripes\n"
            "        for stripe in stripes:\n"
            f"            stripe.{records} = stripes[0].{records}\n",
            "2 2 4 1 0 1, 1 S 1 1 01, ? 0",
        )
        for records in ["nodes", "clients", "blocks", "differences"]
    ],
    Mutant(
        "a block of the live table only",
        '        return self.on_stripe(s, Call("read", (i,)))\n',
        '        answer = self.on_stripe(s, Call("read", (i,)))\n'
        "        shows_spare = answer.accepted and answer.value.table == 'spare'\n"
        "        return Answer(4, ('NORM', 'L1')) if shows_spare else answer\n",
        "2 2 4 1 0 1, 1 L 1 x4, 1 P 1, RB 2",
    ),
    Mutant("position without the 1", "b // k, b % k + 1", "b // k, b % k", "2 2 4 1 0 1, SB 1 1 01, ? 0"),
    Mutant("home by position", "b // k, b % k + 1", "b % k, b // k + 1", "2 2 4 1 0 1, SB 1 1 01, ? 0"),
]

VOLUME_LIMITS = [
    Mutant("1,025 stripes", "MAX_STRIPES = 1024", "MAX_STRIPES = 1025", "1025 2 4 1 0 1, RB 0"),
    Mutant("1,023 stripes", "MAX_STRIPES = 1024", "MAX_STRIPES = 1023", "1024 2 4 1 0 1, RB 0"),
]


# Lists for an image's mutants.
WRITTEN = "2 4 1 1 2, S 1 1 01, S 2 1 02, M"
SWEPT = "2 4 1 1 2, S 1 1 01, A 1 3, A 1 4, S 2 1 02, G 1 x12, M"
RELOCKED = "2 4 1 1 2, L 1 x2, Q 1, L 2 x3, M"
PICKED = "2 4 1 1 2, L 1 x4, P 1, W 1 x4, T 1 x4, U 1 x4, L 1 x4, P 1, W 1"

IMAGE_MUTANTS = [
    Mutant("high byte first", '"little")\n\n\ndef set_word', '"big")\n\n\ndef set_word', "2 4 1 1 2, M"),
    # Slots that a program keeps past the count, as shifting up leaves them, or as the buffer had them.
    Mutant(
        "a slot past the count copied",
        'b"".join(parts).ljust(',
        'b"".join(parts + parts[-1:])[: count * width].ljust(',
        SWEPT,
    ),
    Mutant(
        "zeros not written",
        "    buffer[: len(image)] = image\n",
        "    buffer[: len(image)] = bytes(new or old for new, old in zip(image, buffer))\n",
        "2 4 1 1 2, M",
    ),
    Mutant("no count of a list", "return byte(len(parts)) + ", "return byte(0) + ", WRITTEN),
    Mutant(
        "entries from the last",
        "for entry in node.entries]",
        "for entry in node.entries[::-1]]",
        WRITTEN,
    ),
    Mutant("the previous id left out", "byte(1) + id_bytes(previous)", "byte(1) + bytes(ID)", WRITTEN),
    Mutant(
        "that there is a previous id left out",
        "byte(1) + id_bytes(previous)",
        "byte(0) + id_bytes(previous)",
        WRITTEN,
    ),
    Mutant("an empty hand's bytes left out", "        return bytes(22)\n", "        return b''\n", "2 4 1 1 2, M"),
    *[
        Mutant(
            f"{first} and {second} exchanged",
            f"        bytes(stripe.{first}),\n        bytes(stripe.{second}),\n",
            f"        bytes(stripe.{second}),\n        bytes(stripe.{first}),\n",
            "2 4 1 1 2, M",
        )
        for first, second in [("blocks", "differences"), ("differences", "spare")]
    ],
    Mutant("offsets from the header's end", "    offset = HEADER\n", "    offset = 0\n", "2 4 1 1 2, M"),
    Mutant(
        "marks dropped",
        "byte(0 if entry.recent else 1)",
        "byte(0)",
        "2 4 1 1 2, S 1 1 01, A 1 3, A 1 4, G 1 x8, M",
    ),
    Mutant("ages dropped", "byte(entry.age)", "byte(0)", "2 4 1 1 2, S 1 1 01, K, M"),
    Mutant("holders dropped", "node.holder or 0]", "0]", RELOCKED),
    Mutant("rsets dropped", "set_word(node.rset)", "set_word([])", f"{PICKED}, M"),
    Mutant("sets from bit 1", "1 << (j - 1) for", "1 << j for", WRITTEN),
    Mutant("remembered lmodes dropped", "if lmode == EXP}", "if False}", RELOCKED),
    Mutant(
        "how many nodes are locked dropped",
        "        node = rebuild.count\n",
        "        node = 0\n",
        RELOCKED,
    ),
    Mutant(
        "lmodes remembered past the lock phase",
        "    if phase == WRITING:\n",
        "    if phase == PICKING:\n"
        "        members = {j for j, lmode in enumerate(rebuild.old_lmodes, start=1) if lmode == EXP}\n"
        "    if phase == WRITING:\n",
        "2 4 1 1 2, L 1 x2, Q 1, L 2 x4, M",
    ),
    Mutant(
        "untightened nodes dropped",
        "        node = min(rebuild.untightened, default=0)\n",
        "        node = 0\n",
        "2 4 1 1 2, L 1 x4, O 1, I 1, M",
    ),
    Mutant(
        "the node before the next one",
        "        node = rebuild.count + 1\n",
        "        node = rebuild.count\n",
        f"{PICKED}, M",
    ),
    Mutant("the set picked dropped", "        members = rebuild.chosen\n", "        pass\n", f"{PICKED}, M"),
    Mutant(
        "the set picked kept past its phase",
        "    if phase == WRITING:\n",
        "    if phase in (WRITING, SETTLING):\n",
        f"{PICKED}, W 1 x3, T 1, M",
    ),
    Mutant(
        "E in the write phase only",
        "if phase in (WRITING, SETTLING):",
        "if phase == WRITING:",
        f"{PICKED}, W 1 x3, M",
    ),
    Mutant(
        "E kept past its phases",
        "if phase in (WRITING, SETTLING):",
        "if phase in (WRITING, SETTLING, UNLOCKING):",
        f"{PICKED}, W 1 x3, T 1 x4, M",
    ),
    Mutant("rounds dropped", "byte(client.sweeps)", "byte(0)", "2 4 1 1 2, G 1, M"),
    Mutant(
        "finished and moved exchanged",
        "for ids in (client.finished, client.moved))",
        "for ids in (client.moved, client.finished))",
        "2 4 1 1 2, S 1 1 01, A 1 3, A 1 4, M",
    ),
]

IMAGE_REFUSALS = [
    Mutant(
        "a longer buffer accepted",
        "len(buffer) != length(stripe.sizes)",
        "len(buffer) < length(stripe.sizes)",
    ),
    Mutant(
        "a shorter buffer accepted",
        "len(buffer) != length(stripe.sizes)",
        "len(buffer) > length(stripe.sizes)",
    ),
    Mutant(
        "a refused call that wrote the header",
        "        return Answer(1)\n",
        "        buffer[: HEADER] = header([bytes(length) for length in lengths(stripe.sizes)])[: len(buffer)]\n"
        "        return Answer(1)\n",
    ),
    Mutant(
        "a refused call that cleared the buffer",
        "        return Answer(1)\n",
        "        buffer[:] = bytes(len(buffer))\n"
        "        return Answer(1)\n",
    ),
    Mutant("sizes not looked at", "stripe.sizes.permitted() and ", ""),
    Mutant("lengths of tables not looked at", "limits.tables_within(stripe) and ", ""),
    Mutant("records not looked at", " and limits.within(stripe)", ""),
]


# Edits of a stripe of k=2, n=4, B=1, t_d=1, m=2 that leave it outside the limits; client 1 writes, client 2 locks.
OUTSIDE = [
    *[f"stripe.sizes = Sizes{sizes}" for sizes in [(2, 4, 1, 3, 2), (4, 4, 1, 0, 2), (1, 4, 1, 1, 2)]],
    *[f"stripe.{table}.append(0)" for table in ["blocks", "spare", "differences"]],
    *[f"stripe.{table}.pop()" for table in ["blocks", "spare", "differences"]],
    *[f"stripe.{records}.popitem()" for records in ["nodes", "clients"]],
    *[f"stripe.{records}[{number}] = stripe.{records}[1]" for records, number in [("nodes", 5), ("clients", 3)]],
    *["stripe.nodes[3].opmode = 'UNL'", "stripe.nodes[3].lmode = 'NORM'"],
    *["stripe.nodes[3].holder = 1", "stripe.nodes[3].holder = 0"],
    *[f"stripe.nodes[1].holder = {holder}" for holder in (3, 0, None)],
    *["stripe.nodes[3].epoch = 1_000_001", "stripe.nodes[3].rset = {5}", "stripe.nodes[3].rset = {0}"],
    *["stripe.nodes[1].entries *= 17", "stripe.nodes[1].entries[0].age = 256"],
    *[f"stripe.nodes[1].entries[0].id = WriteId{id}" for id in [(3, 1, 0), (0, 1, 0), (1, 3, 0), (1, 1, 1_000_000)]],
    *["stripe.clients[1].hand.position = 2", "stripe.clients[1].hand.id = WriteId(3, 1, 0)"],
    *["stripe.clients[1].hand.previous = WriteId(1, 3, 0)", "stripe.clients[1].hand.epoch = 1_000_001"],
    *["stripe.clients[1].hand.done = {1, 5}", "stripe.clients[1].finished = [WriteId(1, 1, 0)] * 8"],
    *["stripe.clients[2].finished = [WriteId(1, 1, 0)] * 9", "stripe.clients[2].moved = [WriteId(1, 1, 0)] * 9"],
    *["stripe.clients[2].finished = [WriteId(0, 1, 0)]", "stripe.clients[2].moved = [WriteId(1, 0, 0)]"],
    *["stripe.clients[2].sweeps = 8", "stripe.clients[2].next_number = 1_000_001"],
    *["stripe.clients[2].rebuild.count = 2", "stripe.clients[2].rebuild.old_lmodes = ['L0']"],
    *[f"stripe.clients[2].rebuild = Rebuild('lock', {count}, ['UNL'] * {count})" for count in (0, 4)],
    *[f"stripe.clients[2].rebuild = Rebuild('pick', untightened={nodes})" for nodes in ([3], [2, 3, 4])],
    *[f"stripe.clients[2].rebuild = Rebuild('{phase}', 4)" for phase in ("write", "settle", "unlock")],
    *["stripe.clients[2].rebuild = Rebuild('write', 0, chosen={5})", "stripe.clients[2].rebuild = Rebuild('none', 0)"],
    *[f"stripe.clients[2].rebuild = Rebuild('{phase}', 0, E=1_000_000)" for phase in ("write", "settle")],
]


def mutated(mutant, source=STRIPE):
    """The module with the mutant's edit."""
    if source.count(mutant.old) != 1:
        raise ValueError(f"{mutant.name}: the text to edit does not occur once")
    module = types.ModuleType("mutant")
    exec(source.replace(mutant.old, mutant.new), module.__dict__)
    return module


def stripe_maker(module):
    """striperun.new_stripe, for another stripe module."""

    def new_stripe(sizes):
        fresh = striperun.new_stripe(sizes)
        return module.Stripe(module.Sizes(*sizes), fresh.spare, fresh.differences)

    return new_stripe


def breaks_claim(module, lines):
    try:
        guarantee.replay(lines, stripe_maker(module))
    except guarantee.Broken:
        return True
    return False


def goes_apart(module, lines):
    """Whether a stripe's calls, made alone, give something else."""
    try:
        list(takenout.run(lines, module.Volume))
    except takenout.Apart:
        return True
    return False


def refuses_at_L0(module):
    """Whether no block is shown, past a pick, where a node is held at L0; no list reaches that."""
    for calls, j in product(["", ", W 1 x4", ", W 1 x4, T 1 x4"], range(1, 5)):
        stripe = stripe_maker(module)(Sizes(2, 4, 1, 1, 2))
        for line in spelled_out(f"{PICK}{calls}"):
            answer_of(stripe, read_call(line))
        stripe.nodes[j].set_lock(L0, 1)
        if any(stripe.read(i).number != 4 for i in (1, 2)):
            return False
    return True


def differs(module, lines):
    """Whether striperun's output differs."""
    return unequal(striperun.run(lines), striperun.run(lines, stripe_maker(module)))


def volume_differs(module, lines):
    """Whether volumerun's output differs."""
    return unequal(volumerun.run(lines), volumerun.run(lines, module.Volume))


def image_differs(module, lines):
    """Whether striperun's output differs, with another writer of images."""
    return unequal(striperun.run(lines), striperun.run(lines, write=module.write))


def stripes_shown(lines):
    """A copy of the stripe at each M of a list."""
    sizes, *lines = lines
    stripe = striperun.new_stripe(striperun.read_sizes(sizes))
    shown = []
    for line in lines:
        if line == striperun.IMAGE_LINE:
            shown.append(copy.deepcopy(stripe))
        answer_of(stripe, read_call(line))
    return shown


def writes_otherwise(module, stripes):
    return any(striperun.image_shown(s, module.write) != striperun.image_shown(s, image.write) for s in stripes)


def misreads(module, stripes):
    """Whether some image is not read back as the state it is of."""
    return not all(is_read_back(module, stripe) for stripe in stripes)


def is_read_back(module, stripe):
    buffer = bytearray(striperun.IMAGE_BYTE * image.length(stripe.sizes))
    if not module.write(stripe, buffer).accepted:
        return False
    try:
        return image.state(image.read(bytes(buffer))) == image.state(stripe)
    except (image.NoImage, AssertionError, IndexError):
        return False


def refuses(module):
    """Whether the writer refuses what it must, and leaves the buffer as it was."""
    return all(is_refused(module, stripe, length) for stripe, length in refused())


def is_refused(module, stripe, length):
    before = striperun.IMAGE_BYTE * length
    buffer = bytearray(before)
    try:
        answer = module.write(stripe, buffer)
    except Exception:
        return False
    return answer == Answer(1) and buffer == before


def refused():
    """Stripes and lengths of buffers: lengths that are another image's or none, then what is outside the limits."""
    for sizes in [Sizes(2, 3, 1, 1, 1), Sizes(2, 4, 3, 1, 2), Sizes(12, 18, 4096, 6, 8)]:
        stripe = striperun.new_stripe(sizes)
        length = image.length(sizes)
        for other in [0, 1, image.HEADER, length - 1, length + 1, length + 140, 2 * length]:
            yield stripe, other
    for edit in OUTSIDE:
        stripe = striperun.new_stripe(Sizes(2, 4, 1, 1, 2))
        for line in spelled_out("S 1 1 01, L 2"):
            answer_of(stripe, read_call(line))
        exec(edit)
        yield stripe, image.length(stripe.sizes)


def unequal(expected, got):
    return any(a != b for a, b in zip(expected, got))


def check_breaking(mutant):
    """Its own list, if any, breaks the claim of the mutant and not of the machine."""
    mutated(mutant)
    if mutant.own:
        guarantee.replay(spelled_out(mutant.own))
        check_noticed(mutant, STRIPE, breaks_claim)


def check_noticed(mutant, source, notices):
    """By its own list."""
    if not notices(mutated(mutant, source), list(spelled_out(mutant.own))):
        raise Unnoticed(mutant.name)


def unnoticed(mutants, source, scripts, differs, breaks, text):
    """The names of those that no list notices; prints a line for each."""
    names = []
    for mutant in mutants:
        module = mutated(mutant, source)
        noticed = sum(differs(module, lines) for lines in scripts)
        broken = sum(breaks(module, lines) for lines in scripts)
        print(f"{mutant.name}: of {len(scripts)} lists {noticed} notice, {broken} {text}", flush=True)
        if noticed == 0:
            names.append(mutant.name)
    return names


def check_own_lists():
    for mutant in MUTANTS:
        check_breaking(mutant)
    for mutant in AGE_MUTANTS + READ_MUTANTS:
        check_noticed(mutant, STRIPE, differs)
    if refuses_at_L0(mutated(READ_AT_L0)):
        raise Unnoticed(READ_AT_L0.name)
    for mutant in VOLUME_MUTANTS + VOLUME_LIMITS:
        check_noticed(mutant, VOLUME, volume_differs)
    for mutant in VOLUME_MUTANTS:
        check_noticed(mutant, VOLUME, goes_apart)
    for mutant in IMAGE_MUTANTS:
        check_noticed(mutant, IMAGE, image_differs)
    for mutant in IMAGE_REFUSALS:
        if refuses(mutated(mutant, IMAGE)):
            raise Unnoticed(mutant.name)


def main():
    options = argparse.ArgumentParser(description="wrong machines, volumes and images, and who notices them")
    options.add_argument("--seed", type=int, default=1)
    options.add_argument("--lists", type=int, default=20)
    options = options.parse_args()
    seeds = range(options.seed, options.seed + options.lists)
    scripts = [list(lists.stripe_script(seed, 2000)) for seed in seeds]
    volume_scripts = [list(volumelists.volume_script(seed, 1000)) for seed in seeds]
    check_own_lists()
    stripes = MUTANTS + AGE_MUTANTS + READ_MUTANTS
    names = unnoticed(stripes, STRIPE, scripts, differs, breaks_claim, "break the claim")
    names += unnoticed(VOLUME_MUTANTS, VOLUME, volume_scripts, volume_differs, goes_apart, "go apart")
    shown = [stripes_shown(lines) for lines in scripts]
    names += unnoticed(IMAGE_MUTANTS, IMAGE, shown, writes_otherwise, misreads, "are not read back")
    if names:
        raise Unnoticed(", ".join(names))


if __name__ == "__main__":
    main()
