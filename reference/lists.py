"""Random scripts for striperun and shelfrun.

    lists.py --seed S --calls N [--sizes k,n,B,td,m]    a striperun script
    lists.py --shelf --seed S --lines N                 shelfrun input, about a tenth of its lines damaged
    lists.py ... --long writes|epochs                   first up to the limit of 1,000,000, then N calls
    lists.py ... --count                                to standard error: how often each answer occurs

The author of a script drives the machine, so that it knows what is plausible
next: most rebuilds that begin also finish, and stops, failures, resumed
rebuilds, full lists and late adds occur often. Where the program knows ticks,
nodes come due by age, and ages reach 255. Reads come at any time, most of them
while a rebuild runs. Now and then, and at the end, a line M asks for the image,
which only striperun shows. The same options give the same script.
"""

import argparse
import copy
import random
import sys
from collections import Counter

from answers import ACCEPTED
from script import FORMS, SHELF_FORMS, answer_of, read_call
from shelfrun import SIZES as SHELF_SIZES
from stripe import EXP, LOCKING, NORM, PICKING, SETTLING, UNLOCKING, WRITING
from stripe import Entry, Node, Sizes
from striperun import IMAGE_LINE, new_stripe

LETTERS = {name: letter for letter, (name, _, _) in FORMS.items()}
WITH_NUMBERS = [name for name, count, _ in FORMS.values() if count > 0]

# What a client with nothing begun does next, by mood: weights.
MOODS = [
    {"swap": 80, "sweep": 8, "lock": 4, "read": 8},  # writing
    {"swap": 95, "read": 5},  # crowding: lists become full
    {"lock": 75, "swap": 20, "read": 5},  # rebuilding
    {"sweep": 60, "swap": 35, "lock": 5},  # tidying
]
WRITING_MOOD, CROWDING_MOOD, REBUILDING_MOOD, TIDYING_MOOD = MOODS


def text(name, *arguments, letters=LETTERS):
    """The line of a call."""
    fields = [letters[name]]
    for argument in arguments:
        fields.append(argument.hex().upper().encode() if isinstance(argument, bytes) else b"%d" % argument)
    return b" ".join(fields)


def is_idle(client):
    return client.hand is None and client.rebuild is None and client.sweeps == 0


class Author:
    def __init__(self, stripe, rng, damaged, arbitrary, forms=FORMS):
        """Damaged, arbitrary: the shares of damaged lines and of arbitrary calls. Forms: the program's."""
        self.stripe = stripe
        self.forms = forms
        self.rng = rng
        self.damaged = damaged
        self.arbitrary = arbitrary
        self.actor = 1
        self.mood = WRITING_MOOD
        self.mood_left = 0
        self.plan = []  # lines to come first
        self.answers = Counter()

    def chance(self, share):
        return self.rng.random() < share

    def play(self, line):
        """Makes the call of the line. A damaged line may hold an LF."""
        for part in line.split(b"\n"):
            self.answers[self.answer(part).number] += 1

    def answer(self, line):
        if line == IMAGE_LINE and self.forms is FORMS:
            return ACCEPTED
        return answer_of(self.stripe, read_call(line, self.forms))

    def lines(self, count):
        """In the last tenth, calls that nothing restores are let through."""
        for at in range(count):
            line = self.line()
            if at < count * 9 // 10 and self.endangers(read_call(line)):
                line = text("read", self.position())
            self.play(line)
            yield line

    def line(self):
        if self.chance(self.damaged):
            return damage(self.rng, self.plausible_call())
        return self.next_call()

    def image_line(self, rng):
        return IMAGE_LINE

    def read_share(self):
        """How many of the lines are now followed by a read."""
        if any(client.has_picked() for client in self.stripe.clients.values()):
            return 0.25
        return 0.02 if self.all_free() else 0.1

    def read_line(self, rng):
        """A read of some position, or of a number that is near one."""
        k, n = self.stripe.sizes.k, self.stripe.sizes.n
        return text("read", rng.randint(0, n + 1) if rng.random() < 0.05 else rng.randint(1, k))

    def next_call(self):
        if self.chance(0.02):
            return text("due", self.odd_number(self.stripe.sizes.n))
        if self.plan and self.chance(0.98):
            return self.plan.pop(0)
        if self.chance(self.arbitrary):
            return self.arbitrary_call()
        if not self.plan and self.chance(0.05 if self.all_free() else 0.01):
            self.plan = self.new_plan()
        return self.plausible_call()

    # ------------------------------------------------------- arguments

    def client(self):
        return self.rng.randint(1, self.stripe.sizes.m)

    def node(self):
        return self.rng.randint(1, self.stripe.sizes.n)

    def position(self):
        """Position 1 in half of all cases: writes then meet each other."""
        return 1 if self.chance(0.5) else self.rng.randint(1, self.stripe.sizes.k)

    def value(self):
        B = self.stripe.sizes.B
        return bytes(B) if self.chance(0.05) else self.rng.randbytes(B)

    def odd_number(self, highest):
        """A number in range or near it, or a huge one."""
        if self.chance(0.05):
            return self.rng.choice([255, 256, 257, 65536, 2**32, 2**32 + 1, 2**64, 2**64 + 1, 10**40 + 1])
        return self.rng.randint(0, highest + 1)

    def odd_value(self):
        length = self.stripe.sizes.B
        if self.chance(0.2):
            length = self.rng.choice([length - 1, length + 1, 2 * length, 1])
        return self.rng.randbytes(length)

    # ---------------------------------------------------------- calls

    def arbitrary_call(self):
        """Any call with numbers, some of them out of range, some values of wrong length."""
        sizes = self.stripe.sizes
        name = self.rng.choice(WITH_NUMBERS)
        if name in ("read", "due"):
            return text(name, self.odd_number(sizes.n))
        if name == "fail":
            return text(name, self.odd_number(sizes.n), self.odd_value())
        if name == "swap":
            return text(name, self.odd_number(sizes.m), self.odd_number(sizes.k), self.odd_value())
        if name in ("add", "check"):
            return text(name, self.odd_number(sizes.m), self.odd_number(sizes.n))
        return text(name, self.odd_number(sizes.m))

    def plausible_call(self):
        self.change_mood()
        if LETTERS["tick"] in self.forms and self.chance(0.04):
            return self.pass_time()
        if self.chance(1 / (8 * self.stripe.sizes.n)):
            return self.trouble()
        self.choose_actor()
        c = self.actor
        client = self.stripe.clients[c]
        if client.rebuild is not None and not (client.hand and self.chance(0.1)):
            return self.go_on_rebuilding(c, client.rebuild)
        if client.hand is not None:
            return self.go_on_writing(c, client.hand)
        if client.sweeps > 0:
            return text("sweep", c)
        return self.begin(c)

    def choose_actor(self):
        """Mostly a client whose rebuild is under way, else the one before."""
        rebuilding = [c for c, client in self.stripe.clients.items() if client.rebuild]
        if rebuilding and self.chance(0.7):
            self.actor = self.rng.choice(rebuilding)
        elif self.chance(0.1):
            self.actor = self.client()

    def all_free(self):
        return all(node.is_free() for node in self.stripe.nodes.values())

    def wants_rebuild(self):
        return any(node.opmode != NORM or node.lmode == EXP for node in self.stripe.nodes.values())

    def change_mood(self):
        self.mood_left -= 1
        if self.mood_left < 0:
            self.mood = self.rng.choice(MOODS)
            self.mood_left = self.rng.randint(30, 120)

    def trouble(self):
        c = self.client()
        calls = [
            text("stop", c),
            text("stop", self.actor),
            text("quit", self.actor),
            text("fail", self.node(), self.value()),
            text("fail", self.node(), self.value()),
            text("lock", c),
        ]
        return self.rng.choice(calls)

    def begin(self, c):
        self.actor = c = c if self.chance(0.6) else self.client()
        if self.wants_rebuild() and self.chance(0.5):
            return text("lock", c)
        name = self.rng.choices(list(self.mood), list(self.mood.values()))[0]
        if name == "swap":
            return text(name, c, self.position(), self.value())
        if name == "read":
            return text(name, self.position())
        return text(name, c)

    def go_on_writing(self, c, hand):
        if self.mood is CROWDING_MOOD and self.chance(0.5):
            return text("drop", c)
        if self.mood is REBUILDING_MOOD and self.chance(0.5):
            self.actor = self.client()
            return text("lock", self.actor)
        if self.chance(0.15):
            return text("check", c, self.rng.choice(sorted(hand.done) or [1]))
        missing = [j for j in self.stripe.redundant_nodes() if j not in hand.done]
        if not missing or self.chance(0.03):
            return text("drop", c)
        j = self.rng.choice(missing)
        if self.stripe.nodes[j].epoch > hand.epoch and self.chance(0.5):
            return text("drop", c)
        if not self.stripe.nodes[j].takes_adds() and self.chance(0.7):
            self.actor = self.client()
            return text("lock", self.actor)
        return text("add", c, j)

    def go_on_rebuilding(self, c, rebuild):
        names = {LOCKING: "lock", WRITING: "write", SETTLING: "settle", UNLOCKING: "unlock"}
        if rebuild.phase != PICKING:
            return text(names[rebuild.phase], c)
        if rebuild.untightened and self.chance(0.1):
            return text(self.rng.choice(["pick", "weaken"]), c)
        if rebuild.untightened:
            return text("tighten", c) if self.chance(0.5) else self.add_of_another(c)
        chosen, needed = self.stripe.choose()
        if len(chosen) >= needed:
            return text("pick" if self.chance(0.85) else "weaken", c)
        if self.chance(0.3):
            return self.remedy(c, chosen)
        return text(self.rng.choice(["pick", "weaken", "weaken"]), c)

    def add_of_another(self, c):
        """An add of some write in hand, which a weakened node accepts."""
        writers = [w for w, client in self.stripe.clients.items() if client.hand]
        if not writers:
            return text("tighten", c)
        w = self.rng.choice(writers)
        return text("add", w, self.rng.choice(self.stripe.redundant_nodes()))

    def remedy(self, c, chosen):
        """Too few agree: a failure outside the set lowers the slack."""
        others = sorted(self.stripe.with_opmode(NORM) - chosen)
        if self.stripe.slack() == 0 or not others or self.chance(0.2):
            return text("quit", c)
        return text("fail", self.rng.choice(others), self.value())

    # ---------------------------------------------------------- plans

    def new_plan(self):
        plans = [self.race, self.overtaken, self.late_failure, self.resume]
        if self.all_free() and self.chance(0.8):
            plans = [self.late_add, self.weakened_add, self.tidied_previous, self.half_marked]
            plans += [self.crowd, self.many_done, self.taken, self.left_over]
        plan = self.rng.choice(plans)(*self.two_clients())
        # A rebuild before it leaves no other write half done.
        return self.repair(self.client()) + plan if self.chance(0.5) else plan

    def two_clients(self):
        """Two idle clients if there are."""
        idle = [c for c, client in self.stripe.clients.items() if is_idle(client)]
        if len(idle) < 2:
            idle = list(self.stripe.clients) * 2
        return self.rng.sample(idle, 2)

    def n_times(self, name, c):
        return [text(name, c)] * self.stripe.sizes.n

    def up_to_n(self, name, c):
        return [text(name, c)] * self.rng.randint(1, self.stripe.sizes.n)

    def clean_position(self):
        """A position whose last write every redundant node has, if any."""
        clean = []
        for i in self.stripe.positions():
            last = self.stripe.nodes[i].last_recent_id()
            redundant = [self.stripe.nodes[j] for j in self.stripe.redundant_nodes()]
            if last is None or all(node.lists(last) for node in redundant):
                clean.append(i)
        return self.rng.choice(clean or [1])

    def done_write(self, c, i):
        adds = [text("add", c, j) for j in self.stripe.redundant_nodes()]
        return [text("swap", c, i, self.value())] + adds

    def sweep_round(self, c):
        return self.n_times("sweep", c) * 2

    def whole_rebuild(self, c):
        begun = self.locks_and_pick(c) + self.n_times("write", c)
        return begun + self.n_times("settle", c) + self.n_times("unlock", c)

    def locks_and_pick(self, c):
        return self.n_times("lock", c) + [text("pick", c)]

    def repair(self, c):
        """A whole rebuild; where too few agree, failures lower the slack before."""
        chosen, needed = self.stripe.choose()
        others = sorted(self.stripe.with_opmode(NORM) - chosen)
        lacking = max(0, needed - len(chosen))
        return [text("fail", j, self.value()) for j in others[:lacking]] + self.whole_rebuild(c)

    def race(self, c, d):
        """c loses locked nodes to d, and then meets d's lock."""
        lost = range(1, self.rng.randint(1, 2) + 1)
        failures = [text("fail", j, self.value()) for j in lost]
        begun = [text("lock", c)] * len(lost) + failures
        return begun + [text("lock", d)] * (len(lost) + 1) + [text("lock", c)]

    def overtaken(self, c, d):
        """c meets d's lock after nodes that d lost; they were perhaps EXP."""
        lost = range(1, self.rng.randint(1, 2) + 1)
        failures = [text("fail", j, self.value()) for j in lost]
        locks = [text("lock", c)] * len(lost)
        if self.chance(0.7):
            locks += [text("quit", c)] + locks
        return [text("lock", d)] * (len(lost) + 1) + failures + locks + [text("lock", c)]

    def taken(self, c, d):
        """c has picked, and loses nodes to d; one that is lost is read, and one that is perhaps not."""
        lost = range(1, self.rng.randint(1, 2) + 1)
        failures = [text("fail", j, self.value()) for j in lost]
        reads = [text("read", 1), text("read", self.stripe.sizes.k)]
        begun = self.locks_and_pick(c) + self.up_to_n("write", c) + reads + failures + reads
        return begun + [text("lock", d)] * len(lost) + reads + [text("lock", d)] + self.n_times("write", c)

    def left_over(self, c, d):
        """d has picked and its last node fails before the unlock; c locks all nodes and picks, and is read."""
        n = self.stripe.sizes.n
        finished = self.whole_rebuild(d)[:-1] + [text("fail", n, self.value())]
        read = text("read", self.position())
        return finished + self.n_times("lock", c) + [read, text("pick", c), read]

    def late_add(self, c, d):
        """c's adds come after d has left its rebuild half way."""
        swap, *adds = self.done_write(c, self.position())
        writes = [text("write", d)] * self.rng.randint(1, self.stripe.sizes.k)
        begun = self.locks_and_pick(d) + writes + [text("quit", d)]
        weakened = self.n_times("lock", d) + [text("weaken", d)] if self.chance(0.5) else []
        return [swap] + begun + weakened + adds

    def late_failure(self, c, d):
        """A node fails while c writes or settles."""
        failure = text("fail", self.node(), self.value())
        begun = self.locks_and_pick(c)
        if self.chance(0.5):
            return begun + self.up_to_n("write", c) + [failure] + self.n_times("write", c)
        begun += self.n_times("write", c) + self.up_to_n("settle", c)
        return begun + [failure] + self.n_times("settle", c)

    def resume(self, c, d):
        """c's rebuild ends half way, and d finishes it, perhaps after a failure."""
        begun = self.locks_and_pick(c)
        if self.chance(0.3):
            begun += self.n_times("write", c) + self.up_to_n("settle", c)
        else:
            begun += self.up_to_n("write", c)
        end = [text(self.rng.choice(["stop", "quit"]), c)]
        if self.chance(0.5):
            end.append(text("fail", self.node(), self.value()))
        return begun + end + self.whole_rebuild(d)

    def weakened_add(self, c, d):
        """d weakens, c adds what is missing, d tightens and picks."""
        swap, *adds = self.done_write(c, self.position())
        early = self.rng.randint(0, len(adds))
        weaken = self.n_times("lock", d) + [text("weaken", d)]
        tighten = [text("tighten", d)] * len(adds)
        return [swap] + adds[:early] + weaken + adds[early:] + tighten + [text("pick", d)]

    def tidied_previous(self, c, d):
        """d's write follows one of c, whose sweeps mark that old, then discard it."""
        i = self.clean_position()
        swap, *adds = self.done_write(d, i)
        early = self.rng.randint(0, len(adds))
        checks = [text("check", d, i)] if self.chance(0.5) else []
        begun = self.done_write(c, i) + [swap] + self.sweep_round(c) + checks + adds[:early]
        return begun + self.sweep_round(c) + adds[early:]

    def half_marked(self, c, d):
        """d picks while c has marked its finished id at some nodes only."""
        sweeps = self.n_times("sweep", c) + self.up_to_n("sweep", c)
        return self.done_write(c, self.clean_position()) + sweeps + self.locks_and_pick(d)

    def crowd(self, c, d):
        """d fills a list that has an entry marked old."""
        i = self.clean_position()
        swaps = [text("swap", d, i, self.value()), text("drop", d)] * 18
        return self.done_write(c, i) + self.sweep_round(c) + swaps

    def many_done(self, c, d):
        """c's finished list becomes full."""
        return self.done_write(c, self.clean_position()) * 10

    # ----------------------------------------------------------- time

    def pass_time(self):
        """A tick; now and then a time begins in which hardly anybody calls."""
        if not self.plan and self.chance(0.1):
            plans = [self.friday, self.late_sweep, self.quiet] if self.all_free() else [self.quiet]
            self.plan = self.rng.choice(plans)(*self.two_clients())
        return text("tick")

    def ticks_past(self, j):
        """Ticks until node j's oldest age is past the limit, or can't rise; it is asked around that."""
        age = max((e.age for e in self.stripe.nodes[j].entries if e.recent), default=0)
        last = Node.DUE_AGE if age < Node.DUE_AGE and self.chance(0.75) else Entry.MAX_AGE
        return [text("tick")] * (last - 3 - age) + [text("tick"), text("due", j)] * 4

    def friday(self, c, d):
        """d stops after its swap and some adds, perhaps beside a write of c that is marked old."""
        i = self.clean_position()
        swap, *adds = self.done_write(d, i)
        stopped = [swap] + self.rng.sample(adds, self.rng.randint(0, len(adds))) + [text("stop", d)]
        marked = self.done_write(c, i) + [text("tick")] + self.sweep_round(c) if self.chance(0.5) else []
        return marked + stopped + self.ticks_past(i)

    def late_sweep(self, c, d):
        """c's write comes due, and is so no more once it is marked old."""
        i = self.clean_position()
        swept = self.sweep_round(c) + [text("tick"), text("due", i)]
        return self.done_write(c, i) + self.ticks_past(i) + swept

    def quiet(self, c, d):
        """A node comes due as it is, of any opmode and lmode, one with old entries too if there is."""
        recent = [j for j, node in self.stripe.nodes.items() if node.recent_ids()]
        mixed = [j for j in recent if self.stripe.nodes[j].old_ids()]
        return self.ticks_past(self.rng.choice(mixed or recent)) if recent else []

    # --------------------------------------------------------- safety

    def endangers(self, call):
        """Whether the call leaves a stripe that no rebuild could restore."""
        if call is None or call.name not in ("swap", "add", "fail"):
            return False
        k, n = self.stripe.sizes.k, self.stripe.sizes.n
        if call.name != "fail" and len(self.stripe.with_opmode(NORM)) == n:
            return False
        if len(self.stripe.choose()[0]) < k:
            return False
        trial = copy.deepcopy(self.stripe)
        answer_of(trial, call)
        return len(trial.choose()[0]) < k


# -------------------------------------------------------------- damage


def damage(rng, line):
    """The line as a person, a cable or an attacker would damage it."""
    return rng.choice(DAMAGES)(rng, line)


def insert(rng, line, piece):
    at = rng.randint(0, len(line))
    return line[:at] + piece + line[at:]


def odd_byte(rng, line):
    return insert(rng, line, bytes([rng.choice([0, 9, 11, 12, 13, 27, 127, 128, 160, 194, 255])]))


def flipped_bit(rng, line):
    at = rng.randrange(len(line))
    return line[:at] + bytes([line[at] ^ 1 << rng.randrange(8)]) + line[at + 1 :]


def lost_byte(rng, line):
    at = rng.randrange(len(line))
    return line[:at] + line[at + 1 :]


def doubled_byte(rng, line):
    at = rng.randrange(len(line))
    return line[:at] + line[at : at + 1] + line[at:]


def carriage_return(rng, line):
    return line + b"\r"


def outer_space(rng, line):
    return rng.choice([b" " + line, line + b" ", line + b"\t"])


def other_gap(rng, line):
    return line.replace(b" ", rng.choice([b"  ", b"\t", b",", b"", b"\xa0", b"\0"]), 1)


def signed(rng, line):
    return line.replace(b" ", rng.choice([b" -", b" +"]), 1)


def lower_case(rng, line):
    return line.lower()


def missing_field(rng, line):
    fields = line.split(b" ")
    fields.pop(rng.randrange(len(fields)))
    return b" ".join(fields)


def extra_field(rng, line):
    return line + b" " + rng.choice([b"1", b"00", b"#", b"01", b"-", line])


def huge_number(rng, line):
    letter, *fields = line.split(b" ")
    digits = rng.choice([b"256", b"%d" % (2**32 + 1), b"%d" % (2**64 + 1), b"9" * 39, b"9" * 300])
    return b" ".join([letter, digits, *fields[1:]])


def leading_zeros(rng, line):
    return line.replace(b" ", b" " + b"0" * rng.choice([1, 2, 20, 300]), 1)


def other_number(rng, line):
    letter, *fields = line.split(b" ")
    other = rng.choice([b"1.0", b"1e0", b"0x1", b"one", b"", b"1_0", b"\xef\xbc\x91", b"I"])
    return b" ".join([letter, other, *fields[1:]])


def hex_digits(rng, line):
    """One hexadecimal digit too few or too many, or a letter past F."""
    return rng.choice([line[:-1], line + b"0", line[:-1] + b"G", line[:-1] + b"f"])


def cut(rng, line):
    return line[: rng.randrange(len(line))]


def joined(rng, line):
    """A lost LF."""
    return line + rng.choice([b"", b" "]) + line


def split(rng, line):
    return insert(rng, line, b"\n")


def very_long(rng, line):
    length = rng.choice([100, 255, 256, 257, 1000, 4096, 5000, 20000])
    kinds = [line + b"A" * length, b"1" * length, line + b" " * length, b"S 1 1 " + b"0" * length]
    return rng.choice(kinds + [rng.randbytes(length).replace(b"\n", b"")])


def noise(rng, line):
    return rng.randbytes(rng.randint(0, 20)).replace(b"\n", b"")


DAMAGES = [
    odd_byte,
    odd_byte,
    flipped_bit,
    flipped_bit,
    lost_byte,
    doubled_byte,
    carriage_return,
    outer_space,
    other_gap,
    signed,
    lower_case,
    missing_field,
    extra_field,
    huge_number,
    leading_zeros,
    other_number,
    hex_digits,
    cut,
    joined,
    split,
    very_long,
    noise,
]


# --------------------------------------------------------------- scripts


def random_sizes(rng):
    k = rng.choice([2, 2, 2, 3, 3, 4, 5, 7, 12])
    n = k + rng.randint(1, min(k, 6))
    td = rng.choice([0, 1, 1, rng.randint(0, n - k), n - k])
    return Sizes(k, n, rng.choice([1, 1, 2, 3, 8]), min(td, n - k), rng.choice([1, 2, 2, 3, 3, 4, 8]))


SHELF_REBUILD = [b"L 1"] * 4 + [b"P 1"] + [b"W 1"] * 4 + [b"T 1"] * 4 + [b"U 1"] * 4


def long_writes():
    """Client 1 of shelfrun's stripe makes 1,000,000 writes and drops each.

    The lists of nodes 1 and 2 are full after 32 writes; a rebuild clears
    them. Node 4 fails before it, for the slack to be 0.
    """
    for _ in range(1_000_000 // 32):
        for _ in range(16):
            yield from (b"S 1 1 01", b"D 1", b"S 1 2 02", b"D 1")
        yield b"N 4 00"
        yield from SHELF_REBUILD


def long_epochs():
    """The largest epoch of shelfrun's stripe becomes 1,000,000.

    Each rebuild settles node 1 only and quits; the last one finishes.
    """
    for _ in range(999_999):
        yield from [b"L 1"] * 4 + [b"P 1"] + [b"W 1"] * 4 + [b"T 1", b"Q 1"]
    yield from SHELF_REBUILD


LONG = {"writes": long_writes, "epochs": long_epochs}


def played(author, lines):
    for line in lines:
        author.play(line)
        yield line


# how many of the lines are followed by one that asks for the image
IMAGES = 0.02


def whole_list(author, count, seed, damaged=0.1):
    """The author's lines, so many, with reads and lines for the image in between. Damaged: the share of these last.

    Where they stand goes by numbers of their own, so that the author's lines are the same without them.
    """
    return with_images(author, with_reads(author, author.lines(count), seed), seed, damaged)


def with_reads(author, lines, seed):
    rng = random.Random(f"reads {seed}")
    for line in lines:
        yield line
        if rng.random() < author.read_share():
            yield from played(author, [author.read_line(rng)])


def with_images(author, lines, seed, damaged):
    """The last line is one for the image too."""
    rng = random.Random(f"images {seed}")
    for line in lines:
        yield line
        if rng.random() < IMAGES:
            asked = author.image_line(rng)
            yield from played(author, [damage(rng, asked) if rng.random() < damaged else asked])
    yield from played(author, [author.image_line(rng)])


def stripe_author(rng, sizes):
    return Author(new_stripe(sizes), rng, damaged=0.03, arbitrary=0.05)


def shelf_author(rng):
    return Author(new_stripe(SHELF_SIZES), rng, damaged=0.1, arbitrary=0.05, forms=SHELF_FORMS)


def stripe_script(seed, calls, sizes=None):
    """The lines of a striperun script, the sizes first."""
    rng = random.Random(seed)
    sizes = sizes or random_sizes(rng)
    yield " ".join(map(str, sizes)).encode()
    author = stripe_author(rng, sizes)
    yield from whole_list(author, calls, seed)


def shelf_script(seed, count):
    author = shelf_author(random.Random(seed))
    yield from whole_list(author, count, seed)


def main():
    options = argparse.ArgumentParser(description="random scripts for striperun and shelfrun")
    options.add_argument("--seed", type=int, required=True)
    options.add_argument("--calls", "--lines", type=int, default=1000)
    options.add_argument("--sizes", help="k,n,B,td,m")
    options.add_argument("--shelf", action="store_true")
    options.add_argument("--long", choices=LONG)
    options.add_argument("--count", action="store_true")
    options = options.parse_args()

    rng = random.Random(options.seed)
    out = sys.stdout.buffer
    if options.shelf:
        author = shelf_author(rng)
    else:
        sizes = Sizes(*map(int, options.sizes.split(","))) if options.sizes else random_sizes(rng)
        if options.long:
            sizes = SHELF_SIZES
        author = stripe_author(rng, sizes)
        out.write(" ".join(map(str, sizes)).encode() + b"\n")
    if options.long:
        for line in played(author, LONG[options.long]()):
            out.write(line + b"\n")
    for line in whole_list(author, options.calls, options.seed):
        out.write(line + b"\n")
    if options.count:
        print(dict(sorted(author.answers.items())), file=sys.stderr)


if __name__ == "__main__":
    main()
