"""Tests of the second implementation; exits with an error on any difference."""

import random
import re
import time
from collections import Counter
from hashlib import blake2b
from itertools import combinations, product
from pathlib import Path

import code
import codecheck
import field
import guarantee
import image
import kinds
import limits
import lists
import mutants
import shelfrun
import stripe as machine
import striperun
import takenout
import volumelists
import volumerun
from answers import ACCEPTED, Answer, Shown
from script import answer_of, lines_of, read_call, read_volume_call, spelled_out
from stripe import EXP, INIT, L0, L1, LOCKING, MAX_EPOCH, MAX_WRITES, NORM, PICKING, RECONS, UNL
from stripe import Client, Entry, Hand, Node, Rebuild, Sizes, WriteId
from striperun import IMAGE_BYTE, IMAGE_LINE, new_stripe
from volume import VolumeSizes, card_of, home, node_on

EXAMPLES = Path(__file__).parent / "examples"
IMAGE_DOCUMENT = (Path(__file__).parent.parent / "docs" / "IMAGE.md").read_text()


class Difference(Exception):
    pass


def must(condition, text):
    if not condition:
        raise Difference(text)


def equal(got, expected):
    must(got == expected, f"{got!r} is not {expected!r}")


# ------------------------------------------------------- field and code


def test_field():
    equal(field.times(2, 0x80), 0x1D)
    equal(field.inverse(2), 0x8E)
    equal(sorted(codecheck.power_table()), list(range(1, 256)))
    for a in range(1, 256):
        equal(field.times(a, field.inverse(a)), 1)


def encoded(k, n, data):
    table = bytearray(data) + bytearray((n - k) * (len(data) // k))
    equal(code.encode(k, n, len(data) // k, table), ACCEPTED)
    return table


def test_examples_1_to_5():
    equal(encoded(2, 4, b"\x01\x00"), b"\x01\x00\x8E\xF4")
    equal(encoded(2, 4, b"\x00\x01"), b"\x00\x01\xF4\x8E")
    equal(encoded(2, 4, b"\x01\x01"), b"\x01\x01\x7A\x7A")
    equal(encoded(2, 4, b"\x02\x00"), b"\x02\x00\x01\xF5")
    table = bytearray(b"\xA5\xA5\x7A\x7A")
    equal(code.decode(2, 4, 1, [4, 3], table), ACCEPTED)
    equal(table, b"\x01\x01\x7A\x7A")


def test_every_set_decodes():
    for k, n in [(2, 3), (2, 4), (3, 5), (4, 7), (6, 12)]:
        codeword = encoded(k, n, random.Random(k).randbytes(k * 3))
        for members in combinations(range(1, n + 1), k):
            equal(codecheck.decoded(k, n, 3, codeword, members), codeword)


def test_refusals_of_the_code():
    table = bytearray(range(4))
    for k, n, B in [(1, 2, 2), (13, 14, 1), (2, 5, 1), (2, 2, 2), (2, 4, 0), (2, 4, 2), (12, 19, 1)]:
        equal(code.encode(k, n, B, table), Answer(1))
        equal(code.decode(k, n, B, [1, 2], table), Answer(1))
    equal(code.decode(2, 4, 1, [1, 5], table), Answer(2))
    equal(code.decode(2, 4, 1, [0, 1, 2], table), Answer(2))
    equal(code.decode(2, 4, 1, [3, 3], table), Answer(11, 1))
    equal(code.decode(2, 4, 1, [], table), Answer(11, 0))
    equal(table, bytes(range(4)))
    # Only the k lowest members count.
    equal(code.decode(2, 4, 1, [4, 2, 1], table), ACCEPTED)
    equal(table, encoded(2, 4, b"\x00\x01"))


def test_singular_rows():
    """No set of the code is singular, so the elimination is tried on others."""
    equal(code.inverse_rows([b"\x01\x02", b"\x02\x04"]), None)
    equal(code.inverse_rows([b"\x00\x01", b"\x01\x00"]), [b"\x00\x01", b"\x01\x00"])


def test_checksum():
    table = random.Random(1).randbytes(40)
    equal(codecheck.checksum_by_blocks(7, table, 8), codecheck.checksum(7, table))


# ---------------------------------------------------- examples of stripes


def played(sizes, calls):
    """A stripe and its last answer after calls written as "L 1 x4, P 1"."""
    stripe = new_stripe(Sizes(*sizes))
    answer = None
    for line in spelled_out(calls):
        answer = answer_of(stripe, read_call(line))
    return stripe, answer


def test_example_6():
    calls = "S 1 1 01, A 1 3, C 1, L 2 x4, P 2"
    equal(played((2, 4, 1, 1, 2), calls)[1], Answer(0, ([1, 2, 3], 0)))
    stripe, answer = played((2, 4, 1, 1, 2), calls + ", W 2 x4, T 2 x4")
    equal(answer, Answer(0, "rebuilt"))
    equal(stripe.blocks, b"\x01\x00\x8E\xF4")
    equal([node.epoch for node in stripe.nodes.values()], [1] * 4)


def test_example_7():
    equal(played((2, 4, 1, 2, 2), "S 1 1 01, A 1 3, C 1, L 2 x4, P 2")[1], Answer(11, 3))


def test_example_8():
    calls = "S 1 1 01, A 1 3, C 1, N 1 77, L 2 x4, P 2"
    stripe, answer = played((2, 4, 1, 1, 2), calls)
    equal(answer, Answer(0, ([2, 3], 0)))
    equal(stripe.spare, b"\x01\x00\x8E\xF4")


def test_example_9():
    equal(Sizes(1, 2, 1, 0, 1).permitted(), False)
    equal(Sizes(12, 18, 1, 0, 1).permitted(), True)
    equal(Sizes(12, 19, 1, 0, 1).permitted(), False)


def test_limits_of_sizes():
    for good in [(2, 3, 1, 0, 1), (2, 4, 4096, 2, 8), (12, 18, 1, 6, 8), (6, 12, 1, 6, 1)]:
        equal(Sizes(*good).permitted(), True)
    for bad in [(1, 2, 1, 0, 1), (13, 14, 1, 0, 1), (2, 2, 1, 0, 1), (2, 5, 1, 0, 1), (12, 19, 1, 0, 1)]:
        equal(Sizes(*bad).permitted(), False)
    for bad in [(2, 4, 0, 0, 1), (2, 4, 4097, 0, 1), (2, 4, 1, 3, 1), (2, 4, 1, 0, 0), (2, 4, 1, 0, 9)]:
        equal(Sizes(*bad).permitted(), False)


def test_example_10():
    sixteen = ", ".join(["S 1 1 01, D 1"] * 16)
    equal(played((2, 4, 1, 1, 2), sixteen)[1], ACCEPTED)
    equal(played((2, 4, 1, 1, 2), sixteen + ", S 2 1 01")[1], Answer(7))


def test_due():
    node = Node()
    node.enter(WriteId(1, 1, 0))
    node.entries[0].age = 63
    equal(node.is_due(), False)
    node.entries[0].age = 64
    equal(node.is_due(), True)
    node.mark_old([WriteId(1, 1, 0)])
    equal(node.is_due(), False)
    equal(Node(opmode=INIT).is_due(), True)
    equal(played((2, 4, 1, 1, 2), "N 4 00, Z 4")[1], Answer(0, "due"))
    equal(played((2, 4, 1, 1, 2), "S 1 1 01, Z 1")[1], Answer(0, "no"))
    equal(played((2, 4, 1, 1, 2), "Z 5")[1], Answer(2))
    equal(played((2, 4, 1, 1, 2), "Z 0")[1], Answer(2))


# a controller stops after its swap and an add
FRIDAY = "S 1 1 01, A 1 3, C 1"


def aged(calls):
    """The stripe after FRIDAY and the calls, and the ages of each node's entries."""
    stripe, _ = played((2, 4, 1, 1, 2), f"{FRIDAY}, {calls}")
    return stripe, ages(stripe)


def ages(stripe):
    return [[e.age for e in node.entries] for node in stripe.nodes.values()]


def due_nodes(stripe):
    return [j for j in stripe.nodes if stripe.due(j) == Answer(0, "due")]


def test_ticks():
    equal(played((2, 4, 1, 1, 2), "K")[1], ACCEPTED)
    for ticks, age, due in [(1, 1, []), (63, 63, []), (64, 64, [1, 3]), (255, 255, [1, 3]), (300, 255, [1, 3])]:
        stripe, got = aged(f"K x{ticks}")
        equal(got, [[age], [], [age], []])
        equal(due_nodes(stripe), due)


def test_nothing_else_ages():
    later = "S 2 1 02, A 2 3, D 2, S 2 2 03, A 2 3, A 2 4, H 2 1, G 2 x8, R 1, Z 1, L 2 x4, P 2, W 2, Q 2"
    stripe, got = aged(f"K x63, {later}")
    equal(got, [[63, 0], [0], [63, 0, 0], [0]])
    equal(due_nodes(stripe), [])


def test_old_entries_keep_their_ages():
    """Client 1's write is marked old at nodes 1 to 3, then at node 4, beside one of client 2 or not."""
    done = "S 1 1 01, A 1 3, A 1 4, K x70"
    stripe, _ = played((2, 4, 1, 1, 2), f"{done}, G 1 x7, K x5, G 1, K x5")
    equal(ages(stripe), [[70], [], [70], [75]])
    equal(due_nodes(stripe), [])
    stripe, _ = played((2, 4, 1, 1, 2), f"{done}, S 2 1 02, A 2 3, G 1 x7, K x64")
    equal(ages(stripe), [[70, 64], [], [70, 64], [134]])
    equal(due_nodes(stripe), [1, 3, 4])


def test_ticks_of_every_node():
    """Whatever its opmode and lmode. No list gives an INIT node an entry."""
    for calls in ["L 2", "L 2 x4", "L 2 x4, O 2", "L 2 x4, Q 2", "L 2 x4, P 2, W 2 x4", "L 2 x4, P 2, W 2 x4, C 2"]:
        equal(aged(f"{calls}, K")[1], [[1], [], [1], []])
    for opmode, lmode in product([NORM, RECONS, INIT], [UNL, L0, L1, EXP]):
        stripe, _ = aged("K")
        stripe.nodes[1].opmode, stripe.nodes[1].lmode = opmode, lmode
        equal(stripe.tick(), ACCEPTED)
        equal(ages(stripe), [[2], [], [2], []])


def test_nothing_due_after_a_rebuild():
    stripe, got = aged("K x64, L 2 x4, P 2, W 2 x4, T 2 x4, U 2 x4, K x64")
    equal(got, [[], [], [], []])
    equal(due_nodes(stripe), [])


def entry_ages(stripe):
    return {(j, e.id): e.age for j, node in stripe.nodes.items() for e in node.entries}


def ticks_recent(before, stripe, ticks):
    """Of each entry, the ticks that it was recent at, up to 255: those before, and the ticks given."""
    entries = [(j, e) for j, node in stripe.nodes.items() for e in node.entries]
    return {(j, e.id): min(255, before.get((j, e.id), 0) + ticks * e.recent) for j, e in entries}


def oldest_asked(stripe, call):
    """The oldest recent age at the node that a due test asks, unless it is INIT."""
    if call is None or call.name != "due" or stripe.due(*call.arguments).number != 0:
        return None
    node = stripe.nodes[call.arguments[0]]
    return max((e.age for e in node.entries if e.recent and node.opmode != INIT), default=None)


def test_ages_along_lists():
    """An age is the number of ticks that its entry was recent at. Nodes are asked at the limit, before it and at 255."""
    asked = Counter()
    for seed in range(20):
        rng = random.Random(seed)
        author = lists.stripe_author(rng, lists.random_sizes(rng))
        expected = {}
        for line in author.lines(1500):
            expected = ticks_recent(expected, author.stripe, line.split(b"\n").count(b"K"))
            equal(entry_ages(author.stripe), expected)
            asked[oldest_asked(author.stripe, read_call(line))] += 1
    for age in [63, 64, 255]:
        must(asked[age] > 3, f"asked at {age} only {asked[age]} times")


# -------------------------------------------- reads while a rebuild runs


def reads(calls, sizes="2 4 1 1 2"):
    """What striperun shows for each read of a list."""
    lines = list(spelled_out(calls))
    output = striperun.run([sizes.encode(), *lines])
    return [shown.split(" | ")[0] for line, shown in zip(lines, output, strict=True) if line.startswith(b"R ")]


# client 2 has locked, picked and settled all; FRIDAY's write is kept
PICKED = f"{FRIDAY}, L 2 x4, P 2"
SETTLED = f"{PICKED}, W 2 x4, T 2 x4"
LIVE_SHOWN = ["0 block=01 live", "0 block=00 live"]
SPARE_SHOWN = ["0 block=01 spare", "0 block=00 spare"]


def test_reads_of_each_phase():
    """From the pick to the first unlock both positions are read from the spare."""
    equal(reads(f"{FRIDAY}, R 1, R 2"), LIVE_SHOWN)
    equal(reads(f"{FRIDAY}, L 2, R 1, R 2"), ["4 NORM,L1", LIVE_SHOWN[1]])
    equal(reads(f"{FRIDAY}, L 2 x4, R 1, R 2"), ["4 NORM,L1"] * 2)
    for nodes in range(5):
        equal(reads(f"{PICKED}, W 2 x{nodes}, R 1, R 2"), SPARE_SHOWN)
        equal(reads(f"{PICKED}, W 2 x4, T 2 x{nodes}, R 1, R 2"), SPARE_SHOWN)
    equal(reads(f"{SETTLED}, U 2, R 1, R 2"), [LIVE_SHOWN[0], "4 NORM,L1"])
    for nodes in range(2, 5):
        equal(reads(f"{SETTLED}, U 2 x{nodes}, R 1, R 2"), LIVE_SHOWN)


def test_reads_before_the_pick():
    """Also while weakened, after a pick that was refused, and after one of an earlier rebuild."""
    equal(reads("L 2 x4, O 2, R 1, I 2, R 1, I 2, R 1, P 2, R 1"), ["4 NORM,L1"] * 3 + ["0 block=00 spare"])
    equal(reads("S 1 1 01, A 1 3, L 2 x4, P 2, R 1", "2 4 1 2 2"), ["4 NORM,L1"])
    equal(reads(f"{SETTLED}, U 2 x4, L 2 x4, R 1, P 2, R 1"), ["4 NORM,L1", SPARE_SHOWN[0]])
    equal(reads(f"{PICKED}, Q 2, R 1, L 2 x4, R 1, P 2, R 1"), ["4 NORM,EXP", "4 NORM,L1", SPARE_SHOWN[0]])


def test_reads_of_INIT_nodes():
    """An INIT node that is held is a node held. Whichever fails, FRIDAY's write is kept."""
    equal(reads(f"{FRIDAY}, N 1 77, R 1, L 2 x4, R 1, R 2"), ["4 INIT,UNL", "4 INIT,L1", "4 NORM,L1"])
    for failed in range(1, 5):
        begun = f"{FRIDAY}, N {failed} 77, L 2 x4, P 2"
        for calls in ["", ", W 2", ", W 2 x4, T 2", ", W 2 x4, T 2 x4"]:
            equal(reads(f"{begun}{calls}, R 1, R 2"), SPARE_SHOWN)


def test_reads_with_a_lost_node():
    """A node that has failed since is not held."""
    equal(reads(f"{PICKED}, N 4 77, R 1, R 2"), ["4 NORM,L1"] * 2)
    equal(reads(f"{PICKED}, N 1 77, R 1, R 2"), ["4 INIT,UNL", "4 NORM,L1"])
    equal(reads(f"{PICKED}, W 2, N 4 77, R 1, R 2"), ["4 RECONS,L1", "4 NORM,L1"])
    equal(reads(f"{PICKED}, W 2 x4, N 3 77, R 1, T 2, R 1"), ["4 RECONS,L1", "4 RECONS,EXP"])
    equal(reads(f"{SETTLED}, N 4 77, R 1, U 2, R 1"), ["4 NORM,L1", LIVE_SHOWN[0]])


def test_reads_beside_another_client():
    """Its lock is refused, it stops; it locks a node that failed, one that was unlocked, or all."""
    equal(reads(f"{PICKED}, L 1, R 1, C 1, R 1, S 1 2 02, R 2"), [SPARE_SHOWN[0], *SPARE_SHOWN])
    taken = f"{PICKED}, N 1 77, L 1"
    equal(reads(f"{taken}, R 1, R 2, L 1, R 1, R 2"), ["4 INIT,L1", "4 NORM,L1", "4 INIT,UNL", "4 NORM,L1"])
    equal(reads(f"{SETTLED}, U 2, L 1, R 1, R 2"), ["4 NORM,L1"] * 2)
    equal(reads(f"{SETTLED}, U 2 x4, L 1 x4, R 1, P 1, R 1"), ["4 NORM,L1", SPARE_SHOWN[0]])
    failures = "N 1 77, N 2 77, N 3 77, N 4 77"
    equal(reads(f"{PICKED}, {failures}, L 1 x4, R 1, R 2"), ["4 INIT,L1"] * 2)


def test_reads_after_a_stop():
    """All that was held is EXP; another client then picks what was begun."""
    equal(reads(f"{PICKED}, W 2, C 2, R 1, R 2"), ["4 RECONS,EXP", "4 NORM,EXP"])
    equal(reads(f"{PICKED}, W 2, C 2, L 1 x4, R 1, P 1, R 1, R 2"), ["4 RECONS,L1", *SPARE_SHOWN])
    equal(reads(f"{SETTLED}, C 2, R 1, R 2"), ["4 NORM,EXP"] * 2)


def test_reads_of_other_numbers():
    for calls in ["K", "L 2 x4", PICKED, SETTLED]:
        equal(reads(f"{calls}, R 0, R 3, R 4, R 5"), ["2 -"] * 4)


def test_reads_of_other_bytes():
    """A swap without an add is lost: the spare has 00 from the pick on, the live table from the write on."""
    lost = "S 1 1 01, R 1, L 2 x4, P 2, R 1, W 2 x4, R 1, T 2 x4, R 1, U 2, R 1"
    equal(reads(lost), [LIVE_SHOWN[0], *["0 block=00 spare"] * 3, "0 block=00 live"])
    shown = reads("S 1 2 0102, A 1 4, A 1 5, L 1 x5, P 1, R 1, R 2, R 3", "3 5 2 1 1")
    equal(shown, ["0 block=0000 spare", "0 block=0102 spare", "0 block=0000 spare"])


def test_reads_at_L0():
    """Past a pick no list has a node at L0; of such records no block is shown."""
    must(mutants.refuses_at_L0(machine), "a block is shown where a node is held at L0")


def note_pick(picked, call, answer, n):
    """Keeps, of each client whose pick was accepted in the rebuild it now has, how many unlocks were accepted since."""
    c = call.arguments[0] if call.arguments else None
    if answer.number in (9, 10) or answer.accepted and call.name in ("quit", "stop"):
        picked.pop(c, None)
    elif answer.accepted and call.name == "pick":
        picked[c] = 0
    elif answer.accepted and call.name == "unlock":
        picked[c] += 1
        if picked[c] == n:
            del picked[c]


def read_answer(stripe, i, picked):
    """Document 02's sentence, by the clients that have picked."""
    k, _, B, _, _ = stripe.sizes
    if not 1 <= i <= k:
        return Answer(2)
    node, part = stripe.nodes[i], slice((i - 1) * B, i * B)
    if (node.opmode, node.lmode) == (NORM, UNL):
        return Answer(0, Shown(stripe.blocks[part], "live"))
    locks = {(node.lmode, node.holder) for node in stripe.nodes.values()}
    if any(locks == {(L1, c)} for c in picked):
        return Answer(0, Shown(stripe.spare[part], "spare"))
    return Answer(4, (node.opmode, node.lmode))


def test_reads_along_lists():
    """Who has picked is read off the calls and their answers, and not off the client records."""
    seen = Counter()
    for seed in range(20):
        first, *lines = b"\n".join(lists.stripe_script(seed, 1500)).split(b"\n")
        stripe = new_stripe(striperun.read_sizes(first))
        picked = {}
        for call in filter(None, map(read_call, lines)):
            answer = answer_of(stripe, call)
            if call.name == "read":
                equal(answer, read_answer(stripe, *call.arguments, picked))
                seen[answer.value.table if answer.accepted else answer.number] += 1
            note_pick(picked, call, answer, stripe.sizes.n)
    for what in ["live", "spare", 2, 4]:
        must(seen[what] > 100, f"reads: {what} only {seen[what]} times")


# ------------------------------------- answers that short lists don't reach


def test_answer_8_of_swap():
    stripe, _ = played((2, 4, 1, 1, 2), "S 1 1 01, D 1")
    stripe.clients[1].next_number = MAX_WRITES - 1
    equal(stripe.swap(1, 1, b"\x02"), ACCEPTED)
    equal(stripe.drop(1), ACCEPTED)
    equal(stripe.swap(1, 1, b"\x03"), Answer(8))
    equal(stripe.swap(2, 1, b"\x03"), ACCEPTED)


def test_answer_8_of_pick():
    stripe, _ = played((2, 4, 1, 1, 2), "L 1 x4")
    stripe.nodes[3].epoch = MAX_EPOCH
    equal(stripe.pick(1), Answer(8))
    # The lowest applicable number wins: 8 before 10.
    stripe.nodes[1].set_lock(L1, 2)
    equal(stripe.pick(1), Answer(8))
    stripe.nodes[3].epoch = MAX_EPOCH - 1
    equal(stripe.pick(1), Answer(10))


def test_pick_at_L0():
    stripe, _ = played((2, 4, 1, 1, 2), "L 1 x4")
    stripe.nodes[3].set_lock(L0, 1)
    equal(stripe.pick(1), Answer(10))


# ------------------------------------------------------------- programs


def test_programs():
    for run, name in [(striperun.run, "striperun"), (shelfrun.run, "shelfrun")]:
        with open(EXAMPLES / f"{name}.in", "rb") as script:
            got = "".join(line + "\n" for line in run(lines_of(script)))
        equal(got, (EXAMPLES / f"{name}.out").read_text())


def test_reads_of_shelfrun():
    """The spare's byte where it printed 4; a swap without an add is lost."""
    calls = "S 1 1 01, R 1, L 2 x4, R 1, P 2, R 1, R 2, R 3, N 4 00, R 1"
    shown = ["1 swapped 0 -", "2 - 0 01", *(f"{at} locked 0 -" for at in (3, 4, 5, 6)), "7 - 4 -", "8 - 0 -"]
    shown += ["9 - 0 00", "10 - 0 00", "11 - 2 -", "12 - 0 -", "13 - 4 -"]
    equal(list(shelfrun.run(spelled_out(calls))), shown)


def test_sizes_refused():
    for first in [b"1 2 1 0 1", b"2 4 1 1", b"2 4 1 1 2 ", b"", b"2 4 1 -1 2", b"2 4 1 1 2\r"]:
        equal(list(striperun.run([first, b"R 1", b"", b"?"])), ["1 -"] * 3)
    equal(list(striperun.run([])), [])
    equal(list(striperun.run([b"02 4 001 1 2", b"R 1"]))[0].split(" | ")[0], "0 block=00 live")


UNREADABLE = [
    *[b"", b" ", b"R", b"R ", b" R 1", b"R 1 ", b"R  1", b"R\t1", b"R,1", b"R1", b"R 1 1", b"RR 1"],
    *[b"R 1\r", b"R 1\0", b"\0R 1", b"R 1\x7f", b"\xef\xbb\xbfR 1", b"R \xd9\xa1"],
    *[b"r 1", b"X 1", b"1 R", b"R +1", b"R -1", b"R 0x1", b"R 1.0", b"R 1_0", b"R one", b"Z 1", b"Z 4"],
    *[b"S 1 1", b"S 1 01", b"S 1 1 1", b"S 1 1 001", b"S 1 1 0101", b"S 1 1 0a", b"S 1 1 0G"],
    *[b"S 1 1 01 ", b"S 1 1  01", b"S 1 1 -1", b"N 1", b"N 1 1", b"A 1", b"A 1 3 3", b"L", b"L 1 1"],
    *[b"K", b"K 1", b"k", b"M", b"M 1", b"M ", b"m"],
]

OUT_OF_RANGE = [
    *[b"R 0", b"R 3", b"R 00", b"R 256", b"R 257", b"R 4294967297", b"R 18446744073709551617"],
    *[b"R 1" + b"0" * 10000, b"S 3 1 00", b"S 1 3 00", b"A 1 2", b"A 1 5", b"A 3 3", b"H 1 5"],
    *[b"N 5 00", b"N 0 00", b"L 3", b"C 0", b"Q 9", b"D 3", b"G 3", b"P 3", b"O 3", b"I 3", b"W 3"],
]


def test_lines_of_shelfrun():
    for lines, number in [(UNREADABLE, 1), (OUT_OF_RANGE, 2)]:
        for line in lines:
            equal(list(shelfrun.run([line])), [f"1 - {number} -"])
    equal(list(shelfrun.run([b"R 1", b"R 01", b"R " + b"0" * 10000 + b"2"]))[2], "3 - 0 00")
    equal(list(shelfrun.run([])), [])


def test_lines_of_ticks():
    """A tick is the one byte K; nothing that is almost one ages anything."""
    for line in [b"K ", b" K", b"K 1", b"K K", b"KK", b"k", b"K\r", b"K\0", b"\0K"]:
        swapped, almost = striperun.run([b"2 4 1 1 2", b"S 1 1 01", line])
        equal(almost, swapped.replace("0 - |", "1 - |"))
    swapped, ticked = striperun.run([b"2 4 1 1 2", b"S 1 1 01", b"K"])
    equal(ticked, swapped.replace(".R.0", ".R.1"))


def test_lines_of_images():
    """An image is asked for by the one byte M, and changes nothing; nothing that is almost one shows any."""
    for line in [b"M ", b" M", b"M 1", b"M M", b"MM", b"m", b"M\r", b"M\0", b"\0M", b"M\t", b"M 0102"]:
        swapped, almost = striperun.run([b"2 4 1 1 2", b"S 1 1 01", line])
        equal(almost, swapped.replace("0 - |", "1 - |"))
    swapped, asked, again, ticked = striperun.run([b"2 4 1 1 2", b"S 1 1 01", b"M", b"M", b"K"])
    stripe, _ = played((2, 4, 1, 1, 2), "S 1 1 01")
    equal(asked, swapped.replace("0 - |", f"0 image={written(stripe).hex().upper()} |"))
    equal(again, asked)
    equal(ticked, swapped.replace(".R.0", ".R.1"))
    equal(list(striperun.run([b"2 5 1 1 2", b"M"])), ["1 -"])


# ------------------------------------------------------------ sets of pick


def largest_by_search(stripe):
    """Document 01's rule over all sets of nodes."""
    consistent = []
    for size in range(stripe.sizes.n + 1):
        for members in combinations(stripe.nodes, size):
            if stripe.is_consistent(members):
                consistent.append(members)
    largest = max(len(members) for members in consistent)
    ties = [members for members in consistent if len(members) == largest]
    all_data = [members for members in ties if not any(map(stripe.is_redundant, members))]
    if all_data:
        return set(all_data[0])
    return set(min(ties, key=lambda members: min(filter(stripe.is_redundant, members))))


def scramble(stripe, rng):
    """Records with any few entries, marks and opmodes, reached or not."""
    ids = [WriteId(1, rng.randint(1, stripe.sizes.k), number) for number in range(3)]
    for j, node in stripe.nodes.items():
        node.opmode = NORM if rng.random() < 0.85 else rng.choice([INIT, RECONS])
        own = ids if stripe.is_redundant(j) else [id for id in ids if id.position == j]
        node.entries = [Entry(id, rng.random() < 0.9) for id in own if rng.random() < 0.6]


def test_sets_of_any_records():
    rng = random.Random(5)
    for k, n in [(2, 3), (2, 4), (3, 5), (3, 6), (4, 6), (4, 7), (5, 7), (6, 7)]:
        stripe = new_stripe(Sizes(k, n, 1, 0, 1))
        for _ in range(60):
            scramble(stripe, rng)
            equal(stripe.largest_consistent_set(), largest_by_search(stripe))


def test_sets_along_lists():
    for seed, sizes in enumerate([(2, 3, 1, 1, 2), (2, 4, 1, 1, 3), (3, 6, 1, 0, 3), (4, 7, 1, 1, 3)]):
        author = lists.stripe_author(random.Random(seed), Sizes(*sizes))
        for at, _ in enumerate(author.lines(1500)):
            if at % 8 == 0:
                equal(author.stripe.largest_consistent_set(), largest_by_search(author.stripe))


# ------------------------------------------------------------ random lists


def test_guarantee():
    """Along lists that have every kind of read."""
    histories = [guarantee.replay(lists.stripe_script(seed, 1000)) for seed in range(20)]
    rebuilds = sum(history.rebuilds for history in histories)
    must(rebuilds > 100, f"only {rebuilds} rebuilds finished")
    seen = sum((history.reads for history in histories), Counter())
    for kind in guarantee.READS:
        must(seen[kind] > 10, f"{kind} occurs {seen[kind]} times")


def test_answers_occur():
    """Each answer but 8 and 12, and all records within the limits."""
    answers = Counter()
    for seed in range(12):
        rng = random.Random(seed)
        author = lists.stripe_author(rng, lists.random_sizes(rng))
        for _ in author.lines(1000):
            must(limits.within(author.stripe), "a record is outside the limits")
        answers += author.answers
    for number in [0, 1, 2, 3, 4, 5, 6, 7, 9, 10, 11]:
        must(answers[number] > 10, f"answer {number} occurs {answers[number]} times")


def test_wrong_machines():
    """guarantee.py notices each wrong machine that breaks demand 3 or the promise on reads, takenout.py each wrong volume."""
    mutants.check_own_lists()


def test_picking_phase_after_11():
    stripe, answer = played((2, 4, 1, 2, 2), "S 1 1 01, A 1 3, L 2 x4, P 2")
    equal(answer, Answer(11, 3))
    equal(stripe.clients[2].rebuild, Rebuild(PICKING, old_lmodes=["UNL"] * 4))
    equal(stripe.spare, b"\xAA" * 4)


# ------------------------------------------------------------------- images


def written(stripe, before=IMAGE_BYTE):
    """The image, written into a buffer of other bytes."""
    buffer = bytearray(before * image.length(stripe.sizes))
    equal(image.write(stripe, buffer), ACCEPTED)
    return bytes(buffer)


def check_read_back_image(stripe):
    """The image is read as the state that it is of, and that state has this image."""
    shown = written(stripe)
    again = image.read(shown)
    equal(image.state(again), image.state(stripe))
    equal(written(again, b"\0"), shown)


def documents_stripe():
    """The stripe of the document's example."""
    found = re.search(r"\(k, n, B, t_d, m\) = \(([^)]*)\) after (.*?) \(striperun", IMAGE_DOCUMENT)
    sizes, lines = found.groups()
    return played(map(int, sizes.split(", ")), ", ".join(re.findall("`([^`]*)`", lines)))[0]


def dumped(text):
    """The bytes of a dump; a * repeats the line before up to the next one's offset."""
    found = b""
    for line in text.splitlines():
        if line != "*":
            offset, _, bytes_shown = line.partition("  ")
            last = found[-16:]
            while len(found) < int(offset, 16):
                found += last
            equal(len(found), int(offset, 16))
            found += bytes.fromhex(bytes_shown)
    return found


def rows_under(heading, columns):
    """The rows of the document's first table with these columns after the heading, each a list of texts."""
    _, _, rest = IMAGE_DOCUMENT.partition(f"\n{heading}")
    _, _, rest = rest.partition(f"| {' | '.join(columns)} |\n")
    rows = re.match(r"(?:\|.*\n?)*", rest)[0].splitlines()[1:]
    must(rows, f"no table {columns} under {heading}")
    return [[cell.strip() for cell in row.strip("|").split("|")] for row in rows]


def fields_of(heading):
    """Offset and width of each field of a record, slot by slot, as the document's table tells them."""
    fields = []
    for offset, width, field, _ in rows_under(heading, ["Offset", "Width", "Field", "Values"]):
        first, _, step = offset.partition(" + ")
        must(step in ("", f"{width}·i"), f"{heading}: {offset}")
        slots = int(re.search(r"i from 0 to (\d+)", field)[1]) + 1 if step else 1
        fields += [(int(first) + int(width) * i, int(width)) for i in range(slots)]
    return fields


DOCUMENTS_RECORDS = {
    image.SIZES: "## Sizes, 8 bytes",
    image.ID: "## A write id, 6 bytes",
    image.NODE: "## A node record, 140 bytes",
    image.CLIENT: "## A client record, 135 bytes",
}


def test_documents_records():
    """The fields of each record follow each other without a gap."""
    for length, heading in DOCUMENTS_RECORDS.items():
        end = 0
        for offset, width in fields_of(heading):
            equal(offset, end)
            end += width
        equal(end, length)


def documents_offsets(sizes):
    """Where some field of an image begins, by the document's tables; an entry has its mark and its age at 6 and 7."""
    records = [image.SIZES] + [image.NODE] * sizes.n + [image.CLIENT] * sizes.m
    offsets = set(range(0, image.HEADER, 4))
    first = image.HEADER
    for length in records:
        for offset, width in fields_of(DOCUMENTS_RECORDS[length]):
            offsets |= {first + offset + part for part in ([0, 6, 7] if width == image.ENTRY else [0])}
        first += length
    return offsets | set(range(first, image.length(sizes)))


def test_documents_image():
    """Each byte of the document's example, and each row of the table that tells its fields."""
    stripe = documents_stripe()
    shown = written(stripe)
    _, _, example = IMAGE_DOCUMENT.partition("\n## A small image")
    equal(shown, dumped(re.search(r"```\n(.*?)```", example, re.DOTALL)[1]))
    offsets = documents_offsets(stripe.sizes)
    end = 0
    for offset, told, _ in rows_under("## A small image", ["Offset", "Bytes", "Meaning"]):
        first = int(offset, 16)
        # Bytes that no row tells are zero.
        equal(shown[end:first], bytes(first - end))
        end = first
        for field in told.split(", "):
            must(end in offsets, f"no field begins at {end:04X}")
            equal(shown[end : end + len(bytes.fromhex(field))], bytes.fromhex(field))
            end += len(bytes.fromhex(field))
    equal(end, len(shown))


def permitted_nodes():
    return [(k, n) for k in range(2, 13) for n in range(k + 1, min(k + 6, 2 * k) + 1)]


def test_lengths_of_images():
    """The sizes alone fix the length; each section is where the header says, after the one before."""
    for (k, n), B, m in product(permitted_nodes(), [1, 2, 5], [1, 2, 8]):
        check_sections(new_stripe(Sizes(k, n, B, n - k, m)))
    lengths = [
        image.length(Sizes(k, n, B, 0, m)) for (k, n), B, m in product(permitted_nodes(), [1, 4096], range(1, 9))
    ]
    equal((min(lengths), max(lengths)), (622, 183_884))
    for sizes in [(2, 3, 1, 1, 1), (12, 18, 4096, 6, 8), (2, 3, 4096, 0, 1), (12, 18, 1, 0, 8)]:
        check_sections(new_stripe(Sizes(*sizes)))


def check_sections(stripe):
    k, n, B, td, m = stripe.sizes
    stripe.blocks[:] = bytes(at % 251 for at in range(n * B))
    shown = written(stripe)
    equal(len(shown), 60 + 140 * n + 135 * m + (2 * n + m) * B)
    equal(image.word_at(shown, 0), 6)
    found = image.pairs(shown)
    equal([length for _, length in found], [8, 140 * n, 135 * m, n * B, m * B, n * B])
    ends = [offset + length for offset, length in found]
    equal([offset for offset, _ in found], [52, *ends[:-1]])
    equal(ends[-1], len(shown))
    parts = image.sections_of(shown)
    equal(parts[0], bytes([k, n, td, m, B % 256, B // 256, 0, 0]))
    equal(parts[3:], [stripe.blocks, stripe.differences, stripe.spare])
    check_read_back_image(stripe)


def test_refused_images():
    """Another length by a byte, and what is outside the limits: answer 1, and the buffer keeps its bytes."""
    must(mutants.refuses(image), "an image is not refused")
    stripe, _ = played((2, 4, 1, 1, 2), "S 1 1 01, L 2")
    check_read_back_image(stripe)
    before = image.state(stripe)
    length = image.length(stripe.sizes)
    for other in range(2 * length):
        must(other == length or mutants.is_refused(image, stripe, other), f"{other} bytes are not refused")
    equal(image.state(stripe), before)


def test_images_along_lists():
    """Each image is read back as its state, and the calls after it go on alike. All kinds of states occur."""
    seen = Counter()
    for seed in range(40):
        first, *lines = b"\n".join(lists.stripe_script(seed, 1500)).split(b"\n")
        stripe = new_stripe(striperun.read_sizes(first))
        again = image.read(written(stripe))
        for line in lines:
            if line == IMAGE_LINE:
                seen.update(kinds.of_stripe(stripe))
                equal(image.state(again), image.state(stripe))
                check_read_back_image(stripe)
                again = image.read(written(stripe))
            equal(answer_of(again, read_call(line)), answer_of(stripe, read_call(line)))
    for kind in kinds.KINDS:
        must(seen[kind] > 3, f"images show {kind} only {seen[kind]} times")


NUMBERS = [0, 1, 127, 128, 255, 256, 257, 65_535, 65_536, 99_999, 999_998, 999_999]
EPOCHS = [*NUMBERS, MAX_EPOCH]


class Drawn:
    """A stripe of any records within the limits, each field drawn by the seed and its place.

    Also drawn is what has no meaning. One place may be drawn otherwise.
    """

    def __init__(self, seed, sizes, otherwise=None):
        self.seed = seed
        self.otherwise = otherwise
        self.places = []
        td = self.draw("t_d", range(sizes.n - sizes.k + 1))
        self.sizes = sizes._replace(td=td)
        self.stripe = new_stripe(self.sizes)
        self.stripe.nodes = {j: self.node(f"node {j}") for j in self.stripe.nodes}
        self.stripe.clients = {c: self.client(f"client {c}") for c in self.stripe.clients}
        for name in ["blocks", "differences", "spare"]:
            table = getattr(self.stripe, name)
            table[:] = bytes(self.draw(f"{name} {at}", range(256)) for at in range(len(table)))

    def draw(self, place, choices):
        self.places.append(place)
        text = f"{self.seed} {place} {place == self.otherwise}".encode()
        return choices[int.from_bytes(blake2b(text, digest_size=8).digest(), "little") % len(choices)]

    def draw_id(self, place):
        client = self.draw(f"{place} client", range(1, self.sizes.m + 1))
        position = self.draw(f"{place} position", range(1, self.sizes.k + 1))
        return WriteId(client, position, self.draw(f"{place} number", NUMBERS))

    def draw_ids(self, place, most):
        ids = [self.draw_id(f"{place} {at}") for at in range(8)]
        return ids[: self.draw(f"{place} count", range(most + 1))]

    def draw_set(self, place):
        return frozenset(j for j in range(1, self.sizes.n + 1) if self.draw(f"{place} {j}", [False, True]))

    def entry(self, place):
        recent = self.draw(f"{place} mark", [True, False])
        return Entry(self.draw_id(place), recent, self.draw(f"{place} age", range(256)))

    def node(self, place):
        lmode = self.draw(f"{place} lmode", [UNL, L0, L1, EXP])
        holder = self.draw(f"{place} holder", range(1, self.sizes.m + 1))
        entries = [self.entry(f"{place} entry {at}") for at in range(16)]
        return Node(
            opmode=self.draw(f"{place} opmode", [NORM, RECONS, INIT]),
            lmode=lmode,
            holder=holder if lmode in (L0, L1) else None,
            epoch=self.draw(f"{place} epoch", EPOCHS),
            rset=self.draw_set(f"{place} rset"),
            entries=entries[: self.draw(f"{place} count", range(17))],
        )

    def hand(self, place):
        id, previous = self.draw_id(f"{place} id"), self.draw_id(f"{place} previous")
        if not self.draw(f"{place} has a previous id", [False, True]):
            previous = None
        hand = Hand(id.position, id, previous, self.draw(f"{place} epoch", EPOCHS), self.draw_set(f"{place} done"))
        return hand if self.draw(f"{place} is full", [False, True]) else None

    def rebuild(self, place):
        n, k = self.sizes.n, self.sizes.k
        phase = self.draw(f"{place} phase", image.PHASES)
        locked = self.draw(f"{place} locked", range(1, n))
        lmodes = [self.draw(f"{place} lmode {j}", [UNL, EXP]) for j in range(1, n)]
        lowest = self.draw(f"{place} untightened", range(k + 1, n + 2))
        count = self.draw(f"{place} count", range(n))
        chosen = self.draw_set(f"{place} chosen")
        E = self.draw(f"{place} E", NUMBERS)
        if phase is None:
            return None
        count = locked if phase == LOCKING else count
        return Rebuild(phase, count, lmodes[:locked], list(range(lowest, n + 1)), chosen, E)

    def client(self, place):
        hand = self.hand(f"{place} hand")
        return Client(
            hand=hand,
            rebuild=self.rebuild(f"{place} rebuild"),
            finished=self.draw_ids(f"{place} finished", 8 if hand is None else 7),
            moved=self.draw_ids(f"{place} moved", 8),
            sweeps=self.draw(f"{place} sweeps", range(2 * self.sizes.n)),
            next_number=self.draw(f"{place} next", EPOCHS),
        )


def test_images_of_any_records():
    """Records within the limits, reached or not, are read back."""
    rng = random.Random(6)
    for seed in range(200):
        stripe = Drawn(seed, lists.random_sizes(rng)).stripe
        must(limits.within(stripe), "a record is outside the limits")
        check_read_back_image(stripe)


def test_images_of_unlike_states():
    """One place drawn otherwise: another image if the state is another one, the same image if not."""
    rng = random.Random(7)
    unlike = Counter()
    # Together these three have every kind of field.
    for seed in [3, 6, 20]:
        one = Drawn(seed, Sizes(2, 4, 1, 0, 2))
        unlike += unlike_places(one, one.places)
    for kind in {kind_of_place(place) for place in one.places}:
        must(unlike[kind] > 0, f"{kind} drawn otherwise never gives another state")
    for seed in range(10):
        one = Drawn(seed, lists.random_sizes(rng))
        unlike += unlike_places(one, rng.sample(one.places, 20))
    must(unlike["the same"] > 500, f"only {unlike['the same']} times the same state")


def kind_of_place(place):
    return re.sub(r" \d+", "", place)


def unlike_places(one, places):
    """Draws each place otherwise; counts the kinds of those that give another state."""
    unlike = Counter()
    state, shown = image.state(one.stripe), written(one.stripe)
    for place in places:
        other = Drawn(one.seed, one.sizes, place).stripe
        is_other = image.state(other) != state
        equal((place, written(other) != shown), (place, is_other))
        unlike[kind_of_place(place) if is_other else "the same"] += 1
    return unlike


# ------------------------------------------------------------------ volumes


def test_homes():
    """Each block has a single home, each home a block."""
    for k in range(2, 13):
        homes = [(s, i) for s in range(1024) for i in range(1, k + 1)]
        equal([home(k, b) for b in range(1024 * k)], homes)


def test_cards():
    """Within a stripe no card is used twice, and each card is one node."""
    for n in range(3, 19):
        for s in range(1024):
            cards = [card_of(n, s, j) for j in range(1, n + 1)]
            equal(sorted(cards), list(range(1, n + 1)))
            equal([node_on(n, s, card) for card in cards], list(range(1, n + 1)))
            equal([node_on(n, s, card) for card in (0, n + 1, n + n)], [0, 0, 0])
    equal([card_of(4, 1, j) for j in (1, 2, 3, 4)], [2, 3, 4, 1])


def test_volume_sizes():
    of_stripe = Sizes(2, 4, 1, 1, 2)
    for stripes, permitted in [(0, False), (1, True), (1024, True), (1025, False)]:
        equal(VolumeSizes(stripes, of_stripe).permitted(), permitted)
    equal(VolumeSizes(1, Sizes(2, 5, 1, 1, 2)).permitted(), False)
    for first in [b"0 2 4 1 1 2", b"1025 2 4 1 1 2", b"2 4 1 1 2", b"1 2 4 1 1 2 2", b"1 2 5 1 1 2", b""]:
        equal(list(volumerun.run([first, b"RB 0", b"", b"? 0"])), ["1 -"] * 3)
    equal(list(volumerun.run([])), [])


def test_memory_of_volumerun():
    """No volume within the limits has too many records; bytes bound the others."""
    for first in [b"8 2 4 4096 1 8", b"1024 12 18 1 1 8", b"1024 10 16 8 0 8", b"9 2 3 3640 0 1"]:
        (got,) = volumerun.run([first, b"RB 0"])
        must(got.startswith("0 block=00"), f"{first} prints {got}")
    for first in [b"9 2 4 4096 1 1", b"1024 12 18 8 1 1", b"9 2 3 3641 0 1", b"1024 2 3 33 0 8"]:
        equal(list(volumerun.run([first, b"RB 0", b"RB 0"])), ["too large"])


VOLUME_ANSWERS = {
    "1": [
        *[b"", b"0", b"0 ", b"R 1", b" 0 R 1", b"0  R 1", b"-0 R 1", b"x R 1", b"0 0 R 1", b"3 r 1"],
        *[b"0 RB 0", b"0 ? 0", b"?", b"? ", b"? 0 0", b"C 1", b"N 1 00", b"CC", b"CC 1 1"],
        *[b"0 C 1", b"0 N 1 00", b"3 N 1 00", b"0 V 00", b"0 M", b"0 J 00"],
        *[b"K", b"K 0", b"0 K ", b"0 K 1", b"0 k", b"0 KK", b"0K"],
        *[b"M", b"M 0", b"m", b"3 M", b"0 M ", b"0 M 1", b"0 m", b"0 MM", b"0M", b"18446744073709551616 M"],
        *[b"0 S 1 1 0102", b"3 S 1 1 0102", b"3 S 9 9 0102"],
        *[b"SB 1 0", b"SB 1 0 0102", b"SB 1 6 0102", b"SB 9 6 0102"],
        *[b"NC 1", b"NC 1 00", b"NC 1 0102", b"NC 1 01020304", b"NC 0 0102", b"NC 5 01020304"],
    ],
    "2": [
        *[b"3 R 1", b"3 S 1 1 01", b"3 Z 1", b"3 L 9", b"18446744073709551616 R 1"],
        *[b"3 K", b"18446744073709551616 K"],
        *[b"2 L 9", b"2 Z 5", b"2 S 9 1 01", b"? 3", b"? 4294967296", b"CC 0", b"CC 3"],
        *[b"RB 6", b"RB 7", b"RB 18446744073709551616"],
        *[b"SB 1 6 01", b"SB 9 0 01", b"SB 9 6 01", b"SB 0 0 01"],
        *[b"NC 0 010203", b"NC 5 010203", b"NC 4294967297 010203"],
    ],
    "0": [
        *[b"2 R 1", b"02 R 01", b"RB 5", b"RB 005", b"? 2", b"2 Z 4", b"CC 2", b"NC 4 010203", b"SB 2 5 01"],
        *[b"2 K", b"02 K"],
    ],
}


def test_lines_of_volumerun():
    for number, lines in VOLUME_ANSWERS.items():
        for line in lines:
            (got,) = takenout.run([b"3 2 4 1 1 2", line])
            equal((line, got.split(" ")[0]), (line, number))
            must(number == "0" or got == f"{number} -", f"{line} prints {got}")


def test_ticks_of_one_stripe():
    """Each stripe has a recent entry; only stripe 1 comes due."""
    calls = "3 2 4 1 1 2, 0 S 1 1 01, 1 S 1 1 01, 2 S 1 1 01, CC 1, 1 K x64, 0 Z 1, 1 Z 1, 2 Z 1"
    equal([*takenout.run(spelled_out(calls))][-4:], ["0 -", "0 no", "0 due", "0 no"])


def test_reads_of_volumes():
    """Of stripe 1, whose rebuild has picked, from the spare, by its number or by a block's."""
    calls = "2 2 4 1 1 2, SB 1 2 01, 1 A 1 3, 1 L 2 x4, RB 2, 1 P 2, RB 2, 1 R 1, RB 3, RB 0, 0 R 1, 1 R 3, RB 4"
    shown = ["4 NORM,L1", "0 set=1.2.3 E=0", SPARE_SHOWN[0], *SPARE_SHOWN, LIVE_SHOWN[1], LIVE_SHOWN[1], "2 -", "2 -"]
    equal([*takenout.run(spelled_out(calls))][-9:], shown)


def test_lost_cards():
    """Whatever card is lost, every block is read back after the rebuilds."""
    rng = random.Random(1)
    for first in [b"1 2 3 1 1 1", b"3 2 4 2 1 2", b"9 3 5 1 2 3", b"2 12 18 1 6 4"]:
        sizes = volumerun.read_sizes(first)
        for card in range(1, sizes.stripe.n + 1):
            lines = volumelists.lost_card(rng, sizes, range(sizes.stripes), card)
            check_read_back(lines, takenout.run([first, *lines]))


def check_read_back(lines, output):
    """Each read shows the last value written: after the rebuilds that of the live table, before that either or 4."""
    values = {}
    rebuilt = max(at for at, line in enumerate(lines) if b" U " in line)
    for at, (line, shown) in enumerate(zip(lines, output, strict=True)):
        call = read_volume_call(line)
        if call.name == "swap":
            values[call.arguments[1]] = call.arguments[2]
        if call.name == "read" and not (at < rebuilt and shown.startswith("4 ")):
            tables = ["live", "spare"] if at < rebuilt else ["live"]
            block = values[call.arguments[0]].hex().upper()
            must(shown in [f"0 block={block} {table}" for table in tables], f"{line} prints {shown}")


def test_stripes_taken_out():
    """The calls of each stripe give the same on a stripe of its own, and demand 3 holds of them."""
    seen = Counter()
    for seed in range(20):
        lines = b"\n".join(volumelists.volume_script(seed, 1000)).split(b"\n")
        for line, shown in zip(lines[1:], takenout.run(lines), strict=True):
            seen[shown] += 1
            seen[line[:2]] += shown == "0 -"
            seen[line[-2:]] += shown == "0 -"
            if shown.startswith("0 block="):
                seen["RB" if line.startswith(b"RB") else "R", shown.split(" ")[2]] += 1
    shown_blocks = [((by, table), 100) for by, table in product(["R", "RB"], ["live", "spare"])]
    for what, floor in [("0 rebuilt", 100), (b"CC", 40), (b"NC", 40), (b" K", 500), *shown_blocks]:
        must(seen[what] > floor, f"{what} occurs {seen[what]} times")


def main():
    tests = {name: test for name, test in globals().items() if name.startswith("test_")}
    for name, test in tests.items():
        begun = time.monotonic()
        test()
        print(f"{name[5:].replace('_', ' ')}: {time.monotonic() - begun:.1f} s", flush=True)
    print(f"all {len(tests)} tests passed")


if __name__ == "__main__":
    main()
