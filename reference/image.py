"""The image of a stripe: request C-13 of document 02, the format of docs/IMAGE.md.

The writer puts field after field, in the document's order; the reader looks
for each field at the document's offset. The reader is for tests only: it gives
back the state of an image, and does not look for what no writer gives.
"""

from dataclasses import replace

import limits
from answers import ACCEPTED, Answer
from stripe import EXP, INIT, L0, L1, LOCKING, NORM, PICKING, RECONS, SETTLING, UNL, UNLOCKING, WRITING
from stripe import Client, Entry, Hand, Node, Rebuild, Sizes, Stripe, WriteId

# Of a code its place in the list is the number.
OPMODES = [NORM, RECONS, INIT]
LMODES = [UNL, L0, L1, EXP]
PHASES = [None, LOCKING, PICKING, WRITING, SETTLING, UNLOCKING]

SECTIONS = 6
HEADER = 4 + 8 * SECTIONS
SIZES, NODE, CLIENT = 8, 140, 135  # lengths of the sizes and of a record
ID, ENTRY = 6, 8
ENTRIES, IDS = 16, 8  # slots


def lengths(sizes):
    """Of each section, in order."""
    blocks = sizes.n * sizes.B
    return [SIZES, sizes.n * NODE, sizes.m * CLIENT, blocks, sizes.m * sizes.B, blocks]


def length(sizes):
    """Of the image."""
    return HEADER + sum(lengths(sizes))


# ----------------------------------------------------------------- writing


def write(stripe, buffer):
    """Writes the image into the buffer. A refused call leaves it as it was."""
    if not may_be_written(stripe) or len(buffer) != length(stripe.sizes):
        return Answer(1)
    image = image_of(stripe)
    buffer[: len(image)] = image
    return ACCEPTED


def may_be_written(stripe):
    """Sizes, tables and records are within the limits."""
    return stripe.sizes.permitted() and limits.tables_within(stripe) and limits.within(stripe)


def image_of(stripe):
    sections = [
        sizes_bytes(stripe.sizes),
        b"".join(node_bytes(node) for node in stripe.nodes.values()),
        b"".join(client_bytes(client) for client in stripe.clients.values()),
        bytes(stripe.blocks),
        bytes(stripe.differences),
        bytes(stripe.spare),
    ]
    return header(sections) + b"".join(sections)


def header(sections):
    """The count, then offset and length of each section."""
    fields = word(len(sections))
    offset = HEADER
    for section in sections:
        fields += word(offset) + word(len(section))
        offset += len(section)
    return fields


def byte(value):
    return bytes([value])


def word(value):
    """The low byte first."""
    return value.to_bytes(4, "little")


def set_word(members):
    return word(sum(1 << (j - 1) for j in members))


def slots(parts, count, width):
    """Their number, then the parts; the slots past them are zeros."""
    return byte(len(parts)) + b"".join(parts).ljust(count * width, b"\0")


def sizes_bytes(sizes):
    return bytes([sizes.k, sizes.n, sizes.td, sizes.m]) + word(sizes.B)


def id_bytes(id):
    return bytes([id.client, id.position]) + word(id.number)


def entry_bytes(entry):
    return id_bytes(entry.id) + byte(0 if entry.recent else 1) + byte(entry.age)


def node_bytes(node):
    modes = bytes([OPMODES.index(node.opmode), LMODES.index(node.lmode), node.holder or 0])
    entries = slots([entry_bytes(entry) for entry in node.entries], ENTRIES, ENTRY)
    return modes + word(node.epoch) + set_word(node.rset) + entries


def previous_bytes(previous):
    return bytes(1 + ID) if previous is None else byte(1) + id_bytes(previous)


def hand_bytes(hand):
    if hand is None:
        return bytes(22)
    return byte(1) + id_bytes(hand.id) + previous_bytes(hand.previous) + word(hand.epoch) + set_word(hand.done)


def rebuild_bytes(rebuild):
    """The phase, its node, its set and its epoch."""
    phase = rebuild and rebuild.phase
    node, members, epoch = 0, set(), 0
    if phase == LOCKING:
        node = rebuild.count
        members = {j for j, lmode in enumerate(rebuild.old_lmodes, start=1) if lmode == EXP}
    elif phase == PICKING:
        node = min(rebuild.untightened, default=0)
    elif phase is not None:
        node = rebuild.count + 1
    if phase == WRITING:
        members = rebuild.chosen
    if phase in (WRITING, SETTLING):
        epoch = rebuild.E
    return byte(PHASES.index(phase)) + byte(node) + set_word(members) + word(epoch)


def client_bytes(client):
    finished, moved = ([id_bytes(id) for id in ids] for ids in (client.finished, client.moved))
    return (
        hand_bytes(client.hand)
        + rebuild_bytes(client.rebuild)
        + byte(client.sweeps)
        + word(client.next_number)
        + slots(finished, IDS, ID)
        + slots(moved, IDS, ID)
    )


# ----------------------------------------------------------------- reading


class NoImage(Exception):
    """The bytes begin as no image of this layout does."""


def read(image):
    """The stripe that an image is of."""
    found = sections_of(image)
    sizes = sizes_at(found[0])
    stripe = Stripe(sizes, found[5], found[4])
    stripe.nodes = {j: node_at(record) for j, record in enumerate(records(found[1], NODE), start=1)}
    stripe.clients = {c: client_at(record, sizes) for c, record in enumerate(records(found[2], CLIENT), start=1)}
    stripe.blocks = bytearray(found[3])
    return stripe


def pairs(image):
    """Offset and length of each section, as the header has them."""
    return [(word_at(image, 4 + 8 * i), word_at(image, 8 + 8 * i)) for i in range(SECTIONS)]


def sections_of(image):
    if word_at(image, 0) != SECTIONS or word_at(image, 8) != SIZES:
        raise NoImage
    return [image[offset : offset + length] for offset, length in pairs(image)]


def records(section, width):
    return [section[first : first + width] for first in range(0, len(section), width)]


def word_at(record, offset):
    return int.from_bytes(record[offset : offset + 4], "little")


def set_at(record, offset):
    bits = word_at(record, offset)
    return {j for j in range(1, 33) if bits >> (j - 1) & 1}


def sizes_at(record):
    return Sizes(k=record[0], n=record[1], B=word_at(record, 4), td=record[2], m=record[3])


def id_at(record, offset):
    return WriteId(record[offset], record[offset + 1], word_at(record, offset + 2))


def ids_at(record, offset):
    """A count and the ids after it."""
    return [id_at(record, offset + 1 + ID * i) for i in range(record[offset])]


def entry_at(record, offset):
    return Entry(id_at(record, offset), record[offset + 6] == 0, record[offset + 7])


def node_at(record):
    return Node(
        opmode=OPMODES[record[0]],
        lmode=LMODES[record[1]],
        holder=record[2] or None,
        epoch=word_at(record, 3),
        rset=frozenset(set_at(record, 7)),
        entries=[entry_at(record, 12 + ENTRY * i) for i in range(record[11])],
    )


def hand_at(record):
    if record[0] == 0:
        return None
    id = id_at(record, 1)
    previous = id_at(record, 8) if record[7] else None
    return Hand(id.position, id, previous, epoch=word_at(record, 14), done=set_at(record, 18))


def rebuild_at(record, sizes):
    phase, node, members, E = PHASES[record[22]], record[23], set_at(record, 24), word_at(record, 28)
    if phase is None:
        return None
    if phase == LOCKING:
        return Rebuild(phase, node, [EXP if j in members else UNL for j in range(1, node + 1)])
    if phase == PICKING:
        return Rebuild(phase, untightened=list(range(node, sizes.n + 1)) if node else [])
    return Rebuild(phase, node - 1, chosen=frozenset(members), E=E)


def client_at(record, sizes):
    return Client(
        hand=hand_at(record),
        rebuild=rebuild_at(record, sizes),
        finished=ids_at(record, 37),
        moved=ids_at(record, 86),
        sweeps=record[32],
        next_number=word_at(record, 33),
    )


# ------------------------------------------------------------- equal states


def state(stripe):
    """All of a stripe that has a meaning."""
    clients = [replace(client, rebuild=with_meaning(client.rebuild)) for client in stripe.clients.values()]
    tables = [bytes(table) for table in (stripe.blocks, stripe.differences, stripe.spare)]
    return stripe.sizes, list(stripe.nodes.values()), clients, tables


def with_meaning(rebuild):
    """The rebuild with what its phase needs, and nothing else."""
    if rebuild is None:
        return None
    needs = {
        LOCKING: ["count", "old_lmodes"],
        PICKING: ["untightened"],
        WRITING: ["count", "chosen", "E"],
        SETTLING: ["count", "E"],
        UNLOCKING: ["count"],
    }
    return Rebuild(rebuild.phase, **{name: getattr(rebuild, name) for name in needs[rebuild.phase]})
