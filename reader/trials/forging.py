"""Writes cells into volumes, by the rules of docs/FORMAT.md and against them.

A `Draft` is a volume in memory, into whose blank cells anybody may write. It plans the slot of a
document as an ingest would, by FORMAT.md alone; a plan may be changed before its cells are written.
"""

import random
import struct
from typing import Callable, Dict, List, Optional, Tuple

from cells import (ABANDON, BLANK, BLOCK, BUCKET, CHILD, COMMIT, DONE, JUMP, NODE, POSTING, RESERVE,
                   STAMP, Image, encode, posting_body)
from index import ENTRIES, Index, fingerprint, half_bytes, pointer_of
from settling import horizon_of
from volume import Volume
from words import words_of

Cells = Dict[int, bytes]


class NoRoom(Exception):
    """The volume has no room for what was to be written."""


def posting(key: int, last: int, tag: bytes, at: int) -> bytes:
    """A posting cell."""
    return encode(POSTING, posting_body(key & 0xFFFFFFFF, last, tag), at)


def jump(target: int, at: int) -> bytes:
    """A jump cell."""
    return encode(JUMP, struct.pack(">I", target), at)


def child(target: int, at: int) -> bytes:
    """A child cell."""
    return encode(CHILD, struct.pack(">I", target), at)


def bucket(slot: int, mark: bytes, at: int) -> bytes:
    """A bucket cell."""
    return encode(BUCKET, struct.pack(">I", slot) + mark, at)


def reserve(start: int, length: int, at: int) -> bytes:
    """A reserve cell."""
    return encode(RESERVE, struct.pack(">II", start, length), at)


def commit(size: int, journal: int, at: int) -> bytes:
    """A commit cell."""
    return encode(COMMIT, struct.pack(">II", size, journal), at)


def stamp(seconds: int, at: int) -> bytes:
    """A stamp cell."""
    return encode(STAMP, struct.pack(">I", seconds), at)


class Plan:
    """The cells of one slot: its document, and for each index cell that it adds its value."""

    def __init__(self, draft: "Draft", identifier: bytes, body: bytes, seconds: Optional[int]):
        self.slot, self.at, self.start = draft.slot, 4 + 4 * draft.slot, draft.edge
        self.stored = bytes([len(identifier) & 255]) + identifier + body
        self.identifier, self.seconds = identifier, seconds
        self.blocks = 0
        self.index: Cells = {}
        # By list the last of its blocks: the one that has room, where one has.
        self.last_blocks: Dict[int, int] = {}

    def phases(self) -> List[Cells]:
        """What is written between two syncs: reserve, store, commit, apply, finish."""
        count = (len(self.stored) + 14) // 15
        place = self.start + self.blocks
        end = place + count + len(self.index)
        store: Cells = {}
        for i in range(count):
            part = self.stored[15 * i:15 * i + 15]
            store[place + i] = (bytes([16 + len(part)]) + part).ljust(16, b"\0")
        for i, target in enumerate(sorted(self.index)):
            store[place + count + i] = self.index[target]
        if self.seconds is not None:
            store[self.at + 3] = stamp(self.seconds, self.at + 3)
        return [{self.at: reserve(self.start, end - self.start, self.at)}, store,
                {self.at + 1: commit(len(self.stored), len(self.index), self.at + 1)},
                dict(self.index),
                {self.at + 2: encode(DONE, struct.pack(">I", self.slot), self.at + 2)}]

    def document_places(self) -> range:
        """Where the document's cells go."""
        place = self.start + self.blocks
        return range(place, place + (len(self.stored) + 14) // 15)

    def journal_places(self) -> range:
        """Where the journal's cells go."""
        place = self.document_places().stop
        return range(place, place + len(self.index))


class Draft:
    """A volume in memory."""

    def __init__(self, raw: bytes) -> None:
        self.raw, self.cells = bytearray(raw), len(raw) // 16
        volume = self.volume()
        self.version, self.slots, self.lists = volume.version, volume.slots, volume.lists
        self.lists_at, self.root, self.pool = volume.lists_at, volume.root, volume.pool
        self.look_again()

    def look_again(self) -> None:
        """Sees which slot is next, where the pool is free, and which stamp is the greatest."""
        volume = self.volume()
        self.slot = horizon_of(volume)
        self.edge = volume.slot(self.slot - 1).end if self.slot else self.pool
        self.seconds = max((slot.stamp for slot in volume.done() if slot.stamp is not None),
                           default=-1)

    def volume(self) -> Volume:
        """The volume as it stands now."""
        return Volume(Image(bytes(self.raw), self.cells))

    def cell(self, at: int) -> bytes:
        """What stands in a cell."""
        return bytes(self.raw[16 * at:16 * at + 16])

    def is_free(self, at: int) -> bool:
        """Whether the device has this cell, and it is blank."""
        return 0 <= at < self.cells and self.cell(at) == BLANK

    def put(self, at: int, cell: bytes) -> bool:
        """Writes a cell where it is free."""
        if not self.is_free(at) or cell == BLANK:
            return False
        self.raw[16 * at:16 * at + 16] = cell
        return True

    def plan(self, identifier: bytes, body: bytes, seconds: Optional[int] = None) -> Plan:
        """The plan of a document in the next slot."""
        if self.slot >= self.slots:
            raise NoRoom
        plan = Plan(self, identifier, body, seconds)
        index, volume = Index(self.volume()), self.volume()
        tags: Dict[int, set] = {}
        for word in words_of(body, self.version):
            number, tag = index.tag_of(word)
            tags.setdefault(number, set()).add(tag)
        for number in sorted(tags):
            last = len(tags[number]) - 1
            for i, tag in enumerate(sorted(tags[number])):
                self._list(plan, index, number, (256 * plan.slot + i, last & 255, tag))
        if seconds is not None:
            tag = struct.pack(">IH", plan.slot, 0)
            self._list(plan, index, volume.word_lists, (seconds, 255, tag))
        self._enter(plan)
        return plan

    def _look(self, plan: Plan, at: int) -> bytes:
        """A cell, as the plan would leave it; one past the device counts as blank."""
        return plan.index.get(at) or (self.cell(at) if at < self.cells else BLANK)

    def _list(self, plan: Plan, index: Index, number: int, fields: Tuple[int, int, bytes]) -> None:
        """Adds a posting to a list: key, last and tag. A pointer that is needed leads to the
        list's last block, and to a new one where that is full."""
        start, key = self.volume().list_at(number), fields[0]
        for _ in range(9):
            place = self._room(plan, start)
            if place < ENTRIES:
                plan.index[start + place] = posting(*fields, start + place)
                return
            greatest = int.from_bytes(self._look(plan, start + ENTRIES - 1)[1:5], "big")
            if key <= greatest:
                raise NoRoom
            at = start + pointer_of(greatest, key)
            if self._look(plan, at) == BLANK:
                plan.index[at] = jump(self._last_block(plan, index, number), at)
            start = int.from_bytes(self._look(plan, at)[1:5], "big")
        raise NoRoom

    def _room(self, plan: Plan, start: int) -> int:
        """The first free place of a block, 128 where it is full."""
        places = (place for place in range(ENTRIES) if self._look(plan, start + place) == BLANK)
        return next(places, ENTRIES)

    def _last_block(self, plan: Plan, index: Index, number: int) -> int:
        """The block of a list that has room; a new one where none has."""
        if number not in plan.last_blocks:
            plan.last_blocks[number] = index.blocks(number)[-1]
        if self._room(plan, plan.last_blocks[number]) == ENTRIES:
            plan.last_blocks[number] = plan.start + plan.blocks
            plan.blocks += BLOCK
        return plan.last_blocks[number]

    def _enter(self, plan: Plan) -> None:
        """Adds the bucket of the plan's identifier, and a node where that is needed."""
        node = self.root
        for half in half_bytes(plan.identifier):
            if self._look(plan, node + half) == BLANK:
                plan.index[node + half] = bucket(plan.slot, fingerprint(plan.identifier),
                                                 node + half)
                return
            at = node + 16 + half
            if self._look(plan, at) == BLANK:
                plan.index[at] = child(plan.start + plan.blocks, at)
                plan.blocks += NODE
            node = int.from_bytes(self._look(plan, at)[1:5], "big")

    def write(self, phases: List[Cells]) -> None:
        """Writes what goes into free cells."""
        if any(at >= self.cells for phase in phases for at in phase):
            raise NoRoom
        for phase in phases:
            for at, cell in phase.items():
                self.put(at, cell)


Change = Callable[[random.Random, Draft, Plan], None]


def some_place(rng: random.Random, draft: Draft) -> int:
    """A cell of some part of the volume."""
    lists = [draft.volume().list_at(number) for number in range(draft.lists)]
    free = min(draft.edge + rng.randrange(40), draft.cells - 1)
    used = rng.randrange(draft.pool, draft.edge) if draft.pool < draft.edge else draft.pool
    return rng.choice([
        rng.randrange(1, 4), rng.randrange(4, draft.lists_at),
        min(4 + 4 * draft.slot + rng.randrange(8), draft.lists_at - 1),
        rng.choice(lists) + rng.choice([rng.randrange(4), rng.randrange(ENTRIES),
                                        rng.randrange(ENTRIES, 248), rng.randrange(248, BLOCK)]),
        draft.root + rng.randrange(NODE), min(used, draft.cells - 1), free,
        rng.randrange(draft.cells)])


def some_target(rng: random.Random, draft: Draft, own: int) -> int:
    """Where a jump or a child cell may lead: to blocks, nodes, near them or elsewhere."""
    index = Index(draft.volume())
    blocks = [start for number in range(draft.lists) for start in index.blocks(number)[:6]]
    return max(0, rng.choice([own, own, own, own + 1, own - 1, draft.pool, draft.edge, 0,
                              rng.randrange(draft.cells), rng.choice(blocks),
                              rng.choice(list(index.nodes())[:8]), 2 ** 32 - 1]))


def index_cell(rng: random.Random, draft: Draft, at: int, own: int, like: bytes = b"") -> bytes:
    """A posting, jump, bucket or child cell for cell `at`, which may resemble another."""
    kind = like[0] if like and rng.random() < 0.7 else rng.choice([POSTING, POSTING, JUMP, BUCKET,
                                                                 CHILD, CHILD])
    slot = rng.choice([draft.slot, draft.slot, max(0, draft.slot - 1), rng.randrange(draft.slots),
                       draft.slots, 2 ** 24 - 1])
    if kind == POSTING:
        tag = like[6:12] if like and like[0] == POSTING and rng.random() < 0.6 else bytes(
            rng.randrange(256) for _ in range(6))
        ordinal = rng.choice([0, 0, 1, 2, 255])
        return posting(256 * slot + ordinal, rng.choice([ordinal, ordinal, 0, 1, 255]), tag, at)
    if kind == BUCKET:
        mark = like[5:12] if like and like[0] == BUCKET and rng.random() < 0.6 else fingerprint(
            b"somebody")
        return bucket(slot & 0xFFFFFF, mark, at)
    target = some_target(rng, draft, own)
    return jump(target, at) if kind == JUMP else child(target, at)


def log_cell(rng: random.Random, draft: Draft, at: int) -> bytes:
    """A cell for the log, mostly of the kind that its place takes."""
    slot, place = divmod(at - 4, 4)
    place = rng.randrange(4) if rng.random() < 0.15 else place
    if place == 0:
        start = rng.choice([draft.edge, draft.edge, draft.pool, draft.edge + 1])
        return reserve(start, rng.choice([1, 2, 3, 40, 300, draft.cells]), at)
    if place == 1:
        if rng.random() < 0.5:
            return encode(ABANDON, b"", at)
        return commit(rng.choice([1, 2, 15, 16, 1048777, 1048778]), rng.choice([0, 1, 2, 9]), at)
    if place == 2:
        return encode(DONE, struct.pack(">I", rng.choice([slot, slot, slot + 1, 1 << 24])), at)
    return stamp(max(0, draft.seconds + rng.choice([0, 1, 5, -1])), at)


def stray_cell(rng: random.Random, draft: Draft) -> None:
    """Writes one foreign cell."""
    at = some_place(rng, draft)
    kind = rng.random()
    if kind < 0.2:
        cell = bytes(rng.randrange(256) for _ in range(16))
    elif kind < 0.3:
        count = rng.randrange(1, 16)
        cell = (bytes([16 + count]) + bytes(range(1, count + 1))).ljust(16, b"\0")
    elif 4 <= at < draft.lists_at:
        cell = log_cell(rng, draft, at)
    else:
        cell = index_cell(rng, draft, at, draft.edge)
    draft.put(at, cell)


# Changes of a plan, each of which breaks what a rule asks.


def without_one(rng: random.Random, _: Draft, plan: Plan) -> None:
    """An index cell is missing."""
    del plan.index[rng.choice(sorted(plan.index))]


def with_another(rng: random.Random, draft: Draft, plan: Plan) -> None:
    """An index cell has another value."""
    at = rng.choice(sorted(plan.index))
    plan.index[at] = index_cell(rng, draft, at, plan.start, plan.index[at])


def with_a_bit(rng: random.Random, _: Draft, plan: Plan) -> None:
    """A bit of an index cell is another."""
    at = rng.choice(sorted(plan.index))
    cell = bytearray(plan.index[at])
    cell[rng.randrange(1, 12)] ^= 1 << rng.randrange(8)
    plan.index[at] = bytes(cell)


def elsewhere(rng: random.Random, draft: Draft, plan: Plan) -> None:
    """An index cell goes to another place."""
    at = rng.choice(sorted(plan.index))
    to = at + rng.choice([-1, 1, 2, 16, -16, 100])
    if draft.lists_at <= to and draft.is_free(to) and to not in plan.index:
        plan.index[to] = plan.index.pop(at)[:12] + to.to_bytes(4, "big")


def one_more(rng: random.Random, draft: Draft, plan: Plan) -> None:
    """A further index cell."""
    index = Index(draft.volume())
    if rng.random() < 0.5:
        start = rng.choice(index.blocks(rng.randrange(draft.lists)))
        size = len(index.front(start).keys)
        at = start + rng.choice([size, size + 1, rng.randrange(BLOCK), rng.randrange(ENTRIES, 248)])
    else:
        at = rng.choice(list(index.nodes())) + rng.randrange(NODE)
    if draft.is_free(at) and at not in plan.index:
        kinds = [POSTING, JUMP] if rng.random() < 0.5 else [BUCKET, CHILD]
        plan.index[at] = index_cell(rng, draft, at, plan.start, bytes([rng.choice(kinds)]) * 16)


def own_part(rng: random.Random, draft: Draft, plan: Plan) -> None:
    """A block or node of its own, or cells that are none, with something that may lead there."""
    own = plan.start + plan.blocks
    plan.blocks += rng.choice([BLOCK, NODE, NODE, NODE - 1, 1])
    index = Index(draft.volume())
    for _ in range(rng.choice([0, 1, 1, 2])):
        to = rng.choice([own, own, own, own + 1, own - 1])
        if rng.random() < 0.6:
            node = rng.choice(list(index.nodes()) + [own])
            under = [node + 16 + x for x in range(16)
                     if not draft.is_free(node + x) and draft.is_free(node + 16 + x)]
            at = node + 16 + rng.randrange(16)
            if under and rng.random() < 0.7:
                at = rng.choice(under)
            plan.index.setdefault(at, child(to, at))
        else:
            start = rng.choice(index.blocks(rng.randrange(draft.lists)))
            keys = index.front(start).keys
            place = ENTRIES + rng.randrange(120)
            if keys and 256 * plan.slot > keys[-1]:
                place = pointer_of(keys[-1], 256 * plan.slot)
            plan.index.setdefault(start + place, jump(to, start + place))
            if rng.random() < 0.5:
                plan.index.setdefault(own, posting(256 * plan.slot, 0, b"others", own))


def in_a_circle(rng: random.Random, draft: Draft, plan: Plan) -> None:
    """Nodes or blocks of its own that lead to each other, or to themselves."""
    first, second = plan.start + plan.blocks, plan.start + plan.blocks + NODE
    plan.blocks += 2 * NODE
    top = draft.root + rng.randrange(16)
    plan.index.setdefault(top, bucket(plan.slot, fingerprint(b"x"), top))
    plan.index.setdefault(top + 16, child(first, top + 16))
    for node, to in ((first, rng.choice([first, second])), (second, first)):
        x = rng.randrange(16)
        plan.index[node + x] = bucket(plan.slot, fingerprint(plan.identifier), node + x)
        plan.index[node + 16 + x] = child(to, node + 16 + x)


CHANGES: List[Change] = [without_one, with_another, with_a_bit, elsewhere, one_more, own_part,
                         own_part, in_a_circle]


def change_journal(rng: random.Random, draft: Draft, plan: Plan, phases: List[Cells]) -> None:
    """A journal cell, or a target, is not what it is to be."""
    at = rng.choice(list(plan.journal_places()))
    target = rng.choice(sorted(plan.index))
    what = rng.randrange(7)
    if what == 0:
        del phases[1][at]
    elif what == 1:
        phases[1][at] = bytes(rng.randrange(256) for _ in range(16))
    elif what == 2:
        other = rng.choice(list(plan.journal_places()))
        phases[1][at], phases[1][other] = phases[1][other], phases[1][at]
    elif what == 3:
        phases[1][at] = index_cell(rng, draft, some_place(rng, draft), plan.start)
    elif what == 4:
        own = rng.choice([at, plan.start, plan.document_places().start - 1,
                          plan.document_places().start, rng.randrange(draft.cells), 2 ** 32 - 1])
        phases[1][at] = phases[1][at][:12] + own.to_bytes(4, "big")
    elif what == 5:
        del phases[3][target]
    else:
        phases[3][target] = index_cell(rng, draft, target, plan.start)


def change_document(rng: random.Random, plan: Plan, phases: List[Cells]) -> None:
    """A document cell, or the commit cell, is not what it is to be."""
    at = rng.choice(list(plan.document_places()))
    what = rng.randrange(4)
    if what == 0:
        del phases[1][at]
    elif what == 1:
        phases[1][at] = bytes([rng.randrange(16, 33)]) + phases[1][at][1:]
    elif what == 2:
        cell = bytearray(phases[1][at])
        cell[rng.randrange(16)] ^= 1 << rng.randrange(8)
        phases[1][at] = bytes(cell)
    else:
        at = plan.at + 1
        size = max(0, len(plan.stored) + rng.choice([0, -1, 1, 15]))
        phases[2] = {at: commit(size, max(0, len(plan.index) + rng.choice([0, 1, -1, 9])), at)}


def part_of(rng: random.Random, phases: List[Cells]) -> List[Cells]:
    """The first phases, and of the last one of these a part: what a crash leaves."""
    kept = phases[:rng.randrange(len(phases) + 1)]
    share = rng.choice([0.1, 0.5, 0.9])
    if kept:
        kept[-1] = {at: cell for at, cell in kept[-1].items() if rng.random() < share}
    return kept


def forged_slot(rng: random.Random, draft: Draft, identifier: bytes, body: bytes) -> None:
    """Writes a slot of somebody else's, by the rules but for some changes."""
    seconds = None
    if draft.version == 3:
        seconds = max(0, draft.seconds + rng.choice([1, 1, 1, 7, 1000, 0, -1]))
    plan = draft.plan(identifier, body, seconds)
    for _ in range(rng.choice([0, 1, 1, 1, 2, 3])):
        if plan.index:
            rng.choice(CHANGES)(rng, draft, plan)
    if rng.random() < 0.1:
        plan.blocks += rng.choice([1, NODE, BLOCK])
    phases = plan.phases()
    if plan.index and rng.random() < 0.2:
        change_journal(rng, draft, plan, phases)
    if rng.random() < 0.1:
        change_document(rng, plan, phases)
    if seconds is not None and rng.random() < 0.05:
        phases[1].pop(plan.at + 3)
    if rng.random() < 0.25:
        phases = part_of(rng, phases)
    draft.write(phases)
