"""For each rule of docs/FORMAT.md a few ways to break it, as the least one that is broken."""

import random
import struct
from typing import Callable, Dict, List, NamedTuple

from cells import ABANDON, BLOCK, DONE, JUMP, NODE, POSTING, encode
from forging import Draft, NoRoom, Plan, bucket, child, commit, jump, posting, reserve, stamp
from index import ENTRIES, POINTERS_END, Index, fingerprint, pointer_of


def next_plan(rng: random.Random, draft: Draft, body: bytes = b"hello foreign words") -> Plan:
    """The plan of a document of somebody else's in the next slot."""
    seconds = draft.seconds + rng.choice([1, 2, 50]) if draft.version == 3 else None
    return draft.plan(b"f%d" % rng.randrange(10 ** 6), body, seconds)


def break_1(rng: random.Random, draft: Draft) -> None:
    """A reserve cell begins elsewhere, lies outside the pool, is malformed, or comes too soon."""
    slot = min(draft.slot + rng.choice([0, 0, 0, 1, 2]), draft.slots - 1)
    at = 4 + 4 * slot
    start = draft.edge + (rng.choice([-1, 1, 2]) if slot == draft.slot else 0)
    draft.put(at, rng.choice([reserve(start, 1, at), reserve(start, 1, at),
                              reserve(draft.cells - 1, 2, at), reserve(0, 5, at),
                              reserve(draft.edge, 0, at), b"\x02" * 16]))


def after_a_gap(rng: random.Random, draft: Draft) -> None:
    """A reservation begins behind the end of the one before, and another slot follows."""
    draft.edge += rng.choice([1, 5])
    done_with(draft, next_plan(rng, draft))
    draft.look_again()
    done_with(draft, next_plan(rng, draft))


def abandoned_slot(draft: Draft, cells: int) -> None:
    """Gives the next slot up, with so many cells."""
    draft.look_again()
    at = 4 + 4 * draft.slot
    if draft.slot >= draft.slots or draft.edge + cells > draft.cells:
        raise NoRoom
    draft.put(at, reserve(draft.edge, cells, at))
    draft.put(at + 1, encode(ABANDON, b"", at + 1))
    draft.look_again()


def break_2(rng: random.Random, draft: Draft) -> None:
    """An outcome cell of a slot that reserves nothing or too little, or one that is none."""
    slot = min(draft.slot + rng.choice([0, 0, 1, 2]), draft.slots - 1)
    at = 4 + 4 * slot
    if slot == draft.slot and rng.random() < 0.5:
        draft.put(at, reserve(draft.edge, 2, at))
    draft.put(at + 1, rng.choice([encode(ABANDON, b"\1", at + 1), commit(200, 7, at + 1),
                                  commit(1, 1, at + 1), b"\x04" * 16]))


def break_3(rng: random.Random, draft: Draft) -> None:
    """A done cell of a slot that is not committed, or of another slot."""
    slot = min(draft.slot + rng.choice([0, 0, 1]), draft.slots - 1)
    at = 4 + 4 * slot
    if slot == draft.slot and rng.random() < 0.6:
        draft.put(at, reserve(draft.edge, 2, at))
        if rng.random() < 0.5:
            draft.put(at + 1, encode(ABANDON, b"", at + 1))
    number = rng.choice([slot, slot, slot + 1, 1 << 24])
    draft.put(at + 2, encode(DONE, struct.pack(">I", number), at + 2))


def break_4(rng: random.Random, draft: Draft) -> None:
    """A document that is not whole, or whose identifier is none."""
    plan = next_plan(rng, draft)
    what = rng.randrange(5)
    if what < 2:
        name = [b"a b", b"\xc3\xa9"][what]
        plan.stored = bytes([len(name)]) + name
    elif what == 2:
        plan.stored = bytes([201]) + b"x" * 220
    phases = plan.phases()
    at = rng.choice(list(plan.document_places()))
    if what == 3:
        del phases[1][at]
    elif what == 4:
        phases[1][at] = b"\x1f" + phases[1][at][1:15] + b"\1"
        phases[2] = {plan.at + 1: commit(len(plan.stored) - 1, len(plan.index), plan.at + 1)}
    draft.write(phases)


def break_5(rng: random.Random, draft: Draft) -> None:
    """A journal with a blank cell, with one that copies nothing, or with a target out of order."""
    plan = next_plan(rng, draft)
    phases = plan.phases()
    places = list(plan.journal_places())
    at, what = rng.choice(places), rng.choice([0, 1, 2, 2, 3])
    if what == 0:
        del phases[1][at]
    elif what == 1:
        phases[1][at] = b"\x77" * 16
    elif what == 2 and len(places) > 1:
        first, second = phases[1][places[0]], phases[1][places[1]]
        phases[1][places[0]], phases[1][places[1]] = rng.choice([(second, first), (first, first)])
    else:
        outside = rng.choice([5, plan.document_places().start, draft.cells - 1, 2 ** 32 - 1])
        phases[1][places[-1]] = jump(draft.pool, outside)
    draft.write(phases)


def break_6(rng: random.Random, draft: Draft) -> None:
    """A target that is blank in a done slot, or holds another value."""
    plan = next_plan(rng, draft)
    phases = plan.phases()
    at = rng.choice(sorted(plan.index))
    if rng.random() < 0.5:
        del phases[3][at]
    else:
        cell = bytearray(phases[3][at])
        cell[11] ^= 1
        phases[3][at] = bytes(cell)
    draft.write(phases[:4] if rng.random() < 0.3 else phases)


def break_7(rng: random.Random, draft: Draft) -> None:
    """A cell where none is to stand."""
    spare = 7 + 4 * min(draft.slot + rng.choice([-1, 0, 1]), draft.slots - 1)
    at = rng.choice([rng.randrange(1, 4), max(7, spare), max(7, spare), draft.cells - 1,
                     draft.root + rng.randrange(NODE), draft.lists_at + rng.randrange(BLOCK),
                     draft.edge + rng.randrange(20)])
    if (at - 7) % 4 == 0 and at < draft.lists_at and rng.random() < 0.7:
        draft.put(at, stamp(max(0, draft.seconds + rng.choice([0, 0, 1, -1])), at))
    else:
        draft.put(at, rng.choice([b"\x55" * 16, posting(0, 0, b"abcdef", at)]))


def done_with(draft: Draft, plan: Plan) -> None:
    """Writes the plan whole."""
    draft.write(plan.phases())


def a_block(rng: random.Random, draft: Draft) -> int:
    """The first cell of a block."""
    index = Index(draft.volume())
    return rng.choice([start for number in range(draft.lists) for start in index.blocks(number)])


def break_8(rng: random.Random, draft: Draft) -> None:
    """A cell at the end of a block, one behind a gap, one with a smaller key, or no posting."""
    plan = next_plan(rng, draft, b"")
    start = a_block(rng, draft)
    size = len(Index(draft.volume()).front(start).keys)
    what = rng.randrange(4)
    at = start + [248 + rng.randrange(8), min(size + 1 + rng.randrange(3), 127), size, size][what]
    if what == 3 and at not in plan.index:
        plan.index[at] = child(draft.pool, at)
    elif what == 2 and size:
        key = Index(draft.volume()).front(start).keys[-1]
        plan.index[at] = posting(rng.choice([key, key & ~255]), 255, b"abcdef", at)
    else:
        plan.index[at] = posting(256 * plan.slot, 0, b"abcdef", at)
    done_with(draft, plan)


def break_9(rng: random.Random, draft: Draft) -> None:
    """A posting that lies: of another tag, number of tags, slot or list."""
    plan = next_plan(rng, draft, b"hello")
    start = a_block(rng, draft)
    at = start + len(Index(draft.volume()).front(start).keys)
    while at in plan.index:
        at += 1
    if at < start + ENTRIES:
        slot = rng.choice([plan.slot, plan.slot, plan.slot + 1])
        tag = rng.choice([b"abcdef", b"\x2c\xf2\x4d\xba\x5f\xb0"])
        key = 256 * slot + 5 if draft.version < 3 else max(256 * slot + 5, draft.seconds + 60)
        plan.index[at] = posting(key, 255, tag, at)
    done_with(draft, plan)


def in_another_list(rng: random.Random, draft: Draft) -> None:
    """A posting of the document stands in the list of another word, too."""
    plan, index = next_plan(rng, draft, b"hello"), Index(draft.volume())
    own, tag = index.tag_of(b"hello")
    other = rng.choice([number for number in range(draft.lists) if number != own] or [own])
    start = index.volume.list_at(other)
    place = len(index.front(start).keys)
    cell = next(cell for cell in plan.index.values() if cell[0] == POSTING and cell[6:12] == tag)
    at = start + place
    if place == ENTRIES or at in plan.index:
        raise NoRoom
    plan.index[at] = cell[:12] + at.to_bytes(4, "big")
    done_with(draft, plan)


class SecondBlock(NamedTuple):
    """The plan of a document whose postings of list 0 go to a block of its own, and the pointers
    that lead there, at least two, from a full block."""

    plan: Plan
    pointers: List[int]

    @property
    def start(self) -> int:
        """The block of its own."""
        return self.plan.start

    def postings(self) -> List[int]:
        """The cells of its postings in this block."""
        return [at for at in sorted(self.plan.index) if self.start <= at < self.start + ENTRIES]


def words_of_list_0(draft: Draft, name: bytes, count: int) -> bytes:
    """So many words of list 0 that begin with this name."""
    index, words, number = Index(draft.volume()), [], 0
    while len(words) < count:
        word = b"%s%d" % (name, number)
        number += 1
        if index.tag_of(word)[0] == 0:
            words.append(word)
    return b" ".join(words)


def second_block(rng: random.Random, draft: Draft) -> SecondBlock:
    """Fills the first block of list 0 by a document, and plans another."""
    room = ENTRIES - len(Index(draft.volume()).front(draft.lists_at).keys)
    if room:
        done_with(draft, next_plan(rng, draft, words_of_list_0(draft, b"fill", room)))
        draft.look_again()
    for _ in range(20):
        plan = next_plan(rng, draft, words_of_list_0(draft, b"more", 40))
        pointers = [at for at in sorted(plan.index) if plan.index[at][0] == JUMP
                    and ENTRIES <= at - draft.lists_at < POINTERS_END]
        leads = {int.from_bytes(plan.index[at][1:5], "big") for at in pointers}
        # Without a node, so that the block part is this block.
        if len(pointers) > 1 and leads == {plan.start} and plan.blocks == BLOCK:
            return SecondBlock(plan, pointers)
    raise NoRoom


def overlapping_blocks(rng: random.Random, draft: Draft, step: int = 1) -> None:
    """Two blocks of a slot, of which one begins at the pointer places of the other. The least
    pointer leads to the first of them."""
    plan, pointers = second = second_block(rng, draft)
    starts = [second.start, second.start + ENTRIES][::step]
    postings = [plan.index.pop(at) for at in second.postings()]
    full = draft.cell(draft.lists_at + ENTRIES - 1)
    firsts = [cell for cell in postings if draft.lists_at + pointer_of(
        int.from_bytes(full[1:5], "big"), int.from_bytes(cell[1:5], "big")) == pointers[0]]
    for start, cells in zip(starts, (firsts, [cell for cell in postings if cell not in firsts])):
        for at, cell in enumerate(cells, start):
            plan.index[at] = cell[:12] + at.to_bytes(4, "big")
    for at in pointers:
        plan.index[at] = jump(starts[at != pointers[0]], at)
    plan.blocks += ENTRIES
    done_with(draft, plan)


def overlapping_blocks_turned(rng: random.Random, draft: Draft) -> None:
    """The same, and the least pointer leads to the second of them."""
    overlapping_blocks(rng, draft, -1)


def node_in_a_block(rng: random.Random, draft: Draft) -> None:
    """A child cell leads into a block."""
    second = second_block(rng, draft)
    at = rng.choice(free_child_cells(draft, second.plan))
    to = second.start + rng.choice([ENTRIES, ENTRIES + 5, BLOCK - NODE, BLOCK - 1])
    second.plan.blocks += NODE if to == second.start + BLOCK - 1 else 0
    second.plan.index[at] = child(to, at)
    done_with(draft, second.plan)


def block_past_its_part(rng: random.Random, draft: Draft) -> None:
    """A block whose pointer places are those of the document and the journal."""
    second = second_block(rng, draft)
    if len(second.plan.document_places()) + len(second.plan.index) > POINTERS_END - ENTRIES:
        raise NoRoom
    second.plan.blocks -= ENTRIES
    done_with(draft, second.plan)
    # With an abandoned slot behind it, the block lies before the edge.
    abandoned_slot(draft, BLOCK)


def break_10(rng: random.Random, draft: Draft) -> None:
    """A pointer of a block that is not full, one that leads nowhere or to a block without a key of
    its span, or a cell that is none."""
    plan = next_plan(rng, draft, b"hello some more foreign words of one list")
    index, own = Index(draft.volume()), plan.start + plan.blocks
    fronts = {start: index.front(start).keys for number in range(draft.lists)
              for start in index.blocks(number)}
    full = [start for start, keys in fronts.items() if len(keys) == ENTRIES]
    start = rng.choice(full if full and rng.random() < 0.7 else sorted(fronts))
    mine = [at for at in sorted(plan.index) if start <= at < start + ENTRIES]
    at, to = start + ENTRIES + rng.randrange(120), rng.choice([0, own, own, own, draft.pool])
    plan.blocks += BLOCK if to == own else 0
    if len(mine) > 1 and rng.random() < 0.6:
        # The last posting goes to a block of its own, before this one is full.
        last = plan.index.pop(mine[-1])
        before = int.from_bytes(plan.index[mine[-2]][1:5], "big")
        at = start + pointer_of(before, int.from_bytes(last[1:5], "big"))
        if to == own:
            plan.index[own] = last[:12] + own.to_bytes(4, "big")
    plan.index[at] = rng.choice([jump(to, at)] * 5 + [posting(0, 0, b"abcdef", at)])
    done_with(draft, plan)


def break_11(rng: random.Random, draft: Draft) -> None:
    """A bucket off its path, of another fingerprint or slot, or a cell that is none."""
    if rng.random() < 0.3 and overlap(rng, draft):
        return
    plan = next_plan(rng, draft)
    free = [draft.root + x for x in range(16)
            if draft.is_free(draft.root + x) and draft.root + x not in plan.index]
    if free:
        at = rng.choice(free)
        mark = rng.choice([fingerprint(plan.identifier), b"1234567"])
        slot = rng.choice([plan.slot, plan.slot, draft.slots, 0])
        plan.index[at] = rng.choice([bucket(slot, mark, at), bucket(slot, mark, at),
                                     child(draft.pool, at)])
    else:
        at = next(at for at, cell in plan.index.items() if cell[0] == 8)
        plan.index[at] = bucket(plan.slot, b"1234567", at)
    done_with(draft, plan)


def overlap(rng: random.Random, draft: Draft, by: int = 1) -> bool:
    """Two nodes of one slot that overlap; by one cell, so that a bucket on its path in one is off it
    in the other. It answers whether there was a place for them."""
    for _ in range(20):
        plan = next_plan(rng, draft)
        others = [draft.root + 16 + x for x in range(16) if not draft.is_free(draft.root + x)
                  and draft.is_free(draft.root + 16 + x) and draft.root + 16 + x not in plan.index]
        mine = [at for at in plan.index if draft.root + 16 <= at < draft.root + NODE]
        if mine and others:
            node = int.from_bytes(plan.index[mine[0]][1:5], "big")
            plan.blocks += by
            other = rng.choice(others)
            plan.index[other] = child(node + by, other)
            done_with(draft, plan)
            return True
    return False


def break_12(rng: random.Random, draft: Draft) -> None:
    """A child cell under a blank bucket, one that leads nowhere, or to cells of somebody else."""
    plan = next_plan(rng, draft)
    under = [draft.root + 16 + x for x in range(16) if draft.is_free(draft.root + 16 + x)
             and draft.root + 16 + x not in plan.index]
    written = [at for at in under if not draft.is_free(at - 16)]
    if not under:
        return
    at = rng.choice(written or under) if rng.random() < 0.7 else rng.choice(under)
    own = plan.start + plan.blocks
    to = rng.choice([0, draft.pool, own, own, draft.cells])
    if to == own:
        plan.blocks += rng.choice([NODE - 1, NODE, NODE, 1])
    plan.index[at] = child(to, at)
    done_with(draft, plan)


def free_child_cells(draft: Draft, plan: Plan) -> List[int]:
    """The free child cells of the root under written buckets."""
    found = [draft.root + 16 + x for x in range(16) if not draft.is_free(draft.root + x)
             and draft.is_free(draft.root + 16 + x) and draft.root + 16 + x not in plan.index]
    if not found:
        raise NoRoom
    return found


def overlapping_nodes(rng: random.Random, draft: Draft) -> None:
    """Two nodes, of which one begins at the child cells of the other."""
    if not overlap(rng, draft, 16):
        raise NoRoom


def node_past_the_edge(rng: random.Random, draft: Draft) -> None:
    """A child cell leads to a node whose own child cells are those of the document and the journal,
    and of nobody."""
    plan = next_plan(rng, draft, b"")
    own = plan.start + plan.blocks
    plan.blocks += NODE // 2
    at = rng.choice(free_child_cells(draft, plan))
    plan.index[at] = child(own, at)
    done_with(draft, plan)


def node_of_nobody(rng: random.Random, draft: Draft) -> None:
    """A child cell leads to the cells of a slot that was given up."""
    start = draft.edge
    abandoned_slot(draft, NODE)
    plan = next_plan(rng, draft)
    at = rng.choice(free_child_cells(draft, plan))
    plan.index[at] = child(start, at)
    done_with(draft, plan)


def break_13(rng: random.Random, draft: Draft) -> None:
    """A document without one of its postings, or with too many words of a list."""
    body = b"hello foreign words"
    plan = next_plan(rng, draft, body)
    postings = sorted(at for at, cell in plan.index.items() if cell[0] == 6)
    del plan.index[rng.choice(postings)]
    done_with(draft, plan)


def without_a_pointer(rng: random.Random, draft: Draft) -> None:
    """A pointer is missing to a block to which others lead."""
    second = second_block(rng, draft)
    del second.plan.index[rng.choice(second.pointers)]
    done_with(draft, second.plan)


def break_14(rng: random.Random, draft: Draft) -> None:
    """A document without a bucket, or with the identifier of another."""
    plan = next_plan(rng, draft)
    taken = [identifier for identifier in map(draft.volume().identifier, draft.volume().done())
             if identifier]
    if taken and rng.random() < 0.5:
        plan = draft.plan(rng.choice(taken), b"hello", plan.seconds)
    else:
        for at in [at for at, cell in plan.index.items() if cell[0] in (8, 9)]:
            del plan.index[at]
        plan.blocks = 0
    done_with(draft, plan)


def break_15(rng: random.Random, draft: Draft) -> None:
    """A block part with cells that no pointer claims."""
    plan = next_plan(rng, draft)
    plan.blocks += rng.choice([1, NODE, BLOCK])
    done_with(draft, plan)


def two_tiles(rng: random.Random, draft: Draft) -> None:
    """A jump and a child cell that stand in no block and no node lead to the same cell."""
    plan = next_plan(rng, draft)
    own = plan.start + plan.blocks
    plan.blocks += NODE
    first, second = sorted(rng.sample(range(own, own + NODE), 2))
    jump_at, child_at = rng.sample([first, second], 2)
    plan.index[jump_at], plan.index[child_at] = jump(own, jump_at), child(own, child_at)
    done_with(draft, plan)


Break = Callable[[random.Random, Draft], None]
BREAKS: Dict[int, List[Break]] = {
    1: [break_1, after_a_gap], 2: [break_2], 3: [break_3], 4: [break_4], 5: [break_5],
    6: [break_6], 7: [break_7], 8: [break_8], 9: [break_9, in_another_list],
    10: [break_10, overlapping_blocks, overlapping_blocks_turned, node_in_a_block,
         block_past_its_part],
    11: [break_11], 12: [break_12, overlapping_nodes, node_past_the_edge, node_of_nobody],
    13: [break_13, without_a_pointer], 14: [break_14], 15: [break_15, two_tiles]}
WAYS: List[Break] = [way for ways in BREAKS.values() for way in ways]
