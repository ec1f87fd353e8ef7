"""FORMAT.md, "The rules": for each of the fifteen the cells at which it is broken."""

from bisect import bisect_left
from typing import Callable, Dict, Iterator, List, Optional, Set, Tuple

from cells import BLANK, BLOCK, CHILD, JUMP, NODE, NOWHERE, ChildCell, PostingCell
from index import ENTRIES, POINTERS_END, Index, fingerprint, half_bytes, span_of
from volume import COMMITTED, DONE, Slot

Cells = Iterator[int]


def rule_1(index: Index) -> Cells:
    """Reserve cells: a reservation begins where the one before ends, which is that of a slot that
    has ended."""
    v = index.volume
    for slot in v.with_cells():
        if not slot.is_taken:
            continue
        before = v.slot(slot.number - 1) if slot.number else None
        follows = (slot.start == v.pool if before is None
                   else before.has_ended and slot.start == before.end)
        if not slot.reserves or not follows:
            yield slot.at


def rule_2(index: Index) -> Cells:
    """Outcome cells: an abandon cell, or a commit cell of no more than is reserved."""
    for slot in index.volume.with_cells():
        if slot.raw[1] == BLANK:
            continue
        commits = slot.commit is not None and slot.fits and slot.is_stamped
        if not slot.is_taken or not (slot.has_abandon or commits):
            yield slot.at + 1


def rule_3(index: Index) -> Cells:
    """Done cells: each names its slot, behind a commit cell."""
    for slot in index.volume.with_cells():
        if slot.raw[2] != BLANK and not (slot.names_itself and slot.commit):
            yield slot.at + 2


def rule_4(index: Index) -> Cells:
    """Commit cells: the document cells spell a document."""
    for slot in index.volume.with_parts():
        if index.volume.identifier(slot) is None:
            yield slot.at + 1


def rule_5(index: Index) -> Cells:
    """Journal cells: copies of index cells that the slot may add, in rising order."""
    v = index.volume
    for slot in v.with_parts():
        # The target of the cell before: NOWHERE, which no target is greater than, where it copies
        # nothing.
        before = -1
        for at, target, raw in v.journal(slot).cells():
            if raw == BLANK:
                yield slot.at + 1
            elif not (before < target < slot.document_at and is_index_cell(index, slot, target)):
                yield at
            before = target


def is_index_cell(index: Index, slot: Slot, at: int) -> bool:
    """Whether the cell is an index cell of this slot or a lower one."""
    v = index.volume
    if at < v.pool:
        return at >= v.lists_at
    return any(owner.number <= slot.number for owner in v.owners(at, 1))


def rule_6(index: Index) -> Cells:
    """Journal cells: the target holds the same, or is blank before the slot is done."""
    v = index.volume
    for slot in v.with_parts():
        for at, target, raw in v.journal(slot).cells():
            if target != NOWHERE and v.image.cell(target) != raw:
                if slot.state != COMMITTED or not v.image.is_blank(target):
                    yield at


def rule_7(index: Index) -> Cells:
    """Cells astray: what no slot has put where it stands."""
    v, written = index.volume, index.image.written
    yield from (at for at, _ in written(1, 4))
    greatest = -1
    for slot in v.with_cells():
        if slot.raw[3] != BLANK:
            if slot.stamp is None or not slot.is_taken or slot.stamp <= greatest:
                yield slot.at + 3
        if slot.state == DONE and slot.stamp is not None:
            greatest = max(greatest, slot.stamp)
    named: Set[int] = set().union(*(v.journal(slot).targets for slot in v.done()))
    parts = [(v.lists_at, v.pool)] + [(slot.start, slot.document_at) for slot in v.done()]
    for start, end in parts:
        yield from (at for at, _ in written(start, end) if at not in named)
    for edge in v.edges():
        yield from (at for at, _ in written(edge, v.image.cells))


def rule_8(index: Index) -> Cells:
    """Blocks: the first 128 places hold postings with rising keys, and the last eight nothing."""
    for number in range(index.volume.lists):
        for start in index.blocks(number):
            # Up to the end of the front all is well; the places behind it are in question.
            keys = index.front(start).keys
            last, before = start + len(keys) - 1, keys[-1] if keys else -1
            for at, _ in index.image.written(start + len(keys), start + ENTRIES):
                record = index.image.record(at)
                key = record.key if isinstance(record, PostingCell) else None
                if key is None or at != last + 1 or before is None or key <= before:
                    yield at
                last, before = at, key
            yield from (at for at, _ in index.image.written(start + POINTERS_END, start + BLOCK))


def rule_9(index: Index) -> Cells:
    """Postings at the first 128 places: each is one of a live slot's document."""
    v = index.volume
    true: Dict[int, Set[bytes]] = {}
    for slot in v.done():
        if v.is_live(slot.number) and v.identifier(slot) is not None:
            for number, bodies in (index.postings(slot) or {}).items():
                true.setdefault(number, set()).update(bodies)
    for number in range(v.lists):
        mine = true.get(number, set())
        for start in index.blocks(number):
            bodies = index.front(start).bodies
            yield from (start + place for place, body in enumerate(bodies) if body not in mine)
            for at, raw in index.image.written(start + len(bodies), start + ENTRIES):
                if isinstance(index.image.record(at), PostingCell) and raw[1:12] not in mine:
                    yield at


class Places:
    """Where blocks and nodes begin, to tell which of them some cells meet."""

    def __init__(self, index: Index) -> None:
        self.blocks = sorted((start, number) for number in range(index.volume.lists)
                             for start in index.blocks(number))
        self.nodes = sorted(index.nodes())

    def blocks_met(self, start: int, count: int) -> List[Tuple[int, int]]:
        """The blocks that meet these cells: the first cell and the list of each."""
        low = bisect_left(self.blocks, (start - BLOCK + 1, -1))
        return self.blocks[low:bisect_left(self.blocks, (start + count, -1))]

    def nodes_met(self, start: int, count: int) -> List[int]:
        """The first cells of the nodes that meet these cells."""
        low = bisect_left(self.nodes, start - NODE + 1)
        return self.nodes[low:bisect_left(self.nodes, start + count)]


def rule_10(index: Index) -> Cells:
    """Pointer places: each leads from a full block to one that has what its span asks for."""
    places = Places(index)
    for number in range(index.volume.lists):
        for start in index.blocks(number):
            for at, _ in index.image.written(start + ENTRIES, start + POINTERS_END):
                if not leads_well(index, places, number, start, at):
                    yield at


def leads_well(index: Index, places: Places, number: int, start: int, at: int) -> bool:
    """Whether rule 10 is kept at a written pointer place of a block of this list."""
    v, target, keys = index.volume, index.jump(at), index.front(start).keys
    if target is None or not keys:
        return False
    if len(keys) < ENTRIES and any(index.image.is_blank(start + i) for i in range(ENTRIES)):
        return False
    return (all(target + BLOCK <= edge for edge in v.edges())
            and bool(v.owners(target, BLOCK))
            and index.front(target).has_key_in(span_of(keys[-1], at - start))
            and all(met == (target, number) for met in places.blocks_met(target, BLOCK))
            and not places.nodes_met(target, BLOCK))


def rule_11(index: Index) -> Cells:
    """Buckets: each names a live slot, on whose identifier's path it is as a bucket of its node."""
    v = index.volume
    true: Set[Tuple[int, int, int, bytes]] = set()
    for slot in v.done():
        identifier = v.identifier(slot)
        if identifier is not None and v.is_live(slot.number):
            path = zip(index.path(identifier), half_bytes(identifier))
            true.update((at - half, half, slot.number, fingerprint(identifier))
                        for (at, _), half in path)
    for start in index.nodes():
        for at, _ in index.image.written(start, start + 16):
            bucket = index.bucket(at)
            if bucket is None or (start, at - start, *bucket) not in true:
                yield at


def rule_12(index: Index) -> Cells:
    """Child cells: each leads from a written bucket to a node that some slot has added."""
    v, places, nodes = index.volume, Places(index), index.nodes()
    adders: Dict[bytes, List[Slot]] = {}
    for slot in v.with_parts():
        for kind, _, raw in v.journal(slot).pointers():
            if kind == CHILD:
                adders.setdefault(raw, []).append(slot)
    lowest: Dict[int, int] = {}
    for start in nodes:
        for at, _ in index.image.written(start + 16, start + NODE):
            record = index.image.record(at)
            if isinstance(record, ChildCell):
                lowest[record.target] = min(at, lowest.get(record.target, at))
    for start, levels in nodes.items():
        for at, raw in index.image.written(start + 16, start + NODE):
            target = index.child(at, max(levels))
            if (target is None or lowest[target] < at
                    or not any(slot.in_block_part(target, 1) for slot in adders.get(raw, ()))
                    or not leads_down_well(index, places, at, target)):
                yield at


def leads_down_well(index: Index, places: Places, at: int, target: int) -> bool:
    """Whether what rule 12 asks of bucket, edge, blocks and nodes is kept at a child cell."""
    return (not index.image.is_blank(at - 16)
            and all(target + NODE <= edge for edge in index.volume.edges())
            and not places.blocks_met(target, NODE)
            and all(met == target for met in places.nodes_met(target, NODE)))


def rule_13(index: Index) -> Cells:
    """Done cells: the words of the document that stands lead to it."""
    for slot in index.volume.done():
        if index.volume.identifier(slot) is not None and not index.is_listed(slot):
            yield slot.at + 2


def rule_14(index: Index) -> Cells:
    """Done cells: the identifier leads to the slot, and stands in none below."""
    seen: Set[bytes] = set()
    for slot in index.volume.done():
        identifier = index.volume.identifier(slot)
        if identifier is not None:
            if identifier in seen or index.hash_trail(slot, identifier) is None:
                yield slot.at + 2
            seen.add(identifier)


def rule_15(index: Index) -> Cells:
    """Commit cells: the blocks and nodes to which the journal leads tile the block part."""
    v = index.volume
    for slot in v.done():
        sizes: Dict[int, int] = {}
        for kind, target, _ in v.journal(slot).pointers():
            if slot.in_block_part(target, 1):
                size = BLOCK if kind == JUMP else NODE
                sizes[target] = max(size, sizes.get(target, 0))
        at = slot.start
        for start in sorted(sizes):
            if at != start:
                break
            at += sizes[start]
        else:
            if at == slot.document_at:
                continue
        yield slot.at + 1


RULES: Tuple[Callable[[Index], Cells], ...] = (
    rule_1, rule_2, rule_3, rule_4, rule_5, rule_6, rule_7, rule_8, rule_9, rule_10, rule_11,
    rule_12, rule_13, rule_14, rule_15)


def least_broken(index: Index) -> Optional[Tuple[int, int]]:
    """The least rule that is broken, and its least cell ("What an audit names"), or None."""
    for number, rule in enumerate(RULES, 1):
        least = min(rule(index), default=None)
        if least is not None:
            return number, least
    return None

