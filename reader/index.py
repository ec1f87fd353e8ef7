"""FORMAT.md, "Tags and postings", "Posting blocks", "Hash nodes" and "Version 3: stamps"."""

import struct
from bisect import bisect_left
from hashlib import sha256
from typing import Callable, Dict, Iterator, List, NamedTuple, Optional, Set, Tuple

from cells import (BLOCK, NODE, POSTING, BucketCell, ChildCell, JumpCell, body_rows, posting_body,
                   posting_rows)
from volume import DONE, Slot, Volume
from words import words_of

ENTRIES, POINTERS_END, LEVELS, MOST_TAGS = 128, 248, 64, 256


class Span(NamedTuple):
    """Keys that share a pointer: those from `first` up to, but not with, `end`."""

    first: int
    end: int


def pointer_of(greatest: int, key: int) -> int:
    """The place of the pointer of a key's span in a block with this greatest key."""
    distance = key - greatest
    level = (distance.bit_length() - 1) // 4
    return ENTRIES + 15 * level + distance // 16 ** level - 1


def span_of(greatest: int, place: int) -> Span:
    """The keys of the pointer at this place of a block with this greatest key."""
    level, before = divmod(place - ENTRIES, 15)
    first = greatest + (before + 1) * 16 ** level
    return Span(first, first + 16 ** level)


class Front:
    """The front of a block: its postings' keys, and their bodies, which are bytes 1 to 11."""

    def __init__(self, raw: bytes, start: int) -> None:
        self.keys: List[int] = []
        greatest = -1
        for at, (kind, key, last, _, own) in enumerate(posting_rows(raw), start):
            if kind != POSTING or own != at or key % 256 > last or key <= greatest:
                break
            greatest = key
            self.keys.append(key)
        self.bodies: List[bytes] = [body for (body,) in body_rows(raw[:16 * len(self.keys)])]

    def place_of(self, key: int, body: bytes) -> Optional[int]:
        """The place of a posting with this key, or None."""
        i = bisect_left(self.keys, key)
        return i if i < len(self.bodies) and self.bodies[i] == body else None

    def has_key_in(self, span: Span) -> bool:
        """Whether some key lies in the span."""
        i = bisect_left(self.keys, span.first)
        return i < len(self.keys) and self.keys[i] < span.end


def key_of(body: bytes) -> int:
    """The key of a posting, by its bytes 1 to 11."""
    return int.from_bytes(body[:4], "big")


def time_slot_of(body: bytes) -> int:
    """The slot that a posting of the time list names, in the first four bytes of its tag."""
    return int.from_bytes(body[5:9], "big")


def half_bytes(identifier: bytes) -> List[int]:
    """The 64 half bytes of the identifier's digest."""
    return [int(char, 16) for char in sha256(identifier).hexdigest()]


def fingerprint(identifier: bytes) -> bytes:
    """The first seven bytes of the identifier's digest."""
    return sha256(identifier).digest()[:7]


class Hop(NamedTuple):
    """A block of a trail, and the place of the posting or of the pointer that is taken."""

    block: int
    place: int


class Index:
    """The lists and the tree of a volume."""

    def __init__(self, volume: Volume) -> None:
        self.volume, self.image = volume, volume.image
        self._tags: Dict[bytes, Tuple[int, bytes]] = {}
        self._postings: Dict[int, Optional[Dict[int, List[bytes]]]] = {}
        self._fronts: Dict[int, Front] = {}
        self._next_blocks: Dict[int, Optional[int]] = {}
        self._blocks: Dict[int, List[int]] = {}
        self._nodes: Optional[Dict[int, Set[int]]] = None

    # Tags and postings.

    def tag_of(self, word: bytes) -> Tuple[int, bytes]:
        """The list and the tag of a word."""
        if word not in self._tags:
            digest = sha256(word).digest()
            number = int.from_bytes(digest[6:10], "big") % self.volume.word_lists
            self._tags[word] = number, digest[:6]
        return self._tags[word]

    def postings(self, slot: Slot) -> Optional[Dict[int, List[bytes]]]:
        """By list, the bodies of the postings of the document that stands in a slot; None where
        some list gets more than 256 of its tags."""
        if slot.number not in self._postings:
            self._postings[slot.number] = self._postings_of(slot)
        return self._postings[slot.number]

    def _postings_of(self, slot: Slot) -> Optional[Dict[int, List[bytes]]]:
        document = self.volume.spelled(slot)
        tags: Dict[int, Set[bytes]] = {}
        for word in set(words_of(document.body, self.volume.version)):
            number, tag = self.tag_of(word)
            tags.setdefault(number, set()).add(tag)
        if any(len(mine) > MOST_TAGS for mine in tags.values()):
            return None
        found = {number: [posting_body(256 * slot.number + i, len(mine) - 1, tag)
                          for i, tag in enumerate(sorted(mine))]
                 for number, mine in tags.items()}
        if self.volume.version == 3:
            tag = struct.pack(">IH", slot.number, 0)
            found[self.volume.word_lists] = [posting_body(slot.stamp, 255, tag)]
        return found

    # Posting blocks.

    def front(self, start: int) -> Front:
        """The front of the block that begins at `start`."""
        front = self._fronts.get(start)
        if front is None:
            front = self._fronts[start] = Front(self.image.span(start, ENTRIES), start)
        return front

    def jump(self, at: int) -> Optional[int]:
        """The target of the jump cell `at`, where its 256 cells lie in the pool, or None."""
        record = self.image.record(at)
        if isinstance(record, JumpCell) and self.volume.in_pool(record.target, BLOCK):
            return record.target
        return None

    def blocks(self, number: int) -> List[int]:
        """The first cells of a list's blocks, rising."""
        if number not in self._blocks:
            todo, found = [self.volume.list_at(number)], set()
            while todo:
                start = todo.pop()
                if start in found:
                    continue
                found.add(start)
                for at, _ in self.image.written(start + ENTRIES, start + POINTERS_END):
                    target = self.jump(at)
                    if target is not None:
                        todo.append(target)
            self._blocks[number] = sorted(found)
        return self._blocks[number]

    def trail(self, number: int, body: bytes) -> Optional[List[Hop]]:
        """The trail of a posting from its list's first block, or None."""
        key, start, hops = key_of(body), self.volume.list_at(number), []
        while True:
            front = self.front(start)
            if len(front.keys) < ENTRIES or key <= front.keys[-1]:
                place = front.place_of(key, body)
                return None if place is None else hops + [Hop(start, place)]
            place = pointer_of(front.keys[-1], key)
            target = self.next_block(start, place)
            if target is None:
                return None
            hops.append(Hop(start, place))
            start = target

    def next_block(self, start: int, place: int) -> Optional[int]:
        """The block to which a pointer of the full block at `start` leads by a key of its span, or
        None. It is remembered."""
        at = start + place
        if at not in self._next_blocks:
            target, span = self.jump(at), span_of(self.front(start).keys[-1], place)
            leads = target is not None and self.front(target).has_key_in(span)
            self._next_blocks[at] = target if leads else None
        return self._next_blocks[at]

    def with_trails(self, number: int, wanted: Callable[[bytes], bool]
                    ) -> Iterator[Tuple[bytes, int]]:
        """The postings of a list that have a trail and are wanted, and the cell of each."""
        for start in self.blocks(number):
            for place, body in enumerate(self.front(start).bodies):
                if wanted(body):
                    trail = self.trail(number, body)
                    if trail and trail[-1] == (start, place):
                        yield body, start + place

    # Hash nodes.

    def child(self, at: int, level: int) -> Optional[int]:
        """The node to which the child cell `at` of a node of this level leads, or None."""
        record = self.image.record(at)
        if (isinstance(record, ChildCell) and level < LEVELS - 1
                and self.volume.in_pool(record.target, NODE)):
            return record.target
        return None

    def nodes(self) -> Dict[int, Set[int]]:
        """The nodes: by the first cell of each the levels at which it is one."""
        if self._nodes is None:
            todo, self._nodes = [(self.volume.root, 0)], {}
            while todo:
                start, level = todo.pop()
                levels = self._nodes.setdefault(start, set())
                if level in levels:
                    continue
                levels.add(level)
                for at, _ in self.image.written(start + 16, start + NODE):
                    target = self.child(at, level)
                    if target is not None:
                        todo.append((target, level + 1))
        return self._nodes

    def path(self, identifier: bytes) -> Iterator[Tuple[int, int]]:
        """The bucket and the child cell of each level on an identifier's path."""
        start: Optional[int] = self.volume.root
        for level, half in enumerate(half_bytes(identifier)):
            yield start + half, start + 16 + half
            start = self.child(start + 16 + half, level)
            if start is None:
                return

    def bucket(self, at: int) -> Optional[BucketCell]:
        """The bucket in a cell, or None."""
        record = self.image.record(at)
        return record if isinstance(record, BucketCell) else None

    def stands_as(self, number: int) -> Optional[bytes]:
        """The identifier of the document that stands in a slot, or None."""
        if number >= self.volume.slots or self.volume.slot(number).state != DONE:
            return None
        return self.volume.identifier(self.volume.slot(number))

    def hash_trail(self, slot: Slot, identifier: bytes) -> Optional[List[int]]:
        """The bucket and child cells of a slot's hash trail from the root, or None."""
        wanted, cells = fingerprint(identifier), []
        for bucket_at, child_at in self.path(identifier):
            bucket = self.bucket(bucket_at)
            if bucket is None:
                return None
            cells.append(bucket_at)
            if bucket == (slot.number, wanted):
                return cells
            if bucket.fingerprint == wanted and self.stands_as(bucket.slot) in (None, identifier):
                return None
            cells.append(child_at)
        return None

    # Keeping.

    def is_listed(self, slot: Slot) -> bool:
        """Whether the postings of the document that stands in a slot exist, and have trails."""
        lists = self.postings(slot)
        return lists is not None and all(self.trail(number, body) is not None
                                         for number, bodies in lists.items() for body in bodies)

    def is_kept(self, number: int, identifier: bytes) -> bool:
        """Whether a document with this identifier stands in the slot, and is kept."""
        if self.stands_as(number) != identifier:
            return False
        slot = self.volume.slot(number)
        return self.is_listed(slot) and self.hash_trail(slot, identifier) is not None
