"""FORMAT.md, "Cells": a device as a row of cells of 16 bytes, and the records that they hold."""

import heapq
import struct
from array import array
from typing import Dict, Iterator, List, Mapping, NamedTuple, Optional, Tuple, Union

BLANK, NO_TAG = bytes(16), bytes(6)
MAX_SLOTS, MAX_LISTS, MAX_CELLS = 1 << 24, 4096, 1 << 31
MAX_IDENTIFIER, MAX_BODY = 200, 1 << 20
KINDS = (VOLUME, RESERVE, COMMIT, ABANDON, DONE, POSTING, JUMP, BUCKET, CHILD,
         STAMP) = range(1, 11)


class Refusal(Exception):
    """A command's end other than by an answer: a status and a line."""

    def __init__(self, status: int, line: str) -> None:
        super().__init__(line)
        self.status, self.line = status, line


class Evidence(Exception):
    """A cell that breaks a rule."""

    def __init__(self, rule: int, at: int) -> None:
        super().__init__(rule, at)
        self.rule, self.at = rule, at


class VolumeCell(NamedTuple):
    """Cell 0: the version, and how many slots, lists and cells there are."""

    version: int
    slots: int
    lists: int
    cells: int


class ReserveCell(NamedTuple):
    """The cells of the pool that a slot names: `length` of them from `start` on."""

    start: int
    length: int


class CommitCell(NamedTuple):
    """How many stored bytes a document has, and how many cells its journal."""

    bytes: int
    journal: int


class AbandonCell(NamedTuple):
    """A slot that was given up."""


class DoneCell(NamedTuple):
    """A slot that is done."""

    slot: int


class PostingCell(NamedTuple):
    """That a slot's document has a tag; of the time list, that it has a stamp."""

    key: int
    last: int
    tag: bytes


class JumpCell(NamedTuple):
    """A pointer to a block."""

    target: int


class BucketCell(NamedTuple):
    """A slot, and the first seven bytes of its identifier's digest."""

    slot: int
    fingerprint: bytes


class ChildCell(NamedTuple):
    """A pointer to a node."""

    target: int


class StampCell(NamedTuple):
    """A document's stamp."""

    seconds: int


Record = Union[VolumeCell, ReserveCell, CommitCell, AbandonCell, DoneCell, PostingCell, JumpCell,
               BucketCell, ChildCell, StampCell]


def volume_cell(raw: bytes, at: int) -> Optional[VolumeCell]:
    """The volume cell that these bytes are in cell `at`, or None."""
    cell = VolumeCell(*struct.unpack(">BIHI", raw[1:12]))
    if at != 0 or cell.version not in (1, 2, 3):
        return None
    within = (1 <= cell.slots <= MAX_SLOTS and 1 <= cell.lists <= MAX_LISTS
              and 1 <= cell.cells <= MAX_CELLS)
    return cell if within and pool_at(cell) <= cell.cells else None


def decode(raw: bytes, at: int) -> Optional[Record]:
    """The record that these bytes are in cell `at`, where they are a well-formed one."""
    if raw[12:] != at.to_bytes(4, "big") or raw[0] not in KINDS:
        return None
    kind, first = raw[0], int.from_bytes(raw[1:5], "big")
    if kind == POSTING:
        return PostingCell(first, raw[5], raw[6:12]) if first % 256 <= raw[5] else None
    if kind == BUCKET:
        return BucketCell(first, raw[5:12]) if first < MAX_SLOTS else None
    if kind == VOLUME:
        return volume_cell(raw, at)
    if kind in (RESERVE, COMMIT):
        second = int.from_bytes(raw[5:9], "big")
        if any(raw[9:12]) or second == 0:
            return None
        if kind == RESERVE:
            return ReserveCell(first, second)
        return CommitCell(first, second) if 2 <= first <= 1 + MAX_IDENTIFIER + MAX_BODY else None
    if kind == ABANDON:
        return AbandonCell() if not any(raw[1:12]) else None
    if any(raw[5:12]):
        return None
    if kind == DONE:
        return DoneCell(first) if first < MAX_SLOTS else None
    return {JUMP: JumpCell, CHILD: ChildCell, STAMP: StampCell}[kind](first)


def encode(kind: int, body: bytes, at: int) -> bytes:
    """A record cell: its kind, its body with zeros behind it, and its own number."""
    return bytes([kind]) + body.ljust(11, b"\0") + at.to_bytes(4, "big")


# Bytes 1 to 11 of a posting cell: key, last and tag.
posting_body = struct.Struct(">IB6s").pack

# Of each cell of a row: its bytes, bytes 1 to 11 of it, and its fields as those of a posting cell.
cell_rows = struct.Struct("16s").iter_unpack
body_rows = struct.Struct("x11s4x").iter_unpack
posting_rows = struct.Struct(">BIB6sI").iter_unpack


# No cell has this number, nor a greater one.
NOWHERE = 1 << 32


def targets_in(raw: bytes) -> "array[int]":
    """For each cell of a row its number in the last four bytes, where it is a posting, jump, bucket
    or child of that number; else NOWHERE."""
    targets = array("Q")
    for kind, first, last, tag, number in posting_rows(raw):
        if kind == POSTING:
            is_index = first % 256 <= last
        elif kind == BUCKET:
            is_index = first < MAX_SLOTS
        else:
            is_index = kind in (JUMP, CHILD) and last == 0 and tag == NO_TAG
        targets.append(number if is_index else NOWHERE)
    return targets


# Where the parts of a volume begin ("Layout").

BLOCK, NODE = 256, 32


def lists_at(cell: VolumeCell) -> int:
    """The first block of list 0."""
    return 4 + 4 * cell.slots


def root_at(cell: VolumeCell) -> int:
    """The root node."""
    return lists_at(cell) + BLOCK * cell.lists


def pool_at(cell: VolumeCell) -> int:
    """The pool; in version 3 the first block of the time list lies before it."""
    return root_at(cell) + NODE + (BLOCK if cell.version == 3 else 0)


class Image:
    """The cells of a device. `over` are cells that lie over those of `data`."""

    PAGE, ROW = 4096, 64
    BLANK_ROW = bytes(16 * ROW)

    def __init__(self, data: bytes, cells: int, over: Optional[Mapping[int, bytes]] = None) -> None:
        self.data, self.cells = data, cells
        self.over: Dict[int, bytes] = dict(over or {})
        self.held = min(len(data) // 16, cells)

    def cell(self, at: int) -> bytes:
        """The 16 bytes of a cell; a number that the device does not have is blank."""
        if at in self.over:
            return self.over[at]
        return self.data[16 * at:16 * at + 16] if at < self.held else BLANK

    def is_blank(self, at: int) -> bool:
        """Whether nothing stands in a cell."""
        return self.cell(at) == BLANK

    def record(self, at: int) -> Optional[Record]:
        """The well-formed record in a cell, or None."""
        return decode(self.cell(at), at)

    def span(self, start: int, count: int) -> bytes:
        """The bytes of `count` cells from `start` on."""
        end = min(start + count, self.held)
        raw = self.data[16 * start:16 * end].ljust(16 * count, b"\0")
        mine = self._over_in(start, start + count)
        if not mine:
            return raw
        changed = bytearray(raw)
        for at in mine:
            changed[16 * (at - start):16 * (at - start) + 16] = self.over[at]
        return bytes(changed)

    def written(self, start: int, end: int) -> Iterator[Tuple[int, bytes]]:
        """The written cells from `start` up to, but not with, `end`, by rising number."""
        below = self._written_below(start, min(end, self.held))
        if not self.over:
            return below
        mine = ((at, self.over[at]) for at in sorted(self._over_in(start, end)))
        return heapq.merge((pair for pair in below if pair[0] not in self.over), mine)

    def laid_over(self, cells: Mapping[int, bytes]) -> "Image":
        """This image with further cells written."""
        return Image(self.data, self.cells, {**self.over, **cells})

    def _over_in(self, start: int, end: int) -> List[int]:
        """The cells of `over` in a range."""
        if len(self.over) > end - start:
            return [at for at in range(start, end) if at in self.over]
        return [at for at in self.over if start <= at < end]

    def _written_below(self, start: int, end: int) -> Iterator[Tuple[int, bytes]]:
        """The same of `data` alone, which is mostly zeros: whole pages of them are passed."""
        for page in range(start, end, self.PAGE):
            raw = self.data[16 * page:16 * min(page + self.PAGE, end)]
            if not raw.strip(b"\0"):
                continue
            for row in range(0, len(raw), 16 * self.ROW):
                part = raw[row:row + 16 * self.ROW]
                if part == self.BLANK_ROW:
                    continue
                for at, (cell,) in enumerate(cell_rows(part), page + row // 16):
                    if cell != BLANK:
                        yield at, cell
