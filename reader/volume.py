"""FORMAT.md, "Layout", "Slots", "Documents and their words" and "Journals"."""

from bisect import bisect_right
from typing import Dict, Iterator, List, NamedTuple, Optional, Tuple

from cells import (BLANK, BLOCK, CHILD, JUMP, MAX_BODY, MAX_IDENTIFIER, NODE, NOWHERE, AbandonCell,
                   CommitCell, DoneCell, Image, Refusal, ReserveCell, StampCell, VolumeCell,
                   cell_rows, decode, lists_at, pool_at, root_at, targets_in)

UNUSED, RESERVED, ABANDONED, COMMITTED, DONE, BROKEN = (
    "unused", "reserved", "abandoned", "committed", "done", "in no state")


class Document(NamedTuple):
    """An identifier and a body."""

    identifier: bytes
    body: bytes


def is_identifier(text: bytes) -> bool:
    """Whether bytes are an identifier."""
    return 1 <= len(text) <= MAX_IDENTIFIER and all(0x21 <= byte <= 0x7E for byte in text)


class Slot:
    """A slot's four cells, and what they say."""

    def __init__(self, volume: "Volume", number: int) -> None:
        at = 4 + 4 * number
        self.number, self.at = number, at
        self.raw = tuple(volume.image.cell(at + i) for i in range(4))
        self.is_taken = self.raw[0] != BLANK
        self.reserve = self._record(0, ReserveCell)
        self.commit = self._record(1, CommitCell)
        self.has_abandon = self._record(1, AbandonCell) is not None
        self.names_itself = self._record(2, DoneCell) == DoneCell(number)
        stamp = self._record(3, StampCell) if volume.version == 3 else None
        self.stamp: Optional[int] = stamp.seconds if stamp else None
        self.is_stamped = volume.version < 3 or stamp is not None
        self.start, self.end = 0, 0
        if self.reserve:
            start, end = self.reserve.start, self.reserve.start + self.reserve.length
            if volume.pool <= start and end <= volume.image.cells:
                self.start, self.end = start, end
        # d, where its journal begins, which ends with its reservation, and where its document does,
        # at which its block part ends: by the commit cell.
        self.document_cells, self.journal_at, self.document_at = 0, self.end, self.end
        if self.commit:
            self.document_cells = (self.commit.bytes + 14) // 15
            self.journal_at -= self.commit.journal
            self.document_at = self.journal_at - self.document_cells
        self.state = self._state()

    def _record(self, place: int, kind: type):
        """The record of this kind in a cell of the slot, or None."""
        record = decode(self.raw[place], self.at + place)
        return record if isinstance(record, kind) else None

    @property
    def reserves(self) -> bool:
        """Whether its reserve cell reserves cells of the pool."""
        return self.end > 0

    @property
    def fits(self) -> bool:
        """Whether document and journal fit into what a well-formed reserve cell states."""
        return (self.reserve is None
                or self.document_cells + self.commit.journal <= self.reserve.length)

    def _state(self) -> str:
        """The state by the table of FORMAT.md, or BROKEN."""
        reserve, outcome, done, _ = (raw != BLANK for raw in self.raw)
        if not reserve and not outcome and not done:
            return UNUSED
        if not self.reserves:
            return BROKEN
        if not outcome:
            return BROKEN if done else RESERVED
        if self.has_abandon:
            return BROKEN if done else ABANDONED
        if not self.commit or not self.fits or not self.is_stamped:
            return BROKEN
        if not done:
            return COMMITTED
        return DONE if self.names_itself else BROKEN

    @property
    def has_ended(self) -> bool:
        """Whether it is abandoned or done."""
        return self.state in (ABANDONED, DONE)

    @property
    def has_parts(self) -> bool:
        """Whether it is committed or done, so that its reservation has three parts."""
        return self.state in (COMMITTED, DONE)

    def in_block_part(self, start: int, count: int) -> bool:
        """Whether these cells lie in the block part of this committed or done slot."""
        return self.start <= start and start + count <= self.document_at


class Journal:
    """The cells of a slot's journal from cell `at` on, and the target of each: NOWHERE of one that
    copies nothing."""

    def __init__(self, at: int, raw: bytes) -> None:
        self.at, self.raw, self.targets = at, raw, targets_in(raw)

    def cells(self) -> Iterator[Tuple[int, int, bytes]]:
        """Each cell: where it stands, its target, and its bytes."""
        for at, (target, (raw,)) in enumerate(zip(self.targets, cell_rows(self.raw)), self.at):
            yield at, target, raw

    def pointers(self) -> Iterator[Tuple[int, int, bytes]]:
        """The copies of jump and child cells: the kind of each, where it leads, and its bytes."""
        for i, kind in enumerate(self.raw[::16]):
            if kind in (JUMP, CHILD) and self.targets[i] != NOWHERE:
                raw = self.raw[16 * i:16 * i + 16]
                yield kind, int.from_bytes(raw[1:5], "big"), raw


class Volume:
    """A volume on a device: its layout, slots, documents and journals."""

    def __init__(self, image: Image) -> None:
        self.image = image
        self.stated = stated_in(image)
        self.version, self.slots, self.word_lists, _ = self.stated
        self.lists_at, self.root = lists_at(self.stated), root_at(self.stated)
        self.pool = pool_at(self.stated)
        self.lists = self.word_lists + (self.version == 3)
        self._slots: Dict[int, Slot] = {}
        self._taken: Optional[List[Slot]] = None
        self._with_parts: Optional[List[Slot]] = None
        self._starts: List[int] = []
        self._horizons: Optional[List[int]] = None
        self._identifiers: Dict[int, Optional[bytes]] = {}
        self._journals: Dict[int, Journal] = {}

    def list_at(self, number: int) -> int:
        """The first block of a list; the time list is the one behind those of words."""
        if number == self.word_lists:
            return self.root + NODE
        return self.lists_at + BLOCK * number

    def in_pool(self, start: int, count: int) -> bool:
        """Whether these cells lie in the pool."""
        return self.pool <= start and start + count <= self.image.cells

    # Slots.

    def slot(self, number: int) -> Slot:
        """The slot of this number, which is below the volume's number of slots."""
        if number not in self._slots:
            self._slots[number] = Slot(self, number)
        return self._slots[number]

    def with_cells(self) -> List[Slot]:
        """The slots with some written cell, by rising number."""
        if self._taken is None:
            numbers = {(at - 4) // 4 for at, _ in self.image.written(4, self.lists_at)}
            self._taken = [self.slot(number) for number in sorted(numbers)]
        return self._taken

    def with_parts(self) -> List[Slot]:
        """The committed and done slots, by rising number."""
        if self._with_parts is None:
            self._with_parts = [slot for slot in self.with_cells() if slot.has_parts]
            rising = all(before.end <= slot.start for before, slot
                         in zip(self._with_parts, self._with_parts[1:]))
            self._starts = [slot.start for slot in self._with_parts] if rising else []
        return self._with_parts

    def done(self) -> List[Slot]:
        """The done slots, by rising number."""
        return [slot for slot in self.with_parts() if slot.state == DONE]

    def owners(self, start: int, count: int) -> List[Slot]:
        """The committed and done slots in whose block part these cells lie."""
        slots = self.with_parts()
        if self._starts:
            # Reservations that rise can't meet, so one slot alone comes into question.
            last = slots[bisect_right(self._starts, start) - 1]
            return [last] if last.in_block_part(start, count) else []
        return [slot for slot in slots if slot.in_block_part(start, count)]

    def horizons(self) -> List[int]:
        """The horizons, by rising number."""
        if self._horizons is None:
            written = {slot.number for slot in self.with_cells() if slot.is_taken}
            ends = {number + 1 for number in written if number + 1 not in written}
            self._horizons = sorted(ends if 0 in written else ends | {0})
        return self._horizons

    def edges(self) -> List[int]:
        """The edges: where the reservations below a horizon end."""
        below = [self.slot(u - 1) for u in self.horizons() if u]
        ends = [slot.end for slot in below if slot.reserves]
        return ends if self.horizons()[0] else [self.pool] + ends

    def is_live(self, number: int) -> bool:
        """Whether the slot is done, and each slot below it has a written reserve cell."""
        return (number < self.slots and self.slot(number).state == DONE
                and number < self.horizons()[0])

    # Documents.

    def spelled(self, slot: Slot) -> Optional[Document]:
        """What the document cells of a committed or done slot spell, or None."""
        count = slot.document_cells
        raw = self.image.span(slot.document_at, count)
        last = slot.commit.bytes - 15 * (count - 1)
        kinds = b"\x1f" * (count - 1) + bytes([16 + last])
        if raw[::16] != kinds or any(raw[len(raw) - 15 + last:]):
            return None
        text = bytearray(raw)
        del text[::16]
        size = text[0]
        identifier, body = bytes(text[1:1 + size]), bytes(text[1 + size:slot.commit.bytes])
        if 1 + size > slot.commit.bytes or not is_identifier(identifier) or len(body) > MAX_BODY:
            return None
        return Document(identifier, body)

    def document(self, number: int) -> Optional[Document]:
        """The document that stands in a slot, or None."""
        if number >= self.slots or self.slot(number).state != DONE:
            return None
        return self.spelled(self.slot(number))

    def identifier(self, slot: Slot) -> Optional[bytes]:
        """The identifier that a committed or done slot spells, or None. It is remembered."""
        if slot.number not in self._identifiers:
            document = self.spelled(slot)
            self._identifiers[slot.number] = document.identifier if document else None
        return self._identifiers[slot.number]

    def standing(self) -> Iterator[Tuple[Slot, Document]]:
        """Each document that stands, by rising slot."""
        for slot in self.done():
            document = self.spelled(slot)
            if document:
                yield slot, document

    # Journals.

    def journal(self, slot: Slot) -> Journal:
        """The journal of a committed or done slot. It is remembered."""
        if slot.number not in self._journals:
            raw = self.image.span(slot.journal_at, slot.commit.journal)
            self._journals[slot.number] = Journal(slot.journal_at, raw)
        return self._journals[slot.number]


def stated_in(image: Image) -> VolumeCell:
    """What cell 0 states; a Refusal where this device is no volume."""
    raw = image.cell(0)
    if raw == BLANK:
        raise Refusal(9, "not formatted")
    cell = decode(raw, 0)
    if not isinstance(cell, VolumeCell):
        raise Refusal(9, "not a volume: " + raw.hex())
    if cell.cells != image.cells:
        raise Refusal(9, f"volume states {cell.cells} cells, device has {image.cells}")
    return cell
