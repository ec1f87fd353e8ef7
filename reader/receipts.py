"""FORMAT.md, "Receipts"."""

import re
from typing import Dict, NamedTuple, Optional, Set

from cells import MAX_SLOTS, Evidence, Image, Refusal
from index import ENTRIES, Index, fingerprint
from queries import look_up
from volume import Volume

MOST_LISTED = 1000000
NUMBER = rb"(0|[1-9][0-9]*)"
FIRST_LINE = re.compile(rb"receipt " + NUMBER + rb" ([\x21-\x7e]{1,200})")
CELL_LINE = re.compile(NUMBER + rb" ([0-9a-f]{32})")


class Receipt(NamedTuple):
    """A slot, an identifier, and cells by their numbers."""

    slot: int
    identifier: bytes
    listed: Dict[int, bytes]


def text_of(receipt: Receipt) -> bytes:
    """The text of a receipt."""
    lines = [f"{at} {raw.hex()}" for at, raw in sorted(receipt.listed.items())]
    head = f"receipt {receipt.slot} {receipt.identifier.decode()}"
    return "\n".join([head, *lines, f"end {len(lines)}", ""]).encode()


def make_receipt(index: Index, identifier: bytes) -> Receipt:
    """The receipt of a document that is kept."""
    found = look_up(index, identifier)
    if found is None:
        raise Refusal(10, "absent")
    slot = index.volume.slot(found[0])
    if not index.is_kept(slot.number, identifier):
        raise Evidence(13, slot.at + 2)
    cells = {0} | log_and_document(index, slot.number)
    for number, bodies in (index.postings(slot) or {}).items():
        for body in bodies:
            for block, place in index.trail(number, body) or ():
                cells.update(range(block, block + min(place + 1, ENTRIES)))
                cells.add(block + place)
    for at in index.hash_trail(slot, identifier) or ():
        cells.add(at)
        bucket = index.bucket(at)
        if bucket and bucket.fingerprint == fingerprint(identifier):
            cells |= log_and_document(index, bucket.slot)
    if len(cells) > MOST_LISTED:
        raise Refusal(3, f"receipt has {len(cells)} cells")
    return Receipt(slot.number, identifier, {at: index.image.cell(at) for at in cells})


def log_and_document(index: Index, number: int) -> Set[int]:
    """The log cells of a done slot, its stamp among them, and its document cells."""
    slot = index.volume.slot(number)
    log = range(slot.at, slot.at + (4 if index.volume.version == 3 else 3))
    return set(log) | set(range(slot.document_at, slot.document_at + slot.document_cells))


def fault_at(line: int) -> Refusal:
    """The refusal of a text that spells no receipt."""
    return Refusal(2, f"receipt fault at line {line}")


def read_receipt(text: bytes, cells: int) -> Receipt:
    """The receipt that a text spells, of a device of so many cells; or a Refusal that tells the
    first line that breaks the form."""
    lines = text.split(b"\n")
    listed: Dict[int, bytes] = {}
    head = FIRST_LINE.fullmatch(lines[0]) if len(lines) > 1 else None
    if head is None or int(head[1]) >= MAX_SLOTS:
        raise fault_at(1)
    before = -1
    for number, line in enumerate(lines[1:-1], 2):
        if line == b"end %d" % len(listed):
            if lines[number:] != [b""]:
                raise fault_at(number + 1)
            return Receipt(int(head[1]), head[2], listed)
        row = CELL_LINE.fullmatch(line)
        if (row is None or not before < int(row[1]) < cells or row[2] == b"0" * 32
                or len(listed) == MOST_LISTED):
            raise fault_at(number)
        before = int(row[1])
        listed[before] = bytes.fromhex(row[2].decode())
    raise fault_at(len(lines))


def check(image: Image, text: bytes) -> str:
    """What `check` answers: whether a receipt's cells stand, and alone keep its document."""
    receipt = read_receipt(text, image.cells)
    for at, raw in receipt.listed.items():
        if image.cell(at) != raw:
            raise Refusal(11, f"cell {at} differs")
    size = size_shown(Image(b"", image.cells, receipt.listed), receipt)
    if size is None:
        raise Refusal(11, f"receipt shows no document in slot {receipt.slot}")
    return f"kept {receipt.slot} {receipt.identifier.decode()} {size}"


def size_shown(listed: Image, receipt: Receipt) -> Optional[int]:
    """How many bytes the body of the receipt's document has, by the listed cells alone; None where
    they do not keep it."""
    try:
        volume = Volume(listed)
    except Refusal:
        return None
    if not Index(volume).is_kept(receipt.slot, receipt.identifier):
        return None
    document = volume.document(receipt.slot)
    return len(document.body) if document else None
