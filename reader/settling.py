"""FORMAT.md, "What settling does"."""

from typing import Dict, NamedTuple, Optional

from cells import ABANDON, BLANK, DONE, Evidence, encode
from volume import BROKEN, RESERVED, Slot, Volume


class Settling(NamedTuple):
    """What settling would do: what `recover` would answer, the cells that it would write, and
    where it would be refused the cell that it would name."""

    answer: str
    written: Dict[int, bytes]
    named: Optional[Evidence]


def settling_of(volume: Volume) -> Settling:
    """What settling would do. Nothing is written here."""
    written: Dict[int, bytes] = {}
    try:
        return Settling(settle(volume, written), written, None)
    except Evidence as named:
        return Settling("", written, named)


def horizon_of(volume: Volume) -> int:
    """Step 2: the horizon that settling takes, by halves."""
    if volume.slot(volume.slots - 1).is_taken:
        return volume.slots
    low, high = 0, volume.slots - 1
    while low < high:
        middle = (low + high) // 2
        if volume.slot(middle).is_taken:
            low = middle + 1
        else:
            high = middle
    return high


def settle(volume: Volume, written: Dict[int, bytes]) -> str:
    """Steps 2 to 8, over `written`, which gets the cells in the order of writing; Evidence where
    a step refuses."""
    horizon = horizon_of(volume)
    if horizon == 0:
        return "nothing to settle"
    slot = volume.slot(horizon - 1)
    before = volume.slot(slot.number - 1) if slot.number else None
    check_state(slot)
    if before:
        check_state(before)
    follows = (slot.start == volume.pool if before is None
               else before.has_ended and slot.start == before.end)
    if not follows:
        raise Evidence(1, slot.at)
    if slot.has_ended:
        return "nothing to settle"
    if slot.state == RESERVED:
        written[slot.at + 1] = encode(ABANDON, b"", slot.at + 1)
        return f"slot {slot.number} abandoned"
    check_journal(volume, slot)
    apply_journal(volume, slot, written)
    written[slot.at + 2] = encode(DONE, slot.number.to_bytes(4, "big"), slot.at + 2)
    return f"slot {slot.number} completed"


def check_state(slot: Slot) -> None:
    """Steps 3 and 4: the cell that is named where the slot is in no state."""
    if slot.state != BROKEN:
        return
    if slot.is_taken and not slot.reserves:
        raise Evidence(1, slot.at)
    commits = slot.commit is not None and slot.fits and slot.is_stamped
    if slot.raw[1] != BLANK and not (slot.is_taken and (slot.has_abandon or commits)):
        raise Evidence(2, slot.at + 1)
    raise Evidence(3, slot.at + 2)


def check_journal(volume: Volume, slot: Slot) -> None:
    """Step 7: whether the journal may be carried out."""
    floor = volume.lists_at
    for at, target, raw in volume.journal(slot).cells():
        if raw == BLANK:
            raise Evidence(5, slot.at + 1)
        if not floor <= target < slot.document_at:
            raise Evidence(5, at)
        floor = target + 1


def apply_journal(volume: Volume, slot: Slot, written: Dict[int, bytes]) -> None:
    """Step 8: the targets, up to one that holds another value."""
    for at, target, raw in volume.journal(slot).cells():
        there = volume.image.cell(target)
        if there not in (raw, BLANK):
            raise Evidence(6, at)
        if there == BLANK:
            written[target] = raw
