"""FORMAT.md, "What an audit names", of queries: by the index, and by going through the slots."""

from typing import Iterable, List, NamedTuple, Optional, Set, Tuple

from cells import Evidence
from index import Index, fingerprint, key_of, time_slot_of
from volume import DONE, Document
from words import words_of


class Answer(NamedTuple):
    """The slots that a query finds by the index, those that it finds by going through the slots,
    and a line for each posting that leads to no match."""

    by_index: Set[int]
    by_scan: Set[int]
    notes: List[str]


def find(index: Index, terms: Set[bytes]) -> Answer:
    """The documents with all of the words."""
    volume, notes, rows = index.volume, [], []
    for term in terms:
        number, tag = index.tag_of(term)
        rows.append({key_of(body) // 256: at for body, at
                     in index.with_trails(number, lambda body, tag=tag: body[5:] == tag)})
    found: Set[int] = set()
    for number in sorted(set.intersection(*map(set, rows))):
        document = volume.document(number)
        if document and terms <= set(words_of(document.body, volume.version)):
            found.add(number)
        else:
            notes.append(f"cell {rows[0][number]} names slot {number}, which does not match")
    scanned = {slot.number for slot, document in volume.standing()
               if terms <= set(words_of(document.body, volume.version))}
    return Answer(found, scanned, notes)


def between(index: Index, first: int, last: int) -> Answer:
    """The documents with stamps from `first` to `last`, in a volume of version 3."""
    volume, notes = index.volume, []
    found: Set[int] = set()
    in_period = index.with_trails(volume.word_lists, lambda body: first <= key_of(body) <= last)
    for body, at in in_period:
        number = time_slot_of(body)
        if volume.document(number) and volume.slot(number).stamp == key_of(body):
            found.add(number)
        else:
            notes.append(f"cell {at} names slot {number}, which has no document of this stamp")
    scanned = {slot.number for slot, _ in volume.standing() if first <= slot.stamp <= last}
    return Answer(found, scanned, notes)


def look_up(index: Index, identifier: bytes) -> Optional[Tuple[int, Document]]:
    """The first slot on the identifier's path that stands with it, and its document; None where
    the path ends, or is full."""
    wanted, child_at = fingerprint(identifier), 0
    for bucket_at, child_at in index.path(identifier):
        if index.image.is_blank(bucket_at):
            return None
        bucket = index.bucket(bucket_at)
        if bucket is None:
            raise Evidence(11, bucket_at)
        if bucket.fingerprint == wanted:
            document = named_by(index, bucket_at, bucket.slot)
            if document.identifier == identifier:
                return bucket.slot, document
    if not index.image.is_blank(child_at):
        raise Evidence(12, child_at)
    return None


def named_by(index: Index, bucket_at: int, number: int) -> Document:
    """The document of the slot that a bucket names; Evidence where there is none."""
    if number >= index.volume.slots or index.volume.slot(number).state != DONE:
        raise Evidence(11, bucket_at)
    document = index.volume.document(number)
    if document is None:
        raise Evidence(4, index.volume.slot(number).at + 1)
    return document


def numbered(slots: Iterable[int], index: Index) -> List[Tuple[int, Document]]:
    """Slots in rising order, each with the document that stands there."""
    found = [(number, index.volume.document(number)) for number in sorted(slots)]
    return [(number, document) for number, document in found if document]
