#!/usr/bin/env python3
"""Reads and audits volumes of `worm`, by docs/FORMAT.md alone.

    worm_reader.py [--raw] VOLUME COMMAND ..

    list              each slot that is taken: its state, identifier, length and stamp
    info              version, slots, cells, the greatest stamp, what settling would do, the lists
    cat ID            the body of the document ID, found by going through the slots
    lookup ID         the body of the document ID, found by its hash path
    find WORD..       the documents with each of the words
    between FROM TO   the documents with a stamp of a period, in seconds, both ends included
    audit             `sound: ..`, or the least cell of the least rule that is broken
    receipt ID        the receipt of a document
    check             whether a receipt on standard input holds

The volume is opened for reading alone, and nothing is ever written. Where a crash has left a slot
that has not ended, the commands answer about the image that settling would leave, and say so on
standard error; with --raw about the image as it stands. `list` and `info` always do the latter.
A find and a between go by the index and through all documents; where these differ it is told.

Statuses and lines are those of the program. 20 says that the two ways of a query differ, that
--raw met a slot that has not ended, or that the table of words cannot be used.

Each module beside this one follows sections of docs/FORMAT.md: cells, volume, words, index, rules,
settling, queries, receipts. It needs Python 3.8 or later, and nothing else.
"""

import fcntl
import mmap
import os
import re
import stat
import sys
from typing import Callable, Dict, List, Optional, Set, Tuple

sys.dont_write_bytecode = True

# pylint: disable=wrong-import-position
from cells import MAX_CELLS, Evidence, Image, Refusal  # noqa: E402
from index import Index  # noqa: E402
from queries import Answer, between, find, look_up, numbered  # noqa: E402
from receipts import check, make_receipt, text_of  # noqa: E402
from rules import least_broken  # noqa: E402
from settling import Settling, settling_of  # noqa: E402
from volume import (ABANDONED, BROKEN, COMMITTED, DONE, RESERVED, UNUSED,  # noqa: E402
                    Volume, is_identifier)
from words import words_of  # noqa: E402

USAGE = ("usage: worm_reader.py [--raw] VOLUME list | info | cat ID | lookup ID | find WORD.. | "
         "between FROM TO | audit | receipt ID | check")
MOST_INPUT, DIFFERS = 1 << 26, 20


def say(line: str) -> None:
    """A line on standard error."""
    print(line, file=sys.stderr)


def put(data: bytes) -> None:
    """Bytes on standard output."""
    sys.stdout.buffer.write(data)


def open_image(path: str) -> Image:
    """The image of a file or a block device, under a shared lock that keeps the program away."""
    try:
        file = open(path, "rb")  # pylint: disable=consider-using-with
        mode = os.fstat(file.fileno()).st_mode
        if not (stat.S_ISREG(mode) or stat.S_ISBLK(mode)):
            raise OSError("neither a file nor a block device")
        fcntl.flock(file, fcntl.LOCK_SH)
        size = file.seek(0, os.SEEK_END)
        if not 1 <= size // 16 <= MAX_CELLS:
            raise OSError("too few or too many bytes")
        return Image(mmap.mmap(file.fileno(), size, access=mmap.ACCESS_READ), size // 16)
    except (OSError, ValueError):
        raise Refusal(5, "image cannot be opened") from None


def line_of(found: Evidence, image: Image) -> str:
    """The line that names a cell."""
    return f"tampered: rule {found.rule} at cell {found.at}: {image.cell(found.at).hex()}"


def cells_in_words(count: int) -> str:
    """So many cells."""
    return f"{count} cell" if count == 1 else f"{count} cells"


class Commands:
    """One command on one volume."""

    def __init__(self, volume: Volume, is_raw: bool) -> None:
        self.volume, self.is_raw = volume, is_raw

    def settled(self) -> Index:
        """The index of the volume as settling would leave it, or as it stands with --raw."""
        settling = Settling("", {}, None) if self.is_raw else settling_of(self.volume)
        if settling.named:
            say("not settled: settling would be refused, having written "
                + cells_in_words(len(settling.written)))
            raise settling.named
        if settling.written:
            say(f"not settled: settling would answer `{settling.answer}` and write "
                + cells_in_words(len(settling.written)))
            return Index(Volume(self.volume.image.laid_over(settling.written)))
        return Index(self.volume)

    def naming(self, ask: Callable[[Index], int]) -> int:
        """What is answered of the settled volume; a cell that is named is told by its line."""
        image = self.volume.image
        try:
            index = self.settled()
            image = index.image
            return ask(index)
        except Evidence as found:
            raise Refusal(4, line_of(found, image)) from None

    # Commands.

    def list(self) -> int:
        """Each slot that is taken, as it stands."""
        for slot in self.volume.with_cells():
            document = self.volume.spelled(slot) if slot.has_parts else None
            row = [str(slot.number), slot.state]
            if document:
                row += [document.identifier.decode(), str(len(document.body))]
            if slot.stamp is not None:
                row += ["stamp", str(slot.stamp)]
            print(*row)
        return 0

    def info(self) -> int:
        """What stands on the device, in numbers."""
        volume = self.volume
        states = [slot.state for slot in volume.with_cells()]
        cut = states.count(RESERVED) + states.count(COMMITTED)
        free = volume.slots - len(states) + states.count(UNUSED)
        print(f"version {volume.version}, {volume.slots} slots, {volume.word_lists} lists, "
              f"{volume.image.cells} cells")
        print(f"slots: {states.count(DONE)} done, {states.count(ABANDONED)} abandoned, "
              f"{cut} cut short, {free} free")
        if BROKEN in states:
            print(f"slots in no state: {states.count(BROKEN)}")
        written = sum(1 for _ in volume.image.written(0, volume.image.cells))
        behind = volume.image.cells - max(volume.edges(), default=volume.image.cells)
        print(f"cells: {written} written, {behind} free behind the edge")
        stamps = [slot.stamp for slot in volume.done() if slot.stamp is not None]
        if stamps:
            print(f"greatest stamp: {max(stamps)}")
        self._tell_settling(settling_of(volume))
        self._tell_lists(Index(volume))
        return 0

    def _tell_settling(self, settling: Settling) -> None:
        """What settling would do."""
        count = cells_in_words(len(settling.written))
        if settling.named:
            line = line_of(settling.named, self.volume.image)
            print(f"settling would be refused, having written {count}: {line}")
        elif settling.written:
            print(f"settling would answer: {settling.answer}, and write {count}")
        else:
            print(f"settling would answer: {settling.answer}")

    def _tell_lists(self, index: Index) -> None:
        """How many postings and blocks each list has."""
        for number in range(self.volume.lists):
            name = "time list" if number == self.volume.word_lists else f"list {number}"
            blocks = index.blocks(number)
            postings = sum(len(index.front(start).keys) for start in blocks)
            print(f"{name}: {postings} postings in {len(blocks)} "
                  + ("block" if len(blocks) == 1 else "blocks"))

    def audit(self) -> int:
        """Whether the volume is sound."""
        return self.naming(self._audit)

    def _audit(self, index: Index) -> int:
        broken = least_broken(index)
        if broken:
            raise Evidence(*broken)
        slots = index.volume.with_cells()
        open_slots = [slot for slot in slots if not slot.has_ended]
        if open_slots:
            raise Refusal(DIFFERS, "no rule is broken, and slot "
                          f"{open_slots[0].number} has not ended")
        states = [slot.state for slot in slots]
        written = sum(1 for _ in index.image.written(0, index.image.cells))
        print(f"sound: {states.count(DONE)} done, {states.count(ABANDONED)} abandoned, "
              f"{written} written cells")
        return 0

    def cat(self, identifier: bytes) -> int:
        """The body of a document, by going through the slots."""
        try:
            volume = self.settled().volume
        except Evidence:
            volume = self.volume
        for _, document in volume.standing():
            if document.identifier == identifier:
                put(document.body)
                return 0
        raise Refusal(10, "absent")

    def lookup(self, identifier: bytes) -> int:
        """The body of a document, by its path."""
        def ask(index: Index) -> int:
            found = look_up(index, identifier)
            if found is None:
                raise Refusal(10, "absent")
            put(found[1].body)
            return 0
        return self.naming(ask)

    def receipt(self, identifier: bytes) -> int:
        """The receipt of a document."""
        def ask(index: Index) -> int:
            put(text_of(make_receipt(index, identifier)))
            return 0
        return self.naming(ask)

    def find(self, texts: List[bytes]) -> int:
        """The documents with each of the words."""
        terms: Set[bytes] = set()
        for number, text in enumerate(texts, 1):
            words = words_of(text, self.volume.version)
            if len(words) != 1:
                raise Refusal(2, f"word {number} is not one term")
            terms.add(words[0])
        return self.naming(lambda index: tell(index, find(index, terms), False))

    def between(self, first: int, last: int) -> int:
        """The documents with stamps of a period."""
        if self.volume.version != 3:
            raise Refusal(9, "the volume has no stamps")
        return self.naming(lambda index: tell(index, between(index, first, last), True))


def tell(index: Index, answer: Answer, stamps: bool) -> int:
    """Prints what a query found by the index, and how going through the slots differs."""
    lines: Dict[int, str] = {}
    for number, document in numbered(answer.by_index | answer.by_scan, index):
        stamp = f" {index.volume.slot(number).stamp}" if stamps else ""
        lines[number] = f"{number} {document.identifier.decode()}{stamp} {len(document.body)}"
    for number in sorted(answer.by_index):
        print(lines[number])
    print(f"{len(answer.by_index)} found")
    for note in answer.notes:
        say("note: " + note)
    for number in sorted(answer.by_scan - answer.by_index):
        say("the index does not lead to: " + lines[number])
    for number in sorted(answer.by_index - answer.by_scan):
        say("going through the slots does not find: " + lines[number])
    return 0 if answer.by_index == answer.by_scan else DIFFERS


# The command line.

COUNTS: Dict[str, range] = {
    "list": range(1), "info": range(1), "audit": range(1), "check": range(1), "cat": range(1, 2),
    "lookup": range(1, 2), "receipt": range(1, 2), "between": range(2, 3), "find": range(1, 9)}


def seconds_in(text: str) -> int:
    """A number of seconds of the command line."""
    if not re.fullmatch("[0-9]{1,20}", text) or int(text) >= 1 << 32:
        raise Refusal(1, USAGE)
    return int(text)


def period_in(words: List[str]) -> Tuple[int, int]:
    """The ends of a period."""
    first, last = seconds_in(words[0]), seconds_in(words[1])
    if first > last:
        raise Refusal(1, USAGE)
    return first, last


def identifier_in(text: str) -> bytes:
    """An identifier of the command line."""
    if not is_identifier(os.fsencode(text)):
        raise Refusal(2, "bad identifier")
    return os.fsencode(text)


def receipt_in() -> bytes:
    """The text of a receipt on standard input."""
    if sys.stdin is None:
        raise Refusal(6, "source fault")
    try:
        text = sys.stdin.buffer.read(MOST_INPUT + 1)
    except OSError:
        raise Refusal(6, "source fault") from None
    if len(text) > MOST_INPUT:
        raise Refusal(2, "input is too long")
    return text


def run(arguments: List[str], opening: Callable[[str], Image]) -> int:
    """Runs a command, and returns its status."""
    is_raw = arguments[:1] == ["--raw"]
    path, command, *words = arguments[is_raw:] if len(arguments) >= 2 + is_raw else ["", ""]
    if path.startswith("--") or len(words) not in COUNTS.get(command, ()):
        raise Refusal(1, USAGE)
    given: Tuple = ()
    if command in ("cat", "lookup", "receipt"):
        given = (identifier_in(words[0]),)
    elif command == "between":
        given = period_in(words)
    elif command == "find":
        given = ([os.fsencode(word) for word in words],)
    text = receipt_in() if command == "check" else b""
    image = opening(path)
    if command == "check":
        print(check(image, text))
        return 0
    return getattr(Commands(Volume(image), is_raw), command)(*given)


def main(arguments: Optional[List[str]] = None,
         opening: Callable[[str], Image] = open_image) -> int:
    """The program. Another way to open an image may be given, as tests do."""
    try:
        status = run(sys.argv[1:] if arguments is None else arguments, opening)
        sys.stdout.flush()
        return status
    except Refusal as refusal:
        sys.stdout.flush()
        say(refusal.line)
        return refusal.status
    except MemoryError:
        say("out of memory")
        return 8
    except OSError:
        # Nobody reads what is put out; what is left in the buffer must not be tried again.
        os.dup2(os.open(os.devnull, os.O_WRONLY), 1)
        say("sink fault")
        return 7
    except KeyboardInterrupt:
        return 130


if __name__ == "__main__":
    sys.exit(main())
