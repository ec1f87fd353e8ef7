"""Reads rows (docs/ROWS.md), and carries them out by the reader, or by a program.

A row of which a line is none of LINES, or that asks for a command that a reader has not, is passed
over. A format and an ingest, which no reader has, are carried out as FORMAT.md tells.
"""

import os
import re
import tempfile
from typing import Dict, Iterator, List, NamedTuple, Optional, Sequence, Tuple

from answers import Answer, program_answer, reader_answer
from cells import BLANK, MAX_BODY, VOLUME, Image, Refusal, encode
from forging import Draft, NoRoom
from index import Index
from rules import RULES, least_broken
from settling import settling_of
from volume import Volume, is_identifier
from worm_reader import line_of

LINES = set("device put < <: <* <x <x* $ $* > >: >* >x >x* ! = cell blank written + save saved"
            .split())
QUERIES = ("audit", "find", "lookup", "between", "receipt", "check")
MOST_CELLS = 1 << 24


class PassedOver(Exception):
    """The row asks for what is not done here."""


class Wrong(Exception):
    """A line of a row is not so."""


class Line(NamedTuple):
    """A line of a row: its number in the file, its first word, and the rest."""

    number: int
    word: str
    rest: str


class Row(NamedTuple):
    """A row: its name, and its lines without blocks."""

    name: str
    lines: List[Line]


def rows_in(path: str) -> List[Row]:
    """The rows of a file, with each block put where it belongs."""
    rows: List[Row] = []
    with open(path, encoding="utf-8", newline="\n") as file:
        parts = (text.rstrip("\n").partition(" ") for text in file)
        lines = [Line(number, word, rest) for number, (word, _, rest) in enumerate(parts, 1)]
    for line in expanded(lines):
        if line.word == "row":
            rows.append(Row(line.rest, []))
        else:
            rows[-1].lines.append(line)
    return [Row(row.name, list(chosen(row.lines))) for row in rows]


def expanded(lines: List[Line]) -> Iterator[Line]:
    """The lines of a file, with no comments, and each block where it is asked for."""
    blocks: Dict[str, List[Line]] = {}
    block: Optional[List[Line]] = None
    head = Line(0, "", "")
    for line in lines:
        more = blocks[line.rest] if line.word == "with" else [line]
        if line.word in ("", "--"):
            continue
        if line.word in ("let", "for"):
            head, block = line, []
        elif line.word != "end" or block is None:
            if block is None:
                yield from more
            else:
                block.extend(more)
        else:
            if head.word == "let":
                blocks[head.rest] = block
            else:
                yield from repeated(head, block)
            block = None


def repeated(head: Line, block: List[Line]) -> Iterator[Line]:
    """The lines of a `for`, once for each number."""
    first, last = map(int, head.rest.split())
    for n in range(first, last + 1):
        for number, word, rest in block:
            rest = rest.replace("{n3}", f"{n:03}").replace("{n}", str(n)).replace("{x}", f"{n:08x}")
            yield Line(number, word, rest)


def chosen(lines: List[Line]) -> Iterator[Line]:
    """The lines, with those of `bit` where the bit is set."""
    for line in lines:
        if line.word != "bit":
            yield line
            continue
        bit, number, word, rest = (line.rest + " ").split(" ", 3)
        if int(number) >> int(bit) & 1:
            yield Line(line.number, word, rest[:-1])


class Device:
    """A device of which the written cells are kept, and what answers on it."""

    def __init__(self) -> None:
        self.size, self.is_foreign = 0, False
        self.cells: Dict[int, bytes] = {}
        self.saved: Optional[Tuple[int, Dict[int, bytes]]] = None

    def image(self, _: str = "") -> Image:
        """The image that the reader sees."""
        return Image(b"", self.size, self.cells)

    def answer(self, words: List[bytes], given: bytes) -> Answer:
        """What is answered to a command, whose cells are written then."""
        command = words[0].decode()
        if command == "format":
            return self._format(words)
        if command == "ingest":
            return self._ingest(words, given)
        if command == "recover" and len(words) == 1:
            return self._recover()
        if command not in QUERIES:
            raise PassedOver
        answer = reader_answer("image", words, given, self.image)
        if command != "check" and answer.status in (0, 4, 10, 20):
            self.cells.update(settling_of(Volume(self.image())).written)
        return answer

    def _recover(self) -> Answer:
        try:
            volume = Volume(self.image())
        except Refusal as refusal:
            return Answer(refusal.status, b"", refusal.line)
        settling = settling_of(volume)
        self.cells.update(settling.written)
        if settling.named:
            return Answer(4, b"", line_of(settling.named, volume.image))
        return Answer(0, settling.answer.encode() + b"\n", "")

    def _format(self, words: List[bytes]) -> Answer:
        """Writes the volume cell."""
        if self.cells or not 3 <= len(words) <= 4 or not all(word.isdigit() for word in words[1:]):
            raise PassedOver
        slots, lists, version = [int(word) for word in words[1:]] + [1] * (4 - len(words))
        if not (0 < slots <= 1 << 24 and 0 < lists <= 4096 and 0 < version <= 3):
            raise PassedOver
        body = b"".join(number.to_bytes(size, "big") for number, size
                        in ((version, 1), (slots, 4), (lists, 2), (self.size, 4)))
        self.cells[0] = encode(VOLUME, body, 0)
        try:
            Volume(self.image())
        except Refusal:
            raise PassedOver from None
        return Answer(0, b"formatted\n", "")

    def _ingest(self, words: List[bytes], given: bytes) -> Answer:
        """Stores a document as FORMAT.md tells, where nothing forbids that."""
        self._recover()
        try:
            volume = Volume(self.image())
            if (len(words) != 2 + (volume.version == 3) or not is_identifier(words[1])
                    or words[1].startswith(b"-") or len(given) > MAX_BODY):
                raise PassedOver
            if self.size > MOST_CELLS or self.is_foreign and least_broken(Index(volume)):
                raise PassedOver
            draft = Draft(volume.image.span(0, self.size))
            seconds = int(words[2]) if volume.version == 3 else None
            taken = {document.identifier for _, document in volume.standing()}
            if words[1] in taken or seconds is not None and seconds <= draft.seconds:
                raise PassedOver
            plan = draft.plan(words[1], given, seconds)
            for phase in plan.phases():
                if any(not draft.is_free(at) for at in phase):
                    raise PassedOver
                self.cells.update(phase)
        except (Refusal, NoRoom, ValueError):
            raise PassedOver from None
        return Answer(0, b"acknowledged %d\n" % plan.slot, "")


class FileDevice(Device):
    """The same in a file, on which a program answers."""

    def __init__(self, program: str, path: str) -> None:
        super().__init__()
        self.program, self.path = program, path

    def answer(self, words: List[bytes], given: bytes) -> Answer:
        """What the program answers."""
        if words[0] in (b"replay", b"exercise") or self.size > MOST_CELLS:
            raise PassedOver
        raw = bytearray(16 * self.size)
        for at, cell in self.cells.items():
            raw[16 * at:16 * at + 16] = cell
        with open(self.path, "wb") as file:
            file.write(raw)
        answer = program_answer(self.program, self.path, words, given)
        with open(self.path, "rb") as file:
            self.cells = dict(Image(file.read(), self.size).written(0, self.size))
        return answer


class Try:
    """Carries out one row."""

    def __init__(self, device: Device) -> None:
        self.device, self.given = device, b""
        self.told: Optional[Answer] = None
        self.before: Dict[int, bytes] = {}
        self.is_query = False

    def row(self, row: Row) -> None:
        """The whole row: Wrong where a line is not so."""
        if not all(line.word in LINES for line in row.lines):
            raise PassedOver
        for line in row.lines:
            try:
                self.line(line)
            except Wrong as wrong:
                raise Wrong(f"line {line.number}: {line.word} {line.rest} ({wrong})") from None
        try:
            self.end_answer()
        except Wrong as wrong:
            raise Wrong(f"at its end ({wrong})") from None

    def end_answer(self) -> None:
        """All of the last answer has to be told by now."""
        if self.told and (self.told.output or self.told.status not in (0, 20)):
            raise Wrong(f"{self.told.output!r} {self.told.status} {self.told.line}")
        self.told = None

    def line(self, line: Line) -> None:
        """One line."""
        word, rest = line.word, line.rest
        if word in ("device", "put", "save", "saved"):
            self.end_answer()
            self.change(word, rest)
        elif word in ("$", "$*"):
            self.end_answer()
            count, _, words = rest.partition(" ") if word == "$*" else ("1", "", rest)
            parts = [part.encode() for part in words.split("|")]
            parts[-1] *= int(count)
            self.is_query = parts[0] in (b"find", b"between", b"lookup", b"receipt")
            self.before = dict(self.device.cells)
            self.told, self.given = self.device.answer(parts, self.given), b""
        elif word.startswith("<"):
            self.given += text_in(word[1:], rest)
        elif word.startswith(">"):
            self.output(text_in(word[1:], rest))
        else:
            self.look(word, rest)

    def change(self, word: str, rest: str) -> None:
        """A line that changes the device."""
        if word == "device":
            self.device.size, self.device.cells, self.device.is_foreign = int(rest), {}, False
        elif word == "put":
            at, cell = rest.split()
            if int(at) in self.device.cells:
                raise Wrong("it is written")
            self.device.cells[int(at)], self.device.is_foreign = cell_in(cell), True
        elif word == "save":
            self.device.saved = self.device.size, dict(self.device.cells)
        elif word == "saved":
            if self.device.saved is None:
                raise PassedOver
            self.device.size, self.device.cells = self.device.saved[0], dict(self.device.saved[1])

    def output(self, text: bytes) -> None:
        """A line that tells what was put out next."""
        if not self.told or not self.told.output.startswith(text):
            raise Wrong(repr(self.told and self.told.output))
        self.told = self.told._replace(output=self.told.output[len(text):])

    def look(self, word: str, rest: str) -> None:
        """A line that tells of the answer, or of the device."""
        cells = self.device.cells
        if word == "!":
            self.refusal(rest)
        elif word == "=":
            whole = self.told and (self.told.output.decode("latin-1").replace("\n", "/")
                                   + (f"!{self.told.status} {self.told.line}"
                                      if self.told.status not in (0, 20) else ""))
            if whole not in [part.replace("! ", "!") for part in rest.split(" or ")]:
                raise Wrong(repr(whole))
            self.told = None
        elif word == "written":
            if len(cells) != int(rest):
                raise Wrong(str(len(cells)))
        elif word == "blank":
            first, last = map(int, rest.split())
            if any(first <= at <= last for at in cells):
                raise Wrong("a cell is written")
        elif rest not in ("sync", "none"):
            at, cell = rest.split()
            if cells.get(int(at), BLANK) != cell_in(cell) or word == "+" and int(at) in self.before:
                raise Wrong(cells.get(int(at), BLANK).hex())


    def refusal(self, rest: str) -> None:
        """A line that tells of a refusal. Of one with the status 1 the status alone is compared,
        since each program has a usage of its own. A query may pass over a cell that is named, and so
        may find a document absent."""
        if self.told and f"{self.told.status} {self.told.line}" == rest:
            self.told = self.told._replace(status=0)
        elif self.told and rest.startswith("1 "):
            # The reader's command line takes what that of the program does not.
            if self.told.status != 1:
                raise PassedOver
            self.told = None
        elif self.told and self.told.status in (0, 10, 20) and self.is_query and self.is_true(rest):
            self.told = None
        else:
            raise Wrong(repr(self.told))

    def is_true(self, rest: str) -> bool:
        """Whether the cell that a refusal names breaks its rule."""
        named = re.fullmatch(r"4 tampered: rule (\d+) at cell (\d+): [0-9a-f]{32}", rest)
        index = Index(Volume(self.device.image()))
        return named is not None and int(named[2]) in set(RULES[int(named[1]) - 1](index))


def cell_in(text: str) -> bytes:
    """A cell of a row."""
    return bytes.fromhex(text.replace("_", ""))


def text_in(form: str, rest: str) -> bytes:
    """The bytes of a `<` or `>` line."""
    if form == "":
        return rest.encode() + b"\n"
    if form == ":":
        return rest.encode()
    if form == "x":
        return bytes.fromhex(rest)
    count, _, text = rest.partition(" ")
    return int(count) * (text.encode() if form == "*" else bytes.fromhex(text))


class Result(NamedTuple):
    """How many rows of a file agree and were passed over, and what is wrong."""

    agree: int
    passed_over: int
    wrong: List[str]


def try_file(path: str, device: Device) -> Result:
    """Carries out the rows of a file."""
    agree, passed_over, wrong = 0, 0, []
    for row in rows_in(path):
        device.cells, device.size = {}, 0
        try:
            Try(device).row(row)
            agree += 1
        except PassedOver:
            passed_over += 1
        except Wrong as why:
            wrong.append(f"{os.path.basename(path)}: {row.name}: {why}")
    return Result(agree, passed_over, wrong)


def try_files(paths: Sequence[str], program: str = "") -> int:
    """Carries out the rows of files, and prints how that ended. The status is 0 where all agree."""
    status = 0
    with tempfile.TemporaryDirectory(prefix="run_vectors.") as folder:
        for path in paths:
            device = FileDevice(program, os.path.join(folder, "image")) if program else Device()
            result = try_file(path, device)
            for line in result.wrong:
                print(line)
                status = 1
            print(f"{os.path.basename(path)}: {result.agree} agree, {len(result.wrong)} differ, "
                  f"{result.passed_over} passed over")
    return status
