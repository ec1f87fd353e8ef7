"""Asks two readers the same of random volumes, and compares each answer.

What both have to answer alike, and where they may differ, is in docs/FORMAT.md, "What settling
does" and "What an audit names".
"""

import collections
import functools
import multiprocessing
import os
import random
import re
import shutil
import signal
import subprocess
import tempfile
import time
from typing import Counter, Dict, List, NamedTuple, Optional, Set, Tuple

import worm_reader
from answers import Answer, program_answer, reader_answer
from breaking import WAYS
from cells import BLANK, Image, Refusal
from forging import Draft, NoRoom, forged_slot, reserve, stray_cell
from index import Index
from queries import between, find
from rules import RULES
from settling import settling_of
from volume import Volume
from words import words_of

WORDS = "hello world foo bar invoice 4711 paid e b x1".split() + [f"w{i}" for i in range(60)]
OTHER_WORDS = ("MÜLLER Straße σίσυφος ДОМ ａｂｃ ٣ नमस्ते İi ǅx Ꭰ ﬁn a\u0301b ß² — 日本 \u0345 \u0363 "
               "\U00011db0 \U0001e5d0").split()


class Asker:
    """The program and the reader, each with a file of its own."""

    def __init__(self, program: str, folder: str) -> None:
        self.program = program
        self.ours, self.theirs = os.path.join(folder, "reader"), os.path.join(folder, "program")

    def ask_program(self, *words: bytes, given: bytes = b"") -> Answer:
        """The program's answer, on its file."""
        return program_answer(self.program, self.theirs, words, given)

    def ask_reader(self, *words: bytes, given: bytes = b"", path: str = "") -> Answer:
        """The reader's answer, on its file or another, without its notes."""
        return reader_answer(path or self.ours, words, given, worm_reader.open_image)

    def put(self, image: bytes) -> None:
        """Both files are to hold this image."""
        for path in (self.ours, self.theirs):
            write(path, image)


def write(path: str, data: bytes) -> None:
    """Writes a file."""
    with open(path, "wb") as file:
        file.write(data)


def read(path: str) -> bytes:
    """Reads a file."""
    with open(path, "rb") as file:
        return file.read()


# Random volumes.


class Sample(NamedTuple):
    """An image, what it was made by, and what it may be asked for."""

    name: str
    image: bytes
    identifiers: List[bytes]
    words: List[bytes]
    stamps: List[int]


class Maker:
    """Makes random volumes by the program."""

    def __init__(self, rng: random.Random, asker: Asker) -> None:
        self.rng, self.asker = rng, asker
        self.version = rng.choice([1, 2, 3])
        self.slots, self.lists = rng.choice([1, 2, 8, 8, 30]), rng.choice([1, 1, 2, 3, 7])
        # Long bodies in one list fill blocks, so that pointers are taken.
        self.is_long = rng.random() < 0.25
        if self.is_long:
            self.slots, self.lists = 8, 1
        self.identifiers: List[bytes] = []
        self.words: List[bytes] = []
        self.stamps: List[int] = []
        self.seconds = rng.randrange(1000)
        # How long the last ingest took, in seconds.
        self.took = 0.01

    def body(self) -> bytes:
        """A body of words, and sometimes of any bytes."""
        voc = WORDS + OTHER_WORDS if self.version > 1 or self.rng.random() < 0.3 else WORDS
        count = self.rng.choice([0, 1, 2, 5, 10, 40])
        if self.is_long:
            voc, count = voc + [f"long{i}" for i in range(300)], 80
        body = " ".join(self.rng.choice(voc) for _ in range(count)).encode()
        if self.rng.random() < 0.2:
            body += bytes(self.rng.randrange(256) for _ in range(self.rng.randrange(30)))
        return body

    def identifier(self) -> bytes:
        """A new identifier that the command line takes."""
        while True:
            size = self.rng.choice([1, 1, 2, 3, 20, 200])
            name = bytes(self.rng.randrange(0x21, 0x7F) for _ in range(size))
            if name not in self.identifiers and not name.startswith(b"-"):
                return name

    def note(self, identifier: bytes, body: bytes) -> None:
        """Remembers what may be asked for."""
        self.identifiers.append(identifier)
        self.words += [word for word in words_of(body, self.version)
                       if b"\0" not in word and is_text(word)]
        if self.version == 3:
            self.stamps.append(self.seconds)

    def ingest(self) -> None:
        """Stores a document by the program."""
        self.seconds += self.rng.choice([1, 1, 5, 300, 70000])
        identifier, body = self.identifier(), self.body()
        began = time.monotonic()
        if self.asker.ask_program(*self.command(identifier), given=body).status == 0:
            self.note(identifier, body)
            self.took = time.monotonic() - began

    def command(self, identifier: bytes) -> List[bytes]:
        """The command that stores a document, with the stamp that is next."""
        return [b"ingest", identifier] + [b"%d" % self.seconds] * (self.version == 3)

    def format(self) -> None:
        """Makes an empty volume by the program."""
        pool = 4 + 4 * self.slots + 256 * self.lists + 32 + 256 * (self.version == 3)
        each = 500 if self.is_long else self.rng.choice([20, 100, 600])
        cells = pool + self.slots * each + self.rng.randrange(700)
        write(self.asker.theirs, bytes(16 * cells))
        numbers = (b"%d" % number for number in (self.slots, self.lists, self.version))
        self.asker.ask_program(b"format", *numbers)

    def sample(self) -> Sample:
        """A random volume."""
        self.format()
        for _ in range(self.rng.randrange(0, min(self.slots, 6) + 1)):
            self.ingest()
        name, change = self.rng.choice(KINDS)
        return Sample(name, change(self), self.identifiers, self.words, self.stamps)

    def draft(self) -> Draft:
        """The volume that the program has made so far."""
        return Draft(read(self.asker.theirs))


def is_text(word: bytes) -> bool:
    """Whether the command line takes this word."""
    try:
        return not word.decode().startswith("-")
    except UnicodeError:
        return False


def honest(maker: Maker) -> bytes:
    """As the program made it."""
    return read(maker.asker.theirs)


def cut(maker: Maker) -> bytes:
    """A crash in the middle of an ingest: all of the phases before one, and of this one a part."""
    rng, before = maker.rng, read(maker.asker.theirs)
    maker.ingest()
    after = Draft(read(maker.asker.theirs))
    new = [at for at in range(after.cells) if before[16 * at:16 * at + 16] != after.cell(at)]
    slot = 4 + 4 * (after.slot - 1)
    log = {slot: 0, slot + 3: 1, slot + 1: 2, slot + 2: 4}
    edge = after.volume().slot(after.slot - 1).document_at if new else 0
    phases = [log.get(at, 1 if at >= edge else 3) for at in new]
    last, share = rng.randrange(5), rng.choice([0.1, 0.5, 0.9])
    image = bytearray(before)
    for at, phase in zip(new, phases):
        if phase < last or phase == last and rng.random() < share:
            image[16 * at:16 * at + 16] = after.cell(at)
    return bytes(image)


def killed(maker: Maker) -> bytes:
    """The program, killed while it stores a document."""
    maker.seconds += 1
    identifier, body = maker.identifier(), maker.body()
    command = [maker.asker.program, maker.asker.theirs, *maker.command(identifier)]
    with subprocess.Popen(command, stdin=subprocess.PIPE, stdout=subprocess.DEVNULL,
                          stderr=subprocess.DEVNULL) as running:
        try:
            running.communicate(body, timeout=maker.rng.random() * 1.2 * maker.took)
        except subprocess.TimeoutExpired:
            running.kill()
    maker.note(identifier, body)
    return read(maker.asker.theirs)


def foreign(maker: Maker) -> bytes:
    """Foreign cells."""
    draft = maker.draft()
    for _ in range(maker.rng.choice([1, 1, 1, 2, 5])):
        stray_cell(maker.rng, draft)
    return bytes(draft.raw)


def forged(maker: Maker) -> bytes:
    """Slots of somebody else's."""
    raw = read(maker.asker.theirs)
    for _ in range(maker.rng.choice([1, 1, 2, 3])):
        draft, identifier, body = Draft(raw), maker.identifier(), maker.body()
        if maker.identifiers and maker.rng.random() < 0.1:
            identifier = maker.rng.choice(maker.identifiers)
        try:
            forged_slot(maker.rng, draft, identifier, body)
        except NoRoom:
            break
        maker.note(identifier, body)
        raw = bytes(draft.raw)
    return raw


def broken(maker: Maker) -> bytes:
    """One rule broken, in a way for which there is room."""
    draft = maker.draft()
    for way in maker.rng.sample(WAYS, 5):
        try:
            way(maker.rng, draft)
            break
        except NoRoom:
            draft = maker.draft()
    return bytes(draft.raw)


def many_horizons(maker: Maker) -> bytes:
    """Reserve cells of slots that nobody has come to."""
    draft = maker.draft()
    share = maker.rng.choice([0.1, 0.5, 0.9])
    for slot in range(draft.slot, draft.slots):
        if maker.rng.random() < share:
            at = 4 + 4 * slot
            draft.put(at, maker.rng.choice([reserve(draft.edge, 1, at), b"\x31" * 16]))
    return bytes(draft.raw)


def changed(maker: Maker) -> bytes:
    """Written cells that were changed or blanked, as a medium does that keeps nothing."""
    draft, rng = maker.draft(), maker.rng
    written = [at for at in range(1, draft.cells) if not draft.is_free(at)] or [1]
    for _ in range(rng.choice([1, 1, 2, 5])):
        at = rng.choice(written)
        cell = bytearray(draft.cell(at))
        what = rng.randrange(4)
        if what == 0:
            cell[rng.randrange(16)] ^= 1 << rng.randrange(8)
        elif what == 1:
            cell = bytearray(BLANK)
        elif what == 2:
            cell = bytearray(draft.cell(rng.choice(written)))
        else:
            cell[12:] = rng.randrange(draft.cells).to_bytes(4, "big")
        draft.raw[16 * at:16 * at + 16] = cell
    return bytes(draft.raw)


KINDS = [("honest", honest), ("cut", cut), ("killed", killed), ("foreign", foreign),
         ("horizons", many_horizons), ("changed", changed)]
KINDS += 3 * [("forged", forged)] + 8 * [("broken", broken)]


# The comparison.


class Comparison:
    """Compares what both answer, and counts."""

    def __init__(self, asker: Asker) -> None:
        self.asker, self.agree = asker, 0
        self.counts: Counter[str] = collections.Counter()
        self.shown: List[str] = []

    def same(self, what: str, ours: object, theirs: object) -> bool:
        """Counts whether two answers are the same."""
        if ours == theirs:
            self.agree += 1
            return True
        self.shown.append(f"{what}\n  program  {theirs!r}\n  reader   {ours!r}"[:1200])
        return False

    def volume(self, sample: Sample, rng: random.Random) -> None:
        """All commands on one volume."""
        try:
            volume: Optional[Volume] = Volume(Image(sample.image, len(sample.image) // 16))
        except Refusal:
            volume = None
        self.asker.put(sample.image)
        ours, theirs = self.asker.ask_reader(b"audit"), self.asker.ask_program(b"audit")
        self.same("audit", ours, theirs)
        named = re.match(r"tampered: rule (\d+)", theirs.line)
        self.counts[f"rule {named[1]}" if named else theirs.output.decode()[:5] or "other"] += 1
        settled = self.settling(sample, volume)
        queries = Queries(self, settled)
        queries.ask(b"lookup", b"absent")
        for identifier in pick(rng, sample.identifiers, 2):
            queries.ask(b"lookup", identifier)
            text = queries.ask(b"receipt", identifier)
            if text.status == 0:
                self.receipts(rng, text.output, sample.image)
        for count in (1, 2):
            words = pick(rng, sample.words, count) or [b"hello"]
            queries.ask(b"find", *words)
        ends = sorted(pick(rng, sample.stamps, 2) + [rng.randrange(5000), 2 ** 32 - 1])
        queries.ask(b"between", b"%d" % ends[0], b"%d" % ends[-1])
        if sample.stamps:
            queries.ask(b"between", b"%d" % ends[0], b"%d" % ends[1])
        self.asker.ask_reader(b"list")
        self.same("info and list answer", self.asker.ask_reader(b"info").status, 0)
        self.same("the reader writes nothing", read(self.asker.ours), sample.image)

    def settling(self, sample: Sample, volume: Optional[Volume]) -> Optional[Index]:
        """`recover`, what it writes, and the volume behind it."""
        self.same("what an audit has written", self.expected(sample, volume)[1],
                  read(self.asker.theirs))
        write(self.asker.theirs, sample.image)
        theirs = self.asker.ask_program(b"recover")
        answer, image = self.expected(sample, volume)
        self.same("recover", answer, theirs)
        self.same("what recover has written", image, read(self.asker.theirs))
        return Index(Volume(Image(image, len(image) // 16))) if volume else None

    def expected(self, sample: Sample, volume: Optional[Volume]) -> Tuple[Answer, bytes]:
        """What `recover` is to answer, and the image that it is to leave."""
        if volume is None:
            return self.asker.ask_reader(b"audit"), sample.image
        settling, image = settling_of(volume), bytearray(sample.image)
        for at, cell in settling.written.items():
            image[16 * at:16 * at + 16] = cell
        if settling.named:
            line = worm_reader.line_of(settling.named, volume.image)
            return Answer(4, b"", line), bytes(image)
        return Answer(0, settling.answer.encode() + b"\n", ""), bytes(image)

    def receipts(self, rng: random.Random, text: bytes, image: bytes) -> None:
        """Checks of a receipt, as it is and changed."""
        # The receipt is of the volume that the program has settled; a check settles nothing.
        path = self.asker.ours + ".settled"
        write(path, read(self.asker.theirs))
        for given in (text, changed_receipt(rng, text, image)):
            ours = self.asker.ask_reader(b"check", given=given, path=path)
            self.same(f"check {given!r}", ours, self.asker.ask_program(b"check", given=given))


class Queries:
    """Queries of one volume, which may name a cell or pass it over."""

    def __init__(self, comparison: Comparison, index: Optional[Index]) -> None:
        self.comparison, self.index = comparison, index
        self.broken: Dict[int, Set[int]] = {}

    def ask(self, *words: bytes) -> Answer:
        """Asks both, and compares what is to be the same. It answers what the program says."""
        ours = self.comparison.asker.ask_reader(*words)
        theirs = self.comparison.asker.ask_program(*words)
        what = b" ".join(words).decode(errors="replace")
        if ours._replace(status=0 if ours.status == 20 else ours.status) == theirs:
            self.comparison.agree += 1
        elif self.index is None or not self.may_differ(words, ours, theirs):
            self.comparison.same(what, ours, theirs)
        else:
            self.comparison.agree += 1
            self.comparison.counts["queries that came to other cells"] += 1
        return theirs

    def may_differ(self, words: Tuple[bytes, ...], ours: Answer, theirs: Answer) -> bool:
        """Whether these answers may differ: each cell that is named breaks its rule, and each
        list of lines has what it must have, and no more than it may."""
        for answer in (ours, theirs):
            if answer.status == 4:
                if not self.is_true(answer.line):
                    return False
            elif words[0] in (b"find", b"between") and answer.status in (0, 20):
                if not self.is_list(words, answer.output):
                    return False
        both_told = ours.status != 4 and theirs.status != 4
        return not (both_told and words[0] in (b"lookup", b"receipt"))

    def is_true(self, line: str) -> bool:
        """Whether the cell that a line names breaks its rule, and holds what the line says."""
        assert self.index
        named = re.fullmatch(r"tampered: rule (\d+) at cell (\d+): ([0-9a-f]{32})", line)
        if not named:
            return False
        rule, at = int(named[1]), int(named[2])
        if rule not in self.broken:
            self.broken[rule] = set(RULES[rule - 1](self.index))
        return at in self.broken[rule] and self.index.image.cell(at).hex() == named[3]

    def is_list(self, words: Tuple[bytes, ...], output: bytes) -> bool:
        """Whether lines tell of documents that stand and match, and of each such one that is
        kept."""
        assert self.index
        if words[0] == b"find":
            terms = {words_of(word, self.index.volume.version)[0] for word in words[1:]}
            matches = find(self.index, terms).by_scan
        else:
            matches = between(self.index, int(words[1]), int(words[2])).by_scan
        told = {int(line.split(b" ")[0]) for line in output.split(b"\n")[:-2]}
        kept = {number for number in matches
                if self.index.is_kept(number, self.index.stands_as(number) or b"")}
        return kept <= told <= matches


def pick(rng: random.Random, values: list, count: int) -> list:
    """Some of these, at most so many."""
    return rng.sample(values, min(count, len(values)))


def changed_receipt(rng: random.Random, text: bytes, image: bytes) -> bytes:
    """A receipt with one change."""
    lines = text.decode().split("\n")[:-1]
    i, what = rng.randrange(1, len(lines) - 1), rng.randrange(8)
    if what == 0:
        del lines[i]
    elif what == 1:
        del lines[i]
        lines[-1] = f"end {len(lines) - 2}"
    elif what == 2:
        row = list(lines[i])
        row[rng.randrange(len(row))] = rng.choice("0123456789abcdefABC x")
        lines[i] = "".join(row)
    elif what == 3:
        lines[0] = rng.choice(["receipt 0 a", "receipt 16777216 a", "receipt 00 a", "receipt 0 a b",
                               "receipt 16777215 a", "Receipt 0 a"])
    elif what == 4:
        text = ("\n".join(lines) + "\n").encode()
        return text[:rng.randrange(len(text))]
    elif what == 5:
        at = rng.randrange(len(image) // 16)
        listed = {int(line.split()[0]): line for line in lines[1:-1]}
        listed.setdefault(at, f"{at} {image[16 * at:16 * at + 16].hex()}")
        lines[1:-1] = [listed[at] for at in sorted(listed)]
        lines[-1] = f"end {len(listed)}"
    elif what == 6:
        lines.insert(i, rng.choice([f"{len(image) // 16} {'01' * 16}", f"end {i - 1}", ""]))
    else:
        lines[0] = f"receipt {rng.randrange(9)} {lines[0].split()[2]}"
    return ("\n".join(lines) + "\n").encode()


class Outcome(NamedTuple):
    """What came of one volume: how many answers agree, what is counted, and what is to be shown of
    those that differ."""

    agree: int
    counts: Counter[str]
    shown: List[str]
    head: str


def compare_one(seed: int, program: str, folder: str, number: int) -> Outcome:
    """Compares the volume of a number, and keeps its image in this folder where answers differ."""
    work = os.path.join(folder, "work", str(os.getpid()))
    os.makedirs(work, exist_ok=True)
    rng, asker = random.Random(f"{seed}/{number}"), Asker(program, work)
    sample, comparison = Maker(rng, asker).sample(), Comparison(asker)
    comparison.volume(sample, rng)
    path = os.path.join(folder, f"{seed}-{number}.img")
    if comparison.shown:
        write(path, sample.image)
    head = f"volume {number}, {sample.name}, kept as {path}"
    return Outcome(comparison.agree, comparison.counts, comparison.shown, head)


def compare(seed: int, count: int, program: str) -> int:
    """Compares so many volumes, one on each processor at a time, and prints how that ended. The
    status is 0 where none differs."""
    folder = tempfile.mkdtemp(prefix="compare_readers.")
    agree, differ, processors = 0, 0, len(os.sched_getaffinity(0))
    counts: Counter[str] = collections.Counter()
    with multiprocessing.get_context("fork").Pool(processors, leave_interrupts) as pool:
        for outcome in pool.imap(functools.partial(compare_one, seed, program, folder),
                                 range(count)):
            agree, differ = agree + outcome.agree, differ + len(outcome.shown)
            counts += outcome.counts
            if outcome.shown:
                print(outcome.head, *outcome.shown, sep="\n", flush=True)
    for name in sorted(counts):
        print(f"{name}: {counts[name]}")
    shutil.rmtree(os.path.join(folder, "work"), ignore_errors=True)
    if not differ:
        os.rmdir(folder)
    print(f"{agree} agree, {differ} differ")
    return 1 if differ else 0


def leave_interrupts() -> None:
    """An interrupt is for the process that began the others."""
    signal.signal(signal.SIGINT, signal.SIG_IGN)

