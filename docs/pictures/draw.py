#!/usr/bin/env python3
"""Draws the pictures of the documents from what they show, so that none can go stale.

    docs/pictures/draw.py            draws each picture anew, beside this script
    docs/pictures/draw.py --check    draws nothing, and names each picture that is not what would be drawn

    layers.svg    the crates by layers, with the longest chain           from crates.txt
    speed.svg     times, memory and bytes beside SQLite and Xapian       from the tables of docs/SPEED.md
    ingest.svg    the steps of an ingest, and what a crash leaves        from the table of docs/ARCHITECTURE.md
    volume.svg    the parts of a volume, and the cells of a small one    from the tables of docs/FORMAT.md
    jump.svg      a list with a pointer, and one that somebody forged    by hand
    trust.svg     what is proved, and what is trusted                    by hand

Each picture has its own background, light or dark as the reader's screen asks for, and says in words what it shows. The
script ends with 0 where all is drawn or current, with 1 where a picture is stale, and with 2 where a table is not found
or the words are wrong.
"""
import html
import math
import os
import re
import sys
import textwrap

HERE = os.path.dirname(os.path.realpath(__file__))
TOP = os.path.dirname(os.path.dirname(HERE))
WIDTH = 880
FONT = '-apple-system,"Segoe UI","Noto Sans",Helvetica,Arial,sans-serif'
# For each class its fill and its stroke, on a light and on a dark screen.
COLOURS = {
    "page": (("#ffffff", "#d1d9e0"), ("#0d1117", "#3d444d")),
    "ink": (("#1f2328", "none"), ("#f0f6fc", "none")),
    "soft": (("#59636e", "none"), ("#9198a1", "none")),
    "bad": (("#cf222e", "none"), ("#ff7b72", "none")),
    "good": (("#1a7f37", "none"), ("#56d364", "none")),
    "grey": (("#f6f8fa", "#8c959f"), ("#21262d", "#6e7681")),
    "blue": (("#ddf4ff", "#0969da"), ("#0c2d6b", "#58a6ff")),
    "green": (("#dafbe1", "#1a7f37"), ("#12351f", "#3fb950")),
    "yellow": (("#fff8c5", "#9a6700"), ("#3b2d0b", "#d29922")),
    "red": (("#ffebe9", "#cf222e"), ("#45171b", "#f85149")),
    "orange": (("#bc4c00", "#bc4c00"), ("#f0883e", "#f0883e")),
    "dot": (("#0969da", "#0969da"), ("#58a6ff", "#58a6ff")),
    "ring": (("none", "#0969da"), ("none", "#58a6ff")),
    "rule": (("none", "#d1d9e0"), ("none", "#3d444d")),
    "axis": (("none", "#1f2328"), ("none", "#f0f6fc")),
    "way": (("none", "#59636e"), ("none", "#9198a1")),
    "bluish": (("none", "#0969da"), ("none", "#58a6ff")),
    "greenish": (("none", "#1a7f37"), ("none", "#3fb950")),
    "reddish": (("none", "#cf222e"), ("none", "#f85149")),
}
# The heads of arrows have the colour of their line.
ARROWS = ("way", "bluish", "greenish", "reddish")


class NotFound(Exception):
    """A table that a picture is drawn from is not where it was; the text says which."""


def style():
    def rules(scheme):
        lines = []
        for name, both in COLOURS.items():
            fill, stroke = both[scheme]
            lines.append(f".{name}{{fill:{fill};stroke:{stroke}}}")
            if name in ARROWS:
                lines.append(f".{name}-head{{fill:{stroke};stroke:none}}")
        return "".join(lines)

    return f"text{{font-family:{FONT}}}{rules(0)}@media(prefers-color-scheme:dark){{{rules(1)}}}"


class Picture:
    """A picture that grows by its parts. The title is what is shown, and the words say it to those who can't see it."""

    def __init__(self, title, words):
        self.title, self.words, self.parts = title, words, []

    def text(self, x, y, words, kind="ink", size=13, anchor="start", bold=False):
        weight = ' font-weight="600"' if bold else ""
        place = "" if anchor == "start" else f' text-anchor="{anchor}"'
        where = f'x="{x:g}" y="{y:g}" font-size="{size}"{place}{weight}'
        self.parts.append(f'<text class="{kind}" {where}>{html.escape(words)}</text>')

    def head(self, words=""):
        """Puts the title, and these words below it."""
        self.text(16, 28, self.title, bold=True, size=15)
        if words:
            self.text(16, 48, words, "soft")

    def lines(self, x, y, words, width, **how):
        """Puts the words below each other, at most so many letters in a line; answers how many lines these are."""
        rows = textwrap.wrap(words, width)
        for number, row in enumerate(rows):
            self.text(x, y + 16 * number, row, **how)
        return len(rows)

    def box(self, x, y, width, height, kind, radius=4):
        where = f'x="{x:g}" y="{y:g}" width="{width:g}" height="{height:g}" rx="{radius}"'
        self.parts.append(f'<rect class="{kind}" {where}/>')

    def mark(self, x, y, kind):
        """A dot, a ring, or else a diamond."""
        if kind == "orange":
            self.parts.append(f'<path class="orange" d="M{x:.1f} {y - 5}l5 5l-5 5l-5 -5z"/>')
        else:
            radius = 4 if kind == "dot" else 5.5
            self.parts.append(f'<circle class="{kind}" cx="{x:.1f}" cy="{y}" r="{radius}"/>')

    def line(self, x, y, to_x, to_y, kind="rule", dash=""):
        dashes = f' stroke-dasharray="{dash}"' if dash else ""
        self.parts.append(f'<path class="{kind}" d="M{x:g} {y:g}L{to_x:g} {to_y:g}"{dashes}/>')

    def arrow(self, path, kind="way", dash=""):
        dashes = f' stroke-dasharray="{dash}"' if dash else ""
        self.parts.append(f'<path class="{kind}" d="{path}" marker-end="url(#{kind})"{dashes}/>')

    def svg(self, height):
        heads = "".join(
            f'<marker id="{it}" viewBox="0 0 8 8" refX="7" refY="4" markerWidth="8" markerHeight="8" orient="auto">'
            f'<path class="{it}-head" d="M0 0L8 4L0 8z"/></marker>'
            for it in ARROWS
        )
        return "\n".join([
            f'<svg xmlns="http://www.w3.org/2000/svg" role="img" aria-labelledby="title words" width="{WIDTH}" '
            f'height="{height:g}" viewBox="0 0 {WIDTH} {height:g}">',
            f'<title id="title">{html.escape(self.title)}</title>',
            f'<desc id="words">{html.escape(self.words)}</desc>',
            f"<style>{style()}</style>",
            f"<defs>{heads}</defs>",
            f'<rect class="page" x="0.5" y="0.5" width="{WIDTH - 1}" height="{height - 1:g}" rx="6"/>',
            *self.parts,
            "</svg>\n",
        ])


def read(path):
    with open(f"{TOP}/{path}", encoding="utf-8") as file:
        return file.read()


def tables(path, *heading):
    """The rows of each table of a document whose first headings are these, without the marks of Markdown."""
    found, lines = [], read(path).splitlines()
    for number, line in enumerate(lines):
        cells = [it.strip() for it in line.strip("|").split("|")]
        if not line.startswith("|") or tuple(cells[: len(heading)]) != heading:
            continue
        rows = []
        for row in lines[number + 2 :]:
            if not row.startswith("|"):
                break
            rows.append([re.sub(r"[`*]", "", it).strip() for it in row.strip("|").split("|")])
        found.append(rows)
    if not found:
        raise NotFound(f"{path} has no table that begins with {' | '.join(heading)}")
    return found


# The layers of crates


def groups():
    """The layers of crates.txt but the tests, lowest first: what each is called, and its crates with what they name."""
    found = []
    for block in re.split(r"\n\s*\n", read("crates.txt")):
        lines = block.strip().splitlines()
        heading = re.split(r"[:.]", lines[0].lstrip("# "))[0]
        crates = [(it.split(":")[0].strip(), it.split(":")[1].split()) for it in lines if not it.startswith("#")]
        if crates and heading != "Tests":
            found.append((heading, crates))
    if not found:
        raise NotFound("crates.txt has no layers")
    return found


def longest_chain(named):
    """The crates of a longest chain, lowest first. Of several it takes the one that the list has first."""
    depth = {}
    for crate in named:
        later = [it for it in named[crate] if it in named and it not in depth]
        if later:
            raise NotFound(f"crates.txt: {crate} names {later[0]}, which does not come before it")
        depth[crate] = 1 + max((depth[it] for it in named[crate] if it in depth), default=0)
    chain = [max(named, key=depth.get)]
    while depth[chain[0]] > 1:
        chain.insert(0, next(it for it in named if it in named[chain[0]] and depth[it] == depth[chain[0]] - 1))
    return chain


def layers():
    rows = groups()
    named = {crate: names for _, crates in rows for crate, names in crates}
    chain = longest_chain(named)
    listed = "; ".join(f"{heading}: {', '.join(crate for crate, _ in crates)}" for heading, crates in rows)
    title = f"The layers: {len(named)} crates, with a longest chain of {len(chain)}"
    picture = Picture(title, f"From the lowest layer up. {listed}. The longest chain: {', '.join(chain)}.")
    picture.head("A crate names crates below it, or before it in its layer. The longest chain is numbered.")
    y = 66
    for heading, crates in reversed(rows):
        x, top = 216, y
        for crate, _ in crates:
            number = f"{chain.index(crate) + 1}  " if crate in chain else ""
            width = 8 * len(number + crate) + 14
            if x + width > WIDTH - 12:
                x, y = 216, y + 30
            picture.box(x, y, width, 24, "blue" if number else "grey")
            picture.text(x + width / 2, y + 16.5, number + crate, size=12.5, anchor="middle", bold=bool(number))
            x += width + 7
        y = max(y + 30, top + 4 + 16 * picture.lines(16, top + 16, heading, 28, kind="soft"))
        picture.line(16, y + 3, WIDTH - 16, y + 3)
        y += 13
    return picture.svg(y)


# Speed

PEERS = (("dot", "SQLite, rollback journal"), ("ring", "SQLite, write-ahead log"), ("orange", "Xapian"))


def ratios(rows):
    """The rows of a table of ratios: what was measured, and the ratio to each peer. A row of several things is taken
    apart, and a thing that begins with `of` is one of the row before."""
    found, noun = [], ""
    for what, *cells in rows:
        if not what.startswith("of "):
            noun = what.split(" of ")[0]
        label = f"{noun} {what}" if what.startswith("of ") else what
        several = label.split(", ")
        values = [[float(it) for it in cell.split(", ")] for cell in cells[:3]]
        if len(several) == len(values[0]) > 1:
            first = several[0].split(" of ")[0]
            names = [several[0], *(f"{first} of {it}" for it in several[1:])]
        else:
            names = [label]
        found += [(name, [it[k] for it in values]) for k, name in enumerate(names)]
    return found


def panel(picture, left, width, top, names, rows, heading):
    """One table as marks on a scale on which each doubling is as long as the next; 1 is the peer's own figure."""
    least, most = math.log2(0.25), math.log2(5.6)
    at = lambda ratio: left + width * (math.log2(ratio) - least) / (most - least)
    bottom = top + 22 * len(names)
    picture.text(left, top - 30, heading, bold=True)
    picture.box(left, top - 4, at(1) - left, bottom - top + 4, "green", 0)
    for ratio, words in ((0.25, "¼"), (0.5, "½"), (1, "1"), (2, "2"), (4, "4")):
        picture.line(at(ratio), top - 4, at(ratio), bottom, "axis" if ratio == 1 else "rule")
        picture.text(at(ratio), top - 10, words, "soft", 12, "middle")
    for number, name in enumerate(names):
        y = top + 22 * number + 10
        for (kind, _), ratio in zip(PEERS, rows.get(name, ())):
            picture.mark(at(ratio), y, kind)


def speed():
    both = [ratios(it) for it in tables("docs/SPEED.md", "What", "to SQLite, rollback journal")]
    if len(both) != 2:
        raise NotFound("docs/SPEED.md has not two tables of ratios")
    records = re.findall(r"(?:records are|over) ([\d,]+) (?:entries|of its records)", read("docs/SPEED.md"))[:2]
    names = list(dict.fromkeys(name for rows in both for name, _ in rows))
    words = " ".join(
        f"{what}: " + "; ".join(f"{name} {', '.join(f'{it:g}' for it in values)}" for name, values in rows) + "."
        for what, rows in zip((f"Over {it} records" for it in records), both)
    )
    title = "worm beside SQLite with FTS5 and Xapian: times, memory and bytes"
    peers = "SQLite with a rollback journal, with a write-ahead log, and to Xapian"
    picture = Picture(title, f"Ratios to {peers}. {words}")
    picture.head("Each mark is worm's figure divided by a peer's. Left of 1 worm is ahead; right of 1 it is behind.")
    for x, (kind, peer) in zip((22, 214, 410), PEERS):
        picture.mark(x, 68, kind)
        picture.text(x + 12, 72.5, peer, size=12.5)
    top = 132
    for number, name in enumerate(names):
        picture.text(256, top + 22 * number + 14.5, name, size=12.5, anchor="end")
        picture.line(16, top + 22 * number + 21, WIDTH - 16, top + 22 * number + 21)
    for left, rows, count in zip((272, 582), both, records):
        panel(picture, left, 276, top, names, dict(rows), f"{count} records")
    return picture.svg(top + 22 * len(names) + 14)


# The life of an ingest

STATES = (("unused", "grey"), ("reserved", "yellow"), ("committed", "blue"), ("done", "green"))


def ingest():
    rows = tables("docs/ARCHITECTURE.md", "Step", "Phase")[0]
    words = " ".join(f"After step {step} ({what}): {left}; settling then {then}." for step, _, what, left, then in rows)
    title = "An ingest in sixteen steps, and what a crash leaves after each"
    picture = Picture(title, words)
    picture.head("Coloured: in which states the slot can be after a crash there. The next command settles it.")
    lanes = 400
    for number, (state, _) in enumerate(STATES):
        picture.text(lanes + 68 * number + 32, 76, state, "soft", 12, "middle")
    picture.text(16, 76, "Step", "soft", 12)
    picture.text(686, 76, "The next command", "soft", 12)
    y = 84
    for step, phase, what, leaves, then in rows:
        several = textwrap.wrap(then, 28)
        height = 25 if len(several) == 1 else 36
        if phase:
            picture.line(16, y, WIDTH - 16, y)
        middle = y + height / 2 + 4.5
        picture.text(16, middle, step, size=12.5)
        picture.text(78, middle, phase, "soft", 12.5)
        picture.text(136, middle, what, size=12.5, bold=what == "sync")
        for number, (state, kind) in enumerate(STATES):
            if re.search(rf"\b{state}\b", leaves):
                picture.box(lanes + 68 * number + 1, y + 2, 62, height - 4, kind, 3)
        for number, row in enumerate(several):
            picture.text(686, middle + 15 * (number - (len(several) - 1) / 2), row, size=12.5)
        y += height
    picture.line(16, y, WIDTH - 16, y)
    note = "A crash keeps what was made sure by the last sync, and any of the cells that were written since."
    picture.text(16, y + 22, note, "soft")
    return picture.svg(y + 36)


# The parts of a volume

PARTS = (("pool", "green"), ("slot", "yellow"), ("block", "blue"), ("node", "blue"))


def parts_of_volume():
    """The parts of the small volume in order: the first cell, the last one, and what the part is."""
    found = []
    for _, use, small in tables("docs/FORMAT.md", "Cells", "Use", "In the small volume, S = 8, L = 2")[0]:
        for piece in small.split(", "):
            name, first, last = re.fullmatch(r"(?:(\w+ \d+): )?(\d+)(?: to (\d+))?", piece).groups()
            what = re.sub(r" of slot n$", " of slot 0", re.split("[,:]", use)[0])
            if name and last:
                what = f"first block of {name}"
            if found and int(first) > found[-1][1] + 1:
                found.append((found[-1][1] + 1, int(first) - 1, "slots 1 to 7"))
            found.append((int(first), int(last or first), what))
    return found


def leads_to(cell, digits, whose):
    """To which cell a written cell of the small volume leads, and how that is drawn, if to any."""
    kind, own = digits[:2], int(digits[24:], 16)
    if kind in ("06", "07", "08", "09") and own != cell:
        return own, "way", "4 3"
    if kind == "02":
        return int(digits[2:10], 16), "greenish", ""
    if kind in ("06", "08"):
        slot = int(digits[2:10], 16) // (256 if kind == "06" else 1)
        return whose(slot), "bluish", ""
    return None


def volume():
    rows = tables("docs/FORMAT.md", "Cell", "Bytes", "Meaning")[0]
    cells = {int(cell): (data.replace(" ", ""), meaning) for cell, data, meaning in rows}
    parts = parts_of_volume()
    title = "The parts of a small volume, and its eleven written cells"
    words = " ".join(f"Cells {first} to {last}: {what}." for first, last, what in parts)
    told = " ".join(f"Cell {cell}: {meaning}." for cell, (_, meaning) in cells.items())
    picture = Picture(title, f"{words} {told}")
    picture.head("8 slots and 2 lists on 1,000 cells of 16 bytes, with one document: a, with the body hello world.")
    y, at = 62, {}
    for first, last, what in parts:
        inside = [it for it in cells if first <= it <= last]
        height = 24 * max(1, len(inside))
        kind = next((kind for word, kind in PARTS if word in what), "grey")
        picture.box(16, y, 298, height - 3, kind, 3)
        picture.text(26, y + 15.5, str(first) if first == last else f"{first} to {last}", size=12.5, bold=True)
        picture.text(116, y + 15.5, what, size=12.5)
        for number, cell in enumerate(inside):
            at[cell] = y + 24 * number + 10.5
            picture.box(322, at[cell] - 10.5, 342, 21, "grey", 3)
            picture.text(330, at[cell] + 5, str(cell), size=12.5, bold=True)
            picture.text(366, at[cell] + 5, cells[cell][1][:52], size=12.5)
        if not inside:
            picture.text(330, y + 15.5, "blank", "soft", 12.5)
        y += height + 3
    arrows_of_volume(picture, cells, at)
    picture.arrow(f"M26 {y + 12}H56", "greenish")
    picture.text(64, y + 16, "reserves", "soft", 12.5)
    picture.arrow(f"M146 {y + 12}H176", "bluish")
    picture.text(184, y + 16, "names the slot", "soft", 12.5)
    picture.arrow(f"M306 {y + 12}H336", "way", "4 3")
    picture.text(344, y + 16, "is a copy, so that a crash can be put right", "soft", 12.5)
    return picture.svg(y + 32)


def arrows_of_volume(picture, cells, at):
    """The arrows beside the cells, each in a lane of its own."""
    lane = 680
    for cell, (digits, _) in cells.items():
        to = leads_to(cell, digits, lambda slot: 4 + 4 * slot)
        if to is None or to[0] not in at:
            continue
        target, kind, dash = to
        shift = {"greenish": -4, "bluish": 4}.get(kind, 0)
        picture.arrow(f"M666 {at[cell] + shift}H{lane}V{at[target] - shift}H668", kind, dash)
        lane += 26


# By hand


def block_of_list(picture, x, y, head, places, kinds):
    picture.text(x, y - 8, head, size=12.5, bold=True)
    for number, (words, kind) in enumerate(zip(places, kinds)):
        picture.box(x + 66 * number, y, 62, 26, kind, 3)
        picture.text(x + 66 * number + 31, y + 17.5, words, size=12, anchor="middle")


def jump():
    title = "A list of words: a pointer that leads on, and one that somebody forged"
    picture = Picture(title, (
        "The first block of a list, at cell 804, is full: its keys are 0, 256 and so on up to 32512. Behind its keys "
        "stand its pointers. A search for key 32769 takes the distance from the greatest key, 257, which is 1 times 16 "
        "to the power of 2 and 1. So it follows the pointer (2, 1) in cell 962, to the block at 1092, and finds 32769 "
        "there in cell 1093. Somebody has written a pointer (2, 2) into cell 963 that leads to a blank block at 1400. "
        "A search that comes to it finds no key from 33024 to 33279 there: cell 963 is named by rule 10. Key 32769 is "
        "found as before."))
    picture.head("The distance of a key from the block's greatest key alone says which pointer to take.")
    block_of_list(picture, 40, 92, "First block, at cell 804: full", ("0", "256", "512", "..", "32256", "32512"),
                  ("blue", "blue", "blue", "grey", "blue", "blue"))
    picture.text(480, 84, "its pointers, from cell 932 on", "soft", 12.5)
    for x, words, kind in ((480, "(2, 1)", "green"), (546, "(2, 2)", "red")):
        picture.box(x, 92, 62, 26, kind, 3)
        picture.text(x + 31, 109.5, words, size=12, anchor="middle", bold=True)
    picture.text(511, 136, "962", "soft", 12, "middle")
    picture.text(577, 136, "963", "soft", 12, "middle")
    picture.arrow("M511 142V176H171V206", "greenish")
    picture.text(182, 168, "for keys 32768 to 33023", "good", 12.5)
    picture.arrow("M577 142V206", "reddish")
    picture.text(590, 168, "for keys 33024 to 33279", "bad", 12.5)
    block_of_list(picture, 40, 236, "", ("32768", "32769", "blank", "..", "blank"),
                  ("blue", "blue", "grey", "grey", "grey"))
    picture.text(40, 228, "Block at cell 1092", bold=True, size=12.5)
    block_of_list(picture, 480, 236, "", ("blank", "blank", "blank", "..", "blank"), ("grey",) * 5)
    picture.text(480, 228, "Block at cell 1400: blank", bold=True, size=12.5)
    picture.box(40, 292, 368, 80, "green")
    picture.text(54, 314, "find 32769", bold=True)
    picture.text(54, 334, "32769 - 32512 = 257 = 1 × 16² + 1: pointer (2, 1)")
    picture.text(54, 354, "Found in cell 1093, whatever stands in cell 963.")
    picture.box(480, 292, 360, 80, "red")
    picture.text(494, 314, "A search that comes to cell 963", bold=True)
    picture.text(494, 334, "No key of that block lies in the pointer's span:")
    picture.text(494, 354, "tampered: rule 10 at cell 963")
    return picture.svg(388)


# Of each box from the top down: where it is, how high, its colour, and its words.
TRUSTED = (
    (46, 80, "green", "worm", ("Words, index, documents, settling, audit, receipts, copies,",
                               "and a file shown as cells: each function is proved,",
                               "whatever the file, the input and other writers do."), "proved"),
    (150, 58, "yellow", "HostCalls", ("A few calls of the crate host_files:",
                                      "open, lock, length, read, write, sync."), "trusted"),
    (232, 58, "yellow", "operating system", ("A sync that answered has made sure what was written;",
                                             "aligned 16 bytes are whole or absent after a crash."), "trusted"),
    (314, 58, "yellow", "medium", ("A written cell stays as it is. A plain file does not",
                                   "see to that: docs/MEDIUM.md says what does."), "trusted"),
)


def trust():
    title = "What is proved, and what is trusted"
    picture = Picture(title, (
        "From the top down. Proved: the program worm, each function of it: it reads the words, plans and writes "
        "documents with their index, searches, settles, audits, and shows a file as cells. Trusted: a few calls of the "
        "crate host_files that open, lock, measure, read, write and sync a file; the operating system; and the medium, "
        "which has to keep written cells. Trusted besides, from the side: the prover and the compilers of the "
        "toolchain, the C library, and the statements of the kit's libraries. Anybody else may write any blank cell of "
        "the medium, and the machine may stop at any moment: both are part of what is proved."))
    picture.head()
    for y, height, kind, name, words, word in TRUSTED:
        picture.box(16, y, 600, height, kind)
        picture.text(30, y + 24, name, bold=True)
        picture.text(30, y + 43, word, "good" if word == "proved" else "ink", 12.5, bold=True)
        for number, line in enumerate(words):
            picture.text(170, y + 24 + 19 * number, line)
        if y > 46:
            picture.arrow(f"M316 {y - 24}V{y - 2}")
    picture.box(640, 46, 224, 162, "yellow")
    picture.text(654, 70, "toolchain", bold=True)
    picture.text(654, 89, "trusted", size=12.5, bold=True)
    parts = ("the prover", "two compilers", "the C library", "what the kit says of its", "own libraries")
    for number, line in enumerate(parts):
        picture.text(654, 112 + 19 * number, line)
    picture.arrow("M640 86H620")
    picture.box(640, 232, 224, 140, "red")
    picture.text(654, 256, "anybody else", bold=True)
    others = ("may write any blank cell,", "at any moment, knowing all", "", "The machine may stop", "at any moment")
    for number, line in enumerate(others):
        picture.text(654, 280 + 19 * number, line)
    picture.arrow("M640 343H620", "reddish")
    return picture.svg(388)


PICTURES = {"layers": layers, "speed": speed, "ingest": ingest, "volume": volume, "jump": jump, "trust": trust}


def main():
    if sys.argv[1:] not in ([], ["--check"]):
        print(__doc__, file=sys.stderr)
        return 2
    stale = 0
    try:
        drawn = {f"{name}.svg": draw() for name, draw in PICTURES.items()}
    except (NotFound, OSError, ValueError, AttributeError) as why:
        print(f"draw.py: {why}", file=sys.stderr)
        return 2
    for name, picture in drawn.items():
        path = f"{HERE}/{name}"
        if sys.argv[1:]:
            if not os.path.isfile(path) or read(f"docs/pictures/{name}") != picture:
                print(f"docs/pictures/{name} is not what docs/pictures/draw.py draws")
                stale = 1
            continue
        with open(f"{path}.part", "w", encoding="utf-8") as file:
            file.write(picture)
        os.replace(f"{path}.part", path)
    return stale


if __name__ == "__main__":
    sys.exit(main())
