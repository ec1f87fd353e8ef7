"""FORMAT.md, "Documents and their words", and "Version 2: words past ASCII"."""

import os
import re
from hashlib import sha256
from typing import Dict, List, Optional

from cells import Refusal

TABLE = os.path.join(os.path.dirname(os.path.abspath(__file__)), "unicode-18.txt")
TABLE_SHA256 = "7c4a70d8af4135179a101f156820ffaafdb144ae04f66c2905a69f1c336535c2"
NO_TABLE = 20

ASCII_WORD = re.compile(rb"[0-9A-Za-z\x80-\xff]+")
FOLD_RUN = re.compile(r"([0-9a-f]+)-([0-9a-f]+)(/2)?([+-][0-9a-f]+)")


class UnicodeTable:
    """The characters of words, and what each folds to, by Unicode 18.0.0 (`make_unicode_table`)."""

    def __init__(self, text: str) -> None:
        words, folds = text.split("words\n")[1].split("folds\n")
        self.to: Dict[int, str] = {}
        for part in words.split():
            ends = part.split("-")
            self.to.update((code, chr(code)) for code in range(int(ends[0], 16),
                                                              int(ends[-1], 16) + 1))
        for part in folds.split():
            self._add_fold(part)

    def _add_fold(self, part: str) -> None:
        """Adds a row of the table, but for characters that are of no word."""
        run = FOLD_RUN.fullmatch(part)
        if run:
            codes = range(int(run[1], 16), int(run[2], 16) + 1, 2 if run[3] else 1)
            pairs = [(code, chr(code + int(run[4], 16))) for code in codes]
        else:
            code, to = part.split("=")
            pairs = [(int(code, 16), "".join(chr(int(one, 16)) for one in to.split(",")))]
        self.to.update(pair for pair in pairs if pair[0] in self.to)


class SpacesBetween(Dict[int, str]):
    """For `str.translate`: a character of words is its folding, and each other one a space."""

    def __missing__(self, code: int) -> str:
        return " "


_table: Optional[SpacesBetween] = None


def unicode_table() -> SpacesBetween:
    """The table, which is read once; a Refusal where it is not the one that the reader knows."""
    global _table  # pylint: disable=global-statement
    if _table is None:
        try:
            with open(TABLE, "rb") as file:
                text = file.read()
        except OSError:
            raise Refusal(NO_TABLE, "unicode-18.txt cannot be read") from None
        if sha256(text).hexdigest() != TABLE_SHA256:
            raise Refusal(NO_TABLE, "unicode-18.txt is not the table of Unicode 18.0.0")
        _table = SpacesBetween(UnicodeTable(text.decode("ascii")).to)
    return _table


def words_of(body: bytes, version: int) -> List[bytes]:
    """The words of a body, in order, each as often as it comes."""
    if version == 1:
        return [word.lower() for word in ASCII_WORD.findall(body)]
    # A byte at which no character begins separates, and so does U+FFFD, which stands for it here.
    text = body.decode("utf-8", "replace").translate(unicode_table())
    return [word.encode("utf-8") for word in text.split(" ") if word]
