"""Tests of the second reader: `python3 -m unittest discover -s reader`."""

import contextlib
import glob
import os
import random
import re
import subprocess
import sys
import tempfile
import unittest
import warnings
from hashlib import sha256

sys.dont_write_bytecode = True
HERE = os.path.dirname(os.path.abspath(__file__))
TOP = os.path.dirname(HERE)
sys.path[:0] = [HERE, os.path.join(HERE, "trials")]

# pylint: disable=wrong-import-position,missing-function-docstring
import words  # noqa: E402
from answers import reader_answer  # noqa: E402
from breaking import BREAKS  # noqa: E402
from cells import (BLANK, CHILD, NOWHERE, POSTING, BucketCell, CommitCell, DoneCell,  # noqa: E402
                   Image, PostingCell, Refusal, ReserveCell, VolumeCell, decode, targets_in)
from forging import Draft, NoRoom  # noqa: E402
from index import pointer_of, span_of  # noqa: E402
from rows import Device, rows_in, try_file  # noqa: E402
from volume import Volume  # noqa: E402

READER = os.path.join(HERE, "worm_reader.py")
VECTORS = os.path.join(TOP, "crates", "worked_rows", "data", "vectors")


def volume_of(row: str, file: str = "worked.rows") -> bytes:
    """The image with which a row of the vectors begins."""
    lines = next(one.lines for one in rows_in(os.path.join(VECTORS, file)) if one.name == row)
    image = bytearray()
    for line in lines:
        if line.word == "device":
            image = bytearray(16 * int(line.rest))
        elif line.word == "put":
            at, cell = line.rest.split()
            image[16 * int(at):16 * int(at) + 16] = bytes.fromhex(cell.replace("_", ""))
        else:
            break
    return bytes(image)


class Cells(unittest.TestCase):
    """FORMAT.md, "Cells"."""

    def test_records_of_the_small_volume(self) -> None:
        volume = Volume(Image(volume_of("the_small_volume_is_sound"), 1000))
        self.assertEqual(VolumeCell(1, 8, 2, 1000), volume.image.record(0))
        self.assertEqual(ReserveCell(580, 4), volume.image.record(4))
        self.assertEqual(CommitCell(13, 3), volume.image.record(5))
        self.assertEqual(DoneCell(0), volume.image.record(6))
        self.assertEqual(PostingCell(1, 1, bytes.fromhex("486ea46224d1")), volume.image.record(37))
        self.assertEqual(BucketCell(0, bytes.fromhex("ca978112ca1bbd")), volume.image.record(560))
        self.assertIsNone(volume.image.record(580))
        self.assertIsNone(volume.image.record(581), "a copy means something at its target alone")

    def test_limits_of_each_kind(self) -> None:
        for digits, is_record in (
                ("02" + "00000244" + "00000001" + "0" * 6, True),
                ("02" + "00000244" + "00000000" + "0" * 6, False),
                ("02" + "00000244" + "00000001" + "000001", False),
                ("03" + "00000002" + "00000001" + "0" * 6, True),
                ("03" + "00000001" + "00000001" + "0" * 6, False),
                ("03" + "001000c9" + "00000001" + "0" * 6, True),
                ("03" + "001000ca" + "00000001" + "0" * 6, False),
                ("03" + "00000002" + "00000000" + "0" * 6, False),
                ("04" + "0" * 22, True), ("04" + "0" * 21 + "1", False),
                ("05" + "00ffffff" + "0" * 14, True), ("05" + "01000000" + "0" * 14, False),
                ("06" + "00000101" + "01" + "0" * 12, True),
                ("06" + "00000102" + "01" + "0" * 12, False),
                ("07" + "ffffffff" + "0" * 14, True), ("07" + "ffffffff" + "0" * 13 + "1", False),
                ("08" + "00ffffff" + "1" * 14, True), ("08" + "01000000" + "1" * 14, False),
                ("09" + "ffffffff" + "0" * 14, True), ("0a" + "ffffffff" + "0" * 14, True),
                ("0b" + "0" * 22, False), ("00" + "1" * 22, False), ("10" + "0" * 22, False)):
            raw = bytes.fromhex(digits + "00000009")
            self.assertEqual(is_record, decode(raw, 9) is not None, digits)
            self.assertIsNone(decode(raw, 8), "the last four bytes are the cell's own number")
            is_index = is_record and POSTING <= raw[0] <= CHILD
            self.assertEqual([NOWHERE, 9 if is_index else NOWHERE], list(targets_in(BLANK + raw)))

    def test_spans_of_keys(self) -> None:
        for greatest, key, place, span in ((127, 128, 128, (128, 129)), (127, 130, 130, (130, 131)),
                                           (32512, 32768, 158, (32768, 33024)),
                                           (32512, 33040, 159, (33024, 33280))):
            self.assertEqual(place, pointer_of(greatest, key))
            self.assertEqual(span, span_of(greatest, place))


class Rows(unittest.TestCase):
    """The vectors, and the rows of the gate."""

    def test_vectors(self) -> None:
        for path in glob.glob(os.path.join(VECTORS, "*.rows")):
            result = try_file(path, Device())
            self.assertEqual([], result.wrong)
            self.assertEqual(0, result.passed_over, path)

    def test_rows_of_the_gate(self) -> None:
        paths = glob.glob(os.path.join(TOP, "crates", "worked_rows", "data", "*.rows"))
        agree = 0
        for path in paths:
            if os.path.basename(path) != "forty_documents.rows":
                result = try_file(path, Device())
                self.assertEqual([], result.wrong)
                agree += result.agree
        self.assertTrue(not paths or agree > 100, agree)

    def test_a_row_that_is_wrong_is_told(self) -> None:
        wrong = ("row one\ndevice 9\n$ audit\n! 9 nothing\nrow two\ndevice 9\n$ audit\n"
                 "row three\ndevice 9\ncrash 1 = 1 of 1\n")
        with tempfile.TemporaryDirectory() as folder:
            path = os.path.join(folder, "wrong.rows")
            with open(path, "w", encoding="utf-8") as file:
                file.write(wrong)
            result = try_file(path, Device())
        self.assertEqual((0, 1, 2), (result.agree, result.passed_over, len(result.wrong)))
        self.assertIn("one: line 4", result.wrong[0])
        self.assertIn("two: at its end", result.wrong[1])

    def test_the_reader_of_the_vectors_page(self) -> None:
        with open(os.path.join(VECTORS, "README.md"), encoding="utf-8") as file:
            code = re.findall(r"```python\n(.*?)```", file.read(), re.S)[0]
        page: dict = {}
        exec(code, page)  # pylint: disable=exec-used
        tried = 0
        for path in glob.glob(os.path.join(VECTORS, "*.rows")):
            with warnings.catch_warnings():
                warnings.simplefilter("ignore", ResourceWarning)
                found = page["rows_of"](path)
            for _, lines in found:
                page["carry_out"](lines, answer_of_the_page)
                tried += 1
        self.assertGreater(tried, 150)


def answer_of_the_page(size, written, commands, given):
    """What the code of the vectors' page asks for."""
    device = Device()
    device.size, device.cells = size, written
    answer = device.answer([word.encode() for word in commands], given)
    return (0 if answer.status == 20 else answer.status), answer.line, answer.output


class Rules(unittest.TestCase):
    """Each rule, broken in a few ways: it is named, or a lower one."""

    def test_each_rule_is_named(self) -> None:
        named = set()
        for row in ("two_documents_and_a_node_are_sound", "the_stamped_volume_is_sound"):
            for rule, change in ((rule, change) for rule in BREAKS for change in BREAKS[rule]):
                for seed in range(12):
                    draft = Draft(volume_of(row))
                    with contextlib.suppress(NoRoom):
                        change(random.Random(seed), draft)
                    image = Image(bytes(draft.raw), draft.cells)
                    answer = reader_answer("image", (b"audit",), b"", lambda _, image=image: image)
                    found = re.match(r"tampered: rule (\d+) at cell \d+: [0-9a-f]+$", answer.line)
                    if found and int(found[1]) == rule:
                        named.add(rule)
                        self.assertEqual(4, answer.status)
        self.assertEqual(set(range(1, 16)), named)


class Words(unittest.TestCase):
    """FORMAT.md, "Documents and their words", and the table of Unicode."""

    def test_the_table_is_the_one_that_is_known(self) -> None:
        with open(words.TABLE, "rb") as file:
            self.assertEqual(words.TABLE_SHA256, sha256(file.read()).hexdigest())
        self.assertEqual(161024, len(words.unicode_table()))

    def test_a_table_that_is_another_is_told(self) -> None:
        kept = words.TABLE, words._table  # pylint: disable=protected-access
        try:
            words._table = None  # pylint: disable=protected-access
            words.TABLE = os.devnull
            with self.assertRaises(Refusal) as refused:
                words.words_of(b"hello", 2)
            self.assertEqual(20, refused.exception.status)
            words.TABLE = os.path.join(HERE, "nowhere")
            with self.assertRaises(Refusal):
                words.words_of(b"hello", 3)
            self.assertEqual([b"hello"], words.words_of(b"Hello!", 1))
        finally:
            words.TABLE, words._table = kept  # pylint: disable=protected-access

    def test_the_table_is_made_of_the_files_of_the_database(self) -> None:
        files = {
            "DerivedCoreProperties.txt": "# DerivedCoreProperties-18.0.0.txt\n"
                                         "0041..005A ; Alphabetic # A\n0061 ; Alphabetic\n"
                                         "0030..0039 ; Grapheme_Base\n",
            "UnicodeData.txt": "0030;DIGIT ZERO;Nd;\n0041;A;Lu;\n0660;<x, First>;Nd;\n"
                               "0663;<x, Last>;Nd;\n",
            "CaseFolding.txt": "# CaseFolding-18.0.0.txt\n0041; C; 0061; # A\n0042; C; 0062;\n"
                               "0049; T; 0131;\n00DF; F; 0073 0073;\n1E9E; S; 00DF;\n"}
        script = os.path.join(HERE, "make_unicode_table")
        with tempfile.TemporaryDirectory() as folder:
            for name, text in files.items():
                with open(os.path.join(folder, name), "w", encoding="utf-8") as file:
                    file.write(text)
            made = subprocess.run([script, "--ucd", folder], stdout=subprocess.PIPE, check=True)
            self.assertEqual("unicode 18.0.0\nwords\n30 41-5a 61 660-663\nfolds\n"
                             "41-42+20 df=73,73\n", made.stdout.decode())
            with open(os.path.join(folder, "CaseFolding.txt"), "w", encoding="utf-8") as file:
                file.write("# CaseFolding-17.0.0.txt\n")
            other = subprocess.run([script, "--ucd", folder], stderr=subprocess.PIPE, check=False)
            self.assertEqual(2, other.returncode)


class CommandLine(unittest.TestCase):
    """The command line."""

    def setUp(self) -> None:
        self.folder = tempfile.TemporaryDirectory()  # pylint: disable=consider-using-with
        self.path = os.path.join(self.folder.name, "volume.img")
        self.image = volume_of("two_documents_and_a_node_are_sound")
        self.write(self.image)

    def tearDown(self) -> None:
        with open(self.path, "rb") as file:
            self.assertEqual(self.image, file.read(), "nothing is written")
        self.assertFalse(os.path.exists(os.path.join(HERE, "__pycache__")))
        self.folder.cleanup()

    def write(self, image: bytes) -> None:
        """The volume is this image now, which may be read alone."""
        self.image = image
        if os.path.exists(self.path):
            os.chmod(self.path, 0o600)
        with open(self.path, "wb") as file:
            file.write(image)
        os.chmod(self.path, 0o400)

    def ask(self, *command: str, given: bytes = b""):
        """What the reader answers: status, output, and the lines on standard error."""
        done = subprocess.run([sys.executable, READER, *command], input=given, check=False,
                              stdout=subprocess.PIPE, stderr=subprocess.PIPE)
        return done.returncode, done.stdout.decode(), done.stderr.decode()

    def test_what_is_no_command(self) -> None:
        for command in ((), (self.path,), ("--raw", self.path), (self.path, "ingest", "a"),
                        (self.path, "find"), (self.path, "find", *"abcdefghi"),
                        (self.path, "lookup"), (self.path, "audit", "x"),
                        ("--other", self.path, "list"), (self.path, "between", "5", "4"),
                        (self.path, "between", "0", "4294967296")):
            status, output, line = self.ask(*command)
            self.assertEqual((1, ""), (status, output), command)
            self.assertTrue(line.startswith("usage: "))

    def test_refusals(self) -> None:
        for command, expected in (
                ((self.path, "lookup", "a b"), (2, "bad identifier\n")),
                ((self.path, "find", "a-b"), (2, "word 1 is not one term\n")),
                ((self.path, "lookup", "a"), (10, "absent\n")),
                ((self.path, "between", "0", "5"), (9, "the volume has no stamps\n")),
                ((self.folder.name, "audit"), (5, "image cannot be opened\n")),
                ((self.path + "x", "audit"), (5, "image cannot be opened\n")),
                ((os.devnull, "audit"), (5, "image cannot be opened\n"))):
            status, _, line = self.ask(*command)
            self.assertEqual(expected, (status, line))

    def test_list_and_info(self) -> None:
        self.assertEqual((0, "0 done b 0\n1 done e 0\n", ""), self.ask(self.path, "list"))
        self.assertEqual((0, "version 1, 8 slots, 2 lists, 1000 cells\n"
                          "slots: 2 done, 0 abandoned, 0 cut short, 6 free\n"
                          "cells: 15 written, 383 free behind the edge\n"
                          "settling would answer: nothing to settle\n"
                          "list 0: 0 postings in 1 block\nlist 1: 0 postings in 1 block\n", ""),
                         self.ask(self.path, "info"))

    def test_stamps_are_listed(self) -> None:
        self.write(volume_of("the_stamped_volume_is_sound"))
        self.assertEqual((0, "0 done a 0 stamp 1000\n", ""), self.ask(self.path, "list"))
        self.assertIn("greatest stamp: 1000\n", self.ask(self.path, "info")[1])
        self.assertIn("time list: 1 postings in 1 block\n", self.ask(self.path, "info")[1])

    def test_a_slot_that_was_cut_short(self) -> None:
        self.write(volume_of("the_first_target_stands", "crashes.rows"))
        status, output, note = self.ask(self.path, "audit")
        self.assertEqual((0, "sound: 2 done, 0 abandoned, 19 written cells\n"), (status, output))
        self.assertIn("settling would answer `slot 1 completed` and write 2 cells", note)
        status, _, line = self.ask("--raw", self.path, "audit")
        self.assertEqual((4, "tampered: rule 7 at cell 292"), (status, line.split(": 06")[0]))
        self.assertEqual("0 done a 11\n1 committed b 3\n", self.ask(self.path, "list")[1])

    def test_settling_that_is_refused(self) -> None:
        row = "a_target_that_differs_is_named_and_those_before_are_written"
        self.write(volume_of(row, "settling.rows"))
        status, _, lines = self.ask(self.path, "audit")
        self.assertEqual(4, status)
        self.assertIn("settling would be refused, having written 1 cell\ntampered: rule 6", lines)
        self.assertEqual((0, "hello world"), self.ask(self.path, "cat", "a")[:2])
        self.assertIn("settling would be refused, having written 1 cell: tampered: rule 6",
                      self.ask(self.path, "info")[1])
        self.assertEqual(0, self.ask(self.path, "list")[0])

    def test_a_document_to_which_no_path_leads(self) -> None:
        image = bytearray(self.image)
        image[16 * 597:16 * 598] = BLANK
        self.write(bytes(image))
        self.assertEqual((0, ""), self.ask(self.path, "cat", "e")[:2])
        self.assertEqual(10, self.ask(self.path, "lookup", "e")[0])

    def test_a_word_to_which_the_index_does_not_lead(self) -> None:
        image = bytearray(volume_of("the_small_volume_is_sound"))
        image[16 * 37:16 * 38] = BLANK
        self.write(bytes(image))
        status, output, note = self.ask(self.path, "find", "world")
        self.assertEqual((20, "0 found\n"), (status, output))
        self.assertIn("the index does not lead to: 0 a 11", note)

    def test_a_receipt_is_checked(self) -> None:
        receipt = self.ask(self.path, "receipt", "e")[1].encode()
        self.assertEqual((0, "kept 1 e 0\n", ""), self.ask(self.path, "check", given=receipt))
        self.assertEqual((2, "", "receipt fault at line 1\n"), self.ask(self.path, "check"))

    def test_nobody_reads_what_is_put_out(self) -> None:
        command = f"{sys.executable} {READER} {self.path} list; echo $? >&2"
        done = subprocess.run(f"({command}) | true; sleep 0.2", shell=True, check=False,
                              stdout=subprocess.PIPE, stderr=subprocess.PIPE)
        self.assertIn(done.stderr.decode(), ("0\n", "sink fault\n7\n"))


if __name__ == "__main__":
    unittest.main()
