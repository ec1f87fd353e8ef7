"""What the reader and the program answer to a command."""

import io
import os
import subprocess
import sys
from typing import Callable, NamedTuple, Sequence

import worm_reader
from cells import Image

NOTES = ("not settled:", "note:", "the index does not", "going through")


class Answer(NamedTuple):
    """What a command answers: its status, what it puts out, and its line on standard error."""

    status: int
    output: bytes
    line: str


def program_answer(program: str, path: str, words: Sequence[bytes], given: bytes) -> Answer:
    """The answer of a program, which may write."""
    done = subprocess.run([program, path, *words], input=given, timeout=600, check=False,
                          stdout=subprocess.PIPE, stderr=subprocess.PIPE)
    return Answer(done.returncode, done.stdout, done.stderr.decode().strip())


def reader_answer(path: str, words: Sequence[bytes], given: bytes,
                  opening: Callable[[str], Image]) -> Answer:
    """The reader's answer in this process, without its notes."""
    streams = sys.stdin, sys.stdout, sys.stderr
    output, errors = io.BytesIO(), io.StringIO()
    sys.stdin = io.TextIOWrapper(io.BytesIO(given))
    sys.stdout = io.TextIOWrapper(output, encoding="utf-8", write_through=True)
    sys.stderr = errors
    try:
        status = worm_reader.main([path, *map(os.fsdecode, words)], opening)
        sys.stdout.flush()
        lines = [line for line in errors.getvalue().split("\n")
                 if line and not line.startswith(NOTES)]
        return Answer(status, output.getvalue(), "\n".join(lines))
    finally:
        sys.stdin, sys.stdout, sys.stderr = streams
