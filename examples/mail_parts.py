"""How `import_mail` and `export_mail` ask `worm`, and how a message in parts is listed.

A message that doesn't fit into one document stands in parts `ID;1`, `ID;2` and so on, and the document `ID` lists them:

    MessageInParts
    2097200 DIGEST
    1048560 DIGEST
    1048560 DIGEST
    80 DIGEST

The second line has the length of the message and its SHA-256, and each line below it those of one part. No other
document that `import_mail` stores begins with this first line.
"""
import argparse
import hashlib
import os
import re
import shutil
import subprocess
import sys

# The most bytes of one document.
LONGEST = 1048576
FIRST_LINE = b'MessageInParts\n'
LINE = re.compile(rb'(0|[1-9][0-9]*) ([0-9a-f]{64})')


class Stop(Exception):
    """What lets a script do nothing more: its status, and the line that tells it."""

    def __init__(self, status, line):
        super().__init__(line)
        self.status = status


def digest(data):
    return hashlib.sha256(data).hexdigest()


def list_of(message, parts):
    """The document that lists these parts of a message."""
    lines = ['%d %s\n' % (len(data), digest(data)) for data in [message, *parts]]
    return FIRST_LINE + ''.join(lines).encode()


def read_list(document):
    """The lengths and digests of a list, first those of the message; None where the document is no list."""
    if not document.startswith(FIRST_LINE) or not document.endswith(b'\n'):
        return None
    lines = [LINE.fullmatch(line) for line in document[len(FIRST_LINE):-1].split(b'\n')]
    if not all(lines):
        return None
    return [(int(line.group(1)), line.group(2).decode()) for line in lines]


def find_worm():
    """Ends the script where there is no `worm`. Where `worm` proves and builds the program first, it does so here."""
    if shutil.which('worm') is None:
        raise Stop(127, 'worm is not in PATH')
    if subprocess.run(['worm', '-', 'exercise', '1'], stdin=subprocess.DEVNULL, stdout=subprocess.DEVNULL).returncode:
        raise Stop(70, 'worm does not run')


class Arguments(argparse.ArgumentParser):
    """What a script is called with. What is none of it ends the script with 1, as worm does, and not with 2."""

    def __init__(self, **about):
        super().__init__(allow_abbrev=False, **about)

    def error(self, message):
        raise Stop(1, '%s\n%s' % (message, self.format_usage().strip()))


class Volume:
    """The volume in the file `image`."""

    def __init__(self, image):
        # A device in memory would be gone behind each run.
        if not image or image.startswith('-'):
            raise Stop(1, "'%s' is no IMAGE" % image)
        self.image = image

    def run(self, *words, body=b''):
        """Runs worm, and answers its status, what it printed, and its line on standard error.

        The body is in a file in memory, whole before worm begins and gone with its last reader. Behind a pipe worm
        would take half a message for a whole one, if this script were killed while it writes.
        """
        held = os.memfd_create('body')
        try:
            with open(held, 'wb', closefd=False) as file:
                file.write(body)
            os.lseek(held, 0, os.SEEK_SET)
            ran = subprocess.run(['worm', self.image, *words], stdin=held, stdout=subprocess.PIPE,
                                 stderr=subprocess.PIPE)
        finally:
            os.close(held)
        status = ran.returncode if ran.returncode >= 0 else 128 - ran.returncode
        return status, ran.stdout, ran.stderr.decode('utf-8', 'replace').strip()

    def ingest(self, identifier, body, stamp=None):
        """Stores a document, and answers worm's status and line."""
        words = ['ingest', identifier] if stamp is None else ['ingest', identifier, str(stamp)]
        status, _, line = self.run(*words, body=body)
        return status, line

    def lookup(self, identifier):
        """The body of a document, or None where no document has the identifier."""
        status, body, line = self.run('lookup', identifier)
        if status not in (0, 10):
            raise Stop(status, '%s: %s' % (self.image, line))
        return body if status == 0 else None

    def message(self, identifier):
        """The message that stands under an identifier, and why none does: one of both is None."""
        document = self.lookup(identifier)
        if document is None:
            return None, 'absent'
        lines = read_list(document)
        if lines is None:
            return document, None
        parts = []
        for number, (length, wanted) in enumerate(lines[1:], 1):
            part = self.lookup('%s;%d' % (identifier, number))
            if part is None:
                return None, 'part %d is absent' % number
            if len(part) != length or digest(part) != wanted:
                return None, 'part %d has another digest' % number
            parts.append(part)
        message = b''.join(parts)
        if (len(message), digest(message)) != lines[0]:
            return None, 'its parts together have another digest'
        return message, None


def run_script(name, main):
    """Ends a script with the status of its main function, or with the line that stopped it."""
    try:
        status = main()
        sys.stdout.flush()
    except Stop as stop:
        print('%s: %s' % (name, stop), file=sys.stderr)
        status = stop.status
    except KeyboardInterrupt:
        status = 130
    except BrokenPipeError:
        # Nothing more can be put out, not even by the interpreter as it ends.
        os.dup2(os.open(os.devnull, os.O_WRONLY), 1)
        status = 7
    sys.exit(status)
