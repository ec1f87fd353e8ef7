"""Where `import_mail` takes messages from, and what their headers say: their Message-ID, and when they arrived."""
import calendar
import email.utils
import os
import re

from mail_parts import Stop

# The longest Message-ID that is taken: with `;text99` or `;9999` behind it an identifier has at most 200 bytes.
LONGEST_ID = 190
MONTHS = {month: number for number, month in enumerate(b'Jan Feb Mar Apr May Jun Jul Aug Sep Oct Nov Dec'.split(), 1)}
# The end of an mbox's From line: month, day, hour, minute, second, year and zone.
FROM_TIME = re.compile(
    rb'([A-Z][a-z]{2}) +(\d{1,2}) (\d\d):(\d\d)(?::(\d\d))? (\d{4})(?: ([-+])(\d\d)(\d\d))?\r?\Z')


def head_of(message):
    """The lines of a message's header, without their ends and without an mbox's From line."""
    at = 0
    while at < len(message):
        end = message.find(b'\n', at) + 1 or len(message)
        line = message[at:end].rstrip(b'\n')
        line = line[:-1] if line.endswith(b'\r') else line
        if not line:
            return
        if at or not line.startswith(b'From '):
            yield line
        at = end


def fields_of(message, wanted):
    """The values of the header fields of this name, unfolded."""
    values = []
    inside = False
    for line in head_of(message):
        if line[:1] in (b' ', b'\t'):
            if inside:
                values[-1] += line
            continue
        name, colon, value = line.partition(b':')
        inside = bool(colon) and name.rstrip(b' \t').lower() == wanted
        if inside:
            values.append(value)
    return [value.strip(b' \t') for value in values]


def message_id(message):
    """The Message-ID without its brackets, or None where it can't be the identifier."""
    values = fields_of(message, b'message-id')
    if len(values) != 1 or not re.fullmatch(rb'<[!-;=?-~]+>', values[0]):
        return None
    name = values[0][1:-1].decode()
    # Those that a digest or a further document of another message may have.
    if len(name) > LONGEST_ID or name.startswith(('-', 'sha256:')) or re.search(r';(text)?[0-9]*\Z', name):
        return None
    return name


def from_line_time(message):
    """The seconds of an mbox's From line, which are of UTC where it tells no zone; or None."""
    line = message[:1000].partition(b'\n')[0]
    told = FROM_TIME.search(line)
    if not line.startswith(b'From ') or not told or told.group(1) not in MONTHS:
        return None
    day, hour, minute, second, year = (int(told.group(n) or 0) for n in (2, 3, 4, 5, 6))
    seconds = calendar.timegm((year, MONTHS[told.group(1)], day, hour, minute, second))
    if told.group(7):
        east = int(told.group(8)) * 3600 + int(told.group(9)) * 60
        seconds -= east if told.group(7) == b'+' else -east
    return seconds


def arrival_of(message, path):
    """The second at which a message arrived, or None where nothing tells it.

    The first Received field is that of the last host, which is the receiver's own. A message that no host has passed on
    has the time of its From line, or of its name in a Maildir. A time that tells no zone is UTC.
    """
    for value in fields_of(message, b'received')[:1]:
        try:
            parsed = email.utils.parsedate_tz(value.rpartition(b';')[2].decode('ascii', 'replace'))
            if parsed:
                return email.utils.mktime_tz((*parsed[:9], parsed[9] or 0))
        except (ValueError, OverflowError, IndexError, TypeError):
            pass
    try:
        if message.startswith(b'From '):
            return from_line_time(message)
        name = re.match(r'([0-9]{9,10})\.', os.path.basename(path))
        return int(name.group(1)) if name else None
    except (ValueError, OverflowError):
        return None


def starts_of(file):
    """Where the messages of an mbox begin: at a From line behind a blank line, which a header field follows. Else a
    body in which somebody writes of "From here on" would be cut in two."""
    at, start, blank = 0, None, True
    for line in file:
        if start is not None and (start == 0 or re.match(rb'[!-9;-~]+[ \t]*:', line)):
            yield start
        start = at if blank and line.startswith(b'From ') else None
        blank = line in (b'\n', b'\r\n')
        at += len(line)
    if start == 0:
        yield start
    yield at


def closed(message):
    """A message of an mbox with the end of its line and the blank line behind it, which the last one may lack."""
    if not message.endswith(b'\n'):
        message += b'\n'
    last = message[message.rfind(b'\n', 0, -1) + 1:]
    if last in (b'\n', b'\r\n'):
        return message
    return message + (b'\r\n' if last.endswith(b'\r\n') else b'\n')


class Source:
    """An mbox, a Maildir or one message. Its messages are named, and each is read when it is wanted."""

    def __init__(self, path):
        self.path = path
        # For each message its name, its file, and in an mbox its first byte and the one behind its last.
        self.messages = []
        if os.path.isdir(path):
            self.list_maildir()
            return
        if not os.path.isfile(path):
            raise OSError('it is no file')
        with open(path, 'rb') as file:
            first = file.readline(1000)
            if first.startswith(b'From '):
                file.seek(0)
                self.list_mbox(file)
            elif re.match(rb'[!-9;-~]+[ \t]*:', first):
                self.messages.append((path, path, None, None))
            elif first:
                raise Stop(1, '%s is no mail: it begins with no From line and no header field' % path)

    def list_maildir(self):
        folders = [os.path.join(self.path, name) for name in ('new', 'cur')]
        if not all(map(os.path.isdir, folders)):
            raise Stop(1, '%s has no folders new and cur' % self.path)
        for folder in folders:
            for name in sorted(os.listdir(os.fsencode(folder))):
                if not name.startswith(b'.'):
                    path = os.path.join(folder, os.fsdecode(name))
                    self.messages.append((path, path, None, None))

    def list_mbox(self, file):
        starts = list(starts_of(file))
        for number, (start, end) in enumerate(zip(starts, starts[1:]), 1):
            self.messages.append(('message %d' % number, self.path, start, end))

    def read(self, path, start, end):
        if start is None:
            if not os.path.isfile(path):
                raise OSError('it is no file')
            with open(path, 'rb') as file:
                return file.read()
        with open(path, 'rb') as file:
            file.seek(start)
            message = file.read(end - start)
        if not message.startswith(b'From ') or len(message) < end - start:
            raise OSError('the mbox has changed meanwhile')
        return closed(message)
