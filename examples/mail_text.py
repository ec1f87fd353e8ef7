"""The words of a message as a reader sees them: `text_of` gives its decoded subject, sender, recipients and text parts.

Encoded headers, quoted-printable and base64 are decoded by Python's `email` package with its modern policy, and html
becomes its text. Whatever is broken in a message is read as well as it can be. Bytes that no charset is told for, or a
wrong one, are UTF-8 where they can be, and else windows-1252. The text is in the normal form NFC, without soft hyphens.
"""
import binascii
import email.parser
import email.policy
import html
import quopri
import re
import signal
import string
import unicodedata

HEADERS = {'from', 'sender', 'reply-to', 'to', 'cc', 'bcc', 'subject', 'resent-from', 'resent-sender', 'resent-to',
           'resent-cc', 'resent-bcc'}
# Charsets whose names are often given to a larger one.
MEANT = {'iso-8859-1': 'windows-1252', 'latin1': 'windows-1252', 'gb2312': 'gb18030', 'gbk': 'gb18030',
         'ks_c_5601-1987': 'cp949', 'euc-kr': 'cp949', 'iso-8859-8-i': 'iso-8859-8'}
# Names that tell of no charset. Bytes past ASCII are often said to be ASCII; the last four are Python's own.
UNTOLD = {'', 'us-ascii', 'ascii', 'unknown-8bit', 'x-unknown', 'idna', 'punycode', 'unicode_escape',
          'raw_unicode_escape'}
ENCODED = re.compile(r'=\?([^?*\s]+)(?:\*[^?\s]*)?\?([bq])\?([^?]*)\?=', re.IGNORECASE)
WORD = re.compile(rb'[0-9A-Za-z\x80-\xff]+')
BETWEEN = re.compile(r'(\?=)[ \t\r\n]+(?==\?)')
# Seconds: a hostile message may ask for far more.
LIMIT = 30


class Undecoded(BaseException):
    """Why a message has no text. It is no `Exception`, so that nobody takes it for a fault of one header or part."""


def words_of(data):
    """The words that a volume of version 1 has of these bytes, one after another."""
    return (word.group().lower() for word in WORD.finditer(data))


def has_words_of(data, text):
    """Whether each word of a text is one of these bytes, too.

    It is asked by the words of version 1. Those of version 2 are cut out of them, since what separates words in
    version 1 does so in version 2. So the answer holds of them as well.
    """
    missing = set(words_of(text))
    for word in words_of(data):
        if not missing:
            break
        missing.discard(word)
    return not missing


def guess(data):
    for charset in ('utf-8', 'windows-1252', 'latin-1'):
        try:
            return data.decode(charset)
        except UnicodeDecodeError:
            pass


def decode(data, charset):
    """Bytes as text. Where the charset is one, what is none of its characters becomes U+FFFD."""
    name = (charset or '').strip().strip('"\'').lower()
    if name in UNTOLD:
        return guess(data)
    try:
        return data.decode(MEANT.get(name, name), 'replace')
    except (LookupError, UnicodeError, ValueError):
        return guess(data)


def decode_words(value):
    """A header with each encoded word decoded, wherever it stands.

    Neighbours of one charset are joined before they are decoded, since many a mail program cuts a character in two.
    """
    pieces = []
    end = 0
    value = BETWEEN.sub(r'\1', value)
    for word in ENCODED.finditer(value):
        charset, encoding, text = word.group(1).lower(), word.group(2).lower(), word.group(3)
        raw = text.encode('utf-8', 'replace')
        if encoding == 'q':
            data = quopri.decodestring(raw.replace(b'_', b' '))
        else:
            data = base64_of(raw)
        if pieces and pieces[-1][0] == charset and word.start() == end:
            pieces[-1][1] += data
        else:
            pieces.append(['utf-8', bytearray(value[end:word.start()].encode('utf-8', 'replace'))])
            pieces.append([charset, bytearray(data)])
        end = word.end()
    return ''.join(decode(bytes(data), charset) for charset, data in pieces) + value[end:]


def base64_of(data):
    """What base64 says, up to where it is broken off."""
    data = re.sub(rb'[^A-Za-z0-9+/]', b'', data)
    data = data[:len(data) - (len(data) % 4 == 1)]
    return binascii.a2b_base64(data + b'=' * (-len(data) % 4))


def header_text(name, raw):
    """A header's decoded value. `raw` is what the parser has of it, in which other bytes than ASCII are surrogates."""
    value = guess(raw.encode('utf-8', 'surrogateescape'))
    value = re.sub(r'\r\n?|\n', '', value)
    lenient = decode_words(value)
    # The parser of the modern policy takes far more than linear time.
    if len(value) > 4000:
        return lenient
    try:
        modern = str(email.policy.default.header_factory(name, value))
    except Exception:  # whatever a header that is none lets it run into
        return lenient
    if has_words_of(encoded(modern), encoded(lenient)):
        return modern
    return modern + '\n' + lenient


# Tags within a word, as in `<b>W</b>ord`, don't part it.
WITHIN = set('a abbr acronym b bdi bdo big cite code del dfn em font i ins kbd mark nobr q s samp small span strike '
             'strong sub sup tt u var wbr'.split())
# Of other letters some become two when they are made small, and places would not be the same.
SMALL = str.maketrans(string.ascii_uppercase, string.ascii_lowercase)
TAG = re.compile(r'</?([a-z][a-z0-9]*)')
SHOWN = re.compile(r"""\b(?:alt|title)\s*=\s*("[^"]*"|'[^']*'|[^\s>]+)""", re.IGNORECASE)


def html_pieces(page):
    """The text of html, in pieces. Python's own reader of html takes far more than linear time over broken html."""
    small = page.translate(SMALL)
    # A tag, a comment and the like go up to the next one of these, or where there is none they are text.
    last = {end: small.rfind(end) for end in ('>', '-->', '</script', '</style')}
    at = 0
    while True:
        begin = page.find('<', at)
        if begin < 0:
            yield html.unescape(page[at:])
            return
        yield html.unescape(page[at:begin])
        at = begin + 1
        name = TAG.match(small, begin)
        tag = name.group(1) if name else ''
        end = '-->' if page.startswith('<!--', begin) else '>'
        if not (tag or page[at:at + 1] in ('!', '?', '/')) or begin > last[end]:
            yield ' '
            continue
        at = page.index(end, begin) + len(end)
        for shown in SHOWN.finditer(page, begin, at) if tag else ():
            yield ' %s ' % html.unescape(shown.group(1).strip('"\''))
        if tag not in WITHIN:
            yield '\n'
        if tag in ('script', 'style') and page[begin + 1] != '/' and at <= last['</' + tag]:
            at = small.index('</' + tag, at)


def html_text(page):
    lines = ''.join(html_pieces(page)).split('\n')
    return '\n'.join(filter(None, map(str.strip, lines)))


def charset_of(part, data):
    """The charset that a part tells, or its html; empty where it tells none."""
    charset = part.get_content_charset()
    if not charset and part.get_content_subtype() == 'html':
        told = re.search(rb'<meta[^>]*charset=["\']?([-\w]+)', data[:4096], re.IGNORECASE)
        charset = told and told.group(1).decode('ascii', 'replace')
    return charset or ''


def part_text(part):
    """The text of a part that has no parts of its own; empty where it is no text."""
    # One that should have had parts is broken, and its lines are all that there is.
    if part.get_content_maintype() not in ('text', 'multipart', 'message'):
        return ''
    data = part.get_payload(decode=True) or b''
    text = decode(data, charset_of(part, data))
    return html_text(text) if part.get_content_subtype() == 'html' else text


def part_name(part):
    """The name of an attachment; empty where there is none."""
    name = part.get_filename() or ''
    return decode_words(guess(name.encode('utf-8', 'surrogateescape')))


def pieces_of(message):
    """The decoded headers and texts of a message, of those within it, and the names of its attachments."""
    for part in message.walk():
        for name, value in part.raw_items():
            if name.lower() in HEADERS:
                yield '%s: %s' % (name, header_text(name, str(value)))
        try:
            yield part_name(part)
        except Exception:  # as some broken parameters bring about
            pass
        if part.is_multipart():
            continue
        try:
            yield part_text(part)
        except Exception:  # its header can't be parsed, so its lines are taken as they stand
            yield guess(str(part.get_payload()).encode('utf-8', 'surrogateescape'))


def encoded(text):
    return text.encode('utf-8', 'replace')


def too_long(*_):
    raise Undecoded('it takes more than %d s' % LIMIT)


def read_text(message, policy):
    """The text of a message, as the parser with this policy takes it apart; or why it has none."""
    before = signal.signal(signal.SIGALRM, too_long)
    # Once more each second, lest somebody below takes the first call for a fault.
    signal.setitimer(signal.ITIMER_REAL, LIMIT, 1)
    try:
        parsed = email.parser.BytesParser(policy=policy).parsebytes(message)
        return '\n'.join(filter(None, pieces_of(parsed)))
    except (RecursionError, MemoryError) as error:
        raise Undecoded(type(error).__name__)
    finally:
        signal.setitimer(signal.ITIMER_REAL, 0)
        signal.signal(signal.SIGALRM, before)


def text_of(message):
    """The text of a message, in UTF-8. Where the modern policy can't take it apart, the older one may."""
    try:
        text = read_text(message, email.policy.default)
    except Undecoded:
        try:
            text = read_text(message, email.policy.compat32)
        except Undecoded as reason:
            raise Undecoded('its text is not decoded: %s' % reason)
    return encoded(unicodedata.normalize('NFC', text.replace('\u00ad', '')))
