"""HTTP: the heads of requests, what refuses them, the bodies after them, and the heads of replies."""
import re
from typing import NamedTuple, Optional

MAX_IN_A_HEAD = 8192
MAX_FIELDS = 64
MAX_IN_A_BODY = 262144
MAX_EXCHANGES = 100

LINE_END = rb"\r?\n"
TOKEN = rb"[!#$%&'*+.^_`|~0-9A-Za-z-]+"
VALUE = rb"[\t\x20-\x7e\x80-\xff]*"
# From the left; each part stands after the one before.
EMPTY_LINES = re.compile(rb"(?:%s)*" % LINE_END)
METHOD = re.compile(rb"(%s) " % TOKEN)
TARGET = re.compile(rb"([\x21-\x7e\x80-\xff]+) ")
VERSION = re.compile(rb"HTTP/1\.([01])%s" % LINE_END)
FIELD = re.compile(rb"(%s):(%s)%s" % (TOKEN, VALUE, LINE_END))
END = re.compile(LINE_END)
# What bytes may still become such a part, where they are all there are.
UNFINISHED = {
    METHOD: re.compile(rb"\r?|%s" % TOKEN),
    TARGET: re.compile(rb"[\x21-\x7e\x80-\xff]*"),
    VERSION: re.compile(rb"(?:H(?:T(?:T(?:P(?:/(?:1(?:\.(?:[01]\r?)?)?)?)?)?)?)?)?"),
    FIELD: re.compile(rb"\r?|%s(?::%s\r?)?" % (TOKEN, VALUE)),
}
DIGITS = re.compile(rb"[0-9]{1,9}")

PHRASES = {
    200: b"OK", 400: b"Bad Request", 404: b"Not Found", 405: b"Method Not Allowed", 411: b"Length Required",
    413: b"Payload Too Large", 500: b"Internal Server Error", 503: b"Service Unavailable",
}
BAD_HEAD = 400, b"bad head\n"
REFUSALS = {404: b"not found\n", 405: b"post only\n", 411: b"length needed\n", 413: b"too large\n"}


class Head(NamedTuple):
    method: bytes
    target: bytes
    minor: int
    fields: list  # pairs of a name and a value
    size: int


class Refused(NamedTuple):
    """A request that its head refuses. The connection ends after it."""

    code: int
    body: bytes


class Whole(NamedTuple):
    """A whole request."""

    file: bytes
    is_last: bool  # whether it says that its connection ends after it


class Bad(Exception):
    """The bytes are no head, whatever follows."""


class NotYet(Exception):
    """More bytes are awaited, and they may still become a head."""


def part(pattern, data, at):
    """The part of a head that stands there."""
    found = pattern.match(data, at)
    if found:
        return found
    raise NotYet if UNFINISHED[pattern].fullmatch(data, at) else Bad


def read_head(data):
    """The head that begins the bytes: empty lines, the method, the target, the version, the fields, and an empty line.
    A target is UTF-8, which is judged where it ends."""
    return within_limits(any_head, data)


def within_limits(read, data):
    """The head that is read of the bytes. It has at most 8,192 bytes and 64 fields."""
    try:
        head = read(data)
    except NotYet:
        if len(data) >= MAX_IN_A_HEAD:
            raise Bad from None
        raise
    if head.size > MAX_IN_A_HEAD or len(head.fields) > MAX_FIELDS:
        raise Bad
    return head


def any_head(data):
    method = part(METHOD, data, EMPTY_LINES.match(data).end())
    target = part(TARGET, data, method.end())
    try:
        target[1].decode("utf-8")
    except UnicodeDecodeError:
        raise Bad from None
    version = part(VERSION, data, target.end())
    return Head(method[1], target[1], int(version[1]), *fields_of(data, version.end()))


def fields_of(data, at):
    """The fields that stand there, up to an empty line, and where that ends."""
    fields = []
    while not END.match(data, at):
        field = part(FIELD, data, at)
        fields.append((field[1].lower(), field[2].strip(b" \t")))
        at = field.end()
    return fields, END.match(data, at).end()


def values_of(head, name):
    return [value for other, value in head.fields if other == name]


def usable_length(head):
    """The length of the body. None is usable but that of one Content-Length of 1 to 9 digits, without a
    Transfer-Encoding."""
    lengths = values_of(head, b"content-length")
    if values_of(head, b"transfer-encoding") or len(lengths) != 1 or not DIGITS.fullmatch(lengths[0]):
        return None
    return int(lengths[0])


def refusal(head):
    """The code with which a head is refused: the first of these causes. None where none holds."""
    if head.method != b"POST":
        return 405
    if head.target != b"/ofx":
        return 404
    length = usable_length(head)
    if length is None:
        return 411
    return 413 if length > MAX_IN_A_BODY else None


def is_last(head):
    return head.minor == 0 or any(value.lower() == b"close" for value in values_of(head, b"connection"))


def next_request(data, at):
    """The request that begins there, and where it ends. NotYet where it isn't whole."""
    rest = data[at:at + MAX_IN_A_HEAD + 1]
    try:
        head = read_head(rest)
    except Bad:
        return Refused(*BAD_HEAD), len(data)
    code = refusal(head)
    if code is not None:
        return Refused(code, REFUSALS[code]), at + head.size
    start = at + head.size
    end = start + usable_length(head)
    if end > len(data):
        raise NotYet
    return Whole(data[start:end], is_last(head)), end


def requests(data):
    """The requests that are answered of all that comes on a connection, in order. After a refused one, one that says
    so, and the hundredth the connection ends; a request that isn't whole is answered by nothing."""
    found, at = [], 0
    while at < len(data) and len(found) < MAX_EXCHANGES:
        try:
            one, at = next_request(data, at)
        except NotYet:
            break
        found.append(one)
        if isinstance(one, Refused) or one.is_last:
            break
    return found


def reply(code, body, closes):
    """A whole reply."""
    allow = b"Allow: POST\r\n" if code == 405 else b""
    kind = b"application/x-ofx" if code == 200 else b"text/plain"
    end = b"close" if closes else b"keep-alive"
    return b"HTTP/1.1 %d %s\r\n%sContent-Type: %s\r\nContent-Length: %d\r\nConnection: %s\r\n\r\n%s" % (
        code, PHRASES[code], allow, kind, len(body), end, body)


def closes(one, number):
    """Whether the reply to a request says that the connection ends, by its number on the connection, from 1."""
    return isinstance(one, Refused) or one.is_last or number == MAX_EXCHANGES
