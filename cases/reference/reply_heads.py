"""HTTP as a client sees it: the head that it writes, the heads of replies, and the bodies after them."""
import re
from typing import NamedTuple

from .http import EMPTY_LINES, UNFINISHED, VALUE, Bad, NotYet, fields_of, part, usable_length, within_limits

MAX_IN_A_REPLY = 67108864

# The version, the code, and the phrase, which may be left out.
VERSION = re.compile(rb"HTTP/1\.[01] ")
CODE = re.compile(rb"([0-9]{3})(?= |\r?\n)")
PHRASE = re.compile(rb"(?: %s)?\r?\n" % VALUE)
UNFINISHED.update({
    VERSION: re.compile(rb"(?:H(?:T(?:T(?:P(?:/(?:1(?:\.(?:[01])?)?)?)?)?)?)?)?"),
    CODE: re.compile(rb"[0-9]{0,2}|[0-9]{3}\r?"),
    PHRASE: re.compile(rb"(?: %s)?\r?" % VALUE),
})


class Head(NamedTuple):
    code: int
    fields: list  # pairs of a name and a value
    size: int


class NoReply(Exception):
    """Why no whole reply came: the kind is "head" where its head has no form or no usable length, and "cut" where the
    bytes end, so many of them."""

    def __init__(self, kind, count=0):
        super().__init__(kind, count)
        self.kind, self.count = kind, count


def request_of(file):
    """The bytes that are sent for a file."""
    return (b"POST /ofx HTTP/1.1\r\nHost: localhost\r\nContent-Type: application/x-ofx\r\nContent-Length: %d\r\n\r\n"
            % len(file)) + file


def read_head(data):
    return within_limits(any_head, data)


def any_head(data):
    version = part(VERSION, data, EMPTY_LINES.match(data).end())
    code = part(CODE, data, version.end())
    phrase = part(PHRASE, data, code.end())
    return Head(int(code[1]), *fields_of(data, phrase.end()))


def next_reply(data):
    """The code, the body, and the size of the reply that begins the bytes, after which nothing comes."""
    try:
        head = read_head(data)
    except Bad:
        raise NoReply("head") from None
    except NotYet:
        raise NoReply("cut", len(data)) from None
    length = usable_length(head)
    if length is None or length > MAX_IN_A_REPLY:
        raise NoReply("head")
    if head.size + length > len(data):
        raise NoReply("cut", len(data))
    return head.code, data[head.size:head.size + length], head.size + length
