"""What clients say on connections, at random: requests whose files and heads are mostly damaged, and streams of them.

Each conversation comes from its seed and the number of its batch alone. Those of a batch go to one bank, one after the
other.
"""
import random

from chance.damaged import BASES, damaged, renamed
from chance.spelled import ONE_LINE, spelled
from written.pieces import FILES

IN_A_BATCH = 100
MAX_REQUESTS = 6
MANY_REQUESTS = 103  # more than a connection has
MANY_SHARE = 0.005
PIECES = (65536, 65536, 1500, 200)  # of so many bytes is a stream sent, or of a fiftieth of it where that is more

METHODS = [b"GET", b"PUT", b"post", b"HEAD", b"OPTIONS", b"P", b"POSTX", b"", b"PO ST", b"P\x00ST", b"!", b"\xe9"]
TARGETS = [b"/", b"/x", b"/ofx/", b"/ofx?a=b", b"/OFX", b"http://localhost/ofx", b"*", b"", b"/\xff", b"/\xc3\xa9",
           b"ofx", b"/o fx", b"/\x7f", b"/" + b"x" * 8000, b"/" + b"x" * 9000]
VERSIONS = [b"HTTP/1.0", b"HTTP/1.0", b"HTTP/1.2", b"HTTP/2.0", b"HTTP/0.9", b"http/1.1", b"HTTP/1", b"HTTP/1.1 ",
            b"", b"HTTP/11", b"XTTP/1.1"]
FIELDS = [
    b"Host: localhost", b"Content-Type: application/x-ofx", b"User-Agent: x", b"Accept: */*", b"Connection: keep-alive",
    b"X:", b"X: \t", b"X:\xff\x80", b"X-Y_Z!#$%&'*+.^`|~: \"()\"", b"Expect: 100-continue", b"Cookie: a=b; c",
]
ENDS = [b"Connection: close", b"connection:CLOSE", b"Connection: \tclose ", b"Connection: close, TE",
        b"Connection: clos"]
ODD = [
    b"Transfer-Encoding: chunked", b"transfer-encoding:", b"TRANSFER-ENCODING: identity", b"Content-Length: 0",
    b"X : 1", b" folded", b"\tfolded", b": 1", b"X", b"X: \x00", b"X: \x7f", b"X: a\rb", b"X\x00: 1", b"(X): 1",
    b"\xe9: 1",
]
LENGTHS = [b"", b"-1", b"+5", b"0x10", b"1,2", b"1234567890", b"999999999", b"262145", b"262144", b"00", b"0", b"1 1",
           b"x"]
STREAM_BYTES = b"\x00\r\n :\tAZ09/\x7f\xff"


def first_line(r, odds):
    """A first line, of which each part is another one by these odds."""
    parts = [part if r.random() > odds else r.choice(others)
             for part, others in zip((b"POST", b"/ofx", b"HTTP/1.1"), (METHODS, TARGETS, VERSIONS))]
    return r.choice((b" ",) * 100 + (b"  ", b"\t")).join(parts)


def length_field(r, size, odds):
    name = r.choice((b"Content-Length", b"Content-Length", b"content-length", b"CONTENT-LENGTH"))
    if r.random() < odds:
        value = r.choice(LENGTHS)
    elif r.random() < odds:
        value = b"%d" % max(0, size + r.choice((-1, 1, -1, 1, -2, 2, -30, 30, 1000)))
    else:
        value = b"%d" % size if r.random() < 0.9 else b"%09d" % size
    return name + b":" + r.choice((b" ", b" ", b"", b"\t", b"  ")) + value + r.choice((b"",) * 8 + (b" ", b"\t "))


def fields(r, size, odds):
    lengths = r.choice((0, 2)) if r.random() < odds else 1
    some = r.sample(FIELDS, r.randrange(4)) + [length_field(r, size, odds) for _ in range(lengths)]
    some += [r.choice(ENDS)] * (r.random() < 0.03) + [r.choice(ODD)] * (r.random() < odds)
    r.shuffle(some)
    if r.random() < 0.02:
        some += [b"N%d: %s" % (k, b"v" * r.choice((0, 1, 120))) for k in range(r.randrange(58, 68))]
    if r.random() < 0.02:
        some.append(b"Long: " + b"v" * r.randrange(7900, 8200))
    return some


def head(r, size):
    """A head for a body of so many bytes, or none. Faults come mostly by themselves, and now and then many."""
    odds = 0.01 if r.random() < 0.95 else 0.3
    ends = [b"\r\n"] * 12 + [b"\n"] * 2 + [b"\r", b"\r\r\n", b"\n\r"] * (r.random() < 0.01)
    lines = [b""] * (r.choice((0,) * 12 + (1, 2))) + [first_line(r, odds)] + fields(r, size, odds) + [b""]
    same = r.choice(ends)
    mixed = r.random() < 0.1
    return b"".join(line + (r.choice(ends) if mixed else same) for line in lines)


def request(r, base):
    file = damaged(r, renamed(r, base)) if r.random() < 0.3 else renamed(r, base)
    return head(r, len(file)) + file


def plain(file):
    return b"POST /ofx HTTP/1.1\r\nContent-Length: %d\r\n\r\n" % len(file) + file


def a_damage(r, stream):
    """A byte is replaced, left out, doubled or put in; a span is left out or doubled; or the end is left out."""
    at = r.randrange(len(stream))
    end = min(len(stream), at + r.choice((1, 2, 10, 100, 1000)))
    other = bytes([r.choice(STREAM_BYTES)])
    return r.choice((
        stream[:at] + other + stream[at + 1:], stream[:at] + stream[at + 1:],
        stream[:at + 1] + stream[at:], stream[:at] + other + stream[at:], stream[:at] + stream[end:],
        stream[:end] + stream[at:], stream[:at],
    ))


def conversation(r, bases):
    if r.random() < MANY_SHARE:
        file = renamed(r, r.choice(bases))
        stream = b"".join(plain(file) for _ in range(MANY_REQUESTS))
    else:
        stream = b"".join(request(r, r.choice(bases)) for _ in range(r.randrange(1, MAX_REQUESTS + 1)))
    for _ in range(r.choice((0, 0, 0, 0, 0, 1, 2))):
        if stream:
            stream = a_damage(r, stream)
    return stream, max(r.choice(PIECES), len(stream) // 50)


def batch(seed, number):
    """The conversations of a batch: each a stream, and the size of the pieces in which it is sent."""
    r = random.Random("http/%d/%d" % (seed, number))
    bases = [FILES["request"], ONE_LINE] * 4 + [spelled(r) for _ in range(BASES - 8)]
    return [conversation(r, bases) for _ in range(IN_A_BATCH)]
