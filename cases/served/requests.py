"""Requests over HTTP, and parts of them."""
from written.pieces import FILES, HEADER
from written.asks import asked

FILE = FILES["request"]
REST = b"Host: localhost\r\nContent-Type: application/x-ofx\r\n"


def length(size):
    return b"Content-Length: %d\r\n" % size


def head(line=b"POST /ofx HTTP/1.1", fields=REST + length(len(FILE)), end=b"\r\n"):
    return line + b"\r\n" + fields + end


def request(file=FILE, line=b"POST /ofx HTTP/1.1", more=b""):
    """A whole request with this file as its body, and these fields after its others."""
    return head(line, REST + length(len(file)) + more) + file


def asking(*asks, **parts):
    """A whole request for what asks.py says."""
    return request(asked(HEADER, {"asks": asks, **parts}))
