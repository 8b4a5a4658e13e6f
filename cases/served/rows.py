"""What is sent on a connection, and the codes of the replies to it, as the table of statuses has them.

A row is a name, the stream of bytes that is sent before the sending ends, and the codes. A good request is answered by
200 and the connection goes on, so that a good one in front or after shows where a request ends.
"""
from served.requests import FILE, REST, asking, head, length, request

GOOD = request()
LARGEST = 262144
MAX_IN_A_HEAD = 8192
HUNDRED = 100


def lined(line):
    """A request with this first line."""
    return request(line=line)


def fields(some):
    """A request with these fields after its others."""
    return request(more=some)


def sized(size, line=b"POST /ofx HTTP/1.1"):
    """A request whose head has so many bytes."""
    more = size - len(head(line))
    return head(line, REST + length(len(FILE)) + b"X: " + b"x" * (more - 5) + b"\r\n") + FILE


def with_fields(count):
    """A request with so many fields."""
    return request(more=b"X: 1\r\n" * (count - 3))


def filled(size):
    """A file of so many bytes, which spells a request."""
    return FILE + b" " * (size - len(FILE))


def without_length(more=b""):
    return head(fields=REST + more) + FILE


def table():
    """The table of statuses, in its order."""
    yield "405 where the method isn't POST", lined(b"GET /ofx HTTP/1.1"), [405]
    yield "404 where the path isn't /ofx", lined(b"POST /x HTTP/1.1"), [404]
    yield "411 where there is no length", without_length(), [411]
    yield "413 where it is over the limit", head(fields=REST + length(LARGEST + 1)), [413]
    yield "400 where the body spells no file", request(b"no file"), [400]
    yield "400 where the head has no form", lined(b"POST /ofx"), [400]
    yield "200 where it spells one", GOOD, [200]
    yield "405 before 404", lined(b"GET /x HTTP/1.1"), [405]
    yield "405 before 411", b"GET /ofx HTTP/1.1\r\n\r\n", [405]
    yield "405 before 413", head(b"PUT /ofx HTTP/1.1", length(LARGEST + 1)), [405]
    yield "404 before 411", head(b"POST /x HTTP/1.1", b""), [404]
    yield "404 before 413", head(b"POST /x HTTP/1.1", length(LARGEST + 1)), [404]
    yield "411 before 413", head(fields=length(LARGEST + 1) * 2), [411]
    yield "a head without a form before all", head(b"GET /x HTTP/3.0", b""), [400]
    yield "a body without a form goes on", request(b"no file") + GOOD, [400, 200]
    for code, refused in ((405, lined(b"GET /ofx HTTP/1.1")), (404, lined(b"POST /x HTTP/1.1")),
                          (411, without_length()), (413, head(fields=length(999999999))),
                          (400, lined(b"POST /ofx"))):
        yield "%d closes" % code, GOOD + refused + GOOD, [200, code]


def lines():
    """First lines."""
    for method in (b"post", b"Post", b"HEAD", b"OPTIONS", b"PUT", b"P", b"POSTS", b"X-POST", b"!#$%&'*+-.^_`|~"):
        yield "the method %s" % method.decode(), lined(method + b" /ofx HTTP/1.1"), [405]
    for target in (b"/", b"/OFX", b"/ofx/", b"/ofx?x", b"//ofx", b"/ofx%20", b"*", b"http://localhost/ofx",
                   b"http://127.0.0.1:80/ofx", b"localhost:443", b"ofx", b"/\xc3\xa4", b"/ofx#"):
        yield "the target %r" % target, lined(b"POST " + target + b" HTTP/1.1"), [404]
    for line in (b"", b" ", b"POST", b"POST /ofx", b"POST  /ofx HTTP/1.1", b"POST /ofx  HTTP/1.1",
                 b" POST /ofx HTTP/1.1", b"POST\t/ofx HTTP/1.1", b"POST /ofx HTTP/1.1 ", b"POST /ofx HTTP/1.2",
                 b"POST /ofx HTTP/2.0", b"POST /ofx HTTP/0.9", b"POST /ofx http/1.1", b"POST /ofx HTTP/1",
                 b"POST /ofx HTTP/11",
                 b"PO\x00ST /ofx HTTP/1.1", b"POST /o\x00fx HTTP/1.1", b"POST /o fx HTTP/1.1", b"POST /\x7f HTTP/1.1",
                 b"POST /\xff HTTP/1.1", b"PO(ST /ofx HTTP/1.1", b"POST /ofx HTTP/1.1\x00"):
        yield "the line %r" % line, lined(line), [400]
    yield "empty lines in front", b"\r\n\n\r\n" + GOOD + b"\n" + GOOD, [200, 200]
    yield "a lone CR in front", b"\r" + GOOD, [400]
    yield "a space in front", b" " + GOOD, [400]
    yield "lines that end in LF", head().replace(b"\r\n", b"\n") + FILE + GOOD, [200, 200]
    yield "lines that end in CR", head().replace(b"\r\n", b"\r") + FILE, [400]
    yield "HTTP/1.0 closes", lined(b"POST /ofx HTTP/1.0") + GOOD, [200]
    kept = request(line=b"POST /ofx HTTP/1.0", more=b"Connection: keep-alive\r\n")
    yield "HTTP/1.0 closes, whatever it says", kept + GOOD, [200]


def spelled_fields():
    """Fields."""
    for more in (b"Connection: close\r\n", b"connection:CLOSE\r\n", b"CONNECTION: \t Close \t\r\n",
                 b"Connection: keep-alive\r\nConnection: close\r\n"):
        yield "closes after %r" % more, fields(more) + GOOD, [200]
    for more in (b"Connection: keep-alive\r\n", b"Connection: close, TE\r\n", b"Connection: closed\r\n",
                 b"Connection:\r\n", b"X-Connection: close\r\n", b"Expect: 100-continue\r\n",
                 b"Content-Type: text/x\r\n", b"Content-Encoding: gzip\r\n", b"Upgrade: h2c\r\n", b"X:\xff\r\n",
                 b"X:\t\r\n", b"X: \r\n"):
        yield "goes on after %r" % more, fields(more) + GOOD, [200, 200]
    for more in (b"X : 1\r\n", b" X: 1\r\n", b"\tX: 1\r\n", b": 1\r\n", b"X\r\n", b"X: 1\r 2\r\n", b"X: \x00\r\n",
                 b"X: \x7f\r\n", b"X: \x1f\r\n", b"X\x00: 1\r\n", b"X(: 1\r\n", b"X: 1\r\n folded\r\n",
                 b"X: 1\r\n\tfolded\r\n", b"X: 1\r\r\n", b"\xc3\xa4: 1\r\n"):
        yield "the field %r has no form" % more, fields(more), [400]
    yield "a line doubled", fields(b"Host: localhost\r\n") + GOOD, [200, 200]
    yield "the length doubled", fields(length(len(FILE))), [411]
    yield "two lengths", fields(length(1)), [411]
    for value in (b"", b"+1", b"-1", b"1 2", b"1,1", b"0x1", b"1e3", b"x", b"1234567890", b"0000000529", b"\xb2"):
        yield "the length %r" % value, head(fields=REST + b"Content-Length: " + value + b"\r\n") + FILE, [411]
    for value in (b"529", b"000000529", b" 529 ", b"\t529\t"):
        name = b"cOnTeNt-LeNgTh:"
        yield "the length %r" % value, head(fields=REST + name + value + b"\r\n") + FILE + GOOD, [200, 200]
    yield "no bytes", request(b"") + GOOD, [400, 200]


def bodies():
    """Bodies, and where they end."""
    chunked = b"Transfer-Encoding: chunked\r\n"
    chunks = b"%x\r\n" % len(FILE) + FILE + b"\r\n0\r\n\r\n"
    yield "chunks", head(fields=REST + chunked) + chunks, [411]
    yield "chunks with a length", fields(chunked), [411]
    yield "an empty encoding", fields(b"transfer-encoding:\r\n"), [411]
    yield "identity", fields(b"Transfer-Encoding: identity\r\n"), [411]
    # The rest begins the next request, and is an empty line.
    yield "said a byte too short", head(fields=REST + length(len(FILE) - 1)) + FILE + GOOD, [200, 200]
    yield "said nine bytes too short", head(fields=REST + length(len(FILE) - 9)) + FILE, [400, 400]
    # The first letter of the next request belongs to the body.
    yield "said a byte too long", head(fields=REST + length(len(FILE) + 1)) + FILE + GOOD, [400, 405]
    yield "a byte short", GOOD + GOOD[:-1], [200]
    yield "white space after the file", request(filled(1000)) + GOOD, [200, 200]
    yield "a file of the greatest size", request(filled(LARGEST)) + GOOD, [200, 200]
    yield "a file of a byte more", request(filled(LARGEST + 1)), [413]
    yield "a file of a byte more, and what is after it", request(filled(LARGEST + 1)) + GOOD * 100, [413]
    yield "the greatest length of nine digits", head(fields=length(999999999)) + FILE, [413]
    yield "a wrong password", request(FILE.replace(b"secret", b"Secret")) + GOOD, [200, 200]
    yield "an account of nobody", request(FILE.replace(b">1001", b">1009")) + GOOD, [200, 200]


def limits():
    """The limits of heads and connections, and one beyond."""
    yield "a head of 8,192 bytes", sized(MAX_IN_A_HEAD) + GOOD, [200, 200]
    yield "a head of 8,193 bytes", sized(MAX_IN_A_HEAD + 1), [400]
    yield "8,192 bytes without a head's end", b"POST /ofx HTTP/1.1\r\nX: " + b"x" * (MAX_IN_A_HEAD - 23), [400]
    yield "8,191 bytes without a head's end", b"POST /ofx HTTP/1.1\r\nX: " + b"x" * (MAX_IN_A_HEAD - 24), []
    yield "8,192 bytes of a method", b"x" * MAX_IN_A_HEAD, [400]
    yield "8,191 bytes of a method", b"x" * (MAX_IN_A_HEAD - 1), []
    yield "8,192 bytes of empty lines", b"\r\n" * (MAX_IN_A_HEAD // 2), [400]
    yield "a target too long", lined(b"POST /" + b"x" * MAX_IN_A_HEAD + b" HTTP/1.1"), [400]
    yield "64 fields", with_fields(64) + GOOD, [200, 200]
    yield "65 fields", with_fields(65), [400]
    yield "65 fields without an end", with_fields(65)[:-len(FILE) - 2], []
    yield "64 fields, refused", head(b"GET /ofx HTTP/1.1", b"X: 1\r\n" * 64), [405]
    yield "65 fields of what would be refused", head(b"GET /ofx HTTP/1.1", b"X: 1\r\n" * 65), [400]
    yield "a hundred requests", GOOD * HUNDRED, [200] * HUNDRED
    yield "a hundred and one", GOOD * (HUNDRED + 1), [200] * HUNDRED
    yield "ninety-nine and a refused one", GOOD * 99 + lined(b"GET / HTTP/1.1"), [200] * 99 + [405]
    yield "the hundredth has no form", GOOD * 99 + request(b"x") + GOOD, [200] * 99 + [400]


def banking():
    """Files that change the bank."""
    moved = asking("transfer x1 1001 1002 10.00")
    yield "a transfer", moved + asking("statement s2 1001") + asking("sync intra 1001 0"), [200] * 3
    yield "its TRNUID once more", moved, [200]
    kept = asking("transfer x2 1001 1002 1.00", new="f-1")
    yield "a file that has a name, twice", kept + kept, [200, 200]
    yield "the same on another connection", kept, [200]
    yield "a poll", asking("sync intra 1001 only"), [200]
    yield "mail", asking("mail m1") + asking("sync mail 0"), [200, 200]
    yield "a recurring transfer", asking("repeat x3 WEEKLY*3 1001 1002 1.00 20990101"), [200]
    yield "what the recurring transfer left", asking("sync recintra 1001 0") + asking("statement s3 1001"), [200, 200]
    yield "bob", asking("statement s4 1002", user="bob hunter"), [200]


ROWS = [row for part in (table, lines, spelled_fields, bodies, limits, banking) for row in part()]


def edited(put):
    """The first request of two with each byte of its head edited."""
    size = len(GOOD) - len(FILE)
    return [GOOD[:at] + put(GOOD[at:at + 1]) + GOOD[at + 1:] + GOOD for at in range(size)]


SWEEPS = [
    ("each byte of a head is left out", edited(lambda byte: b"")),
    ("each byte of a head is doubled", edited(lambda byte: byte * 2)),
    ("each byte of a head is NUL", edited(lambda byte: b"\x00")),
    ("each byte of a head is CR", edited(lambda byte: b"\r")),
    ("each byte of a head is LF", edited(lambda byte: b"\n")),
    ("each byte of a head has a space in front", edited(lambda byte: b" " + byte)),
    ("a connection ends in each byte of a request", [GOOD[:size] for size in range(len(GOOD))]),
    ("a connection ends in each byte of a second one", [GOOD + GOOD[:size] for size in range(0, len(GOOD), 7)]),
]
