"""Replies that are cut, damaged, another's, or none: what each run says, and that the file stays outstanding."""
import time

from called.desk import expect
from called.paper import CLOSES, RESETS, Paper, edited, says, with_file
from reference.client_text import client_in
from reference.http import reply
from served.server import free_port

TRANSFER = "transfer 1001 CHECKING 1002 SAVINGS 10.00"
SYNC = "sync 1001 CHECKING"
CHECK = "check 1001 CHECKING"
MOST = 67108864
LIMIT = 30  # seconds that a link may wait for a byte
SLACK = 30
BAD_FILE = reply(400, b"bad file at 0\n", closes=False)
TESTS = []
LINES = "done c1-1-1 0", "intra 1001 CHECKING token 1 lost N rows 1"


def test(function):
    TESTS.append(function)
    return function


def waits(customer):
    """Whether a file of the customer waits for its reply."""
    return client_in(customer.text()).outstanding is not None


def refused(desk, act, status, note, command=TRANSFER):
    """A new client, whose command is refused and whose file then waits."""
    c1 = desk.new_customer()
    desk.fails(c1, command, status, note, act)
    if command != CHECK:
        expect(waits(c1), True, "that a file waits after %r" % note)
    return c1


@test
def cut_anywhere(desk):
    """a reply that ends in each byte is cut there, the file waits, and the next run sends it again"""
    c1, paper, whole = desk.new_customer(), Paper(), []
    desk.fails(c1, TRANSFER, 17, "cut at 0", paper.answers(lambda reply: whole.append(reply) or b"", CLOSES))
    for size in range(len(whole[0])):
        desk.fails(c1, SYNC, 17, "cut at %d" % size, paper.answers(lambda reply: reply[:size], CLOSES))
    expect(desk.run(c1, SYNC, paper.answers())[:2], list(LINES), "what the last run prints first")
    expect(paper.bank.count, 1, "the number of entries")


@test
def reset_anywhere(desk):
    """a connection that is reset within a reply is a read that failed, or a reply that was cut"""
    c1, paper = desk.new_customer(), Paper()
    for size in (0, 1, 100, 500):
        done, _ = desk.run_whole(c1, TRANSFER, paper.answers(lambda reply: reply[:size], RESETS))
        expect((done.status, done.note()), (5, "read failed"), "the end")
    expect(desk.run(c1, SYNC, paper.answers())[:2], list(LINES), "what the last run prints first")


@test
def nobody_listens(desk):
    """at a port that nobody listens on the file is made and waits, and check and show are as they are"""
    c1, port = desk.new_customer(), free_port()
    for command, status in ((TRANSFER, 6), (SYNC, 6), (CHECK, 6), ("show", 0)):
        for at in (port, 0):
            done = c1.run(at, command)
            expect((done.status, done.note()), (status, "write failed" if status else None), "the end of %r" % command)
    expect(client_in(c1.text()).next, 2, "the next number")
    expect(desk.run(c1, SYNC, Paper().answers())[:2], list(LINES), "what the run with a bank prints first")


@test
def codes(desk):
    """every other code than 200 is told, and the file waits, but after 400"""
    for code in (100, 201, 204, 301, 404, 405, 411, 413, 500, 503, 999):
        refused(desk, says(b"HTTP/1.1 %d X\r\nContent-Length: 3\r\n\r\nno\n" % code), 11, "http %d" % code)
    c1 = desk.new_customer()
    desk.fails(c1, TRANSFER, 11, "http 400", says(BAD_FILE))
    expect(waits(c1), False, "that a file waits after 400")
    desk.says(c1, "show", "client c1 next 2 done NONE", "intra 1001 CHECKING token 0 lost N rows 0")
    c1 = refused(desk, says(BAD_FILE[:-1]), 17, "cut at %d" % (len(BAD_FILE) - 1))
    desk.fails(c1, SYNC, 11, "http 400", says(BAD_FILE))
    desk.fails(c1, CHECK, 11, "http 400", says(BAD_FILE))
    expect(waits(c1), False, "that a file waits")


HEADS = (
    b"HTTP/1.1 200 OK\r\n\r\n",  # no length
    b"HTTP/1.1 200 OK\r\nContent-Length: 3\r\nContent-Length: 3\r\n\r\nabc",
    b"HTTP/1.1 200 OK\r\nContent-Length: 3\r\nTransfer-Encoding: chunked\r\n\r\n",
    b"HTTP/1.1 200 OK\r\nContent-Length: 0000000003\r\n\r\nabc",
    b"HTTP/1.1 200 OK\r\nContent-Length: -1\r\n\r\n",
    b"HTTP/1.1 200 OK\r\nContent-Length:\r\n\r\n",
    b"HTTP/1.1 200 OK\r\nContent-Length: %d\r\n\r\n" % (MOST + 1),
    b"HTTP/1.1 503 No\r\n\r\n", b"HTTP/1.1 400 No\r\n\r\n",
    b"HTTP/1.2 200 OK\r\n", b"HTTP/2 200 OK\r\n", b"http/1.1 200 OK\r\n", b"HTTP/1.1 20 OK\r\n",
    b"HTTP/1.1 2000 OK\r\n",
    b"HTTP/1.1 2x0 OK\r\n", b"HTTP/1.1  200 OK\r\n", b"POST /ofx HTTP/1.1\r\n", b"<OFX>", b"HTTP/1.1 200 \x01\r\n",
    b"HTTP/1.1 200 OK\r\nX : 1\r\n", b"HTTP/1.1 200 OK\r\n X: 1\r\n", b"HTTP/1.1 200 OK\r\nX: 1\r\n 2\r\n",
    b"HTTP/1.1 200 OK\r\nX: \x00\r\n", b"HTTP/1.1 200 OK\r\n" + b"X: 1\r\n" * 65 + b"\r\n",
    b"HTTP/1.1 200 OK\r\nX: " + b"x" * 8172,
)


@test
def heads(desk):
    """a head that has no form, or no usable length, is told, and the file waits"""
    for head in HEADS:
        refused(desk, says(head), 16, "bad head")
    for head in (b"HTTP/1.1 200 OK\r\nX: " + b"x" * 8171, b"HTTP/1.1 200", b"HTTP/1.1 2", b"H",
                 b"HTTP/1.1 200 OK\r\nContent-Length: %d\r\n\r\nabc" % MOST):
        refused(desk, says(head), 17, "cut at %d" % len(head))


def headed(head):
    """What gives a reply another head; LENGTH stands for its length."""
    def change(whole):
        file = whole.partition(b"\r\n\r\n")[2]
        return head.replace(b"LENGTH", b"%d" % len(file)) + file
    return change


@test
def other_heads(desk):
    """a head in another form that HTTP allows is taken"""
    for head in (b"HTTP/1.0 200 OK\r\nContent-Length: LENGTH\r\n\r\n",
                 b"HTTP/1.1 200\r\nContent-Length: LENGTH\r\n\r\n",
                 b"HTTP/1.1 200 \r\nContent-Length:LENGTH\r\n\r\n", b"HTTP/1.1 200 OK\nContent-Length: LENGTH\n\n",
                 b"\r\n\nHTTP/1.1 200 \xe4\xff\r\ncONTENT-lENGTH:\t 0LENGTH \r\nX:\r\n\r\n",
                 b"HTTP/1.1 200 OK\r\n" + b"X: 1\r\n" * 63 + b"Content-Length: LENGTH\r\n\r\n",
                 b"HTTP/1.1 200 OK\r\nConnection: close\r\nContent-Length: LENGTH\r\n\r\n"):
        desk.says_by(desk.new_customer(), TRANSFER, Paper().answers(headed(head)), *LINES)


@test
def damaged(desk):
    """a reply file without its form is told with the place of its fault, and the file waits"""
    for old, new in (
            (b"<TOKEN>1\r\n", b""), (b"<TOKEN>1\r\n", b"<TOKEN>1\r\n<TOKEN>1\r\n"), (b"<LOSTSYNC>N", b"<LOSTSYNC>X"),
            (b"VERSION:160", b"VERSION:161"), (b"</INTRASYNCRS>", b""), (b"</OFX>", b"</OFX>x"),
            (b"<XFERPRCCODE>POSTEDON", b"<XFERPRCCODE>CANCELEDON"), (b"<TRNAMT>10.00", b"<TRNAMT>10.001"),
            (b"<SRVRTID>1", b"<SRVRTID>"), (b"<DTSERVER>2", b"<DTSERVER>x"), (b"<DTXFERPRC>2", b"<DTXFERPRC>1")):
        c1 = desk.new_customer()
        done, lines = desk.run_whole(c1, TRANSFER, Paper().answers(edited(old, new)))
        expect((done.status, done.note().startswith("bad reply at "), lines), (12, True, []), "the end with %r" % new)
        expect(waits(c1), True, "that a file waits after %r" % new)


@test
def left_out(desk):
    """a reply of which every third byte is left out, doubled, or NUL is taken or refused as the forms say"""
    for put in (lambda byte: b"", lambda byte: byte * 2, lambda byte: b"\x00"):
        size, at = 1, 0
        while at < size:
            def change(file, at=at):
                nonlocal size
                size = len(file)
                return file[:at] + put(file[at:at + 1]) + file[at + 1:]
            desk.run_whole(desk.new_customer(), TRANSFER, Paper().answers(with_file(change)))
            at += 3


@test
def anothers(desk):
    """a reply to another file, with a signon that failed, or that doesn't answer the asks in order, is refused"""
    for pairs, status, note in (
            ((b"NEWFILEUID:c1-1", b"NEWFILEUID:c1-7"), 13, "not mine"),
            ((b"NEWFILEUID:c1-1", b"NEWFILEUID:NONE"), 13, "not mine"),
            ((b"NEWFILEUID:c1-1", b"NEWFILEUID:C1-1"), 13, "not mine"),
            ((b"<SONRS>\r\n<STATUS>\r\n<CODE>0", b"<SONRS>\r\n<STATUS>\r\n<CODE>15500"), 14, "signon 15500"),
            ((b"<SONRS>\r\n<STATUS>\r\n<CODE>0", b"<SONRS>\r\n<STATUS>\r\n<CODE>1"), 14, "signon 1"),
            ((b"NEWFILEUID:c1-1", b"NEWFILEUID:x", b"<SONRS>\r\n<STATUS>\r\n<CODE>0",
              b"<SONRS>\r\n<STATUS>\r\n<CODE>1"), 13, "not mine"),
            ((b"<TRNUID>c1-1-1", b"<TRNUID>c1-1-2"), 12, "bad reply 1"),
            ((b"<TOKEN>1", b"<TOKEN>x"), 12, "bad reply 1"), ((b"<TOKEN>1", b"<TOKEN>12345678901"), 12, "bad reply 1"),
            ((b"<TOKEN>1", b"<TOKEN>-1"), 12, "bad reply 1")):
        refused(desk, Paper().answers(edited(*pairs)), status, note)


def between(file, first, last):
    """The file without what stands from one text up to another, and that."""
    begin = file.index(first)
    return file[:begin] + file[file.index(last, begin) + len(last):]


def one_more(file):
    """The file with one more synchronisation's answer."""
    account = file[file.index(b"<BANKACCTFROM>"):file.index(b"</BANKACCTFROM>")] + b"</BANKACCTFROM>\r\n"
    more = b"<INTRASYNCRS>\r\n<TOKEN>1\r\n" + account + b"</INTRASYNCRS>\r\n"
    return file.replace(b"</BANKMSGSRSV1>", more + b"</BANKMSGSRSV1>")


@test
def too_few(desk):
    """a deed too few, an ask's answer too few or too many, and answers about another object are refused"""
    first_account = b"<BANKACCTFROM>\r\n<BANKID>121099999\r\n<ACCTID>1001"
    for change, number in (
            (lambda file: between(file, b"<INTRATRNRS>", b"</INTRATRNRS>\r\n"), 1),
            (lambda file: between(file, b"<BANKMSGSRSV1>", b"</BANKMSGSRSV1>\r\n"), 1),
            (lambda file: file.replace(first_account, first_account[:-1] + b"9", 1), 1),
            (lambda file: file.replace(b"INTRASYNCRS", b"RECINTRASYNCRS").replace(b"<INTRATRNRS>", b"<X.Y>").replace(
                b"</INTRATRNRS>", b"</X.Y>"), 1),
            (one_more, 2)):
        refused(desk, Paper().answers(with_file(change)), 12, "bad reply %d" % number)
    for name, number in ((b"STMTTRNRS", 1), (b"INTRASYNCRS", 2), (b"RECINTRASYNCRS", 3), (b"BANKMAILSYNCRS", 4),
                         (b"MAILSYNCRS", 5)):
        act = Paper().answers(with_file(lambda file: between(file, b"<%s>" % name, b"</%s>\r\n" % name)))
        refused(desk, act, 12, "bad reply %d" % number, SYNC)
    for name, number in ((b"INTRASYNCRS", 1), (b"RECINTRASYNCRS", 2), (b"BANKMAILSYNCRS", 3)):
        act = Paper().answers(with_file(lambda file: between(file, b"<%s>" % name, b"</%s>\r\n" % name)))
        refused(desk, act, 12, "bad reply %d" % number, CHECK)


@test
def lengths(desk):
    """a length that is twice the reply's is waited for in vain; one that is shorter cuts the file; what comes after a
    reply isn't looked at"""
    def said(times):
        def change(whole):
            head, _, file = whole.partition(b"\r\n\r\n")
            return headed(b"HTTP/1.1 200 OK\r\nContent-Length: %d\r\n\r\n" % int(len(file) * times))(whole)
        return change
    size = []
    act = Paper().answers(lambda whole: size.append(len(said(2)(whole))) or said(2)(whole), CLOSES)
    c1 = desk.new_customer()
    done, _ = desk.run_whole(c1, TRANSFER, act)
    expect((done.status, done.note()), (17, "cut at %d" % size[0]), "the end of a reply of twice the length said")
    done, _ = desk.run_whole(desk.new_customer(), TRANSFER, Paper().answers(said(0.5)))
    expect(done.status, 12, "the status of a reply of half the length said")
    desk.says_by(desk.new_customer(), TRANSFER, Paper().answers(lambda whole: whole + b"HTTP/9.9 what"), *LINES)


@test
def the_greatest(desk):
    """a reply of 67,108,864 bytes is taken, and one of a byte more is refused by its head"""
    filled = with_file(lambda file: file + b" " * (MOST - len(file)))
    c1 = desk.new_customer()
    c1.patience = 200  # seconds
    desk.says_by(c1, TRANSFER, Paper().answers(filled), *LINES)
    longer = with_file(lambda file: file + b" " * (MOST + 1 - len(file)))
    refused(desk, Paper().answers(longer, CLOSES), 16, "bad head")


def silent(desk):
    """a bank that says nothing is waited for 30 seconds, and then it's a read that failed"""
    c1 = desk.new_customer()
    c1.patience = LIMIT + SLACK

    def waits_too(exchange, _):
        c1.process().wait(c1.patience)
        exchange.given, exchange.ends, exchange.is_reset = b"", True, True
    began = time.monotonic()
    desk.fails(c1, TRANSFER, 5, "read failed", waits_too)
    expect(time.monotonic() - began >= LIMIT, True, "that it waits so long")
    expect(waits(c1), True, "that a file waits")
