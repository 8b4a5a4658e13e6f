"""What becomes of links that end, wait or fail, of several at once, and of whole runs. Each test has its servers."""
import os
import random
import re
import resource
import socket
import subprocess
import time

from reference.answer import now, reply_to
from reference.happening import opened
from reference.http import reply
from reference.requests import read_request
from reference.setup import read_setup
from served.link import Link
from served.requests import FILE, asking, request
from served.server import MAX_SECONDS, Server, Wrong
from written.disk_file import read
from written.pieces import sample

GOOD = request()
HEAD_END = GOOD.index(FILE)
LIMIT = 30  # seconds that a link may wait for a byte
SLACK = 15
KEEPER_FAILED = reply(503, b"keeper failed\n", closes=False)
SIZE = len(reply(200, b"x" * 752, closes=False))  # of the reply to the sample request
MANY = 1000
MANY_FILES = 60
KILLS = 12


def good_reply(at):
    """The reply to the sample request at this moment."""
    return reply(200, reply_to(opened(read_setup(sample("setup")), []), read_request(FILE), at), closes=False)


def expect_answer(link, sent=GOOD):
    """Sends the sample request, whose reply is the one of a moment between the sending and the reading."""
    began = now()
    link.send(sent)
    got = link.read(SIZE)
    if got not in (good_reply(began), good_reply(now())):
        raise Wrong("the sample request is answered by %r" % got[:80])


def expect_end(link):
    rest = link.rest()
    if rest:
        raise Wrong("more comes: %r" % rest[:80])


def expect(one, other, what):
    if one != other:
        raise Wrong("%s is %r, wanted %r" % (what, one, other))


def ends_everywhere(program, folder):
    """links that are reset, or go away, in each tenth byte of a request are passed over"""
    with Server(program, folder, workers=2) as server:
        for size in range(0, len(GOOD) + 1, 10):
            for leave in (Link.reset, Link.close):
                link = Link(server.port)
                link.send(GOOD[:size])
                leave(link)
        with Link(server.port) as link:
            expect_answer(link)


def goes_away_unread(program, folder):
    """links that go away, or are reset, while much is said to them are passed over"""
    much = asking(*("statement s%d 1001" % number for number in range(MANY)))
    with Server(program, folder, workers=2) as server:
        for leave in (Link.reset, Link.close, Link.reset):
            link = Link(server.port)
            link.send(much)
            link.read(100)
            leave(link)
        with Link(server.port) as link:
            expect_answer(link)


def byte_a_second(program, folder):
    """a link that says a byte a second is answered, and meanwhile another one"""
    with Server(program, folder, workers=2) as server:
        with Link(server.port) as slow, Link(server.port) as other:
            for byte in GOOD[:4]:
                slow.send(bytes([byte]))
                expect_answer(other)
                time.sleep(1)
            expect_answer(slow, GOOD[4:])


def bytewise(program, folder):
    """a request that comes byte by byte is answered"""
    with Server(program, folder) as server, Link(server.port) as link:
        for byte in GOOD[:-1]:
            link.send(bytes([byte]))
            time.sleep(0.0005)
        expect_answer(link, GOOD[-1:])


def split_anywhere(program, folder):
    """requests that come in two pieces, the second a moment later, are answered"""
    with Server(program, folder) as server:
        for at in (1, 5, 10, 18, 19, HEAD_END - 4, HEAD_END - 1, HEAD_END, HEAD_END + 1, len(GOOD) - 1):
            with Link(server.port) as link:
                link.send(GOOD[:at])
                time.sleep(0.02)
                expect_answer(link, GOOD[at:])


def expects(program, folder):
    """to `Expect: 100-continue` nothing is said before the body comes"""
    with Server(program, folder) as server, Link(server.port) as link:
        waiting = request(more=b"Expect: 100-continue\r\n")
        link.send(waiting[:-len(FILE)])
        if not link.is_silent(0.3):
            raise Wrong("something comes before the body")
        expect_answer(link, FILE)


def refused_while_sending(program, folder):
    """who is refused while they still send is told so"""
    too_large = b"POST /ofx HTTP/1.1\r\nContent-Length: 900000\r\n\r\n" + b"x" * 900000
    want = reply(413, b"too large\n", closes=True)
    with Server(program, folder) as server:
        for _ in range(20):
            with Link(server.port) as link:
                output, _ = link.exchange(too_large)
            expect(output, want, "the answer")
            expect(link.was_reset, False, "a reset while they send")
        with Link(server.port) as link:
            link.send(too_large)
            expect(link.rest(), want, "the answer to who reads after all")
            expect(link.was_reset, False, "a reset after all")


def bad_at_once(program, folder):
    """a head that can't become one is refused though the link stays open"""
    with Server(program, folder) as server:
        for sent in (b"\rP", b"POST /ofx HTTP/1.2", b"POST /ofx HTTP/1.1\r\n x", b"x" * 8192, b"POST /\xff "):
            with Link(server.port) as link:
                link.send(sent)
                expect(link.rest(), reply(400, b"bad head\n", closes=True), "the answer to %r" % sent[:20])


def two_at_once(program, folder):
    """two workers answer two links, of which one waits in the middle of a request"""
    with Server(program, folder, workers=2) as server:
        with Link(server.port) as one, Link(server.port) as other:
            one.send(GOOD[:300])
            for _ in range(50):
                expect_answer(other)
            expect_answer(one, GOOD[300:])


def many_at_once(program, folder):
    """sixty-four workers answer sixty-four links"""
    with Server(program, folder, workers=64) as server:
        links = [Link(server.port) for _ in range(64)]
        for link in links:
            expect_answer(link)
        for link in reversed(links):
            expect_answer(link)
            link.close()


def more_than_workers(program, folder):
    """a link that finds no free worker waits for one"""
    with Server(program, folder) as server:
        with Link(server.port) as first:
            expect_answer(first)
            second = Link(server.port)
            second.send(GOOD)
            if not second.is_silent(0.3):
                raise Wrong("one worker answers two links")
        expect(len(second.read(SIZE)), SIZE, "the size of the later reply")
        second.close()


def no_room(program, folder):
    """while the records can't be written 503 is said, and after that the bank goes on"""
    with Server(program, folder, "disk:records") as server, Link(server.port) as link:
        expect_answer(link)
        _, most = resource.prlimit(server.child.pid, resource.RLIMIT_FSIZE)
        for _ in range(3):
            resource.prlimit(server.child.pid, resource.RLIMIT_FSIZE, (0, most))
            for _ in range(3):
                link.send(GOOD)
                expect(link.read(len(KEEPER_FAILED)), KEEPER_FAILED, "the answer without room")
            resource.prlimit(server.child.pid, resource.RLIMIT_FSIZE, (most, most))
            expect_answer(link)
        expect(len(read(os.path.join(folder, "records"))), 4, "the number of records")


def by_itself(program, folder):
    """a run ends after its connections, with status 0, and says how many there were"""
    with Server(program, folder, workers=3, connections=2) as server:
        for _ in range(6):
            with Link(server.port) as link:
                expect_answer(link)
                link.end()
                expect_end(link)
        expect(server.wait(), 0, "the status")
        expect(server.lines()[-1], "served 6 links", "the last line")


def says_what_it_has(program, folder):
    """a run says where it listens, and from how many records it opened"""
    for lines in (["records %s, new"], ["records %s, opened from 2"]):
        for records in ("records", "disk:other"):
            with Server(program, folder, records, connections=1) as server:
                with Link(server.port) as link:
                    for _ in range(2):
                        expect_answer(link)
                expect(server.wait(), 0, "the status")
                want = ["", "listens at " + server.url(), "setup setup", lines[0] % records, "served 1 links"]
                expect(server.lines(), want, "what is said")


def again_at_once(program, folder):
    """a server that was killed with links open listens again at once at the same port, over its records"""
    with Server(program, folder, "records", workers=2) as server, Link(server.port) as link:
        link.send(asking("transfer x1 1001 1002 10.00"))
        link.read(1)
        server.kill()
        with Server(program, folder, "records", workers=2, port=server.port) as later, Link(later.port) as other:
            other.send(asking("statement s1 1001"))
            expect(b"<BALAMT>90.00\r\n" in other.read(SIZE), True, "that the transfer stands")


def killed(program, folder):
    """a server that is killed while it answers opens again from all that it has answered and from nothing that wasn't sent,
    so from at most one event more where its client waits for each reply"""
    for records in ("records", "disk:other"):
        known = top = 0  # files that were answered, and the number up to which files were sent
        least = most = 0  # records that may have been kept
        r = random.Random(records)
        for k in range(KILLS):
            with Server(program, folder, records) as server:
                found = kept_before(server, least, most)
                waits = k % 2 == 0
                sent, answered = (sent_in_turn if waits else sent_at_once)(server, known, r)
                top, known, least = max(top, known + sent), known + answered, found + answered
                most = least + 1 if waits else found + sent
        with Server(program, folder, records) as server, Link(server.port) as link:
            kept_before(server, least, most)
            link.send(b"".join(map(numbered, range(known, top))) + asking("statement s1 1001", new="last"))
            link.end()
            balance = b"<BALAMT>%d.%02d\r\n" % divmod(10000 - top, 100)
            expect(link.rest().count(balance), 2, "how often the balance of all transfers stands in the statement")


def kept_before(server, least, most):
    """The number of records from which a server has opened, at least and at most so many. A file has one each time that it
    is answered."""
    found = re.search(r"opened from ([0-9]+)$", "\n".join(server.lines()), re.MULTILINE)
    found = int(found[1]) if found else 0
    if not least <= found <= most:
        raise Wrong("%d to %d records were kept, and the next run opens from %d" % (least, most, found))
    return found


def numbered(number):
    """The request for the transfer of this number, in a file that has a name."""
    return asking("transfer x%d 1001 1002 0.01" % number, new="f-%d" % number)


def sent_in_turn(server, known, r):
    """Sends what isn't answered, and more, each file when the one before it was answered, and kills the server some time
    after the last one's. How many were sent, and how many were answered by then."""
    with Link(server.port) as link:
        count = 1 + r.randrange(MANY_FILES // 4)
        for k in range(count):
            link.send(numbered(known + k))
            while k + 1 < count and link.all.count(b"</OFX>\r\n") <= k and link.read(1 + len(link.come)):
                pass
        time.sleep(r.choice((0, 0.0005, 0.003)) * r.random())
        server.kill()
        link.rest()
    return count, posted_in(link.all)


def sent_at_once(server, known, r):
    """Sends what isn't answered, and more, all at once, and kills the server some time after a reply. How many were sent,
    and how many were answered by then: a reply that was written may be lost with its connection, so more may be kept."""
    with Link(server.port) as link:
        link.send(b"".join(numbered(known + k) for k in range(MANY_FILES)))
        link.read(1 + r.randrange(6000))
        time.sleep(r.choice((0, 0.0005, 0.003)) * r.random())
        server.kill()
        link.rest()
    return MANY_FILES, posted_in(link.all)


def posted_in(come):
    """How many whole replies have come. Each tells that its transfer is posted, whether its file came once or twice."""
    replies = [one for one in come.split(b"HTTP/1.1 ")[1:] if one.endswith(b"</OFX>\r\n")]
    for one in replies:
        expect(one.count(b"<XFERPRCCODE>POSTEDON\r\n"), 1, "the number of posted transfers in a reply")
    return len(replies)


def outcome(program, folder, *words):
    done = subprocess.run([program, "serve", *words], cwd=folder, stdin=subprocess.DEVNULL, stdout=subprocess.PIPE,
                          stderr=subprocess.PIPE, timeout=MAX_SECONDS)
    return done.returncode, done.stderr.split(b"\n")[0].decode(), done.stdout


def refused_words(program, folder):
    """words, a setup, records and a port that can't be had end a run with their statuses, in this order"""
    with open(os.path.join(folder, "setup"), "wb") as f:
        f.write(sample("setup"))
    with open(os.path.join(folder, "wrong"), "wb") as f:
        f.write(sample("setup").replace(b"WINDOW 3", b"WINDOW 0"))
    with open(os.path.join(folder, "none"), "wb") as f:
        f.write(b"no file of records\n")
    with socket.create_server(("127.0.0.1", 0)) as door:
        port = str(door.getsockname()[1])
        for words in (("0", "1", "0"), ("65536", "1", "0"), (port, "0", "0"), (port, "65", "0"), (port, "01", "0"),
                      (port, "1", "4294967296"), (port, "1", "-1"), (port, "1"), (port, "1", "0", "0")):
            expect(outcome(program, folder, "wrong", "none", *words), (2, "usage", b""), "the end of %r" % (words,))
        rest = (port, "1", "0")
        expect(outcome(program, folder, "missing", "none", *rest), (5, "read failed", b""), "the end without a setup")
        expect(outcome(program, folder, "wrong", "none", *rest), (3, "setup line 4", b""), "the end of a wrong setup")
        expect(outcome(program, folder, "setup", "none", *rest), (8, "keeper failed", b""), "the end of wrong records")
        expect(outcome(program, folder, "setup", "-", *rest), (5, "read failed", b""), "the end at a taken port")


def silent(said, least=LIMIT):
    """A test of a link that says this and then nothing more, while another one waits."""
    def test(program, folder):
        with Server(program, folder) as server, Link(server.port) as first:
            first.send(said)
            expect_next_in_time(server, least, least)
    return test


def unread(program, folder):
    """A link that reads nothing of what is said to it."""
    much = asking(*("statement s%d 1001" % number for number in range(MANY)))
    with Server(program, folder) as server, Link(server.port) as first:
        first.socket.settimeout(2)
        while first.send(much):
            pass
        # A write that takes some bytes, waits, and says so, is followed by another one, and the last of them takes none.
        expect_next_in_time(server, 2 * LIMIT, 4 * LIMIT)


def expect_next_in_time(server, least, most):
    """The one worker is held by a link for so long, and then answers the next one."""
    began = time.monotonic()
    with Link(server.port) as second:
        second.send(GOOD)
        second.socket.settimeout(most + SLACK)
        second.take_in()
        waited = time.monotonic() - began
        expect(len(second.read(SIZE)), SIZE, "the size of the reply to the next link after %.1f seconds" % waited)
    if waited < least - 5:
        raise Wrong("the link is given up after %.1f seconds" % waited)


# Each waits for the limit.
UNHURRIED = {
    "a link that says nothing gives its worker back to who waits": silent(b"", least=1),
    "so does one that says half a head": silent(GOOD[:100]),
    "so does one that says half a second body": silent(GOOD + GOOD[:300]),
    "so does one that reads nothing": unread,
}

TESTS = [
    ends_everywhere, goes_away_unread, byte_a_second, bytewise, split_anywhere, expects, refused_while_sending,
    bad_at_once, two_at_once, many_at_once, more_than_workers, no_room, by_itself, says_what_it_has, again_at_once,
    killed, refused_words,
]
