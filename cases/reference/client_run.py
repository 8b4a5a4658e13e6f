"""A whole run of the customer's program: its words, the text that is kept, what comes over its link, and what it sends,
prints and keeps.

Of a command that sends something a file that is outstanding is sent again first, and its reply is taken. Then the file
of the command is made, kept, sent, and its reply taken and kept before a line tells of it.
"""
from typing import NamedTuple, Optional

from .answers import read_reply
from .asked import written_request
from .bank import Object
from .client import MAX_NEXT, Client, Refused, judge, polled
from .client_lines import newest_line, shown
from .client_text import client_in, text_of
from .client_words import order_of
from .fault import Fault
from .recorded import NoForm
from .reply_heads import NoReply, next_reply, request_of
from .requests import Request, read_id
from .stopped import Stopped

GIVEN_UP = 400  # the code of a file that the bank can't read


class Link(NamedTuple):
    """What comes over the link until it ends."""

    data: bytes
    is_there: bool = True  # False where nobody lets the program in
    fails: bool = False  # whether a read fails after all that comes


class Outcome(NamedTuple):
    status: int
    note: Optional[str]  # the first line of the error stream; None where it is empty
    output: bytes
    sent: bytes
    saved: bytes  # the text that is kept after the run


class Run:
    """A run with these words over a text, at a moment. The text is None where it can't be read, and only so many saves
    can be made."""

    def __init__(self, words, text, link, at, saves=None):
        self.order = order_of(words)
        self.text, self.link, self.at, self.saves = text, link, at, saves
        self.taken = 0  # of the bytes that come
        self.printed, self.sent = [], b""

    def outcome(self):
        status, note = 0, None
        try:
            self.do()
        except (Stopped, Refused) as stopped:
            status, note = stopped.status, stopped.note
        output = b"".join(line + b"\n" for line in self.printed)
        return Outcome(status, note, output, self.sent, self.text)

    def do(self):
        if self.order is None:
            raise Stopped(2, "usage")
        client, wish = self.opened(), self.order.wish
        if wish.command == b"show":
            self.printed += shown(client)
        elif wish.command == b"check":
            self.check(client)
        else:
            if client.outstanding is not None:
                self.settle(client)
            client.make(wish, self.at)
            self.save(client)
            self.settle(client)

    def opened(self):
        """The client that is kept. Its form is judged before whose it is."""
        name, user = self.order.name, self.order.user
        if self.text is None:
            raise Stopped(8, "keeper failed")
        if self.text == b"":
            return Client(name, user)
        try:
            client = client_in(self.text)
        except NoForm as fault:
            raise Stopped(15, "store at %d" % fault.at) from None
        if (client.name, client.user) != (name, user) or client.next >= MAX_NEXT:
            raise Stopped(2, "usage")
        return client

    def save(self, client):
        if self.saves == 0:
            raise Stopped(8, "keeper failed")
        if self.saves is not None:
            self.saves -= 1
        self.text = text_of(client)

    def settle(self, client):
        """Sends the outstanding file, and takes its reply. A file that the bank can't read is given up."""
        file = client.outstanding
        try:
            reply = self.exchanged(written_request(file.request, self.order.password, file.at))
        except Stopped as stopped:
            if (stopped.status, stopped.note) == (11, "http %d" % GIVEN_UP):
                client.outstanding = None
                self.save(client)
            raise
        lines = client.take(reply)
        self.save(client)
        self.printed += lines

    def check(self, client):
        """Asks for the newest tokens. The name of the reply isn't looked at."""
        header, asks = polled(self.order.wish.account)
        request = Request(header, client.user, b"", asks)
        reply = self.exchanged(written_request(request, self.order.password, self.at))
        judge(asks, reply)
        for ask, answer in zip(asks, reply.answers):
            self.printed.append(newest_line(Object(ask.family, ask.account), read_id(answer.token)))

    def exchanged(self, file):
        """The reply that comes to a file."""
        if not self.link.is_there:
            raise Stopped(6, "write failed")
        self.sent += request_of(file)
        try:
            code, body, size = next_reply(self.link.data[self.taken:])
        except NoReply as none:
            if none.kind == "head":
                raise Stopped(16, "bad head") from None
            if self.link.fails:
                raise Stopped(5, "read failed") from None
            raise Stopped(17, "cut at %d" % none.count) from None
        self.taken += size
        if code != 200:
            raise Stopped(11, "http %d" % code)
        try:
            return read_reply(body)
        except Fault as fault:
            raise Stopped(12, "bad reply at %d" % fault.at) from None
