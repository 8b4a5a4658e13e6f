"""Stands between a customer's program and a bank, hands on what comes from either, and keeps it.

Each connection of a customer gets one to the bank. The bank's reply to a request is read whole before any of it is
handed on, so that what is then done to it, by the action of this exchange, is done behind the bank's back.
"""
import functools
import re
import socket
import struct
import threading

from served.link import Link
from served.server import MAX_SECONDS, Wrong

LENGTH = re.compile(rb"(?i)\r\ncontent-length: *([0-9]+)")
CONNECTION = re.compile(rb"(?i)\r\nconnection:([^\r]*)\r\n")
LOOK = 0.02  # seconds
PIECE = 65536


class Exchange:
    """A request, and the bank's reply to it. An action changes what is handed on to the customer."""

    def __init__(self, relay, talk, request):
        self.relay, self.talk, self.request, self.reply = relay, talk, request, b""
        self.given = None  # what the customer gets
        self.ends = False  # whether its connection ends after that
        self.is_reset = False  # and how


class Talk:
    """What was said on a customer's connection and on that to the bank."""

    def __init__(self):
        self.sent = self.given = b""  # by the customer, and to it
        self.asked = self.answered = b""  # of the bank
        self.ends = False  # whether the customer's connection was ended after a reply, or by one that says so
        self.is_reset = False  # whether it was reset

    def then(self, other):
        """What was said on this connection, and on one that was made after it."""
        both = Talk()
        both.sent, both.given = self.sent + other.sent, self.given + other.given
        both.asked, both.answered = self.asked + other.asked, self.answered + other.answered
        both.ends, both.is_reset = other.ends, other.is_reset
        return both


def passes(exchange, number):
    """The action that hands both on as they come."""
    exchange.relay.ask(exchange)


def loses(count=0, resets=False, of=0):
    """The action by which only so many bytes of a reply come; a count below 0 is from its end. Of the exchange with
    this number; all others pass."""
    def act(exchange, number):
        exchange.relay.ask(exchange)
        if number == of:
            exchange.given, exchange.ends, exchange.is_reset = exchange.reply[:count], True, resets
    return act


def swallows(exchange, number):
    """The action by which the bank gets no request."""
    exchange.given, exchange.ends = b"", True


class Relay(threading.Thread):
    """A relay to the bank at a port, on a free one. `act` is called with each exchange and its number, from 0; it has
    the bank asked, or doesn't."""

    def __init__(self, bank_port, act=None):
        super().__init__(daemon=True)
        self.bank_port, self.act = bank_port, act or passes
        self.door = socket.create_server(("127.0.0.1", 0))
        self.door.settimeout(LOOK)
        self.port = self.door.getsockname()[1]
        self.talks, self.count, self.is_over, self.wrong = [], 0, False, None
        self.links = self.own = 0  # connections to it, and those of them that it made itself
        self.start()

    def run(self):
        while not self.is_over:
            try:
                link, _ = self.door.accept()
            except TimeoutError:
                continue
            self.links += 1
            with link:
                try:
                    self.talk(link)
                except OSError:
                    pass  # one of them has gone away
                except Wrong as wrong:
                    self.wrong = wrong

    def talk(self, link):
        link.settimeout(MAX_SECONDS)
        link.setsockopt(socket.IPPROTO_TCP, socket.TCP_NODELAY, 1)
        talk, self.bank = Talk(), None
        self.talks.append(talk)
        try:
            while True:
                request = whole(link.recv)
                talk.sent += request
                if LENGTH.search(request) is None:
                    return
                exchange = Exchange(self, talk, request)
                self.act(exchange, self.count)
                self.count += 1
                exchange.given = exchange.reply if exchange.given is None else exchange.given
                talk.given += exchange.given
                link.sendall(exchange.given)
                talk.ends = exchange.ends or says_close(exchange.given)
                if exchange.ends:
                    talk.is_reset = exchange.is_reset
                    if exchange.is_reset:
                        link.setsockopt(socket.SOL_SOCKET, socket.SO_LINGER, struct.pack("ii", 1, 0))
                    return
        finally:
            if self.bank is not None:
                self.bank.close()

    def ask(self, exchange):
        """Has the bank answer the request of an exchange."""
        talk = exchange.talk
        if self.bank is None:
            self.bank = Link(self.bank_port)
        talk.asked += exchange.request
        self.bank.send(exchange.request)
        exchange.reply = whole(lambda _: some(self.bank))
        talk.answered += exchange.reply

    def last(self):
        """What was said on the connections of one run since this was asked last; nothing where nothing was. A run has one,
        and makes another one only where the one before was ended. The connection of a customer that was killed may still wait
        to be taken in: all of them are over when this looks."""
        self.calls()
        talks, self.talks = [talk for talk in self.talks if talk.sent], []
        if self.wrong:
            raise self.wrong
        if not all(talk.ends for talk in talks[:-1]):
            raise Wrong("%d connections were made by one run, where none was ended" % len(talks))
        return functools.reduce(Talk.then, talks) if talks else Talk()

    def calls(self):
        """How many connections were made to it so far, all of which are over. It makes one itself, which is taken in
        after all others."""
        with socket.create_connection(("127.0.0.1", self.port), MAX_SECONDS) as own:
            own.shutdown(socket.SHUT_WR)
            try:
                own.recv(1)
            except TimeoutError:
                raise Wrong("a connection stays open") from None
        self.own += 1
        return self.links - self.own

    def stop(self):
        self.is_over = True
        self.join()
        self.door.close()


def says_close(reply):
    """Whether the head of a reply says that its connection ends after it."""
    head, end, _ = reply.partition(b"\r\n\r\n")
    options = b",".join(CONNECTION.findall(head + end)).lower().split(b",")
    return b"close" in [option.strip() for option in options]


def some(link):
    """What a link has next; nothing where it has ended."""
    link.socket.settimeout(MAX_SECONDS)
    link.take_in()
    come, link.come = link.come, b""
    return come


def whole(read):
    """The bytes of a request or a reply, or those that came before the other side ended."""
    data = b""
    while True:
        head, end, body = data.partition(b"\r\n\r\n")
        length = LENGTH.search(head + end)
        if end and len(body) >= int(length[1] if length else 0):
            return data
        more = read(PIECE)
        if not more:
            return data
        data += more
