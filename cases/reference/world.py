"""A bank, its clients, and a network that loses, repeats and reorders files; appends that fail, and both halves starting
anew."""
from datetime import datetime
from typing import NamedTuple

from .answer import number_of
from .answers import read_reply
from .asked import written_request
from .client import Refused
from .client_text import client_in, text_of
from .events import File
from .happening import happen, next_due, opened
from .requests import read_request

BEGINNING = datetime(2024, 1, 1)


class Pending(NamedTuple):
    """An event whose append failed. It has happened where its record stands."""

    event: object
    at: datetime
    stands: bool


class World:
    """Its clients begin as those that act in it, each with its saved text."""

    def __init__(self, setup, acting):
        self.setup = setup
        self.bank = opened(setup, [])
        self.pending = None
        self.fault = None  # whether the record of the next append, which fails, will stand
        self.clients = list(acting)
        self.saved = [text_of(client) for client in acting]
        self.requests = []
        self.replies = []
        self.now = BEGINNING

    # ---- the server

    def settle(self):
        """What is pending has happened at its moment, or never will."""
        pending, self.pending = self.pending, None
        if pending is not None and pending.stands:
            happen(self.bank, pending.event, pending.at)

    def commit(self, event):
        """The event happens. The reply where it is a file; None too where its append fails."""
        stands, self.fault = self.fault, None
        if stands is None:
            return happen(self.bank, event, self.now)
        self.pending = Pending(event, self.now, stands)
        return None

    def deliver(self, number):
        self.settle()
        request = read_request(self.requests[number])
        assert self.setup.users[request.user] == request.password
        reply = self.commit(File(number_of(self.bank, request.user), request))
        if reply is not None:
            self.replies.append(reply)

    def due(self):
        self.settle()
        event = next_due(self.bank, self.now)
        if event is not None:
            self.commit(event)

    def restart(self):
        self.settle()
        self.bank = opened(self.setup, self.bank.records)

    # ---- the clients

    def save(self, number):
        self.saved[number] = text_of(self.clients[number])

    def send(self, number):
        """The outstanding file, where there is one, is on its way. It is written as it was made."""
        client = self.clients[number]
        if client.outstanding is not None:
            file = client.outstanding
            self.requests.append(written_request(file.request, self.setup.users[client.user], file.at))

    def make(self, number, wish):
        self.clients[number].make(wish, self.now)
        self.save(number)
        self.send(number)

    def deliver_reply(self, number, reply):
        """A client that refuses a reply stays as it is."""
        client = self.clients[number]
        if client.outstanding is None:
            return
        try:
            client.take(read_reply(self.replies[reply]))
        except Refused:
            return
        self.save(number)

    def restart_client(self, number):
        self.clients[number] = client_in(self.saved[number])
