"""Customers in threads of their own, each of whom sends files to a served bank, drops connections before their replies, and
sends again what wasn't answered."""
import random
import re
import threading
import time

from chance.crowded import Asker
from parallel.history import Exchange
from reference.answer import now
from served.link import Link
from served.requests import request
from served.server import Wrong

MOST_SECONDS = 60  # of all customers
MOST_ON_A_LINK = 6  # exchanges
DROPPED, GIVEN_UP = 0.06, 0.3  # parts of the exchanges, and of the files that weren't answered
PAUSE = 0.005  # seconds before a new try to connect
LOOK = 0.002
LENGTH = re.compile(rb"\r\nContent-Length: ([0-9]+)\r\n")
GOOD = b"HTTP/1.1 200 OK\r\n"


class Crowd:
    """The customers of a town. They go to the server of the last `move`, or wait where that has ended."""

    def __init__(self, town, seed, count):
        self.lock, self.exchanges, self.answered = threading.Lock(), [], 0
        self.port, self.run, self.wrong, self.is_over = None, 0, None, False
        self.ends = {}  # by a server's number when it had ended
        self.customers = [Customer(self, Asker(town, c, random.Random("%s/%d" % (seed, c))), count)
                          for c in range(len(town.owned))]
        self.threads = [threading.Thread(target=one.live, daemon=True) for one in self.customers]

    def start(self):
        self.end = time.monotonic() + MOST_SECONDS
        for one in self.threads:
            one.start()

    def move(self, port):
        """A server listens at this port."""
        self.run += 1
        self.port = port

    def ended(self):
        """The last server has ended."""
        self.port = None
        self.ends[self.run] = time.monotonic(), now()

    def wait_for(self, count):
        """Waits until so many exchanges were answered, or all customers have done."""
        while self.answered < count and any(one.is_alive() for one in self.threads):
            self.look()
            time.sleep(LOOK)

    def finish(self):
        while any(one.is_alive() for one in self.threads):
            self.look()
            time.sleep(LOOK)
        self.look()

    def look(self):
        if self.wrong:
            raise Wrong(self.wrong)
        if time.monotonic() > self.end:
            raise Wrong("the customers wait for longer than %d seconds" % MOST_SECONDS)

    def stop(self):
        self.is_over = True

    def put(self, run, exchange):
        with self.lock:
            self.exchanges.append((run, exchange))
            self.answered += exchange.reply is not None

    def done(self):
        """All exchanges in the order in which they were sent, those without a reply with the end of their server."""
        found = [one if one.reply is not None else one._replace(got=self.ends[run][0], ended=self.ends[run][1])
                 for run, one in self.exchanges]
        return sorted(found, key=lambda one: one.sent)


class Customer:
    def __init__(self, crowd, asker, count):
        self.crowd, self.asker, self.r, self.left = crowd, asker, asker.r, count
        self.open = None  # a file with its name that wasn't answered

    def live(self):
        """Sends so many files, on one connection after another."""
        while (self.left or self.open) and not self.crowd.is_over:
            run, port = self.crowd.run, self.crowd.port
            try:
                if port is None:
                    raise OSError("no server")
                with Link(port) as link:
                    self.talk(run, link)
            except OSError:
                time.sleep(PAUSE)
            except Wrong as wrong:
                self.crowd.wrong = str(wrong)
                return

    def talk(self, run, link):
        for _ in range(self.r.randint(1, MOST_ON_A_LINK)):
            if not self.left and not self.open:
                return
            file, name, is_poll = self.next()
            reply = self.exchange(run, link, file)
            if reply is None:
                self.open = None if is_poll or self.r.random() < GIVEN_UP else (file, name, False)
                return
            self.asker.take(name, reply)

    def next(self):
        """What is to be sent: a file that wasn't answered comes first."""
        if self.open:
            again, self.open = self.open, None
            return again
        self.left -= 1
        return self.asker.exchange()

    def exchange(self, run, link, file):
        """The reply to a file, None where none comes whole."""
        sent, began = time.monotonic(), now()
        link.send(request(file))
        reply = None
        if self.r.random() < DROPPED:
            (link.reset if self.r.random() < 0.5 else link.end)()
        else:
            reply = self.reply(link)
        self.crowd.put(run, Exchange(self.asker.customer, file, sent, time.monotonic(), began, now(), reply))
        return reply

    def reply(self, link):
        head = b""
        while not head.endswith(b"\r\n\r\n"):
            some = link.read(1)
            if not some:
                return None
            head += some
        if not head.startswith(GOOD):
            raise Wrong("a customer got %r" % head)
        size = int(LENGTH.search(head)[1])
        body = link.read(size)
        return body if len(body) == size else None
