"""A client's stream of transfers, which it sends until each file is answered, and what it is told of its accounts.

The client sends a file again with the same bytes. Some files have a name, and tell the name of the last one that was
answered; some have none.
"""
import re
from datetime import timedelta
from typing import NamedTuple, Optional

from written.asks import asked
from written.frames import DUE, frame
from written.pieces import HEADER

USERS = {"alice": "alice secret", "bob": "bob hunter"}
ACCOUNTS = (b"1001", b"1002")
OPENINGS = {b"1001": 10000, b"1002": 5000}
NO_TRNUID = b"0"  # of what the bank does by itself

TOLD = re.compile(
    rb"<INTRATRNRS>\r\n<TRNUID>([^\r]*)\r\n<STATUS>\r\n<CODE>([0-9]+)\r\n(.*?)</INTRATRNRS>\r\n", re.DOTALL)
TERMS = re.compile(rb"<ACCTID>([0-9]+)\r\n.*<ACCTID>([0-9]+)\r\n.*<TRNAMT>([0-9]+)\.([0-9]{2})\r\n", re.DOTALL)
TOKEN = re.compile(rb"<TOKEN>([0-9]+)\r\n<LOSTSYNC>N\r\n")
BALANCE = re.compile(rb"<LEDGERBAL>\r\n<BALAMT>([0-9]+)\.([0-9]{2})\r\n")


class Sent(NamedTuple):
    """A frame; of a file its user, and its name where it has one."""

    frame: bytes
    user: Optional[str] = None
    name: Optional[str] = None


class Wrong(Exception):
    """What is wrong with what the client was told, in words."""


class Client:
    def __init__(self, r):
        self.r = r
        self.files = self.models = 0
        self.asked = []  # the TRNUIDs of all transfers
        self.open = []  # what isn't answered, in the order in which it was first sent
        self.answered = dict.fromkeys(USERS)  # of each user the last name that was answered
        self.tokens = dict.fromkeys(ACCOUNTS, 0)
        self.told = set()  # the TRNUIDs in what the client was told of its accounts
        self.balances = dict(OPENINGS)

    def send(self, count, day):
        """Adds so many frames to those that aren't answered. This is the business day."""
        self.open += [Sent(DUE) if self.r.random() < 0.1 else self.file(day) for _ in range(count)]

    def frames(self, most_bytes):
        """The frames that aren't answered, as many as have so many bytes."""
        frames = [sent.frame for sent in self.open]
        while sum(map(len, frames)) > most_bytes:
            frames.pop()
        return frames

    def file(self, day):
        """A file with some transfers. One that has a name releases the last one."""
        r = self.r
        self.files += 1
        user, name = r.choice(("alice", "alice", "bob")), "f%d" % self.files if r.random() < 0.6 else None
        asks = [self.transfer(user, day) for _ in range(r.choice((1, 1, 1, 2, 5)))]
        names = {"new": name, "old": self.answered[user]} if name else {}
        return Sent(frame(asked(HEADER, {"user": USERS[user], "asks": asks, **names})), user, name)

    def transfer(self, user, day):
        """A transfer of a few cents. One in four waits for a day soon; now and then one is a recurring transfer."""
        r = self.r
        ends = "1001 1002" if user == "alice" and r.random() < 0.7 else "1002 1001"
        cents, soon = r.randrange(1, 10), (day + timedelta(days=r.randrange(1, 4))).strftime("%Y%m%d")
        if r.random() < 0.02:
            self.models += 1
            return "repeat r%d WEEKLY*3 %s 0.%02d %s" % (self.models, ends, cents, soon)
        self.asked.append("x%d" % (len(self.asked) + 1))
        return "transfer %s %s 0.%02d%s" % (self.asked[-1], ends, cents, " " + soon if r.random() < 0.25 else "")

    def take(self, answer):
        """Takes the answer to the first frame that isn't answered."""
        one = self.open.pop(0)
        if one.name:
            self.answered[one.user] = one.name
        if {code for _, code, _ in TOLD.findall(answer)} - {b"0", b"2019"}:
            raise Wrong("a transfer was refused by another code than 2019: %r" % answer)

    def question(self):
        """A file that asks for the balances of the accounts, and for what is new to the client of their transfers."""
        asks = ["statement s%s %s 99991231" % (one.decode(), one.decode()) for one in ACCOUNTS]
        asks += ["sync intra %s %d" % (one.decode(), self.tokens[one]) for one in ACCOUNTS]
        return frame(asked(HEADER, {"asks": asks}))

    def learn(self, answer):
        """Takes the answer to its question. No TRNUID stands in it twice or stood in it before, and each balance is the
        opening with what was posted."""
        for trnuid, _, change in TOLD.findall(answer):
            if trnuid != NO_TRNUID:
                if trnuid in self.told:
                    raise Wrong("%s ran twice" % trnuid.decode())
                self.told.add(trnuid)
            if b"<XFERPRCCODE>POSTEDON\r\n" in change:
                source, target, dollars, cents = TERMS.search(change).groups()
                self.balances[source] -= int(dollars + cents)
                self.balances[target] += int(dollars + cents)
        balances = {one: int(b"".join(found)) for one, found in zip(ACCOUNTS, BALANCE.findall(answer))}
        if balances != self.balances:
            raise Wrong("the balances are %r, and by what was told %r" % (balances, self.balances))
        if sum(balances.values()) != sum(OPENINGS.values()):
            raise Wrong("the balances together aren't the openings")
        self.tokens = {one: int(token) for one, token in zip(ACCOUNTS, TOKEN.findall(answer))}
        if len(self.tokens) != len(ACCOUNTS):
            raise Wrong("a token has lost its place")

    def judge_last(self):
        """Judges that all was done, where all is answered and the question was asked after that."""
        left = set(map(str.encode, self.asked)) - self.told
        if left:
            raise Wrong("%d transfers never ran, as %s" % (len(left), min(left).decode()))
