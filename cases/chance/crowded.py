"""Banks with ten accounts of eight customers at random, and the files that these customers send at once."""
import re
from datetime import timedelta

from reference.answer import now
from written.asks import asked
from written.pieces import HEADER

CUSTOMERS = 8
ACCOUNTS = 10
KINDS = ("CHECKING", "SAVINGS", "MONEYMRKT")
OPENINGS = (0, 500, 10000, 1000000)
WINDOWS = (3, 8, 10000)
MOST_ENTRIES = (9999999999, 9999999999, 9999999999, 150)
FAMILIES = ("intra", "recintra", "bankmail")
ASKS = (("transfer",) * 8 + ("statement",) * 4 + ("sync",) * 4 + ("cancel", "change", "repeat", "repeat", "stop", "rewrite")
        + ("mail", "write"))
POLLS, NAMED, AGAIN = 0.35, 0.6, 0.03  # parts of the exchanges, of the files, and of the TRNUIDs
MOST_ASKS = 3
IDS = re.compile(rb"<(SRVRTID|RECSRVRTID)>([0-9]+)\r\n")


class Town:
    """A bank's setup, with who owns which account."""

    def __init__(self, r):
        self.accounts = ["%d/%s" % (2000 + i, r.choice(KINDS)) for i in range(ACCOUNTS)]
        owners = [r.sample(range(CUSTOMERS), r.randint(1, 3)) for _ in self.accounts]
        self.owned = [[a for a, some in zip(self.accounts, owners) if c in some] for c in range(CUSTOMERS)]
        lines = ["OFXBANK 1", "BANK 121099999", "LEAD 5", "WINDOW %d" % r.choice(WINDOWS),
                 "ENTRIES %d" % r.choice(MOST_ENTRIES)]
        lines += ["USER u%d p%d" % (c, c) for c in range(CUSTOMERS)]
        for account, some in zip(self.accounts, owners):
            names = " ".join("u%d" % c for c in sorted(some))
            lines.append("ACCT %s %d %s" % (account.replace("/", " "), r.choice(OPENINGS), names))
        self.setup = "".join(line + "\n" for line in lines).encode()


class Asker:
    """What one customer asks, by chance and by what it was answered."""

    def __init__(self, town, customer, r):
        self.town, self.customer, self.r = town, customer, r
        self.files = 0
        self.trnuids = []
        self.ids = {b"SRVRTID": [], b"RECSRVRTID": []}
        self.accepted = None  # the name of the last file whose reply came

    def exchange(self):
        """A file, its name where it has one, and whether it is a poll."""
        if self.r.random() < POLLS:
            return self.poll(), None, True
        return (*self.file(), False)

    def poll(self):
        """It asks for the tokens of some objects, in any order, of which some may be another customer's."""
        objects = ["sync %s %s only" % (family, account) for family in FAMILIES for account in self.town.accounts]
        return self.asked(self.r.sample(objects, self.r.randint(1, len(objects))) + ["sync mail only"])

    def file(self):
        self.files += 1
        name = "f%d-%d" % (self.customer, self.files) if self.r.random() < NAMED else None
        asks = [self.ask() for _ in range(self.r.randint(1, MOST_ASKS))]
        return self.asked(asks, **({"new": name, "old": self.accepted} if name else {})), name

    def asked(self, asks, **names):
        return asked(HEADER, {"user": "u%d p%d" % (self.customer, self.customer), "asks": asks, **names})

    def take(self, name, reply):
        """The reply to the file of this name."""
        self.accepted = name or self.accepted
        for tag, id in IDS.findall(reply):
            self.ids[tag].append(id.decode())

    def ask(self):
        kind = self.r.choice(ASKS)
        return self.synchronisation() if kind == "sync" else self.deed(kind)

    def synchronisation(self):
        """One of an object, now and then with a deed in it."""
        choice = self.r.choice(("refresh", "0", "0", str(self.r.randrange(60)), "only"))
        if self.r.random() < 0.2:
            return "sync mail " + choice
        family, account = self.r.choice(FAMILIES), self.mine()
        one = "sync %s %s %s" % (family, account, choice)
        if family != "intra" or self.r.random() < 0.5:
            return one
        return [one, "transfer %s %s %s %s" % (self.trnuid(), account, self.other(), self.amount())]

    def deed(self, kind):
        t = self.trnuid()
        if kind == "statement":
            return "statement %s %s" % (t, self.mine())
        if kind == "transfer":
            return "transfer %s %s %s %s%s" % (t, self.mine(), self.other(), self.amount(), self.due())
        if kind == "cancel":
            return "cancel %s %s" % (t, self.id(b"SRVRTID"))
        if kind == "change":
            return "change %s %s %s %s %s %s" % (
                t, self.id(b"SRVRTID"), self.mine(), self.other(), self.amount(), self.soon())
        if kind == "repeat":
            return "repeat %s WEEKLY*%d %s %s %s %s" % (
                t, self.r.randint(1, 3), self.mine(), self.other(), self.amount(), self.soon())
        if kind == "rewrite":
            return "rewrite %s %s Y WEEKLY*2 %s %s %s %s" % (
                t, self.id(b"RECSRVRTID"), self.mine(), self.other(), self.amount(), self.soon())
        if kind == "stop":
            return "stop %s %s Y" % (t, self.id(b"RECSRVRTID"))
        return "mail %s" % t if kind == "mail" else "write %s %s" % (t, self.mine())

    def trnuid(self):
        """A new one; now and then one that was used."""
        if self.trnuids and self.r.random() < AGAIN:
            return self.r.choice(self.trnuids)
        self.trnuids.append("x%d-%d" % (self.customer, len(self.trnuids) + 1))
        return self.trnuids[-1]

    def mine(self):
        """An account, mostly one of the customer's."""
        owned = self.town.owned[self.customer]
        return self.r.choice(owned) if owned and self.r.random() < 0.93 else self.other()

    def other(self):
        return self.r.choice(self.town.accounts)

    def amount(self):
        return "%d.%02d" % (self.r.choice((0, 0, 1, 7, 90)), self.r.randrange(1, 100))

    def due(self):
        return " " + self.soon() if self.r.random() < 0.3 else ""

    def soon(self):
        return (now() + timedelta(days=self.r.randint(0, 6))).strftime("%Y%m%d")

    def id(self, of):
        """Of a transfer or model that the customer was told of, if there is one."""
        return self.r.choice(self.ids[of]) if self.ids[of] and self.r.random() < 0.9 else str(self.r.randint(1, 80))
