"""A customer's client: what it keeps, the files that it makes, and what their replies make of it."""
from datetime import datetime
from typing import NamedTuple, Optional

from .answers import Done, Synced, Told
from .bank import Letter, Model, Object, Row
from .client_lines import balance_line, done_line, store_line
from .header import Header
from .requests import (
    Account, Mail, Mailing, Period, Recurring, Request, Statement, Sync, Transfer, read_id,
)

VERSION = b"160"
MAX_NEXT = 9999999999  # the number at which no further file has a name
TO_THE_BANK = b"BANK"


class Refused(Exception):
    """Why a reply isn't taken, or no file is made, as a status and the first line that tells it."""

    def __init__(self, status, note):
        super().__init__(status, note)
        self.status, self.note = status, note


class Wish(NamedTuple):
    """What a command asks for. Which parts it has depends on the command."""

    command: bytes
    account: Optional[Account] = None  # that a command is about; of a change the new destination
    id: Optional[int] = None
    terms: object = None  # of a transfer; of a change its cents and its day
    series: object = None
    subject: Optional[bytes] = None
    body: Optional[bytes] = None


class Outstanding(NamedTuple):
    """The file that waits for its reply."""

    at: datetime  # the moment at which it was made
    request: Request


class Store:
    """What a client keeps of an object. A store of mail has no user in its object: it is the client's."""

    def __init__(self, of, token=0, lost=False, rows=()):
        self.of, self.token, self.lost, self.rows = of, token, lost, list(rows)

    def take(self, choice, synced):
        """Takes the reply to a synchronisation in. One that has lost its place changes nothing but the mark."""
        if choice == b"TOKENONLY":
            return
        self.lost = synced.lost
        if self.lost:
            return
        rows = [] if choice == b"REFRESH" else self.rows
        for done in synced.replies:
            if done.code == 0:
                rows = changed(rows, done.change)
        self.rows, self.token = rows, read_id(synced.token)

    def row(self, id, kind):
        """The row of this id and kind. None where there is none."""
        return next((row for row in self.rows if isinstance(row, kind) and row.id == id), None)


def changed(rows, change):
    """The rows after a change. What is new or changed takes the place of its id, and a changed transfer keeps the
    model of the row that is there; what is cancelled goes; a mail comes last."""
    if isinstance(change.what, Letter):
        return rows + [change.what]
    others = [row for row in rows if row.id != change.id]
    if change.what is None:
        return others
    new = change.what
    if change.form == b"INTRAMODRQ":
        new = new._replace(model=next((row.model for row in rows if row.id == change.id), None))
    return sorted(others + [new], key=lambda row: row.id)


class Client:
    """A new client of this name for a user, as every other begins."""

    def __init__(self, name, user):
        self.name, self.user = name, user
        self.next = 1
        self.done = None  # the name of the last file whose reply was taken
        self.outstanding = None
        self.stores = []

    def store(self, of):
        return next((store for store in self.stores if store.of == of), None)

    def store_made(self, of):
        """The store of an object, which is made where it isn't there."""
        if self.store(of) is None:
            self.stores.append(Store(of))
        return self.store(of)

    def make(self, wish, at):
        """Makes the file of a wish, which is outstanding from here on."""
        name = b"%s-%d" % (self.name, self.next)
        asks = self.asks(wish, name, at)
        self.next += 1
        self.outstanding = Outstanding(at, Request(Header(VERSION, self.done, name, (), 0), self.user, b"", asks))

    def asks(self, wish, name, at):
        if wish.command == b"sync":
            of_account = tuple(self.sync(family, wish.account) for family in (b"INTRA", b"RECINTRA", b"BANKMAIL"))
            statement = Statement(name + b"-0", wish.account, Period(None, None, True))
            return statement, *of_account, self.sync(b"MAIL", None)
        return self.sync(*self.deed(wish, name + b"-1", at)),

    def deed(self, wish, trnuid, at):
        """The family, the account and the deed of a wish. A change and a cancellation are about the account that pays
        by the first row of this id."""
        if wish.command == b"transfer":
            return b"INTRA", wish.terms.source, (Transfer(trnuid, b"INTRARQ", None, wish.terms),)
        if wish.command == b"repeat":
            return b"RECINTRA", wish.terms.source, (
                Recurring(trnuid, b"RECINTRARQ", None, wish.series, wish.terms, None),)
        if wish.command == b"mail":
            mail = Mail(at, self.user, TO_THE_BANK, wish.subject, wish.body)
            return b"MAIL", None, (Mailing(trnuid, b"MAILRQ", None, mail),)
        if wish.command == b"stop":
            row = self.row(wish.id, Model)
            return b"RECINTRA", row.terms.source, (Recurring(trnuid, b"RECINTRACANRQ", wish.id, None, None, True),)
        source = self.row(wish.id, Row).terms.source
        if wish.command == b"cancel":
            return b"INTRA", source, (Transfer(trnuid, b"INTRACANRQ", wish.id, None),)
        return b"INTRA", source, (Transfer(trnuid, b"INTRAMODRQ", wish.id, wish.terms._replace(source=source)),)

    def row(self, id, kind):
        for store in self.stores:
            row = store.row(id, kind)
            if row is not None:
                return row
        raise Refused(18, "no row %d" % id)

    def sync(self, family, account, deeds=()):
        store = self.store_made(Object(family, account))
        if store.lost:
            return Sync(family, account, b"REFRESH", None, False, deeds)
        return Sync(family, account, b"TOKEN", b"%d" % store.token, False, deeds)

    def take(self, reply):
        """Takes the reply to the outstanding file in. The lines that tell of it."""
        asks = self.outstanding.request.asks
        if reply.header.newer != self.outstanding.request.header.newer:
            raise Refused(13, "not mine")
        judge(asks, reply)
        printed = []
        for ask, answer in zip(asks, reply.answers):
            if isinstance(ask, Statement):
                printed.append(balance_line(ask.account, answer))
            if isinstance(ask, Sync):
                store = self.store_made(Object(ask.family, ask.account))
                store.take(ask.choice, answer)
                printed += [done_line(done) for done in embedded(ask, answer)]
                printed.append(store_line(store))
        self.outstanding, self.done = None, self.outstanding.request.header.newer
        return printed


def polled(account):
    """The file of a poll, which has no name."""
    families = b"INTRA", b"RECINTRA", b"BANKMAIL"
    asks = tuple(Sync(family, account, b"TOKENONLY", None, False, ()) for family in families)
    return Header(VERSION, None, None, (), 0), asks


def embedded(ask, answer):
    """The answers to the embedded deeds, which stand last."""
    return answer.replies[len(answer.replies) - len(ask.deeds):]


def judge(asks, reply):
    """Judges that the signon was taken, and that each answer is one to its ask."""
    if reply.code:
        raise Refused(14, "signon %d" % reply.code)
    for number in range(max(len(asks), len(reply.answers))):
        if number >= min(len(asks), len(reply.answers)) or not answers(asks[number], reply.answers[number]):
            raise Refused(12, "bad reply %d" % (number + 1))


def answers(ask, answer):
    """Whether it answers the ask: one of its kind and TRNUID, a deed's family or a synchronisation's object, a token of
    1 to 10 digits, and as the last answers within those to the embedded deeds."""
    if isinstance(ask, Statement):
        return isinstance(answer, Told) and answer.trnuid == ask.trnuid
    if not isinstance(ask, Sync):
        family = ask.form[:-2].removesuffix(b"MOD").removesuffix(b"CAN")
        return isinstance(answer, Done) and (answer.family, answer.trnuid) == (family, ask.trnuid)
    return (isinstance(answer, Synced) and (answer.family, answer.account) == (ask.family, ask.account)
            and read_id(answer.token) is not None and len(answer.replies) >= len(ask.deeds)
            and [done.trnuid for done in embedded(ask, answer)] == [deed.trnuid for deed in ask.deeds])
