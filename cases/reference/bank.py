"""The bank's state: the entries, the used pairs, the kept replies, and the business day; and the records of its events.

Beside the entries stand what they come to: the transfers and models as they stand, each account's lines, and the
entries of each object. So a run of a hundred thousand due events takes seconds.
"""
import heapq
from collections import defaultdict
from datetime import date, datetime
from typing import NamedTuple, Optional

from .requests import Account, Mail, Series, Terms

FIRST_DAY = date(1900, 1, 1)

WAITING, POSTED, NO_FUNDS = b"WILLPROCESSON", b"POSTEDON", b"NOFUNDSON"

# The TRNUID of what the bank does by itself.
NO_TRNUID = b"0"


class Asker(NamedTuple):
    """Who asks. In a synchronisation of an account's object only this account counts as the user's."""

    user: bytes
    only: Optional[Account] = None


class Object(NamedTuple):
    """What can be synchronised: the transfers, the models or the bank mail of an account, or a user's mail."""

    family: bytes  # INTRA, RECINTRA, BANKMAIL or MAIL
    owner: object  # an account, of MAIL a user


class Row(NamedTuple):
    """A transfer as it stands. Its stamp is its due day's midnight where it waits, otherwise the moment of the event
    that posted it or closed it without funds."""

    id: int  # the number of the entry that made it
    model: Optional[int]  # of the model that it comes from, where it comes from one
    terms: Terms  # with a due day
    code: bytes
    stamp: datetime


class Model(NamedTuple):
    """A model of transfers as it stands, whose terms' due day is the first day."""

    id: int  # the number of the entry that made it
    series: Series
    terms: Terms


class Letter(NamedTuple):
    """A mail between a user and the bank."""

    account: Optional[Account]  # which it is about, where it is about one
    user: bytes
    mail: Mail


class Change(NamedTuple):
    """What a deed has changed, or what the bank has by itself as such a deed would."""

    form: bytes  # of the deed: INTRARQ, RECINTRACANRQ, MAILRQ, ..
    id: Optional[int]  # of the transfer or model
    what: object  # the row, model or letter as it then stands; None for what is cancelled
    pending: Optional[bool] = None  # of a change or cancellation of a model


class Entry(NamedTuple):
    number: int  # over the whole bank, from 1
    trnuid: bytes
    change: Change


class Line(NamedTuple):
    """A posted transfer as one of its two accounts shows it."""

    stamp: datetime
    cents: int  # negative at the source
    number: int  # of the entry that posted it


class Bank:
    def __init__(self, setup):
        self.setup = setup
        self.count = 0  # of the entries
        self.entries = defaultdict(list)  # those of each object
        self.used = set()  # pairs of a user and a TRNUID
        self.kept = {}  # replies, by user and file uid
        self.day = FIRST_DAY
        self.records = []  # one for each event that has happened
        self.transfers = {}  # rows by id
        self.models = {}  # models by id
        self.made = {}  # by a model's id, how many transfers it made since it was made or changed
        self.cancelled = set()  # ids of transfers and models
        self.queue = []  # a heap with the due day and id of each transfer that waits, and of some that no longer do
        self.account_lines = {account: [] for account in setup.accounts}
        self.balances = {account: opening for account, (opening, _) in setup.accounts.items()}

    def begin_event(self, at):
        """The business day is the greatest day of any event's moment."""
        self.day = self.day_at(at)

    def day_at(self, at):
        """The business day of an event at this moment."""
        return max(self.day, at.date())

    def is_account(self, account):
        return account in self.setup.accounts

    def owns(self, asker, account):
        """Whether the account is the user's: the setup names the user as an owner, and no other account alone counts.
        An account is found by bank, number and kind together."""
        if asker.only not in (None, account):
            return False
        return self.is_account(account) and asker.user in self.setup.accounts[account][1]

    def next_number(self):
        return self.count + 1

    def has_room(self, count):
        """Whether the setup allows so many more entries."""
        return self.count + count <= self.setup.most_entries

    def put_transfer(self, trnuid, row):
        """Enters a transfer, new or as it stands from now on. The change."""
        form = b"INTRAMODRQ" if row.id in self.transfers else b"INTRARQ"
        entry = self.enter(Object(b"INTRA", row.terms.source), trnuid, Change(form, row.id, row))
        self.transfers[row.id] = row
        if row.code == WAITING:
            heapq.heappush(self.queue, (row.terms.due, row.id))
        if row.code == POSTED:
            self.book(row.terms.source, Line(row.stamp, -row.terms.cents, entry.number))
            self.book(row.terms.target, Line(row.stamp, row.terms.cents, entry.number))
        return entry.change

    def put_model(self, trnuid, model, pending=None):
        """Enters a model, new or as it stands from now on. It begins with its first day. The change."""
        form = b"RECINTRAMODRQ" if model.id in self.models else b"RECINTRARQ"
        self.models[model.id] = model
        self.made[model.id] = 0
        of = Object(b"RECINTRA", model.terms.source)
        return self.enter(of, trnuid, Change(form, model.id, model, pending)).change

    def cancel_transfer(self, trnuid, id):
        """Enters that this transfer is cancelled. The change."""
        self.cancelled.add(id)
        of = Object(b"INTRA", self.transfers[id].terms.source)
        return self.enter(of, trnuid, Change(b"INTRACANRQ", id, None)).change

    def cancel_model(self, trnuid, id, pending):
        """Enters that this model is cancelled. The change."""
        self.cancelled.add(id)
        of = Object(b"RECINTRA", self.models[id].terms.source)
        return self.enter(of, trnuid, Change(b"RECINTRACANRQ", id, None, pending)).change

    def put_letter(self, trnuid, letter):
        """Enters a mail between a user and the bank. The change."""
        if letter.account is None:
            return self.enter(Object(b"MAIL", letter.user), trnuid, Change(b"MAILRQ", None, letter)).change
        return self.enter(Object(b"BANKMAIL", letter.account), trnuid, Change(b"BANKMAILRQ", None, letter)).change

    def enter(self, of, trnuid, change):
        self.count += 1
        entry = Entry(self.count, trnuid, change)
        self.entries[of].append(entry)
        return entry

    def book(self, account, line):
        self.account_lines[account].append(line)
        self.balances[account] += line.cents

    def waits(self, id):
        return id in self.transfers and self.transfers[id].code == WAITING and id not in self.cancelled

    def waiting_of(self, model):
        """The transfers of a model that wait, in the order in which they were made."""
        return [row for id, row in sorted(self.transfers.items()) if row.model == model and self.waits(id)]

    def first_waiting(self):
        """The transfer with the least due day that waits, of one day that with the least id. None where none waits."""
        while self.queue:
            due, id = self.queue[0]
            if self.waits(id) and self.transfers[id].terms.due == due:
                return self.transfers[id]
            heapq.heappop(self.queue)
        return None

    def lines(self, account):
        """The posted transfers of an account, in the order of posting."""
        return self.account_lines[account]

    def balance(self, account):
        """The opening amount plus what was posted into the account minus what was posted out of it."""
        return self.balances[account]
