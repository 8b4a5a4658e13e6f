"""Reading a record: its event and moment, or its one fault, the first field from the left that has no form.

A field is a number, a flag, a text or uid with its length, or the byte that says which of several follows. One that is
cut has no form, and neither has one whose value is out of its bounds. Where several fields decide, it is the first
after which nothing could make the record one of an event any more: which deed or object may stand depends on what
stands before.
"""
from datetime import date, timedelta
from functools import lru_cache

from .events import File, Letter, Post, Spawn
from .header import Header, is_uid
from .records import ASKS, CHOICES, DEED, DEEDS, EPOCH, EVENTS, FAMILIES, FIRST_DAY, VERSION
from .requests import (
    FREQUENCIES, KINDS, MAIL_TEXTS, MAX_IN_A_BODY, MAX_IN_A_SUBJECT, Account, Mail, Mailing, Period, Recurring,
    Request, Series, Statement, Sync, Terms, Transfer,
)
from .tags import FORBIDDEN
from .text import trimmed

FILE_VERSIONS = (102, 103, 151, 160)
MAX_ID = 9999999999
MAX_CENTS = 9999999999999
MAX_IN_A_SERIES = 999
LEAST_DAY, MAX_DAY = (date(1900, 1, 1) - FIRST_DAY).days, (date.max - FIRST_DAY).days
LEAST_MOMENT, MAX_MOMENT = LEAST_DAY * 86400, MAX_DAY * 86400 + 86399

STATEMENT, SYNC = ASKS[Statement], ASKS[Sync]
OF_MAIL = (b"MAIL", b"MAILRQ")  # the family, and the form of a deed, that stand after the asks of the bank


class NoForm(Exception):
    """The place of the first field without a form, in bytes from the record's first."""

    def __init__(self, at):
        super().__init__(at)
        self.at = at


class Fields:
    """The fields of a record, taken from the left."""

    def __init__(self, record):
        self.record = record
        self.at = 0

    def number(self, size, allowed=None, signed=False):
        """A number, one of those that are allowed. Without them it is any."""
        value = int.from_bytes(self.record[self.at:self.at + size], "big", signed=signed)
        return self.taken(size, value, allowed is None or value in allowed)

    def taken(self, size, value, has_form):
        """The value of a field of this size, where it isn't cut and has a form."""
        if self.at + size > len(self.record) or not has_form:
            raise NoForm(self.at)
        self.at += size
        return value

    def sized(self, size, has_form):
        """The bytes after their length, a number of this size."""
        length = int.from_bytes(self.record[self.at:self.at + size], "big")
        value = self.record[self.at + size:self.at + size + length]
        return self.taken(size + length, value, has_form(value))

    def text(self, most):
        """A text of 1 byte up to the limit."""
        return self.sized(2, lambda value: 1 <= len(value) <= most and is_text(value))

    def file_uid(self):
        """The name of a file, or none."""
        return self.sized(1, lambda value: not value or is_name(value)) or None

    def trnuid(self):
        return self.sized(1, lambda value: 1 <= len(value) <= 36 and is_text(value) and value != b"0")

    def moment(self):
        seconds = self.number(8, range(LEAST_MOMENT, MAX_MOMENT + 1), signed=True)
        return EPOCH + timedelta(seconds=seconds)

    def day(self):
        return FIRST_DAY + timedelta(days=self.number(4, range(LEAST_DAY, MAX_DAY + 1), signed=True))

    def id(self):
        return self.number(8, range(MAX_ID + 1))

    def flag(self):
        return self.number(1, range(2)) == 1

    def one_of(self, names, first=0):
        """One of these names, which are numbered from the first on."""
        return names[self.number(1, range(first, first + len(names))) - first]

    def optional(self, read):
        return read() if self.flag() else None

    def account(self):
        return Account(self.text(32), self.text(32), self.one_of(KINDS))

    def terms(self):
        source, target = self.account(), self.account()
        cents = self.number(8, range(-MAX_CENTS, MAX_CENTS + 1), signed=True)
        return Terms(source, target, cents, self.optional(self.day))

    def series(self):
        count = self.optional(lambda: self.number(2, range(1, MAX_IN_A_SERIES + 1)))
        return Series(count, self.one_of(FREQUENCIES))

    def mail(self):
        return Mail(self.moment(), *(self.text(most) for _, most in MAIL_TEXTS))

    def period(self):
        return Period(self.optional(self.moment), self.optional(self.moment), self.flag())


def is_name(value):
    return is_uid(value) and trimmed(value) == value and value != b"NONE"


def is_text(value):
    return trimmed(value) == value and not FORBIDDEN.search(value)


@lru_cache(maxsize=4096)
def read_record(record):
    """The event that a record codes, and its moment."""
    fields = Fields(record)
    fields.number(1, (VERSION,))
    kind = fields.one_of(EVENTS, 1)
    at = fields.moment()
    event = READERS[kind](fields)
    if fields.at < len(record):
        raise NoForm(fields.at)
    return event, at


def file(fields):
    return File(fields.number(4), request(fields))


def request(fields):
    """A request has no name and no password."""
    version, older, newer = fields.number(2, FILE_VERSIONS), fields.file_uid(), fields.file_uid()
    asks, count = [], fields.number(2)
    while len(asks) < count:
        asks.append(ask(fields, bool(asks) and is_of_mail(asks[-1])))
    return Request(Header(b"%d" % version, older, newer, (), 0), b"", b"", tuple(asks))


def is_of_mail(ask):
    return (ask.family if isinstance(ask, Sync) else getattr(ask, "form", None)) in OF_MAIL


def ask(fields, behind_mail):
    """An ask. After one of mail only asks of mail may stand."""
    kind = fields.number(1, (DEED, SYNC) if behind_mail else (STATEMENT, DEED, SYNC))
    if kind == SYNC:
        return sync(fields, behind_mail)
    if kind == DEED:
        return deed(fields, OF_MAIL if behind_mail else DEEDS)
    return Statement(fields.trnuid(), fields.account(), fields.optional(fields.period))


def deed(fields, forms):
    """A deed of one of these forms."""
    trnuid = fields.trnuid()
    form = DEEDS[fields.number(1, [DEEDS.index(one) + 1 for one in DEEDS if one in forms]) - 1]
    if form in (b"BANKMAILRQ", b"MAILRQ"):
        return Mailing(trnuid, form, fields.account() if form == b"BANKMAILRQ" else None, fields.mail())
    is_new, cancels, recurs = form.endswith(b"INTRARQ"), form.endswith(b"CANRQ"), form.startswith(b"REC")
    id = None if is_new else fields.id()
    series = fields.series() if recurs and not cancels else None
    terms = None if cancels else fields.terms()
    if not recurs:
        return Transfer(trnuid, form, id, terms)
    return Recurring(trnuid, form, id, series, terms, None if is_new else fields.flag())


def sync(fields, behind_mail):
    """A synchronisation. Only deeds of its family may be embedded."""
    allowed = [FAMILIES.index(one) for one in FAMILIES if one in OF_MAIL or not behind_mail]
    family = FAMILIES[fields.number(1, allowed)]
    account = None if family == b"MAIL" else fields.account()
    choice = fields.one_of(CHOICES)
    token = fields.text(64) if choice == b"TOKEN" else None
    strict, count = fields.flag(), fields.number(2)
    forms = (family + b"RQ", family + b"MODRQ", family + b"CANRQ")
    return Sync(family, account, choice, token, strict, tuple(deed(fields, forms) for _ in range(count)))


def letter(fields):
    return Letter(fields.number(4), fields.text(MAX_IN_A_SUBJECT), fields.text(MAX_IN_A_BODY))


READERS = {
    File: file, Post: lambda fields: Post(fields.id()), Spawn: lambda fields: Spawn(fields.id(), fields.number(4)),
    Letter: letter,
}
