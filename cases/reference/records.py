"""Kept records: the one coding of an event and its moment, in version 1.

A record is the version, the kind of the event, its moment, and what it needs, in fields from the left; nothing follows
the last one. Numbers are big-endian. A text has its length in two bytes in front, a uid in one, where 0 is no uid. What
may be absent is 0, or 1 and what it is; a list is its number of items in two bytes, and the items. Of the user of a
file only the number is kept.
"""
from datetime import date, datetime, timedelta

from .events import File, Letter, Post, Spawn
from .requests import FREQUENCIES, KINDS, Mailing, Recurring, Statement, Sync

VERSION = 1
EVENTS = (File, Post, Spawn, Letter)  # their kinds are 1 to 4
ASKS = {Statement: 1, Sync: 3}  # all others are deeds
DEED = 2
# The kinds of deeds are 1 to 8, those of objects 0 to 3, and those of choices 0 to 2.
DEEDS = (
    b"INTRARQ", b"INTRAMODRQ", b"INTRACANRQ", b"RECINTRARQ", b"RECINTRAMODRQ", b"RECINTRACANRQ", b"BANKMAILRQ",
    b"MAILRQ",
)
FAMILIES = (b"INTRA", b"RECINTRA", b"BANKMAIL", b"MAIL")
CHOICES = (b"TOKEN", b"TOKENONLY", b"REFRESH")

FIRST_DAY, EPOCH = date(1970, 1, 1), datetime(1970, 1, 1)


def record_of(event, at):
    kind = EVENTS.index(type(event)) + 1
    return number(1, VERSION) + number(1, kind) + moment(at) + WRITERS[kind - 1](event)


def number(size, value):
    return value.to_bytes(size, "big")


def signed(size, value):
    return value.to_bytes(size, "big", signed=True)


def moment(at):
    """Its seconds since 1 January 1970."""
    return signed(8, (at - EPOCH) // timedelta(seconds=1))


def day(due):
    """Its days since 1 January 1970."""
    return signed(4, (due - FIRST_DAY).days)


def flag(value):
    return number(1, 1 if value else 0)


def text(value):
    return number(2, len(value)) + value


def uid(value):
    return number(1, len(value or b"")) + (value or b"")


def optional(write, value):
    return b"\x00" if value is None else b"\x01" + write(value)


def listed(write, items):
    return number(2, len(items)) + b"".join(write(item) for item in items)


def account(name):
    return text(name.bank) + text(name.number) + number(1, KINDS.index(name.kind))


def terms(what):
    return account(what.source) + account(what.target) + signed(8, what.cents) + optional(day, what.due)


def series(often):
    count = optional(lambda most: number(2, most), often.count)
    return count + number(1, FREQUENCIES.index(often.frequency))


def mail(what):
    return moment(what.created) + text(what.sender) + text(what.target) + text(what.subject) + text(what.body)


def deed(what):
    """Its TRNUID, its kind, and what it has: an id, a series, terms, and whether it is about what waits; or of a mail
    the account and the mail."""
    parts = uid(what.trnuid) + number(1, DEEDS.index(what.form) + 1)
    if isinstance(what, Mailing):
        return parts + (b"" if what.account is None else account(what.account)) + mail(what.mail)
    parts += b"" if what.id is None else number(8, what.id)
    if isinstance(what, Recurring):
        parts += b"" if what.series is None else series(what.series)
    parts += b"" if what.terms is None else terms(what.terms)
    if isinstance(what, Recurring):
        parts += b"" if what.pending is None else flag(what.pending)
    return parts


def period(what):
    return optional(moment, what.start) + optional(moment, what.end) + flag(what.listed)


def statement(ask):
    return uid(ask.trnuid) + account(ask.account) + optional(period, ask.period)


def sync(ask):
    what = number(1, FAMILIES.index(ask.family)) + (b"" if ask.account is None else account(ask.account))
    what += number(1, CHOICES.index(ask.choice)) + (b"" if ask.token is None else text(ask.token))
    return what + flag(ask.strict) + listed(deed, ask.deeds)


def any_ask(ask):
    write = {Statement: statement, Sync: sync}.get(type(ask), deed)
    return number(1, ASKS.get(type(ask), DEED)) + write(ask)


def file(event):
    return number(4, event.user) + request(event.request)


def request(what):
    header = what.header
    names = uid(header.older) + uid(header.newer)
    return number(2, int(header.version)) + names + listed(any_ask, what.asks)


WRITERS = (
    file,
    lambda event: number(8, event.id),
    lambda event: number(8, event.model) + number(4, event.place),
    lambda event: number(4, event.user) + text(event.subject) + text(event.body),
)
