"""The one text in which a client is kept, in version 1, and its one fault.

Numbers, texts, names, asks and mails are coded as in records (records.py). Nothing follows the last store. A store
whose object has one already, and a row that isn't of its store's kind or whose id doesn't rise, are faults at their
first byte.
"""
import re

from . import records
from .bank import NO_FUNDS, POSTED, WAITING, Letter, Model, Object, Row
from .client import Client, Outstanding, Store
from .recorded import MAX_CENTS, Fields, NoForm, request
from .records import FAMILIES, flag, moment, number, optional, signed, text, uid
from .requests import Terms

VERSION = 1
NAME = re.compile(rb"[A-Za-z0-9]{1,12}")
CODES = (WAITING, POSTED, NO_FUNDS, b"CANCELEDON")
TRANSFER, MODEL, LETTER = 1, 2, 3
KINDS = {b"INTRA": TRANSFER, b"RECINTRA": MODEL, b"BANKMAIL": LETTER, b"MAIL": LETTER}  # of the rows of a store


def text_of(client):
    """The user and the password of the outstanding file aren't written."""
    return (number(1, VERSION) + text(client.name) + text(client.user) + number(8, client.next) + uid(client.done)
            + optional(outstanding, client.outstanding) + number(8, len(client.stores))
            + b"".join(map(store, client.stores)))


def outstanding(file):
    return moment(file.at) + records.request(file.request)


def store(one):
    account = b"" if one.of.owner is None else records.account(one.of.owner)
    return (number(1, FAMILIES.index(one.of.family)) + account + number(8, one.token) + flag(one.lost)
            + number(8, len(one.rows)) + b"".join(map(row, one.rows)))


def row(one):
    if isinstance(one, Letter):
        return number(1, LETTER) + optional(records.account, one.account) + text(one.user) + records.mail(one.mail)
    kind = TRANSFER if isinstance(one, Row) else MODEL
    between = number(8, one.model or 0) if kind == TRANSFER else records.series(one.series)
    parts = number(1, kind) + number(8, one.id) + between + terms(one.terms)
    return parts + (number(1, CODES.index(one.code)) + moment(one.stamp) if kind == TRANSFER else b"")


def terms(what):
    """As in a record, but the day stands always."""
    return (records.account(what.source) + records.account(what.target) + signed(8, what.cents)
            + records.day(what.due))


def client_in(saved):
    """The client that a text has; NoForm where it has none."""
    fields = Fields(saved)
    fields.number(1, (VERSION,))
    client = Client(fields.sized(2, NAME.fullmatch), fields.text(32))
    client.next, client.done = fields.id(), fields.file_uid()
    client.outstanding = fields.optional(lambda: file_in(fields, client.user))
    count = fields.number(8)
    while len(client.stores) < count:
        client.stores.append(store_in(fields, [one.of for one in client.stores]))
    if fields.at < len(saved):
        raise NoForm(fields.at)
    return client


def file_in(fields, user):
    return Outstanding(fields.moment(), request(fields)._replace(user=user))


def store_in(fields, others):
    begin = fields.at
    family = fields.one_of(FAMILIES)
    of = Object(family, None if family == b"MAIL" else fields.account())
    if of in others:
        raise NoForm(begin)
    one = Store(of, fields.id(), fields.flag())
    count = fields.number(8)
    while len(one.rows) < count:
        one.rows.append(row_in(fields, KINDS[family], one.rows[-1].id if family in FAMILIES[:2] and one.rows else -1))
    return one


def row_in(fields, kind, before):
    """A row of this kind, whose id is above the one before it."""
    begin = fields.at
    fields.number(1, (kind,))
    if kind == LETTER:
        return Letter(fields.optional(fields.account), fields.text(32), fields.mail())
    id = fields.id()
    if id <= before:
        raise NoForm(begin)
    if kind == MODEL:
        return Model(id, fields.series(), terms_in(fields))
    return Row(id, fields.id() or None, terms_in(fields), fields.one_of(CODES), fields.moment())


def terms_in(fields):
    source, target = fields.account(), fields.account()
    return Terms(source, target, fields.number(8, range(-MAX_CENTS, MAX_CENTS + 1), signed=True), fields.day())
