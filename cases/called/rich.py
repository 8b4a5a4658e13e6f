"""A client that keeps something of every kind, whose text has every kind of field."""
from datetime import date, datetime

from reference.bank import NO_FUNDS, POSTED, WAITING, Letter, Model, Object, Row
from reference.client import Client, Outstanding, Store
from reference.header import Header
from reference.requests import (
    Account, Mail, Mailing, Period, Recurring, Request, Series, Statement, Sync, Terms, Transfer,
)

CHECKING = Account(b"121099999", b"1001", b"CHECKING")
SAVINGS = Account(b"121099999", b"1002", b"SAVINGS")
NOON = datetime(2024, 1, 31, 12)
TERMS = Terms(CHECKING, SAVINGS, 1000, date(2024, 2, 5))
MAIL = Mail(NOON, b"alice", b"BANK", b"Hello", b"Hi")


def asks():
    """One of every kind, and every kind of deed and choice."""
    transfers = (
        Transfer(b"c1-4-1", b"INTRARQ", None, TERMS._replace(due=None)), Transfer(b"c1-4-2", b"INTRAMODRQ", 3, TERMS),
        Transfer(b"c1-4-3", b"INTRACANRQ", 4, None),
    )
    models = (
        Recurring(b"c1-4-4", b"RECINTRARQ", None, Series(None, b"WEEKLY"), TERMS, None),
        Recurring(b"c1-4-5", b"RECINTRAMODRQ", 1, Series(999, b"ANNUALLY"), TERMS, False),
        Recurring(b"c1-4-6", b"RECINTRACANRQ", 1, None, None, True),
    )
    return (
        Statement(b"c1-4-0", CHECKING, Period(None, NOON, True)), Statement(b"s", SAVINGS, None),
        Sync(b"INTRA", CHECKING, b"TOKEN", b"7", False, transfers),
        Sync(b"RECINTRA", CHECKING, b"REFRESH", None, False, models),
        Sync(b"BANKMAIL", SAVINGS, b"TOKENONLY", None, True, (Mailing(b"c1-4-7", b"BANKMAILRQ", SAVINGS, MAIL),)),
        Mailing(b"c1-4-8", b"MAILRQ", None, MAIL),
        Sync(b"MAIL", None, b"TOKEN", b"0", False, ()),
    )


def rich_client():
    client = Client(b"c1", b"alice")
    client.next, client.done = 5, b"c1-3"
    client.outstanding = Outstanding(NOON, Request(Header(b"160", b"c1-3", b"c1-4", (), 0), b"alice", b"", asks()))
    client.stores = [
        Store(Object(b"INTRA", CHECKING), 7, False, [
            Row(1, None, TERMS, POSTED, NOON), Row(3, 2, TERMS, WAITING, NOON), Row(4, None, TERMS, NO_FUNDS, NOON),
            Row(6, None, TERMS, b"CANCELEDON", NOON),
        ]),
        Store(Object(b"RECINTRA", CHECKING), 2, True, [
            Model(2, Series(3, b"MONTHLY"), TERMS), Model(5, Series(None, b"TWICEMONTHLY"), TERMS),
        ]),
        Store(Object(b"BANKMAIL", SAVINGS), 9, False, [Letter(SAVINGS, b"bob", MAIL)]),
        Store(Object(b"MAIL", None), 8, False, [Letter(None, b"alice", MAIL), Letter(None, b"alice", MAIL)]),
    ]
    return client
