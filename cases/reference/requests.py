"""Request files: what they ask. Each function reads one form, its named children in the order of the format's page."""
import re
from datetime import date, datetime
from typing import NamedTuple, Optional

from .children import all_of, amount, maybe, maybe_moment, moment, one, read, text, word
from .fault import Fault
from .header import Header, read_header
from .tags import read_tags

KINDS = (b"CHECKING", b"SAVINGS", b"MONEYMRKT", b"CREDITLINE")
FREQUENCIES = (
    b"WEEKLY", b"BIWEEKLY", b"TWICEMONTHLY", b"MONTHLY", b"FOURWEEKS", b"BIMONTHLY", b"QUARTERLY", b"SEMIANNUALLY",
    b"ANNUALLY",
)
FLAGS = (b"Y", b"N")
CHOICES = (b"TOKEN", b"TOKENONLY", b"REFRESH")
MAX_IN_A_SUBJECT, MAX_IN_A_BODY = 64, 10000
MAIL_TEXTS = ((b"FROM", 32), (b"TO", 32), (b"SUBJECT", MAX_IN_A_SUBJECT), (b"MSGBODY", MAX_IN_A_BODY))


class Account(NamedTuple):
    bank: bytes
    number: bytes
    kind: bytes


class Period(NamedTuple):
    start: Optional[datetime]
    end: Optional[datetime]
    listed: bool  # whether the transactions are asked for


class Statement(NamedTuple):
    trnuid: bytes
    account: Account
    period: Optional[Period]


class Terms(NamedTuple):
    """What a transfer moves: money from one account to another, on a day."""

    source: Account
    target: Account
    cents: int
    due: Optional[date]


class Transfer(NamedTuple):
    """One of three deeds: a new transfer (INTRARQ), a change of a transfer (INTRAMODRQ), or its cancellation."""

    trnuid: bytes
    form: bytes
    id: Optional[int]  # which transfer is changed or cancelled
    terms: Optional[Terms]


class Series(NamedTuple):
    """How often a recurring transfer is made."""

    count: Optional[int]  # None where it never ends
    frequency: bytes


class Recurring(NamedTuple):
    """One of three deeds: a new model of transfers (RECINTRARQ), a change of a model (RECINTRAMODRQ), or its
    cancellation (RECINTRACANRQ). The terms' due day is the first day."""

    trnuid: bytes
    form: bytes
    id: Optional[int]  # which model is changed or cancelled
    series: Optional[Series]
    terms: Optional[Terms]
    pending: Optional[bool]  # whether the model's waiting transfers are changed or cancelled with it


class Mail(NamedTuple):
    created: datetime
    sender: bytes  # FROM
    target: bytes  # TO
    subject: bytes
    body: bytes


class Mailing(NamedTuple):
    """A mail to the bank, about an account (BANKMAILRQ) or about none (MAILRQ)."""

    trnuid: bytes
    form: bytes
    account: Optional[Account]
    mail: Mail


class Sync(NamedTuple):
    """What is new in the transfers, the models or the bank mail of an account, or in the user's mail.

    The family is what the names of the forms begin with: INTRA, RECINTRA, BANKMAIL, or MAIL, which has no account.
    """

    family: bytes
    account: Optional[Account]
    choice: bytes  # TOKEN, TOKENONLY or REFRESH
    token: Optional[bytes]  # the text of TOKEN
    strict: bool  # REJECTIFMISSING
    deeds: tuple  # those embedded in it, of its family


class Request(NamedTuple):
    header: Header
    user: bytes
    password: bytes
    asks: tuple


def read_request(file):
    """The request that the bytes spell; a Fault where they spell none."""
    header = read_header(file)
    ofx = read_tags(file, header.size)
    user, password = signon(one(one(ofx, b"SIGNONMSGSRQV1"), b"SONRQ"))
    asks = asks_in(maybe(ofx, b"BANKMSGSRQV1"), BANK_FORMS) + asks_in(maybe(ofx, b"EMAILMSGSRQV1"), MAIL_FORMS)
    return Request(header, user, password, tuple(asks))


def signon(sonrq):
    return text(sonrq, b"USERID", 32), text(sonrq, b"USERPASS", 64)


def asks_in(messages, forms):
    """The asks of a message set, where it stands."""
    return [forms[child.name](child) for child in all_of(messages, forms)] if messages else []


def transaction_uid(node):
    """A TRNUID. `0` marks what the bank does by itself, so it has no form in a request."""
    trnuid = text(node, b"TRNUID", 36)
    if trnuid == b"0":
        raise Fault("Value", one(node, b"TRNUID").at)
    return trnuid


def statement(stmttrnrq):
    trnuid = transaction_uid(stmttrnrq)
    stmtrq = one(stmttrnrq, b"STMTRQ")
    account = bank_account(one(stmtrq, b"BANKACCTFROM"))
    inctran = maybe(stmtrq, b"INCTRAN")
    return Statement(trnuid, account, None if inctran is None else period(inctran))


def period(inctran):
    start, end = maybe_moment(inctran, b"DTSTART"), maybe_moment(inctran, b"DTEND")
    return Period(start, end, word(inctran, b"INCLUDE", FLAGS) == b"Y")


def transfer(intratrnrq):
    trnuid = transaction_uid(intratrnrq)
    deed = one(intratrnrq, b"INTRARQ", b"INTRAMODRQ", b"INTRACANRQ")
    number = None if deed.name == b"INTRARQ" else named(deed, b"SRVRTID")
    return Transfer(trnuid, deed.name, number, None if deed.name == b"INTRACANRQ" else terms(one(deed, b"XFERINFO")))


def recurring(recintratrnrq):
    """A cancellation has neither a series nor terms, and a new model has no id and nothing that waits."""
    trnuid = transaction_uid(recintratrnrq)
    deed = one(recintratrnrq, b"RECINTRARQ", b"RECINTRAMODRQ", b"RECINTRACANRQ")
    number = how_often = what = pending = None
    if deed.name != b"RECINTRARQ":
        number = named(deed, b"RECSRVRTID")
    if deed.name != b"RECINTRACANRQ":
        how_often = series(one(deed, b"RECURRINST"))
        what = terms(one(one(deed, b"INTRARQ"), b"XFERINFO"))
    if deed.name != b"RECINTRARQ":
        flag = b"MODPENDING" if deed.name == b"RECINTRAMODRQ" else b"CANPENDING"
        pending = word(deed, flag, FLAGS) == b"Y"
    return Recurring(trnuid, deed.name, number, how_often, what, pending)


def series(recurrinst):
    number = maybe(recurrinst, b"NINSTS")
    count = None if number is None else read(number, read_count)
    return Series(count, word(recurrinst, b"FREQ", FREQUENCIES))


def read_count(value):
    """How many transfers a series has, in 1 to 3 digits. None where it isn't so, or 0."""
    return int(value) or None if re.fullmatch(rb"[0-9]{1,3}", value) else None


def named(node, name):
    """The number of the transfer or model that the child names. 0, which is that of none, for other texts."""
    return read_id(text(node, name, 64)) or 0


def read_id(value):
    """The number that an id or a token stands for, in 1 to 10 digits. None where it isn't so."""
    return int(value) if re.fullmatch(rb"[0-9]{1,10}", value) else None


def terms(xferinfo):
    """The due day is that of DTDUE in GMT."""
    source, target = (bank_account(one(xferinfo, name)) for name in (b"BANKACCTFROM", b"BANKACCTTO"))
    cents, due = amount(xferinfo, b"TRNAMT"), maybe_moment(xferinfo, b"DTDUE")
    return Terms(source, target, cents, None if due is None else due.date())


def mailing(node):
    """A mail about an account has that first. The USERID of a mail isn't looked at."""
    trnuid = transaction_uid(node)
    deed = one(node, b"BANKMAILRQ" if node.name == b"BANKMAILTRNRQ" else b"MAILRQ")
    account = bank_account(one(deed, b"BANKACCTFROM")) if deed.name == b"BANKMAILRQ" else None
    return Mailing(trnuid, deed.name, account, mail(one(deed, b"MAIL")))


def mail(node):
    return Mail(moment(node, b"DTCREATED"), *(text(node, name, most) for name, most in MAIL_TEXTS))


def sync(node):
    """TOKENONLY and REFRESH have no other value than Y."""
    family, choice = node.name[:-len(b"SYNCRQ")], one(node, *CHOICES).name
    token = text(node, choice, 64) if choice == b"TOKEN" else None
    if token is None:
        word(node, choice, (b"Y",))
    strict = word(node, b"REJECTIFMISSING", FLAGS) == b"Y"
    account = None if family == b"MAIL" else bank_account(one(node, b"BANKACCTFROM"))
    embedded = all_of(node, (family + b"TRNRQ",))
    return Sync(family, account, choice, token, strict, tuple(DEEDS[child.name](child) for child in embedded))


def bank_account(node):
    return Account(text(node, b"BANKID", 32), text(node, b"ACCTID", 32), word(node, b"ACCTTYPE", KINDS))


DEEDS = {b"INTRATRNRQ": transfer, b"RECINTRATRNRQ": recurring, b"BANKMAILTRNRQ": mailing, b"MAILTRNRQ": mailing}
BANK_FORMS = {
    b"STMTTRNRQ": statement, b"INTRATRNRQ": transfer, b"RECINTRATRNRQ": recurring, b"BANKMAILTRNRQ": mailing,
    b"INTRASYNCRQ": sync, b"RECINTRASYNCRQ": sync, b"BANKMAILSYNCRQ": sync,
}
MAIL_FORMS = {b"MAILTRNRQ": mailing, b"MAILSYNCRQ": sync}
