"""Reply files as a client reads them: what they answer. Each function reads one form, its named children in the order
of the format's page."""
import re
from typing import NamedTuple, Optional

from .bank import NO_FUNDS, POSTED, WAITING, Change, Letter, Model, Row
from .children import all_of, amount, maybe, moment, one, read, text, word
from .header import Header, read_header
from .requests import FLAGS, Account, Terms, bank_account, mail, named, read_id, series
from .tags import read_tags

CODES = (WAITING, POSTED, NO_FUNDS)
MAX_CODE = 65535


class Told(NamedTuple):
    """The reply to a statement request."""

    trnuid: bytes
    code: int
    cents: Optional[int]  # the ledger balance, where the code is 0


class Done(NamedTuple):
    """The reply to a deed, or what a history tells as one."""

    family: bytes
    trnuid: bytes
    code: int
    change: Optional[Change]  # where the code is 0


class Synced(NamedTuple):
    family: bytes
    account: Optional[Account]
    token: bytes
    lost: bool
    replies: tuple


class Reply(NamedTuple):
    header: Header
    code: int  # of the signon
    answers: tuple


def read_reply(file):
    """The reply that the bytes spell; a Fault where they spell none."""
    header = read_header(file)
    ofx = read_tags(file, header.size)
    code = signon(one(one(ofx, b"SIGNONMSGSRSV1"), b"SONRS"))
    answers = answers_in(maybe(ofx, b"BANKMSGSRSV1"), BANK_FORMS) + answers_in(maybe(ofx, b"EMAILMSGSRSV1"), MAIL_FORMS)
    return Reply(header, code, tuple(answers))


def signon(sonrs):
    code = status(one(sonrs, b"STATUS"))
    moment(sonrs, b"DTSERVER")
    return code


def status(node):
    return read(one(node, b"CODE"), read_code)


def read_code(value):
    """A code of 1 to 5 digits, at most 65,535. None where it isn't so."""
    return int(value) if re.fullmatch(rb"[0-9]{1,5}", value) and int(value) <= MAX_CODE else None


def answers_in(messages, forms):
    return [forms[child.name](child) for child in all_of(messages, forms)] if messages else []


def statement(node):
    trnuid, code = text(node, b"TRNUID", 36), status(one(node, b"STATUS"))
    return Told(trnuid, code, balance(one(node, b"STMTRS")) if code == 0 else None)


def balance(stmtrs):
    """The ledger balance. All else has to have its form, too."""
    bank_account(one(stmtrs, b"BANKACCTFROM"))
    listed = maybe(stmtrs, b"BANKTRANLIST")
    if listed is not None:
        moment(listed, b"DTSTART")
        moment(listed, b"DTEND")
        for line in all_of(listed, (b"STMTTRN",)):
            moment(line, b"DTPOSTED")
            amount(line, b"TRNAMT")
            read(one(line, b"FITID"), read_id)
    ledger, _ = (amount_then(one(stmtrs, name)) for name in (b"LEDGERBAL", b"AVAILBAL"))
    return ledger


def amount_then(node):
    cents = amount(node, b"BALAMT")
    moment(node, b"DTASOF")
    return cents


def deed(node):
    """With another code than 0 nothing more is looked at."""
    family = node.name[:-len(b"TRNRS")]
    trnuid, code = text(node, b"TRNUID", 36), status(one(node, b"STATUS"))
    return Done(family, trnuid, code, CHANGES[family](node) if code == 0 else None)


def transfer(intratrnrs):
    done = one(intratrnrs, b"INTRARS", b"INTRAMODRS", b"INTRACANRS")
    id, form = named(done, b"SRVRTID"), done.name[:-2] + b"RQ"
    if form == b"INTRACANRQ":
        return Change(form, id, None)
    what, model = terms(one(done, b"XFERINFO")), None
    if form == b"INTRARQ":
        model = maybe_named(done, b"RECSRVRTID")
    process = one(done, b"XFERPRCSTS")
    return Change(form, id, Row(id, model, what, word(process, b"XFERPRCCODE", CODES), moment(process, b"DTXFERPRC")))


def maybe_named(node, name):
    """The number that the child names. None where it doesn't stand, and for one that stands for 0."""
    return None if maybe(node, name) is None else named(node, name) or None


def terms(xferinfo):
    """DTDUE has to stand, and is read as its day in GMT."""
    source, target = (bank_account(one(xferinfo, name)) for name in (b"BANKACCTFROM", b"BANKACCTTO"))
    return Terms(source, target, amount(xferinfo, b"TRNAMT"), moment(xferinfo, b"DTDUE").date())


def recurring(recintratrnrs):
    done = one(recintratrnrs, b"RECINTRARS", b"RECINTRAMODRS", b"RECINTRACANRS")
    id, form = named(done, b"RECSRVRTID"), done.name[:-2] + b"RQ"
    if form == b"RECINTRACANRQ":
        return Change(form, id, None, word(done, b"CANPENDING", FLAGS) == b"Y")
    often, first = series(one(done, b"RECURRINST")), one(done, b"INTRARS")
    text(first, b"SRVRTID", 64)
    model = Model(id, often, terms(one(first, b"XFERINFO")))
    if maybe(first, b"RECSRVRTID") is not None:
        text(first, b"RECSRVRTID", 64)
    pending = word(done, b"MODPENDING", FLAGS) == b"Y" if form == b"RECINTRAMODRQ" else None
    return Change(form, id, model, pending)


def bank_mail(node):
    done = one(node, b"BANKMAILRS")
    return Change(b"BANKMAILRQ", None, letter(bank_account(one(done, b"BANKACCTFROM")), one(done, b"MAIL")))


def any_mail(node):
    return Change(b"MAILRQ", None, letter(None, one(one(node, b"MAILRS"), b"MAIL")))


def letter(account, node):
    return Letter(account, text(node, b"USERID", 32), mail(node))


def synchronised(node):
    family = node.name[:-len(b"SYNCRS")]
    token, lost = text(node, b"TOKEN", 64), False
    if maybe(node, b"LOSTSYNC") is not None:
        lost = word(node, b"LOSTSYNC", FLAGS) == b"Y"
    account = None if family == b"MAIL" else bank_account(one(node, b"BANKACCTFROM"))
    return Synced(family, account, token, lost, tuple(deed(child) for child in all_of(node, (family + b"TRNRS",))))


CHANGES = {b"INTRA": transfer, b"RECINTRA": recurring, b"BANKMAIL": bank_mail, b"MAIL": any_mail}
BANK_FORMS = {
    b"STMTTRNRS": statement, b"INTRATRNRS": deed, b"RECINTRATRNRS": deed, b"BANKMAILTRNRS": deed,
    b"INTRASYNCRS": synchronised, b"RECINTRASYNCRS": synchronised, b"BANKMAILSYNCRS": synchronised,
}
MAIL_FORMS = {b"MAILTRNRS": deed, b"MAILSYNCRS": synchronised}
