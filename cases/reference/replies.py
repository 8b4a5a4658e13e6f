"""Reply files: the one form in which they are written."""
from datetime import datetime, time

from .amounts import written_amount
from .dates import FIRST_YEAR
from .header import written_header
from .text import escaped

FIRST_MOMENT = datetime(FIRST_YEAR, 1, 1)

# The answers in the message set of mail; all others stand in that of the bank.
OF_MAIL = (b"MAILTRNRS", b"MAILSYNCRS")
# Of a form of a deed what its family's names begin with.
FAMILIES = {
    b"INTRARQ": b"INTRA", b"INTRAMODRQ": b"INTRA", b"INTRACANRQ": b"INTRA",
    b"RECINTRARQ": b"RECINTRA", b"RECINTRAMODRQ": b"RECINTRA", b"RECINTRACANRQ": b"RECINTRA",
    b"BANKMAILRQ": b"BANKMAIL", b"MAILRQ": b"MAIL",
}


def moment(at):
    return at.strftime("%Y%m%d%H%M%S").encode()


def lines(tree):
    """Each start tag, each element (without end tag) and each end tag stands on a line of its own. A tree is a list of
    pairs of a name and a value or an inner tree; an element without a value isn't written."""
    for name, inner in tree:
        if isinstance(inner, list):
            yield b"<" + name + b">\r\n"
            yield from lines(inner)
            yield b"</" + name + b">\r\n"
        elif inner:
            yield b"<" + name + b">" + escaped(inner) + b"\r\n"


def written(header, at, answers):
    """The reply file to a request with this header whose signon succeeded; a message set is written where it has a
    child. Those of mail are the last answers."""
    sets = [signon(0, at)]
    for name, of_mail in ((b"BANKMSGSRSV1", False), (b"EMAILMSGSRSV1", True)):
        inner = [answer for answer in answers if (answer[0] in OF_MAIL) == of_mail]
        sets += [(name, inner)] if inner else []
    return file(header, sets)


def denied(header, at):
    """The reply file to a request whose signon failed."""
    return file(header, [signon(15500, at)])


def file(header, message_sets):
    return written_header(header.version, header.newer) + b"".join(lines([(b"OFX", message_sets)]))


def signon(code, at):
    sonrs = [status(code), (b"DTSERVER", moment(at)), (b"LANGUAGE", b"ENG")]
    return (b"SIGNONMSGSRSV1", [(b"SONRS", sonrs)])


def status(code):
    return (b"STATUS", [(b"CODE", b"%d" % code), (b"SEVERITY", b"ERROR" if code else b"INFO")])


def refused(name, trnuid, code):
    """A reply of this name to an ask that was refused."""
    return (name, [(b"TRNUID", trnuid), status(code)])


def statement(ask, bank, at):
    balance = [(b"BALAMT", written_amount(bank.balance(ask.account))), (b"DTASOF", moment(at))]
    body = [(b"CURDEF", b"USD"), (b"BANKACCTFROM", account(ask.account))]
    if ask.period and ask.period.listed:
        body.append(transactions(ask.period, bank.lines(ask.account), at))
    body += [(b"LEDGERBAL", balance), (b"AVAILBAL", balance)]
    return (b"STMTTRNRS", [(b"TRNUID", ask.trnuid), status(0), (b"STMTRS", body)])


def transactions(period, lines, at):
    """BANKTRANLIST, with the lines from the period's start on and before its end.

    A period without a start begins with the first moment of all. One without an end leaves no line out, and the reply
    says that it goes up to now.
    """
    start, end = period.start or FIRST_MOMENT, period.end or at
    listed = [line for line in lines if start <= line.stamp and (period.end is None or line.stamp < period.end)]
    return (b"BANKTRANLIST", [(b"DTSTART", moment(start)), (b"DTEND", moment(end))] + [
        (b"STMTTRN", [
            (b"TRNTYPE", b"XFER"), (b"DTPOSTED", moment(line.stamp)), (b"TRNAMT", written_amount(line.cents)),
            (b"FITID", b"%d" % line.number),
        ]) for line in listed
    ])


def to_deed(deed, code, change=None):
    """The reply to a deed with this code, and with the change where the code is 0."""
    family = FAMILIES[deed.form]
    return told(family, deed.trnuid, change) if code == 0 else refused(family + b"TRNRS", deed.trnuid, code)


def told(family, trnuid, change):
    """The reply that tells of a change, to the deed of this TRNUID or later in a history."""
    inner = INNER[family](change)
    return (family + b"TRNRS", [(b"TRNUID", trnuid), status(0), (change.form[:-2] + b"RS", inner)])


def transfer(change):
    number, row = (b"SRVRTID", b"%d" % change.id), change.what
    if row is None:
        return [number]
    process = (b"XFERPRCSTS", [(b"XFERPRCCODE", row.code), (b"DTXFERPRC", moment(row.stamp))])
    if change.form == b"INTRAMODRQ":
        return [number, terms(row.terms), process]
    model = [] if row.model is None else [(b"RECSRVRTID", b"%d" % row.model)]
    return [(b"CURDEF", b"USD"), number, terms(row.terms)] + model + [process]


def terms(what):
    """XFERINFO, whose DTDUE is the midnight of the due day."""
    return (b"XFERINFO", [
        (b"BANKACCTFROM", account(what.source)), (b"BANKACCTTO", account(what.target)),
        (b"TRNAMT", written_amount(what.cents)), (b"DTDUE", moment(datetime.combine(what.due, time()))),
    ])


def recurring(change):
    """A model stands as a transfer of the first day, without a word on how that came out."""
    number, model = (b"RECSRVRTID", b"%d" % change.id), change.what
    pending = b"Y" if change.pending else b"N"
    if model is None:
        return [number, (b"CANPENDING", pending)]
    count = [] if model.series.count is None else [(b"NINSTS", b"%d" % model.series.count)]
    first = [(b"CURDEF", b"USD"), (b"SRVRTID", number[1]), terms(model.terms), number]
    told = [number, (b"RECURRINST", count + [(b"FREQ", model.series.frequency)]), (b"INTRARS", first)]
    return told + ([(b"MODPENDING", pending)] if change.form == b"RECINTRAMODRQ" else [])


def mail(change):
    account_name, user, mail = change.what
    text = [
        (b"USERID", user), (b"DTCREATED", moment(mail.created)), (b"FROM", mail.sender), (b"TO", mail.target),
        (b"SUBJECT", mail.subject), (b"MSGBODY", mail.body), (b"INCIMAGES", b"N"), (b"USEHTML", b"N"),
    ]
    about = [] if account_name is None else [(b"BANKACCTFROM", account(account_name))]
    return about + [(b"MAIL", text)]


INNER = {b"INTRA": transfer, b"RECINTRA": recurring, b"BANKMAIL": mail, b"MAIL": mail}


def synchronised(ask, token, lost, listed):
    about = [] if ask.account is None else [(b"BANKACCTFROM", account(ask.account))]
    first = [(b"TOKEN", b"%d" % token), (b"LOSTSYNC", b"Y" if lost else b"N")]
    return (ask.family + b"SYNCRS", first + about + listed)


def account(name):
    return [(b"BANKID", name.bank), (b"ACCTID", name.number), (b"ACCTTYPE", name.kind)]
