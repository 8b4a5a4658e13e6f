"""Request files as a client writes them."""
from datetime import datetime, time

from .amounts import written_amount
from .header import written_header
from .replies import account, lines, moment
from .requests import Mailing, Recurring, Statement, Sync, Transfer

OF_MAIL = (b"MAILTRNRQ", b"MAILSYNCRQ")
PLAIN = [(b"INCIMAGES", b"N"), (b"USEHTML", b"N")]  # mail is plain text


def written_request(request, password, at):
    """The file of a request that was made at this moment, with this password. A message set is written where it has a
    child."""
    asks = [written(ask) for ask in request.asks]
    sets = [(b"SIGNONMSGSRQV1", [(b"SONRQ", [
        (b"DTCLIENT", moment(at)), (b"USERID", request.user), (b"USERPASS", password), (b"LANGUAGE", b"ENG"),
        (b"APPID", b"OFXC"), (b"APPVER", b"0100"),
    ])])]
    for name, of_mail in ((b"BANKMSGSRQV1", False), (b"EMAILMSGSRQV1", True)):
        inner = [ask for ask in asks if (ask[0] in OF_MAIL) == of_mail]
        sets += [(name, inner)] if inner else []
    header = request.header
    return written_header(header.version, header.newer, header.older) + b"".join(lines([(b"OFX", sets)]))


def written(ask):
    if isinstance(ask, Statement):
        return statement(ask)
    return sync(ask) if isinstance(ask, Sync) else deed(ask)


def statement(ask):
    asked = [(b"BANKACCTFROM", account(ask.account))]
    if ask.period is not None:
        asked.append((b"INCTRAN", [
            *((name, moment(at)) for name, at in ((b"DTSTART", ask.period.start), (b"DTEND", ask.period.end)) if at),
            (b"INCLUDE", b"Y" if ask.period.listed else b"N"),
        ]))
    return (b"STMTTRNRQ", [(b"TRNUID", ask.trnuid), (b"STMTRQ", asked)])


def sync(ask):
    chosen = (ask.choice, ask.token if ask.choice == b"TOKEN" else b"Y")
    plain = PLAIN if ask.family in (b"BANKMAIL", b"MAIL") else []
    about = [] if ask.account is None else [(b"BANKACCTFROM", account(ask.account))]
    first = [chosen, (b"REJECTIFMISSING", b"Y" if ask.strict else b"N")]
    return (ask.family + b"SYNCRQ", first + plain + about + [deed(one) for one in ask.deeds])


def deed(ask):
    family = ask.form[:-2].removesuffix(b"MOD").removesuffix(b"CAN")
    return (family + b"TRNRQ", [(b"TRNUID", ask.trnuid), (ask.form, INNER[type(ask)](ask))])


def transfer(ask):
    number = [] if ask.id is None else [(b"SRVRTID", b"%d" % ask.id)]
    return number + ([] if ask.terms is None else [terms(ask.terms)])


def recurring(ask):
    number = [] if ask.id is None else [(b"RECSRVRTID", b"%d" % ask.id)]
    model = [] if ask.terms is None else [series(ask.series), (b"INTRARQ", [terms(ask.terms)])]
    flag = b"CANPENDING" if ask.form == b"RECINTRACANRQ" else b"MODPENDING"
    return number + model + ([] if ask.pending is None else [(flag, b"Y" if ask.pending else b"N")])


def mailing(ask):
    text = [
        (b"USERID", ask.mail.sender), (b"DTCREATED", moment(ask.mail.created)), (b"FROM", ask.mail.sender),
        (b"TO", ask.mail.target), (b"SUBJECT", ask.mail.subject), (b"MSGBODY", ask.mail.body), *PLAIN,
    ]
    return ([] if ask.account is None else [(b"BANKACCTFROM", account(ask.account))]) + [(b"MAIL", text)]


def terms(what):
    """DTDUE is the midnight of the due day."""
    due = [] if what.due is None else [(b"DTDUE", moment(datetime.combine(what.due, time())))]
    return (b"XFERINFO", [
        (b"BANKACCTFROM", account(what.source)), (b"BANKACCTTO", account(what.target)),
        (b"TRNAMT", written_amount(what.cents)), *due,
    ])


def series(often):
    count = [] if often.count is None else [(b"NINSTS", b"%d" % often.count)]
    return (b"RECURRINST", count + [(b"FREQ", often.frequency)])


INNER = {Transfer: transfer, Recurring: recurring, Mailing: mailing}
