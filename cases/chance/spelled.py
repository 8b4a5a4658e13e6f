"""Request files at random that are well spelled."""
from chance.dated import any_date, date
from chance.mailed import about_account, about_none
from chance.priced import amount, any_amount
from chance.synced import FAMILIES, poll, sync
from reference.names import ELEMENTS
from reference.requests import FREQUENCIES
from written.pieces import HEADER

LEAVES = sorted(ELEMENTS)
# The forms of bank and mail messages beside the statement request.
FORMS = [
    b"INTRATRNRQ", b"RECINTRATRNRQ", b"BANKMAILTRNRQ", b"INTRASYNCRQ", b"RECINTRASYNCRQ", b"BANKMAILSYNCRQ",
    b"MAILTRNRQ", b"MAILSYNCRQ",
]
VALUES = [
    b"", b" ", b"\r\n", b"0", b"00", b" 0 ", b"1", b"Y", b"N", b"y", b"YES", b"CHECKING", b"SAVINGS", b"checking",
    b"alice", b"bob", b"secret", b"hunter", b"1001", b"1002", b"121099999", b"&lt;", b"&amp;lt;", b"&", b"a>b",
    b"\xe9\xff\x7f", b"20240131", b"20240131120000.000[-5:EST]", b"a\tb", b"a\r\nb",
]

COUNTS = [b"1", b"1", b"2", b"3", b"12", b"007", b"999"]
# With those that have no form.
ANY_COUNTS = COUNTS + [b"", b"0", b"000", b"1000", b"0001", b"+1", b"-1", b"1.0", b"x", b"1 2", b"\xb2"]
ANY_FREQUENCIES = [b"", b"weekly", b"Monthly", b"DAILY", b"YEARLY", b"WEEK LY", b"TWICEMONTHL", b"ANNUALLYX"]
FLAGS = [b"", b"y", b"n", b"YES", b"1", b"Y N"]

# A realistic file of a finance program: a few long lines, elements without end tags, children that no form names.
ONE_LINE = HEADER + (
    b"<OFX><SIGNONMSGSRQV1><SONRQ><DTCLIENT>20240131070000.000[-5:EST]\r\n"
    b"<USERID>alice<USERPASS>secret<LANGUAGE>ENG<FI><ORG>Example<FID>1</FI>\r\n"
    b"<APPID>QWIN<APPVER>0900<INTU.BID>3000</SONRQ></SIGNONMSGSRQV1>\r\n"
    b"<BANKMSGSRQV1><STMTTRNRQ><TRNUID>s2<CLTCOOKIE>4<STMTRQ><BANKACCTFROM>\r\n"
    b"<BANKID>121099999<ACCTID>1001<ACCTTYPE>CHECKING</BANKACCTFROM>\r\n"
    b"<INCTRAN><DTSTART>20240101<INCLUDE>Y</INCTRAN></STMTRQ></STMTTRNRQ>\r\n"
    b"</BANKMSGSRQV1><X.NOTE><X.A>1</X.NOTE></OFX>"
)


class Style:
    """How one file is spelled."""

    def __init__(self, r):
        self.r = r
        self.line_end = r.choice((b"\r\n", b"\r\n", b"\n", b"", b" \t"))
        self.end_tags = r.choice((0, 0, 1, 0.5))
        self.blanks = r.choice((0, 0, 0.2))
        self.shuffled = r.random() < 0.4
        self.strangers = r.choice((0, 0, 0.1, 0.3))

    def blank(self):
        return self.r.choice((b" ", b"\t", b"\r\n", b"  ")) if self.r.random() < self.blanks else b""

    def element(self, name, value):
        end = b"</" + name + b">" if self.r.random() < self.end_tags else b""
        return b"<" + name + b">" + self.blank() + value + self.blank() + end + self.line_end

    def aggregate(self, name, children):
        """An aggregate of children that are spelled already."""
        if self.shuffled:
            self.r.shuffle(children)
        if self.r.random() < self.strangers:
            children.insert(self.r.randrange(len(children) + 1), stranger(self.r))
        return b"<" + name + b">" + self.line_end + b"".join(children) + b"</" + name + b">" + self.line_end

    def account(self, name, number):
        kind = b"CHECKING" if number == b"1001" else b"SAVINGS"
        children = (b"BANKID", b"121099999"), (b"ACCTID", number), (b"ACCTTYPE", kind)
        return self.aggregate(name, [self.element(*child) for child in children])


def stranger(r):
    """A child that no form names."""
    return r.choice((
        b"<X.NOTE>some text", b"<INTU.BID>3000</INTU.BID>", b"<CLTCOOKIE>4", b"<MEMO></MEMO>", b"<X></X>",
        b"<X><TRNUID>0<USERID>bob</X>", b"<X><X>1</X></X>", b"<A>" * 6 + b"</A>" * 6, b"<FI><ORG>x<FID>1</FI>",
        b"<STMTTRNRS><TRNUID>0</STMTTRNRS>", b"<X><%s>%s</X>" % (r.choice(LEAVES), r.choice(VALUES)),
    ))


def request_header(r, named):
    """A header. Each of its two names stands in this share of files."""
    lines = [line + b"\r\n" for line in HEADER.split(b"\r\n")[:9]]
    lines[2] = b"VERSION:%s\r\n" % r.choice((b"102", b"103", b"151", b"160"))
    lines[5] = b"CHARSET:%s\r\n" % r.choice((b"1252", b"ISO-8859-1", b"NONE"))
    for k in (7, 8):
        if r.random() < named:
            names = (b"u%d" % r.randrange(40),) * 4 + (b"u" * 36, b"none", b"\xe9:<&", b"a b")
            lines[k] = lines[k].replace(b"NONE", r.choice(names))
    if r.random() < 0.2:
        lines = [line.replace(b":", r.choice((b":", b": ", b":\t")), 1) for line in lines]
    if r.random() < 0.2:
        end = r.choice((b"\n", b"\r\r\n", b" \r\n"))
        lines = [line.replace(b"\r\n", end) for line in lines]
    return b"".join(lines) + r.choice((b"\r\n", b"\n", b"", b" \r\n\r\n"))


def spelled(r):
    """A request file that spells, though now and then with an empty form in it."""
    style = Style(r)
    element, aggregate = style.element, style.aggregate
    user, password = r.choice(((b"alice", b"secret"), (b"alice", b"secret"), (b"bob", b"hunter")))
    if r.random() < 0.03:
        password = b"wrong"
    sonrq = [element(b"DTCLIENT", b"20240131120000"), element(b"USERID", user), element(b"USERPASS", password)]
    sonrq += [element(b"LANGUAGE", b"ENG"), element(b"APPID", b"QWIN"), element(b"APPVER", b"0900")]
    only_tokens = r.random() < 0.1
    sets = [aggregate(b"SIGNONMSGSRQV1", [aggregate(b"SONRQ", sonrq)])]
    sets += polls(r, style, user) if only_tokens else message_sets(r, style, user)
    return request_header(r, 0.05 if only_tokens else 0.25) + aggregate(b"OFX", sets)


def message_sets(r, style, user):
    """The message sets of the bank and of mail. Each may be left out or be empty."""
    asks = [r.choice(BANK_ASKS)(r, style, user) for _ in range(r.choice((0, 1, 1, 1, 2, 3, 6)))]
    mails = [r.choice(MAIL_ASKS)(r, style, user) for _ in range(r.choice((0, 0, 0, 0, 0, 0, 1, 1, 2)))]
    for some, share in ((asks, 0.05), (mails, 0.03)):
        if r.random() < share:
            some.append(style.aggregate(r.choice(FORMS), []))
    sets = [style.aggregate(b"BANKMSGSRQV1", asks)] if asks or r.random() < 0.5 else []
    return sets + ([style.aggregate(b"EMAILMSGSRQV1", mails)] if mails or r.random() < 0.05 else [])


def polls(r, style, user):
    """Message sets that only ask for tokens."""
    asked = {True: [], False: []}
    for _ in range(r.choice((1, 1, 2, 3, 5))):
        family = r.choice(FAMILIES)
        asked[family == b"MAIL"].append(poll(r, style, user, family))
    names = (b"BANKMSGSRQV1", False), (b"EMAILMSGSRQV1", True)
    return [style.aggregate(name, asked[of_mail]) for name, of_mail in names if asked[of_mail]]


def synchronised(*families):
    """What makes a synchronisation of one of these families, with a few deeds of its family in it, or of another."""
    def make(r, style, user):
        family = r.choice(families)
        kinds = [family if r.random() < 0.97 else r.choice(FAMILIES) for _ in range(r.choice((0, 0, 0, 1, 1, 2)))]
        return sync(r, style, user, family, [DEEDS[kind](r, style, user) for kind in kinds])
    return make


def statement(r, style, user):
    element, aggregate = style.element, style.aggregate
    number = b"1001" if user == b"alice" and r.random() < 0.7 else b"1002"
    body = [style.account(b"BANKACCTFROM", number)]
    if r.random() < 0.8:
        inctran = [element(b"INCLUDE", r.choice((b"Y", b"Y", b"N")))]
        for name in (b"DTSTART", b"DTEND"):
            if r.random() < 0.4:
                inctran.append(element(name, r.choice((date(r), date(r), date(r), any_date(r), b""))))
        body.append(aggregate(b"INCTRAN", inctran))
    trnuid = r.choice((b"s%d" % r.randrange(100), b"a&amp;b", b"&lt;>", b"x" * 36, b"00", b"a b"))
    return aggregate(b"STMTTRNRQ", [element(b"TRNUID", trnuid), aggregate(b"STMTRQ", body)])


def transfer(r, style, user):
    """A transfer, or a change or a cancellation of one that may be there."""
    name = r.choice((b"INTRARQ", b"INTRARQ", b"INTRARQ", b"INTRAMODRQ", b"INTRACANRQ"))
    deed = []
    if name != b"INTRARQ":
        number = b"%d" % r.randrange(1, r.choice((4, 12, 40)))
        deed.append(style.element(b"SRVRTID", r.choice((number,) * 9 + (b"0" + number, b"0", b"x", b"1" * 64))))
    if name != b"INTRACANRQ":
        deed.append(terms(r, style, user, 0.9 if name == b"INTRAMODRQ" else 0.5))
    trnuid = style.element(b"TRNUID", b"x%d" % r.randrange(1000))
    return style.aggregate(b"INTRATRNRQ", [trnuid, style.aggregate(name, deed)])


def recurring(r, style, user):
    """A model of transfers, or a change or a cancellation of one that may be there."""
    name = r.choice((b"RECINTRARQ", b"RECINTRARQ", b"RECINTRAMODRQ", b"RECINTRACANRQ"))
    deed = []
    if name != b"RECINTRARQ":
        number = b"%d" % r.randrange(1, r.choice((4, 12, 40)))
        deed.append(style.element(b"RECSRVRTID", r.choice((number,) * 9 + (b"0" + number, b"0", b"x", b"1" * 64))))
    if name != b"RECINTRACANRQ":
        series = [style.element(b"FREQ", r.choice(FREQUENCIES) if r.random() < 0.97 else r.choice(ANY_FREQUENCIES))]
        if r.random() < 0.6:
            series.append(style.element(b"NINSTS", r.choice(COUNTS if r.random() < 0.9 else ANY_COUNTS)))
        deed.append(style.aggregate(b"RECURRINST", series))
        deed.append(style.aggregate(b"INTRARQ", [terms(r, style, user, 0.95)]))
    if name != b"RECINTRARQ":
        flag = b"MODPENDING" if name == b"RECINTRAMODRQ" else b"CANPENDING"
        deed.append(style.element(flag, r.choice((b"Y", b"N") if r.random() < 0.97 else FLAGS)))
    trnuid = style.element(b"TRNUID", b"x%d" % r.randrange(1000))
    return style.aggregate(b"RECINTRATRNRQ", [trnuid, style.aggregate(name, deed)])


def terms(r, style, user, dated):
    """What is moved. The share `dated` has a due day; most go from an account of the user to another one."""
    source, target = r.choice(((b"1001", b"1002"), (b"1002", b"1001")) if user == b"alice" else ((b"1002", b"1001"),))
    if r.random() < 0.1:
        source, target = r.choice((b"1001", b"1002", b"1003")), r.choice((b"1001", b"1002", b"1003"))
    children = [style.account(b"BANKACCTFROM", source), style.account(b"BANKACCTTO", target)]
    children.append(style.element(b"TRNAMT", amount(r) if r.random() < 0.9 else any_amount(r)))
    if r.random() < dated:
        days = (b"20240130", b"20240131", b"20240201", b"20240205120000", b"20240201[+5]", b"99991231")
        due = r.choice(days) if r.random() < 0.8 else r.choice((date, any_date))(r)
        children.append(style.element(b"DTDUE", due))
    return style.aggregate(b"XFERINFO", children)


DEEDS = {b"INTRA": transfer, b"RECINTRA": recurring, b"BANKMAIL": about_account, b"MAIL": about_none}
BANK_ASKS = (statement, transfer, recurring) * 2 + (about_account,)
BANK_ASKS += (synchronised(b"INTRA", b"RECINTRA", b"BANKMAIL"),) * 2
MAIL_ASKS = (about_none, synchronised(b"MAIL"))
