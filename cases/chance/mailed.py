"""Mails at random that are well spelled, and texts in them that have no form."""
from chance.dated import any_date, date

NAMES = (b"alice", b"bob", b"BANK", b"carol &amp; co.", b"a>b", b"\xe9\xff", b"f" * 32, b"&lt;" * 32)
RECEIVERS = (b"BANK",) * 8 + (b"bank", b"BANKS", b"bob", b"B&amp;K", b"t" * 32)
SUBJECTS = (b"Hello", b"a", b"Re: &lt;b&gt;", b"a\r\nb", b"x & y > z", b"s" * 64, b"&amp;" * 64, b"\x7f\x80\xff")
BODIES = (
    b"Hi", b"b", b"Dear bank,\r\n\r\n\tplease wait.\r\n", b"1 &lt; 2 &amp;amp; 3 > 2", b"&lt;/MSGBODY&gt;",
    b"\xe9" * 40, b"b" * 10000, b"&gt;" * 10000,
)
# With those that have no form.
ANY_NAMES = NAMES + (b"", b" ", b"f" * 33, b"&lt;" * 33)
ANY_SUBJECTS = SUBJECTS + (b"", b"s" * 65, b"&amp;" * 65, b"s\x01")
ANY_BODIES = BODIES[:-2] + (b"", b"\r\n", b"b" * 10001, b"a <b> c", b"a < b", b"a\x00b")


def about_account(r, style, user):
    """A mail about an account."""
    number = b"1001" if user == b"alice" and r.random() < 0.6 else b"1002"
    return form(r, style, b"BANKMAIL", [style.account(b"BANKACCTFROM", number if r.random() < 0.9 else b"1003")])


def about_none(r, style, user):
    return form(r, style, b"MAIL", [])


def form(r, style, family, about):
    inner = style.aggregate(family + b"RQ", about + [mail(r, style)])
    return style.aggregate(family + b"TRNRQ", [style.element(b"TRNUID", b"x%d" % r.randrange(1000)), inner])


def mail(r, style):
    """The longest bodies are rare."""
    bodies = BODIES if r.random() < 0.02 else BODIES[:-2]
    values = [(b"DTCREATED", date(r)), (b"FROM", r.choice(NAMES)), (b"TO", r.choice(RECEIVERS))]
    values += [(b"SUBJECT", r.choice(SUBJECTS)), (b"MSGBODY", r.choice(bodies))]
    if r.random() < 0.5:
        values = [(b"USERID", r.choice(ANY_NAMES))] + values
    if r.random() < 0.5:
        values += [(b"INCIMAGES", r.choice((b"N", b"Y"))), (b"USEHTML", b"N")]
    return style.aggregate(b"MAIL", [style.element(*value) for value in values])


def any_child(r):
    """A child of one of the forms of a mail, well spelled or not."""
    return r.choice((
        b"<MAIL></MAIL>", b"<MAILRQ></MAILRQ>", b"<BANKMAILRQ></BANKMAILRQ>", b"<MAILTRNRQ></MAILTRNRQ>",
        b"<BANKMAILTRNRQ></BANKMAILTRNRQ>", b"<TRNUID>x%d" % r.randrange(1000), b"<DTCREATED>" + any_date(r),
        b"<FROM>" + r.choice(ANY_NAMES), b"<TO>" + r.choice(ANY_NAMES), b"<SUBJECT>" + r.choice(ANY_SUBJECTS),
        b"<MSGBODY>" + r.choice(ANY_BODIES), b"<USERID>" + r.choice(ANY_NAMES), b"<USEHTML>Y",
    ))


def any_text(r):
    return r.choice(r.choice((ANY_NAMES, ANY_SUBJECTS, ANY_BODIES, RECEIVERS)))
