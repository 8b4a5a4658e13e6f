"""Synchronisations at random that are well spelled, and children of them that have no form."""

TOKENS = (b"0", b"0", b"0", b"00", b"003", b"9999999999", b"00000000000", b"abc", b"-1", b"1 2", b"&amp;", b"1" * 64)
# With those that have no form.
ANY_TOKENS = TOKENS + (b"", b"1" * 65, b"&lt;" * 64, b"&lt;" * 65, b"\xb2", b"4294967296", b"18446744073709551616")
YES = (b"Y", b"Y", b" Y ", b"N", b"y", b"", b"YES")
FAMILIES = (b"INTRA", b"RECINTRA", b"BANKMAIL", b"MAIL")


def choice(r, style):
    """What is asked: mostly a token that may be near the newest one."""
    if r.random() < 0.15:
        return style.element(b"TOKENONLY", b"Y")
    if r.random() < 0.2:
        return style.element(b"REFRESH", b"Y")
    return style.element(b"TOKEN", r.choice(TOKENS) if r.random() < 0.3 else b"%d" % r.randrange(r.choice((3, 12, 60))))


def sync(r, style, user, family, deeds):
    """A synchronisation of this family, in which these forms of deeds are embedded."""
    children = [choice(r, style), style.element(b"REJECTIFMISSING", r.choice((b"N", b"N", b"N", b"Y")))]
    if family != b"MAIL":
        children.append(about(r, style, user))
    return style.aggregate(family + b"SYNCRQ", children + deeds)


def poll(r, style, user, family):
    """One that only asks for the token."""
    children = [style.element(b"TOKENONLY", b"Y"), style.element(b"REJECTIFMISSING", r.choice((b"N", b"Y")))]
    return style.aggregate(family + b"SYNCRQ", children + ([] if family == b"MAIL" else [about(r, style, user)]))


def about(r, style, user):
    number = b"1001" if user == b"alice" and r.random() < 0.7 else b"1002"
    return style.account(b"BANKACCTFROM", number if r.random() < 0.92 else r.choice((b"1001", b"1003")))


def any_child(r):
    """A child of one of the forms of a synchronisation, well spelled or not."""
    family = r.choice(FAMILIES)
    return r.choice((
        b"<TOKEN>" + r.choice(ANY_TOKENS), b"<TOKENONLY>" + r.choice(YES), b"<REFRESH>" + r.choice(YES),
        b"<REJECTIFMISSING>" + r.choice(YES), b"<BANKACCTFROM></BANKACCTFROM>", b"<INCIMAGES>N<USEHTML>N",
        b"<%sTRNRQ></%sTRNRQ>" % (family, family), b"<%sSYNCRQ></%sSYNCRQ>" % (family, family),
    ))
