"""What waits in a store, in words: a line for each deed of the outstanding file, and for each statement that it asks for."""
from .amounts import written_amount
from .client_lines import about
from .requests import Mailing, Recurring, Statement, Sync

WAITS = b" waits and is made by the next run"
DEED_WAITS = WAITS + b": run sync, don't give the command again"


def waiting(client):
    """The lines, each without its LF. None where no file is outstanding."""
    for ask in client.outstanding.request.asks if client.outstanding else ():
        if isinstance(ask, Statement):
            yield b"%s: sync %s%s" % (ask.trnuid, about(ask.account), WAITS)
        for deed in ask.deeds if isinstance(ask, Sync) else () if isinstance(ask, Statement) else (ask,):
            yield b"%s: %s%s" % (deed.trnuid, deed_words(deed), DEED_WAITS)


def deed_words(deed):
    if isinstance(deed, Mailing):
        owner = b"" if deed.account is None else b"about %s " % about(deed.account)
        return b"the mail " + owner + deed.mail.subject
    if isinstance(deed, Recurring):
        return changed(deed, b"the end of ", b"recurring transfer", series_words)
    return changed(deed, b"the cancellation of ", b"transfer", lambda deed: terms_words(deed.terms))


def changed(deed, end, row, words):
    """A new deed's terms, or what is done to the row of an id."""
    if deed.id is None:
        return words(deed)
    if deed.terms is None:
        return b"%s%s %d" % (end, row, deed.id)
    return b"the change of %s %d to %s" % (row, deed.id, words(deed))


def series_words(deed):
    count = b"" if deed.series.count is None else b", %d in all" % deed.series.count
    return b"%s and %s after that%s" % (terms_words(deed.terms), deed.series.frequency, count)


def terms_words(terms):
    due = b"" if terms.due is None else b" on " + terms.due.strftime("%Y%m%d").encode()
    return b"%s from %s to %s%s" % (written_amount(terms.cents), about(terms.source), about(terms.target), due)
