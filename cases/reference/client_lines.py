"""The lines that a client prints, each without its LF."""
from .amounts import written_amount
from .bank import Letter, Row


def about(account):
    return account.number + b" " + account.kind


def object_words(of):
    return b"mail" if of.owner is None else of.family.lower() + b" " + about(of.owner)


def balance_line(account, told):
    """With the ledger balance, or the code where there is none."""
    return b"balance %s %s" % (
        about(account), b"error %d" % told.code if told.cents is None else written_amount(told.cents))


def done_line(done):
    return b"done %s %d" % (done.trnuid, done.code)


def store_line(store):
    flag = b"Y" if store.lost else b"N"
    return b"%s token %d lost %s rows %d" % (object_words(store.of), store.token, flag, len(store.rows))


def newest_line(of, token):
    return b"newest %s %d" % (object_words(of), token)


def shown(client):
    """The lines that show what a client keeps."""
    yield b"client %s next %d done %s" % (client.name, client.next, client.done or b"NONE")
    for store in client.stores:
        yield store_line(store)
        yield from map(row_line, store.rows)


def row_line(row):
    if isinstance(row, Letter):
        return b"mail " + row.mail.subject
    day = row.terms.due.strftime("%Y%m%d").encode()
    kind, word = (b"transfer", row.code) if isinstance(row, Row) else (b"model", row.series.frequency)
    return b"%s %d %s %s %s" % (kind, row.id, word, written_amount(row.terms.cents), day)
