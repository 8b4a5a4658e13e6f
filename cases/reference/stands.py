"""What a client's store has to hold: the rows that an object's entries come to, up to the store's token."""
from .bank import Letter, Object


def object_of(of, user):
    """The bank's object that a store of this user is about."""
    return Object(of.family, user if of.owner is None else of.owner)


def rows_up_to(bank, of, token):
    """The fold of the object's entries with at most this number. What is new or changed takes the place of its id, what
    is cancelled goes, and a mail comes last."""
    rows = {}
    for entry in bank.entries[of]:
        if entry.number > token:
            break
        change = entry.change
        if isinstance(change.what, Letter):
            rows[entry.number] = change.what
        elif change.what is None:
            rows.pop(change.id, None)
        else:
            rows[change.id] = change.what
    return [row for _, row in sorted(rows.items())]
