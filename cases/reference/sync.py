"""What is answered to a synchronisation: the object's newest token, whether the client has lost its place, what is new
to it, and the replies to the deeds that are embedded."""
from . import replies
from .bank import NO_TRNUID, Asker, Change, Object
from .deeds import code_and_change
from .requests import Sync, read_id

NO_ACCOUNT = 2003
NO_TOKEN = 6500  # REJECTIFMISSING Y without a token
NOT_NEWEST = 6502  # REJECTIFMISSING Y with another token than the newest one


def is_poll(request):
    """Whether a file only asks for tokens. Such a file is no event."""
    header, asks = request.header, request.asks
    unnamed = header.older is None and header.newer is None
    return unnamed and bool(asks) and all(
        isinstance(ask, Sync) and ask.choice == b"TOKENONLY" and not ask.deeds for ask in asks)


def reply_to(bank, user, ask, at):
    """The reply. All but the token in it is judged before the embedded deeds are done.

    Of an account that isn't the user's nothing is told, and no deed is done nor its TRNUID used up.
    """
    if ask.account is not None and not bank.owns(Asker(user), ask.account):
        return replies.synchronised(ask, 0, True, [replies.to_deed(deed, NO_ACCOUNT) for deed in ask.deeds])
    of = Object(ask.family, ask.account or user)
    token = read_id(ask.token) if ask.choice == b"TOKEN" else None
    lost = ask.choice == b"TOKEN" and (token is None or not floor(bank, of) <= token <= newest(bank, of))
    listed = [] if lost else history(bank, of, ask.choice, token)
    code = rejection(ask, token, newest(bank, of))
    for deed in ask.deeds:
        done = (code, None) if code else code_and_change(bank, Asker(user, ask.account), deed, at)
        listed.append(replies.to_deed(deed, *done))
    return replies.synchronised(ask, newest(bank, of), lost, listed)


def newest(bank, of):
    """The object's newest token, which is the number of its last entry. 0 where it has none."""
    return bank.entries[of][-1].number if bank.entries[of] else 0


def floor(bank, of):
    """The least token from which on nothing is lost: the number of the entry before the last WINDOW ones."""
    entries, window = bank.entries[of], bank.setup.window
    return entries[-window - 1].number if len(entries) > window else 0


def history(bank, of, choice, token):
    """With a token the object's entries above it; for REFRESH what stands in the object now, as if it were new."""
    if choice == b"TOKEN":
        above = [entry for entry in bank.entries[of] if entry.number > token]
        return [replies.told(of.family, entry.trnuid, entry.change) for entry in above]
    if choice == b"REFRESH":
        return [replies.told(of.family, NO_TRNUID, change) for change in standing(bank, of)]
    return []


def standing(bank, of):
    """The transfers or models of an account that aren't cancelled, by their numbers, or all mails in their order."""
    if of.family in (b"BANKMAIL", b"MAIL"):
        return [entry.change for entry in bank.entries[of]]
    rows = bank.transfers if of.family == b"INTRA" else bank.models
    return [
        Change(of.family + b"RQ", id, row) for id, row in sorted(rows.items())
        if row.terms.source == of.owner and id not in bank.cancelled
    ]


def rejection(ask, token, newest):
    """The code that every embedded deed gets, where none is done."""
    if not ask.strict or (ask.choice == b"TOKEN" and token == newest):
        return None
    return NOT_NEWEST if ask.choice == b"TOKEN" else NO_TOKEN
