"""What a file of a user who signed on does: it is answered once for each name, and its reply is kept under that name.

The names are the file uids of the header, each of them a user's own.
"""
from . import replies, sync
from .bank import Asker
from .deeds import code_and_change
from .requests import Statement, Sync


def exchanged(bank, request, at):
    """The reply to a file. Where the user's NEWFILEUID is kept it is the kept reply, and nothing is done; what is said
    in the file isn't looked at.

    Otherwise its asks are done in their order. Then OLDFILEUID releases the reply that is kept under it, where there is
    one, and then the new reply is kept under NEWFILEUID. So a poll changes nothing.
    """
    header, user = request.header, request.user
    if (user, header.newer) in bank.kept:
        return bank.kept[user, header.newer]
    reply = replies.written(header, at, [reply_to(bank, user, ask, at) for ask in request.asks])
    bank.kept.pop((user, header.older), None)
    if header.newer is not None:
        bank.kept[user, header.newer] = reply
    return reply


def reply_to(bank, user, ask, at):
    if isinstance(ask, Statement):
        return statement(bank, user, ask, at)
    if isinstance(ask, Sync):
        return sync.reply_to(bank, user, ask, at)
    return replies.to_deed(ask, *code_and_change(bank, Asker(user), ask, at))


def statement(bank, user, ask, at):
    """A statement of an account that isn't the user's is refused. A statement uses up no TRNUID."""
    if not bank.owns(Asker(user), ask.account):
        return replies.refused(b"STMTTRNRS", ask.trnuid, 2003)
    return replies.statement(ask, bank, at)
