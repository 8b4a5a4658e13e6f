"""What is done for one deed, which is a transfer, a model or a mail: its code, and what it has changed.

A used pair of user and TRNUID is refused before all else. Every other deed uses its pair up, also where it is refused.
That no room is left for its entries is the last refusal.
"""
from . import mailing, models, transfers
from .requests import Mailing, Recurring, Transfer

NO_ROOM = 2000  # the setup allows no more entries
USED_TRNUID = 2019

KINDS = {Transfer: transfers, Recurring: models, Mailing: mailing}


def code_and_change(bank, asker, deed, at):
    """The code, and where it is 0 the change."""
    if (asker.user, deed.trnuid) in bank.used:
        return USED_TRNUID, None
    bank.used.add((asker.user, deed.trnuid))
    kind = KINDS[type(deed)]
    code = kind.refusal(bank, asker, deed)
    if code is not None:
        return code, None
    along = models.taken_along(bank, deed) if kind is models else []
    if not bank.has_room(1 + len(along)):
        return NO_ROOM, None
    return 0, kind.change(bank, asker, deed, at)
