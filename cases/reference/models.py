"""What is done for RECINTRATRNRQ: a model of transfers is made, changed or cancelled, or it is refused.

The refusals of each deed are tried in the order in which they stand here; the first that holds is the answer. Making
the transfers of a model isn't done here but on a frame DUE.
"""
from .bank import NO_TRNUID, Model
from .transfers import OTHER_SOURCE, refusal_of_day, refusal_of_new_terms, refusal_of_terms

CANCELLED_ALREADY = 10509
NO_MODEL = 10518


def refusal(bank, asker, ask):
    """The code of the refusal. None where nothing refuses."""
    return REFUSALS[ask.form](bank, asker, ask)


def taken_along(bank, ask):
    """The waiting transfers that are changed or cancelled along with their model, each by an entry of its own."""
    return bank.waiting_of(ask.id) if ask.pending else []


def change(bank, asker, ask, at):
    """Does what nothing refuses. The change of the model."""
    waiting = taken_along(bank, ask)
    if ask.form == b"RECINTRACANRQ":
        cancelled = bank.cancel_model(ask.trnuid, ask.id, ask.pending)
        for row in waiting:
            bank.cancel_transfer(NO_TRNUID, row.id)
        return cancelled
    number = bank.next_number() if ask.form == b"RECINTRARQ" else ask.id
    changed = bank.put_model(ask.trnuid, Model(number, ask.series, ask.terms), ask.pending)
    for row in waiting:
        # Each keeps its day, and with it its stamp.
        bank.put_transfer(NO_TRNUID, row._replace(terms=ask.terms._replace(due=row.terms.due)))
    return changed


def refusal_of_new(bank, asker, ask):
    if not bank.owns(asker, ask.terms.source):
        return OTHER_SOURCE
    return refusal_of_terms(bank, ask.terms) or refusal_of_day(bank, ask.terms)


def refusal_of_change(bank, asker, ask):
    return refusal_of_cancellation(bank, asker, ask) or refusal_of_new_terms(bank, ask.terms, bank.models[ask.id].terms)


def refusal_of_cancellation(bank, asker, ask):
    model = bank.models.get(ask.id)
    if model is None or not bank.owns(asker, model.terms.source):
        return NO_MODEL
    return CANCELLED_ALREADY if model.id in bank.cancelled else None


REFUSALS = {
    b"RECINTRARQ": refusal_of_new, b"RECINTRAMODRQ": refusal_of_change, b"RECINTRACANRQ": refusal_of_cancellation,
}
