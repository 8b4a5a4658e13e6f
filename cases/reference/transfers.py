"""What is done for INTRATRNRQ: a transfer is made, changed or cancelled, or it is refused.

The refusals of each deed are tried in the order in which they stand here; the first that holds is the answer.
"""
from datetime import datetime, time

from .bank import POSTED, WAITING, Row

OTHER_SOURCE = 2006
NO_TARGET = 2009
NO_AMOUNT = 2012
NO_DUE_DAY = 2014
CLOSED_ALREADY = 2016  # posted, or closed without funds
CANCELLED_ALREADY = 2017
NO_TRANSFER = 2018
NO_COVER = 10504


def refusal(bank, asker, ask):
    """The code of the refusal. None where nothing refuses."""
    return REFUSALS[ask.form](bank, asker, ask)


def change(bank, asker, ask, at):
    """Does what nothing refuses."""
    if ask.form == b"INTRACANRQ":
        return bank.cancel_transfer(ask.trnuid, ask.id)
    row = new_row(bank, ask.terms, at) if ask.form == b"INTRARQ" else changed_row(bank, ask)
    return bank.put_transfer(ask.trnuid, row)


def due_day(bank, terms):
    """Without DTDUE a new transfer is due on the business day."""
    return bank.day if terms.due is None else terms.due


def new_row(bank, terms, at):
    """What is due by the business day is posted at once, though its due day stays the asked one; the rest waits."""
    terms = terms._replace(due=due_day(bank, terms))
    if terms.due > bank.day:
        return waiting_row(bank.next_number(), None, terms)
    return Row(bank.next_number(), None, terms, POSTED, at)


def changed_row(bank, ask):
    """A transfer that came from a model still counts as the model's."""
    return waiting_row(ask.id, bank.transfers[ask.id].model, ask.terms)


def waiting_row(number, model, terms):
    return Row(number, model, terms, WAITING, datetime.combine(terms.due, time()))


def refusal_of_new(bank, asker, ask):
    terms = ask.terms
    if not bank.owns(asker, terms.source):
        return OTHER_SOURCE
    wrong = refusal_of_terms(bank, terms)
    if wrong:
        return wrong
    if due_day(bank, terms) <= bank.day and terms.cents > bank.balance(terms.source):
        return NO_COVER
    return None


def refusal_of_terms(bank, terms):
    if not bank.is_account(terms.target) or terms.target == terms.source:
        return NO_TARGET
    return NO_AMOUNT if terms.cents <= 0 else None


def refusal_of_change(bank, asker, ask):
    return refusal_of_cancellation(bank, asker, ask) or refusal_of_new_terms(
        bank, ask.terms, bank.transfers[ask.id].terms)


def refusal_of_new_terms(bank, terms, old):
    """A change keeps the source."""
    if terms.source != old.source:
        return OTHER_SOURCE
    return refusal_of_terms(bank, terms) or refusal_of_day(bank, terms)


def refusal_of_day(bank, terms):
    """What is to wait has a day, after the business day."""
    return NO_DUE_DAY if terms.due is None or terms.due <= bank.day else None


def refusal_of_cancellation(bank, asker, ask):
    """Only what waits can be changed or cancelled."""
    row = bank.transfers.get(ask.id)
    if row is None or not bank.owns(asker, row.terms.source):
        return NO_TRANSFER
    if row.id in bank.cancelled:
        return CANCELLED_ALREADY
    return None if row.code == WAITING else CLOSED_ALREADY


REFUSALS = {
    b"INTRARQ": refusal_of_new, b"INTRAMODRQ": refusal_of_change, b"INTRACANRQ": refusal_of_cancellation,
}
