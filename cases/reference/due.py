"""Due work: what the bank does by itself on a frame DUE, one event after the other.

An event is either that a model makes its next transfer, which waits, or that a waiting transfer is posted, or closed
without funds where the source doesn't cover it. As long as a model can make one, that comes first.
"""
from datetime import datetime, time

from .bank import NO_FUNDS, NO_TRNUID, POSTED, WAITING, Row
from .events import Post, Spawn
from .series import day_of


def next_due(bank, at):
    """The event that is due next at this moment. None where none is; without a number for its entry none is."""
    day = bank.day_at(at)
    if not bank.has_room(1):
        return None
    first = min(spawns_by(bank, day), default=None)
    if first is not None:
        return Spawn(first[1], bank.made[first[1]])
    waiting = bank.first_waiting()
    return Post(waiting.id) if waiting is not None and waiting.terms.due <= day else None


def spawns_by(bank, day):
    """The days and ids of those models that can make a transfer."""
    dues = ((next_day(bank, id, day), id) for id in bank.models)
    return ((due, id) for due, id in dues if due is not None)


def next_day(bank, id, day):
    """The day of the next transfer of this model. None where it can't make one on this day: the next day of the series
    is there and at most LEAD days after."""
    model = bank.models[id]
    count, frequency = model.series
    if id in bank.cancelled or (count is not None and bank.made[id] >= count):
        return None
    due = day_of(model.terms.due, frequency, bank.made[id])
    return due if due is not None and (due - day).days <= bank.setup.lead else None


def may_spawn(bank, event, at):
    """Whether it is the model's next transfer, and the model can make it."""
    if event.model not in bank.models or event.place != bank.made[event.model] or not bank.has_room(1):
        return False
    return next_day(bank, event.model, bank.day_at(at)) is not None


def may_post(bank, event, at):
    """Whether the transfer waits and is due."""
    if not bank.waits(event.id) or not bank.has_room(1):
        return False
    return bank.transfers[event.id].terms.due <= bank.day_at(at)


def spawn(bank, event):
    id = event.model
    terms = bank.models[id].terms
    terms = terms._replace(due=day_of(terms.due, bank.models[id].series.frequency, event.place))
    row = Row(bank.next_number(), id, terms, WAITING, datetime.combine(terms.due, time()))
    bank.put_transfer(NO_TRNUID, row)
    bank.made[id] += 1


def post(bank, event, at):
    row = bank.transfers[event.id]
    covered = row.terms.cents <= bank.balance(row.terms.source)
    bank.put_transfer(NO_TRNUID, row._replace(code=POSTED if covered else NO_FUNDS, stamp=at))
