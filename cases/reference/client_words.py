"""The words of the customer's program: the parties, and the command with what it is about."""
import re
from typing import NamedTuple

from .amounts import read_amount
from .answer import is_word
from .client import Wish
from .client_text import NAME
from .dates import read_moment
from .requests import FREQUENCIES, KINDS, MAX_IN_A_BODY, MAX_IN_A_SUBJECT, Account, Series, Terms, read_id
from .text import trimmed

NUMBER = re.compile(rb"0|[1-9][0-9]*")
DAY = re.compile(rb"[0-9]{8}")
MAX_PORT, MAX_IN_A_SERIES = 65535, 999


class NoForm(Exception):
    """A word has no form."""


class Order(NamedTuple):
    port: int
    store: bytes
    name: bytes
    user: bytes
    password: bytes
    wish: Wish


def order_of(words):
    """What the words order; None where they have no form."""
    words = [trimmed(word) for word in words]
    if len(words) < 7 or not all(map(is_word, words)):
        return None
    port, store, name, user, password, bank, command, *rest = words
    try:
        if not NAME.fullmatch(name) or command not in COMMANDS:
            raise NoForm
        wish = COMMANDS[command](within(bank, 32), *rest)
        return Order(whole(port, MAX_PORT), store, name, within(user, 32), within(password, 64),
                     wish._replace(command=command))
    except (NoForm, TypeError):  # a TypeError where another number of words stands there
        return None


def within(word, most):
    """The word, which has 1 byte up to the limit."""
    if not 1 <= len(word) <= most:
        raise NoForm
    return word


def some(value):
    if value is None:
        raise NoForm
    return value


def whole(word, most):
    """The number that is written so, without leading zeros."""
    if not NUMBER.fullmatch(word) or int(word) > most:
        raise NoForm
    return int(word)


def id_of(word):
    return some(read_id(word))


def account(bank, number, kind):
    if kind not in KINDS:
        raise NoForm
    return Account(bank, within(number, 32), kind)


def day(word):
    return some(read_moment(word) if DAY.fullmatch(word) else None).date()


def about(bank, number, kind):
    return Wish(None, account(bank, number, kind))


def of_id(bank, id):
    return Wish(None, id=id_of(id))


def transfer(bank, number, kind, to_number, to_kind, amount, due=None):
    return Wish(None, terms=Terms(account(bank, number, kind), account(bank, to_number, to_kind),
                                  some(read_amount(amount)), None if due is None else day(due)))


def modify(bank, id, number, kind, amount, due):
    return Wish(None, id=id_of(id), terms=Terms(None, account(bank, number, kind), some(read_amount(amount)), day(due)))


def repeat(bank, number, kind, to_number, to_kind, amount, first, frequency, count):
    if frequency not in FREQUENCIES:
        raise NoForm
    series = Series(whole(count, MAX_IN_A_SERIES) or None, frequency)
    return transfer(bank, number, kind, to_number, to_kind, amount, first)._replace(series=series)


def mail(bank, subject, body):
    return Wish(None, subject=within(subject, MAX_IN_A_SUBJECT), body=within(body, MAX_IN_A_BODY))


def show(bank):
    return Wish(None)


COMMANDS = {
    b"sync": about, b"transfer": transfer, b"modify": modify, b"cancel": of_id, b"repeat": repeat, b"stop": of_id,
    b"mail": mail, b"check": about, b"show": show,
}
