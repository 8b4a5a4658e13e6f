"""Amounts of money, as they stand in the values of elements, and the cents that they stand for.

An amount is perhaps a sign, and digits, at least one. Among them, before them or after them one mark may stand, a
point or a comma, which parts dollars from cents. After the second digit after the mark only zeros may stand.
"""
import re

from .text import trimmed

AMOUNT = re.compile(rb"([+-]?)(?=[.,]?[0-9])([0-9]*)(?:[.,]([0-9]*))?")
MAX_BYTES = 32
MAX_CENTS = 9999999999999


def read_amount(raw):
    """The cents that an amount stands for. None where the bytes are no amount, more than 32, or past the greatest."""
    raw = trimmed(raw)
    amount = AMOUNT.fullmatch(raw)
    if amount is None or len(raw) > MAX_BYTES:
        return None
    sign, dollars, parts = amount[1], amount[2], amount[3] or b""
    cents = int(dollars + parts[:2].ljust(2, b"0"))
    if parts[2:].strip(b"0") or cents > MAX_CENTS:
        return None
    return -cents if sign == b"-" else cents


def written_amount(cents):
    sign = b"-" if cents < 0 else b""
    return sign + b"%d.%02d" % divmod(abs(cents), 100)
