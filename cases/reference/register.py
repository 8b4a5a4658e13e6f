"""A register of downloaded statements: what an import makes of files, the register's text, and that text's one fault.

A text is the version, the number of lines in four bytes, and the lines: an account, a FITID, a moment and an amount, coded
as in records. Nothing follows. An empty text is an empty register.
"""
from datetime import datetime
from typing import NamedTuple

from .amounts import written_amount
from .recorded import MAX_CENTS, Fields, NoForm
from .records import account, moment, number, signed
from .requests import KINDS, Account

VERSION = 1
MAX_LINES = 500000


class Line(NamedTuple):
    account: Account
    fitid: int
    posted: datetime
    cents: int


def entry(line):
    """What names a line. Lines are in the order of their entries."""
    bank, name, kind = line.account
    return bank, name, KINDS.index(kind), line.fitid


def imported(register, lines):
    """What is printed of a file with these lines, and the register after it. A register has each line by its entry."""
    after = dict(register)
    for line in lines:
        if after.setdefault(entry(line), line) != line:
            return b"CLASH %s %s %d\n" % (line.account.number, line.account.kind, line.fitid), register
    if len(after) > MAX_LINES:
        return b"FULL\n", register
    new = len(after) - len(register)
    return b"IMPORT %d %d\n" % (new, len(lines) - new), after


def accounts(register):
    """What is printed of a register: a line of each account."""
    sums = {}
    for key in sorted(register):
        line = register[key]
        count, total = sums.get(line.account, (0, 0))
        sums[line.account] = count + 1, total + line.cents
    return b"".join(
        b"account %s %s lines %d sum %s\n" % (of.number, of.kind, count, written_amount(total))
        for of, (count, total) in sums.items())


def text_of(register):
    return number(1, VERSION) + number(4, len(register)) + b"".join(
        account(line.account) + number(8, line.fitid) + moment(line.posted) + signed(8, line.cents)
        for _, line in sorted(register.items()))


def register_in(text):
    """The register that a text has; NoForm where it has none."""
    register, fields = {}, Fields(text)
    if not text:
        return register
    fields.number(1, (VERSION,))
    last, count = None, fields.number(4, range(MAX_LINES + 1))
    for _ in range(count):
        at = fields.at
        of, fitid = fields.account(), fields.number(8)
        key = entry(Line(of, fitid, None, 0))
        if last is not None and key <= last:
            raise NoForm(at)
        posted, cents = fields.moment(), fields.number(8, range(-MAX_CENTS, MAX_CENTS + 1), signed=True)
        register[key], last = Line(of, fitid, posted, cents), key
    if fields.at < len(text):
        raise NoForm(fields.at)
    return register
