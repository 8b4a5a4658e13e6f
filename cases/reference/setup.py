"""The setup's text: a bank, its users and its accounts, one line each.

The first five lines stand in one order: `OFXBANK 1`, `BANK id`, `LEAD 0` to 30, `WINDOW 1` to 10,000 and `ENTRIES 1` to
9,999,999,999. After them stand 1 to 1,000 lines `USER name password`, then 1 to 1,000 lines `ACCT number kind cents
owner ..`. Each line ends in LF or CRLF, the last one too.
"""
import re
from typing import NamedTuple

from .requests import KINDS, Account

MAX_BYTES = 262144
MAX_USERS = MAX_ACCOUNTS = 1000
MAX_OBJECTS = 1000000  # the window times the number of objects
MAX_OPENINGS = 9999999999999

WORD = re.compile(rb"[!-~]{1,32}")
NUMBER = re.compile(rb"0|[1-9][0-9]*")
LINE_END = re.compile(rb"\r?\n\Z")


class SetupFault(Exception):
    """The number of the first line that has no form or is past a limit, from 1."""

    def __init__(self, line):
        super().__init__(line)
        self.line = line


class Setup(NamedTuple):
    bank: bytes
    lead: int  # how many days ahead of its day a recurring transfer is made
    window: int  # how many of an object's last entries a token may lie behind
    most_entries: int
    users: dict  # name: password
    accounts: dict  # Account: (opening in cents, owners)


def number(word, least, most):
    """The number that a word stands for; None where it is none or out of the range."""
    value = int(word) if NUMBER.fullmatch(word) else None
    return value if value is not None and least <= value <= most else None


def words_of(line):
    """The words of a line, parted by one space; None where one of them isn't 1 to 32 bytes from 0x21 to 0x7E without
    `&`, `<` and `>`."""
    words = line.split(b" ")
    good = all(WORD.fullmatch(word) and not set(word) & set(b"&<>") for word in words)
    return words if good else None


def read_setup(text):
    """The setup that a text spells; otherwise the first line at fault, or the line that is missing after the last."""
    setup, count, at = Lines(), 0, 0
    while at < len(text):
        end = text.find(b"\n", at) + 1
        words = words_of(LINE_END.sub(b"", text[at:end]))
        count += 1
        if not 0 < end <= MAX_BYTES or words is None or not setup.take(words):
            raise SetupFault(count)
        at = end
    if not setup.accounts:
        raise SetupFault(count + 1)
    if setup.window * (3 * len(setup.accounts) + len(setup.users)) > MAX_OBJECTS:
        raise SetupFault(count)
    return Setup(setup.bank, setup.lead_days, setup.window, setup.most_entries, setup.users, setup.accounts)


class Lines:
    """What the lines taken so far say."""

    def __init__(self):
        self.first = [self.format, self.bank_id, self.lead, self.window_size, self.entries]
        self.bank = self.lead_days = self.window = self.most_entries = None
        self.users = {}
        self.accounts = {}

    def take(self, words):
        """Whether these words are a line that may stand here."""
        if self.first:
            return self.first.pop(0)(words)
        if words[0] == b"USER":
            return self.user(words)
        return words[0] == b"ACCT" and self.account(words)

    def format(self, words):
        return words == [b"OFXBANK", b"1"]

    def bank_id(self, words):
        self.bank = words[-1]
        return len(words) == 2 and words[0] == b"BANK"

    def lead(self, words):
        self.lead_days = number(words[-1], 0, 30)
        return len(words) == 2 and words[0] == b"LEAD" and self.lead_days is not None

    def window_size(self, words):
        self.window = number(words[-1], 1, 10000)
        return len(words) == 2 and words[0] == b"WINDOW" and self.window is not None

    def entries(self, words):
        self.most_entries = number(words[-1], 1, 9999999999)
        return len(words) == 2 and words[0] == b"ENTRIES" and self.most_entries is not None

    def user(self, words):
        if len(words) != 3 or self.accounts or words[1] in self.users or len(self.users) == MAX_USERS:
            return False
        self.users[words[1]] = words[2]
        return True

    def account(self, words):
        if len(words) < 5 or words[2] not in KINDS or len(self.accounts) == MAX_ACCOUNTS:
            return False
        name, owners = Account(self.bank, words[1], words[2]), words[4:]
        cents = number(words[3], 0, MAX_OPENINGS)
        if cents is None or sum(opening for opening, _ in self.accounts.values()) + cents > MAX_OPENINGS:
            return False
        if name in self.accounts or len(set(owners)) != len(owners) or not set(owners) <= set(self.users):
            return False
        self.accounts[name] = (cents, frozenset(owners))
        return True
