"""Files of records, made by the stock SQLite or for `disk:PATH`, with records in the coding of the second reading in cases/reference/."""
import os
import sqlite3
import sys
import time
from contextlib import closing
from datetime import datetime

from samples import ROOT

sys.path.append(os.path.join(ROOT, "cases"))
from written.disk_file import file_of
from written.record_file import INSERT, TABLE
from reference.events import File, Letter
from reference.header import Header
from reference.records import record_of
from reference.requests import Account, Period, Request, Statement, Terms, Transfer

MOMENT = datetime(2024, 1, 31, 12)
CHECKING, SAVINGS = (Account(b"121099999", *name) for name in ((b"1001", b"CHECKING"), (b"1002", b"SAVINGS")))


def open_new(path, synchronous):
    """A new file of records, open, in the journal mode in which the program keeps its own."""
    database = sqlite3.connect(path, isolation_level=None)
    database.execute("PRAGMA journal_mode = WAL")
    database.execute("PRAGMA synchronous = %s" % synchronous)
    database.execute(TABLE)
    return database


def seconds_to_insert(path, records):
    """The wall's seconds of the stock SQLite for as many commits."""
    start = time.perf_counter()
    with closing(open_new(path, "FULL")) as database:
        for number, record in enumerate(records, 1):
            database.execute(INSERT, (number, record))
    return time.perf_counter() - start


def make_file(path, kind, count):
    """A file with so many records of one of the kinds."""
    with closing(open_new(path, "OFF")) as database:
        database.execute("BEGIN")
        database.executemany(INSERT, ((number, KINDS[kind](number)) for number in range(1, count + 1)))
        database.execute("COMMIT")


def make_disk_file(path, kind, count):
    """The same records in a file for `disk:PATH`."""
    with open(path, "wb") as f:
        f.write(file_of([KINDS[kind](number) for number in range(1, count + 1)]))


def file(asks, name=None):
    return record_of(File(0, Request(Header(b"160", None, name, (), 0), b"", b"", asks)), MOMENT)


def statement(number, name=None):
    return file((Statement(b"s%d" % number, CHECKING, Period(None, None, True)),), name)


def named(number):
    return statement(number, b"alice-20240131-%d" % number)


def letter(number):
    body = b"Dear customer,\r\n\r\nthis is letter %d.\r\n\r\nYour bank" % number
    return record_of(Letter(0, b"Your account", body), MOMENT)


def transfer(number):
    """A transfer of 0.01, out of 1001 where the number is odd, and back where it is even."""
    ends = (CHECKING, SAVINGS) if number % 2 else (SAVINGS, CHECKING)
    return file((Transfer(b"x%d" % number, b"INTRARQ", None, Terms(*ends, 1, None)),))


KINDS = {"statements": statement, "letters": letter, "files with names": named, "transfers": transfer}
