"""Banks that have grown: their setup, the files of their records, and the files that are asked of them."""
import sys
from contextlib import closing
from datetime import datetime
from functools import lru_cache

from kept import open_new
from samples import ROOT, sample_file

sys.path.append(ROOT + "/cases")
from reference.events import File
from reference.header import Header
from reference.records import record_of
from reference.requests import Account, Period, Request, Statement, Terms, Transfer
from written.record_file import INSERT

# Users and accounts come in pairs: two accounts are of two users.
TRANSFERS, STATEMENTS, REFRESHES, PASTS = 0, 1, 2, 3  # which pair is asked for what
HISTORIES = (4, 5, 6, 7)  # pairs whose first accounts are asked for their histories
LINES, ROWS = 10, 50  # of a statement and of a refresh
WINDOW = 100  # how many entries of an account are told
HISTORY = 150  # of an account that is asked for its history
LEAST_PAIRS = max(HISTORIES) + 1
LEAST_ENTRIES = LINES + ROWS + HISTORY * len(HISTORIES) + LINES
# Of the first ten of the bank's entries, of all others, and of the last ten.
PAST, DAY, LAST = datetime(2024, 1, 10, 12), datetime(2024, 1, 31, 12), datetime(2024, 2, 1, 12)
AT = "20240202120000"  # of the run
# Moments a week apart from each other, in each of which a recurring transfer makes its next transfer and one is posted.
WEEKS = ["20240209120000", "20240216120000", "20240223120000", "20240301120000", "20240308120000"]
MADE = 5  # transfers that a recurring one makes at once, since they are within LEAD
BANK = b"121099999"
NOWHERE = b"99999"  # no account of the bank
NO_NUMBER = b"0000000000"  # where a record's number comes


def number_of(place):
    return b"%d" % (10001 + place)


def setup_text(pairs):
    """The setup of so many pairs."""
    users = [b"USER u%d p%d" % (place, place) for place in range(2 * pairs)]
    accounts = [
        b"ACCT %s CHECKING 100000000 u%d u%d" % (number_of(place), place // 2 * 2, place // 2 * 2 + 1)
        for place in range(2 * pairs)]
    head = [b"OFXBANK 1", b"BANK " + BANK, b"LEAD 30", b"WINDOW %d" % WINDOW, b"ENTRIES 9999999999"]
    return b"\n".join(head + users + accounts) + b"\n"


def places(pair, number):
    """The accounts of a transfer: to and fro by turns."""
    return (2 * pair, 2 * pair + 1) if number % 2 else (2 * pair + 1, 2 * pair)



@lru_cache(maxsize=None)
def record(pair, ends, at, is_refused=False):
    """A file of one transfer of 0.01 by a user of this pair, which has no number yet. One that is refused goes to no account of
    the bank: it uses up its TRNUID and adds no entry."""
    source, target = (number_of(place) for place in ends)
    ends = (Account(BANK, name, b"CHECKING") for name in (source, NOWHERE if is_refused else target))
    return file_record(pair, Transfer(b"x" + NO_NUMBER, b"INTRARQ", None, Terms(*ends, 1, None)), None, at)


@lru_cache(maxsize=None)
def named_record(pair, at):
    """A file with a name and a statement, which has no number yet."""
    account = Account(BANK, number_of(2 * pair), b"CHECKING")
    return file_record(pair, Statement(b"s" + NO_NUMBER, account, Period(None, None, True)), name_of(0), at)


def file_record(pair, ask, name, at):
    return record_of(File(2 * pair, Request(Header(b"160", None, name, (), 0), b"", b"", (ask,))), at)


def name_of(number):
    return b"alice-20240131-%010d" % number


def numbered(record, number):
    return record.replace(NO_NUMBER, b"%010d" % number)


def records(entries, pairs):
    """The records of so many transfers among so many pairs: those of the statement of a period long past, those of the refreshed
    account, those of the histories, those of all others, and at last those of the other statement."""
    others = [pair for pair in range(pairs) if pair != REFRESHES and pair not in HISTORIES]
    for number in range(1, entries + 1):
        if number <= LINES:
            made = record(PASTS, places(PASTS, number), PAST)
        elif number <= LINES + ROWS:
            # An account is told of those that went out of it.
            made = record(REFRESHES, places(REFRESHES, 1), DAY)
        elif number <= LINES + ROWS + HISTORY * len(HISTORIES):
            pair = HISTORIES[number % len(HISTORIES)]
            made = record(pair, places(pair, 1), DAY)
        elif number <= entries - LINES:
            pair = others[number % len(others)]
            made = record(pair, places(pair, number), DAY)
        else:
            made = record(STATEMENTS, places(STATEMENTS, number), LAST)
        yield numbered(made, number)


def refused_records(count, pairs):
    """The records of so many transfers that are refused."""
    for number in range(1, count + 1):
        pair = number % pairs
        yield numbered(record(pair, places(pair, number), DAY, is_refused=True), number)


def named_records(count, pairs):
    """The records of so many files with names, each with a statement, whose replies are kept."""
    for number in range(1, count + 1):
        yield numbered(named_record(number % pairs, DAY), number)


def make_records(path, records):
    """A file of records."""
    with closing(open_new(path, "OFF")) as database:
        database.execute("BEGIN")
        database.executemany(INSERT, enumerate(records, 1))
        database.execute("COMMIT")


def account(place, end):
    return b"<BANKACCT%s>\r\n<BANKID>%s\r\n<ACCTID>%s\r\n<ACCTTYPE>CHECKING\r\n</BANKACCT%s>\r\n" % (
        end, BANK, number_of(place), end)


def framed(pair, asks, name=b"NONE"):
    """The frame of a file of a user of this pair."""
    file = sample_file().replace(b"NEWFILEUID:NONE", b"NEWFILEUID:" + name).replace(b"<USERID>alice\r\n", b"<USERID>u%d\r\n" % (2 * pair))
    file = file.replace(b"<USERPASS>secret\r\n", b"<USERPASS>p%d\r\n" % (2 * pair))
    start, end = file[:file.index(b"<STMTTRNRQ>")], file[file.index(b"</BANKMSGSRQV1>"):]
    whole = start + asks + end
    return b"FILE %d\n" % len(whole) + whole


def transfer(number):
    source, target = places(TRANSFERS, number)
    return (
        b"<INTRATRNRQ>\r\n<TRNUID>n%d\r\n<INTRARQ>\r\n<XFERINFO>\r\n%s%s<TRNAMT>0.01\r\n</XFERINFO>\r\n</INTRARQ>\r\n"
        b"</INTRATRNRQ>\r\n") % (number, account(source, b"FROM"), account(target, b"TO"))


def transfers(first, files, in_a_file):
    """Frames of files with so many new transfers each."""
    return [
        framed(TRANSFERS, b"".join(transfer(first + number) for number in range(start, start + in_a_file)))
        for start in range(0, files * in_a_file, in_a_file)]


def model(number):
    """A recurring transfer that makes its transfers every week."""
    source, target = places(TRANSFERS, number)
    return (
        b"<RECINTRATRNRQ>\r\n<TRNUID>m%d\r\n<RECINTRARQ>\r\n<RECURRINST>\r\n<NINSTS>%d\r\n<FREQ>WEEKLY\r\n"
        b"</RECURRINST>\r\n<INTRARQ>\r\n<XFERINFO>\r\n%s%s<TRNAMT>0.01\r\n<DTDUE>20240203\r\n</XFERINFO>\r\n</INTRARQ>\r\n"
        b"</RECINTRARQ>\r\n</RECINTRATRNRQ>\r\n") % (
            number, MADE + len(WEEKS), account(source, b"FROM"), account(target, b"TO"))


def models(count, in_a_file):
    """Frames of files with so many new recurring transfers each."""
    return [
        framed(TRANSFERS, b"".join(model(number) for number in range(start, min(start + in_a_file, count))))
        for start in range(0, count, in_a_file)]


def statement(pair, period, name=b"NONE"):
    """A statement of a pair's first account, with the lines of a period."""
    return framed(pair, (
        b"<STMTTRNRQ>\r\n<TRNUID>s1\r\n<STMTRQ>\r\n%s<INCTRAN>\r\n%s<INCLUDE>Y\r\n</INCTRAN>\r\n"
        b"</STMTRQ>\r\n</STMTTRNRQ>\r\n") % (account(2 * pair, b"FROM"), period), name)


def last_statement():
    """A statement of the bank's last day, with ten lines."""
    return statement(STATEMENTS, b"<DTSTART>20240201\r\n")


def past_statement():
    """A statement of a day long past, with ten lines."""
    return statement(PASTS, b"<DTSTART>20240110\r\n<DTEND>20240111\r\n")


def refresh():
    """All transfers of an account that has fifty."""
    return framed(REFRESHES, (
        b"<INTRASYNCRQ>\r\n<REFRESH>Y\r\n<REJECTIFMISSING>N\r\n%s</INTRASYNCRQ>\r\n") % account(2 * REFRESHES, b"FROM"))


def history(pair):
    """As many of an account's last entries as are told."""
    first = LINES + ROWS + 1
    first += (HISTORIES.index(pair) - first) % len(HISTORIES)
    before = first + len(HISTORIES) * (HISTORY - WINDOW - 1)
    return framed(pair, (
        b"<INTRASYNCRQ>\r\n<TOKEN>%d\r\n<REJECTIFMISSING>N\r\n%s</INTRASYNCRQ>\r\n") % (before, account(2 * pair, b"FROM")))


def kept_file():
    """The first of the files with names once more, where there are two pairs or more."""
    return statement(1, b"", name_of(1))
