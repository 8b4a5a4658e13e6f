"""An older copy of the records that is restored, and a new bank made of it, as docs/records.md says."""
import re
import shutil

from operated.case import AT, KINDS, case, wants
from written.asks import asked
from written.frames import frame
from written.pieces import HEADER

SYNC = "sync intra 1001 %s"
OTHER = "121099998"  # the new bank's id


def told(place, records, *asks, setup="setup"):
    """What comes of files with one ask each."""
    stream = b"".join(frame(asked(HEADER, {"asks": [ask]})) for ask in asks)
    done = place.run("answer", setup, records, *AT, stream=stream)
    wants(done.returncode == 0, "status %d: %r" % (done.returncode, done.stderr))
    return done.stdout.decode("latin-1")


def lost_and_amounts(text):
    return re.findall(r"<LOSTSYNC>(\w)", text), re.findall(r"<TRNAMT>([\d.]+)", text)


def copies(place, records):
    """The files of the records, each with where its copy goes."""
    path = records.split(":")[-1]
    return [(place.path(name), place.path("copy-" + name)) for name in place.files() if name.startswith(path)]


def restored(place, records):
    """A payment, a copy of the records, two payments that a customer has told of, and the copy again."""
    told(place, records, "transfer a1 1001 1002 1.00")
    for one, copy in copies(place, records):
        shutil.copyfile(one, copy)
    kept = told(place, records, "transfer a2 1001 1002 2.00", "transfer a3 1001 1002 3.00", SYNC % 0)
    wants("<TOKEN>3\r\n" in kept, "the customer's token isn't 3: %r" % kept[-600:])
    for one, copy in copies(place, records):
        shutil.copyfile(copy, one)


@case
def token_ahead(place):
    """after an older copy was restored, a customer whose token is ahead is told LOSTSYNC Y"""
    for records in KINDS:
        restored(place, records)
        wants(lost_and_amounts(told(place, records, SYNC % 3)) == (["Y"], []), "%s: it isn't told" % records)


@case
def token_overtaken(place):
    """but isn't told once other payments took the numbers: the reason for a new id"""
    for records in KINDS:
        restored(place, records)
        told(place, records, "transfer b1 1001 1002 4.00", "transfer b2 1001 1002 5.00", "transfer b3 1001 1002 6.00")
        wants(lost_and_amounts(told(place, records, SYNC % 3)) == (["N"], ["6.00"]), "%s: it is told something else" % records)


@case
def new_bank(place):
    """a new bank with another id, made of the copy: each customer with the old id is told, the balances are the copy's"""
    for records in KINDS:
        restored(place, records)
        lines = place.run("check", "setup", records).stdout.decode()
        wants("balances 150.00" in lines, "check says %r" % lines)
        text = place.text("setup")
        for old, new in (("BANK 121099999", "BANK " + OTHER), ("1001 CHECKING 10000", "1001 CHECKING 9900"),
                         ("1002 SAVINGS 5000", "1002 SAVINGS 5100")):
            text = text.replace(old, new)
        place.write("new.setup", text)
        new = records.replace("bank.", "new.")
        told(place, new, "transfer b1 %s/1001/CHECKING %s/1002/SAVINGS 4.00" % (OTHER, OTHER), setup="new.setup")
        for ask, wanted in ((SYNC % 3, "<LOSTSYNC>Y\r\n"), (SYNC % "refresh", "<LOSTSYNC>Y\r\n"),
                            ("transfer a4 1001 1002 1.00", "<CODE>2006\r\n"), ("statement s1 1001", "<CODE>2003\r\n")):
            found = told(place, new, ask, setup="new.setup")
            wants(wanted in found, "%s: %s gets %r" % (records, ask, found[-300:]))
        found = told(place, new, "statement s2 %s/1001/CHECKING" % OTHER, setup="new.setup")
        wants("<BALAMT>95.00\r\n" in found, "%s: the statement is %r" % (records, found[-400:]))
        place.tells(8, ["keeper failed"], "answer", "new.setup", records, *AT)
