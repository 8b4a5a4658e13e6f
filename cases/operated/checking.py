"""The command `check`."""
import os
import sqlite3
from contextlib import closing

from operated.binding import unbind
from operated.case import AT, KINDS, case, request, wants

SETUP = "setup setup: 2 users, 2 accounts, 8 objects\n"


def states(place):
    """The bytes of all files, and when they were changed."""
    found = {}
    for name in place.files():
        with open(place.path(name), "rb") as f:
            found[name] = f.read(), os.stat(place.path(name)).st_mtime_ns
    return found


def prints(place, text, *words, status=0):
    before = states(place)
    done = place.run(*words)
    wants((done.returncode, done.stdout.decode()) == (status, text), "%s: status %d, printed %r, told %r, wanted %r" % (
        words, done.returncode, done.stdout, done.stderr, text))
    wants(states(place) == before, "%s: files were changed" % (words,))


@case
def setups(place):
    """what is found in a setup"""
    prints(place, SETUP, "check", "setup")
    prints(place, SETUP + "records -: a run keeps none\n", "check", "setup", "-")


@case
def none_there(place):
    """a mistyped path is seen"""
    for path in ("bnak.db", "disk:bnak.ofx"):
        prints(place, SETUP + "records %s: there is no such file; a run makes it\n" % path, "check", "setup", path)


@case
def numbers(place):
    """what is found in records"""
    for kind in KINDS:
        place.ends(0, "answer", "setup", kind, *AT)
        prints(place, SETUP + "records %s: 0 records, 0 entries, business day 19000101, balances 150.00\n" % kind, "check", "setup", kind)
        place.answers(kind)
        place.ends(0, "answer", "setup", kind, "--at", "20240202", stream=request("statement"))
        place.ends(0, "mail", "setup", kind, "bob", "Hi", stream=b"x")
        done = place.run("check", "setup", kind)
        wants(done.stdout.decode().startswith(SETUP + "records %s: 3 records, 2 entries, business day 2" % kind), repr(done))
        wants(done.stdout.endswith(b", balances 150.00\n"), repr(done))


@case
def log(place):
    """records that stand in the log alone are found"""
    place.answers("bank.db")
    with closing(sqlite3.connect(place.path("bank.db"))) as database:
        database.execute("PRAGMA wal_autocheckpoint = 0")
        row = database.execute("SELECT bytes FROM records").fetchone()
        database.execute("INSERT INTO records VALUES (2, ?)", row)
        database.commit()
        for name in ("bank.db", "bank.db-wal"):
            with open(place.path(name), "rb") as f, open(place.path("copy" + name[4:]), "wb") as g:
                g.write(f.read())
    prints(place, SETUP + "records copy.db: 2 records, 1 entries, business day 20240131, balances 150.00\n", "check", "setup", "copy.db")


@case
def unbound(place):
    """records that are bound to none yet"""
    for kind in KINDS:
        place.answers(kind)
        unbind(place, kind)
        text = SETUP + "records %s: 1 records, 1 entries, business day 20240131, balances 150.00\n" % kind
        prints(place, text + "records %s: bound to no setup; the next run binds them to this one\n" % kind, "check", "setup", kind)


@case
def while_the_bank_runs(place):
    """records that a run has open"""
    told = "another run or program has it open; end that first"
    for kind in KINDS:
        place.answers(kind)
        with place.running("answer", "setup", kind, *AT) as child:
            child.stdin.write(b"DUE\n")
            child.stdin.flush()
            wants(child.stdout.readline() == b"DUE 0\n", "the run doesn't answer")
            for command in ("check", "due"):
                place.tells(8, ["keeper failed", "%s: %s" % (kind, told)], command, "setup", kind)
