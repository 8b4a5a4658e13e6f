"""Records belong to the setup that they began with."""
import os
import sqlite3
from contextlib import closing

from operated.case import AT, KINDS, case, request, wants

BEGAN = "the records began with another setup: "


def unbind(place, kind):
    """Takes away what records are bound to, as in a file from before files were bound."""
    if kind.startswith("disk:"):
        os.remove(place.path("bank.ofx.setup"))
        return
    with closing(sqlite3.connect(place.path("bank.db"))) as database:
        database.execute("DROP TABLE setup")
        database.commit()


def refused(place, kind, told):
    """The records are as they were, and each command is refused with this cause."""
    name = kind.split(":")[-1]
    with open(place.path(name), "rb") as f:
        before = f.read()
    for words, stream in ((["answer", "setup", kind, *AT], request("statement")), (["due", "setup", kind], b""),
                          (["mail", "setup", kind, "bob", "Hi"], b"x"), (["check", "setup", kind], b""),
                          (["serve", "setup", kind, "1", "1", "1"], b"")):
        place.tells(8, ["keeper failed", "%s: %s" % (kind, told)], *words, stream=stream)
    with open(place.path(name), "rb") as f:
        wants(f.read() == before, "the records were changed")


CHANGES = (
    ("USER alice secret\nUSER bob hunter\n", "USER bob hunter\nUSER alice secret\n", "its line 6 was 'USER alice'"),
    ("USER alice secret\n", "USER zoe pass\nUSER alice secret\n", "its line 6 was 'USER alice'"),
    ("CHECKING 10000 alice", "CHECKING 20000 alice", "its line 8 was 'ACCT 1001 CHECKING 10000 alice'"),
    ("BANK 121099999", "BANK 1", "its line 2 was 'BANK 121099999'"),
    ("LEAD 5", "LEAD 6", "its line 3 was 'LEAD 5'"),
    ("alice bob\n", "alice bob\nACCT 1003 SAVINGS 0 bob\n", "it had no line 10"),
    ("ACCT 1002 SAVINGS 5000 alice bob\n", "", "its line 9 was 'ACCT 1002 SAVINGS 5000 alice bob'"),
)


@case
def another_setup(place):
    """records that began with another setup aren't opened"""
    good = place.text("setup")
    for kind in KINDS:
        place.answers(kind)
        for old, new, told in CHANGES:
            wants(old in good, old)
            place.write("setup", good.replace(old, new))
            refused(place, kind, BEGAN + told)
        place.write("setup", good)
        place.answers(kind, "statement")


@case
def another_password(place):
    """another password, and other ends of lines, are the same setup"""
    for kind in KINDS:
        place.answers(kind)
        place.change("USER bob hunter", "USER bob Other!1")
        wants(b"<CODE>15500" not in place.answers(kind, "statement"), "alice is refused")
        place.change("USER bob Other!1", "USER bob hunter")
        good = place.text("setup")
        place.write("setup", good.replace("\n", "\r\n"))
        place.answers(kind, "statement")
        place.write("setup", good)


@case
def without_passwords(place):
    """what records are bound to has no password"""
    place.answers("bank.db")
    place.answers("disk:bank.ofx")
    with closing(sqlite3.connect(place.path("bank.db"))) as database:
        (lines,), = database.execute("SELECT lines FROM setup")
    good = place.text("setup").replace(" secret", "").replace(" hunter", "")
    wants(lines == good, "bank.db has %r" % lines)
    wants(place.text("bank.ofx.setup") == good, "bank.ofx.setup has %r" % place.text("bank.ofx.setup"))
    for name in place.files():
        with open(place.path(name), "rb") as f:
            wants(name == "setup" or b"hunter" not in f.read(), "%s has a password" % name)
    wants([name for name in place.files() if name.endswith(".new")] == [], "a draft is left: %s" % place.files())


@case
def from_before(place):
    """records from before are bound at their first opening"""
    good = place.text("setup")
    for kind in KINDS:
        place.answers(kind)
        unbind(place, kind)
        place.answers(kind, "statement")
        place.change("LEAD 5", "LEAD 6")
        refused(place, kind, BEGAN + "its line 3 was 'LEAD 5'")
        place.write("setup", good)
        place.answers(kind, "statement")


@case
def from_before_under_another(place):
    """records from before that can't have happened at the bank of a setup are bound to none"""
    good = place.text("setup")
    for kind in KINDS:
        place.ends(0, "mail", "setup", kind, "bob", "Hi", stream=b"x")
        unbind(place, kind)
        place.write("setup", good.replace("USER bob hunter\n", "").replace(" bob\n", "\n"))
        wants(place.ends(9, "due", "setup", kind)[0] == "record 1 illegal", "another cause is told")
        place.write("setup", good)
        place.answers(kind, "statement")


@case
def bound_once(place):
    """records are bound when they are made, and a bound file without records is bound too"""
    for kind in KINDS:
        place.ends(0, "answer", "setup", kind, *AT)
        place.change("LEAD 5", "LEAD 6")
        refused(place, kind, BEGAN + "its line 3 was 'LEAD 5'")
        place.change("LEAD 6", "LEAD 5")


@case
def begun_anew(place):
    """a file that is gone or emptied begins anew, under any setup"""
    for kind in KINDS:
        name = kind.split(":")[-1]
        place.answers(kind)
        for beside in ("", "-wal"):
            if os.path.exists(place.path(name + beside)):
                os.remove(place.path(name + beside))
        place.change("LEAD 5", "LEAD 6")
        place.answers(kind)
        open(place.path(name), "w").close()
        if os.path.exists(place.path(name + "-wal")):
            os.remove(place.path(name + "-wal"))
        place.change("LEAD 6", "LEAD 5")
        place.answers(kind)


@case
def nothing_is_made(place):
    """a setup that is at fault makes no file, and binds nothing"""
    place.change("LEAD 5", "LEAD x")
    for kind in KINDS:
        place.ends(3, "due", "setup", kind)
    wants(place.files() == ["setup"], "files were made: %s" % place.files())
