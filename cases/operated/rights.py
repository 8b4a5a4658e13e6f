"""Who may read the files."""
import os

from operated.case import KINDS, case, wants


@case
def made_for_the_owner(place):
    """the files of records are made for their owner alone, whatever the umask"""
    for mask in (0o000, 0o022):
        os.umask(mask)
        try:
            for kind in KINDS:
                place.answers(kind)
        finally:
            os.umask(0o022)
        for name in place.files():
            wants(place.mode(name) == 0o600, "%s has mode %o" % (name, place.mode(name)))
            if name != "setup":
                os.remove(place.path(name))


@case
def log_for_the_owner(place):
    """the log of an SQLite file is made for its owner alone"""
    place.answers("bank.db")
    os.rename(place.path("bank.db-wal"), place.path("gone")) if "bank.db-wal" in place.files() else None
    place.ends(0, "due", "setup", "bank.db")
    wants(place.mode("bank.db-wal") == 0o600, "mode %o" % place.mode("bank.db-wal"))


@case
def open_setup(place):
    """a setup that others can read is told, after an empty line where the run is well"""
    os.chmod(place.path("setup"), 0o644)
    told = "warning: setup: others can read it, and it has the passwords; chmod 600 setup"
    place.tells(0, ["", told], "due", "setup", "-")
    place.tells(0, ["", told], "check", "setup")
    lines = place.ends(10, "mail", "setup", "-", "carol", "Hi", stream=b"x")
    wants(lines[0] == "no user" and lines[-1] == told, "told %r" % lines)
    os.chmod(place.path("setup"), 0o640)
    place.tells(0, ["", told], "due", "setup", "-")
    os.chmod(place.path("setup"), 0o600)
    wants(place.ends(0, "due", "setup", "-") == [], "something is told")


@case
def open_records(place):
    """records that others can read are told"""
    for kind in KINDS:
        name = kind.split(":")[-1]
        place.answers(kind)
        os.chmod(place.path(name), 0o644)
        told = "warning: %s: others can read it, and it has all that the bank knows; chmod 600 %s" % (name, name)
        place.tells(0, ["", told], "due", "setup", kind)
        place.tells(0, ["", told], "check", "setup", kind)
