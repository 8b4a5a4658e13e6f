"""Where and why: the second line on the error stream."""
import fcntl
import os
import socket
import sqlite3
from contextlib import closing

from operated.case import AT, KINDS, case, request, wants
from written.rights import give_up_ports, heed_rights


def insert(place, *numbers):
    with closing(sqlite3.connect(place.path("bank.db"))) as database:
        row = database.execute("SELECT bytes FROM records").fetchone()
        database.executemany("INSERT INTO records VALUES (?, ?)", [(number, row[0]) for number in numbers])
        database.commit()


@case
def setup_that_cannot_be_read(place):
    """a setup that isn't there, or is a folder"""
    os.mkdir(place.path("folder"))
    for name, cause in (("nowhere", "there is no such file"), ("no/where", "there is no such file"),
                        ("folder", "it is a folder"), ("setup/x", "there is no such folder")):
        for command in (["answer", name, "-"], ["check", name], ["due", name, "bank.db"]):
            place.tells(5, ["read failed", "%s: %s" % (name, cause)], *command)
    place.write("-", place.text("setup"))
    place.tells(5, ["read failed", "-: there is no such file"], "answer", "-", "-")
    wants("bank.db" not in place.files(), "a file of records was made under a setup that can't be read")


@case
def setup_lines(place):
    """what a line of the setup has to be, without its password, and no file is made"""
    good = place.text("setup")
    for old, new, line, told in (
            ("OFXBANK 1", "OFXBANK 2", 1, "it has to be OFXBANK 1"),
            ("BANK 121099999", "BANK", 2, "it has to be BANK and the bank's number, a word of 1 to 32 bytes without &, < and >"),
            ("LEAD 5", "LEAD 31", 3, "it has to be LEAD and a number from 0 to 30"),
            ("WINDOW 3", "WINDOW 0", 4, "it has to be WINDOW and a number from 1 to 10000"),
            ("ENTRIES 9999999999", "ENTRIES x", 5, "it has to be ENTRIES and a number from 1 to 9999999999"),
            ("USER bob hunter", "USER alice hunter", 7, "it has to be USER, a name and a password, each of 1 to 32 bytes"),
            ("ACCT 1002 SAVINGS 5000 alice bob", "ACCT 1002 SAVING 5000 alice bob", 9, "it has to be ACCT, a number, CHECKING"),
            ("ACCT 1002", "ACT 1002", 9, "it has to be a line USER or ACCT"),
            ("ACCT 1001 CHECKING 10000 alice\nACCT 1002 SAVINGS 5000 alice bob\n", "", 8, "a line is missing")):
        place.write("setup", good.replace(old, new))
        for command in (["answer", "setup", "bank.db", *AT], ["check", "setup"]):
            lines = place.ends(3, *command)
            wants(lines[0] == "setup line %d" % line, "told %r" % lines)
            wants(lines[1].startswith("setup: line %d: %s" % (line, told)), "told %r, wanted %r" % (lines, told))
            wants("hunter" not in "".join(lines), "the password is told: %r" % lines)
    wants(place.files() == ["setup"], "files were made: %s" % place.files())


@case
def setup_without_its_end(place):
    """a setup whose last line has no line feed"""
    good = place.text("setup")
    lines = good.splitlines()
    for count in range(1, len(lines) + 1):
        place.write("setup", "\n".join(lines[:count]))
        for command in (["due", "setup", "bank.db"], ["check", "setup"]):
            place.tells(3, ["setup line %d" % count,
                            "setup: line %d: it is the last line, and has no end: put a line feed after it" % count], *command)
    wants(place.files() == ["setup"], "files were made: %s" % place.files())


@case
def records_at_wrong_paths(place):
    """records at a path that can't be opened"""
    os.mkdir(place.path("folder"))
    os.symlink("nowhere", place.path("link"))
    for front in ("", "disk:"):
        for path, cause in (("folder", "it is a folder"), ("no/bank", "there is no such folder"),
                            ("link", "it is no plain file, or a link to nothing")):
            place.tells(8, ["keeper failed", "%s%s: %s" % (front, path, cause)], "answer", "setup", front + path, *AT)
            place.tells(8, ["keeper failed", "%s%s: %s" % (front, path, cause)], "check", "setup", front + path)
    place.tells(8, ["keeper failed", ":memory:: no file can have this path"], "answer", "setup", ":memory:", *AT)


@case
def records_of_others(place):
    """a file that is none of records"""
    place.write("text", "x" * 5000)
    place.tells(8, ["keeper failed", "text: it is no SQLite database, or a damaged one"], "answer", "setup", "text", *AT)
    place.tells(8, ["keeper failed", "disk:text: it is no file of records made by disk:PATH"], "answer", "setup", "disk:text", *AT)
    with closing(sqlite3.connect(place.path("other"))) as database:
        database.execute("CREATE TABLE mine (x)")
        database.commit()
    place.tells(8, ["keeper failed", "other: it is a database of another program"], "answer", "setup", "other", *AT)
    for path, told in (("text", "it is no SQLite database, or a damaged one"), ("other", "it is a database of another program"),
                       ("disk:other", "it is no file of records made by disk:PATH")):
        place.tells(8, ["keeper failed", "%s: %s" % (path, told)], "check", "setup", path)
    wants(place.text("text") == "x" * 5000, "the text was changed")


@case
def records_that_are_held(place):
    """records that another program has open"""
    place.answers("bank.db")
    place.answers("disk:bank.ofx")
    told = "another run or program has it open; end that first"
    with closing(sqlite3.connect(place.path("bank.db"), isolation_level=None)) as database, open(place.path("bank.ofx")) as f:
        database.execute("BEGIN EXCLUSIVE")
        fcntl.flock(f, fcntl.LOCK_EX)
        for path in KINDS:
            for command in ("due", "check"):
                place.tells(8, ["keeper failed", "%s: %s" % (path, told)], command, "setup", path)


@case
def records_without_rights(place):
    """records without the rights to them, or to their folder"""
    told = "no rights to read and write the file, or to make one in its folder"
    os.mkdir(place.path("folder"))
    place.answers("folder/bank.db")
    os.remove(place.path("folder/bank.db-wal"))
    os.chmod(place.path("folder"), 0o500)
    for kind in KINDS:
        place.answers(kind)
        os.chmod(place.path(kind.split(":")[-1]), 0o400)
        for command in ("due", "check"):
            place.tells(8, ["keeper failed", "%s: %s" % (kind, told)], command, "setup", kind, preexec_fn=heed_rights)
    for path in ("folder/bank.db", "folder/new.db", "disk:folder/new.ofx"):
        place.tells(8, ["keeper failed", "%s: %s" % (path, told)], "due", "setup", path, preexec_fn=heed_rights)
    os.chmod(place.path("folder"), 0o700)
    os.chmod(place.path("setup"), 0)
    place.tells(5, ["read failed", "setup: no rights to read it"], "due", "setup", "-", preexec_fn=heed_rights)


@case
def setup_of_another_user(place):
    """records beside which the setup may not be read"""
    place.answers("disk:bank.ofx")
    os.chmod(place.path("bank.ofx.setup"), 0)
    told = "no rights to read its setup, the file beside it that ends in .setup; it has to be the bank's user's"
    for words in (["due"], ["check"], ["serve"]):
        more = ["8080", "1", "1"] if words == ["serve"] else []
        place.tells(8, ["keeper failed", "disk:bank.ofx: %s" % told], *words, "setup", "disk:bank.ofx", *more,
                    preexec_fn=heed_rights)


@case
def ports(place):
    """a port that another program has, and one without the rights to it"""
    with socket.create_server(("127.0.0.1", 0)) as door:
        port = door.getsockname()[1]
        told = "port %d: another program has it; end that first, or take another port" % port
        place.tells(5, ["read failed", told], "serve", "setup", "-", str(port), "1", "1")
    told = "port 80: no rights to it; below 1024 they are the system's: take a greater one, with a proxy in front"
    place.tells(5, ["read failed", told], "serve", "setup", "-", "80", "1", "1", preexec_fn=give_up_ports)


@case
def second_name(place):
    """records with a second name"""
    place.answers("bank.db")
    os.link(place.path("bank.db"), place.path("again.db"))
    place.tells(8, ["keeper failed", "bank.db: the file has a second name; remove the hard link"], "due", "setup", "bank.db")


@case
def journal(place):
    """records beside which another program left a journal"""
    place.answers("bank.db")
    place.write("bank.db-journal", "x")
    told = "another program left a -journal beside it; open it with sqlite3 once"
    place.tells(8, ["keeper failed", "bank.db: %s" % told], "due", "setup", "bank.db")


@case
def gap(place):
    """a record that is missing"""
    place.answers("bank.db")
    insert(place, 2, 4)
    for command in ("answer", "check"):
        place.tells(8, ["keeper failed", "bank.db: record 3 is missing; restore a copy"], command, "setup", "bank.db")


@case
def cut(place):
    """a file that ends within a record"""
    place.answers("disk:bank.ofx")
    os.truncate(place.path("bank.ofx"), 60)
    for command in ("answer", "check"):
        place.tells(8, ["keeper failed", "disk:bank.ofx: the file ends within record 1; restore a copy"], command, "setup", "disk:bank.ofx")


@case
def records_without_a_form(place):
    """a record that codes no event, and one that can't have happened"""
    with closing(sqlite3.connect(place.path("bank.db"))) as database:
        database.execute("CREATE TABLE records (number INTEGER PRIMARY KEY, bytes BLOB NOT NULL) STRICT")
        database.execute("INSERT INTO records VALUES (1, x'0105')")
        database.commit()
    told = "it is damaged or of another program: restore a copy"
    for command in ("due", "check"):
        place.tells(9, ["record 1 at 1", "bank.db: record 1 codes no event, by its byte 1; %s" % told], command, "setup", "bank.db")
    with closing(sqlite3.connect(place.path("bank.db"))) as database:
        database.execute("UPDATE records SET bytes = x'01020000000065ba36400000000000000001'")
        database.commit()
    told = "run it with the setup that it began with"
    for command in ("due", "check"):
        place.tells(9, ["record 1 illegal", "bank.db: record 1 can't have happened at the bank of this setup; %s" % told],
                    command, "setup", "bank.db")


@case
def input_and_output(place):
    """an input without a form, one that can't be read, and an output that can't be written"""
    place.tells(4, ["frame at 0", "standard input: a frame is a line FILE and a number up to 262144, and so many bytes, or a line DUE"],
                "answer", "setup", "-", stream=b"x\n")
    place.tells(4, ["frame at 0", "standard input: a letter has 1 to 10000 bytes, and of those below a blank only tab, CR and LF"],
                "mail", "setup", "-", "bob", "Hi")


@case
def letters(place):
    """a letter to nobody, and one for which no number is left"""
    place.tells(10, ["no user", "setup: no line USER has the name 'carol'"], "mail", "setup", "-", "carol", "Hi", stream=b"x")
    place.change("ENTRIES 9999999999", "ENTRIES 1")
    place.ends(0, "mail", "setup", "bank.db", "bob", "Hi", stream=b"x")
    place.tells(10, ["full", "setup: all numbers that its line ENTRIES allows are given"],
                "mail", "setup", "bank.db", "bob", "Hi", stream=b"x")
