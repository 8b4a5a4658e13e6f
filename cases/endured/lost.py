"""Records that are gone, and files in whose place something else stands."""
import os
import shutil

from endured.serving import Serving
from operated.case import AT, KINDS, case, request, wants

EXPECTED = "%s: there is no such file, or it is empty, and OFXBANK_EXPECT_RECORDS is 1: mount its disk or restore a copy; " \
           "for a new bank run once without that word"
LOST = "%s: a sync failed, or the file was renamed, removed or replaced; nothing more is kept in it: look into the system's log"


def expecting(value="1"):
    return {**os.environ, "OFXBANK_EXPECT_RECORDS": value}


def commands(kind):
    return (["answer", "setup", kind, *AT], ["due", "setup", kind], ["mail", "setup", kind, "bob", "Hi"], ["check", "setup", kind],
            ["serve", "setup", kind, "1", "1", "1"])


@case
def missing(place):
    """records that have to be there and aren't: each command ends with 8, and makes none"""
    for kind in KINDS:
        name = kind.split(":")[-1]
        for is_empty in (False, True):
            if is_empty:
                place.write(name, "")
            before = place.files()
            for words in commands(kind):
                lines = place.ends(8, *words, stream=b"x", env=expecting())
                wants(lines == ["keeper failed", EXPECTED % kind], "%s: told %r" % (words, lines))
                wants(place.files() == before, "%s: there are now %s" % (words, place.files()))
        os.remove(place.path(name))
        place.tells(8, ["keeper failed", "%s: there is no such folder" % kind.replace("bank", "no/bank")],
                    "due", "setup", kind.replace("bank", "no/bank"), env=expecting())


@case
def there(place):
    """records that have to be there and are, also ones without a record"""
    for kind in KINDS:
        place.ends(0, "due", "setup", kind, env=expecting("0"))
        place.ends(0, "due", "setup", kind, env=expecting())
        place.answers(kind)
        for words in commands(kind)[:4]:
            place.ends(0, *words, stream=b"" if words[0] == "answer" else b"x", env=expecting())
        with Serving(place, kind, expecting()) as server:
            server.transfers("t1")
    place.ends(0, "due", "setup", "-", env=expecting())


@case
def killed_at_first(place):
    """records of a server that was killed before it copied its log are there"""
    for kind in KINDS:
        with Serving(place, kind) as server:
            server.transfers("t1")
        place.ends(0, "due", "setup", kind, env=expecting())


@case
def made_by_hand(place):
    """a letter or due work that makes a file tells it, behind an empty line"""
    told = "records %s, new: there were none; if there should be, the path is wrong, or a disk isn't mounted"
    for kind in KINDS:
        for words in (["due", "setup", kind], ["mail", "setup", kind, "bob", "Hi"]):
            lines = place.ends(0, *words, stream=b"x")
            wants(lines == ["", told % kind], "%s: told %r" % (words, lines))
            wants(place.ends(0, *words, stream=b"x") == [], "%s: something is told of records that are there" % words)
            for name in place.files():
                if name.startswith("bank"):
                    os.remove(place.path(name))
        # Of a letter to nobody the cause comes first.
        lines = place.ends(10, "mail", "setup", kind, "carol", "Hi", stream=b"x")
        wants(lines[0] == "no user" and told % kind not in lines, "told %r" % lines)
        place.ends(0, "answer", "setup", "x" + kind if kind[0] != "d" else "disk:xbank", *AT, stream=request("transfer"))


def renamed(place, name):
    os.rename(place.path(name), place.path("gone"))


def removed(place, name):
    os.remove(place.path(name))


def replaced(place, name):
    shutil.copyfile(place.path(name), place.path("copy"))
    os.rename(place.path("copy"), place.path(name))


@case
def gone_under_a_server(place):
    """the file is renamed, removed or replaced under a server, which acknowledges nothing more, and ends with 5"""
    for kind in KINDS:
        name = kind.split(":")[-1]
        for harm in (renamed, removed, replaced):
            with Serving(place, kind) as server:
                server.transfers("t1")
                harm(place, name)
                server.transfers("t2", status=503)
                server.ends(5, LOST % kind)
            for one in place.files():
                if one.startswith((name, "gone")):
                    os.remove(place.path(one))


@case
def draft_of_a_setup(place):
    """a link at the place of a setup's draft isn't followed, and a draft that was left is replaced"""
    place.write("victim", "precious\n")
    os.symlink("victim", place.path("bank.ofx.setup.new"))
    place.answers("disk:bank.ofx")
    wants(place.text("victim") == "precious\n", "the link's file is %r" % place.text("victim"))
    wants(not os.path.islink(place.path("bank.ofx.setup")) and place.mode("bank.ofx.setup") == 0o600, "the setup is a link")
    place.write("other.ofx.setup.new", "left by a run\n", mode=0o644)
    place.answers("disk:other.ofx")
    wants(place.text("other.ofx.setup") == place.text("bank.ofx.setup"), "the setups differ")
    wants(place.mode("other.ofx.setup") == 0o600, "its mode is %o" % place.mode("other.ofx.setup"))
    wants(not [name for name in place.files() if name.endswith(".new")], "drafts are left: %s" % place.files())


@case
def second_name(place):
    """a file with a second name"""
    for kind in KINDS:
        name = kind.split(":")[-1]
        place.answers(kind)
        os.link(place.path(name), place.path("second"))
        place.tells(8, ["keeper failed", "%s: the file has a second name; remove the hard link" % kind], "due", "setup", kind)
        os.remove(place.path("second"))
        place.ends(0, "due", "setup", kind)
