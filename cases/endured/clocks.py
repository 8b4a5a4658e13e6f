"""Clocks that are wrong."""
import calendar
import os
import re
import subprocess
import time

from endured.day import Day
from endured.serving import Serving
from operated.case import AT, KINDS, case, request, wants
from written.frames import FILE_LINE

DAY = 86400
BEHIND = re.compile(r"(.+): they end (\d+) days before the machine's clock, more than OFXBANK_MAX_DAYS allows; set the clock, or, "
                    r"where it is right, start with OFXBANK_MAX_DAYS=(\d+)")
MOMENT = re.compile(rb"<DTSERVER>([0-9]{14})\r\n")
HELD = ("clock: it was set more than a day ahead, and the bank goes on by the machine's steady clock; set it right, or start the "
        "bank again")


def days(number):
    return {**os.environ, "OFXBANK_MAX_DAYS": str(number)}


def bytes_of(place, kind):
    with open(place.path(kind.split(":")[-1]), "rb") as f:
        return f.read()


@case
def records_far_behind(place):
    """records that end too many days before the clock, and how to go on"""
    began = int(time.time())
    for kind in KINDS:
        place.answers(kind)
        # A weekly transfer, so that due work by a wrong clock would be done.
        place.ends(0, "answer", "setup", kind, *AT, stream=request("rent"))
        before = bytes_of(place, kind)
        commands = (["due", "setup", kind], ["mail", "setup", kind, "bob", "Hi"], ["answer", "setup", kind],
                    ["serve", "setup", kind, "0", "1", "1"])
        for words in commands[:3]:
            lines = place.ends(8, *words, stream=b"x", env=days(10))
            found = BEHIND.fullmatch(lines[1])
            wants(lines[0] == "keeper failed" and found and found[1] == kind, "%s: told %r" % (words, lines))
            behind = (began - calendar.timegm((2024, 1, 31, 12, 0, 0))) // DAY
            wants(int(found[2]) in (behind, behind + 1) and int(found[3]) == int(found[2]) + 1, "told %r" % lines)
        wants(bytes_of(place, kind) == before, "%s: the records were changed" % kind)
        # A given moment isn't the clock's.
        place.ends(0, "answer", "setup", kind, *AT, env=days(10))
        place.ends(0, "due", "setup", kind, env=days(found[3]))
        place.ends(0, "due", "setup", kind, env=days(10))
    place.ends(0, "due", "setup", "new.db", env=days(10))


@case
def served_far_behind(place):
    """a server whose records end too many days before the clock"""
    for kind in KINDS:
        place.answers(kind)
        lines = place.ends(8, "serve", "setup", kind, "1", "1", "1", env=days(10))
        wants(lines[0] == "keeper failed" and BEHIND.fullmatch(lines[1]), "told %r" % lines)
        with Serving(place, kind, days(100000)) as server:
            server.transfers("t1")


@case
def bad_variables(place):
    """variables of the environment whose values have no form"""
    for name, value, most in (("OFXBANK_MAX_DAYS", "x", 4000000), ("OFXBANK_MAX_DAYS", "4000001", 4000000),
                              ("OFXBANK_EXPECT_RECORDS", "2", 1), ("OFXBANK_EXPECT_RECORDS", "yes", 1)):
        lines = place.ends(2, "due", "setup", "bank.db", env={**os.environ, name: value})
        wants(lines[0] == "usage" and lines[-1] == "%s: its value in the environment has to be a number from 0 to %d" % (name, most),
              "told %r" % lines)
        wants(place.files() == ["setup"], "files were made: %s" % place.files())
    place.ends(0, "due", "setup", "-", env={**os.environ, "OFXBANK_MAX_DAYS": "", "OFXBANK_EXPECT_RECORDS": ""})


def moment_in(some):
    return calendar.timegm(time.strptime(MOMENT.search(some)[1].decode(), "%Y%m%d%H%M%S"))


@case
def clock_set_ahead(place):
    """a clock that is set ten years ahead within a run"""
    day = Day(place)
    words = [place.program, "answer", "setup", "bank.db"]
    with subprocess.Popen(words, cwd=place.folder, stdin=subprocess.PIPE, stdout=subprocess.PIPE, env=day.environment) as child:
        try:
            wants(abs(moment_in(answer(child)) - time.time()) < 60, "the first moment isn't the clock's")
            day.set("ahead", str(3600))
            wants(abs(moment_in(answer(child)) - time.time() - 3600) < 60, "an hour ahead isn't let be")
            day.set("ahead", str(3650 * DAY))
            wants(abs(moment_in(answer(child)) - time.time() - DAY) < 60, "the clock goes further ahead than a day")
            day.end("ahead")
            wants(abs(moment_in(answer(child)) - time.time()) < 60, "the clock doesn't come back")
        finally:
            child.kill()


def answer(child):
    """The answer to a request for a statement."""
    child.stdin.write(request("statement"))
    child.stdin.flush()
    head = FILE_LINE.fullmatch(child.stdout.readline())
    return child.stdout.read(int(head[1]))


@case
def served_clock_set_ahead(place):
    """the same of a server, which tells it"""
    day = Day(place)
    with Serving(place, "disk:bank.ofx", day.environment, workers=1) as server:
        server.transfers("t1")
        day.set("ahead", str(3650 * DAY))
        wants(abs(moment_in(server.ask("statement s1 1001")[1]) - time.time() - DAY) < 60, "the clock goes further ahead than a day")
        server.transfers("t2")
        wants(server.lines().count(HELD) == 1, "told %r" % server.lines())
