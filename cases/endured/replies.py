"""Replies that are too long, and banks that open from their records."""
import os
import re
import subprocess
import time

from endured.serving import Serving
from operated.case import KINDS, case, wants

LEAST = 65_536  # the least bound of replies
ROWS = 60  # transfers in the history; a refreshed one has some 440 bytes
REFRESH = "sync intra 1001 refresh"
LONG = 60_000_000  # a reply that no bank has to make again


def bounded(most):
    return {**os.environ, "OFXBANK_MAX_REPLY": str(most)}


def with_history(place):
    """The setup keeps a history of all transfers."""
    place.change("WINDOW 3", "WINDOW 999")


def fills(server, rows=ROWS):
    status, _ = server.ask(*("transfer row%d 1001 1002 0.01" % number for number in range(rows)))
    wants(status == 200, "the transfers got %d" % status)


def records(place, kind):
    """What `check` tells of the records."""
    done = place.run("check", "setup", kind)
    wants(done.returncode == 0, "check: status %d; told %r" % (done.returncode, done.stderr))
    return done.stdout


@case
def too_long(place):
    """a file whose reply would be too long gets 500, and nothing of it has happened"""
    with_history(place)
    for kind in KINDS:
        with Serving(place, kind, bounded(LEAST)) as server:
            fills(server)
            status, body = server.ask(REFRESH, REFRESH)
            wants(status == 200 and 40_000 < len(body) <= LEAST, "two histories: %d, %d bytes" % (status, len(body)))
        before = records(place, kind)
        with Serving(place, kind, bounded(LEAST)) as server:
            for count in 4, 40:  # refused once printed, and refused by its rows
                found = server.ask("transfer late 1001 1002 1.00", *[REFRESH] * count)
                wants(found == (500, b"no memory\n"), "%d histories: %d, %r" % (count, found[0], found[1][:80]))
        wants(records(place, kind) == before, "%s: there are other records now" % kind)
        with Serving(place, kind, bounded(LEAST)) as server:
            status, body = server.ask("transfer late 1001 1002 1.00")
            wants(status == 200 and b"<CODE>0\r\n" in body.split(b"<INTRATRNRS>")[1], "the transfer: %d, %r" % (status, body))


@case
def lowered(place):
    """a kept reply that is longer than a bound of today is sent again, and its records open the bank"""
    with_history(place)
    for kind in KINDS:
        with Serving(place, kind) as server:
            fills(server)
            status, long = server.ask(*[REFRESH] * 4, new="LONG")
            wants(status == 200 and len(long) > LEAST, "four histories: %d, %d bytes" % (status, len(long)))
        with Serving(place, kind, bounded(LEAST)) as server:
            status, again = server.ask(*[REFRESH] * 4, new="LONG")
            wants(status == 200 and again == long, "sent again: %d, %d bytes" % (status, len(again)))


@case
def words(place):
    """values that the bound can't have"""
    for value in "0", "65535", "67108865", "1e6", "-1":
        line = "OFXBANK_MAX_REPLY: its value in the environment has to be a number from 65536 to 67108864"
        told = place.ends(2, "serve", "setup", "-", "1", "1", "1", env=bounded(value))
        wants(told[-1] == line, "%r: told %r" % (value, told[-1:]))


def peak(place, kind):
    """How many bytes a check of the records has resident at most, as far as it is seen while it runs."""
    most = 0
    with subprocess.Popen([place.program, "check", "setup", kind], cwd=place.folder, stdout=subprocess.DEVNULL) as child:
        while child.poll() is None:
            with open("/proc/%d/status" % child.pid) as f:
                seen = re.search(r"VmHWM:\s+(\d+) kB", f.read())
            most = max(most, int(seen[1]) * 1024 if seen else 0)
            time.sleep(0.002)
    wants(child.returncode == 0, "check: status %d" % child.returncode)
    return most


@case
def opening(place):
    """a bank that opens doesn't print a long reply again that it doesn't keep"""
    with_history(place)
    asks = [REFRESH] * (LONG // (440 * 300))
    peaks = []
    for name in "NONE", "LONG":
        kind = "disk:%s.ofx" % name
        with Serving(place, kind, bounded(67_108_864)) as server:
            fills(server, rows=300)
            status, body = server.ask(*asks, new=name)
            wants(status == 200 and len(body) > LONG // 2, "%d, %d bytes" % (status, len(body)))
        peaks.append(peak(place, kind))
    wants(peaks[0] + 3 * len(body) // 2 < peaks[1], "%d bytes where the reply isn't kept, %d where it is" % tuple(peaks))
