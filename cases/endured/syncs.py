"""Syncs and writes that fail."""
import os
import resource

from endured.day import Day
from endured.lost import LOST
from endured.serving import Serving
from operated.case import AT, KINDS, case, request, wants
from written.disk_file import read

PAGE = 4096


@case
def failed_sync(place):
    """one sync fails under a server: it acknowledges nothing more, ends with 5, and the next run has what was acknowledged"""
    day = Day(place)
    for kind in KINDS:
        with Serving(place, kind, day.environment) as server:
            server.transfers("t1")
            day.set("unsynced")
            server.transfers("t2", status=503)
            day.end("unsynced")
            server.ends(5, LOST % kind)
        with Serving(place, kind, day.environment) as server:
            status, body = server.ask("sync intra 1001 0")
            wants(status == 200 and b"<TRNUID>t1\r\n" in body, "%d: %r" % (status, body))
            server.transfers("t3")


@case
def failed_sync_at_another_worker(place):
    """after a failed sync no other connection is let in"""
    day = Day(place)
    for kind in KINDS:
        with Serving(place, kind, day.environment, workers=4) as server:
            server.transfers("t1")
            day.set("unsynced")
            server.transfers("t2", status=503)
            day.end("unsynced")
            server.ends(5, LOST % kind)


@case
def full_disk(place):
    """a write that fails is none: the bank goes on once there is room"""
    for kind in KINDS:
        name = kind.split(":")[-1]
        with Serving(place, kind) as server:
            for number in range(20):
                server.transfers("t%d" % number)
            sizes = [os.path.getsize(place.path(one)) for one in (name, name + "-wal") if os.path.exists(place.path(one))]
            _, most = resource.prlimit(server.child.pid, resource.RLIMIT_FSIZE)
            resource.prlimit(server.child.pid, resource.RLIMIT_FSIZE, (min(sizes), most))
            failed = 0
            for number in range(400):
                status, _ = server.ask("transfer f%d 1001 1002 0.01" % number)
                failed += status == 503
                wants(status in (200, 503), "HTTP status %d" % status)
                if failed == 3:
                    break
            wants(failed == 3, "there is always room")
            resource.prlimit(server.child.pid, resource.RLIMIT_FSIZE, (most, most))
            server.transfers("last")


@case
def last_pages(place):
    """the last pages of a file are written again as they were read, and synced, before it is used"""
    day = Day(place)
    place.answers("disk:bank.ofx")
    for _ in range(60):
        place.ends(0, "mail", "setup", "disk:bank.ofx", "bob", "Hi", stream=b"x" * 400)
    before, size = read(place.path("bank.ofx")), os.path.getsize(place.path("bank.ofx"))
    wants(size > 3 * PAGE, "it has %d bytes" % size)
    day.set("calls")
    place.ends(0, "answer", "setup", "disk:bank.ofx", *AT, env=day.environment)
    calls, pages = day.calls(), ["write %d %d" % (at, min(PAGE, size - at)) for at in range(0, size, PAGE)]
    wants(calls[:len(pages) + 1] == pages + ["sync"], "its calls are %r" % calls[:20])
    wants(read(place.path("bank.ofx")) == before, "the records are others")
    # Nothing is written into what is no file of records.
    place.write("letter", "no records\n" * 1000)
    day.set("calls")
    place.ends(8, "answer", "setup", "disk:letter", *AT, env=day.environment, stream=request("statement"))
    wants(not [call for call in day.calls() if call.startswith("write")], "its calls are %r" % day.calls())
