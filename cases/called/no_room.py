"""Saves that fail, for want of room or of rights: the old text stands, and the next run goes on from it."""
import os
import subprocess
from contextlib import contextmanager

from called.advice import judge_advice
from called.customer import let_write
from called.desk import expect
from called.paper import CLOSES, Paper, says
from called.relay import swallows
from reference.answer import now
from reference.client_text import client_in
from reference.http import reply
from served.server import bear_limits
from written.rights import heed_rights

TRANSFER = "transfer 1001 CHECKING 1002 SAVINGS 10.00"
SYNC = "sync 1001 CHECKING"
LINES = "done c1-1-1 0", "intra 1001 CHECKING token 1 lost N rows 1"
BAD_FILE = reply(400, b"bad file at 0\n", closes=False)
TESTS = []


def test(function):
    TESTS.append(function)
    return function


class Skipped(Exception):
    """This machine can't bar writing so."""


class Limit:
    """No file may be written."""

    def __init__(self, desk):
        self.desk = desk

    def ready(self):
        """In the process of a run, before it."""
        bear_limits()

    def store(self, name):
        return os.path.join(self.desk.folder, name)

    def begin(self):
        """As `ready`, where nothing can be written from the beginning."""
        self.ready()
        let_write(0, 0)

    def bar(self, child):
        let_write(child.pid, 0)

    def free(self):
        pass


class Rights(Limit):
    """The store's folder may not be written."""

    def __init__(self, desk):
        super().__init__(desk)
        self.folder = os.path.join(desk.folder, "barred")
        os.mkdir(self.folder)

    def ready(self):
        heed_rights()

    def store(self, name):
        return os.path.join(self.folder, name)

    def begin(self):
        self.ready()
        os.chmod(self.folder, 0o500)

    def bar(self, child):
        os.chmod(self.folder, 0o500)

    def free(self):
        os.chmod(self.folder, 0o700)


class Full(Limit):
    """The store lies on a disk that is full."""

    SIZE = 65536

    def __init__(self, desk):
        super().__init__(desk)
        self.folder = os.path.join(desk.folder, "disk")
        os.mkdir(self.folder)
        subprocess.run(["mount", "-t", "tmpfs", "-o", "size=%d" % self.SIZE, "tmpfs", self.folder], check=True,
                       stderr=subprocess.DEVNULL)

    def ready(self):
        pass

    def store(self, name):
        return os.path.join(self.folder, name)

    def begin(self):
        self.bar(None)

    def bar(self, child):
        with open(os.path.join(self.folder, "filled"), "wb", buffering=0) as f:
            try:
                while f.write(b"x" * 4096):
                    pass
            except OSError:
                pass  # it is full

    def free(self):
        if os.path.exists(os.path.join(self.folder, "filled")):
            os.remove(os.path.join(self.folder, "filled"))

    def end(self):
        subprocess.run(["umount", self.folder], check=True)


@contextmanager
def barred(desk, kind):
    """What bars writing."""
    try:
        how = kind(desk)
    except (OSError, subprocess.CalledProcessError) as why:
        raise Skipped(why) from None
    try:
        yield how
    finally:
        how.free()
        if hasattr(how, "end"):
            how.end()


def each_save(desk, kind):
    """At each save of each way through a run, the save fails."""
    with barred(desk, kind) as how:
        runs = Saves(desk, how)
        runs.first()
        runs.behind_the_reply()
        runs.sent_again()
        runs.given_up()
        runs.nothing_to_save()


class Saves:
    def __init__(self, desk, how):
        self.desk, self.how, self.count = desk, how, 0

    def customer(self):
        self.count += 1
        c1 = self.desk.customer()
        c1.store = self.how.store("store%d" % self.count)
        return c1

    def fails(self, c1, command, act, saves, at_once=False):
        """A run of which only so many saves can be made fails at the next, and the text stands that was saved last."""
        done, lines = self.desk.run_whole(c1, command, act, saves, self.how.begin if at_once else self.how.ready)
        self.how.free()
        expect((done.status, done.note(), lines), (8, "keeper failed", []), "the end of %r" % command)
        expect(os.path.exists(c1.store + ".new"), False, "that a draft stays beside")

    def bars(self, c1, act):
        """The action after which nothing can be saved."""
        def then(exchange, number):
            act(exchange, number)
            self.how.bar(c1.process())
        return then

    def first(self):
        """The save of the file that is made: nothing is sent, and there is no text."""
        c1 = self.customer()
        self.fails(c1, TRANSFER, swallows, 0, at_once=True)
        expect(os.path.exists(c1.store), False, "that a store is there")
        self.desk.says_by(c1, TRANSFER, Paper().answers(), *LINES)
        text = c1.text()
        self.fails(c1, SYNC, swallows, 0, at_once=True)
        expect(c1.text(), text, "the text")

    def behind_the_reply(self):
        """The save of what a reply made: the file waits, and goes again."""
        c1, paper = self.customer(), Paper()
        self.fails(c1, TRANSFER, self.bars(c1, paper.answers()), 1)
        expect(client_in(c1.text()).outstanding is None, False, "that no file waits")
        self.desk.says_by(c1, "mail Hello Hi", paper.answers(), *LINES, "done c1-2-1 0", "mail token 2 lost N rows 1")
        expect(paper.bank.count, 2, "the number of entries")

    def sent_again(self):
        """The save of what the reply to a file made that was sent again."""
        c1, paper = self.customer(), Paper()
        self.desk.fails(c1, TRANSFER, 17, "cut at 0", paper.answers(lambda _: b"", CLOSES))
        text = c1.text()
        self.fails(c1, SYNC, self.bars(c1, paper.answers()), 0)
        expect(c1.text(), text, "the text")
        expect(self.desk.run(c1, SYNC, paper.answers())[:2], list(LINES), "what the next run prints first")

    def given_up(self):
        """The save that a file is given up: it waits still."""
        c1 = self.customer()
        self.fails(c1, TRANSFER, self.bars(c1, says(BAD_FILE)), 1)
        expect(client_in(c1.text()).outstanding is None, False, "that no file waits")
        self.desk.fails(c1, SYNC, 11, "http 400", says(BAD_FILE))
        expect(client_in(c1.text()).outstanding, None, "what waits")

    def nothing_to_save(self):
        """check and show save nothing."""
        c1, paper = self.customer(), Paper()
        self.desk.says_by(c1, TRANSFER, paper.answers(), *LINES)
        for command in ("check 1001 CHECKING", "show"):
            done, _ = self.desk.run_whole(c1, command, paper.answers(), 0, self.how.begin)
            self.how.free()
            expect(done.status, 0, "the status of %r" % command)


@test
def no_writing(desk):
    """no file may be written, at each save"""
    each_save(desk, Limit)


@test
def read_only(desk):
    """the store's folder is read-only, at each save"""
    each_save(desk, Rights)


@test
def full_disk(desk):
    """the disk is full, at each save"""
    each_save(desk, Full)


@test
def for_the_new_file(desk):
    """the save of the new file fails where that of the reply before it was made: what that reply said stands"""
    c1, paper = desk.new_customer(), Paper()
    desk.fails(c1, TRANSFER, 17, "cut at 0", paper.answers(lambda _: b"", CLOSES))

    def bars(exchange, number):
        paper.answers()(exchange, number)
        let_write(c1.process().pid, 8000)  # which the text of the reply fits, and the one of the new file doesn't
    done, lines = desk.run_whole(c1, ["mail", "Hello", "b" * 9000], bars, 1, bear_limits)
    expect((done.status, done.note(), lines), (8, "keeper failed", list(LINES)), "the end")
    kept = client_in(c1.text())
    expect((kept.outstanding, kept.done), (None, b"c1-1"), "what waits, and what is done")


@test
def unreadable(desk):
    """a store that its user may not read is refused, and stays"""
    c1 = desk.new_customer()
    desk.says_by(c1, TRANSFER, Paper().answers(), *LINES)
    text = c1.text()
    os.chmod(c1.store, 0)
    for command in (SYNC, "show"):
        done = c1.run(desk.relay.port, command, heed_rights)
        expect((done.status, done.note(), done.output), (8, "keeper failed", b""), "the end of %r" % command)
    desk.relay.last()
    os.chmod(c1.store, 0o600)
    expect(c1.text(), text, "the text")


@test
def left_beside(desk):
    """what a run that was cut off left beside the store is replaced"""
    c1 = desk.new_customer()
    for left in (b"", b"half of a te"):
        with open(c1.store + ".new", "wb") as f:
            f.write(left)
        desk.run(c1, TRANSFER, Paper().answers())
        expect(os.path.exists(c1.store + ".new"), False, "that a draft stays beside")
        os.remove(c1.store)


@test
def no_output(desk):
    """an output that takes nothing is told, and what was done is kept"""
    c1 = desk.new_customer()
    with open("/dev/full", "wb") as full:
        desk.relay.act = Paper().answers()
        done = subprocess.run([c1.program, *c1.words(desk.relay.port, TRANSFER)], stdout=full, stderr=subprocess.PIPE)
    desk.relay.last()
    expect((done.returncode, done.stderr.split(b"\n")[0]), (6, b"write failed"), "the end")
    judge_advice(c1.words(desk.relay.port, TRANSFER), done.returncode, done.stderr, c1.text())
    desk.says(c1, "show", "client c1 next 2 done c1-1", LINES[1],
              "transfer 1 POSTEDON 10.00 " + now().strftime("%Y%m%d"))
