"""What is told of a file that waits, after a run that ends without its reply."""
from called.desk import expect
from called.paper import CLOSES, RESETS, Paper, edited, says
from called.relay import swallows
from reference.http import reply
from served.server import free_port

TRANSFER = "transfer 1001 CHECKING 1002 SAVINGS 10.00"
RUN_SYNC = " waits and is made by the next run: run sync, don't give the command again"
FAILED = edited(b"<SONRS>\r\n<STATUS>\r\n<CODE>0", b"<SONRS>\r\n<STATUS>\r\n<CODE>15500")
OTHER = "from 127.0.0.1:%d, which isn't the answer to what was asked: see that the bank serves there"
ENDS = (  # what is done to the reply, the status, and the first two lines of the error stream
    (says(b"", RESETS), 5, "read failed",
     "the bank at 127.0.0.1:%d broke the connection off, or said nothing for 30 seconds: see that it serves there"),
    (says(reply(503, b"keeper failed\n", closes=False)), 11, "http 503",
     "said the bank at 127.0.0.1:%d, or a proxy before it: see that the bank serves there"),
    (says(reply(200, b"hi", closes=False)), 12, "bad reply at 2", OTHER),
    (Paper().answers(FAILED), 14, "signon 15500", "said the bank at 127.0.0.1:%d: see to USER and PASS"),
    (says(b"<html>"), 16, "bad head", OTHER),
    (says(b"", CLOSES), 17, "cut at 0", "the bank at 127.0.0.1:%d gave no whole reply: see that it serves there"),
)
TERMS = "from 1001 CHECKING to 2001 CHECKING on 20990131"
DEEDS = (  # a command, and the words of its deed
    ("transfer 1001 CHECKING 2001 CHECKING 44 20990131", "44.00 " + TERMS),
    ("modify 1 2001 CHECKING 4.50 20990131", "the change of transfer 1 to 4.50 " + TERMS),
    ("cancel 1", "the cancellation of transfer 1"),
    ("repeat 1001 CHECKING 2001 CHECKING 1 20990131 MONTHLY 12", "1.00 " + TERMS + " and MONTHLY after that, 12 in all"),
    ("repeat 1001 CHECKING 2001 CHECKING 1 20990131 WEEKLY 0", "1.00 " + TERMS + " and WEEKLY after that"),
    ("stop 2", "the end of recurring transfer 2"),
    (["mail", "Your card", "Hi"], "the mail Your card"),
)
TESTS = []


def test(function):
    TESTS.append(function)
    return function


def told(done):
    return done.told.decode().splitlines()


@test
def by_status(desk):
    """after each end without a reply that was accepted it is told where it was, and what waits"""
    for act, status, first, second in ENDS:
        c1 = desk.new_customer()
        done, _ = desk.run_whole(c1, TRANSFER, act)
        want = [first, second % desk.relay.port, "c1-1-1: 10.00 from 1001 CHECKING to 1002 SAVINGS" + RUN_SYNC]
        expect((done.status, told(done)), (status, want), "the end, and what is told")


@test
def nobody_answers(desk):
    """where nobody answers it is told of the port, and where the output takes nothing of the output"""
    c1, port = desk.new_customer(), free_port()
    want = ["write failed", "nobody answers at 127.0.0.1:%d: see that the bank, or a tunnel to it, is there" % port]
    done = c1.run(port, "check 1001 CHECKING")
    expect((done.status, told(done)), (6, want), "the end of check, and what is told")
    done = c1.run(port, "sync 1001 CHECKING")
    expect(told(done), want + ["c1-1-0: sync 1001 CHECKING waits and is made by the next run"], "what is told of sync")


@test
def given_up(desk):
    """a file that the bank can't read is given up, and doesn't wait"""
    c1 = desk.new_customer()
    done, _ = desk.run_whole(c1, TRANSFER, says(reply(400, b"bad file at 0\n", closes=False)))
    want = "said the bank at 127.0.0.1:%d, which can't read the file: nothing of it was done, and it is given up"
    expect(told(done), ["http 400", want % desk.relay.port], "what is told")


@test
def each_deed(desk):
    """each deed is told in words"""
    for command, words in DEEDS:
        c1, paper = desk.new_customer(), Paper()
        desk.run(c1, "transfer 1001 CHECKING 1002 SAVINGS 1.00 20990131", paper.answers())
        desk.run(c1, "repeat 1001 CHECKING 1002 SAVINGS 2.00 20990131 MONTHLY 12", paper.answers())
        done, _ = desk.run_whole(c1, command, swallows)
        expect(told(done)[2:], ["c1-3-1: " + words + RUN_SYNC], "what is told of %r" % (command,))


@test
def in_memory(desk):
    """of a store in memory nothing waits"""
    c1 = desk.new_customer()
    c1.store = "-"
    desk.relay.act = swallows
    done = c1.run(desk.relay.port, TRANSFER)
    desk.relay.last()
    expect((done.status, len(told(done))), (17, 2), "the status, and the number of lines")
