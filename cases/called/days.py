"""The customer's day, told with the real bank: each test has a bank and customers of its own."""
import os
import random
import time
from datetime import timedelta

from called.desk import expect
from called.relay import loses, swallows
from reference.answer import now
from served.server import Wrong
from written.asks import asked
from written.pieces import HEADER

TRANSFER = "transfer 1001 CHECKING 1002 SAVINGS 10.00"
CENT = "transfer 1001 CHECKING 1002 SAVINGS 0.01"
SYNC = "sync 1001 CHECKING"
KILLS = 30
LOST = ("0 bytes", loses(0)), ("a byte", loses(1)), ("half the head", loses(50)), ("all but a byte", loses(-1))
NONE = ["recintra 1001 CHECKING token 0 lost N rows 0", "bankmail 1001 CHECKING token 0 lost N rows 0",
        "mail token 0 lost N rows 0"]
TESTS = []


def test(function):
    """Adds a test, whose first line of words says what it shows."""
    TESTS.append(function)
    return function


def day(ahead=0):
    """The day so many days ahead, in GMT, as words have it."""
    return (now() + timedelta(days=ahead)).strftime("%Y%m%d")


@test
def first_day(trial):
    """a new client shows itself, pays, is told, and checks for news"""
    c1 = trial.customer()
    trial.says(c1, "show", "client c1 next 1 done NONE")
    expect(os.path.exists(c1.store), False, "that show makes a file")
    trial.says(c1, TRANSFER, "done c1-1-1 0", "intra 1001 CHECKING token 1 lost N rows 1")
    trial.says(c1, "check 1001 CHECKING", "newest intra 1001 CHECKING 1", "newest recintra 1001 CHECKING 0",
               "newest bankmail 1001 CHECKING 0")
    trial.says(c1, SYNC, "balance 1001 CHECKING 90.00", "intra 1001 CHECKING token 1 lost N rows 1", *NONE)
    trial.says(c1, "show", "client c1 next 3 done c1-2", "intra 1001 CHECKING token 1 lost N rows 1",
               "transfer 1 POSTEDON 10.00 " + day(), *NONE)
    trial.says(c1, "sync 1009 CHECKING", "balance 1009 CHECKING error 2003", *(
        "%s 1009 CHECKING token 0 lost Y rows 0" % family for family in ("intra", "recintra", "bankmail")),
        "mail token 0 lost N rows 0")


@test
def reply_is_lost(trial):
    """a transfer whose reply is lost on the way is sent again by the next run, and is one entry at the bank"""
    for number, (how, act) in enumerate(LOST, 1):
        name = "c%d" % number
        c1, cents = trial.customer(name), 10000 - 1000 * number
        done, lines = trial.run_whole(c1, TRANSFER, act)
        expect((done.status, lines), (17, []), "the run of which %s of the reply came" % how)
        expect(len(trial.second.bank.transfers), number, "the number of transfers at the bank")
        said = trial.run(c1, SYNC)
        expect(said[0], "done %s-1-1 0" % name, "what the next run prints first")
        expect(said[2], "balance 1001 CHECKING %d.%02d" % divmod(cents, 100), "the balance after it")
        expect(len(trial.second.bank.transfers), number, "the number of transfers at the bank, sent again")
        expect(trial.balance("1002", "SAVINGS"), 15000 - cents, "the balance of 1002")


@test
def sent_again_and_lost_again(trial):
    """a file is sent again until a reply comes, by any command, and its mail has the moment at which it was made"""
    c1 = trial.customer()
    trial.fails(c1, "mail Hello Hi", 17, "cut at 0", loses())
    trial.fails(c1, TRANSFER, 17, "cut at 0", loses())
    trial.fails(c1, SYNC, 17, "cut at 0", swallows)
    trial.says(c1, "check 1001 CHECKING", "newest intra 1001 CHECKING 0", "newest recintra 1001 CHECKING 0",
               "newest bankmail 1001 CHECKING 0")
    trial.says(c1, "show", "client c1 next 2 done NONE", "mail token 0 lost N rows 0")
    trial.says(c1, TRANSFER, "done c1-1-1 0", "mail token 1 lost N rows 1", "done c1-2-1 0",
               "intra 1001 CHECKING token 2 lost N rows 1")
    expect(trial.second.bank.count, 2, "the number of entries")


@test
def second_reply_is_lost(trial):
    """of two exchanges of a run the first is kept where the second is lost, or reset"""
    c1 = trial.customer()
    trial.fails(c1, TRANSFER, 17, "cut at 0", loses())
    done, lines = trial.run_whole(c1, "mail Hello Hi", loses(20, of=1))
    expect((done.status, done.note()), (17, "cut at 20"), "the end")
    expect(lines, ["done c1-1-1 0", "intra 1001 CHECKING token 1 lost N rows 1"], "what it prints")
    done, _ = trial.run_whole(c1, "mail Hello Hi", loses(0, resets=True))
    expect((done.status, done.note()), (5, "read failed"), "the end")
    trial.says(c1, "mail Hello Hi", "done c1-2-1 0", "mail token 2 lost N rows 1", "done c1-3-1 0",
               "mail token 3 lost N rows 2")


@test
def two_clients(trial):
    """two clients of one user with different names both hear of both their transfers"""
    c1, c2 = trial.customer("c1"), trial.customer("c2")
    trial.says(c1, TRANSFER, "done c1-1-1 0", "intra 1001 CHECKING token 1 lost N rows 1")
    trial.says(c2, "transfer 1001 CHECKING 1002 SAVINGS 5", "done c2-1-1 0",
               "intra 1001 CHECKING token 2 lost N rows 2")
    trial.says(c1, SYNC, "balance 1001 CHECKING 85.00", "intra 1001 CHECKING token 2 lost N rows 2", *NONE)
    rows = ["transfer 1 POSTEDON 10.00 " + day(), "transfer 2 POSTEDON 5.00 " + day()]
    trial.shows(c1, *rows)
    trial.shows(c2, *rows)


@test
def two_users(trial):
    """two users of one account: each hears of the other's transfers out of it, and not of the other's mail"""
    alice, bob = trial.customer(), trial.customer("b1", "bob", "hunter")
    trial.run(alice, "mail Hello Hi")
    trial.says(bob, "transfer 1002 SAVINGS 1001 CHECKING 7.00", "done b1-1-1 0",
               "intra 1002 SAVINGS token 2 lost N rows 1")
    trial.says(alice, "sync 1002 SAVINGS", "balance 1002 SAVINGS 43.00", "intra 1002 SAVINGS token 2 lost N rows 1",
               "recintra 1002 SAVINGS token 0 lost N rows 0", "bankmail 1002 SAVINGS token 0 lost N rows 0",
               "mail token 1 lost N rows 1")
    trial.says(bob, "transfer 1001 CHECKING 1002 SAVINGS 7.00", "done b1-2-1 2003",
               "intra 1001 CHECKING token 0 lost Y rows 0")


@test
def away(trial):
    """a client that was away longer than WINDOW is told that it's lost, keeps its rows, and refreshes"""
    c1, c2 = trial.customer("c1"), trial.customer("c2")
    for number in (1, 2):
        trial.run(c1, TRANSFER)
    for number in range(3, 7):
        trial.run(c2, "transfer 1001 CHECKING 1002 SAVINGS 1.00")
    trial.says(c1, SYNC, "balance 1001 CHECKING 76.00", "intra 1001 CHECKING token 2 lost Y rows 2", *NONE)
    trial.shows(c1, *["transfer %d POSTEDON 10.00 %s" % (id, day()) for id in (1, 2)])
    trial.says(c1, SYNC, "balance 1001 CHECKING 76.00", "intra 1001 CHECKING token 6 lost N rows 6", *NONE)
    trial.shows(c1, *["transfer %d POSTEDON %s %s" % (id, "10.00" if id < 3 else "1.00", day()) for id in range(1, 7)])
    trial.says(c1, TRANSFER, "done c1-5-1 0", "intra 1001 CHECKING token 7 lost N rows 7")


@test
def lost_and_a_transfer(trial):
    """a transfer of a client that's lost is done, and told by the reply that says so; its row comes by the refresh"""
    c1, c2 = trial.customer("c1"), trial.customer("c2")
    trial.run(c1, TRANSFER)
    for number in range(2, 6):
        trial.run(c2, "transfer 1001 CHECKING 1002 SAVINGS 1.00")
    trial.says(c1, TRANSFER, "done c1-2-1 0", "intra 1001 CHECKING token 1 lost Y rows 1")
    trial.says(c1, TRANSFER, "done c1-3-1 0", "intra 1001 CHECKING token 7 lost N rows 7")


@test
def recurring(trial):
    """a recurring transfer: the bank makes transfers of it by itself, sync shows them, and stop ends them"""
    c1, tomorrow = trial.customer(), day(1)
    trial.says(c1, "repeat 1001 CHECKING 1002 SAVINGS 2.50 %s WEEKLY 3" % tomorrow, "done c1-1-1 0",
               "recintra 1001 CHECKING token 1 lost N rows 1")
    trial.says(c1, SYNC, "balance 1001 CHECKING 100.00", "intra 1001 CHECKING token 2 lost N rows 1",
               "recintra 1001 CHECKING token 1 lost N rows 1", *NONE[1:])
    trial.shows(c1, "model 1 WEEKLY 2.50 " + tomorrow, "transfer 2 WILLPROCESSON 2.50 " + tomorrow)
    trial.says(c1, "stop 1", "done c1-3-1 0", "recintra 1001 CHECKING token 3 lost N rows 0")
    trial.fails(c1, "stop 1", 18, "no row 1")
    trial.says(c1, SYNC, "balance 1001 CHECKING 100.00", "intra 1001 CHECKING token 4 lost N rows 0",
               "recintra 1001 CHECKING token 3 lost N rows 0", *NONE[1:])
    trial.shows(c1)


@test
def changed_and_cancelled(trial):
    """a transfer that waits is changed and cancelled by its row's number; one that isn't there is no row"""
    c1, soon, later = trial.customer(), day(20), day(30)
    trial.fails(c1, "cancel 1", 18, "no row 1")
    trial.says(c1, TRANSFER + " " + soon, "done c1-1-1 0", "intra 1001 CHECKING token 1 lost N rows 1")
    trial.shows(c1, "transfer 1 WILLPROCESSON 10.00 " + soon)
    trial.says(c1, "modify 1 1002 SAVINGS 12.34 " + later, "done c1-2-1 0", "intra 1001 CHECKING token 2 lost N rows 1")
    trial.shows(c1, "transfer 1 WILLPROCESSON 12.34 " + later)
    trial.says(c1, "modify 1 1002 SAVINGS 0 " + later, "done c1-3-1 2012", "intra 1001 CHECKING token 2 lost N rows 1")
    trial.says(c1, "cancel 1", "done c1-4-1 0", "intra 1001 CHECKING token 3 lost N rows 0")
    trial.fails(c1, "cancel 1", 18, "no row 1")
    trial.says(c1, "show", "client c1 next 5 done c1-4", "intra 1001 CHECKING token 3 lost N rows 0")


@test
def cancelled_elsewhere(trial):
    """a row that another client has cancelled meanwhile is refused by the bank, and goes"""
    c1, c2, soon = trial.customer("c1"), trial.customer("c2"), day(9)
    trial.run(c1, TRANSFER + " " + soon)
    trial.run(c2, SYNC)
    trial.says(c2, "cancel 1", "done c2-2-1 0", "intra 1001 CHECKING token 2 lost N rows 0")
    trial.says(c1, "cancel 1", "done c1-2-1 2017", "intra 1001 CHECKING token 2 lost N rows 0")


@test
def letter(trial):
    """a letter that the bank's operator writes comes with the next sync, and is answered"""
    c1 = trial.customer()
    trial.run(c1, SYNC)
    trial.stop()
    said = trial.by_hand("mail", "setup", "disk:records", "alice", "Your card", stream=b"It is there.\n")
    expect(said, b"MAIL 1\n", "what the bank's program prints")
    trial.serve()
    trial.run(c1, SYNC)
    trial.shows(c1, "mail Your card")
    trial.says(c1, ["mail", "Thank you", "I have it & like it: <3\nalice"], "done c1-3-1 0",
               "mail token 2 lost N rows 2")
    trial.shows(c1, "mail Your card", "mail Thank you")


@test
def by_its_day(trial):
    """a transfer that waits since the last year is posted by the bank, and sync shows it"""
    trial.stop()
    file = asked(HEADER, {"asks": ["transfer x1 1001 1002 30.00 20250108"]})
    trial.by_hand("answer", "setup", "disk:records", "--at", "20250102120000", stream=b"FILE %d\n" % len(file) + file)
    expect(trial.balance("1001", "CHECKING"), 10000, "the balance before its day")
    trial.serve()
    c1 = trial.customer()
    trial.says(c1, SYNC, "balance 1001 CHECKING 70.00", "intra 1001 CHECKING token 2 lost N rows 1", *NONE)
    trial.shows(c1, "transfer 1 POSTEDON 30.00 20250108")
    trial.says(c1, "cancel 1", "done c1-2-1 2016", "intra 1001 CHECKING token 2 lost N rows 1")


@test
def another_password(trial):
    """a wrong password leaves the file outstanding; the right one sends the same file"""
    c1 = trial.customer(password="Secret")
    trial.fails(c1, TRANSFER, 14, "signon 15500")
    trial.fails(c1, "check 1001 CHECKING", 14, "signon 15500")
    c1.password = "secret"
    trial.says(c1, "mail Hello Hi", "done c1-1-1 0", "intra 1001 CHECKING token 1 lost N rows 1", "done c1-2-1 0",
               "mail token 2 lost N rows 1")
    if b"ecret" in c1.text():
        raise Wrong("the store has a password")


@test
def refused_transfers(trial):
    """what the bank refuses is told by its code, and isn't sent again"""
    c1 = trial.customer()
    for number, (words, code) in enumerate((("1009 CHECKING 1.00", 2009), ("1002 SAVINGS 0.00", 2012),
                                            ("1002 SAVINGS 100.01", 10504)), 1):
        trial.says(c1, "transfer 1001 CHECKING " + words, "done c1-%d-1 %d" % (number, code),
                   "intra 1001 CHECKING token 0 lost N rows 0")
    trial.says(c1, "repeat 1001 CHECKING 1002 SAVINGS 1 %s MONTHLY 0" % day(), "done c1-4-1 2014",
               "recintra 1001 CHECKING token 0 lost N rows 0")
    expect(trial.second.bank.count, 0, "the number of entries")


@test
def server_ends(trial):
    """where the bank is stopped nothing is lost, and the runs after its next start go on"""
    c1 = trial.customer()
    trial.fails(c1, TRANSFER, 17, "cut at 0", loses())
    trial.stop()
    done = c1.run(trial.port, TRANSFER)
    expect((done.status, done.note(), done.output), (6, "write failed", b""), "the run without a bank")
    trial.serve()
    trial.says(c1, TRANSFER, "done c1-1-1 0", "intra 1001 CHECKING token 1 lost N rows 1", "done c1-2-1 0",
               "intra 1001 CHECKING token 2 lost N rows 2")


@test
def client_is_killed(trial):
    """a client that is killed while it waits sends its file again, though the bank had it done, or hadn't got it"""
    c1 = trial.customer()
    for number, is_asked in enumerate((True, False), 1):
        def kills(exchange, _):
            if is_asked:
                exchange.relay.ask(exchange)
            c1.process().kill()
            exchange.given, exchange.ends = b"", True
        done, _ = trial.run_whole(c1, TRANSFER, kills)
        expect(done.status, -9, "the status of the killed run")
        said = trial.run(c1, SYNC)
        expect(said[0], "done c1-%d-1 0" % (2 * number - 1), "what the next run prints first")
        expect(len(trial.second.bank.transfers), number, "the number of transfers at the bank")


@test
def killed_anywhere(trial):
    """a client that is killed at any moment leaves a text that it had or was to have, and nothing is done twice"""
    c1, r = trial.customer(), random.Random(1)
    began = time.monotonic()
    trial.run(c1, CENT)
    whole = time.monotonic() - began
    for _ in range(KILLS):
        trial.run_killed(c1, CENT, r.uniform(0, 1.2 * whole))
    trial.run(c1, SYNC)
    names = [entry.trnuid for listed in trial.second.bank.entries.values() for entry in listed]
    expect(len(set(names)), len(names), "the number of deeds that the entries are of")
    trial.shows(c1, *["transfer %d POSTEDON 0.01 %s" % (id, day()) for id in sorted(trial.second.bank.transfers)])


@test
def whose_file(trial):
    """the store's file is for its owner alone, whatever the umask, and only the lock's file stays beside it, which is empty"""
    mask = os.umask(0)
    try:
        c1 = trial.customer()
        trial.run(c1, TRANSFER)
        trial.run(c1, SYNC)
    finally:
        os.umask(mask)
    expect(oct(os.stat(c1.store).st_mode & 0o777), "0o600", "the rights of the store")
    expect(sorted(name for name in os.listdir(trial.folder) if name.startswith("c1")), ["c1", "c1.lock"], "the files of c1")
    lock = os.stat(c1.store + ".lock")
    expect((oct(lock.st_mode & 0o777), lock.st_size), ("0o600", 0), "the rights and the size of the lock's file")


@test
def in_memory(trial):
    """a store in memory is for one run: the next begins at file 1 again, and is told as done what the first has done"""
    c1 = trial.customer()
    c1.store = "-"
    before = os.listdir(trial.folder)
    for command in (TRANSFER, CENT):
        done = c1.run(trial.relay.port, command)
        trial.judge_bank(trial.relay.last(), done)
        expect(done.lines(), ["done c1-1-1 0", "intra 1001 CHECKING token 1 lost N rows 1"], "what it prints")
        expect(trial.balance("1001", "CHECKING"), 9000, "the balance after the first payment, the one that is made")
    expect(os.listdir(trial.folder), before, "the files")


@test
def straight(trial):
    """both programs over loopback, with nothing between them"""
    c1 = trial.customer()
    for number, (command, lines) in enumerate((
            (TRANSFER, ["done c1-1-1 0", "intra 1001 CHECKING token 1 lost N rows 1"]),
            (SYNC, ["balance 1001 CHECKING 90.00", "intra 1001 CHECKING token 1 lost N rows 1", *NONE]),
            ("mail Hello Hi", ["done c1-3-1 0", "mail token 2 lost N rows 1"]))):
        done = c1.run(trial.port, command)
        expect((done.status, done.told, done.lines()), (0, b"", lines), "the run of %r" % command)
