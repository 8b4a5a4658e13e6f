"""Two runs over one store, and a store that was copied."""
import os
import shutil
import subprocess
import threading

from called.desk import expect
from called.relay import loses, passes
from reference.answer import now
from reference.client_text import client_in
from served.server import MAX_SECONDS, Wrong
from written.rights import heed_rights

TRANSFER = "transfer 1001 CHECKING 1002 SAVINGS 10.00"
OTHER = "transfer 1001 CHECKING 1002 SAVINGS 20.00"
SYNC = "sync 1001 CHECKING"
TESTS = []


def test(function):
    TESTS.append(function)
    return function


def second_run(trial, customer, command, ready=None):
    """The status, the output and the lines of the error stream of a run beside another one."""
    try:
        done = subprocess.run([customer.program, *customer.words(trial.relay.port, command)], cwd=customer.folder,
                              stdin=subprocess.DEVNULL, capture_output=True, timeout=MAX_SECONDS, preexec_fn=ready)
    except subprocess.TimeoutExpired:
        raise Wrong("the run of %r beside another doesn't end" % (command,)) from None
    return done.returncode, done.stdout.decode(), done.stderr.decode().splitlines()


@test
def at_once(trial):
    """while a run waits for the bank, another one over its store ends at once with nothing sent, but show shows it"""
    c1, beside, shown = trial.customer(), [], []
    held = 8, "", ["keeper failed", "another run has %s: run again when it has ended, for nothing was done" % c1.store]

    def act(exchange, number):
        for command in (OTHER, SYNC, "check 1001 CHECKING"):
            beside.append(second_run(trial, c1, command))
        shown.append(second_run(trial, c1, "show"))
        passes(exchange, number)
    trial.says_by(c1, TRANSFER, act, "done c1-1-1 0", "intra 1001 CHECKING token 1 lost N rows 1")
    expect(beside, [held] * 3, "what the runs beside it end with")
    expect(shown, [(0, "client c1 next 2 done NONE\nintra 1001 CHECKING token 0 lost N rows 0\n", [])], "what is shown")
    expect(trial.balance("1002", "SAVINGS"), 6000, "the balance of 1002")
    trial.says(c1, OTHER, "done c1-2-1 0", "intra 1001 CHECKING token 2 lost N rows 2")


@test
def many_at_once(trial):
    """of many runs at once each one that says `done` is one entry, and all others end with 8"""
    c1, ends, began = trial.customer(), [], now()
    begin = threading.Barrier(8)

    def one():
        begin.wait()
        ends.append(second_run(trial, c1, "transfer 1001 CHECKING 1002 SAVINGS 0.01"))
    threads = [threading.Thread(target=one) for _ in range(8)]
    trial.relay.act = passes
    for thread in threads:
        thread.start()
    for thread in threads:
        thread.join()
    done = [line for status, output, _ in ends if status == 0 for line in output.splitlines() if line.startswith("done")]
    expect(sorted({status for status, _, _ in ends} - {0}), [8] * (len(done) < 8), "the other statuses")
    trial.relay.calls()
    talks, trial.relay.talks = [talk for talk in trial.relay.talks if talk.asked], []
    for talk in talks:
        trial.second.judge(talk.asked, talk.answered, began, now(), trial.records())
    expect((len(set(done)), trial.balance("1002", "SAVINGS")), (len(done), 5000 + len(done)), "what was done")


@test
def after_a_kill(trial):
    """the lock of a run that was killed is free"""
    c1 = trial.customer()

    def kills(exchange, _):
        c1.process().kill()
        exchange.given, exchange.ends = b"", True
    trial.run_whole(c1, TRANSFER, kills)
    expect(trial.run(c1, SYNC)[0], "done c1-1-1 0", "what the next run prints first")


@test
def no_lock(trial):
    """where the lock's file can't be opened nothing is done, and show shows the store"""
    c1 = trial.customer()
    trial.run(c1, TRANSFER)
    os.chmod(c1.store + ".lock", 0)
    failed = 8, "", ["keeper failed",
                     "%s.lock can't be made or locked: see that it is a file of yours, in a folder of yours" % c1.store]
    expect(second_run(trial, c1, SYNC, heed_rights), failed, "the end of sync")
    expect(second_run(trial, c1, "show", heed_rights)[0], 0, "the status of show")
    os.chmod(c1.store + ".lock", 0o600)
    c1.store = os.path.join(trial.folder, "missing", "store")
    expect(second_run(trial, c1, SYNC)[0], 8, "the status without a folder")


@test
def in_memory(trial):
    """a store in memory has no lock"""
    c1 = trial.customer()
    c1.store = "-"
    before = os.listdir(trial.folder)
    for _ in range(2):
        expect(trial.run(c1, "check 1001 CHECKING")[0], "newest intra 1001 CHECKING 0", "what it prints first")
    expect(os.listdir(trial.folder), before, "the files")


@test
def copied(trial):
    """a copied store says `done` of a payment that isn't made, and a new store under another name shows what was"""
    c1, copy = trial.customer(), trial.customer()
    copy.store = os.path.join(trial.folder, "copy")
    trial.run(c1, TRANSFER)
    shutil.copyfile(c1.store, copy.store)
    trial.says(c1, TRANSFER, "done c1-2-1 0", "intra 1001 CHECKING token 2 lost N rows 2")
    trial.says(copy, OTHER, "done c1-2-1 0", "intra 1001 CHECKING token 2 lost N rows 2")
    expect(trial.balance("1002", "SAVINGS"), 7000, "the balance of 1002: 20.00 isn't in it")
    c2 = trial.customer("c2")
    trial.run(c2, SYNC)
    expect([row.terms.cents for store in client_in(c2.text()).stores for row in store.rows], [1000, 1000], "the rows of c2")
    trial.says(c2, OTHER, "done c2-2-1 0", "intra 1001 CHECKING token 3 lost N rows 3")
    expect(trial.balance("1002", "SAVINGS"), 9000, "the balance of 1002")


@test
def copied_and_another_request(trial):
    """a copied store with another request ends with 12, and its file waits for good"""
    c1, copy = trial.customer(), trial.customer()
    copy.store = os.path.join(trial.folder, "copy")
    trial.run(c1, TRANSFER)
    shutil.copyfile(c1.store, copy.store)
    trial.run(c1, TRANSFER)
    trial.fails(copy, "mail Hello Hi", 12, "bad reply 1")
    trial.fails(copy, SYNC, 12, "bad reply 1")


@test
def copied_long_ago(trial):
    """a copy that is older by two files is told that its deed's name was used, and nothing is done"""
    c1, copy = trial.customer(), trial.customer()
    copy.store = os.path.join(trial.folder, "copy")
    trial.run(c1, SYNC)
    shutil.copyfile(c1.store, copy.store)
    trial.run(c1, TRANSFER)
    trial.run(c1, TRANSFER)
    lines = trial.run(copy, OTHER)
    expect(lines[0], "done c1-2-1 2019", "what the run of the copy prints first")
    expect(trial.balance("1002", "SAVINGS"), 7000, "the balance of 1002")


@test
def mistyped(trial):
    """of a mistyped account the store keeps objects, and a new store under another name doesn't have them"""
    c1 = trial.customer()
    trial.fails(c1, "transfer 1010 CHECKING 1002 SAVINGS 1.00", 17, "cut at 0", loses())
    trial.run(c1, SYNC)
    expect(b"1010" in c1.text(), True, "that the store has the account that isn't there")
    c2 = trial.customer("c2")
    trial.run(c2, SYNC)
    expect(b"1010" in c2.text(), False, "that the new store has it")
