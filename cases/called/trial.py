"""A bank that is served, with customers, each run of whom is judged on both sides."""
import os
import subprocess

from called.desk import Desk
from reference.answer import now
from reference.happening import happen
from reference.recorded import read_record
from served.judge import Judge
from served.server import Server, Wrong, free_port
from written.disk_file import read
from written.pieces import sample

RECORDS = "disk:records"
MAX_SECONDS = 120  # of a run of the bank's program by hand


class Trial(Desk):
    """A bank of this setup over a file of records, and its second reading, before which the desk stands."""

    def __init__(self, bank, program, folder, setup=sample("setup")):
        self.bank, self.setup, self.port = bank, setup, free_port()
        super().__init__(program, folder, self.port)
        self.second, self.server = Judge(setup), None
        self.serve()

    def serve(self):
        self.server = Server(self.bank, self.folder, RECORDS, setup=self.setup, port=self.port)

    def stop(self):
        if self.server is not None:
            self.server.kill()
            self.server = None

    def records(self):
        return [one.bytes for one in read(os.path.join(self.folder, "records"))]

    def judge_bank(self, talk, done):
        if talk.asked:
            self.second.judge(talk.asked, talk.answered, done.began, now(), self.records())

    def by_hand(self, *words, stream=b""):
        """What a run of the bank's program prints, over its records while nobody serves."""
        try:
            done = subprocess.run([self.bank, *words], cwd=self.folder, input=stream, stdout=subprocess.PIPE,
                                  stderr=subprocess.PIPE, timeout=MAX_SECONDS)
        except subprocess.TimeoutExpired:
            raise Wrong("the run of %r doesn't end" % (words,)) from None
        if done.returncode != 0:
            raise Wrong("%r ends with status %d: %r" % (words, done.returncode, done.stderr))
        for record in self.records()[len(self.second.bank.records):]:
            happen(self.second.bank, *read_record(record))
        return done.stdout

    def balance(self, number, kind):
        """The balance of an account by the second reading, in cents."""
        return next(cents for account, cents in self.second.bank.balances.items()
                    if (account.number, account.kind) == (number.encode(), kind.encode()))

    def close(self):
        self.stop()
        super().close()
