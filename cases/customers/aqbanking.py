"""AqBanking's command line, over plain HTTP.

AqBanking learns of accounts by asking the bank for them, and this bank serves no account lists. So the files of its
settings in which it keeps an account are written here, as it writes them itself: the account, and what may be asked of
it, its balance (command 1) and its transactions (command 2).
"""
import os

from customers.tools import run, said
from served.server import Wrong

TOOL = "aqbanking-cli"
BANK = "121099999"
KINDS = {"CHECKING": 3, "SAVINGS": 4}
ACCOUNT = """int accountType="%(kind)d"
int uniqueId="%(id)d"
char backendName="aqofxconnect"
char country="us"
char bankCode="%(bank)s"
char accountNumber="%(number)s"
int userId="1"
"""
SPECIFICATION = """int type="%(kind)d"
int uniqueId="%(id)d"
char backendName="aqofxconnect"
char country="us"
char bankCode="%(bank)s"
char accountNumber="%(number)s"
transactionLimitsList {
  element {
    int command="1"
  }
  element {
    int command="2"
  }
}
"""


class AqBanking:
    """A user of the bank at a URL, with a folder for the settings."""

    def __init__(self, folder, url, user, password):
        self.folder = folder
        self.words = [TOOL, "-D", folder, "-n", "-P", "passwords"]
        with open(os.path.join(folder, "passwords"), "w") as f:
            f.write('OFX%%3A%%3Auserpass%%3A%%3A%s = "%s"\n' % (user, password))
        said(self.words + ["--control=aqofxconnect", "adduser", "-N", user, "-u", user, "-b", BANK, "-s", url, "-O",
                           "B", "-F", "1", "--appid=QWIN", "--appver=2500", "--headerver=102"], folder)

    def add_account(self, id, number, kind):
        """Adds an account, which gets this id."""
        parts = {"id": id, "bank": BANK, "number": number, "kind": KINDS[kind]}
        for name, text in (("accounts", ACCOUNT), ("accountspecs", SPECIFICATION)):
            folder = os.path.join(self.folder, "settings6", name)
            os.makedirs(folder, exist_ok=True)
            with open(os.path.join(folder, "%08d.conf" % id), "w") as f:
                f.write(text % parts)

    def ask(self, id):
        """The account's balance, and its transactions: their amounts in order."""
        context = os.path.join(self.folder, "context")
        if os.path.exists(context):
            os.remove(context)
        done = run(self.words + ["request", "--aid=%d" % id, "--balance", "--transactions", "-c", context], self.folder)
        if done.returncode != 0 or not os.path.exists(context):
            raise Wrong("aqbanking's request ends with status %d: %r" % (done.returncode, done.stderr[-300:]))
        balances = said(self.words + ["listbal", "-c", context], self.folder).split("\n")
        lines = said(self.words + ["listtrans", "-c", context], self.folder).split("\n")
        return {line.split("\t")[1] for line in balances if line}, [line.split("\t")[1] for line in lines if line]

    def is_refused(self, id):
        """Whether a request for an account gets no balance."""
        context = os.path.join(self.folder, "refused")
        run(self.words + ["request", "--aid=%d" % id, "--balance", "-c", context], self.folder)
        return not os.path.exists(context) or not said(self.words + ["listbal", "-c", context], self.folder).strip()
