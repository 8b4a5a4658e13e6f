"""Random days of two or three clients at a bank: what they wish, and what becomes of what goes by."""
from datetime import timedelta

from reference.answer import now

SETUP = """OFXBANK 1
BANK 121099999
LEAD 5
WINDOW %d
ENTRIES 9999999999
USER alice secret
USER bob hunter
ACCT 1001 CHECKING 10000 alice
ACCT 1002 SAVINGS 5000 alice bob
ACCT 1003 MONEYMRKT 2000 bob
"""
ACCOUNTS = {"alice": ["1001 CHECKING", "1002 SAVINGS"], "bob": ["1002 SAVINGS", "1003 MONEYMRKT"]}
ALL = ["1001 CHECKING", "1002 SAVINGS", "1003 MONEYMRKT", "1009 CHECKING"]
CLIENTS = ("k1", "alice", "secret"), ("k2", "alice", "secret"), ("k3", "bob", "hunter")
FREQUENCIES = "WEEKLY", "MONTHLY", "TWICEMONTHLY", "ANNUALLY"
COMMANDS = ("sync",) * 5 + ("transfer",) * 6 + ("repeat", "modify", "cancel", "stop", "mail", "check", "show")
# What becomes of an exchange: the weights are of a hundred.
FATES = {"passes": 45, "cut": 18, "reset": 6, "swallowed": 7, "held": 7, "twice": 7, "swapped": 6, "killed": 4}
# What happens between two commands, in hundredths.
RELEASED, RESTARTED, WRITTEN = 20, 5, 4


def setup_of(r):
    return (SETUP % r.randint(1, 6)).encode()


def clients_of(r):
    return CLIENTS if r.random() < 0.5 else r.sample(CLIENTS, 2)


def day(r, most=4):
    """A day from yesterday on, as words have it."""
    return (now() + timedelta(days=r.randint(-1, most))).strftime("%Y%m%d")


def account(r, user):
    return r.choice(ACCOUNTS[user]) if r.random() < 0.95 else r.choice(ALL)


def amount(r):
    return "%d.%02d" % (r.choice((0, 1, 5, 30)), r.randrange(100))


def command(r, user, ids):
    """A command of a client that has rows of these ids."""
    kind = r.choice(COMMANDS)
    if kind in ("sync", "check"):
        return "%s %s" % (kind, account(r, user))
    if kind == "transfer":
        due = " " + day(r) if r.random() < 0.4 else ""
        return "transfer %s %s %s%s" % (account(r, user), r.choice(ALL), amount(r), due)
    if kind == "repeat":
        return "repeat %s %s %s %s %s %d" % (
            account(r, user), r.choice(ALL), amount(r), day(r), r.choice(FREQUENCIES), r.randint(0, 3))
    id = r.choice(ids) if ids and r.random() < 0.9 else r.randint(1, 30)
    if kind == "modify":
        return "modify %d %s %s %s" % (id, r.choice(ALL), amount(r), day(r))
    if kind == "mail":
        return "mail Hello%d Hi&<%d>" % (r.randrange(100), r.randrange(100))
    return kind if kind == "show" else "%s %d" % (kind, id)


def fate(r):
    return r.choices(list(FATES), FATES.values())[0]
