"""A random day at a bank, behind a proxy that cuts, delays, repeats and swaps, and what has to hold after it."""
import random

from called.desk import expect
from called.trial import Trial
from chance import proxied as chance
from reference.answer import now
from reference.bank import POSTED
from reference.client_text import client_in
from reference.client import Client
from reference.stands import object_of, rows_up_to
from reference.sync import newest
from served.link import Link
from served.server import Wrong

MAX_COMMANDS = 24
DONE = "done "


class Day(Trial):
    """The day of this number of a seed."""

    def __init__(self, bank, program, folder, seed, number):
        self.r = random.Random("%d/%d" % (seed, number))
        super().__init__(bank, program, folder, chance.setup_of(self.r))
        self.customers = [self.customer(*who) for who in chance.clients_of(self.r)]
        self.held, self.replies = [], []  # requests that wait, and all replies that came
        self.told = {}  # by a deed's TRNUID the code that was printed
        self.fates = []

    def live(self):
        for _ in range(self.r.randint(MAX_COMMANDS // 2, MAX_COMMANDS)):
            self.between()
            self.command(self.r.choice(self.customers))
        self.judge_stores()
        self.come_home()
        self.judge_bank_rows()

    def command(self, customer):
        """One command of a customer; what it prints of deeds is remembered."""
        ids = [row.id for store in self.client(customer).stores for row in store.rows if hasattr(row, "id")]
        words = chance.command(self.r, customer.user, ids)
        _, lines = self.run_whole(customer, words, self.act(customer))
        self.remember(lines)
        return lines

    def client(self, customer):
        text = customer.text()
        return client_in(text) if text else Client(customer.name.encode(), customer.user.encode())

    def remember(self, lines):
        for line in lines:
            if line.startswith(DONE):
                _, trnuid, code = line.split(" ")
                if self.told.setdefault(trnuid, code) != code:
                    raise Wrong("%s is told with code %s, and was told with %s" % (trnuid, code, self.told[trnuid]))

    def act(self, customer):
        """What becomes of the exchanges of a run."""
        def act(exchange, _):
            what = chance.fate(self.r)
            self.fates.append(what)
            if what == "held":
                self.held.append(exchange.request)
            if what in ("held", "swallowed"):
                exchange.given, exchange.ends = b"", True
                return
            exchange.relay.ask(exchange)
            if what == "twice":
                exchange.relay.ask(exchange)
            self.replies.append(exchange.reply)
            if what in ("cut", "reset"):
                exchange.given = exchange.reply[:self.r.randrange(len(exchange.reply))]
            if what == "swapped":
                exchange.given = self.r.choice(self.replies)
            if what == "killed":
                customer.process().kill()
                exchange.given = b""
            exchange.ends, exchange.is_reset = what in ("cut", "reset", "killed"), what == "reset"
        return act

    def between(self):
        """A request that waited comes to the bank, the bank is stopped and starts again, or writes a letter."""
        what = self.r.randrange(100)
        if what < chance.RELEASED and self.held:
            self.release(self.r.choice(self.held))
        elif chance.RELEASED <= what < chance.RELEASED + chance.RESTARTED + chance.WRITTEN:
            self.stop()
            if what >= chance.RELEASED + chance.RESTARTED:
                user = self.r.choice(("alice", "bob"))
                self.by_hand("mail", "setup", "disk:records", user, "Letter", stream=b"From the bank")
            self.serve()

    def release(self, request):
        began = now()
        with Link(self.port) as link:
            answered, _ = link.exchange(request)
        self.replies.append(answered)
        self.second.judge(request, answered, began, now(), self.records())

    def come_home(self):
        """Each customer asks with nothing in the way: once so that nothing waits, once so that nothing is lost, and
        once so that all is known."""
        for customer in self.customers * 3:
            for account in chance.ACCOUNTS[customer.user]:
                lines = self.run(customer, "sync " + account)
                self.remember(lines)
                balance = "balance %s %d.%02d" % (account, *divmod(self.balance(*account.split(" ")), 100))
                expect(balance in lines, True, "that %r is told" % balance)

    def judge_stores(self, is_home=False):
        """Each store has the rows of the bank's entries up to its token, or is marked lost; a client at home isn't lost
        on its user's accounts, and knows all."""
        for customer in self.customers:
            for store in self.client(customer).stores:
                of = object_of(store.of, customer.user.encode())
                if not store.lost:
                    rows = rows_up_to(self.second.bank, of, store.token)
                    expect((store.token <= newest(self.second.bank, of), store.rows), (True, rows),
                           "of %s the store of %r" % (customer.name, of))
                owned = of.owner is None or self.is_owned(customer, store.of.owner)
                if is_home and owned:
                    expect((store.lost, store.token), (False, newest(self.second.bank, of)), "the end of %r" % (of,))

    def is_owned(self, customer, account):
        return account is None or "%s %s" % (account.number.decode(), account.kind.decode()) in chance.ACCOUNTS[
            customer.user]

    def judge_bank_rows(self):
        """At home each store has all; each deed that was told as done is one entry, and every other none or one; each
        balance is the opening one with just the posted transfers."""
        self.judge_stores(is_home=True)
        bank, entries = self.second.bank, {}
        for listed in bank.entries.values():
            for entry in listed:
                entries[entry.trnuid] = entries.get(entry.trnuid, 0) + 1
        entries.pop(b"0", None)
        expect(max(entries.values(), default=1), 1, "the most entries of a deed")
        for trnuid, code in self.told.items():
            expect(entries.get(trnuid.encode(), 0), int(code == "0"), "how often %s ran" % trnuid)
        expect(set(entries) <= {trnuid.encode() for trnuid in self.told}, True, "that each deed was told in the end")
        for account, (opening, _) in bank.setup.accounts.items():
            posted = [row.terms for row in bank.transfers.values() if row.code == POSTED]
            cents = opening + sum(terms.cents for terms in posted if terms.target == account) - sum(
                terms.cents for terms in posted if terms.source == account)
            expect(bank.balances[account], cents, "the balance of %r" % (account,))
        self.second.judge_rest(self.records())
