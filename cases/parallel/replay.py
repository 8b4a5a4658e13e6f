"""The kept records of a server in their order, each file at its record's moment, through the program's bank of one thread."""
import os
import re
import subprocess
from typing import NamedTuple, Optional

from parallel.history import content_in, content_of, is_poll_file, user_of
from reference.bank import Bank, Object
from reference.events import File
from reference.happening import happen
from reference.recorded import read_record
from reference.setup import read_setup
from served.server import Wrong
from written.asks import asked
from written.disk_file import read, write_rows
from written.frames import answers, frame
from written.pieces import HEADER

MOST_SECONDS = 60  # of a run
RECORDS = "disk:replayed"
FAMILIES = (b"INTRA", b"RECINTRA", b"BANKMAIL")
TOKEN = re.compile(rb"<TOKEN>([0-9]+)\r\n")
TOLD = re.compile(rb"<(TOKEN|DTSERVER)>[0-9]+\r\n")


class Place(NamedTuple):
    """What comes of a record: the reply where it is one of a file, and the tokens after it."""

    reply: Optional[bytes]
    tokens: dict  # the newest one of an object, as a user is told it
    within: tuple = ()  # where the record makes several entries, these tokens after each but the last


class Replay:
    """The bank of one thread for a history, in a folder of its own."""

    def __init__(self, program, folder, history):
        self.program, self.folder, self.history = program, folder, history
        with open(os.path.join(folder, "setup"), "wb") as f:
            f.write(history.setup)
        self.setup = read_setup(history.setup)
        self.users = list(self.setup.users)
        sent = history.exchanges
        self.files = {content_of(self.users, one.file): one.file for one in sent if not is_poll_file(one.file)}
        asking = [user for user in self.users if any(user_of(one.file) == user for one in sent if is_poll_file(one.file))]
        self.polls = [frame(self.poll_of(user)) for user in asking]
        self.objects = [(user, object) for user in asking for object in self.objects_of(user)]
        self.answered(0, [], "20240101000000")

    def objects_of(self, user):
        return [(family, account) for account in self.setup.accounts for family in FAMILIES] + [(b"MAIL", None)]

    def poll_of(self, user):
        """A file that asks for the tokens of all objects."""
        words = ["sync %s %s only" % (family.decode().lower(), b"/".join(account).decode())
                 for family, account in self.objects_of(user) if account]
        name = "%s %s" % (user.decode(), self.setup.users[user].decode())
        return asked(HEADER, {"user": name, "asks": words + ["sync mail only"]})

    def places(self):
        """What comes of each record behind those that were there before, and what stood before them."""
        found = self.replayed_places()
        return found[:1] + [place._replace(within=self.between(earlier.tokens, place.tokens, entries))
                            for earlier, place, entries in zip(found, found[1:], self.entries())]

    def entries(self):
        """The entries of each record, an object and a number, by the second implementation."""
        bank, found = Bank(self.setup), []
        for record in self.history.records:
            event, at = read_record(record)
            before = bank.count
            happen(bank, event, at)
            made = [(entry.number, of) for of, some in bank.entries.items() if some and some[-1].number > before
                    for entry in some if entry.number > before]
            found.append([(of, number) for number, of in sorted(made)])
        return found[self.history.before:]

    def between(self, tokens, last, entries):
        """The tokens after each of these entries but the last, as they turn from those before them into the last ones."""
        found = []
        for of, number in entries[:-1]:
            told = {one for one in self.objects if object_of(*one) == of and last[one] != tokens[one]}
            tokens = {one: number if one in told else token for one, token in tokens.items()}
            found.append(tokens)
        return tuple(found)

    def replayed_places(self):
        events = [read_record(one) for one in self.history.records]
        if not events:
            return [Place(None, self.tokens(self.answered(0, self.polls, "20240101000000")))]
        found = [Place(None, self.tokens(self.answered(self.history.before, self.polls, text(events[0][1]))))]
        # What was due when the server began was done before it let anybody in: only the last tokens of it were told.
        at = next((n for n in range(self.history.before, len(events)) if isinstance(events[n][0], File)), len(events))
        if at > self.history.before:
            last = self.tokens(self.answered(at, self.polls, text(events[at - 1][1])))
            found += [Place(None, last)] * (at - self.history.before)
        while at < len(events):
            end = self.group(events, at)
            found += self.replayed(events, at, end)
            at = end
        return found

    def group(self, events, at):
        """Where the files end that follow each other at one moment. Due work is a group of one."""
        end = at + 1
        while (isinstance(events[at][0], File) and end < len(events) and isinstance(events[end][0], File)
               and events[end][1] == events[at][1]):
            end += 1
        return end

    def replayed(self, events, at, end):
        """What comes of the records of a group."""
        moment = text(events[at][1])
        if not isinstance(events[at][0], File):
            return [Place(None, self.tokens(self.answered(end, self.polls, moment)))]
        frames = []
        for record in self.history.records[at:end]:
            file = self.files.get(content_in(record))
            if file is None:
                raise Wrong("record %s is of a file that nobody sent" % record.hex())
            frames += [frame(file)] + self.polls
        given = self.answered(at, frames, moment)
        kept = [one.bytes for one in read(os.path.join(self.folder, "replayed"))]
        if kept != self.history.records[:end]:
            raise Wrong("one thread keeps other records behind record %d" % at)
        size = 1 + len(self.polls)
        return [Place(given[i], self.tokens(given[i + 1:i + size])) for i in range(0, len(given), size)]

    def reply_at(self, count, file, moment):
        """The reply to a file behind so many records."""
        return self.answered(count, [frame(file)], moment)[0]

    def answered(self, count, frames, moment):
        """The files that a run over so many records answers."""
        path = os.path.join(self.folder, "replayed")
        if os.path.exists(path):
            write_rows(path, enumerate(self.history.records[:count]))
        done = subprocess.run([self.program, "answer", "setup", RECORDS, "--at", moment], cwd=self.folder,
                              input=b"".join(frames), capture_output=True, timeout=MOST_SECONDS)
        if done.returncode != 0:
            raise Wrong("one thread ends behind record %d with status %d: %r" % (count, done.returncode, done.stderr[:80]))
        return [one.split(b"\n", 1)[1] for one in answers(done.stdout)]

    def tokens(self, replies):
        """The tokens that polls tell, by user and object."""
        told = [int(token) for reply in replies for token in TOKEN.findall(reply)]
        return dict(zip(self.objects, told, strict=True))


def object_of(user, asked):
    """What a user asks about by a family and an account, of which mail has none."""
    family, account = asked
    return Object(family, account or user)


def text(at):
    return at.strftime("%Y%m%d%H%M%S")


def masked(reply):
    """The reply to a poll without what it tells: its tokens and its moment."""
    return TOLD.sub(rb"<\1>\r\n", reply)
