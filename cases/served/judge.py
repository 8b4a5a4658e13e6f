"""The second reading of what is said on connections: the replies to all that a client sent, and the records of it.

The connections come one after the other, to one worker. The moments are the clock's: that of an event stands in its
record, that of another reply in the reply, and each lies between the connection's beginning and its end.
"""
import re
from datetime import datetime, timedelta

from reference.answer import now, reply_to
from reference.due import next_due
from reference.events import Post, Spawn
from reference.fault import Fault
from reference.happening import happen, opened
from reference.http import Refused, closes, reply, requests
from reference.recorded import read_record
from reference.requests import read_request
from reference.setup import read_setup
from reference.sync import is_poll
from served.server import Wrong
from written.frames import place

SECOND = timedelta(seconds=1)
SERVER_MOMENT = re.compile(rb"<DTSERVER>([0-9]{14})\r\n")


class Judge:
    """A bank of the second reading, to which happens what is sent and what its records tell."""

    def __init__(self, setup_text):
        self.bank = opened(read_setup(setup_text), [])
        self.lost = 0  # replies
        self.since = now()  # a moment that isn't after the end of the last connection, or of the run's beginning

    def judge(self, stream, output, began, ended, records, was_reset=False):
        """Judges what came on a connection between these moments, on which this was sent, by the records that were
        kept in the end. The codes of the replies.

        A server that closes while bytes come that it doesn't read resets the connection, and then the last replies may
        be lost on their way.
        """
        self.do_due(ended, records)
        codes, at, found = [], 0, requests(stream)
        may_be_lost = was_reset and bool(found) and closes(found[-1], len(found))
        for number, one in enumerate(found, 1):
            code, body = self.answer(one, output[at:], began, ended, records, may_be_lost)
            want = reply(code, body or b"", closes(one, number))
            if not output.startswith(want, at):
                if not may_be_lost or (body is not None and not want.startswith(output[at:])):
                    raise Wrong("reply %d is %s" % (number, unlike(output[at:], want)))
                self.lost += 1
                output = output[:at]
            else:
                at += len(want)
            codes.append(code)
        if at < len(output):
            raise Wrong("more comes: %r" % output[at:at + 80])
        self.since = ended - SECOND
        return codes

    def answer(self, one, output, began, ended, records, may_be_lost):
        """The code and the body that answer a request. No body where its moment is lost with it."""
        if isinstance(one, Refused):
            return one
        try:
            request = read_request(one.file)
        except Fault as fault:
            return 400, b"bad file at %d\n" % fault.at
        if self.bank.setup.users.get(request.user) != request.password or is_poll(request):
            if may_be_lost and not SERVER_MOMENT.search(output):
                return 200, None
            return 200, reply_to(self.bank, request, within(told_moment(output), began, ended))
        record = self.next_record(records)
        if record is None:
            raise Wrong("no record is kept of a file")
        _, at = read_record(record)
        body = reply_to(self.bank, request, within(at, began, ended))
        if self.bank.records[-1] != record:
            raise Wrong("record %d is %s, wanted %s" % (
                len(self.bank.records), record.hex(), self.bank.records[-1].hex()))
        return 200, body

    def do_due(self, ended, records):
        """Does the due work that records tell of, which the worker does before it lets a connection in. Nothing that
        was due at its beginning is left."""
        while self.next_record(records) is not None:
            event, at = read_record(self.next_record(records))
            if not isinstance(event, (Post, Spawn)):
                break
            if next_due(self.bank, within(at, self.since, ended)) != event:
                raise Wrong("%r is kept, and isn't what is due" % (event,))
            happen(self.bank, event, at)
        left = next_due(self.bank, self.since)
        if left is not None:
            raise Wrong("%r was due before the connection" % (left,))

    def next_record(self, records):
        known = len(self.bank.records)
        return records[known] if known < len(records) else None

    def judge_rest(self, records):
        """Judges the records after the last connection, of due work."""
        while self.next_record(records) is not None:
            event, at = read_record(self.next_record(records))
            if next_due(self.bank, within(at, self.since, now())) != event:
                raise Wrong("%r is kept after the last connection" % (event,))
            happen(self.bank, event, at)
        if records != self.bank.records:
            raise Wrong("%d records are kept, and %d events have happened" % (len(records), len(self.bank.records)))


def told_moment(output):
    """The moment that a reply tells as the server's."""
    found = SERVER_MOMENT.search(output)
    if found is None:
        raise Wrong("the reply tells no moment: %r" % output[:80])
    return datetime.strptime(found[1].decode(), "%Y%m%d%H%M%S")


def within(at, began, ended):
    if not began <= at <= ended:
        raise Wrong("the moment is %s, and the connection was there from %s to %s" % (at, began, ended))
    return at


def unlike(output, want):
    at = place(output, want)
    near = slice(max(0, at - 20), at + 60)
    return "%r at byte %d, wanted %r" % (output[near], at, want[near]) if output else "none, wanted %r" % want[:60]
