"""What a served bank and its customers did: each exchange with its times, and the records that were kept."""
from datetime import datetime
from typing import NamedTuple, Optional

from reference.events import File
from reference.records import EPOCH, record_of
from reference.requests import read_request
from reference.sync import is_poll
from written.record_file import MOMENT


class Exchange(NamedTuple):
    """A file that a customer sent. `sent` is before its first byte was sent, and `got` after the last byte of its reply was
    read, by one clock for all customers. Without a reply `got` is when the server that it was sent to had ended."""

    customer: int
    file: bytes
    sent: float
    got: float
    began: datetime  # the time of day then
    ended: datetime
    reply: Optional[bytes]


class History(NamedTuple):
    setup: bytes
    before: int  # the records that were kept before the server began
    records: list
    exchanges: list

    def with_records(self, records):
        return self._replace(records=records)

    def with_reply(self, number, reply):
        """The exchange of this number has another reply."""
        exchanges = list(self.exchanges)
        exchanges[number] = exchanges[number]._replace(reply=reply)
        return self._replace(exchanges=exchanges)


def user_of(file):
    return read_request(file).user


def is_poll_file(file):
    return is_poll(read_request(file))


def content_of(users, file):
    """What the record of a file has beside its moment: equal files have equal contents."""
    request = read_request(file)
    return content_in(record_of(File(users.index(request.user), request), EPOCH))


def content_in(record):
    return record[:MOMENT.start] + record[MOMENT.stop:]
