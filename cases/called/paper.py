"""A bank on paper: the second reading's, which answers a customer's requests, and whose replies may then be changed."""
from reference.answer import now, reply_to
from reference.happening import opened
from reference.http import reply
from reference.requests import read_request
from reference.setup import read_setup
from written.pieces import sample

CLOSES, RESETS = "closes", "resets"


class Paper:
    """The sample's bank. Its replies are right ones until some are changed."""

    def __init__(self):
        self.bank = opened(read_setup(sample("setup")), [])

    def file(self, request):
        """The reply file to a request as it is sent."""
        return reply_to(self.bank, read_request(request.partition(b"\r\n\r\n")[2]), now())

    def answers(self, change=None, end=None, of=0):
        """The action by which this bank answers. `change` makes of the reply to the exchange of this number what is
        given in its place, and after that the connection ends in this way."""
        def act(exchange, number):
            exchange.reply = reply(200, self.file(exchange.request), closes=False)
            if number == of:
                exchange.given = exchange.reply if change is None else change(exchange.reply)
                exchange.ends, exchange.is_reset = end is not None, end == RESETS
        return act


def says(data, end=CLOSES):
    """The action by which just these bytes are given, whatever is asked."""
    def act(exchange, _):
        exchange.given, exchange.ends, exchange.is_reset = data, True, end == RESETS
    return act


def with_file(change):
    """What changes a reply's file, whose length is then said rightly."""
    return lambda whole: reply(200, change(whole.partition(b"\r\n\r\n")[2]), closes=False)


def edited(*pairs):
    """What changes a reply's file by texts that stand in it, each once, and those that take their places."""
    def change(file):
        for old, new in zip(pairs[::2], pairs[1::2], strict=True):
            if file.count(old) != 1:
                raise ValueError("%r stands %d times" % (old, file.count(old)))
            file = file.replace(old, new)
        return file
    return with_file(change)
