"""Faults that are planted into a history which the judge has passed. It has to refuse each."""
from parallel.history import content_in, is_poll_file
from parallel.judge import judge, polls_of, senders
from parallel.replay import text
from reference.events import File
from reference.recorded import read_record
from served.server import Wrong

TRIES = 30


class Planter:
    """What was found out about a history."""

    def __init__(self, replay, places, r):
        self.replay, self.places, self.r = replay, places, r
        self.history = replay.history
        # Records that one answered exchange made, and none else may have made.
        self.made = {number: next(iter(some)) for number, some in senders(replay, places).items()
                     if len(some) == 1 and self.history.exchanges[next(iter(some))].reply is not None}

    def records(self):
        """A random record of one answered exchange after another, with that exchange."""
        return self.r.sample(sorted(self.made.items()), min(TRIES, len(self.made)))

    def moved(self, change):
        """The history after a change of the records that the server kept."""
        before, kept = self.history.records[:self.history.before], self.history.records[self.history.before:]
        change(kept)
        return self.history.with_records(before + kept)

    def another_place(self):
        """a reply of another place"""
        for number, one in self.records():
            exchange = self.history.exchanges[one]
            _, at = read_record(self.history.records[self.history.before + number])
            other = self.history.before + self.r.randrange(len(self.places) - 1)
            reply = self.replay.reply_at(other, exchange.file, text(at))
            if reply != exchange.reply:
                return self.history.with_reply(one, reply)
        return None

    def lost(self):
        """an answered file that isn't kept"""
        for number, _ in self.records():
            return self.moved(lambda kept: kept.pop(number))
        return None

    def swapped(self):
        """a file before one whose reply had come when it was sent"""
        for number, one in self.records():
            for later, other in sorted(self.made.items()):
                if later > number and self.history.exchanges[one].got < self.history.exchanges[other].sent:
                    return self.moved(lambda kept: kept.insert(number, kept.pop(later)))
        return None

    def too_late(self):
        """a file behind one that was sent after its reply"""
        for number, one in self.records():
            for later, other in sorted(self.made.items()):
                if later > number:
                    sent = self.history.exchanges[one].sent
                    exchanges = list(self.history.exchanges)
                    exchanges[other] = exchanges[other]._replace(sent=sent - 2, got=sent - 1)
                    return self.history._replace(exchanges=exchanges)
        return None

    def twice(self):
        """a file that was executed twice"""
        for number, _ in self.records():
            return self.moved(lambda kept: kept.insert(number, kept[number]))
        return None

    def unknown(self):
        """a record of a file that nobody sent"""
        for number, _ in self.records():
            event, _ = read_record(self.history.records[self.history.before + number])
            return self.moved(lambda kept: kept.insert(number, self.unsent(kept[number], event)))
        return None

    def unsent(self, record, event):
        assert isinstance(event, File)
        users = len(self.replay.users)
        return record[:10] + ((event.user + 1) % users).to_bytes(4, "big") + record[14:]

    def old_token(self):
        """a token that had been an older one when the poll was sent"""
        for poll, index, newest in self.tokens():
            sent = self.history.exchanges[poll.number].sent
            acknowledged = [n for n, one in self.made.items() if self.history.exchanges[one].got < sent]
            stood = newest[max(acknowledged, default=-1) + 1]
            older = [token for token in newest[:max(acknowledged, default=-1) + 1] if token != stood]
            if older:
                return self.with_token(poll, index, older[-1])
        return None

    def invented_token(self):
        """a token that no entry of its object has"""
        for poll, index, newest in self.tokens():
            object = poll.user, poll.objects[index]
            made = {tokens[object] for one in self.places for tokens in (*one.within, one.tokens)}
            numbers = [n for n in range(1, max(newest) + 1) if n not in made]
            if numbers:
                return self.with_token(poll, index, self.r.choice(numbers))
        return None

    def tokens(self):
        """Polls at random, each with the place of one of its tokens and what the newest one was after each record."""
        polls = polls_of(self.replay)
        for poll in self.r.sample(polls, len(polls)):
            for index in self.r.sample(range(len(poll.tokens)), len(poll.tokens)):
                newest = [one.tokens[poll.user, poll.objects[index]] for one in self.places]
                if newest[-1] > 0:
                    yield poll, index, newest

    def with_token(self, poll, index, token):
        reply = self.history.exchanges[poll.number].reply
        parts = reply.split(b"<TOKEN>")
        parts[index + 1] = b"%d" % token + parts[index + 1][parts[index + 1].index(b"\r\n"):]
        return self.history.with_reply(poll.number, b"<TOKEN>".join(parts))


FAULTS = (Planter.another_place, Planter.lost, Planter.swapped, Planter.too_late, Planter.twice, Planter.unknown,
          Planter.old_token, Planter.invented_token)


def plant(replay, places, r):
    """Plants each fault that can be planted. By its name why the judge refuses it, None where it could not be planted."""
    planter, found = Planter(replay, places, r), {}
    for fault in FAULTS:
        history = fault(planter)
        found[fault.__doc__] = None if history is None else refused(replay, history, fault.__doc__)
    return found


def refused(replay, history, name):
    first, replay.history = replay.history, history
    try:
        judge(replay)
    except Wrong as wrong:
        return str(wrong)
    finally:
        replay.history = first
    raise Wrong("the judge passes %s" % name)
