"""Whether what customers got is what a bank of one thread answers, file after file, in the order of the kept records.

Each record is of a file that was sent, and each reply that came is that of its record, byte for byte. All records and all
loads of tokens can be given moments such that

- records come in their order, each between the sending of its file and the end of its reply;
- each token of a poll is loaded between the poll's sending and the end of its reply, one after another, while it was the
  object's newest. The entries of a record become an object's newest one after another, before the record's moment.

So no file stands before one whose reply had come when it was sent, and no token is older than what any customer was answered
before the poll.
"""
from collections import defaultdict
from typing import NamedTuple

from parallel.history import content_in, content_of, is_poll_file, user_of
from parallel.replay import TOKEN, masked, text
from reference.events import File
from reference.recorded import read_record
from reference.requests import read_request
from reference.answer import now
from served.server import Wrong
from written.frames import place

NEVER, ALWAYS = float("inf"), float("-inf")


class Bounds(NamedTuple):
    """Between which moments something happened."""

    least: float
    most: float


class Poll(NamedTuple):
    number: int  # of the exchange
    user: bytes
    objects: list
    tokens: list


class Load(NamedTuple):
    """The loading of a token."""

    poll: int  # the number of its exchange
    object: tuple
    token: int
    most: int  # steps that may have come


class Step(NamedTuple):
    """The last entry of a record, or one before it; or the record itself where it makes none."""

    record: int
    bounds: Bounds
    tokens: dict  # after it


def judge(replay):
    """Judges a history. What came of each record."""
    history, places = replay.history, replay.places()
    bounds = [Bounds(ALWAYS, NEVER)] * (len(places) - 1)
    for number, some in senders(replay, places).items():
        found = [history.exchanges[one] for one in some]
        bounds[number] = Bounds(min(one.sent for one in found), max(one.got for one in found))
    steps = [Step(number, bounds[number], tokens) for number, place in enumerate(places[1:])
             for tokens in (*place.within, place.tokens)]
    tokens = [places[0].tokens] + [one.tokens for one in steps]
    in_order(history, steps, loads_of(tokens, polls_of(replay)))
    return places


# ---- which exchange made which record


def senders(replay, places):
    """By each record of a file the exchanges that may have made it: in some choice of one for each record, all that were
    answered are chosen, with just this reply."""
    history, found = replay.history, {}
    records, sent = defaultdict(list), defaultdict(list)
    for number, record in enumerate(history.records[history.before:]):
        if isinstance(read_record(record)[0], File):
            records[content_in(record)].append(number)
    for number, one in enumerate(history.exchanges):
        if not is_poll_file(one.file):
            sent[content_of(replay.users, one.file)].append(number)
    for content in {**records, **sent}:
        matched(history, places, records[content], sent[content], found)
    return found


def matched(history, places, records, sent, found):
    """Adds what may have made the records of one file."""
    choices = list(choices_of(history, places, records, set(sent)))
    if not choices:
        raise Wrong(mismatch(history, places, records, sent))
    for choice in choices:
        for record, one in zip(records, choice):
            found.setdefault(record, set()).add(one)


def choices_of(history, places, records, left):
    """The ways to choose an exchange for each record, none twice, so that no answered one is left."""
    if not records:
        if all(history.exchanges[one].reply is None for one in left):
            yield []
        return
    for one in sorted(left):
        if fits(history, places, records[0], history.exchanges[one]):
            for rest in choices_of(history, places, records[1:], left - {one}):
                yield [one] + rest


def fits(history, places, record, exchange):
    """Whether the exchange may have made the record: its moment is within, and the reply that came is that of its place."""
    _, at = read_record(history.records[history.before + record])
    return exchange.began <= at <= exchange.ended and exchange.reply in (None, places[record + 1].reply)


def mismatch(history, places, records, sent):
    """Why no choice is left, in words."""
    answered = [history.exchanges[one] for one in sent if history.exchanges[one].reply is not None]
    if len(records) > len(sent):
        return "a file was sent %d times, and %d records are of it" % (len(sent), len(records))
    if len(records) < len(answered):
        return "a file was answered %d times, and %d records are of it: %r" % (len(answered), len(records), answered[0].file[-300:])
    got, want = answered[0].reply, places[records[0] + 1].reply
    at = max(0, place(got, want) - 30)
    return "a reply isn't that of its place: %r, and the first place has %r" % (got[at:at + 90], want[at:at + 90])


# ---- polls


def polls_of(replay):
    """The polls that were answered. But for tokens and moment, each has the reply of one thread."""
    history = replay.history
    numbers = [i for i, one in enumerate(history.exchanges) if one.reply is not None and is_poll_file(one.file)]
    files = [history.exchanges[i].file for i in numbers]
    frames = [b"FILE %d\n" % len(file) + file for file in files]
    wanted = replay.answered(len(history.records), frames, text(now()))
    for i, want in zip(numbers, wanted, strict=True):
        one = history.exchanges[i]
        if masked(one.reply) != masked(want):
            raise Wrong("a poll's reply is %r, and one thread's %r" % (one.reply, want))
    return [Poll(i, user_of(file), [(ask.family, ask.account) for ask in read_request(file).asks],
                 [int(token) for token in TOKEN.findall(history.exchanges[i].reply)]) for i, file in zip(numbers, files)]


def loads_of(tokens, polls):
    """The loads of polls, by how many steps have come at least, where these are the tokens before and after each step."""
    loads = defaultdict(list)
    for poll in polls:
        least = 0
        for object, token in zip(poll.objects, poll.tokens, strict=True):
            newest = [one[poll.user, object] for one in tokens]
            if token not in newest:
                raise Wrong("a poll of %r got %d, which was never the newest token" % (object, token))
            least = max(least, newest.index(token))
            most = len(newest) - 1 - newest[::-1].index(token)
            if most < least:
                raise Wrong("a poll of %r got %d, after a later token of another object" % (object, token))
            loads[least].append(Load(poll.number, object, token, most))
    return loads


# ---- the order


def in_order(history, steps, loads):
    """Gives each step and load the least moment that it may have. None is above its greatest."""
    last = (ALWAYS, "the first file")  # the least moment so far, and what was sent then
    after, done = defaultdict(lambda: last), {}
    for number in range(len(steps) + 1):
        for load in loads[number]:
            poll, name = history.exchanges[load.poll], "a poll of %r that got %d" % (load.object, load.token)
            done[load.poll] = max(last, (poll.sent, name), done.get(load.poll, last))
            if done[load.poll][0] > poll.got:
                raise Wrong("the reply to %s had come before %s was sent" % (name, done[load.poll][1]))
            after[load.most] = max(after[load.most], done[load.poll])
        if number < len(steps):
            name = "record %d" % (history.before + steps[number].record + 1)
            last = max(last, (steps[number].bounds.least, "the file of " + name), after[number])
            if last[0] > steps[number].bounds.most:
                raise Wrong("the reply of %s had come before %s was sent" % (name, last[1]))
