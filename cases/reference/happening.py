"""What an event does: it is kept, and changes the bank. Which events may happen, and to what a bank opens from those
that are kept."""
from .bank import Bank
from .due import may_post, may_spawn, next_due, post, spawn
from .events import File, Letter, Post
from .kept import exchanged
from .mailing import write_to
from .recorded import NoForm, read_record
from .records import record_of
from .stopped import Stopped
from .sync import is_poll

MAX_EVENTS = 100000  # of one run of due work


def opened(setup, records):
    """The bank that these records come to, each of an event that may happen after those before. A record that can't be
    read from the file is None."""
    bank = Bank(setup)
    for number, record in enumerate(records, 1):
        if record is None:
            raise Stopped(8, "keeper failed")
        try:
            event, at = read_record(record)
        except NoForm as fault:
            raise Stopped(9, "record %d at %d" % (number, fault.at))
        if not is_legal(bank, event, at):
            raise Stopped(9, "record %d illegal" % number)
        happen(bank, event, at)
    return bank


def is_legal(bank, event, at):
    """Whether the event may happen now. Of due work it need not be the event that comes next."""
    if isinstance(event, File):
        return event.user < len(bank.setup.users) and not is_poll(event.request)
    if isinstance(event, Letter):
        return event.user < len(bank.setup.users) and bank.has_room(1)
    return may_post(bank, event, at) if isinstance(event, Post) else may_spawn(bank, event, at)


def happen(bank, event, at):
    """The event happens. The reply where it is a file."""
    bank.records.append(record_of(event, at))
    bank.begin_event(at)
    if isinstance(event, File):
        return exchanged(bank, event.request._replace(user=user_of(bank, event)), at)
    if isinstance(event, Letter):
        write_to(bank, user_of(bank, event), event.subject, event.body, at)
    elif isinstance(event, Post):
        post(bank, event, at)
    else:
        spawn(bank, event)


def user_of(bank, event):
    return list(bank.setup.users)[event.user]


def due_run(bank, at):
    """Does what is due at this moment, up to 100,000 events. How many they were."""
    for count in range(MAX_EVENTS):
        event = next_due(bank, at)
        if event is None:
            return count
        happen(bank, event, at)
    return MAX_EVENTS
