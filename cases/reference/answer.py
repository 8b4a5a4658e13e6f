"""A whole run of `ofxbank`: its words, the records that it begins with, its input, and what it writes and keeps."""
import re
from datetime import datetime, timezone
from typing import NamedTuple, Optional

from . import replies
from .dates import read_moment
from .events import File, Letter
from .fault import Fault
from .happening import due_run, happen, opened
from .kept import exchanged
from .requests import MAX_IN_A_BODY, MAX_IN_A_SUBJECT, read_request
from .setup import SetupFault, read_setup
from .stopped import Stopped
from .sync import is_poll
from .tags import FORBIDDEN
from .text import trimmed

MAX_FRAMES = 1000000
MAX_BYTES = 262144
MAX_IN_A_WORD = 10000

FRAME_LINE = re.compile(rb"(?:FILE (0|[1-9][0-9]{0,5})|DUE)\n")


class Outcome(NamedTuple):
    status: int
    output: bytes
    note: Optional[str]  # the first line of the error stream, which says why the run ended; None where it is empty
    records: Optional[list]  # all that are kept after the run; None where no bank was opened, and nothing changes


def answer(words, setup_text, given, takes_output=True, kept=()):
    """The outcome of a run with these words, whose second one is the path of the setup's text, on an input, over the
    records that are kept after the third. Text and input are None where they can't be read, and so is a record."""
    words, written, bank = [trimmed(word) for word in words], [], None
    try:
        bank = bank_of(words, setup_text, kept)
        for one in lines_of(words, bank, given):
            written.append(one)
            if not takes_output:
                raise Stopped(6, "write failed")
    except Stopped as stopped:
        return Outcome(stopped.status, b"".join(written), stopped.note, bank and bank.records)
    return Outcome(0, b"".join(written), None, bank.records)


def bank_of(words, setup_text, kept):
    """The bank that a run with these words opens; after `-` nothing is kept."""
    if clock_of(words) is None:
        raise Stopped(2, "usage")
    if setup_text is None:
        raise Stopped(5, "read failed")
    try:
        return opened(read_setup(setup_text), () if words[2] == b"-" else kept)
    except SetupFault as fault:
        raise Stopped(3, "setup line %d" % fault.line)


def lines_of(words, bank, given):
    """What is written, answer by answer. `due` is a run over one frame DUE, and it reads no input."""
    clock = clock_of(words)
    if words[0] == b"due":
        given = b"DUE\n"
    if given is None:
        raise Stopped(5, "read failed")
    if words[0] == b"mail":
        yield mailed(bank, words[3], words[4], given, clock)
    else:
        yield from frames_of(bank, given, clock)


def is_word(word):
    """Whether a word is one that the program takes: UTF-8 of at most 10,000 bytes without a forbidden one."""
    try:
        word.decode("utf-8")
    except UnicodeDecodeError:
        return False
    return len(word) <= MAX_IN_A_WORD and not FORBIDDEN.search(word)


def clock_of(words):
    """What tells the moment of an event. None where the words are others than `due SETUP RECORDS`, `mail SETUP RECORDS
    USER SUBJECT`, or `answer SETUP RECORDS`, the latter perhaps with `--at` and a date, which then is every frame's
    moment."""
    if not all(map(is_word, words)) or len(words) not in (3, 5):
        return None
    if any(path[:1] == b"-" and path != b"-" for path in words[1:3]):  # an option, not a path
        return None
    if len(words) == 3:
        return now if words[0] in (b"answer", b"due") else None
    if words[0] == b"mail":
        return now if 1 <= len(words[4]) <= MAX_IN_A_SUBJECT else None
    at = read_moment(words[4]) if (words[0], words[3]) == (b"answer", b"--at") else None
    return None if at is None else lambda: at


def now():
    return datetime.now(timezone.utc).replace(microsecond=0, tzinfo=None)


def mailed(bank, user, subject, given, clock):
    """The line of a letter to a user, with the number of its entry. The input is its body."""
    body = trimmed(given)
    if len(given) > MAX_BYTES or not 1 <= len(body) <= MAX_IN_A_BODY or FORBIDDEN.search(body):
        raise Stopped(4, "frame at 0")
    if user not in bank.setup.users:
        raise Stopped(10, "no user")
    if not bank.has_room(1):
        raise Stopped(10, "full")
    happen(bank, Letter(number_of(bank, user), subject, body), clock())
    return b"MAIL %d\n" % bank.count


def frames_of(bank, frames, clock):
    """The answers to frames. A frame is a line `FILE n` and n bytes, n from 0 to 262,144, or a line `DUE`. A run reads
    at most 1,000,000 of them."""
    count = place = 0
    while place < len(frames):
        line = FRAME_LINE.match(frames, place)
        size = int(line[1] or 0) if line else MAX_BYTES + 1
        if count == MAX_FRAMES or size > MAX_BYTES or len(frames) < line.end() + size:
            raise Stopped(4, "frame at %d" % place)
        count, place = count + 1, line.end() + size
        yield answered(bank, None if line[1] is None else frames[line.end():place], clock())


def answered(bank, file, at):
    """What is written for a file: a frame with the reply, or the line BAD with the place of the file's first fault. For
    a frame DUE, where the file is None, it is the line DUE with the number of events."""
    if file is None:
        return b"DUE %d\n" % due_run(bank, at)
    try:
        request = read_request(file)
    except Fault as fault:
        return b"BAD %d\n" % fault.at
    reply = reply_to(bank, request, at)
    return b"FILE %d\n" % len(reply) + reply


def reply_to(bank, request, at):
    """The reply file. Signon succeeds where a user of the setup has just this name and password; a file whose signon
    fails leaves the bank as it was."""
    if bank.setup.users.get(request.user) != request.password:
        return replies.denied(request.header, at)
    if is_poll(request):
        return exchanged(bank, request, at)
    return happen(bank, File(number_of(bank, request.user), request), at)


def number_of(bank, user):
    return list(bank.setup.users).index(user)
