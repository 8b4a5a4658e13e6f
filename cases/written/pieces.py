"""The pieces in which cases are written, and the bytes that they stand for.

    TEXT                       each character is one byte (Latin-1)
    {"request": N}             N copies of the frame in samples/statement.request
    {"reply": N}               N copies of the frame in samples/statement.reply
    {"denied": N}              N copies of the reply to the sample request where its signon fails
    {"no account": N}          N copies of the reply to the sample request where its account isn't the user's
    {"posted": N}              N copies of the reply to the first transfer at the sample's bank, x1 of 10.00 from 1001
    {"refused": N}             N copies of the reply to that transfer where x1 is used
    {"repeated": N}            N copies of the reply to the first model at that bank, x1 of 10.00 from 1001, MONTHLY
    {"stopped": N}             N copies of the reply to x2, which cancels it with what waits
    {"newest": N}              N copies of the reply to the first synchronisation there, of the transfers of 1001
    {"told": N}                N copies of the reply to one that asks for what is above 0 after that transfer
    {"mailed": N}              N copies of the reply to the first mail there, m1
    {"request": CHANGES}       one frame, of the file in samples/statement.request with changes; the replies likewise
    {"sample": NAME}           the bytes of the file of this name in samples/
    {"header": CHANGES}        the header of the sample files, with its empty line, with changes
    {"asked": ASKED}           one frame, of the file that asks for this (asks.py says how)
    {"frame": PIECES}          one frame, of the file that the pieces make
    {"repeat": [PIECES, N]}    the pieces, N times
    {"numbered": [PIECES, N]}  the pieces, N times, with a number from 1 to N in place of each `#`
    {"prefixes": [A, B]}       frames of the sample request's prefixes, from A bytes to B - 1 bytes long
    {"left out": [A, B]}       frames of the sample request, in each of which one byte is left out, from byte A to B - 1
    {"doubled": [A, B]}        the same with one byte doubled
    {"set": [TEXT, A, B]}      the same with one byte replaced by the text

The last four may have one part more, ASKED, and then are about the file that asks for this.

PIECES is one piece or a list of them. CHANGES is a list of pairs, flat: a text that stands exactly once in what the
pairs before have left, and the pieces that take its place.
"""
import os

from written.asks import asked
from written.frames import frame
from written.replied import ANSWERED, message_set

SAMPLES = os.path.join(os.path.dirname(os.path.abspath(__file__)), "..", "..", "samples")


def sample(name):
    with open(os.path.join(SAMPLES, name), "rb") as f:
        return f.read()


def sample_file(name):
    """The file in a sample's frame."""
    return sample(name).split(b"\n", 1)[1]


def without(file, name):
    """The file without its one aggregate of this name."""
    start, end = file.index(b"<%s>" % name), file.index(b"</%s>\r\n" % name)
    return file[:start] + file[end + len(b"</%s>\r\n" % name):]


GOOD, WRONG = b"<CODE>0\r\n<SEVERITY>INFO\r\n", b"<CODE>%d\r\n<SEVERITY>ERROR\r\n"

FILES = {"request": sample_file("statement.request"), "reply": sample_file("statement.reply")}
FILES["denied"] = without(FILES["reply"], b"BANKMSGSRSV1").replace(GOOD, WRONG % 15500)
FILES["no account"] = (WRONG % 2003).join(without(FILES["reply"], b"STMTRS").rsplit(GOOD, 1))
for name in ANSWERED:
    alone = message_set(name).encode() + b"</OFX>"
    FILES[name] = without(FILES["reply"], b"BANKMSGSRSV1").replace(b"</OFX>", alone)
FRAMES = {name: frame(file) for name, file in FILES.items()}
HEADER = FILES["request"][:FILES["request"].index(b"<OFX>")]


def whole(pieces):
    """The bytes that the pieces stand for."""
    if isinstance(pieces, str):
        return pieces.encode("latin-1")
    if isinstance(pieces, list):
        return b"".join(whole(piece) for piece in pieces)
    (kind, what), = pieces.items()
    return KINDS[kind](what)


def changed(file, changes):
    for old, new in zip(changes[::2], changes[1::2], strict=True):
        old = old.encode("latin-1")
        if file.count(old) != 1:
            raise ValueError("%r stands %d times" % (old, file.count(old)))
        file = file.replace(old, whole(new))
    return file


def sample_frame(name):
    return lambda what: FRAMES[name] * what if isinstance(what, int) else frame(changed(FILES[name], what))


def asked_file(what):
    return changed(asked(HEADER, what), what.get("changes", []))


def swept(what=None):
    """The file whose bytes are taken one by one."""
    return FILES["request"] if what is None else asked_file(what)


def prefixes(first, last, *of):
    return b"".join(frame(swept(*of)[:size]) for size in range(first, last))


def each_byte(put, first, last, *of):
    """Frames of a file, in each of which `put` replaces one byte, from the first to the one before last."""
    file = swept(*of)
    return b"".join(frame(file[:at] + put(file[at:at + 1]) + file[at + 1:]) for at in range(first, last))


KINDS = {
    **{name: sample_frame(name) for name in FILES},
    "sample": sample,
    "header": lambda changes: changed(HEADER, changes),
    "asked": lambda what: frame(asked_file(what)),
    "frame": lambda pieces: frame(whole(pieces)),
    "repeat": lambda what: whole(what[0]) * what[1],
    "numbered": lambda what: b"".join(whole(what[0]).replace(b"#", b"%d" % n) for n in range(1, what[1] + 1)),
    "prefixes": lambda what: prefixes(*what),
    "left out": lambda what: each_byte(lambda byte: b"", *what),
    "doubled": lambda what: each_byte(lambda byte: byte * 2, *what),
    "set": lambda what: each_byte(lambda byte: whole(what[0]), *what[1:]),
}
