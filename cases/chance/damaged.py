"""Frames at random: request files, most of them damaged, and some DUE. Each comes from its seed and its number alone.

The frames of a batch go to one bank, one after the other.
"""
import random
import re

from chance import mailed
from chance import synced
from chance.dated import any_date
from chance.priced import any_amount
from chance.spelled import ANY_COUNTS, ANY_FREQUENCIES, FLAGS, FORMS, LEAVES, ONE_LINE, VALUES, spelled, stranger
from reference.names import AGGREGATES, ELEMENTS
from reference.requests import FREQUENCIES
from written.frames import DUE, frame
from written.pieces import FILES

IN_A_BATCH = 500
# Well spelled files that a batch does its damage to.
BASES = 40
DUE_SHARE = 0.05
MAX_BYTES = 262144

TAG = re.compile(rb"</?[A-Za-z0-9._-]+>")
START_TAG = re.compile(rb"<([A-Za-z0-9._-]+)>")
DATE = re.compile(rb"<DT[A-Z]+>([^<>]+)(?=<)")
AMOUNT = re.compile(rb"<TRNAMT>([^<>]+)(?=<)")
DEED_TAG = re.compile(rb"</?(?:INTRATRNRQ|INTRARQ|INTRAMODRQ|INTRACANRQ|XFERINFO)>")
MODEL_TAG = re.compile(rb"</?(?:RECINTRATRNRQ|RECINTRARQ|RECINTRAMODRQ|RECINTRACANRQ|RECURRINST|INTRARQ)>")
MODEL_VALUE = re.compile(rb"<(?:NINSTS|FREQ|MODPENDING|CANPENDING|RECSRVRTID)>([^<>]+)(?=<)")
MAIL_TAG = re.compile(rb"</?(?:BANKMAILTRNRQ|MAILTRNRQ|BANKMAILRQ|MAILRQ|MAIL)>")
MAIL_VALUE = re.compile(rb"<(?:FROM|TO|SUBJECT|MSGBODY)>([^<>]+)(?=<)")
SYNC_TAG = re.compile(rb"</?(?:INTRA|RECINTRA|BANKMAIL|MAIL)SYNCRQ>")
SYNC_VALUE = re.compile(rb"<(?:TOKEN|TOKENONLY|REFRESH|REJECTIFMISSING)>([^<>]+)(?=<)")
# The number in a name of a file, or in a TRNUID of a deed.
NAME_NUMBER = re.compile(rb"((?:NEWFILEUID:|<TRNUID>)[ \t\r\n]*[ux])[0-9]+")
PERIOD_TAG = re.compile(rb"</?INCTRAN>|<INCLUDE>")
ELEMENT = re.compile(rb"<([A-Za-z0-9._-]+)>([^<>]+)(?=<)")

KNOWN = sorted(ELEMENTS | AGGREGATES)
NAMES = [b"A", b"X", b"INTU.BID", b"X-C_d.9", b"ofx", b"Sonrq", b"N" * 32, b"N" * 33, b""]
LIMITS = {
    b"USERID": 32, b"USERPASS": 64, b"TRNUID": 36, b"BANKID": 32, b"ACCTID": 32, b"SRVRTID": 64, b"RECSRVRTID": 64,
    b"TRNAMT": 32, b"NINSTS": 3, b"FROM": 32, b"TO": 32, b"SUBJECT": 64, b"MSGBODY": 10000, b"TOKEN": 64,
}
BYTES = b"\x00\x01\x08\t\n\x0b\x0c\r\x1f <>&/;:.-_0AZaz\x7f\x80\xff"
ENTITIES = [b"&lt;", b"&gt;", b"&amp;", b"&amp;lt;", b"&", b"&lt", b"&LT;", b"&#60;"]
BEGINNINGS = [b"<", b"<", b"</", b"</", b"<!", b"< "]
UNITS = [
    b"<A>", b"<A>1", b"<A></A>", b"<MEMO>", b"<", b" ", b"\x00", b"x", b"&amp;", b"</A>", b"<A>" * 12 + b"</A>" * 12,
]


def cut_points(r, file, count):
    return sorted(r.randrange(len(file) + 1) for _ in range(count))


def a_byte(r, file):
    """One byte is replaced, left out, doubled or put in."""
    at = r.randrange(len(file))
    other = bytes([r.choice(BYTES) if r.random() < 0.7 else r.randrange(256)])
    kept = file[at:at + 1]
    return file[:at] + r.choice((other, b"", kept + kept, other + kept)) + file[at + 1:]


def a_cut(r, file):
    """The end of the file is left out, or what could be the beginning of a tag stands there."""
    end = len(file) if r.random() < 0.5 else r.randrange(len(file) + 1)
    tag = r.choice(BEGINNINGS) + b"N" * r.choice((0, 1, 3, 31, 32, 33)) if r.random() < 0.5 else b""
    return file[:end].rstrip(r.choice((b"", b" \r\n"))) + tag


def a_span(r, file):
    """A span is left out, doubled, or put elsewhere."""
    start, end, place = cut_points(r, file, 3)
    end = min(end, start + r.choice((2, 10, 50, 500)))
    span = file[start:end]
    return r.choice((
        file[:start] + file[end:],
        file[:end] + span + file[end:],
        file[:start] + file[end:place] + span + file[max(end, place):],
    ))


def two_spans(r, file):
    a, b, c, d = cut_points(r, file, 4)
    return file[:a] + file[c:d] + file[b:c] + file[a:b] + file[d:]


def a_name(r):
    return r.choice(KNOWN) if r.random() < 0.6 else r.choice(NAMES)


def new_tag(r):
    name = a_name(r)
    return r.choice((
        b"<%s>", b"</%s>", b"<%s>", b"</%s>", b"<%s", b"</%s", b"<%s >", b"< %s>", b"<%s/>", b"<<%s>", b"<!--%s-->",
    )) % name


def a_tag(r, file):
    """A tag is put in, left out, renamed, doubled or closed."""
    tags = list(TAG.finditer(file))
    if not tags:
        return file + new_tag(r)
    tag = r.choice(tags)
    start, end = tag.span()
    text = tag[0]
    closing = text[:2] == b"</"
    name = text[2:-1] if closing else text[1:-1]
    other = b"</%s>" if closing else b"<%s>"
    new = r.choice((
        new_tag(r) + text, text + new_tag(r), b"", b"", other % a_name(r), other % name.swapcase(), other % name[:-1],
        text + text, b"<%s>" % name if closing else b"</%s>" % name, text[:-1], text + b"x", text + b"</%s>" % name,
    ))
    return file[:start] + new + file[end:]


def between_tags(r, file):
    """What stands from one tag to another is left out, doubled, or put elsewhere."""
    places = [tag.start() for tag in TAG.finditer(file)]
    if len(places) < 4:
        return a_span(r, file)
    first = r.randrange(len(places) - 2)
    last = min(first + r.choice((1, 1, 2, 3, 5, 8)), len(places) - 1)
    start, end, place = places[first], places[last], r.choice(places)
    span, rest = file[start:end], file[:start] + file[end:]
    place -= (end - start) if place >= end else max(0, place - start)
    return r.choice((rest, file[:end] + span * r.choice((1, 1, 2)) + file[end:], rest[:place] + span + rest[place:]))


def a_value(r, file):
    """A value is replaced, filled up to its limit, or gets an entity or white space."""
    elements = list(ELEMENT.finditer(file))
    if not elements:
        return a_byte(r, file)
    element = r.choice(elements)
    start, end = element.span(2)
    old, at = element[2], r.randrange(end - start + 1)
    size = LIMITS.get(element[1], 300) + r.choice((-1, 0, 1))
    new = r.choice((
        r.choice(VALUES), r.choice(VALUES), r.choice((b"x", b"&amp;", b"&gt;", b"\xe9", b"&", b"0")) * size,
        b" " * size + b"x", old[:at] + r.choice(ENTITIES) + old[at:], r.choice((b" ", b"\t", b"\r\n")) + old,
        old + b" \r\n", old.swapcase(),
    ))
    return file[:start] + new + file[end:]


def a_date(r, file):
    """A date is replaced, or gets an entity in it."""
    dates = list(DATE.finditer(file))
    if not dates:
        return a_period(r, file)
    span = r.choice(dates).span(1)
    at = r.randrange(span[0], span[1] + 1)
    return r.choice((
        replaced(file, span, any_date(r)), replaced(file, span, any_date(r)), with_entity(r, file, at),
    ))


def replaced(file, span, new):
    start, end = span
    return file[:start] + new + file[end:]


def with_entity(r, file, at):
    return file[:at] + r.choice(ENTITIES) + file[at:]


def another_value(r, file, values, new):
    """One of the values that were found is replaced, or gets an entity in it."""
    span = r.choice(values).span(1)
    at = r.randrange(span[0], span[1] + 1)
    return replaced(file, span, new(r)) if r.random() < 0.8 else with_entity(r, file, at)


def a_period(r, file):
    """One end of a period, or both, are put into INCTRAN or beside it."""
    places = [tag.start() for tag in PERIOD_TAG.finditer(file)]
    if not places:
        return an_insert(r, file)
    at = r.choice(places)
    names = r.choice(((b"DTSTART",), (b"DTEND",), (b"DTSTART", b"DTEND"), (b"DTEND", b"DTSTART"), (b"DTEND", b"DTEND")))
    ends = [b"<%s>%s" % (name, any_date(r)) + r.choice((b"", b"\r\n", b"</%s>" % name)) for name in names]
    return file[:at] + b"".join(ends) + file[at:]


def an_amount(r, file):
    """An amount is replaced, or gets an entity in it."""
    amounts = list(AMOUNT.finditer(file))
    return another_value(r, file, amounts, any_amount) if amounts else a_value(r, file)


def a_child(r, file, tags, otherwise, new):
    """A child of one of the forms with these tags is put into one of them or beside it."""
    places = [tag.start() for tag in tags.finditer(file)]
    if not places:
        return otherwise(r, file)
    at = r.choice(places)
    return file[:at] + new(r) + file[at:]


def a_deed(r, file):
    return a_child(r, file, DEED_TAG, an_insert, child_of_deed)


def child_of_deed(r):
    return r.choice((
        b"<INTRARQ></INTRARQ>", b"<INTRAMODRQ></INTRAMODRQ>", b"<INTRACANRQ><SRVRTID>%d</INTRACANRQ>" % r.randrange(99),
        b"<TRNUID>x%d" % r.randrange(1000), b"<SRVRTID>%d" % r.randrange(99), b"<SRVRTID>" + b"1" * r.randrange(9, 66),
        b"<XFERINFO></XFERINFO>", b"<BANKACCTTO></BANKACCTTO>", b"<TRNAMT>" + any_amount(r), b"<DTDUE>" + any_date(r),
        b"<INTRATRNRQ></INTRATRNRQ>",
    ))


def a_model(r, file):
    return a_child(r, file, MODEL_TAG, a_deed, child_of_model)


def child_of_model(r):
    return r.choice((
        b"<RECINTRARQ></RECINTRARQ>", b"<RECINTRAMODRQ></RECINTRAMODRQ>", b"<RECINTRATRNRQ></RECINTRATRNRQ>",
        b"<RECINTRACANRQ><RECSRVRTID>%d<CANPENDING>Y</RECINTRACANRQ>" % r.randrange(99), b"<INTRARQ></INTRARQ>",
        b"<RECURRINST></RECURRINST>", b"<RECURRINST><FREQ>WEEKLY</RECURRINST>", b"<NINSTS>" + r.choice(ANY_COUNTS),
        b"<FREQ>" + r.choice(ANY_FREQUENCIES + list(FREQUENCIES)), b"<MODPENDING>" + r.choice(FLAGS + [b"Y", b"N"]),
        b"<CANPENDING>" + r.choice(FLAGS + [b"Y", b"N"]), b"<RECSRVRTID>" + b"1" * r.randrange(1, 66),
    ))


def a_mail(r, file):
    return a_child(r, file, MAIL_TAG, a_deed, mailed.any_child)


def a_sync(r, file):
    return a_child(r, file, SYNC_TAG, a_mail, synced.any_child)


def a_mail_value(r, file):
    """A text of a mail is replaced, or gets an entity in it."""
    values = list(MAIL_VALUE.finditer(file))
    return another_value(r, file, values, mailed.any_text) if values else a_value(r, file)


def a_sync_value(r, file):
    """A token or a flag of a synchronisation: replaced, or with an entity in it."""
    values = list(SYNC_VALUE.finditer(file))
    return another_value(r, file, values, any_sync_value) if values else a_mail_value(r, file)


def any_sync_value(r):
    return r.choice(r.choice((synced.ANY_TOKENS, synced.YES)))


def a_model_value(r, file):
    """How often a model makes transfers, which model it is, or a flag: replaced, or with an entity in it."""
    values = list(MODEL_VALUE.finditer(file))
    return another_value(r, file, values, any_model_value) if values else a_value(r, file)


def any_model_value(r):
    return r.choice(r.choice((ANY_COUNTS, ANY_FREQUENCIES + list(FREQUENCIES), FLAGS + [b"Y", b"N"])))


def an_aggregate(r, file):
    """An aggregate is left out, emptied, put into another, or stands twice or three times."""
    starts = [tag for tag in START_TAG.finditer(file) if tag[1] in AGGREGATES]
    if not starts:
        return a_tag(r, file)
    tag = r.choice(starts)
    closing = b"</%s>" % tag[1]
    end = file.find(closing, tag.end()) + len(closing)
    if end < len(closing):
        return a_tag(r, file)
    whole = file[tag.start():end]
    empty = tag[0] + closing
    new = r.choice((
        b"", empty, b"<X>" + whole + b"</X>", whole + whole, whole + empty, empty + whole, empty + whole + empty,
        tag[0] + whole + closing,
    ))
    return file[:tag.start()] + new + file[end:]


def a_nest(r, file):
    """Aggregates inside one another, about as many as may be open."""
    places = [tag.start() for tag in TAG.finditer(file)] or [len(file)]
    at, count, name = r.choice(places), r.randrange(8, 18), r.choice((b"A", b"STATUS", b"X"))
    inner = r.choice((b"", b"", b"<MEMO>", b"<B>x", b"<B>", b"<B>\x00", b"x"))
    ends = count if r.random() < 0.8 else r.randrange(20)
    return file[:at] + b"<%s>" % name * count + inner + b"</%s>" % name * ends + file[at:]


def an_insert(r, file):
    places = [tag.start() for tag in TAG.finditer(file)] or [len(file)]
    at = r.choice(places)
    new = r.choice((
        stranger(r), b"<%s></%s>" % ((r.choice(FORMS),) * 2), b"<%s>%s" % (r.choice(LEAVES), r.choice(VALUES)),
        b" \r\n", b"x", b"<OFX></OFX>",
    ))
    return file[:at] + new + file[at:]


def a_header_line(r, file):
    lines = file.split(b"\n", 9)
    if len(lines) < 10:
        return a_byte(r, file)
    k, other = r.randrange(9), r.randrange(9)
    line = lines[k]
    tag, colon, value = line.partition(b":")
    deed = r.randrange(9)
    if deed == 0:
        lines[k], lines[other] = lines[other], line
    elif deed == 1:
        del lines[k]
    elif deed == 2:
        lines.insert(k, r.choice((line, b"", b"\r", b"X:1")))
    elif deed == 3:
        values = (b"NONE", b"100", b"102", b"1252", b"u1", b"u2", b"", b"x" * 36, b"x" * 37, b"a\x1fb")
        lines[k] = tag + colon + r.choice(values)
    elif deed == 4:
        lines[k] = r.choice((b" ", b"\t", b"\r")) + line
    elif deed == 5:
        lines[k] = tag + r.choice((b" :", b"", b"::", b": ")) + value
    elif deed == 6:
        lines[k] = line + r.choice((b"\r", b" ", b"x", b"\x00", b"\x0b"))
    elif deed == 7:
        lines[k] = r.choice((tag.lower(), tag[:-1], tag + b"S")) + colon + value
    else:
        lines[k] = tag + colon + value.swapcase()
    return b"\n".join(lines)


def a_filling(r, file):
    """Many bytes of one thing, now and then as many as a file may have."""
    if r.random() < 0.98:
        return a_value(r, file)
    places = [tag.start() for tag in TAG.finditer(file)] or [len(file)]
    at, unit, room = r.choice(places), r.choice(UNITS), r.choice((2000, 20000, MAX_BYTES - len(file)))
    return file[:at] + unit * (room // len(unit)) + file[at:]


DEEDS = (
    a_byte, a_byte, a_byte, a_cut, a_span, two_spans, a_tag, a_tag, between_tags, between_tags, a_value, a_value,
    a_value, an_aggregate, an_aggregate, a_nest, an_insert, an_insert, a_header_line, a_filling, a_date, a_date, a_date,
    a_period, a_period, an_amount, an_amount, a_deed, a_deed, a_model, a_model, a_model_value, a_model_value,
    a_mail, a_mail, a_mail_value, a_sync, a_sync, a_sync, a_sync_value, a_sync_value,
)
COUNTS = (0, 0, 0, 1, 1, 1, 1, 1, 1, 2, 2, 3, 6)


def renamed(r, file):
    """The file with other numbers in its names, so that most of them are new to the bank."""
    if r.random() < 0.2:
        return file
    return NAME_NUMBER.sub(lambda found: found[1] + b"%d" % r.randrange(5000), file)


def damaged(r, file):
    for _ in range(r.choice(COUNTS)):
        if file:
            file = r.choice(DEEDS)(r, file)
    return file[:MAX_BYTES]


def batch(seed, number):
    """The frames of one batch; batch 0 has the frames 0 to 499."""
    r = random.Random("%d/%d" % (seed, number))
    bases = [FILES["request"], ONE_LINE] * 4 + [spelled(r) for _ in range(BASES - 8)]
    return [
        DUE if r.random() < DUE_SHARE else frame(damaged(r, renamed(r, r.choice(bases)))) for _ in range(IN_A_BATCH)
    ]
