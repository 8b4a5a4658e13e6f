"""Dates at random: most of them well spelled, many near a limit, some damaged."""

YEARS = (1899, 1900, 1900, 2000, 2000, 2023, 2024, 2024, 2024, 2100, 9999, 9999, 9999, 0, 10000)
OFFSETS = (
    b"0", b"-0", b"5", b"+5", b"-5", b"05", b"-05", b"14", b"+14", b"-12", b"5.5", b"-3.5", b"-0.5", b"5.75", b"0.05",
    b"-0.05", b"14.00", b"-12.00", b"-11.95",
)
ZONE_NAMES = (
    b"", b"EST", b"a b", b":", b"&lt;", b"&amp;lt;", b"&", b">", b"x" * 32, b"x" * 31 + b"&amp;", b"&gt;" * 32,
    b"\xe9\xff", b"a\r\nb",
)
MILLISECONDS = (b"", b"", b".000", b".999")
# With those that have no form.
ANY_OFFSETS = OFFSETS + (
    b"15", b"-13", b"99", b"5.01", b"14.05", b"-12.05", b"5.", b".5", b"5.500", b"005", b"", b"-", b"+", b"EST", b"5,5",
    b" 5", b"--5",
)
ANY_ZONE_NAMES = ZONE_NAMES + (b"x" * 33, b"x" * 32 + b"&amp;", b"&gt;" * 33, b"[", b"]")
ANY_MILLISECONDS = MILLISECONDS + (b".5", b".12", b".1234", b".", b",000", b".-01")
BYTES = b"0123456789.,:+-[]& \r\nTZx\xb2\x7f"


def date(r):
    """A date that is spelled as one, though perhaps of no day or out of the years."""
    text = day(r)
    if r.random() < 0.6:
        text += time_of_day(r) + r.choice(MILLISECONDS)
    return text + zone(r, OFFSETS, ZONE_NAMES) if r.random() < 0.5 else text


def any_date(r):
    """A date, now and then with parts that have no form or stand where they may not, or with some bytes damaged."""
    text = date(r)
    if r.random() < 0.4:
        text = day(r) + r.choice((b"", time_of_day(r))) + r.choice(ANY_MILLISECONDS)
        text += b"" if r.random() < 0.3 else zone(r, ANY_OFFSETS, ANY_ZONE_NAMES)
    if r.random() < 0.2:
        at = r.randrange(len(text) + 1)
        text = text[:at] + r.choice((b"", bytes([r.choice(BYTES)]))) + text[at + r.randrange(2):]
    if r.random() < 0.1:
        text = r.choice((b" ", b"\r\n", b"\t")) + text + r.choice((b"", b"\r\n", b" x"))
    return text


def day(r):
    year = r.choice(YEARS) if r.random() < 0.5 else r.randrange(1900, 10000)
    month = r.randrange(1, 13) if r.random() < 0.98 else r.choice((0, 13, 99))
    number = r.randrange(1, 29) if r.random() < 0.6 else r.choice((1, 28, 28, 29, 29, 30, 30, 31, 32, 0))
    return b"%04d%02d%02d" % (year, month, number)


def time_of_day(r):
    hour = r.randrange(24) if r.random() < 0.6 else r.choice((0, 0, 9, 11, 12, 13, 23, 23, 23, 24))
    minute, second = (r.randrange(60) if r.random() < 0.8 else r.choice((0, 1, 30, 59, 59, 60)) for _ in range(2))
    return b"%02d%02d%02d" % (hour, minute, second)


def zone(r, offsets, names):
    name = b":" + r.choice(names) if r.random() < 0.6 else b""
    closing = b"]" if r.random() < 0.97 else r.choice((b"", b"]]", b"[", b"]x"))
    return b"[" + r.choice(offsets) + name + closing
