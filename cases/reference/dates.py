"""Dates, as they stand in the values of elements and after `--at`, and the moments in GMT that they stand for.

A date is `YYYYMMDD`, which is midnight, or `YYYYMMDDHHMMSS`. After the second form a point and three digits may stand,
which are dropped. After all of this a zone may stand: `[`, an offset, perhaps `:` and a name, and `]`. An offset is
perhaps a sign, one or two digits of hours, and perhaps a point and one or two digits, which are decimal parts of an
hour. A name is up to 32 bytes of which none is a bracket. Without a zone the date is GMT.
"""
import re
from datetime import datetime, timedelta
from decimal import Decimal

from .text import trimmed

DATE = re.compile(rb"""
    ([0-9]{4}) ([0-9]{2}) ([0-9]{2})
    (?: ([0-9]{2}) ([0-9]{2}) ([0-9]{2}) (?: \. [0-9]{3} )? )?
    (?: \[ (?P<offset> [+-]? [0-9]{1,2} (?: \. [0-9]{1,2} )? ) (?: : [^\[\]]{0,32} )? \] )?
""", re.VERBOSE)

FIRST_YEAR = 1900  # the last one is 9999, as it is datetime's
LEAST_OFFSET, GREATEST_OFFSET, OFFSET_STEP = Decimal(-12), Decimal(14), Decimal("0.05")


def read_moment(raw):
    """The moment in GMT that a date stands for: its civil time minus its offset. None where the bytes are no date.

    Both the civil time and the moment have a year from 1900 to 9999. White space at both ends is dropped.
    """
    date = DATE.fullmatch(trimmed(raw))
    offset = read_offset(date["offset"] or b"0") if date else None
    if offset is None:
        return None
    try:
        civil = datetime(*(int(digits or 0) for digits in date.groups()[:6]))
        moment = civil - offset
    except (ValueError, OverflowError):
        return None
    return moment if min(civil.year, moment.year) >= FIRST_YEAR else None


def read_offset(digits):
    """The offset that these digits stand for. None where it is no multiple of 0.05, or not from -12 to +14."""
    hours = Decimal(digits.decode())
    if hours % OFFSET_STEP or not LEAST_OFFSET <= hours <= GREATEST_OFFSET:
        return None
    return timedelta(minutes=int(hours * 60))
