"""The days of a recurring transfer, each worked out from the first one alone.

A day is counted in weeks, or in months with its day of the month, which becomes the month's last day in a month that
is too short for it. TWICEMONTHLY has two days of the month, 15 apart: that of the first day, and one that is 15 later
in the same month, or 15 earlier in the next month where the first day is after the 15th.
"""
from datetime import MAXYEAR, date, timedelta

WEEKS = {b"WEEKLY": 1, b"BIWEEKLY": 2, b"FOURWEEKS": 4}
MONTHS = {b"MONTHLY": 1, b"BIMONTHLY": 2, b"QUARTERLY": 3, b"SEMIANNUALLY": 6, b"ANNUALLY": 12}


def day_of(first, frequency, k):
    """The k-th day, k from 0. None where it would be after 31 December 9999."""
    if frequency in WEEKS:
        days = 7 * WEEKS[frequency] * k
        return first + timedelta(days) if days <= (date.max - first).days else None
    if frequency in MONTHS:
        return in_month(first, MONTHS[frequency] * k, first.day)
    months, odd = divmod(k, 2)
    if not odd:
        return in_month(first, months, first.day)
    if first.day <= 15:
        return in_month(first, months, first.day + 15)
    return in_month(first, months + 1, first.day - 15)


def in_month(first, months, day):
    """The day of the month that is so many months after the first day's."""
    years, month = divmod(first.month - 1 + months, 12)
    year, month = first.year + years, month + 1
    return date(year, month, min(day, month_length(year, month))) if year <= MAXYEAR else None


def month_length(year, month):
    if month == 2:
        return 29 if year % 4 == 0 and (year % 100 != 0 or year % 400 == 0) else 28
    return 30 if month in (4, 6, 9, 11) else 31
