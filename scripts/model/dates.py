"""The calendar, and how dates are read and printed (docs/protocol.md, "Dates").

Written apart from the program, and naive on purpose: a day is the number of days since 0000-01-01, and the date of a
day is found by going from year to year and from month to month.
"""

from collections import namedtuple

MONTHS = (31, 28, 31, 30, 31, 30, 31, 31, 30, 31, 30, 31)
LOCAL, UNIVERSAL = b"    ", b"   Z"

Stamp = namedtuple("Stamp", "day second")  # the second of the day


def is_leap(year):
    return year % 4 == 0 and (year % 100 != 0 or year % 400 == 0)


def month_length(year, month):
    return 29 if month == 2 and is_leap(year) else MONTHS[month - 1]


def days_before_year(year):
    """The days from 0000-01-01 to the first day of the year. Year 0 is a leap year."""
    if year == 0:
        return 0
    before = year - 1
    return 365 * year + 1 + before // 4 - before // 100 + before // 400


def day_number(year, month, day):
    return days_before_year(year) + sum(month_length(year, before) for before in range(1, month)) + day - 1


LAST_DAY = day_number(9999, 12, 31)


def print_day(day):
    """YYYYMMDD of a day."""
    year = day // 366
    while days_before_year(year + 1) <= day:
        year += 1
    rest, month = day - days_before_year(year), 1
    while rest >= month_length(year, month):
        rest -= month_length(year, month)
        month += 1
    return b"%04d%02d%02d" % (year, month, rest + 1)


def print_due(day):
    """A due day or an expiry day."""
    return print_day(day) + b"    235900"


def print_stamp(stamp):
    second = stamp.second
    return print_day(stamp.day) + b"    %02d%02d%02d" % (second // 3600, second // 60 % 60, second % 60)


def is_digits(text):
    return len(text) > 0 and all(0x30 <= byte <= 0x39 for byte in text)


def read_day(text):
    """The day of YYYYMMDD, or None."""
    if len(text) != 8 or not is_digits(text):
        return None
    year, month, day = int(text[:4]), int(text[4:6]), int(text[6:])
    if not 1 <= month <= 12 or not 1 <= day <= month_length(year, month):
        return None
    return day_number(year, month, day)


def read_date(text, offset):
    """The local stamp of an 18-byte date, or None where it is unreadable."""
    if text is None or len(text) != 18 or not is_digits(text[12:]) or text[8:12] not in (LOCAL, UNIVERSAL):
        return None
    day = read_day(text[:8])
    hour, minute, second = int(text[12:14]), int(text[14:16]), int(text[16:])
    if day is None or hour > 23 or minute > 59 or second > 59:
        return None
    if text[8:12] == UNIVERSAL:
        minutes = day * 1440 + hour * 60 + minute + offset
        day, hour, minute = minutes // 1440, minutes % 1440 // 60, minutes % 60
        if not 0 <= day <= LAST_DAY:
            return None
    return Stamp(day, hour * 3600 + minute * 60 + second)
