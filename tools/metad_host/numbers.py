"""Numbers and times as Go writes them, and the texts of moments."""
from __future__ import annotations

import re
from typing import Optional, Tuple

from .faults import BadInput

SECOND = 10 ** 9
DAY = 24 * 3600 * SECOND
YEAR_ONE = 62135596800  # seconds from the beginning of year 1 to 1970

# What metad reads: docs/FORMATS.md, Times. Whether the day is in the calendar is asked apart.
READ = re.compile(r"(\d{4})-(\d\d)-(\d\d)T([01]\d|2[0-3]):[0-5]\d:[0-5]\d(\.\d{1,9})?"
                  r"(Z|[+-]([01]\d|2[0-3]):[0-5]\d)", re.ASCII)
# What Go 1.19 reads as RFC 3339 beyond that: an hour of one digit, a comma, any number of digits
# after it, any offset, its parts with signs too.
GO = re.compile(r"(\d{4})-(\d\d)-(\d\d)T(\d\d?):(\d\d):(\d\d)(?:[.,](\d+))?"
                r"(?:Z|([+-])(\d\d|[+-]\d):(\d\d|[+-]\d))", re.ASCII)


def uvarint(data: bytes, what: str) -> int:
    """A number without a sign in Go's variable length."""
    total = 0
    for place, byte in enumerate(data[:10]):
        total |= (byte & 127) << (7 * place)
        if byte < 128:
            return total
    raise BadInput("%s is no number" % what)


def varint(data: bytes, what: str) -> int:
    """A signed number in Go's variable length."""
    total = uvarint(data, what)
    return (total >> 1) ^ -(total & 1)


def binary_time(data: bytes, what: str) -> int:
    """Nanoseconds since 1970 of a time in Go's binary form."""
    if len(data) < 15 or data[0] not in (1, 2):
        raise BadInput("%s is no time" % what)
    seconds = int.from_bytes(data[1:9], "big", signed=True)
    nanoseconds = int.from_bytes(data[9:13], "big", signed=True)
    return (seconds - YEAR_ONE) * SECOND + nanoseconds


def day_number(year: int, month: int, day: int) -> Optional[int]:
    """The day of a date, counted from 1970-01-01; None where no such day is.

    The calendar is the Gregorian one, the year 0 included.
    """
    leap = year % 4 == 0 and (year % 100 != 0 or year % 400 == 0)
    lengths = (31, 29 if leap else 28, 31, 30, 31, 30, 31, 31, 30, 31, 30, 31)
    if not 1 <= month <= 12 or not 1 <= day <= lengths[month - 1]:
        return None
    return first_of(year) + sum(lengths[:month - 1]) + day - 1


def first_of(year: int) -> int:
    """The number of a year's first day."""
    return 365 * year + (year + 3) // 4 - (year + 99) // 100 + (year + 399) // 400 - 719528


def date_of(number: int) -> Tuple[int, int, int]:
    """Year, month and day of a day number."""
    year = (number + 719528) * 400 // 146097
    while first_of(year) > number:
        year -= 1
    while first_of(year + 1) <= number:
        year += 1
    for month in range(12, 0, -1):
        first = day_number(year, month, 1)
        if first is not None and first <= number:
            return year, month, number - first + 1
    raise AssertionError("a year begins with its first month")


def is_moment(text: str) -> bool:
    """Whether metad reads the text as a time."""
    found = READ.fullmatch(text)
    if not found or int(found[1]) > 9998:
        return False
    return day_number(int(found[1]), int(found[2]), int(found[3])) is not None


def go_moment(text: str) -> Optional[int]:
    """Nanoseconds since 1970 of a text that Go 1.19 reads as RFC 3339; None where it doesn't."""
    found = GO.fullmatch(text)
    if not found:
        return None
    year, month, day, hour, minute, second = (int(part) for part in found.groups()[:6])
    number = day_number(year, month, day)
    if number is None or hour > 23 or minute > 59 or second > 59:
        return None
    fraction = int(((found[7] or "") + "0" * 9)[:9])
    offset = 0
    if found[8]:
        offset = (int(found[9]) * 60 + int(found[10])) * 60 * (1 if found[8] == "+" else -1)
    return (number * 86400 + hour * 3600 + minute * 60 + second - offset) * SECOND + fraction


def is_offset_of_go_119(text: str) -> bool:
    """Whether Go 1.19 reads the text's offset and later versions don't.

    These take hours to 24 and minutes to 60.
    """
    found = GO.fullmatch(text)
    if not found or not found[8]:
        return False
    return not (0 <= int(found[9]) <= 24 and 0 <= int(found[10]) <= 60)


EARLIEST = first_of(0) * DAY
LATEST = first_of(9999) * DAY - 1


def moment_text(moment: int) -> str:
    """A moment as metad reads it; one out of its years is the first or the last of these."""
    moment = min(max(moment, EARLIEST), LATEST)
    day, rest = divmod(moment, DAY)
    seconds, nanoseconds = divmod(rest, SECOND)
    year, month, date = date_of(day)
    fraction = (".%09d" % nanoseconds).rstrip("0") if nanoseconds else ""
    clock = "%02d:%02d:%02d" % (seconds // 3600, seconds // 60 % 60, seconds % 60)
    return "%04d-%02d-%02dT%s%sZ" % (year, month, date, clock, fraction)
