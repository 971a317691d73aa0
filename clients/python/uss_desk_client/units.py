"""Metres to decimetres and times to seconds, rounded outward, so that no part of a flight is left out."""
from __future__ import annotations

import re
from datetime import datetime, timedelta, timezone
from decimal import ROUND_CEILING, ROUND_FLOOR, Decimal
from typing import Optional, Tuple, Union

from uss_desk_client.errors import DeskError
from uss_desk_client.limits import MAX_TIME_BYTES

Metres = Union[int, float, Decimal]
"""A height or a length in metres. A float stands for the shortest decimal that is printed for it."""
Time = Union[datetime, str, int]
"""A moment: a datetime with an offset, a text of RFC 3339, or a Unix second."""

EPOCH = datetime(1970, 1, 1, tzinfo=timezone.utc)
WRITTEN = re.compile(
    r"(\d{4})-(\d{2})-(\d{2})[Tt](\d{2}):(\d{2}):(\d{2})(\.\d+)?([Zz]|([+-])(\d{2}):(\d{2}))", re.ASCII
)
FIRST_INSTANT, LAST_INSTANT = -377_705_023_201, 253_402_207_200
"""The Unix seconds between which the desk reads a time at all."""


class UnitError(DeskError, ValueError):
    """A length, an altitude or a time that can't be told to the desk."""


MOST_METRES = 10**9


def exact(number: Metres) -> Decimal:
    """A number of metres as the decimal that was written; a UnitError if it is no number, or a huge one."""
    if isinstance(number, bool) or not isinstance(number, (int, float, Decimal)):
        raise UnitError(f"{number!r} is no number of metres")
    decimal = Decimal(str(number))
    if not decimal.is_finite() or decimal.copy_abs() > MOST_METRES:
        raise UnitError(f"{str(number)[:20]} is no number of metres up to {MOST_METRES:,}")
    return decimal


def decimetres(metres: Metres) -> Decimal:
    """Ten times the number, with all its digits. (The arithmetic of Decimal would round to 28.)"""
    sign, digits, exponent = exact(metres).as_tuple()
    return Decimal((sign, digits, int(exponent) + 1))


def decimetres_down(metres: Metres) -> int:
    """The greatest whole number of decimetres that is at most so many metres: for a lower altitude."""
    return int(decimetres(metres).to_integral_value(rounding=ROUND_FLOOR))


def decimetres_up(metres: Metres) -> int:
    """The least whole number of decimetres that is at least so many metres: for an upper altitude."""
    return int(decimetres(metres).to_integral_value(rounding=ROUND_CEILING))


def is_date(year: int, month: int, day: int) -> bool:
    """Whether the calendar has this date, the year 0 too."""
    is_leap = year % 4 == 0 and (year % 100 != 0 or year % 400 == 0)
    lengths = (31, 29 if is_leap else 28, 31, 30, 31, 30, 31, 31, 30, 31, 30, 31)
    return 1 <= month <= 12 and 1 <= day <= lengths[month - 1]


def days_before(year: int, month: int, day: int) -> int:
    """The days from 1970-01-01 to a date of the years 0 to 9999."""
    shift = 0 if year >= 1 else 400
    return datetime(year + shift, month, day).toordinal() - shift // 400 * 146_097 - 719_163


def read_time(text: str) -> Optional[Tuple[int, bool]]:
    """The Unix second in which a time of RFC 3339 lies, and whether it lies after that second's beginning;
    None if the desk doesn't read this text as a time (docs/api.md, "Request bodies")."""
    found = WRITTEN.fullmatch(text) if len(text) <= MAX_TIME_BYTES else None
    if not found:
        return None
    year, month, day, hour, minute, second = (int(found[at]) for at in range(1, 7))
    if not is_date(year, month, day) or hour > 23 or minute > 59 or second > 59:
        return None
    offset = 0
    if found[9]:
        if int(found[10]) > 23 or int(found[11]) > 59:
            return None
        offset = (int(found[10]) * 3600 + int(found[11]) * 60) * (-1 if found[9] == "-" else 1)
    unix = days_before(year, month, day) * 86_400 + hour * 3600 + minute * 60 + second - offset
    has_fraction = bool(found[7] and found[7].strip(".0"))
    return (unix, has_fraction) if FIRST_INSTANT <= unix <= LAST_INSTANT else None


def instant(time: Time) -> Tuple[int, bool]:
    """As `read_time`, of any form of a moment; a UnitError says what is wrong with it."""
    if isinstance(time, datetime):
        if time.tzinfo is None:
            raise UnitError(f"{time.isoformat()} has no offset from UTC: give it a tzinfo")
        since = time - EPOCH
        whole = since // timedelta(seconds=1)
        return whole, since > timedelta(seconds=whole)
    if isinstance(time, str):
        found = read_time(time)
        if not found:
            raise UnitError(f"{time!r} is no time of RFC 3339 with Z or an offset, as 2026-06-01T12:00:00Z")
        return found
    if isinstance(time, int) and not isinstance(time, bool):
        if not FIRST_INSTANT <= time <= LAST_INSTANT:
            raise UnitError(f"{time} is no Unix second of the years to 9999: are these milliseconds?")
        return time, False
    raise UnitError(f"{time!r} is no time: a datetime with an offset, a text of RFC 3339 or a Unix second")


def second_down(time: Time) -> int:
    """The Unix second in which a moment lies: for a start."""
    return instant(time)[0]


def second_up(time: Time) -> int:
    """The first Unix second that begins at or after a moment: for an end."""
    second, has_fraction = instant(time)
    return second + has_fraction


def datetime_of(second: int) -> datetime:
    """The moment at which a Unix second begins, in UTC."""
    return EPOCH + timedelta(seconds=second)


def time_text(second: int) -> str:
    """A Unix second of the years 1970 to 9999 as a text of RFC 3339, as the desk reads it."""
    return datetime_of(second).strftime("%Y-%m-%dT%H:%M:%SZ")
