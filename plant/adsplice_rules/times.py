"""Durations, dates with their times, and when segments begin (RFC 8216, 4.3.2.1 and 4.3.2.6)."""
from __future__ import annotations

import re
from datetime import date, timedelta

from .values import SECOND, Segment

DATE_TIME = re.compile(r"([0-9]{4})-([0-9]{2})-([0-9]{2})T([0-9]{2}):([0-9]{2}):([0-9]{2})(?:\.([0-9]{1,9}))?"
                       r"(?:Z|([+-])([0-9]{2})(?::?([0-9]{2}))?)?")
EPOCH = date(1970, 1, 1)
DAY = 86_400 * SECOND
EARLIEST = (date(1900, 1, 1) - EPOCH).days * DAY
PAST_LATEST = (date(2200, 1, 1) - EPOCH).days * DAY


def duration_of(text: str) -> int | None:
    """4.3.2.1: the nanoseconds of a decimal number of seconds: at most one point, a digit at least, below 1,000,000 s, and
    digits after the ninth are dropped (CONFORMANCE)."""
    whole, _, fraction = text.partition(".")
    if not re.fullmatch(r"[0-9]+", whole + fraction) or len(whole.lstrip("0")) > 6:
        return None
    return int(whole or "0") * SECOND + int(fraction[:9].ljust(9, "0"))


def duration_text(nanos: int) -> str:
    """How a duration is written: in seconds, without zeros at the end of its fraction."""
    seconds, rest = divmod(nanos, SECOND)
    return f"{seconds}.{rest:09}".rstrip("0") if rest else str(seconds)


def rounded_seconds(nanos: int) -> int:
    """4.3.3.1: the nearest whole number of seconds, a half up."""
    return (nanos + SECOND // 2) // SECOND


def is_instant(nanos: int) -> bool:
    """CONFORMANCE, 4.3.2.6: the years 1900 to 2199 in UTC."""
    return EARLIEST <= nanos < PAST_LATEST


def instant_of(text: str) -> int | None:
    """4.3.2.6: the nanoseconds from 1970 that a date and time says, in UTC if it has no zone (CONFORMANCE)."""
    found = DATE_TIME.fullmatch(text)
    if found is None:
        return None
    year, month, day, hour, minute, second = map(int, found.groups()[:6])
    zone_hours, zone_minutes = int(found[9] or 0), int(found[10] or 0)
    if hour > 23 or minute > 59 or second > 59 or zone_hours > 23 or zone_minutes > 59:
        return None
    try:
        days = (date(year, month, day) - EPOCH).days
    except ValueError:
        return None
    zone = (zone_hours * 60 + zone_minutes) * (-60 if found[8] == "-" else 60)
    seconds = hour * 3600 + minute * 60 + second - zone
    nanos = days * DAY + seconds * SECOND + int((found[7] or "").ljust(9, "0"))
    return nanos if is_instant(nanos) else None


def instant_text(nanos: int) -> str:
    """4.3.2.6: how an instant is written: in UTC, with three decimals, or nine if three would lose something."""
    days, rest = divmod(nanos, DAY)
    seconds, fraction = divmod(rest, SECOND)
    decimals = f"{fraction:09}" if fraction % 10**6 else f"{fraction // 10**6:03}"
    return f"{EPOCH + timedelta(days)}T{seconds // 3600:02}:{seconds // 60 % 60:02}:{seconds % 60:02}.{decimals}Z"


def reckoned_back(segments: list[Segment]) -> int | None:
    """CONFORMANCE, 4.3.2.6: the first time that these state, less the durations of all before it."""
    place = next((n for n, one in enumerate(segments) if one.time is not None), None)
    if place is None:
        return None
    time = segments[place].time
    assert time is not None
    return time - sum(one.nanos for one in segments[:place])


def begins_at(ended: int | None, segment: Segment, later: list[Segment]) -> int | None:
    """CONFORMANCE, 4.3.2.6: the stated time, else where the segment before `ended`, else counted back from the first time that
    is stated `later`. The first of these decides; out of range it is none."""
    begun = segment.time
    if begun is None:
        begun = ended if ended is not None else reckoned_back([segment, *later])
    return begun if begun is not None and is_instant(begun) else None
