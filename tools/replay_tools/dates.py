"""Times of the calendar as seconds since 1970: the one place that knows which days and zones there are."""

from __future__ import annotations

import re
from datetime import datetime, timedelta, timezone

ZONE = re.compile(r"([+-])(\d\d):?(\d\d)", re.ASCII)
NOWHERE = {"", "Z", "UTC"}
# as traces are named, or as the API writes a time without its fraction
STAMP = re.compile(r"(\d{4})-(\d\d)-(\d\d)T(\d\d)([-:])(\d\d)\5(\d\d)Z?", re.ASCII)


def seconds_of(year: int, month: int, day: int, hour: int, minute: int, second: int) -> int | None:
    """The seconds since 1970 of a time of UTC; None where there is no such day or time. A leap second counts as the
    second after it."""
    try:
        found = datetime(year, month, day, hour, minute, min(second, 59), tzinfo=timezone.utc)
    except ValueError:
        return None
    return int(found.timestamp()) + (second == 60) if second <= 60 and year >= 1970 else None


def shift_of(zone: str) -> int | None:
    """The seconds by which the clock of a zone, as Z or +01:00, is ahead of UTC; None where there is no such zone."""
    if zone in NOWHERE:
        return 0
    found = ZONE.fullmatch(zone)
    if found is None or int(found[3]) > 59:
        return None
    shift = timedelta(hours=int(found[2]), minutes=int(found[3]))
    try:
        timezone(shift)
    except ValueError:
        return None
    return int(shift.total_seconds()) * (1 if found[1] == "+" else -1)


def stamped(text: str) -> int | None:
    """The moment of 2026-11-27T04-00-00Z, or of 2026-11-27T04:00:00; None of another text."""
    found = STAMP.fullmatch(text)
    if found is None:
        return None
    year, month, day, hour, _, minute, second = found.groups()
    return seconds_of(int(year), int(month), int(day), int(hour), int(minute), int(second))
