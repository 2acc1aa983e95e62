"""Moments as journals write them. klog's own have neither a year nor a zone."""

from __future__ import annotations

import re
import time
from typing import Optional

from replay_tools import dates

ISO = re.compile(r"(\d{4})-(\d\d)-(\d\d)[T ](\d\d):(\d\d):(\d\d)([.,]\d+)? ?(Z|UTC|[+-]\d\d:?\d\d)?(?: UTC)?")
DAY = 86400
# a moment may be so much later than the newest before it where the year did not change
HALF_A_YEAR = 183 * DAY


def shift_of(zone: Optional[str]) -> Optional[int]:
    """The seconds by which a zone's clock is ahead; None where the text is no zone."""
    return dates.shift_of(zone or "Z")


def seconds_of(year: int, month: int, day: int, hour: int, minute: int, second: int) -> Optional[int]:
    """Seconds since 1970, where there is such a day and time."""
    return dates.seconds_of(year, month, day, hour, minute, second)


def moment_of_iso(text: str) -> Optional[float]:
    """The moment of a text as 2026-11-29T03:58:22.06Z; without a zone it is UTC."""
    found = ISO.fullmatch(text)
    if found is None:
        return None
    seconds, shift = seconds_of(*map(int, found.groups()[:6])), shift_of(found[8])
    if seconds is None or shift is None:
        return None
    return seconds - shift + (float(f"0{found[7].replace(',', '.')}") if found[7] else 0.0)


def moment_of_go(text: str) -> Optional[float]:
    """The moment of a text as Go prints a time: 2026-11-29 03:58:22.063941783 +0000 UTC m=+7.4; None for its zero."""
    moment = moment_of_iso(text.partition(" m=")[0].replace(" +0000 UTC", "Z").strip())
    return moment if moment is not None and moment > 0 else None


class Klog:
    """Makes moments of klog's: of a year and a zone that were given, else of the year of a moment near them."""

    def __init__(self, year: Optional[int], shift: int, near: float) -> None:
        self.shift = shift
        self.year = time.gmtime(near + shift).tm_year if year is None else year
        self.is_given = year is not None
        self.near = near
        self.newest: Optional[float] = None
        self.day = (0, 0)
        self.midnight: Optional[int] = None
        # the text of a second that was read last, since many lines are of one
        self.text = b""
        self.second: Optional[int] = None

    def second_of(self, text: bytes) -> Optional[int]:
        """The second of a line as klog writes it, as 1129 03:58:22."""
        if text != self.text:
            found = self.moment(int(text[:2]), int(text[2:4]), int(text[5:7]), int(text[8:10]), int(text[11:13]), 0)
            self.text, self.second = text, None if found is None else int(found)
        return self.second

    def moment(self, month: int, day: int, hour: int, minute: int, second: int, fraction: float) -> Optional[float]:
        """The moment of a line. After the end of a year comes the next one."""
        if (month, day) != self.day:
            self.take_day(month, day)
        if self.midnight is None or hour > 23 or minute > 59 or second > 60:
            return None
        found = self.midnight + hour * 3600 + minute * 60 + second + fraction
        self.newest = found
        return found

    def take_day(self, month: int, day: int) -> None:
        self.day = month, day
        found = seconds_of(self.year, month, day, 0, 0, 0)
        if found is not None and self.newest is None and not self.is_given and found - self.shift > self.near + DAY:
            # a log of last year, in a file that was written this year
            self.year -= 1
            found = seconds_of(self.year, month, day, 0, 0, 0)
        elif found is not None and self.newest is not None and found - self.shift < self.newest - HALF_A_YEAR:
            self.year += 1
            found = seconds_of(self.year, month, day, 0, 0, 0)
        self.midnight = None if found is None else found - self.shift
