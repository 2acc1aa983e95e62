"""What is asked of several traces: which ones, of which node, and of which time."""

from __future__ import annotations

import re
import time
from argparse import Namespace
from dataclasses import dataclass

from replay_tools import dates, entry

# what led to it lies before a moment, what came of it after
SECONDS_BEFORE, SECONDS_BEHIND = 3600, 600
# how far from a moment events are printed
NEAR = 600
MOMENT = re.compile(r"(?:(?P<date>\d{4}-\d\d-\d\d)[T ])?(?P<hour>\d\d):(?P<minute>\d\d)(?::(?P<second>\d\d))?"
                    r"(?P<zone>Z|[+-]\d\d:\d\d)?", re.ASCII)
DURATION = re.compile(r"(?:\d{1,6}[dhms])+", re.ASCII)
SECONDS = {"d": 86400, "h": 3600, "m": 60, "s": 1}


@dataclass
class Asked:
    """The traces that are named, and which of them are needed: the traces of a node, since a moment, around a moment.
    """

    named: list[str]
    node: str | None = None
    since: int | None = None
    at: int | None = None
    is_utc: bool = False
    """a time was given, and not a number of seconds"""
    is_quiet: bool = False
    """it is asked again and again, and what is left out is not reported"""

    @property
    def first(self) -> int | None:
        return self.since if self.at is None else self.at - SECONDS_BEFORE

    @property
    def last(self) -> int | None:
        return None if self.at is None else self.at + SECONDS_BEHIND


def asked_of(found: Namespace) -> Asked | None:
    """What the arguments of a tool ask for; None where they name no several traces."""
    if not found.traces:
        return None
    if found.trace is not None:
        raise entry.Fault("--trace and --traces exclude each other (see --help)")
    return asked_at(found.traces, found.node, found.since, found.at, time.time())


def asked_at(named: list[str], node: str | None, since: str | None, at: str | None, now: float) -> Asked:
    """What is asked for, by the values of arguments. The value of --since may count from now."""
    if since is not None and at is not None:
        raise entry.Fault("--since and --at exclude each other (see --help)")
    is_utc = any(text is not None and not text.isdigit() for text in (since, at))
    return Asked(named, node, None if since is None else since_of(since, now),
                 None if at is None else moment_of(at, "--at", now), is_utc)


def span_of(since: str | None, at: str | None, now: float) -> tuple[int | None, int | None]:
    """The first and the last moment that the values of --since and --at ask for; None for each that they leave open."""
    wanted = asked_at([], None, since, at, now)
    return wanted.first, wanted.last


def since_of(text: str, now: float) -> int:
    """The moment of --since, which may be so long before now."""
    if DURATION.fullmatch(text):
        return max(int(now) - seconds_of(text), 0)
    return moment_of(text, "--since", now)


def seconds_of(text: str) -> int:
    return sum(int(number) * SECONDS[unit] for number, unit in re.findall(r"(\d+)([dhms])", text))


def moment_of(text: str, word: str, now: float) -> int:
    """A moment as seconds: a number of them, or a time; one without its date is the last before now."""
    if text.isascii() and text.isdigit() and len(text) < 13:
        return int(text)
    parts = MOMENT.fullmatch(text)
    form = "2026-11-27T03:10Z, 03:10Z" + (", 2h" if word == "--since" else "")
    if parts is None:
        raise entry.Fault(f"{word} takes a time, as {form}, or seconds since 1970, not '{text}'")
    if parts["zone"] is None:
        raise entry.Fault(f"{word} {text} lacks its zone: {text}Z is UTC, {text}+01:00 an hour before it")
    shift = dates.shift_of(parts["zone"])
    if shift is None:
        raise entry.Fault(f"{word} {text}: there is no zone {parts['zone']}")
    date = parts["date"] or time.strftime("%Y-%m-%d", time.gmtime(now + shift))
    year, month, day = map(int, date.split("-"))
    said = dates.seconds_of(year, month, day, int(parts["hour"]), int(parts["minute"]), int(parts["second"] or 0))
    if said is None:
        raise entry.Fault(f"{word} {text} is no time that there is")
    at = said - shift
    return at if parts["date"] or at <= now else at - SECONDS["d"]
