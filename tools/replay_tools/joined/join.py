"""Joins what is asked for: reads and replays the parts, and shows what lies between them."""

from __future__ import annotations

from dataclasses import dataclass

from replay_tools import entry, report as reports, summary, traces
from replay_tools.joined import asked as asking_for, borders as joined_borders, of_reports, of_traces, parts

# a tick is as far after the one before at most, as a recorder writes them
QUIET = 60


@dataclass
class Joined:
    """What is printed of the parts together, and the part of it that was asked for."""

    asked: asking_for.Asked
    report: reports.Report
    trace: traces.Trace | None
    count: int
    first: int
    last: int
    known: int
    """the moment up to which the first of them shows what was so in one that is not there"""
    is_utc: bool
    """a time was given, or the name of a trace has one"""
    is_whole: bool = True
    """the last of them is not written any more"""

    def is_near(self, at: int) -> bool:
        """Whether a moment is printed, where one was asked for."""
        return self.asked.at is None or abs(at - self.asked.at) <= asking_for.NEAR

    def is_span_near(self, span: reports.Span) -> bool:
        if self.asked.at is None:
            return True
        until = self.last if span.until is None else span.until
        return (span.since or 0) - asking_for.NEAR <= self.asked.at <= until + asking_for.NEAR


def joined(asked: asking_for.Asked) -> Joined:
    """All that is asked for, joined. Raises Fault where it can't be, or has nothing of the time."""
    found = joined_borders.without_overlaps(parts.parts_of(asked), asked.is_quiet)
    borders = joined_borders.borders_of(found)
    check_time(asked, found, borders)
    for border in borders:
        if border.missing and not asked.is_quiet:
            entry.say(f"{border.name} follows {border.missing}, which is not there: its time is a gap")
    report, numbers = of_reports.join_reports(found, borders)
    # each part has a trace, or none has
    of_parts = [part.trace for part in found if part.trace is not None]
    trace = of_traces.join_traces(of_parts, borders, numbers) if of_parts else None
    if trace is not None:
        report.tick_count = len(trace.ticks)
    is_utc = asked.is_utc or any(part.source.begun is not None for part in found)
    known = found[0].known_until if found[0].follows else summary.NEVER
    return Joined(asked, report, trace, len(found), found[0].shown_until, found[-1].last, known, is_utc,
                  not found[-1].source.is_part)


def check_time(asked: asking_for.Asked, found: list[parts.Part], borders: list[reports.Border]) -> None:
    """Raises Fault where nothing was recorded at the time that is asked for."""
    def show(at: int) -> str:
        return reports.moment_text(at, asked.is_utc or found[0].source.begun is not None)

    last = found[-1].last
    if asked.since is not None and last < asked.since:
        raise entry.Fault(f"nothing was recorded since {show(asked.since)}: the newest trace ends at {show(last)}")
    if asked.at is None:
        return
    if not found[0].first <= asked.at <= last + QUIET:
        raise entry.Fault(f"nothing was recorded at {show(asked.at)}: the traces around it are of "
                          f"{show(found[0].first)} to {show(last)}")
    for border in borders:
        if border.is_gap and border.since + QUIET < asked.at < border.at:
            raise entry.Fault(f"nothing was recorded at {show(asked.at)}: there is a gap from {show(border.since)} to "
                              f"{show(border.at)}")
