"""What is printed above a story of several traces: of which time they are, what is not known between them, and what
happened nearest to the moment that was asked for."""

from __future__ import annotations

from collections.abc import Callable
from typing import TYPE_CHECKING, TypeVar

from replay_tools import entry, telling
from replay_tools.joined import asked

if TYPE_CHECKING:
    from replay_tools import kubelet as kubelets, report as reports, traces
    from replay_tools.joined import join

Told = TypeVar("Told")
MOST_LISTED = 4


def head_lines(several: join.Joined, show: Callable[[int], str]) -> list[str]:
    """Of which time the traces are, and what is not known between them."""
    report, what = several.report, "report" if several.trace is None else "trace"
    lines = []
    if several.count > 1:
        lines = [f"{entry.counted(several.count, what)}, {show(several.first)} to {show(several.last)}"]
    gaps = [border for border in report.borders if border.is_gap]
    if gaps:
        spans = "; ".join(f"{show(border.since)} to {show(border.at)}" for border in gaps[:MOST_LISTED])
        more = f" and {len(gaps) - MOST_LISTED} more" if len(gaps) > MOST_LISTED else ""
        lines.append(f"{entry.counted(len(gaps), 'gap')} in which nothing was recorded: {spans}{more}")
    anew = [border for border in report.borders if not border.is_gap]
    if anew:
        more = f" and {len(anew) - MOST_LISTED} more" if len(anew) > MOST_LISTED else ""
        lines.append(f"a {what} begins at {', '.join(show(border.at) for border in anew[:MOST_LISTED])}{more}: exits, "
                     "grace periods and pauses count from zero from there; a note shows where it matters")
    return lines


def nearest_lines(several: join.Joined, pod: reports.Pod, restarts: list[tuple[int, list[str]]],
                  fact: kubelets.Fact | None, show: Callable[[int], str]) -> list[str]:
    """What happened to a pod nearest to the moment that was asked for: a restart, else something else that is bad.
    The fact is that the kubelet evicted it, where it did."""
    at = several.asked.at
    if at is None:
        return []
    near = nearest_of(restarts, at)
    if near is not None:
        moment, (_, name, attempt, by, led) = near
        does = "restart ordered" if by == "ordered" else "restarted"
        return [f"nearest to {show(at)}: {name} {does} at {show(moment)}, after attempt {attempt}, led to by: {led}"]
    bad = [(fact.decision.at, "the kubelet evicted it")] if fact is not None else []
    bad += [(event.at, bad_words(event, fact is not None, several.trace)) for event in pod.events
            if event.word in ("evicted", "kill", "died", "unready")]
    nearest = nearest_of(bad, at)
    within = f"within {asked.NEAR} s of {show(at)}"
    if nearest is None:
        return [f"no restart, kill, death or eviction {within}"]
    moment, what = nearest
    return [f"no restart {within}; nearest to it, at {show(moment)}: {what}"]


def nearest_of(rows: list[tuple[int, Told]], at: int) -> tuple[int, Told] | None:
    """The first of the rows with moments that are nearest to a moment; None where none is near it."""
    near = [row for row in rows if abs(row[0] - at) <= asked.NEAR]
    return min(near, key=lambda row: abs(row[0] - at)) if near else None


def bad_words(event: reports.Event, is_beside: bool, trace: traces.Trace | None) -> str:
    return " ".join(filter(None, [event.container, telling.event_words(event, is_beside, trace, False)[1]]))
