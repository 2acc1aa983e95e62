"""What a trace shows at its begin of the one that it follows, where that one is not there."""

from __future__ import annotations

from typing import TYPE_CHECKING

from replay_tools import why

if TYPE_CHECKING:
    from replay_tools import report as reports


def tell_known(report: reports.Report, until: int) -> None:
    """What the report shows up to a moment was so before, and what is counted goes on from there."""
    for event in report.events:
        event.was_so = event.at <= until
    for pod in report.pods:
        mark_anew(pod, until)


def mark_anew(pod: reports.Pod, until: int) -> None:
    """Of back-offs and restarts, those for which exits before the trace may count: up to a long run, which begins the
    count again."""
    counted, starts = set(), {}
    for event in pod.events:
        name = event.container
        if event.word == "started":
            starts[name] = event.at
        if event.was_so and event.word in ("started", "died"):
            if event.word == "died" or event.rest[0] != "0":
                counted.add(name)
        elif event.word == "died" and event.at - starts.get(name, event.at) >= why.LONG_RUN:
            counted.discard(name)
        elif event.word in ("backoff", "restart") and name in counted:
            event.anew = until
