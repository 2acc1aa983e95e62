"""What happens on a node, reported as it is recorded: the newest traces of a folder are read again as they grow."""

from __future__ import annotations

import os
import signal
import sys
import time
from collections.abc import Callable, Iterator
from dataclasses import dataclass, field

from replay_tools import (decided, endings, entry, events, kubelet as kubelets, own_restarts, readiness,
                          report as reports, telling, traces)
from replay_tools.cli.statuses import Status
from replay_tools.joined import asked as asking_for, files, join

# seconds between two polls; a replay takes a tenth of the time at most
LOOK, SHARE = 1, 10
# a recorder writes what it saw last at the end of a part, and may write it otherwise for some seconds
HELD_BACK = 10
# what is printed may be of a trace that began so long before what was reported last
SECONDS_BEFORE = 600

Row = tuple[int, str]


@dataclass
class Follower:
    """What was reported of a folder so far."""

    folder: str
    node: str | None
    wanted: str | None
    """a pod's key, a namespace with its slash, or None for all"""
    since: int | None
    """the moment from which on it is printed; None for what is after the end of the traces"""
    until: int | None = None
    """up to when it was reported"""
    facts: set[tuple[str, str, int]] = field(default_factory=set)
    """the decisions that were reported, some of which are in a later tick"""
    faults: set[str] = field(default_factory=set)

    def news(self) -> list[Row]:
        """What was recorded since this was asked last, by time."""
        several = join.joined(asking_for.Asked([self.folder], self.node, self.begin(), is_utc=True, is_quiet=True))
        trace, report = several.trace, several.report
        if trace is None:
            raise entry.Fault(f"{self.folder} has reports, and traces are followed")
        endings.tell_left(trace, report)
        certain = several.last if several.is_whole else several.last - HELD_BACK
        rows = list(self.rows(trace, report, certain))
        if self.until is None and self.since is None:
            rows = []
        self.until = max(certain, self.until or 0)
        return sorted(rows, key=lambda row: row[0])

    def begin(self) -> int | None:
        """From when on traces are read: the traces of what was reported last, and at first the newest."""
        if self.until is not None:
            return self.until - SECONDS_BEFORE
        if self.since is not None:
            return self.since
        sources = files.sources_of(asking_for.Asked([self.folder], self.node))
        # a link that leads nowhere has no trace to begin with
        return max((source.begun for source in sources if source.begun is not None and os.path.exists(source.path)),
                   default=None)

    def rows(self, trace: traces.Trace, report: reports.Report, certain: int) -> Iterator[Row]:
        least = self.until if self.until is not None else -1 if self.since is None else self.since
        kubelet = kubelets.beside(trace, report)
        for event in report.events:
            if least < event.at <= certain and not event.was_so and self.is_wanted(event.pod):
                of_pod = "" if event.number is None else own_restarts.clause(report.pods[event.number], event, trace)
                yield event.at, event_line(event, trace, kubelet is not None) + of_pod
                for wrote in telling.last_lines(event, trace):
                    yield event.at, f"{event.pod} {event.container} {wrote}"
        for pod in report.pods:
            if self.is_wanted(pod.key):
                yield from ((at, f"{pod.key} {what}") for at, what in asides(trace, pod) if least < at <= certain)
        if any(self.is_wanted(pod.key) for pod in report.pods):
            yield from ((at, what) for said, at, what in of_node(trace, report) if least < said <= certain)
        for decision in decided.decisions_with_endings(trace):
            told = decision.kind, decision.pod, decision.at
            if told not in self.facts and decision.at <= certain and self.is_wanted(decision.pod):
                self.facts.add(told)
                if decision.at > least or self.until is not None:
                    yield decision.at, f"{decision.pod} {kubelets.event_words(decision)}"

    def is_wanted(self, key: str | None) -> bool:
        """Whether something of a pod, or of the node, is printed."""
        if self.wanted is None or key is None:
            return self.wanted is None
        if self.wanted.endswith("/"):
            return key.startswith(self.wanted)
        name = key if "/" in self.wanted else key.partition("/")[2]
        return name == self.wanted or name.startswith(f"{self.wanted}-")


def asides(trace: traces.Trace, pod: reports.Pod) -> Iterator[Row]:
    """What the trace shows of a pod's deletion, resizes and waits. A resize that was so before the trace is no news."""
    yield from readiness.rows(trace, pod)
    for resize in trace.resizes.of_pod(pod.number):
        if not resize.was_so:
            yield resize.at, f"{resize.container.name} {resize.words()}"
    deletion = trace.deletions.get(pod.number)
    if deletion is not None:
        yield deletion.at, f"is being deleted{deletion.words()}"
    for container, wait in trace.reasons.waits_of(pod):
        yield wait.since, f"{container} waits: {wait.words()}"


def of_node(trace: traces.Trace, report: reports.Report) -> Iterator[tuple[int, int, str]]:
    """What happened to the node itself, which the trace may show later: the moment of the tick that shows it first, its
    own, and what it was."""
    for reboot in telling.reboots(trace, report):
        yield trace.ticks[reboot.before + 1].at, reboot.at, reboot.words()
    for tick in trace.ticks:
        if tick.kubelet_started_at is not None:
            yield tick.at, tick.kubelet_started_at, telling.RESTARTED
    for time_of in telling.times_not_ready(trace):
        said = next(tick.at for tick in trace.ticks if tick.not_ready is not None and tick.at >= time_of.since)
        reason = f": {time_of.reason}" if time_of.reason else ""
        yield said, time_of.since, f"the node is NotReady{reason}"
        is_over_gap = any(time_of.until == begin for begin, _ in trace.gaps)
        if time_of.until is not None and not is_over_gap:
            yield time_of.until, time_of.until, "the node is Ready again"


def event_line(event: reports.Event, trace: traces.Trace, is_beside: bool) -> str:
    attempt, what = telling.event_words(event, is_beside, trace)
    subject = event.pod or "the node:"
    return " ".join(filter(None, [subject, event.container, what])) + events.attempt_words(attempt)


def follow(follower: Follower, show: Callable[[int], str]) -> None:
    """Prints what is recorded, until it is interrupted or nobody reads it any more."""
    before: list[tuple[str, int]] | None = None
    pause: float = LOOK
    while True:
        seen = looked_at(follower.folder)
        if seen != before:
            began, before = time.monotonic(), seen
            tell(follower, show)
            pause = max(LOOK, SHARE * (time.monotonic() - began))
        time.sleep(pause)


def tell(follower: Follower, show: Callable[[int], str]) -> None:
    is_first = follower.until is None
    try:
        rows = follower.news()
    except entry.Fault as fault:
        if fault.status == Status.MISSING:
            raise
        # a folder may have no trace yet, and a part be cut in the middle of a line
        if str(fault) not in follower.faults:
            follower.faults.add(str(fault))
            entry.say(f"{fault}; it goes on")
        return
    if is_first and follower.until is not None:
        entry.say(f"it prints what is recorded after {show(follower.until)}; an interrupt ends it")
    # an interrupt between what is written and what is known to be would have it written once more
    signal.pthread_sigmask(signal.SIG_BLOCK, [signal.SIGINT])
    try:
        for at, said in rows:
            sys.stdout.write(f"{show(at)}  {entry.visible(said)}\n")
        sys.stdout.flush()
    finally:
        signal.pthread_sigmask(signal.SIG_UNBLOCK, [signal.SIGINT])


def looked_at(folder: str) -> list[tuple[str, int]]:
    """The traces of a folder with their sizes."""
    try:
        with os.scandir(folder) as found:
            return sorted((each.name, size_of(each)) for each in found if each.name.endswith(files.ENDINGS))
    except OSError as fault:
        raise entry.Fault(f"{folder} can't be read: {fault.strerror}") from None


def size_of(file: os.DirEntry[str]) -> int:
    """The bytes of a file of the folder; -1 of a link that leads nowhere, and of a file that has gone meanwhile."""
    try:
        return file.stat().st_size
    except OSError:
        return -1
