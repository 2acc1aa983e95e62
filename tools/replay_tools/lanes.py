"""A pod's lanes, which timeline and page draw: what it and each of its containers were, from when until when, why a
container waited, what was ordered, and what was reported."""

from __future__ import annotations

from dataclasses import dataclass
from typing import TYPE_CHECKING

from replay_tools import readiness, report as reports
from replay_tools.spans import Span

if TYPE_CHECKING:
    from replay_tools import reasons, traces
    from replay_tools.said import Said

WAITING, RUNNING, TERMINATED = STATES = ("Waiting", "Running", "Terminated")
ORDERS = ("kill", "restart")


@dataclass(frozen=True)
class State:
    """What a container was, from a moment until another as a span has them; of which instance, where there was one; the
    event by which that died, where it had, and whether its code was guessed."""

    value: str
    since: int | None
    until: int | None
    attempt: int | None = None
    died: reports.Event | None = None
    is_guessed: bool = False

    @property
    def code(self) -> int | None:
        """The code with which it ended, where it has."""
        return None if self.died is None else int(self.died.rest[1])


@dataclass(frozen=True)
class Lane:
    """One container's."""

    name: str
    states: list[State]
    waits: list[reasons.Wait]
    orders: list[reports.Event]


@dataclass(frozen=True)
class Lanes:
    """The lanes of a pod: whether it was Ready, its containers' states, and what was reported by the places of the
    containers, -1 of the pod itself."""

    ready: list[Span]
    containers: list[Lane]
    said: dict[int, list[Said]]

    def waits(self) -> list[tuple[int, reasons.Wait]]:
        """Why its containers waited, each with the container's place, by the moments."""
        found = [(place, wait) for place, lane in enumerate(self.containers) for wait in lane.waits]
        return sorted(found, key=lambda each: each[1].since)


def lanes_of(pod: reports.Pod, trace: traces.Trace | None) -> Lanes:
    """The lanes of a pod, by its events and, with the trace of its report, by what that shows next to them."""
    names = [container.name for container in pod.containers]
    ready = readiness.spans_of(trace, pod) or readiness.by_rules(trace, pod)
    return Lanes(ready, [lane_of(pod, name, trace) for name in names],
                 trace.said.by_lane(pod.number, names) if trace else {})


def lane_of(pod: reports.Pod, name: str, trace: traces.Trace | None) -> Lane:
    own = [event for event in pod.events if event.container == name]
    deaths = {(event.rest[0], event.rest[1]): event for event in own if event.word == "died"}
    waits = trace.reasons.waits.get((pod.number, name), []) if trace else []
    return Lane(name, [state_of(pod, name, span, deaths, trace) for span in reports.state_spans(pod, name)], waits,
                [event for event in own if event.word in ORDERS])


def state_of(pod: reports.Pod, name: str, span: Span, deaths: dict[tuple[str, str], reports.Event],
             trace: traces.Trace | None) -> State:
    """A span of a container's state; its note has the attempt, and after it the code."""
    if not span.note:
        return State(span.value, span.since, span.until)
    attempt, _, code = span.note.partition(" ")
    if not code:
        return State(span.value, span.since, span.until, int(attempt))
    end = trace.reasons.ends.get((pod.number, name, int(attempt))) if trace else None
    return State(span.value, span.since, span.until, int(attempt), deaths[attempt, code],
                 end is not None and end.is_guessed)
