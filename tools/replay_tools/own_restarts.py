"""Which deaths a container's own restart policy, or one of its rules, decided about. A death is the report's, and so is
whether a restart followed."""

from __future__ import annotations

from typing import TYPE_CHECKING

from replay_tools import reasons

if TYPE_CHECKING:
    from replay_tools import report as reports, traces
    from replay_tools.restarting import Restarting

# what follows a death: its restart, one that has to wait, or an instance that came without one
OF_RESTARTS = ("restart", "backoff", "started")


def decider(pod: reports.Pod, died: reports.Event, trace: traces.Trace | None) -> Restarting | None:
    """What decided about a restart after a death, if that is the container's own; None where it did not count, as of a
    pod that is deleted, and where the code is not known."""
    if trace is None or died.word != "died" or reasons.is_guessed(died, trace):
        return None
    found = next((one.restarting for one in trace.pods[pod.number].containers if one.name == died.container), None)
    code = int(died.rest[1])
    # an init container that is done is done by any policy
    if found is None or not found.is_own or (found.is_init and code == 0):
        return None
    return found if found.wants(code) == is_restarted(pod, died) else None


def first_at(found: list[reports.Event], at: int) -> int:
    """The place of the first of some events, whose moments rise, that is not before a moment."""
    least, most = 0, len(found)
    while least < most:
        middle = (least + most) // 2
        least, most = (middle + 1, most) if found[middle].at < at else (least, middle)
    return least


def is_restarted(pod: reports.Pod, died: reports.Event) -> bool:
    """Whether the report has a restart after a death, or one that has to wait."""
    place, is_after = first_at(pod.events, died.at), False
    while place < len(pod.events):
        event = pod.events[place]
        if is_after and event.container == died.container and event.word in OF_RESTARTS:
            return event.word != "started"
        is_after, place = is_after or event is died, place + 1
    return False


def clause(pod: reports.Pod, event: reports.Event, trace: traces.Trace | None) -> str:
    """What decided about a restart after a death, as the end of its row; nothing of others."""
    found = decider(pod, event, trace)
    return "" if found is None else f"; {found.clause(int(event.rest[1]))}"


def sentence(pod: reports.Pod, event: reports.Event, trace: traces.Trace | None) -> str | None:
    """The same as a sentence."""
    found = decider(pod, event, trace)
    return None if found is None else found.sentence(event.name, int(event.rest[1]))
