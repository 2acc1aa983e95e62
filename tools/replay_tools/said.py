"""What was reported of pods, as a trace has it next to what the formats read: by the kubelet's journal, or by
Events."""

from __future__ import annotations

from dataclasses import dataclass
from typing import Any, Optional, TYPE_CHECKING

from replay_tools import outside
from replay_tools.reasons import dicts_at, text_at

if TYPE_CHECKING:
    from replay_tools import report as reports, traces

UNHEALTHY = "Unhealthy"
# how the message of an Event goes on after the word of a probe, as Liveness
FAILED = " probe failed: "
MOST = 2 ** 31 - 1


@dataclass(frozen=True)
class Said:
    """One thing that was reported: when, of which container, if of one, the reason's word, what it is about (a probe,
    or why an instance was ended), the grace of an end, how often, and the message."""

    at: int
    container: Optional[str]
    reason: str
    about: Optional[str]
    grace: Optional[int]
    count: int
    message: Optional[str]

    def words(self) -> str:
        grace = None if self.grace is None else f"grace period {self.grace} s"
        count = None if self.count == 1 else f"{self.count} times"
        head = ", ".join(filter(None, [self.reason, self.about, grace, count]))
        return f"said: {head}{f': {self.message}' if self.message else ''}"

    def output_of(self, probe: str) -> Optional[str]:
        """What a probe put out, where that is printed here."""
        if self.reason != UNHEALTHY or self.message is None:
            return None
        if self.about is not None:
            return self.message if self.about == probe else None
        head, _, rest = self.message.partition(FAILED)
        return rest if head == probe.capitalize() and rest else None


def said_of(found: dict[str, Any]) -> Optional[Said]:
    """One thing, as a trace has it; None where it is none."""
    at, reason = outside.moment(found.get("at")), text_at(found, "reason")
    if at is None or reason is None:
        return None
    about = text_at(found, "probe") or text_at(found, "why")
    return Said(at, text_at(found, "container"), reason, about, outside.whole(found.get("grace"), 0, MOST),
                outside.whole(found.get("count"), 1, MOST) or 1, text_at(found, "message"))


class SaidOfPods:
    """What the ticks of a trace show, by the numbers of pods."""

    def __init__(self) -> None:
        self.of_pod: dict[int, dict[Said, None]] = {}

    def take(self, entries: dict[str, dict[str, Any]], present: dict[str, traces.Pod]) -> None:
        """What a tick shows, by its entries."""
        for key, entry in entries.items():
            if "said" not in entry:
                continue
            for said in filter(None, map(said_of, dicts_at(entry, "said"))):
                self.add(present[key].number, said)

    def add(self, number: int, said: Said) -> None:
        """What is printed once more, as in a trace that follows, is printed once."""
        self.of_pod.setdefault(number, {})[said] = None

    def of(self, number: Optional[int]) -> list[Said]:
        """What was reported of a pod, by its moments; nothing of what is no pod's."""
        return [] if number is None else sorted(self.of_pod.get(number, ()), key=lambda said: said.at)

    def by_lane(self, number: Optional[int], names: list[str]) -> dict[int, list[Said]]:
        """What was reported of a pod, by the places of its containers, -1 of the pod itself."""
        found: dict[int, list[Said]] = {}
        for said in self.of(number):
            found.setdefault(names.index(said.container) if said.container in names else -1, []).append(said)
        return found

    def output_before(self, event: reports.Event, probe: str) -> Optional[str]:
        """What a probe put out when it failed last up to an event, where that is known."""
        found = [output for said in self.of(event.number) if said.at <= event.at and said.container in (
            None, event.container) and (output := said.output_of(probe)) is not None]
        return found[-1] if found else None
