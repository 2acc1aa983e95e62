"""The memory that an instance might use, and what it used, as far as a trace shows it."""

from __future__ import annotations

from dataclasses import dataclass
from typing import Any, TYPE_CHECKING

from replay_tools import amounts, outside

if TYPE_CHECKING:
    from replay_tools import report as reports, traces


@dataclass(frozen=True)
class Limit:
    """A memory limit as a text, of what it is, and the field that sets it."""

    text: str
    whose: str
    field: str


def memory_in(resources: Any) -> int | None:
    """The memory limit of an object of resources, in thousandths of a byte. The formats do not read each of these, so
    what has another shape is none."""
    limits = resources.get("limits") if isinstance(resources, dict) else None
    value = limits.get("memory") if isinstance(limits, dict) else None
    try:
        return None if value is None else amounts.quantity(value) or None
    except amounts.Wrong:
        return None


def limit_of(event: reports.Event, trace: traces.Trace) -> Limit | None:
    """The memory limit under which an instance died: the container's limit after a resize, else the manifest's, else
    the limit of the whole pod. In recordings of older recorders the listing has what a resize has changed."""
    if event.number is None or event.container is None:
        return None
    pod = trace.pods[event.number]
    found = trace.resizes.container_at(pod, event.container, event.at)
    own, is_changed = found and found.memory_limit, trace.resizes.newest(pod.number, event.name, event.at) is not None
    if not is_changed:
        listed = memory_in(trace.listed_as(pod, event.container, trace.places[event.at]).get("resources"))
        own, is_changed = listed or own, listed is not None
    if own:
        changed = ", as it was changed in place" if is_changed else ""
        return Limit(amounts.amount_text(own, True), "its", f"resources.limits.memory{changed}")
    if pod.memory_limit:
        return Limit(amounts.amount_text(pod.memory_limit, True), "its pod's", "spec.resources.limits.memory")
    return None


MISSED = "the samples, 10 s apart, missed the rise"


@dataclass(frozen=True)
class Used:
    """The last sample of an instance's memory before it died, in bytes, and how many seconds before."""

    memory: int
    age: int

    def words(self) -> str:
        if not self.memory:
            # a container that ran used more: its cgroup was gone when it was sampled
            return MISSED
        when = f" {self.age} s before" if self.age else ""
        return f"it used {amounts.amount_text(1000 * self.memory, True)}{when}"


def used_in(said: dict[str, Any]) -> Used | None:
    """What a listing shows of that."""
    used = said.get("used")
    memory = outside.whole(used.get("workingSet")) if isinstance(used, dict) else None
    age = outside.whole(used.get("age", 0)) if isinstance(used, dict) else None
    return None if memory is None or age is None else Used(memory, age)
