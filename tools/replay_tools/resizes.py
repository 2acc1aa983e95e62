"""The requests and limits that containers have after resizes in place, which version 3 reads (docs/extended.md)."""

from __future__ import annotations

from bisect import bisect_right
from collections.abc import Callable
from dataclasses import dataclass, field, replace
from typing import Any, Optional, TYPE_CHECKING

from replay_tools import amounts

if TYPE_CHECKING:
    from replay_tools.pods import Container, Pod

MEMBER = "resized"
NAMES = {"requests": "request", "limits": "limit"}


@dataclass(frozen=True)
class Resize:
    """A container has other requests and limits from a moment on."""

    at: int
    before: Container
    container: Container
    was_so: bool = False
    """it was so in the trace that this one follows"""
    gap: Optional[int] = None
    """since when nothing was recorded, if the resize came in a gap between two traces"""

    def words(self) -> str:
        """What changed, from which amounts to which."""
        before, now = self.before.amounts, self.container.amounts
        changed = [f"{resource} {NAMES[side]} from {text_of(resource, before.get((resource, side)))} to "
                   f"{text_of(resource, now.get((resource, side)))}"
                   for resource, side in sorted({*before, *now}, key=order) if before.get((resource, side))
                   != now.get((resource, side))]
        return f"resized: {', '.join(changed)}"

    def note(self, show: Callable[[int], str]) -> str:
        """What is not known of its moment."""
        if self.gap is not None:
            return f" (by then, in the gap since {show(self.gap)})"
        return " (so before this trace)" if self.was_so else ""

    def sentence(self) -> str:
        return f"{self.container.name} was {self.words()}"


def order(named: tuple[str, str]) -> tuple[str, bool]:
    """Requests before limits of each resource, memory before the processor."""
    resource, side = named
    return {"memory": "", "cpu": "a"}.get(resource, resource), side != "requests"


def text_of(resource: str, amount: int | None) -> str:
    return "none" if amount is None else amounts.amount_text(amount, resource != "cpu")


@dataclass
class History:
    """The resizes of one container, in the order of their moments."""

    moments: list[int] = field(default_factory=list)
    resizes: list[Resize] = field(default_factory=list)

    def newest(self, at: int | None) -> Resize | None:
        """The last resize up to a moment, or of all."""
        count = len(self.moments) if at is None else bisect_right(self.moments, at)
        return self.resizes[count - 1] if count else None


class Resizes:
    """The resizes of all pods."""

    def __init__(self) -> None:
        self.of_pods: dict[int, dict[str, History]] = {}
        """by the pod's number and the container"""

    def take(self, at: int, others: dict[str, dict[str, Any]], present: dict[str, Pod], known_until: int) -> None:
        """What a tick has of them. `others` are its entries with more members than listings. What it shows up to a
        moment was so before the trace. Raises Wrong."""
        for key, entry in others.items():
            found = entry.get(MEMBER)
            for name, resources in found.items() if isinstance(found, dict) else ():
                if isinstance(resources, dict):
                    self.add(present[key], at, name, resources, at <= known_until)

    def add(self, pod: Pod, at: int, name: str, resources: dict[str, Any], was_so: bool = False,
            gap: int | None = None) -> None:
        """A container has these requests and limits from a moment on, which is none before the earlier ones. They count
        if they are others than before. Raises Wrong."""
        before = self.container_at(pod, name)
        if before is None:
            return
        container = before.resized(resources)
        if container.amounts != before.amounts:
            history = self.of_pods.setdefault(pod.number, {}).setdefault(name, History())
            history.moments.append(at)
            history.resizes.append(Resize(at, before, container, was_so, gap))

    def of_pod(self, number: int) -> list[Resize]:
        """The resizes of the containers of a pod of a number, in the order of their moments."""
        found = [resize for history in self.of_pods.get(number, {}).values() for resize in history.resizes]
        return sorted(found, key=lambda resize: resize.at)

    def of_container(self, number: int, name: str) -> list[Resize]:
        history = self.of_pods.get(number, {}).get(name)
        return history.resizes if history is not None else []

    def newest(self, number: int, name: str, at: int | None = None) -> Resize | None:
        """The last resize of a container up to a moment, or of all."""
        history = self.of_pods.get(number, {}).get(name)
        return None if history is None else history.newest(at)

    def container_at(self, pod: Pod, name: str, at: int | None = None) -> Container | None:
        """A container with its requests and limits by a moment, or at the end. None if the pod has none of this name.
        """
        newest, found = self.newest(pod.number, name, at), [one for one in pod.containers if one.name == name]
        return newest.container if newest else found[0] if found else None

    def pod_at(self, pod: Pod, at: int | None = None) -> Pod:
        """A pod with the requests and limits of its containers by a moment, or at the end."""
        if pod.number not in self.of_pods:
            return pod
        containers = [self.container_at(pod, one.name, at) or one for one in pod.containers]
        return replace(pod, containers=containers)
