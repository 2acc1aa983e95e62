"""What is before a line of a trace, as far as it decides what the line may show."""

from __future__ import annotations

from dataclasses import dataclass, field
from typing import Any, IO

from replay_tools import fields
from replay_tools.amounts import Wrong

STATES = ("CONTAINER_CREATED", "CONTAINER_RUNNING", "CONTAINER_EXITED", "CONTAINER_UNKNOWN")
CREATED, EXITED, UNKNOWN = STATES[0], STATES[2], STATES[3]


@dataclass
class Listed:
    """The newest instance of a container."""

    attempt: int
    state: str
    """the last that is not unknown, and created without one"""
    line: int
    """of the last tick that lists it"""


@dataclass
class Pod:
    line: int
    containers: list[str]
    listed: dict[str, Listed] = field(default_factory=dict)


@dataclass
class Before:
    """The lines before one that is at fault."""

    node_line: int | None = None
    version: int = 1
    pods: dict[str, Pod] = field(default_factory=dict)
    """those that are present, by key"""
    gone: dict[str, int] = field(default_factory=dict)
    """the lines that let pods go, by key"""
    pod_lines: int = 0
    ticks: int = 0
    tick_line: int | None = None
    """of the last tick"""
    first_tick_line: int | None = None
    at: int | None = None

    def take(self, number: int, line: dict[str, Any], keeps_listings: bool) -> None:
        """One more line that was accepted; Wrong where it is none that is."""
        kind = fields.text_at(line, "kind")
        if kind == "node":
            self.node_line, self.version = number, fields.number_at(line, "version", 1)
        elif kind == "pod":
            manifest = fields.object_at(line, "pod")
            self.pod_lines += 1
            self.pods[key_of(manifest)] = Pod(number, names_of(manifest))
        elif kind == "gone":
            key = fields.text_at(line, "pod")
            self.pods.pop(key, None)
            self.gone[key] = number
        else:
            self.ticks += 1
            self.at, self.tick_line = fields.number_at(line, "at"), number
            self.first_tick_line = self.first_tick_line or number
            if keeps_listings:
                self.take_listings(number, line)

    def take_listings(self, number: int, line: dict[str, Any]) -> None:
        for entry in fields.list_at(line, "pods"):
            pod = self.pod(fields.text_at(entry, "pod"))
            for found in fields.list_at(entry, "containers"):
                name = fields.text_at(found, "name")
                pod.listed[name] = listed_of(found, pod.listed.get(name), number)

    def pod(self, key: str) -> Pod:
        """A pod that is present; Wrong where none has the key."""
        if key not in self.pods:
            raise Wrong("pod")
        return self.pods[key]


def listed_of(found: dict[str, Any], before: Listed | None, number: int) -> Listed:
    """The newest instance after a listing."""
    attempt, state = fields.number_at(found, "attempt", 0), state_at(found)
    known = before.state if before and before.attempt == attempt else CREATED
    return Listed(attempt, known if state == UNKNOWN else state, number)


def state_at(found: dict[str, Any]) -> str:
    """The name of the state of a listing; Wrong where it has none."""
    state = state_name(found.get("state"))
    if state is None:
        raise Wrong("state")
    return state


def state_name(state: Any) -> str | None:
    """The name of a state, which may be its number; None where it is none."""
    if isinstance(state, int) and not isinstance(state, bool) and 0 <= state < len(STATES):
        return STATES[state]
    return state if state in STATES else None


def key_of(manifest: dict[str, Any]) -> str:
    """The key of a pod by its manifest; Wrong where that has no name."""
    metadata = fields.object_at(manifest, "metadata")
    return f"{fields.text_at(metadata, 'namespace', 'default')}/{fields.text_at(metadata, 'name')}"


def names_of(manifest: dict[str, Any]) -> list[str]:
    spec = fields.object_at(manifest, "spec")
    return [fields.text_at(container, "name") for each in ("initContainers", "containers")
            for container in fields.list_at(spec, each)]


def lines_before(file: IO[bytes], number: int, keeps_listings: bool) -> tuple[Before, bytes]:
    """What is before a line of an open trace, and the line itself as bytes; an empty one where there is none. Wrong
    where a line before it is none that the program accepts."""
    before = Before()
    for count, line in enumerate(file, 1):
        if count == number:
            return before, line.rstrip(b"\n")
        if line.strip(b" \t\r\n"):
            before.take(count, fields.object_of(line), keeps_listings)
    return before, b""
