"""What statuses report of instances: of a pod's object, of a patch that the kubelet sends, and as a log prints them."""

from __future__ import annotations

import bisect
import re
from collections.abc import Iterator
from typing import Any

from replay_tools import outside
from replay_tools.record.reasons import WORD
from replay_tools.record.runtime import moment_of

from .facts import Known, Reference
from .moments import moment_of_go
from .references import id_of

ROLES = ("initContainerStatuses", "containerStatuses", "ephemeralContainerStatuses")
# a status as Go prints it; the name of the container is before
PRINTED_NAME = re.compile(r"Name:([a-z0-9][-a-z0-9]{0,62})[ ,](?:State|ID|PodSandboxID)\b")
PRINTED_END = re.compile(
    r"ContainerStateTerminated\{ExitCode:(?P<code>-?\d{1,10}),Signal:\d+,Reason:(?P<reason>\w*),.{0,8192}?"
    r"StartedAt:(?P<started>[^,]*),FinishedAt:(?P<finished>[^,]*),ContainerID:\w+://(?P<id>[0-9a-f]{12,64}),\}")
# what is left of a pod that has ended
PRINTED_LEFT = re.compile(
    r"\{ID:\{Type:\w+ ID:(?P<id>[0-9a-f]{12,64})\} Name:(?P<name>[a-z0-9][-a-z0-9]{0,62}) "
    r"PodSandboxID:(?P<sandbox>\w*) State:(?P<state>\w+) CreatedAt:[^}]{0,128}? StartedAt:(?P<started>[^}]{0,128}?) "
    r"FinishedAt:(?P<finished>[^}]{0,128}?) "
    r"ExitCode:(?P<code>-?\d{1,10}) .{0,8192}?RestartCount:(?P<attempt>\d{1,10}) Reason:(?P<reason>\w*) ")


def code_of(value: Any) -> int | None:
    return outside.whole(value, -outside.MOST_OF_CODE - 1, outside.MOST_OF_CODE)


def reason_of(value: Any) -> str | None:
    return value if isinstance(value, str) and WORD.fullmatch(value) else None


def of_status(at: float, pod: Reference, status: Any) -> Iterator[Known]:
    """The instances that a status in JSON has, each with what it shows of them."""
    for role in ROLES:
        listed = status.get(role) if isinstance(status, dict) else None
        for each in listed if isinstance(listed, list) else ():
            if isinstance(each, dict) and isinstance(each.get("name"), str) and outside.is_label(each["name"]):
                yield from of_container(at, pod, each)


def of_container(at: float, pod: Reference, container: dict[str, Any]) -> Iterator[Known]:
    name, count = container["name"], outside.whole(container.get("restartCount"), 0, outside.MOST_OF_CODE)
    newest = id_of(container.get("containerID"))
    for place in ("lastState", "state"):
        state = container.get(place)
        for kind in ("terminated", "running"):
            said = state.get(kind) if isinstance(state, dict) else None
            if not isinstance(said, dict):
                continue
            identity = id_of(said.get("containerID")) if kind == "terminated" else newest
            if identity is None:
                continue
            attempt = count if identity == newest else (None if count is None else count - 1)
            started, finished = (moment_of(text) if isinstance(text, str) else None
                                 for text in (said.get("startedAt"), said.get("finishedAt")))
            yield Known(at, identity, pod, name, attempt, started, finished, code_of(said.get("exitCode")),
                        reason_of(said.get("reason")))
    if newest is not None:
        yield Known(at, newest, pod, name, count)


def of_printed(at: float, pod: Reference, text: str) -> Iterator[Known]:
    """The instances that have ended of a status as Go prints it."""
    if "ExitCode:" not in text:
        return
    names = [(found.start(), found[1]) for found in PRINTED_NAME.finditer(text)]
    starts = [start for start, _ in names]
    for found in PRINTED_END.finditer(text):
        before = bisect.bisect_left(starts, found.start())
        code = outside.number_of(found["code"], -outside.MOST_OF_CODE - 1, outside.MOST_OF_CODE)
        name = names[before - 1][1] if before else None
        yield Known(at, found["id"], pod, name, None, moment_of_go(found["started"]), moment_of_go(found["finished"]),
                    code, reason_of(found["reason"]))
    for found in PRINTED_LEFT.finditer(text):
        code = outside.number_of(found["code"], -outside.MOST_OF_CODE - 1, outside.MOST_OF_CODE)
        has_ended = found["state"] == "exited"
        yield Known(at, found["id"], pod, found["name"], outside.number_of(found["attempt"]),
                    moment_of_go(found["started"]), moment_of_go(found["finished"]) if has_ended else None,
                    code if has_ended else None, reason_of(found["reason"]))
        if found["sandbox"]:
            yield Known(at, found["sandbox"], pod, is_sandbox=True)
