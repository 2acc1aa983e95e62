"""Events of a cluster, of `kubectl get events -o json`: what the kubelet reported of pods."""

from __future__ import annotations

from collections.abc import Iterator
from typing import Any

from replay_tools import outside
from replay_tools.record.runtime import moment_of

from . import facts, manifests
from .keyed import MADE
from .references import container_at, key_of


def read_all(paths: list[str]) -> Iterator[facts.Fact]:
    """The events of files, by their moments."""
    found = [event for path in paths for value in manifests.read(path, "--events") for event in of_value(value)]
    for event in sorted(found, key=lambda each: each.at):
        yield event
        made = MADE.match(event.message)
        if made is not None and event.reason == "Started" and event.count == 1:
            yield facts.Created(event.at, event.pod, made[1], True)


def beside(found: Iterator[facts.Fact], happened: Iterator[facts.Fact]) -> Iterator[facts.Fact]:
    """What journals have, and the events of its time: of what was before it or is after it no journal shows what ran,
    and when."""
    event, is_begun = next(happened, None), False
    for fact in found:
        while event is not None and event.at <= fact.at:
            if is_begun:
                yield event
            event = next(happened, None)
        is_begun = True
        yield fact


def of_value(value: Any, depth: int = 0) -> Iterator[facts.Happened]:
    """The events of pods in a list, a watch's line or a single one."""
    if depth > manifests.DEEPEST_LIST:
        return
    if isinstance(value, list):
        for each in value:
            yield from of_value(each, depth + 1)
    elif isinstance(value, dict) and isinstance(value.get("items"), list):
        yield from of_value(value["items"], depth + 1)
    elif isinstance(value, dict) and isinstance(value.get("object"), dict):
        yield from of_value(value["object"], depth + 1)
    elif isinstance(value, dict) and isinstance(value.get("involvedObject"), dict):
        pod, of = value["involvedObject"], value
        stamp = of.get("lastTimestamp") or of.get("eventTime") or of.get("firstTimestamp")
        moment = moment_of(stamp) if isinstance(stamp, str) else None
        key = key_of(pod.get("namespace"), pod.get("name"))
        if pod.get("kind") == "Pod" and moment is not None and key is not None:
            uid = pod.get("uid") if isinstance(pod.get("uid"), str) else None
            yield facts.Happened(moment, facts.Reference(key, uid), str(of.get("reason") or ""),
                                 str(of.get("message") or ""), outside.whole(of.get("count"), 1) or 1,
                                 container_at(pod.get("fieldPath")))
