"""What lines report of the node itself, in sentences and with keys: whether it is Ready, and that the kernel killed a
process for memory."""

from __future__ import annotations

import re
from collections.abc import Iterator

from replay_tools.record.reasons import WORD

from . import facts
from .messages import Message
from .moments import moment_of_go

# what a condition's message reports of why a node is not Ready, and the word for it
CAUSES = (("PLEG is not healthy", "PLEGNotHealthy"), ("container runtime is down", "ContainerRuntimeDown"),
          ("node is shutting down", "NodeShutdown"))
# what a kubelet shows while it starts, which is no fault of the node's
STARTING = "has yet to be successful", "may not have completed yet"
REASON = re.compile(r'Reason"?:"?(\w{1,64})', re.I)
RECORDED = re.compile(r"Recording (\w+) event message for node")
READY, NOT_READY = "NodeReady", "NodeNotReady"
# the text of a kill: a process, its moment, and twice a cgroup
KILL_AT = re.compile(r"\d{4}-\d\d-\d\d \d\d:\d\d:\d\d(?:\.\d+)? \+0000 UTC")
KILLED_ID = re.compile(r"[0-9a-f]{64}")
# a kubelet that starts repeats the kills of before it started
OLD = " m=-"


def all_of(message: Message) -> str:
    """A message with its keys as one text."""
    return f"{message.text} {' '.join(map(str, message.keys.values()))}"


def cause_of(text: str) -> str | None:
    return next((word for words, word in CAUSES if words in text), None)


def of_condition(message: Message) -> Iterator[facts.Fact]:
    """The node's condition Ready turned."""
    text = all_of(message)
    if not text.startswith("Node became not ready"):
        return
    found = REASON.search(text)
    word = cause_of(text) or (found[1] if found is not None and WORD.fullmatch(found[1]) else "")
    yield facts.NodeReady(message.at, False, word, True)


def of_skipped(message: Message) -> Iterator[facts.Fact]:
    """The kubelet does nothing for pods, and why."""
    text = all_of(message)
    word = None if any(words in text for words in STARTING) else cause_of(text)
    if word is not None and text[1:].startswith("kipping pod synchronization"):
        yield facts.NodeReady(message.at, False, word)


def of_recorded(message: Message) -> Iterator[facts.Fact]:
    """The kubelet makes an Event of a turn of the node's."""
    found = RECORDED.match(message.text)
    event = message.keys.get("event") if found is None else found[1]
    if event in (READY, NOT_READY):
        yield facts.NodeReady(message.at, event == READY, "", True)


def of_shutdown(message: Message) -> Iterator[facts.Fact]:
    """The node begins to shut down, or goes on."""
    text = all_of(message)
    if "isNodeShuttingDownNow" in text:
        yield facts.NodeReady(message.at, not text.lower().rstrip().endswith("true"), "NodeShutdown", True)


def of_kill(message: Message) -> Iterator[facts.Fact]:
    """The kernel killed a process for memory."""
    text = all_of(message)
    if not text.startswith("Got sys oom event") or OLD in text:
        return
    at, identity = KILL_AT.search(text), KILLED_ID.findall(text)
    moment = None if at is None else moment_of_go(at[0])
    is_near = moment is not None and abs(message.at - moment) <= 10
    killed_at = moment if moment is not None and is_near else message.at
    yield facts.OutOfMemory(killed_at, identity[-1] if identity else None)
