"""Why an instance ended or a container waits, in the words of the runtime and the kubelet."""

from __future__ import annotations

import re
from dataclasses import dataclass, replace
from typing import Any, Optional

from .formats import whole_fault, without_nones
from .messages import message_kept

OUT_OF_MEMORY = "OOMKilled"
# what a runtime shows where it knows no more than the code
PLAIN = ("Error", "")
LONGEST_REASON = 64
MOST_ATTEMPTS = 2 ** 31 - 1
WORD = re.compile(rf"[A-Za-z][A-Za-z0-9]{{0,{LONGEST_REASON - 1}}}")
# a reason with its message after it, as a kubelet writes the message of a hook
WITH_MESSAGE = re.compile(rf"(?P<word>[A-Za-z][A-Za-z0-9]{{0,{LONGEST_REASON - 1}}}Error): (?P<message>.*)", re.DOTALL)
# in place of a reason that is no word of the runtime's or the kubelet's
OTHER = "Other"


@dataclass(frozen=True)
class Reason:
    """One word of why, and what is kept of the message next to it; whether a message was left out, since nothing of it
    is known to have no secret; of a wait the attempt after which it is, if that is known; and of an exit what is kept
    of the last lines that its container wrote, and of how many nothing is."""
    word: str
    message: Optional[str] = None
    is_left_out: bool = False
    behind: Optional[int] = None
    log: tuple = ()
    log_left_out: int = 0


def reason_of(said: Any) -> Reason | None:
    """The reason of an answer; None if it has none."""
    word, message = said.get("reason"), said.get("message")
    if not isinstance(word, str) or not word.strip():
        return None
    message = message if isinstance(message, str) else ""
    parts = WITH_MESSAGE.fullmatch(word.strip())
    if parts is not None and len(parts["word"]) <= LONGEST_REASON:
        word, message = parts["word"], f"{parts['message']} {message}"
    word = word.strip() if WORD.fullmatch(word.strip()) else OTHER
    there = bool(message.strip())
    kept = message_kept(word, message) if there else None
    return Reason(word, kept, there and kept is None)


def waits_in(item: Any) -> dict[str, Reason]:
    """Why each container waits that waits, by a pod's status: {container: reason}; none where it has another shape."""
    try:
        status = item.get("status") or {}
        return {**waits_of(status.get("initContainerStatuses")), **waits_of(status.get("containerStatuses"))}
    except (KeyError, TypeError, AttributeError):
        return {}


def waits_of(statuses: list[dict[str, Any]] | None) -> dict[str, Reason]:
    found = {}
    for each in statuses or []:
        wait, count = reason_of((each.get("state") or {}).get("waiting") or {}), each.get("restartCount")
        is_known = wait is not None and not whole_fault(count, 0, MOST_ATTEMPTS)
        found[each["name"]] = replace(wait, behind=count) if is_known else wait
    return without_nones(found)


def better(ours: Reason | None, theirs: Reason | None) -> Reason | None:
    """The reason that shows more: the runtime's own, but for a plain one."""
    is_plain = ours is None or ours.word in PLAIN
    if not is_plain or theirs is None or theirs.word in PLAIN:
        return ours
    return theirs if ours is None else replace(theirs, log=ours.log, log_left_out=ours.log_left_out)
