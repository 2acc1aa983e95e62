"""Why instances ended and why containers wait, which a recording has next to what the formats read. A report has codes
alone, and 137 also for an instance that a tick just leaves out."""

from __future__ import annotations

from collections.abc import Iterator
from dataclasses import dataclass, field
from typing import Any, TYPE_CHECKING

from replay_tools import amounts, limits, outside

if TYPE_CHECKING:
    from replay_tools import report as reports, traces

LOST = 137
OUT_OF_MEMORY = "OOMKilled"
# the reason of a runtime that knows no more than the code
PLAIN = "Error"
HOOK_FAILED = "PostStartHookError"
# a start that failed
NEVER_RAN = ("StartError", "ContainerCannotRun", "CreateContainerError", "RunContainerError")
# entries and listings without one of these members have no reason; most have none of them
OF_ENTRY = frozenset(("guessed", "readinessGates", "readyTurns", "waiting"))
OF_LISTING = frozenset(("ended", "guessed", "reason"))
# in the array of members that were guessed, as of a log that has no code of an exit, of a start or an exit only the
# moment of the kubelet's next poll, and of an exit nothing at all
CODE, MOMENT, EXIT, PHASE = "exitCode", "moment", "exit", "phase"
# and of a container after a gap what it does, since no line there names its pod
STATE = "state"
WITHIN, BY_THEN = " (within a second)", " (by then: no line has the exit)"
CLOSED = "readiness gate", None


@dataclass
class End:
    """How an instance ended: its code, and why, if that was recorded."""

    code: int | None
    reason: str | None = None
    message: str | None = None
    is_guessed: bool = False
    """the trace marks its code as guessed"""
    used: limits.Used | None = None
    log: list[str] = field(default_factory=list)
    """the last lines that it wrote"""
    log_left_out: int = 0
    """how many of its last lines the trace leaves out"""


@dataclass
class Wait:
    """Why a container did not run, from the first tick that shows it until the first that does not; None if all ticks
    to the last one do."""

    since: int
    until: int | None
    reason: str
    message: str | None = None

    def words(self) -> str:
        return f"{self.reason}: {self.message}" if self.message else self.reason


class Reasons:
    """What the ticks of a trace show, which are taken one after the other."""

    def __init__(self) -> None:
        self.ends: dict[tuple[int, str, int], End] = {}
        """by the pod's number, the container and the attempt"""
        self.waits: dict[tuple[int, str], list[Wait]] = {}
        """lists by the pod's number and the container, in order"""
        self.open: dict[tuple[int, str], Wait] = {}
        self.gates: dict[tuple[int, str], list[Wait]] = {}
        """as waits, by the pod's number and the condition of a readiness gate that is not true"""
        self.has_gates = False
        """whether the manifest of some pod has a readiness gate, in version 3"""
        self.conditions: dict[tuple[int, str], bool] = {}
        """the newest status of a gate's condition in version 3, by the pod's number and the condition"""
        self.closed: dict[tuple[int, str], Wait] = {}
        self.turns: dict[int, dict[int, str]] = {}
        """how the condition Ready has turned in the kubelet's status: its status by the moment, by the pod's number"""
        self.unknown_phases: set[int] = set()
        """the numbers of pods that have ended, and of which no code shows whether they succeeded"""
        self.doubted: dict[int, int] = {}
        """the last moments after gaps at which it is guessed what a pod's containers do, by the pod's number"""
        self.looked: set[tuple[str, int, str, int]] = set()
        """the starts and deaths that are known by a poll: the event's word, the pod's number, container and attempt"""
        self.unseen: set[tuple[int, str, int]] = set()
        """the deaths that nothing shows but what came after them: the pod's number, container and attempt"""

    def take(self, at: int, entries: dict[str, dict[str, Any]], others: dict[str, dict[str, Any]],
             present: dict[str, traces.Pod]) -> None:
        """Takes what a tick shows. `entries` has all its entries, `others` the ones with more members than listings."""
        waiting: dict[tuple[int, str], tuple[str, str | None]] = {}
        closed: dict[tuple[int, str], tuple[str, str | None]] = {}
        for key, found in entries.items():
            listed = found.get("containers")
            for each in listed if isinstance(listed, list) else ():
                if isinstance(each, dict) and not OF_LISTING.isdisjoint(each):
                    self.take_listing(present[key].number, each)
                    if is_guessed_in(each, STATE):
                        self.doubted[present[key].number] = at
        for key, found in others.items():
            if not OF_ENTRY.isdisjoint(found):
                number = present[key].number
                self.take_pod(number, found)
                waiting.update(waits_in(number, found))
                closed.update({(number, gate): CLOSED for gate in closed_gates(found)})
        if self.has_gates:
            closed.update(dict.fromkeys(self.closed_by_conditions(entries, present), CLOSED))
        take_waits(self.waits, self.open, at, waiting)
        take_waits(self.gates, self.closed, at, closed)

    def closed_by_conditions(self, entries: dict[str, dict[str, Any]],
                             present: dict[str, traces.Pod]) -> Iterator[tuple[int, str]]:
        """The gates of manifests whose conditions are not True after a tick. None is True until a tick shows it."""
        for key, pod in present.items():
            given = entries.get(key, {}).get("conditions") if pod.gates else None
            for gate in pod.gates:
                status = given.get(gate) if isinstance(given, dict) else None
                if isinstance(status, bool):
                    self.conditions[pod.number, gate] = status
                if not self.conditions.get((pod.number, gate)):
                    yield pod.number, gate

    def take_pod(self, number: int, found: dict[str, Any]) -> None:
        for turn in dicts_at(found, "readyTurns"):
            self.take_turn(number, turn)
        if is_guessed_in(found, PHASE):
            self.unknown_phases.add(number)

    def take_listing(self, number: int, listed: dict[str, Any]) -> None:
        has_words = any(word in listed for word in ("reason", "guessed"))
        if is_guessed_in(listed, MOMENT):
            self.take_look(number, listed)
        for said in (listed if has_words else None, listed.get("ended")):
            if isinstance(said, dict) and isinstance(listed.get("name"), str):
                self.take_end(number, listed["name"], said)

    def take_turn(self, number: int, turn: dict[str, Any]) -> None:
        moment, status = outside.moment(turn.get("at")), text_at(turn, "status")
        if moment is not None and status in ("True", "False", "Unknown"):
            self.turns.setdefault(number, {})[moment] = status

    def take_look(self, number: int, listed: dict[str, Any]) -> None:
        attempt, name = outside.whole(listed.get("attempt", 0), 0, outside.MOST_OF_CODE), text_at(listed, "name")
        if attempt is not None and name is not None:
            self.looked.add(("died" if "exitCode" in listed else "started", number, name, attempt))

    def within_words(self, event: reports.Event) -> str:
        """That a start or a death is known by the kubelet's next poll alone, or a death by what came after it; nothing
        of others."""
        if event.word == "died" and (event.number, event.container, int(event.rest[0])) in self.unseen:
            return BY_THEN
        is_looked = event.word in ("started", "died") and (
            event.word, event.number, event.container, int(event.rest[0])) in self.looked
        return WITHIN if is_looked else ""

    def take_end(self, number: int, name: str, said: dict[str, Any]) -> None:
        """A later reason is the better one, and only the first tick has a message."""
        reason, code = text_at(said, "reason"), outside.whole(said.get("exitCode"), -outside.MOST_OF_CODE - 1,
                                                             outside.MOST_OF_CODE)
        attempt = outside.whole(said.get("attempt", 0), 0, outside.MOST_OF_CODE)
        if code is None or attempt is None:
            return
        if is_guessed_in(said, EXIT):
            self.unseen.add((number, name, attempt))
        end = self.ends.setdefault((number, name, attempt), End(code))
        end.reason = reason or end.reason
        end.message = end.message or text_at(said, "message")
        end.is_guessed = guesses_code(said)
        end.used = limits.used_in(said) or end.used
        lines = said.get("log")
        end.log = list(filter(None, map(outside.text_of, lines))) if isinstance(lines, list) else end.log
        end.log_left_out = outside.whole(said.get("logLeftOut"), 1, outside.MOST_OF_CODE) or end.log_left_out

    def end_of(self, event: reports.Event) -> End | None:
        """How the instance of a death ended; None if the trace does not show it."""
        return None if event.number is None else self.ends.get((event.number, event.name, int(event.rest[0])))

    def gates_of(self, pod: reports.Pod) -> list[tuple[str, Wait]]:
        """The times in which readiness gates of a pod were not true, with their conditions."""
        found = [(gate, wait) for (number, gate), waits in self.gates.items() if number == pod.number for wait in waits]
        return sorted(found, key=lambda pair: pair[1].since)

    def waits_of(self, pod: reports.Pod) -> list[tuple[str, Wait]]:
        """The waits of a pod of the report, with their containers, by their moments."""
        found = [(container.name, wait) for container in pod.containers
                 for wait in self.waits.get((pod.number, container.name), [])]
        return sorted(found, key=lambda pair: pair[1].since)


def take_waits(waits: dict[tuple[int, str], list[Wait]], still: dict[tuple[int, str], Wait], at: int,
               waiting: dict[tuple[int, str], tuple[str, str | None]]) -> None:
    """Takes what a tick shows of all that waits: what it no longer shows is over, what is new begins."""
    for place, wait in list(still.items()):
        said = waiting.get(place)
        if said is None or said[0] != wait.reason or said[1] not in (None, wait.message):
            wait.until = at
            del still[place]
    for place, (reason, message) in waiting.items():
        if place not in still:
            still[place] = Wait(at, None, reason, message)
            waits.setdefault(place, []).append(still[place])


def waits_in(number: int, found: dict[str, Any]) -> Iterator[tuple[tuple[int, str], tuple[str, str | None]]]:
    """The reasons for which the containers of a pod wait, by its number and the container, with their messages."""
    for each in dicts_at(found, "waiting"):
        reason = text_at(each, "reason")
        if reason and isinstance(each.get("container"), str):
            yield (number, each["container"]), (reason, text_at(each, "message"))


def gates_in(found: dict[str, Any]) -> tuple[str, ...]:
    """The condition types of the readiness gates that the manifest of a pod line has, each once."""
    gates = dicts_at(found["pod"]["spec"], "readinessGates")
    return tuple(dict.fromkeys(filter(None, (text_at(gate, "conditionType") for gate in gates))))


def closed_gates(found: dict[str, Any]) -> list[str]:
    """The conditions of the readiness gates that an entry shows as not true, as recordings in the standard format and
    older ones have it."""
    gates = found.get("readinessGates")
    named = [outside.text_of(gate) for gate, is_true in gates.items() if is_true is False] if isinstance(gates, dict) \
        else []
    return [gate for gate in named if gate is not None]


def guesses_code(said: dict[str, Any]) -> bool:
    """Whether a listing marks its exit code as guessed."""
    return is_guessed_in(said, CODE)


def is_guessed_in(said: dict[str, Any], what: str) -> bool:
    guessed = said.get("guessed")
    return isinstance(guessed, list) and what in guessed


def dicts_at(found: dict[str, Any], name: str) -> list[dict[str, Any]]:
    """The objects of an array; none where it is no array, since the formats may not read it."""
    value = found.get(name)
    return [each for each in value if isinstance(each, dict)] if isinstance(value, list) else []


def text_at(found: dict[str, Any], name: str) -> str | None:
    return outside.text_of(found.get(name))


# --- in words ---


def cause_words(event: reports.Event, code: int, trace: traces.Trace | None, is_whole: bool) -> str:
    """Why an instance died, as far as it is known; the whole with its message."""
    if trace is None:
        return "killed, or unknown" if code == LOST else ""
    end = trace.reasons.end_of(event)
    if end is not None and end.reason:
        return reason_words(event, end, end.reason, trace, is_whole)
    if code != LOST or end is not None and end.is_guessed:
        return ""
    if is_known(event, trace):
        return "killed, or it exited so; the trace has no reason"
    return "it was no longer listed, its own code is not known"


def is_phase_unknown(event: reports.Event, trace: traces.Trace | None) -> bool:
    """Whether an event is the end of a pod of which no known code shows whether it succeeded."""
    return (event.word == "phase" and event.rest[0] in ("Succeeded", "Failed") and trace is not None
            and event.number in trace.reasons.unknown_phases)


def short_words(event: reports.Event, trace: traces.Trace | None) -> str:
    """The code of a death and the reason, as far as they are known, as a lane has them."""
    end = trace.reasons.end_of(event) if trace is not None else None
    reason = f" {end.reason}" if end is not None and end.reason and end.reason != PLAIN else ""
    return f"{code_words(event.rest[1], end)}{reason}"


def code_words(code: int | str, end: End | None) -> str:
    """A code of a table; a guessed one is not printed."""
    return "unknown" if end is not None and end.is_guessed else str(code)


def last_end(pod: reports.Pod, container: reports.Container, trace: traces.Trace | None) -> End | None:
    """How the newest instance of a container ended, if it did and the trace shows it."""
    if trace is None or container.state != "Terminated":
        return None
    return trace.reasons.ends.get((pod.number, container.name, int(container.restarts)))


def reason_words(event: reports.Event, end: End, reason: str, trace: traces.Trace, is_whole: bool) -> str:
    if reason == OUT_OF_MEMORY:
        limit = limits.limit_of(event, trace)
        used = f", {end.used.words()}" if end.used is not None else ""
        had = f"{limit.whose} memory limit is {limit.text}" if limit else \
            "its memory limit is unknown" if is_of_guessed(event, trace) else "it has no memory limit"
        by_itself = "" if end.code in (LOST, None) else f", it exited with {end.code} by itself"
        return f"{OUT_OF_MEMORY}, {had}{used}{by_itself}"
    if reason == PLAIN and end.code == LOST and not end.is_guessed:
        return f"{PLAIN}, as signal 9 leaves it"
    return f"{reason}: {end.message}" if end.message and is_whole else reason


def because_lines(event: reports.Event, trace: traces.Trace) -> list[str]:
    """What the reason of a death means, as lines, and the last lines that the instance wrote; none if the code shows as
    much."""
    end = trace.reasons.end_of(event)
    if end is None:
        return []
    wrote = ["it wrote last:", *(f"  {line}" for line in end.log)] if end.log else []
    return [*meaning_lines(event, end, trace), *wrote, *left_out_lines(end)]


def left_out_lines(end: End) -> list[str]:
    """How many of the last lines of an instance the trace leaves out, as they may hold a secret."""
    count = end.log_left_out
    verb = "is" if count == 1 else "are"
    return [f"{count} of its last lines {verb} left out: nothing in them is known to be no secret"] if count else []


def meaning_lines(event: reports.Event, end: End, trace: traces.Trace) -> list[str]:
    if end.reason == OUT_OF_MEMORY:
        limit = limits.limit_of(event, trace)
        because = f"it came to {limit.whose} memory limit, {limit.text} ({limit.field})" if limit else \
            "memory ran out; its manifest is unknown, so whether it has a limit is too" if is_of_guessed(event, trace) \
            else "memory ran out, and it has no limit of its own"
        if end.code not in (LOST, None):
            return [f"the kernel killed a process in it since {because}{left_words(event, trace)}; the container then "
                    f"exited with {end.code} by itself"]
        return [f"OOM-killed because {because}{left_words(event, trace)}"]
    if end.reason == PLAIN and end.code == LOST and not end.is_guessed:
        return [f"the runtime has {PLAIN} and not {OUT_OF_MEMORY}: it was killed, as at the end of a grace period, or "
                f"exited with {LOST} itself"]
    if end.reason == HOOK_FAILED:
        return [f"its postStart hook failed, so the kubelet killed it{f': {end.message}' if end.message else ''}"]
    if end.reason in NEVER_RAN:
        return [f"the runtime could not start it{f': {end.message}' if end.message else ''}"]
    return []


def left_words(event: reports.Event, trace: traces.Trace) -> str:
    """What memory the node had left by the last sample, which distinguishes a limit from a node that ran out of it."""
    left = trace.ticks[trace.places[event.at]].signals.get("memory.available")
    return "" if left is None else f"; the node had {amounts.amount_text(left, True)} of memory available"


def is_known(event: reports.Event, trace: traces.Trace) -> bool:
    """Whether the code of a death is the instance's own: the instance was listed, and its code was not guessed."""
    end = trace.reasons.end_of(event)
    if end is not None:
        return not end.is_guessed
    return int(event.rest[1]) != LOST or is_listed(event, trace)


def is_guessed(event: reports.Event, trace: traces.Trace | None) -> bool:
    """Whether the trace marks the code of a death as guessed."""
    end = trace.reasons.end_of(event) if trace is not None and event.word == "died" else None
    return end is not None and end.is_guessed


def is_of_guessed(event: reports.Event, trace: traces.Trace) -> bool:
    """Whether an event is of a pod whose manifest is unknown."""
    return event.number is not None and trace.pods[event.number].is_guessed


def is_listed(event: reports.Event, trace: traces.Trace) -> bool:
    """Whether the tick of a death lists that instance as exited, so that the code is the runtime's."""
    if event.number is None:
        return False
    try:
        listing = trace.listing(trace.pods[event.number], event.name, trace.places[event.at])
    except amounts.Wrong:
        return False
    return listing is not None and (listing.attempt, listing.state) == (int(event.rest[0]), "CONTAINER_EXITED")
