"""How tables and events are printed in words, and what a trace shows of its node next to them."""

from __future__ import annotations

import re
from bisect import bisect_left
from collections.abc import Callable, Sequence
from dataclasses import dataclass
from typing import TYPE_CHECKING

from replay_tools import amounts, entry, events, outside, own_restarts, reasons, traces

if TYPE_CHECKING:
    from replay_tools import report as reports
    from replay_tools.said import Said

ZONE = r"(?:Z|[+-]\d\d:\d\d)"
DATE = re.compile(rf"\d{{4}}-\d\d-\d\d (?=\d\d:\d\d:\d\d{ZONE})")
# a kubelet shows within so many seconds that it kills what a probe ordered to be killed
NEAR_KILL = 5
# a code that no tick shows
UNKNOWN = "unknown"
# of more moments some are left out
MOST_MOMENTS = 6
# a cell that is a moment, or several of them
MOMENTS = re.compile(rf"({DATE.pattern})[\d:]{{8}}{ZONE}(?:, .*)?", re.ASCII)


def table(title: str, heads: list[str], rows: list[list[str]]) -> list[str]:
    """Lines of a table; a column of numbers, some of them missing, is aligned to the right."""
    if not rows:
        return [title, "  none", ""]
    rows = dated_once(rows)
    columns = list(zip(heads, *rows))
    widths = [max(map(len, column)) for column in columns]
    numbers = [set(column[1:]) != {"-"} and all(cell == "-" or cell.lstrip("-").isdigit() for cell in column[1:])
               for column in columns]
    lines = [title]
    for row in (heads, *rows):
        cells = (cell.rjust(width) if number else cell.ljust(width)
                 for cell, width, number in zip(row, widths, numbers))
        lines.append(("  " + "  ".join(cells)).rstrip())
    return [*lines, ""]


def dated_once(rows: list[list[str]]) -> list[list[str]]:
    """Rows in which the date of a moment is left out if the row above has the same, or the moment that a text is next
    to."""
    above: dict[int, str] = {}

    def told(place: int, cell: str, own: str | None) -> str:
        first = MOMENTS.fullmatch(cell)
        if not first:
            return DATE.sub(lambda found: "" if found[0] == own else found[0], cell)
        date, rest = first[1], cell[first.end(1) :]
        shown = " " * len(date) if above.get(place) == date else date
        above[place] = date
        return shown + rest.replace(date, "")

    dates = [next((found[1] for found in map(MOMENTS.fullmatch, row) if found), None) for row in rows]
    return [[told(place, cell, own) for place, cell in enumerate(row)] for row, own in zip(rows, dates)]


def moments_text(moments: Sequence[int], show: Callable[[int], str]) -> str:
    """Moments of results, the first and the last of many."""
    if len(moments) <= MOST_MOMENTS:
        return ", ".join(map(show, moments))
    return ", ".join([*map(show, moments[:2]), "..", show(moments[-1])])


def event_words(event: reports.Event, is_beside: bool = False, trace: traces.Trace | None = None,
                is_whole: bool = True) -> tuple[str, str]:
    """An event's attempt, if it has one, and what happened; an eviction in other words where it is next to what the
    kubelet did, and a death with why, as far as the trace shows it, and the whole with its message."""
    why = reasons.cause_words(event, int(event.rest[1]), trace, is_whole) if event.word == "died" else ""
    kind = events.kinds()[event.word]
    told = kind.told(event.rest, why, is_beside, reasons.is_guessed(event, trace))
    if reasons.is_phase_unknown(event, trace):
        told = "phase Succeeded or Failed: no known code shows which"
    return kind.attempt(event.rest), f"{told}{more_words(event, trace)}"


def last_lines(event: reports.Event, trace: traces.Trace | None) -> list[str]:
    """What an instance that died wrote last, a line each, as far as the trace has it, and how many lines it leaves
    out."""
    end = trace.reasons.end_of(event) if trace is not None and event.word == "died" else None
    if end is None:
        return []
    return [*(f"it wrote last: {line}" for line in end.log), *reasons.left_out_lines(end)]


def more_words(event: reports.Event, trace: traces.Trace | None) -> str:
    """What a trace shows of an event next to what the report does: what a probe put out before a kill order, or that it
    is known within a second."""
    if trace is None:
        return ""
    output = trace.said.output_before(event, event.rest[1]) if event.word == "kill" else None
    return f" ({output})" if output else trace.reasons.within_words(event)


# the order in which what has one moment is printed: causes before effects
OF_NODE, OUTPUT, DECIDED, ORDERED, ENDING, OF_REPORT, SAID_LATER = range(7)
OUTPUTS = ("Unhealthy", "FailedPostStartHook", "FailedPreStopHook", "FailedMount", "Failed", "Pulling", "Pulled",
           "Created")
ENDINGS = ("Killing", "Preempting", "Evicted", "DeadlineExceeded", "ExceededGracePeriod", "NodeShutdown")


def rank_of(event: reports.Event) -> int:
    return ORDERED if event.word == "kill" else OF_REPORT


def rank_of_said(said: Said) -> int:
    return OUTPUT if said.reason in OUTPUTS else ENDING if said.reason in ENDINGS else SAID_LATER


def kill_of(pod: reports.Pod, died: reports.Event) -> reports.Event | None:
    """The order by which an instance that died was killed; None of one that was not."""
    return next((event for event in pod.events if event.word == "kill" and event.container == died.container
                 and event.rest[0] == died.rest[0] and event.at <= died.at), None)


def death_of(pod: reports.Pod, kill: reports.Event) -> reports.Event | None:
    """The death that follows a kill order; None where it was not recorded."""
    return next((event for event in pod.events if event.word == "died" and event.container == kill.container
                 and event.rest[0] == kill.rest[0] and event.at >= kill.at), None)


def is_of_reboot(died: reports.Event, trace: traces.Trace | None) -> bool:
    """Whether an instance ended with its node, and no kill ended it: the runtime then knows no code of it."""
    end = None if trace is None else trace.reasons.end_of(died)
    return end is not None and end.reason == "Unknown" and died.rest[1] == "255"


def grace_words(kill: reports.Event, died: reports.Event, trace: traces.Trace | None) -> str:
    """How long an instance took to exit: its whole grace period, or so many seconds."""
    seconds, grace = died.at - kill.at, grace_of(kill, trace)
    if grace is not None and died.rest[1] == "137" and seconds >= grace > 0:
        return f"after its grace period of {grace} s"
    return f"{seconds} s later" if seconds else "at once"


def grace_of(kill: reports.Event, trace: traces.Trace | None) -> int | None:
    """The grace period of a kill: as the kubelet reported it, else as the manifest has it."""
    if trace is None or kill.number is None:
        return None
    said = (one.grace for one in trace.said.of(kill.number) if one.reason == "Killing" and one.grace is not None
            and one.container == kill.container and kill.at <= one.at <= kill.at + NEAR_KILL)
    pod = trace.pods[kill.number]
    return next(said, None if pod.is_guessed else pod.grace)


def killed_words(pod: reports.Pod, died: reports.Event, show: Callable[[int], str],
                 trace: traces.Trace | None) -> str:
    """Of a death that a probe's kill led to, that it did."""
    kill = kill_of(pod, died) if died.word == "died" else None
    if kill is None or is_of_reboot(died, trace):
        return ""
    return (f"; killed by its {kill.rest[1]} probe{more_words(kill, trace)} at {show(kill.at)}, "
            f"{grace_words(kill, died, trace)}")


def beside_words(pod: reports.Pod, event: reports.Event, show: Callable[[int], str],
                 trace: traces.Trace | None = None) -> str:
    """What is next to an event of a pod: the kill that led to a death, the container's own policy or rule that decided
    about a restart after it, and of several traces what is not known of it, since it happened in a gap or is counted
    again in a trace."""
    decided = own_restarts.clause(pod, event, trace)
    return killed_words(pod, event, show, trace) + decided + border_words(pod, event, show)


def border_words(pod: reports.Pod, event: reports.Event, show: Callable[[int], str]) -> str:
    if event.was_so:
        return " (so before this trace)"
    since = next((since for since, until in pod.gaps if until == event.at), None)
    if since is not None:
        return f" (by then, in the gap since {show(since)})"
    anew = events.kinds()[event.word].anew
    if event.anew is not None and anew is not None:
        return f" ({anew} {show(event.anew)})"
    return ""


def resize_rows(trace: traces.Trace | None, pod: reports.Pod,
                show: Callable[[int], str]) -> list[tuple[int, str, str]]:
    """The resizes of a pod's containers: the moment, the container, and what changed."""
    found = trace.resizes.of_pod(pod.number) if trace is not None else ()
    return [(resize.at, resize.container.name, resize.words() + resize.note(show)) for resize in found]


def containers_title(pod: reports.Pod, ended: tuple[int, str] | None) -> str:
    """The title of a pod's containers; where some still ran as it ended or went, that they are as they were seen."""
    is_over = ended is not None or pod.left is not None
    if is_over and any(container.state == "Running" for container in pod.containers):
        return "Containers, each in the last state that was recorded"
    return "Containers"


# --- the node ---


@dataclass(frozen=True)
class Exited:
    """That a container exited: the number of its pod, its name, and its code as a text."""

    pod: int
    name: str
    code: str

    def words(self) -> str:
        return "with an unknown code" if self.code == UNKNOWN else self.code


@dataclass(frozen=True)
class Reboot:
    """That the node was started again, and what exited between the last tick before that and the first one after it."""

    at: int
    before: int
    """the place of that last tick"""
    exits: list[Exited]

    def words(self, when: str = "") -> str:
        return f"the node was rebooted{when}{': ' if self.exits else ''}{exits_words(self.exits)}"

    def is_of(self, pod: traces.Pod) -> bool:
        return pod.is_present(self.before) or bool(self.exits_of(pod))

    def exits_of(self, pod: traces.Pod) -> list[Exited]:
        return [one for one in self.exits if one.pod == pod.number]


@dataclass
class NotReady:
    """A time in which the node was not Ready: until the first tick that does not show it, or None."""

    since: int
    until: int | None
    reason: str | None

    def holds(self, at: int) -> bool:
        return self.since <= at and (self.until is None or at <= self.until)

    def end_words(self, show: Callable[[int], str]) -> str:
        until = "the end of the trace" if self.until is None else show(self.until)
        return f"{until}: {self.reason}" if self.reason else until


def reboots(trace: traces.Trace, report: reports.Report) -> list[Reboot]:
    """The starts of the node's system before which it was recorded too. Each trace shows the newest one."""
    found, moments = [], [tick.at for tick in trace.ticks]
    for at in dict.fromkeys(tick.lines.booted_at for tick in trace.ticks):
        place = 0 if at is None else bisect_left(moments, at)
        if at is not None and 0 < place < len(trace.ticks):
            exits = [Exited(event.number, event.name, code_of(event, trace)) for event in report.events
                     if event.word == "died" and event.number is not None
                     and moments[place - 1] < event.at <= moments[place]]
            found.append(Reboot(at, place - 1, exits + exits_unseen(trace, place, exits)))
    return found


def exits_unseen(trace: traces.Trace, place: int, seen: list[Exited]) -> list[Exited]:
    """The exits that no tick has, of containers that ran before a tick and of which that lists a later instance: a
    recorder that starts after a reboot may come too late for them."""
    before, behind = listings_at(trace, place - 1), listings_at(trace, place)
    known = {(one.pod, one.name) for one in seen}
    return [Exited(*of, UNKNOWN) for of, listing in before.items() if of not in known and of in behind
            and listing.state == traces.STATES[1] and listing.attempt < behind[of].attempt]


def listings_at(trace: traces.Trace, place: int) -> dict[tuple[int, str], traces.Listing]:
    """What a tick lists, by the number of the pod and the container."""
    try:
        found = {(pod.number, container.name): trace.listing(pod, container.name, place)
                 for pod in trace.pods for container in pod.containers}
    except amounts.Wrong:
        return {}
    return {of: listing for of, listing in found.items() if listing is not None}


def code_of(event: reports.Event, trace: traces.Trace) -> str:
    return event.rest[1] if reasons.is_known(event, trace) else UNKNOWN


def exits_words(exits: list[Exited]) -> str:
    """How many containers exited, by their codes."""
    by_code: dict[str, set[tuple[int, str]]] = {}
    for one in exits:
        by_code.setdefault(one.words(), set()).add((one.pod, one.name))
    return ", ".join(f"{entry.counted(len(found), 'container')} exited {words}" for words, found in by_code.items())


def times_not_ready(trace: traces.Trace) -> list[NotReady]:
    """The times in which the node was not Ready, since the moment that its condition shows. One lasts over a gap where
    the condition shows it after it."""
    found: list[NotReady] = []
    last = None
    for tick in trace.ticks:
        said = tick.not_ready
        since = None if said is None else outside.whole(said.get("since"), 0, tick.at)
        if last is not None and (since is None or since > last):
            gap = gap_between(trace, last, tick.at)
            if said is None or gap is not None:
                found[-1].until, last = tick.at if gap is None else gap, None
        if said is not None and last is None:
            found.append(NotReady(tick.at if since is None else since, None, outside.text_of(said.get("reason"))))
        last = None if said is None else tick.at
    return found


def gap_between(trace: traces.Trace, since: int, until: int) -> int | None:
    """Where a gap begins between two ticks, if one does."""
    return next((begin for begin, end in trace.gaps if since <= begin and end <= until), None)


def not_ready_with(trace: traces.Trace, pods: list[reports.Pod]) -> list[NotReady]:
    """Those in which one of some pods became unready, or one of its readiness gates false."""
    times = times_not_ready(trace)
    moments = [event.at for pod in pods for event in pod.events if event.word == "unready"] if times else []
    moments += [wait.since for pod in pods for _, wait in trace.reasons.gates_of(pod)] if times else []
    return [one for one in times if any(map(one.holds, moments))]


# a kubelet that was started again asks its probes again; a pod that becomes unready so soon after it does so by that
AFTER_START = 60
RESTARTED = "the kubelet was restarted"


def starts_with(trace: traces.Trace, pods: list[reports.Pod]) -> list[int]:
    """The starts of the kubelet after which one of some pods became unready."""
    starts = trace.kubelet_starts()
    moments = [event.at for pod in pods for event in pod.events if event.word == "unready"] if starts else []
    return [start for start in starts if any(start <= at <= start + AFTER_START for at in moments)]


def node_rows(trace: traces.Trace, report: reports.Report, pod: reports.Pod,
              show: Callable[[int], str]) -> list[tuple[int, str, list[str]]]:
    """What happened to the node while a pod was there: a moment, what happened, and what of it was of the pod."""
    ours = trace.pods[pod.number]
    rows = [(one.at, one.words(), [f"of this pod {each.name} exited {each.words()}" for each in one.exits_of(ours)])
            for one in reboots(trace, report) if one.is_of(ours)]
    first = trace.ticks[ours.first].at if ours.first < len(trace.ticks) else None
    last = trace.ticks[ours.gone].at if ours.gone is not None and ours.gone < len(trace.ticks) else None
    rows += [(at, RESTARTED, []) for at in trace.kubelet_starts()
             if first is not None and first <= at and (last is None or at < last)]
    return rows + [(one.since, f"the node was NotReady until {one.end_words(show)}", [])
                   for one in not_ready_with(trace, [pod])]


def node_lines(trace: traces.Trace, report: reports.Report, pods: list[reports.Pod], show: Callable[[int], str],
               since: int) -> list[str]:
    """The same of several pods, as far as it was after a moment, in a line each."""
    booted = [one for one in reboots(trace, report) if one.at > since]
    lines = [(one.at, one.words(f" at {show(one.at)}")) for one in booted
             if any(one.is_of(trace.pods[pod.number]) for pod in pods)]
    lines += [(at, f"{RESTARTED} at {show(at)}") for at in starts_with(trace, pods) if at > since]
    lines += [(one.since, f"the node was NotReady from {show(one.since)} to {one.end_words(show)}")
              for one in not_ready_with(trace, pods) if one.until is None or one.until > since]
    return [words for _, words in sorted(lines)]
