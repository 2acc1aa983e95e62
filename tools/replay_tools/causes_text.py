"""Writes each cause that the program's command `causes` prints as a sentence, and the causes of an event as lines of
text."""

from __future__ import annotations

from collections.abc import Callable
from dataclasses import dataclass
from typing import Any

from replay_tools import amounts, entry, kubelet as kubelets, provenance, restarting, traces
from replay_tools.record import causes
from replay_tools.record.explained_events import Explained
from replay_tools.signals import BYTE_SIGNALS
from replay_tools.telling import moments_text, table

FIRST, NO_SAMPLE = "it is the pod's first tick", "no sample"
LACKS = {"start": "it has not started", "startup": "its startup has not passed",
         "readiness": "its readiness probe has not made it ready"}
# the cases of a pod's phase by docs/rules.md, and the phase that each of them gives
CASES = {"failed": "the node ended the pod", "1": "an init container failed, and no restart follows",
         "2": "a container has not completed, and the pod waits for it",
         "3": "each app container exited with code 0, and no restart follows",
         "4": "each app container exited, not all with code 0, and no restart follows",
         "5": "the pod waits for no container, and an app container goes on"}
# if no known code shows which of the cases 3 and 4 it is
ENDED = "each app container exited, and no restart follows"
PHASES = {"1": "Failed", "2": "Pending", "3": "Succeeded", "4": "Failed", "5": "Running"}
SET_BY = {"node": "as the node line sets it", "default": "the default"}
PAUSE_ENDS = {"exited": "ended early: it had exited", "gone": "ended early: it was gone"}


@dataclass(frozen=True)
class Telling:
    """What a sentence needs next to its cause: the event with its other causes, how a moment is shown, and the trace,
    which marks what was guessed of it."""

    explained: Explained
    show: Callable[[int], str]
    trace: traces.Trace

    @property
    def container(self) -> str:
        """The container of the event."""
        event = self.explained.event
        return "" if event is None or event.container is None else event.container

    def amount(self, thousandths: int) -> str:
        """An amount of the event's signal."""
        rest = () if self.explained.event is None else self.explained.event.rest
        return amounts.amount_text(thousandths, any(word in BYTE_SIGNALS for word in rest))

    def of_kind(self, kind: type[causes.Cause]) -> list[Any]:
        """The causes of the event that are of a kind."""
        return [cause for cause in self.explained.causes if isinstance(cause, kind)]

    def with_code(self, pod: int, container: str, attempt: int, code: int) -> str:
        """With which code an instance exited; one that was guessed is not printed."""
        end = self.trace.reasons.ends.get((pod, container, attempt))
        return "with an unknown code" if end is not None and end.is_guessed else f"with code {code}"

    def as_listed(self, pod: int, attempt: int, at: int) -> str:
        """As what a tick lists an instance of the container, where the cause names its attempt alone."""
        place = self.trace.places.get(at)
        found = None if place is None else self.trace.listing(self.trace.pods[pod], self.container, place)
        if found is None or found.attempt != attempt:
            return ""
        return f" as {found.state}" + ("" if found.code is None else f" with code {found.code}")

    def is_unknown(self, pod: int) -> bool:
        """Whether nobody knows the manifest of a pod."""
        return self.trace.pods[pod].is_guessed


# --- a container's starts and exits ---


def listed_as(attempt: int, state: str) -> str:
    return f"listed attempt {attempt} as CONTAINER_{state.upper()}"


def unlisted(cause: causes.Unlisted, telling: Telling) -> str:
    now = "did not list it"
    if cause.instead is not None and telling.explained.event is not None:
        now = f"listed attempt {cause.instead}" \
            f"{telling.as_listed(cause.pod, cause.instead, telling.explained.event.at)} instead"
    return f"this tick {now}; the tick at {telling.show(cause.before)} {listed_as(cause.attempt, cause.state)}"


def listed(cause: causes.Listed, telling: Telling) -> str:
    now = f"this tick {listed_as(cause.attempt, 'running')}"
    if cause.before is None or cause.was is None:
        return f"{now}; {FIRST}"
    before = f"listed it as CONTAINER_{cause.was.upper()}"
    if cause.was == "nothing":
        before = "listed nothing of the container"
    elif cause.other is not None:
        before = f"listed attempt {cause.other}{telling.as_listed(cause.pod, cause.other, cause.before)}"
    return f"{now}; the tick at {telling.show(cause.before)} {before}"


def exited(cause: causes.Exited, telling: Telling) -> str:
    ran = f"it started at {telling.show(cause.start)} and ran for {cause.run} s" if cause.start is not None else \
        f"no tick listed it as CONTAINER_RUNNING, so its run counts as {cause.run} s"
    code = telling.with_code(cause.pod, telling.container, cause.attempt, cause.code)
    return f"this tick {listed_as(cause.attempt, 'exited')} {code}; {ran}"


# --- probes ---


def success(cause: causes.Success, telling: Telling) -> str:
    return (f"result {cause.number} of the startup probe is its first success (failureThreshold {cause.threshold}, "
            f"initialDelaySeconds {cause.delay}; the instance started at {telling.show(cause.start)})")


def failures(cause: causes.Failures, telling: Telling) -> str:
    moments, is_one = moments_text(cause.at, telling.show), cause.threshold == 1
    if cause.probe == "startup":
        failed = "the first result of the startup probe is a failure" if is_one else \
            f"the first {cause.threshold} results of the startup probe are failures"
    else:
        failed = f"the {cause.probe} probe failed" + ("" if is_one else f" {cause.threshold} times in a row")
    passed = "" if cause.passed is None else f", its startup passed at {telling.show(cause.passed)}"
    return (f"{failed}: {moments} (failureThreshold {cause.threshold}, initialDelaySeconds {cause.delay}; "
            f"the instance started at {telling.show(cause.start)}{passed})")


def up(cause: causes.Up, telling: Telling) -> str:
    started = f"the instance started at {telling.show(cause.start)}"
    if cause.passed is not None:
        return f"{started}, and its startup passed at {telling.show(cause.passed)}"
    return started if telling.is_unknown(cause.pod) else f"{started}; it has no startup probe"


def successes(cause: causes.Successes, telling: Telling) -> str:
    row = "" if cause.threshold == 1 else f" {cause.threshold} times in a row"
    return (f"the readiness probe succeeded{row}: {moments_text(cause.at, telling.show)} "
            f"(successThreshold {cause.threshold}, initialDelaySeconds {cause.delay})")


def unprobed(cause: causes.Unprobed, telling: Telling) -> str:
    if telling.is_unknown(cause.pod):
        return f"{provenance.UNKNOWN_MANIFEST}: whether it has probes is too"
    return "it has no readiness probe"


def was_ready(cause: causes.WasReady, telling: Telling) -> str:
    return f"attempt {cause.attempt}, which started at {telling.show(cause.start)}, was ready"


def left(cause: causes.Left, telling: Telling) -> str:
    if cause.listed:
        return f"it exited in this tick {telling.with_code(cause.pod, telling.container, cause.attempt, cause.code)}"
    return f"this tick no longer listed it, so it counts as exited with code {cause.code}"


def newer(cause: causes.Newer, telling: Telling) -> str:
    *lacks, last = (LACKS[each] for each in cause.lacks)
    lacking = f"{', '.join(lacks)} and {last}" if lacks else last
    return f"this tick {listed_as(cause.attempt, cause.state)}, which is not ready: {lacking}"


# --- restarts ---


def exit_(cause: causes.Exit, telling: Telling) -> str:
    code = telling.with_code(cause.pod, telling.container, cause.attempt, cause.code)
    return f"attempt {cause.attempt} exited {code} at {telling.show(cause.at)}"


def decision(cause: causes.Wanted | causes.Decided, whose: str, whom: str, does: str) -> str:
    """What decides about a restart, and how. A report's reader counts rules from 1."""
    if cause.by == "sidecar":
        return f"{whom} is a sidecar, which always restarts"
    if cause.by == "rule" and cause.rule is not None:
        return f"rule {cause.rule + 1} of {whose} {restarting.RULES} {does} it"
    if cause.by == "container":
        return f"{whose} own {restarting.POLICY} {cause.policy} {does} it"
    return f"the pod's {restarting.POLICY} {cause.policy} {does} {whom}"


def wanted(cause: causes.Wanted, telling: Telling) -> str:
    role = ", as an init container that failed" if cause.role == "init" else ""
    return decision(cause, "its", "it", "restarts") + role


def decided(cause: causes.Decided, telling: Telling) -> str:
    restarts = bool(telling.of_kind(causes.Unfinished))
    return decision(cause, f"{cause.container}'s", cause.container, "restarts" if restarts else "does not restart")


def delay(cause: causes.Delay, telling: Telling) -> str:
    if cause.doubled is None:
        because = "it is the container's first exit" if cause.why == "first" else \
            "its run was at least 600 s, so exits count from it again"
        return f"the restart has no delay: {because}"
    since = f"attempt {cause.first} exited at {telling.show(cause.since)}"
    since += "" if cause.why == "first" else " after a run of at least 600 s"
    times = {0: "", 1: ", doubled once", 2: ", doubled twice"}.get(cause.doubled, f", doubled {cause.doubled} times")
    most = "" if cause.set is None else f", but at most {cause.greatest} s, {SET_BY[cause.set]}"
    return f"exit {cause.number} since {since} delays the restart by 10 s{times}{most}"


def due(cause: causes.Due, telling: Telling) -> str:
    before = FIRST if cause.before is None else f"the tick before was at {telling.show(cause.before)}"
    return f"the restart was due from {telling.show(cause.at)} on; {before}"


def lives(cause: causes.Lives, telling: Telling) -> str:
    return f"the pod goes on: this tick leaves it {cause.phase}"


# --- phases ---


def case(cause: causes.Case, telling: Telling) -> str:
    before = FIRST if cause.before is None else f"the tick before left the pod {PHASES[cause.before]}"
    is_unknown = cause.now in ("3", "4") and cause.pod in telling.trace.reasons.unknown_phases
    return f"{ENDED if is_unknown else CASES[cause.now]}; {before}"


def failed(cause: causes.Failed, telling: Telling) -> str:
    return f"its reason is {kubelets.reason_words(cause.reason)}"


def exited_with(telling: Telling, pod: int, container: str, attempt: int, code: int) -> str:
    return f"{container} exited {telling.with_code(pod, container, attempt, code)} (attempt {attempt})"


def init_failed(cause: causes.InitFailed, telling: Telling) -> str:
    return f"init container {exited_with(telling, cause.pod, cause.container, cause.attempt, cause.code)}"


def awaited(cause: causes.Awaited, telling: Telling) -> str:
    return f"init container {cause.container} has not completed"


def completed(cause: causes.Completed, telling: Telling) -> str:
    return exited_with(telling, cause.pod, cause.container, cause.attempt, 0)


def stopped(cause: causes.Stopped, telling: Telling) -> str:
    return exited_with(telling, cause.pod, cause.container, cause.attempt, cause.code)


def unfinished(cause: causes.Unfinished, telling: Telling) -> str:
    if cause.is_ == "restarting":
        return f"{cause.container} exited with code {cause.code}, and a restart follows"
    return f"{cause.container} is {cause.is_}"


# --- thresholds and conditions ---


def below(value: int, limit: int, telling: Telling) -> str:
    return f"{telling.amount(value)} is below {telling.amount(limit)}"


def since_words(cause: causes.Asks | causes.ActedOn, telling: Telling) -> str:
    """Since when a threshold is active and due."""
    return (f"active since {telling.show(cause.since)}, grace {cause.grace} s, "
            f"due since {telling.show(cause.at)}")


def sample(cause: causes.Sample, telling: Telling) -> str:
    if cause.since is None and cause.value is not None:
        percent = "" if cause.percent is None or cause.capacity is None else \
            f" ({causes.percentage_text(cause.percent)} of {telling.amount(cause.capacity)})"
        return below(cause.value, cause.limit, telling) + percent
    now = "the tick has no sample" if cause.value is None else \
        f"{telling.amount(cause.value)} is at least {telling.amount(cause.limit)}"
    return now + ("" if cause.since is None else f"; the threshold was active since {telling.show(cause.since)}")


def active(cause: causes.Active, telling: Telling) -> str:
    return f"{cause.signal} {cause.kind} is active since {telling.show(cause.since)}"


def met(cause: causes.Met, telling: Telling) -> str:
    return (f"no threshold of it was active after the sync tick at {telling.show(cause.last)}, "
            f"and the transition period of {cause.period} s is over")


def asks(cause: causes.Asks, telling: Telling) -> str:
    return f"{below(cause.value, cause.limit, telling)}; {since_words(cause, telling)}"


def reclaimed(cause: causes.Reclaimed, telling: Telling) -> str:
    return f"the reclaim brought it to {telling.amount(cause.value)}, and {telling.amount(cause.enough)} is enough"


# --- evictions ---


def acted_on(cause: causes.ActedOn, telling: Telling) -> str:
    return (f"{cause.signal} {cause.kind}: {below(cause.value, cause.limit, telling)}; "
            f"{since_words(cause, telling)}")


def other(cause: causes.Other, telling: Telling) -> str:
    why = "the reclaim was enough for it" if cause.why == "reclaimed" else "it comes later in the order"
    return f"{cause.signal} {cause.kind} was due too, but {why}"


def others_words(ended: int, exempt: int, none: str) -> str:
    """Why the other pods that were present are no candidates."""
    had_ended = f"{entry.counted(ended, 'present pod')} had ended" if ended else ""
    were = "was" if exempt == 1 else "were"
    were_exempt = f"{exempt if ended else entry.counted(exempt, 'present pod')} {were} exempt" if exempt else ""
    return " and ".join(filter(None, [had_ended, were_exempt])) or f"{none} was present"


def candidates(cause: causes.Candidates, telling: Telling) -> str:
    return f"{entry.counted(cause.count, 'candidate')}; {others_words(cause.ended, cause.exempt, 'no other pod')}"


def candidate(cause: causes.Candidate, telling: Telling) -> str:
    _, usage, request, above, priority, note = candidate_cells(cause, telling)
    used = usage if cause.unsampled else f"usage {usage}"
    compared = "" if cause.request is None else f", request {request}, above {above}"
    return f"{cause.key}: {used}{compared}, priority {priority}{note and f', {note}'}"


def candidate_cells(cause: causes.Candidate, telling: Telling) -> list[str]:
    """The cells of a candidate's row, after its place."""
    usage = NO_SAMPLE if cause.unsampled else telling.amount(cause.usage)
    request, above = ("-" if value is None else telling.amount(value) for value in (cause.request, cause.excess))
    return [cause.key, usage, request, above, str(cause.priority), "ended by the node" if cause.failed else ""]


def more(cause: causes.More, telling: Telling) -> str:
    return f"{cause.count} more {'is' if cause.count == 1 else 'are'} left out"


def ordered(cause: causes.Ordered, telling: Telling) -> str:
    first, *others = telling.of_kind(causes.Candidate)
    if not others:
        return f"{first.key} is the only candidate"
    second, amount = others[0], telling.amount
    compared = {
        "unsampled": f"it has no sample, and {second.key} has one",
        "exceeds": f"its usage is above its request, and {second.key}'s is not",
        "priority": f"its priority is {first.priority}, {second.key}'s is {second.priority}",
        "usage": f"its usage is {amount(first.usage)}, {second.key}'s is {amount(second.usage)}",
        "number": f"{second.key} is equal in all else, and its line in the trace is later",
    }
    if cause.by == "excess":
        return (f"{first.key} comes first: its usage less its request is {amount(first.excess)}, {second.key}'s is "
                f"{amount(second.excess)}")
    return f"{first.key} comes first: {compared[cause.by]}"


def grace(cause: causes.Grace, telling: Telling) -> str:
    return (f"the pod's terminationGracePeriodSeconds is {cause.pod_period}, the node's evictionMaxPodGracePeriod is "
            f"{cause.greatest}; the lesser one counts")


def pause(cause: causes.Pause, telling: Telling) -> str:
    before = f"the eviction before was of {telling.trace.pods[cause.by].key} at {telling.show(cause.at)}"
    if cause.until == cause.at:
        return f"{before}; the node line sets no pause"
    how = PAUSE_ENDS.get(cause.ended, "was over")
    return f"{before}; its pause until {telling.show(cause.until)} {how}"


def same(cause: causes.Same, telling: Telling) -> str:
    return f"the rules name the same pod in each sync tick since {telling.show(cause.since)}"


def paused(cause: causes.Paused, telling: Telling) -> str:
    return (f"{cause.signal} {cause.kind} is due, but evictions pause until {telling.show(cause.until)}: "
            f"{telling.trace.pods[cause.by].key} was evicted at {telling.show(cause.since)}")


def nobody(cause: causes.Nobody, telling: Telling) -> str:
    others = others_words(cause.ended, cause.exempt, "no pod")
    return f"{cause.signal} {cause.kind} is due, but no pod is a candidate: {others}"


SENTENCES: dict[type[causes.Cause], Callable[..., str]] = {
    causes.Unlisted: unlisted, causes.Listed: listed, causes.Exited: exited, causes.Success: success,
    causes.Failures: failures, causes.Up: up, causes.Successes: successes, causes.Unprobed: unprobed,
    causes.WasReady: was_ready, causes.Left: left, causes.Newer: newer, causes.Exit: exit_, causes.Wanted: wanted,
    causes.Delay: delay, causes.Due: due, causes.Lives: lives, causes.Case: case, causes.Failed: failed,
    causes.InitFailed: init_failed, causes.Awaited: awaited, causes.Completed: completed, causes.Stopped: stopped,
    causes.Unfinished: unfinished, causes.Decided: decided, causes.Sample: sample, causes.Active: active,
    causes.Met: met, causes.Asks: asks, causes.Reclaimed: reclaimed, causes.ActedOn: acted_on, causes.Other: other,
    causes.Candidates: candidates, causes.Candidate: candidate, causes.More: more, causes.Ordered: ordered,
    causes.Grace: grace, causes.Pause: pause, causes.Same: same, causes.Paused: paused, causes.Nobody: nobody,
}


def sentence(cause: causes.Cause, telling: Telling) -> str:
    """A cause as a sentence."""
    return SENTENCES[type(cause)](cause, telling)


def lines_of(explained: Explained, show: Callable[[int], str], trace: traces.Trace) -> list[str]:
    """The causes of an event, a line each; the candidates of an eviction are a table."""
    telling = Telling(explained, show, trace)
    rows = [[str(place), *candidate_cells(one, telling)]
            for place, one in enumerate(telling.of_kind(causes.Candidate), 1)]
    lines: list[str] = []
    for cause in explained.causes:
        if isinstance(cause, causes.Candidates):
            heads = ["place", "pod", "usage", "request", "above", "priority", ""]
            lines += table(f"{sentence(cause, telling)}:", heads, rows)[:-1]
        elif not isinstance(cause, causes.Candidate):
            lines.append(sentence(cause, telling))
    return lines
