"""The traces of several parts as one, of the pods of the joined report."""

from __future__ import annotations

from dataclasses import dataclass, replace
from typing import Any, TYPE_CHECKING

from replay_tools import traces

if TYPE_CHECKING:
    from replay_tools import reasons, report as reports


@dataclass
class Known(traces.Tick):
    """The tick of a rotation: what its probes show was known before, and is no result of its own."""

    @property
    def entries(self) -> dict[str, dict[str, Any]]:
        return {key: without_probes(entry) for key, entry in self.lines.entries(self.begin, self.end).items()}

    def entry(self, key: str) -> dict[str, Any] | None:
        found = super().entry(key)
        return None if found is None else without_probes(found)


def without_probes(entry: dict[str, Any]) -> dict[str, Any]:
    return {name: value for name, value in entry.items() if name != "probes"}


def join_traces(found: list[traces.Trace], borders: list[reports.Border],
                numbers: list[dict[int, int]]) -> traces.Trace:
    """One trace of the traces of all parts. `numbers` has for each part the numbers that its pods have in the joined
    report."""
    made = traces.Trace(found[0].node, found[-1].settings, found[-1].thresholds)
    for trace, border, of in zip(found, [None, *borders], numbers):
        place = len(made.ticks)
        dropped = take_ticks(made, trace, border)
        known = len(made.pods)
        take_pods(made, trace, of, place, dropped)
        take_resizes(made, trace, of, border, known)
        take_decisions(made, trace, of)
        take_words(made, trace, of)
        take_reasons(made, trace, of, border)
        for number, several in trace.said.of_pod.items():
            made.said.of_pod.setdefault(of[number], {}).update(several)
    made.gaps = [(border.since, border.at) for border in borders if border.is_gap]
    made.places = {tick.at: place for place, tick in enumerate(made.ticks)}
    return made


def take_ticks(made: traces.Trace, trace: traces.Trace, border: reports.Border | None) -> int:
    """Takes the ticks after a rotation, and the tick of the rotation if no tick is there. Returns how many ticks of the
    trace come before these."""
    if border is None:
        made.ticks += trace.ticks
        return 0
    last = made.ticks[-1].at
    kept = [tick for tick in trace.ticks if tick.at > border.at]
    at = next((tick for tick in trace.ticks if tick.at == border.at), None)
    if at is not None and at.at > last:
        kept.insert(0, Known(**vars(at)))
    made.ticks += kept
    return len(trace.ticks) - len(kept)


def take_pods(made: traces.Trace, trace: traces.Trace, of: dict[int, int], begin: int, dropped: int) -> None:
    """Takes the pods of a trace whose ticks, but the first ones, are at a place; pods that are not in it have gone by
    its first tick."""
    def place(number: int) -> int:
        return begin + max(number - dropped, 0)

    going_on = {of[pod.number] for pod in trace.pods}
    for pod in made.pods:
        if pod.gone is None and pod.number not in going_on:
            pod.gone = begin
    for pod in trace.pods:
        number = of[pod.number]
        gone = None if pod.gone is None else place(pod.gone)
        if number < len(made.pods):
            made.pods[number].gone = gone
        else:
            made.pods.append(replace(pod, number=number, first=place(pod.first), gone=gone))


def take_decisions(made: traces.Trace, trace: traces.Trace, of: dict[int, int]) -> None:
    """A pod that the kubelet has evicted, and that is still there, is there once more at a rotation. One that it
    evicted in a gap has no line after it, and is the one of its uid before."""
    told = {(one.kind, one.pod, one.at) for one in made.decisions}
    for one in trace.decisions:
        if (one.kind, one.pod, one.at) not in told:
            number = number_of(made, one) if one.number is None else of[one.number]
            made.decisions.append(replace(one, number=number))


def take_words(made: traces.Trace, trace: traces.Trace, of: dict[int, int]) -> None:
    """A trace that follows another shows once more which pods are being deleted, or were ended, in its first ticks."""
    for number, deletion in trace.deletions.items():
        known = made.deletions.setdefault(of[number], replace(deletion))
        known.by = known.by or deletion.by
        known.grace = deletion.grace if known.grace is None else known.grace
    for number, at in trace.marked_wrongly.items():
        made.marked_wrongly.setdefault(of[number], at)
    for number, decision in trace.failed.items():
        made.failed.setdefault(of[number], replace(decision, number=of[number]))


def take_resizes(made: traces.Trace, trace: traces.Trace, of: dict[int, int], border: reports.Border | None,
                 known: int) -> None:
    """Takes the resizes of a trace. So many pods were known before it. If one of these has other requests and limits at
    the begin of the trace than it had, it was resized in the gap between the traces."""
    for pod in trace.pods:
        ours, until = made.pods[of[pod.number]], -1
        if border is not None and ours.number < known:
            until = border.at
            for one in trace.resizes.pod_at(pod, until).containers if not (pod.is_guessed or ours.is_guessed) else ():
                made.resizes.add(ours, until, one.name, one.resources, gap=border.since if border.is_gap else None)
        for each in trace.resizes.of_pod(pod.number):
            if each.at > until:
                made.resizes.add(ours, each.at, each.container.name, each.container.resources, each.was_so)


def number_of(made: traces.Trace, decision: traces.Decision) -> int | None:
    """The number of a pod that has no line in the trace of a decision, but in one before."""
    return next((pod.number for pod in made.pods if None not in (pod.uid, decision.uid)
                 and (pod.uid, pod.key) == (decision.uid, decision.pod)), None)


def take_reasons(made: traces.Trace, trace: traces.Trace, of: dict[int, int], border: reports.Border | None) -> None:
    for number, turns in trace.reasons.turns.items():
        # a trace that follows another begins with the turn that was the last, by its own moment
        made.reasons.turns.setdefault(of[number], {}).update(turns)
    made.reasons.unknown_phases |= {of[number] for number in trace.reasons.unknown_phases}
    made.reasons.doubted |= {of[number]: at for number, at in trace.reasons.doubted.items()}
    made.reasons.unseen |= {(of[number], name, attempt) for number, name, attempt in trace.reasons.unseen}
    made.reasons.looked |= {(word, of[number], name, attempt) for word, number, name, attempt in trace.reasons.looked}
    for (number, name, attempt), end in trace.reasons.ends.items():
        before = made.reasons.ends.setdefault((of[number], name, attempt), end)
        before.reason, before.message = end.reason or before.reason, before.message or end.message
    for known, said in ((made.reasons.waits, trace.reasons.waits), (made.reasons.gates, trace.reasons.gates)):
        going_on = {(of[number], name) for number, name in said}
        for place, waits in known.items():
            if border is not None and waits[-1].until is None and (border.is_gap or place not in going_on):
                waits[-1].until = border.since
        for (number, name), waits in said.items():
            take_waits(known.setdefault((of[number], name), []), waits, border)


def take_waits(known: list[reasons.Wait], waits: list[reasons.Wait], border: reports.Border | None) -> None:
    """Takes the waits of a container; the one that lasts over a rotation is one."""
    for wait in waits:
        since = wait.since if border is None else max(wait.since, border.at)
        before = known[-1] if known else None
        if before is not None and before.until is None:
            if border is not None and since == border.at and before.reason == wait.reason:
                before.until, before.message = wait.until, before.message or wait.message
                continue
            before.until = since
        known.append(replace(wait, since=since))
