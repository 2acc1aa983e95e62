"""Writes the ticks of a trace: the lines of each second, with what holds then."""

from __future__ import annotations

import copy
from collections.abc import Iterator
from dataclasses import replace
from typing import Any, TYPE_CHECKING

from .asides import Asides
from .formats import without_nones
from .lines import EVICTION_PAUSE, entry_of, gone_line, pod_line, tick_line, told, unknown
from .near import Nearness
from .ticks import Ticks

if TYPE_CHECKING:
    from .events import Ready, Said
    from .lines import Format
    from .pods import Pod
    from .statuses import ReadyTurn
    from .ticks import Tick


class Timeline(Ticks):
    """The ticks that are not written yet, and what holds at the last one that was."""

    def __init__(self, trace_format: Format) -> None:
        super().__init__(trace_format)
        # the pods that are there
        self.present: list[Pod] = []
        self.listings: dict[str, dict[str, Any]] = {}
        self.results: dict[tuple[str, ...], str] = {}
        self.usages: dict[str, dict[str, Any]] = {}
        self.unsampled: set[str] = set()
        self.deleted: dict[str, dict[str, Any]] = {}
        self.failed: dict[str, str] = {}
        self.said: dict[str, list[Said]] = {}
        self.turns: dict[str, list[ReadyTurn]] = {}
        self.conditions: dict[str, dict[str, bool]] = {}
        self.resized: dict[str, dict[str, Any]] = {}
        self.ready: Ready | None = None
        self.signals: dict[str, int] = {}
        # when the kubelet evicted a pod last, and the signals that were not sampled since
        self.evicted_at: int | None = None
        self.outdated: set[str] = set()
        # whether rounds of the eviction manager are known
        self.tells_rounds = False
        self.near = Nearness()
        self.asides = Asides()

    def due(self, before: float, silent_from: int | None = None) -> Iterator[tuple[list[str], bool]]:
        """The lines of each second before one, as (lines, whether a tick is among them). From a second on at which the
        runtime was silent containers are listed as unknown."""
        for second in sorted(each for each in self.ticks if each < before):
            tick = self.ticks.pop(second)
            self.next_second = second + 1
            yield self.lines_of(second, tick, silent_from is not None and second >= silent_from), tick.is_wanted
        self.next_second = max(self.next_second, before)

    def foreseen(self, moment: float, silent_from: int | None = None) -> list[tuple[list[str], bool]]:
        """What would be due if nothing came any more, with a tick at a moment. All stays as it is."""
        copied = copy.copy(self)
        copied.ticks = {second: replace(tick) for second, tick in self.ticks.items()}
        copied.present, copied.results = list(self.present), dict(self.results)
        copied.listings = {uid: dict(listings) for uid, listings in self.listings.items()}
        copied.usages = {uid: dict(usages) for uid, usages in self.usages.items()}
        copied.deleted, copied.failed = dict(self.deleted), dict(self.failed)
        copied.said = {uid: list(said) for uid, said in self.said.items()}
        copied.turns = {uid: list(turns) for uid, turns in self.turns.items()}
        copied.conditions = {uid: dict(conditions) for uid, conditions in self.conditions.items()}
        copied.resized = {uid: dict(resized) for uid, resized in self.resized.items()}
        copied.asides = self.asides.copied()
        copied.place_look(moment)
        return list(copied.due(float("inf"), silent_from))

    def lines_of(self, second: int, tick: Tick, is_silent: bool) -> list[str]:
        """The lines of a second: the pods that come, the tick if one is needed, the pods that go."""
        lines = [self.pod_line(pod) for pod in tick.arrivals]
        self.present += tick.arrivals
        if not self.format.says_gone:
            self.depart(tick.departures)
        for (uid, container), change in tick.listings.items():
            self.listings.setdefault(uid, {})[container] = change.listing
            # what was found on an instance that is no more changes nothing, and must not count for the next one
            self.results = {place: result for place, result in self.results.items() if place[:2] != (uid, container)}
        self.results.update(tick.results)
        self.take_usages(tick)
        self.deleted.update(tick.deleted)
        self.failed.update(tick.failed)
        self.ready = tick.ready or self.ready
        for uid, said in tick.said.items():
            self.said.setdefault(uid, []).extend(said)
        for uid, turns in tick.turns.items():
            self.turns.setdefault(uid, []).extend(turns)
        for uid, conditions in tick.conditions.items():
            self.conditions.setdefault(uid, {}).update(conditions)
        for uid, resized in tick.resized.items():
            self.resized.setdefault(uid, {}).update(resized)
        for uid, waits in tick.waits.items():
            self.asides.take_waits(uid, waits)
        self.asides.beside.update(tick.beside)
        self.asides.used.take(second, tick.listings, tick.used, tick.throttled)
        self.signals = without_nones({**self.signals, **tick.signals})
        signals = self.shown_signals(second, tick)
        if tick.is_wanted:
            lines.append(self.tick_of(second, tick, signals, set(tick.listings) if is_silent else None))
            self.results, self.usages, self.failed, self.deleted, self.unsampled = {}, {}, {}, {}, set()
            self.said, self.turns, self.conditions, self.resized = {}, {}, {}, {}
        if self.format.says_gone:
            lines += [gone_line(pod) for pod in tick.departures]
            self.depart(tick.departures)
        return lines

    def pod_line(self, pod: Pod) -> str:
        """The line of a pod that comes."""
        return pod_line(pod, self.format.says_gone)

    def tick_of(self, second: int, tick: Tick, signals: dict[str, int], changed: set[tuple[str, str]] | None) -> str:
        """The line of a tick with all that holds then."""
        entries = [entry for entry in (self.entry(pod, changed) for pod in self.present) if entry is not None]
        return self.line_with(entries, second, tick, signals)

    def line_with(self, entries: list[dict[str, Any]], second: int, tick: Tick, signals: dict[str, int]) -> str:
        """The line of a tick with these entries of pods."""
        is_judged = tick.is_judged or not self.tells_rounds
        node_ready = None if self.ready is None else self.ready.told()
        return tick_line(second, entries, signals, told([*tick.decisions, *tick.ends]), is_judged, node_ready,
                         tick.started)

    def shown_signals(self, second: int, tick: Tick) -> dict[str, int]:
        """The signals of a tick, as last sampled. What was left before the kubelet evicted a pod is not what is left
        after it, and the kubelet takes a new sample before it evicts the next: until then a signal has no value, or the
        new sample's if a threshold goes on over the gap."""
        if self.format.says_gone and any(each.is_eviction(second) for each in tick.decisions):
            self.evicted_at, outdated = second, set(self.signals) - set(tick.signals)
            self.outdated = set(self.signals)
        else:
            is_late = self.evicted_at is not None and second - self.evicted_at > EVICTION_PAUSE
            self.outdated = outdated = set() if is_late else self.outdated - set(tick.signals)
        return without_nones({**self.signals, **{signal: self.ahead(second, signal) for signal in outdated}})

    def ahead(self, second: int, signal: str) -> int | None:
        """The value of a signal between an eviction and its next sample, or None."""
        later = (self.ticks[each].signals.get(signal) for each in sorted(self.ticks) if each > second)
        following = next((value for value in later if value is not None), None)
        if not self.near.outlasts_gap(signal, following):
            return None
        return self.signals[signal] if following is None else following

    def take_usages(self, tick: Tick) -> None:
        """The samples of a second, and the pods that have none from it on."""
        for uid in tick.unsampled:
            self.usages.pop(uid, None)
        self.unsampled = (self.unsampled - set(tick.usages)) | tick.unsampled
        for uid, usage in tick.usages.items():
            self.usages.setdefault(uid, {}).update(usage)

    def depart(self, pods: list[Pod]) -> None:
        for pod in pods:
            self.present.remove(pod)
            self.listings.pop(pod.uid, None)
            self.asides.depart(pod.uid)

    def entry(self, pod: Pod, changed: set[tuple[str, str]] | None) -> dict[str, Any] | None:
        """A pod's entry. Where the runtime is silent `changed` has the containers whose listing is of this tick; what
        else is listed is as it was, and may have changed since."""
        listings = {name: listing if changed is None or (pod.uid, name) in changed else unknown(listing)
                    for name, listing in self.listings.get(pod.uid, {}).items() if listing is not None}
        of_pod = {(container, probe): result for (uid, container, probe), result in self.results.items()
                  if uid == pod.uid} if self.results else {}
        return entry_of(pod, listings, of_pod, self.usages.get(pod.uid), pod.uid in self.unsampled,
                        self.deleted.get(pod.uid), self.asides, self.failed.get(pod.uid), self.said.get(pod.uid, ()),
                        self.turns.get(pod.uid, ()), self.conditions.get(pod.uid), self.resized.get(pod.uid))
