"""The timeline of an import. Most pods of a tick are as they were in the one before, and the text of these is made
once."""

from __future__ import annotations

import json
from collections.abc import Callable
from dataclasses import dataclass, replace
from typing import Any, Optional, TYPE_CHECKING

from replay_tools.record.formats import shown
from replay_tools.record.lines import line_of, line_of_text, pod_fields, without_gates
from replay_tools.record.timeline import Timeline

from .marks import MANIFEST, ImportedAsides

if TYPE_CHECKING:
    from replay_tools.record.lines import Format
    from replay_tools.record.pods import Pod
    from replay_tools.record.seen import Recorded
    from replay_tools.record.ticks import Tick

# what a trace has once, as a message, is no more in an entry that was made so often, or in which nothing is new
STEADY = 3
NO_PODS, PODS = '"pods":[]', '"pods":[{}]'
Rows = dict[str, list[tuple[int, str, Any]]]


@dataclass
class Steady:
    """The entry of a pod of which nothing was placed since, its text, which is empty where it has none, and how often
    it was made."""
    entry: Optional[dict[str, Any]] = None
    text: str = ""
    made: int = 0


class ImportedTimeline(Timeline):
    """A timeline that has no samples and no Events of pods. `rows_due` has what else is in the entries of pods in a
    tick, by their keys, and `with_rows` an entry with that."""

    def __init__(self, trace_format: Format, rows_due: Callable[[int], Rows],
                 with_rows: Callable[[str, Optional[dict[str, Any]], Rows], dict[str, Any]]) -> None:
        super().__init__(trace_format)
        self.rows_due = rows_due
        self.with_rows = with_rows
        self.guesses = self.asides = ImportedAsides()
        # a tick is judged where the journal has a round of the eviction manager
        self.tells_rounds = True
        self.steady: dict[str, Steady] = {}
        # the pods that are there by their uids, those whose entries the next tick may change, and what the last tick
        # had of each, in the order of their lines: a tick takes time for the pods that change, and not for all
        self.there: dict[str, Pod] = {}
        self.unsettled: dict[str, Pod] = {}
        self.texts: dict[str, str] = {}
        self.entries: dict[str, Optional[dict[str, Any]]] = {}
        # whether a tick is kept as it was made, which is read again of its line otherwise, and the newest one
        self.keeps_ticks = False
        self.newest: tuple[str, dict[str, Any]] = "", {}
        # the pods whose manifests are their owners' templates, or made of lines, by their keys
        self.templates: dict[str, bool] = {}
        # times of which nothing is known: the seconds between which there is no tick
        self.gaps: list[tuple[int, int]] = []

    def second_of(self, moment: float, *after: Any) -> int:
        """The second in which something is placed: what happened in a gap is placed at its end."""
        second = super().second_of(moment, *after)
        return next((until for since, until in self.gaps if since < second < until), second)

    def place_decision(self, pod: Pod, moment: float, recorded: Recorded | None) -> int:
        """What is known too late for a tick of its second has its own moment all the same."""
        second = super().place_decision(pod, moment, recorded)
        if int(moment) < second:
            decisions = self.ticks[second].decisions
            decisions[-1] = replace(decisions[-1], at=int(moment))
        return second

    def lines_of(self, second: int, tick: Tick, is_silent: bool) -> list[str]:
        """The lines of a second; the entries that it changes are made again."""
        for pod in tick.arrivals:
            self.there[pod.uid] = self.unsettled[pod.uid] = pod
            self.texts[pod.key], self.entries[pod.key] = "", None
        for uid in {*(uid for uid, _ in tick.listings), *tick.waits}:
            self.forget(uid)
        self.gaps = [gap for gap in self.gaps if gap[1] > second]
        return super().lines_of(second, tick, is_silent)

    def pod_line(self, pod: Pod) -> str:
        """A pod's line. No journal has what it uses, by which the rules would name it, so it is exempt. None has the
        conditions of readiness gates, without which the rules would never take it for Ready, so it has no gate."""
        fields = pod_fields(pod.known_uid(), without_gates(pod.manifest), pod.is_spared, pod.is_guessed)
        return line_of({**fields, "spared": True, **({"guessed": [MANIFEST]} if self.templates.get(pod.key) else {})})

    def tick_of(self, second: int, tick: Tick, signals: dict[str, int], changed: set[tuple[str, str]] | None) -> str:
        """The line of a tick, put together of the texts of entries."""
        rows = self.rows_due(second)
        once = {*(place[0] for place in self.results), *self.deleted, *self.failed, *self.conditions}
        due = dict(self.unsettled)
        if once or rows:
            due.update((uid, pod) for uid, pod in self.there.items() if uid in once or pod.key in rows)
        for pod in due.values():
            found = self.steady_of(pod, rows, pod.uid in once)
            self.texts[pod.key], self.entries[pod.key] = found.text, found.entry
        without_pods = self.line_with([], second, tick, signals)
        texts = ",".join(filter(None, self.texts.values()))
        line = line_of_text(without_pods.replace(NO_PODS, PODS.format(texts), 1))
        if self.keeps_ticks:
            self.newest = line, json.loads(without_pods) | {"pods": [*filter(None, self.entries.values())]}
        return line

    def record_of(self, line: str) -> dict[str, Any]:
        """A line of a trace, as its values."""
        newest, record = self.newest
        return record if line is newest else json.loads(line)

    def steady_of(self, pod: Pod, rows: Rows, is_once: bool) -> Steady:
        """A pod's entry, made again if this tick alone has something in it."""
        found = Steady() if is_once else self.steady.setdefault(pod.uid, Steady())
        if found.made < STEADY:
            self.guesses.has_news = False
            found.entry = self.entry(pod, None)
            found.text = "" if found.entry is None else shown(found.entry)
            found.made = found.made + 1 if self.guesses.has_news else STEADY
        if is_once:
            self.forget(pod.uid)
        elif found.made == STEADY:
            self.unsettled.pop(pod.uid, None)
        if pod.key not in rows:
            return found
        # the next tick has its entry without these rows
        self.unsettled[pod.uid] = pod
        entry = self.with_rows(pod.key, found.entry, rows)
        return Steady(entry, shown(entry))

    def mark(self, uid: str, name: str, attempt: int, marks: tuple[str, ...]) -> None:
        """Parts of an instance that were guessed, as well as the parts known to be."""
        place = uid, name, attempt
        new = tuple(dict.fromkeys([*self.guesses.guessed.get(place, ()), *marks]))
        if new:
            self.guesses.guessed[place] = new
            self.forget(uid)

    def forget(self, uid: str) -> None:
        """What the entry of a pod was is not what it will be."""
        self.steady.pop(uid, None)
        if uid in self.there:
            self.unsettled[uid] = self.there[uid]

    def depart(self, pods: list[Pod]) -> None:
        super().depart(pods)
        for pod in pods:
            self.steady.pop(pod.uid, None)
            self.there.pop(pod.uid, None)
            self.unsettled.pop(pod.uid, None)
            self.texts.pop(pod.key, None)
            self.entries.pop(pod.key, None)
        if pods:
            # a journal has more pods than a trace, and each of them looks through what is kept of the others
            gone = {pod.uid for pod in pods}
            self.last_placed = {place: second for place, second in self.last_placed.items() if place[0] not in gone}
            self.successes = {place: run for place, run in self.successes.items() if place[0] not in gone}
