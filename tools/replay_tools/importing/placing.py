"""Where all pods of a journal are placed: the seconds of a trace, with the members that the formats don't read."""

from __future__ import annotations

import heapq
import re
from collections import Counter, defaultdict
from collections.abc import Iterator
from dataclasses import replace
from typing import Any, Optional, TYPE_CHECKING

from replay_tools.record.formats import MOST_PODS, shown
from replay_tools.record.lines import Format, extended
from replay_tools.record.seen import Recorded
from replay_tools.signals import SIGNALS

from . import marks
from .silences import Silences
from .steady import ImportedTimeline, Rows

if TYPE_CHECKING:
    from replay_tools.record.decisions import Decision
    from replay_tools.record.pods import Pod

    from .lives import Life

# a trace has a tick at least so often
EVERY = 10
# the seconds after one in which something may still be placed
LATE_SECONDS = 60
# what is counted: holes that the journal of the kubelet alone shows, holes of a journal that another one fills, pods
# that no line after a gap names, and how often the clock went back
HOLES, FILLED, DOUBTED, TURNS = "holes", "filled holes", "pods in doubt", "turns"
# pods that have probes, and new processes of the kubelet
PROBED, RESTARTS = "pods with probes", "processes of the kubelet"
# pods that have a manifest, pods with a made one, and pods of which no line shows whether they failed
WITH_MANIFEST, WITHOUT_MANIFEST = "met with a manifest", "pods without a manifest"
UNKNOWN_PHASES = "pods of an unknown phase"
# containers that lines name only after the line of their pod
NAMED_LATE = "containers named late"
# members of a pod's entry, the first of which is what the kubelet reported
SAID, FAILED, GUESSED, READY_TURNS = "said", "failed", "guessed", "readyTurns"
# of a tick: when the kubelet was started again
STARTED_AT = "kubeletStartedAt"
# of a gap: by how many seconds the clock went back there
CLOCK_BACK = "clockBack"
# of a pod in a tick, and of all pods
MOST_SAID, MOST_SAID_AT_ONCE = 20, 500
POD_LINE = '{"kind":"pod"'
TICK_AT = re.compile(r'\{"kind":"tick","at":(\d+),')


class Placing:
    """The ticks that are not written yet, and the members that are put into their lines."""

    def __init__(self, every: int = EVERY, most_pods_at_once: bool = False) -> None:
        self.format: Format = extended()
        self.is_at_once = most_pods_at_once
        self.timeline = ImportedTimeline(self.format, self.rows_due, self.with_rows)
        self.every = every
        # which of the probes have their successes in the journal
        self.told_probes: set[str] = set()
        self.has_successes = False
        # the members of pods' entries from a second on, in the order of these
        self.beside: list[tuple[int, int, str, str, Any]] = []
        self.said = 0
        self.gaps: list[tuple[int, dict[str, int]]] = []
        # the seconds in which the kubelet was started again, and the newest moment of the journal
        self.started: list[int] = []
        self.now = 0.0
        # the ends of gaps after which it is not settled which pods are there
        self.behind: list[float] = []
        self.silences = Silences()
        # the keys of the pods that are there
        self.there: set[str] = set()
        self.gone_at: dict[str, int] = {}
        self.counts: Counter[str] = Counter()
        self.named: dict[str, set[str]] = defaultdict(set)
        self.written_at: Optional[int] = None

    # --- what is placed ---

    def count(self, what: str, name: str = "") -> None:
        self.counts[what] += 1
        if name and len(self.named[what]) < 10:
            self.named[what].add(name)

    def is_silent(self, probe: str) -> bool:
        """Whether a success of a probe has no line of its own."""
        return not self.has_successes and probe not in self.told_probes

    def mark(self, life: Life, name: str, attempt: int, *found: list[str]) -> None:
        """Notes what of an instance was guessed."""
        self.timeline.mark(str(life.pod and life.pod.uid), name, attempt, tuple(one for each in found for one in each))

    def has_room(self, life: Life) -> bool:
        """Whether a trace can have one more pod; of traces one after the other each has the pods that are there."""
        if (len(self.there) if self.is_at_once else self.counts["pods"]) < MOST_PODS:
            return True
        self.count("pods left out", life.key)
        return False

    def is_there(self, key: str) -> bool:
        """Whether a pod of a name is there, so that no other one can come."""
        return key in self.there

    def arrive(self, life: Life, pod: Pod) -> int:
        """The second of a pod's line, after the second in which the pod before it under its name went."""
        self.count("pods")
        self.there.add(life.key)
        if life.is_made:
            self.count(WITHOUT_MANIFEST, life.key)
        self.timeline.templates[life.key] = life.is_template
        return self.timeline.place_arrival(pod, max(life.added_at, self.gone_at.get(life.key, -1) + 1.0))

    def depart(self, pod: Pod, moment: float) -> None:
        self.gone_at[pod.key] = self.timeline.place_departure(pod, moment)
        self.there.discard(pod.key)

    def decide(self, life: Life, pod: Pod, decision: Decision) -> int:
        """What the kubelet did to a pod; the second of its tick."""
        arrived = Recorded(pod, life.changes_from if life.arrived is None else life.arrived, life.changes_from)
        second = self.timeline.place_decision(replace(pod, decision=decision), decision.moment or 0.0, arrived)
        self.put_beside(life.key, life.failed_in(second, decision), FAILED, decision.word)
        self.count(f"pods {decision.kind}")
        return second

    def say(self, key: str, at: float, said: dict[str, Any]) -> None:
        """What the kubelet reported of a pod, which is in the first tick from then on."""
        self.put_beside(key, int(at), SAID, {"at": int(at), **said})

    def put_beside(self, key: str, second: int, member: str, value: Any) -> None:
        """A member of a pod's entry, in the first tick from a second on."""
        self.said += 1
        heapq.heappush(self.beside, (second, self.said, key, member, value))

    def sample(self, at: float, signal: str, available: int) -> None:
        """A round of the eviction manager has its own observations, whose tick is judged."""
        self.timeline.place_round(at)
        if signal in SIGNALS:
            self.timeline.place_signal(at, signal, available, True)

    def gap(self, since: float, until: float, clock_back: int = 0) -> None:
        """Nothing is known of the time between; there is a tick at its end. A clock may have gone back there."""
        self.silences.tell(since, until)
        self.timeline.gaps.append((int(since), int(until)))
        self.timeline.place_look(until)
        turned = {CLOCK_BACK: clock_back} if clock_back else {}
        self.gaps.append((int(until), {"since": int(since), "until": int(until), **turned}))
        self.behind.append(until)

    def hole(self, since: float, until: float) -> None:
        """Lines of the kubelet are missing there, which nothing showed before."""
        if not self.silences.is_told(since, until):
            self.count(HOLES)
            self.gap(since, until)

    def hole_between(self, since: float, until: float) -> Optional[float]:
        """The end of the hole in which a line between two moments was lost; None where no time between them is without
        lines, or where what was there is written."""
        found = self.silences.between(since, until)
        if found is None or found.until < self.timeline.next_second:
            return None
        self.hole(found.since, found.until)
        return found.until

    def doubt(self, lives: list[Life], before: float) -> None:
        """After gaps that end before a moment, the instances of pods that no line there names are as they were before,
        which is marked."""
        for until in [each for each in self.behind if each < before]:
            self.behind.remove(until)
            for life in lives:
                if life.arrived is not None and life.arrived < until and life.heard_at < until:
                    self.put_beside(life.key, int(until), marks.STATE, None)
                    if not life.is_doubted:
                        life.is_doubted = True
                        self.count(DOUBTED, life.key)

    # --- what is written ---

    def due(self, before: float) -> Iterator[tuple[list[str], bool]]:
        """The lines of all seconds before one, each with its members."""
        self.fill(before)
        for lines, has_tick in self.timeline.due(before):
            yield [self.with_members(line) for line in lines], has_tick

    def fill(self, before: float) -> None:
        """Ticks where nothing happened for some time."""
        wanted = sorted(second for second, tick in self.timeline.ticks.items() if tick.is_wanted and second < before)
        latest = self.written_at
        for second in wanted:
            while latest is not None and second - latest > self.every:
                latest = self.next_look(latest)
                self.timeline.place_look(latest)
            latest = second
        while latest is not None and before != float("inf") and before - latest > self.every:
            latest = self.next_look(latest)
            self.timeline.place_look(latest)
        self.written_at = latest

    def next_look(self, latest: int) -> int:
        """The second of the look after one: none is in a gap, which may be of years."""
        at = latest + self.every
        return next((until for since, until in self.timeline.gaps if since < at < until), at)

    def with_members(self, line: str) -> str:
        """A line with the members that are not the timeline's."""
        if line.startswith(POD_LINE):
            return line
        line = self.tick_with_gap(line) if self.gaps else line
        return self.tick_with_start(line) if self.started else line

    def tick_with_gap(self, line: str) -> str:
        """A tick's line with the gaps before it."""
        found = TICK_AT.match(line)
        at = -1 if found is None else int(found[1])
        gaps = [gap for second, gap in self.gaps if second <= at]
        if not gaps:
            return line
        back = sum(gap.get(CLOCK_BACK, 0) for gap in gaps)
        told = {**gaps[-1], "since": gaps[0]["since"], **({CLOCK_BACK: back} if back else {})}
        self.gaps = [each for each in self.gaps if each[0] > at]
        return f"{line[:-1]},{shown({'gap': told})[1:]}"

    def tick_with_start(self, line: str) -> str:
        """A tick's line with the moment at which the kubelet was started again, the last one up to then."""
        found = TICK_AT.match(line)
        at = -1 if found is None else int(found[1])
        seconds = [second for second in self.started if second <= at]
        if not seconds:
            return line
        self.started = [second for second in self.started if second > at]
        return f"{line[:-1]},{shown({STARTED_AT: seconds[-1]})[1:]}"

    def rows_due(self, at: int) -> Rows:
        """Takes what was reported of each pod up to a second. A later tick has what is more than a line takes."""
        due: Rows = {}
        left: list[tuple[int, int, str, str, Any]] = []
        said = 0
        while self.beside and self.beside[0][0] <= at:
            row = heapq.heappop(self.beside)
            second, _, key, member, value = row
            if member == SAID and said == MOST_SAID_AT_ONCE:
                left.append(row)
                continue
            rows = due.setdefault(key, [])
            said += member == SAID and sum(each[1] == SAID for each in rows) < MOST_SAID
            rows.append((second, member, value))
        for row in left:
            heapq.heappush(self.beside, row)
        return due

    @staticmethod
    def with_rows(key: str, entry: Optional[dict[str, Any]], due: Rows) -> dict[str, Any]:
        """A pod's entry with what was reported of it."""
        taken: dict[str, Any] = dict(entry or {"pod": key, "containers": []})
        if any(member == marks.STATE for _, member, _ in due[key]):
            taken["containers"] = [marks.doubted(listing) for listing in taken["containers"]]
        said = [value for _, member, value in due[key] if member == SAID]
        failed = {FAILED: value for _, member, value in due[key] if member == FAILED}
        guessed = {GUESSED: [marks.PHASE]} if any(member == marks.PHASE for _, member, _ in due[key]) else {}
        turns = [value for _, member, value in due[key] if member == READY_TURNS][-MOST_SAID:]
        return taken | failed | guessed | ({READY_TURNS: turns} if turns else {}) | (
            {SAID: said[:MOST_SAID]} if said else {})
