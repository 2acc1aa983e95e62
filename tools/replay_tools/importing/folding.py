"""Traces in a folder, as the recorder writes them. What the recorder has is read for these alone."""

from __future__ import annotations

import json
import os
from collections.abc import Callable, Iterable
from typing import Any, Optional, TYPE_CHECKING

from replay_tools import entry
from replay_tools.cli.statuses import Status
from replay_tools.record.folder import Folder, Refused, made, may_be_made
from replay_tools.record.formats import MOST_TICKS, shown
from replay_tools.record.part import Ahead
from replay_tools.record.traces import Traces

from .placing import CLOCK_BACK, STARTED_AT, TICK_AT
from .thresholds import MEMBERS
from .writing import Ended, NodeLine, Writer

if TYPE_CHECKING:
    from replay_tools.record.traces import Due

# what is imported is not taken away for its age or its size
KEPT_SECONDS, KEPT_BYTES = 1 << 36, 1 << 60
# a tick after a gap has this member
GAP = '"gap":{'
MOMENTS = ("at", "since", "until", STARTED_AT)


def thresholds_in(node: dict[str, Any]) -> dict[str, Any]:
    return {name: value for name, value in node.items() if name in MEMBERS}


def set_back(value: Any, seconds: int) -> Any:
    """A record of a trace with moments that are so much earlier."""
    if isinstance(value, list):
        return [set_back(each, seconds) for each in value]
    if not isinstance(value, dict) or value.get("kind") == "pod":
        return value
    return {name: inner - seconds if name in MOMENTS and isinstance(inner, int) else set_back(inner, seconds)
            for name, inner in value.items()}


class NoneAhead(Ahead):
    """Keeps nothing of what is about to be written: after a crash the journals are still there."""

    def keep(self, name: str, size: int, data: bytes) -> None:
        """Keeps nothing."""


class ImportedTraces(Traces):
    """Traces that are not recorded, so that nothing is written ahead. Who made a line may know its values."""

    def __init__(self, folder: Folder, each: int, most_ticks: int, say: Callable[..., None],
                 known: Callable[[str], dict[str, Any]]) -> None:
        super().__init__(folder, each, most_ticks, say)
        self.known = known

    def record_of(self, line: str) -> dict[str, Any]:
        return self.known(line)

    def write_due(self, due: Iterable[Due]) -> None:
        for lines, _ in due:
            self.take(lines)
        self.finish()

    def write_ahead(self, due: list[Due]) -> None:
        """Writes nothing."""


class Folded(Writer):
    """Traces in a folder, each whole by itself. Nothing is made there before there is something to write."""

    def __init__(self, path: str, each: int, say: Callable[..., None],
                 record_of: Callable[[str], dict[str, Any]]) -> None:
        if not os.path.isdir(path) and not may_be_made(path):
            raise entry.Fault(f"--into: '{path}' is no folder")
        self.path = path
        self.each = each
        self.say = say
        self.record_of = record_of
        self.traces: Optional[Traces] = None
        # by how much moments are earlier than they are given, since the clock went back
        self.back = 0
        self.node: Optional[NodeLine] = None
        # the thresholds of the node line
        self.thresholds: dict[str, Any] = {}
        # when the kubelet was restarted, where the trace that begins with that has no tick of the journal yet
        self.started: Optional[int] = None

    def begin(self, node: NodeLine) -> None:
        self.node = node
        self.begin_in(node(0))

    def begin_in(self, node: dict[str, Any]) -> None:
        try:
            made(self.path)
            folder = Folder(self.path, node["name"], KEPT_SECONDS, KEPT_BYTES, self.say)
            folder.ahead = NoneAhead(self.path, node["name"])
        except Refused as refused:
            raise entry.Fault(str(refused), Status.FAILED) from None
        if folder.traces():
            raise entry.Fault(f"--into: '{self.path}' has traces of {node['name']} already: take an empty folder",
                              Status.FAILED)
        self.traces = ImportedTraces(folder, self.each, MOST_TICKS, self.say, self.record_of)
        self.traces.write([shown(node)])
        self.thresholds = thresholds_in(node)
        self.is_begun = True

    def know(self, second: int, is_behind_gap: bool) -> None:
        """Takes the node line as it is at a second. If it has other thresholds than the trace, the trace ends, and the
        next one begins with them; after a gap one begins in any case."""
        assert self.traces is not None and self.node is not None
        node = self.node(second)
        if thresholds_in(node) != self.thresholds:
            self.thresholds = thresholds_in(node)
            self.traces.write([shown(node)])
            at = self.traces.standing.at
            if self.traces.part is not None and at is not None and not is_behind_gap:
                self.traces.turn(at)

    def write(self, lines: list[str], has_tick: bool) -> None:
        assert self.traces is not None
        has_gap = any(GAP in line for line in lines)
        second = next((int(found[1]) for line in lines if (found := TICK_AT.match(line)) is not None), None)
        if second is not None:
            self.know(second, has_gap)
        if has_gap:
            lines = self.begin_anew(lines)
        elif self.back:
            lines = self.by_the_clock(lines)
        if lines:
            self.traces.write_due([(list(map(self.with_start, lines)), has_tick)])
        if self.traces.is_lost:
            raise Ended(Status.FAILED, f"--into: '{self.path}' takes no more")

    def with_start(self, line: str) -> str:
        """The first tick of the journal in a trace that begins as the kubelet was restarted has that moment."""
        if self.started is None or TICK_AT.match(line) is None:
            return line
        started, self.started = self.started, None
        return f"{line[:-1]},{shown({STARTED_AT: started})[1:]}"

    def by_the_clock(self, lines: list[str]) -> list[str]:
        """Lines with the moments that the clock had."""
        return [shown(set_back(json.loads(line), self.back)) for line in lines] if self.back else lines

    def begin_anew(self, lines: list[str]) -> list[str]:
        """Ends the trace before a gap, and begins one after it that follows none; the lines that are left."""
        assert self.traces is not None
        records = [json.loads(line) for line in lines]
        place = next(place for place, record in enumerate(records) if record["kind"] == "tick")
        gap = records[place].get("gap")
        if gap is None:
            return self.by_the_clock(lines)
        before, self.back = self.back, self.back + gap.get(CLOCK_BACK, 0)
        records = [set_back(record, self.back) for record in records]
        records[place]["gap"]["since"] = gap["since"] - before
        self.started = records[place].get(STARTED_AT)
        if self.traces.standing.at is None:
            return [shown(record) for record in records]
        self.traces.end()
        for record in records[:place + 1]:
            self.traces.standing.take(record)
        self.traces.last = self.traces.until = None
        self.traces.begin(records[place]["at"])
        for record in records[place + 1:]:
            self.traces.take_next([record], f"{shown(record)}\n".encode())
        return []

    def end(self) -> None:
        if self.traces is not None:
            self.traces.end()
            self.traces.pack()
            self.traces.folder.ahead.drop()
