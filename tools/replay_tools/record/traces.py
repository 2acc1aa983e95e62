"""Traces of one node, one after the other: which lines are in which, and where the one ends and the next begins."""

from __future__ import annotations

import contextlib
import json
from collections.abc import Callable, Iterable
from typing import Any, TYPE_CHECKING

from .formats import MOST_BYTES, MOST_PODS
from .lines import line_of
from .packing import Packing
from .writing import Writing

if TYPE_CHECKING:
    from .folder import Folder
    from .part import Part

    # the lines of a second, and whether a tick is among them
    Due = tuple[list[str], bool]

# a trace has at most one of so many parts of the bytes that are kept
PARTS = 4
POD_LINE = '{"kind":"pod"'


class Traces(Writing):
    """What is written, as traces in a folder that end and begin; each has at most so many seconds and ticks."""

    def __init__(self, folder: Folder, each: int, most_ticks: int, say: Callable[..., None]) -> None:
        most_bytes = min(MOST_BYTES, folder.most // PARTS)
        super().__init__(folder, Packing(folder, each, (PARTS - 2) * most_bytes, say), say)
        self.each = each
        self.most_ticks = most_ticks
        self.most_bytes = most_bytes
        # what the pods' statuses report at the first poll
        self.probed: dict[str, Any] = {}

    # --- what comes ---

    def write(self, lines: list[str]) -> None:
        """The node line; a trace's own is written with its first tick."""
        for line in lines:
            self.standing.take(json.loads(line))

    def write_due(self, due: Iterable[Due]) -> None:
        self.take_look(list(due), None, [])

    def take_look(self, due: list[Due], second: int | None, ahead: list[Due]) -> None:
        """Takes what a poll settles, all of which is before a second, and what it shows that may still change. First
        all of it is written at once, in place of what the poll before showed so: a crash then loses nothing of either,
        wherever the rotations between traces are. Each trace that has ended is packed after that."""
        self.write_ahead([*due, *ahead])
        for lines, _ in due:
            if lines:
                self.take(lines)
        if second is not None:
            self.settle(second)
        self.write_ahead(ahead)
        self.finish()

    def take(self, lines: list[str]) -> None:
        """Takes the lines of a second, one of which is a tick."""
        records = [self.record_of(line) for line in lines]
        if self.standing.at is None:
            count = next(place for place, record in enumerate(records) if record["kind"] == "tick") + 1
            self.take_first(records[:count], lines[:count])
            records, lines = records[count:], lines[count:]
        self.take_next(records, "".join(f"{line}\n" for line in lines).encode())

    def record_of(self, line: str) -> dict[str, Any]:
        """A line as its values."""
        return json.loads(line)

    def take_first(self, records: list[dict[str, Any]], lines: list[str]) -> None:
        """Takes the lines up to the first tick of all. It shows what was before it too, where the pods' statuses report
        that."""
        for record in records:
            self.standing.take(record)
        has_past = self.standing.assume(self.probed)
        self.begin(records[-1]["at"], None if has_past else [line_of(self.standing.node), *lines])

    def take_next(self, records: list[dict[str, Any]], data: bytes) -> None:
        """Takes lines of a second after the first tick of all."""
        part, at = self.part, self.standing.at
        ticks = [record["at"] for record in records if record["kind"] == "tick"]
        second = ticks[0] if ticks else at or 0
        arrivals = sum(record["kind"] == "pod" for record in records)
        if part is None or at is None:
            self.go_on(second)
        elif (border := self.border(part, second)) is not None:
            self.turn(border)
        elif self.is_full(part, len(data), arrivals):
            self.turn(at)
        written = self.put(data, second)
        if written is not None:
            written.ticks += len(ticks)
            written.pods += arrivals
            self.until = second
        for record in records:
            self.standing.take(record)

    def settle(self, second: int) -> None:
        """All before a second is written: a trace whose time is over ends, though nothing happens."""
        part = self.part
        border = None if part is None else self.border(part, second)
        if border is not None:
            self.turn(border)
        elif self.is_lost:
            self.go_on(second)

    def write_ahead(self, due: list[Due]) -> None:
        """Writes what is seen and not settled, where there is room for it. Where the trace has no place for it, and a
        new one has, that begins."""
        part, at = self.part, self.standing.at
        if part is None or at is None:
            return
        lines = [line for lines, _ in due for line in lines]
        data = "".join(f"{line}\n" for line in lines).encode()
        arrivals, ticks = sum(line.startswith(POD_LINE) for line in lines), sum(has_tick for _, has_tick in due)
        if self.is_full(part, len(data), arrivals, ticks) and self.fits_anew(part, len(data), arrivals, ticks):
            self.turn(at)
        part = self.part
        if part is not None and not self.is_full(part, len(data), arrivals, ticks) \
                and self.has_room_for(len(data)):
            with contextlib.suppress(OSError):
                part.foresee(data)

    # --- where a trace ends ---

    def border(self, part: Part, second: int) -> int | None:
        """The newest rotation before a second, after the begin of a trace; or None."""
        border = (second - 1) // self.each * self.each
        return border if border > part.begun else None

    def is_full(self, part: Part, size: int, arrivals: int, ticks: int = 1) -> bool:
        return (part.ticks + ticks > self.most_ticks or part.size + size > self.most_bytes
                or part.pods + arrivals > MOST_PODS)

    def fits_anew(self, part: Part, size: int, arrivals: int, ticks: int) -> bool:
        """Whether a trace that begins now would have place for so much, and as much again."""
        return (part.size > part.head and 2 * ticks < self.most_ticks
                and part.head + 2 * size < self.most_bytes and len(self.standing.pods) + arrivals <= MOST_PODS)
