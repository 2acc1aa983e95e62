"""Where the lines go: one trace on standard output, or what folding.py has. A journal may show what a node line
reports after what the trace has by then, so the node line is made when it is written."""

from __future__ import annotations

from collections.abc import Callable
from typing import Any, Optional, TextIO

from replay_tools.cli.statuses import Status
from replay_tools.record.formats import LONGEST_LINE, MOST_BYTES, MOST_TICKS, shown


class Ended(Exception):
    """Nothing more is written, with a status, for a reason or none."""

    def __init__(self, status: Status, reason: Optional[str] = None) -> None:
        super().__init__(reason)
        self.status = status
        self.reason = reason


# the node line of a trace that begins at a second, or of the one trace of all
NodeLine = Callable[[Optional[int]], dict[str, Any]]


class Writer:
    """Takes what a node line reports, then the lines of each second."""

    is_begun = False

    def begin(self, node: NodeLine) -> None:
        raise NotImplementedError

    def write(self, lines: list[str], has_tick: bool) -> None:
        raise NotImplementedError

    def end(self) -> None:
        raise NotImplementedError


class Plain(Writer):
    """One trace, which is held until all that its node line reports is known; it ends where it has as many ticks or
    bytes as a trace may have."""

    def __init__(self, output: TextIO) -> None:
        self.output = output
        self.ticks_left = MOST_TICKS
        self.bytes_left = MOST_BYTES - LONGEST_LINE
        self.held: list[bytes] = []
        self.node: Optional[NodeLine] = None

    def begin(self, node: NodeLine) -> None:
        self.is_begun = True
        self.node = node

    def write(self, lines: list[str], has_tick: bool) -> None:
        if has_tick and self.ticks_left == 0:
            raise Ended(Status.DONE, f"the trace has reached {MOST_TICKS} ticks, the most that one takes")
        self.ticks_left -= has_tick
        data = "".join(f"{line}\n" for line in lines).encode()
        self.bytes_left -= len(data)
        if self.bytes_left < 0:
            raise Ended(Status.DONE, "the trace has reached 64 MiB, the most that one takes")
        self.held.append(data)

    def end(self) -> None:
        if self.node is not None:
            self.output.write(f"{shown(self.node(None))}\n")
        self.output.flush()
        self.output.buffer.writelines(self.held)
        self.output.buffer.flush()
