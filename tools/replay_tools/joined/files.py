"""Which files are meant: traces or reports by their names, or the ones of a folder, and of these the ones of a time."""

from __future__ import annotations

import glob
import os
import re
from dataclasses import dataclass
from typing import TYPE_CHECKING

from replay_tools import dates, entry, outside, report as reports

if TYPE_CHECKING:
    from replay_tools.joined import asked

# as kubelet-replay record --into names them
NAME = re.compile(r"(?P<node>.+)[.](?P<stamp>\d{4}-\d\d-\d\dT\d\d-\d\d-\d\dZ)(?:_(?P<number>[1-9]\d{0,8}))?"
                  r"[.]trace(?:[.]gz|[.]part)?", re.ASCII)
PART = ".trace.part"
ENDINGS = (".trace", ".trace.gz", PART)
MOST_NAMED = 5


@dataclass
class Source:
    """A file that is meant; what its name shows of its node and its begin, where it shows it."""

    path: str
    is_named: bool
    """by itself, and not by its folder"""
    node: str | None = None
    begun: int | None = None
    number: int = 1

    @property
    def name(self) -> str:
        return os.path.basename(self.path)

    @property
    def shown(self) -> str:
        return self.path if self.is_named else self.name

    @property
    def is_part(self) -> bool:
        return self.path.endswith(PART)


def source_of(path: str, is_named: bool) -> Source:
    node, begun, number = parts_of(os.path.basename(path))
    return Source(path, is_named, node, begun, number)


def parts_of(name: str) -> tuple[str | None, int | None, int]:
    """The node, the begin and the number that a name shows; None for what it does not show."""
    parts = NAME.fullmatch(name)
    begun = None if parts is None else begun_of(parts["stamp"])
    return (None, None, 1) if parts is None or begun is None else (parts["node"], begun, int(parts["number"] or 1))


def begun_of(stamp: str) -> int | None:
    """The moment of a stamp; None where there is no such time."""
    return outside.moment(dates.stamped(stamp))


def sources_of(asked: asked.Asked) -> list[Source]:
    """The files that are meant, in their order as far as their names show it. Raises Fault where there are none."""
    found = []
    for named in asked.named:
        if os.path.isdir(named):
            found += below(named, asked)
        elif os.path.exists(named):
            found.append(source_of(named, True))
        else:
            matched = sorted(path for path in glob.glob(named) if not os.path.isdir(path))
            if not matched:
                raise entry.Fault(f"no trace found: {named} is no file and no folder, and matches nothing")
            found += [source_of(path, True) for path in matched]
    return [source for source in found if source.is_named or source.path not in
            {other.path for other in found if other.is_named}]


def below(folder: str, asked: asked.Asked) -> list[Source]:
    """The traces of a folder that are of one node and of the time that is asked for."""
    try:
        names = [name for name in os.listdir(folder) if name.endswith(ENDINGS)]
    except OSError as fault:
        raise entry.Fault(f"{folder} can't be read: {fault.strerror}") from None
    # a part that is packed already was only not yet removed
    names = [name for name in names if not (name.endswith(PART) and f"{name[: -len('.part')]}.gz" in names)]
    if not names:
        raise entry.Fault(f"{folder} has no trace: no file in it ends with .trace, .trace.gz or .trace.part")
    found = [source_of(os.path.join(folder, name), False) for name in sorted(names)]
    return of_time(of_node(found, folder, asked.node), asked)


def of_node(found: list[Source], folder: str, node: str | None) -> list[Source]:
    """The traces of a node, by their names. If a name does not show the node, the trace itself shows it later."""
    nodes = sorted({source.node for source in found if source.node is not None})
    if node is None and len(nodes) > 1:
        raise entry.Fault(f"{folder} has traces of {len(nodes)} nodes, {listed(nodes)}: choose one with --node")
    if node is None or any(source.node is None for source in found):
        return [source for source in found if node is None or source.node in (None, node)]
    kept = [source for source in found if source.node == node]
    if not kept:
        raise entry.Fault(f"{folder} has no trace of {node}; it has traces of {listed(nodes)}")
    return kept


def listed(names: list[str]) -> str:
    more = f" and {len(names) - MOST_NAMED} more" if len(names) > MOST_NAMED else ""
    return ", ".join(names[:MOST_NAMED]) + more


def of_time(found: list[Source], asked: asked.Asked) -> list[Source]:
    """Those that may have something of the time that is asked for: each lasts to the begin of the next at most."""
    dated = sorted(((source.begun, source) for source in found if source.begun is not None),
                   key=lambda each: (each[0], each[1].number))
    ends = [*(begun for begun, _ in dated[1:]), None]
    kept = [source for (begun, source), end in zip(dated, ends)
            if (asked.first is None or end is None or end >= asked.first)
            and (asked.last is None or begun <= asked.last)]
    if dated and not kept and asked.last is not None:
        at = reports.moment_text(asked.last, asked.is_utc)
        first = reports.moment_text(dated[0][0], asked.is_utc)
        raise entry.Fault(f"there is no trace by {at}: the first begins at {first}")
    return kept + [source for source in found if source.begun is None]
