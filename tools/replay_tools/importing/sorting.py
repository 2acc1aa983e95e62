"""Lines that a journal does not have in the order of their moments: the newest first, as of `journalctl -r` and of most
stores of logs, or in no order. They are held and sorted, up to a bound."""

from __future__ import annotations

from collections.abc import Iterable, Iterator
from dataclasses import dataclass, field
from typing import Optional

from replay_tools import entry
from replay_tools.cli.statuses import Status

from .journals import SKIPPED, Hole, Line
from .messages import HEADER, json_message
from .moments import Klog
from .runtimes import moment_in

# so much text is held where the order is not known, and at most
SEEN_BYTES, MOST_BYTES = 16 << 20, 256 << 20
# a line that is earlier by less than that is in order
NEAR_SECONDS = 60


@dataclass
class Group:
    """A line with its moment, and the lines that go on with it."""
    moment: float
    place: int
    lines: list[Line] = field(default_factory=list)


def moment_of(line: Line, klog: Klog) -> Optional[float]:
    """A line's moment, or else the moment of klog's header."""
    if line.moment is not None:
        return line.moment
    if line.text.startswith(b"{"):
        made = json_message(line.text, line)
        return None if made is None else made.moment if isinstance(made, Line) else made.at
    found = HEADER.match(line.text)
    if found is None:
        return moment_in(line.text)
    second = klog.second_of(found[1])
    return None if second is None else second + float(found[2])


def is_newest_first(lines: Iterable[Line], klog: Klog) -> bool:
    """Whether most of the lines with which a journal begins are before the one in front of them."""
    moments = [at for line in lines if line is not SKIPPED and (at := moment_of(line, klog)) is not None]
    falls = sum(after < before for before, after in zip(moments, moments[1:]))
    rises = sum(after > before for before, after in zip(moments, moments[1:]))
    return falls > rises and falls > 1


def groups_of(lines: Iterable[Line], klog: Klog, is_reversed: bool) -> Iterator[Group]:
    """Lines with those that go on with them, but those that are not read and holes."""
    group: Optional[Group] = None
    for place, line in enumerate(lines):
        if line is SKIPPED or isinstance(line, Hole):
            continue
        at = moment_of(line, klog)
        if at is None and group is not None:
            group.lines.append(line)
            continue
        if group is not None:
            yield group
        group = Group(at or 0.0, -place if is_reversed else place, [line])
    if group is not None:
        yield group


def oldest_first(lines: Iterable[Line], klog: Klog, name: str, is_reversed: bool) -> Iterator[Line]:
    """The lines of a journal by their moments."""
    held: list[Group] = []
    size, newest, is_ordered = 0, 0.0, not is_reversed
    groups = groups_of(lines, klog, is_reversed)
    for group in groups:
        held.append(group)
        size += sum(len(line.text) for line in group.lines)
        is_ordered = is_ordered and group.moment >= newest
        newest = max(newest, group.moment)
        if size > (SEEN_BYTES if is_ordered else MOST_BYTES):
            break
    if size > MOST_BYTES and not is_ordered:
        raise entry.Fault(f"{name} has its lines in another order than they were written, and more than is sorted here "
                          f"({MOST_BYTES >> 20} MiB): give it the oldest first, as journalctl does without -r",
                          Status.FAILED)
    held.sort(key=lambda each: (each.moment, each.place))
    for group in held:
        yield from group.lines
    yield from in_order(groups, newest, name)


def in_order(groups: Iterator[Group], newest: float, name: str) -> Iterator[Line]:
    """The lines that follow, which were in order so far."""
    for group in groups:
        if group.moment < newest - NEAR_SECONDS:
            raise entry.Fault(f"{name} is in the order of its moments first, and in another later: sort it, the oldest "
                              "first", Status.FAILED)
        newest = max(newest, group.moment)
        yield from group.lines
