"""From journals to facts, in the order of their moments."""

from __future__ import annotations

from collections.abc import Callable, Iterator
from typing import Any

from replay_tools import entry
from replay_tools.cli.statuses import Status

from . import facts, keyed, printed
from .holes import FORWARD
from .files import Journal
from .journals import Counts, Hole, Line
from .messages import Message, messages_of
from .moments import Klog
from .ooms import OutOfMemories
from .ordering import in_order
from .overlaps import Overlaps
from .readiness import Readiness
from .runtimes import Runtime, moment_in
from .skipping import LONGEST_WORD, SKIPPING
from .units import Units

SUPPRESSED = "Suppressed "
# a clock that goes back by less is taken to stop until its time comes again; so often at most it goes back
BACK_SECONDS = 60
MOST_TURNS = 100
# a clock that goes forward by so much went wrong, or the node was off: nothing is known of a time so long
FORWARD_SECONDS = 86400
# how often a process may write again after another one
MOST_RETURNS = 4


class Processes:
    """The processes of the kubelet and the nodes whose lines are read. Of one node there is one process at a time."""

    def __init__(self, node: str | None, journals: int) -> None:
        self.node = node
        self.seen: set[int] = set()
        self.current: int | None = None
        self.nodes: set[str] = set()
        # two files of which one goes on where the other ends are read at once for a moment
        self.returns_left = MOST_RETURNS * journals

    def take(self, process: int) -> None:
        """Another process writes."""
        if process == self.current:
            return
        if process in self.seen:
            self.returns_left -= 1
        if self.returns_left < 0:
            raise entry.Fault("the lines of several kubelets are mixed: give the lines of one", Status.FAILED)
        self.seen.add(process)
        self.current = process

    def is_ours(self, node: str) -> bool:
        """Whether a line is of the node that is read."""
        if node and self.node is None:
            self.nodes.add(node)
            if len(self.nodes) > 1:
                named = " and ".join(sorted(self.nodes))
                raise entry.Fault(f"the journal has several nodes, {named}: give --node NAME", Status.FAILED)
        return not node or self.node is None or node == self.node or node.partition(".")[0] == self.node


class Reader:
    """Reads one journal."""

    def __init__(self, journal: Journal, klog: Klog, processes: Processes, place: int, overlaps: Overlaps,
                 units: Units) -> None:
        self.journal = journal
        self.units = units
        self.klog = klog
        self.processes = processes
        # which of several it is, and what these have both
        self.place = place
        self.overlaps = overlaps
        self.is_alone = len(overlaps.newest) == 1
        self.runtime = Runtime()
        self.process = -1
        self.node = ""
        self.now = 0.0
        # the newest moment since the clock went back, the moment of the item before, and how often it went back
        self.newest = self.before = 0.0
        self.turns = 0
        # whether moments are klog's own, and whether its messages are sentences, as a kubelet writes them up to 1.20
        self.uses_klog = False
        self.has_sentences = False

    def all_facts(self) -> Iterator[facts.Fact]:
        """Its facts by the moments that it has. A line whose moment is a little earlier than the previous line's gets
        the previous line's. A clock that went back is a fact, and from there on moments are as the clock has them."""
        for item in messages_of(self.journal.lines(self.klog, SKIPPING), self.klog, self.units):
            if item.node and not self.processes.is_ours(item.node):
                continue
            read: Callable[[Any], Iterator[facts.Fact]]
            if isinstance(item, Line):
                item.moment = moment_in(item.text) if item.moment is None else item.moment
                moment, read = item.moment, self.of_line
            else:
                moment, read = item.at, self.of_message
            if moment is not None and moment < self.newest - BACK_SECONDS and self.turns < MOST_TURNS:
                self.turns += 1
                since, self.newest, self.now = self.newest, moment, moment
                yield facts.TurnedBack(moment, 0, since)
            elif moment is not None:
                if 0 < self.newest < moment - FORWARD_SECONDS:
                    self.journal.counts.forwards += 1
                    yield facts.Missing(moment)
                self.before, self.newest = self.newest, max(self.newest, moment)
            if self.is_alone or moment is None or not self.is_repeated(item, moment):
                yield from read(item)
        self.overlaps.end(self.place)

    def is_repeated(self, item: Any, moment: float) -> bool:
        """Whether another journal has an item too, and it is read there."""
        if isinstance(item, Hole):
            return False
        is_message = isinstance(item, Message)
        key = (item.process, item.stamp, item.text, str(item.keys)) if is_message else (int(moment), item.text)
        return self.overlaps.is_repeated(self.place, moment, key, is_message)

    def of_message(self, message: Message) -> Iterator[facts.Fact]:
        if message.at < self.now:
            message.at = self.turned_back(message.at)
        self.now = message.at
        self.uses_klog = self.uses_klog or message.is_own_moment
        if message.process != self.process or (message.node and message.node != self.node):
            self.process, self.node = message.process, message.node
            self.processes.take(message.process)
            yield facts.Process(message.at, message.process, message.node)
        if message.is_structured and not message.text.startswith(printed.SENTENCES):
            reader = keyed.FORMS.get(message.text)
        else:
            reader = printed.FORMS.get(message.text[:LONGEST_WORD].partition(" ")[0])
            self.has_sentences = self.has_sentences or (reader is not None and not message.is_structured
                                                        and reader is not printed.of_flag)
        if reader is not None:
            yield from reader(message)

    def turned_back(self, at: float) -> float:
        """A moment before the newest: of messages of one instant, else of a clock that went back, which is counted."""
        if self.now - at > 1:
            self.journal.counts.back += 1
        return self.now

    def of_line(self, line: Line) -> Iterator[facts.Fact]:
        if SUPPRESSED.encode() in line.text and b"messages from" in line.text:
            self.journal.counts.suppressed += 1
            yield facts.Missing(self.moment_of(line))
            return
        if isinstance(line, Hole):
            is_forward = line.why == FORWARD
            self.journal.counts.forwards += is_forward
            self.journal.counts.holes += not is_forward
            yield facts.Missing(self.moment_of(line), None if is_forward else self.before)
            return
        # a kubelet's own file has no lines of a runtime: what looks so is of a message of several lines
        if not self.uses_klog:
            yield from self.runtime.facts_of(line)

    def moment_of(self, line: Line) -> float:
        return max(self.now, line.moment or self.now)


def read_all(journals: list[Journal], klog_of: Callable[[Journal], Klog], node: str | None, units: Units) -> tuple[
        Iterator[facts.Fact], list[Reader]]:
    """The facts of several journals by their moments."""
    processes, overlaps = Processes(node, len(journals)), Overlaps(len(journals))
    readers = [Reader(journal, klog_of(journal), processes, place, overlaps, units)
               for place, journal in enumerate(journals)]
    return OutOfMemories().over(Readiness().over(in_order(readers))), readers


def all_counts(journals: list[Journal]) -> Counts:
    """What was read of all of them."""
    total: Any = Counts()
    for journal in journals:
        for name in ("size", "lines", "cut", "foreign", "suppressed", "back", "holes", "forwards"):
            setattr(total, name, getattr(total, name) + getattr(journal.counts, name))
        total.faults += journal.counts.faults
    return total
