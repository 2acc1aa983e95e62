"""Runs the importer: from the words to the lines that are written."""

from __future__ import annotations

import fcntl
import gc
import os
import signal
import stat
import sys
import termios
import time
from argparse import Namespace

from replay_tools import entry, outside
from replay_tools.cli.statuses import Status
from replay_tools.joined import asked
from replay_tools.record.formats import name_fault
from replay_tools.record.lines import TooLong

from . import events, evidence, manifests, moments, reading, summary
from .importer import Importer, refuse_strangers
from .files import MOST, STANDARD_INPUT, Journal
from .journals import Counts
from .moments import Klog
from .placing import Placing
from .progress import Progress
from .units import Units
from .writing import Ended, NodeLine, Plain, Writer


MOST_NOTES, MOST_UNITS = 100, 5
SINCE = "1h"
# so long an answer of the cluster is waited for, unless another time is given
SECONDS = 60.0
# most of what is made lives on for ten minutes of the journal, so cycles are looked for more seldom
MADE_BETWEEN_LOOKS = 100_000


def run(words: Namespace) -> int:
    """Imports what the words name, or what the cluster answers of a node; the status."""
    if not words.named:
        if words.since is not None or words.kubectl:
            raise entry.Fault("--since and kubectl's options go with NODE (see --help)")
        if words.timeout is not None:
            raise entry.Fault("--timeout goes with NODE (see --help)")
        words.optional, words.given = [], True
        return imported(words)
    if len(words.named) > 1 or words.journal or words.node is not None:
        raise entry.Fault("it takes one NODE, or --journal and --node in its place (see --help)")
    [node] = words.named
    if name_fault(node) is not None:
        raise entry.Fault(f"NODE is a node's name, not '{node}'")
    since = asked.since_of(words.since or SINCE, time.time())
    # what is kept goes with an end that is asked for, too
    for number in (signal.SIGTERM, signal.SIGHUP):
        signal.signal(number, lambda number, _: sys.exit(128 + number))
    import tempfile
    from . import cluster
    with tempfile.TemporaryDirectory(prefix="import-") as folder:
        found = cluster.Cluster(folder, node, since, words.kubectl, words.timeout or SECONDS).fetch()
        words.node, words.journal, words.given = node, found.journals, bool(words.pods)
        words.optional, words.pods = found.pods, [*found.pods, *words.pods]
        words.events = [*found.events, *words.events]
        try:
            return imported(words)
        except Nothing:
            raise entry.Fault(f"what the cluster answers is no log of the kubelet of {node}", Status.FAILED,
                              cluster.instead(node, since)) from None


class Nothing(entry.Fault):
    """No line of the journals was understood."""


def imported(words: Namespace) -> int:
    """Imports journals; the status."""
    gc.set_threshold(MADE_BETWEEN_LOOKS)
    shift = zone_of(words.zone)
    if words.node is not None and name_fault(words.node) is not None:
        raise entry.Fault(f"--node takes a node's name, not '{words.node}'")
    known = manifests_of(words)
    journals = journals_of(words)
    sources = [] if journals else evidence.of_what(words.events, words.audit)
    placing = Placing(most_pods_at_once=words.into is not None)
    writer = writer_of(words, placing)
    notes = Notes()
    importer = Importer(known, placing, notes)
    units = Units(tuple(words.unit))
    found, readers = reading.read_all(journals, lambda journal: Klog(words.year, shift, journal.written), words.node,
                                      units)
    if sources:
        stream = evidence.read_all(words.events, words.audit, known, words.node)
    else:
        stream = events.beside(found, events.read_all(words.events)) if words.events else found
    progress = Progress(journals)
    try:
        for lines, has_tick in importer.take_all(progress.over(stream)):
            if not writer.is_begun:
                if words.given:
                    refuse_strangers(importer)
                writer.begin(node_line_of(importer, name_of(words, importer, known), sources))
            writer.write(lines, has_tick)
        if sources:
            refuse_no_evidence(importer, sources)
        else:
            refuse_nothing(importer, journals, units)
        progress.end()
        writer.end()
    except Ended as ended:
        progress.end()
        writer.end()
        if ended.status:
            raise entry.Fault(str(ended.reason), ended.status) from None
        entry.say(f"{ended.reason}; --into writes several")
    except TooLong as fault:
        progress.end()
        raise entry.Fault(str(fault), Status.FAILED) from None
    for line in notes.said:
        entry.say(line)
    counts = reading.all_counts(journals)
    for line in evidence.lacks(sources) if sources else summary.lines_of(importer, readers, counts, words):
        entry.say(line)
    return Status.DONE


def writer_of(words: Namespace, placing: Placing) -> Writer:
    if words.into is None:
        return Plain(sys.stdout)
    # the recorder is as much to read as all the rest, which one trace does not need
    from .folding import Folded
    placing.timeline.keeps_ticks = True
    return Folded(words.into, words.each, entry.say, placing.timeline.record_of)


class Notes:
    """The lines that are printed at the end, each text once. If nothing is written, these alone are printed."""

    def __init__(self) -> None:
        self.said: dict[str, None] = {}

    def __call__(self, text: str, *_: object) -> None:
        if len(self.said) < MOST_NOTES:
            self.said[text] = None


def zone_of(text: str | None) -> int:
    shift = moments.shift_of(text)
    if shift is None:
        raise entry.Fault(f"--zone takes a zone as +02:00 or Z, not '{text}'")
    return shift


def manifests_of(words: Namespace) -> manifests.Manifests:
    """What --pods and --audit have."""
    known = manifests.Manifests()
    for word, paths in (("--pods", words.pods), ("--audit", words.audit)):
        for path in paths:
            before = known.taken
            for value in manifests.read(path, word):
                known.take(value)
            if known.taken == before and word == "--pods" and path not in words.optional:
                raise entry.Fault(f"--pods: '{path}' has no manifest of a pod, or of what owns one")
    return known


def journals_of(words: Namespace) -> list[Journal]:
    """The journals that are named, or the one of standard input, which may be a pipe that nobody closes. If a trace can
    be made from the rest, standard input is read only if it is named."""
    if not words.journal and (words.events or words.audit):
        if has_input():
            entry.say(f"standard input is not read: for a journal of it pass --journal {STANDARD_INPUT}")
        return []
    paths = words.journal or [STANDARD_INPUT]
    if STANDARD_INPUT in paths and entry.standard_input().isatty():
        raise entry.Fault("it needs a journal: --journal FILE, or one on standard input (see --help)")
    if len(set(paths)) < len(paths):
        raise entry.Fault("--journal has a file twice (see --help)")
    return [Journal(path, Counts(), words.most or MOST, words.node) for path in paths]


def has_input() -> bool:
    """Whether something waits on standard input, of which nothing is taken: it may be another command's."""
    try:
        descriptor = entry.standard_input().fileno()
        found = os.fstat(descriptor)
        if stat.S_ISREG(found.st_mode):
            return found.st_size > os.lseek(descriptor, 0, os.SEEK_CUR)
        if stat.S_ISFIFO(found.st_mode):
            return any(fcntl.ioctl(descriptor, termios.FIONREAD, bytes(4)))
    except (entry.Fault, OSError):
        pass
    return False


def name_of(words: Namespace, importer: Importer, known: manifests.Manifests) -> str:
    """The node's name: as it was given, as lines have it, or as all manifests do."""
    nodes = known.nodes if len(known.nodes) == 1 else set()
    name = words.node or importer.node or next(iter(nodes), None)
    if name is None or not outside.is_name(name):
        raise entry.Fault("no line names the node: give --node NAME")
    return str(name)


def named(units: Units) -> str:
    """The first of the units that have lines of klog's form, and are not the kubelet's."""
    names = [f"'{name}'" for name in units.others]
    return ", ".join(names[:MOST_UNITS]) + (", .." if len(names) > MOST_UNITS else "")


def node_line_of(importer: Importer, name: str, sources: list[str]) -> NodeLine:
    """The node line, asked for as it is to be written; with what the trace is made of, where that is no journal."""
    more = {evidence.MEMBER: sources} if sources else {}
    return lambda second: summary.node_line(importer, name, second) | more


def refuse_no_evidence(importer: Importer, sources: list[str]) -> None:
    """Rejects Events and audit logs that have nothing of a pod."""
    if not importer.placing.counts["met"]:
        raise entry.Fault(f"nothing in {' and '.join(f'--{each}' for each in sources)} is of a pod of the node",
                          Status.FAILED)


def refuse_nothing(importer: Importer, journals: list[Journal], units: Units) -> None:
    """Rejects journals of which nothing was understood."""
    if units.others and (importer.begun is None or not importer.placing.counts["met"]):
        raise Nothing(f"no line is of the kubelet's unit; lines of its form are of {named(units)}: if one of these "
                      "runs the kubelet, as k3s does, pass --unit with its name", Status.FAILED)
    if importer.begun is None:
        faults = [fault for journal in journals for fault in journal.counts.faults]
        names = ", ".join(journal.name for journal in journals)
        raise Nothing(faults[0] if faults else f"no line of {names} is a kubelet's or a runtime's",
                      Status.FAILED)
    if not importer.placing.counts["met"]:
        raise entry.Fault("the journal names no pod of the node", Status.FAILED)

