"""What is printed of a journal at the end: what it had and what it lacked, by kind; and the node line."""

from __future__ import annotations

import re
import time
from argparse import Namespace
from collections import Counter
from typing import Any, TYPE_CHECKING

from replay_tools import entry
from replay_tools.signals import SIGNALS

from .placing import (DOUBTED, FILLED, HOLES, NAMED_LATE, PROBED, RESTARTS, TURNS, UNKNOWN_PHASES,
                      WITHOUT_MANIFEST)
from .thresholds import HARD, SOFT

if TYPE_CHECKING:
    from .importer import Importer
    from .journals import Counts
    from .overlaps import Overlaps
    from .reading import Reader

# a kind of fact: what it is called, and what it means where there is none
KINDS = {
    "Turned": ("starts and exits", "no starts and exits: a kubelet writes them from -v=2 on, containerd and CRI-O in "
               "their own journals (--journal)"),
    "Killing": ("kills", None), "Probed": ("results of probes", None), "Waits": ("waits", None),
    "Created": ("names of starts", None), "Deleted": ("deletions", None), "Happened": ("events", None),
    "Evicted": ("lines of evictions", None), "Refused": ("refusals", None),
    "Ended": ("lines of pods that were ended or not admitted", None),
    "Observed": ("observations of rounds", "no rounds of the eviction manager (a kubelet writes them from -v=3 on): "
                 "no signals")}
NAMED = 3


def node_line(importer: Importer, name: str, second: int | None) -> dict[str, Any]:
    """The node line of a trace that begins at a second, or of the one trace of all, with the thresholds that the
    journal shows."""
    known = importer.capacity
    thresholds = importer.thresholds.of_all(known)[0] if second is None else importer.thresholds.of(second, known)
    capacity = {signal: known[signal] for signal in SIGNALS if signal in known}
    line: dict[str, Any] = {"kind": "node", "version": importer.placing.format.version, "name": name,
                            "capacity": capacity, **thresholds, "evictionsRecorded": True, "imported": True}
    return line | ({"recordsKubelet": True} if importer.process is not None else {})


def lines_of(importer: Importer, readers: list[Reader], counts: Counts, words: Namespace) -> list[str]:
    """What is printed, a line each."""
    kinds, placed = importer.kinds, importer.placing.counts
    span = f"{stamp(importer.begun)} to {stamp(importer.now)}"
    had = [f"{called} {kinds[kind]}" for kind, (called, _) in KINDS.items() if kinds[kind]]
    said = [f"{entry.counted(counts.lines, 'line')}, {counts.size / 1e6:.1f} MB, {span}: "
            f"{entry.counted(placed['pods'], 'pod')}; {', '.join(had)}"]
    if any(reader.uses_klog or reader.journal.form == "syslog" for reader in readers):
        year = time.gmtime(importer.begun or 0).tm_year
        said.append(f"its moments have neither a year nor a zone: taken as {words.year or year} and "
                    f"{words.zone or 'UTC'} (--year, --zone)")
    has_sentences = any(reader.has_sentences for reader in readers)
    return (said + of_overlaps(readers[0].overlaps) + lacking(importer, kinds, placed, has_sentences)
            + of_counts(counts))


def of_overlaps(overlaps: Overlaps) -> list[str]:
    """What several journals have both."""
    said = []
    if overlaps.repeated:
        said.append(f"{entry.counted(overlaps.repeated, 'message')} that a journal has too which was read before: each "
                    "counts once")
    if overlaps.alone:
        count = entry.counted(overlaps.alone, "message")
        said.append(f"{count} in one alone of journals that both have others of that time: they contradict each other, "
                    "and what each has is taken")
    return said


def stamp(moment: float | None) -> str:
    return time.strftime("%Y-%m-%dT%H:%M:%SZ", time.gmtime(moment or 0))


def lacking(importer: Importer, kinds: Counter[str], placed: Counter[str], has_sentences: bool) -> list[str]:
    """What the journal lacks, and what was made in its place."""
    said = [without for kind, (_, without) in KINDS.items() if without is not None and not kinds[kind]]
    lost, known = placed["exits without their code"], placed["exits with their code"]
    if lost:
        exits = entry.counted(lost + known, "exit")
        written = "a kubelet up to 1.20 writes codes from -v=3 on" if has_sentences else (
            "a kubelet from 1.21 on writes codes from -v=2 on")
        said.append(f"{lost} of {exits} without a code, which is guessed: {written}")
    if kinds["Probed"] and importer.placing.is_silent("readiness"):
        said.append("no successes of probes (a kubelet writes them from -v=3 on): where a period passes without a "
                    "failure one is inferred")
    elif placed[PROBED] and not kinds["Probed"] and importer.placing.is_silent("readiness"):
        said.append("no results of probes (a kubelet writes failures from -v=1 on): each one is taken to succeed")
    most = "a trace has at most 256 at once" if importer.placing.is_at_once else (
        "a trace alone has at most 256, and with --into each has 256 at once")
    for what, means in ((WITHOUT_MANIFEST, "they have the containers that lines name; limits and probes are unknown"),
                        (NAMED_LATE, "the trace has them as unnamed, as it did before"),
                        ("containers that no manifest has", "they are left out"),
                        (UNKNOWN_PHASES, "no line has the code that shows whether they succeeded"),
                        ("pods left out", most)):
        if placed[what]:
            called = re.sub(r"^(pod|container)s", r"\1", what) if placed[what] == 1 else what
            said.append(f"{placed[what]} {called} ({names_of(importer, what)}): {means}")
    return said + of_holes(importer, placed) + of_thresholds(importer) + [
        "no journal has what pods use of the node: each is exempt, and the rules name none for an eviction"]


def of_thresholds(importer: Importer) -> list[str]:
    """The thresholds that the journal showed."""
    members, has_others = importer.thresholds.of_all(importer.capacity)
    limits = [f"{signal} {limit} ({kind})" for kind, name in (("hard", HARD), ("soft", SOFT))
              for signal, limit in members.get(name, {}).items()]
    without = ("no thresholds (a kubelet writes the hard ones as it starts, and from -v=3 on those that are met): no "
               "conditions")
    said = [f"thresholds: {', '.join(limits)}"] if limits else [without]
    if "guessed" in members:
        said.append(f"as the rounds show, and no line has it: {', '.join(members['guessed'])}")
    if has_others:
        said.append("the kubelet was restarted with other thresholds: a trace alone has those that stayed, with "
                    "--into each has its own")
    return said


def names_of(importer: Importer, what: str) -> str:
    """The first names of what was counted."""
    more = ", .." if importer.placing.counts[what] > NAMED else ""
    return ", ".join(sorted(importer.placing.named[what])[:NAMED]) + more


def of_holes(importer: Importer, placed: Counter[str]) -> list[str]:
    """What the journal of the kubelet alone shows of lines that it lacks, and what its gaps come to."""
    said = []
    if placed[RESTARTS]:
        said.append(f"{entry.counted(placed[RESTARTS], 'time')} the kubelet was restarted")
    if placed[TURNS]:
        said.append(f"{entry.counted(placed[TURNS], 'time')} the clock went back: with --into the next trace has the "
                    "moments that it had from there on; in a trace alone they go on")
    if placed[HOLES]:
        said.append(f"{entry.counted(placed[HOLES], 'time')} without a line of the kubelet's, which would have written "
                    "something there: lines are missing")
    if placed[FILLED]:
        said.append(f"{entry.counted(placed[FILLED], 'place')} where lines of a journal are missing, and another one "
                    "has some")
    if placed[DOUBTED]:
        said.append(f"{entry.counted(placed[DOUBTED], 'pod')} that no line after a gap names "
                    f"({names_of(importer, DOUBTED)}): as before it")
    return said


def of_counts(counts: Counts) -> list[str]:
    """What of the files could not be read."""
    told = ((counts.cut, "line", "longer than 256 KiB, of which the rest was not read"),
            (counts.foreign, "line", "not of the form of the journal, and left out"),
            (counts.suppressed, "place", "where journald left out messages"),
            (counts.holes, "place", "where numbers of the journal's lines are missing"),
            (counts.forwards, "time", "the clock went forward, or the node was suspended"),
            (counts.back, "line", "whose moment is earlier than the previous line's, which it gets"))
    return [f"{entry.counted(count, what)} {means}" for count, what, means in told if count] + counts.faults
