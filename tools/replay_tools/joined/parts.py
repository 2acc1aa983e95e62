"""The parts that are joined: each a trace that was read and replayed, or a report."""

from __future__ import annotations

import functools
import io
import os
import re
import subprocess
import tempfile
from collections.abc import Callable
from dataclasses import dataclass
from typing import Any, TYPE_CHECKING

from replay_tools import (amounts, entry, first_bytes, packed, program as programs, records, report as reports,
                          summary, traces)
from replay_tools.cli.statuses import Status
from replay_tools.joined import files

if TYPE_CHECKING:
    from replay_tools.joined import asked

AT_ONCE = 4
# ticks before the rotation at most, which show what was known there
MOST_CARRIED = 100
REFUSED = re.compile(r"line \d+: \d+ .*")


class Unusable(Exception):
    """A file that can't be used; the message shows why, `means` what that means, where it is known."""

    def __init__(self, said: str, means: str | None = None) -> None:
        super().__init__(said)
        self.means = means


@dataclass
class Part:
    """A trace with its report, or a report alone."""

    source: files.Source
    trace: traces.Trace | None
    report: reports.Report
    first: int
    last: int
    """of the ticks that it has or, of a report alone, of the moments that it names"""

    @functools.cached_property
    def follows(self) -> dict[str, Any] | None:
        """What a trace of a recorder shows of the one before it; None where it shows nothing of its form."""
        return None if self.trace is None else self.trace.follows()

    @functools.cached_property
    def known_until(self) -> int:
        """The moment up to which it shows what was known before, as far as that can be reported."""
        if self.follows:
            return self.follows["at"]
        if self.trace is None:
            return self.first + MOST_CARRIED
        if self.source.begun is not None and self.first <= self.source.begun <= self.first + MOST_CARRIED:
            return self.source.begun
        for place, tick in enumerate(self.trace.ticks[: MOST_CARRIED + 1]):
            if tick.at != self.first + place:
                break
            # those before the last of them have no signals
            if tick.signals:
                return tick.at
        return self.first


    @property
    def shown_until(self) -> int:
        """The moment up to which its ticks are there to show what was known; a report alone has none of its own."""
        return self.first if self.trace is None else self.known_until


def parts_of(asked: asked.Asked) -> list[Part]:
    """The parts that are asked for, in the order of their times."""
    from concurrent.futures import ThreadPoolExecutor
    sources = files.sources_of(asked)
    program = None if all(map(is_report, sources)) else program_path()
    with ThreadPoolExecutor(AT_ONCE) as threads:
        made = list(threads.map(lambda source: made_of(source, program), sources))
    found = []
    for source, (text, report) in zip(sources, made):
        part = of_source(source, text, report, asked)
        if part is not None:
            found.append(part)
    if not found:
        raise entry.Fault("no trace is left that can be used and has something of that time")
    check_alike(found)
    return sorted(found, key=lambda part: (part.shown_until, part.source.number))


def is_report(source: files.Source) -> bool:
    try:
        with packed.regular(source.path) as file:
            return first_bytes.kind_of(file.read(first_bytes.LOOKED_AT)) == first_bytes.REPORT
    except OSError:
        return False


def program_path() -> str:
    """The program; in a checkout it is built once, before several ask for it."""
    return programs.path() if os.environ.get("KUBELET_REPLAY") else programs.checked_path()


def made_of(source: files.Source, program: str | None) -> tuple[Unusable | bytes, Unusable | bytes]:
    """The text of a source and its report, or why there is none in its place. A part may be written while it is read,
    so it is read once more where it can't be used."""
    for _ in range(2 if source.is_part else 1):
        text = tried(text_of, source)
        report = tried(replayed, source, text, program)
        if not isinstance(report, Unusable):
            break
    return text, report


def tried(does: Callable[..., Any], *given: Any) -> bytes | Unusable:
    """What comes of a step, or why that can't be done, for the next one to hand on."""
    fault = next((each for each in given if isinstance(each, Unusable)), None)
    if fault is not None:
        return fault
    try:
        return does(*given)
    except Unusable as unusable:
        return unusable


def text_of(source: files.Source) -> bytes:
    """The bytes of a trace or a report, of a part that is still written as far as its last whole line."""
    if source.is_part and not os.path.exists(source.path):
        # it has ended since the folder was read
        source.path = f"{source.path.removesuffix('.part')}.gz"
    if os.path.exists(source.path) and not os.path.isfile(source.path):
        raise Unusable("it is a folder" if os.path.isdir(source.path) else "it is a device or a pipe")
    try:
        with packed.regular(source.path) as file:
            text = packed.unpacked(file.read(traces.LONGEST_TRACE + 1), traces.LONGEST_TRACE)
    except OSError as fault:
        raise Unusable(f"it can't be read: {fault.strerror}") from None
    except packed.Damaged as fault:
        raise Unusable(str(fault)) from None
    if len(text) > traces.LONGEST_TRACE:
        raise Unusable("it has more than 64 MiB")
    if source.is_part:
        text = text[: text.rfind(b"\n") + 1]
    kind = first_bytes.kind_of(text)
    if kind not in (first_bytes.REPORT, first_bytes.TRACE, None):
        is_empty = kind in (first_bytes.EMPTY, first_bytes.BLANK)
        raise Unusable("it has no line" if is_empty else f"it is {kind}, and no trace")
    return text


def replayed(source: files.Source, text: bytes, program: str) -> bytes:
    """The report of a text, by the program where it is a trace."""
    if text.startswith(b"node "):
        return text
    words = ["run", "/dev/stdin", *programs.format_words(io.BytesIO(text))]
    try:
        done = subprocess.run([program, *words], input=text, capture_output=True, check=False)
    except OSError as fault:
        raise entry.Fault(programs.missing(program, fault), Status.MISSING) from None
    if done.returncode == 0:
        return done.stdout
    said = done.stderr.decode("utf-8", "replace").split("\n")[0] or f"status {done.returncode}"
    if done.returncode == 2 and REFUSED.fullmatch(said):
        raise Unusable(f"it is rejected: {said}", meaning(text, "--extended" in words))
    status = Status.MISSING if done.returncode == Status.MISSING else Status.FAILED
    raise entry.Fault(f"{source.shown} can't be replayed: {said}", status)


def meaning(text: bytes, is_extended: bool) -> str | None:
    """What a rejection means, in one line."""
    from replay_tools.explain import beside
    try:
        with tempfile.NamedTemporaryFile(prefix="trace-") as file:
            file.write(text)
            file.flush()
            return beside.meaning(file.name, is_extended)
    except OSError:
        return None


def of_source(source: files.Source, text: bytes | Unusable, made: bytes | Unusable, asked: asked.Asked) -> Part | None:
    """A part of a file, or None where it is left out, which is printed. A file that was named has to be usable."""
    try:
        if isinstance(text, Unusable):
            raise text
        if isinstance(made, Unusable):
            raise made
        part = read_part(source, text, made)
    except Unusable as fault:
        if source.is_named:
            raise entry.Fault(f"{source.shown}: {fault}", means=fault.means) from None
        if not asked.is_quiet:
            entry.say(f"{source.shown} is left out: {fault}" + (f" ({fault.means})" if fault.means else ""))
        return None
    if asked.node not in (None, part.report.node):
        if source.is_named:
            raise entry.Fault(f"{source.shown} is of {part.report.node}, and not of {asked.node}")
        return None
    if not source.is_named and is_of_another_time(part, asked):
        return None
    if source.is_part and not asked.is_quiet:
        until = reports.moment_text(part.last, part.first > 10 ** 8)
        entry.say(f"{source.shown} is still written, or was left so: it is read up to {until}")
    return part


def is_of_another_time(part: Part, asked: asked.Asked) -> bool:
    """Whether a trace of a folder, whose name may not show when it begins, has nothing of the time that is asked for.
    The last one lasts beyond its last tick."""
    return part.source.begun is None and (asked.first is not None and part.last < asked.first
                                          or asked.last is not None and part.first > asked.last)


def read_part(source: files.Source, text: bytes, made: bytes) -> Part:
    """A part of its text and its report."""
    try:
        report = reports.read_report(made.decode("utf-8", "replace"))
    except reports.ReportFault as fault:
        raise Unusable(str(fault).replace("standard input", "it")) from None
    if made is text:
        first, last = records.first_moment(report), summary.last_moment(report)
        if first is None or last is None:
            raise Unusable("it has no tick")
        return Part(source, None, report, first, last)
    try:
        trace = traces.trace_of(text, "it")
        traces.check_belongs(trace, report, "it")
    except traces.TraceFault as fault:
        raise Unusable(str(fault)) from None
    except amounts.Wrong:
        raise Unusable("it has an invalid tick line (kubelet-replay explain shows it)") from None
    if not trace.ticks:
        raise Unusable("it has no tick")
    return Part(source, trace, report, trace.ticks[0].at, trace.ticks[-1].at)


def check_alike(found: list[Part]) -> None:
    """Raises Fault unless all are of one node, and all traces or all reports."""
    one = found[0]
    for other in found[1:]:
        if other.report.node != one.report.node:
            raise entry.Fault(f"{one.source.shown} is of {one.report.node} and {other.source.shown} of "
                              f"{other.report.node}: one node at a time, which --node may name in a folder")
        if (other.trace is None) != (one.trace is None):
            report, trace = (one, other) if one.trace is None else (other, one)
            raise entry.Fault(f"{report.source.shown} is a report and {trace.source.shown} a trace: all have to be the "
                              "one, or all the other")
