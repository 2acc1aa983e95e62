"""Asks the program for the causes of the events of pods, by its command `causes` (docs/why.md)."""

from __future__ import annotations

import io
import re
import subprocess

from replay_tools import entry, events, program as programs, report as reports, traces
from replay_tools.cli.statuses import Status
from replay_tools.record.causes import CausesFault, Pause, Paused
from replay_tools.record.explained_events import Event, Explained, read

# the program knows the command, and rejects what it was asked with it
REJECTED = re.compile(r"line \d+: \d+ .*|no pod \S+", re.ASCII)


def causes_of(trace: traces.Trace, pods: list[reports.Pod]) -> dict[str, Explained] | None:
    """The events of some pods and of the node with their causes, by their lines in the report. None if the program is
    too old to know the command, and of a trace that is joined of several, each of which counts by itself."""
    text = text_of(trace)
    answer = None if text is None else asked(text, list(dict.fromkeys(pod.key for pod in pods)))
    if answer is None:
        return None
    try:
        found = list(read(io.StringIO(answer, newline="\n")))
        check_pods(found, len(trace.pods))
        return {one.event.line(): one for one in found if one.event is not None}
    except CausesFault as fault:
        raise entry.Fault(f"the program's answer can't be read: {fault}", Status.FAILED) from None


def check_pods(found: list[Explained], count: int) -> None:
    """Raises CausesFault where a cause is of a pod that the trace, which has so many, does not have."""
    for cause in (cause for one in found for cause in one.causes):
        number = cause.by if isinstance(cause, (Pause, Paused)) else getattr(cause, "pod", 0)
        if number >= count:
            raise CausesFault(f"the trace has no pod {number}: {cause.line()}")


def text_of(trace: traces.Trace) -> bytes | None:
    """The text of a trace; None of one that is joined of several, or has no tick."""
    texts = {id(tick.lines): tick.lines.text for tick in trace.ticks}
    return next(iter(texts.values())) if len(texts) == 1 else None


def asked(text: bytes, keys: list[str]) -> str | None:
    """What the program writes of the pods of some keys; None if it is too old to know the command. Raises Fault."""
    program = programs.path()
    words = ["causes", "/dev/stdin", *keys, *programs.format_words(io.BytesIO(text))]
    try:
        done = subprocess.run([program, *words], input=text, capture_output=True, check=False)
    except OSError as fault:
        raise entry.Fault(programs.missing(program, fault), Status.MISSING) from None
    if done.returncode == Status.DONE:
        return done.stdout.decode("utf-8", "replace")
    said = done.stderr.decode("utf-8", "replace").split("\n")[0] or f"status {done.returncode}"
    if done.returncode in (Status.BAD_INPUT, Status.BAD_ARGUMENT) and not REJECTED.fullmatch(said):
        return None
    status = Status.MISSING if done.returncode == Status.MISSING else Status.FAILED
    raise entry.Fault(f"the program can't show the causes of events: {said}", status)


def line_of(event: reports.Event) -> str:
    """The line of an event in its report."""
    pod = None if events.kinds()[event.word].subject == "node" else event.pod
    return Event(event.at, pod, event.container, event.word, tuple(event.rest)).line()
