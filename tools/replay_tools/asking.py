"""What is asked of a report with its trace: pods by name, with the nearest names where there is none, and why."""

from __future__ import annotations

import functools
from argparse import Namespace
from collections.abc import Callable
from dataclasses import dataclass
from typing import Any, TYPE_CHECKING

from replay_tools import (amounts, clock, endings, entry, kubelet as kubelets, naming, overview, provenance,
                          report as reports, summary, traces, why as why_ticks, why_text)
from replay_tools.joined import asked, known

if TYPE_CHECKING:
    from replay_tools.joined import join
    from replay_tools.record.explained_events import Explained


@dataclass
class Given:
    """What a tool is given: a report, with its trace if one is named, or several reports with their traces."""

    report: reports.Report
    trace: traces.Trace | None
    several: join.Joined | None = None
    ticks: why_ticks.Ticks | None = None
    is_replayed: bool = False
    """the program has made the report of the trace just now, and may be asked for more of it"""

    @property
    def since(self) -> int:
        """The moment after which it is counted: that which was asked for, or up to which the trace shows what was so
        in one that is not there."""
        if self.several is not None:
            asked_for = self.several.asked.since
            return self.several.known if asked_for is None else max(self.several.known, asked_for)
        follows = self.trace.follows() if self.trace is not None else None
        return follows["at"] if follows else summary.NEVER

    def is_near(self, at: int) -> bool:
        """Whether a moment is printed, where one was asked for."""
        return self.several is None or self.several.is_near(at)

    def is_span_near(self, span: reports.Span) -> bool:
        """Whether some moment of a span is printed."""
        return self.several is None or self.several.is_span_near(span)


def given(found: Namespace, gather: Callable[..., Any] | None = None) -> Given:
    """What the arguments of a tool name: the traces of --traces, or the report of standard input with the trace of
    --trace. `gather` makes of the report what takes the ticks of the trace (why.Ticks)."""
    wanted = asked.asked_of(found)
    several = None if wanted is None else joined(wanted)
    report = entry.read_report() if several is None else several.report
    ticks = gather and gather(report)
    if several is None:
        trace = None if found.trace is None else trace_of(report, found.trace, ticks and ticks.take_last)
    else:
        trace = several.trace
    if several is not None and trace is not None:
        endings.tell_left(trace, report)
        if ticks is not None:
            of_whole_ticks(functools.partial(ticks.take_all, trace))
    is_replayed = trace is not None and (several is not None or getattr(found, "is_replayed", False))
    return Given(report, trace, several, ticks, is_replayed)


def joined(wanted: asked.Asked) -> join.Joined:
    from replay_tools.joined import join
    return join.joined(wanted)


def clock_of(found: Namespace, given_to: Given) -> clock.Clock:
    """How moments are written: as the arguments ask, else by what they are."""
    is_dated = given_to.several is not None and given_to.several.is_utc
    return clock.clock_of(found, summary.last_moment(given_to.report, given_to.trace), is_dated)


def key_named(report: reports.Report, name: str, kubelet: kubelets.Kubelet | None = None) -> str:
    """The key of a name. The name may be cut at its end, as a Deployment's pod is known without its hashes, and may be
    without its namespace; then it has to fit one pod, of the report or of what the kubelet did to pods without a line.
    A name that fits none stays as it is."""
    of_no_line = [] if kubelet is None else [each.pod for each, _ in kubelet.decisions() if each.number is None]
    return naming.only_key(name, list(dict.fromkeys([*keys_of(report), *of_no_line]))) or name


def keys_named(report: reports.Report, name: str) -> list[str]:
    """The keys that a name means: all of a namespace, which ends with a slash, or the one that it fits."""
    if not name.endswith("/"):
        return [key_named(report, name)]
    keys = [key for key in keys_of(report) if key.startswith(name)]
    if not keys:
        raise entry.Fault(f"the report has no pod in the namespace {name[:-1]}")
    return keys


def pods_named(report: reports.Report, name: str, others: str = "") -> list[reports.Pod]:
    """The pods of a key, more than one where a pod came again under its name; none where something else is printed."""
    key = name if others else key_named(report, name)
    found = [pod for pod in report.pods if pod.key == key]
    if not found and not others:
        raise entry.Fault(f"the report has no pod {name}; {nearest(report, name)}")
    return found


def keys_of(report: reports.Report) -> list[str]:
    return list(dict.fromkeys(pod.key for pod in report.pods))


def nearest(report: reports.Report, key: str) -> str:
    """What to write in place of a key that no pod has."""
    import difflib
    keys = keys_of(report)
    names = {known.partition("/")[2]: known for known in keys}
    near = difflib.get_close_matches(key, keys, 3) or [
        names[name] for name in difflib.get_close_matches(key.rpartition("/")[2], list(names), 3)]
    if near:
        return f"the nearest: {', '.join(near)}"
    return "a pod is NAMESPACE/NAME"


def trace_of(report: reports.Report, path: str, watch: Callable[..., Any] | None = None) -> traces.Trace:
    """The trace of a file, which has to belong to the report; `watch` as traces.trace_of has it."""
    try:
        trace = traces.read_trace(path, watch)
        traces.check_belongs(trace, report, path)
        endings.tell_left(trace, report)
        follows = trace.follows()
        if follows is not None:
            known.tell_known(report, follows["at"])
    except traces.TraceFault as fault:
        raise entry.Fault(str(fault)) from None
    except amounts.Wrong:
        raise entry.Fault(f"{path} has an invalid tick line (kubelet-replay explain shows it)") from None
    return trace


def kubelet_beside(trace: traces.Trace | None, report: reports.Report) -> kubelets.Kubelet | None:
    """What the kubelet did, next to the report; None without a trace that shows it."""
    return None if trace is None else of_whole_ticks(functools.partial(kubelets.beside, trace, report))


def without_line(kubelet: kubelets.Kubelet | None, key: str, show: Callable[[int], str]) -> str:
    """What the kubelet did to pods of a key that have no line in the trace, as text."""
    return kubelets.no_line_text(key, kubelet.of_no_line(key), show) if kubelet is not None else ""


def why(given_to: Given, trace: traces.Trace, pods: list[reports.Pod], show: Callable[[int], str],
        kubelet: kubelets.Kubelet | None, with_worst: bool = False) -> str:
    """What the trace has around the events of some pods at moments that are near, and what the kubelet did to them, as
    text; with the worst of each, where no story is before it."""
    report = given_to.report
    explained = causes_of(trace, pods) if given_to.is_replayed and pods else None

    def head(pod: reports.Pod) -> str:
        line = worst_line(given_to, pod, show, kubelet) + "\n" if with_worst else ""
        if with_worst:
            # a story has them in its own head
            above = [*provenance.head_lines(trace, show), *provenance.manifest_lines(trace.pods[pod.number]),
                     *provenance.doubt_lines(trace, pod, show)]
            line = "".join(f"{each}\n" for each in above) + line
        return f"why {pod.key} on {report.node}{reports.number_words(report, pod)}\n{line}\n"

    return "\n".join(head(pod) + why_of(trace, report, pod, show, kubelet, given_to.is_near, explained)
                     for pod in pods)


def causes_of(trace: traces.Trace, pods: list[reports.Pod]) -> dict[str, Explained] | None:
    """The causes of the events of some pods, as the program has them."""
    # forty kinds of lines take as long to make as a tool to start
    from replay_tools import program_causes
    return program_causes.causes_of(trace, pods)


def worst_line(given_to: Given, pod: reports.Pod, show: Callable[[int], str],
               kubelet: kubelets.Kubelet | None) -> str:
    """What a pod came to, in one line, as it is in the list of pods."""
    return overview.line_of(given_to.report, pod, show, given_to.trace, kubelet, given_to.since)


def why_of(trace: traces.Trace, report: reports.Report, pod: reports.Pod, show: Callable[[int], str],
           kubelet: kubelets.Kubelet | None, is_near: Callable[..., Any],
           explained: dict[str, Explained] | None = None) -> str:
    return of_whole_ticks(lambda: why_text.whole_text(trace, report, pod, show, kubelet, is_near, explained))


def of_whole_ticks(gather: Callable[..., Any]) -> Any:
    """What is gathered of a trace, whose ticks are looked at only then."""
    try:
        return gather()
    except amounts.Wrong:
        raise entry.Fault("the trace has an invalid tick line (kubelet-replay explain shows it)") from None
