"""Each tool over every trace of the cases, of the examples and of the recordings: none ends with a traceback. The tools
are called in this process, since there are a thousand of them."""

import glob
import lzma
import os

import cases
from checks import HERE, TOP, expect, replayed

from replay_tools import (amounts, asking, endings, kubelet as kubelets, overview, picture, records, report as reports,
                          story_text, traces, why as why_ticks)
from replay_tools.clock import Clock
from replay_tools.joined import known
from replay_tools.page import build

load_tests = cases.loaded(__name__)

CASES = f"{TOP}/crates/case_runner/data/traces"
# a trace that begins with the eviction of the trace before it, among them
RECORDINGS = (f"{HERE}/recordings/*/trace", f"{TOP}/examples/recorded/*.trace", f"{HERE}/whys/*/trace",
              f"{HERE}/summaries/trace")
# longer ones take the tools minutes; the traces of a family are alike
MOST_BYTES = 1 << 18
CUTS = 6


def text_of(path):
    with (lzma.open(path) if path.endswith(".xz") else open(path, "rb")) as file:
        return file.read()


def fault_of(text, report_text, name):
    """The exception of a tool over a trace with its report, by the tool's name; None where all print it."""
    try:
        report = reports.read_report(report_text)
        ticks = why_ticks.Ticks(moments={eviction.at for eviction in report.evictions})
        trace = traces.trace_of(text, name, ticks.take_last)
        endings.tell_left(trace, report)
        follows = trace.follows()
        if follows is not None:
            known.tell_known(report, follows["at"])
    except (traces.TraceFault, reports.ReportFault, amounts.Wrong) as fault:
        return f"{name} can't be read: {fault}"
    kubelet = kubelets.beside(trace, report)
    given, show = asking.Given(report, trace, None, ticks), Clock.UTC.text
    for tool, tell in (
        ("story of all", lambda: overview.text(report, None, show, trace, kubelet)),
        ("story", lambda: [story_text.story(given, pod, show, kubelet) for pod in report.pods]),
        ("why", lambda: asking.why(given, trace, report.pods, show, kubelet, True)),
        ("json", lambda: list(records.records_of(report, kubelet, trace))),
        ("timeline", lambda: picture.draw(report, report.pods, Clock.UTC, kubelet, trace) if report.tick_count else ""),
        ("page", lambda: build.page_of(report, trace, ticks, Clock.UTC, given.since) if report.tick_count else ""),
    ):
        try:
            tell()
        except Exception as fault:
            return f"{tool} of {name}: {type(fault).__name__}: {fault}"
    return None


def faults_of(paths):
    found = []
    for path in paths:
        text = text_of(path)
        report = path.replace(".trace", ".report") if ".trace" in path else f"{os.path.dirname(path)}/report"
        if len(text) <= MOST_BYTES and os.path.exists(report):
            found.append((path, fault_of(text, text_of(report).decode(), os.path.relpath(path, TOP))))
    return len(found), [fault for _, fault in found if fault is not None]


def test_every_case():
    """The traces of the program's cases, each with its report."""
    paths = sorted(glob.glob(f"{CASES}/*/*.trace") + glob.glob(f"{CASES}/*/*.trace.xz"))
    count, faults = faults_of(paths)
    expect("each tool tells each case", (count > 500, faults[:5]), (True, []))


def test_every_recording():
    paths = sorted(path for pattern in RECORDINGS for path in glob.glob(pattern))
    count, faults = faults_of(paths)
    expect("each tool tells each recording", (count > 20, faults[:5]), (True, []))


def test_every_recording_cut():
    """Each recording up to some of its ticks, as a recorder that is killed leaves it."""
    faults, count = [], 0
    for path in sorted(path for pattern in RECORDINGS for path in glob.glob(pattern)):
        text = text_of(path)
        lines = text.splitlines(keepends=True)
        ticks = [place for place, line in enumerate(lines) if line.startswith(b'{"kind":"tick"')]
        if len(text) > MOST_BYTES or not ticks:
            continue
        for place in ticks[:: max(1, len(ticks) // CUTS)]:
            cut = b"".join(lines[: place + 1])
            status, report, _ = replayed(cut.decode())
            if status == 0:
                count += 1
                faults.append(fault_of(cut, report, f"{os.path.relpath(path, TOP)} up to line {place + 1}"))
    expect("each tool tells each recording that is cut", (count > 50, list(filter(None, faults))[:5]), (True, []))
