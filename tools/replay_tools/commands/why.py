"""Prints what a trace holds around each event of one pod, of a report."""

from __future__ import annotations

import sys
from argparse import Namespace

from replay_tools import entry
from replay_tools.cli.statuses import Status


def main(found: Namespace) -> int:
    if len(found.named) != 1:
        raise entry.Fault(f"it takes one pod, not {len(found.named)} (see --help)")
    if found.trace is None and not found.traces:
        raise entry.Fault("it needs -f FILE, a trace: a report lacks what led to its events (see --help)")
    from replay_tools import asking
    from replay_tools.joined import told
    given = asking.given(found)
    report, trace = given.report, given.trace
    if trace is None:
        raise entry.Fault("it needs traces, and -f names reports (see --help)")

    show = asking.clock_of(found, given).text
    kubelet = asking.kubelet_beside(trace, report)
    key = asking.key_named(report, found.named[0], kubelet)
    others = asking.without_line(kubelet, key, show)
    pods = asking.pods_named(report, key, others)
    head = told.head_lines(given.several, show) if given.several else []
    sys.stdout.write("\n".join(filter(None, ["".join(f"{line}\n" for line in head),
                                             asking.why(given, trace, pods, show, kubelet,
                                                        with_worst=True), others])))
    return Status.DONE
