"""Copies traces from the recorders of a cluster."""

from __future__ import annotations

import sys
import time
from argparse import Namespace

from replay_tools import amounts, entry, report as reports
from replay_tools.cli.statuses import Status
from replay_tools.cluster import fetching, recorders
from replay_tools.joined import asked


def main(found: Namespace) -> int:
    if bool(found.named) == found.all:
        raise entry.Fault("it takes nodes, or --all and none (see --help)")
    wanted = fetching.Wanted(*asked.span_of(found.since, found.at, time.time()), found.most)
    cluster, folder = recorders.cluster_of(found), found.into
    there = cluster.recorders()
    chosen = recorders.on_nodes(there, found.named or list(there))
    failed = 0
    for node in fetching.fetched(cluster, chosen, folder, wanted):
        failed += bool(node.faults)
        for fault in node.faults:
            entry.say(f"{node.node}: {fault}")
        if not node.faults or node.copied:
            sys.stdout.write(f"{told(node, folder)}\n")
    return Status.FAILED if failed else Status.DONE


def told(node: fetching.Fetched, folder: str) -> str:
    """What came of a node, in one line."""
    known = f", {len(node.known)} there already" if node.known else ""
    until = f"; the newest is still written, and is copied up to {reports.moment_text(node.until, True)}" \
        if node.until else ""
    return entry.visible(f"{node.node}: {entry.counted(len(node.copied), 'trace')} copied into {folder}{known}, "
                         f"{amounts.amount_text(1000 * node.size, True)}{until}")
