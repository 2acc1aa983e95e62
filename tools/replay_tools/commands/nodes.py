"""Lists the nodes of a cluster that record."""

from __future__ import annotations

import sys
from argparse import Namespace
from concurrent.futures import ThreadPoolExecutor

from replay_tools import amounts, entry, report as reports, telling
from replay_tools.cli.statuses import Status
from replay_tools.cluster import fetching, recorders
from replay_tools.cluster.waiting import Waiting


def main(found: Namespace) -> int:
    cluster = recorders.cluster_of(found)
    there = cluster.recorders()
    with Waiting(cluster.seconds) as waiting, ThreadPoolExecutor(fetching.AT_ONCE) as threads:
        rows = list(threads.map(lambda recorder: row_of(cluster, recorder, waiting), there.values()))
    table = telling.table(f"{entry.counted(len(rows), 'node')} with a recorder",
                          ["node", "traces", "since", "until", "size", ""], [row for row, _ in rows])
    sys.stdout.write("".join(f"{entry.visible(line)}\n" for line in table[:-1]))
    return Status.DONE if all(answers for _, answers in rows) else Status.FAILED


def row_of(cluster: recorders.Cluster, recorder: recorders.Recorder, waiting: Waiting) -> tuple[list[str], bool]:
    """A node's row, and whether its recorder has answered."""
    try:
        with waiting.for_answer(recorder.node):
            held = cluster.held(recorder)
    except recorders.NoAnswer as fault:
        return [recorder.node, "-", "-", "-", "-", str(fault)], False
    since, until = (reports.moment_text(at, True) if held.files else "-" for at in (
        held.files[0].begun if held.files else 0, max((file.changed for file in held.files), default=0)))
    writes = None if any(file.is_part for file in held.files) else "no trace is being written"
    size = amounts.amount_text(1000 * sum(file.size for file in held.files), True)
    said = "; ".join(filter(None, [writes, held.left_words()]))
    return [recorder.node, str(len(held.files)), since, until, size, said], True
