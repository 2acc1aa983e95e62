"""Replays the traces of many nodes, and writes one database of what became of their pods."""

from __future__ import annotations

import os
import sys
from argparse import Namespace

from replay_tools import entry, program as programs
from replay_tools.cli.definition import MOST_PROCESSES
from replay_tools.cli.statuses import Status
from replay_tools.fleet import metrics, run, traces, worst


def main(found: Namespace) -> int:
    return run_command(found) if found.subcommand == "run" else worst_command(found)


def run_command(found: Namespace) -> int:
    """Replays the traces that are named, and prints the worst of them."""
    named = [*found.files, *found.named]
    if not named:
        raise entry.Fault("it needs -f FILE: a trace, a folder or a pattern (see --help)")
    if found.out is None:
        raise entry.Fault("it needs --out DB (see --help)")
    if found.processes is not None and found.scheduler is not None:
        raise entry.Fault("--processes and --scheduler exclude each other (see --help)")
    if found.metrics is not None:
        metrics.check_replaceable(found.metrics)
    processes = found.processes or min(len(os.sched_getaffinity(0)), MOST_PROCESSES)
    order = run.Order(traces.paths_of(named), found.out, programs.checked_path(), processes, found.scheduler,
                      found.parquet, found.anew)
    failed = run.run(order)
    write_metrics(order.database, found.metrics)
    sys.stdout.write(worst.text(order.database, found.by, found.top))
    if failed:
        print(f"fleet: {entry.counted(failed, 'trace')} failed; the table traces has the reason, and a further run "
              f"tries {'it' if failed == 1 else 'them'} again", file=sys.stderr)
    return Status.FAILED if failed else Status.DONE


def worst_command(found: Namespace) -> int:
    if len(found.named) != 1:
        raise entry.Fault(f"worst takes one DB, not {len(found.named)} (see --help)")
    write_metrics(found.named[0], found.metrics)
    sys.stdout.write(worst.text(found.named[0], found.by, found.top))
    return Status.DONE


def write_metrics(path: str, file: str | None) -> None:
    """Writes the metrics of a database into a file, where that was asked for."""
    if file is not None:
        metrics.check_replaceable(file)
        metrics.write(path, file)
