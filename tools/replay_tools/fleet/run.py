"""A run over many traces: what is kept is asked for, the rest is replayed, and the database is written at the end."""

from __future__ import annotations

import contextlib
import importlib
from collections.abc import Iterator
from dataclasses import dataclass
from typing import Any

from replay_tools import entry, program as programs
from replay_tools.cli.statuses import Status
from replay_tools.fleet import database, kept, local, progress, traces

# what these parts of it are on is asked for with their words alone
PARTS = {
    "scheduler": "Dask distributed is missing, which --scheduler needs (apt-get install python3-distributed)",
    "parquet": "pyarrow is missing, which --parquet needs (pip install pyarrow)",
}


@dataclass
class Order:
    """What a run is asked to do."""

    paths: list[str]
    database: str
    program: str
    processes: int
    scheduler: str | None
    parquet: str | None
    anew: bool


def run(order: Order) -> int:
    """Writes the database; gives how many traces failed. What can't be done is found before any work."""
    database.check_replaceable(order.database)
    scheduler = part("scheduler") if order.scheduler else None
    parquet = part("parquet") if order.parquet else None
    program_sum = programs.sum_of(order.program)
    with scheduler.connected(order.scheduler) if scheduler else contextlib.nullcontext() as client:
        if parquet:
            parquet.make_folder(order.parquet)
        store = kept.Kept(order.database + ".done", program_sum)
        ends = traces.known_ends(order.paths)
        tasks = [(path, (None if order.anew else store.known(path, ends.get(path)), ends.get(path)))
                 for path in order.paths]
        # what is kept comes first, so that the time which is left is the others' time
        tasks.sort(key=lambda task: task[1][0] is None)
        coming = (scheduler.answers(tasks, order.program, program_sum, client) if scheduler else
                  local.answers(tasks, order.program, program_sum, order.processes))
        failed = taken(coming, store, len(tasks))
    database.write(order.database, order.paths, store, failed)
    if parquet:
        parquet.write(order.database, order.parquet)
    return len(failed)


def part(name: str) -> Any:
    try:
        return importlib.import_module(f"replay_tools.fleet.{name}")
    except ImportError:
        raise entry.Fault(PARTS[name], Status.MISSING) from None


def taken(coming: Iterator[Any], store: kept.Kept, total: int) -> dict[str, dict[str, str | None]]:
    """Keeps each answer as it comes; gives the records of the traces that failed, by path."""
    failed, shown = {}, progress.Progress(total)
    try:
        for path, answer in coming:
            store.keep(path, answer)
            status = answer["trace"]["status"]
            if status == "failed":
                failed[path] = answer["trace"]
            shown.step(status)
    finally:
        shown.end()
    return failed
