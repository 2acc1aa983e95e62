"""Records of reports as tables of SQLite, one table for each kind of record. Each row has the number of its report in
the file, so that many reports can be in one."""

from __future__ import annotations

import json
import os
import sqlite3
import tempfile
from collections.abc import Callable, Iterable
from typing import Any

TABLES = {
    "node": ("nodes", "node TEXT, pods INTEGER, ticks INTEGER, first_moment INTEGER, last_moment INTEGER, "
                      "updates INTEGER, pod_events INTEGER, orders INTEGER, restarts INTEGER, evictions INTEGER, "
                      "memory_pressure_seconds INTEGER, disk_pressure_seconds INTEGER, pid_pressure_seconds INTEGER, "
                      "tells_kubelet INTEGER, kubelet_started_at TEXT, imported INTEGER"),
    "pod": ("pods", "node TEXT, number INTEGER, pod TEXT, namespace TEXT, name TEXT, phase TEXT, reason TEXT, "
                    "qos TEXT, ready INTEGER, ready_since INTEGER, first_tick INTEGER, ended_at INTEGER, "
                    "ended_as TEXT, restarts INTEGER, restarts_since INTEGER, deaths INTEGER, kills INTEGER, "
                    "backoffs INTEGER, named INTEGER, became_unready INTEGER, unready_seconds INTEGER, "
                    "evicted_at INTEGER, evicted_signal TEXT, evicted_kind TEXT, worst TEXT, worst_at INTEGER, "
                    "worst_words TEXT, rank INTEGER, deleted_at INTEGER, deleted_by TEXT, "
                    "deletion_grace_seconds INTEGER, manifest_is_unknown INTEGER, "
                    "phase_is_unknown INTEGER, state_is_guessed_at INTEGER"),
    "container": ("containers", "node TEXT, pod TEXT, pod_number INTEGER, name TEXT, state TEXT, code INTEGER, "
                                "restarts INTEGER, ready INTEGER, started INTEGER, starts INTEGER, deaths INTEGER, "
                                "kills INTEGER, backoffs INTEGER, came_again INTEGER"),
    "event": ("events", "node TEXT, number INTEGER, at INTEGER, event TEXT, pod TEXT, pod_number INTEGER, "
                        "container TEXT, attempt INTEGER, code INTEGER, code_is_known INTEGER, reason TEXT, "
                        "message TEXT, probe TEXT, delay_seconds INTEGER, "
                        "phase TEXT, signal TEXT, kind TEXT, active INTEGER, condition TEXT, value INTEGER, "
                        "grace_seconds INTEGER, counted_anew_since INTEGER, so_before INTEGER, restart_words TEXT, "
                        "moment_is_known INTEGER, phase_is_unknown INTEGER"),
    "condition": ("conditions", "node TEXT, pod TEXT, pod_number INTEGER, condition TEXT, value INTEGER, "
                                "since INTEGER, reason TEXT"),
    "eviction": ("evictions", "node TEXT, number INTEGER, at INTEGER, pod TEXT, pod_number INTEGER, signal TEXT, "
                              "kind TEXT, grace_seconds INTEGER, kubelet_at INTEGER"),
    "decision": ("decisions", "node TEXT, number INTEGER, at INTEGER, pod TEXT, pod_number INTEGER, decision TEXT, "
                              "reason TEXT, message TEXT, rules_at INTEGER, agrees INTEGER, causes TEXT"),
    "border": ("borders", "node TEXT, number INTEGER, since INTEGER, at INTEGER, is_gap INTEGER, trace TEXT, "
                          "missing TEXT"),
    "resize": ("resizes", "node TEXT, pod TEXT, pod_number INTEGER, container TEXT, at INTEGER, words TEXT, "
                          "before TEXT, after TEXT, so_before INTEGER"),
    "cause": ("causes", "node TEXT, pod TEXT, pod_number INTEGER, container TEXT, cause TEXT, reason TEXT, "
                        "code INTEGER, times INTEGER, seconds INTEGER, first_at INTEGER, last_at INTEGER, "
                        "message TEXT"),
}


def columns(kind: str) -> list[str]:
    """The names of the columns of a kind of record, but for the number of the report."""
    return [column.split()[0] for column in TABLES[kind][1].split(", ")]


def create_tables(connection: sqlite3.Connection, kinds: tuple[str, ...] = tuple(TABLES)) -> None:
    for name, written in (TABLES[kind] for kind in kinds):
        connection.execute(f"CREATE TABLE {name} (report INTEGER NOT NULL, {written})")


def add_records(connection: sqlite3.Connection, number: int, records: Iterable[dict[str, Any]]) -> None:
    """Rows for the records of one report, in order; number is the report's in the file."""
    rows: dict[str, list[list[Any]]] = {}
    for record in records:
        kind = record["record"]
        values = (record.get(column) for column in columns(kind))
        rows.setdefault(kind, []).append([number, *(json.dumps(value) if isinstance(value, (dict, list)) else value
                                                    for value in values)])
    for kind, found in rows.items():
        marks = ", ".join("?" * (len(columns(kind)) + 1))
        connection.executemany(f"INSERT INTO {TABLES[kind][0]} VALUES ({marks})", found)


def application_of(path: str) -> int | None:
    """The number of the application that a database of SQLite shows it is of, None of another file."""
    with open(path, "rb") as file:
        header = file.read(100)
    is_database = len(header) == 100 and header.startswith(b"SQLite format 3\0")
    return int.from_bytes(header[68:72], "big") if is_database else None


def check_replaceable(path: str, application: int) -> None:
    """Only a database of the same application is replaced by another. Raises OSError."""
    if os.path.isdir(path):
        raise IsADirectoryError("it is a folder")
    if os.path.exists(path) and not os.path.isfile(path):
        # a new file in its place would take a device away, /dev/null from all
        raise OSError("it is a device or a pipe")
    if os.path.exists(path) and application_of(path) != application:
        raise FileExistsError("the file is no database that this tool has written")


def write_database(path: str, application: int, fill: Callable[..., Any],
                   kinds: tuple[str, ...] = tuple(TABLES)) -> None:
    """A new file with the tables of these kinds of records, which `fill` is given to fill; it shows of which
    application it is. It is under its name once it is whole. Raises OSError or sqlite3.Error, and then whatever was
    there is as it was."""
    check_replaceable(path, application)
    folder = os.path.dirname(os.path.abspath(path))
    with tempfile.TemporaryDirectory(dir=folder, prefix=".tables-") as work:
        made = os.path.join(work, "tables")
        connection = sqlite3.connect(made)
        try:
            with connection:
                connection.execute(f"PRAGMA application_id = {application}")
                create_tables(connection, kinds)
                fill(connection)
        finally:
            connection.close()
        # to fill it may have taken long
        check_replaceable(path, application)
        os.replace(made, path)
