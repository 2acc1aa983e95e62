"""The database of a fleet: a table of traces next to the tables of tables.py, by the number of the trace."""

from __future__ import annotations

import os
import sqlite3
import urllib.parse
from typing import Any, TYPE_CHECKING

from replay_tools import entry, safe_folder, tables
from replay_tools.fleet import met, work

if TYPE_CHECKING:
    from replay_tools.fleet import kept

# SQLite keeps it in the file; it shows whose file it is
APPLICATION = int.from_bytes(b"fleT", "big")
COLUMNS = ("path TEXT NOT NULL", "sha256 TEXT", "bytes INTEGER", "status TEXT NOT NULL", "copy_of INTEGER",
           "line INTEGER", "code INTEGER", "fault TEXT", "report_file TEXT")
NAMES = tuple(column.split()[0] for column in COLUMNS)
TABLES = ("traces", *(tables.TABLES[kind][0] for kind in work.KINDS))


def check_replaceable(path: str) -> None:
    """Only a fleet's database is replaced by another."""
    if not os.path.basename(path) and not os.path.isdir(path):
        raise entry.Fault(f"'{path}' can't be written: it names no file")
    if os.path.exists(path):
        open_database(path).close()
    folder = os.path.dirname(os.path.abspath(path))
    if not os.access(folder, os.W_OK | os.X_OK):
        raise entry.Fault(f"{path} can't be written: {folder} is no folder that can be written to")
    check_safe(folder, os.path.basename(path))


def check_safe(folder: str, name: str) -> None:
    """Others may not change the database, nor what is kept next to it: Raises Fault where they may write the folder."""
    descriptor = safe_folder.opened(folder)
    try:
        fault = safe_folder.fault(descriptor, lambda other: other == name)
    finally:
        os.close(descriptor)
    if fault is not None:
        raise entry.Fault(f"{folder} {fault}")


def open_database(path: str) -> sqlite3.Connection:
    """A connection that reads."""
    if os.path.exists(path) and not (os.path.isfile(path) or os.path.isdir(path)):
        raise entry.Fault(f"{path} is a device or a pipe, and no database of kubelet-replay fleet")
    try:
        with open(path, "rb"):
            pass
        name = urllib.parse.quote(os.fsencode(os.path.abspath(path)))
        connection = sqlite3.connect(f"file:{name}?mode=ro", uri=True)
        [[application]] = connection.execute("PRAGMA application_id")
        if application == APPLICATION:
            return connection
        connection.close()
    except OSError as fault:
        raise entry.Fault(f"{path} can't be read: {fault.strerror}") from None
    except sqlite3.Error:
        pass
    raise entry.Fault(f"{path} is there and is no database of kubelet-replay fleet")


def write(path: str, paths: list[str], kept: kept.Kept, failed: dict[str, dict[str, Any]]) -> None:
    """The database of the traces of some paths, in their order, from what is kept; `failed` has the records of those
    that have nothing kept."""
    def fill(connection: sqlite3.Connection) -> None:
        connection.execute(f"CREATE TABLE traces (report INTEGER NOT NULL, {', '.join(COLUMNS)})")
        numbers: dict[tuple[str, int], int] = {}
        pods = met.Met([path for path in paths if path not in failed], kept)
        for number, trace_path in enumerate(paths, 1):
            rows = iter([failed[trace_path]]) if trace_path in failed else kept.rows(trace_path)
            trace = next(rows)
            content = trace["sha256"], trace["bytes"]
            first = number if trace["status"] == "failed" else numbers.setdefault(content, number)
            if first != number:
                trace, rows = copied(trace, first), iter(())
            add_trace(connection, number, trace, kept.file(trace_path, "report"))
            tables.add_records(connection, number, pods.rows(trace, rows))

    try:
        tables.write_database(path, APPLICATION, fill, work.KINDS)
    except (OSError, sqlite3.Error) as fault:
        raise entry.Fault(f"{path} can't be written: {getattr(fault, 'strerror', None) or fault}") from None
    except (EOFError, ValueError):
        raise entry.Fault(f"an answer in {kept.folder} is broken; --anew makes all of them again") from None


def copied(trace: dict[str, Any], first: int) -> dict[str, Any]:
    """The record of a trace that has the bytes of another one before it, whose number is given, and counts nothing."""
    return {**{name: trace[name] for name in ("path", "sha256", "bytes")}, "status": "copy", "copy_of": first}


def add_trace(connection: sqlite3.Connection, number: int, trace: dict[str, Any], report: str) -> None:
    trace["report_file"] = os.path.basename(report) if trace["status"] == "replayed" else None
    marks = ", ".join("?" * (len(NAMES) + 1))
    connection.execute(f"INSERT INTO traces VALUES ({marks})", [number, *map(trace.get, NAMES)])
