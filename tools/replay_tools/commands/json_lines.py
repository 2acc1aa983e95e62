"""Writes a report as JSON lines, or as tables of SQLite."""

from __future__ import annotations

import json
import sys
from argparse import Namespace
from collections.abc import Iterator
from typing import Any

from replay_tools import entry
from replay_tools.cli.statuses import Status

# SQLite keeps it in the file; it shows whose file it is
APPLICATION = int.from_bytes(b"repT", "big")


def main(found: Namespace) -> int:
    if found.sqlite is not None:
        write_tables(found.sqlite, found)
        return Status.DONE
    for record in records_of(found):
        sys.stdout.write(json.dumps(record, ensure_ascii=False, separators=(",", ":")) + "\n")
    return Status.DONE


def records_of(found: Namespace) -> Iterator[dict[str, Any]]:
    """The records of the report that the arguments name, with what its trace shows of the kubelet, if there is one."""
    from replay_tools import asking, records
    given = asking.given(found)
    kubelet = asking.kubelet_beside(given.trace, given.report)
    return records.records_of(given.report, kubelet, given.trace, known=given.since)


def write_tables(path: str, named: Namespace) -> None:
    """The tables of the report that the arguments name, which is not read for a file that may not be replaced."""
    import sqlite3

    from replay_tools import tables
    try:
        tables.check_replaceable(path, APPLICATION)
        found = records_of(named)
        tables.write_database(path, APPLICATION, lambda connection: tables.add_records(connection, 1, found))
    except (OSError, sqlite3.Error) as fault:
        raise entry.Fault(f"{path} can't be written: {getattr(fault, 'strerror', None) or fault}") from None
