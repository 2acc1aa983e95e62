"""The tables of a fleet's database as a dataset of Parquet files, one for each table."""

from __future__ import annotations

import os
import tempfile
from typing import Any

import pyarrow
import pyarrow.parquet

from replay_tools import entry
from replay_tools.fleet import database

# each file has it, which shows whose file it is
MARK = {b"application": b"tools/fleet"}


def make_folder(folder: str) -> None:
    """A folder in which each table may be written."""
    try:
        os.makedirs(folder, exist_ok=True)
    except OSError as fault:
        raise entry.Fault(f"{folder} can't be written: {fault.strerror}") from None
    for path in paths_in(folder):
        check_replaceable(path)


def paths_in(folder: str) -> Any:
    return [os.path.join(folder, f"{table}.parquet") for table in database.TABLES]


def check_replaceable(path: str) -> None:
    """Only a table of a fleet is replaced by another."""
    if not os.path.exists(path):
        return
    try:
        found = pyarrow.parquet.read_schema(path).metadata if os.path.isfile(path) else None
    except (OSError, ValueError):
        found = None
    if not (found or {}).items() >= MARK.items():
        raise entry.Fault(f"{path} is there and is no table of kubelet-replay fleet")


def write(path: str, folder: str) -> None:
    """A file for each table of a database; each is under its name once it is whole."""
    connection = database.open_database(path)
    try:
        with tempfile.TemporaryDirectory(dir=folder, prefix=".tables-") as work:
            for table, written in zip(database.TABLES, paths_in(folder)):
                made = os.path.join(work, table)
                pyarrow.parquet.write_table(arrow_table(connection, table), made)
                check_replaceable(written)
                os.replace(made, written)
    except OSError as fault:
        raise entry.Fault(f"{folder} can't be written: {fault.strerror or fault}") from None
    finally:
        connection.close()


def arrow_table(connection: Any, table: Any) -> Any:
    fields = [(name, pyarrow.int64() if kind == "INTEGER" else pyarrow.string())
              for _, name, kind, *_ in connection.execute(f"PRAGMA table_info({table})")]
    rows = connection.execute(f"SELECT * FROM {table} ORDER BY rowid").fetchall()
    columns = list(zip(*rows)) or [()] * len(fields)
    return pyarrow.table([pyarrow.array(column, kind) for column, (_, kind) in zip(columns, fields)],
                         schema=pyarrow.schema(fields, metadata=MARK))
