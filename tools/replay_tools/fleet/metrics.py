"""What a fleet's database comes to as OpenMetrics text, as a node exporter reads it from a file. All are gauges: they
show what some hours that were recorded came to."""

from __future__ import annotations

import os
import sqlite3
import tempfile
from typing import Any

from replay_tools import entry
from replay_tools.fleet import database, nodes

# how each of these files begins
FIRST = b"# TYPE kubelet_replay_traces gauge\n"
# name, unit, what it is, the names of its labels, the query of label values and the value
FAMILIES = (
    ("traces", "", "traces by what became of them", ("status",),
     "SELECT status, COUNT(*) FROM traces GROUP BY status ORDER BY status"),
    ("recorded_seconds", "seconds", "how long a node was recorded, from the first tick of each trace to its last",
     ("node",), f"SELECT node, seconds FROM ({nodes.NODES}) ORDER BY node"),
    ("last_moment_seconds", "seconds", "the moment at which the recording of a node ends", ("node",),
     "SELECT node, MAX(last_moment) FROM nodes WHERE last_moment IS NOT NULL GROUP BY node ORDER BY node"),
    ("restarts", "", "instances that came after another one while a node was recorded", ("node",),
     f"SELECT node, restarts FROM ({nodes.NODES}) ORDER BY node"),
    ("kills", "", "kill orders of probes", ("node",), f"SELECT node, kills FROM ({nodes.NODES}) ORDER BY node"),
    ("unready_seconds", "seconds", "the seconds in which its pods were not ready, summed", ("node",),
     f"SELECT node, unready FROM ({nodes.NODES}) ORDER BY node"),
    ("evicted", "", "evictions, by the kubelet if a trace has them, else by the rules", ("node",),
     f"SELECT node, evicted FROM ({nodes.NODES}) ORDER BY node"),
    ("evictions_by_rules", "", "evictions by the rules", ("node", "signal", "kind"),
     "SELECT node, signal, kind, COUNT(*) FROM evictions GROUP BY node, signal, kind ORDER BY node, signal, kind"),
    ("pressure_seconds", "seconds", "for how long a condition of the node was true", ("node", "condition"),
     " UNION ALL ".join(f"SELECT node, '{condition}', SUM({column}) FROM nodes GROUP BY node"
                        for condition, column in nodes.CONDITIONS.items()) + " ORDER BY 1, 2"),
    ("deaths", "", "instances that died, by reason and code if a trace has them", ("node", "reason", "code"),
     "SELECT node, COALESCE(reason, ''), COALESCE(code, ''), SUM(times) FROM causes WHERE cause = 'died' "
     "GROUP BY 1, 2, 3 ORDER BY 1, 2, 3"),
    ("waiting_seconds", "seconds", "the seconds for which containers waited, by reason", ("node", "reason"),
     "SELECT node, COALESCE(reason, ''), SUM(seconds) FROM causes WHERE cause = 'waited' GROUP BY 1, 2 ORDER BY 1, 2"),
)


def text(connection: sqlite3.Connection) -> str:
    """The families of a database that is open."""
    lines = []
    for name, unit, says, labels, query in FAMILIES:
        whole = f"kubelet_replay_{name}"
        lines += [f"# TYPE {whole} gauge", *([f"# UNIT {whole} {unit}"] if unit else []), f"# HELP {whole} {says}"]
        for *values, value in connection.execute(query):
            told = ",".join(f'{label}="{escaped(str(of))}"' for label, of in zip(labels, values))
            lines.append(f"{whole}{{{told}}} {value}")
    return "\n".join([*lines, "# EOF"]) + "\n"


def escaped(value: Any) -> str:
    return value.replace("\\", "\\\\").replace("\n", "\\n").replace('"', '\\"')


def write(path: str, metrics: str) -> None:
    """Writes the metrics of a database to a file, which is replaced as a whole, since it may be read at any time."""
    connection = database.open_database(path)
    try:
        made = text(connection)
    except sqlite3.Error as fault:
        raise entry.Fault(f"{path} is no whole database of kubelet-replay fleet: {fault}") from None
    finally:
        connection.close()
    folder = os.path.dirname(os.path.abspath(metrics))
    try:
        with tempfile.TemporaryDirectory(dir=folder, prefix=".metrics-") as work:
            written = os.path.join(work, "metrics")
            with open(written, "w", encoding="utf-8") as file:
                file.write(made)
            os.chmod(written, 0o644)
            os.replace(written, metrics)
    except OSError as fault:
        raise entry.Fault(f"{metrics} can't be written: {fault.strerror}") from None


def check_replaceable(path: str) -> None:
    """Only metrics of a fleet are replaced by others."""
    if not os.path.lexists(path):
        folder = os.path.dirname(os.path.abspath(path))
        if not os.access(folder, os.W_OK | os.X_OK):
            raise entry.Fault(f"{path} can't be written: {folder} is no folder that can be written to")
        return
    is_ours = False
    if os.path.isfile(path):
        try:
            with open(path, "rb") as file:
                is_ours = file.read(len(FIRST)) in (FIRST, b"")
        except OSError as fault:
            raise entry.Fault(f"{path} can't be read: {fault.strerror}") from None
    if not is_ours:
        raise entry.Fault(f"{path} is there and has no metrics of kubelet-replay fleet")
