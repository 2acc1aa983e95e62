"""The worst pods of a fleet's database, its evictions by signal, and the traces that have no report."""

from __future__ import annotations

import os
import sqlite3
from collections.abc import Iterator

from replay_tools import entry, telling
from replay_tools.explain import beside
from replay_tools.fleet import database, nodes
from replay_tools.summary import Worst

WORST = "worst"
# evictions are by the kubelet, where the trace shows what it did, else by the rules
MEASURES = {WORST: "badness", "restarts": "restarts", "unready": "unready_seconds", "evicted": "evictions"}
# how far its worst is before nothing, by the order that all tools have; that it exited by itself is nothing bad
BADNESS = "CASE worst " + " ".join(f"WHEN '{kind.value}' THEN {Worst.NOTHING.place - kind.place}" for kind in Worst
                                   if kind not in (Worst.EXITED, Worst.NOTHING)) + " ELSE 0 END"
# a pod that is in more than one trace is one pod: its restarts are counted on by the kubelet, the others are summed
PODS = f"""
SELECT * FROM (
SELECT node, pod, MAX(badness) AS badness, MAX(restarts) AS restarts, SUM(unready_seconds) AS unready_seconds,
       SUM(COALESCE(by_kubelet, by_rules)) AS evictions, SUM(by_kubelet) AS by_kubelet, SUM(by_rules) AS by_rules,
       GROUP_CONCAT(signals) AS signals, COUNT(*) AS traces
FROM (SELECT report, node, pod, MAX({BADNESS}) AS badness, SUM(restarts) AS restarts,
             SUM(unready_seconds) AS unready_seconds,
             COUNT(evicted_at) AS by_rules, GROUP_CONCAT(evicted_signal) AS signals,
             (SELECT CASE WHEN tells_kubelet THEN (
                  SELECT COUNT(*) FROM decisions WHERE decisions.report = pods.report AND decisions.pod = pods.pod
                  AND decision = 'evicted' AND pod_number IS NOT NULL) END
              FROM nodes WHERE nodes.report = pods.report) AS by_kubelet
      FROM pods GROUP BY report, node, pod)
GROUP BY node, pod)
WHERE {{measure}} > 0 ORDER BY {{order}}, node, pod LIMIT ?
"""
WORDS = f"SELECT worst_words FROM pods WHERE node = ? AND pod = ? ORDER BY {BADNESS} DESC, worst_at LIMIT 1"
SIGNALS = """
SELECT signal, kind, COUNT(*), COUNT(DISTINCT node || ' ' || pod), COUNT(DISTINCT node) FROM evictions
GROUP BY signal, kind ORDER BY COUNT(*) DESC, signal, kind
"""
DECISIONS = """
SELECT decision, COUNT(*), COUNT(DISTINCT node || ' ' || pod), COUNT(DISTINCT node), SUM(agrees) FROM decisions
GROUP BY decision ORDER BY decision
"""
FAULTS = """
SELECT status, fault, COUNT(*), MIN(report), line, path FROM traces WHERE status IN ('refused', 'failed')
GROUP BY status, fault ORDER BY COUNT(*) DESC, status, fault
"""
REFUSED = """
SELECT fault, MIN(report), path, line, code FROM traces WHERE status = 'refused' AND line > 0 GROUP BY fault
ORDER BY COUNT(*) DESC, fault
"""
COUNTS = """
SELECT (SELECT COUNT(*) FROM traces), (SELECT COUNT(*) FROM traces WHERE status = 'replayed'),
       (SELECT COUNT(*) FROM traces WHERE status = 'refused'), (SELECT COUNT(*) FROM traces WHERE status = 'failed'),
       (SELECT COUNT(*) FROM traces WHERE status = 'copy'),
       (SELECT COUNT(DISTINCT node || ' ' || pod) FROM pods), (SELECT COUNT(DISTINCT node) FROM nodes)
"""


def text(path: str, by: str, top: int) -> str:
    """What is in a database, by one of the measures."""
    connection = database.open_database(path)
    try:
        return "\n".join(lines_of(connection, by, top)[:-1]) + "\n"
    except sqlite3.Error as fault:
        raise entry.Fault(f"{path} is no whole database of kubelet-replay fleet: {fault}") from None
    finally:
        connection.close()


def lines_of(connection: sqlite3.Connection, by: str, top: int) -> list[str]:
    """What a database has: the worst pods by a measure, evictions by signal, and traces without a report."""
    lines = [counts_text(*next(connection.execute(COUNTS))), ""]
    order = [MEASURES[by], *(measure for name, measure in MEASURES.items() if name != by)]
    query = PODS.format(measure=order[0], order=", ".join(f"{measure} DESC" for measure in order))
    pods = [[node, pod, str(restarts), str(unready), "-" if by_kubelet is None else str(by_kubelet), str(by_rules),
             distinct(signals), str(traces), words_of(connection, node, pod)]
            for node, pod, _, restarts, unready, _, by_kubelet, by_rules, signals, traces
            in connection.execute(query, [top]).fetchall()]
    lines += table(f"Worst pods{'' if by == WORST else f', by {by}'}", HEADS, pods)
    lines += table(f"Worst nodes, by {nodes.MEASURES.get(by, by)} an hour of recording", nodes.HEADS,
                   list(nodes.worst_rows(connection, by, top)))
    lines += ["Causes, those on the most nodes first", *(nodes.causes(connection, top) or ["  none"]), ""]
    signals = [[row[0], row[1], *map(str, row[2:])] for row in connection.execute(SIGNALS)]
    decisions = [[row[0], *map(str, row[1:4]), "-" if row[4] is None else str(row[4])]
                 for row in connection.execute(DECISIONS)]
    if decisions:
        lines += table("What the kubelet did", ["decision", "times", "pods", "nodes", "the rules agree"], decisions)
    lines += table("Evictions by the rules, by signal", ["signal", "kind", "evictions", "pods", "nodes"], signals)
    faults = [[status, fault, str(count), str(line) if line else "-", path]
              for status, fault, count, _, line, path in connection.execute(FAULTS)]
    if faults:
        lines += table("Traces without a report",
                       ["status", "fault", "traces", "line of the first", "the first"], faults)
        lines += table("What the fault of the first means (kubelet-replay explain shows the line)",
                       ["fault", "meaning"],
                       list(meanings(connection)))
    return lines


HEADS = ["node", "pod", "restarts", "unready s", "evicted by kubelet", "by the rules", "signals", "traces",
         "worst event"]


def words_of(connection: sqlite3.Connection, node: str, pod: str) -> str:
    """The worst that happened to a pod over its traces, in words."""
    [[said]] = connection.execute(WORDS, [node, pod])
    return said or "-"


def meanings(connection: sqlite3.Connection) -> Iterator[list[str]]:
    """Of each fault what the rejection of its first trace means, as far as that trace can still be read."""
    for fault, _, path, line, code in connection.execute(REFUSED):
        # what is there by now may be a pipe, for which it would wait
        said = beside.meaning_of(path, line, code, fault) if os.path.isfile(path) else None
        if said:
            yield [fault, said]


def counts_text(traces: int, replayed: int, refused: int, failed: int, copies: int, pods: int, nodes: int) -> str:
    return (f"{entry.counted(traces, 'trace')}: {replayed} replayed, {refused} refused, {failed} failed"
            + (f", {entry.counted(copies, 'copy')} of others" if copies else "")
            + f"; {entry.counted(pods, 'pod')} on {entry.counted(nodes, 'node')}")


def table(title: str, heads: list[str], rows: list[list[str]]) -> list[str]:
    """A table of what a database has, in which a file's name may be anything."""
    return telling.table(title, heads, [[entry.visible(cell) for cell in row] for row in rows])


def distinct(signals: str | None) -> str:
    return ", ".join(sorted(set(signals.split(",")))) if signals else "-"
