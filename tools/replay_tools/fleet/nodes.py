"""The worst nodes of a fleet's database, and the causes of what went wrong on them."""

from __future__ import annotations

from collections.abc import Iterator
from sqlite3 import Connection
from typing import Any

from replay_tools import entry, kubelet as kubelets, traces

# what a node is worst by, an hour of recording; the seconds of recording are those between a trace's ticks
ORDERS = {"worst": "bad", "restarts": "restarts", "unready": "unready", "evicted": "evicted"}
# in words, where the word of the measure is none
MEASURES = {"worst": "pods that were ended, killed or crashed,"}
# an instance that a trace begins with is no restart of it, and was counted in the trace before, where that is there
NODES = """
WITH recorded AS (
    SELECT node, SUM(last_moment - first_moment) AS seconds, SUM(memory_pressure_seconds) AS memory,
           SUM(disk_pressure_seconds) AS disk, SUM(pid_pressure_seconds) AS pid,
           SUM(CASE WHEN tells_kubelet THEN (
                   SELECT COUNT(*) FROM decisions WHERE decisions.report = nodes.report AND decision = 'evicted'
                   AND pod_number IS NOT NULL) ELSE evictions END) AS evicted
    FROM nodes GROUP BY node),
ran AS (SELECT node, SUM(came_again) AS restarts, SUM(kills) AS kills FROM containers GROUP BY node),
were AS (SELECT node, SUM(unready_seconds) AS unready,
                SUM(worst IN ('ended', 'killed', 'crashed_and_not_ready', 'crashed')) AS bad FROM pods GROUP BY node)
SELECT node, COALESCE(seconds, 0) AS seconds, COALESCE(restarts, 0) AS restarts, COALESCE(kills, 0) AS kills,
       evicted, COALESCE(unready, 0) AS unready, COALESCE(bad, 0) AS bad, memory, disk, pid
FROM recorded LEFT JOIN ran USING (node) LEFT JOIN were USING (node)
"""
WORST = """
SELECT node, seconds, restarts, kills, evicted, memory, disk, pid FROM ({nodes})
WHERE restarts + kills + evicted + memory + disk + pid + unready > 0 AND {measure} > 0
ORDER BY {order}, node LIMIT ?
"""
BY_SIGNAL = "SELECT signal, COUNT(*) FROM evictions WHERE node = ? GROUP BY signal ORDER BY COUNT(*) DESC, signal"
PRESSED = """
SELECT SUBSTR(signal, 1, INSTR(signal, '.') - 1), COUNT(DISTINCT evictions.node), COUNT(*)
FROM evictions JOIN nodes USING (report) WHERE tells_kubelet IS NULL GROUP BY 1
"""
ENDED = """
SELECT reason, COUNT(DISTINCT node), COUNT(DISTINCT node || ' ' || pod) FROM decisions WHERE decision = 'ended'
GROUP BY reason
"""
DELETED = """
SELECT deleted_by, COUNT(DISTINCT node), COUNT(DISTINCT node || ' ' || pod) FROM pods WHERE deleted_at IS NOT NULL
GROUP BY deleted_by
"""
DID = "SELECT node, reason, message FROM decisions WHERE decision = 'evicted'"
UNDER = """
SELECT COUNT(DISTINCT node), SUM({column}) FROM nodes
WHERE {column} > 0 AND report NOT IN (SELECT report FROM evictions)
      AND report NOT IN (SELECT report FROM decisions WHERE decision = 'evicted')
"""
CONTAINERS = "COUNT(DISTINCT node || ' ' || pod || ' ' || container)"
DIED = f"""
SELECT reason, code, COUNT(DISTINCT node), SUM(times), {CONTAINERS} FROM causes
WHERE cause = 'died' AND COALESCE(code, 137) <> 0 GROUP BY reason, code
"""
WAITED = f"""
SELECT reason, COUNT(DISTINCT node), SUM(seconds), {CONTAINERS} FROM causes
WHERE cause = 'waited' AND reason NOT IN ('ContainerCreating', 'PodInitializing') GROUP BY reason
"""
KILLED = "SELECT COUNT(DISTINCT node), SUM(kills), COUNT(DISTINCT node || ' ' || pod) FROM pods WHERE kills > 0"
CONDITIONS = {"MemoryPressure": "memory_pressure_seconds", "DiskPressure": "disk_pressure_seconds",
              "PIDPressure": "pid_pressure_seconds"}
RESOURCES = {"memory": "memory", "ephemeral-storage": "disk", "inodes": "inode", "pids": "PID", "pid": "PID"}


def worst_rows(connection: Connection, by: str, top: int) -> Iterator[list[str]]:
    """The worst nodes by a measure: name, hours, restarts, kills, evictions, their signals, and the seconds of each
    pressure an hour of recording."""
    order = [ORDERS[by], *(measure for measure in ("evicted", "memory + disk + pid", "restarts", "kills")
                           if measure != ORDERS[by])]
    query = WORST.format(nodes=NODES, measure=order[0],
                         order=", ".join(f"({measure}) * 3600.0 / MAX(seconds, 1) DESC" for measure in order))
    for node, seconds, restarts, kills, evicted, *pressures in connection.execute(query, [top]).fetchall():
        signals = [f"{signal} {count}" for signal, count in connection.execute(BY_SIGNAL, [node])]
        hourly = [str(round(pressed * 3600 / max(seconds, 1))) for pressed in pressures]
        yield [node, f"{seconds / 3600:.2f}", *map(str, (restarts, kills, evicted)), ", ".join(signals) or "-", *hourly]


HEADS = ["node", "hours", "restarts", "kills", "evicted", "by the rules for", "memory s/h", "disk s/h", "PID s/h"]


# --- causes ---


def causes(connection: Connection, top: int) -> list[str]:
    """A line for each cause, the one on the most nodes first."""
    found = [*pressed(connection), *ended(connection), *deleted(connection), *under_pressure(connection),
             *died(connection), *waited(connection), *killed(connection)]
    return [f"  {entry.visible(said)}" for _, said in sorted(found, key=lambda cause: (*cause[0], cause[1]))[:top]]


def cause(nodes: int, times: int, what: str, rest: str) -> tuple[tuple[int, int], str]:
    """Its place, and its line."""
    return (-nodes, -times), f"{what} on {entry.counted(nodes, 'node')}, {rest}"


def pressed(connection: Connection) -> Iterator[tuple[tuple[int, int], str]]:
    """Evictions: by the kubelet where a trace shows it, else by the rules."""
    for resource, nodes, times in connection.execute(PRESSED):
        yield cause(nodes, times, f"{RESOURCES.get(resource, resource)} pressure", entry.counted(times, "eviction"))
    by_resource: dict[str, Any] = {}
    for node, reason, message in connection.execute(DID):
        decision = traces.Decision("evicted", 0, "", None, reason, message)
        resource = kubelets.resource_of(decision)
        what = f"{RESOURCES.get(resource, resource)} pressure" if resource else \
            "a limit of a pod's own" if kubelets.is_own_limit(decision) else "a cause that the kubelet alone names"
        by_resource.setdefault(what, []).append(node)
    for what, named in by_resource.items():
        yield cause(len(set(named)), len(named), what, f"{entry.counted(len(named), 'eviction')} by the kubelet")


def ended(connection: Connection) -> Iterator[tuple[tuple[int, int], str]]:
    """Pods that the kubelet ended for other reasons."""
    for reason, nodes, pods in connection.execute(ENDED):
        yield cause(nodes, pods, kubelets.reason_words(reason), f"{entry.counted(pods, 'pod')} ended by the kubelet")


def deleted(connection: Connection) -> Iterator[tuple[tuple[int, int], str]]:
    for by, nodes, pods in connection.execute(DELETED):
        what = f"a deletion{traces.Deletion(0, by).words()}"
        yield cause(nodes, pods, what, f"{entry.counted(pods, 'pod')}")


def under_pressure(connection: Connection) -> Iterator[Any]:
    for condition, column in CONDITIONS.items():
        [[nodes, seconds]] = connection.execute(UNDER.format(column=column))
        if nodes:
            yield cause(nodes, 0, condition, f"for {seconds} s and without an eviction")


def died(connection: Connection) -> Iterator[tuple[tuple[int, int], str]]:
    for reason, code, nodes, times, containers in connection.execute(DIED):
        known = "code unknown" if code is None else f"code {code}"
        what = known if reason is None else f"{reason} ({known})"
        yield cause(nodes, times, what, f"{entry.counted(times, 'death')} of {entry.counted(containers, 'container')}")


def waited(connection: Connection) -> Iterator[Any]:
    for reason, nodes, seconds, containers in connection.execute(WAITED):
        yield cause(nodes, 0, reason, f"{entry.counted(containers, 'container')} waited for {seconds} s")


def killed(connection: Connection) -> Iterator[tuple[tuple[int, int], str]]:
    [[nodes, times, pods]] = connection.execute(KILLED)
    if nodes:
        orders = entry.counted(times, "kill order")
        yield cause(nodes, times, "a failing probe", f"{orders} to {entry.counted(pods, 'pod')}")
