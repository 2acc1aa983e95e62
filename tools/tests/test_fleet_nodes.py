"""The tests of the worst nodes of a fleet, of a line for each cause, and of its metrics."""

import json
import os
import re
import shutil
import sqlite3
import stat
import subprocess
import sys
import tempfile

import cases
from checks import HERE, TOOLS, TOP, expect, expect_kept, expect_refused, read, run
from joined_plays import Folder, records

load_tests = cases.loaded(__name__)

FLEET = f"{TOOLS}/fleet"
KEPT = f"{HERE}/fleet"
DASHBOARD = f"{TOP}/docs/fleet.dashboard.json"
TRACES = {
    "kubelet": f"{HERE}/whys/kubelet/trace", "reasons": f"{HERE}/recordings/reasons/trace",
    "oom": f"{TOP}/examples/recorded/out_of_memory.trace", "kill": f"{TOP}/examples/liveness_kill.trace",
    "files": f"{HERE}/whys/file_system/trace", "pressure": f"{TOP}/examples/memory_pressure.trace",
}
PARSE = """
import sys
from prometheus_client.openmetrics.parser import text_string_to_metric_families
found = list(text_string_to_metric_families(sys.stdin.read()))
print(len(found), sum(len(family.samples) for family in found))
"""


def make_fleet(*words):
    """A folder with traces of several nodes, a database of them, and what was printed."""
    folder = tempfile.mkdtemp()
    os.mkdir(f"{folder}/traces")
    for name, path in TRACES.items():
        shutil.copy(path, f"{folder}/traces/{name}.trace")
    answer = run([FLEET, "run", f"{folder}/traces", "--out", f"{folder}/db", "--processes", "1", *words])
    return folder, answer


def test_fleet_nodes():
    folder, (status, told, said) = make_fleet("--by", "evicted")
    expect("fleet of nodes", (status, said), (0, ""))
    expect_kept("fleet of nodes: what it prints", told, f"{KEPT}/printed_nodes")
    for by in ("restarts", "unready"):
        told = run([FLEET, "worst", f"{folder}/db", "--by", by, "--top", "2"])[1]
        expect_kept(f"fleet of nodes by {by}: what it prints", told, f"{KEPT}/printed_nodes_{by}")
    connection = sqlite3.connect(f"{folder}/db")
    rows = connection.execute("SELECT first_moment, last_moment, pid_pressure_seconds FROM nodes WHERE node = 'node-a'")
    lines = [json.loads(line) for line in read(TRACES["oom"]).splitlines()]
    moments = [line["at"] for line in lines if line["kind"] == "tick"]
    expect("fleet: the moments of a node", rows.fetchall(), [(moments[0], moments[-1], 0)])
    connection.close()
    shutil.rmtree(folder)


def test_fleet_metrics():
    """The same at each run, whole where it is read, for an exporter that is another user; and the dashboard asks for
    what is there."""
    folder, _ = make_fleet()
    path = f"{folder}/fleet.prom"
    status, told, said = run([FLEET, "worst", f"{folder}/db", "--metrics", path])
    expect("fleet --metrics", (status, said, "Worst nodes" in told), (0, "", True))
    expect_kept("fleet --metrics: the file", read(path), f"{KEPT}/metrics.prom")
    expect("fleet --metrics: who may read it", stat.S_IMODE(os.stat(path).st_mode), 0o644)
    expect("fleet --metrics again", run([FLEET, "worst", f"{folder}/db", "--metrics", path]), (0, told, ""))
    left = sorted(os.listdir(folder))
    expect("fleet --metrics leaves nothing behind", left, ["db", "db.done", "fleet.prom", "traces"])
    named = set(re.findall(r"^# TYPE (\w+) gauge$", read(path), re.M))
    asked = set(re.findall(r"kubelet_replay_\w+", json.dumps([panel["targets"] for panel in
                                                             json.loads(read(DASHBOARD))["panels"]])))
    expect("the dashboard asks for metrics that are there", asked - named, set())
    for python in (sys.executable, "/usr/bin/python3"):
        done = subprocess.run([python, "-c", PARSE], input=read(path), capture_output=True, text=True, check=False)
        if "No module" not in done.stderr:
            samples = sum(not line.startswith("#") for line in read(path).splitlines())
            expect("fleet --metrics: as OpenMetrics", (done.stdout, done.stderr), (f"{len(named)} {samples}\n", ""))
            break
    else:
        print("left out: metrics by a parser, since python3-prometheus-client is missing")
    shutil.rmtree(folder)


def test_fleet_metrics_of_others():
    """No file is replaced but metrics of a fleet."""
    folder, _ = make_fleet()
    with open(f"{folder}/other", "w", encoding="utf-8") as file:
        file.write("# TYPE node_load1 gauge\nnode_load1 1\n")
    os.mkfifo(f"{folder}/pipe")
    for name, said in (("other", "has no metrics of kubelet-replay fleet"), ("pipe", "has no metrics"),
                       ("db", "has no metrics"), ("traces", "has no metrics"),
                       ("none/fleet.prom", "no folder that can be written to")):
        words = [FLEET, "worst", f"{folder}/db", "--metrics", f"{folder}/{name}"]
        expect_refused(f"fleet --metrics over {name}", run(words), 2, said)
    expect("the file of another stays", read(f"{folder}/other").startswith("# TYPE node_load1"), True)
    answer = run([FLEET, "run", f"{folder}/traces", "--out", f"{folder}/new.db", "--metrics", f"{folder}/other"])
    expect_refused("fleet run --metrics over another file", answer, 2, "has no metrics of kubelet-replay fleet")
    expect("nothing is replayed then", os.path.exists(f"{folder}/new.db.done"), False)
    shutil.rmtree(folder)


def asked(database, query):
    connection = sqlite3.connect(database)
    try:
        return connection.execute(query).fetchall()
    finally:
        connection.close()


def found_trace(node, line, before):
    """A trace that begins with a container that had exited twice, which then exits once more; ahead of the first look
    so many ticks show what was known."""
    pod = {"metadata": {"name": "web", "namespace": "shop"}, "spec": {"containers": [{"name": "app"}]}}
    listings = [{"attempt": 1, "state": "CONTAINER_EXITED", "exitCode": 3, "reason": "Error"},
                {"attempt": 2, "state": "CONTAINER_RUNNING"},
                {"attempt": 2, "state": "CONTAINER_EXITED", "exitCode": 4, "reason": "Error"}]
    ticks = [(1767225600 - back, listings[0], {}) for back in range(before, 0, -1)]
    ticks.append((1767225600, listings[1 if before else 0], {"memory.available": 2 ** 32}))
    ticks += [(1767225600 + 30 * place, each, {}) for place, each in enumerate(listings) if place]
    lines = [{"kind": "node", "version": 3, "name": "n1", **node}, {"kind": "pod", "pod": pod, **line},
             *({"kind": "tick", "at": at, "pods": [{"pod": "shop/web", "containers": [{"name": "app", **each}]}],
                "signals": signals} for at, each, signals in ticks)]
    return "".join(f"{json.dumps(line)}\n" for line in lines)


def test_what_a_recorder_found():
    """Of a trace of a recorder that follows no other, its first ticks show what the recorder found: those deaths and
    restarts are not counted again, whatever it recorded of the kubelet."""
    found, all_of_it = ([("4", 1)], [(1,)]), ([("3", 1), ("4", 1)], [(2,)])
    alone = {"uid": "uid-web", "guessed": ["manifest"]}
    for name, node, line, before, wanted in (
            ("recorded", {"recordsKubelet": True}, {}, 0, found), ("made up", {}, {}, 0, all_of_it),
            ("of the runtime alone", {}, alone, 0, found), ("imported", {"imported": True}, alone, 0, all_of_it),
            ("with what its statuses say", {"recordsKubelet": True}, {"uid": "uid-web"}, 2, ([("4", 1)], [(0,)]))):
        with tempfile.TemporaryDirectory() as folder:
            with open(f"{folder}/n1.trace", "w", encoding="utf-8") as file:
                file.write(found_trace(node, line, before))
            answer = run([FLEET, "run", f"{folder}/n1.trace", "--out", f"{folder}/db", "--processes", "1"])
            connection = sqlite3.connect(f"{folder}/db")
            deaths = connection.execute("SELECT code, SUM(times) FROM causes WHERE cause = 'died' GROUP BY code")
            restarts = connection.execute("SELECT restarts_since FROM pods")
            got = [(str(code), times) for code, times in deaths.fetchall()], restarts.fetchall()
            connection.close()
            expect(f"what a recorder found, {name}", (answer[0], answer[2], got), (0, "", wanted))


def trace_of(begin, uid, listings):
    """A trace of a recorder that lists a pod with each of some attempts, states and codes, (None for no pod yet)."""
    pod = {"metadata": {"name": "web", "namespace": "shop"}, "spec": {"containers": [{"name": "app"}]}}
    lines, has_pod = [{"kind": "node", "version": 3, "name": "n1", "recordsKubelet": True}], False
    for place, listed in enumerate(listings):
        if listed and not has_pod:
            lines.append({"kind": "pod", "uid": uid, "pod": pod})
            has_pod = True
        attempt, state, code = listed or (0, "", 0)
        shown = {"name": "app", "attempt": attempt, "state": f"CONTAINER_{state}",
                 **({"exitCode": code, "reason": "Error"} if state == "EXITED" else {})}
        lines.append({"kind": "tick", "at": begin + 10 * place, "signals": {"memory.available": 2 ** 32},
                      "pods": [{"pod": "shop/web", "containers": [shown]}] if listed else []})
    return "".join(f"{json.dumps(line)}\n" for line in lines)


def test_pods_of_older_traces():
    """A pod that comes into a trace later, as of a kubelet that has just started, and that an earlier trace of its node
    has by its uid: what its first tick shows was counted there. Another one of its name is new."""
    older = [(1, "RUNNING", 0), (1, "EXITED", 3), (2, "RUNNING", 0), (2, "EXITED", 4)]
    newer = [None, None, (2, "EXITED", 4), (3, "RUNNING", 0), (3, "EXITED", 5)]
    for uid, wanted in (("uid-web", [(3, 1), (4, 1), (5, 1)]), ("uid-other", [(3, 1), (4, 2), (5, 1)])):
        with tempfile.TemporaryDirectory() as folder:
            # the names of the files show nothing of their order
            for name, text in (("b", trace_of(1767225600, "uid-web", older)), ("a", trace_of(1767229200, uid, newer))):
                with open(f"{folder}/{name}.trace", "w", encoding="utf-8") as file:
                    file.write(text)
            words = [FLEET, "run", folder, "--out", f"{folder}/db", "--processes", "1"]
            for again in ("", ", again"):
                status, _, said = run(words)
                place = f"a pod of an older trace, {uid}{again}"
                expect(place, (status, said), (0, ""))
                expect(f"{place}: its deaths", asked(f"{folder}/db", "SELECT code, SUM(times) FROM causes "
                                                     "WHERE cause = 'died' GROUP BY code ORDER BY code"), wanted)
                expect(f"{place}: its rows", asked(f"{folder}/db", "SELECT COUNT(*), SUM(deaths) FROM pods"),
                       [(2, sum(times for _, times in wanted))])


def test_fleet_over_borders():
    """Traces one after the other, which gzip has packed, come to what they come to as one: no second, restart, death
    or kill counts twice, and none is lost."""
    with Folder() as folder:
        database = f"{folder.into.run}/db"
        one = records(folder.tell("json"))
        status, told, said = run([FLEET, "run", folder.path, "--out", database, "--processes", "2"])
        expect("fleet over borders", (status, said, told.split("\n")[0]),
               (0, "", "5 traces: 5 replayed, 0 refused, 0 failed; 2 pods on 1 node"))
        for kind, key, names in (("pod", "pod", ("unready_seconds", "deaths", "kills", "became_unready")),
                                 ("container", "pod", ("starts", "deaths", "kills", "came_again"))):
            wanted = sorted((line[key], *[line[name] for name in names]) for line in one if line["record"] == kind)
            sums = ", ".join(f"SUM({name})" for name in names)
            query = f"SELECT {key}, {sums} FROM {kind}s GROUP BY {key} ORDER BY 1"
            expect(f"fleet over borders: its {kind}s", asked(database, query), wanted)
        expect("fleet over borders: the seconds that were recorded",
               asked(database, "SELECT SUM(last_moment - first_moment) FROM nodes"), [(81,)])
        row = next(line.split() for line in told.split("\n") if line.split()[:2] == ["n1", "0.02"])
        expect("fleet over borders: the restarts of its node", row[2], "5")
        os.remove(folder.place(20))
        run([FLEET, "run", folder.path, "--out", database, "--processes", "2"])
        expect("fleet: a trace that nothing follows ends with its last tick", asked(
            database, "SELECT last_moment - first_moment FROM nodes ORDER BY first_moment"),
            [(15,), (20,), (20,), (1,)])
        shutil.copy(folder.place(0), f"{folder.path}/copy.trace.gz")
        told = run([FLEET, "run", folder.path, "--out", database, "--processes", "2"])[1]
        expect("fleet: a copy of a packed trace", told.split("\n")[0],
               "5 traces: 4 replayed, 0 refused, 0 failed, 1 copy of others; 2 pods on 1 node")
        folder.write("copy.trace", folder.text(0))
        told = run([FLEET, "run", folder.path, "--out", database, "--processes", "2"])[1]
        expect("fleet: a packed trace and what it was are copies", told.split(";")[0],
               "6 traces: 4 replayed, 0 refused, 0 failed, 2 copies of others")
        with open(f"{folder.path}/cut.trace.gz", "wb") as file, open(folder.place(0), "rb") as whole:
            file.write(whole.read()[:200])
        status, told, said = run([FLEET, "run", folder.path, "--out", database, "--processes", "2"])
        expect("fleet of a damaged trace", (status, said, "it is damaged, and can't be unpacked" in told),
               (1, "fleet: 1 trace failed; the table traces has the reason, and a further run tries it again\n", True))
