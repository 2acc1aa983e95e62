"""Counts what an imported trace has of what a kubelet did. `import_counts.py LEVEL[,LEVEL ..] FOLDER ..` prints a table
for each level of verbosity, and what is not in the trace. `import_counts.py keep FOLDER INTO` makes a recording of the
tests from a run. A run's folder has kubelet.log.xz, a log at -v=4, shown.jsonl.xz, the kubelet's /pods twice a second,
ctr-events.gz, the runtime's events, and watch.jsonl.gz, the pods' objects. bench/real_node --api itself counts the runs
that it keeps."""

import gzip
import json
import lzma
import os
import sys
import tempfile
import time

HERE = os.path.dirname(os.path.realpath(__file__))
TOP = os.path.dirname(os.path.dirname(HERE))
sys.dont_write_bytecode = True
sys.path[:0] = [f"{TOP}/tools", f"{TOP}/bench/lib/real_node"]

import beside
import counted
import from_log

KEPT_OF_SPEC = ("restartPolicy", "priority", "terminationGracePeriodSeconds", "nodeName")
KEPT_OF_CONTAINER = ("name", "resources", "livenessProbe", "readinessProbe", "startupProbe", "restartPolicy")


def read_lzma(path):
    with lzma.open(path, "rt", encoding="utf-8", errors="replace") as file:
        return file.read()


def read_gzip(path):
    with gzip.open(path, "rt", encoding="utf-8") as file:
        return file.read()


# --- what the kubelet did ---


def facts_of(folder):
    """What the kubelet did: of a recording of the tests, or of a whole run."""
    if os.path.exists(f"{folder}/facts.gz"):
        return beside.facts_from(read_gzip(f"{folder}/facts.gz"))
    return counted.real_facts(read_lzma(f"{folder}/shown.jsonl.xz"), read_lzma(f"{folder}/kubelet.log.xz"),
                              read_gzip(f"{folder}/ctr-events.gz"))


def pods_of(folder):
    """The manifests of all pods, without their statuses, in the form of a list."""
    if os.path.exists(f"{folder}/pods.json"):
        with open(f"{folder}/pods.json", encoding="utf-8") as file:
            return file.read()
    found = {}
    for line in read_gzip(f"{folder}/watch.jsonl.gz").splitlines():
        pod = json.loads(line)["object"]
        metadata, spec = pod["metadata"], pod["spec"]
        roles = {role: [{name: each[name] for name in KEPT_OF_CONTAINER if name in each} for each in spec[role]]
                 for role in ("initContainers", "containers") if role in spec}
        found[metadata["uid"]] = {
            "kind": "Pod", "metadata": {name: metadata[name] for name in ("name", "namespace", "uid")},
            "spec": {**{name: spec[name] for name in KEPT_OF_SPEC if name in spec}, **roles}}
    return json.dumps({"kind": "PodList", "items": list(found.values())}, separators=(",", ":"))


# --- next to what is imported ---


def imported(folder, level, replay):
    """What is made of a run's log at a level, next to what the kubelet did."""
    with tempfile.TemporaryDirectory() as made:
        facts, log = facts_of(folder), from_log.at_level(read_lzma(f"{folder}/kubelet.log.xz"), level)
        from_log.import_log(log, pods_of(folder), time.gmtime(facts[0].moment).tm_year, f"{made}/log", replay)
        return from_log.compared(facts, f"{made}/log")


def table_of(folders, level, replay):
    """The counts of runs at a level, as lines of a table; and what differs."""
    found = [imported(folder, level, replay) for folder in folders]
    rows = counted.added(row for each in found for row in each.rows)
    wrong = [fact for each in found for fact in each.unmarked]
    return counted.table_of(rows) + [f"{from_log.MARKED:38}{len(wrong)}"], [
        f"{row.name}: {difference}" for row in rows for difference in row.differences] + [
        f"{from_log.MARKED}: {fact.pod} {fact.container} {fact.what}" for fact in wrong]


def keep(folder, into):
    """Makes a recording of the tests out of a run."""
    os.makedirs(into, exist_ok=True)
    with open(f"{into}/pods.json", "w", encoding="utf-8") as file:
        file.write(pods_of(folder))
    with gzip.GzipFile(f"{into}/facts.gz", "wb", 9, mtime=0) as file:
        file.write(beside.text_of(facts_of(folder)).encode())
    with open(f"{folder}/kubelet.log.xz", "rb") as file, open(f"{into}/kubelet.log.xz", "wb") as copy:
        copy.write(file.read())


def main(words):
    if words[0] == "keep":
        keep(*words[1:])
        return 0
    replay = os.environ.get("KUBELET_REPLAY") or f"{TOP}/kubelet_replay"
    for level in map(int, words[0].split(",")):
        table, differences = table_of(words[1:], level, replay)
        print(f"-v={level}", *table, *differences, "", sep="\n")
    return 0


if __name__ == "__main__":
    sys.exit(main(sys.argv[1:]))
