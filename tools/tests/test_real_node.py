"""The tests of bench/real_node: what its run is compared with, what it keeps, and that it leaves nothing running."""

import gzip
import json
import os
import re
import shutil
import signal
import subprocess
import sys
import tempfile
import time

import cases
from checks import HERE, LONGEST, REPLAY, TOP, expect, expect_kept, read, run, wait_until

import test_connections
import beside
import counted
import ending
import restarts
import trimmed

load_tests = cases.loaded(__name__)

PARTS = f"{TOP}/bench/lib/real_node"
RECORDING = f"{HERE}/recordings/real_node"
KEPT_RUNS = ("real_evictions", "real_soft_run")
# a pod that came again while the one before it under its name ran on
LATE = {("real_soft_run", "starts"): 1}
PAGE = f"{TOP}/docs/real.md"
KINDS = {"starts": "started", "exits": "died", "kills by a liveness probe": "kill", "ready": "ready",
         "unready": "unready"}
# between the order of the replay and the kubelet's kill, in both runs, as docs/real.md and docs/profile.md have it
STARTUP_SECONDS = (45, 71)


# --- what a kubelet showed next to the report ---


def recorded_facts(recording=RECORDING):
    with gzip.open(f"{recording}/shown.gz", "rt", encoding="utf-8") as file:
        return beside.facts_from(file.read())


def test_real_node():
    """What a real kubelet showed is in its recording's report within two seconds, and docs/real.md has the table."""
    lines = []
    expect("real_node: each fact is near one of the report's",
           beside.show_beside(recorded_facts(), read(f"{RECORDING}/report"), lines.append), True)
    table = "".join(f"{line}\n" for text in lines for line in text.split("\n"))
    before, _, rest = read(PAGE).partition("<!-- the table -->\n")
    _, _, after = rest.partition("<!-- end of the table -->\n")
    expect_kept("real_node: the table in docs", f"{before}<!-- the table -->\n```\n{table.strip()}\n```\n"
                f"<!-- end of the table -->\n{after}", PAGE)


def test_real_counts():
    """The counts of the second run in docs/real.md are the counts of the recording."""
    pairs, left = beside.paired(recorded_facts(), beside.report_facts(read(f"{RECORDING}/report")))
    # the first table of the page; the second one is of other runs
    table = read(PAGE).partition("| unready |")
    rows = dict(re.findall(r"^\| ([a-z ]+) \| \d+ of \d+ \| (\d+ of \d+) \|$", "".join(table[:2]) +
                           table[2].partition("\n")[0], re.MULTILINE))
    counted, apart = {}, []
    for name, kind in KINDS.items():
        of_kind = [abs(found.moment - fact.moment) if found else None
                   for fact, found in pairs if beside.kind_of(fact) == kind]
        apart += of_kind
        counted[name] = f"{sum(each is not None and each <= 1 for each in apart[-len(of_kind):])} of {len(of_kind)}"
    expect("real_node: the counts in docs", rows, counted)
    expect("real_node: at most a second apart", set(apart), {0, 1})
    expect("real_node: no fact of the report alone", {beside.kind_of(fact) for fact in left}, {"kill startup"})
    late = [fact.moment - found.moment for fact, found in pairs if beside.kind_of(fact) == "kill startup"]
    least, most = STARTUP_SECONDS
    expect("real_node: kills of the startup probe", all(least <= each <= most for each in late), True)
    for page in ("real", "profile"):
        expect(f"real_node: their delay in docs/{page}.md", f"{least} to {most} s later" in
               " ".join(read(f"{TOP}/docs/{page}.md").split()), True)


def played(recording):
    """The trace of a recording's answers, as a file of a folder; the folder, the status and the path."""
    folder = tempfile.mkdtemp()
    status, trace, _ = run([f"{HERE}/commands/played_record", *read(f"{recording}/words").split()],
                           RUN=folder, PATH=f"{HERE}/commands:{os.environ['PATH']}", RECORDING=recording)
    with open(f"{folder}/trace", "w", encoding="utf-8") as file:
        file.write(trace)
    return folder, status, f"{folder}/trace"


def counted_anew(recording):
    """The rows of a recording, its restarts and the exits with a false code."""
    folder, status, path = played(recording)
    real, (report, trace) = recorded_facts(recording), counted.read_run(path, read(f"{recording}/report"))
    said = counted.said_facts(report, trace)
    rows = counted.counts_of_facts(real, said, trace.ticks[0].at, trace.ticks[-1].at)
    shutil.rmtree(folder)
    expect(f"{recording}: it is played", status, 0)
    return rows, restarts.restarts_of(real, report, trace), list(counted.false_codes(real, said))


def test_real_evictions():
    """What a kubelet did whose pods came by an API server is counted again, as docs/real.md has it: each start and exit
    is in the report, each eviction is there, and nobody else is ended."""
    for name in KEPT_RUNS:
        rows, ordered, codes = counted_anew(f"{HERE}/recordings/{name}")
        expect(f"{name}: false codes", codes, [])
        table = "\n".join([*counted.table_of(rows), ordered.text(), *ordered.never])
        before, _, rest = read(PAGE).partition(f"<!-- the counts of {name} -->\n")
        _, _, after = rest.partition("<!-- end of the counts -->\n")
        expect_kept(f"{name}: the counts in docs", f"{before}<!-- the counts of {name} -->\n```\n{table}\n```\n"
                    f"<!-- end of the counts -->\n{after}", PAGE)
        by_name = {row.name: row for row in rows}
        for kind in ("starts", "exits with their codes", "evictions shown as a fact", "pods ended as evicted"):
            row = by_name[kind]
            expect(f"{name}: {kind}", (row.near, row.false), (row.real - LATE.get((name, kind), 0), 0))


def test_real_rounds():
    """Each round of the kubelet's log has a sync tick, within a second of its sample, and of the other ticks only the
    first one is one. The log comes from a run with a grace period, whose rounds are in a file."""
    recording = f"{HERE}/recordings/real_soft_run"
    folder, _, path = played(recording)
    ticks = [json.loads(line) for line in read(path).splitlines() if '"kind":"tick"' in line]
    shutil.rmtree(folder)
    judged = [tick["at"] for tick in ticks if tick.get("judged") is not False]
    made = [int(line) for line in read(f"{recording}/rounds").split() if int(line) > judged[0]]
    expect("real rounds: as many", len(judged) - 1, len(made))
    apart = [at for at, round_at in zip(judged[1:], made) if abs(at - round_at) > 1]
    expect("real rounds: at their moments", apart, [])


# --- the answers that a run keeps ---


def test_captured_answers():
    """What the recorder was given is kept, and made into a recording that gives the same trace."""
    folder = tempfile.mkdtemp()
    words = "--node worker-3 --standard --every 1 --look 1 --ticks 2".split()
    settings = {"PATH": f"{HERE}/commands:{os.environ['PATH']}", "RECORDING": f"{HERE}/recordings/crash_loop",
                "RUN": folder}
    status, trace, said = run([sys.executable, f"{PARTS}/captured.py", f"{folder}/answers.jsonl", *words], **settings)
    expect("captured: the trace", (status, trace.count('"kind":"tick"'), said), (0, 2, ""))
    kept = [json.loads(line) for line in read(f"{folder}/answers.jsonl").splitlines()]
    expect("captured: each command", [" ".join(entry["words"]) for entry in kept if "now" not in entry],
           read(f"{folder}/asked").splitlines())
    made = run([sys.executable, f"{PARTS}/trimmed.py", f"{folder}/answers.jsonl", f"{folder}/answers.jsonl.gz"])
    expect("trimmed: it is made", made, (0, "", ""))
    again = run([f"{HERE}/commands/played_record", *words], **{**settings, "RECORDING": folder})
    expect("trimmed: the trace of the recording", again, (0, trace, ""))
    shutil.rmtree(folder)


def test_captured_kubelet():
    """A kubelet at an address is asked by one connection, and once by another one for when it was started; what it
    answers is kept as what curl would give."""
    if not test_connections.has_openssl():
        return
    place = test_connections.Place()
    kubelet = test_connections.Kubelet(place.folder)
    curl = place.curl_file(f'header = "Authorization: {test_connections.TOKEN}"\ninsecure\n')
    words = ["--node", "worker-3", "--extended", "--kubelet", kubelet.url, "--curl", curl, "--for", "2"]
    status, trace, said = run([sys.executable, f"{PARTS}/captured.py", f"{place.folder}/answers.jsonl", *words],
                              **place.settings)
    expect("captured of an address: the trace", (status, trace[:14], said), (0, '{"kind":"node"', ""))
    expect("captured of an address: connections", (kubelet.connections, place.asked()["curl"]), (2, 0))
    kept = [json.loads(line) for line in read(f"{place.folder}/answers.jsonl").splitlines()]
    kinds = {trimmed.kind_of(entry["words"]) for entry in kept if "answer" in entry}
    expect("captured of an address: each kind", kinds >= {"pods", "summary", "probes", "configz", "ps"}, True)
    kubelet.end()
    place.remove()


def test_trimmed_answers():
    """A poll has the answers that are others than before, without the fields that the recorder does not read."""
    states = {"lastState": {"terminated": {"exitCode": 1, "reason": "Error", "message": "its own words"}},
              "state": {"waiting": {"reason": "CrashLoopBackOff", "message": "back-off 10s", "more": 1}}}
    gate = {"type": "balancer", "status": "True"}
    pod = {"metadata": {"name": "a", "uid": "1", "labels": {}, "deletionGracePeriodSeconds": 4},
           "status": {"phase": "Running", "hostIP": "10.0.0.1", "containerStatuses": [{"name": "c", "x": 0, **states}],
                      "conditions": [gate, {"type": "PodScheduled", "status": "True"}]},
           "spec": {"priority": 1, "hostNetwork": True, "readinessGates": [{"conditionType": "balancer"}],
                    "containers": [{"name": "c", "command": ["sh"], "restartPolicy": "Never"}]}}
    listed = {"id": "5", "state": 1, "image": {}, "labels": {"io.kubernetes.pod.uid": "1", "app": "a"}}
    answers = {
        "pods": ("curl https://127.0.0.1:10250/pods", json.dumps({"kind": "PodList", "items": [pod]})),
        "ps": ("crictl ps -a -o json", json.dumps({"containers": [listed]})),
        "5": ("crictl inspect -o json 5", json.dumps({"status": {}})),
        "configz": ("curl https://127.0.0.1:10250/configz",
                    json.dumps({"kubeletconfig": {"clusterDomain": "local", "staticPodPath": "/etc/pods"}})),
        "summary": ("curl https://127.0.0.1:10250/stats/summary",
                    json.dumps({"node": {"memory": {"availableBytes": 7, "rssBytes": 3}, "cpu": {"time": "1"},
                                         "network": {"time": "1"}, "startTime": "2"}})),
        "probes": ("curl https://127.0.0.1:10250/metrics/probes", "# HELP\nprober_probe_total{} 1\nother 2\n"),
    }
    asked = [{"at": 1, "words": words.split(), "answer": answer} for words, answer in answers.values()]
    silent = {"at": 3, "words": "crictl ps -a -o json".split(), "failed": "no answer"}
    lines = [{"now": 1.0}, *asked, {"now": 2.0}, *asked, {"now": 3.0}, *asked[:1], silent, {"now": 4.0}]
    folder = tempfile.mkdtemp()
    with open(f"{folder}/kept", "w", encoding="utf-8") as file:
        file.writelines(json.dumps(line) + "\n" for line in lines)
    trimmed.main(f"{folder}/kept", f"{folder}/made.gz")
    with gzip.open(f"{folder}/made.gz", "rt", encoding="utf-8") as file:
        made = [json.loads(line) for line in file]
    shutil.rmtree(folder)
    expect("trimmed: the first look", made[0], {"at": 1.0, "answers": {
        "pods": {"kind": "PodList", "items": [
            {"metadata": {"name": "a", "uid": "1", "deletionGracePeriodSeconds": 4},
             "status": {"phase": "Running", "conditions": [gate], "containerStatuses": [
                 {"name": "c", "lastState": {"terminated": {"exitCode": 1, "reason": "Error"}},
                  "state": {"waiting": {"reason": "CrashLoopBackOff", "message": "back-off 10s"}}}]},
             "spec": {"priority": 1, "readinessGates": [{"conditionType": "balancer"}],
                      "containers": [{"name": "c", "restartPolicy": "Never"}]}}]},
        "ps": {"containers": [{"id": "5", "state": 1, "labels": {"io.kubernetes.pod.uid": "1"}}]},
        "5": {"status": {}}, "configz": {"kubeletconfig": {"clusterDomain": "local"}},
        "summary": {"node": {"memory": {"availableBytes": 7}, "cpu": {"time": "1"}, "startTime": "2"}},
        "probes": "prober_probe_total{} 1\n"}})
    expect("trimmed: the other looks", made[1:],
           [{"at": 2.0, "answers": {}}, {"at": 3.0, "answers": {"ps": {"failed": "no answer"}}}])


# --- what a run leaves ---


def test_mounts():
    """The mounts that a run made are found by where they are, the newest first; earlier ones are not its own."""
    before = ending.mount_points("25 1 0:5 / /run rw - tmpfs none rw\n26 25 0:6 / /work/old rw - tmpfs none rw\n")
    now = ending.mount_points("25 1 0:5 / /run rw - tmpfs none rw\n26 25 0:6 / /work/old rw - tmpfs none rw\n"
                              "27 25 0:7 / /work/old rw - tmpfs none rw\n28 25 0:8 / /workshop rw - tmpfs none rw\n"
                              "29 25 0:9 / /work/a\\040b/c rw - tmpfs none rw\n30 25 0:9 / /home rw - tmpfs none rw\n")
    expect("mounts of a run", ending.made_since(before, now, ["/work"]), ["/work/a b/c", "/work/old"])


def test_children():
    """The children of this process are found, and nothing else is."""
    expect("ids in order", list(ending.numbers_since(5, 8, 20)), [6, 7, 8])
    expect("ids behind the greatest", list(ending.numbers_since(18, 3, 20)), [19, 20, 2, 3])
    with subprocess.Popen(["sh", "-c", "cat & wait"], stdin=subprocess.PIPE) as shell:
        expect("a child", ending.children(), {shell.pid})
        numbers_since, ending.numbers_since = ending.numbers_since, lambda *_: ()
        expect("a child whose id was given out once more", ending.children(), {shell.pid})
        ending.numbers_since = numbers_since
        shell.kill()
    expect("no child", ending.children(), set())


def made_folder():
    """A folder in which all is built already, by stand-ins."""
    folder = tempfile.mkdtemp()
    os.makedirs(f"{folder}/root/bin")
    shutil.copytree(f"{HERE}/machine", f"{folder}/bin")
    shutil.copy(f"{HERE}/machine/busybox", f"{folder}/root/bin/busybox")
    os.mkdir(f"{folder}/host")
    for name in ("apt-get", "dpkg", "dpkg-source"):
        os.symlink("/bin/true", f"{folder}/host/{name}")
    return folder


def is_there(identity):
    """Whether a process is there and has not ended."""
    try:
        return read(f"/proc/{identity}/stat").rpartition(")")[2].split()[0] != "Z"
    except OSError:
        return False


def interrupted(folder, numbers, **settings):
    """Interrupts a run where it waits; its status and its last message."""
    words = [sys.executable, f"{TOP}/bench/try", "real_node", folder]
    process = subprocess.Popen(words, stdout=subprocess.PIPE, stderr=subprocess.PIPE, text=True, env={
        **os.environ, "PATH": f"{os.environ['PATH']}:{folder}/host", "KUBELET_REPLAY": REPLAY, **settings})
    wait_until("what waits", lambda: os.path.exists(f"{folder}/waits"))
    time.sleep(0.3)
    for number in numbers:
        process.send_signal(number)
        time.sleep(0.2)
    _, said = process.communicate(timeout=LONGEST)
    return process.returncode, said.strip().split("\n")[-1]


def test_ends():
    """An interrupted run leaves no process of those that it started, and no mount."""
    if os.geteuid() != 0:
        print("left out: the end of bench/real_node, which wants root", file=sys.stderr)
        return
    for name, numbers, settings in (("while it waits", [signal.SIGTERM], {}),
                                    ("twice", [signal.SIGINT, signal.SIGTERM], {}),
                                    ("while it builds", [signal.SIGHUP], {"WAITS": "go"})):
        folder = made_folder()
        answer = interrupted(folder, numbers, **settings)
        expect(f"bench/real_node interrupted {name}", answer, (1, f"bench/try real_node: ended by {numbers[0].name}"))
        started = read(f"{folder}/pids").split()
        expect(f"bench/real_node interrupted {name}: its processes", len(started), 1 if settings else 3)
        expect(f"bench/real_node interrupted {name}: those that are left", list(filter(is_there, started)), [])
        left = [point for point in ending.mount_points() if point.startswith(folder)]
        expect(f"bench/real_node interrupted {name}: the mounts that are left", left, [])
        shutil.rmtree(folder)
