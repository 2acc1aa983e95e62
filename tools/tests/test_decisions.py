"""The tests of what the tools show of the kubelet's own decisions, by the trace whys/kubelet. There it evicts one pod
as the rules do, others where they do not, and admits two not at all. What `why` prints is kept next to that trace."""

import json
import os
import re
import shutil
import sqlite3
import tempfile

import cases
from checks import HERE, TOOLS, expect, expect_kept, expect_refused, read, replayed, run

from replay_tools import kubelet as kubelets, traces

load_tests = cases.loaded(__name__)

FOLDER = f"{HERE}/whys/kubelet"
TRACE = f"{FOLDER}/trace"


def told_by(tool, *words):
    return run([f"{TOOLS}/{tool}", *words], read(f"{FOLDER}/report"))


def without_decisions(text):
    """A trace without what the formats do not read."""
    lines = []
    for line in map(json.loads, text.splitlines()):
        line.pop("recordsKubelet", None)
        line.pop("kubelet", None)
        lines.append(json.dumps(line, separators=(",", ":")) + "\n")
    return "".join(lines)


def in_version_2(text):
    """A trace of version 3 as one of version 2: without pods that go."""
    lines = [line for line in map(json.loads, text.splitlines()) if line["kind"] != "gone"]
    lines[0]["version"] = 2
    return "".join(json.dumps(line) + "\n" for line in lines)


def test_decisions_are_not_read():
    """The report is the same, byte for byte, with and without them, in each format."""
    for name, text in (("extended", read(TRACE)), ("standard", in_version_2(read(TRACE)))):
        status, report, said = replayed(text)
        expect(f"decisions, {name}: the program takes them", (status, said), (0, ""))
        expect(f"decisions, {name}: the report without them", replayed(without_decisions(text))[1], report)


def test_stories_of_decisions():
    for pod in ("agree", "first", "alone", "late"):
        status, story, said = told_by("story", f"shop/{pod}", "--trace", TRACE)
        expect(f"story of {pod} with what the kubelet did", (status, said), (0, ""))
        expect_kept(f"story of {pod} with what the kubelet did: the text", story, f"{HERE}/stories/kubelet_{pod}")
    expect_refused("story of a pod that the kubelet refused, without the trace", told_by("story", "shop/late"), 2,
                   "no pod shop/late")


def test_who_ended_a_pod():
    """What a pod came to is by the rules where these evict it; a pod that the node has ended ended by its word."""
    ended, evicted = (read(f"{HERE}/recordings/{name}/trace") for name in ("ended_extended", "kubelet_evicts_extended"))
    for what, text, pod, wanted in (
        ("by a deadline", ended, "deadline", ["shop/deadline on n1: Failed (DeadlineExceeded), BestEffort",
                                              "first tick 1767225600, ended 1767225605 as Failed"]),
        ("by the kubelet", evicted, "hog", [
            "shop/hog on n1: Failed (Evicted), BestEffort",
            "first tick 1767225600, ended 1767225607 as Evicted, gone before 1767225613"]),
        ("by the rules", evicted.replace(',"evictionsRecorded":true', ""), "hog", [
            "shop/hog on n1: by the rules Failed (Evicted), BestEffort",
            "first tick 1767225600, ended by the rules 1767225607 as Evicted, gone before 1767225613"]),
    ):
        with tempfile.NamedTemporaryFile("w", encoding="utf-8") as file:
            file.write(text)
            file.flush()
            words = [f"{TOOLS}/story", "--seconds", f"shop/{pod}", "--trace", file.name, "--without-why"]
            told = run(words, replayed(text)[1])[1].splitlines()
        heads = [line for line in told if line.startswith(("shop/", "first tick"))]
        expect(f"who ended shop/{pod}: {what}", heads, wanted)


CAUSES = {"shop/agree": None, "shop/first": "no sample below the threshold was recorded (memory.available was 900Mi, "
          "hard threshold 100Mi; memory.available was 900Mi, soft threshold 200Mi)",
          "shop/unseen": "the pod had no sample, which counts as 0; they evict shop/paused in its place, at 30",
          "shop/soft": "they had evicted shop/paused at 30 and then evict no pod for 10 s",
          "shop/alone": "memory.available was below the soft threshold since 30 in the samples, and its grace period "
                        "of 30 s was not over"}


def test_causes_of_differences():
    lines = [json.loads(line) for line in told_by("json", "--trace", TRACE)[1].splitlines()]
    causes = {record["pod"]: record["causes"] for record in lines if record.get("decision") == "evicted"}
    expect("causes of differences", causes, CAUSES)


def test_json_of_decisions():
    """Each decision with what the rules do, and each eviction with when the kubelet made it."""
    lines = [json.loads(line) for line in told_by("json", "--trace", TRACE)[1].splitlines()]
    decisions = [[record[name] for name in ("at", "pod", "pod_number", "decision", "rules_at", "agrees")]
                 for record in lines if record["record"] == "decision"]
    expect("json: decisions", decisions, [
        [11, "shop/agree", 0, "evicted", 10, True], [20, "shop/first", 1, "evicted", None, False],
        [30, "shop/unseen", 2, "evicted", None, False], [30, "shop/late", None, "refused", None, None],
        [35, "shop/soft", 4, "evicted", None, False], [50, "shop/alone", 3, "evicted", None, False],
        [52, "shop/late", None, "refused", None, None]])
    evictions = [[record["pod"], record["at"], record["kubelet_at"]] for record in lines
                 if record["record"] == "eviction"]
    expect("json: evictions with the kubelet's", evictions,
           [["shop/agree", 10, 11], ["shop/paused", 30, None]])
    plain = told_by("json")[1]
    expect("json without the trace has none", ("kubelet" in plain, "decision" in plain), (False, False))
    folder = tempfile.mkdtemp()
    status, _, said = told_by("json", "--trace", TRACE, "--sqlite", f"{folder}/db")
    connection = sqlite3.connect(f"{folder}/db")
    rows = connection.execute("SELECT decision, COUNT(*), SUM(agrees) FROM decisions GROUP BY decision").fetchall()
    connection.close()
    expect("json --sqlite: decisions", (status, said, rows), (0, "", [("evicted", 5, 1), ("refused", 2, None)]))
    shutil.rmtree(folder)


def test_pictures_of_decisions():
    """Crosses of the kubelet's evictions, and of those by the rules."""
    picture = told_by("timeline", "--trace", TRACE)[1]
    titles = re.findall(r"<title>(shop/\S+(?:: the kubelet evicted it at| evicted at) \d+)", picture)
    expect("timeline: crosses", titles, [
        *(f"shop/{pod}: the kubelet evicted it at {at}" for pod, at in
          (("agree", 11), ("first", 20), ("unseen", 30), ("soft", 35), ("alone", 50))),
        *(f"shop/{pod} evicted at {at}" for pod, at in (("agree", 10), ("paused", 30)))])
    page = told_by("page", TRACE)[1]
    data = json.loads(re.search(r'<script type="application/json" id="data">(.*?)</script>', page, re.S)[1])
    did = data["kubelet"]
    expect("page: the kubelet's evictions", [[one["at"], one["pod"], one["agrees"]] for one in did["evicted"]],
           [[11, 0, True], [20, 1, False], [30, 2, False], [35, 4, False], [50, 3, False]])
    expect("page: those by the rules alone", did["alone"], [[5, [["the kubelet evicted shop/unseen then"]]]])
    expect("page: refused pods", [one["key"] for one in did["refused"]], ["shop/late", "shop/late"])
    expect("page: refused pods are named as left out", any("shop/late" in words for words in data["left"]), True)


def test_fleet_of_decisions():
    """A pod that the kubelet evicted counts as evicted, and one that the rules alone evict does not."""
    folder = tempfile.mkdtemp()
    shutil.copy(TRACE, f"{folder}/one.trace")
    words = [f"{TOOLS}/fleet", "run", folder, "--out", f"{folder}/fleet.db", "--processes", "1", "--by", "evicted"]
    status, told, said = run(words)
    expect("fleet of decisions", (status, said), (0, ""))
    lines = [line.split() for line in told.split("\n")]
    expect("fleet of decisions: the worst", [line[1:2] + line[4:6] for line in lines if line[1:2] and "/" in line[1]],
           [["shop/soft", "1", "0"], ["shop/first", "1", "0"], ["shop/unseen", "1", "0"], ["shop/agree", "1", "1"],
            ["shop/alone", "1", "0"]])
    did = [line for line in lines if line[:1] in (["evicted"], ["refused"])]
    expect("fleet of decisions: what the kubelet did", did,
           [["evicted", "5", "5", "1", "1"], ["refused", "2", "1", "1", "-"]])
    shutil.rmtree(folder)


def test_odd_decisions():
    """What has another shape shows nothing, since the formats do not read it."""
    lines = read(TRACE).splitlines()
    place = next(place for place, line in enumerate(lines) if '"kubelet"' in line)
    for odd in (5, None, [], {"evicted": 3}, {"evicted": [1, None]}, {"evicted": [{"pod": 1}]}, {"evicted": {"a": 1}}):
        line = {**json.loads(lines[place]), "kubelet": odd}
        text = "\n".join([*lines[:place], json.dumps(line), *lines[place + 1:]])
        found = traces.trace_of(text.encode(), "it").decisions
        expect(f"a decision {odd}", [decision.pod for decision in found][:1], ["shop/first"])
    line = {**json.loads(lines[place]), "kubelet": {"evicted": [{"pod": "shop/agree", "at": "x", "message": 4}]}}
    text = "\n".join([*lines[:place], json.dumps(line), *lines[place + 1:]])
    [first, *_] = traces.trace_of(text.encode(), "it").decisions
    expect("a decision without a moment", (first.at, kubelets.why_words(first)), (11, "4"))


MESSAGES = (
    ("The node was low on resource: memory. Container app was using 1847444Ki, which exceeds its request of 0. ",
     "low on memory, app was using 1.76Gi, request 0"),
    ("The node was low on resource: memory. Threshold quantity: 100Mi, available: 60Mi. Container a was using 300Mi, "
     "request is 16Mi, has larger consumption of memory. Container b was using 1Mi, request is 0, has larger "
     "consumption of memory. ", "low on memory, a was using 300Mi, request 16Mi, b was using 1Mi, request 0"),
    ("The node was low on resource: ephemeral-storage. ", "low on ephemeral-storage"),
    ('Usage of EmptyDir volume "work" exceeds the limit "1Gi". ',
     'Usage of EmptyDir volume "work" exceeds the limit "1Gi".'),
    ("", "Evicted"),
)


def test_messages():
    """Why the kubelet evicted a pod, of the messages of kubelets from 1.20 on, and of any other."""
    for message, wanted in MESSAGES:
        decision = traces.Decision("evicted", 0, "a/b", None, "Evicted", message.strip())
        expect(f"message {message[:60]}", kubelets.why_words(decision), wanted)


def test_no_decisions():
    """A trace that has nothing of the kubelet's decisions is shown as before."""
    folder = tempfile.mkdtemp()
    path = os.path.join(folder, "trace")
    with open(path, "w", encoding="utf-8") as file:
        file.write(without_decisions(read(TRACE)))
    told = run([f"{TOOLS}/story", "shop/agree", "--trace", path], read(f"{FOLDER}/report"))[1]
    expect("story without decisions", ("the kubelet" in told, "by the rules Failed" in told), (False, False))
    shutil.rmtree(folder)


def test_list_of_pods():
    """The pods that the kubelet evicted are first in the list of all pods, also where the rules evict nobody; and
    seconds without readiness count up to the end of the trace."""
    calm = re.sub(r'"memory.available":\d+', '"memory.available":4294967296',
                  read(f"{HERE}/recordings/kubelet_evicts_extended/trace"))
    folder = tempfile.mkdtemp()
    with open(f"{folder}/trace", "w") as file:
        file.write(calm)
    told = run([f"{TOOLS}/story", "--seconds", "--trace", f"{folder}/trace"], replayed(calm)[1])[1]
    shutil.rmtree(folder)
    rows = [line.split() for line in told.splitlines()[2:]]
    expect("the list of pods: whom the kubelet evicted", [(row[0], row[1], " ".join(row[5:8])) for row in rows], [
        ("shop/hog", "Failed", "the kubelet evicted"), ("shop/new", "Failed", "the kubelet evicted"),
        ("shop/web", "Running", "-")])
    unready = ('{"kind":"node","name":"n1"}\n'
               '{"kind":"pod","pod":{"metadata":{"name":"a"},"spec":{"containers":[{"name":"c","readinessProbe":{}}]}}}'
               '\n')
    unready += "".join(f'{{"kind":"tick","at":{at},"pods":[{{"pod":"default/a","containers":[{{"name":"c","attempt":0,'
                       f'"state":"CONTAINER_RUNNING"}}]}}]}}\n' for at in (0, 54, 64))
    with tempfile.NamedTemporaryFile("w", suffix=".trace") as file:
        file.write(unready)
        file.flush()
        told = run([f"{TOOLS}/story", "--trace", file.name], replayed(unready)[1])[1]
    expect("the list of pods: seconds up to the end", told.splitlines()[2].split()[:4],
           ["default/a", "Running", "0", "64"])
