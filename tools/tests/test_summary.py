"""The tests of what a pod came to: story, page, why, json and fleet show the same of each pod of one trace and rank it
the same, and have the words by which pods are deleted, ended and named. The trace and its report are handwritten."""

import contextlib
import importlib
import json
import os
import re
import shutil
import sqlite3
import tempfile

import cases
from checks import HERE, TOOLS, TOP, expect, expect_refused, read, replayed, run
from joined_plays import Folder

from replay_tools import records, report as reports, summary, traces
from replay_tools.manual import shared

load_tests = cases.loaded(__name__)

KEPT = f"{HERE}/summaries"
TRACE, REPORT = f"{KEPT}/trace", f"{KEPT}/report"
BEGIN = 1767225600
HOG = "the kubelet evicted it: low on memory, app was using 300Mi, request 0"
LATE = "ended by the kubelet: DeadlineExceeded (it ran for longer than its activeDeadlineSeconds)"
NAMED = "the rules name it: memory.available hard, the kubelet was not seen to evict it (first of 2)"
# each pod in the order of all tools: restarts, seconds without readiness, the moment and the words of the worst
WANTED = (
    ("shop/hog", 0, 0, 20, HOG), ("shop/late", 0, 0, 30, LATE),
    ("shop/probed", 1, 2, 30, "app killed by its liveness probe, exited 143 1 s later"),
    ("shop/loop", 1, 48, 10, "app died with code 1: Error (first of 2)"),
    ("shop/guessed", 1, 6, 14, "app died, code unknown"), ("shop/once", 1, 4, 10, "app died with code 2: Error"),
    ("shop/never", 0, 64, 0, "not ready"), ("shop/named", 0, 0, 40, NAMED),
    ("shop/gone", 0, 7, 30, "deleted by the eviction API, 30 s of grace"), ("shop/calm", 0, 0, None, None),
)
KINDS = ["ended", "ended", "killed", "crashed_and_not_ready", "crashed", "crashed", "not_ready", "by_rules_alone",
         "deleted", None]


def told_by(tool, *words):
    clock = ["--seconds"] * (tool in ("story", "why", "timeline"))
    status, told, said = run([f"{TOOLS}/{tool}", *clock, *words], read(REPORT))
    expect(f"{tool} {' '.join(words)[:40]}", (status, said), (0, ""))
    return told


def data_in(page):
    return json.loads(re.search(r'<script type="application/json" id="data">(.*?)</script>', page, re.S)[1])


@contextlib.contextmanager
def fleet_of_it(*words):
    """A fleet's database of the trace, replayed by what answers with its report, and what was printed."""
    folder = tempfile.mkdtemp()
    os.mkdir(f"{folder}/traces")
    shutil.copy(TRACE, f"{folder}/traces/one.trace")
    with open(f"{folder}/program", "w", encoding="utf-8") as file:
        file.write(f"#!/bin/sh\ncase $(head -c 60) in *worker-3*) cat >/dev/null; exec cat '{REPORT}' ;; esac\n"
                   "echo node n1 x\n")
    os.chmod(f"{folder}/program", 0o755)
    answer = run([f"{TOOLS}/fleet", "run", f"{folder}/traces", "--out", f"{folder}/db", "--processes", "1", *words],
                 KUBELET_REPLAY=f"{folder}/program")
    connection = sqlite3.connect(f"{folder}/db")
    try:
        yield connection, answer
    finally:
        connection.close()
        shutil.rmtree(folder)


def story_of(trace, report, *words):
    """What story prints of a trace and a report that are given as texts."""
    with tempfile.NamedTemporaryFile("w", suffix=".trace") as file:
        file.write(trace)
        file.flush()
        return run([f"{TOOLS}/story", "--seconds", *words, "--trace", file.name], report)[1]


def test_all_say_the_same():
    """Of one trace, next to what was counted manually."""
    listed = told_by("story", "--trace", TRACE).splitlines()
    expect("story: the list", [re.split(r" {2,}", line.strip()) for line in listed[2:]],
           [[key, {"shop/hog": "Failed", "shop/late": "Failed"}.get(key, "Running"), str(restarts), str(unready),
             "-" if at is None else str(BEGIN + at), words or "-"] for key, restarts, unready, at, words in WANTED])
    pods = [json.loads(line) for line in told_by("json", "--trace", TRACE).splitlines()]
    pods = sorted((pod for pod in pods if pod["record"] == "pod"), key=lambda pod: pod["rank"])
    expect("json: pods", [(pod["pod"], pod["restarts"], pod["unready_seconds"], pod["worst_at"], pod["worst_words"])
                          for pod in pods],
           [(key, restarts, unready, None if at is None else BEGIN + at, words)
            for key, restarts, unready, at, words in WANTED])
    expect("json: kinds", [pod["worst"] for pod in pods], KINDS)
    shown = data_in(told_by("page", TRACE))["podList"]
    shown.sort(key=lambda pod: pod["rank"])
    expect("page: pods", [(pod["key"], pod["unready"], pod["worst"]) for pod in shown],
           [(key, unready, None if at is None else [at, words]) for key, _, unready, at, words in WANTED])
    for place, (key, restarts, unready, at, words) in enumerate(WANTED, 1):
        worst = "nothing bad" if at is None else f"{BEGIN + at} {words}"
        line = (f"the worst: {worst}; {restarts} restart{'s' if restarts != 1 else ''}, not ready for {unready} s; "
                f"place {place} of 10")
        for tool in ("why", "story"):
            told = told_by(tool, key, "--trace", TRACE).splitlines()
            expect(f"{tool} {key}: the worst", [each for each in told if each.startswith("the worst")], [line])
    with fleet_of_it() as (connection, (status, told, said)):
        rows = connection.execute("SELECT pod, restarts, unready_seconds, worst_at, worst_words, worst FROM pods "
                                  "ORDER BY rank").fetchall()
        lines = [re.split(r" {2,}", line.strip()) for line in told.splitlines()]
    expect("fleet: pods", rows, [(key, restarts, unready, None if at is None else BEGIN + at, words, kind)
                                 for (key, restarts, unready, at, words), kind in zip(WANTED, KINDS)])
    printed = [(line[1], line[2], line[3], line[-1]) for line in lines if len(line) == 9 and "/" in line[1]]
    expect("fleet: what it prints", (status, said, printed),
           (0, "", [(key, str(restarts), str(unready), words) for key, restarts, unready, at, words in WANTED
                    if at is not None]))


def test_the_order_is_said():
    """In each manual page, in the same words, as the tools themselves have it."""
    for tool in ("story", "why", "page", "json_lines", "fleet"):
        details = importlib.import_module(f"replay_tools.manual.{tool}").TEXT
        expect(f"the manual of {tool} has the order", shared.ORDER in details, True)
    places = [summary.Worst(kind).place for kind in KINDS]
    expect("the order of the kinds", places, sorted(places))


def test_of_a_report_alone():
    """Without the trace the report still shows whom the kubelet ended, and how often the rules name a pod."""
    listed = [line.split("  ")[-1].strip() for line in told_by("story").splitlines()[2:]]
    expect("story of a report alone", listed[:2], ["the kubelet evicted it: Evicted", LATE])
    named = "the rules name it: memory.available hard (first of 2)"
    expect("story of a report alone: who is named", named in listed, True)
    pods = [json.loads(line) for line in told_by("json").splitlines()]
    pods = [pod for pod in pods if pod["record"] == "pod" and pod["name"] in ("hog", "late", "named")]
    expect("json of a report alone", [(pod["reason"], pod["ended_as"], pod["named"]) for pod in pods],
           [("Evicted", "Evicted", 1), ("DeadlineExceeded", "Failed", 0), (None, None, 2)])


def test_words_are_told():
    """What the node did, by whom a pod is deleted, and whom the rules name."""
    for pod, told in (
        ("hog", ["the kubelet evicted it at 1767225620: low on memory, app was using 300Mi, request 0",
                 "the rules name it too: memory.available hard, at 1767225620"]),
        ("late", [f"the kubelet ended it at 1767225630: {LATE.partition(': ')[2]}"]),
        ("named", ["the kubelet was not seen to evict it; the rules, over the recorded samples, name it at 1767225640, "
                   "the first of 2 times; the kubelet was not seen to evict a pod then"]),
        ("gone", []),
    ):
        lines = told_by("story", pod, "--trace", TRACE, "--without-why").splitlines()
        expect(f"story {pod}: what the kubelet did", lines[1:1 + len(told)], told)
    deleted = [line.strip() for line in lines if "being deleted" in line]
    expect("story: by whom it is deleted", deleted, [
        "1767225630  -                -  being deleted by the eviction API, 30 s of grace from here on: nothing of it "
        "is restarted"])
    events = data_in(told_by("page", TRACE))
    ended = [[one["key"], one["why"], one["rules"]] for one in events["kubelet"]["ended"]]
    expect("page: whom the kubelet ended", ended,
           [["shop/late", LATE.partition(": ")[2], None]])
    gone = next(pod for pod in events["podList"] if pod["key"] == "shop/gone")
    expect("page: a deletion", gone["deleted"], [30, " by the eviction API, 30 s of grace"])
    drawn = told_by("timeline", "--trace", TRACE)
    heads = re.findall(r'class="pod">(shop/(?:late|gone): [^<]*)', drawn)
    expect("timeline: who ended and who deleted it", heads, [
        "shop/late: ended by the kubelet at 1767225630; Failed at 1767225630",
        "shop/gone: Running, being deleted by the eviction API, 30 s of grace since 1767225630, gone before "
        "1767225640"])
    cross = f"<title>shop/late: the kubelet ended it at {BEGIN + 30}: Deadline"
    expect("timeline: a cross of an end", cross in drawn, True)
    found = [json.loads(line) for line in told_by("json", "--trace", TRACE).splitlines()]
    names = ("pod", "decision", "reason", "rules_at", "agrees")
    decisions = [tuple(map(each.get, names)) for each in found if each["record"] == "decision"]
    expect("json: what the kubelet did", decisions, [("shop/hog", "evicted", "Evicted", BEGIN + 20, True),
                                                     ("shop/late", "ended", "DeadlineExceeded", None, None)])
    names = ("deleted_at", "deleted_by", "deletion_grace_seconds")
    expect("json: a deletion", [tuple(map(each.get, names)) for each in found if each.get("name") == "gone"
                                and each["record"] == "pod"],
           [(BEGIN + 30, "EvictionByEvictionAPI", 30)])
    with fleet_of_it() as (_, (_, printed, _)):
        for line in ("DeadlineExceeded (it ran for longer than its activeDeadlineSeconds) on 1 node, 1 pod ended by "
                     "the kubelet", "a deletion by the eviction API on 1 node, 1 pod",
                     "code unknown on 1 node, 1 death of 1 container",
                     "memory pressure on 1 node, 1 eviction by the kubelet"):
            expect(f"fleet: a line of causes: {line[:30]}", f"  {line}" in printed.splitlines(), True)


def test_why_of_names():
    """A naming is shown as an eviction is, with its table, in which exempt pods are none; the ones of the next minute
    are not shown once more."""
    told = told_by("why", "named", "--trace", TRACE)
    heads = re.findall(r"^\d+  (.*)$", told, re.M)
    expect("why: namings", heads[3:], ["the rules name it: memory.available hard"] * 2)
    table = told.partition("pods that were present and had not ended:")[2]
    expect("why: candidates", re.findall(r"shop/\w+", table.partition("their order")[0]),
           ["shop/probed", "shop/loop", "shop/once", "shop/named", "shop/never", "shop/guessed"])
    expect("why: who is spared", "  exempt, and no candidates: shop/calm" in told.splitlines(), True)
    expect("why: once more", told.splitlines().count("  once more, as above"), 1)
    samples = told_by("why", "hog", "--trace", TRACE)
    expect("why: the ended pod is a candidate of its own tick", re.findall(r"(shop/hog) .* (\w+)$", samples, re.M)[-1],
           ("shop/hog", "named"))


def test_unjudged_samples():
    """A tick that is not judged has no sample that the rules go by."""
    trace = traces.read_trace(TRACE)
    expect("ticks that are not judged", [tick.at - BEGIN for tick in trace.ticks if not tick.is_judged], [30, 31, 33])
    text = read(TRACE).replace('"version":3', '"version":2').replace('{"kind":"gone","pod":"shop/gone"}\n', "")
    older = traces.trace_of(text.encode(), "it")
    expect("version 2 has none of the words", ([tick.at for tick in older.ticks if not tick.is_judged], older.failed,
                                               older.deletions, [pod.key for pod in older.pods if pod.is_spared]),
           ([], {}, {}, []))


def test_words_that_a_program_passes_over():
    """A program that ignores which pods are exempt and which ticks are sync ticks names a pod that is exempt, at a tick
    that is no sync tick, and the pod is in the table."""
    trace = ('{"kind":"node","name":"n1","version":3,"evictionHard":{"memory.available":"100Mi"},'
             '"recordsKubelet":true,"evictionsRecorded":true}\n'
             '{"kind":"pod","spared":true,"pod":{"metadata":{"name":"a"},"spec":{"containers":[{"name":"c"}]}}}\n'
             '{"kind":"tick","at":5,"judged":false,"pods":[{"pod":"default/a","containers":[{"name":"c","attempt":0,'
             '"state":"CONTAINER_RUNNING"}],"usage":{"memory":"300Mi"}}],"signals":{"memory.available":"50Mi"}}\n')
    heeding = replayed(trace)[1]
    expect("spared and not judged, heeded", ["names" in heeding, "active" in heeding], [False, False])
    named = ("event 5 node threshold memory.available hard active\nevent 5 node pressure MemoryPressure True\n"
             "event 5 node names default/a memory.available hard\npod 0 ")
    passing = heeding.replace("pod 0 ", named, 1).replace("MemoryPressure False 0", "MemoryPressure True 5")
    told = [line.split() for line in story_of(trace, passing, "default/a").splitlines()]
    expect("spared and not judged, passed over", [line in told for line in (
        ["5", "50Mi"], ["1", "default/a", "300Mi", "0", "300Mi", "0", "BestEffort", "named"],
        "default/a on n1: Running, BestEffort".split())], [True] * 3)


def test_a_code_that_was_guessed():
    """It is shown as unknown wherever a code is shown, and is null where a value is needed."""
    told = told_by("story", "guessed", "--trace", TRACE)
    expect("story: a guessed code", re.findall(r"  (died.*unknown)", told),
           ["died, code unknown", "died at 1767225614, code unknown"])
    expect("story: its exits", re.findall(r"^ +1 +0 +1767225600 +1767225614 +14 s +(\S+)", told, re.M), ["unknown"])
    deaths = [json.loads(line) for line in told_by("json", "--trace", TRACE).splitlines()]
    expect("json: a guessed code", [(one["code"], one["code_is_known"]) for one in deaths if one.get("event") == "died"
                                    and one["pod"] == "shop/guessed"], [(None, False)])
    page = data_in(told_by("page", TRACE))
    died = page["words"].index("died")
    pod = next(pod for pod in page["podList"] if pod["key"] == "shop/guessed")
    expect("page: a guessed code", [event[3:5] for event in pod["events"] if event[2] == died], [[0, None]])
    expect("page: its words", page["toldGuessed"], "died, code unknown{why}")


def test_odd_words():
    """What has another shape shows nothing: the program rejects some of it, and reads the rest of it not at all."""
    node = ('{"kind":"node","name":"n1","version":3}\n'
            '{"kind":"pod","pod":{"metadata":{"name":"a"},"spec":{"containers":[{"name":"app"}]}}}\n')
    for odd in (5, None, [], "", "1st", "a b", "x" * 64, {"reason": "Evicted"}):
        entry = {"pod": "default/a", "failed": odd, "deleting": True, "deletion": odd}
        tick = {"kind": "tick", "at": 1, "pods": [entry]}
        found = traces.trace_of(f"{node}{json.dumps(tick)}\n".encode(), "it")
        expect(f"odd words: {odd!s:.20}", (found.failed, found.deletions[0].words()), ({}, ""))
        listed = {"name": "app", "state": 2, "exitCode": 1, "guessed": odd}
        tick = {"kind": "tick", "at": 1, "pods": [{"pod": "default/a", "containers": [listed]}]}
        found = traces.trace_of(f"{node}{json.dumps(tick)}\n".encode(), "it")
        expect(f"odd guesses: {odd!s:.20}", [end.is_guessed for end in found.reasons.ends.values()], [False])


def test_of_own_limits():
    """An eviction for a limit of the pod's own is shown as such."""
    said = r'Usage of EmptyDir volume \\"work\\" exceeds the limit \\"1Gi\\". '
    text = re.sub("The node was low on resource: [^\"]*", said, read(TRACE))
    report = read(REPORT).replace(f"event {BEGIN + 20} node names shop/hog memory.available hard\n", "")
    told = story_of(text, report, "hog", "--without-why").splitlines()
    expect("story: a limit of its own", told[1:3], [
        'the kubelet evicted it at 1767225620: Usage of EmptyDir volume "work" exceeds the limit "1Gi".',
        "the rules can't judge it; it came to a limit of its own, which is no pressure of the node"])


def test_pods_that_the_rules_evict():
    """Where no trace shows what the kubelet did the rules' evictions are first, else after what happened."""
    report = reports.read_report(read(f"{TOP}/examples/memory_pressure.report"))
    ranked = summary.summaries(report)
    expect("the rules alone, without a trace", [(each.number, each.found.worst.value) for each in ranked],
           [(0, "ended"), (1, None), (2, None)])
    lines = run([f"{TOOLS}/story", "--trace", f"{HERE}/whys/kubelet/trace"], read(f"{HERE}/whys/kubelet/report"))[1]
    expect("the rules alone, with one", lines.splitlines()[-1].split("  ")[-1],
           "the rules evict it: memory.available hard, the kubelet was not seen to evict it")
    record = next(record for record in records.records_of(report) if record["record"] == "pod")
    expect("a record has them", [record[name] for name in ("worst", "rank", "named")], ["ended", 1, 0])


def test_clocks():
    """Moments that count from 1970 are times of UTC, others are seconds; the words ask for another clock."""
    for words, zone, wanted in (
        ([], "Europe/Berlin", "2026-01-01 00:00:20Z"), (["--utc"], "Europe/Berlin", "2026-01-01 00:00:20Z"),
        (["--local"], "Europe/Berlin", "2026-01-01 01:00:20+01:00"), (["--seconds"], "Europe/Berlin", "1767225620"),
        (["--local"], "America/St_Johns", "2025-12-31 20:30:20-03:30"),
        (["--local"], "UTC", "2026-01-01 00:00:20+00:00"),
    ):
        told = run([f"{TOOLS}/story", *words, "--trace", TRACE], read(REPORT), TZ=zone)[1].splitlines()[2]
        expect(f"a moment with {words} in {zone}", wanted in told, True)
    small = run([f"{TOOLS}/story"], read(f"{TOP}/examples/liveness_kill.report"))[1].splitlines()[2].split()
    expect("a moment that does not count from 1970", small[4], "15")
    for tool in ("story", "timeline", "page"):
        expect_refused(f"{tool} with two clocks", run([f"{TOOLS}/{tool}", "--utc", "--local"], read(REPORT)), 2,
                       "--utc and --local exclude each other")


def test_counts_since_a_moment():
    """With --since restarts, seconds and the worst are of that time, and all restarts are next to them."""
    with Folder() as folder:
        told = folder.tell("story", "--since", "2026-01-01T00:00:40Z")[1].splitlines()
        heads = next(line for line in told if line.split()[:1] == ["pod"])
        web = next(line for line in told if line.split()[:1] == ["shop/web"]).split()
        lines = folder.tell("json", "--since", "2026-01-01T00:00:40Z")[1].splitlines()
        one = folder.tell("story", "shop/web", "--since", "2026-01-01T00:00:40Z", "--without-why")[1]
    expect("story --since: its columns", heads.split()[:6], ["pod", "phase", "restarts", "in", "all", "unready"])
    expect("story --since: restarts since then and in all", web[2:4], ["3", "5"])
    pod = next(pod for pod in map(json.loads, lines) if pod["record"] == "pod" and pod["pod"] == "shop/web")
    expect("json --since", (pod["restarts"], pod["restarts_since"], pod["unready_seconds"]), (5, 3, int(web[4])))
    expect("story of a pod --since", "; 3 restarts, 5 in all, not ready for " in one, True)


def test_readiness_gates():
    """A gate that is not true is shown, in the list where nothing else is, and next to the conditions of the report."""
    text = read(TRACE).replace('{"pod":"shop/calm",', '{"pod":"shop/calm","readinessGates":{"target-health":false},')
    told = story_of(text, read(REPORT))
    [line] = [line for line in told.splitlines() if "shop/calm" in line]
    expect("story: a gate in the list", line.split("  ")[-1].strip(),
           "not ready, since its readiness gate target-health is false")
    told = story_of(text, read(REPORT), "calm", "--without-why")
    expect("story: a gate", f"  {BEGIN}  target-health  end" in told.splitlines(), True)
    for odd in (5, None, [], {"a": 1}, {"a": "False"}):
        text = read(TRACE).replace('{"pod":"shop/calm",', f'{{"pod":"shop/calm","readinessGates":{json.dumps(odd)},')
        expect(f"odd gates: {odd}", traces.trace_of(text.encode(), "it").reasons.gates, {})


def test_memory_of_a_death():
    """The limit is the one that the container had by then, else the manifest's, else the pod's; next to it is what it
    used, and below it what it wrote last."""
    died = '"exitCode":2,"reason":"Error"'
    used = '"exitCode":2,"reason":"OOMKilled","used":{"workingSet":66060288,"age":4},"log":["first","a \\u001b[31mred"]'
    plain = read(TRACE).replace(died, used)
    pod = '"name":"once","namespace":"shop"},"spec":{"containers":[{"name":"app"'
    limit = '"resources":{"limits":{"memory":"64Mi"}}'
    more, odd = limit.replace("64Mi", "128Mi"), limit.replace("64Mi", "much")
    for name, text, wanted in (
        ("none", plain, "it has no memory limit"),
        ("the container's", plain.replace(pod, f"{pod},{limit}"), "its memory limit is 64Mi"),
        ("the pod's", plain.replace(pod, pod.replace('"containers"', f'{limit},"containers"')),
         "its pod's memory limit is 64Mi"),
        ("one that was changed", plain.replace(pod, f"{pod},{limit}").replace(used, f"{used},{more}"),
         "its memory limit is 128Mi"),
        ("an odd one", plain.replace(used, f"{used},{odd}"), "it has no memory limit"),
    ):
        told = story_of(text, read(REPORT), "once")
        expect(f"a limit: {name}", f"app died with code 2: OOMKilled, {wanted}, it used 63Mi 4 s before" in told, True)
    expect("what it wrote last", "  it wrote last:\n    first\n    a \\x1b[31mred\n" in told, True)
