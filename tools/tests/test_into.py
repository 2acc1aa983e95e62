"""The tests of `tools/record --into`: traces one after the other have what one trace has, and each goes on where the
one before it ended."""

import json
import random
from concurrent.futures import ThreadPoolExecutor

from chance import BEGIN, SECONDS, play_of
import cases
from checks import HERE, expect, read
from into_plays import Into, follows, laid, parts_of, probed_play, series
from test_plays import quiet_node, report_of

from replay_tools.record.standing import Standing

load_tests = cases.loaded(__name__)

PLAYS = 16
TOLD = ("started", "died", "kill", "ready", "unready")


def told_in(report, behind=-1):
    """What a report has of containers and pods after a second."""
    events = [line.split(" ") for line in report.split("\n") if line.startswith("event ")]
    return sorted(" ".join(event) for event in events if event[4] in TOLD and int(event[1]) > behind)


def known_in(report):
    """What a report has at its end of each pod and its containers, by their keys; the last one of a key counts. Of a
    pod that the node has ended it shows how its containers were then, and the next trace how they are at its begin."""
    found, keys = {}, {}
    for line in report.splitlines():
        word, number, *rest = line.split(" ")
        if word == "pod":
            keys[number] = rest[0]
            found[rest[0]] = {"-": rest[1:3]}
        elif word == "container":
            phase, reason = found[keys[number]]["-"]
            is_ended = phase == "phase=Failed" and reason != "reason=-"
            found[keys[number]][rest[0]] = rest[3:] if is_ended else rest[1:]
    return found


def border_fault(before, text):
    """What the one trace ends with and the next does not begin with, or None."""
    status, ended, refused = report_of(before)
    if status != 0:
        return refused.strip()
    begin = parts_of(text)[0]
    status, begun, refused = report_of(begin)
    if status != 0:
        return refused.strip()
    wanted, known = known_in(ended), known_in(begun)
    other = [key for key in known if known[key] != wanted.get(key)]
    return f"{other[0]} is {known[other[0]]} and was {wanted.get(other[0])}" if other else None


def borders_fault(play, *words, each="10s", recording=None):
    """Where traces one after the other differ from one trace of the same script, or None."""
    into = Into(play, recording)
    whole, made = into.record(*words, "--extended"), into.into(*words, "--each", each)
    texts = into.texts()
    into.clean()
    if (made[0], made[2]) != (whole[0], whole[2]):
        return f"it said {made[2]!r}, not {whole[2]!r}"
    if laid(texts) != whole[1]:
        return "the lines are others"
    if len(texts) < 3:
        return f"there are {len(texts)} traces"
    told = []
    for text in texts:
        told += told_in(report_of(text)[1], (follows(text) or {"at": -1})["at"])
    other = sorted(set(told) ^ set(told_in(report_of(whole[1])[1])))
    if other or len(told) != len(set(told)):
        return f"told otherwise: {other[:3]}"
    return next(filter(None, map(border_fault, texts, texts[1:])), None)


def chance_fault(seed):
    chance = random.Random(seed)
    look = chance.choice([1, 1, 1, 2, 5])
    fault = borders_fault(play_of(chance, look), "--look", str(look), "--for", str(SECONDS))
    return fault and f"play {seed}: {fault}"


def test_borders_by_chance():
    """Scripts over several rotations: joined, the traces have the lines of one trace, and each alone shows what happens
    in its time, from what the one before ended with."""
    with ThreadPoolExecutor(4) as threads:
        faults = list(filter(None, threads.map(chance_fault, range(1000, 1000 + PLAYS))))
    expect("borders of plays by chance", faults[:1], [])


def test_borders_of_probes():
    """Each at rotations of other seconds, so that each state is at one of them."""
    play = probed_play()
    for each in (10, 11, 13, 17):
        expect(f"borders of what probes have shown, each {each} s",
               borders_fault(play, "--for", str(SECONDS), each=f"{each}s"), None)


def test_borders_of_a_real_kubelet():
    """The answers of a real kubelet, whose recordings have one trace."""
    for name in ("real_node", "real_kills"):
        folder = f"{HERE}/recordings/{name}"
        words = [word for word in read(f"{folder}/words").split() if word not in ("--standard", "--extended")]
        expect(f"borders of {name}", borders_fault({}, *words, each="23s", recording=folder), None)


def test_what_a_trace_begins_with():
    """The node line shows what it follows; the first tick shows since when each container is as it is."""
    into = Into(probed_play())
    status, _, _ = into.into("--for", "40", "--each", "20s")
    first, second = into.texts()
    at = BEGIN + 20
    expect("a trace begins with what it follows", (status, follows(first), follows(second)),
           (0, None, {"trace": "n1.2026-01-01T00-00-00Z.trace.gz", "until": at, "at": at}))
    lines = [json.loads(line) for line in parts_of(second)[0].splitlines()]
    expect("a trace begins with its node, its pods and ticks", [line["kind"] for line in lines],
           ["node", *["pod"] * 8, *["tick"] * 8])
    entries = {entry["pod"]: entry for entry in lines[-1]["pods"]}
    expect("the first tick has what was removed", entries["shop/once"]["containers"],
           [{"name": "app", "attempt": 0, "state": "CONTAINER_EXITED", "exitCode": 3, "since": BEGIN + 6}])
    pods = {line["pod"]["metadata"]["name"]: line["pod"]["spec"]["containers"][0] for line in lines[1:9]}
    expect("a delay that is over is left out", pods["late"]["readinessProbe"], {"periodSeconds": 5})
    into.clean()


def test_reasons_that_are_carried():
    """Why an instance ended and why a container waits, whose messages a trace has once, are in the first tick too."""
    standing = Standing()
    for line in (
        {"kind": "node", "version": 3, "name": "n1"},
        {"kind": "pod", "pod": {"metadata": {"name": "a", "namespace": "shop"}, "spec": {"containers": [
            {"name": "app"}, {"name": "side"}]}}},
        {"kind": "tick", "at": 5, "pods": [{"pod": "shop/a", "containers": [
            {"name": "app", "attempt": 1, "state": "CONTAINER_RUNNING", "ended": {"attempt": 0, "exitCode": 1}},
            {"name": "side", "attempt": 0, "state": "CONTAINER_EXITED", "exitCode": 137, "reason": "Error",
             "message": "killed"}],
            "waiting": [{"container": "side", "reason": "CrashLoopBackOff", "message": "back-off 10s"}]}]},
        {"kind": "tick", "at": 9, "pods": [{"pod": "shop/a", "containers": [
            {"name": "app", "attempt": 1, "state": "CONTAINER_RUNNING"},
            {"name": "side", "attempt": 0, "state": "CONTAINER_EXITED", "exitCode": 137, "reason": "OOMKilled"}],
            "waiting": [{"container": "side", "reason": "CrashLoopBackOff"}], "unsampled": True}]},
    ):
        standing.take(line)
    [entry] = json.loads(list(standing.beginning(9, None))[-1])["pods"]
    expect("reasons that are carried", (entry["unsampled"], entry["containers"], entry["waiting"]), (
        True,
        [{"name": "app", "attempt": 1, "state": "CONTAINER_RUNNING", "since": 5},
         {"name": "side", "attempt": 0, "state": "CONTAINER_EXITED", "exitCode": 137, "reason": "OOMKilled",
          "message": "killed", "since": 5}],
        [{"container": "side", "reason": "CrashLoopBackOff", "message": "back-off 10s"}]))


def test_what_was_before():
    """A pod that is met as it runs: what its status has of its probes is in the first tick, in the first trace too."""
    probes = {"startupProbe": {"periodSeconds": 1}, "readinessProbe": {"initialDelaySeconds": 20, "periodSeconds": 10}}
    names = {"ready": (0, True, True), "started": (0, True, False), "other": (1, True, True)}
    made = [{"id": f"c{number}", "pod": f"shop/{name}", "name": "app", "attempt": 0, "created": -100, "started": -99,
             "told": 10 ** 6, "shown": dict(zip(("restartCount", "started", "ready"), names[name]))}
            for number, name in enumerate(names)]
    into = Into({"begin": BEGIN, "containers": made, "samples": {"-1": {"memory": 4294967296}},
                 "pods": {f"shop/{name}": {"spec": {"containers": [{"name": "app", **probes}]}} for name in names},
                 "probes": series("shop/started", "app", "readiness", [14])})
    answer = into.into("--for", "20", "--each", "10s")
    texts = into.texts()
    told = [event.split(" ")[1:] for event in told_in(report_of(texts[0])[1]) if " ready" in event]
    expect("a pod that is met as it runs", (answer, told, [follows(text) is None for text in texts]),
           ((0, "", ""), [[str(BEGIN), "shop/ready", "app", "ready"]], [True, False]))
    told = [event.split(" ")[1:] for event in told_in(report_of(texts[1])[1]) if " ready" in event]
    expect("it is so at the border, and the other one is ready as its probe finds it",
           sorted(told), sorted([[str(BEGIN + 10), "shop/ready", "app", "ready"],
                                 [str(BEGIN + 14), "shop/started", "app", "ready"]]))
    into.clean()


def test_many_pods():
    """Pods that go don't use up the 256 of a trace: the next one is begun."""
    spec = {"restartPolicy": "Never", "containers": [{"name": "app"}]}
    lives = {f"shop/p{number}": {"from": number // 10, "until": number // 10 + 3, "deleted": number // 10 + 2,
                                 "spec": spec} for number in range(600)}
    made = [{"id": f"c{number}", "pod": f"shop/p{number}", "name": "app", "attempt": 0, "created": number // 10 + 0.1,
             "started": number // 10 + 0.2, "exited": number // 10 + 1.5, "code": 0, "removed": number // 10 + 9}
            for number in range(600)]
    into = Into({"begin": BEGIN, "pods": lives, "containers": made, "samples": {"-1": {"memory": 4294967296}}})
    answer = into.into("--for", "75")
    counts = [text.count('"kind":"pod"') for text in into.texts()]
    keys = {line["pod"]["metadata"]["name"] for text in into.texts() for line in map(json.loads, text.splitlines())
            if line["kind"] == "pod"}
    expect("600 pods that come and go", (answer, len(keys), max(counts) <= 256, len(counts) > 2),
           ((0, "", ""), 600, True, True))
    expect("600 pods: each trace is accepted", [report_of(text)[0] for text in into.texts()], [0] * len(counts))
    into.clean()


def test_more_pods_than_a_trace_has():
    """Of 258 pods two are left out; where others have gone they are there after the next rotation."""
    spec = {"containers": [{"name": "app"}]}
    lives = {f"shop/p{number:03}": {"spec": spec, **({"until": 14} if number < 20 else {})} for number in range(258)}
    made = [{"id": f"c{number}", "pod": f"shop/p{number:03}", "name": "app", "attempt": 0, "created": -2, "started": -1,
             **({"exited": 12, "code": 0, "removed": 13} if number < 20 else {})} for number in range(258)]
    into = Into({"begin": BEGIN, "pods": lives, "containers": made, "samples": {"-1": {"memory": 4294967296}}})
    status, _, said = into.into("--for", "50", "--each", "10s")
    left = "".join(f"record: shop/p{number} is left out: a trace has at most 256 pods\n" for number in (256, 257))
    keys = [{line["pod"]["metadata"]["name"] for line in map(json.loads, text.splitlines()) if line["kind"] == "pod"}
            for text in into.texts()]
    expect("258 pods", (status, said, len(keys[0]), len(keys[-1]), keys[-1] >= {"p256", "p257"}),
           (0, left, 256, 238, True))
    into.clean()


def test_limits_of_a_trace():
    """A trace ends at its ticks, and at a part of the bytes that are kept, or before where it has no place for what may
    still change."""
    into = Into(quiet_node(30, 200))
    answer = into.into("--for", "150", "--every", "1", "--ticks", "40")
    counts = [text.count('"kind":"tick"') for text in into.texts()]
    expect("traces of 40 ticks", (answer, 30 < max(counts) <= 40, sum(counts) > 150), ((0, "", ""), True, True))
    into.clean()
    into = Into(quiet_node(60, 100))
    answer = into.into("--for", "80", "--every", "1", "--most", "1Mi")
    sizes = [len(text) for text in into.texts()]
    expect("traces of a quarter of --most", (answer, max(sizes) <= 2 ** 18, len(sizes) > 1), ((0, "", ""), True, True))
    into.clean()
