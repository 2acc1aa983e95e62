"""The tests of what a recording has of a pod next to its listings: whether it is exempt, and members that the formats
do not read."""

import json

import cases
from checks import expect
from into_plays import Into

from player import Play
from replay_tools.record import gates, metrics
from replay_tools.record.lines import extended
from replay_tools.record.node import node_line_of
from replay_tools.record.pods import pods_of
from replay_tools.record.standing import Standing
from replay_tools.record.summary import summary_of
from replay_tools.record.timeline import Timeline

load_tests = cases.loaded(__name__)

BEGIN = 1767225600


def play_of(**pods):
    """A node of pods of one container each, which goes on; what else is so of each of them."""
    lives = {f"shop/{name}": {**life, "spec": {"containers": [{"name": "app"}], **life.get("spec", {})}}
             for name, life in pods.items()}
    containers = [{"id": f"{name}0", "pod": f"shop/{name}", "name": "app", "attempt": 0, "created": -3, "started": -2}
                  for name in pods]
    return {"begin": BEGIN, "pods": lives, "containers": containers, "samples": {"0": {"memory": 2 ** 32}}}


def recorded(play, *words):
    """The lines of a recording of a script, by their kinds."""
    place = Into(play)
    status, trace, said = place.record(*words)
    place.clean()
    found = {}
    for line in map(json.loads, trace.splitlines()):
        found.setdefault(line["kind"], []).append(line)
    return found, (status, said)


# --- whether it is exempt ---


CRITICAL = {
    "plain": {}, "file": {"annotations": {"kubernetes.io/config.source": "file"}},
    "http": {"annotations": {"kubernetes.io/config.source": "http"}},
    "api": {"annotations": {"kubernetes.io/config.source": "api"}},
    "mirror": {"annotations": {"kubernetes.io/config.source": "api", "kubernetes.io/config.mirror": "m1"}},
    "below": {"spec": {"priority": 1999999999}}, "least": {"spec": {"priority": 2000000000}},
    "node": {"spec": {"priority": 2000001000}}, "odd": {"spec": {"priority": True}}}


def test_spared():
    """Static pods, their copies and pods of the system's priorities are exempt, in the extended format."""
    spared = {name: pods_of(json.dumps({"items": [{"metadata": {"name": name, **life}, **life,
                                                   "spec": {"containers": [], **life.get("spec", {})}}]}), "pods")[0]
              for name, life in CRITICAL.items()}
    expect("spared", [name for name, pod in spared.items() if pod.is_spared],
           ["file", "http", "mirror", "least", "node"])
    play = play_of(plain={}, static=CRITICAL["file"], node=CRITICAL["node"])
    for word, wanted in (("--extended", {"plain": None, "static": True, "node": True}),
                         ("--standard", {"plain": None, "static": None, "node": None})):
        lines, answer = recorded(play, word, "--for", "12")
        expect(f"spared, {word}", (answer, {line["pod"]["metadata"]["name"]: line.get("spared")
                                            for line in lines["pod"]}), ((0, ""), wanted))


def test_spared_over_a_border():
    standing = Standing()
    lines, _ = recorded(play_of(plain={}, static=CRITICAL["file"]), "--extended", "--for", "12")
    for line in [*lines["node"], *lines["pod"], *lines["tick"]]:
        standing.take(line)
    begun = [json.loads(line) for line in standing.beginning(BEGIN + 60, None)]
    expect("spared, over a border", [line.get("spared") for line in begun if line["kind"] == "pod"], [None, True])


# --- members that the formats do not read ---


def said_of(lines, name, key="shop/web"):
    """What the entries of a pod have of a member, in seconds after the begin, where it is another than before."""
    found = []
    for tick in lines["tick"]:
        for entry in tick["pods"]:
            value = entry.get(name, entry["containers"][0].get(name) if entry["containers"] else None)
            if entry["pod"] == key and (not found or found[-1][1] != value):
                found.append((tick["at"] - BEGIN, value))
    return found


def condition(name, status, **more):
    return {"type": name, "status": status, **more}


# a type twice, one that is none, and conditions that are no gate's
GATES = [{"conditionType": name} for name in ("target-health", "mesh.example/ready", "\x1b", "target-health")]
OF_GATES = play_of(web={"spec": {"readinessGates": GATES}, "says": [
    {"from": 0, "status": {"conditions": [condition("mesh.example/ready", "True"), condition("other", "True")]}},
    {"from": 9, "status": {"conditions": [condition("mesh.example/ready", "Unknown"),
                                          condition("target-health", "True", lastTransitionTime="2026-01-01T00:00:07Z"),
                                          condition("other", "False")]}}]})
LEFT_OUT = "record: 1 text of manifests is left out: Kubernetes' grammar doesn't allow them\n"


def begun_after(lines):
    """What the trace begins with that follows one of these lines."""
    standing = Standing()
    for line in [*lines["node"], *lines["pod"], *lines["tick"]]:
        standing.take(line)
    return [json.loads(line) for line in standing.beginning(BEGIN + 60, None)]


def test_readiness_gates():
    """In the standard format each gate with whether its condition is True, in each entry; one that has no condition yet
    is not."""
    lines, answer = recorded(OF_GATES, "--standard", "--every", "5", "--for", "40")
    expect("readiness gates", (answer, said_of(lines, "readinessGates")), ((0, LEFT_OUT), [
        (0, {"target-health": False, "mesh.example/ready": True}),
        (10, {"target-health": True, "mesh.example/ready": False})]))
    expect("readiness gates: no member of the extended format",
           (said_of(lines, "conditions"), "readinessGates" in lines["pod"][0]["pod"]["spec"]), ([(0, None)], False))
    expect("readiness gates, over a border", begun_after(lines)[-1]["pods"][0]["readinessGates"],
           {"target-health": True, "mesh.example/ready": False})


def test_conditions():
    """In the extended format a manifest has the gates, and an entry each status from the moment on at which it turned,
    or from the poll on that showed it."""
    lines, answer = recorded(OF_GATES, "--extended", "--every", "5", "--for", "40")
    [manifest] = [line["pod"] for line in lines["pod"]]
    expect("conditions: the gates", manifest["spec"]["readinessGates"],
           [{"conditionType": "target-health"}, {"conditionType": "mesh.example/ready"}])
    given = [(tick["at"] - BEGIN, entry["conditions"]) for tick in lines["tick"] for entry in tick["pods"]
             if "conditions" in entry]
    expect("conditions", (answer, given), ((0, LEFT_OUT), [
        (0, {"mesh.example/ready": True}), (7, {"target-health": True}), (10, {"mesh.example/ready": False})]))
    expect("conditions: no member of the standard format", said_of(lines, "readinessGates"), [(0, None)])
    begun = begun_after(lines)
    expect("conditions, over a border", ([line["pod"] for line in begun if line["kind"] == "pod"], [
        line["pods"][0]["conditions"] for line in begun if line["kind"] == "tick"]),
        ([manifest], [{"mesh.example/ready": False, "target-health": True}]))


def test_no_conditions():
    """A pod without gates has none, whatever its object has. A condition that is False and is there is given once."""
    conditions = [condition("target-health", "False", lastTransitionTime="2025-12-31T23:59:00Z"),
                  condition("Ready", "True")]
    gated = {"readinessGates": [{"conditionType": "target-health"}, {"conditionType": "mesh.example/ready"}]}
    play = play_of(web={"spec": gated, "says": [{"from": 0, "status": {"conditions": conditions}}]},
                   plain={"says": [{"from": 0, "status": {"conditions": conditions}}]})
    lines, answer = recorded(play, "--extended", "--every", "5", "--for", "40")
    given = [(tick["at"] - BEGIN, entry["pod"], entry["conditions"]) for tick in lines["tick"]
             for entry in tick["pods"] if "conditions" in entry]
    expect("no conditions", (answer, given), ((0, ""), [(0, "shop/web", {"target-health": False})]))


def test_ready_by_conditions():
    """The recorder's metrics take a pod for ready if each of its gates is true, as the lines so far have it."""
    standing, found = Standing(), []
    manifest = {"metadata": {"name": "web", "namespace": "shop"},
                "spec": {"containers": [{"name": "app"}], "readinessGates": gates.gates_of({"readinessGates": GATES})}}
    standing.take({"kind": "pod", "pod": manifest})
    entry = {"pod": "shop/web", "containers": [{"name": "app", "attempt": 0, "state": "CONTAINER_RUNNING"}]}
    both = {"target-health": True, "mesh.example/ready": True}
    for at, given in enumerate(({}, both, {"other": False}, {"mesh.example/ready": False})):
        standing.take({"kind": "tick", "at": at, "pods": [{**entry, "conditions": given}]})
        found.append(metrics.is_ready(standing.pods["shop/web"]))
    expect("ready by conditions", found, [False, True, True, False])


def test_turned():
    """A condition that was True and is missing is False; one of another clock stays in the order of the lists."""
    given, types = {"a": True, "b": False, "c": True}, ["a", "b", "c", "d"]
    expect("turned", gates.turned(types, given, {"b": gates.Status(False), "c": gates.Status(True)}),
           {"a": gates.MISSING})
    timeline = Timeline(extended())
    pod = pods_of(json.dumps({"items": [{"metadata": {"name": "a", "uid": "1"}, "spec": {"containers": []}}]}),
                  "pods")[0]
    for moment, is_true in ((20, True), (15, False)):
        timeline.place_condition(pod, "a", moment, is_true, 0)
    expect("turned: by the lists' order", {second: tick.conditions for second, tick in timeline.ticks.items()},
           {20: {"1": {"a": False}}})


def test_most_gates():
    """A manifest has at most 16 different gates, and of resources of the pod what the extended format takes."""
    types = [f"example.com/gate-{number}" for number in range(20)]
    spec = {"readinessGates": [{"conditionType": name} for name in types for _ in range(2)]}
    expect("most gates", gates.gates_of(spec), [{"conditionType": name} for name in types[:16]])
    for name, odd in (("none", []), ("no array", {"conditionType": "a"}), ("no objects", ["a", None]),
                      ("no text", [{"conditionType": 7}, {}])):
        expect(f"most gates: {name}", gates.gates_of({"readinessGates": odd}), None)
    for name, resources, wanted in (
        ("above its limit", {"requests": {"cpu": "2"}, "limits": {"cpu": "1500m"}}, None),
        ("a limit of 0", {"requests": {"cpu": "2"}, "limits": {"cpu": "0"}},
         {"requests": {"cpu": "2"}, "limits": {"cpu": "0"}}),
        ("other resources", {"requests": {"memory": "1Gi", "hugepages-2Mi": "4Mi", "ephemeral-storage": "1Gi"}},
         {"requests": {"memory": "1Gi"}}),
        ("no quantity", {"limits": {"memory": "much", "cpu": -1}}, {"limits": {}}),
        ("no object", "much", None), ("no objects", {"limits": ["1"]}, None), ("an empty array", {"limits": []}, None),
        ("empty", {}, {}),
    ):
        expect(f"resources of a pod: {name}", gates.pod_resources({"resources": resources}), wanted)


def test_texts_of_a_manifest():
    """What Kubernetes' grammar does not allow may be anything, as a secret: it is left out and counted."""
    gates = ["a b", "-begins", "ends-", "Upper/x", "mesh..example/x", "mesh.example/", "x" * 64, "x/y/z"]
    status = {"containerStatuses": [{"name": "app", "resources": {"limits": {"memory": "PLANTED one"}}}]}
    spec = {"readinessGates": [{"conditionType": gate} for gate in [*gates, "mesh.example/Ready_1"]],
            "resources": {"requests": {"memory": "PLANTED two"}, "limits": {"memory": "1Gi"}}}
    play = play_of(web={"spec": spec, "says": [{"from": 0, "status": status}]})
    lines, answer = recorded(play, "--extended", "--every", "5", "--for", "40")
    expect("texts of a manifest", answer, (0, "record: 9 texts of manifests are left out: Kubernetes' grammar doesn't "
                                              "allow them\n"))
    expect("texts of a manifest: gates", lines["pod"][0]["pod"]["spec"]["readinessGates"],
           [{"conditionType": "mesh.example/Ready_1"}])
    expect("texts of a manifest: what is planted", "PLANTED" in json.dumps(lines), False)
    expect("texts of a manifest: what is allowed", lines["pod"][0]["pod"]["spec"]["resources"],
           {"requests": {}, "limits": {"memory": "1Gi"}})


def test_who_deletes():
    """By whom a pod is deleted is next to it, if a condition shows it, and its grace."""
    for name, conditions, wanted in (
        ("a drain", [condition("DisruptionTarget", "True", reason="EvictionByEvictionAPI")],
         {"by": "EvictionByEvictionAPI", "grace": 30}),
        ("one that is over", [condition("DisruptionTarget", "False", reason="DeletionByTaintManager")], {"grace": 30}),
        ("no word", [condition("DisruptionTarget", "True", reason="its own words")], {"grace": 30}),
        ("nobody known", [], {"grace": 30}),
    ):
        play = play_of(web={"deleted": 11, "grace": 30, "says": [{"from": 0, "status": {"conditions": conditions}}]})
        lines, answer = recorded(play, "--extended", "--every", "5", "--for", "40")
        entries = [entry for tick in lines["tick"] for entry in tick["pods"] if "deleting" in entry]
        expect(f"deleted by {name}", (answer, [entry.get("deletion") for entry in entries]), ((0, ""), [wanted]))


def test_resources_of_a_pod():
    spec = {"resources": {"limits": {"memory": "1Gi", "cpu": "2", "example.com/gpu": "1"}, "claims": [{"name": "x"}]}}
    lines, answer = recorded(play_of(web={"spec": spec}), "--extended", "--for", "5")
    expect("resources of a pod", (answer, lines["pod"][0]["pod"]["spec"]["resources"]),
           ((0, ""), {"limits": {"memory": "1Gi", "cpu": "2"}}))


def test_boot():
    """Since when the system of the node runs, where the summary has it."""
    place = Into(play_of(web={}))
    answer = json.loads(Play(f"{place.run}/play.json").summary(0))
    place.clean()
    answer["node"]["startTime"] = "2026-01-01T00:00:07Z"
    made = node_line_of('{"kubeletconfig": {}}', "n1", summary_of(json.dumps(answer)), extended()).fields
    expect("the node's boot", made["bootedAt"], BEGIN + 7)
