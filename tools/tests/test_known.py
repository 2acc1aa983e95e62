"""The tests of what a trace has and lacks: restarts of the kubelet, manifests that are unknown, imports, pods that a
recorder marked wrongly, and causes that were shown wrongly."""

import json
import os
import re
import tempfile

import cases
from checks import TOOLS, expect, replayed, run

load_tests = cases.loaded(__name__)

BEGIN = 1767225600
NODE = {"kind": "node", "name": "n1", "version": 3, "recordsKubelet": True}
READY = {"readinessProbe": {"periodSeconds": 1}}


def pod(name, more=None, **line):
    return {"kind": "pod", "pod": {"metadata": {"name": name, "namespace": "shop"},
                                   "spec": {"containers": [{"name": "app", **(more or {})}]}}, **line}


def runs(attempt=0, **more):
    return {"name": "app", "attempt": attempt, "state": "CONTAINER_RUNNING", **more}


def exited(code, attempt=0, **more):
    return {"name": "app", "attempt": attempt, "state": "CONTAINER_EXITED", "exitCode": code, **more}


def entry(name, *listings, **more):
    return {"pod": f"shop/{name}", "containers": list(listings), **more}


def tick(at, *entries, **more):
    return {"kind": "tick", "at": BEGIN + at, "pods": list(entries), **more}


class Told:
    """A trace of some lines, and what the tools print of it."""

    def __init__(self, *lines):
        self.folder = tempfile.mkdtemp()
        self.trace = f"{self.folder}/n1.trace"
        with open(self.trace, "w", encoding="utf-8") as file:
            file.write("".join(json.dumps(line, separators=(",", ":")) + "\n" for line in lines))
        with open(self.trace, encoding="utf-8") as file:
            status, self.report, said = replayed(file.read())
        expect("the trace is one", (status, said), (0, ""))

    def by(self, tool, *words):
        options = [] if tool == "page" else ["--trace"]
        # its why is another tool's
        words = (*words, "--without-why") if tool == "story" and words else words
        status, told, said = run([f"{TOOLS}/{tool}", *words, *options, self.trace], self.report)
        expect(f"{tool} of a made trace", (status, said), (0, ""))
        return told

    def data(self):
        page = self.by("page")
        return json.loads(re.search(r'<script type="application/json" id="data">(.*?)</script>', page, re.S)[1])

    def records(self, kind):
        return [record for record in map(json.loads, self.by("json").splitlines()) if record["record"] == kind]


def lines_with(text, *words):
    return [" ".join(line.split()) for line in text.splitlines() if all(word in line for word in words)]


def test_a_kubelet_that_is_restarted():
    """It is an event of the node for each tool, and is above the stories of pods that became unready by it."""
    ready, failed = ({"probes": [{"container": "app", "probe": "readiness", "result": result}]}
                     for result in ("success", "failure"))
    told = Told(NODE, pod("web", READY), pod("calm"), tick(0, entry("web", runs(), **ready), entry("calm", runs())),
                tick(30, entry("web", runs(), **failed), entry("calm", runs()), kubeletStartedAt=BEGIN + 29),
                tick(31, entry("web", runs(), **failed), entry("calm", runs())),
                tick(32, entry("web", runs(), **failed), entry("calm", runs())))
    story = told.by("story", "shop/web")
    expect("story: the kubelet's restart, above", lines_with(story, "the kubelet was restarted at"),
           ["the kubelet was restarted at 2026-01-01 00:00:29Z"])
    expect("story: the kubelet's restart, among the events", [line for line in lines_with(
        story, "the kubelet was restarted") if "restarted at" not in line], ["00:00:29Z - - the kubelet was restarted"])
    expect("story of a pod that stayed ready", lines_with(told.by("story", "shop/calm"), "the kubelet was restarted"),
           ["00:00:29Z - - the kubelet was restarted"])
    expect("story of all pods", "the kubelet was restarted at" in told.by("story"), True)
    expect("why", lines_with(told.by("why", "shop/web"), "the kubelet was restarted"),
           ["the kubelet was restarted at 2026-01-01 00:00:29Z", "2026-01-01 00:00:29Z the kubelet was restarted"][1:])
    expect("json", [record.get("kubelet_started_at") for record in told.records("node")], [[BEGIN + 29]])
    expect("page", told.data()["kubeletStarts"], [29])
    picture = told.by("timeline")
    expect("timeline", (picture.count(">the kubelet was restarted<"), "the kubelet was restarted at 2026" in picture),
           (1, True))


def test_turns_of_ready():
    """What the kubelet's status shows of Ready counts, with its own moments; what no probe explains has its cause."""
    def turn(at, status):
        return {"readyTurns": [{"status": status, "at": BEGIN + at}]}
    dip = [{"status": "False", "at": BEGIN + 21}, {"status": "True", "at": BEGIN + 28}]
    told = Told(NODE, pod("web"), tick(0, entry("web", runs(), **turn(0, "True"))),
                tick(30, entry("web", runs(), readyTurns=dip), kubeletStartedAt=BEGIN + 20),
                tick(60, entry("web", runs(), **turn(50, "False"), readinessGates={"lb": False})),
                tick(80, entry("web", runs(), readinessGates={"lb": True}, **turn(70, "True"))),
                tick(90, entry("web", runs())))
    story = told.by("story", "shop/web")
    expect("turns in the events", [line.partition(" - - ")[2] for line in lines_with(story, "kubelet's status")], [
        "not ready in the kubelet's status: the kubelet was restarted", "ready again in the kubelet's status",
        "not ready in the kubelet's status: its readiness gate lb is not true", "ready again in the kubelet's status"])
    expect("turns count", "not ready for 27 s" in story, True)
    expect("turns in json", [record["unready_seconds"] for record in told.records("pod")], [27])
    expect("turns on the page", told.data()["podList"][0]["ready"], [[0, 1], [21, 0], [28, 1], [50, 0], [70, 1]])


def test_a_pod_that_was_refused_again():
    """A pod that had run, and that a restarted kubelet did not admit again, is not shown as evicted."""
    refused = {"kubelet": {"refused": [{"pod": "shop/web", "at": BEGIN + 9, "reason": "Evicted", "message":
                                        "The node had condition: [MemoryPressure]. "}]}}
    told = Told(NODE, pod("web"), tick(0, entry("web", runs())),
                tick(9, entry("web", exited(137), failed="Evicted"), **refused))
    story = told.by("story", "shop/web")
    expect("refused again", lines_with(story, "the kubelet refused it at"),
           ["the kubelet refused it at 2026-01-01 00:00:09Z: the node had MemoryPressure"])
    expect("it is no eviction", "the kubelet evicted it" in story, False)


def test_an_end_without_a_reason():
    ended = {"kubelet": {"ended": [{"pod": "shop/web", "at": BEGIN + 9, "reason": "Other", "message": "",
                                    "guessed": ["reason"]}]}}
    told = Told(NODE, pod("web"), tick(0, entry("web", runs())),
                tick(9, entry("web", exited(137), failed="Other"), **ended))
    expect("an end without a reason", lines_with(told.by("story", "shop/web"), "the kubelet ended it"),
           ["the kubelet ended it at 2026-01-01 00:00:09Z: for a reason that was not seen"])


def test_unknown_manifests():
    """Of a pod whose manifest was made up no tool shows that it has no limit, no probe, or which class."""
    died = exited(137, reason="OOMKilled")
    told = Told(NODE, pod("lost", guessed=["manifest"]), pod("known"),
                tick(0, entry("lost", runs()), entry("known", runs())),
                tick(9, entry("lost", died), entry("known", died)))
    lost, known = (told.by("story", f"shop/{name}") for name in ("lost", "known"))
    expect("story: the class", (lost.splitlines()[0], known.splitlines()[0]),
           ("shop/lost on n1: Running, class unknown", "shop/known on n1: Running, BestEffort"))
    expect("story: what is unknown", lines_with(lost, "its manifest is unknown:"),
           ["its manifest is unknown: limits, probes, class and restart policy are unknown too"])
    expect("story: no limit is claimed", ("no memory limit" in lost or "no limit of its own" in lost,
                                          "its memory limit is unknown" in lost, "no memory limit" in known),
           (False, True, True))
    why = told.by("why", "shop/lost")
    expect("why: no probe is claimed", ("it has no startup and no readiness probe" in why,
                                        "its manifest is unknown: whether it has probes is too" in why), (False, True))
    expect("json", [(record["qos"], record.get("manifest_is_unknown")) for record in told.records("pod")],
           [(None, True), ("BestEffort", None)])
    expect("page", [(one["qos"], one.get("guessed")) for one in told.data()["podList"]],
           [("class unknown", True), ("BestEffort", None)])
    expect("timeline", [name in told.by("timeline") for name in ("shop/lost: Running, class unknown",
                                                                  "shop/known: Running, BestEffort")], [True, True])


def test_an_unknown_phase():
    """A pod of policy Never has exited with an unknown code: no tool shows that it failed."""
    never = pod("once")
    never["pod"]["spec"]["restartPolicy"] = "Never"
    told = Told(NODE, never, tick(0, entry("once", runs())),
                tick(9, entry("once", exited(137, guessed=["exitCode"]), guessed=["phase"])))
    story = told.by("story", "shop/once")
    expect("the phase in the head", story.splitlines()[0].split(",")[0], "shop/once on n1: Succeeded or Failed")
    expect("no event says that it failed", (re.findall(r"phase .*", story)[-1], "phase Failed" in story),
           ("phase Succeeded or Failed: no known code shows which", False))
    expect("the list", "Succeeded or Failed" in told.by("story"), True)
    expect("how it ended", "ended 2026-01-01 00:00:09Z as Succeeded or Failed" in story, True)
    expect("json", [(record["phase"], record["ended_as"], record.get("phase_is_unknown")) for record in
                    told.records("pod")], [(None, None, True)])
    expect("json: the event", [record.get("phase_is_unknown") for record in told.records("event")
                               if record["event"] == "phase"][-1], True)
    [page] = told.data()["podList"]
    words = told.data()["words"].index("phase")
    expect("page", (page["end"], [event[3] for event in page["events"] if event[2] == words][-1]),
           ([9, "Succeeded or Failed"], "Succeeded or Failed: no known code shows which"))
    expect("timeline", "shop/once: Succeeded or Failed at 2026-01-01 00:00:09Z" in told.by("timeline"), True)


def test_an_owners_template():
    """A manifest that has limits or probes was made of an owner's template, and is shown as it is."""
    told = Told(NODE, pod("web", {"resources": {"limits": {"memory": "32Mi"}}}, guessed=["manifest"]),
                tick(0, entry("web", runs())), tick(9, entry("web", exited(137, reason="OOMKilled"))))
    story = told.by("story", "shop/web")
    expect("a template's limit", ("its memory limit is 32Mi" in story, "class unknown" in story), (True, False))


def test_imported():
    """Stories and pages of an import have that in their heads, with what it lacks."""
    probe = {"readinessProbe": {"periodSeconds": 1}}
    lines = [pod("web", probe), pod("calm", guessed=["manifest"]),
             tick(0, entry("web", exited(1, guessed=["exitCode"])), entry("calm", runs()))]
    of_events = {**NODE, "imported": True, "importedFrom": ["events"]}
    lacks = ("the import lacks the node's signals, what pods use, results of probes, the exit codes of 1 instance, "
             "the manifests of 1 pod")
    for node, wanted in (
        (of_events, ["imported from the Events of its pods: no journal was left", lacks]),
        ({**of_events, "importedFrom": ["events", "audit"]}, [
            "imported from the Events of its pods and the audit log of the API server: no journal was left", lacks]),
        ({**NODE, "imported": True}, ["imported from a kubelet's journal", lacks]), (NODE, []),
    ):
        told = Told(node, *lines)
        heads = [told.by("story", "shop/web").splitlines()[1:], told.by("story").splitlines(),
                 told.by("why", "shop/web").splitlines()[1:]]
        expect(f"heads of {wanted[:1]}", [head[:len(wanted)] for head in heads], [wanted] * 3)
        expect(f"page of {wanted[:1]}", told.data()["facts"], wanted)


def test_pods_that_were_marked_wrongly():
    """All pods deleted in one tick, and running long afterwards: that was a kubelet's restart, and no deletion. A node
    that is drained is none."""
    def told_of(last):
        pods = [entry(name, runs(), deleting=True) for name in ("web", "calm")]
        return Told(NODE, pod("web"), pod("calm"), tick(0, entry("web", runs()), entry("calm", runs())), tick(5, *pods),
                    tick(200, *([entry("web", last), entry("calm", last)])))
    story = told_of(runs()).by("story", "shop/web")
    expect("marked wrongly: the head", lines_with(story, "marked as being deleted"), [
        "2 pods are marked as being deleted at 2026-01-01 00:00:05Z that nobody deleted: an older recorder took the "
        "empty list of a kubelet that had just started for it. Restarts, kills and back-offs of these pods after that "
        "moment are missing"])
    expect("marked wrongly: no deletion", "being deleted from here on" in story, False)
    expect("marked wrongly: the worst", lines_with(story, "the worst:")[0].split(";")[0], "the worst: nothing bad")
    story = told_of(exited(0)).by("story", "shop/web")
    expect("a node that is drained", ("being deleted from here on" in story, "nobody deleted" in story), (True, False))


def test_causes():
    """An OOM kill of a child, a hook that failed, a sample of 0, a wait that was over, a gate, lines left out."""
    limit = {"resources": {"limits": {"memory": "32Mi"}}}
    told = Told(NODE, pod("child", limit), tick(0, entry("child", runs())),
                tick(9, entry("child", exited(3, reason="OOMKilled"))))
    why = told.by("why", "shop/child")
    expect("an OOM kill of a child", lines_with(why, "the kernel killed"), [
        "the kernel killed a process in it since it came to its memory limit, 32Mi (resources.limits.memory); the "
        "container then exited with 3 by itself"])
    told = Told(NODE, pod("hook"), tick(0, entry("hook", runs())),
                tick(9, entry("hook", exited(137, reason="PostStartHookError",
                                             message="command 'false' exited with 1"))))
    expect("a postStart hook", lines_with(told.by("why", "shop/hook"), "its postStart hook"), [
        "its postStart hook failed, so the kubelet killed it: command 'false' exited with 1"])
    told = Told(NODE, pod("zero", limit), tick(0, entry("zero", runs())), tick(9, entry("zero", exited(
        137, reason="OOMKilled", used={"workingSet": 0, "age": 2}, log=["panic: x"], logLeftOut=3))))
    story = told.by("story", "shop/zero")
    expect("a sample of 0", ("it used 0" in story, "the samples, 10 s apart, missed the rise" in story), (False, True))
    expect("lines that are left out", [line.partition(" app 0 ")[2] for line in lines_with(story, "last")], [
        "it wrote last: panic: x", "3 of its last lines are left out: nothing in them is known to be no secret"])
    waits = {"waiting": [{"container": "app", "reason": "CreateContainerConfigError"}]}
    told = Told(NODE, pod("config"), tick(0, entry("config", **waits)), tick(100, entry("config", **waits)),
                tick(211, entry("config", runs())))
    expect("a wait that was over", lines_with(told.by("story", "shop/config"), "the worst:")[0].partition("; ")[0],
           "the worst: 2026-01-01 00:00:00Z app waited for 211 s: CreateContainerConfigError")
    gate = {"readinessGates": {"target-health": False}}
    told = Told(NODE, pod("gated"), tick(0, entry("gated", runs(), **gate)), tick(100, entry("gated", runs(), **gate)),
                tick(225, entry("gated", runs(), readinessGates={"target-health": True})))
    expect("a gate that was not true", "not ready for 225 s" in told.by("story", "shop/gated"), True)


def test_a_kill_and_its_death():
    """They are one story, and what has one moment is printed causes first."""
    probe = {"livenessProbe": {"periodSeconds": 1, "failureThreshold": 1}}
    manifest = pod("web", probe)
    manifest["pod"]["spec"]["terminationGracePeriodSeconds"] = 3
    fails = {"probes": [{"container": "app", "probe": "liveness", "result": "failure"}]}
    said = [{"at": BEGIN + 10, "container": "app", "reason": "Unhealthy", "probe": "liveness", "message": "HTTP 503"},
            {"at": BEGIN + 10, "container": "app", "reason": "Killing", "message": "Stopping container app"}]
    told = Told(NODE, manifest, tick(0, entry("web", runs())), tick(10, entry("web", runs(), said=said, **fails)),
                tick(13, entry("web", exited(137, reason="Error"))))
    story = told.by("story", "shop/web")
    expect("the worst", lines_with(story, "the worst:")[0].partition("; ")[0],
           "the worst: 2026-01-01 00:00:10Z app killed by its liveness probe (HTTP 503), exited 137 after its grace "
           "period of 3 s")
    expect("the death", lines_with(story, "app", "died with code 137"), [
        "00:00:13Z app 0 died with code 137: Error, as signal 9 leaves it; killed by its liveness probe (HTTP 503) at "
        "00:00:10Z, after its grace period of 3 s"])
    events = [re.sub(r"^\S* *app *\S* *", "", line.strip()) for line in story.splitlines() if "00:00:10Z  app" in line]
    expect("causes come first", events, ["said: Unhealthy, liveness: HTTP 503", "kill order: liveness (HTTP 503)",
                                         "said: Killing: Stopping container app"])


def test_a_trace_that_begins_with_an_eviction():
    """A trace may begin with the eviction of the trace before it, while a threshold is due; each tool goes on."""
    evicted = {"kubelet": {"evicted": [{"pod": "shop/web", "at": BEGIN - 10, "reason": "Evicted",
                                        "message": "The node was low on resource: memory. "}]}}
    told = Told({**NODE, "evictionHard": {"memory.available": "1Gi"}, "evictionsRecorded": True}, pod("web"),
                pod("calm"),
                tick(0, entry("web", runs()), entry("calm", runs()), signals={"memory.available": "512Mi"}, **evicted),
                tick(1, entry("web", runs()), entry("calm", runs()), signals={"memory.available": "512Mi"}))
    for tool, *words in (("story", "shop/web"), ("why", "shop/web"), ("page",), ("json",), ("timeline",), ("story",)):
        expect(f"{tool} of such a trace", len(told.by(tool, *words)) > 100, True)
    expect("nothing is left", os.path.exists(told.trace), True)
