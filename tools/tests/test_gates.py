"""The tests of what the tools print of readiness gates and resources of a pod in a trace of version 3. The traces and
their reports are handwritten."""

import glob
import json
import os
import tempfile

import cases
from checks import TOOLS, TOP, expect, read, run

from replay_tools import readiness, report as reports, summary, traces, why
from replay_tools.joined import of_traces

load_tests = cases.loaded(__name__)

GATES = [{"conditionType": "example.com/lb"}, {"conditionType": "mesh"}]
RUNS = {"pod": "shop/web", "containers": [{"name": "app", "state": 1}]}
REPORT = """node n1 pods=1 ticks=5
event 0 shop/web app started 0
event 0 shop/web app ready
event 0 shop/web - phase Running
pod 0 shop/web phase=Running reason=- qos=BestEffort
condition 0 PodScheduled True 0
condition 0 Initialized True 0
condition 0 ContainersReady True 0
condition 0 Ready READY
container 0 app state=Running code=- restarts=0 ready=true started=true
nodecondition MemoryPressure False 0
nodecondition DiskPressure False 0
nodecondition PIDPressure False 0
totals updates=5 events=3 orders=0
"""


def lines_of(*lines):
    return "".join(json.dumps(line) + "\n" for line in lines)


def trace_of(*conditions, version=3, moments=(0, 5, 9, 20, 30)):
    """A trace of a pod that runs, with what its entries have of conditions at some moments."""
    manifest = {"metadata": {"name": "web", "namespace": "shop"},
                "spec": {"containers": [{"name": "app"}], "readinessGates": GATES}}
    ticks = [{"kind": "tick", "at": at, "pods": [RUNS if given is None else {**RUNS, "conditions": given}]}
             for at, given in zip(moments, conditions)]
    return lines_of({"kind": "node", "name": "n1", "version": version}, {"kind": "pod", "pod": manifest}, *ticks)


BOTH = {"example.com/lb": True, "mesh": True, "other": False}
# Ready from 5 to 9
CLOSED = trace_of({"mesh": None}, BOTH, {"example.com/lb": False}, {"example.com/lb": None}, None)
# Ready from 5 to 9, and from 20 on
OPENED = trace_of(None, BOTH, {"mesh": False}, {"mesh": True}, {"mesh": True})


def told_by(tool, trace, ready, *words):
    """The lines that a tool prints of a trace, in whose report Ready is so."""
    with tempfile.NamedTemporaryFile("w", suffix=".trace") as file:
        file.write(trace)
        file.flush()
        clock = ["--seconds"] * (tool in ("story", "why"))
        status, told, said = run([f"{TOOLS}/{tool}", *clock, *words, "--trace", file.name],
                                 REPORT.replace("READY", ready))
    expect(f"{tool} of a pod with gates", (status, said), (0, ""))
    return told.splitlines()


def test_why_it_is_not_ready():
    """Which gate keeps it from being Ready, and since when, though its containers are ready."""
    wanted = ["its containers are ready, but it is not Ready: readiness gate example.com/lb is not True since 9"]
    for tool, words in (("story", ["web", "--without-why"]), ("story", ["web"])):
        told = told_by(tool, CLOSED, "False 9", *words)
        expect(f"{tool}: the gate", [line for line in told if line.startswith("its containers")], wanted)
    told = told_by("story", CLOSED, "False 9")
    expect("story of all: the gate", [line.split("  ")[-1] for line in told if "shop/web" in line],
           ["not ready, since its readiness gate example.com/lb is false"])
    told = told_by("story", OPENED, "True 20", "web")
    expect("story: gates that are True", [line for line in told if line.startswith("its containers")], [])
    told = told_by("story", trace_of(None, None, None, None, None), "False 0", "web")
    expect("story: two gates", [line for line in told if line.startswith("its containers")],
           ["its containers are ready, but it is not Ready: readiness gate example.com/lb is not True since 0, "
            "and readiness gate mesh is not True since 0"])


def test_when_it_was_not_ready():
    """`why` has each time of a gate, and story each span of Ready next to the spans of ContainersReady."""
    told = told_by("why", OPENED, "True 20", "web")
    places = [place for place, line in enumerate(told) if "readiness gate" in line]
    expect("why: the gates", [told[place:place + 2] for place in places], [
        [f"0  readiness gate {gate} is not True, so the pod is not Ready", "  until 5"]
        for gate in ("example.com/lb", "mesh")]
        + [["9  readiness gate mesh is not True, so the pod is not Ready", "  until 20"]])
    told = told_by("story", OPENED, "True 20", "web", "--without-why")
    expect("story: the conditions", [line.split() for line in told if "Ready  " in line], [
        ["ContainersReady", "True", "0", "end", "-"], ["Ready", "False", "0", "5", "-"],
        ["Ready", "True", "5", "9", "-"], ["Ready", "False", "9", "20", "-"], ["Ready", "True", "20", "end", "-"]])
    expect("story: the gates", [line for line in told if line.startswith("Not ready by a readiness gate")],
           ["Not ready by a readiness gate"])
    [pod] = [record for record in map(json.loads, told_by("json", OPENED, "True 20")) if record["record"] == "pod"]
    expect("json: not ready", (pod["ready"], pod["became_unready"], pod["unready_seconds"]), (True, 1, 16))


def test_gates_that_no_rule_reads():
    """In versions 1 and 2 neither the gates of a manifest nor conditions mean anything."""
    told = told_by("story", trace_of(BOTH, {"mesh": False}, None, None, None, version=2), "True 0", "web")
    expect("version 2", [line for line in told if "gate" in line], [])
    trace = traces.trace_of(trace_of(5, ["mesh"], {"mesh": "True"}, {"mesh": 1}, {}).encode(), "it")
    expect("odd conditions", {gate: [(wait.since, wait.until) for wait in waits]
                              for (_, gate), waits in trace.reasons.gates.items()},
           {"example.com/lb": [(0, None)], "mesh": [(0, None)]})


def test_cases_of_the_program():
    """Of the program's own cases the last span of Ready is the report's line, and who is evicted comes first in the
    table."""
    wrong, count = [], 0
    for path in sorted(glob.glob(f"{TOP}/crates/case_runner/data/traces/extended/*.report")):
        given = path.removesuffix("report") + "trace"
        text = read(given) if os.path.exists(given) else ""
        if "readinessGates" not in text and '"resources"' not in text:
            continue
        report, trace = reports.read_report(read(path)), traces.trace_of(text.encode(), path)
        for pod in report.pods:
            span, final = readiness.by_rules(trace, pod)[-1], pod.condition("Ready")
            tables = [around.evicted for around in why.around_events(trace, report, pod) if around.evicted is not None]
            count += 1
            if (span.value, span.since) != (final.value, final.at) or not all(one.is_victim_first for one in tables):
                wrong.append(f"{os.path.basename(path)}: {pod.key}")
    expect("the program's cases", (wrong, count > 40), ([], True))


def test_requests_of_a_pod():
    """By which request version 3 ranks a pod: its own, its containers', or its own limit, in that order."""
    for version, of_pod, of_app, wanted in (
        (3, {"requests": {"memory": "100Mi"}, "limits": {"memory": "200Mi"}}, "10Mi", 100),
        (3, {"limits": {"memory": "200Mi"}}, "10Mi", 10), (3, {"limits": {"memory": "200Mi"}}, "0", 200),
        (3, {"requests": {"memory": "0"}}, "10Mi", 10), (3, {}, "10Mi", 10), (3, None, "0", 0),
        (2, {"requests": {"memory": "100Mi"}}, "10Mi", 10), (2, {"requests": 5}, "10Mi", 10),
    ):
        app = {"name": "app", "resources": {"requests": {"memory": of_app, "ephemeral-storage": "1Gi"}}}
        manifest = {"metadata": {"name": "web"}, "spec": {"containers": [app], "resources": of_pod}}
        text = lines_of({"kind": "node", "name": "n1", "version": version}, {"kind": "pod", "pod": manifest})
        [pod] = traces.trace_of(text.encode(), "it").pods
        expect(f"the request of a pod: {version} {of_pod} {of_app}",
               (pod.request("memory"), pod.request("ephemeral-storage")), (wanted * 1000 << 20, 1000 << 30))


def test_gates_over_a_rotation():
    """A gate that is not true as one trace ends and the next begins was so all the time."""
    parts = [traces.trace_of(trace_of(*conditions, moments=moments).encode(), "it") for conditions, moments in (
        ((None, BOTH, {"mesh": False}, None), (0, 5, 9, 19)),
        (({"example.com/lb": True, "mesh": False}, None, {"mesh": True}), (20, 25, 30)))]
    made = of_traces.join_traces(parts, [reports.Border(20, 20, "second")], [{0: 0}, {0: 0}])
    expect("gates over a rotation", {gate: [(wait.since, wait.until) for wait in waits]
                                     for (_, gate), waits in made.reasons.gates.items()},
           {"example.com/lb": [(0, 5)], "mesh": [(0, 5), (9, 30)]})


def test_greatest_delay():
    """The greatest delay comes from the kubelet's own field in version 3 alone."""
    period = {"crashLoopBackOff": {"maxContainerRestartPeriod": "1m"}}
    for more, wanted in (({"version": 3, **period}, 60), ({"version": 2, **period}, 300), ({"version": 3}, 300),
                         ({"version": 3, "crashLoopBackOff": {}}, 300), ({"version": 3, "maxRestartDelay": 20}, 20)):
        trace = traces.trace_of(lines_of({"kind": "node", "name": "n1", **more}).encode(), "it")
        expect(f"the greatest delay: {more}", trace.greatest_delay(), wanted)


def test_spans_of_ready():
    """A span of ContainersReady with times of gates that overlap, touch, and lie outside of it."""
    report = reports.read_report(REPORT.replace("READY", "True 20"))
    trace = traces.trace_of(OPENED.encode(), "it")
    spans = readiness.by_rules(trace, report.pods[0])
    expect("spans of Ready", [(span.value, span.since, span.until) for span in spans],
           [("False", 0, 5), ("True", 5, 9), ("False", 9, 20), ("True", 20, None)])
    expect("without the trace", [(span.value, span.since, span.until) for span in
                                 readiness.by_rules(None, report.pods[0])], [("True", 20, None)])
    expect("seconds", summary.unready_seconds(report.pods[0], 30, trace=trace), 16)
