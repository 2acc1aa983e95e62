"""The tests of what the tools print of resizes in place, also over several traces, and which of their faults explain
finds. test_resizes_recorded.py has what a recording has of them."""

import json
import re
import tempfile

import cases
from checks import HERE, REPLAY, TOOLS, expect, run
from test_explain import found_of
from test_follow import FIRST, NODE as FOLLOWED_NODE, Followed, pod as followed_pod, tick as followed_tick

from replay_tools import fields, limits, report as reports, traces, why
from replay_tools.explain import told
from replay_tools.joined import of_traces
from replay_tools.page import used

load_tests = cases.loaded(__name__)

BEGIN = 1767225600

# --- what the tools print ---


REPORT = """node n1 pods=2 ticks=4
event 0 default/a app started 0
event 0 default/a app ready
event 0 default/a - phase Running
event 0 default/b app started 0
event 0 default/b app ready
event 0 default/b - phase Running
event 10 node threshold memory.available hard active
event 10 node pressure MemoryPressure True
event 10 node evicted default/b memory.available hard 0
event 20 default/a app died 0 137
event 20 default/a app unready
event 20 default/a app restart 0
pod 0 default/a phase=Running reason=- qos=Burstable
condition 0 PodScheduled True 0
condition 0 Initialized True 0
condition 0 ContainersReady False 20
condition 0 Ready False 20
container 0 app state=Terminated code=137 restarts=0 ready=false started=false
pod 1 default/b phase=Failed reason=Evicted qos=Burstable
condition 1 PodScheduled True 0
condition 1 Initialized True 0
condition 1 ContainersReady False 10
condition 1 Ready False 10
condition 1 DisruptionTarget True 10 TerminationByKubelet
container 1 app state=Running code=- restarts=0 ready=false started=false
nodecondition MemoryPressure True 10
nodecondition DiskPressure False 0
nodecondition PIDPressure False 0
eviction 10 default/b memory.available hard 0
totals updates=8 events=9 orders=1
"""


def lines_of(*lines):
    return "".join(json.dumps(line) + "\n" for line in lines)


def manifest_of(name, **resources):
    return {"kind": "pod", "pod": {"metadata": {"name": name}, "spec": {"containers": [
        {"name": "app", "resources": resources}]}}}


def listed(code=None, **more):
    return [{"name": "app", "state": 1 if code is None else 2, **({} if code is None else {"exitCode": code}), **more}]


RAISED = {"requests": {"memory": "400Mi"}, "limits": {"memory": "512Mi", "cpu": "2"}}
LOWERED = {"requests": {"memory": "400Mi"}, "limits": {"memory": "450Mi"}}
HARD = {"memory.available": "100Mi"}


def trace_of(version=3, first=RAISED, then=LOWERED, **node):
    """A trace in which the node runs low on memory at 10, whose first pod then runs out of its own memory. It is
    resized at 10 and 15. An eviction pauses the next one."""
    at_10 = {} if first is None else {"resized": {"app": first}}
    at_15 = {} if then is None else {"resized": {"app": then}}
    low = {"memory.available": "50Mi"}
    return lines_of(
        {"kind": "node", "name": "n1", "version": version, "evictionHard": HARD, "evictionPauseSeconds": 30, **node},
        manifest_of("a", requests={"memory": "100Mi"}, limits={"cpu": "1500m"}),
        manifest_of("b", requests={"memory": "300Mi"}),
        {"kind": "tick", "at": 0, "pods": [{"pod": f"default/{name}", "containers": listed(), "usage": {"memory": used}}
                                           for name, used in (("a", "250Mi"), ("b", "200Mi"))]},
        {"kind": "tick", "at": 10, "signals": low, "pods": [
            {"pod": "default/a", "containers": listed(used={"workingSet": 262144000}), **at_10},
            {"pod": "default/b", "containers": listed()}]},
        {"kind": "tick", "at": 15, "signals": low, "pods": [{"pod": "default/a", "containers": listed(), **at_15},
                                                            {"pod": "default/b", "containers": listed()}]},
        {"kind": "tick", "at": 20, "signals": low, "pods": [
            {"pod": "default/a", "containers": listed(137, reason="OOMKilled")},
            {"pod": "default/b", "containers": listed()}]})


WORDS = {10: "resized: memory request from 100Mi to 400Mi, memory limit from none to 512Mi, cpu limit from 1500m to 2",
         15: "resized: memory limit from 512Mi to 450Mi, cpu limit from 2 to none"}


def told_by(tool, trace, *words, report=REPORT):
    with tempfile.NamedTemporaryFile("w", suffix=".trace") as file:
        file.write(trace)
        file.flush()
        clock = ["--seconds"] * (tool in ("story", "why"))
        status, shown, said = run([f"{TOOLS}/{tool}", *clock, *words, "--trace", file.name], report)
    expect(f"{tool} of resizes", (status, said), (0, ""))
    return shown


def test_report_of_resizes():
    """The report that these tests give the tools is the program's: the resize decides whom the rules evict."""
    expect("the report of resizes", run([REPLAY, "run", "/dev/stdin", "--extended"], trace_of()), (0, REPORT, ""))


def test_evicted_by_the_requests_by_then():
    """The example of docs/extended.md: the choice in the very tick of the resize uses the new request."""
    text = trace_of(first=None, then=None)
    _, report, _ = run([REPLAY, "run", "/dev/stdin", "--extended"], text)
    expect("evicted without a resize", "event 10 node evicted default/a memory.available hard 0" in report, True)
    _, report, _ = run([REPLAY, "run", "/dev/stdin", "--extended"], trace_of(then=None))
    expect("evicted after a resize", "event 10 node evicted default/b memory.available hard 0" in report, True)
    _, report, _ = run([REPLAY, "run", "/dev/stdin", "--extended"], trace_of(first={}, then=None))
    expect("the class stays", "pod 0 default/a phase=Failed reason=Evicted qos=Burstable" in report, True)


def test_what_is_told_of_resizes():
    """story and why show which container was resized, from what to what, and when; json has a record of each."""
    shown = told_by("story", trace_of(), "a", "--without-why").split("\nEvents\n")[1].split("\n\n")[0].splitlines()
    rows = [line.split(None, 3) for line in shown if "resized" in line]
    expect("story: resizes", [(int(at), name, attempt, what) for at, name, attempt, what in rows],
           [(at, "app", "-", what) for at, what in WORDS.items()])
    shown = told_by("why", trace_of(), "a").splitlines()
    expect("why: resizes", [line for line in shown if "resized" in line],
           [f"{at}  app {what}" for at, what in WORDS.items()])
    found = [record for record in map(json.loads, told_by("json", trace_of()).splitlines())
             if record["record"] == "resize"]
    first, second = found
    expect("json: resizes", [(each["at"], each["pod"], each["pod_number"], each["container"], each["words"])
                             for each in found],
           [(at, "default/a", 0, "app", f"app was {what}") for at, what in WORDS.items()])
    expect("json: the amounts", (first["before"], first["after"], second["before"], second["after"]), (
        {"requests": {"memory": "100Mi"}, "limits": {"cpu": "1500m"}}, RAISED, RAISED, LOWERED))
    for tool in ("story", "why"):
        shown = told_by(tool, trace_of(), "b")
        expect(f"{tool} of the other pod", "resized" in shown, False)


def test_page_of_resizes():
    """A page has them among the pod's events, and the bounds from then on next to what the container used."""
    page = told_by("page", trace_of())
    data = json.loads(re.search(r'<script type="application/json" id="data">(.*?)</script>', page, re.S)[1])
    [first, second] = data["podList"]
    expect("page: resizes", [(at, place, data["saids"][words]) for at, place, words in first["resized"]],
           [(at, 0, what) for at, what in WORDS.items()])
    expect("page: another pod", "resized" in second, False)
    mib = 1 << 20
    expect("page: bounds", first["used"][0]["bounds"], [
        [None, 100 * mib, None, 1500, 1500, False], [10, 400 * mib, 512 * mib, 2000, 2000, False],
        [15, 400 * mib, 450 * mib, None, None, False]])
    expect("page: the sentence", data["told"]["resized"], [["words"], "{words}"])


def test_candidates_by_then():
    """The table of an eviction's candidates has the requests by then, and the class of the manifest."""
    for name, text, wanted in (
        ("resized", trace_of(), [("default/b", 300), ("default/a", 400)]),
        ("later", trace_of(first=None), [("default/a", 100), ("default/b", 300)]),
        ("all lost", trace_of(first={}), [("default/a", 0), ("default/b", 300)]),
        ("a limit alone", trace_of(first={"limits": {"memory": "360Mi"}}), [("default/b", 300), ("default/a", 360)]),
        ("version 2", trace_of(version=2), [("default/a", 100), ("default/b", 300)]),
        ("null", trace_of(first=None, then=None), [("default/a", 100), ("default/b", 300)]),
    ):
        trace, report = traces.trace_of(text.encode(), "it"), reports.read_report(REPORT)
        [around] = [each.evicted for each in why.around_events(trace, report, report.pods[1])
                    if each.evicted is not None]
        found = [(each.pod.key, each.request // (1000 << 20)) for each in around.candidates]
        classes = {each.qos for each in around.candidates}
        expect(f"candidates by then: {name}", (found, classes), (wanted, {"Burstable"}))


def test_limits_by_then():
    """The limit of an OOM kill is the container's by then: after a resize, else an older recording's, else the
    manifest's."""
    older = {"resources": {"limits": {"memory": "222Mi"}}}
    changed = "resources.limits.memory, as it was changed in place"
    for name, first, then, listing, wanted in (
        ("the newest resize", RAISED, LOWERED, {}, ("450Mi", changed)),
        ("one resize", RAISED, None, {}, ("512Mi", changed)),
        ("a resize before a listing's", RAISED, None, older, ("512Mi", changed)),
        ("an older recording's", None, None, older, ("222Mi", changed)),
        ("the manifest's", None, None, {}, None), ("none any more", RAISED, {}, older, None),
    ):
        text = trace_of(first=first, then=then)
        text = text.replace('"reason": "OOMKilled"', f'"reason": "OOMKilled", {json.dumps(listing)[1:-1]}') if listing \
            else text
        trace, report = traces.trace_of(text.encode(), "it"), reports.read_report(REPORT)
        [died] = [event for event in report.events if event.word == "died"]
        limit = limits.limit_of(died, trace)
        expect(f"a limit by then: {name}", limit and (limit.text, limit.field), wanted)
    shown = told_by("story", trace_of(), "a")
    expect("story: the limit by then", "app died with code 137: OOMKilled, its memory limit is 450Mi" in shown, True)


def test_requests_of_a_resized_pod():
    """The pod's own request comes first, as without a resize."""
    manifest = manifest_of("a", requests={"memory": "100Mi"})
    manifest["pod"]["spec"]["resources"] = {"requests": {"memory": "250Mi"}}
    text = lines_of({"kind": "node", "name": "n1", "version": 3}, manifest, {"kind": "tick", "at": 1, "pods": [
        {"pod": "default/a", "resized": {"app": {"requests": {"memory": "1Gi", "ephemeral-storage": "2Gi"}}}}]})
    trace = traces.trace_of(text.encode(), "it")
    [pod] = trace.pods
    by_then = [trace.resizes.pod_at(pod, at) for at in (0, 1)]
    expect("requests of a resized pod", [(each.request("memory") >> 20, each.request("ephemeral-storage") >> 30)
                                         for each in by_then], [(250000, 0), (250000, 2000)])


def test_resizes_that_are_none():
    """Where a value means nothing no tool prints a resize; what the program rejects is no line of a trace."""
    for name, said in (("null", None), ("empty", {}), ("null of a name", {"app": None}), ("the same", {"app": {
            "requests": {"memory": "104857600"}, "limits": {"cpu": "1.5"}}}), ("a stranger", {"ap": {}}),
            ("other resources", {"app": {"requests": {"memory": "100Mi", "example.com/gpu": 7}, "limits": {
                "cpu": "1500m"}, "claims": 5}})):
        text = trace_of(first=None, then=None).replace('"used": {"workingSet": 262144000}}]', (
            f'"used": {{"workingSet": 262144000}}}}], "resized": {json.dumps(said)}'))
        trace = traces.trace_of(text.encode(), "it")
        expect(f"a resize that is none: {name}", ('"resized"' in text, trace.resizes.of_pods), (True, {}))
    for odd in ({"requests": 5}, {"limits": []}, {"requests": {"memory": "much"}}, {"limits": {"cpu": 1.5}}):
        refused = None
        try:
            traces.trace_of(trace_of(first=odd).encode(), "it")
        except traces.TraceFault as fault:
            refused = str(fault)
        expect(f"an odd resize: {odd}", refused and refused.startswith("it: line 5 is no line of a trace there"), True)
    expect("an odd resize in version 2", traces.trace_of(trace_of(version=2, first={"limits": []}).encode(), "it")
           .resizes.of_pods, {})


# --- several traces ---


FOLLOWS = {"trace": "n1.first.trace.gz", "until": 20, "at": 20}


def next_trace(*ticks, requests="100Mi", **node):
    return lines_of({"kind": "node", "name": "n1", "version": 3, **node}, manifest_of(
        "a", requests={"memory": requests}, limits={"cpu": "1500m"}), *(
        {"kind": "tick", "at": at, "pods": [{"pod": "default/a", "containers": listed(), **more}]}
        for at, more in ticks))


def joined(second, border, first=None):
    """The resizes of two traces that are joined, as they are printed."""
    parts = [traces.trace_of(text.encode(), "it") for text in (first or trace_of(), second)]
    made = of_traces.join_traces(parts, [border], [{0: 0, 1: 1}, {0: 0}])
    return [(resize.at, resize.words() + resize.note(str)) for resize in made.resizes.of_pod(0)]


def test_resizes_of_joined_traces():
    """What a trace begins with is no news if it was known; after a gap it may be, also by the pod's line alone."""
    known, border = list(WORDS.items()), reports.Border(20, 20, "second")
    head = (20, {"resized": {"app": LOWERED}})
    expect("joined: nothing new", joined(next_trace(head, (30, {}), follows=FOLLOWS), border), known)
    later = (30, {"resized": {"app": {"requests": {"memory": "1Gi"}}}})
    expect("joined: a resize after it", joined(next_trace(head, later, follows=FOLLOWS), border), [
        *known, (30, "resized: memory request from 400Mi to 1Gi, memory limit from 450Mi to none")])
    gap = reports.Border(20, 60, "second")
    came = "(by then, in the gap since 20)"
    expect("joined: by a pod's line after a gap", joined(next_trace((60, {}), requests="1Gi"), gap), [
        *known, (60, "resized: memory request from 400Mi to 1Gi, memory limit from 450Mi to none, "
                 f"cpu limit from none to 1500m {came}")])
    unlimited = {"resized": {"app": {**LOWERED, "limits": {}}}}
    expect("joined: by a tick after a gap", joined(next_trace((60, unlimited)), gap),
           [*known, (60, f"resized: memory limit from 450Mi to none {came}")])
    expect("joined: a pod without a resize", joined(next_trace((20, {}), follows=FOLLOWS), border,
                                                    trace_of(first=None, then=None)), [])
    bare = next_trace((60, {})).replace('"kind": "pod"', '"kind": "pod", "guessed": ["manifest"]').replace(
        json.dumps({"requests": {"memory": "100Mi"}, "limits": {"cpu": "1500m"}}), "{}")
    expect("joined: a manifest that is unknown", joined(bare, gap), known)


def test_resizes_before_a_trace():
    """Of a trace that follows another one alone, what it begins with was so before it."""
    report = REPORT.replace("pods=2 ticks=4", "pods=1 ticks=2")
    report = "".join(line for line in report.splitlines(True) if "default/b" not in line and " 1 " not in line
                     and "event 1" not in line and "event 2" not in line)
    report = report.replace("event 0 ", "event 20 ").replace("Terminated code=137", "Running code=-")
    shown = told_by("json", next_trace((20, {"resized": {"app": RAISED}}), (30, {"resized": {"app": LOWERED}}),
                                       follows=FOLLOWS), report=report)
    found = [record for record in map(json.loads, shown.splitlines()) if record["record"] == "resize"]
    expect("resizes before a trace: json", [(each["at"], each.get("so_before")) for each in found],
           [(20, True), (30, None)])
    text = next_trace((20, {"resized": {"app": RAISED}}), (30, {}), follows=FOLLOWS)
    shown = told_by("why", text, "a", report=report)
    expect("resizes before a trace: why", [line for line in shown.splitlines() if "resized" in line],
           [f"20  app {WORDS[10]} (so before this trace)"])


def test_follow_resizes():
    """story --follow prints a resize when it is recorded."""
    runs = {"name": "app", "attempt": 0, "state": "CONTAINER_RUNNING"}
    with Followed("web", "--seconds") as followed:
        followed.write(f"{FIRST}.part", FOLLOWED_NODE, followed_pod("web-7d-x"), followed_pod("calm"),
                       followed_tick(0, runs), followed_tick(10, runs))
        followed.start()
        followed.next()
        line = followed_tick(20, runs)
        for entry in line["pods"]:
            entry["resized"] = {"app": {"limits": {"memory": "64Mi"}}}
        followed.write(f"{FIRST}.part", line, followed_tick(30, runs), followed_tick(40, runs))
        expect("follow: a resize", followed.next(),
               f"{BEGIN + 20}  shop/web-7d-x app resized: memory limit from none to 64Mi")


def test_edits_keep_resizes():
    """An edit of another line leaves a tick's resizes as they are, byte for byte; a tick's edit may change them."""
    given, shows = trace_of(), f"{HERE}/commands/show"
    edit = 'container("default/a"; "app"; .resources.requests.memory = "200Mi")'
    status, shown, said = run([f"{TOOLS}/what-if", edit], given, KUBELET_REPLAY=shows)
    expect("what-if keeps resizes", (status, said, "resized" in shown, shown.count("\n")), (0, "", False, 2))
    edit = 'tick(.pods[]? |= (if .resized then .resized.app.limits = {} else . end))'
    shown = run([f"{TOOLS}/what-if", edit], given, KUBELET_REPLAY=shows)[1]
    expect("what-if of resizes", [line[0] for line in shown.splitlines() if '"limits":{}' in line], ["+", "+"])


def test_bounds_of_older_recordings():
    """Without a resize the bounds of a page are those that the listings of an older recording have."""
    text = trace_of(first=None, then=None).replace('"used": {"workingSet": 262144000}', (
        '"used": {"workingSet": 262144000}, "resources": {"limits": {"memory": "64Mi"}}'))
    trace, ticks = traces.trace_of(text.encode(), "it"), why.Ticks()
    ticks.take_all(trace)

    class Span:
        first = 0
        of = staticmethod(lambda at: at)

    class Budget:
        takes = staticmethod(lambda count: True)

    found = used.used_of(Span, trace.pods[0], ticks.of(trace, trace.pods[0]), Budget)["used"][0]["bounds"]
    expect("bounds of an older recording", [row[:3] for row in found], [
        [None, 100 << 20, None], [10, 64 << 20, 64 << 20]])
    expect("bounds of a listing", fields.bounds_of({"limits": {"memory": "64Mi"}}).memory_request, 64000 << 20)


# --- explain ---


def explained(resized, number=46, version=3):
    text = trace_of(version=version, first=resized, then=None)
    return found_of(text.encode(), f"status 2: line 5: {number} X", version == 3)


def test_explained_values():
    """46 Usage: which name, which amount, and what to do."""
    place = ("pods", 0, "resized")
    for resized, path, says, advice in (
        ({"requests": 5}, (*place, "app", "requests"), "pods[0].resized.app.requests is 5: it is an object with cpu, "
         "memory, ephemeral-storage", None),
        ({"limits": {"memory": "64MB"}}, (*place, "app", "limits", "memory"),
         'pods[0].resized.app.limits.memory is "64MB": it is no quantity', "leave out the B"),
        ({"requests": {"cpu": 1.5}}, (*place, "app", "requests", "cpu"),
         "pods[0].resized.app.requests.cpu is 1.5: it is no quantity", None),
        ({"requests": {"memory": "2Gi"}, "limits": {"memory": "1Gi"}}, (*place, "app", "requests", "memory"),
         'pods[0].resized.app.requests.memory is "2Gi": it is above its limit, 1Gi', "take both from the container"),
        ("x", (*place, "app"), 'pods[0].resized.app is "x": it is an object with requests and limits', "write {}"),
        ([], (*place, "app"), "pods[0].resized.app is []: it is an object with requests and limits", "write {}"),
    ):
        [found] = explained(resized).found
        expect(f"explain a resize: {resized}", (found.path, found.says, advice is None or advice in found.advice),
               (path, says, True))
    text = trace_of(then=None).replace(json.dumps({"app": RAISED}), "[7]")
    [found] = found_of(text.encode(), "status 2: line 5: 46 Usage", True).found
    expect("explain a resize of another kind", (found.path, found.says), (
        place, "pods[0].resized is [7]: it is an object of containers' names, each with requests and limits"))
    shown = told.whole_text(explained({"limits": {"memory": "64MB"}}), "TRACE")
    expect("explain a resize: the place", '"limits": {"memory": "64MB"}' in shown and "^^^^^^" in shown, True)
    for fine in (None, {}, {"requests": None}, {"requests": {"memory": None, "example.com/gpu": "x"}, "claims": 5},
                 {"requests": {"cpu": "2"}, "limits": {"cpu": "0"}}):
        expect(f"explain: no fault of {fine}", explained(fine).found, [])
    expect("explain: none in version 2", explained({"requests": 5}, version=2).found, [])


def test_explained_names():
    """40 StrangerContainer: a name in resized that is no container's of its pod."""
    text = trace_of(then=None).replace('"resized": {"app"', '"resized": {"none": null, "apq"')
    [found] = found_of(text.encode(), "status 2: line 5: 40 StrangerContainer", True).found
    expect("explain a strange name", (found.path, found.says, found.advice), (
        ("pods", 0, "resized", "apq"), "pods[0].resized.apq is of no container of default/a: it has app",
        "perhaps app is meant"))
    both = text.replace('"name": "app", "state": 1, "used"', '"name": "zzz", "state": 1, "used"')
    [found] = found_of(both.encode(), "status 2: line 5: 40 StrangerContainer", True).found
    expect("explain a strange listing first", found.path, ("pods", 0, "containers", 0, "name"))
    text = text.replace('"version": 3', '"version": 2')
    expect("explain: no strange name in version 2", found_of(
        text.encode(), "status 2: line 5: 40 StrangerContainer", False).found, [])
