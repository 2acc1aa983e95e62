"""The tests of what Events of the API report of pods, in recordings with --events: which pods are asked for, what is
kept of an Event, and in which tick it is."""

import json

import cases
from checks import TOOLS, expect, run
from into_plays import Into
from test_connections import TOKEN, Kubelet, Place, has_openssl

from replay_tools.record.events import Asking, said_in
from replay_tools.record.standing import Standing

load_tests = cases.loaded(__name__)

BEGIN = 1767225600
SECRET = "s3cret"
IMAGE = "registry.example/shop/web:v9"
# reason, message, what is kept of it
KEPT = (
    ("Unhealthy", "Liveness probe failed: HTTP probe failed with statuscode: 503",
     "Liveness probe failed: HTTP probe failed with statuscode: 503"),
    ("Unhealthy", f"Readiness probe failed: {SECRET} exited", "Readiness probe failed"),
    ("Unhealthy", f'Startup probe failed: Get "http://10.0.0.7:80/{SECRET}": dial tcp 10.0.0.7:80: connect: connection '
     "refused", "Startup probe failed: connection refused"),
    ("Killing", "Container app failed liveness probe, will be restarted",
     "Container app failed liveness probe, will be restarted"),
    ("Killing", "Stopping container app", "Stopping container app"),
    ("Killing", f"Stopping container app {SECRET}!", None),
    ("BackOff", "Back-off restarting failed container app in pod web_shop(1-2a)",
     "Back-off restarting failed container app in pod web_shop(1-2a)"),
    ("BackOff", f'Back-off pulling image "{IMAGE}"', f"Back-off pulling: {IMAGE}"),
    ("Failed", f'Failed to pull image "u:{SECRET}@{IMAGE}": rpc error: code = NotFound desc = {SECRET}',
     f"{IMAGE}: code = NotFound"),
    ("SandboxChanged", "Pod sandbox changed, it will be killed and re-created.",
     "Pod sandbox changed, it will be killed and re-created."),
    ("FailedPostStartHook", f"Exec lifecycle hook ([{SECRET}]) failed", None),
    ("NodeNotReady", "Node is not ready", "Node is not ready"),
    ("TaintManagerEviction", "Marking for deletion Pod shop/web-1", "Marking for deletion Pod shop/web-1"),
    ("FailedPostStartHook",
     f"Exec lifecycle hook ([{SECRET}]) failed - error: command '{SECRET}' exited with 7: {SECRET}", "exited with 7"),
    ("FailedMount", f'MountVolume.SetUp failed for volume "{SECRET}" : secret "web-tls" not found',
     'secret "web-tls" not found'),
    ("FailedMount", f'MountVolume.SetUp failed for volume "{SECRET}" : {SECRET} "web-tls" not found', None),
    ("FailedMount",
     f"Unable to attach or mount volumes: unmounted volumes=[{SECRET}]: timed out waiting for the condition",
     "timed out waiting for the condition"))


def event(at, reason, message, identity="e1", count=1, uid="uid-web", path="spec.containers{app}"):
    return {"at": at, "metadata": {"uid": identity}, "reason": reason, "message": message, "count": count,
            "involvedObject": {"uid": uid, "fieldPath": path}}


def test_kept_parts():
    for reason, message, wanted in KEPT:
        item = {**event(0, reason, message), "lastTimestamp": "2026-01-01T00:00:00Z"}
        [said] = said_in(json.dumps({"items": [item]}), "events")
        expect(f"events: {reason}: {message[:60]}", (said.message, said.is_left_out), (wanted, wanted is None))


def test_forms():
    """Both forms of an Event, one without a moment, and a reason and a container that are none."""
    series = {"series": {"count": 7, "lastObservedTime": "2026-01-01T00:00:09.5Z"}, "eventTime": "2026-01-01T00:00:01Z",
              "reason": "Killing", "note": "x", "metadata": {"uid": "a"}}
    old = {"lastTimestamp": "2026-01-01T00:00:02Z", "count": 3, "reason": "its own", "metadata": {"uid": "b"},
           "involvedObject": {"fieldPath": "spec.containers{\x1b}"}}
    said = said_in(json.dumps({"items": [series, old, {"reason": "Killing"}]}), "events")
    expect("events: both forms", [each.told() for each in said], [
        {"at": BEGIN + 2, "reason": "Other", "count": 3}, {"at": BEGIN + 9, "reason": "Killing", "count": 7}])


def test_asking():
    """Some seconds after the happening, at most once in ten, and few at once."""
    asking = Asking(True)
    asking.want(["a"], 0)
    found = []
    for moment in range(30):
        if moment in (5, 6, 7):
            asking.want(["a"], moment)
        found += [(moment, uid) for uid in asking.due(moment)]
    expect("events: when they are asked for", found, [(3, "a"), (13, "a")])
    asking.want([f"uid-{number}" for number in range(12)], 30)
    expect("events: few at once", [len(asking.due(moment)) for moment in (33, 34, 35, 36)], [5, 5, 2, 0])
    asking = Asking(False)
    asking.want(["a"], 0)
    expect("events: where none is asked for", asking.due_at, {})


def play():
    probe = {"periodSeconds": 1, "failureThreshold": 2}
    spec = {"containers": [{"name": "app", "livenessProbe": probe}]}
    unhealthy = "Liveness probe failed: HTTP probe failed with statuscode: 503"
    return {"begin": BEGIN, "pods": {"shop/web": {"spec": spec}, "shop/calm": {"spec": spec}},
            "containers": [
                {"id": "a0", "pod": "shop/web", "name": "app", "attempt": 0, "created": -3, "started": -2,
                 "exited": 8.4, "code": 137},
                {"id": "a1", "pod": "shop/web", "name": "app", "attempt": 1, "created": 8.5, "started": 8.6},
                {"id": "b0", "pod": "shop/calm", "name": "app", "attempt": 0, "created": -3, "started": -2}],
            "probes": [{"pod": "shop/web", "container": "app", "probe": "liveness", "result": "failure",
                        "at": [6.5, 7.5]}],
            "events": [event(-60, "Unhealthy", unhealthy, "e0"), event(6.5, "Unhealthy", unhealthy),
                       event(7.5, "Unhealthy", unhealthy, "e1", 2),
                       event(7.6, "Killing", "Container app failed liveness probe, will be restarted", "e2"),
                       event(7.7, "Killing", f"{SECRET}", "e3", uid="uid-calm")],
            "samples": {"0": {"memory": 2 ** 32}}}


def said_of(trace):
    ticks = [json.loads(line) for line in trace.splitlines() if '"kind":"tick"' in line]
    return [(tick["at"] - BEGIN, entry["pod"], [(each["at"] - BEGIN, each["reason"], each.get("count"))
                                                for each in entry["said"]])
            for tick in ticks for entry in tick["pods"] if "said" in entry]


def test_recorded_events():
    """Of a pod of which something happened, in the first tick at their moments; each once for each time that it was."""
    place = Into(play())
    status, trace, said = place.record("--extended", "--events", "kubectl", "--for", "40")
    without = place.record("--extended", "--for", "40")
    place.clean()
    expect("events: a recording", (status, said, said_of(trace)), (0, "", [
        (7, "shop/web", [(7, "Unhealthy", 2), (7, "Killing", None)])]))
    expect("events: without the word", (without[0], said_of(without[1])), (0, []))


def test_events_that_do_not_come():
    fails = [{"kind": "events", "from": 0, "until": 99, "text": "failed with status 1: forbidden"}]
    place = Into({**play(), "fails": fails})
    status, trace, said = place.record("--extended", "--events", "kubectl", "--for", "40")
    place.clean()
    expect("events that do not come", (status, said_of(trace), said.splitlines()[0].split(": ", 2)[2]),
           (0, [], "the events of pods failed with status 1: forbidden; their content is left out"))


def test_ready_of_the_node():
    """Each tick has it while the node is not Ready, some seconds after the condition's own moment, which is there too;
    and over a rotation."""
    ready = [{"at": -100, "status": "True", "reason": "KubeletReady"}, {"at": 12, "status": "Unknown",
             "reason": "NodeStatusUnknown"}, {"at": 31, "status": "True", "reason": "KubeletReady"}]
    place = Into({**play(), "ready": ready})
    status, trace, said = place.record("--extended", "--events", "kubectl", "--every", "5", "--for", "50")
    place.clean()
    lines = [json.loads(line) for line in trace.splitlines()]
    told = {line["at"] - BEGIN: line["nodeReady"] for line in lines if "nodeReady" in line}
    expect("not Ready: the ticks", (status, said, 12 <= min(told) <= 16, 29 <= max(told) <= 35), (0, "", True, True))
    expect("not Ready: what they say", list(told.values())[0],
           {"status": "Unknown", "reason": "NodeStatusUnknown", "since": BEGIN + 12})
    standing = Standing()
    for line in lines:
        if line.get("at", BEGIN) < BEGIN + 31:
            standing.take(line)
    begun = [json.loads(line) for line in standing.beginning(BEGIN + 30, None) if '"kind":"tick"' in line]
    expect("not Ready, over a border", begun[-1]["nodeReady"]["status"], "Unknown")


def test_check():
    """--check asks the API server too, where it is named, and shows which right is needed."""
    missing = "failed with status 1: forbidden; it needs the permission to"
    do = "the rights of deploy/rights-events.yaml do"
    works = ["works    the events of pods: they may be listed", "works    the node: Ready is False"]
    for fails, wanted in (([], works),
                          (["events", "node"], [f"missing  the events of pods {missing} list events; {do}",
                                                f"missing  the node {missing} get nodes; {do}"])):
        place = Into({**play(), "ready": [{"at": -9, "status": "False", "reason": "KubeletNotReady"}], "fails": [
            {"kind": kind, "from": 0, "until": 99, "text": "failed with status 1: forbidden"} for kind in fails]})
        status, told, _ = place.record("--check", "--events", "kubectl")
        place.clean()
        expect(f"--check of the API server: {fails}", (status, told.splitlines()[-2:]), (int(fails != []), wanted))


def test_api_at_an_address():
    """The API server at an address is asked with the token of the file, where its certificate is checked, and by no
    other word."""
    if not has_openssl():
        return
    place = Place()
    curl = place.curl_file(f'header = "Authorization: {TOKEN}"\ncacert = "{place.folder}/crt"\n')
    kubelet, api = Kubelet(place.folder), Kubelet(place.folder)
    path = "/api/v1/namespaces/default/events?fieldSelector=involvedObject.uid%3Dnone"
    api.others = {path: (200, b'{"items": []}'), "/api/v1/nodes/worker-3": (403, b"Forbidden")}
    words = ["--check", "--node", "worker-3", "--kubelet", kubelet.url, "--curl", curl, "--events", api.url]
    status, told, said = run([f"{TOOLS}/record", *words], **place.settings)
    for server in (kubelet, api):
        server.end()
    place.remove()
    lines = [line for line in told.splitlines() if "event" in line or "the node" in line]
    expect("the API server at an address", (status, said, lines[0], api.given),
           (1, "", "works    the events of pods: they may be listed", {TOKEN: 2}))
    expect("the API server at an address: what is missing", "it needs the permission to get nodes" in lines[1], True)
