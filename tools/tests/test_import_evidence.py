"""The tests of what an import makes of Events or of an audit log alone, where no journal is left. Both are written from
knowledge of the API."""

import json
import os
import subprocess
import tempfile

import cases
from checks import expect, expect_refused
from test_import_evictions import BEGUN as BEGIN
from test_import import IMPORT, checked, imported, listings_of, pod_lines

load_tests = cases.loaded(__name__)

UID = "11111111-1111-1111-1111-111111111111"


def event(second, reason, message, count=1, first=None, host="worker-3", path="spec.containers{app}"):
    def stamp(at):
        return f"2026-03-01T10:{at // 60:02}:{at % 60:02}Z"

    return {"kind": "Event", "involvedObject": {"kind": "Pod", "name": "web", "namespace": "shop", "uid": UID,
                                                "fieldPath": path},
            "reason": reason, "message": message, "count": count, "source": {"component": "kubelet", "host": host},
            "firstTimestamp": stamp(second if first is None else first), "lastTimestamp": stamp(second)}


EVENTS = [event(1, "Scheduled", "Successfully assigned shop/web to worker-3", host="", path=""),
          event(60, "Started", "Started container app", 3, 5),
          event(62, "Unhealthy", "Readiness probe failed: HTTP probe failed with statuscode: 503"),
          event(40, "BackOff", "Back-off restarting failed container", 4, 20),
          event(70, "Evicted", "The node was low on resource: memory. ", path=""),
          event(9, "Started", "Started container other", host="worker-4", path="spec.containers{other}")]


def audited(second, user, verb, part, uid=UID, **bodies):
    return {"kind": "Event", "apiVersion": "audit.k8s.io/v1", "auditID": f"{second}", "verb": verb, "stage":
            "ResponseComplete", "user": {"username": user}, "responseStatus": {"code": 200},
            "objectRef": {"resource": "pods", "namespace": "shop", "name": "web", "uid": uid, "subresource": part},
            "requestReceivedTimestamp": f"2026-03-01T10:00:{second:02}.500000Z", **bodies}


def status(count, **state):
    return {"status": {"phase": "Running", "containerStatuses": [
        {"name": "app", "restartCount": count, "containerID": f"containerd://{'a' * 63}{count}", **state}]}}


def ended(count, code, start, end):
    return {"terminated": {"exitCode": code, "reason": "Error", "containerID": f"containerd://{'a' * 63}{count}",
                           "startedAt": f"2026-03-01T10:00:{start:02}Z", "finishedAt": f"2026-03-01T10:00:{end:02}Z"}}


AUDIT = [audited(5, "system:node:worker-3", "patch", "status", requestObject=status(
            0, state={"running": {"startedAt": "2026-03-01T10:00:04Z"}})),
         audited(21, "system:node:worker-3", "patch", "status", requestObject=status(0, state=ended(0, 7, 4, 20))),
         audited(31, "system:node:worker-3", "patch", "status", requestObject=status(
             1, state={"running": {"startedAt": "2026-03-01T10:00:30Z"}}, lastState=ended(0, 7, 4, 20))),
         audited(35, "system:node:worker-4", "patch", "status", requestObject=status(
             9, state={"running": {"startedAt": "2026-03-01T10:00:34Z"}})),
         {**audited(36, "system:node:worker-3", "patch", "status", requestObject=status(
             5, state={"running": {"startedAt": "2026-03-01T10:00:34Z"}})), "responseStatus": {"code": 409}},
         audited(40, "admin", "delete", None)]


def made(text):
    with tempfile.NamedTemporaryFile("w", suffix=".json", delete=False) as file:
        file.write(text)
    return file.name


def rows(trace):
    return [(at - BEGIN, *rest) for at, _, *rest in listings_of(trace)]


def test_import_of_events_alone():
    """Starts, waits and an eviction; of starts that are alike the first and the last one, with its number. What can't
    be known is reported, and the node line has what the trace is made of."""
    path = made(json.dumps({"items": EVENTS}))
    status_of, trace, said = imported("--node", "worker-3", "--events", path, pods=None)
    node = json.loads(trace.splitlines()[0])
    expect("import of Events alone: the node line", (status_of, node["imported"], node["importedFrom"]), (
        0, True, ["events"]))
    expect("import of Events alone", rows(trace), ([
        (5, "app", 0, "RUNNING", None, "moment"), (20, "app", 0, "EXITED", 137, "exitCode", "moment"),
        (60, "app", 2, "RUNNING", None)]))
    expect("import of Events alone: what is said", "of Events alone: starts are known" in said, True)
    evicted = [each["reason"] for tick in map(json.loads, trace.splitlines())
               for each in (tick.get("kubelet") or {}).get("evicted", ())]
    expect("import of Events alone: an eviction", evicted, ["Evicted"])
    expect("import of Events of two nodes", [pod["pod"]["spec"]["containers"] for pod in pod_lines(trace)],
           [[{"name": "app"}]])
    os.remove(path)


def test_import_of_events_waits_for_nobody():
    """Standard input is read only where it is named: it may be a pipe that stays open, or the input of what runs the
    import, of which nothing is taken. A line reports that something waits there."""
    path = made(json.dumps({"items": EVENTS}))
    words = [IMPORT, "--node", "worker-3", "--events", path]
    with subprocess.Popen(words, stdin=subprocess.PIPE, stdout=subprocess.PIPE, stderr=subprocess.PIPE) as process:
        try:
            out, said = process.stdout.read(), process.stderr.read().decode()
            expect("import of Events beside an open pipe", (process.wait(60), out.count(b'"kind":"node"'),
                                                           "standard input" in said), (0, 1, False))
        finally:
            process.kill()
    log = made("nothing that an import reads\n")
    with open(log, "rb") as given:
        done = subprocess.run(words, stdin=given, capture_output=True, text=True, check=False)
        expect("import of Events beside a file", (done.returncode, done.stderr.count("pass --journal -"),
                                                 given.tell()), (0, 1, 0))
    for each in (path, log):
        os.remove(each)


def test_import_of_an_audit_log_alone():
    """Each status that the kubelet sent has starts and exits, with codes and their own moments; nothing is shown of
    other nodes, and of requests that were rejected."""
    path = made("".join(json.dumps(each) + "\n" for each in AUDIT))
    status_of, trace, said = imported("--node", "worker-3", "--audit", path, pods=None)
    node = json.loads(trace.splitlines()[0])
    expect("import of an audit log alone", (status_of, node["importedFrom"], rows(trace)[:3]), (0, ["audit"], [
        (4, "app", 0, "RUNNING", None), (20, "app", 0, "EXITED", 7), (30, "app", 1, "RUNNING", None)]))
    expect("import of an audit log alone: what is said", "of an audit log alone: starts and exits with" in said, True)
    expect("import of an audit log alone: a deletion", '"deleting":true' in trace, True)
    of_events = made(json.dumps({"items": EVENTS}))
    both = imported("--node", "worker-3", "--audit", path, "--events", of_events, pods=None)
    expect("import of both", (both[0], json.loads(both[1].splitlines()[0])["importedFrom"]), (0, ["events", "audit"]))
    empty = made('{"items":[]}')
    expect_refused("import of no Events", imported("--node", "worker-3", "--events", empty, pods=None), 1,
                   "nothing in --events is of a pod of the node")
    for each in (path, of_events, empty):
        os.remove(each)


def test_import_of_evidence_is_taken():
    """The program takes what is made of Events and of an audit log."""
    for word, text in (("--events", json.dumps({"items": EVENTS})), ("--audit", "".join(
            json.dumps(each) + "\n" for each in AUDIT))):
        path = made(text)
        trace = imported("--node", "worker-3", word, path, pods=None)[1]
        expect(f"import of {word} alone: the program takes it", checked(trace), 0)
        os.remove(path)
