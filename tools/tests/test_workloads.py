"""The tests of the story of a workload of a cluster: from its name to its nodes, and one story over all of them, by a
stand-in of kubectl with three nodes. Two nodes have hand-written traces, the third one the recording of a real
kubelet."""

import gzip
import json
import os
import shutil
import tempfile
import time

import cases
from checks import HERE, TOOLS, TOP, expect, expect_refused, run

load_tests = cases.loaded(__name__)

COMMANDS = f"{HERE}/kubectl/commands"
BEGIN = 1767236400
RECORDED = f"{TOP}/examples/recorded/out_of_memory.trace"
SINCE = ("--since", "2026-01-01T03:00Z")
NODES = (("worker-1", "recorder-a"), ("worker-2", "recorder-b"), ("node-a", "recorder-c"))
OLD, NEW = "web-5f6d8", "web-7d4b9c"
# what a container used that came to its limit
WHOLE = {"workingSet": 64 << 20, "usage": 64 << 20, "cpu": 250}


def line(value):
    return json.dumps(value, separators=(",", ":")) + "\n"


def trace(node, pods, ticks):
    """A trace of version 3 of a node: pods by their names with the members of their containers, ticks by the second."""
    made = line({"kind": "node", "name": node, "version": 3, "recordsKubelet": True})
    for name, container in pods.items():
        made += line({"kind": "pod", "pod": {"metadata": {"name": name, "namespace": "shop"},
                                            "spec": {"containers": [{"name": "app", **container}]}}})
    for at, entries in ticks:
        if isinstance(entries, str):
            made += line({"kind": "gone", "pod": f"shop/{entries}"})
        else:
            named = [{"pod": f"shop/{name}", **entry} for name, entry in entries.items()]
            made += line({"kind": "tick", "at": BEGIN + at, "pods": named})
    return made


def listed(attempt=0, code=None, reason=None, beside=(), **more):
    found = {"name": "app", "attempt": attempt, "state": "CONTAINER_RUNNING", **dict(beside)}
    found.update({} if code is None else {"state": "CONTAINER_EXITED", "exitCode": code})
    return {"containers": [{**found, **({"reason": reason} if reason else {})}], **more}


def result(said):
    return {"probes": [{"container": "app", "probe": "readiness", "result": said}]}


def traces():
    """What the recorders hold: a kill for memory, a pod that was deleted, and one whose readiness probe fails."""
    limit = {"resources": {"limits": {"memory": "64Mi"}}}
    first = trace("worker-1", {f"{NEW}-aaaaa": limit}, [
        (0, {f"{NEW}-aaaaa": listed()}),
        (596, {f"{NEW}-aaaaa": listed(beside={"used": WHOLE})}),
        (600, {f"{NEW}-aaaaa": listed(0, 137, "OOMKilled", {"used": {**WHOLE, "age": 4}, "log": ["Out of memory"]})}),
        (611, {f"{NEW}-aaaaa": listed(1)}), (900, {f"{NEW}-aaaaa": listed(1)})])
    probe = {"readinessProbe": {"periodSeconds": 10, "failureThreshold": 1}}
    second = trace("worker-2", {f"{OLD}-bbbbb": {}, f"{NEW}-ccccc": probe, "other": {}}, [
        (0, {f"{OLD}-bbbbb": listed(), f"{NEW}-ccccc": listed(**result("success")), "other": listed()}),
        (300, {f"{OLD}-bbbbb": listed(deleting=True), f"{NEW}-ccccc": listed(), "other": listed()}),
        (302, f"{OLD}-bbbbb"),
        (302, {f"{NEW}-ccccc": listed(), "other": listed(0, 1, "Error")}),
        (720, {f"{NEW}-ccccc": listed(**result("failure")), "other": listed(0, 1)})])
    with open(RECORDED, encoding="utf-8") as file:
        return {"recorder-a/worker-1.2026-01-01T03-00-00Z.trace.gz": first,
                "recorder-b/worker-2.2026-01-01T03-00-00Z.trace.gz": second,
                "recorder-c/node-a.2026-11-27T05-04-11Z.trace.gz": file.read()}


def pod(name, node, owner=None, **status):
    owners = {"ownerReferences": [{"kind": "ReplicaSet", "name": owner, "uid": f"uid-{owner}"}]} if owner else {}
    return {"metadata": {"name": name, "namespace": "shop", **owners},
            "spec": {"nodeName": node, "containers": [{"name": "app"}]}, "status": {"phase": "Running", **status}}


# of pods that no recorder has: a crash loop, and one that no node takes
CRASHES = {"containerStatuses": [{"name": "app", "ready": False, "restartCount": 7,
                                  "state": {"waiting": {"reason": "CrashLoopBackOff", "message": "back-off 5m0s"}},
                                  "lastState": {"terminated": {"exitCode": 137, "reason": "OOMKilled",
                                                               "finishedAt": "2026-01-01T03:09:00Z"}}}],
           "conditions": [{"type": "Ready", "status": "False", "reason": "ContainersNotReady"},
                          {"type": "Initialized", "status": "True"}]}
PENDING = {"phase": "Pending", "conditions": [{"type": "PodScheduled", "status": "False", "reason": "Unschedulable",
                                               "message": "0/4 nodes are\navailable"}]}


def event(name, reason, message, at, host=None, **more):
    stamp = time.strftime("%Y-%m-%dT%H:%M:%SZ", time.gmtime(BEGIN + at))
    about = {"kind": "Pod", "name": name, "namespace": "shop", "fieldPath": "spec.containers{app}"}
    return {"involvedObject": about, "reason": reason, "message": message, "lastTimestamp": stamp,
            "source": {"host": host} if host else {}, **more}


def objects():
    """What the API server knows: one pod of the Deployment has gone, and its node is in its events."""
    sets = [{"metadata": {"name": name, "uid": f"uid-{name}",
                          "ownerReferences": [{"kind": "Deployment", "uid": owner}]}}
            for name, owner in ((NEW, "uid-web"), (OLD, "uid-web"), ("webhook-11111", "uid-webhook"))]
    pods = [pod(f"{NEW}-aaaaa", "worker-1", NEW), pod(f"{NEW}-ccccc", "worker-2", NEW),
            pod(f"{NEW}-ddddd", "worker-4", NEW, **CRASHES), pod("webhook-11111-eeeee", "worker-9", "webhook-11111"),
            pod("other", "worker-2"), pod("oom", "node-a"), pod(f"{NEW}-fffff", None, NEW, **PENDING)]
    events = [event(f"{OLD}-bbbbb", "Scheduled", f"Successfully assigned shop/{OLD}-bbbbb to worker-2", -60),
              event(f"{NEW}-ccccc", "Unhealthy", "Readiness probe failed: HTTP probe failed with statuscode: 503", 720,
                    "worker-2", count=3),
              event("other", "BackOff", "Back-off restarting failed container", 310, "worker-2"),
              {"involvedObject": {"kind": "Node", "name": "worker-8"}, "reason": "Rebooted"}, {"reason": 5}, "odd"]
    return {"deployment.web": {"metadata": {"name": "web", "uid": "uid-web"}}, "replicasets": {"items": sets},
            "pods": {"items": pods}, "events": {"items": events}, "pods@app=web": {"items": [pods[0], pods[1]]}}


class Cluster:
    """Three nodes that record, and the API server of a namespace."""

    def __init__(self):
        self.path = tempfile.mkdtemp()
        for name, text in traces().items():
            os.makedirs(os.path.dirname(f"{self.path}/{name}"), exist_ok=True)
            with gzip.open(f"{self.path}/{name}", "wt", encoding="utf-8") as file:
                file.write(text)
        os.makedirs(f"{self.path}/api/shop")
        os.mkdir(f"{self.path}/kept")
        for name, found in objects().items():
            self.put(f"api/shop/{name}.json", json.dumps(found))
        self.put("api/shop/deployment.names", "deployment.apps/web\ndeployment.apps/webhook\ndeployment.apps/$(x)\n")
        self.put("api/namespaces.names", "namespace/shop\nnamespace/$(x)\n")
        self.put("pods.json", json.dumps({"items": [
            {"metadata": {"name": name}, "spec": {"nodeName": node},
             "status": {"phase": "Running", "containerStatuses": [{"ready": True}]}} for node, name in NODES]}))

    def __enter__(self):
        return self

    def __exit__(self, *_):
        shutil.rmtree(self.path)

    def put(self, name, text):
        with open(f"{self.path}/{name}", "w", encoding="utf-8") as file:
            file.write(text)

    def run(self, *words, tool="kubectl-replay", **settings):
        return run([f"{TOOLS}/{tool}", *words], CLUSTER=self.path, PATH=f"{COMMANDS}:{os.environ['PATH']}",
                   TMPDIR=f"{self.path}/kept", CONTEXT_NAMESPACE="shop", **settings)

    def asked(self):
        """The recorders' files that were copied since this was asked last."""
        if not os.path.exists(f"{self.path}/asked"):
            return []
        with open(f"{self.path}/asked", encoding="utf-8") as file:
            names = sorted(os.path.basename(each).split(".")[0] for each in file.read().split("\n")[:-1])
        os.remove(f"{self.path}/asked")
        return names


STORY = """\
deployment/web in shop, 2026-01-01 03:00:00Z to 2026-01-01 03:15:00Z: 5 pods, 3 recorded, on 3 nodes

What happened
  moment                node      pod               container  event
  2026-01-01 03:05:00Z  worker-2  web-5f6d8-bbbbb   -          being deleted from here on: nothing of it is restarted
             03:10:00Z  worker-1  web-7d4b9c-aaaaa  app        died with code 137: OOMKilled, its memory limit is 64Mi, \
it used 64Mi 4 s before (attempt 0)
             03:10:00Z  worker-1  web-7d4b9c-aaaaa  app        it wrote last: Out of memory
             03:10:00Z  worker-1  web-7d4b9c-aaaaa  app        unready
             03:12:00Z  worker-2  web-7d4b9c-ccccc  app        the API's event Unhealthy: Readiness probe failed: HTTP \
probe failed with statuscode: 503 (3 times, last then)
             03:12:00Z  worker-2  web-7d4b9c-ccccc  app        unready
  3 more events, which --all prints too

Pods that no trace has, as the API server has them now
  pod               node      phase    ready  restarts  why
  web-7d4b9c-ddddd  worker-4  Running  0/1           7  app waits: CrashLoopBackOff: back-off 5m0s; app exited last \
with code 137 at 2026-01-01T03:09:00Z: OOMKilled; Ready is False: ContainersNotReady
  web-7d4b9c-fffff  -         Pending  0/1           0  PodScheduled is False: Unschedulable: 0/4 nodes are available

Pods, the worst first
  pod               node      phase    restarts  in all  unready s  moment                worst event
  web-7d4b9c-aaaaa  worker-1  Running         1       1         11  2026-01-01 03:10:00Z  app died with code 137: \
OOMKilled, its memory limit is 64Mi, it used 64Mi 4 s before
  web-7d4b9c-ccccc  worker-2  Running         0       0          0             03:12:00Z  app unready
  web-5f6d8-bbbbb   worker-2  Running         0       0          0             03:05:00Z  deleted

Missing
  worker-4: no recorder
"""


def test_story_of_a_deployment():
    """Its nodes alone are asked, with the one that a pod had that has gone; one of them has no recorder."""
    with Cluster() as cluster:
        status, told, said = cluster.run("story", "deploy/web", *SINCE)
        expect("story deploy/web", (status, told, said),
               (0, STORY, ""))
        expect("story deploy/web: who is asked", cluster.asked(), ["worker-1", "worker-2"])
        expect("story deploy/web leaves no folder", os.listdir(f"{cluster.path}/kept"), [])
        for words in (("story", "deployment.apps/web", "-n", "shop", *SINCE),
                      ("story", *SINCE, "-nshop", "deployments/web")):
            expect(" ".join(words), cluster.run(*words)[1], told)
        answer = cluster.run("story", "deploy/web", "-n", "shop", *SINCE, tool="kubelet-replay")
        expect("by the other command", answer[1], told)


def test_story_of_a_label_and_a_pod():
    with Cluster() as cluster:
        status, told, said = cluster.run("story", "-l", "app=web", *SINCE)
        expect("story -l", (status, said, told.split("\n")[0]),
               (0, "", "-l app=web in shop, 2026-01-01 03:00:00Z to 2026-01-01 03:15:00Z: 2 pods on 2 nodes"))
        expect("story -lapp=web", cluster.run("story", "-lapp=web", *SINCE)[1], told)
        cluster.asked()
        status, told, said = cluster.run("story", "pod/oom", *SINCE)
        expect("story pod/oom: of a real kubelet", (status, said, told.count("OOMKilled, its memory limit is 32Mi")),
               (0, "", 2))
        expect("story pod/oom: what comes again is counted", "(4 times, last at 05:05:29Z)" in told, True)
        expect("story pod/oom: who is asked", cluster.asked(), ["node-a"])
        expect("story pod/oom --all", cluster.run("story", "pod/oom", "--all", *SINCE)[1].count("OOMKilled, its"), 5)
        expect("story oom --since", cluster.run("story", "oom", *SINCE)[1], told)
        expect("story shop/oom --since", cluster.run("story", "shop/oom", *SINCE)[1], told)


def test_worst_of_a_namespace():
    with Cluster() as cluster:
        status, told, said = cluster.run("story", "-n", "shop", *SINCE)
        rows = [row.split()[:2] for row in told.partition("Pods, the worst first\n")[2].split("\n")[1:]]
        expect("story -n shop: the worst", (status, rows[:3], "What happened" in told, said), (0, [
            ["live", "node-a"], ["crash", "node-a"], ["oom", "node-a"]], False, ""))
        expect("story -n shop: what is missing", told.split("\n")[-2], "  worker-4, worker-9: no recorder")


def test_around_a_moment():
    with Cluster() as cluster:
        status, told, _ = cluster.run("story", "deploy/web", "--at", "2026-01-01T03:12Z")
        rows = told.partition("What happened")[2].partition("\n\n")[0].split("\n")[2:]
        expect("story deploy/web --at", (status, "being deleted" in told, len(rows)), (0, True, 7))
        status, told, said = cluster.run("story", "deploy/web", "--at", "2026-01-01T05:12Z")
        expect("story deploy/web --at another moment", (status, told.split("\n")[0], said), (
            0, "deployment/web in shop: 4 pods, none recorded, on 3 nodes", ""))
        expect("story deploy/web --at another moment: what is missing",
               "worker-1: nothing was recorded at 2026-01-01 05:12:00Z" in told, True)


def test_refused():
    with Cluster() as cluster:
        for words, status, said in (
            (("story", "deploy/wab"), 1, "deployment/wab in shop is not found: Error from server (NotFound)"),
            (("story", "deploy/"), 2, "deploy/ names none: deploy/NAME"),
            (("story", "deploy/web", "sts/db"), 2, "it takes one workload, pod or label"),
            (("story", "deploy/web", "-l", "a=b"), 2, "it takes one workload, pod or label"),
            (("story", "pod/none", *SINCE), 1, "pod/none in shop: no pod of it is known, in the cluster or in a trace"),
            (("story", "deploy/web", "--since", "soon"), 2, "--since takes a time"),
            (("story", "deploy/--raw=/api"), 2, "'--raw=/api' is no name of a deployment"),
            (("story", "web", "-n", "--raw=x"), 2, "-n needs a value"),
            (("story", "deploy/web", "-n", "a/b"), 2, "'a/b' is no name of a namespace"),
            (("story", "deploy/web", "--timeout", "0"), 2, "--timeout takes seconds from 1 to 3600, not '0'"),
            (("story", "deploy/web", "-o", "yaml"), 2, "-o takes json, not 'yaml'"),
        ):
            expect_refused(" ".join(words), cluster.run(*words), status, said)
        answer = cluster.run("story", "deploy/web", "-n", "far")
        expect("what can't be listed", (answer[0], answer[1], answer[2].count("\n"), "(NotFound)" in answer[2]),
               (1, "", 2, True))
        answer = cluster.run("story", *SINCE, tool="kubelet-replay")
        expect_refused("kubelet-replay story of no namespace", answer, 2,
                       "or for a cluster --node NODE or -n NAMESPACE")
        # what can't be listed comes in the order of the answers
        answers = [cluster.run("story", "-A", *SINCE, tool=tool)[1] for tool in ("kubelet-replay", "kubectl-replay")]
        expect("kubelet-replay story -A", *(sorted(answer.split("\n")) for answer in answers))
        cluster.put("api/shop/pods.json", "[]")
        expect("pods that are none", "the pods of shop: can't be listed: kubectl's answer is no list\n" in
               cluster.run("story", "deploy/web", *SINCE)[1], True)


def test_completion():
    """Where no file is named the cluster is asked for the names of a kind; what no name may be is none."""
    with Cluster() as cluster:
        for words, wanted in ((("story", ""), "cj/ deploy/ ds/ job/ po/ rs/ sts/ :4"),
                              (("story", "d"), "deploy/ ds/ :4"),
                              (("story", "deploy/"), "deploy/web deploy/webhook :4"),
                              (("story", "sts/"), ":4"), (("story", "nothing/"), ":4"),
                              (("why", "deploy/"), "deploy/web deploy/webhook :4"), (("story", "-l", ""), ":4"),
                              (("story", "--node", ""), "node-a worker-1 worker-2 :4"),
                              (("fetch", "w"), "worker-1 worker-2 :4"), (("story", "-n", "s"), "shop :4"),
                              (("nodes", "--recorders", ""), "kubelet-replay :4"),
                              (("story", "--context", ""), "far near :4")):
            status, told, said = cluster.run(*words, tool="kubectl_complete-replay")
            expect(f"completion of {' '.join(words)}", (status, " ".join(told.split()), said), (0, wanted, ""))
