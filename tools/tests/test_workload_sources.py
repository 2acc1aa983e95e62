"""The tests of what a story of a workload is made of: options that every call of kubectl is given, pods that no trace
has, pods that are gone, and sources that may not be asked or do not answer."""

import json
import os
import re
import shutil
import time

import cases
from checks import expect, expect_refused
from test_workloads import CRASHES, NEW, OLD, PENDING, SINCE, Cluster, pod

load_tests = cases.loaded(__name__)

FORBIDDEN = 'Error from server (Forbidden): {} is forbidden: User "bob" cannot list resource "{}" in namespace "shop"\n'


class Bare(Cluster):
    """The API server of a namespace, and no recorder."""

    def __init__(self):
        super().__init__()
        self.put("pods.json", '{"items":[]}')


def kept(cluster, name):
    """The lines of a file that the stand-in has written."""
    try:
        with open(f"{cluster.path}/{name}", encoding="utf-8") as file:
            return file.read().split("\n")[:-1]
    except FileNotFoundError:
        return []


def test_options_of_kubectl():
    """They are passed on to every call; an unknown option is none of them, and asks nothing."""
    given = ("--kubeconfig", "X", "--as", "bob", "--as-group=ops", "--context", "far", "--cluster", "c", "--user", "u",
             "--token", "t", "-s", "https://h:1", "--request-timeout", "5s")
    wanted = (" --kubeconfig=X --as=bob --as-group=ops --context=far --cluster=c --user=u --token=t "
              "--server=https://h:1 --request-timeout=5s ")
    with Bare() as cluster:
        for words in (("story", "deploy/web", "-n", "shop"), ("story", "-n", "shop"), ("nodes",),
                      ("story", "web", "-n", "shop", "--node", "worker-1"), ("fetch", "worker-1")):
            cluster.run(*words, *given)
            calls = kept(cluster, "options")
            os.remove(f"{cluster.path}/options")
            expect(f"{' '.join(words)}: kubectl's options", [line for line in calls if not line.startswith(wanted)]
                   if calls else "no call", [])
        words = ("story", "deploy/web", "-n", "shop", "--kubeconfig", "X", "--as", "bob", "--sinse", "10m")
        expect_refused("an unknown option", cluster.run(*words, "--nonsense"), 2,
                       "--sinse is no known argument; the nearest is --since")
        expect("an unknown option asks nothing", kept(cluster, "options"), [])


def test_names_are_no_options():
    """What is no name of Kubernetes never comes to kubectl."""
    with Bare() as cluster:
        for word in ("deploy/--raw=/api", "pod/-o", "deploy/a b", "deploy/../x", "shop/--raw"):
            expect_refused(f"story {word}", cluster.run("story", word, "--kubeconfig", "X"), 2, "is no name of a")
        expect("no name: nothing is asked but the namespace",
               {line.split()[-1] for line in kept(cluster, "options")} - {"config"}, set())


def test_without_any_recorder():
    """The API server has enough for an answer: phases, conditions, why containers wait, how they ended, and events."""
    with Bare() as cluster:
        status, told, said = cluster.run("story", "deploy/web")
        rows = told.partition("Pods that no trace has, as the API server has them now\n")[2].split("\n\n")[0]
        expect("story without a recorder", (status, said, told.split("\n")[0], [row.split()[0] for row in rows.split(
            "\n")]), (0, "", "deployment/web in shop: 4 pods, none recorded, on 3 nodes",
                      ["pod", f"{NEW}-ddddd", f"{NEW}-fffff", f"{NEW}-aaaaa", f"{NEW}-ccccc"]))
        for words in ("app waits: CrashLoopBackOff: back-off 5m0s; app exited last with code 137 at "
                      "2026-01-01T03:09:00Z: OOMKilled", "Pending  0/1           0  PodScheduled is False: "
                      "Unschedulable: 0/4 nodes are available", "the API's event Unhealthy: Readiness probe failed",
                      "  the recorders: no recorder in the namespace kubelet-replay"):
            expect(f"story without a recorder: {words}", words in told, True)
        answer = json.loads(cluster.run("story", "deploy/web", "-o", "json")[1])
        expect("story without a recorder, as JSON", ([pod["phase"] for pod in answer["unrecorded"]], answer["pods"]),
               (["Running", "Pending", "Running", "Running"], []))


def test_pods_that_are_gone():
    """A Deployment whose pods, ReplicaSets and events have gone is found by names in the recorders' traces, and so is a
    pod; what is of another workload is not."""
    with Cluster() as cluster:
        for kind in ("pods", "events", "replicasets"):
            cluster.put(f"api/shop/{kind}.json", '{"items":[]}')
        status, told, said = cluster.run("story", "deploy/web", *SINCE)
        expect("a Deployment whose pods left", (status, told.split("\n")[0], said), (
            0, "deployment/web in shop, 2026-01-01 03:00:00Z to 2026-01-01 03:15:00Z: 3 pods on 2 nodes", ""))
        expect("every recorder is asked for names", sorted(set(kept(cluster, "listed"))),
               ["recorder-a", "recorder-b", "recorder-c"])
        expect("those with such names are copied from", cluster.asked(), ["worker-1", "worker-2"])
        status, told, _ = cluster.run("story", f"pod/{OLD}-bbbbb", *SINCE)
        expect("a pod that is gone", (status, told.split("\n")[0], cluster.asked()), (
            0, f"pod/{OLD}-bbbbb in shop, 2026-01-01 03:00:00Z to 2026-01-01 03:12:00Z: 1 pod on 1 node", ["worker-2"]))
        os.remove(f"{cluster.path}/api/shop/deployment.web.json")
        status, told, _ = cluster.run("story", "deploy/web", *SINCE)
        expect("a Deployment that is gone", (status, "3 pods on 2 nodes" in told, "is not found" in told),
               (0, True, True))
        sets = {"items": [{"metadata": {"name": OLD, "uid": "x", "ownerReferences": [
            {"kind": "Deployment", "name": "other", "uid": "uid-other"}]}}]}
        cluster.put("api/shop/replicasets.json", json.dumps(sets))
        told = cluster.run("story", "deploy/web", *SINCE)[1]
        expect("the pod of another Deployment", (f"{OLD}-bbbbb" in told, f"{NEW}-aaaaa" in told), (False, True))


def test_recorders_are_asked_at_once():
    """None of them answers before all are asked."""
    with Cluster() as cluster:
        cluster.put("meets", "3")
        status, told, said = cluster.run("story", "pod/none", "--timeout", "60", *SINCE)
        expect("recorders that wait for each other", (status, told, said.count("\n"), sorted(set(kept(cluster, "listed")))),
               (1, "", 1, ["recorder-a", "recorder-b", "recorder-c"]))


def test_cut_names():
    """As of a file, a name may be cut if it fits one pod, whether the API server or a trace has it."""
    with Cluster() as cluster:
        for cut, name, is_recorded in ((f"{OLD}-b", f"{OLD}-bbbbb", True), ("web-5", f"{OLD}-bbbbb", True),
                                       (f"{NEW}-d", f"{NEW}-ddddd", False), ("oth", "other", True)):
            status, told, _ = cluster.run("story", cut, *SINCE)
            expect(f"story {cut}", (status, told.split(" in ")[0], "none recorded" in told),
                   (0, f"pod/{name}", not is_recorded))
        answer = cluster.run("story", f"{NEW}-", *SINCE)
        expect_refused("a cut name of several", answer, 2, f"{NEW}- fits 4 pods: shop/{NEW}-aaaaa")


def test_what_may_not_be_listed():
    """No right to list something ends nothing, and is missing at the end."""
    with Cluster() as cluster:
        for kind in ("events", "replicasets"):
            cluster.put(f"api/shop/{kind}.fails", FORBIDDEN.format(kind, kind))
        status, told, said = cluster.run("story", "deploy/web", *SINCE)
        expect("story without two rights", (status, "5 pods, 3 recorded" in told, said), (0, True, ""))
        missing = told.partition("Missing\n")[2]
        expect("what is missing", [f"the {kind} of shop: can't be listed: Error from server (Forbidden)" in missing
                                   for kind in ("events", "replicasets")], [True, True])
        cluster.put("api/shop/pods.fails", FORBIDDEN.format("pods", "pods"))
        cluster.put("api/shop/deployment.web.fails", FORBIDDEN.format("deployments", "deployments"))
        status, told, _ = cluster.run("story", "deploy/web", *SINCE)
        expect("story by the recorders alone", (status, "3 pods on 2 nodes" in told, "is not found" in told),
               (0, True, False))
        cluster.put("pods.fails", FORBIDDEN.format("pods", "pods"))
        status, told, said = cluster.run("story", "deploy/web", *SINCE)
        expect("story without any right", (status, told, "deployment/web in shop can't be read: Error from server "
                                           "(Forbidden)" in said, "is not found" in said), (1, "", True, False))


def test_what_does_not_answer():
    """A recorder and a list that hang are named after 5 s, and are missing; the others' answers are shown."""
    with Cluster() as cluster:
        cluster.put("recorder-b.hangs", "600")
        cluster.put("api/shop/events.hangs", "600")
        begin = time.monotonic()
        status, told, said = cluster.run("story", "deploy/web", "--timeout", "8", *SINCE)
        took = time.monotonic() - begin
        waited = re.findall(r"^kubectl-replay: waiting for (.*), 8 s at most for each \(--timeout\)$", said, re.M)
        expect("story of what hangs", (status, f"{NEW}-aaaaa  worker-1" in told, took < 60,
                                       sorted(name for names in waited for name in names.split(", "))),
               (0, True, True, ["the events of shop", "worker-2"]))
        missing = told.partition("Missing\n")[2]
        expect("story of what hangs: what is missing", [line in missing for line in (
            "the events of shop: can't be listed: kubectl has not answered within 8 s",
            "worker-2: kubectl has not answered within 8 s")], [True, True])
        expect("a pod of a node that hangs is told from the API",
               f"{NEW}-ccccc  worker-2" in told.partition("no trace has")[2].partition("the worst")[0], True)


def test_readers_are_asked_first():
    """Where pods of nobody's read the folder, they are asked, and not the recorders, which are root."""
    with Cluster() as cluster:
        shutil.move(f"{cluster.path}/recorder-a", f"{cluster.path}/reader-a")
        cluster.put("readers.json", json.dumps({"items": [
            {"metadata": {"name": "reader-a"}, "spec": {"nodeName": "worker-1"},
             "status": {"phase": "Running", "containerStatuses": [{"ready": True}]}}]}))
        status, told, _ = cluster.run("story", "deploy/web", *SINCE)
        expect("story by a reader", (status, "3 recorded" in told, "recorder-a" in kept(cluster, "listed"),
                                     "reader-a" in kept(cluster, "listed")), (0, True, False, True))
        cluster.put("pods.fails", FORBIDDEN.format("pods", "pods"))
        status, told, _ = cluster.run("fetch", "worker-1", "--into", f"{cluster.path}/here")
        expect("fetch by a reader, without a right at the recorders", (
            status, told.startswith("worker-1: 1 trace copied")), (0, True))
        expect("nodes by a reader", cluster.run("nodes")[1].startswith("1 node with a recorder"), True)


def test_pod_of_the_api():
    """The most telling comes first, and nothing that can't be printed."""
    from replay_tools.cluster import unrecorded
    found = unrecorded.pod_of("shop/a", pod("a", "n1", **CRASHES))
    expect("a crash loop", (found.ready, found.containers, found.restarts, found.why[0]),
           (0, 1, 7, "app waits: CrashLoopBackOff: back-off 5m0s"))
    odd = {"metadata": 5, "spec": [], "status": {"phase": "\x1b[31m", "containerStatuses": [5, {"state": 5}],
                                                 "conditions": "x", "reason": "Evicted", "message": "a\x1b[2Jb"}}
    expect("an odd pod", unrecorded.pod_of("shop/b", odd).cells(), ["-", "\\x1b[31m", "0/0", "0",
                                                                 "Evicted: a\\x1b[2Jb"])
    expect("a pending pod", unrecorded.pod_of("shop/c", pod("c", None, **PENDING)).why,
           ["PodScheduled is False: Unschedulable: 0/4 nodes are available"])
