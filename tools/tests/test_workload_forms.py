"""The tests of how a workload is named, of the tools that take one, and of how its story is laid out on a terminal."""

import json
import os
import pty
import re
import struct
import subprocess
import termios
from fcntl import ioctl

import cases
from checks import REPLAY, TOOLS, expect, expect_refused
from test_workload_sources import Bare
from test_workloads import COMMANDS, NEW, SINCE, Cluster, event, pod

load_tests = cases.loaded(__name__)


def test_forms_of_a_workload():
    """As kubectl takes them: in either case, several, with a version and a group, as two arguments."""
    with Bare() as cluster:
        first = "deployment/web in shop: 4 pods, none recorded, on 3 nodes"
        for words in (("deploy/web",), ("Deploy/web",), ("deploys/web",), ("deployments.apps/web",),
                      ("deployment.v1.apps/web",), ("deployment", "web"), ("deploy", "web"), ("DEPLOYMENTS", "web")):
            status, told, _ = cluster.run("story", *words)
            expect(f"story {' '.join(words)}", (status, told.split("\n")[0]), (0, first))
        cluster.put("api/shop/statefulset.db.json", json.dumps({"metadata": {"name": "db", "uid": "uid-db"}}))
        status, told, _ = cluster.run("story", "--node", "worker-1", "deploy/web")
        expect("story --node of a workload", (status, told.split("\n")[0], "worker-4" in told),
               (0, "deployment/web in shop: 1 pod, none recorded, on 1 node", False))


def test_without_a_time():
    """Two hours are asked for without --since; a pod, a namespace and all of them need no word but their names."""
    with Bare() as cluster:
        os.mkdir(f"{cluster.path}/api/all")
        cluster.put("api/all/pods.json", json.dumps({"items": [pod("a", "n1"), {**pod("b", "n2"), "metadata": {
            "name": "b", "namespace": "far"}}]}))
        cluster.put("api/all/events.json", '{"items":[]}')
        for words, first in ((("pod/oom", "-n", "shop"), "pod/oom in shop: 1 pod,"),
                             (("oom", "-n", "shop"), "pod/oom in"), (("oom",), "pod/oom in shop: 1 pod"),
                             (("-n", "shop"), "namespace shop: 7 pods,"),
                             (("-A",), "all namespaces: 2 pods, none recorded, on 2 nodes")):
            status, told, _ = cluster.run("story", *words)
            expect(f"story {' '.join(words)}", (status, told.startswith(first)), (0, True))
        told = cluster.run("story", "-A")[1]
        expect("story -A has whole names", [name in told for name in ("shop/a", "far/b")], [True, True])


def test_other_tools_of_a_workload():
    """Why of each of its pods, the page of the node with the worst, and the records of all."""
    with Cluster() as cluster:
        status, told, said = cluster.run("why", "deploy/web", *SINCE)
        expect("why deploy/web", (status, re.findall(r"^why (\S+) on", told, re.M), said), (
            0, [f"shop/{NEW}-aaaaa", "shop/web-5f6d8-bbbbb", f"shop/{NEW}-ccccc"],
            "kubectl-replay: worker-4: no recorder\n"))
        status, told, said = cluster.run("page", "deploy/web", *SINCE)
        expect("page deploy/web", (status, "<title>worker-1" in told, said.split("\n")[1]), (0, True, (
            "kubectl-replay: the page is of worker-1, where the worst pod was; --node chooses one of worker-2")))
        told = cluster.run("page", "deploy/web", "--node", "worker-2", *SINCE)[1]
        expect("page deploy/web --node", "<title>worker-2" in told, True)
        status, told, _ = cluster.run("timeline", "deploy/web", *SINCE)
        expect("timeline deploy/web", (status, f"{NEW}-aaaaa" in told, "<svg" in told), (0, True, True))
        status, told, _ = cluster.run("json", "deploy/web", *SINCE)
        records = [json.loads(line) for line in told.splitlines()]
        expect("json deploy/web", (status, {one["node"] for one in records}, any(one.get("pod") == "shop/other"
                                                                              for one in records)),
               (0, {"worker-1", "worker-2"}, False))
        expect_refused("json deploy/web --sqlite", cluster.run("json", "deploy/web", "--sqlite", "x"), 2,
                       "--sqlite is for")
        expect_refused("page -n", cluster.run("page", "-n", "shop"), 2, "-n is for a workload, as page deploy/web")
        expect("no folder is left", os.listdir(f"{cluster.path}/kept"), [])


def on_terminal(cluster, columns, *words, **settings):
    """What a command writes on a terminal of so many columns."""
    master, terminal = pty.openpty()
    ioctl(terminal, termios.TIOCSWINSZ, struct.pack("HHHH", 24, columns, 0, 0))
    environment = {**os.environ, "CLUSTER": cluster.path, "PATH": f"{COMMANDS}:{os.environ['PATH']}", "TERM": "xterm",
                   "TMPDIR": f"{cluster.path}/kept", "CONTEXT_NAMESPACE": "shop",
                   "KUBELET_REPLAY": REPLAY, **settings}
    environment.pop("COLUMNS", None)
    process = subprocess.Popen([f"{TOOLS}/kubectl-replay", *words], stdin=terminal, stdout=terminal,
                               stderr=subprocess.PIPE, env=environment, start_new_session=True)
    os.close(terminal)
    told = b""
    try:
        while piece := os.read(master, 1 << 16):
            told += piece
    except OSError:
        pass
    os.close(master)
    said = process.communicate()[1].decode()
    return process.returncode, told.decode().replace("\r\n", "\n"), said


def test_on_a_terminal():
    """At most as wide as it is, broken between words alone, with colours unless NO_COLOR; the pods come last."""
    with Cluster() as cluster:
        wide = cluster.run("story", "deploy/web", *SINCE)[1]
        for columns in (60, 80, 132, 400):
            status, told, said = on_terminal(cluster, columns, "story", "deploy/web", *SINCE, NO_COLOR="1")
            expect(f"story in {columns} columns", (status, said, max(map(len, told.split("\n"))) <= columns,
                                                   "\x1b" in told), (0, "", True, False))
            expect(f"story in {columns} columns breaks no word",
                   sorted(set(wide.split()) - set(told.split()) - {"moment"}), [])
        expect("story on a wide terminal", told, wide)
        told = on_terminal(cluster, 80, "story", "deploy/web", *SINCE)[1]
        plain = re.sub(r"\x1b\[\d*m", "", told)
        expect("story with colours", ("\x1b[31m" in told, "\x1b[1m" in told, max(map(len, plain.split("\n"))) <= 80),
               (True, True, True))
        expect("story with colours has the same words", sorted(set(wide.split()) - set(plain.split()) - {"moment"}), [])
        titles = [line for line in plain.split("\n") if line and line[0] != " "]
        expect("story: the pods come last", [title.split(",")[0] for title in titles[1:]], [
            "What happened", "Pods that no trace has", "Pods", "Missing"])
        expect("story to a terminal that has none", "\x1b" in on_terminal(cluster, 80, "story", "deploy/web", *SINCE,
                                                                         TERM="dumb")[1], False)


def test_most_events():
    """Events are cut to the last ones that matter; --all has each."""
    with Bare() as cluster:
        events = [event(f"{NEW}-aaaaa", f"Odd{at}", "it is", at) for at in range(50)]
        cluster.put("api/shop/events.json", json.dumps({"items": [*events, *events[:1]]}))
        told = cluster.run("story", "deploy/web")[1]
        expect("the last events", (told.count("the API's event"), "Odd49" in told,
                                   "  31 more events, which --all" in told), (20, True, True))
        expect("all events", cluster.run("story", "deploy/web", "--all")[1].count("the API's event"), 51)


def test_output_as_json():
    with Cluster() as cluster:
        for words in (("-o", "json"), ("-ojson",), ("--output=json",)):
            status, told, said = cluster.run("story", "deploy/web", *words, *SINCE)
            found = json.loads(told)
            expect(f"story {' '.join(words)}", (status, said, len(found["pods"]), len(found["unrecorded"]),
                                                found["missing"], found["pods"][0]["worst"]),
                   (0, "", 3, 2, [{"source": "worker-4", "why": "no recorder"}], "crashed"))
