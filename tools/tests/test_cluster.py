"""The tests of traces that a cluster's recorders hold: which nodes record, what is fetched, and a story of a node, by a
stand-in of kubectl."""

import json
import os
import shutil
import subprocess
import tempfile

import cases
from checks import HERE, LONGEST, TOOLS, expect, expect_refused, run
from joined_plays import Folder

load_tests = cases.loaded(__name__)

COMMANDS = f"{HERE}/kubectl/commands"
PODS = (("n1", "recorder-a", "Running"), ("n2", "recorder-b", "Running"), ("n3", "recorder-c", "Pending"))
PART = "n1.2026-01-01T00-01-20Z.trace.part"
WRITTEN = f"{PART} is still written, or was left so: it is read up to 2026-01-01 00:01:21Z\n"


class Cluster:
    """Three nodes, of which one has traces, one has none, and the recorder of one does not run."""

    def __init__(self, folder, cuts=True):
        self.path = tempfile.mkdtemp()
        self.traces = f"{self.path}/recorder-a"
        shutil.copytree(folder.path, self.traces)
        os.mkdir(f"{self.path}/recorder-b")
        os.mkdir(f"{self.path}/kept")
        os.remove(f"{self.traces}/{PART.replace('.part', '.gz')}")
        self.part = folder.text(80)
        self.put(f"recorder-a/{PART}", self.part + '{"kind":"ti' * cuts)
        for name in os.listdir(self.traces):
            os.utime(f"{self.traces}/{name}", (1767225681, 1767225681))
        self.list(PODS)

    def __enter__(self):
        return self

    def __exit__(self, *_):
        shutil.rmtree(self.path)

    def list(self, pods):
        self.put("pods.json", json.dumps({"items": [
            {"metadata": {"name": pod}, "spec": {"nodeName": node},
             "status": {"phase": phase, "containerStatuses": [{"ready": phase == "Running"}]}}
            for node, pod, phase in pods]}))

    def put(self, name, text):
        with open(f"{self.path}/{name}", "w", encoding="utf-8") as file:
            file.write(text)

    def asked(self):
        """The names of the files that were copied since this was asked last."""
        try:
            with open(f"{self.path}/asked", encoding="utf-8") as file:
                names = [os.path.basename(line) for line in file.read().split("\n")[:-1]]
            os.remove(f"{self.path}/asked")
        except FileNotFoundError:
            names = []
        return [name[14:22] for name in names]

    def run(self, tool, *words):
        return run([f"{TOOLS}/{tool}", *words], CLUSTER=self.path, PATH=f"{COMMANDS}:{os.environ['PATH']}",
                   TMPDIR=f"{self.path}/kept")

    def start(self, tool, *words):
        return subprocess.Popen([f"{TOOLS}/{tool}", *words], stdin=subprocess.DEVNULL, stdout=subprocess.PIPE,
                                stderr=subprocess.PIPE, text=True,
                                env={**os.environ, "CLUSTER": self.path, "PATH": f"{COMMANDS}:{os.environ['PATH']}",
                                     "TMPDIR": f"{self.path}/kept"})

    def fetch(self, *words):
        return self.run("fetch", *words, "--into", f"{self.path}/here")

    def here(self):
        return sorted(os.listdir(f"{self.path}/here"))


def test_nodes():
    with Folder() as folder, Cluster(folder) as cluster:
        status, told, said = cluster.run("nodes")
        rows = [line.split("  ") for line in told.split("\n")[2:-1]]
        rows = [[cell.strip() for cell in row if cell.strip()] for row in rows]
        size = sum(os.path.getsize(f"{cluster.traces}/{name}") for name in os.listdir(cluster.traces))
        expect("nodes", (status, said, told.split("\n")[0], rows), (1, "", "3 nodes with a recorder", [
            ["n1", "5", "2026-01-01 00:00:00Z", "2026-01-01 00:01:21Z", f"{size / 1024:.2f}".rstrip("0") + "Ki"],
            ["n2", "0", "-", "-", "0", "no trace is being written"],
            ["n3", "-", "-", "-", "-", "its recorder recorder-c is Pending"]]))
        cluster.list(PODS[:2])
        expect("nodes that all answer", cluster.run("nodes")[0], 0)
        expect("nodes, by the plugin", cluster.run("kubectl-replay", "nodes"), cluster.run("nodes"))
        cluster.put("recorder-b.fails", "error: unable to upgrade connection: Forbidden\n")
        status, told, _ = cluster.run("nodes")
        expect("a node that does not answer", (status, told.split("\n")[3].split("  ")[-1].strip()),
               (1, "error: unable to upgrade connection: Forbidden"))
        cluster.list([("n1", "recorder-x", "Failed"), *PODS[:1]])
        expect("a recorder that was replaced", cluster.run("nodes")[0], 0)
        expect_refused("nodes of another namespace", cluster.run("nodes", "--recorders", "other"), 2,
                       "no recorder in the namespace other: deploy/daemonset.yaml starts one on each node")
        expect_refused("nodes that can't be listed", cluster.run("nodes", "--recorders", "far"), 1,
                       "the recorders can't be listed: kubectl: not expected: get pods -n far")
        cluster.put("pods.json", "[]")
        expect_refused("nodes of no list", cluster.run("nodes"), 1, "kubectl's answer is no list of pods")
        expect_refused("nodes of a word", cluster.run("nodes", "n1"), 2, "n1 is no known argument")


def test_fetch():
    with Folder() as folder, Cluster(folder) as cluster:
        status, told, said = cluster.fetch("n1")
        expect("fetch", (status, said, told.split(", ")[0], told.split("; ")[-1]), (
            0, "", f"n1: 5 traces copied into {cluster.path}/here",
            "the newest is still written, and is copied up to 2026-01-01 00:01:21Z\n"))
        cluster.asked()
        with open(f"{cluster.path}/here/{PART}", encoding="utf-8") as file:
            expect("fetch copies a part up to its last whole line", file.read(), cluster.part)
        told = cluster.fetch("n1")[1]
        expect("fetch copies what is new alone", (told.split(",")[:2], cluster.asked()), (
            [f"n1: 1 trace copied into {cluster.path}/here", " 4 there already"], ["00-01-20"]))
        os.remove(f"{cluster.traces}/{PART}")
        shutil.copy(folder.place(80), cluster.traces)
        status, told, said = cluster.fetch("n1")
        names = [name for name in cluster.here() if "00-01-20" in name]
        expect("fetch of a part that has ended", (status, said, "still written" in told, names),
               (0, "", False, [PART.replace(".part", ".gz")]))
        shutil.rmtree(f"{cluster.path}/here")
        cluster.asked()
        cluster.fetch("n1", "--since", "2026-01-01T00:00:45Z")
        expect("fetch --since", cluster.asked(), ["00-00-40", "00-01-00", "00-01-20"])
        status, told, said = cluster.fetch("--all", "--at", "2026-01-01T00:00:45Z")
        expect("fetch --all --at", (status, said, [line[:2] for line in told.split("\n")[:-1]]), (
            1, "fetch: n2: its recorder has no trace yet\nfetch: n3: its recorder recorder-c is Pending\n", ["n1"]))
        expect("fetch, by the plugin", cluster.run("kubectl-replay", "fetch", "n1", "--into", f"{cluster.path}/here"),
               cluster.fetch("n1"))


def test_two_fetches():
    """Two fetches of one node into one folder: each copy has a name of its own until it is whole, and what a fetch that
    was killed has left goes a day later."""
    with Folder() as folder, Cluster(folder) as cluster:
        cluster.put("slow", "0.05")
        first = cluster.start("fetch", "n1", "--into", f"{cluster.path}/here")
        second = cluster.start("fetch", "n1", "--into", f"{cluster.path}/here")
        ends = [process.communicate(timeout=LONGEST) for process in (first, second)]
        expect("two fetches", ([process.returncode for process in (first, second)], [said for _, said in ends]),
               ([0, 0], ["", ""]))
        expect("two fetches: each trace is whole", [name for name in cluster.here() if not name.endswith(".part")
               and open(f"{cluster.path}/here/{name}", "rb").read() != open(f"{cluster.traces}/{name}", "rb").read()], [])
        expect("two fetches leave no copy", [name for name in cluster.here() if name.endswith(".copy")], [])
        names = [f"n1.2026-01-01T00-00-00Z.trace.gz.{digit * 16}.copy" for digit in "ab"]
        for name in names:
            cluster.put(f"here/{name}", "half")
        os.utime(f"{cluster.path}/here/{names[0]}", (1, 1))
        cluster.fetch("n1")
        expect("a fetch takes away what was left", [name for name in cluster.here() if name.endswith(".copy")], names[1:])


def test_fetch_refused():
    with Folder() as folder, Cluster(folder) as cluster:
        for words, status, said in (
            ([], 2, "it takes nodes, or --all and none"),
            (["n1", "--all"], 2, "it takes nodes, or --all and none"),
            (["n12"], 2, "no recorder on n12; the nearest: n2, n1"),
            (["worker-9"], 2, "no recorder on worker-9; there are recorders on n1, n2, n3"),
            (["n1", "--since", "soon"], 2, "--since takes a time"),
            (["n1", "--since", "2h", "--at", "03:10Z"], 2, "exclude each other"),
            (["n1", "--since", "2h"], 1, "n1: its recorder has no trace of that time; it has traces of 2026-01-01 "
                                         "00:00:00Z to 2026-01-01 00:01:21Z"),
            (["n2"], 1, "n2: its recorder has no trace yet"),
            (["n3"], 1, "n3: its recorder recorder-c is Pending"),
            (["n1", "--recorders", "other"], 2, "no recorder in the namespace other"),
        ):
            on_the_node = "may still lie on" if said.startswith("no recorder on") else None
            expect_refused(f"fetch {' '.join(words)}", cluster.fetch(*words), status, said, on_the_node)
        expect_refused("fetch into a file", cluster.run("fetch", "n1", "--into", f"{HERE}/run.py"), 2, "can't be made")
        cluster.put("recorder-a.cut", "100")
        status, _, said = cluster.fetch("n1")
        expect("fetch of what comes cut", (status, said), (1, "".join(
            f"fetch: n1: n1.2026-01-01T00-00-{second:02}Z.trace.gz did not come whole: 100 of "
            f"{os.path.getsize(folder.place(second))} bytes\n" for second in (0, 20, 40))
            + "fetch: n1: 2 more traces are not asked for\n"))
        expect("fetch keeps nothing of what comes cut", cluster.here(), [])
        expect("fetch asks for what comes cut once more", cluster.asked(),
               [name for name in ("00-00-00", "00-00-20", "00-00-40") for _ in range(2)])
        cluster.put("recorder-a.cut", str(os.path.getsize(f"{cluster.traces}/{PART}") - 20))
        status, told, said = cluster.fetch("n1", "--since", "2026-01-01T00:01:21Z")
        expect("fetch of a part that is shorter by now", (status, said, told.split(" copied")[0], cluster.asked()),
               (0, "", "n1: 1 trace", ["00-01-20"] * 2))
        answer = run([f"{TOOLS}/fetch", "n1"], PATH=python_alone(cluster.path))
        expect_refused("fetch without kubectl", answer, 127, "kubectl is missing")


def python_alone(folder):
    """A PATH with what starts a tool and no kubectl."""
    os.mkdir(f"{folder}/alone")
    for name in ("sh", "env", "python3", "dirname", "readlink"):
        os.symlink(shutil.which(name), f"{folder}/alone/{name}")
    return f"{folder}/alone"


def test_story_of_a_cluster():
    """Without a file the traces of a node are fetched for the tool, and go again."""
    with Folder() as folder, Cluster(folder) as cluster:
        wanted = folder.tell("story", "shop/web", "--without-why")
        for words in (["story", "web", "-n", "shop", "--node", "n1"], ["story", "shop/web", "--node=n1"],
                      ["story", "shop/web", "--node", "n1", "--recorders", "kubelet-replay"],
                      ["story", "shop/web", "--node", "n1", "--context", "far"]):
            answer = cluster.run("kubectl-replay", *words)
            expect(f"kubectl replay {' '.join(words)}", answer, (0, wanted[1], f"story: {WRITTEN}"))
        expect("kubelet-replay of a node of a cluster", cluster.run("kubelet-replay", "story", "web", "--node", "n1"),
               (0, wanted[1], f"story: {WRITTEN}"))
        since = ["--since", "2026-01-01T00:00:05Z"]
        expect("kubectl replay story of a node since a moment", cluster.run(
            "kubectl-replay", "story", "-A", "web", "--node", "n1", *since)[1],
            folder.tell("story", "shop/web", "--without-why", *since)[1])
        cluster.asked()
        answer = cluster.run("kubectl-replay", "timeline", "-n", "shop", "--node", "n1", "--since",
                             "2026-01-01T00:01:01Z")
        expect("kubectl replay timeline of a node", (answer[0], answer[2], cluster.asked()),
               (0, f"timeline: {WRITTEN}", ["00-01-00", "00-01-20"]))
        for words, status, said in (
            (["story", "web", "--node", "n12"], 2, "no recorder on n12; the nearest: n2, n1"),
            (["story", "web", "--node", "n3"], 1, "n3: its recorder recorder-c is Pending"),
            (["story", "web", "--node", "n1", "--since", "1h"], 1, "n1: its recorder has no trace of that time"),
            (["story", "web", "--since", "1h"], 1, "pod/web in default: no pod of it is known, in the cluster or in"),
            (["page", "--since", "1h"], 2, "-f FILE or FOLDER for traces that are here, or --node NODE"),
            (["story", "web", "--node"], 2, "--node needs a value"),
            (["story", "web", "--node", "n1", "-f", folder.path, "--recorders", "x"], 2, "--recorders is for"),
        ):
            means = "may still lie on" if "n12" in words else "the pods of default: can't" if (
                words[:3] == ["story", "web", "--since"]) else None
            expect_refused(f"kubectl replay {' '.join(words)}", cluster.run("kubectl-replay", *words), status, said, means)
        answer = cluster.run("kubectl-replay", "story", "shop/wab", "--node", "n1")
        expect("kubectl replay of a pod that is not on the node", (answer[0], answer[1], answer[2].split("\n")[1:]),
               (2, "", ["story: the report has no pod shop/wab; the nearest: shop/web", ""]))
        expect("kubectl replay leaves no folder", os.listdir(f"{cluster.path}/kept"), [])
