"""Tests of bench/real_node --api: what its kubelet did is found in what it leaves, counted next to a small report, and
shown; what is done to its pods, and when. Its run is tried on a throw-away machine alone."""
import json
import os
import sys
import tempfile
from types import SimpleNamespace

from common import TOP, Case, read, run, write

sys.path[:0] = [os.path.join(TOP, "bench/lib/real_node"), os.path.join(TOP, "tools")]
import chained  # noqa: E402
import counted  # noqa: E402
import deployed  # noqa: E402
import evictions  # noqa: E402
import from_log  # noqa: E402
import restarts  # noqa: E402
import scenario  # noqa: E402
from beside import Fact  # noqa: E402
from cluster import Changes  # noqa: E402
from replay_tools.record.words import words_of  # noqa: E402

BEGIN = 1767225600
NODE = {"kind": "node", "version": 3, "name": "n1", "evictionHard": {"memory.available": "100Mi"},
        "recordsKubelet": True}
REPORT = f"""\
node n1 pods=2 ticks=4
event {BEGIN} shop/a app started 0
event {BEGIN} shop/a app ready
event {BEGIN} shop/a - phase Running
event {BEGIN} shop/b app started 0
event {BEGIN} shop/b app ready
event {BEGIN} shop/b - phase Running
event {BEGIN + 5} node threshold memory.available hard active
event {BEGIN + 5} node pressure MemoryPressure True
event {BEGIN + 5} node evicted shop/a memory.available hard 0
event {BEGIN + 9} shop/b app died 0 137
event {BEGIN + 9} shop/b app unready
event {BEGIN + 9} shop/b app restart 0
pod 0 shop/a phase=Failed reason=Evicted qos=BestEffort
condition 0 PodScheduled True {BEGIN}
condition 0 Initialized True {BEGIN}
condition 0 ContainersReady False {BEGIN + 5}
condition 0 Ready False {BEGIN + 5}
condition 0 DisruptionTarget True {BEGIN + 5} TerminationByKubelet
container 0 app state=Running code=- restarts=0 ready=false started=false
pod 1 shop/b phase=Running reason=- qos=BestEffort
condition 1 PodScheduled True {BEGIN}
condition 1 Initialized True {BEGIN}
condition 1 ContainersReady False {BEGIN + 9}
condition 1 Ready False {BEGIN + 9}
container 1 app state=Terminated code=137 restarts=0 ready=false started=false
nodecondition MemoryPressure True {BEGIN + 5}
nodecondition DiskPressure False {BEGIN}
nodecondition PIDPressure False {BEGIN}
eviction {BEGIN + 5} shop/a memory.available hard 0
totals updates=6 events=9 orders=1
"""
LOG = """\
I0101 00:00:05.500000    9 eviction_manager.go:574] eviction manager: pods ranked for eviction: a_shop(1), b_shop(2)
I0101 00:00:06.500000    9 eviction_manager.go:574] eviction manager: pod a_shop(1) is evicted successfully
I0101 00:00:07.500000    9 eviction_manager.go:574] eviction manager: pods ranked for eviction: b_shop(2)
I0101 00:00:08.000000    9 event.go:291] "Event occurred" object="shop/b" kind="Pod" apiVersion="v1" type="Normal" \
reason="Killing" message="Container app failed liveness probe, will be restarted"
"""


def listed(pod, state, **fields):
    container = {"name": "app", "attempt": 0, "state": f"CONTAINER_{state}", **fields}
    return {"pod": f"shop/{pod}", "containers": [container]}


def trace_text():
    """Two pods that run; one is evicted at 5 and gone after 7, the other exits at 9."""
    both = [listed("a", "RUNNING"), listed("b", "RUNNING")]
    evicted = {"evicted": [{"pod": "shop/a", "at": BEGIN + 6, "reason": "Evicted", "message": ""}]}
    pods = [{"kind": "pod", "pod": {"metadata": {"name": name, "namespace": "shop"},
                                    "spec": {"containers": [{"name": "app"}]}}} for name in "ab"]
    lines = [NODE, *pods, {"kind": "tick", "at": BEGIN, "pods": both, "signals": {"memory.available": 2 ** 30}},
             {"kind": "tick", "at": BEGIN + 5, "pods": both, "signals": {"memory.available": 2 ** 20},
              "kubelet": evicted},
             {"kind": "tick", "at": BEGIN + 7, "pods": [listed("a", "EXITED", exitCode=137), listed("b", "RUNNING")]},
             {"kind": "gone", "pod": "shop/a"},
             {"kind": "tick", "at": BEGIN + 9, "pods": [listed("b", "EXITED", exitCode=137)]}]
    return "".join(json.dumps(line) + "\n" for line in lines)


def status(name, uid, number, is_ready, exited=None):
    """A pod as /pods shows it, with one instance that runs or has exited: (when, code)."""
    identity = f"containerd://{name}{number}"
    state = {"running": {"startedAt": "2026-01-01T00:00:00Z"}}
    if exited:
        state = {"terminated": {"containerID": identity, "startedAt": "2026-01-01T00:00:00Z",
                                "finishedAt": f"2026-01-01T00:00:0{exited[0]}Z", "exitCode": exited[1]}}
    return {"metadata": {"name": name, "namespace": "shop", "uid": uid}, "status": {
        "phase": "Running", "conditions": [{"type": "Ready", "status": str(is_ready), "lastTransitionTime":
                                            f"2026-01-01T00:00:0{exited[0] if exited else 0}Z"}],
        "containerStatuses": [{"name": "app", "restartCount": 0, "containerID": identity, "state": state}]}}


def shown_text():
    lost = {"metadata": {"name": "a", "namespace": "shop", "uid": "1"},
            "status": {"phase": "Failed", "reason": "Evicted"}}
    refused = {**lost, "metadata": {"name": "c", "namespace": "shop", "uid": "3"}}
    looks = [(0.4, [status("a", "1", 0, True), status("b", "2", 0, True)]), (6.9, [lost, status("b", "2", 0, True)]),
             (7.4, [refused, status("b", "2", 0, True)]), (9.6, [status("b", "2", 0, False, (9, 0))])]
    return "".join(json.dumps({"at": BEGIN + at, "pods": pods}) + "\n" for at, pods in looks)


def exits_text():
    line = '2026-01-01 00:00:07.1 +0000 UTC k8s.io /tasks/exit {{"container_id":"a0","id":"{}","exited_at":' \
           '"2026-01-01T00:00:07.1Z"{}}}\n'
    return "2026-01-01 00:00:07.1 +0000 UTC k8s.io /tasks/delete {}\n" + line.format("a0", ',"exit_status":137') + \
           line.format("probe", "")


class Counted(Case):
    def rows(self):
        with tempfile.TemporaryDirectory() as folder:
            write(trace_text(), folder, "trace")
            real = counted.real_facts(shown_text(), LOG, exits_text())
            return counted.counts_of(real, f"{folder}/trace", REPORT)

    def test_exits_of_the_runtime(self):
        self.assertEqual(counted.exits_of(exits_text()), {"a0": (BEGIN + 7, 137)})

    def test_evictions_of_the_log(self):
        """At the moment of the ranking, by which the kubelet decides."""
        self.assertEqual(list(counted.evictions_of(LOG, 2026)), [
            counted.Evicted("1", Fact("shop/a", "-", "evicted", BEGIN + 5), True)])

    def test_evictions_by_a_limit_of_the_pods_own(self):
        """What is in no ranking is evicted when the log has it, and an eviction takes one ranking."""
        line = "I0101 00:00:0{0}.500000    9 eviction_manager.go:574] eviction manager: pod {1}_shop({2}) is evicted " \
               "successfully\n"
        first = LOG.partition("\n")[0] + "\n"
        for log, wanted in ((LOG + line.format(8, "b", "2"), [("1", 5, True), ("2", 7, True)]),
                            (line.format(1, "b", "2") + LOG, [("2", 1, False), ("1", 5, True)]),
                            (first + line.format(6, "a", "1") + line.format(8, "b", "2"),
                             [("1", 5, True), ("2", 8, False)])):
            found = [(each.uid, each.fact.moment - BEGIN, each.is_ranked) for each in counted.evictions_of(log, 2026)]
            self.assertEqual(found, wanted)

    def test_pods_that_went(self):
        """One that was evicted goes by that, and one that the kubelet rejected was never there."""
        evicted = {each.uid: each.fact for each in counted.evictions_of(LOG, 2026)}
        self.assertEqual(list(counted.going_facts(shown_text(), evicted)), [Fact("shop/a", "-", "gone", BEGIN + 5)])

    def test_counts(self):
        rows, codes = self.rows()
        counts = {row.name: (row.real, row.near, row.later, row.missing, row.false) for row in rows}
        self.assertEqual(counts, {
            "starts": (2, 2, 0, 0, 0), "exits with their codes": (1, 0, 0, 1, 1),
            "kills by a liveness probe": (1, 0, 0, 1, 0), "ready": (2, 2, 0, 0, 0), "unready": (2, 2, 0, 0, 0),
            "evictions by the rules": (1, 1, 0, 0, 0), "evictions shown as a fact": (1, 1, 0, 0, 0),
            "pods ended as evicted": (1, 1, 0, 0, 0), "pods that went": (1, 1, 0, 0, 0)})
        self.assertEqual(codes, ["00:00:09 shop/b app died 0 137: it was died 0 0"])
        self.assertEqual(rows[1].differences, [
            "00:00:09 shop/b app died 0 0: missing", "00:00:09 shop/b app died 0 137: in the report alone"])

    def test_exits_behind_an_eviction(self):
        """One that the report has is not false, and one that it lacks is not missing."""
        real = [Fact("shop/a", "app", "ends 0 137", 7)]
        for said in ([], [Fact("shop/a", "app", "died 0 137", 8)]):
            row = counted.row_of("exits", "died", real, said)
            self.assertEqual((row.real, row.missing, row.false), (0, 0, 0))

    def test_an_exit_before_an_eviction_of_the_same_name(self):
        """What is reported of the pod before is not taken for the exit after the eviction of the next one."""
        real = [Fact("shop/a", "app", "died 0 137", 50), Fact("shop/a", "app", "ends 0 137", 71)]
        row = counted.row_of("exits", "died", real, [Fact("shop/a", "app", "died 0 137", 50)])
        self.assertEqual((row.real, row.near, row.missing, row.false), (1, 1, 0, 0))

    def test_nearest_first(self):
        """Of two evictions of a name each has the nearest one, and none is later than half a minute."""
        real = [Fact("shop/a", "-", "evicted", moment) for moment in (10, 20, 60)]
        said = [Fact("shop/a", "-", "evicted", moment) for moment in (18, 25, 100)]
        row = counted.row_of("evictions", "evicted", real, said)
        self.assertEqual((row.real, row.near, row.later, row.missing, row.false), (3, 1, 1, 1, 1))
        self.assertEqual(row.differences, [
            "00:00:10 shop/a - evicted: in the report +15 s", "00:01:00 shop/a - evicted: missing",
            "00:01:40 shop/a - evicted: in the report alone"])

    def test_table(self):
        lines = counted.table_of([counted.Row("starts", 12, 11, 1, 0, 2, [])])
        self.assertEqual([line.split() for line in lines], [
            ["real", "within", "2", "s", "later", "missing", "false"], ["starts", "12", "11", "1", "0", "2"]])
        self.assertEqual(len(set(map(len, lines))), 1)


class Restarts(Case):
    """A pod whose container exits at 10 and at 40, which is deleted at 70, in a trace up to a last moment."""
    report = "\n".join(["node n1 pods=1 ticks=4", *(
        f"event {BEGIN + moment} shop/a app {what}" for moment, what in (
            (10, "died 0 1"), (10, "restart 0"), (40, "died 1 1"), (40, "restart 1"))),
        "pod 0 shop/a phase=Running reason=- qos=BestEffort",
        *(f"condition 0 {name} True {BEGIN}" for name in ("PodScheduled", "Initialized", "ContainersReady", "Ready")),
        "container 0 app state=Terminated code=1 restarts=1 ready=false started=false",
        *(f"nodecondition {name} False {BEGIN}" for name in ("MemoryPressure", "DiskPressure", "PIDPressure")),
        "totals updates=4 events=4 orders=2\n"])

    def found(self, starts, deleted=70, last=99):
        pod = {"kind": "pod", "pod": {"metadata": {"name": "a", "namespace": "shop"},
                                      "spec": {"containers": [{"name": "app"}]}}}
        ticks = [(0, "RUNNING", {}), (10, "EXITED", {"exitCode": 1}), (40, "EXITED", {"exitCode": 1, "attempt": 1}),
                 (last, "EXITED", {"exitCode": 1, "attempt": 1})]
        lines = [NODE, pod, *({"kind": "tick", "at": BEGIN + at, "pods": [
            {**listed("a", state, **fields), **({"deleting": True} if at >= deleted else {})}]}
            for at, state, fields in ticks)]
        real = [Fact("shop/a", "app", what, BEGIN + moment) for moment, what in starts]
        with tempfile.TemporaryDirectory() as folder:
            write("".join(json.dumps(line) + "\n" for line in lines), folder, "trace")
            found = restarts.restarts_of(real, *counted.read_run(f"{folder}/trace", self.report))
        return found.all, found.came, found.leaving, found.late, found.never

    def test_those_that_came(self):
        """A start belongs to one restart; the first start of the next pod of the name is none."""
        self.assertEqual(self.found([(0, "started 0"), (11, "started 1"), (41, "started 2")]), (2, 2, 0, 0, []))
        never = ["00:00:40 shop/a app restart 1"]
        self.assertEqual(self.found([(11, "started 1"), (42, "started 0")]), (2, 1, 0, 0, never))
        self.assertEqual(self.found([(39, "started 1")]), (2, 1, 0, 0, never))

    def test_those_that_could_not(self):
        """The pod is deleted within 15 s, or the recording ends."""
        self.assertEqual(self.found([(11, "started 1")], deleted=50, last=54), (2, 1, 1, 0, []))
        self.assertEqual(self.found([(11, "started 1")], last=54), (2, 1, 0, 1, []))


class FromALog(Case):
    def test_levels(self):
        """A message has the lines that continue it, and what ends a failure is written at 1."""
        head = "I0101 00:00:01.000000    9 {}] {}\n"
        said = [head.format("kubelet.go:1898", "SyncLoop (ADD)"), head.format("exec.go:62", "Exec probe response: a"),
                "b\n", head.format("kubelet.go:1284", "Image garbage collection succeeded"),
                head.format("kubelet.go:1274", "Image garbage collection failed once"),
                head.format("kubelet.go:1284", "Image garbage collection succeeded")]
        self.assertEqual(from_log.at_level("".join(said), 2), "".join(said[:1] + said[4:]))
        self.assertEqual(from_log.at_level("".join(said), 4), "".join(said))
        self.assertEqual(from_log.unknown_places(said[0] + head.format("new.go:7", "what")), ["new.go:7"])

    def test_codes(self):
        """A code that is not the kubelet's is marked, or is reported."""
        entry = {"name": "app", "attempt": 0, "guessed": ["exitCode"]}
        trace = json.dumps({"kind": "tick", "pods": [{"pod": "shop/a", "containers": [entry]}]}) + "\n"
        real = [Fact("shop/b", "app", "died 0 1", 5), Fact("shop/c", "app", "ends 0 137", 6)]
        said = [Fact("shop/a", "app", "died 0 137", 4), Fact("shop/b", "app", "died 0 137", 5),
                Fact("shop/c", "app", "died 0 137", 6)]
        self.assertEqual(from_log.unmarked(said, real, trace), said[1:2])


class Chained(Case):
    """Two traces of a recorder that was killed at 70, and one of the next."""
    parts = [chained.Part("first", False, 10, 60, [Fact("shop/a", "app", "started 0", 20)]),
             chained.Part("second", True, 60, 66, [Fact("shop/a", "app", "died 0 1", 62)]),
             chained.Part("third", False, 80, 120, [Fact("shop/a", "app", "died 1 1", 99)])]

    def test_counts(self):
        """What was before the first look is not counted, and what was in the gap is lost, but not missing."""
        real = [Fact("shop/a", "app", what, moment) for what, moment in (
            ("started 9", 5), ("started 0", 20), ("died 0 1", 61), ("started 1", 72), ("died 1 1", 98),
            ("started 2", 130))]
        self.assertEqual(chained.gaps_of(self.parts), [(66, 80)])
        rows, lost, codes = chained.counts_of(real, self.parts)
        self.assertEqual(([fact.what for fact in lost], codes), (["started 1"], []))
        self.assertEqual({row.name: (row.real, row.near, row.later, row.missing, row.false) for row in rows[:2]},
                         {"starts": (1, 1, 0, 0, 0), "exits with their codes": (2, 2, 0, 0, 0)})

    def test_ends(self):
        """What happened in the second of the last look is lost where no trace has it, and what a trace has of the time
        after the last that the kubelet showed is not counted."""
        real = [Fact("shop/a", "app", "started 0", 20), Fact("shop/a", "app", "died 0 1", 66)]
        parts = [*self.parts[:1], chained.Part("second", True, 60, 66, []), self.parts[2]]
        rows, lost, _ = chained.counts_of(real, parts, until=98)
        self.assertEqual([fact.what for fact in lost], ["died 0 1"])
        self.assertEqual([(row.real, row.near, row.false) for row in rows[:2]], [(1, 1, 0), (0, 0, 0)])

    def test_told_twice(self):
        """What a trace has once more after its begin is false."""
        twice = [*self.parts[:1], chained.Part("second", True, 60, 66, [Fact("shop/a", "app", "started 0", 61)])]
        rows, lost, _ = chained.counts_of([Fact("shop/a", "app", "started 0", 20)], twice)
        self.assertEqual((rows[0].near, rows[0].false, lost), (1, 1, []))


class TheRecordersPod(Case):
    def test_manifest(self):
        """What an operator puts in is in the manifest, and nothing else is changed."""
        text = read(TOP, "deploy/daemonset.yaml")
        changed = deployed.manifest_of(text, "/w", "/w/node")
        pairs = [pair for pair in zip(text.split("\n"), changed.split("\n"), strict=True) if pair[0] != pair[1]]
        self.assertEqual([new.strip() for _, new in pairs], [
            'resources: ["nodes/proxy", "nodes/metrics", "nodes/stats"]',
            f"image: kubelet-replay:{read(TOP, 'VERSION').strip()}",
            'args: ["--look", "1", "--each", "60s", "--keep", "48h", "--most", "2Gi",', "value: insecure",
            "hostPath: {path: /w/node, type: DirectoryOrCreate}", "hostPath: {path: /w/bin/crictl, type: File}"])
        with self.assertRaises(RuntimeError):
            deployed.manifest_of(changed, "/w", "/w/node")

    def test_pod(self):
        """The pod is the template's, on the node, and the DaemonSet's."""
        template = {"metadata": {"labels": {"app": "a"}}, "spec": {"containers": []}}
        pod = deployed.pod_of({"metadata": {"name": "recorder", "uid": "u"}, "spec": {"template": template}})
        self.assertEqual((pod["spec"], pod["metadata"]["labels"], pod["metadata"]["ownerReferences"][0]["uid"]),
                         ({"containers": [], "nodeName": "node-a"}, {"app": "a"}, "u"))


class StandInCluster:
    """An API server whose pods go a second look after they were deleted."""

    def __init__(self):
        self.done, self.looks = [], {}

    def create(self, pod):
        self.done.append(("create", pod))

    def delete(self, pod, grace):
        self.done.append(("delete", pod, grace))
        self.looks[pod] = 2

    def is_there(self, pod):
        self.looks[pod] -= 1
        return self.looks[pod] > 0


class Scenarios(Case):
    def test_changes(self):
        """What is due is done in its order; a pod comes again once the one before it has gone."""
        cluster = StandInCluster()
        changes = Changes(cluster, [(5, "again", "b", 0), (1, "create", "a", None), (9, "delete", "a", None)])
        for passed in (0.5, 1.2, 5.1, 5.6, 9.5):
            changes.act(passed)
        self.assertEqual(cluster.done, [("create", "a"), ("delete", "b", 0), ("create", "b"), ("delete", "a", None)])

    def test_runs(self):
        """Each run has pods that are there before they go, and thresholds that a kubelet takes."""
        for name, each in scenario.RUNS.items():
            there = set()
            for second, what, pod, _ in sorted(each.changes, key=lambda change: change[0]):
                self.assertLess(second, each.seconds)
                key = pod["metadata"]["name"]
                self.assertEqual(key in there, what != "create", f"{name}: {key} at {second}")
                there = there - {key} if what == "delete" else there | {key}
        self.assertEqual(scenario.hard_memory(2 ** 34), {"evictionHard": {"memory.available": "11384Mi"}})

    def test_recorders(self):
        """What is started for each recorder takes its words."""
        with tempfile.TemporaryDirectory() as folder:
            os.mkdir(f"{folder}/hard")
            write("", folder, "curl.conf")
            recorders = evictions.Recorders(SimpleNamespace(folder=folder), None, scenario.RUNS["hard"])
            for name in scenario.BOTH:
                command = recorders.words(name)
                begin = command.index("--node")
                self.assertTrue(os.path.exists(command[0]), command[0])
                taken = words_of(command[begin:])
                self.assertEqual((taken.node, taken.format.says_gone), (evictions.NODE, name != "standard"), name)

    def test_words(self):
        for words in ((), ("--api",), ("--api", "folder", "hard", "other"), ("folder", "some"), ("a", "1", "2"),
                      ("--again",), ("--again", "/nowhere")):
            code, out, said = run("try real_node", *words)
            self.assertEqual((code, out), (2, ""), words)
            self.assertTrue(said.splitlines()[-1].startswith("bench/try real_node: "), said)
