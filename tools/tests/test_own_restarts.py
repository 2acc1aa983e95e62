"""The tests of containers with a restart policy and rules of their own: what a recording and an import have of them,
what the tools print of their exits, and which of their faults explain finds."""

import json
import tempfile

import cases
from checks import REPLAY, TOOLS, expect, run
from imported_lines import Journal, entries_of, imported, pod as journal_pod, states_of
from test_explain import found_of
from test_members import play_of, recorded

from replay_tools import restarting, traces
from replay_tools.record import metrics, pods, restarts
from replay_tools.record.lines import pod_line
from replay_tools.record.standing import Standing

load_tests = cases.loaded(__name__)


def rule(operator, *values, **more):
    return {"action": "Restart", "exitCodes": {"operator": operator, "values": list(values)}, **more}


OWN = {"name": "app", "restartPolicy": "Never", "restartPolicyRules": [rule("In", 42, 75), rule("NotIn", 0, 3)]}


def decides(container, of_pod="Never", is_init=False, **more):
    return restarting.restarting_of(container, of_pod, is_init, **more)


def test_which_exits_a_restart_follows():
    """By the pod's policy, the container's own, and each rule: the codes that a restart follows."""
    codes = (0, 1, 3, 42, 137, -1)
    for name, found, wanted in (
        ("the pod's Always", decides({}, "Always"), codes), ("none", decides({}, None), codes),
        ("the pod's OnFailure", decides({}, "OnFailure"), (1, 3, 42, 137, -1)), ("the pod's Never", decides({}), ()),
        ("its own Always", decides({"restartPolicy": "Always"}), codes),
        ("its own OnFailure", decides({"restartPolicy": "OnFailure"}, "Always"), (1, 3, 42, 137, -1)),
        ("its own Never", decides({"restartPolicy": "Never"}, "Always"), ()),
        ("rules", decides(OWN), (1, 42, 137, -1)),
        ("a rule for 0", decides({"restartPolicy": "Never", "restartPolicyRules": [rule("In", 0)]}), (0,)),
        ("a rule next to OnFailure", decides({"restartPolicy": "OnFailure", "restartPolicyRules": [rule("In", 0)]}),
         codes),
        ("an init container", decides({}, "Always", True), (1, 3, 42, 137, -1)),
        ("an init container's Never", decides({"restartPolicy": "Never"}, "Always", True), ()),
        ("an init container's rule for 0",
         decides({"restartPolicy": "Never", "restartPolicyRules": [rule("In", 0, 3)]}, "Always", True), (3,)),
        ("a sidecar", decides({"restartPolicy": "Always"}, "Never", True), codes),
        ("version 2", decides(OWN, "OnFailure", reads_own=False), (1, 3, 42, 137, -1)),
        ("version 2: a sidecar", decides({"restartPolicy": "Always"}, "Never", True, reads_own=False), codes),
    ):
        expect(f"exits with a restart: {name}", tuple(filter(found.wants, codes)), wanted)
    expect("a code that a rule restarts", [decides({"restartPolicy": "Never", "restartPolicyRules": [each]})
                                           .restarted_code(137) for each in (
        rule("In", 75, 42), rule("NotIn", 137), rule("NotIn", *range(255)))], [42, 0, 255])
    expect("no code that a restart follows", decides({}).restarted_code(137), 137)


def test_rules_of_a_manifest():
    """What the extended format takes of a container's policy and rules, and of which containers it takes less."""
    odd = [None, "Restart", {}, {"action": "Restart"}, rule("In"), rule("In", *range(256)), rule("in", 1),
           rule("In", 2 ** 31), rule("In", "1"), rule("In", True), {**rule("In", 1), "action": "RestartAllContainers"}]
    for name, container, kept, is_lost in (
        ("none", {}, {}, False), ("a policy", {"restartPolicy": "OnFailure"}, {"restartPolicy": "OnFailure"}, False),
        ("rules", OWN, {name: OWN[name] for name in ("restartPolicy", "restartPolicyRules")}, False),
        ("another member", {"restartPolicy": "Never", "restartPolicyRules": [rule("In", 1, name="x")]},
         {"restartPolicy": "Never", "restartPolicyRules": [rule("In", 1)]}, False),
        ("odd rules", {"restartPolicy": "Never", "restartPolicyRules": [*odd, rule("In", 1)]},
         {"restartPolicy": "Never", "restartPolicyRules": [rule("In", 1)]}, True),
        ("too many", {"restartPolicy": "Never", "restartPolicyRules": [rule("In", 1)] * 21},
         {"restartPolicy": "Never", "restartPolicyRules": [rule("In", 1)] * 20}, True),
        ("no policy", {"restartPolicyRules": [rule("In", 1)]}, {}, True),
        ("another policy", {"restartPolicy": "Sometimes"}, {}, True), ("no text", {"restartPolicy": 7}, {}, True),
        ("no array", {"restartPolicy": "Never", "restartPolicyRules": {}}, {"restartPolicy": "Never"}, False),
        ("an empty array", {"restartPolicy": "Never", "restartPolicyRules": []}, {"restartPolicy": "Never"}, False),
    ):
        found = restarts.own_restarts(container, False)
        expect(f"rules of a manifest: {name}", (found, restarts.has_lost(container, found)), (kept, is_lost))
    sidecar = {"restartPolicy": "Always", "restartPolicyRules": [rule("In", 1)]}
    expect("rules of a manifest: a sidecar", restarts.own_restarts(sidecar, True), {"restartPolicy": "Always"})


INITS = [{"name": "proxy", "restartPolicy": "Always"}, {"name": "setup", "restartPolicy": "OnFailure"}]


def test_recorded_rules():
    """In the extended format a manifest has them; in the standard format they are left out, and a line reports that. A
    sidecar stays one."""
    other = {"name": "other", "restartPolicy": "Never", "restartPolicyRules": [{"action": "RestartAllContainers"}]}
    play = play_of(web={"spec": {"restartPolicy": "OnFailure", "initContainers": INITS, "containers": [OWN, other]}})
    lines, answer = recorded(play, "--extended", "--for", "5")
    [web] = [line["pod"]["spec"] for line in lines["pod"]]
    expect("recorded rules", (answer, web["initContainers"], web["containers"]), (
        (0, "record: shop/web other: the rules of restarts that the formats reject are left out\n"), INITS,
        [OWN, {"name": "other", "restartPolicy": "Never"}]))
    lines, answer = recorded(play, "--standard", "--for", "5")
    [web] = [line["pod"]["spec"] for line in lines["pod"]]
    expect("rules in the standard format", (answer[0], web["initContainers"], web["containers"]),
           (0, [INITS[0], {"name": "setup"}], [{"name": "app"}, {"name": "other"}]))
    expect("rules in the standard format: what is said", answer[1].splitlines(), [
        f"record: shop/web {name}: its own rules of restarts are left out, and it restarts as its pod does"
        for name in ("setup", "app", "other")])


def pod_with(*containers, inits=(), policy="Always", **status):
    spec = {"restartPolicy": policy, "initContainers": list(inits), "containers": list(containers)}
    return {"metadata": {"name": "web", "namespace": "shop", "uid": "1"}, "spec": spec, "status": status}


NEVER = {"name": "app", "restartPolicy": "Never"}


def test_pod_that_fails_by_itself():
    """A pod that failed without a reason was ended by the node, unless its containers' policies let it fail."""
    plain, always = {"name": "app"}, {"name": "app", "restartPolicy": "Always"}
    for name, pod, is_ended in (
        ("Always", pod_with(plain), True), ("OnFailure", pod_with(plain, policy="OnFailure"), False),
        ("its only container's Never", pod_with(NEVER), False),
        ("a container that goes on", pod_with(NEVER, {"name": "other"}), True),
        ("a container's own Always", pod_with(always, policy="Never"), True),
        ("an init container's Never", pod_with(plain, inits=[{"name": "setup", "restartPolicy": "Never"}]), False),
        ("a sidecar", pod_with(plain, inits=[INITS[0]]), True),
        ("no container", {**pod_with(), "spec": {}}, True),
    ):
        pod["status"] = {"phase": "Failed"}
        expect(f"a pod that failed by itself: {name}", pods.pod_of(pod).ended is not None, is_ended)


def test_restarted_by_a_rule():
    """What the recorder takes for a container that is to start again, and its metrics for a pod that has ended."""
    pod = pods.pod_of(pod_with(OWN, inits=INITS))
    expect("is started again", [(name, code) for name in ("proxy", "setup", "app", "none") for code in (0, 1, 3, 42)
                                if pod.is_restarted(name, code)],
           [("proxy", 0), ("proxy", 1), ("proxy", 3), ("proxy", 42), ("setup", 1), ("setup", 3), ("setup", 42),
            ("app", 1), ("app", 42)])
    for code, wanted in ((3, True), (42, False), (0, True)):
        standing = Standing()
        standing.take(json.loads(pod_line(pods.pod_of(pod_with(OWN)))))
        standing.take({"kind": "tick", "at": 1, "pods": [{"pod": "shop/web", "containers": [
            {"name": "app", "attempt": 0, "state": "CONTAINER_EXITED", "exitCode": code}]}]})
        expect(f"a pod has ended, by the recorder's metrics: {code}", metrics.has_ended(standing.pods["shop/web"]),
               wanted)


# --- what an import has of them ---


def imported_states(app, codes, policy="Always"):
    """What an import lists of a container that exits twice, with these codes in the journal or none."""
    journal = Journal().loop(0, "ADD").look(1, "Started", "5").look(2, "Started", "a").loop(30, "UPDATE")
    for at, letter, code in ((40, "a", codes[0]), (60, "b", codes[1])):
        if code is not None:
            journal.code(at, letter, code)
        journal.look(at + 0.1, "Died", letter)
        if letter == "a":
            journal.look(at + 1, "Started", "b")
    journal.loop(200, "UPDATE")
    status, records, _ = imported(journal.text(), [journal_pod(containers=[app], restartPolicy=policy)])
    [spec] = [record["pod"]["spec"] for record in records if record["kind"] == "pod"]
    guessed = [entry["guessed"] for _, entry in entries_of(records) if "guessed" in entry]
    return status, spec["containers"], [each[2:5] for each in states_of(records)], guessed


def test_imported_rules():
    """A manifest has a container's policy and rules. A code that no line has is one after which a rule has the restart
    come that came; of an exit without a restart the phase is unknown by the container's own policy."""
    app = {**OWN, "restartPolicyRules": [rule("In", 42, 75)]}
    for name, codes, second, third in (("codes", (75, 3), 75, 3), ("no codes", (None, None), 42, 137)):
        status, containers, states, guessed = imported_states(app, codes)
        expect(f"import of rules: {name}", (status, containers, states), (0, [app], [
            (0, "RUNNING", None), (0, "EXITED", second), (1, "RUNNING", None), (1, "EXITED", third)]))
        expect(f"import of rules: {name}: whether its phase is known", guessed, [] if codes[1] else [["phase"]])
    status, containers, states, _ = imported_states({"name": "app", "restartPolicy": "OnFailure"}, (None, None))
    expect("import of a container's own OnFailure", (status, containers, states[-1]), (
        0, [{"name": "app", "restartPolicy": "OnFailure"}], (1, "EXITED", 0)))


# --- what the tools print ---


REPORT = """node n1 pods=1 ticks=8
event 0 shop/job app started 0
event 0 shop/job app ready
event 0 shop/job setup started 0
event 0 shop/job setup ready
event 0 shop/job - phase Running
event 5 shop/job app died 0 42
event 5 shop/job app unready
event 5 shop/job app restart 0
event 6 shop/job app started 1
event 6 shop/job app ready
event 8 shop/job setup died 0 1
event 8 shop/job setup unready
event 8 shop/job setup restart 0
event 9 shop/job app died 1 75
event 9 shop/job app unready
event 9 shop/job app backoff 10
event 20 shop/job app started 2
event 20 shop/job app ready
event 20 shop/job setup started 1
event 20 shop/job setup ready
event 25 shop/job app died 2 3
event 25 shop/job app unready
event 26 shop/job setup died 1 0
event 26 shop/job setup unready
event 26 shop/job - phase Failed
pod 0 shop/job phase=Failed reason=- qos=BestEffort
condition 0 PodScheduled True 0
condition 0 Initialized True 0
condition 0 ContainersReady False 25
condition 0 Ready False 25
container 0 app state=Terminated code=3 restarts=2 ready=false started=false
container 0 setup state=Terminated code=0 restarts=1 ready=false started=false
nodecondition MemoryPressure False 0
nodecondition DiskPressure False 0
nodecondition PIDPressure False 0
totals updates=8 events=25 orders=2
"""


def lines_of(*lines):
    return "".join(json.dumps(line) + "\n" for line in lines)


def listed(name, attempt, code=None):
    return {"name": name, "attempt": attempt, "state": 1 if code is None else 2,
            **({} if code is None else {"exitCode": code})}


def trace_of(version=3, **more):
    app = {**OWN, "restartPolicyRules": [rule("In", 42), rule("In", 42, 75)]}
    manifest = {"metadata": {"name": "job", "namespace": "shop"}, "spec": {
        "restartPolicy": "Always", "containers": [app, {"name": "setup", "restartPolicy": "OnFailure"}]}}
    ticks = ((0, listed("app", 0), listed("setup", 0)), (5, listed("app", 0, 42), listed("setup", 0)),
             (6, listed("app", 1), listed("setup", 0)), (8, listed("app", 1), listed("setup", 0, 1)),
             (9, listed("app", 1, 75), listed("setup", 0, 1)), (20, listed("app", 2), listed("setup", 1)),
             (25, listed("app", 2, 3), listed("setup", 1)), (26, listed("app", 2, 3), listed("setup", 1, 0)))
    return lines_of({"kind": "node", "name": "n1", "version": version}, {"kind": "pod", "pod": manifest},
                    *({"kind": "tick", "at": at, "pods": [{"pod": "shop/job", "containers": containers, **more}]}
                      for at, *containers in ticks))


WANTED = {
    "5": "rule 1 of its restartPolicyRules restarts it", "8": "its own restartPolicy OnFailure restarts it",
    "9": "rule 2 of its restartPolicyRules restarts it",
    "25": "no rule of its restartPolicyRules matches, and its own restartPolicy Never does not restart it",
    "26": "its own restartPolicy OnFailure does not restart it"}


def told_by(tool, trace, *words, report=REPORT):
    with tempfile.NamedTemporaryFile("w", suffix=".trace") as file:
        file.write(trace)
        file.flush()
        clock = ["--seconds"] * (tool in ("story", "why"))
        status, told, said = run([f"{TOOLS}/{tool}", *clock, *words, "--trace", file.name], report)
    expect(f"{tool} of own restarts", (status, said), (0, ""))
    return told


def test_report_of_own_restarts():
    """The report that these tests give the tools is the program's."""
    expect("the report of own restarts", run([REPLAY, "run", "/dev/stdin", "--extended"], trace_of()), (0, REPORT, ""))


def test_what_is_told_of_own_restarts():
    """story, why and json show which of its own policy and rules restarts a container after an exit, or does not."""
    told = told_by("story", trace_of(), "job", "--without-why").split("\nEvents\n")[1].split("\n\n")[0].splitlines()
    rows = [line.split(None, 3) for line in told if "died" in line]
    expect("story: own restarts", {at: what.partition("; ")[2] for at, _, _, what in rows}, WANTED)
    told = told_by("story", trace_of(), "job", "--without-why")
    expect("story: what led to a restart", "died at 9 with code 75; rule 2 of its restartPolicyRules restarts it; backed "
           "off by 10 s" in told, True)
    told = told_by("why", trace_of(), "job").splitlines()
    heads = [line.partition("  ") for line in told if "  app died" in line or "  setup died" in line]
    expect("why: own restarts", {at: what.partition("; ")[2] for at, _, what in heads}, WANTED)
    expect("why: the policy of a container", [line.strip() for line in told if "exits that count" in line][:2], [
        "exits that count (policy Never of its own, after 2 rules, greatest delay 300 s):",
        "exits that count (policy OnFailure of its own, greatest delay 300 s):"])
    found = {record["at"]: record["restart_words"] for record in map(json.loads, told_by("json", trace_of()).splitlines())
             if "restart_words" in record}
    expect("json: own restarts", found, {
        5: "app exited with 42, which rule 1 of its restartPolicyRules restarts",
        8: f"setup exited with 1: {WANTED['8']}",
        9: "app exited with 75, which rule 2 of its restartPolicyRules restarts",
        25: f"app exited with 3: {WANTED['25']}", 26: f"setup exited with 0: {WANTED['26']}"})


def test_page_of_own_restarts():
    """A page has the policy of each container, and what decided next to an exit."""
    told = told_by("page", trace_of())
    expect("page: own restarts", ('"policies":["Never of its own, after 2 rules","OnFailure of its own"]' in told,
                                  WANTED["8"] in told), (True, True))
    expect("page of version 2: none", '"policies"' in told_by("page", trace_of(version=2)), False)


def test_no_own_restarts():
    """Nothing is printed of them in version 2, whose program ignores rules; and where no restart came, as of a pod that
    is being deleted."""
    told = told_by("story", trace_of(version=2), "job", "--without-why")
    expect("no own restarts in version 2", "restartPolicy" in told, False)
    report = REPORT.replace("event 5 shop/job app restart 0\n", "")
    told = told_by("json", trace_of(), report=report)
    expect("no restart came", [record["at"] for record in map(json.loads, told.splitlines())
                               if "restart_words" in record], [8, 9, 25, 26])


def test_own_restarts_of_a_trace():
    """What is no rule decides nothing, and no fault is raised for it."""
    for rules in (5, {}, [None, 5, {}, {"exitCodes": 7}, {"exitCodes": {"operator": "In"}},
                          {"exitCodes": {"operator": "In", "values": ["1", None]}}]):
        app = {"name": "app", "restartPolicy": "Never", "restartPolicyRules": rules}
        text = lines_of({"kind": "node", "name": "n1", "version": 3},
                        {"kind": "pod", "pod": {"metadata": {"name": "job"}, "spec": {"containers": [app]}}})
        [pod] = traces.trace_of(text.encode(), "it").pods
        expect(f"odd rules: {rules}", pod.containers[0].restarting.wants(1), False)


# --- explain ---


def test_explained_rules():
    """The field of each fault of a container's policy and rules."""
    place = ("pod", "spec", "containers", 0)
    first = (*place, "restartPolicyRules", 0)
    bad = {"action": "Restart", "exitCodes": {"operator": "In", "values": [1]}}
    for fault, app, path in (
        (12, {"restartPolicy": "Sometimes"}, (*place, "restartPolicy")),
        (12, {"restartPolicy": "Never", "restartPolicyRules": {}}, (*place, "restartPolicyRules")),
        (19, {"restartPolicy": "Never", "restartPolicyRules": [bad] * 21}, (*place, "restartPolicyRules")),
        (12, {"restartPolicy": "Never", "restartPolicyRules": [7]}, first),
        (11, {"restartPolicy": "Never", "restartPolicyRules": [{}]}, (*first, "action")),
        (12, {"restartPolicy": "Never", "restartPolicyRules": [{**bad, "action": "Stop"}]}, (*first, "action")),
        (11, {"restartPolicy": "Never", "restartPolicyRules": [{"action": "Restart"}]}, (*first, "exitCodes")),
        (12, {"restartPolicy": "Never", "restartPolicyRules": [{**bad, "exitCodes": 1}]}, (*first, "exitCodes")),
        (11, {"restartPolicy": "Never", "restartPolicyRules": [{**bad, "exitCodes": {}}]},
         (*first, "exitCodes", "operator")),
        (12, {"restartPolicy": "Never", "restartPolicyRules": [rule("NotIn", 1), rule("Exists", 1)]},
         (*place, "restartPolicyRules", 1, "exitCodes", "operator")),
        (11, {"restartPolicy": "Never", "restartPolicyRules": [{**bad, "exitCodes": {"operator": "In"}}]},
         (*first, "exitCodes", "values")),
        (12, {"restartPolicy": "Never", "restartPolicyRules": [{**bad, "exitCodes": {"operator": "In", "values": 1}}]},
         (*first, "exitCodes", "values")),
        (11, {"restartPolicy": "Never", "restartPolicyRules": [rule("In")]}, (*first, "exitCodes", "values")),
        (19, {"restartPolicy": "Never", "restartPolicyRules": [rule("In", *range(256))]},
         (*first, "exitCodes", "values")),
        (12, {"restartPolicy": "Never", "restartPolicyRules": [rule("In", 1, 2 ** 31)]},
         (*first, "exitCodes", "values", 1)),
        (18, {"restartPolicyRules": [bad]}, (*place, "restartPolicyRules")),
    ):
        text = lines_of({"kind": "node", "name": "n1", "version": 3}, {"kind": "pod", "pod": {
            "metadata": {"name": "job"}, "spec": {"containers": [{"name": "app", **app}]}}})
        found = found_of(text.encode(), f"status 2: line 2: 35 Manifest {fault}", True).found
        expect(f"explain rules: {path[3:]} {fault}", [each.path for each in found], [path])
    for version, of_init, fault, wanted in (
        (3, {"restartPolicy": "Always", "restartPolicyRules": [bad]}, 18, "restartPolicyRules is of a sidecar"),
        (3, {"restartPolicy": "Never", "livenessProbe": {}}, 15, "livenessProbe is a probe of an init container"),
        (2, {"restartPolicy": "Never"}, 18, 'restartPolicy is "Never": an init container has Always'),
    ):
        text = lines_of({"kind": "node", "name": "n1", "version": version}, {"kind": "pod", "pod": {
            "metadata": {"name": "job"},
            "spec": {"initContainers": [{"name": "setup", **of_init}], "containers": [{"name": "app"}]}}})
        found = found_of(text.encode(), f"status 2: line 2: 35 Manifest {fault}", version == 3).found
        expect(f"explain rules: {wanted}", [wanted in each.says for each in found], [True])
