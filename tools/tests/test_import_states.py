"""The tests of what an import makes of containers that never run, of exits that no line has, and of pods that the
kubelet ended or did not admit."""

import json
import os
import time

import cases
from checks import expect
from imported_lines import (BEGIN, UID, Journal, decisions_of, entries_of, identity, imported, is_accepted,
                            lines_of_pod, pod, states_of)

load_tests = cases.loaded(__name__)

NO_COMMAND = "failed to create containerd task: exec: /bin/serve: no such file or directory"


def test_import_of_a_container_that_never_runs():
    """Its sandbox starts in the poll that finds its first exit, or in one before: it is shown as a container that
    waits, with each of its exits, and never as one that runs."""
    for name, sandbox_at in (("in one look", 2.201), ("in two", 1.1)):
        journal = Journal().loop(0, "ADD").wait(2.0, "app", "RunContainerError", NO_COMMAND)
        journal.code(2.1, "1", 128).look(2.2, "Died", "1").look(sandbox_at, "Started", "5")
        at, delay = 12.0, 10
        for letter in "234":
            journal.wait(at, "app", "RunContainerError", NO_COMMAND).code(at + 0.5, letter, 128)
            journal.look(at + 0.6, "Died", letter).wait(at + 0.7, "app").wait(at + 5, "app")
            delay *= 2
            at += delay + 1
        status, records, _ = imported(journal.text(), [pod()])
        found = states_of(records)
        expect(f"import of a container that never runs, {name}", (status, is_accepted(records)), (0, True))
        expect(f"import of a container that never runs, {name}: its states", [each[2:5] for each in found], [
            (attempt, "EXITED", 128) for attempt in range(4)])
        waits = [wait["reason"] for _, entry in entries_of(records) for wait in entry.get("waiting", ())]
        expect(f"import of a container that never runs, {name}: its waits", (
            len(waits) >= 6, set(waits) <= {"RunContainerError", "CrashLoopBackOff"}), (True, True))


def test_import_of_a_wait_of_what_was_taken_to_run():
    """A container of which a line shows that it waits does not run, whatever was guessed of its instances."""
    journal = Journal(True).loop(0, "ADD").look(1, "Started", "a").look(1.001, "Started", "5")
    journal.wait(60, "app").wait(75, "app", message="back-off 20s restarting failed container")
    journal.say(120, 'SyncLoop (housekeeping)').loop(130, "UPDATE")
    status, records, _ = imported(journal.text(), [pod()])
    last = entries_of(records)[-1][1]
    expect("import of a wait of what was taken to run", (status, is_accepted(records), states_of(records)[-1]), (
        0, True, (60, "app", 0, "EXITED", 137, ("exitCode", "exit"))))
    expect("import of a wait of what was taken to run: it waits", [each["reason"] for each in last["waiting"]], [
        "CrashLoopBackOff"])


def test_import_of_exits_that_no_line_has():
    """At -v=0, with the journal of a runtime that does not write them, their code and moment are unknown. An exit is
    where a line shows that the container waits, or in the tick of the next start."""
    made = []
    for at, attempt in ((1, 0), (40, 1), (200, 2)):
        made.append(f'time="{stamp(at)}" level=info msg="CreateContainer within sandbox \\"{identity("5")}\\" for '
                    f'&ContainerMetadata{{Name:app,Attempt:{attempt},}} returns container id '
                    f'\\"{identity(str(attempt))}\\""')
        made.append(f'time="{stamp(at + 1)}" level=info msg="StartContainer for \\"{identity(str(attempt))}\\" '
                    'returns successfully"')
    sandbox = (f'time="{stamp(0.5)}" level=info msg="RunPodSandbox for &PodSandboxMetadata{{Name:web,Uid:{UID},'
               f'Namespace:shop,Attempt:0,}} returns sandbox id \\"{identity("5")}\\""')
    journal = Journal(True).wait(150, "app")
    status, records, said = imported(journal.text(), [pod()], ["\n".join([sandbox, *made]) + "\n"])
    expect("import of exits that no line has", (status, is_accepted(records)), (0, True))
    expect("import of exits that no line has: what is listed", states_of(records), [
        (2, "app", 0, "RUNNING", None, ()), (41, "app", 1, "RUNNING", None, ()),
        (150, "app", 1, "EXITED", 137, ("exitCode", "exit")), (201, "app", 2, "RUNNING", None, ())])
    ended = [each["ended"] for _, entry in entries_of(records) for each in entry["containers"] if "ended" in each]
    expect("import of exits that no line has: in the tick of the next start", ended[0], {
        "attempt": 0, "exitCode": 137, "guessed": ["exitCode", "exit"]})
    expect("import of exits that no line has: what is said", "2 of 2 exits without a code" in said, True)


def stamp(at):
    return time.strftime("%Y-%m-%dT%H:%M:%S", time.gmtime(BEGIN + at)) + f".{int(at % 1 * 1e9):09d}Z"


def ran_once(policy):
    """A pod of one container that exits, whose pod the kubelet then cleans up, and which nothing starts again."""
    journal = Journal(True).loop(0, "ADD").look(1, "Started", "a").look(1.001, "Started", "5")
    journal.look(20, "Died", "a").kill(20.5, "a").look(21, "Died", "5").say(70, "SyncLoop (housekeeping)")
    return imported(journal.loop(80, "UPDATE").text(), [pod(restartPolicy=policy)])


def test_import_of_an_unknown_phase():
    """A pod that is not started again has failed or succeeded, which no line shows where none has the code; one that
    would be started again where it failed has succeeded."""
    status, records, said = ran_once("Never")
    marked = [(at, entry["guessed"]) for at, entry in entries_of(records) if "guessed" in entry]
    expect("import of an unknown phase", (status, is_accepted(records), marked), (0, True, [(20, ["phase"])]))
    expect("import of an unknown phase: what is said", "1 pod of an unknown phase (shop/web)" in said, True)
    kills = [each for _, entry in entries_of(records) for each in entry.get("said", ())]
    expect("an order to stop what has exited is no kill", kills, [])
    status, records, _ = ran_once("OnFailure")
    expect("import of a pod that was left as it is", (status, states_of(records)[-1]), (
        0, (20, "app", 0, "EXITED", 0, ("moment", "exitCode"))))
    journal = Journal(True).loop(0, "ADD").look(1, "Started", "a").look(1.001, "Started", "5").look(20, "Died", "a")
    status, records, _ = imported(journal.wait(21, "app").loop(80, "UPDATE").text(), [pod(restartPolicy="OnFailure")])
    expect("import of a pod that waits", (status, states_of(records)[-1][4]), (0, 137))


def running(is_printed=True, **spec):
    return Journal(is_printed).loop(0, "ADD").look(1, "Started", "a").look(1.001, "Started", "5"), [pod(**spec)]


def test_import_of_pods_that_the_node_ended():
    """By a deadline, to make room, as the node shuts down: with what the kubelet logs, at the moment at which it began
    to stop the containers."""
    cases_of = []
    journal, pods = running()
    journal.kill(30.2, "a").say(30.5, f"preemption: pod {journal.placed} evicted successfully").look(31, "Died", "a")
    cases_of.append(("preemption, 1.20", journal, pods, (30, "Preempting")))
    journal, pods = running(False)
    journal.kill(30.2, "a").say(33.5, '"Pod evicted successfully" pod="shop/web"').look(33, "Died", "a")
    cases_of.append(("preemption", journal, pods, (30, "Preempting")))
    journal, pods = running()
    journal.say(40, f'Shutdown manager killing pod "{journal.placed}" with gracePeriod: 10').look(43, "Died", "a")
    cases_of.append(("shutdown, 1.20", journal, pods, (40, "Shutdown")))
    journal, pods = running(False)
    journal.say(40, '"Shutdown manager killing pod with gracePeriod" pod="shop/web" gracePeriod=10')
    cases_of.append(("shutdown", journal.look(43, "Died", "a"), pods, (40, "Terminated")))
    journal, pods = running(False)
    journal.kill(50.5, "a").look(52, "Died", "a").patch(53, {"phase": "Failed", "reason": "DeadlineExceeded"})
    cases_of.append(("a deadline, by a status", journal, pods, (50, "DeadlineExceeded")))
    journal, pods = running(activeDeadlineSeconds=50)
    cases_of.append(("a deadline, by the manifest", journal.kill(50.5, "a").look(52, "Died", "a"), pods, (
        50, "DeadlineExceeded")))
    journal, [ended] = running()
    ended["status"] = {"phase": "Failed", "reason": "NodeShutdown", "message": "Node is shutting, evicting pods"}
    cases_of.append(("a list's status", journal.kill(60.5, "a").look(62, "Died", "a"), [ended], (60, "NodeShutdown")))
    for name, journal, pods, (at, reason) in cases_of:
        status, records, _ = imported(journal.loop(120, "UPDATE").text(), pods)
        failed = [(second, entry["failed"]) for second, entry in entries_of(records) if "failed" in entry]
        expect(f"import of a pod that the node ended, {name}", (status, is_accepted(records), decisions_of(
            records, "ended"), failed), (0, True, [(at, "shop/web", reason)], [(at, reason)]))


def test_import_of_pods_that_were_not_admitted():
    """They never ran, and have no line; one that is not admitted again as the kubelet was restarted is ended."""
    said = "Node didn't have enough resource: cpu, requested: 100000, used: 3400, capacity: 4000"
    for name, is_printed, text, reason in (
            ("1.20", True, f"Predicate failed on Pod: web_shop({UID}), for reason: {said}", "OutOfcpu"),
            ("a predicate", True, f"Predicate failed on Pod: web_shop({UID}), for reason: Predicate NodeAffinity "
             "failed", "NodeAffinity"),
            ("1.21", False, f'"Predicate failed on Pod" pod="shop/web" err="{said}"', "OutOfcpu"),
            ("a reason", False, f'"Pod admission denied" podUID="{UID}" pod="shop/web" reason="NodeShutdown" '
             'message="Pod was rejected as the node is shutting down."', "NodeShutdown")):
        journal = Journal(is_printed).loop(5, "ADD").say(5.1, text)
        other = Journal(is_printed, "other", UID.replace("1", "7")).loop(0, "ADD").look(1, "Started", "b")
        other.look(1.001, "Started", "6").loop(60, "UPDATE")
        status, records, _ = imported(journal.text(other), [pod(), pod("other", UID.replace("1", "7"))])
        expect(f"import of a pod that was not admitted, {name}", (status, is_accepted(records), decisions_of(
            records, "refused"), lines_of_pod(records)), (0, True, [(5, "shop/web", reason)], []))
    journal, pods = running()
    journal.process = 10
    journal.say(59, "Started kubelet").loop(60, "ADD").say(60.5, f"Predicate failed on Pod: web_shop({UID}), for "
                                                           f"reason: {said}").look(62, "Died", "a")
    status, records, _ = imported(journal.loop(120, "UPDATE").text(), pods)
    failed = [(second, entry["failed"]) for second, entry in entries_of(records) if "failed" in entry]
    expect("import of a pod that is not admitted again", (status, is_accepted(records), decisions_of(
        records, "refused"), failed), (0, True, [(60, "shop/web", "OutOfcpu")], [(60, "OutOfcpu")]))


def test_import_of_an_init_container_that_fails():
    """A kubelet 1.20 has no code at -v=2, and its lines of back-offs name the init container: it starts again until
    then, and the app never."""
    journal = Journal(True).loop(0, "ADD").look(1, "Started", "a").look(1.001, "Started", "5").look(3, "Died", "a")
    journal.look(4, "Started", "b").look(6, "Died", "b").wait(6.1, "schema").look(18, "Started", "c")
    journal.look(20, "Died", "c").wait(20.1, "schema").wait(35, "schema")
    status, records, _ = imported(journal.text(), [pod(initContainers=[{"name": "schema"}])])
    expect("import of an init container that fails", (status, is_accepted(records)), (0, True))
    expect("import of an init container that fails: its instances", [each[1:4] for each in states_of(records)], [
        ("schema", attempt, state) for attempt in range(3) for state in ("RUNNING", "EXITED")])
    expect("import of an init container that fails: its codes", {each[4] for each in states_of(records)}, {None, 137})


def test_import_of_static_pods():
    """The copy in the API server comes and goes with a uid of its own as the pod of the file runs on, which goes as its
    file does."""
    file, copy, other = "3854c948ae834a538b9ddb24df04229a", "aacd84b4-71ab-4055-9b6c-3a599457e9ac", "9215e6d0-7a9a-4bf7"
    for name, is_printed, journal_begins in (("1.20", True, 0), ("keys", False, 0), ("from the middle on", True, 1)):
        journal = Journal(is_printed, uid=file).loop(0, "ADD", "file").loop(0.4, "ADD", uid=copy)
        journal.look(1, "Started", "a").look(1.001, "Started", "5").loop(100, "DELETE", uid=copy)
        journal.loop(100.1, "REMOVE", uid=copy).loop(101, "ADD", uid=other).loop(200, "REMOVE", "file")
        journal.loop(201, "DELETE", uid=other).look(203, "Died", "a").look(203.1, "Died", "5")
        text = journal.text()
        text = "".join(text.splitlines(keepends=True)[journal_begins:])
        static = pod(uid=copy)
        static["metadata"]["annotations"] = {"kubernetes.io/config.hash": file, "kubernetes.io/config.mirror": file}
        for known, pods in (("", [pod(uid=other)]), (", by the hash", [static])):
            status, records, _ = imported(text, pods)
            deleted = [at for at, entry in entries_of(records) if entry.get("deleting")]
            expect(f"import of a static pod, {name}{known}", (status, is_accepted(records), lines_of_pod(records)), (
                0, True, ["pod", "gone"]))
            expect(f"import of a static pod, {name}{known}: it goes once", (deleted[:1], len(deleted)), ([200], 1))


def test_import_of_an_ephemeral_container():
    """One that kubectl debug adds is no restart of another, and makes no hole."""
    debugger = {"name": "debugger-x", "restartCount": 0, "containerID": f"containerd://{identity('d')}",
                "state": {"running": {"startedAt": "2026-11-28T00:01:40Z"}}}
    in_list = pod()
    in_list["status"] = {"phase": "Running", "ephemeralContainerStatuses": [debugger]}
    for name, pods, patch in (("by a status of the list", [in_list], None),
                              ("by the change of its object", [pod()], None),
                              ("by a patch", [pod()], {"ephemeralContainerStatuses": [debugger]})):
        journal = Journal().loop(0, "ADD").look(1, "Started", "a").look(1.001, "Started", "5")
        journal.loop(99, "UPDATE").look(101, "Started", "d")
        if patch:
            journal.patch(102, patch)
        journal.look(200, "Died", "d").loop(300, "UPDATE")
        status, records, said = imported(journal.text(), pods)
        expect(f"import of an ephemeral container, {name}", (status, is_accepted(records), [
            each[1:4] for each in states_of(records)]), (0, True, [("app", 0, "RUNNING")]))
        expect(f"import of an ephemeral container, {name}: no hole", (
            "lines are missing" in said, any("gap" in record for record in records)), (False, False))


def test_import_of_pods_that_are_forgotten():
    """Pods that went are forgotten, and the number of no pod is given twice: each instance stays with its own pod. The
    kubelet's journal and CRI-O's are read next to each other."""
    kubelet, crio = [], []
    def say(kept, at, unit, message):
        kept.append((at, json.dumps({"__REALTIME_TIMESTAMP": str(int((BEGIN + at) * 1e6)), "_HOSTNAME": "n1",
                                     "SYSLOG_IDENTIFIER": unit, "_PID": "9", "MESSAGE": message})))

    def loop(at, what, name):
        stamped = Journal(name=name).loop(at, what).lines[0][1].rstrip("\n")
        say(kubelet, at, "kubelet", stamped)

    def started(at, name, box, number):
        say(crio, at, "crio", f'time="x" level=info msg="Started container" PID=1 containerID={number:064x} '
            f"description=shop/{name}/{name}c id=1 sandboxID={identity(box)}")

    for at, name, box, number in ((-10, "beat", "e", 100), (0, "a", "1", 101), (10, "b", "2", 102),
                                  (20, "cache", "3", 103), (2000, "db", "4", 104)):
        loop(at, "ADD", name)
        say(crio, at + 1, "crio", f'time="x" level=info msg="Ran pod sandbox {identity(box)} with infra container: '
            f'shop/{name}/POD"')
        started(at + 2, name, box, number)
    for at, name, number in ((100, "a", 101), (110, "b", 102)):
        loop(at, "DELETE", name)
        say(crio, at + 1, "crio", f'time="x" level=info msg="Stopped container {number:064x}: shop/{name}/{name}c"')
        loop(at + 2, "REMOVE", name)
    for number, at in enumerate(range(0, 4000, 60)):
        say(crio, at + 29, "crio", f'time="x" level=info msg="Stopped container {(number or 100):064x}: '
            'shop/beat/beatc"')
        started(at + 30, "beat", "e", number + 1)
    kept = ["\n".join(line for _, line in sorted(lines)) + "\n" for lines in (kubelet, crio)]
    pods = [pod(name, None, [f"{name}c"]) for name in ("beat", "a", "b", "cache", "db")]
    status, records, _ = imported(kept[0], pods, [kept[1]])
    names = {(entry["pod"], each["name"]) for record in records if record["kind"] == "tick"
             for entry in record["pods"] for each in entry["containers"]}
    expect("import of pods that are forgotten", (status, is_accepted(records), all(
        f"shop/{name}" == f"{key}c" for key, name in names)), (0, True, True))


def test_import_of_names_that_come_late():
    """Of a pod without a manifest: a name that lines have only after the pod's own belongs to the container that had
    none by then."""
    journal = Journal(True).loop(0, "ADD").look(1, "Started", "a").look(1.001, "Started", "5")
    for at in range(60, 1500, 60):
        journal.loop(at, "UPDATE")
    journal.look(1500, "Died", "a").wait(1501, "app").loop(1600, "UPDATE")
    status, records, said = imported(journal.text())
    last = entries_of(records)[-1][1]
    expect("import of names that come late", (status, is_accepted(records), states_of(records)[-1][1:4], last.get(
        "waiting", [{}])[0].get("container")), (0, True, ("unnamed", 0, "EXITED"), "unnamed"))
    expect("import of names that come late: what is said", "1 container named late (shop/web app)" in said, True)


def test_import_of_gates_and_resources_of_a_pod():
    """A manifest has the resources of the pod as a whole. It has no readiness gates: no line has their conditions, and
    without these the rules would never take the pod for Ready."""
    journal = Journal().loop(0, "ADD").look(1, "Started", "a").look(2, "Started", "b").loop(30, "UPDATE")
    gates, resources = [{"conditionType": "example.com/lb"}], {"limits": {"memory": "1Gi", "hugepages-2Mi": "4Mi"}}
    of_pod = pod(readinessGates=gates, resources=resources)
    status, records, _ = imported(journal.text(), [of_pod])
    [spec] = [record["pod"]["spec"] for record in records if record["kind"] == "pod"]
    expect("import of gates and resources of a pod", (status, spec.get("readinessGates"), spec.get("resources")),
           (0, None, {"limits": {"memory": "1Gi"}}))


def test_import_of_more_pods_than_a_trace_has():
    """A trace alone has at most 256 pods; the counts agree with each other."""
    journals = []
    for number in range(258):
        journal = Journal(True, f"web-{number:03}", f"11111111-2222-3333-4444-{number:012}").loop(number, "ADD")
        for letter in "ab":
            event = (f'event: &pleg.PodLifecycleEvent{{ID:"{journal.uid}", Type:"ContainerStarted", '
                     f'Data:"{letter}{number:063x}"}}')
            journal.say(number + 1, f'SyncLoop (PLEG): "{journal.placed}", {event}')
        journals.append(journal)
    status, records, said = imported(journals[0].text(*journals[1:]))
    counts = [line.rpartition(": ")[2] for line in said.splitlines() if "starts and exits" in line]
    expect("import of more pods than a trace has", (status, sum(each["kind"] == "pod" for each in records), counts, [
        line for line in said.splitlines() if "left out" in line]), (0, 256, ["256 pods; starts and exits 516"], [
            "import: 2 pods left out (shop/web-256, shop/web-257): a trace alone has at most 256, and with --into each "
            "has 256 at once"]))


def test_import_of_many_instances():
    """It takes as long for each of many starts of one pod as for each of a few."""
    seconds = []
    for count in (2000, 8000):
        journal = Journal().loop(0, "ADD").look(1, "Started", "5")
        for number in range(count):
            at = 2 + number * 2400 / count
            event = f'{{"ID":"{UID}","Type":"ContainerStarted","Data":"{number:064x}"}}'
            journal.say(at, f'"SyncLoop (PLEG): event for pod" pod="shop/web" event={event}')
        before = sum(os.times()[2:4])
        status, _, _ = imported(journal.text())
        seconds.append(sum(os.times()[2:4]) - before)
        expect(f"import of {count} instances", status, 0)
    expect("import of many instances", seconds[1] < 8 * seconds[0] or seconds, True)
