"""The tests of what an import makes of a kubelet that is restarted: its moment, and the pods that turn unready by
that."""

import gzip
import json
import os
import tempfile

import cases
from checks import expect
from imported_lines import BEGIN, UID, Journal, entries_of, imported, is_accepted, pod, states_of, ticks_of

load_tests = cases.loaded(__name__)

READY = {"name": "app", "readinessProbe": {"periodSeconds": 5, "failureThreshold": 3}}


def success(journal, at):
    placed = f"{journal.placed}:app"
    return journal.say(at, f'Readiness probe for "{placed}" succeeded' if journal.is_printed else
                       f'"Probe succeeded" probeType="Readiness" pod="shop/web" podUID="{UID}" containerName="app"')


def restarted(is_printed, moment=60.5):
    """A pod that is ready, a kubelet that is restarted, and the status that it sends then."""
    journal = Journal(is_printed).loop(0, "ADD").look(1, "Started", "a").look(1.001, "Started", "5")
    for at in range(5, 60, 5):
        success(journal, at)
    journal.process = 10
    journal.say(moment, "Started kubelet" if is_printed else '"Started kubelet"').loop(moment + 0.5, "ADD")
    journal.look(moment + 1, "Started", "a").look(moment + 1.001, "Started", "5")
    journal.patch(moment + 6, {"conditions": [{
        "type": "Ready", "status": "False", "lastTransitionTime": "2026-11-28T00:01:05Z",
        "reason": "ContainersNotReady", "message": "containers with unready status: [app]"}]})
    # the same once more is no turn
    journal.patch(moment + 7, {"conditions": [{"type": "Ready", "status": "False",
                                               "lastTransitionTime": "2026-11-28T00:01:05Z"}]})
    journal.patch(moment + 11, {"conditions": [{"type": "Ready", "status": "True",
                                                "lastTransitionTime": "2026-11-28T00:01:11Z"}]})
    for at in range(70, 120, 5):
        success(journal, at)
    return journal


def test_import_of_a_restart():
    """The first tick after it has its moment, once; what runs goes on."""
    for name, is_printed in (("1.20", True), ("keys", False)):
        status, records, said = imported(restarted(is_printed).text(), [pod(containers=[READY])])
        started = [(tick["at"] - BEGIN, tick["kubeletStartedAt"] - BEGIN) for tick in ticks_of(records)
                   if "kubeletStartedAt" in tick]
        expect(f"import of a restart, {name}", (status, is_accepted(records), started), (0, True, [(60, 60)]))
        expect(f"import of a restart, {name}: what runs", [each[2:4] for each in states_of(records)], [(0, "RUNNING")])
        expect(f"import of a restart, {name}: what is said", (
            "2026-11-28T00:01:00Z: the kubelet was restarted" in said, "1 time the kubelet was restarted" in said), (
            True, True))


def test_import_of_pods_that_turn_unready_by_a_restart():
    """A kubelet that was started takes a pod for unready until its readiness probe has passed, as the status shows that
    it sends, though no probe failed."""
    for name, is_printed in (("1.20", True), ("keys", False)):
        status, records, _ = imported(restarted(is_printed).text(), [pod(containers=[READY])])
        turns = [(each["status"], each["at"] - BEGIN) for _, entry in entries_of(records)
                 for each in entry.get("readyTurns", ())]
        expect(f"import of unready pods, {name}", (status, is_accepted(records), turns), (0, True, [
            ("False", 65), ("True", 71)]))
        failures = [each for _, entry in entries_of(records) for each in entry.get("probes", ())
                    if each["result"] == "failure"]
        expect(f"import of unready pods, {name}: no probe failed", failures, [])


def test_import_of_codes_by_version():
    """What is printed of codes that a journal lacks is of the kubelet that wrote it."""
    for is_printed, written in ((True, "up to 1.20 writes codes from -v=3 on"),
                                (False, "from 1.21 on writes codes from -v=2 on")):
        journal = Journal(is_printed).loop(0, "ADD").look(1, "Started", "a").look(1.001, "Started", "5")
        said = imported(journal.look(20, "Died", "a").loop(60, "UPDATE").text(), [pod()])[2]
        expect(f"import of codes: {written}", [line for line in said.splitlines() if "without a code" in line],
               [f"import: 1 of 1 exit without a code, which is guessed: a kubelet {written}"])


def test_import_of_two_restarts():
    """A pod that no line names after either is one pod."""
    journal = Journal(True).loop(0, "ADD").look(1, "Started", "a").look(1.001, "Started", "5")
    other = Journal(True, "calm", UID.replace("1", "7")).loop(0, "ADD").look(1, "Started", "b")
    other.look(1.001, "Started", "6")
    for process, at in ((10, 60), (11, 900)):
        journal.process = process
        journal.say(at, "Started kubelet").loop(at + 1, "ADD").loop(at + 800, "UPDATE")
    status, records, said = imported(journal.text(other), [pod(), pod("calm", UID.replace("1", "7"))])
    gaps = [tick for tick in ticks_of(records) if "gap" in tick]
    told = [line for line in said.splitlines() if "after a gap" in line]
    expect("import of two restarts", (status, len(gaps), told), (
        0, 2, ["import: 1 pod that no line after a gap names (shop/calm): as before it"]))


def test_import_of_restarts_in_a_folder():
    """Of traces one after the other the one that begins with the restart has its moment, by the clock of then."""
    with tempfile.TemporaryDirectory() as folder:
        status, _, _ = imported(restarted(True).text(), [pod(containers=[READY])], (), ("--into", f"{folder}/into"))
        found = []
        for name in sorted(os.listdir(f"{folder}/into")):
            with gzip.open(f"{folder}/into/{name}", "rt", encoding="utf-8") as file:
                found.append([tick["kubeletStartedAt"] - BEGIN for tick in map(json.loads, file)
                              if "kubeletStartedAt" in tick])
    expect("import of restarts in a folder", (status, found), (0, [[], [60]]))
