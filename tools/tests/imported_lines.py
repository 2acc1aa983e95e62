"""Journals of a kubelet, made for a test a line at a time: as sentences of a kubelet 1.20, or with keys as from 1.21
on."""

import json
import os
import tempfile
import time

from checks import REPLAY, TOOLS, run

BEGIN = 1795824000
UID = "11111111-2222-3333-4444-555555555555"


def identity(letter):
    return letter * 64


class Journal:
    """Lines of one kubelet; a moment is in seconds since the first."""

    def __init__(self, is_printed=False, name="web", uid=UID):
        self.is_printed = is_printed
        self.name, self.uid = name, uid
        self.process = 9
        self.lines = []

    @property
    def placed(self):
        return f"{self.name}_shop({self.uid})"

    def say(self, at, text, level="I"):
        stamp = time.strftime("%m%d %H:%M:%S", time.gmtime(BEGIN + at)) + f".{int(at % 1 * 1e6):06d}"
        self.lines.append((at, f"{level}{stamp} {self.process:7d} a.go:1] {text}\n"))
        return self

    def loop(self, at, what, source="api", uid=None):
        placed = f"{self.name}_shop({uid or self.uid})"
        return self.say(at, f'SyncLoop ({what}, "{source}"): "{placed}"' if self.is_printed else
                        f'"SyncLoop {what}" source="{source}" pods=["shop/{self.name}"]')

    def look(self, at, what, letter):
        """The kubelet's look finds that an instance has started or died."""
        event = json.dumps({"ID": self.uid, "Type": f"Container{what}", "Data": identity(letter)})
        return self.say(at, f'SyncLoop (PLEG): "{self.placed}", event: &pleg.PodLifecycleEvent{{ID:"{self.uid}", '
                        f'Type:"Container{what}", Data:"{identity(letter)}"}}' if self.is_printed else
                        f'"SyncLoop (PLEG): event for pod" pod="shop/{self.name}" event={event.replace(": ", ":")}')

    def code(self, at, letter, code):
        return self.say(at, f'"Generic (PLEG): container finished" podID="{self.uid}" '
                        f'containerID="{identity(letter)}" exitCode={code}')

    def kill(self, at, letter, grace=30):
        return self.say(at, f'Killing container "containerd://{identity(letter)}" with a {grace} second grace period'
                        if self.is_printed else f'"Killing container with a grace period" pod="shop/{self.name}" '
                        f'containerName="app" containerID="containerd://{identity(letter)}" gracePeriod={grace}')

    def wait(self, at, container, reason="CrashLoopBackOff", message="back-off 10s restarting failed container"):
        said = f'failed to "StartContainer" for "{container}" with {reason}: "{message}"'
        quoted = said.replace('"', '\\"')
        return self.say(at, f'Error syncing pod {self.uid} ("{self.placed}"), skipping: {said}' if self.is_printed else
                        f'"Error syncing pod, skipping" err="{quoted}" pod="shop/{self.name}" podUID="{self.uid}"', "E")

    def patch(self, at, status):
        text = json.dumps(json.dumps({"metadata": {"uid": self.uid}, "status": status}))
        return self.say(at, f'Patch status for pod "{self.placed}" with {text}' if self.is_printed else
                        f'"Patch status for pod" pod="shop/{self.name}" podUID="{self.uid}" patch={text}')

    def text(self, *others):
        lines = [each for journal in (self, *others) for each in journal.lines]
        return "".join(line for _, line in sorted(lines, key=lambda each: each[0]))


def pod(name="web", uid=UID, containers=("app",), **spec):
    """A manifest; `spec` has further members of it."""
    return {"kind": "Pod", "metadata": {"name": name, "namespace": "shop", "uid": uid},
            "spec": {"nodeName": "n1", "containers": [each if isinstance(each, dict) else {"name": each}
                                                      for each in containers], **spec}}


def imported(given, pods=(), journals=(), words=()):
    """The status of an import, the records of its trace, and its messages."""
    with tempfile.TemporaryDirectory() as folder:
        named = []
        for number, text in enumerate((given, *journals)):
            with open(f"{folder}/{number}", "w", encoding="utf-8") as file:
                file.write(text)
            named += ["--journal", f"{folder}/{number}"]
        if pods:
            with open(f"{folder}/pods", "w", encoding="utf-8") as file:
                json.dump({"kind": "List", "items": list(pods)}, file)
            named += ["--pods", os.path.join(folder, "pods")]
        status, trace, said = run([f"{TOOLS}/import", "--year", "2026", "--node", "n1", *named, *words])
    return status, [json.loads(line) for line in trace.splitlines()], said


def is_accepted(records):
    """Whether the program takes a trace."""
    text = "".join(f"{json.dumps(record, separators=(',', ':'))}\n" for record in records)
    return run([REPLAY, "check", "/dev/stdin", "--extended"], text)[0] == 0


def ticks_of(records):
    return [record for record in records if record["kind"] == "tick"]


def entries_of(records, key="shop/web"):
    """The entries of a pod, each with the second of its tick since the first line."""
    return [(tick["at"] - BEGIN, entry) for tick in ticks_of(records) for entry in tick["pods"] if entry["pod"] == key]


def states_of(records, key="shop/web"):
    """What is listed of a pod's containers where that changes: (second, name, attempt, state, code, guessed)."""
    found, before = [], {}
    for at, entry in entries_of(records, key):
        for each in entry["containers"]:
            state = each["attempt"], each["state"].removeprefix("CONTAINER_"), each.get("exitCode")
            if before.get(each["name"]) != state:
                found.append((at, each["name"], *state, tuple(each.get("guessed", ()))))
            before[each["name"]] = state
    return found


def decisions_of(records, kind):
    """What the kubelet did by the ticks: (second, pod, reason)."""
    return [(each["at"] - BEGIN, each["pod"], each["reason"]) for tick in ticks_of(records)
            for each in tick.get("kubelet", {}).get(kind, ())]


def lines_of_pod(records, key="shop/web"):
    """The lines that show that a pod comes or goes."""
    return [record["kind"] for record in records if record.get("pod") == key or record["kind"] == "pod" and (
        "/".join(record["pod"]["metadata"][name] for name in ("namespace", "name")) == key)]
