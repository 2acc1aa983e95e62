"""What is known at a rotation between two traces. It is read from the lines that were written, by the rules that the
replay has for them, so that the next trace begins where the replay of the one before it ends."""

from __future__ import annotations

from collections.abc import Iterator
from typing import Any

from replay_tools.restarting import restartings_in

from .formats import without_nones
from .gates import types_in
from .lines import line_of, pod_fields
from .resizes import amounts_in
from .runtime import EXITED, LOST_CODE, RUNNING, UNKNOWN

FIELDS = {"startup": "startupProbe", "liveness": "livenessProbe", "readiness": "readinessProbe"}
DELAY = "initialDelaySeconds"
# members of a listing that are reported once
OF_TICKS = ("ended", "used", "log", "logLeftOut")
# the entry of a pod of which a tick has none
NOTHING: dict[str, Any] = {}
# a run of results that is longer counts as one of so many
MOST_CARRIED = 100


class Run:
    """What the results of one probe have shown since its instance started."""

    def __init__(self, probe: dict[str, int]) -> None:
        self.delay = probe.get(DELAY, 0)
        self.failures_wanted = probe.get("failureThreshold", 3)
        self.successes_wanted = probe.get("successThreshold", 1)
        self.successes = self.failures = 0
        # startup has passed, or the instance is ready by this probe
        self.holds = False
        # a kill was ordered
        self.is_over = False

    def take(self, result: str) -> None:
        """A result that is known and counts."""
        if self.is_over:
            return
        self.successes, self.failures = (self.successes + 1, 0) if result == "success" else (0, self.failures + 1)
        if self.successes >= self.successes_wanted:
            self.holds = True
        elif self.failures >= self.failures_wanted:
            self.holds = False

    def order(self) -> None:
        """Of a probe whose failures order a kill: whether they have."""
        self.is_over = self.is_over or self.failures >= self.failures_wanted

    def results(self, probe: str) -> list[str]:
        """The fewest results that show the same once more. A kill that was ordered holds until the next instance, so
        that failures after it order none."""
        if self.is_over:
            return ["failure"] * self.failures_wanted
        if probe == "startup":
            return ["success"] if self.holds else ["failure"] * self.failures
        if probe == "liveness":
            return ["failure"] * self.failures
        return ["success"] * (self.successes_wanted if self.holds else self.successes) \
            + ["failure"] * (self.failures if self.holds else 0)


def lost(listing: dict[str, Any]) -> dict[str, Any]:
    """An instance, as one that is no longer listed ended."""
    return {"name": listing["name"], "attempt": listing["attempt"], "state": EXITED, "exitCode": LOST_CODE}


def running(listing: dict[str, Any]) -> dict[str, Any]:
    """An instance, as it ran."""
    return {"name": listing["name"], "attempt": listing["attempt"], "state": RUNNING}


class Container:
    """One container of a pod: its newest instance as it was listed, since when, and its probes."""

    def __init__(self, fields: dict[str, Any], is_sidecar: bool) -> None:
        self.fields = fields
        self.name = fields["name"]
        self.is_sidecar = is_sidecar
        # whether some instance of a sidecar was started, without which its pod is pending
        self.was_started = False
        # the newest instance, and the one before it as it ended
        self.listing: dict[str, Any] | None = None
        self.previous: dict[str, Any] | None = None
        self.since = 0
        self.is_listed = False
        self.begin()

    def begin(self) -> None:
        """Another instance begins without any result."""
        self.runs = {probe: Run(self.fields[field]) for probe, field in FIELDS.items()
                     if self.fields.get(field) is not None}
        # when it began to run, if it does
        self.started = 0
        self.passed: int | None = None

    def is_running(self) -> bool:
        return self.listing is not None and self.listing["state"] == RUNNING

    def show(self, listing: dict[str, Any] | None, second: int) -> None:
        """What a tick lists of it, or None. The first state of an exit counts, and what is not known changes none."""
        self.is_listed = listing is not None
        known = self.listing
        if listing is None:
            if known is not None and known["state"] != EXITED:
                self.change(lost(known), second)
        elif known is None or listing["attempt"] != known["attempt"]:
            self.previous = known if known is None or known["state"] == EXITED else lost(known)
            self.begin()
            self.change(listing, second)
        elif known["state"] == EXITED:
            # why it ended may be known later than its code
            known.update({name: listing[name] for name in ("reason", "message") if name in listing})
        elif listing["state"] not in (UNKNOWN, known["state"]):
            self.change(listing, second)

    def change(self, listing: dict[str, Any], second: int) -> None:
        """It is listed otherwise from a second on. Of its exit the first listing counts, and no later one."""
        self.listing, self.since = {name: value for name, value in listing.items() if name not in OF_TICKS}, second
        if listing["state"] == RUNNING:
            self.started = second

    def end_tick(self) -> None:
        """All of a tick is taken."""
        if self.is_running() and ("startup" not in self.runs or self.runs["startup"].holds):
            self.was_started = True

    def has_started_before(self) -> bool:
        """Whether it is a sidecar of which an instance was started, and the newest does not show that: it has exited,
        or its startup has not passed."""
        if self.listing is None or not self.is_sidecar or not self.was_started:
            return False
        return self.listing["state"] == EXITED or (self.previous is not None and "startup" in self.runs
                                                   and not self.runs["startup"].holds)

    def history(self) -> list[dict[str, Any]]:
        """The listings before the newest that show that, the last one first."""
        if self.listing is None or not self.has_started_before():
            return []
        if self.listing["state"] == EXITED:
            return [running(self.listing)]
        return [] if self.previous is None else [self.previous, running(self.previous)]

    def take(self, probe: str, result: str, second: int) -> None:
        """A result of a tick, after what the tick lists."""
        run = self.runs.get(probe)
        if run is None or result == "unknown" or not self.is_listed or not self.is_running():
            return
        if second - self.started < run.delay:
            return
        startup = self.runs.get("startup")
        if probe != "startup" and startup is not None and (self.passed is None or self.passed >= second):
            return
        if probe == "startup" and run.holds:
            return
        run.take(result)
        if probe != "readiness":
            run.order()
        if probe == "startup" and run.holds:
            self.passed = second

    def go_over(self) -> None:
        """A rotation is passed: what runs has its start before it, so no delay counts any more."""
        for run in self.runs.values() if self.is_running() else ():
            run.delay = 0

    def assume(self, restarts: Any, is_started: bool, is_ready: bool, second: int) -> bool:
        """What its pod's status reports of it where it is met running, whose results were before the recording; whether
        that changes what is known."""
        if self.listing is None or not self.is_running() or self.listing["attempt"] != restarts:
            return False
        held = [run for run, holds in ((self.runs.get("startup"), is_started), (self.runs.get("readiness"), is_ready))
                if run is not None and holds and not run.holds]
        for run in held:
            run.holds = True
        if "startup" in self.runs and is_started:
            self.passed = second - 1
        return bool(held) or any(run.delay for run in self.runs.values())

    def carried(self) -> list[dict[str, str]]:
        """The results that show once more what is known, one after the other: a list of {probe: result}."""
        before: list[dict[str, Any]] = [{} for _ in self.history()]
        if before and "startup" in self.runs:
            before[0] = {"startup": "success"}
        newest = self.carried_of_newest()
        return before + (newest or [{}]) if before else newest

    def carried_of_newest(self) -> list[dict[str, str]]:
        if not self.is_running():
            return []
        found = {probe: run.results(probe)[-MOST_CARRIED:] for probe, run in self.runs.items()}
        early, has_startup = found.pop("startup", []), "startup" in self.runs
        # the others count in the ticks after the one in which startup passed
        late = {} if has_startup and not self.runs["startup"].holds else found
        count = max(map(len, late.values()), default=0)
        rows = [{probe: results[place - count + len(results)] for probe, results in late.items()
                 if place >= count - len(results)} for place in range(count)]
        return [{"startup": result} for result in early] + rows

    def listed(self, second: int, back: int) -> dict[str, Any] | None:
        """What a tick that comes so many before the rotation lists of it: what was before where that counts. None where
        it was never listed."""
        if self.listing is None:
            return None
        before, place = self.history(), back - max(len(self.carried_of_newest()), 1)
        if before and place >= 0:
            return before[min(place, len(before) - 1)]
        return without_nones({**self.listing, "since": self.since if self.since < second + back else None})

    def manifest(self) -> dict[str, Any]:
        """Its part of the manifest. The kubelet itself has waited for the delay of a probe of what runs, and its start
        is not in the next trace, so that delay is left out."""
        if not self.is_running() and not self.has_started_before():
            return self.fields
        probes = {field: {name: value for name, value in self.fields[field].items() if name != DELAY}
                  for field in FIELDS.values() if self.fields.get(field) is not None}
        return {**self.fields, **probes}


class Pod:
    """A pod that is there, as its line has it."""

    def __init__(self, manifest: Any, uid: str | None, is_spared: bool = False, is_guessed: bool = False) -> None:
        self.is_guessed = is_guessed
        metadata, spec = manifest["metadata"], manifest["spec"]
        self.key = f"{metadata['namespace']}/{metadata['name']}"
        self.uid = uid
        self.is_spared = is_spared
        self.fields = manifest
        self.restarting = restartings_in(spec)
        self.containers = {each["name"]: Container(each, self.restarting[each["name"]].is_sidecar)
                           for each in (spec.get("initContainers") or []) + spec["containers"]}
        self.usage: dict[str, Any] = {}
        self.is_unsampled = False
        self.is_deleting = False
        # the statuses of its readiness gates' conditions
        self.conditions: dict[str, bool] = {}
        # the requests and limits of containers after a resize
        self.resized: dict[str, Any] = {}
        # members that the formats do not read: what is known of its deletion, its readiness gates as the standard
        # format has them, and since when its condition Ready has its value
        self.deletion: dict[str, Any] | None = None
        self.turn: dict[str, Any] | None = None
        self.gates: dict[str, bool] | None = None
        # for what the node has ended it
        self.failed: str | None = None
        self.waiting: dict[str, Any] = {}
        self.decisions: list[Any] = []
        # what the newest tick has of it
        self.newest: Any = None

    def take(self, entry: Any, second: int) -> None:
        """What a tick has of it. The same again changes nothing, but for results of probes."""
        if entry == self.newest and not entry.get("probes"):
            return
        self.newest = entry
        listed = {each["name"]: each for each in entry.get("containers") or []}
        for name, container in self.containers.items():
            container.show(listed.get(name), second)
        for each in entry.get("probes") or []:
            self.containers[each["container"]].take(each["probe"], each["result"], second)
        for container in self.containers.values():
            container.end_tick()
        if entry.get("usage"):
            self.usage, self.is_unsampled = {**self.usage, **entry["usage"]}, False
        elif entry.get("unsampled"):
            self.usage, self.is_unsampled = {}, True
        self.is_deleting = self.is_deleting or entry.get("deleting") is True
        self.failed = self.failed or entry.get("failed")
        self.deletion = self.deletion or entry.get("deletion")
        self.conditions |= entry.get("conditions") or {}
        self.resized |= without_nones(entry.get("resized") or {})
        self.gates = entry.get("readinessGates") or self.gates
        self.turn = (entry.get("readyTurns") or [self.turn])[-1]
        # a message is in the first tick alone
        before, self.waiting = self.waiting, {}
        for each in entry.get("waiting") or []:
            known = before.get(each["container"], {})
            self.waiting[each["container"]] = known | each if known.get("reason") == each.get("reason") else each

    def are_gates_true(self) -> bool:
        """Whether the conditions of all its readiness gates are True."""
        of_manifest = types_in(self.fields)
        return all(self.conditions.get(name, False) for name in of_manifest) and all((self.gates or {}).values())

    def manifest(self) -> dict[str, dict[str, Any]]:
        spec = self.fields["spec"]
        made = {name: [self.containers[each["name"]].manifest() for each in spec[name]]
                for name in ("initContainers", "containers") if spec.get(name)}
        return {**self.fields, "spec": {**spec, **made}}

    def newest_resources(self) -> dict[str, Any]:
        """The requests and limits of the containers that have others than the pod's line. The line stays as it is: by
        it the pod has its class, which a resize never changes."""
        return {name: resources for name, resources in self.resized.items() if name in self.containers
                and amounts_in(resources) != amounts_in(self.containers[name].fields.get("resources") or {})}

    def entry(self, second: int, back: int) -> dict[str, Any] | None:
        """Its entry of a tick that comes so many before the rotation: usage, and why it waits, are in the entry of the
        rotation alone; that it is being deleted, or was ended, its gates' conditions and its resizes are in each."""
        listings = [each.listed(second, back) for _, each in sorted(self.containers.items())]
        containers = [listing for listing in listings if listing is not None]
        rows = [(name, each.carried()) for name, each in self.containers.items()]
        probes = [{"container": name, "probe": probe, "result": result} for name, carried in rows
                  if len(carried) > back for probe, result in carried[-1 - back].items()]
        said: dict[str, Any] = {"probes": probes or None, "deleting": self.is_deleting or None,
                                "deletion": self.deletion, "failed": self.failed,
                                "conditions": self.conditions or None, "resized": self.newest_resources() or None,
                                "readinessGates": self.gates}
        if back == 0:
            said |= {"usage": self.usage or None, "unsampled": self.is_unsampled or None,
                     "waiting": list(self.waiting.values()) or None,
                     "readyTurns": None if self.turn is None else [self.turn]}
        if not containers and not any(said.values()):
            return None
        return without_nones({"pod": self.key, "containers": containers, **said})


class Standing:
    """What the lines so far show of the node, and of the pods that are there."""

    def __init__(self) -> None:
        # the node line
        self.node: dict[str, Any] = {}
        self.pods: dict[str, Pod] = {}
        self.signals: dict[str, Any] = {}
        # what the last tick shows that the kubelet did to pods that are left out
        self.left_out: list[Any] = []
        # the second of the last tick, whether it is a sync tick, and whether any is reported to be none
        self.at: int | None = None
        self.judged: bool | None = None
        self.node_ready: dict[str, Any] | None = None
        self.tells_rounds = False

    def take(self, record: dict[str, Any]) -> None:
        """A line that is written, or would be where there was room."""
        kind = record["kind"]
        if kind == "node":
            self.node = record
        elif kind == "pod":
            pod = Pod(record["pod"], record.get("uid"), record.get("spared") is True, "guessed" in record)
            self.pods[pod.key] = pod
        elif kind == "gone":
            self.pods.pop(record["pod"], None)
        else:
            self.take_tick(record)

    def take_tick(self, tick: dict[str, Any]) -> None:
        second: int = tick["at"]
        self.at, self.signals, self.left_out = second, tick.get("signals") or {}, []
        self.judged, self.node_ready = tick.get("judged"), tick.get("nodeReady")
        self.tells_rounds = self.tells_rounds or self.judged is False
        entries = {entry["pod"]: entry for entry in tick["pods"]}
        for key, pod in self.pods.items():
            entry = entries.get(key, NOTHING)
            if entry is not pod.newest or "probes" in entry:
                pod.take(entry, second)
        for kind, decisions in (tick.get("kubelet") or {}).items():
            for decision in decisions:
                if decision.get("leftOut"):
                    self.left_out.append((kind, decision))
                elif decision["pod"] in self.pods:
                    self.pods[decision["pod"]].decisions.append((kind, decision))

    def assume(self, probed: dict[str, dict[str, tuple[None, bool, bool]]]) -> bool:
        """Takes what the statuses of the pods report at the first tick, {key: {container: (restarts, started, ready)}};
        whether that is more than the tick shows."""
        second = self.at or 0
        for pod in self.pods.values():
            pod.newest = None
        return any([container.assume(*probed[key][name], second) for key, pod in self.pods.items()
                    for name, container in pod.containers.items() if name in probed.get(key, {})])

    def beginning(self, second: int, follows: dict[str, Any] | None) -> Iterator[str]:
        """The lines that a trace begins with at a rotation, or at the first tick of all: its node and pods, and the
        ticks that show what is known, the last of which is the tick of the rotation. It has one, but where what probes
        have shown needs more."""
        containers = [each for pod in self.pods.values() for each in pod.containers.values()]
        for container in containers:
            container.go_over()
        count = max([1, *(len(container.carried()) for container in containers)])
        yield line_of(without_nones({**self.node, "follows": follows}))
        for pod in self.pods.values():
            yield line_of(pod_fields(pod.uid, pod.manifest(), pod.is_spared, pod.is_guessed))
        # of a pod without a line it is reported once
        did = [each for pod in self.pods.values() for each in pod.decisions] + ([] if follows else self.left_out)
        for back in reversed(range(count)):
            # the kubelet has evaluated what is known before
            judged = False if (follows or back) and self.tells_rounds else self.judged
            yield self.tick(second - back, back, did, judged)

    def tick(self, second: int, back: int, did: list[Any], judged: bool | None) -> str:
        """One of the ticks that show what is known; signals, and what the kubelet did, are in the tick of the rotation.
        """
        entries = [pod.entry(second, back) for pod in self.pods.values()]
        told: dict[str, Any] = {}
        for kind, decision in did if back == 0 else ():
            told.setdefault(kind, []).append(decision)
        return line_of(without_nones({
            "kind": "tick", "at": second, "judged": judged, "pods": [entry for entry in entries if entry is not None],
            "signals": self.signals if back == 0 else {}, "kubelet": told or None, "nodeReady": self.node_ready}))
