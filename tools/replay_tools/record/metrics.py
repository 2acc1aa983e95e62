"""What a recorder has seen of its node since it began, as OpenMetrics text in a file that a node exporter reads. It is
made of the lines that are written, by what is known at a rotation between traces. What only rises is a counter, which
begins at 0 again with the recorder; all else is a gauge."""

from __future__ import annotations

import contextlib
import json
import os
from collections import Counter
from collections.abc import Callable, Iterator
from typing import Any, TYPE_CHECKING

from replay_tools.restarting import Restarting

from .folder import why
from .near import Nearness
from .part import created
from .runtime import EXITED
from .standing import Container, Pod, Standing

if TYPE_CHECKING:
    from collections.abc import Iterable

PREFIX = "kubelet_recorder_"
FIRST = f"# TYPE {PREFIX}last_tick_seconds gauge\n"
CONDITIONS = {"memory": "MemoryPressure", "nodefs": "DiskPressure", "imagefs": "DiskPressure", "pid": "PIDPressure"}
# each file's families: name, unit, what it is
FAMILIES = (
    ("last_tick_seconds", "seconds", "the moment of the newest tick that is written"),
    ("restarts", "", "instances of a container that came after another one"),
    ("deaths", "", "instances of a container that exited, by reason and code"),
    ("kills", "", "kills that the failures of a probe order"),
    ("ready", "", "whether a pod is ready, by what the runtime and its probes show"),
    ("unready_seconds", "seconds", "the seconds in which a pod that has not ended was not ready"),
    ("evictions", "", "pods that the kubelet evicted"),
    ("ended", "", "pods that the node has ended, by reason"),
    ("pressure", "", "whether a signal of the condition is below a threshold in the newest sample"),
    ("available", "", "the newest sample of a signal"),
)

# these only rise while a recorder runs
COUNTERS = ("restarts", "deaths", "kills", "unready_seconds", "evictions", "ended")

Labels = tuple[tuple[str, str], ...]


class Metrics:
    """Counts what the lines show, and writes that into a file; `say` takes what is reported where it can't."""

    def __init__(self, path: str, say: Callable[..., None]) -> None:
        self.path = path
        self.say = say
        self.standing = Standing()
        self.near = Nearness()
        self.counts: dict[str, Counter[Labels]] = {name: Counter() for name, _, _ in FAMILIES}
        self.before: dict[tuple[str, str], tuple[int | None, bool]] = {}
        self.killed: set[tuple[str, str, str, int]] = set()
        self.is_first = True
        # whether it is known whom the kubelet evicts
        self.has_kubelet = False

    def take(self, lines: Iterable[str]) -> None:
        """Lines that are written."""
        for record in map(json.loads, lines):
            since = self.standing.at
            unready = [key for key, pod in self.standing.pods.items() if not has_ended(pod) and not is_ready(pod)]
            self.standing.take(record)
            if record["kind"] == "node":
                self.near.know(record)
                self.has_kubelet = record.get("recordsKubelet") is True
            elif record["kind"] == "gone":
                self.forget(record["pod"])
            elif record["kind"] == "tick":
                self.take_tick(record, {} if since is None else dict.fromkeys(unready, record["at"] - since))

    def assume(self, probed: dict[str, Any]) -> None:
        """Takes what the pods' statuses report at the first tick."""
        self.standing.assume(probed)

    def take_tick(self, tick: dict[str, Any], unready: dict[str, int]) -> None:
        for key, seconds in unready.items():
            self.counts["unready_seconds"][of_pod(key)] += seconds
        ended = {(entry["pod"], each["name"]): each["ended"] for entry in tick["pods"] for each in entry["containers"]
                 if "ended" in each}
        for key, pod in self.standing.pods.items():
            for name, container in pod.containers.items():
                self.take_container(key, name, container, ended.get((key, name)) or container.previous)
        self.is_first = False
        for each in (tick.get("kubelet") or {}).get("evicted", []):
            self.counts["evictions"][()] += 1 if each.get("at", tick["at"]) <= tick["at"] else 0
        for entry in tick["pods"]:
            if "failed" in entry:
                self.counts["ended"][("reason", entry["failed"]),] += 1

    def take_container(self, key: str, name: str, container: Container, ended: dict[str, Any] | None) -> None:
        """What has become of a container since the tick before: another instance, after one that ended so, an exit, a
        kill that is ordered."""
        listing = container.listing
        if listing is None:
            return
        labels, now = (*of_pod(key), ("container", name)), (listing["attempt"], listing["state"] == EXITED)
        # what had exited before the recording is no news
        attempt, had_exited = self.before.get((key, name), (now[0], now[1] and self.is_first))
        self.before[key, name] = now
        if now[0] != attempt:
            self.counts["restarts"][labels] += 1
            if not had_exited and ended is not None:
                self.count_death(labels, ended)
            had_exited = False
        if now[1] and not had_exited:
            self.count_death(labels, listing)
        for probe, run in container.runs.items():
            if run.is_over and (key, name, probe, now[0]) not in self.killed:
                self.killed.add((key, name, probe, now[0]))
                self.counts["kills"][(*labels, ("probe", probe))] += 1

    def count_death(self, labels: Labels, listing: dict[str, Any]) -> None:
        said = ("reason", listing.get("reason", "")), ("code", str(listing["exitCode"]))
        self.counts["deaths"][(*labels, *said)] += 1

    def forget(self, key: str) -> None:
        """A pod has gone: it has no series any more."""
        for counts in self.counts.values():
            for labels in [labels for labels in counts if labels[:2] == of_pod(key)]:
                del counts[labels]
        self.before = {place: now for place, now in self.before.items() if place[0] != key}
        self.killed = {place for place in self.killed if place[0] != key}

    # --- what is written ---

    def now(self) -> dict[str, dict[Labels, float]]:
        """The present state, and counts that begin at 0: what has its first value as something happens has not risen,
        for who asks by how much."""
        signals = self.standing.signals
        below = self.near.below(signals)
        # nothing is known of a condition of which no signal was sampled
        pressed = dict.fromkeys(sorted({CONDITIONS[each.split(".")[0]] for each in signals}), 0)
        pressed |= {CONDITIONS[each.split(".")[0]]: 1 for each in below}
        restarts, evictions = self.counts["restarts"], self.counts["evictions"]
        containers = [(*of_pod(key), ("container", name))
                      for key, pod in self.standing.pods.items() for name in pod.containers]
        return {"last_tick_seconds": {(): self.standing.at or 0},
                "restarts": {labels: restarts[labels] for labels in containers},
                "evictions": {(): evictions[()]} if self.has_kubelet else {},
                "ready": {of_pod(key): int(is_ready(pod)) for key, pod in self.standing.pods.items()},
                "pressure": {(("condition", name),): value for name, value in pressed.items()},
                "available": {(("signal", name),): value for name, value in signals.items()}}

    def text(self) -> str:
        return "".join(f"{line}\n" for line in [*self.lines(), "# EOF"])

    def lines(self) -> Iterator[str]:
        now = self.now()
        for name, unit, says in FAMILIES:
            whole, is_counter = PREFIX + name, name in COUNTERS
            sample = f"{whole}_total" if is_counter else whole
            yield f"# TYPE {whole} {'counter' if is_counter else 'gauge'}"
            yield from [f"# UNIT {whole} {unit}"] if unit else []
            yield f"# HELP {whole} {says}"
            for labels, value in sorted(now.get(name, self.counts[name]).items()):
                told = ",".join(f'{label}="{escaped(of)}"' for label, of in labels)
                yield f"{sample}{{{told}}} {value}" if told else f"{sample} {value}"

    def write(self) -> None:
        """Replaces the file as a whole, since it may be read at any time."""
        temporary = f"{self.path}.{os.getpid()}"
        try:
            with contextlib.suppress(FileNotFoundError):
                os.unlink(temporary)
            with os.fdopen(created(temporary), "w", encoding="utf-8") as file:
                file.write(self.text())
                os.fchmod(file.fileno(), 0o644)
            os.replace(temporary, self.path)
        except OSError as error:
            self.say(f"--metrics: '{self.path}' can't be written: {why(error)}", "metrics")


def of_pod(key: str) -> Labels:
    namespace, _, name = key.partition("/")
    return ("namespace", namespace), ("pod", name)


def escaped(value: str) -> str:
    return value.replace("\\", "\\\\").replace("\n", "\\n").replace('"', '\\"')


def lasting(pod: Pod) -> list[Container]:
    """The containers of a pod that run as long as it does."""
    inits = {each["name"] for each in pod.fields["spec"].get("initContainers") or []}
    return [each for name, each in pod.containers.items() if name not in inits or each.is_sidecar]


def is_ready(pod: Pod) -> bool:
    """Whether all its containers run and have passed their probes, and its readiness gates are true."""
    return all(map(is_container_ready, lasting(pod))) and pod.are_gates_true() and pod.failed is None


def is_container_ready(container: Container) -> bool:
    return container.is_running() and all(container.runs[probe].holds for probe in ("startup", "readiness")
                                          if probe in container.runs)


def has_ended(pod: Pod) -> bool:
    """Whether it was ended, or its containers have exited, and none of them is started again. A sidecar goes by the
    pod's policy here."""
    if pod.failed is not None:
        return True
    decides = {name: Restarting(each.of_pod) if each.is_sidecar else each for name, each in pod.restarting.items()}
    return all(each.listing is not None and each.listing["state"] == EXITED
               and not decides[each.name].wants(each.listing["exitCode"]) for each in lasting(pod))


def fault_of(path: str) -> str | None:
    """Why a file can't be what is written, or None: another one than the recorder's own is not replaced."""
    folder = os.path.dirname(os.path.abspath(path))
    if not os.access(folder, os.W_OK | os.X_OK):
        return f"'{folder}' is no folder that can be written"
    if not os.path.lexists(path):
        return None
    is_ours = False
    if os.path.isfile(path) and not os.path.islink(path):
        with contextlib.suppress(OSError, ValueError), open(path, encoding="utf-8") as file:
            is_ours = file.read(len(FIRST)) in (FIRST, "")
    return None if is_ours else f"'{path}' is there and has no metrics of kubelet-replay record"
