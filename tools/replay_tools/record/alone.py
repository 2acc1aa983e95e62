"""What the runtime alone shows of a node, in place of a kubelet's answers: its pods by the labels of their containers.
It has no manifest, no probe, no signal and no thresholds."""

from __future__ import annotations

import json
import time
from typing import Any, Optional, TYPE_CHECKING

from .answers import read_parts
from .sources import Failed, reads

if TYPE_CHECKING:
    from .answers import Answer

# the value of --kubelet if no kubelet is asked
ALONE = "none"
ANSWERS = {"metrics/probes": "", "stats/summary": '{"node": {}}', "configz": '{"kubeletconfig": {}}'}
# containers of a pod come one after the other: it is listed once none has come for so long
SETTLED_SECONDS = 20
LABEL = "io.kubernetes."


@reads("crictl ps")
def containers_of(text: Answer) -> list[tuple[int, tuple[str, str, str], str]]:
    """The containers of a list, in the order of their creation, each with its pod's uid, namespace and name."""
    answer = read_parts(text, "crictl ps", "containers", container_of)
    if not isinstance(answer, dict) or not isinstance(answer.get("containers"), list):
        raise Failed("crictl ps: no list of containers in the answer")
    return sorted(filter(None, answer["containers"]))


def container_of(item: Any) -> Optional[tuple[int, tuple[str, str, str], str]]:
    """A container that a kubelet has made, or None."""
    labels = item.get("labels") or {}
    found = (labels.get(f"{LABEL}{each}") for each in ("pod.uid", "pod.namespace", "pod.name", "container.name"))
    named = [each for each in found if isinstance(each, str) and each]
    if len(named) != 4:
        return None
    uid, namespace, pod, name = named
    return int(item.get("createdAt") or 0), (uid, namespace, pod), name


class RuntimeAlone:
    """Makes a list of pods of the runtime's list of containers. A pod that comes later than the first list is there
    once no container of it has come for some seconds; what comes after that is no part of its manifest."""

    answers = ANSWERS

    def __init__(self) -> None:
        # the pods' containers in the order in which they came, and when the last of a pod came
        self.names: dict[tuple[str, str, str], list[str]] = {}
        self.came_at: dict[tuple[str, str, str], float] = {}
        self.settled: set[tuple[str, str, str]] = set()
        self.is_first = True

    def pods(self, text: Answer) -> str:
        """A list of pods as a kubelet has it, of an answer of `crictl ps`."""
        now, there = time.monotonic(), set()
        for _, pod, name in containers_of(text):
            there.add(pod)
            names = self.names.setdefault(pod, [])
            if name not in names and pod not in self.settled:
                names.append(name)
                self.came_at[pod] = now
        self.names = {pod: names for pod, names in self.names.items() if pod in there}
        self.settled = {pod for pod in there
                        if pod in self.settled or self.is_first or now - self.came_at[pod] >= SETTLED_SECONDS}
        self.is_first = False
        return json.dumps({"items": [{
            "guessed": ["manifest"], "metadata": {"uid": uid, "namespace": namespace, "name": name},
            "spec": {"containers": [{"name": container} for container in self.names[uid, namespace, name]]}}
            for uid, namespace, name in sorted(self.settled)]})
