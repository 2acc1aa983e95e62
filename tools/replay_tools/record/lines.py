"""The lines of a trace, in one of its formats."""

from __future__ import annotations

from collections.abc import Sequence
from dataclasses import dataclass, replace
from typing import Any, Optional, TYPE_CHECKING

from .formats import LONGEST_LINE, shown, without_nones
from .restarts import INITS, ROLES, without_own
from .runtime import CREATED, RUNNING, UNKNOWN

if TYPE_CHECKING:
    from .asides import Asides
    from .decisions import Told
    from .events import Said
    from .pods import Pod
    from .runtime import Listing
    from .statuses import ReadyTurn


class TooLong(Exception):
    """A line is longer than the formats take."""


@dataclass(frozen=True)
class Format:
    """A version of the formats: whether it shows that a pod goes, has gone, was ended or has no sample, and for how
    many seconds no pod is evicted after an eviction unless the evicted one has ended (None if it can't show that); and
    whether the rules are to evict pods by themselves, or end those alone that the node has ended."""
    version: int
    says_gone: bool
    eviction_pause: Optional[int]
    is_simulated: bool = True


STANDARD = Format(2, False, None)
# a tick has at most so many Events of a pod
MOST_EVENTS = 20
# so long a kubelet waits at most for the pod that it evicted
EVICTION_PAUSE = 30


def extended(eviction_pause: int = EVICTION_PAUSE, is_simulated: bool = False) -> Format:
    return Format(3, True, eviction_pause, is_simulated)


# the format without an option; extended() where the program reads that
DEFAULT = STANDARD


def line_of(fields: dict[str, Any]) -> str:
    return line_of_text(shown(fields))


def line_of_text(text: str) -> str:
    """A line, which is not longer than the formats take."""
    if len(text.encode()) > LONGEST_LINE:
        raise TooLong("a line would be longer than the formats take")
    return text


def pod_line(pod: Pod, is_extended: bool = True) -> str:
    """The line of a pod. In the standard format it has neither that the pod is exempt, nor its readiness gates, nor
    policies and rules of containers that are no sidecars."""
    manifest = pod.manifest if is_extended else standard(pod.manifest)
    return line_of(pod_fields(pod.known_uid(), manifest, is_extended and pod.is_spared, pod.is_guessed))


def without_gates(manifest: dict[str, Any]) -> dict[str, Any]:
    spec = {name: value for name, value in manifest["spec"].items() if name != "readinessGates"}
    return {**manifest, "spec": spec}


def standard(manifest: dict[str, Any]) -> dict[str, Any]:
    """A manifest as the standard format takes it."""
    found = without_gates(manifest)
    spec = {name: [without_own(each, name == INITS) for each in value] if name in ROLES else value
            for name, value in found["spec"].items()}
    return {**found, "spec": spec}


def pod_fields(uid: str | None, manifest: dict[str, Any], is_spared: bool = False,
               is_guessed: bool = False) -> dict[str, Any]:
    """The line of a pod, with its uid, which the formats don't read, where it is known, whether it is exempt, and
    whether its manifest is made up."""
    return without_nones({"kind": "pod", "uid": uid, "pod": manifest, "spared": is_spared or None,
                          "guessed": ["manifest"] if is_guessed else None})


def gone_line(pod: Pod) -> str:
    return line_of({"kind": "gone", "pod": pod.key})


def unknown(listing: Listing) -> Listing:
    """A listing of what might have changed since."""
    return replace(listing, state=UNKNOWN) if listing.state in (CREATED, RUNNING) else listing


def container_fields(name: str, listing: Listing) -> dict[str, int | str]:
    """What a tick lists of a container."""
    return without_nones({"name": name, "attempt": listing.attempt, "state": listing.state,
                          "exitCode": listing.exit_code})


def entry_of(pod: Pod, listings: dict[str, Listing], results: dict[tuple[str, str], str], usage: dict[str, int] | None,
             is_unsampled: bool, deletion: dict[str, Any] | None, asides: Asides,
             failed: str | None = None, events: Sequence[Said] = (), turns: Sequence[ReadyTurn] = (),
             conditions: dict[str, bool] | None = None,
             resized: dict[str, Any] | None = None) -> dict[str, Any] | None:
    """One pod's entry of a tick: {container: listing}, {(container, probe): result}, its usage or None, and whether it
    has no sample from here on. It also takes what is known of its deletion from here on, what else is known, for what
    the node has ended it here, its Events, the turns of its condition Ready, the statuses of its gates' conditions, and
    the requests and limits of containers after a resize. None if there is nothing to write."""
    containers = [container_fields(name, listing) | asides.of_container(pod, name)
                  | asides.of_listing(pod.uid, name, listing) for name, listing in sorted(listings.items())]
    probes = [{"container": name, "probe": probe, "result": results[name, probe]}
              for name in pod.containers() for probe in ("startup", "liveness", "readiness")
              if (name, probe) in results]
    waiting = asides.of_waits(pod, listings)
    said = without_nones({"probes": probes or None, "usage": usage or None, "unsampled": is_unsampled or None,
                          "deleting": None if deletion is None else True, "deletion": deletion or None,
                          "failed": failed, "conditions": conditions or None, "resized": resized or None,
                          "readinessGates": asides.of_gates(pod.uid), "waiting": waiting,
                          "readyTurns": [each.told() for each in turns[-MOST_EVENTS:]] or None,
                          "said": [each.told() for each in events[:MOST_EVENTS]] or None})
    return {"pod": pod.key, "containers": containers, **said} if containers or said else None


def told(decisions: Sequence[Told]) -> dict[str, list[dict[str, Any]]] | None:
    """The decisions of the kubelet in a tick, which the formats don't read: {"evicted", "refused" or "ended": [..]}; or
    None."""
    found: dict[str, list[dict[str, Any]]] = {}
    for each in decisions:
        found.setdefault(each.decision.kind, []).append(each.fields())
    return found or None


def tick_line(second: int, entries: list[dict[str, Any]], signals: dict[str, int],
              kubelet: dict[str, list[dict[str, Any]]] | None = None, is_judged: bool = True,
              node_ready: dict[str, Any] | None = None, started: int | None = None) -> str:
    return line_of(without_nones({"kind": "tick", "at": second, "judged": None if is_judged else False, "pods": entries,
                                  "signals": signals, "kubelet": kubelet, "nodeReady": node_ready,
                                  "kubeletStartedAt": started}))
