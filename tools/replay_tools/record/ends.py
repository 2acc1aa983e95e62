"""When the node has ended a pod: a kubelet 1.20 shows it as it begins to stop the containers, later ones once they have
stopped. So the end is with the first of the exits that it may have led to, and what is after such an exit waits for a
list of pods that shows whether it has."""

from __future__ import annotations

from typing import TYPE_CHECKING

from .runtime import EXITED
from .seen import PATIENCE

if TYPE_CHECKING:
    from collections.abc import Iterable

    from .seen import Recorded
    from .ticks import Ticks


def open_exits(recorded: Recorded) -> dict[str, float]:
    """The moments of the exits after which a pod's policy needs a start, and neither one has come nor has the pod's
    status showed that the container waits for one: {container: moment}. The kubelet does not go on there, or not yet.
    """
    newest = {name: container.newest for name, container in recorded.containers.items()}
    return {name: each.finished for name, each in newest.items()
            if each is not None and each.state == EXITED and each.finished is not None
            and wants_start(recorded, name) and recorded.waited.get(name) != each.attempt}


def wants_start(recorded: Recorded, name: str) -> bool:
    """Whether the pod's policy needs a start after the exit of a container's newest instance."""
    newest = recorded.containers[name].newest
    return newest is not None and newest.exit_code is not None and recorded.pod.is_restarted(name, newest.exit_code)


def second_of_end(recorded: Recorded, timeline: Ticks) -> int:
    """The second in which the node has ended a pod: the second of its eviction; else of the first exit that the end led
    to, if that is before it was seen. Where none of them needs a start it is the last one, if all have exited."""
    if recorded.evicted_at is not None:
        return recorded.evicted_at
    seconds = [timeline.listed_in(recorded.pod, name) for name in open_exits(recorded)]
    newest = [container.newest for container in recorded.containers.values()]
    if newest and all(each is not None and each.state == EXITED for each in newest) \
            and not any(wants_start(recorded, name) for name in recorded.containers):
        seconds = [max(timeline.listed_in(recorded.pod, name) or 0 for name in recorded.containers)]
    return max(recorded.arrived, min([int(recorded.ended_at), *(each for each in seconds if each is not None)]))


def settled_before(followed: Iterable[Recorded], with_status: set[str], listed_at: float, moment: float) -> int:
    """The second from which on a list of pods may yet show that a pod is being deleted, or was ended: the second of the
    newest list, of the first that lacks a pod, or of an exit after which nothing has shown so far that the kubelet goes
    on. None waits for longer than for a silent source."""
    followed = list(followed)
    absent = [recorded.absent_since for recorded in followed
              if recorded.absent_since is not None and not recorded.is_deleting]
    exits = [exit_at for recorded in followed
             if recorded.pod.uid in with_status and not recorded.is_deleting and not recorded.is_end_placed
             for exit_at in open_exits(recorded).values() if moment - exit_at <= PATIENCE]
    return max(int(min([listed_at, *absent, *exits])), int(moment) - PATIENCE)
