"""What the containers of a pod used over time, as flat lists for a page; `used.js` draws it."""

from __future__ import annotations

from collections.abc import Sequence
from typing import Any, TYPE_CHECKING

if TYPE_CHECKING:
    from replay_tools import traces, why
    from replay_tools.fields import Bounds
    from replay_tools.page.data import Budget, Span
    from replay_tools.pods import Container

# a page has so many samples
MOST_SAMPLES = 200000
# of one sample: moment, attempt, memory, processor time, and where the trace has it for how long that was throttled
COLUMNS = 5


def used_of(span: Span, pod: traces.Pod, ticks: why.PodTicks, budget: Budget) -> dict[str, Any]:
    """For each container what it used, or None; nothing of a pod of which no trace has it."""
    found = []
    for container in pod.containers:
        resizes, used = ticks.trace.resizes.of_container(pod.number, container.name), ticks.used[container.name]
        changes = [(resize.at, resize.container.bounds) for resize in resizes] or used.changes
        found.append(of_container(span, pod, container, used, changes, budget))
    return {"used": found} if any(found) else {}


def of_container(span: Span, pod: traces.Pod, container: Container, used: why.UseOverTime,
                 changes: Sequence[tuple[int, Bounds | None]], budget: Budget) -> dict[str, Any] | None:
    """What a container used, and its bounds from moments on: None means the manifest's bounds."""
    if not used.uses or not budget.takes(len(used.uses)):
        return None
    columns = COLUMNS if any(use.throttled is not None for use in used.uses) else COLUMNS - 1
    return {"columns": columns, "uses": uses_of(span, used.uses, columns),
            "bounds": [[span.of(at), *bounds_of(pod, container.bounds if bounds is None else bounds)]
                       for at, bounds in [(None, None), *changes]]}


def uses_of(span: Span, uses: list[why.Use], columns: int) -> list[int | None]:
    """So many columns of each sample, the first of which is the difference of its moment from the one before."""
    flat: list[int | None] = []
    before = span.first
    for use in uses:
        flat += [use.at - before, use.attempt, use.memory, use.cpu, use.throttled][:columns]
        before = use.at
    return flat


def bounds_of(pod: traces.Pod, bounds: Bounds) -> list[float | bool | None]:
    """Request and limit of memory in bytes, of the processor in thousandths of a core, and whether the limit of memory
    is the whole pod's."""
    is_pods = bounds.memory_limit is None and pod.memory_limit is not None
    limit = pod.memory_limit if is_pods else bounds.memory_limit
    memory = [None if amount is None else amount // 1000 for amount in (bounds.memory_request, limit)]
    return [*memory, bounds.cpu_request, bounds.cpu_limit, is_pods]
