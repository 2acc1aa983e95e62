"""A pod over several parts: what a part shows of it that the ones before have not reported."""

from __future__ import annotations

from dataclasses import dataclass, replace
from typing import TYPE_CHECKING

from replay_tools import report as reports, why

if TYPE_CHECKING:
    from replay_tools.joined import parts

# words of events that are of an instance, with its attempt
OF_INSTANCE = ("started", "died", "startup-passed", "kill", "restart")


@dataclass
class Seen:
    """What a part has reported of a container so far."""

    is_other: bool = False
    """of a later instance than the newest of the part before"""
    has_readiness: bool = False
    died: str | None = None
    """the attempt that died last"""


def begun(pod: reports.Pod, number: int) -> reports.Pod:
    """A pod of a part as the first of a joined one, with a number of its own and no event."""
    return reports.Pod(number, pod.key, pod.phase, pod.reason, pod.qos, [each.copied() for each in pod.conditions],
                       [each.copied() for each in pod.containers])


def is_same(pod: reports.Pod, found: reports.Pod, is_behind_gap: bool) -> bool:
    """Whether a pod of the next part can be the one that was there at the end of the one before: by its name and
    containers, and over a gap no attempt is lower."""
    names = [[container.name for container in each.containers] for each in (pod, found)]
    if names[0] != names[1]:
        return False
    return not is_behind_gap or all(int(after.restarts) >= int(before.restarts)
                                    for before, after in zip(pod.containers, found.containers))


def go_on(pod: reports.Pod, found: reports.Pod, border: reports.Border, part: parts.Part) -> list[reports.Event]:
    """The pod goes on with what the next part has of it: gives its events that are news."""
    until = part.known_until
    if stays_ended(pod, found, until):
        return []
    news = news_of(pod, found, border, part)
    is_told = ready_is_told(pod) and ready_is_told(found)
    if pod.reason == "Evicted":
        pod.anew = len(pod.events)
        for event in news:
            event.anew = border.at if event.word == "phase" and event.at == border.at else None
    pod.events += news
    pod.events.sort(key=lambda event: event.at)
    mark_anew(pod, found, news, border)
    if border.is_gap and part.follows is None:
        mark_results(news, border)
    before = pod.conditions
    pod.phase, pod.reason = found.phase, found.reason
    pod.containers = [each.copied() for each in found.containers]
    pod.conditions = [each.copied() for each in found.conditions]
    tell_conditions(pod, before, border, until)
    if is_told:
        tell_ready(pod)
    return news


def stays_ended(pod: reports.Pod, found: reports.Pod, until: int) -> bool:
    """Whether a pod that the rules evicted before shows nothing more than that it goes."""
    return pod.reason == "Evicted" and not any(event.word in ("started", "ready") and event.at > until
                                               for event in found.events) \
        and not any(container.state == "Running" for container in found.containers)


# --- events ---


def news_of(pod: reports.Pod, found: reports.Pod, border: reports.Border, part: parts.Part) -> list[reports.Event]:
    """The events of a part's pod that show more than what the pod had come to, each of them with its number, and after
    the rotation."""
    until = part.known_until
    before = {container.name: container for container in pod.containers}
    seen = {name: Seen() for name in before}
    told = {(event.container, event.word, event.rest[0]) for event in pod.events if event.word in OF_INSTANCE}
    backed = backed_off(pod)
    shown = set(map(id, phases_known(pod, found, until)))
    news, at_border = [], readiness_of(pod, found, border, part, seen) + phase_lost(pod, found, border, until)
    for event in found.events:
        if event.word in ("ready", "unready") and event.at <= part.shown_until:
            is_news = False
        elif event.word == "phase":
            is_news = id(event) not in shown
        elif event.container is None:
            is_news = True
        else:
            is_news = not is_known(event, before[event.container], seen[event.container], told, backed)
        if is_news:
            at = border.at if event.at <= part.shown_until and border.is_gap else max(event.at, border.at)
            news.append(replace(event, at=at, number=pod.number))
    return sorted(news + at_border, key=lambda event: event.at)


def is_known(event: reports.Event, before: reports.Container, seen: Seen, told: set[tuple[str | None, str, str]],
             backed: set[tuple[str, str | None]]) -> bool:
    """Whether an event of a container shows what it had come to before the rotation."""
    if event.word in ("ready", "unready"):
        is_first, seen.has_readiness = not seen.has_readiness, True
        return is_first and event.word == "ready" and before.ready == "true" and not seen.is_other
    if event.word == "backoff":
        return (event.name, seen.died) in backed
    attempt, newest = int(event.rest[0]), int(before.restarts)
    is_earlier, is_newest = attempt < newest, attempt == newest
    if event.word == "started":
        has_come = is_earlier or is_newest and before.state != "Waiting"
        seen.is_other = seen.is_other or not has_come
        return has_come
    if event.word == "died":
        seen.died = event.rest[0]
        return is_earlier or is_newest and before.state == "Terminated"
    if event.word == "startup-passed":
        return is_earlier or is_newest and (before.started == "true" or before.state == "Terminated")
    return is_earlier or (event.container, event.word, event.rest[0]) in told


def backed_off(pod: reports.Pod) -> set[tuple[str, str | None]]:
    """The exits, by container and attempt, whose restarts were backed off."""
    died, found = {}, set()
    for event in pod.events:
        if event.word == "died":
            died[event.name] = event.rest[0]
        elif event.word == "backoff":
            found.add((event.name, died.get(event.name)))
    return found


def phases_known(pod: reports.Pod, found: reports.Pod, until: int) -> list[reports.Event]:
    """The changes of phase that lead to the one that the pod had."""
    changes = [event for event in found.events if event.word == "phase" and event.at <= until]
    same = [place for place, event in enumerate(changes) if event.rest[0] == pod.phase]
    return changes[: same[-1] + 1] if same else []


def readiness_of(pod: reports.Pod, found: reports.Pod, border: reports.Border, part: parts.Part,
                 seen: dict[str, Seen]) -> list[reports.Event]:
    """That a container is ready at a rotation, or after a gap is not, where it was otherwise before it. Without a gap
    it stays ready, though a part that can't show as many results as its probe needs shows it later."""
    news = []
    for before in pod.containers:
        told = [event.word for event in found.events if event.word in ("ready", "unready")
                and event.container == before.name and event.at <= part.shown_until]
        is_ready, was_ready = told[-1:] == ["ready"], before.ready == "true"
        if is_ready != was_ready and (is_ready or border.is_gap and part.trace is not None):
            word = "ready" if is_ready else "unready"
            news.append(reports.Event(border.at, pod.key, before.name, word, [], pod.number))
        seen[before.name].has_readiness = is_ready or border.is_gap and part.trace is not None
    return news


def phase_lost(pod: reports.Pod, found: reports.Pod, border: reports.Border, until: int) -> list[reports.Event]:
    """That the pod is pending again, where a part shows no other phase at its begin."""
    changes = [event for event in found.events if event.word == "phase" and event.at <= until]
    if changes or pod.phase == "Pending":
        return []
    return [reports.Event(border.at, pod.key, None, "phase", ["Pending"], pod.number)]


# --- what is counted again ---


def mark_anew(pod: reports.Pod, found: reports.Pod, news: list[reports.Event], border: reports.Border) -> None:
    """Of back-offs and restarts, those whose exit has another number over the rotation than in the part alone."""
    if not any(event.word in ("backoff", "restart") for event in news):
        return
    whole, alone, died, fresh = numbers_of(pod), numbers_of(found), {}, set(map(id, news))
    for event in pod.events:
        if event.word == "died":
            died[event.name] = event.rest[0]
        elif event.word in ("backoff", "restart") and id(event) in fresh:
            exit_of = event.name, died.get(event.name, "")
            if whole.get(exit_of) != alone.get(exit_of):
                event.anew = border.at


def mark_results(news: list[reports.Event], border: reports.Border) -> None:
    """Of each container that ran on over a gap the first change by its probes, whose results before the gap are not
    known to the part after it."""
    told, died = set(), {(event.container, event.at) for event in news if event.word == "died"}
    for event in news:
        if event.word in ("started", "died"):
            told.add(event.container)
        elif event.word in ("kill", "ready", "unready") and event.at > border.at and event.container not in told:
            if (event.container, event.at) not in died:
                event.anew = border.at
            told.add(event.container)


def numbers_of(pod: reports.Pod) -> dict[tuple[str, str], int]:
    """The number of each exit, by container and attempt, as the delays of restarts count them."""
    starts: dict[str, tuple[str, int]] = {}
    exits: dict[str, list[why.Exit]] = {}
    for event in pod.events:
        if event.word == "started":
            starts[event.name] = (event.rest[0], event.at)
        elif event.word == "died":
            why.add_exit(exits.setdefault(event.name, []), event, starts.get(event.name))
    return {(name, str(one.attempt)): one.number for name, found in exits.items() for one in found}


# --- conditions ---


def tell_conditions(pod: reports.Pod, before: list[reports.Condition], border: reports.Border, until: int) -> None:
    """Each condition has lasted since it changed last, also if that was before the rotation."""
    known = {condition.kind: condition for condition in before}
    for condition in pod.conditions:
        was = known.get(condition.kind)
        if condition.kind == "PodScheduled" and was is not None:
            condition.at = was.at
        elif condition.at <= until:
            condition.at = was.at if was is not None and was.value == condition.value else border.at


def ready_is_told(pod: reports.Pod) -> bool:
    """Whether the events of a pod show since when it is Ready or not; of containers that are never ready they don't."""
    last, final = reports.changes_of_ready(pod)[-1], pod.condition("Ready")
    return (last.value, last.since) == (final.value, final.at)


def tell_ready(pod: reports.Pod) -> None:
    """Since when it is Ready or not, by its events over the rotation."""
    last = reports.changes_of_ready(pod)[-1]
    for kind in ("ContainersReady", "Ready"):
        condition = pod.condition(kind)
        if last.value == condition.value and last.since is not None:
            condition.at = last.since
