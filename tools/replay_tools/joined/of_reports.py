"""The reports of several parts as one: pods go on from one to the next, and what each part shows of what was known
before is printed once."""

from __future__ import annotations

from dataclasses import dataclass, replace
from typing import TYPE_CHECKING

from replay_tools import report as reports
from replay_tools.joined import known, pods as joined_pods

if TYPE_CHECKING:
    from replay_tools.joined import parts

# of these events the last word is the state
STATES = {"threshold": ("active", "cleared"), "pressure": ("True", "False")}


@dataclass
class Present:
    """A pod that is there at the end of a part, and its uid, where that is known."""

    pod: reports.Pod
    uid: str | None


def join_reports(found: list[parts.Part], borders: list[reports.Border]) -> tuple[reports.Report, list[dict[int, int]]]:
    """The report of all parts, and for each part the numbers that its pods have in it."""
    first = found[0].report
    made = reports.Report(first.node, 0, 0, borders=list(borders))
    numbers: list[dict[int, int]] = []
    present: dict[str, Present] = {}
    for part, border in zip(found, [None, *borders]):
        numbers.append(take_pods(made, part, border, present))
        take_node(made, part, border)
        take_evictions(made, part, border, numbers[-1])
        present = present_at_end(made, part, numbers[-1])
    made.events.sort(key=lambda event: event.at)
    if found[0].follows:
        known.tell_known(made, found[0].known_until)
    made.pod_count, made.tick_count = len(made.pods), sum(part.report.tick_count for part in found)
    made.totals = totals_of(made, found)
    for pod in made.pods:
        pod.gaps = made.gaps
    return made, numbers


def take_pods(made: reports.Report, part: parts.Part, border: reports.Border | None,
              present: dict[str, Present]) -> dict[int, int]:
    """Takes the pods of a part; those that were there at the end of the one before go on. Gives their numbers."""
    numbers = {}
    for pod in part.report.pods:
        there = present.get(pod.key)
        if there is not None and border is not None and is_there(part, pod, border) \
                and is_same(there, part, pod, border):
            before = present.pop(pod.key).pod
            made.events += joined_pods.go_on(before, pod, border, part)
        else:
            before = joined_pods.begun(pod, len(made.pods))
            before.left = pod.left
            before.events = [replace(event, number=before.number, at=behind(event.at, border)) for event in pod.events]
            for condition in before.conditions:
                condition.at = behind(condition.at, border) if condition.at else condition.at
            made.pods.append(before)
            made.events += before.events
        before.left = pod.left
        numbers[pod.number] = before.number
    for gone in present.values():
        gone.pod.left = None if border is None else border.at
    return numbers


def is_there(part: parts.Part, pod: reports.Pod, border: reports.Border) -> bool:
    """Whether a pod is there as its part begins; one that comes later is another one."""
    return reports.first_tick(pod) <= max(part.known_until, border.at)


def is_same(there: Present, part: parts.Part, pod: reports.Pod, border: reports.Border) -> bool:
    """Whether a pod of a part is the one of its key that was there at the end of the one before. Where both show their
    uids these are the same."""
    uid = uid_in(part, pod)
    is_other = None not in (uid, there.uid) and uid != there.uid
    return not is_other and joined_pods.is_same(there.pod, pod, border.is_gap)


def uid_in(part: parts.Part, pod: reports.Pod) -> str | None:
    return None if part.trace is None else part.trace.pods[pod.number].uid


def present_at_end(made: reports.Report, part: parts.Part, numbers: dict[int, int]) -> dict[str, Present]:
    """The pods that a part has at its end, by their keys."""
    found = {}
    for pod in part.report.pods:
        gone = None if part.trace is None else part.trace.pods[pod.number].gone
        if pod.left is None and gone is None:
            found[pod.key] = Present(made.pods[numbers[pod.number]], uid_in(part, pod))
    return found


def behind(at: int, border: reports.Border | None) -> int:
    return at if border is None else max(at, border.at)


# --- the node ---


def take_node(made: reports.Report, part: parts.Part, border: reports.Border | None) -> None:
    """Takes the thresholds and conditions of a part."""
    before = {} if border is None else states_at_end(made)
    met, news = set(), []
    for event in part.report.events:
        if event.pod is not None or event.word not in (*STATES, "reclaim"):
            continue
        key = (event.word, *event.rest[:-1])
        is_first, is_told = key not in met, before.get(key) == event.rest[-1]
        met.add(key)
        if event.word in STATES and is_first and is_told:
            continue
        news.append(replace(event, at=behind(event.at, border)))
    if border is not None:
        # what a part does not show at its begin is over for it: it counts again
        over = [key for key, state in before.items() if state == STATES[key[0]][0]
                and not is_shown(part, key)]
        news = [reports.Event(border.at, None, None, key[0], [*key[1:], STATES[key[0]][1]], None, border.at)
                for key in over] + news
    made.events += news
    tell_node_conditions(made, part, news)


def states_at_end(made: reports.Report) -> dict[tuple[str, ...], str]:
    """The state that each threshold and condition of the node had last."""
    return {(event.word, *event.rest[:-1]): event.rest[-1]
            for event in sorted(made.events, key=lambda event: event.at) if event.word in STATES}


def is_shown(part: parts.Part, key: tuple[str, ...]) -> bool:
    """Whether a part shows at its begin that a threshold is active or a condition true."""
    return any(event.word == key[0] and tuple(event.rest[:-1]) == key[1:] and event.at <= part.known_until
               for event in part.report.events if event.pod is None)


def tell_node_conditions(made: reports.Report, part: parts.Part, news: list[reports.Event]) -> None:
    changed = {event.rest[0]: event.at for event in news if event.word == "pressure"}
    before = {condition.kind: condition.at for condition in made.conditions}
    made.conditions = [replace(condition, at=changed.get(condition.kind, before.get(condition.kind, condition.at)))
                       for condition in part.report.conditions]


# --- evictions ---


def take_evictions(made: reports.Report, part: parts.Part, border: reports.Border | None,
                   numbers: dict[int, int]) -> None:
    """Takes the evictions of a part, without the evictions of pods that the rules had evicted before and that only go.
    """
    told = {(event.number, event.at) for event in made.events if event.word == "evicted"}
    for eviction in part.report.evictions:
        number = None if eviction.number is None else numbers.get(eviction.number)
        at = behind(eviction.at, border)
        if (number, at) in told:
            anew = anew_of(made, part, border, eviction, number, at)
            made.evictions.append(replace(eviction, at=at, number=number, anew=anew))
            for event in made.events:
                if event.word == "evicted" and (event.number, event.at) == (number, at):
                    event.anew = anew


def anew_of(made: reports.Report, part: parts.Part, border: reports.Border | None, eviction: reports.Eviction,
            number: int | None, at: int) -> int | None:
    """The rotation after which the grace period of an eviction, or the pause after the one before, began again, or
    after which the pod was there again that they had evicted; None where none of these lies over it."""
    if border is None:
        return None
    if any(one.number == number for one in made.evictions):
        return border.at
    if eviction.kind == "soft":
        since = reports.Thresholds(sorted_report(made)).at(at).get((eviction.signal, eviction.kind))
        return border.at if since is not None and since < border.at else None
    pause = 0 if part.trace is None else part.trace.pause()
    return border.at if any(border.at - pause < one.at <= border.at <= at < one.at + pause
                            for one in made.evictions) else None


def sorted_report(made: reports.Report) -> reports.Report:
    return reports.Report(made.node, 0, 0, sorted(made.events, key=lambda event: event.at))


def totals_of(made: reports.Report, found: list[parts.Part]) -> tuple[int, int, int]:
    """Updates as the parts have them; events and orders as they are printed."""
    of_pods = [event for pod in made.pods for event in pod.events if event.word != "evicted"]
    orders = sum(event.word in ("kill", "restart") for event in of_pods)
    return sum(part.report.totals[0] for part in found), len(of_pods), orders
