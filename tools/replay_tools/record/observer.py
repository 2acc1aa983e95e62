"""Polls a node: asks each source as often as it changes, and goes on without one that fails."""

from __future__ import annotations

import functools
from collections.abc import Callable, Iterable
from dataclasses import replace
from typing import Any, TYPE_CHECKING

from .events import Asking, failing, has_changed, ready_in, said_in
from .kubelet_start import KubeletStart, ListOfPods
from .logs import kept_of, lines_of
from .near import Nearness
from .pods import pods_of
from .probes import counters_of
from .reasons import better
from .runtime import CREATED, EXITED, RUNNING, inspected_of, instances_of
from .seen import PATIENCE, Seen
from .sources import Failed
from .summary import summary_of
from .throttled import Throttling, are_limited

if TYPE_CHECKING:
    from .events import Ready, Said
    from .pods import Pod
    from .probes import Counters
    from .reasons import Reason
    from .runtime import End, Instance
    from .sources import Sources
    from .summary import Summary

# the kubelet samples its node and its pods about as often, and its node for each decision about evictions
SUMMARY_SECONDS = 10
PODS_SECONDS = 10
NODE_SECONDS = 10
# under pressure a pod without a running container may be evicted, which the runtime shows late: the kubelet is asked at
# each poll, and the API server less often
PRESSED_PODS_SECONDS = {True: 1, False: 5}
# where nothing has happened for some seconds the runtime is asked again after more than one, as its moments are exact
STILL_SECONDS = 30
# why a container failed is shown for some seconds, as that its hook did
FAILED_SECONDS = 3
LIST_SECONDS = 1.5
# how long, and in how many more answers, the end of an instance that the runtime has removed is looked for in its pod's
# status, which may come later
STATUS_SECONDS = 10
STATUS_ANSWERS = 2
# a list is asked for again so often if a container has gone between it and `crictl inspect`
MOST_LISTS = 3
# what is silent for so long is printed again, as often
SILENT_SECONDS = 300
RUNTIME, PROBES, PODS, SUMMARY = "crictl ps", "/metrics/probes", "the list of pods", "/stats/summary"
EVENTS, NODE = "the events of pods", "the node"
KUBELETS = {PROBES, PODS, SUMMARY}
MEANWHILE = {
    RUNTIME: "ticks wait for it up to 30 s, and then list containers as unknown",
    PROBES: "ticks wait for it up to 30 s; its results are written once it answers",
    PODS: "the pods remain as they were",
    SUMMARY: "signals remain as last sampled, up to 60 s",
    EVENTS: "their content is left out",
    NODE: "whether it is Ready is left out",
}


class Observer:
    """Asks the sources of a node, the summary every some seconds if it does not count more; `say` takes what is printed
    of the ones that fail, and `now` gives the moment, by which a poll has lasted."""

    def __init__(self, sources: Sources, summary_seconds: int, say: Callable[..., None],
                 now: Callable[[], float] | None = None, log_lines: int = 0, asks_throttled: bool = False) -> None:
        self.sources = sources
        self.throttling = Throttling(sources, say) if asks_throttled else None
        self.start = KubeletStart(sources, say)
        self.list = ListOfPods()
        # whether the newest list lacks pods of the one before, so that another one is asked for at once
        self.lacks_pods = False
        # when a container was seen to fail last
        self.failed_at = float("-inf")
        self.log_lines = log_lines
        self.say = say
        self.now = now
        self.seconds = {PODS: PODS_SECONDS, SUMMARY: max(SUMMARY_SECONDS, summary_seconds), NODE: NODE_SECONDS}
        self.near = Nearness()
        self.decided: set[str] = set()
        self.asked_at: dict[str, float] = {}
        self.silent: dict[str, Any] = {}
        self.said_at: dict[str, float] = {}
        # it learns at each poll whether the runtime and the kubelet answer
        self.answered: Callable[[bool], None] | None = None
        self.details: dict[str, Any] = {}
        self.states: dict[str, Any] = {}
        # the instances whose code is not known yet, how pods' statuses show that instances have ended, and since when,
        # and since which answer of the list of pods, the runtime has those no more
        self.unended: dict[str, Any] = {}
        self.ends: dict[str, End] = {}
        self.missed_at: dict[str, tuple[float, int]] = {}
        self.pods_answers = 0
        self.listed_pods: dict[str, Pod] = {}
        self.instances: dict[str, list[Instance]] | None = None
        self.counters: dict | None = None
        self.listed_at: float = 0
        self.moved_at: float = 0
        self.asking = Asking(sources.api is not None)
        self.known: set[str] = set()
        self.strangers: set[str] = set()

    def first_look(self, moment: float) -> tuple[Seen, Summary]:
        """A poll that needs all sources, and its summary; Failed if one of them gives no answer."""
        probes = self.sources.probes()
        counters = counters_of(probes)
        self.start.begin(probes, moment)
        listed = instances_of(self.sources.listed())
        pods = self.take_pods(moment)
        summary = self.take_summary(moment)
        self.listed_at = self.moved_at = moment
        self.may_have_changed_pods(listed, moment)
        self.decided = short_of(pods)
        self.pass_over(listed)
        return Seen(moment, self.resolved(listed, moment), counters, pods, summary, ready=self.ready(moment)), summary

    def pass_over(self, listed: list[Instance]) -> None:
        """Of the pods that are there at the first poll no start is asked for, and of instances that were replaced no
        code: what a tick shows of them is the newest alone."""
        newest = {(each.uid, each.container): each for each in listed}
        for each in filter(lambda each: each.uid in self.known, listed):
            if newest[each.uid, each.container].id != each.id:
                self.details[each.id] = replace(each, exit_code=0)
            elif each.state == RUNNING:
                self.details[each.id] = each

    def look(self, moment: float) -> Seen:
        """What the sources show at a moment; a source that is silent shows nothing."""
        seen = Seen(moment)
        if self.throttling is not None and are_limited(self.listed_pods.values(), self.instances or {}):
            self.throttling.begin(moment)
        # the probes come first: a result that is counted was found on an instance that the list then shows
        was_silent = PROBES in self.silent
        seen.counters = self.attempt(PROBES, moment, lambda: self.take_probes(moment))
        self.see_start(was_silent, seen.counters, moment)
        if not self.wants_list(seen.counters, moment):
            listed, seen.instances = None, self.instances
        else:
            self.listed_at = moment
            listed = self.attempt(RUNTIME, moment, lambda: instances_of(self.sources.listed()), is_whole=False)
        if self.wants_pods(moment) or (listed is not None and self.may_have_changed_pods(listed, moment)):
            seen.pods = self.attempt(PODS, moment, lambda: self.take_pods(moment))
        if listed is not None:
            seen.instances = self.attempt(RUNTIME, moment, functools.partial(self.resolved, listed, moment))
            self.moved_at = self.moved_at if seen.instances == self.instances and not self.missed_at else moment
            self.instances = seen.instances
        if self.wants_summary(seen.pods, moment):
            seen.summary = self.attempt(SUMMARY, moment, lambda: self.take_summary(moment))
        seen.is_summary_silent, seen.low = SUMMARY in self.silent, self.near.low
        seen.said = self.events(moment)
        seen.ready = self.ready(moment)
        seen.throttled = {} if self.throttling is None else self.throttling.taken()
        seen.took = 0 if self.now is None else max(self.now() - moment, 0)
        seen.kubelet_started = self.start.taken()
        self.start.end_look(seen.counters is not None, moment)
        if self.answered is not None:
            self.answered(RUNTIME not in self.silent and not self.silent.keys() >= KUBELETS)
        return seen

    # --- the kubelet is started again ---

    def take_probes(self, moment: float) -> Counters:
        """The counts of probes, with which newer kubelets show when they were started."""
        text = self.sources.probes()
        self.start.see_probes(text, moment)
        return counters_of(text)

    def see_start(self, was_silent: bool, counters: Counters | None, moment: float) -> None:
        """Looks for signs of a start in what the kubelet answers, and asks it where there is one."""
        if counters is None:
            return
        self.start.see_counts(self.counters, counters)
        if was_silent:
            self.start.suspect()
        self.start.check(moment)
        # the list of pods may be silent yet
        if was_silent or self.start.news is not None:
            self.list.begin_anew(moment)

    def whole_list(self, listed: list[Pod], moment: float) -> list[Pod]:
        """The pods of a list, with those that it lacks though they may be there: too soon after a start of the kubelet,
        or where the kubelet may have restarted since it listed them."""
        self.list.show(listed, moment)
        there, lost = self.instances or {}, self.list.lost(listed)
        kept = self.list.early(lost, there, moment)
        if len(kept) < len(lost):
            if self.is_same_kubelet(lost, listed, moment):
                return self.list.take(listed, kept, moment)
            if self.start.news is not None:
                self.list.begin_anew(moment)
                self.list.show(listed, moment)
            kept = [*self.list.early(lost, there, moment), *self.list.doubtful(lost, moment)]
        return self.list.take(listed, kept, moment)

    def is_same_kubelet(self, lost: list[Pod], listed: list[Pod], moment: float) -> bool:
        """Whether the kubelet, asked after a list that lacks pods, is the one that listed them: by its own word, or if
        it has never given that, as it was never silent, counts did not fall, and each of its sources shows pods."""
        is_same = self.start.is_same(moment)
        if is_same is not None or self.start.is_known():
            return bool(is_same)
        return not self.silent.keys() & KUBELETS and not self.list.vanished(lost, listed)

    def events(self, moment: float) -> dict[str, list[Said]]:
        """The Events of pods in which something has happened some moments ago, by their uids."""
        found = {}
        for uid in self.asking.due(moment):
            pod = self.listed_pods.get(uid)
            if pod is not None and pod.known_uid() is not None and pod.fault is None:
                namespace = pod.key.partition("/")[0]
                said = self.attempt(EVENTS, moment, lambda: said_in(self.sources.events(namespace, uid), EVENTS))
                found.update({} if said is None else {uid: said})
        return found

    def ready(self, moment: float) -> Ready | None:
        """Whether the node is Ready, where the API server is asked, from time to time."""
        if self.sources.api is None or not self.is_due(NODE, moment):
            return None
        self.asked_at[NODE] = moment
        return self.attempt(NODE, moment, lambda: ready_in(self.sources.node_object()))

    def looks_soon(self, moment: float) -> bool:
        """Whether the next poll comes soon: where the kubelet may evict a pod, each of its samples counts, and what it
        did may be shown for a second; after its start pods are unready for seconds; why a container failed is shown
        until it waits for its next start; and how an instance ended that the runtime has removed until the next one has
        ended."""
        return (self.near.is_near(moment) or self.start.is_watched(moment) or self.has_failed(moment)
                or bool(self.missed_at))

    def has_failed(self, moment: float) -> bool:
        """Whether a container has just exited with a failure."""
        return 0 <= moment - self.failed_at < FAILED_SECONDS

    def wants_pods(self, moment: float) -> bool:
        """Whether the pods are asked for, though the runtime shows nothing new."""
        if self.lacks_pods or self.start.is_watched(moment) or self.has_failed(moment):
            return True
        often = PRESSED_PODS_SECONDS[self.sources.kubelet is not None]
        return self.is_due(PODS, moment, often if self.near.is_pressed(moment) else None)

    def wants_list(self, counters: dict[tuple[str, str, str], dict[str, int]] | None, moment: float) -> bool:
        """Whether the runtime is asked at a poll: not at each if nothing happens and no probe finds anything."""
        is_still = counters is not None and counters == self.counters and moment - self.moved_at > STILL_SECONDS
        self.asking.want(failing(self.counters, counters), moment)
        self.counters = counters
        is_sure = self.instances is not None and not self.near.is_near(moment)
        return not (is_still and is_sure and 0 <= moment - self.listed_at < LIST_SECONDS)

    def attempt(self, source: str, moment: float, ask: Callable[..., Any], is_whole: bool = True) -> Any:
        """An answer, or None. That a source is silent is printed, and again after minutes, and so is that its whole
        answer is there again."""
        try:
            answer = ask()
        except Failed as failed:
            self.say_silent(source, moment, failed)
            return None
        since = self.silent.pop(source, None) if is_whole else None
        if since is not None:
            if source in KUBELETS:
                self.start.suspect()
            self.say(f"{int(moment)}: {source} answers again, after {round(moment - since)} s",
                     (source, moment, "again"))
        return answer

    def say_silent(self, source: str, moment: float, failed: Failed) -> None:
        since = self.silent.setdefault(source, moment)
        if since == moment or not 0 <= moment - self.said_at[source] < SILENT_SECONDS:
            silence = "" if since == moment else f", for {round(moment - since)} s now"
            self.said_at[source] = moment
            self.say(f"{int(moment)}: {failed}{silence}; {MEANWHILE[source]}", (source, moment))

    def is_due(self, source: str, moment: float, seconds: int | None = None) -> bool:
        """Whether so many whole seconds have passed since a source was asked, also where it gave no answer."""
        asked = self.asked_at.get(source)
        seconds = self.seconds[source] if seconds is None or source in self.silent else seconds
        return asked is None or int(moment) < int(asked) or int(moment) - int(asked) >= seconds

    def wants_summary(self, pods: list[Pod] | None, moment: float) -> bool:
        """Whether the summary is asked for: at each poll while the kubelet may evict a pod, at once where it is seen
        that it has, and else from time to time, as one that gives no answer."""
        decided = short_of(pods or ())
        has_decided = not decided <= self.decided
        self.decided |= decided
        if has_decided:
            self.near.decide(moment)
        counts = SUMMARY not in self.silent and (has_decided or self.near.is_near(moment))
        return counts or self.is_due(SUMMARY, moment)

    def take_summary(self, moment: float) -> Summary:
        self.asked_at[SUMMARY] = moment
        summary = summary_of(self.sources.summary())
        self.near.sample({signal: sample.value for signal, sample in summary.signals.items()}, moment)
        return summary

    def take_pods(self, moment: float) -> list[Pod]:
        self.asked_at[PODS] = moment
        pods = pods_of(self.sources.pods(), self.sources.pods_name())
        if self.sources.alone is None:
            pods = self.whole_list(pods, moment)
        self.lacks_pods = not self.lacks_pods and not self.listed_pods.keys() <= {pod.uid for pod in pods}
        if self.pods_answers:
            self.asking.want((pod.uid for pod in pods if has_changed(self.listed_pods.get(pod.uid), pod)), moment)
        # a pod that is no longer listed stays known, since its containers may have yet to exit
        self.listed_pods = {pod.uid: pod for pod in pods}
        self.pods_answers += 1
        # a pod may be listed no more when the runtime's list shows that its instance has gone
        self.ends = {identity: end for identity, end in self.ends.items() if identity in self.unended}
        for pod in pods:
            self.ends.update(pod.ends or {})
        self.known |= set(self.listed_pods)
        return pods

    def may_have_changed_pods(self, listed: list[Instance], moment: float) -> bool:
        """Whether the runtime has a pod that is not known, or an instance has exited or gone: then pods may have come
        or gone. Each is asked for once."""
        uids = {each.uid for each in listed}
        has_stranger = bool(uids - self.known - self.strangers)
        self.strangers |= uids
        now = {each.id: each.state for each in listed}
        self.asking.want((each.uid for each in listed if each.uid in self.known
                          and self.states.get(each.id, each.state) != each.state), moment)
        has_exited = any(state in (CREATED, RUNNING) and now.get(identity) not in (CREATED, RUNNING)
                        for identity, state in self.states.items())
        has_gone = not set(self.states) <= set(now)
        self.states = now
        return has_stranger or has_exited or has_gone

    # --- instances ---

    def resolved(self, listed: list[Instance], moment: float) -> dict[str, list[Instance]]:
        """The instances by their pods' uids, with the moments and codes of `crictl inspect`. One that it does not know
        is asked for by a fresh list, in which it is no more."""
        for _ in range(MOST_LISTS):
            asked = [(each, self.inspect(each)) for each in listed if self.wants_inspection(each)]
            failures = [failed for _, failed in asked if failed]
            if self.instances is not None and any(self.details[each.id].exit_code for each, failed in asked
                                                  if failed is None):
                self.failed_at = moment
            if not failures:
                break
            if self.instances is not None:
                # one that is no more when it is asked for may have its end in its pod's status
                self.unended.update({each.id: each for each, failed in asked if failed})
            listed = instances_of(self.sources.listed())
        else:
            self.say(f"{int(moment)}: {failures[0]}; it is asked again at each look", ("inspect", str(failures[0])))
        listed = self.with_removed(listed, moment)
        there = {each.id for each in listed}
        self.details = {identity: detail for identity, detail in self.details.items() if identity in there}
        by_uid: dict[str, list[Instance]] = {}
        for instance in map(self.detailed, listed):
            by_uid.setdefault(instance.uid, []).append(instance)
            if instance.exit_code is None and instance.uid in self.known:
                self.unended[instance.id] = instance
            else:
                self.unended.pop(instance.id, None)
        return by_uid

    def with_removed(self, listed: list[Instance], moment: float) -> list[Instance]:
        """A list of the runtime with the instances that it removed before their codes were known: as ended where the
        status of their pod shows it, and for some seconds with no code if it may still show it."""
        there = {each.id for each in listed}
        removed = [each for identity, each in self.unended.items() if identity not in there]
        self.missed_at = {each.id: self.missed_at.get(each.id, (moment, self.pods_answers)) for each in removed}
        found = [self.ended(each, moment) for each in removed]
        return sorted([*listed, *filter(None, found)], key=lambda each: (each.created, each.attempt))

    def ended(self, instance: Instance, moment: float) -> Instance | None:
        """An instance that the runtime has no more, by its pod's status, else since when it is missed; None where that
        won't show how it ended."""
        pod, end = self.listed_pods.get(instance.uid), self.ends.get(instance.id)
        since, answers = self.missed_at[instance.id]
        if end is not None:
            self.details[instance.id] = end.of(instance)
        elif pod is None or pod.ends is None or self.is_given_up(moment - since, self.pods_answers - answers):
            del self.unended[instance.id]
            return None
        else:
            self.asked_at.pop(PODS, None)
        return replace(instance, state=EXITED, finished=since)

    @staticmethod
    def is_given_up(seconds: float, answers: int) -> bool:
        """Whether a status has had the time, and the answers, to show how an instance ended."""
        return seconds > STATUS_SECONDS and (answers >= STATUS_ANSWERS or seconds > PATIENCE)

    def reason(self, instance: Instance) -> Reason | None:
        """Why an instance ended: the runtime's reason, or the reason of its pod's status if that has more."""
        pod = self.listed_pods.get(instance.uid)
        end = (pod.ends or {}).get(instance.id) if pod is not None else None
        return better(instance.reason, end and end.reason)

    def wants_inspection(self, instance: Instance) -> bool:
        if instance.uid not in self.known:
            return False
        detail = self.details.get(instance.id)
        if instance.state == EXITED:
            return detail is None or detail.exit_code is None
        return instance.state == RUNNING and detail is None

    def inspect(self, instance: Instance) -> Failed | None:
        """Keeps what the runtime has of an instance; else why not."""
        try:
            detail = inspected_of(self.sources.inspected(instance.id), instance)
        except Failed as failed:
            return failed
        self.details[instance.id] = self.with_log(detail)
        return None

    def with_log(self, detail: Instance) -> Instance:
        """An instance that has failed with what is kept of its last lines, where they are asked for."""
        if not self.log_lines or not detail.exit_code or detail.reason is None:
            return detail
        try:
            kept, left_out = kept_of(lines_of(self.sources.logged(detail.id, self.log_lines), self.log_lines))
        except Failed as failed:
            self.say(str(failed), "logs")
            return detail
        return replace(detail, reason=replace(detail.reason, log=kept, log_left_out=left_out))

    def detailed(self, instance: Instance) -> Instance:
        detail = self.details.get(instance.id)
        if detail is None:
            return instance
        if instance.state == EXITED and detail.exit_code is not None:
            return replace(detail, state=EXITED, reason=self.reason(detail))
        return replace(instance, started=detail.started)


def short_of(pods: Iterable[Pod]) -> set[str]:
    """The pods that the kubelet evicted or rejected since the node was short of something."""
    return {pod.uid for pod in pods if pod.decision is not None and pod.decision.is_by_pressure}
