"""When the kubelet was started, and which of its lists of pods come too soon after that to be an answer: a kubelet that
has just started lists no pod, then some, then all."""

from __future__ import annotations

import contextlib
import re
from collections.abc import Callable, Iterable
from typing import TYPE_CHECKING

from replay_tools import outside

from .answers import decoded
from .sources import Failed, too_long

if TYPE_CHECKING:
    from .answers import Answer
    from .pods import Pod
    from .probes import Counters
    from .sources import Sources

PATH = "metrics"
REMAINS = "a restart of the kubelet is known by the counts of its probes alone"
METRIC = "process_start_time_seconds"
LINE = re.compile(rf"^{METRIC} (?P<value>[0-9]{{1,10}}(?:\.[0-9]+)?(?:e\+?[0-9]{{1,2}})?)[ \t\r]*$", re.MULTILINE)
# the longest answer that is read, and how much of its end may be the begin of the line
MOST_BYTES = 64 << 20
LONGEST_LINE = 100
# the clock of the system's start, which the moment is counted from, is exact to about a second
FUZZ_SECONDS = 2
# after each sign of a restart a kubelet is asked so often for its moment, each time twice as long after the one before,
# and one that has never given it less often
MOST_TRIES = 7
FEW_TRIES = 3
# a source of pods is whole some seconds after its first pod; one that shows none is waited for so long
SETTLE_SECONDS = 5
EMPTY_SECONDS = 60
# after a start the pods are asked for at each poll, and between two polls each second
WATCH_SECONDS = 30
STATIC, FROM_API = "static", "api"


def started_in(text: Answer) -> float | None:
    """When the kubelet's process was started, by an answer that has its metrics; None if it does not have it."""
    found = LINE.search(decoded(text))
    return None if found is None else outside.moment(int(float(found["value"])))


class StartLine:
    """Takes an answer part by part, and keeps the moment alone."""

    def __init__(self) -> None:
        self.size = 0
        self.rest = b""
        self.started: float | None = None

    def take(self, part: bytes) -> None:
        self.size += len(part)
        if self.size > MOST_BYTES:
            raise too_long(MOST_BYTES)
        text = self.rest + part
        if self.started is None and METRIC.encode() in text:
            whole = text[:text.rfind(b"\n") + 1]
            self.started = started_in(whole)
        self.rest = text[-LONGEST_LINE - len(METRIC):]


def asked(sources: Sources) -> float:
    """Asks the kubelet; Failed if it does not show when it was started."""
    line = StartLine()
    sources.stream(PATH, line.take)
    if line.started is None:
        raise Failed(f"/{PATH}: no {METRIC} in the answer")
    return line.started


def have_fallen(before: Counters | None, now: Counters | None) -> bool:
    """Whether the counts of a probe are below the counts before, as of a kubelet that was started since."""
    if before is None or now is None:
        return False
    return any(count < before[series].get(result, 0) for series, counts in now.items() if series in before
               for result, count in counts.items())


class KubeletStart:
    """Finds out that the kubelet restarted. It asks the kubelet after a sign of that: it was silent, counts of probes
    fell or are gone, or pods are gone from its list."""

    def __init__(self, sources: Sources, say: Callable[..., None]) -> None:
        self.sources = sources
        self.say = say
        self.started: float | None = None
        # when it answered last, in an earlier poll
        self.answered_at: float | None = None
        # how often it may be asked yet, and when next
        self.tries = 0
        self.pause: float = 1
        self.next_at = float("-inf")
        self.has_fallen = False
        # a start that is not reported yet, and since when the new kubelet is watched
        self.news: float | None = None
        self.since: float | None = None

    def begin(self, probes: Answer, moment: float) -> None:
        """The answer of the first poll. If it does not show when the kubelet was started, the kubelet is asked."""
        self.started, self.answered_at = started_in(probes), moment
        if self.started is None and self.sources.alone is None:
            # one that won't show it is known by the counts of its probes alone, which is printed at the first sign
            with contextlib.suppress(Failed):
                self.started = asked(self.sources)

    def see_probes(self, text: Answer, moment: float) -> None:
        """Newer kubelets have it with the counts of probes."""
        started = started_in(text)
        if started is not None:
            self.see(started, moment)

    def see_counts(self, before: Counters | None, now: Counters | None) -> None:
        """Counts that fell or are all gone are a sign."""
        if have_fallen(before, now):
            self.has_fallen = True
            self.suspect()
        elif before and now is not None and not now:
            self.suspect()

    def suspect(self) -> None:
        """There is a sign of a start."""
        self.tries = MOST_TRIES if self.is_known() else FEW_TRIES
        self.pause, self.next_at = 1, float("-inf")

    def check(self, moment: float) -> None:
        """Asks the kubelet, where there is a sign of a start."""
        if self.tries and moment >= self.next_at:
            self.ask(moment)

    def ask(self, moment: float) -> bool:
        """Asks the kubelet; whether it shows when it was started."""
        if self.sources.alone is not None:
            return False
        try:
            self.see(asked(self.sources), moment)
        except Failed as failed:
            self.tries = max(self.tries - 1, 0)
            self.next_at, self.pause = moment + self.pause, self.pause * 2
            self.say(f"{failed}; {REMAINS}", "kubelet start")
            self.guess(moment)
            return False
        self.tries = 0
        return True

    def is_same(self, moment: float) -> bool | None:
        """Whether the kubelet shows that it has not restarted since it was asked last; None if it won't show it."""
        has_said = self.ask(moment)
        if self.news is not None:
            return False
        return True if has_said else None

    def see(self, started: float, moment: float) -> None:
        """The kubelet shows when it was started. A moment that is yet to come is none."""
        if started > moment + FUZZ_SECONDS:
            return
        before, self.started = self.started, started
        self.has_fallen = False
        least = self.answered_at if before is None else before + 2 * FUZZ_SECONDS
        if least is not None and started > least - FUZZ_SECONDS:
            self.begin_anew(started, moment)

    def guess(self, moment: float) -> None:
        """It does not show it: if counts fell, it was started since it answered last."""
        if self.has_fallen:
            self.has_fallen, self.tries = False, 0
            self.begin_anew(moment, moment)

    def begin_anew(self, started: float, moment: float) -> None:
        self.news, self.since = started, moment
        self.say(f"{int(moment)}: the kubelet restarted at {int(started)}", ("start", int(started)))

    def end_look(self, has_answered: bool, moment: float) -> None:
        if has_answered:
            self.answered_at = moment

    def taken(self) -> float | None:
        """The start that is not reported yet."""
        news, self.news = self.news, None
        return news

    def is_watched(self, moment: float) -> bool:
        """Whether the kubelet was started some seconds ago, so that its pods are asked for often."""
        return self.since is not None and 0 <= moment - self.since < WATCH_SECONDS

    def is_known(self) -> bool:
        """Whether the kubelet shows when it was started."""
        return self.started is not None


class ListOfPods:
    """What the lists of a kubelet have, and what they lack since the kubelet was started: those pods stay as they were.
    """

    def __init__(self) -> None:
        self.pods: dict[str, Pod] = {}
        # since when a list may lack pods, and since when each of the kubelet's sources shows some
        self.since: float | None = None
        self.shown_at: dict[str, float] = {}
        # since when lists have lacked each pod that is kept
        self.lacked_at: dict[str, float] = {}

    def begin_anew(self, moment: float) -> None:
        """The kubelet restarted, and learns its pods again."""
        self.since, self.shown_at = moment, {}

    def show(self, listed: list[Pod], moment: float) -> None:
        """Takes which sources of the kubelet a list has pods of."""
        self.shown_at = {source: self.shown_at.get(source, moment) for source in sorted(set(map(source_of, listed)))}

    def lost(self, listed: list[Pod]) -> list[Pod]:
        """The pods that a list has no more, though nobody deleted them, and no other pod has their name."""
        uids, keys = {pod.uid for pod in listed}, {pod.key for pod in listed}
        return [pod for uid, pod in self.pods.items() if uid not in uids and pod.key not in keys and not pod.is_deleted]

    def early(self, lost: list[Pod], there: Iterable[str], moment: float) -> list[Pod]:
        """Of some lost pods the ones that are lost too soon after a start, if the runtime has containers of some."""
        return [] if self.since is None else [pod for pod in lost if self.is_early(pod, there, moment)]

    def is_early(self, pod: Pod, there: Iterable[str], moment: float) -> bool:
        """Whether a list that lacks a pod proves nothing of it, since its source has yet to show its pods. The kubelet
        takes away the containers of pods that it knows to be gone, once all its sources have shown theirs."""
        shown_at = self.shown_at.get(source_of(pod))
        if shown_at is not None:
            return moment - shown_at < SETTLE_SECONDS
        return pod.uid in there or moment - (self.since or 0) < EMPTY_SECONDS

    def doubtful(self, lost: list[Pod], moment: float) -> list[Pod]:
        """Of some lost pods the ones that lists have not lacked for long, if the kubelet may have restarted."""
        return [pod for pod in lost if moment - self.lacked_at.get(pod.uid, moment) < EMPTY_SECONDS]

    def take(self, listed: list[Pod], kept: list[Pod], moment: float) -> list[Pod]:
        """The pods of a list with those that are kept though it lacks them."""
        self.pods = {pod.uid: pod for pod in (*listed, *kept)}
        self.lacked_at = {pod.uid: self.lacked_at.get(pod.uid, moment) for pod in kept}
        if self.since is not None and not kept and moment - self.since > EMPTY_SECONDS:
            self.since = None
        return sorted(self.pods.values(), key=lambda pod: pod.key)

    @staticmethod
    def vanished(lost: list[Pod], listed: Iterable[Pod]) -> bool:
        """Whether a source of which pods are gone shows none any more."""
        return bool({source_of(pod) for pod in lost} - {source_of(pod) for pod in listed})


def source_of(pod: Pod) -> str:
    """The source of the kubelet that a pod comes by: the node's files, or the API server."""
    return STATIC if pod.is_static else FROM_API

