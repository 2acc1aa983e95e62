"""Results of probes, of `prober_probe_total` in the kubelet's /metrics/probes: what each counter grew by between two
polls, put in an order."""

from __future__ import annotations

import re
from dataclasses import dataclass
from typing import Optional, TYPE_CHECKING

from .answers import decoded
from .sources import ENDPOINT_SECONDS, reads

if TYPE_CHECKING:
    from .answers import Answer

# the counts of an answer: {(uid, container, probe): {result: count}}
Series = tuple[str, str, str]
Counters = dict[Series, dict[str, int]]
PROBES = ("startup", "liveness", "readiness")
RESULTS = ("failure", "success", "unknown")
# what a kubelet takes a probe to find before its first result
FIRST = {"startup": "failure", "liveness": "success", "readiness": "failure"}
# results of a probe next to one each period: at its begin, and at both ends of what is counted
MOST_BESIDE = 3
PROBE_WORDS = {"Startup": "startup", "Liveness": "liveness", "Readiness": "readiness"}
RESULT_WORDS = {"successful": "success", "failed": "failure", "unknown": "unknown"}
SERIES = re.compile(rb"^prober_probe_total{(?P<labels>.*)} (?P<value>[^ \n]+)", re.MULTILINE)
LABEL = re.compile(r'([a-z_]+)="([^"]*)"')


@dataclass(frozen=True)
class Result:
    """One result of a container's probe; its moment is inferred where there are several between two polls."""
    moment: float
    probe: str
    result: str


@reads("/metrics/probes")
def counters_of(text: Answer) -> Counters:
    """The counts of an answer."""
    counters: Counters = {}
    for series in SERIES.finditer(text.encode() if isinstance(text, str) else text):
        labels = dict(LABEL.findall(decoded(series["labels"])))
        probe, result = PROBE_WORDS.get(labels.get("probe_type", "")), RESULT_WORDS.get(labels.get("result", ""))
        if probe and result:
            of_probe = counters.setdefault((labels.get("pod_uid", ""), labels.get("container", ""), probe), {})
            of_probe[result] = int(float(series["value"]))
    return counters


def most_results(period: int, seconds: float) -> float:
    """How many results a probe may have had within some seconds, the later end of which is not exact."""
    return (max(seconds, 0) + ENDPOINT_SECONDS) / period + MOST_BESIDE


def have_begun_anew(before: dict[str, int], now: dict[str, int], most: float) -> bool:
    """Whether the counts of one probe began again, as they do with the kubelet: one fell, and there was time for
    all."""
    return any(now.get(result, 0) < count for result, count in before.items()) and sum(now.values()) <= most


def grown(before: dict[str, int], now: dict[str, int]) -> dict[str, int]:
    """What the counts of one probe grew by; those that an answer leaves out did not."""
    return {result: max(now.get(result, 0) - before.get(result, 0), 0) for result in RESULTS}


def results_of(probe: str, growth: dict[str, int], period: int, since: float, until: float,
               last: Optional[str] = None) -> list[Result]:
    """The results of one probe between two polls, in an order: those that equal the last one before them first, as a
    probe goes on with what it found, then failures before a success; the last at the later poll and each other one a
    period before the next, but none before the earlier poll."""
    last = FIRST[probe] if last is None else last
    order = sorted(RESULTS, key=lambda result: result != last)
    outcomes = [result for result in order for _ in range(growth.get(result, 0))]
    return [Result(max(since, until - period * (len(outcomes) - 1 - place)), probe, result)
            for place, result in enumerate(outcomes)]
