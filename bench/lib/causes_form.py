"""Checks the form of what `causes` prints, and its moments and counts against the trace (docs/why.md).

It works out no cause. From the trace it takes the pods with their containers, and the moments of their ticks.
"""
import json
import re
from typing import NamedTuple

MOST_LINES, MOST_OF_CHOICES, MOST_OF_NAMES = 64, 300, 16

FORMS = [tuple(line.split()) for line in """
unlisted pod attempt instead before state
listed pod attempt before was other
exited pod attempt code start run
success pod attempt at number threshold start delay
failures pod attempt probe threshold at start delay passed
up pod attempt start passed
successes pod attempt threshold at start delay
unprobed pod attempt
was-ready pod attempt start
left pod attempt code listed
newer pod attempt state lacks
exit pod attempt at code
wanted pod role by policy rule
delay pod number first since why doubled greatest set
due pod at before
lives pod phase
case pod now before
failed pod reason
init-failed pod container attempt code
awaited pod container for
completed pod container attempt
stopped pod container attempt code
unfinished pod container is code
decided pod container by policy rule
sample value limit capacity percent since
active signal kind since
met last period
asks value limit since grace at
reclaimed value enough
acted-on signal kind value limit since grace at
other signal kind why
candidates count ended exempt
candidate pod key unsampled exceeds priority usage request excess failed
more count
ordered by
grace pod-period greatest
pause by at until ended
same since
paused at signal kind by since until
nobody at signal kind ended exempt
""".strip().splitlines()]
"""Each kind with its keys. A pod's cause begins with the key `pod`."""

CHOICE = "acted-on( other)* candidates( candidate)+"
ORDERS = {
    "died": "unlisted|exited", "started": "listed", "startup-passed": "success", "kill": "failures",
    "ready": "up (successes|unprobed)", "unready": "was-ready (left( newer)?|failures)",
    "backoff": "exit wanted delay", "restart": "exit wanted delay due lives",
    "phase": "case (failed|init-failed decided|awaited|completed( completed)*|stopped decided( stopped decided)*"
             "|unfinished( decided)?)",
    "threshold": "sample", "pressure": "active( active)*|met", "reclaim": "asks reclaimed",
    "evicted": f"{CHOICE} ordered( grace)?( pause)?", "names": f"same|{CHOICE}( more)? ordered",
}
"""The kinds of the causes of each event, in order"""
WITHOUT_EVENT = ("paused", "nobody")

NUMBER, AMOUNT, BOOL, SIGNAL = r"\d+", r"\d+m?", "true|false", r"[a-z]+\.[A-Za-z]+"
VALUES = {
    "attempt": NUMBER, "pod": NUMBER, "code": r"-?\d+", "run": NUMBER, "number": NUMBER, "threshold": NUMBER,
    "delay": NUMBER, "start": NUMBER, "at": NUMBER, "since": NUMBER, "until": NUMBER, "last": NUMBER, "period": NUMBER,
    "first": NUMBER, "grace": NUMBER, "count": NUMBER, "ended": NUMBER, "exempt": NUMBER, "pod-period": NUMBER,
    "instead": f"{NUMBER}|-", "before": f"{NUMBER}|-", "other": f"{NUMBER}|-", "passed": f"{NUMBER}|-",
    "rule": f"{NUMBER}|-", "doubled": f"{NUMBER}|-", "greatest": f"{NUMBER}|-", "set": "node|default|-",
    "listed": BOOL, "unsampled": BOOL, "failed": BOOL, "exceeds": f"{BOOL}|-", "value": AMOUNT, "limit": AMOUNT,
    "enough": AMOUNT, "usage": AMOUNT, "request": f"{AMOUNT}|-", "excess": rf"-?{AMOUNT}|-", "priority": r"-?\d+",
    "capacity": f"{AMOUNT}|-", "percent": r"\d+(\.\d\d)?%|-", "kind": "hard|soft", "signal": SIGNAL,
    "state": "created|running|unknown", "was": "nothing|other|created|unknown|-",
    "lacks": "start|(start,)?(startup|readiness|startup,readiness)", "probe": "startup|liveness|readiness",
    "role": "app|init|sidecar", "policy": "Always|OnFailure|Never", "by": "sidecar|rule|container|pod",
    "why": "first|long", "phase": "Pending|Running", "now": "[1-5]|failed", "for": "completion",
    "is": "waiting|running|restarting", "reason": r"[A-Za-z][\w./-]{0,62}", "container": "[a-z0-9-]+",
    "key": "[a-z0-9-]+/[a-z0-9.-]+",
}
"""The values of each key"""
OTHER_VALUES = {
    ("failures", "at"): r"\d+(,\d+)*", ("successes", "at"): r"\d+(,\d+)*", ("exited", "start"): f"{NUMBER}|-",
    ("newer", "state"): "created|running|exited|unknown", ("unfinished", "code"): r"-?\d+|-",
    ("case", "before"): "[1-5]|-", ("sample", "value"): f"{AMOUNT}|-", ("sample", "since"): f"{NUMBER}|-",
    ("other", "why"): "reclaimed|later", ("pause", "ended"): "seconds|exited|gone", ("pause", "by"): NUMBER,
    ("paused", "by"): NUMBER, ("grace", "greatest"): NUMBER,
    ("ordered", "by"): "unsampled|exceeds|priority|excess|usage|number|alone",
    ("decided", "by"): "sidecar|rule|container|pod",
}
"""The values of a key in a kind where they are others"""
MOMENTS = {"start", "at", "since", "passed", "last"}
BEFORE = ("unlisted", "listed", "due")
"""The kinds whose key `before` has the moment of the pod's tick before"""


class Wrong(Exception):
    """What is wrong with a line."""


def need(holds, why):
    if not holds:
        raise Wrong(why)


class Pod:
    def __init__(self, key, containers):
        self.key, self.containers, self.ticks = key, containers, []


class Facts:
    """What a trace has of pods and moments."""

    def __init__(self, trace):
        self.pods, self.sync, self.present = [], [], {}
        present, extended = {}, False
        for line in filter(str.strip, trace.split("\n")):
            fields = json.loads(line)
            if fields["kind"] == "node":
                extended = fields.get("version") == 3
            elif fields["kind"] == "pod":
                pod = pod_of(fields["pod"])
                self.pods.append(pod)
                present[pod.key] = pod
            elif fields["kind"] == "gone":
                del present[fields["pod"]]
            else:
                self.add_tick(fields["at"], present.values(), extended and fields.get("judged") is False)

    def add_tick(self, at, pods, is_between):
        self.present[at] = len(pods)
        for pod in pods:
            pod.ticks.append(at)
        if not is_between:
            self.sync.append(at)


def pod_of(manifest):
    metadata, spec = manifest["metadata"], manifest["spec"]
    containers = [*(spec.get("initContainers") or []), *spec["containers"]]
    return Pod(f"{metadata.get('namespace') or 'default'}/{metadata['name']}", [one["name"] for one in containers])


class Cause(NamedTuple):
    line: int
    kind: str
    values: dict

    def moments(self):
        """The moments that it names, without the due moment of a restart, which need not be a tick's."""
        for key in MOMENTS & self.values.keys():
            if (self.kind, key) != ("due", "at") or "pod" not in self.values:
                yield from (int(one) for one in self.values[key].split(",") if one != "-")


class Event(NamedTuple):
    line: int
    at: int
    words: list
    causes: list

    @property
    def is_of_node(self):
        return self.words[0] == "node"

    @property
    def name(self):
        """died, phase, threshold, .."""
        return self.words[1] if self.is_of_node else self.words[2]

    def first(self, kind):
        return next((cause.values for cause in self.causes if cause.kind == kind), None)


def cause_of(number, text):
    """A line of a cause, with its keys in order and its values in their forms."""
    kind, *pairs = text.split(" ")[1:]
    keys = [pair.partition("=")[0] for pair in pairs]
    need((kind, *keys) in FORMS, f"no kind has this name and these keys: {kind} {' '.join(keys)}")
    values = {key: value for key, _, value in (pair.partition("=") for pair in pairs)}
    for key, value in values.items():
        form = OTHER_VALUES.get((kind, key), VALUES[key])
        need(re.fullmatch(form, value), f"{kind} has no such {key}: {value}")
    return Cause(number, kind, values)


def read(text):
    """The events with their causes, and the causes without an event."""
    events, alone = [], []
    for number, line in enumerate(text.removesuffix("\n").split("\n") if text else (), 1):
        try:
            if line.startswith("event "):
                words = line.split(" ")[1:]
                events.append(Event(number, int(words[0]), words[1:], []))
                continue
            need(line.startswith("because "), "it is no event and no cause")
            cause = cause_of(number, line)
            if cause.kind in WITHOUT_EVENT:
                alone.append(cause)
            else:
                need(events and (not alone or alone[-1].line < events[-1].line), "no event precedes this cause")
                events[-1].causes.append(cause)
        except Wrong as why:
            raise Wrong(f"line {number}: {why}") from None
    return events, alone


def check_order(event):
    """The kinds of an event's causes, in their order, and how many lines there are."""
    need(event.name in ORDERS, f"there is no event {event.name}")
    kinds = " ".join(cause.kind for cause in event.causes)
    need(re.fullmatch(ORDERS[event.name], kinds), f"{event.name} has not these causes: {kinds}")
    most = MOST_OF_CHOICES if event.name in ("evicted", "names") else MOST_LINES
    need(len(event.causes) <= most, f"{len(event.causes)} lines of causes, more than {most}")


def check_moments(cause, at, ticks):
    """That each moment is a tick's, in order, and none is later than the event."""
    for moment in cause.moments():
        need(moment in ticks, f"{cause.kind}: no tick of its own has the moment {moment}")
        need(moment <= at, f"{cause.kind}: the moment {moment} is later than {at}")
    if cause.kind in ("failures", "successes"):
        moments = [int(one) for one in cause.values["at"].split(",")]
        need(len(moments) == int(cause.values["threshold"]), f"{len(moments)} moments, not as many as the threshold")
        need(moments == sorted(set(moments)), "the moments are not in order")
        need(moments[-1] == at, f"the last moment is not {at}")


def check_pod(event, facts):
    """The pod, its containers, and its tick before."""
    numbers = {cause.values.get("pod") for cause in event.causes}
    need(len(numbers) == 1 and None not in numbers, "its causes do not name one pod")
    number = int(numbers.pop())
    need(number < len(facts.pods) and facts.pods[number].key == event.words[0], f"pod {number} is another pod")
    pod = facts.pods[number]
    need(event.at in pod.ticks, f"pod {number} has no tick at {event.at}")
    need(event.words[1] == "-" or event.words[1] in pod.containers, f"it has no container {event.words[1]}")
    place = pod.ticks.index(event.at)
    before = str(pod.ticks[place - 1]) if place else "-"
    for cause in event.causes:
        check_moments(cause, event.at, pod.ticks)
        need(cause.values.get("container", pod.containers[0]) in pod.containers, f"{cause.kind}: no such container")
        if cause.kind in BEFORE:
            need(cause.values["before"] == before, f"{cause.kind}: the tick before is {before}")
        if cause.kind == "case":
            need((cause.values["before"] == "-") == (before == "-"), f"case: the tick before is {before}")


def check_words(event):
    """The words of a container's event against its causes."""
    if event.name in ("died", "started", "startup-passed", "kill", "restart"):
        need(event.words[3] == event.causes[0].values["attempt"], "the causes are of another attempt")
    if event.name == "died":
        need(event.words[4] == event.causes[0].values.get("code", "137"), "the causes have another code")
    if event.name == "kill":
        need(event.words[4] == event.causes[0].values["probe"], "the causes are of another probe")
    if event.name in ("backoff", "restart"):
        check_delay(event)


def check_delay(event):
    """The numbers of a delay against each other: the rule has the product, the line its parts."""
    delay, exit_ = event.first("delay"), event.first("exit")
    number, greatest = int(delay["number"]), delay["greatest"]
    need(delay["doubled"] == (str(number - 2) if number > 1 else "-"), "the number and the doublings do not agree")
    need((greatest == "-") == (delay["set"] == "-"), "greatest and set do not agree")
    doubled = 10 << min(number - 2, 64) if number > 1 else 0
    need(greatest == "-" or int(greatest) < doubled, "the greatest delay is not less than the doubled one")
    seconds = doubled if greatest == "-" else int(greatest)
    if event.name == "backoff":
        need(event.words[3] == str(seconds), f"the causes have a delay of {seconds}")
        need(exit_["at"] == str(event.at), "the exit is of another tick")
    else:
        due = event.first("due")
        need(int(due["at"]) == int(exit_["at"]) + seconds, f"the delay is {seconds}")
        need(int(due["at"]) <= event.at, "it is not due yet")
        need(due["before"] == "-" or int(due["before"]) < int(due["at"]), "it was due in the tick before")


def check_node(event, facts):
    need(event.at in facts.sync, f"no sync tick has the moment {event.at}")
    for cause in event.causes:
        check_moments(cause, event.at, facts.sync)
    if event.name == "threshold":
        sample, is_active = event.first("sample"), event.words[4] == "active"
        need((sample["since"] == "-") == is_active, "only a threshold that cleared was active before")
        need(not is_active or sample["value"] != "-", "no threshold becomes active without a sample")
        need((sample["capacity"] == "-") == (sample["percent"] == "-"), "capacity and percent do not agree")
    elif event.name == "pressure":
        need((event.causes[0].kind == "active") == (event.words[3] == "True"), "the causes are of the other value")
    elif event.name in ("evicted", "names"):
        check_choice(event, facts)


def check_choice(event, facts):
    """An eviction or a naming: the threshold, the candidates and how many there are."""
    if event.causes[0].kind == "same":
        return
    for key, word in zip(("signal", "kind"), event.words[3:5]):
        need(event.causes[0].values[key] == word, f"the {key} acted on is another one")
    counts, rows = event.first("candidates"), [one.values for one in event.causes if one.kind == "candidate"]
    count = int(counts["count"])
    check_present(counts, count, event.at, facts)
    shown = min(count, MOST_OF_NAMES) if event.name == "names" else count
    need(len(rows) == shown, f"{len(rows)} candidates, not {shown}")
    more = event.first("more")
    need((more["count"] if more else "0") == str(count - shown), f"{count - shown} candidates more, or none")
    need(len({row["pod"] for row in rows}) == len(rows), "a candidate is there twice")
    for row in rows:
        check_row(row, event.at, facts)
    need(rows[0]["key"] == event.words[2], "the first candidate is another pod")
    need((event.first("ordered")["by"] == "alone") == (count == 1), "it is alone if it is the only candidate")
    if event.name == "evicted":
        check_grace(event)


def check_present(counts, count, at, facts):
    found = count + int(counts["ended"]) + int(counts["exempt"])
    need(found == facts.present[at], f"{facts.present[at]} pods are present, not {found}")


def check_row(row, at, facts):
    number = int(row["pod"])
    need(number < len(facts.pods) and facts.pods[number].key == row["key"], f"pod {number} is another pod")
    need(at in facts.pods[number].ticks, f"pod {number} is not present")
    have = [row[key] == "-" for key in ("exceeds", "request", "excess")]
    need(all(have) or not any(have), "exceeds, request and excess do not agree")


def check_grace(event):
    grace = event.first("grace")
    need((grace is not None) == (event.words[4] == "soft"), "only a soft threshold has a grace period")
    seconds = min(int(grace["pod-period"]), int(grace["greatest"])) if grace else 0
    need(event.words[5] == str(seconds), f"the causes have a grace period of {seconds}")


def check_alone(cause, facts):
    """A threshold that evicts nobody."""
    at = int(cause.values["at"])
    check_moments(cause, at, facts.sync)
    if cause.kind == "nobody":
        check_present(cause.values, 0, at, facts)
    else:
        need(int(cause.values["by"]) < len(facts.pods), "no such pod")
        need(int(cause.values["since"]) < at < int(cause.values["until"]), "the moments are not in order")


def faults_of(trace, causes):
    """What is wrong with the output of `causes` for this trace, each with its line."""
    facts = Facts(trace)
    try:
        events, alone = read(causes)
    except Wrong as why:
        return [str(why)]
    faults, last = [], 0
    for one in sorted([*events, *alone], key=lambda one: one.line):
        try:
            at = one.at if isinstance(one, Event) else int(one.values["at"])
            need(last <= at, f"the moment {at} comes after {last}")
            last = at
            if isinstance(one, Cause):
                check_alone(one, facts)
                continue
            check_order(one)
            if one.is_of_node:
                check_node(one, facts)
            else:
                check_pod(one, facts)
                check_words(one)
        except Wrong as why:
            faults.append(f"line {one.line}: {why}")
    return faults
