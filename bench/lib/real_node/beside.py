"""What a kubelet showed next to what a report has: each start, exit, code, kill and change of Ready, pod by pod."""

import calendar
import json
import re
import time
from dataclasses import dataclass

# what counts as the same moment, in seconds
NEAR = 2
# a kubelet 1.20 kills for a startup probe with the next sync of the pod only, as docs/profile.md has it
NAMED = ("kill", "startup")
KILLING = re.compile(r"I(\d\d)(\d\d) (\d\d):(\d\d):(\d\d).*\"Event occurred\" object=\"([^\"/]+)/([^\"]+)\".*"
                     r"reason=\"Killing\" message=\"Container (\S+) failed (\w+) probe")


@dataclass(frozen=True)
class Fact:
    """Something that happened to a pod at a moment: to its container, or - of the pod itself."""
    pod: str
    container: str
    what: str
    moment: int


def seconds_of(text):
    return calendar.timegm(time.strptime(text, "%Y-%m-%dT%H:%M:%SZ")) if text else None


# --- what the kubelet showed ---


def statuses_of(shown):
    """Each pod's status in turn, of the lines that were kept: (key, status)."""
    for line in shown.splitlines():
        for pod in json.loads(line)["pods"]:
            yield f"{pod['metadata']['namespace']}/{pod['metadata']['name']}", pod["metadata"]["uid"], pod["status"]


def instances_of(status):
    """The instances that a status has: (container, id, start, exit, code)."""
    for container in (status.get("initContainerStatuses") or []) + (status.get("containerStatuses") or []):
        for state in (container.get("lastState") or {}, container.get("state") or {}):
            name, exited, running = container["name"], state.get("terminated"), state.get("running")
            if exited:
                yield (name, exited.get("containerID"), seconds_of(exited.get("startedAt")),
                       seconds_of(exited.get("finishedAt")), exited.get("exitCode"))
            elif running:
                yield name, container.get("containerID"), seconds_of(running["startedAt"]), None, None


def instance_facts(statuses, exits=None):
    """Starts and exits with their codes, each instance of a pod numbered in the order in which it was shown. `exits`
    has the exits that the runtime reported, by the instances' ids, for an instance whose exit no status has."""
    found, numbers = {}, {}
    for key, uid, status in statuses:
        for container, identity, start, exit_at, code in instances_of(status):
            of_container = numbers.setdefault((uid, container), {})
            number = of_container.setdefault(identity, len(of_container))
            place = uid, container, number
            if exit_at is None and identity is not None:
                exit_at, code = (exits or {}).get(identity.split("//")[-1], (None, None))
            if start:
                found[place, "started"] = Fact(key, container, f"started {number}", start)
            if exit_at:
                found[place, "died"] = Fact(key, container, f"died {number} {code}", exit_at)
    return list(found.values())


def ready_facts(statuses):
    """Each change of the condition Ready, but the first value where that is False."""
    last, facts = {}, []
    for key, uid, status in statuses:
        for condition in status.get("conditions") or []:
            value = condition["status"], seconds_of(condition.get("lastTransitionTime"))
            if condition["type"] != "Ready" or last.get((key, uid)) == value:
                continue
            if (key, uid) in last or value[0] == "True":
                facts.append(Fact(key, "-", "ready" if value[0] == "True" else "unready", value[1]))
            last[key, uid] = value
    return facts


def kill_facts(log, year):
    """Each kill that a probe ordered, of the kubelet's log."""
    facts, numbers = [], {}
    for month, day, hour, minute, second, namespace, name, container, probe in KILLING.findall(log):
        key = f"{namespace}/{name}"
        number = numbers[key, container] = numbers.get((key, container), -1) + 1
        moment = calendar.timegm((year, int(month), int(day), int(hour), int(minute), int(second)))
        facts.append(Fact(key, container, f"kill {number} {probe.lower()}", moment))
    return facts


def facts_of(shown, log):
    """All that the kubelet showed in /pods, and the kills of its log."""
    statuses = list(statuses_of(shown))
    begun = json.loads(shown.split("\n", 1)[0])["at"]
    return instance_facts(statuses) + ready_facts(statuses) + kill_facts(log, time.gmtime(begun).tm_year)


def text_of(facts):
    """Facts as lines: moment, pod, container, and what happened."""
    return "".join(f"{fact.moment} {fact.pod} {fact.container} {fact.what}\n"
                   for fact in sorted(facts, key=lambda fact: (fact.moment, fact.pod, fact.container, fact.what)))


def facts_from(text):
    parts = (line.split(" ", 3) for line in text.splitlines())
    return [Fact(pod, container, what, int(moment)) for moment, pod, container, what in parts]


# --- what the report has ---


def report_facts(report):
    """Starts, exits and kills, and when each pod is ready: when all its app containers are, and it has not ended."""
    facts, ready = [], {}
    events = [line.split() for line in report.splitlines() if line.startswith("event ") and " node " not in line[:24]]
    apps = app_containers(report)
    for _, moment, key, container, what, *words in events:
        if what in ("started", "died", "kill"):
            facts.append(Fact(key, container, " ".join([what, *words]), int(moment)))
        state = ready.setdefault(key, {"names": set(), "is": False})
        state["names"] |= {container} if what == "ready" else set()
        state["names"] -= {container} if what == "unready" else set()
        has_ended = what == "phase" and words[0] in ("Succeeded", "Failed")
        now = state["names"] >= apps.get(key, set()) and not has_ended
        if now != state["is"]:
            facts.append(Fact(key, "-", "ready" if now else "unready", int(moment)))
        state["is"] = now
    return facts


def app_containers(report):
    """The containers of each pod that are ever ready in its events, as a stand-in for those that have to be."""
    names, apps = {}, {}
    for words in map(str.split, report.splitlines()):
        if words[0] == "pod":
            names[words[1]] = words[2]
        elif words[0] == "container":
            apps.setdefault(names[words[1]], set()).add(words[2])
    ran_once = {(words[2], words[3]) for words in map(str.split, report.splitlines())
                if words[0] == "event" and len(words) > 4 and words[4] == "ready"}
    return {key: {name for name in all_names if (key, name) in ran_once} or {"-"} for key, all_names in apps.items()}


# --- next to each other ---


def paired(shown, said):
    """Each fact of the kubelet with the nearest one of the report that is the same, or None; then the facts of the
    report that are left over."""
    left, pairs = list(said), []
    for fact in sorted(shown, key=lambda fact: fact.moment):
        same = [each for each in left if (each.pod, each.container, each.what) == (fact.pod, fact.container, fact.what)]
        nearest = min(same, key=lambda each: abs(each.moment - fact.moment), default=None)
        if nearest is not None:
            left.remove(nearest)
        pairs.append((fact, nearest))
    return pairs, left


def at(moment):
    return time.strftime("%H:%M:%S", time.gmtime(moment))


def kind_of(fact):
    words = fact.what.split()
    return "kill startup" if (words[0], words[-1]) == NAMED else words[0]


def show_pod(key, pairs, left, show):
    """A pod's facts in the order of their moments, the kubelet's next to the report's."""
    show(f"\n{key}\n  {'':32} kubelet   report   apart")
    lines = [(fact.moment, f"{fact.container} {fact.what}", at(fact.moment),
              at(found.moment) if found else "-", f"{found.moment - fact.moment:+d} s" if found else "missing")
             for fact, found in pairs if fact.pod == key]
    lines += [(fact.moment, f"{fact.container} {fact.what}", "-", at(fact.moment), "in the report alone")
              for fact in left if fact.pod == key]
    for _, what, shown, said, apart in sorted(lines):
        show(f"  {what:32} {shown:8}  {said:8} {apart}")


def show_kind(kind, pairs, left, show):
    """One line of a kind of facts; whether each of the kubelet's is near one of the report's."""
    of_kind = [(fact, found) for fact, found in pairs if kind_of(fact) == kind]
    apart = [abs(found.moment - fact.moment) for fact, found in of_kind if found]
    near = sum(each <= NEAR for each in apart)
    extra = sum(kind_of(fact) == kind for fact in left)
    show(f"{kind}: {len(of_kind)} of the kubelet's, {near} of them in the report within {NEAR} s, "
         f"at most {max(apart, default=0)} s apart; {extra} in the report alone")
    return near == len(of_kind)


def show_beside(facts, report, show):
    """Shows what the kubelet showed next to what a report has; whether each fact is in it within two seconds."""
    pairs, left = paired(facts, report_facts(report))
    for key in sorted({fact.pod for fact in facts} | {fact.pod for fact in left}):
        show_pod(key, pairs, left, show)
    show("")
    works = [show_kind(kind, pairs, left, show) for kind in ("started", "died", "kill", "ready", "unready")]
    show_kind("kill startup", pairs, left, show)
    return all(works)
