"""What a kubelet with an API server did next to what a report has, counted: starts, exits, kills, changes of Ready,
evictions and pods that went; what it evicted next to what a recording of it shows."""

import calendar
import json
import re
import time
from dataclasses import dataclass

from beside import NEAR, Fact, at, instance_facts, kill_facts, ready_facts, statuses_of
from replay_tools import endings, report as reports, traces

# what is further apart is another thing, in seconds
FAR = 30
# a pod's object may stay for longer than it was there
GONE_FAR = 300
KINDS = {"starts": "started", "exits with their codes": "died", "kills by a liveness probe": "kill", "ready": "ready",
         "unready": "unready", "evictions by the rules": "evicted", "evictions shown as a fact": "told",
         "pods ended as evicted": "ended", "pods that went": "gone"}
END = "ends"
MOMENT = r"^[IWEF](\d\d)(\d\d) (\d\d):(\d\d):(\d\d)\.\d+.*eviction manager: "
EVICTED = re.compile(MOMENT + r"pod ([^_ ]+)_(\S+?)\((\S+)\) is evicted successfully")
RANKED = re.compile(MOMENT + r"pods ranked for eviction: (.*)")
UID = re.compile(r"\(([^()]+)\)")
EXIT = re.compile(r"^\S+ \S+ \S+ \S+ \S+ /tasks/exit (\{.*\})$", re.MULTILINE)


@dataclass
class Row:
    """The counts of a kind, with each fact that is not near one of the other side: as text."""
    name: str
    real: int
    near: int
    later: int
    missing: int
    false: int
    differences: list


# --- what the kubelet did ---


def exits_of(text):
    """The exits that the runtime reported, {id: (moment, code)}; what was run for a probe is none."""
    found = {}
    for line in EXIT.findall(text):
        told = json.loads(line)
        if told["container_id"] == told["id"]:
            moment = calendar.timegm(time.strptime(told["exited_at"][:19], "%Y-%m-%dT%H:%M:%S"))
            found[told["id"]] = moment, told.get("exit_status", 0)
    return found


@dataclass
class Evicted:
    """A pod that the kubelet evicted: by its uid when it decided that, and whether by a ranking of the pods since the
    node was short of something, or for a limit of the pod's own."""
    uid: str
    fact: Fact
    is_ranked: bool


def evictions_of(log, year):
    """Each eviction that the kubelet's log has. After a ranking the kubelet evicts one pod, which it reports once the
    pod's containers have been stopped."""
    ranked, ranked_at = set(), None
    for line in log.splitlines():
        ranking, evicted = RANKED.match(line), EVICTED.match(line)
        if ranking:
            ranked, ranked_at = set(UID.findall(ranking[6])), moment_of(ranking, year)
        elif evicted:
            name, namespace, uid = evicted.groups()[5:]
            moment = ranked_at if uid in ranked else moment_of(evicted, year)
            yield Evicted(uid, Fact(f"{namespace}/{name}", "-", "evicted", moment), uid in ranked)
            ranked = set() if uid in ranked else ranked


def moment_of(line, year):
    return calendar.timegm((year, *map(int, line.groups()[:5])))


def has_run(status):
    """Whether a status shows that a container of the pod has started."""
    return any((container.get(state) or {}).get(kind) for role in ("initContainerStatuses", "containerStatuses")
               for container in status.get(role) or []
               for state in ("state", "lastState") for kind in ("running", "terminated"))


def going_facts(shown, evicted):
    """When each pod that had run was shown no more, or was evicted."""
    last, ran = {}, set()
    lines = [json.loads(line) for line in shown.splitlines()]
    for line in lines:
        for pod in line["pods"]:
            uid = pod["metadata"]["uid"]
            last[uid] = f"{pod['metadata']['namespace']}/{pod['metadata']['name']}", line["at"]
            ran |= {uid} if has_run(pod["status"]) else set()
    end = lines[-1]["at"] if lines else 0
    for uid, (key, moment) in last.items():
        if uid in evicted:
            yield Fact(key, "-", "gone", evicted[uid].moment)
        elif uid in ran and moment < end:
            yield Fact(key, "-", "gone", int(moment))


def unready_by_eviction(statuses, evicted):
    """A pod that was Ready until its eviction is so no more; the status of an evicted pod has no conditions."""
    is_ready = {}
    for _, uid, status in statuses:
        values = [each["status"] for each in status.get("conditions") or [] if each["type"] == "Ready"]
        is_ready[uid] = values[0] == "True" if values else is_ready.get(uid, False)
    return [Fact(fact.pod, "-", "unready", fact.moment) for uid, fact in evicted.items() if is_ready.get(uid)]


def ends_of(statuses, exits, evicted):
    """The exits of evicted pods after their evictions, of which the report of an evicted pod shows nothing."""
    for uid, fact in evicted.items():
        of_pod = instance_facts([each for each in statuses if each[1] == uid], exits)
        yield from (each for each in of_pod if each.what.startswith("died") and each.moment >= fact.moment - 1)


def real_facts(shown, log, exits):
    """All that the kubelet did, of /pods, its log, and the runtime's exits."""
    statuses, exits = list(statuses_of(shown)), exits_of(exits)
    year = time.gmtime(json.loads(shown.split("\n", 1)[0])["at"]).tm_year
    all_evicted = list(evictions_of(log, year))
    evicted = {each.uid: each.fact for each in all_evicted}
    kills = [fact for fact in kill_facts(log, year) if fact.what.endswith("liveness")]
    ends = list(ends_of(statuses, exits, evicted))
    return [*(fact for fact in instance_facts(statuses, exits) if fact not in ends), *ready_facts(statuses),
            *(Fact(fact.pod, fact.container, fact.what.replace("died", END), fact.moment) for fact in ends),
            *unready_by_eviction(statuses, evicted), *map(unnumbered, kills),
            *(each.fact for each in all_evicted if each.is_ranked),
            *(Fact(fact.pod, "-", "told", fact.moment) for fact in evicted.values()), *going_facts(shown, evicted)]


def unnumbered(fact):
    """A kill without its instance's number, which the log does not have."""
    word, _, probe = fact.what.split()
    return Fact(fact.pod, fact.container, f"{word} {probe}", fact.moment)


# --- what report and trace show ---


def said_facts(report, trace):
    """What a report and its trace show of each pod, and whom the trace shows that the kubelet evicted."""
    facts = []
    for pod in report.pods:
        facts += pod_facts(pod)
        gone = trace.pods[pod.number].gone
        if gone is not None:
            # the last tick with it: its line is after that
            facts.append(Fact(pod.key, "-", "gone", trace.ticks[gone - 1].at))
        end = reports.end_of(pod)
        if end is not None and end[1] == "Evicted":
            facts.append(Fact(pod.key, "-", "ended", end[0]))
    facts += [Fact(eviction.pod, "-", "evicted", eviction.at) for eviction in by_rules(report, trace)]
    return facts + [Fact(each.pod, "-", "told", each.at) for each in trace.decisions if each.kind == "evicted"]


def turned_facts(trace_path):
    """How the condition Ready of pods has turned, as a recording has it of their statuses; the first value of each is
    no turn."""
    known = set()
    with open(trace_path, encoding="utf-8") as lines:
        for line in lines:
            record = json.loads(line) if "readyTurns" in line else {}
            for entry in record.get("pods", []):
                for turn in entry.get("readyTurns", []):
                    if entry["pod"] in known or turn["status"] == "True":
                        what = "ready" if turn["status"] == "True" else "unready"
                        yield Fact(entry["pod"], "-", what, turn["at"])
                    known.add(entry["pod"])


def with_turns(said, trace_path):
    """What a report has, and the turns of Ready that it lacks."""
    found = list(said)
    for turn in turned_facts(trace_path):
        if not any((each.pod, each.what) == (turn.pod, turn.what) and abs(each.moment - turn.moment) <= NEAR
                   for each in said):
            found.append(turn)
    return found


def by_rules(report, trace):
    """Whom the rules evict, or name: each pod once, where they do it nearest to its eviction by the kubelet."""
    told = {each.number: each.at for each in trace.decisions if each.kind == "evicted"}
    found = {}
    for each in sorted(endings.by_rules(report), key=lambda each: abs(each.at - told.get(each.number, 0))):
        found.setdefault(each.number, each)
    return found.values()


def pod_facts(pod):
    for event in pod.events:
        if event.word in ("started", "died"):
            yield Fact(pod.key, event.container, " ".join([event.word, *event.rest]), event.at)
        elif event.word == "kill" and event.rest[1] == "liveness":
            yield Fact(pod.key, event.container, "kill liveness", event.at)
    was_ready = False
    for span in reports.ready_spans(pod):
        if (span.value == "True") != was_ready and span.since is not None:
            yield Fact(pod.key, "-", "unready" if was_ready else "ready", span.since)
        was_ready = span.value == "True"


# --- next to each other ---


def matched(real, said):
    """Facts and what is reported of the same, nearest first: {place of the fact: place of what is reported}."""
    found, taken = {}, set()
    pairs = sorted((abs(one.moment - other.moment), here, there) for here, one in enumerate(real)
                   for there, other in enumerate(said)
                   if (one.pod, one.container, one.what) == (other.pod, other.container, other.what))
    for apart, here, there in pairs:
        if here not in found and there not in taken and apart <= (GONE_FAR if real[here].what == "gone" else FAR):
            found[here] = there
            taken.add(there)
    return found


def of_kind(facts, kind):
    return [fact for fact in facts if fact.what.split()[0] == kind]


def row_of(name, kind, real, said, edge=()):
    """A kind's counts. An exit after an eviction, and what happened at an edge of the recording, before its first tick
    or after its last one, may be reported, and need not be."""
    may_be = [Fact(fact.pod, fact.container, fact.what.replace(END, "died"), fact.moment)
              for fact in of_kind(real, END)] + of_kind(edge, kind)
    real, said = of_kind(real, kind), of_kind(said, kind)
    both = matched(real + may_be, said)
    found = {here: there for here, there in both.items() if here < len(real)}
    apart = {here: said[there].moment - real[here].moment for here, there in found.items()}
    near = sum(abs(seconds) <= NEAR for seconds in apart.values())
    left = [fact for there, fact in enumerate(said) if there not in both.values()]
    differences = [words_of(fact, f"in the report {apart[here]:+d} s" if here in apart else "missing")
                   for here, fact in enumerate(real) if abs(apart.get(here, FAR)) > NEAR]
    differences += [words_of(fact, "in the report alone") for fact in left]
    return Row(name, len(real), near, len(found) - near, len(real) - len(found), len(left), sorted(differences))


def words_of(fact, words):
    return f"{at(fact.moment)} {fact.pod} {fact.container} {fact.what}: {words}"


def counts_of_facts(real, said, begun, ended, kinds=None):
    """A row for each kind, over what happened while it was recorded."""
    real = [*real, *(Fact(fact.pod, fact.container, "ended", fact.moment) for fact in real if fact.what == "told")]
    within = [fact for fact in real if begun <= fact.moment <= ended]
    edge = [fact for fact in real if fact not in within]
    return [row_of(name, kind, within, said, edge) for name, kind in (kinds or KINDS).items()]


def false_codes(real, said):
    """Exits that have another code than the one that the kubelet or the runtime reported."""
    others = {(fact.pod, fact.container, fact.what.rsplit(" ", 1)[0], fact.moment): fact.what
              for fact in real if fact.what.startswith("died")}
    for fact in said:
        if not fact.what.startswith("died"):
            continue
        near = [what for (pod, container, head, moment), what in others.items()
                if (pod, container, head) == (fact.pod, fact.container, fact.what.rsplit(" ", 1)[0])
                and abs(moment - fact.moment) <= NEAR]
        if near and fact.what not in near:
            yield words_of(fact, f"it was {near[0]}")


def read_run(trace_path, report_text):
    """A trace and its report, each event with its pod."""
    report, trace = reports.read_report(report_text), traces.read_trace(trace_path)
    traces.check_belongs(trace, report, trace_path)
    return report, trace


def counts_of(real, trace_path, report_text):
    """The rows of a recording next to what the kubelet did, and its false codes."""
    report, trace = read_run(trace_path, report_text)
    said = with_turns(said_facts(report, trace), trace_path)
    return counts_of_facts(real, said, trace.ticks[0].at, trace.ticks[-1].at), list(false_codes(real, said))


def added(rows):
    """Rows of several runs, of each kind one."""
    total = {}
    for row in rows:
        before = total.get(row.name, Row(row.name, 0, 0, 0, 0, 0, []))
        total[row.name] = Row(row.name, before.real + row.real, before.near + row.near, before.later + row.later,
                              before.missing + row.missing, before.false + row.false,
                              before.differences + row.differences)
    return list(total.values())


HEAD = ("", "real", "within 2 s", "later", "missing", "false")


def table_of(rows):
    """The counts as lines of a table."""
    cells = [HEAD, *((row.name, *map(str, (row.real, row.near, row.later, row.missing, row.false))) for row in rows)]
    return [f"{line[0]:26}" + "".join(f"{cell:>12}" for cell in line[1:]) for line in cells]


def side_by_side(rows_by_source):
    """What each source has within two seconds, of how many, and what it has alone, as lines of a table."""
    names = dict.fromkeys(row.name for rows in rows_by_source.values() for row in rows)
    cells = [("", *rows_by_source)]
    for name in names:
        found = [next((row for row in rows if row.name == name), None) for rows in rows_by_source.values()]
        cells.append((name, *("" if row is None else f"{row.near} of {row.real}; {row.false}" for row in found)))
    return [f"{line[0]:28}" + "".join(f"{cell:>20}" for cell in line[1:]).rstrip() for line in cells]
